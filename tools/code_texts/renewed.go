package main
import "fmt"
type N struct { v int; p *N }
func f(a *N) *N { return &N{a.v + 1, nil} }
func main() { x := &N{1, nil}; x = f(x); fmt.Println(x.v) }
