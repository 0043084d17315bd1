package main
import "fmt"
type N struct { v int; p *N }
func f(a, b *N) int { s := a.v; return s + b.v }
func main() { x := &N{21, nil}; fmt.Println(f(x, x)) }
