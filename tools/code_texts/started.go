package main
import "fmt"
type N struct { v int; p *N }
func f(a, b *N, d chan int) { s := a.v; d <- s + b.v }
func main() { x := &N{21, nil}; d := make(chan int); go f(x, x, d); fmt.Println(<-d) }
