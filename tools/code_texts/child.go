package main
import "fmt"
type N struct { v int; p *N }
func list(n int) *N { var l *N; for i := 0; i < n; i++ { l = &N{i, l} }; return l }
func sum(l *N) int { s := 0; for l != nil { s += l.v; l = l.p }; return s }
func child(l *N, d chan int) { fmt.Println(sum(l)); d <- 1 }
func main() { d := make(chan int); l := list(4); go child(l, d); <-d }
