package main
import "fmt"
type N struct { v int; p *N }
func list(n int) *N { var l *N; for i := 0; i < n; i++ { l = &N{i, l} }; return l }
func sum(l *N) int { s := 0; for l != nil { s += l.v; l = l.p }; return s }
func main() { s := 0; for i := 0; i < 1000; i++ { s += sum(list(10)) }; fmt.Println(s) }
