// Lines that pass.
package main
import "fmt"
type N struct { v int; p *N }

func f(a int) {}; func main() { (f)(1) }

func main() { (fmt.Println)(1) }

func main() { (fmt).Println(1) }

func main() { x := 1; (x)++; (x) = 2; ((x)) += 3 }

func main() { c := make(chan int); (<-c); <-c }

func main() { fmt.Println(("a"), 1) }

func f() {}; func main() { (f()); go f() }

func f(a int) { { var a int } }; func main() {  }

func main() { if x := 1; x > 0 { x := 2; fmt.Println(x) } }

func main() { for i := 0; i < 2; i++ { i := i; fmt.Println(i) } }

func main() { f() }; func f() { fmt.Println(v) }; var v int

func main() { p := &N{}; q := &N{p: nil, v: 1}; p.p = q; p = nil; fmt.Println(p == q, p != nil) }

type E struct {}; func main() { x := &E{}; y := new(E); fmt.Println(x == y) }

func f() int { for {} }; func g() int { { return 1 };; }; func main() {  }

func f() int { for { for { break } } }; func main() {  }

func f(a bool) int { if a { return 1 } else if !a { return 2 } else { for {} } }; func main() {  }

func main() { x := (-9223372036854775807 - 1) % -1 }

func main() { x := 7; x %= 2; x -= -x; x--; y := x / (1 + 1) }

func main() { var a chan []*N; var b chan []*N = a; c := make(chan []*N, 1 * 2); fmt.Println(a == b, b == c, c != nil) }

func main() { var s []int; s = nil; s = make([]int, len(s)); s[0] += 1; fmt.Println(len(s), s == nil, nil != s) }

func main() { c := make(chan bool); go g(c); if <-c { close(c) } }; func g(c chan bool) { c <- true; return }

func main() { n := 1; { n := n == 1; fmt.Println(n) }; fmt.Println(n) }

var x int; type x2 struct { x, y int }; func f(x int) int { return x }; func main() { x := f(x); fmt.Println(x) }
