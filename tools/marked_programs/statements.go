// What is assigned, called and returned, and how bodies end.
package main
import "fmt"
type N struct { v int; p *N }

func main() { x := 1; x /* NotAssignable */ = true }

func main() { var x []int; x /* NotAssignable */ = 1 }

func main() { x := 1; x /* NotAssignable */ = nil }

func f(a, b int) {}; func main() { f/* NotAssignable */ (true) }

func f(a, b int) {}; func main() { f/* NotAssignable */ (1, true, 1) }

func f() int { /* NotAssignable */ return true }; func main() {  }

func main() { c := make(chan int); c /* NotAssignable */ <- true }

func main() { x := /* NotAssignable */ &N{true, nil} }

func main() { x := /* NotAssignable */ &N{true} }

func main() { x := /* NotAssignable */ &N{v: true} }

func f(a int) {}; func main() { /* NotAssignable */ go f(true) }

func main() { var c chan int; var d chan bool /* NotAssignable */ = c }

type M struct {}; func main() { var a *N; var b *M /* NotAssignable */ = a }

func main() { main /* NotPlace */ = 1 }

func g() {}; func main() { g() /* NotPlace */ = 1 }

func f(a int) int { return a }; func main() { f(1) /* NotPlace */ = true }

func main() { true /* NotPlace */ = 1 }

func main() { nil /* NotPlace */ = 1 }

func main() { int /* NotPlace */ = 1 }

func main() { fmt /* NotPlace */ = 1 }

func main() { 1/* NotPlace */ ++ }

func main() { 1/* NotPlace */ -- }

func main() { new(N) /* NotPlace */ = nil }

func main() { x := 1; y := x./* NoSuchField */ v }

func main() { x := nil./* NoSuchField */ v }

func main() { p := new(N); p.p./* NoSuchField */ q = 1 }

func main() { s := make([]int, 1); x := s/* NotIndexable */ [true] }

func main() { x := len/* NotIndexable */ (1) }

func main() { x := len/* NotIndexable */ (nil) }

func main() { x := len/* NotIndexable */ (1, 2) }

func main() { p := new(N); p.v/* NotCall */ () }

func main() { p := new(N); p.zz/* NotCall */ () }

func main() { 1/* NotCall */ () }

func main() { x := int/* NotCall */ (1) }

func main() { N/* NotCall */ (1) }

func main() { true/* NotCall */ () }

func main() { fmt.Print/* NotCall */ (1) }

func main() { s := make([]int, 1); s[0]/* NotCall */ (1) }

func f(a int) int { return a }; func main() { f(1)/* NotCall */ (2) }

func main() { x := len/* ArgCount */ () }

func main() { s := make([]int, 1); x := len/* ArgCount */ (s, s) }

func main() { close/* ArgCount */ () }

func main() { close/* ArgCount */ (1, 2) }

func main() { main/* ArgCount */ (1) }

func f(a, b int) {}; func main() { /* ArgCount */ go f(1) }

func main() { x := fmt.Println/* NoResult */ (1) }

func main() { c := make(chan int); x := close/* NoResult */ (c) }

func main() { x := close/* NoResult */ (1) }

func main() { p := new(N); x := fmt.Println/* NoResult */ (p) }

func g() {}; func main() { g/* NoResult */ ()++ }

func g() {}; func main() { fmt.Println(g/* NoResult */ ()) }

func g() {}; func main() { if g/* NoResult */ () {} }

func g() {}; func main() { return g/* NoResult */ () }

func main() { x := 1; /* NotStatement */ x }

func main() { s := make([]int, 1); len/* NotStatement */ (s) }

func main() { /* NotStatement */ new(N) }

func main() { /* NotStatement */ make([]int, 1) }

func main() { p := new(N); p./* NotStatement */ v }

func main() { s := make([]int, 1); s/* NotStatement */ [0] }

func main() { /* NotStatement */ &N{} }

func main() { /* NotStatement */ !true }

func main() { (1 /* NotStatement */ + 2) }

func main() { x := 1; /* GoTarget */ go x() }

func main() { /* GoTarget */ go len(1) }

func main() { c := make(chan int); /* GoTarget */ go close(c) }

func main() { /* GoTarget */ go int(1) }

func main() { x := /* NotChannel */ <-1 }

func main() { /* NotChannel */ <-nil }

func main() { nil /* NotChannel */ <- 1 }

func main() { close/* NotChannel */ (1) }

func main() { /* NotBool */ for 1 {} }

func main() { /* NotBool */ for i := 0; i; i++ {} }

func main() { if true {} else /* NotBool */ if nil {} }

func main() { x := /* LiteralFields */ &N{w: 1} }

func main() { x := /* LiteralFields */ &N{v: 1, v: 2} }

func main() { x := /* LiteralFields */ &N{1, nil, 2} }

type E struct {}; func main() { x := /* LiteralFields */ &E{1} }

func main() { s := make([]int, 1); fmt.Println/* PrintType */ (1, s) }

func main() { fmt.Println/* PrintType */ (make(chan int)) }

func f() int { /* ReturnCount */ return }; func main() {  }

func f() int { for true {} /* MissingReturn */ }; func main() {  }

func f() int { for { break } /* MissingReturn */ }; func main() {  }

func f() int { if true { return 1 } /* MissingReturn */ }; func main() {  }

func f() int { if true { return 1 } else {} /* MissingReturn */ }; func main() {  }

func f() int { for { if true { break } } /* MissingReturn */ }; func main() {  }

func main() { if true { /* LoopOutside */ continue } }

func main() { for { }; /* LoopOutside */ break }
