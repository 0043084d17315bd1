// For each rule a line after the head that breaks it, and the nearest that passes.
package main
import "fmt"
type N struct { v int; p *N }

var x int; var /* Redeclared */ x int; func main() {  }

var x int; var y int; func main() {  }

func main() { /* ReservedName */ len := 1 }

func main() { lens := 1 }

func main() { fmt.Println(/* NoSuchName */ x) }

func main() { x := 1; fmt.Println(x) }

var x int; var y /* NotType */ x; func main() {  }

var x int; var y int; func main() {  }

var x /* StructByValue */ N; func main() {  }

var x *N; func main() {  }

var x /* PointerBase */ *int; func main() {  }

var x *N; func main() {  }

func main() { x := /* NotValue */ N }

func main() { x := new(N) }

func main() { x := /* StringPlace */ "a" }

func main() { fmt.Println("a") }

func main() { x := 1 /* Mismatch */ + true }

func main() { x := 1 + 2 }

func main() { var a, b []int; x := a /* SliceCompare */ == b }

func main() { var a, b []int; x := a == nil }

func main() { x /* BareNil */ := nil }

func main() { var x *N = nil }

func main() { var x int /* NotAssignable */ = true }

func main() { var x bool = true }

func main() { 1 /* NotPlace */ = 2 }

func main() { x := 1; x = 2 }

func main() { p := new(N); x := p./* NoSuchField */ w }

func main() { p := new(N); x := p.v }

func main() { n := 1; x := n/* NotIndexable */ [0] }

func main() { n := make([]int, 1); x := n[0] }

func main() { n := 1; n/* NotCall */ () }

func n() {}; func main() { n() }

func f(a, b int) {}; func main() { f/* ArgCount */ (1) }

func f(a, b int) {}; func main() { f(1, 2) }

func f() {}; func main() { x := f/* NoResult */ () }

func f() int { return 1 }; func main() { x := f() }

func main() { 1 /* NotStatement */ + 2 }

func main() { fmt.Println(1 + 2) }

func f() int { return 1 }; func main() { /* GoTarget */ go f() }

func f() {}; func main() { go f() }

func main() { c := 1; c /* NotChannel */ <- 1 }

func main() { c := make(chan int); c <- 1 }

func main() { /* NotBool */ if 1 {} }

func main() { if true {} }

func main() { s := /* NotInt */ make([]int, true) }

func main() { s := make([]int, 1) }

func main() { x := -9223372036854775807 /* ConstRange */ - 2 }

func main() { x := -9223372036854775807 - 1 }

func main() { x := 1; fmt.Println(x /* ConstZeroDivisor */ / 0) }

func main() { x := 1; fmt.Println(x / 1) }

func main() { s := make([]int, 3); x := s/* ConstIndex */ [-1] }

func main() { s := make([]int, 3); x := s[0] }

func main() { s := /* ConstSize */ make([]int, -1) }

func main() { s := make([]int, 0) }

func main() { x := /* LiteralFields */ &N{1} }

func main() { x := &N{1, nil} }

func main() { p := new(N); fmt.Println/* PrintType */ (p) }

func main() { p := new(N); fmt.Println(p.v) }

func main() { /* ReturnCount */ return 1 }

func main() { return }

func f() int { /* MissingReturn */ }; func main() {  }

func f() int { return 1 }; func main() {  }

func main() { /* LoopOutside */ break }

func main() { for { break } }

func f() {}
/* NoMain */

func f() {}
func main() {}
