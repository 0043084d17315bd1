// Declarations, and the names of types.
package main
import "fmt"
type N struct { v int; p *N }

type /* Redeclared */ N struct {}; func main() {  }

type S struct { a int; /* Redeclared */ a bool }; func main() {  }

func f(a, /* Redeclared */ a int) {}; func main() {  }

func f(a int) { var /* Redeclared */ a int }; func main() {  }

var x int; func /* Redeclared */ x() {}; func main() {  }

func main() { x := 1; /* Redeclared */ x := 2 }

func main() {  }; func /* Redeclared */ main() {}

type S struct { /* ReservedName */ len int }; func main() {  }

func f(/* ReservedName */ nil int) {}; func main() {  }

func /* ReservedName */ init() {}; func main() {  }

var /* ReservedName */ _ int; func main() {  }

func main() { var /* ReservedName */ fmt int }

func main() { var /* ReservedName */ append, cap int }

func main() { /* ReservedName */ sync := 1 }

func /* ReservedName */ close() {}; func main() {  }

func main() { x := /* NoSuchName */ x }

func main() { { x := 1 }; /* NoSuchName */ x++ }

func main() { if x := 1; true {}; fmt.Println(/* NoSuchName */ x) }

func main() { for i := 0; i < 1; i++ {}; fmt.Println(/* NoSuchName */ i) }

var x /* NoSuchName */ Q; func main() {  }

var x []chan */* NoSuchName */ Q; func main() {  }

func main() { /* NoSuchName */ f() }

func main() { go /* NoSuchName */ f() }

func main() { ff(/* NoSuchName */ zz) }

func main() { go ff(/* NoSuchName */ zz) }

func main() { /* NoSuchName */ cap(1) }

func main() { x := new(/* NoSuchName */ Q) }

func main() { x := &/* NoSuchName */ Q{zz} }

func f() {}; var y /* NotType */ f; func main() {  }

var y /* NotType */ len; func main() {  }

var y */* NotType */ nil; func main() {  }

var v int; var x */* NotType */ v; func main() {  }

func main() { x := new(/* NotType */ main) }

func main() { x := &/* NotType */ main{zz} }

var a /* NotType */ x; var x int; type x struct {}; func main() {  }

func f() /* NotType */ main { return 1 }; func main() {  }

func main() { x := make([]/* StructByValue */ N, 1) }

func f(a /* StructByValue */ N) {}; func main() {  }

func f() /* StructByValue */ N { return nil }; func main() {  }

type S struct { n /* StructByValue */ N }; func main() {  }

func main() { x := /* PointerBase */ new(bool) }

func main() { x := /* PointerBase */ &int{} }

func main() { var x []/* PointerBase */ *bool }

func main() { x := &int{/* NoSuchName */ zz} }
