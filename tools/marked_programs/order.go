// Lines that break several rules, with the first, and strings.
package main
import "fmt"
type N struct { v int; p *N }

func main() { zz() }; var x /* NoSuchName */ Q

func f() { /* NoSuchName */ zz() }; func main() {  }

func f() { zz() }
/* NoMain */

func main(x int) {}
/* NoMain */

func main() int { return 1 }
/* NoMain */

var main int
/* NoMain */

func main() { if 1 { /* NoSuchName */ zz() } }

func main() { for 1 { /* NoSuchName */ zz() } }

func main() { if 1 {} else { /* NoSuchName */ zz() } }

func main() { for i := 0; i < 1; /* NoSuchName */ zz() { yy() } }

func main() { var x /* BareNil */ = nil }

func main() { var x, /* Redeclared */ x Q }

type S struct { a, /* Redeclared */ a Q }; func main() {  }

func f(a, /* Redeclared */ a Q) {}; func main() {  }

func main() { var len /* NoSuchName */ Q = zz }

func main() { var len int = /* NoSuchName */ zz }

func main() { var /* ReservedName */ len int = true }

func main() { len := /* NoSuchName */ zz }

func main() { /* ReservedName */ len := nil }

func /* ReservedName */ len(x Q) {}; func main() {  }

type /* ReservedName */ len struct { x Q }; func main() {  }

func f() int { /* NoSuchName */ zz() }; func main() {  }

func main() { 1 /* ConstZeroDivisor */ / 0 }

func main() { p := new(N); p.f(/* NoSuchName */ zz) }

func main() { /* NoSuchName */ zz.f(yy) }

func main() { /* StringPlace */ "a" }

func main() { fmt.Print(/* StringPlace */ "a") }

func main() { fmt.Println(/* StringPlace */ "a" == "b") }

func f(a int) {}; func main() { f(/* StringPlace */ "a") }

func main() { return /* StringPlace */ "a" }

package main
import "fmt"
type N struct { v /* StructByValue */ int; p *N }
type int struct {}; func main() {  }
