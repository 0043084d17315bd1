// Values, operators and constants.
package main
import "fmt"
type N struct { v int; p *N }

func main() { x := /* NotValue */ int }

func main() { fmt.Println(/* NotValue */ main) }

func main() { x := /* NotValue */ len }

func main() { x := /* NotValue */ fmt }

func main() { x := /* NotValue */ fmt.Println }

func main() { x := /* NotValue */ fmt.Foo }

func main() { /* NotValue */ main++ }

func main() { /* NotValue */ main += 1 }

func main() { /* NotValue */ N -= 1 }

func main() { x := 1 /* Mismatch */ < true }

func main() { x := true /* Mismatch */ && 1 }

func main() { x := 1 /* Mismatch */ || true }

func main() { x := 1 /* Mismatch */ == true }

func main() { x := /* Mismatch */ !1 }

func main() { x := /* Mismatch */ -true }

func main() { x := /* Mismatch */ +nil }

func main() { x := true /* Mismatch */ % true }

type M struct {}; func main() { var a *N; var b *M; x := a /* Mismatch */ == b }

func main() { var c chan int; var d chan bool; x := c /* Mismatch */ != d }

func main() { var s []int; x := s /* Mismatch */ == 1 }

func main() { x := 1 /* Mismatch */ == nil }

func main() { x := 1; x /* Mismatch */ += true }

func main() { true/* Mismatch */ ++ }

func main() { x := nil /* Mismatch */ < nil }

func main() { x := nil /* Mismatch */ + 1 }

func main() { true /* Mismatch */ /= 0 }

func main() { 1 /* NotPlace */ /= 0 }

func main() { x := 1; x /* ConstZeroDivisor */ /= 0 }

func main() { x := 1; x /* ConstZeroDivisor */ %= (1 - 1) }

func main() { x := 1 /* ConstZeroDivisor */ % 0 }

func main() { var a []int; var b []bool; x := a /* SliceCompare */ != b }

func main() { x := nil /* BareNil */ == nil }

func main() { fmt.Println/* BareNil */ (nil) }

func main() { fmt.Println/* BareNil */ (1, nil) }

func main() { x := fmt.Println/* BareNil */ (nil) }

func main() { x := 9223372036854775807 /* ConstRange */ + 1 }

func main() { x := 9223372036854775807 /* ConstRange */ + 1 - 1 }

func main() { x := 2 /* ConstRange */ * 4611686018427387904 }

func main() { x := /* ConstRange */ -(-9223372036854775807 - 1) }

func main() { x := (-9223372036854775807 - 1) /* ConstRange */ / -1 }

func main() { x := 1; x += 9223372036854775807 /* ConstRange */ + 1 }

func main() { s := make([]int, 3); s/* ConstIndex */ [0 - 1] = 1 }

func main() { c := /* ConstSize */ make(chan int, -1) }

func main() { c := /* NotInt */ make(chan int, nil) }
