package main
import "fmt"
type N struct { v int; p *N }
func main() {
	x := new(N)
	fmt.Println(x.v)
}
