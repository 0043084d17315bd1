package main
import "fmt"
type N struct { v int; p *N }
func main() { // what the tokens allow
	fmt.Println("tab\tand \"quotes\"", 0x1F, 1_000_000)
	fmt.Println(true, /* a comment may stand anywhere */ false)
}
