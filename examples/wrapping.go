package main

import "fmt"

// An int has 64 bits and wraps; division truncates towards zero.
func main() {
	most := 9223372036854775807
	least := most + 1
	fmt.Println(least, -least, least-1 == most)
	seven := 7
	two := 2
	fmt.Println(seven/two, -seven/two, seven%-two, -seven%two)
	one := 1
	fmt.Println(least/-one, least%-one)
}
