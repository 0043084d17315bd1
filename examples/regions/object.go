package main

import "fmt"

type Point struct {
	x int
	y int
}

// One object: its region is removed after its last field was read, and
// before the print.
func main() {
	p := &Point{3, 4}
	fmt.Println(p.x*p.x + p.y*p.y)
}
