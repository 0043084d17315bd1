package main

import "fmt"

type Point struct {
	x int
	y int
}

func point(i int) *Point {
	return &Point{i * 37 % 101, i * 53 % 103}
}

// The numbers are copied and the pointer is not, so each point has a region
// of its own.
func main() {
	best := &Point{0, 0}
	for i := 0; i < 1000; i++ {
		p := point(i)
		if p.x+p.y > best.x+best.y {
			best.x = p.x
			best.y = p.y
		}
	}
	fmt.Println(best.x, best.y)
}
