package main

import "fmt"

type Point struct {
	x int
	y int
}

func point(i int) *Point {
	return &Point{i * 37 % 101, i * 53 % 103}
}

// Any of the points may become the best one, so all of them are in its
// region.
func main() {
	best := &Point{0, 0}
	for i := 0; i < 1000; i++ {
		p := point(i)
		if p.x+p.y > best.x+best.y {
			best = p
		}
	}
	fmt.Println(best.x, best.y)
}
