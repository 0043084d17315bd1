// Arithmetic: the points of a grid that stay in the Mandelbrot set for 50 iterations, in fixed-point numbers.
package main

import "fmt"

func size() int { return 10 } // 10 100 300

func one() int { return 1000000 }

func stays(a, b int) bool {
	x := 0
	y := 0
	for i := 0; i < 50; i++ {
		xx := x * x / one()
		yy := y * y / one()
		if xx+yy > 4*one() {
			return false
		}
		y = 2*x*y/one() + b
		x = xx - yy + a
	}
	return true
}

func main() {
	n := size()
	found := 0
	for row := 0; row < n; row++ {
		for column := 0; column < n; column++ {
			if stays(3*one()*column/n-2*one(), 2*one()*row/n-one()) {
				found++
			}
		}
	}
	fmt.Println(found)
}
