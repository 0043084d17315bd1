package main

import "fmt"

// A matrix of 100 by 100 numbers, in one slice that is spread over several pages.
type Matrix struct {
	cells []int
	width int
}

func matrix(width int) *Matrix {
	return &Matrix{make([]int, width*width), width}
}

func transposed(a *Matrix) *Matrix {
	b := matrix(a.width)
	for i := 0; i < a.width; i++ {
		for j := 0; j < a.width; j++ {
			b.cells[j*a.width+i] = a.cells[i*a.width+j]
		}
	}
	return b
}

func row(a *Matrix, i int) int {
	sum := 0
	for j := 0; j < a.width; j++ {
		sum += a.cells[i*a.width+j]
	}
	return sum
}

func main() {
	a := matrix(100)
	for i := 0; i < 100*100; i++ {
		a.cells[i] = i
	}
	b := transposed(a)
	fmt.Println(row(a, 0), row(a, 99), row(b, 0), row(b, 99), b.cells[9801])
}
