package main

import "fmt"

func zeros(rows, columns int) [][]int {
	m := make([][]int, rows)
	for i := 0; i < rows; i++ {
		m[i] = make([]int, columns)
	}
	return m
}

func product(a, b [][]int) [][]int {
	m := zeros(len(a), len(b[0]))
	for i := 0; i < len(a); i++ {
		for k := 0; k < len(b[0]); k++ {
			for j := 0; j < len(b); j++ {
				m[i][k] += a[i][j] * b[j][k]
			}
		}
	}
	return m
}

// A power of the matrix of Fibonacci's numbers.
func main() {
	f := zeros(2, 2)
	f[0][0] = 1
	f[0][1] = 1
	f[1][0] = 1
	p := f
	for i := 1; i < 10; i++ {
		p = product(p, f)
	}
	fmt.Println(p[0][0], p[0][1])
	fmt.Println(p[1][0], p[1][1])
}
