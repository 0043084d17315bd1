// Slices of slices: the product of two square matrices.
package main

import "fmt"

func size() int { return 8 } // 8 70 160

func filled(n, seed int) [][]int {
	m := make([][]int, n)
	for i := 0; i < n; i++ {
		m[i] = make([]int, n)
		for k := 0; k < n; k++ {
			m[i][k] = (i*seed+k)%17 - 8
		}
	}
	return m
}

func main() {
	n := size()
	a := filled(n, 3)
	b := filled(n, 5)
	sum := 0
	for i := 0; i < n; i++ {
		for k := 0; k < n; k++ {
			cell := 0
			for j := 0; j < n; j++ {
				cell += a[i][j] * b[j][k]
			}
			sum = (sum*31 + cell) % 1000003
		}
	}
	fmt.Println(sum)
}
