// Goroutines that share objects: 16 of them multiply two square matrices, each the rows of its own.
package main

import "fmt"

func size() int { return 8 } // 8 70 160

func filled(n, seed int) [][]int {
	m := make([][]int, n)
	for i := 0; i < n; i++ {
		m[i] = make([]int, n)
		for k := 0; k < n; k++ {
			m[i][k] = (i*seed+k)%17 - 8
		}
	}
	return m
}

func multiply(a, b [][]int, from, to int, sums chan int) {
	sum := 0
	for i := from; i < to; i++ {
		for k := 0; k < len(b); k++ {
			cell := 0
			for j := 0; j < len(b); j++ {
				cell += a[i][j] * b[j][k]
			}
			sum += cell * (i + k)
		}
	}
	sums <- sum
}

func main() {
	n := size()
	a := filled(n, 3)
	b := filled(n, 5)
	sums := make(chan int)
	for i := 0; i < 16; i++ {
		go multiply(a, b, n*i/16, n*(i+1)/16, sums)
	}
	sum := 0
	for i := 0; i < 16; i++ {
		sum += <-sums
	}
	fmt.Println(sum)
}
