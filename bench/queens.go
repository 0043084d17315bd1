// Calls and slices: the ways to place queens on a board so that none attacks another.
package main

import "fmt"

func size() int { return 5 } // 5 8 10

type board struct {
	columns, rising, falling []bool
}

func place(b *board, n, row int) int {
	if row == n {
		return 1
	}
	found := 0
	for column := 0; column < n; column++ {
		up := row + column
		down := row - column + n - 1
		if !b.columns[column] && !b.rising[up] && !b.falling[down] {
			b.columns[column] = true
			b.rising[up] = true
			b.falling[down] = true
			found += place(b, n, row+1)
			b.columns[column] = false
			b.rising[up] = false
			b.falling[down] = false
		}
	}
	return found
}

func main() {
	n := size()
	b := &board{make([]bool, n), make([]bool, 2*n), make([]bool, 2*n)}
	fmt.Println(place(b, n, 0))
}
