package main

import "fmt"

const (
	width  = 40
	height = 20
)

type Board [height][width]bool

func (b *Board) alive(y, x int) bool {
	return b[(y+height)%height][(x+width)%width]
}

func (b *Board) next() Board {
	var out Board
	for y := range b {
		for x := range b[y] {
			n := 0
			for dy := -1; dy <= 1; dy++ {
				for dx := -1; dx <= 1; dx++ {
					if (dy != 0 || dx != 0) && b.alive(y+dy, x+dx) {
						n++
					}
				}
			}
			out[y][x] = n == 3 || n == 2 && b[y][x]
		}
	}
	return out
}

func main() {
	var b Board
	for _, p := range [][2]int{{0, 1}, {1, 2}, {2, 0}, {2, 1}, {2, 2}} {
		b[p[0]][p[1]] = true
	}
	for i := 0; i < 60; i++ {
		b = b.next()
	}
	count := 0
	for _, row := range b {
		for _, cell := range row {
			if cell {
				count++
			}
		}
	}
	fmt.Println(count)
}
