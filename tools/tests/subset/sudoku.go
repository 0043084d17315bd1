package main

import (
	"fmt"
	"strings"
)

type Grid [9][9]uint8

const puzzle = "530070000600195000098000060800060003400803001700020006060000280000419005000080079"

func parse(s string) (g Grid) {
	for i, c := range s {
		g[i/9][i%9] = uint8(c - '0')
	}
	return g
}

func (g *Grid) allowed(r, c int) uint16 {
	var used uint16
	for i := 0; i < 9; i++ {
		used |= 1<<g[r][i] | 1<<g[i][c] | 1<<g[r/3*3+i/3][c/3*3+i%3]
	}
	return ^used & 0x3fe
}

func (g *Grid) solve() bool {
	for r := range g {
		for c, v := range g[r] {
			if v != 0 {
				continue
			}
			for mask, d := g.allowed(r, c), uint8(1); d <= 9; d++ {
				if mask&(1<<d) == 0 {
					continue
				}
				g[r][c] = d
				if g.solve() {
					return true
				}
			}
			g[r][c] = 0
			return false
		}
	}
	return true
}

func (g Grid) String() string {
	var b strings.Builder
	for _, row := range g {
		for _, d := range row {
			b.WriteByte('0' + d)
		}
		b.WriteByte('\n')
	}
	return b.String()
}

func main() {
	g := parse(puzzle)
	if !g.solve() {
		panic("no solution")
	}
	fmt.Print(g)
}
