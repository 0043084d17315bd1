package main

import "fmt"

type Point struct{ x, y int }

func (p Point) Add(q Point) Point { return Point{p.x + q.x, p.y + q.y} }

var directions = [4]Point{{1, 0}, {0, 1}, {-1, 0}, {0, -1}}

var maze = []string{
	"#########",
	"#S  #   #",
	"# # # # #",
	"# #   #E#",
	"#########",
}

func find(c byte) (p Point, ok bool) {
	for y, line := range maze {
		for x := 0; x < len(line); x++ {
			if line[x] == c {
				return Point{x, y}, true
			}
		}
	}
	return
}

func solve(start, end Point) int {
	dist := map[Point]int{start: 0}
	queue := []Point{start}
	for len(queue) > 0 {
		p := queue[0]
		queue = queue[1:]
		if p == end {
			return dist[p]
		}
		for _, d := range directions {
			q := p.Add(d)
			if maze[q.y][q.x] == '#' {
				continue
			}
			if _, seen := dist[q]; !seen {
				dist[q] = dist[p] + 1
				queue = append(queue, q)
			}
		}
	}
	return -1
}

func main() {
	start, _ := find('S')
	if end, ok := find('E'); ok {
		fmt.Println("steps:", solve(start, end))
	}
}
