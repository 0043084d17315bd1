package main

import (
	"container/heap"
	"fmt"
	"math"
)

const infinity = math.MaxInt64

type Edge struct {
	to, weight int
}

// Graph has the edges that leave each of its nodes.
type Graph struct {
	edges [][]Edge
}

func NewGraph(n int) *Graph {
	return &Graph{edges: make([][]Edge, n)}
}

func (g *Graph) Connect(a, b, weight int) {
	g.edges[a] = append(g.edges[a], Edge{b, weight})
	g.edges[b] = append(g.edges[b], Edge{a, weight})
}

type item struct {
	node, distance int
}

type queue []item

func (q queue) Len() int           { return len(q) }
func (q queue) Less(i, j int) bool { return q[i].distance < q[j].distance }
func (q queue) Swap(i, j int)      { q[i], q[j] = q[j], q[i] }
func (q *queue) Push(x any)        { *q = append(*q, x.(item)) }
func (q *queue) Pop() any {
	old := *q
	x := old[len(old)-1]
	*q = old[:len(old)-1]
	return x
}

// Shortest returns the distances from a node, and from where each node is reached.
func (g *Graph) Shortest(from int) (dist, prev []int) {
	n := len(g.edges)
	dist, prev = make([]int, n), make([]int, n)
	for i := range dist {
		dist[i], prev[i] = infinity, -1
	}
	dist[from] = 0
	q := &queue{{from, 0}}
	for q.Len() > 0 {
		it := heap.Pop(q).(item)
		if it.distance > dist[it.node] {
			continue
		}
		for _, e := range g.edges[it.node] {
			if d := it.distance + e.weight; d < dist[e.to] {
				dist[e.to], prev[e.to] = d, it.node
				heap.Push(q, item{e.to, d})
			}
		}
	}
	return dist, prev
}

func path(prev []int, to int) []int {
	var out []int
	for at := to; at != -1; at = prev[at] {
		out = append(out, at)
	}
	for i, j := 0, len(out)-1; i < j; i, j = i+1, j-1 {
		out[i], out[j] = out[j], out[i]
	}
	return out
}

// Components counts the parts of the graph that hang together, by depth-first search.
func (g *Graph) Components() int {
	seen := make(map[int]bool)
	var visit func(n int)
	visit = func(n int) {
		seen[n] = true
		for _, e := range g.edges[n] {
			if !seen[e.to] {
				visit(e.to)
			}
		}
	}
	count := 0
	for n := range g.edges {
		if !seen[n] {
			count++
			visit(n)
		}
	}
	return count
}

func main() {
	const n = 40
	g := NewGraph(n)
	seed := uint32(7)
	next := func(limit int) int {
		seed = seed*1664525 + 1013904223
		return int(seed>>16) % limit
	}
	for i := 0; i < 60; i++ {
		a, b := next(n-4), next(n-4)
		if a != b {
			g.Connect(a, b, 1+next(20))
		}
	}
	dist, prev := g.Shortest(0)
	reached, farthest := 0, 0
	for i, d := range dist {
		if d == infinity {
			continue
		}
		reached++
		if d > dist[farthest] {
			farthest = i
		}
	}
	fmt.Println("reached", reached, "of", n)
	fmt.Println("components", g.Components())
	fmt.Println("farthest", farthest, "at", dist[farthest])
	for _, node := range path(prev, farthest) {
		fmt.Println("by", node)
	}
}
