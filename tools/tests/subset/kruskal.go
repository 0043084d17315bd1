package main

import (
	"fmt"
	"sort"
)

type Edge struct{ u, v, w int }

type DSU struct{ parent, rank []int }

func NewDSU(n int) DSU {
	d := DSU{make([]int, n), make([]int, n)}
	for i := range d.parent {
		d.parent[i] = i
	}
	return d
}

func (d DSU) Find(x int) int {
	for d.parent[x] != x {
		d.parent[x] = d.parent[d.parent[x]]
		x = d.parent[x]
	}
	return x
}

func (d DSU) Union(a, b int) bool {
	a, b = d.Find(a), d.Find(b)
	if a == b {
		return false
	}
	if d.rank[a] < d.rank[b] {
		a, b = b, a
	}
	d.parent[b] = a
	if d.rank[a] == d.rank[b] {
		d.rank[a]++
	}
	return true
}

func main() {
	const n = 60
	var edges []Edge
	seed := uint32(1)
	for i := 0; i < n; i++ {
		for j := i + 1; j < n; j += 3 {
			seed = seed*1664525 + 1013904223
			edges = append(edges, Edge{i, j, int(seed >> 20)})
		}
	}
	sort.Slice(edges, func(i, j int) bool { return edges[i].w < edges[j].w })
	d, total, used := NewDSU(n), 0, 0
	for _, e := range edges {
		if d.Union(e.u, e.v) {
			total += e.w
			used++
		}
	}
	fmt.Println(len(edges), used, total)
}
