package main

import "fmt"

var infinity int

// Edge is an element of the list of edges that leave a node.
type Edge struct {
	to, weight int
	next       *Edge
}

// Graph has the first and the last edge that leaves each of its nodes.
type Graph struct {
	first, last []*Edge
}

func newGraph(n int) *Graph {
	return &Graph{make([]*Edge, n), make([]*Edge, n)}
}

func addEdge(g *Graph, from, to, weight int) {
	e := &Edge{to, weight, nil}
	if g.first[from] == nil {
		g.first[from] = e
	} else {
		g.last[from].next = e
	}
	g.last[from] = e
}

func connect(g *Graph, a, b, weight int) {
	addEdge(g, a, b, weight)
	addEdge(g, b, a, weight)
}

// Queue is a heap of nodes by their distances.
type Queue struct {
	nodes, distances []int
	count            int
}

func swap(q *Queue, i, j int) {
	node := q.nodes[i]
	q.nodes[i] = q.nodes[j]
	q.nodes[j] = node
	distance := q.distances[i]
	q.distances[i] = q.distances[j]
	q.distances[j] = distance
}

func push(q *Queue, node, distance int) {
	i := q.count
	q.nodes[i] = node
	q.distances[i] = distance
	q.count++
	for i > 0 && q.distances[i] < q.distances[(i-1)/2] {
		swap(q, i, (i-1)/2)
		i = (i - 1) / 2
	}
}

// drop removes the first element.
func drop(q *Queue) {
	q.count--
	swap(q, 0, q.count)
	i := 0
	for 2*i+1 < q.count {
		child := 2*i + 1
		if child+1 < q.count && q.distances[child+1] < q.distances[child] {
			child++
		}
		if q.distances[i] <= q.distances[child] {
			return
		}
		swap(q, i, child)
		i = child
	}
}

// Paths has the distances from a node, and from where each node is reached.
type Paths struct {
	dist, prev []int
}

func shortest(g *Graph, from int) *Paths {
	n := len(g.first)
	p := &Paths{make([]int, n), make([]int, n)}
	for i := 0; i < n; i++ {
		p.dist[i] = infinity
		p.prev[i] = -1
	}
	p.dist[from] = 0
	q := &Queue{make([]int, 200), make([]int, 200), 0}
	push(q, from, 0)
	for q.count > 0 {
		node := q.nodes[0]
		distance := q.distances[0]
		drop(q)
		if distance == p.dist[node] {
			relax(g, p, q, node)
		}
	}
	return p
}

func relax(g *Graph, p *Paths, q *Queue, node int) {
	for e := g.first[node]; e != nil; e = e.next {
		d := p.dist[node] + e.weight
		if d < p.dist[e.to] {
			p.dist[e.to] = d
			p.prev[e.to] = node
			push(q, e.to, d)
		}
	}
}

func printPath(prev []int, to int) {
	if prev[to] != -1 {
		printPath(prev, prev[to])
	}
	fmt.Println("by", to)
}

func visit(g *Graph, seen []bool, n int) {
	seen[n] = true
	for e := g.first[n]; e != nil; e = e.next {
		if !seen[e.to] {
			visit(g, seen, e.to)
		}
	}
}

// components counts the parts of the graph that hang together, by depth-first search.
func components(g *Graph) int {
	seen := make([]bool, len(g.first))
	count := 0
	for n := 0; n < len(g.first); n++ {
		if !seen[n] {
			count++
			visit(g, seen, n)
		}
	}
	return count
}

type Random struct {
	seed int
}

func next(r *Random, limit int) int {
	r.seed = (r.seed*1664525 + 1013904223) % 4294967296
	return r.seed / 65536 % limit
}

func main() {
	infinity = 9223372036854775807
	n := 40
	g := newGraph(n)
	r := &Random{7}
	for i := 0; i < 60; i++ {
		a := next(r, n-4)
		b := next(r, n-4)
		if a != b {
			connect(g, a, b, 1+next(r, 20))
		}
	}
	p := shortest(g, 0)
	reached := 0
	farthest := 0
	for i := 0; i < n; i++ {
		if p.dist[i] != infinity {
			reached++
			if p.dist[i] > p.dist[farthest] {
				farthest = i
			}
		}
	}
	fmt.Println("reached", reached, "of", n)
	fmt.Println("components", components(g))
	fmt.Println("farthest", farthest, "at", p.dist[farthest])
	printPath(p.prev, farthest)
}
