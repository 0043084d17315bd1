package main

import "fmt"

type Node struct {
	value int
	next  *Node
}

type Report struct {
	total int
	first *Node
}

func list(n int) *Node {
	var l *Node
	for i := 0; i < n; i++ {
		l = &Node{i, l}
	}
	return l
}

func sum(l *Node) int {
	s := 0
	for l != nil {
		s += l.value
		l = l.next
	}
	return s
}

// The report points to one list only, but the assignment puts every `l`
// into the region of the report.
func main() {
	r := &Report{0, nil}
	for i := 0; i < 100; i++ {
		l := list(10)
		r.total += sum(l)
		if i == 0 {
			r.first = l
		}
	}
	fmt.Println(r.total, sum(r.first))
}
