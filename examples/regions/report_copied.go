package main

import "fmt"

type Node struct {
	value int
	next  *Node
}

type Report struct {
	total int
	first *Node
}

func list(n int) *Node {
	var l *Node
	for i := 0; i < n; i++ {
		l = &Node{i, l}
	}
	return l
}

func sum(l *Node) int {
	s := 0
	for l != nil {
		s += l.value
		l = l.next
	}
	return s
}

func copied(l *Node) *Node {
	if l == nil {
		return nil
	}
	return &Node{l.value, copied(l.next)}
}

// The report has a copy of the one list that it keeps, so each list has a
// region of its own.
func main() {
	r := &Report{0, nil}
	for i := 0; i < 100; i++ {
		l := list(10)
		r.total += sum(l)
		if i == 0 {
			r.first = copied(l)
		}
	}
	fmt.Println(r.total, sum(r.first))
}
