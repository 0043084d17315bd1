package main

import "fmt"

type Node struct {
	value int
	next  *Node
}

type Queue struct {
	first *Node
	last  *Node
	spare *Node
}

// A node for a value: one that is spare, or a new one.
func node(q *Queue, value int) *Node {
	n := q.spare
	if n == nil {
		return &Node{value, nil}
	}
	q.spare = n.next
	n.value = value
	n.next = nil
	return n
}

func add(q *Queue, value int) {
	n := node(q, value)
	if q.first == nil {
		q.first = n
	} else {
		q.last.next = n
	}
	q.last = n
}

func take(q *Queue) int {
	n := q.first
	q.first = n.next
	n.next = q.spare
	q.spare = n
	return n.value
}

// The queue keeps the nodes that have left it as spare ones, and uses them
// again.
func main() {
	q := &Queue{nil, nil, nil}
	s := 0
	for i := 0; i < 1000; i++ {
		add(q, i)
		s += take(q)
	}
	fmt.Println(s)
}
