package main

import "fmt"

type Node struct {
	value int
	next  *Node
}

type Queue struct {
	first *Node
	last  *Node
}

func add(q *Queue, value int) {
	n := &Node{value, nil}
	if q.first == nil {
		q.first = n
	} else {
		q.last.next = n
	}
	q.last = n
}

func take(q *Queue) int {
	n := q.first
	q.first = n.next
	return n.value
}

// A container keeps what has left it: the queue never has more than one
// value, but all its nodes are in its region.
func main() {
	q := &Queue{nil, nil}
	s := 0
	for i := 0; i < 1000; i++ {
		add(q, i)
		s += take(q)
	}
	fmt.Println(s)
}
