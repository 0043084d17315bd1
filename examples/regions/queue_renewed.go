package main

import "fmt"

type Node struct {
	value int
	next  *Node
}

type Queue struct {
	first *Node
	last  *Node
}

func add(q *Queue, value int) {
	n := &Node{value, nil}
	if q.first == nil {
		q.first = n
	} else {
		q.last.next = n
	}
	q.last = n
}

func take(q *Queue) int {
	n := q.first
	q.first = n.next
	return n.value
}

// What is left of a queue, in a new one.
func renewed(old *Queue) *Queue {
	q := &Queue{nil, nil}
	for n := old.first; n != nil; n = n.next {
		add(q, n.value)
	}
	return q
}

// The way out: now and then what is left moves to a new container, and the
// old region is removed.
func work(q *Queue, from, to int) int {
	s := 0
	for i := from; i < to; i++ {
		add(q, i)
		s += take(q)
	}
	return s
}

func rest(q *Queue, from int) int {
	if from == 1000 {
		return 0
	}
	s := work(q, from, from+100)
	return s + rest(renewed(q), from+100)
}

func main() {
	fmt.Println(rest(&Queue{nil, nil}, 0))
}
