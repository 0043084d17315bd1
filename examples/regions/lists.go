package main

import "fmt"

type Node struct {
	value int
	next  *Node
}

func list(n int) *Node {
	var l *Node
	for i := 0; i < n; i++ {
		l = &Node{i, l}
	}
	return l
}

func sum(l *Node) int {
	s := 0
	for l != nil {
		s += l.value
		l = l.next
	}
	return s
}

// A thousand lists, each in a region of its own, which is removed when
// `sum` has read the last node.
func main() {
	total := 0
	for i := 0; i < 1000; i++ {
		total += sum(list(10))
	}
	fmt.Println(total)
}
