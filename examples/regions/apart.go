package main

import "fmt"

type Node struct {
	value int
	next  *Node
}

func push(l *Node, value int) *Node {
	return &Node{value, l}
}

// Two lists that never meet are in two regions: that of `a` is removed
// before the list `b` is made, so one page serves both.
func main() {
	a := push(push(nil, 1), 2)
	fmt.Println(a.value, a.next.value)
	b := push(push(nil, 3), 4)
	fmt.Println(b.value, b.next.value)
}
