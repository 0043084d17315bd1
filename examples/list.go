package main

import "fmt"

// A list is a pointer to its newest node, and nil where it is empty.
type Node struct {
	value int
	next  *Node
}

func list(n int) *Node {
	var all *Node
	for i := 1; i <= n; i++ {
		all = &Node{i, all}
	}
	return all
}

func reversed(all *Node) *Node {
	var back *Node
	for all != nil {
		next := all.next
		all.next = back
		back = all
		all = next
	}
	return back
}

func main() {
	for all := reversed(list(5)); all != nil; all = all.next {
		fmt.Println(all.value)
	}
}
