package main

import "fmt"

type Node struct {
	value int
	next  *Node
}

var last *Node

// What a package variable can reach is in the global region, which is never
// removed: every node stays.
func main() {
	for i := 0; i < 1000; i++ {
		last = &Node{i, nil}
	}
	fmt.Println(last.value)
}
