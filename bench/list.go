// Objects: a linked list is made, reversed several times and summed.
package main

import "fmt"

func size() int { return 100 } // 100 20000 200000

type node struct {
	value int
	next  *node
}

func reversed(list *node) *node {
	var last *node
	for list != nil {
		next := list.next
		list.next = last
		last = list
		list = next
	}
	return last
}

func main() {
	var list *node
	for i := 1; i <= size(); i++ {
		list = &node{i, list}
	}
	for i := 0; i < 9; i++ {
		list = reversed(list)
	}
	sum := 0
	for n := list; n != nil; n = n.next {
		sum = (sum*31 + n.value) % 1000003
	}
	fmt.Println(sum)
}
