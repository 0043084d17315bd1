// Goroutines with objects of their own: 16 of them make binary trees, and count their nodes.
package main

import "fmt"

func size() int { return 5 } // 5 9 12

type tree struct {
	left, right *tree
}

func grown(depth int) *tree {
	if depth == 0 {
		return new(tree)
	}
	return &tree{grown(depth - 1), grown(depth - 1)}
}

func nodes(t *tree) int {
	if t == nil {
		return 0
	}
	return 1 + nodes(t.left) + nodes(t.right)
}

func forest(depth int, counts chan int) {
	count := 0
	for i := 0; i < 20; i++ {
		count += nodes(grown(depth))
	}
	counts <- count
}

func main() {
	counts := make(chan int)
	for i := 0; i < 16; i++ {
		go forest(size(), counts)
	}
	sum := 0
	for i := 0; i < 16; i++ {
		sum += <-counts
	}
	fmt.Println(sum)
}
