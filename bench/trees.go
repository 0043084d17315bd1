// Objects: makes binary trees and counts their nodes, many small trees and one that is kept.
package main

import "fmt"

func size() int { return 6 } // 6 12 16

type tree struct {
	left, right *tree
}

func grown(depth int) *tree {
	if depth == 0 {
		return new(tree)
	}
	return &tree{grown(depth - 1), grown(depth - 1)}
}

func nodes(t *tree) int {
	if t == nil {
		return 0
	}
	return 1 + nodes(t.left) + nodes(t.right)
}

func main() {
	kept := grown(size())
	count := 0
	for depth := 0; depth < size(); depth++ {
		for i := 0; i < 20; i++ {
			count += nodes(grown(depth))
		}
	}
	fmt.Println(count, nodes(kept))
}
