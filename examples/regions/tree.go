package main

import "fmt"

type Tree struct {
	left  *Tree
	right *Tree
}

func grow(depth int) *Tree {
	if depth == 0 {
		return nil
	}
	return &Tree{grow(depth - 1), grow(depth - 1)}
}

func count(t *Tree) int {
	if t == nil {
		return 0
	}
	return 1 + count(t.left) + count(t.right)
}

// All nodes of a tree share its region: 1,023 nodes of two words in eight
// pages of 256 words.
func main() {
	fmt.Println(count(grow(10)))
}
