package main

import "fmt"

// A binary search tree.
type Tree struct {
	key         int
	left, right *Tree
}

func insert(t *Tree, key int) *Tree {
	if t == nil {
		return &Tree{key: key}
	}
	if key < t.key {
		t.left = insert(t.left, key)
	} else if key > t.key {
		t.right = insert(t.right, key)
	}
	return t
}

func walk(t *Tree, depth int) int {
	if t == nil {
		return depth
	}
	l := walk(t.left, depth+1)
	fmt.Println(t.key)
	r := walk(t.right, depth+1)
	if l > r {
		return l
	}
	return r
}

func main() {
	var t *Tree
	for i := 1; i < 8; i++ {
		t = insert(t, i*3%8)
	}
	fmt.Println("depth", walk(t, 0))
}
