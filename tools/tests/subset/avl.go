package main

import "fmt"

type node struct {
	key, height int
	left, right *node
}

type Tree struct {
	root *node
	size int
}

func (n *node) h() int {
	if n == nil {
		return 0
	}
	return n.height
}

func max(a, b int) int {
	if a > b {
		return a
	}
	return b
}

func (n *node) update() { n.height = 1 + max(n.left.h(), n.right.h()) }

func rotateRight(y *node) *node {
	x := y.left
	x.right, y.left = y, x.right
	y.update()
	x.update()
	return x
}

func rotateLeft(x *node) *node {
	y := x.right
	y.left, x.right = x, y.left
	x.update()
	y.update()
	return y
}

func insert(n *node, key int) (*node, bool) {
	if n == nil {
		return &node{key: key, height: 1}, true
	}
	var added bool
	switch {
	case key < n.key:
		n.left, added = insert(n.left, key)
	case key > n.key:
		n.right, added = insert(n.right, key)
	default:
		return n, false
	}
	n.update()
	switch balance := n.left.h() - n.right.h(); {
	case balance > 1:
		if key > n.left.key {
			n.left = rotateLeft(n.left)
		}
		return rotateRight(n), added
	case balance < -1:
		if key < n.right.key {
			n.right = rotateRight(n.right)
		}
		return rotateLeft(n), added
	}
	return n, added
}

func (t *Tree) Insert(key int) bool {
	var added bool
	t.root, added = insert(t.root, key)
	if added {
		t.size++
	}
	return added
}

func (t *Tree) Each(visit func(key int)) {
	var walk func(n *node)
	walk = func(n *node) {
		if n != nil {
			walk(n.left)
			visit(n.key)
			walk(n.right)
		}
	}
	walk(t.root)
}

func main() {
	var t Tree
	for i := 0; i < 1000; i++ {
		t.Insert(i * 7919 % 1009)
	}
	sum, last := 0, -1
	t.Each(func(key int) {
		if key <= last {
			panic("not in order")
		}
		last = key
		sum += key
	})
	fmt.Println(t.size, t.root.h(), sum)
}
