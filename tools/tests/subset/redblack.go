package main

import "fmt"

type color bool

const (
	red   color = true
	black color = false
)

type Node struct {
	key         int
	color       color
	left, right *Node
}

func (n *Node) isRed() bool { return n != nil && n.color == red }

func (n *Node) rotateLeft() *Node {
	x := n.right
	n.right, x.left = x.left, n
	x.color, n.color = n.color, red
	return x
}

func (n *Node) rotateRight() *Node {
	x := n.left
	n.left, x.right = x.right, n
	x.color, n.color = n.color, red
	return x
}

func (n *Node) flip() {
	n.color, n.left.color, n.right.color = red, black, black
}

func insert(n *Node, key int) *Node {
	if n == nil {
		return &Node{key: key, color: red}
	}
	switch {
	case key < n.key:
		n.left = insert(n.left, key)
	case key > n.key:
		n.right = insert(n.right, key)
	}
	if n.right.isRed() && !n.left.isRed() {
		n = n.rotateLeft()
	}
	if n.left.isRed() && n.left.left.isRed() {
		n = n.rotateRight()
	}
	if n.left.isRed() && n.right.isRed() {
		n.flip()
	}
	return n
}

func depth(n *Node) (least, most int) {
	if n == nil {
		return 0, 0
	}
	l1, m1 := depth(n.left)
	l2, m2 := depth(n.right)
	if l2 < l1 {
		l1 = l2
	}
	if m2 > m1 {
		m1 = m2
	}
	return l1 + 1, m1 + 1
}

func main() {
	var root *Node
	for i := 0; i < 500; i++ {
		root = insert(root, i*31%509)
		root.color = black
	}
	least, most := depth(root)
	fmt.Println(least, most, root.key)
}
