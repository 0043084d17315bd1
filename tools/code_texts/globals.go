package main

import "fmt"

type N struct {
	v int
	p *N
}

var head *N
var count int

func push(n *N) {
	n.p = head
	head = n
	count++
}

func main() {
	push(&N{1, nil})
	x := &N{2, nil}
	push(&N{x.v, nil})
	fmt.Println(head.v, count)
}
