package main

import "fmt"

type Node struct {
	value int
	next  *Node
}

func list(n int) *Node {
	var l *Node
	for i := 0; i < n; i++ {
		l = &Node{i, l}
	}
	return l
}

func sum(l *Node, answers chan int) {
	s := 0
	for l != nil {
		s += l.value
		l = l.next
	}
	answers <- s
}

// Two goroutines read one list. `main` gives up its stake when it has
// started both; the last of the two removes the list.
func main() {
	l := list(10)
	answers := make(chan int)
	go sum(l, answers)
	go sum(l, answers)
	fmt.Println(<-answers + <-answers)
}
