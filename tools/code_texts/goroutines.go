package main

import "fmt"

type N struct {
	v int
	p *N
}

func add(a, b *N, d chan int) {
	s := a.v
	d <- s + b.v
	close(d)
}

func main() {
	x := &N{21, nil}
	d := make(chan int)
	go add(x, x, d)
	fmt.Println(<-d, <-d)
}
