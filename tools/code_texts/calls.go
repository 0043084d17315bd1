package main

import "fmt"

type N struct {
	v int
	p *N
}

func sum(a, b *N) int {
	s := a.v
	return s + b.v
}

func next(a *N) *N {
	return &N{a.v + 1, nil}
}

func twice(a *N) *N {
	fmt.Println(sum(a, a))
	return a
}

func main() {
	x := &N{21, nil}
	y := next(twice(x))
	x = next(y)
	fmt.Println(sum(x, y), y.v)
}
