package main

import "fmt"

type Box struct {
	value int
}

func next(a *Box) *Box {
	return &Box{a.value + 1}
}

// The result lies in a region that the caller passes. With a variable for
// each, the region of `a` is left to `next`, which removes it once it has
// read `a.value`.
func main() {
	a := &Box{1}
	b := next(a)
	fmt.Println(b.value)
}
