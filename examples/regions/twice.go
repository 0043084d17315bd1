package main

import "fmt"

type Box struct {
	value int
}

func add(a, b *Box) int {
	s := a.value
	return s + b.value
}

// `add` is done with the region of `a` before it reads `b`, but both are
// one region here: the call protects it.
func main() {
	x := &Box{21}
	fmt.Println(add(x, x))
}
