package main

import "fmt"

type Box struct {
	value int
}

func larger(a, b *Box) *Box {
	if a.value > b.value {
		return a
	}
	return b
}

// The result may be either argument. So both are in its region, and the
// smaller box lives as long as the larger one.
func main() {
	a := &Box{3}
	b := &Box{4}
	c := &Box{5}
	d := larger(a, b)
	fmt.Println(c.value)
	fmt.Println(d.value)
}
