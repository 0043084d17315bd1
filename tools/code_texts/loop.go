package main

import "fmt"

type N struct {
	v int
	p *N
}

func main() {
	var l *N
	for i := 0; i < 3; i++ {
		l = &N{i, l}
	}
	for l != nil {
		fmt.Println(l.v)
		l = l.p
	}
}
