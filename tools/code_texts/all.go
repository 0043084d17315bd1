package main

import "fmt"

type N struct {
	v int
	p *N
}

var last *N
var count int

func pick(a, b *N) *N {
	if a == b {
		return a
	}
	return a.p
}

func supply(c chan *N, a *N) {
	c <- a
	close(c)
}

func all(a, b *N, n int) *N {
	ok := true
	if !ok || a == nil {
		return nil
	}
	s := make([]*N, n)
	s[0] = a
	x := s[0]
	c := make(chan *N, len(s))
	c <- b
	y := <-c
	go supply(c, y)
	last = new(N)
	count = -n
	fmt.Println("all", last.v, count)
	z := pick(x, y)
	for z != nil {
		z = z.p
	}
	d := make(chan *N)
	close(d)
	return &N{n, nil}
}

func main() {
	r := all(&N{1, nil}, &N{2, nil}, 3)
	fmt.Println(r.v)
}
