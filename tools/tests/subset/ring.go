package main

import "fmt"

type token struct {
	hops int
	seen []int
}

func station(id int, in <-chan token, out chan<- token, done chan<- token) {
	for t := range in {
		t.hops--
		t.seen = append(t.seen, id)
		if t.hops == 0 {
			done <- t
			return
		}
		out <- t
	}
}

func main() {
	const n = 8
	var links [n]chan token
	for i := range links {
		links[i] = make(chan token, 1)
	}
	done := make(chan token)
	for i := 0; i < n; i++ {
		go station(i, links[i], links[(i+1)%n], done)
	}
	links[0] <- token{hops: 20}
	t := <-done
	last := t.seen[len(t.seen)-1]
	fmt.Println(len(t.seen), last)
}
