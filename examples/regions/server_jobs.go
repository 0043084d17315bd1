package main

import "fmt"

type Request struct {
	n     int
	reply chan int
}

func serve(r *Request) {
	r.reply <- r.n * r.n
}

func ask(n int) int {
	r := &Request{n, make(chan int)}
	go serve(r)
	return <-r.reply
}

func client(sums chan int) {
	sum := 0
	for i := 0; i < 250; i++ {
		sum += ask(i)
	}
	sums <- sum
}

// A function for each job: a request and its reply are in a region of their
// own, which is gone when both sides have used it.
func main() {
	sums := make(chan int)
	for k := 0; k < 4; k++ {
		go client(sums)
	}
	fmt.Println(<-sums + <-sums + <-sums + <-sums)
}
