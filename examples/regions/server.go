package main

import "fmt"

type Request struct {
	n     int
	reply chan int
}

func client(requests chan *Request, sums chan int) {
	sum := 0
	for i := 0; i < 250; i++ {
		r := &Request{i, make(chan int)}
		requests <- r
		sum += <-r.reply
	}
	sums <- sum
}

func server(requests chan *Request) {
	for {
		r := <-requests
		r.reply <- r.n * r.n
	}
}

// All requests go through one channel, so they and the channels of their
// replies are in its region, which ends with the server: never.
func main() {
	requests := make(chan *Request)
	sums := make(chan int)
	go server(requests)
	for k := 0; k < 4; k++ {
		go client(requests, sums)
	}
	fmt.Println(<-sums + <-sums + <-sums + <-sums)
}
