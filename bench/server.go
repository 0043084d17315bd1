// Goroutines at one channel without a buffer: clients each send three requests to one server, and wait for each reply.
package main

import "fmt"

func size() int { return 100 } // 100 10000 40000

type request struct {
	number int
	reply  chan int
}

func server(requests chan *request) {
	for {
		r := <-requests
		r.reply <- r.number + 1
	}
}

func client(r *request, requests chan *request, sums chan int) {
	sum := 0
	for i := 0; i < 3; i++ {
		requests <- r
		sum += <-r.reply
	}
	sums <- sum
}

func main() {
	requests := make(chan *request)
	sums := make(chan int)
	go server(requests)
	// The clients do not make their requests, since each of them would take a page of its own to do so.
	for i := 0; i < size(); i++ {
		go client(&request{i, make(chan int)}, requests, sums)
	}
	sum := 0
	for i := 0; i < size(); i++ {
		sum += <-sums
	}
	fmt.Println(sum)
}
