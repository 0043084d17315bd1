package main

import "fmt"

type Request struct {
	n     int
	reply chan int
}

func client(requests chan *Request, from, to int, sums chan int) {
	sum := 0
	for i := from; i < to; i++ {
		r := &Request{i, make(chan int)}
		requests <- r
		sum += <-r.reply
	}
	sums <- sum
}

func server(requests chan *Request) {
	for r := <-requests; r != nil; r = <-requests {
		r.reply <- r.n * r.n
	}
}

func pool(from, to int) int {
	requests := make(chan *Request)
	sums := make(chan int)
	for k := 0; k < 2; k++ {
		go server(requests)
	}
	for k := 0; k < 4; k++ {
		go client(requests, from, to, sums)
	}
	sum := <-sums + <-sums + <-sums + <-sums
	close(requests)
	return sum
}

// A pool that is rebuilt: after a hundred requests the channel is closed, the
// servers and clients end, and new ones begin with a new channel.
func main() {
	sum := 0
	for i := 0; i < 250; i += 25 {
		sum += pool(i, i+25)
	}
	fmt.Println(sum)
}
