package main

import "fmt"

type Request struct {
	n     int
	reply chan int
}

func server(requests chan *Request) {
	for r := <-requests; r != nil; r = <-requests {
		r.reply <- r.n * r.n
	}
}

func client(from, to int) int {
	requests := make(chan *Request)
	go server(requests)
	sum := 0
	for i := from; i < to; i++ {
		r := &Request{i, make(chan int)}
		requests <- r
		sum += <-r.reply
	}
	close(requests)
	return sum
}

// A channel for each client: its requests are gone when it has left. Until
// then they stay, so a client asks for a while only.
func main() {
	sum := 0
	for k := 0; k < 40; k++ {
		sum += client(k%10*25, k%10*25+25)
	}
	fmt.Println(sum)
}
