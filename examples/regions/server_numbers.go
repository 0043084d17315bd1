package main

import "fmt"

func client(k int, requests chan int, replies []chan int, sums chan int) {
	sum := 0
	for i := 0; i < 250; i++ {
		requests <- i*len(replies) + k
		sum += <-replies[k]
	}
	sums <- sum
}

func server(requests chan int, replies []chan int) {
	for {
		r := <-requests
		n := r / len(replies)
		replies[r%len(replies)] <- n * n
	}
}

// Numbers in place of pointers: a request is one number, made of what is
// asked and of who asks. Each client has one channel for all its replies.
func main() {
	requests := make(chan int)
	replies := make([]chan int, 4)
	for k := 0; k < len(replies); k++ {
		replies[k] = make(chan int)
	}
	sums := make(chan int)
	go server(requests, replies)
	for k := 0; k < len(replies); k++ {
		go client(k, requests, replies, sums)
	}
	fmt.Println(<-sums + <-sums + <-sums + <-sums)
}
