// Goroutines: two of them send a number back and forth on channels without a buffer.
package main

import "fmt"

func size() int { return 100 } // 100 20000 200000

func pong(in, out chan int) {
	for {
		out <- <-in + 1
	}
}

func main() {
	ping := make(chan int)
	back := make(chan int)
	go pong(ping, back)
	n := 0
	for i := 0; i < size(); i++ {
		ping <- n
		n = <-back
	}
	fmt.Println(n)
}
