package main

import "fmt"

// All values fit the buffer, which is spread over several pages, so one goroutine can send them before the other receives any.
func send(c chan int, n int) {
	for i := 0; i < n; i++ {
		c <- i
	}
	close(c)
}

func main() {
	c := make(chan int, 10000)
	send(c, 10000)
	sum := 0
	for i := 0; i < 10000; i++ {
		sum += <-c
	}
	fmt.Println(sum, <-c)
}
