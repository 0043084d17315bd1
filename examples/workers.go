package main

import "fmt"

// Three workers take numbers from one channel with a buffer, and each sends its sum when the channel is closed and
// gives zeros.
func worker(numbers, sums chan int) {
	sum := 0
	for n := <-numbers; n != 0; n = <-numbers {
		sum += n
	}
	sums <- sum
}

func main() {
	numbers := make(chan int, 4)
	sums := make(chan int)
	for i := 0; i < 3; i++ {
		go worker(numbers, sums)
	}
	for n := 1; n <= 100; n++ {
		numbers <- n
	}
	close(numbers)
	fmt.Println(<-sums + <-sums + <-sums)
}
