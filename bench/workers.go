// Goroutines: 100 workers take numbers from one channel with a buffer and return sums on another.
package main

import "fmt"

func size() int { return 200 } // 200 10000 100000

func worker(work, sums chan int) {
	sum := 0
	n := <-work
	for n != 0 {
		for i := 0; i < 10; i++ {
			n = n*7%1000 + 1
		}
		sum += n
		n = <-work
	}
	sums <- sum
}

func main() {
	work := make(chan int, 64)
	sums := make(chan int)
	for i := 0; i < 100; i++ {
		go worker(work, sums)
	}
	for n := 1; n <= size(); n++ {
		work <- n
	}
	close(work)
	sum := 0
	for i := 0; i < 100; i++ {
		sum += <-sums
	}
	fmt.Println(sum)
}
