// Goroutines at one channel without a buffer: each sends a number there, and `main` receives them all.
package main

import "fmt"

func size() int { return 100 } // 100 10000 40000

func send(n int, numbers chan int) {
	numbers <- n
}

func main() {
	numbers := make(chan int)
	for n := 1; n <= size(); n++ {
		go send(n, numbers)
	}
	sum := 0
	for i := 0; i < size(); i++ {
		sum += <-numbers
	}
	fmt.Println(sum)
}
