package main

import "fmt"

// Adds the numbers from 1 to n, and sends the sum.
func sum(n int, done chan int) {
	total := 0
	for i := 1; i <= n; i++ {
		total += i
	}
	done <- total
}

func main() {
	done := make(chan int, 8)
	for n := 1; n <= 8; n++ {
		go sum(n, done)
	}
	first := <-done
	second := <-done
	fmt.Println(100 / (second - first - 2))
}
