package main

import "fmt"

// Each clerk needs both keys, but the two clerks take them in different orders.
func clerk(name int, first, second, done chan int) {
	first <- name
	second <- name
	fmt.Println("clerk", name, "has both keys")
	<-second
	<-first
	done <- name
}

func main() {
	left := make(chan int, 1)
	right := make(chan int, 1)
	done := make(chan int)
	go clerk(1, left, right, done)
	go clerk(2, right, left, done)
	<-done
	<-done
}
