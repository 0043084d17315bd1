package main

import "fmt"

func main() {
	c := make(chan int)
	fmt.Println("nobody sends")
	fmt.Println(<-c)
}
