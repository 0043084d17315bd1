package main

import "fmt"

// A chain of goroutines, each of which lets through what its own prime does not divide.
func count(out chan int) {
	for i := 2; ; i++ {
		out <- i
	}
}

func filter(in, out chan int, prime int) {
	for {
		i := <-in
		if i%prime != 0 {
			out <- i
		}
	}
}

func main() {
	in := make(chan int)
	go count(in)
	for i := 0; i < 10; i++ {
		prime := <-in
		fmt.Println(prime)
		out := make(chan int)
		go filter(in, out, prime)
		in = out
	}
}
