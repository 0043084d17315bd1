// Goroutines: primes by a chain of filters, one for each prime, with channels between them.
package main

import "fmt"

func size() int { return 10 } // 10 100 300

func numbers(out chan int) {
	for n := 2; ; n++ {
		out <- n
	}
}

func filter(in, out chan int, prime int) {
	for {
		n := <-in
		if n%prime != 0 {
			out <- n
		}
	}
}

func main() {
	in := make(chan int)
	go numbers(in)
	prime := 0
	for i := 0; i < size(); i++ {
		prime = <-in
		out := make(chan int)
		go filter(in, out, prime)
		in = out
	}
	fmt.Println(prime)
}
