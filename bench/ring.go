// Goroutines that each wait at a channel of their own: a token goes three times around a ring of them.
package main

import "fmt"

func size() int { return 100 } // 100 10000 40000

func pass(in, out chan int) {
	for {
		out <- <-in + 1
	}
}

func main() {
	first := make(chan int)
	in := first
	for i := 0; i < size(); i++ {
		out := make(chan int)
		go pass(in, out)
		in = out
	}
	token := 0
	for lap := 0; lap < 3; lap++ {
		first <- token
		token = <-in
	}
	fmt.Println(token)
}
