// Goroutines that take work as they come to it: 16 of them take ranges of numbers from one channel, and find the longest way to 1.
package main

import "fmt"

func size() int { return 1 } // 1 20 200

// Halves even numbers, and takes 3n+1 of odd ones.
func steps(n int) int {
	count := 0
	for n != 1 {
		if n%2 == 0 {
			n = n / 2
		} else {
			n = 3*n + 1
		}
		count++
	}
	return count
}

func worker(work, longest chan int) {
	most := 0
	for from := <-work; from != 0; from = <-work {
		for n := from; n < from+1000; n++ {
			count := steps(n)
			if count > most {
				most = count
			}
		}
	}
	longest <- most
}

func main() {
	work := make(chan int, 16)
	longest := make(chan int)
	for i := 0; i < 16; i++ {
		go worker(work, longest)
	}
	for i := 0; i < size(); i++ {
		work <- 1000*i + 1
	}
	close(work)
	most := 0
	for i := 0; i < 16; i++ {
		found := <-longest
		if found > most {
			most = found
		}
	}
	fmt.Println(most)
}
