// Goroutines that compute: 16 of them count the primes below a number, each in a range of its own.
package main

import "fmt"

func size() int { return 1000 } // 1000 20000 200000

func isPrime(n int) bool {
	for d := 2; d*d <= n; d++ {
		if n%d == 0 {
			return false
		}
	}
	return n > 1
}

func count(from, to int, counts chan int) {
	found := 0
	for n := from; n < to; n++ {
		if isPrime(n) {
			found++
		}
	}
	counts <- found
}

func main() {
	counts := make(chan int)
	for i := 0; i < 16; i++ {
		go count(size()*i/16, size()*(i+1)/16, counts)
	}
	sum := 0
	for i := 0; i < 16; i++ {
		sum += <-counts
	}
	fmt.Println(sum)
}
