// Slices: the number of primes below 4,000, by the sieve of Eratosthenes, found again and again.
package main

import "fmt"

func size() int { return 1 } // 1 200 2000

func primes(n int) int {
	composite := make([]bool, n)
	count := 0
	for i := 2; i < n; i++ {
		if !composite[i] {
			count++
			for k := i * i; k < n; k += i {
				composite[k] = true
			}
		}
	}
	return count
}

func main() {
	count := 0
	for i := 0; i < size(); i++ {
		count += primes(4000)
	}
	fmt.Println(count)
}
