package main

import "fmt"

// The primes below n, by the sieve of Eratosthenes: a slice starts with every element false.
func main() {
	n := 50
	composite := make([]bool, n)
	for i := 2; i < n; i++ {
		if composite[i] {
			continue
		}
		fmt.Println(i)
		for k := i * i; k < n; k += i {
			composite[k] = true
		}
	}
}
