package main

import "fmt"

// The primes below 16,000. The slice is larger than a page: it is spread over several.
func main() {
	composite := make([]bool, 16000)
	count := 0
	for i := 2; i < len(composite); i++ {
		if !composite[i] {
			count++
			for j := i * i; j < len(composite); j += i {
				composite[j] = true
			}
		}
	}
	fmt.Println(count)
}
