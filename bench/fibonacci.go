// Calls: Fibonacci numbers by two recursive calls each.
package main

import "fmt"

func size() int { return 16 } // 16 26 32

func fibonacci(n int) int {
	if n < 2 {
		return n
	}
	return fibonacci(n-1) + fibonacci(n-2)
}

func main() {
	fmt.Println(fibonacci(size()))
}
