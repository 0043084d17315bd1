package main

import "fmt"

func fibonacci(n int) int {
	if n < 2 {
		return n
	}
	return fibonacci(n-1) + fibonacci(n-2)
}

func main() {
	for n := 0; n <= 20; n += 5 {
		fmt.Println("fibonacci", n, "is", fibonacci(n))
	}
}
