package main

import "fmt"

func total(n int) int {
	if n == 0 {
		return 0
	}
	row := make([]int, n)
	for i := 0; i < n; i++ {
		row[i] = i
	}
	return total(n-1) + row[n-1]
}

// Each call has a region for its slice. It is read after the inner call, so
// the regions of all calls live at one time.
func main() {
	fmt.Println(total(100))
}
