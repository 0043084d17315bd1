package main

import "fmt"

// Insertion sort. A slice is not copied when it is passed: what the function writes is seen outside.
func sort(s []int) {
	for i := 1; i < len(s); i++ {
		x := s[i]
		k := i
		for k > 0 && s[k-1] > x {
			s[k] = s[k-1]
			k--
		}
		s[k] = x
	}
}

func main() {
	s := make([]int, 6)
	for i := 0; i < len(s); i++ {
		s[i] = i * 5 % 7
	}
	sort(s)
	for i := 0; i < len(s); i++ {
		fmt.Println(s[i])
	}
}
