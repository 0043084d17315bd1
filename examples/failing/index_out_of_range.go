package main

import "fmt"

func main() {
	s := make([]int, 3)
	fmt.Println(len(s))
	s[len(s)] = 1
}
