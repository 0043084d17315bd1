package main

import "fmt"

type Job struct {
	from int
	to   int
}

func work(current *Job) int {
	s := 0
	for i := current.from; i < current.to; i++ {
		s += i
	}
	return s
}

// Each job is passed as a parameter, and removed by the function that works
// on it.
func main() {
	s := 0
	for i := 0; i < 1000; i++ {
		s += work(&Job{i, i + 10})
	}
	fmt.Println(s)
}
