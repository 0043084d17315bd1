package main

import "fmt"

type Job struct {
	from int
	to   int
}

var current *Job

func work() int {
	s := 0
	for i := current.from; i < current.to; i++ {
		s += i
	}
	return s
}

// A package variable leads to each job in turn, so no job is ever freed.
func main() {
	s := 0
	for i := 0; i < 1000; i++ {
		current = &Job{i, i + 10}
		s += work()
	}
	fmt.Println(s)
}
