package main

import "fmt"

type Job struct {
	n      int
	answer chan int
}

func square(j *Job) {
	j.answer <- j.n * j.n
}

// Each job is in a region of its own with its channel, and has a stake of
// each of its two goroutines. The last of the two removes it.
func main() {
	sum := 0
	for i := 1; i <= 5; i++ {
		j := &Job{i, make(chan int)}
		go square(j)
		sum += <-j.answer
	}
	fmt.Println(sum)
}
