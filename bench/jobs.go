// Goroutines at one channel without a buffer: all wait there for jobs, which `main` hands out one at a time.
package main

import "fmt"

func size() int { return 100 } // 100 10000 40000

func worker(jobs, results chan int) {
	for {
		results <- 2 * <-jobs
	}
}

func main() {
	jobs := make(chan int)
	results := make(chan int)
	for i := 0; i < size(); i++ {
		go worker(jobs, results)
	}
	sum := 0
	for job := 1; job <= size(); job++ {
		jobs <- job
		sum += <-results
	}
	fmt.Println(sum)
}
