package main

import "fmt"

var workers int

// Job asks for the length of the Collatz sequence of a number.
type Job struct {
	id int
	n  int
}

// Collatz is what is known of a sequence. Its error is 0, or 1 for a negative number.
type Collatz struct {
	steps, peak, err int
}

// Result is the answer to a job.
type Result struct {
	job     *Job
	collatz *Collatz
	worker  int
}

// Pool runs jobs on several workers. They wait for more until main returns.
type Pool struct {
	jobs    chan *Job
	results chan *Result
}

func newPool(n int) *Pool {
	p := &Pool{make(chan *Job, n), make(chan *Result, n)}
	for id := 1; id <= n; id++ {
		go work(p, id)
	}
	return p
}

func work(p *Pool, id int) {
	for {
		job := <-p.jobs
		p.results <- &Result{job, collatz(job.n), id}
	}
}

func collatz(n int) *Collatz {
	if n < 0 {
		return &Collatz{0, 0, 1}
	}
	steps := 0
	peak := n
	for n > 1 {
		if n%2 == 0 {
			n /= 2
		} else {
			n = 3*n + 1
		}
		if n > peak {
			peak = n
		}
		steps++
	}
	return &Collatz{steps, peak, 0}
}

func produce(jobs chan *Job, numbers []int) {
	for i := 0; i < len(numbers); i++ {
		jobs <- &Job{i, numbers[i]}
	}
}

func someNumbers() []int {
	numbers := make([]int, 8)
	numbers[0] = 27
	numbers[2] = 97
	numbers[3] = 871
	numbers[4] = -5
	numbers[5] = 6171
	numbers[6] = 1
	numbers[7] = 703
	return numbers
}

func main() {
	workers = 3
	numbers := someNumbers()
	pool := newPool(workers)
	go produce(pool.jobs, numbers)

	// The results by the number of their job; nil for a job that failed.
	results := make([]*Result, len(numbers))
	done := make([]int, workers+1)
	failed := 0
	for i := 0; i < len(numbers); i++ {
		r := <-pool.results
		done[r.worker]++
		if r.collatz.err != 0 {
			failed++
		} else {
			results[r.job.id] = r
		}
	}

	var longest *Result
	for i := 0; i < len(results); i++ {
		r := results[i]
		if r != nil {
			fmt.Println(r.job.n, "needs", r.collatz.steps, "steps, peak", r.collatz.peak)
			if longest == nil || r.collatz.steps > longest.collatz.steps {
				longest = r
			}
		}
	}
	total := 0
	for i := 1; i <= workers; i++ {
		total += done[i]
	}
	fmt.Println("longest", longest.job.n, longest.collatz.steps)
	fmt.Println("jobs", total, "failed", failed)
}
