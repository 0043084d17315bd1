package main

import (
	"errors"
	"fmt"
	"sort"
	"sync"
)

const workers = 3

var errNegative = errors.New("negative number")

// Job asks for the length of the Collatz sequence of a number.
type Job struct {
	ID int
	N  int64
}

// Result is the answer to a job, or an error.
type Result struct {
	Job    Job
	Steps  int
	Peak   int64
	Worker int
	Err    error
}

// Pool runs jobs on several workers.
type Pool struct {
	jobs    chan Job
	results chan Result
	wg      sync.WaitGroup
	mu      sync.Mutex
	done    map[int]int
}

func NewPool(n int) *Pool {
	p := &Pool{
		jobs:    make(chan Job, n),
		results: make(chan Result, n),
		done:    make(map[int]int),
	}
	for id := 1; id <= n; id++ {
		p.wg.Add(1)
		go p.work(id)
	}
	go func() {
		p.wg.Wait()
		close(p.results)
	}()
	return p
}

func (p *Pool) work(id int) {
	defer p.wg.Done()
	for job := range p.jobs {
		steps, peak, err := collatz(job.N)
		p.mu.Lock()
		p.done[id]++
		p.mu.Unlock()
		p.results <- Result{job, steps, peak, id, err}
	}
}

func collatz(n int64) (steps int, peak int64, err error) {
	if n < 0 {
		return 0, 0, errNegative
	}
	peak = n
	for n > 1 {
		if n&1 == 0 {
			n >>= 1
		} else {
			n = 3*n + 1
		}
		if n > peak {
			peak = n
		}
		steps++
	}
	return steps, peak, nil
}

func main() {
	numbers := []int64{27, 0, 97, 871, -5, 6171, 1, 703}
	pool := NewPool(workers)
	go func() {
		defer close(pool.jobs)
		for i, n := range numbers {
			pool.jobs <- Job{ID: i, N: n}
		}
	}()

	var results []Result
	failed := 0
	for r := range pool.results {
		if r.Err != nil {
			failed++
			continue
		}
		results = append(results, r)
	}
	sort.Slice(results, func(i, j int) bool { return results[i].Job.ID < results[j].Job.ID })

	longest := results[0]
	for _, r := range results {
		fmt.Printf("%d needs %d steps, peak %d\n", r.Job.N, r.Steps, r.Peak)
		if r.Steps > longest.Steps {
			longest = r
		}
	}
	total := 0
	for _, n := range pool.done {
		total += n
	}
	fmt.Println("longest", longest.Job.N, longest.Steps)
	fmt.Println("jobs", total, "failed", failed)
}
