package main

import (
	"fmt"
	"sync"
)

type Fork struct{ sync.Mutex }

type Philosopher struct {
	id          int
	left, right *Fork
}

func (p Philosopher) dine(rounds int, meals []int, wg *sync.WaitGroup) {
	defer wg.Done()
	for i := 0; i < rounds; i++ {
		p.left.Lock()
		p.right.Lock()
		meals[p.id]++
		p.right.Unlock()
		p.left.Unlock()
	}
}

func main() {
	const n = 5
	forks := make([]*Fork, n)
	for i := range forks {
		forks[i] = new(Fork)
	}
	meals := make([]int, n)
	var wg sync.WaitGroup
	for i := 0; i < n; i++ {
		left, right := forks[i], forks[(i+1)%n]
		if i == n-1 {
			left, right = right, left
		}
		wg.Add(1)
		go Philosopher{i, left, right}.dine(10, meals, &wg)
	}
	wg.Wait()
	total := 0
	for _, m := range meals {
		total += m
	}
	fmt.Println(total, meals)
}
