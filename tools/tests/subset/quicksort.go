package main

import (
	"fmt"
	"math/rand"
	"sync"
)

func quicksort(a []int) {
	if len(a) < 2 {
		return
	}
	pivot := a[len(a)/2]
	i, j := 0, len(a)-1
	for i <= j {
		for a[i] < pivot {
			i++
		}
		for a[j] > pivot {
			j--
		}
		if i <= j {
			a[i], a[j] = a[j], a[i]
			i++
			j--
		}
	}
	left, right := a[:j+1], a[i:]
	if len(a) < 500 {
		quicksort(left)
		quicksort(right)
		return
	}
	var wg sync.WaitGroup
	for _, part := range [][]int{left, right} {
		wg.Add(1)
		go func(part []int) {
			defer wg.Done()
			quicksort(part)
		}(part)
	}
	wg.Wait()
}

func main() {
	r := rand.New(rand.NewSource(1))
	a := make([]int, 5000)
	for i := range a {
		a[i] = r.Intn(100000)
	}
	b := make([]int, len(a))
	copy(b, a)
	quicksort(b)
	for i := 1; i < len(b); i++ {
		if b[i-1] > b[i] {
			panic(fmt.Sprintf("not sorted at %d", i))
		}
	}
	fmt.Println("sorted", len(b))
}
