package main

import "fmt"

func generate(from, to int) <-chan int {
	out := make(chan int)
	go func() {
		defer close(out)
		for i := from; i < to; i++ {
			out <- i
		}
	}()
	return out
}

func apply(in <-chan int, f func(int) int) <-chan int {
	out := make(chan int)
	go func() {
		for v := range in {
			out <- f(v)
		}
		close(out)
	}()
	return out
}

func filter(in <-chan int, keep func(int) bool) <-chan int {
	out := make(chan int)
	go func() {
		for {
			v, ok := <-in
			if !ok {
				break
			}
			if keep(v) {
				out <- v
			}
		}
		close(out)
	}()
	return out
}

func merge(chans ...<-chan int) <-chan int {
	out := make(chan int)
	done := make(chan bool)
	for _, c := range chans {
		go func(c <-chan int) {
			for v := range c {
				out <- v
			}
			done <- true
		}(c)
	}
	go func() {
		for range chans {
			<-done
		}
		close(out)
	}()
	return out
}

func main() {
	square := func(n int) int { return n * n }
	odd := func(n int) bool { return n%2 != 0 }
	a := apply(filter(generate(-3, 10), odd), square)
	b := apply(generate(0, 5), square)
	count, sum := 0, 0
	for v := range merge(a, b) {
		count++
		sum += v
	}
	fmt.Println(count, sum)
}
