package main

import "fmt"

func solve(n int, row uint, cols, left, right uint) int {
	if int(row) == n {
		return 1
	}
	count := 0
	full := uint(1)<<uint(n) - 1
	for free := full &^ (cols | left | right); free != 0; {
		bit := free & -free
		free ^= bit
		count += solve(n, row+1, cols|bit, (left|bit)<<1, (right|bit)>>1)
	}
	return count
}

func main() {
	results := make(chan struct{ n, count int })
	for n := 4; n <= 8; n++ {
		n := n
		go func() {
			results <- struct{ n, count int }{n, solve(n, 0, 0, 0, 0)}
		}()
	}
	counts := map[int]int{}
	for i := 4; i <= 8; i++ {
		r := <-results
		counts[r.n] = r.count
	}
	for n := 4; n <= 8; n++ {
		fmt.Printf("%d queens: %d\n", n, counts[n])
	}
}
