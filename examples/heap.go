package main

import "fmt"

// A heap of 10,000 numbers in one slice: the least one is at the front.
type Heap struct {
	numbers []int
	count   int
}

func push(h *Heap, number int) {
	at := h.count
	h.count++
	for at > 0 && h.numbers[(at-1)/2] > number {
		h.numbers[at] = h.numbers[(at-1)/2]
		at = (at - 1) / 2
	}
	h.numbers[at] = number
}

func pop(h *Heap) int {
	least := h.numbers[0]
	h.count--
	last := h.numbers[h.count]
	at := 0
	for 2*at+1 < h.count {
		child := 2*at + 1
		if child+1 < h.count && h.numbers[child+1] < h.numbers[child] {
			child++
		}
		if last <= h.numbers[child] {
			break
		}
		h.numbers[at] = h.numbers[child]
		at = child
	}
	h.numbers[at] = last
	return least
}

func main() {
	h := &Heap{make([]int, 10000), 0}
	seed := 1
	for i := 0; i < 10000; i++ {
		seed = (seed*1103515245 + 12345) % 2147483648
		push(h, seed)
	}
	before := -1
	sorted := true
	sum := 0
	for i := 0; i < 100; i++ {
		number := pop(h)
		sorted = sorted && before <= number
		before = number
		sum = (sum*31 + number) % 1000003
	}
	fmt.Println(sorted, before, sum, h.count)
}
