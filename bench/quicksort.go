// Slices and calls: sorts 4,000 pseudo-random numbers, again and again.
package main

import "fmt"

func size() int { return 1 } // 1 8 50

func sort(s []int, low, high int) {
	if low >= high {
		return
	}
	pivot := s[(low+high)/2]
	i := low
	k := high
	for i <= k {
		for s[i] < pivot {
			i++
		}
		for s[k] > pivot {
			k--
		}
		if i <= k {
			kept := s[i]
			s[i] = s[k]
			s[k] = kept
			i++
			k--
		}
	}
	sort(s, low, k)
	sort(s, i, high)
}

// Sorts n numbers, which follow the seed, and returns the last of them as the next seed.
func round(n, seed int) int {
	s := make([]int, n)
	x := seed
	for i := 0; i < n; i++ {
		x = (x*1103515245 + 12345) % 2147483648
		s[i] = x
	}
	sort(s, 0, n-1)
	for i := 1; i < n; i++ {
		if s[i-1] > s[i] {
			fmt.Println("not sorted at", i)
		}
	}
	fmt.Println(s[0], s[n/2], s[n-1])
	return x
}

func main() {
	seed := 1
	for i := 0; i < size(); i++ {
		seed = round(4000, seed)
	}
}
