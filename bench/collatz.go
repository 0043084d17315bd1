// Arithmetic: the number below a bound from which it takes the most steps to reach 1.
package main

import "fmt"

func size() int { return 200 } // 200 20000 200000

func steps(n int) int {
	count := 0
	for n != 1 {
		if n%2 == 0 {
			n /= 2
		} else {
			n = 3*n + 1
		}
		count++
	}
	return count
}

func main() {
	best := 0
	most := 0
	for n := 1; n < size(); n++ {
		count := steps(n)
		if count > most {
			most = count
			best = n
		}
	}
	fmt.Println(best, most)
}
