package main

import "fmt"

// Everything is evaluated from left to right, and the right side of && and || only where it decides.
func say(word int) int {
	fmt.Println("say", word)
	return word
}

func main() {
	s := make([]int, 3)
	s[say(1)] = say(2)
	fmt.Println(say(3)+say(4)*say(5), s[1])
	if say(6) == 0 && say(7) == 0 || say(8) == 8 {
		fmt.Println("yes")
	}
}
