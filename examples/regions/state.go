package main

import "fmt"

type State struct {
	a int
	b int
}

func step(s *State) *State {
	return &State{s.b, (s.a + s.b) % 1000}
}

// The old state and the new one have the same variable, so all states are
// in its region.
func main() {
	s := &State{0, 1}
	for i := 0; i < 1000; i += 2 {
		s = step(s)
		s = step(s)
	}
	fmt.Println(s.a)
}
