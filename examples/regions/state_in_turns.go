package main

import "fmt"

type State struct {
	a int
	b int
}

func step(s *State) *State {
	return &State{s.b, (s.a + s.b) % 1000}
}

// The old state and the new one have two variables in turn, so `step`
// removes each state when it has read it.
func main() {
	s := &State{0, 1}
	for i := 0; i < 1000; i += 2 {
		t := step(s)
		s = step(t)
	}
	fmt.Println(s.a)
}
