package main

import "fmt"

type Message struct {
	key   int
	value int
}

func produce(c chan *Message, from, to int) {
	for i := from; i < to; i++ {
		c <- &Message{i, i * i}
	}
}

func batch(from, to int) int {
	c := make(chan *Message)
	go produce(c, from, to)
	s := 0
	for i := from; i < to; i++ {
		m := <-c
		s += m.value - m.key
	}
	return s
}

// Each batch has a channel of its own, and its messages are freed with that
// channel.
func main() {
	s := 0
	for i := 0; i < 1000; i += 100 {
		s += batch(i, i+100)
	}
	fmt.Println(s)
}
