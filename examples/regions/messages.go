package main

import "fmt"

type Message struct {
	key   int
	value int
}

func produce(c chan *Message, from, to int) {
	for i := from; i < to; i++ {
		c <- &Message{i, i * i}
	}
}

// What is sent through a channel is in the region of the channel, so all
// messages live as long as the channel does.
func main() {
	c := make(chan *Message)
	go produce(c, 0, 1000)
	s := 0
	for i := 0; i < 1000; i++ {
		m := <-c
		s += m.value - m.key
	}
	fmt.Println(s)
}
