package main

import (
	"fmt"
	"sync"
)

type Message struct {
	Topic   string
	Payload int
}

type Broker struct {
	mu   sync.RWMutex
	subs map[string][]chan Message
}

func New() *Broker { return &Broker{subs: map[string][]chan Message{}} }

func (b *Broker) Subscribe(topic string, buffer int) <-chan Message {
	ch := make(chan Message, buffer)
	b.mu.Lock()
	b.subs[topic] = append(b.subs[topic], ch)
	b.mu.Unlock()
	return ch
}

func (b *Broker) Publish(m Message) int {
	b.mu.RLock()
	defer b.mu.RUnlock()
	sent := 0
	for _, ch := range b.subs[m.Topic] {
		select {
		case ch <- m:
			sent++
		default:
		}
	}
	return sent
}

func (b *Broker) Close() {
	b.mu.Lock()
	defer b.mu.Unlock()
	for topic, subs := range b.subs {
		for _, ch := range subs {
			close(ch)
		}
		delete(b.subs, topic)
	}
}

func main() {
	b := New()
	topics := [...]string{"a", "b", "c"}
	results := make(chan int, len(topics))
	for i, topic := range topics {
		ch := b.Subscribe(topic, 100)
		go func(i int) {
			sum := 0
			for m := range ch {
				sum += m.Payload * (i + 1)
			}
			results <- sum
		}(i)
	}
	sent := 0
	for i := 0; i < 60; i++ {
		sent += b.Publish(Message{Topic: topics[i%len(topics)], Payload: i})
	}
	b.Close()
	total := 0
	for range topics {
		total += <-results
	}
	fmt.Println(sent, total)
}
