package main

import (
	"fmt"
	"sync"
	"sync/atomic"
)

type Semaphore chan struct{}

func (s Semaphore) Acquire() { s <- struct{}{} }
func (s Semaphore) Release() { <-s }

func main() {
	sem := make(Semaphore, 3)
	var running, most int32
	var mu sync.Mutex
	var wg sync.WaitGroup
	for i := 0; i < 20; i++ {
		wg.Add(1)
		go func() {
			defer wg.Done()
			sem.Acquire()
			defer sem.Release()
			now := atomic.AddInt32(&running, 1)
			mu.Lock()
			if now > most {
				most = now
			}
			mu.Unlock()
			atomic.AddInt32(&running, -1)
		}()
	}
	wg.Wait()
	fmt.Println(most <= 3, running)
}
