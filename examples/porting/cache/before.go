package main

import (
	"fmt"
	"strings"
	"sync"
)

const (
	capacity = 5
	clients  = 4
)

// entry is an element of the list of entries, from the newest to the oldest.
type entry struct {
	key        string
	value      int
	prev, next *entry
}

// Stats counts what a cache was asked.
type Stats struct {
	Hits, Misses, Evictions int
}

// Cache keeps the entries that were used last.
type Cache struct {
	mu      sync.Mutex
	entries map[string]*entry
	head    entry
	size    int
	stats   Stats
}

func NewCache(size int) *Cache {
	c := &Cache{entries: make(map[string]*entry), size: size}
	c.head.prev, c.head.next = &c.head, &c.head
	return c
}

func (e *entry) unlink() {
	e.prev.next, e.next.prev = e.next, e.prev
}

func (c *Cache) pushFront(e *entry) {
	e.prev, e.next = &c.head, c.head.next
	e.prev.next, e.next.prev = e, e
}

func (c *Cache) Get(key string) (int, bool) {
	c.mu.Lock()
	defer c.mu.Unlock()
	e, ok := c.entries[key]
	if !ok {
		c.stats.Misses++
		return 0, false
	}
	c.stats.Hits++
	e.unlink()
	c.pushFront(e)
	return e.value, true
}

func (c *Cache) Put(key string, value int) {
	c.mu.Lock()
	defer c.mu.Unlock()
	if e, ok := c.entries[key]; ok {
		e.value = value
		e.unlink()
		c.pushFront(e)
		return
	}
	if len(c.entries) == c.size {
		oldest := c.head.prev
		oldest.unlink()
		delete(c.entries, oldest.key)
		c.stats.Evictions++
	}
	e := &entry{key: key, value: value}
	c.entries[key] = e
	c.pushFront(e)
}

// Each visits the entries from the newest to the oldest.
func (c *Cache) Each(visit func(key string, value int)) {
	for e := c.head.next; e != &c.head; e = e.next {
		visit(e.key, e.value)
	}
}

func (c *Cache) Stats() Stats {
	c.mu.Lock()
	defer c.mu.Unlock()
	return c.stats
}

func square(c *Cache, n int) int {
	key := fmt.Sprintf("square of %d", n)
	if v, ok := c.Get(key); ok {
		return v
	}
	v := n * n
	c.Put(key, v)
	return v
}

func main() {
	cache := NewCache(capacity)
	sum := 0
	for i := 0; i < 100; i++ {
		sum += square(cache, i*i%13)
	}
	stats := cache.Stats()
	fmt.Println("sum", sum)
	fmt.Printf("hits %d misses %d evictions %d\n", stats.Hits, stats.Misses, stats.Evictions)

	cache.Each(func(key string, value int) {
		if strings.HasPrefix(key, "square") {
			fmt.Println(value)
		}
	})

	var wg sync.WaitGroup
	results := make([]int, clients)
	for i := range results {
		wg.Add(1)
		go func(i int) {
			defer wg.Done()
			for n := 0; n < 5; n++ {
				results[i] += square(cache, n+i)
			}
		}(i)
	}
	wg.Wait()
	for i, r := range results {
		fmt.Println("client", i, r)
	}
}
