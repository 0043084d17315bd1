package main

import "fmt"

var capacity, clients int

// entry is an element of the list of entries, from the newest to the oldest.
type entry struct {
	key, value int
	prev, next *entry
}

// Stats counts what a cache was asked.
type Stats struct {
	hits, misses, evictions int
}

// Cache keeps the entries that were used last. The list is searched for a key, since it is short.
type Cache struct {
	lock  chan bool
	head  *entry
	count int
	size  int
	stats *Stats
}

// Answer is what a cache has for a key.
type Answer struct {
	value int
	found bool
}

func newCache(size int) *Cache {
	head := &entry{}
	head.prev = head
	head.next = head
	return &Cache{make(chan bool, 1), head, 0, size, &Stats{}}
}

func unlink(e *entry) {
	e.prev.next = e.next
	e.next.prev = e.prev
}

func pushFront(c *Cache, e *entry) {
	e.prev = c.head
	e.next = c.head.next
	e.prev.next = e
	e.next.prev = e
}

// find returns the entry of a key, or nil.
func find(c *Cache, key int) *entry {
	for e := c.head.next; e != c.head; e = e.next {
		if e.key == key {
			return e
		}
	}
	return nil
}

func get(c *Cache, key int) *Answer {
	c.lock <- true
	answer := &Answer{}
	e := find(c, key)
	if e == nil {
		c.stats.misses++
	} else {
		c.stats.hits++
		unlink(e)
		pushFront(c, e)
		answer.value = e.value
		answer.found = true
	}
	<-c.lock
	return answer
}

// fresh returns an entry for a key that is not there: the oldest one is used again if the cache is full.
func fresh(c *Cache) *entry {
	if c.count < c.size {
		c.count++
		return &entry{}
	}
	oldest := c.head.prev
	unlink(oldest)
	c.stats.evictions++
	return oldest
}

func put(c *Cache, key, value int) {
	c.lock <- true
	e := find(c, key)
	if e != nil {
		unlink(e)
	} else {
		e = fresh(c)
	}
	e.key = key
	e.value = value
	pushFront(c, e)
	<-c.lock
}

func square(c *Cache, n int) int {
	a := get(c, n)
	if a.found {
		return a.value
	}
	v := n * n
	put(c, n, v)
	return v
}

func client(c *Cache, results []int, i int, done chan bool) {
	for n := 0; n < 5; n++ {
		results[i] += square(c, n+i)
	}
	done <- true
}

func main() {
	capacity = 5
	clients = 4
	cache := newCache(capacity)
	sum := 0
	for i := 0; i < 100; i++ {
		sum += square(cache, i*i%13)
	}
	fmt.Println("sum", sum)
	fmt.Println("hits", cache.stats.hits, "misses", cache.stats.misses, "evictions", cache.stats.evictions)

	for e := cache.head.next; e != cache.head; e = e.next {
		fmt.Println(e.value)
	}

	done := make(chan bool)
	results := make([]int, clients)
	for i := 0; i < len(results); i++ {
		go client(cache, results, i, done)
	}
	for i := 0; i < clients; i++ {
		<-done
	}
	for i := 0; i < len(results); i++ {
		fmt.Println("client", i, results[i])
	}
}
