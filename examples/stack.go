package main

import "fmt"

// Package variables start at the zero of their type.
var top *Item
var size int

type Item struct {
	value int
	below *Item
}

func push(value int) {
	top = &Item{value, top}
	size++
}

func pop() int {
	value := top.value
	top = top.below
	size--
	return value
}

func main() {
	push(2)
	push(3)
	push(4)
	push(pop() * pop())
	push(pop() + pop())
	fmt.Println(pop(), size, top == nil)
}
