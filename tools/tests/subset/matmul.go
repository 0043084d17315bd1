package main

import (
	"fmt"
	"sync"
)

type Matrix struct {
	rows, cols int
	data       []int
}

func New(rows, cols int, f func(i, j int) int) Matrix {
	m := Matrix{rows: rows, cols: cols, data: make([]int, rows*cols)}
	for i := 0; i < rows; i++ {
		for j := 0; j < cols; j++ {
			m.Set(i, j, f(i, j))
		}
	}
	return m
}

func (m Matrix) At(i, j int) int  { return m.data[i*m.cols+j] }
func (m Matrix) Set(i, j, v int)  { m.data[i*m.cols+j] = v }
func (m Matrix) Row(i int) []int  { return m.data[i*m.cols : (i+1)*m.cols] }
func (m Matrix) Size() (int, int) { return m.rows, m.cols }

func (m Matrix) Mul(n Matrix) Matrix {
	out := New(m.rows, n.cols, func(i, j int) int { return 0 })
	var wg sync.WaitGroup
	wg.Add(m.rows)
	for i := 0; i < m.rows; i++ {
		go func(i int) {
			defer wg.Done()
			row := m.Row(i)
			for j := 0; j < n.cols; j++ {
				sum := 0
				for k, v := range row {
					sum += v * n.At(k, j)
				}
				out.Set(i, j, sum)
			}
		}(i)
	}
	wg.Wait()
	return out
}

func main() {
	a := New(12, 8, func(i, j int) int { return i + j })
	b := New(8, 12, func(i, j int) int { return i*j + 1 })
	c := a.Mul(b)
	rows, cols := c.Size()
	trace := 0
	for i := 0; i < rows && i < cols; i++ {
		trace += c.At(i, i)
	}
	fmt.Println(rows, cols, trace)
}
