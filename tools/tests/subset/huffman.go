package main

import (
	"fmt"
	"sort"
)

type tree struct {
	char        rune
	freq        int
	left, right *tree
}

type byFreq []*tree

func (b byFreq) Len() int      { return len(b) }
func (b byFreq) Swap(i, j int) { b[i], b[j] = b[j], b[i] }
func (b byFreq) Less(i, j int) bool {
	if b[i].freq == b[j].freq {
		return b[i].char < b[j].char
	}
	return b[i].freq < b[j].freq
}

func build(text string) *tree {
	counts := make(map[rune]int)
	for _, r := range text {
		counts[r]++
	}
	var nodes []*tree
	for r, n := range counts {
		nodes = append(nodes, &tree{char: r, freq: n})
	}
	for len(nodes) > 1 {
		sort.Sort(byFreq(nodes))
		a, b := nodes[0], nodes[1]
		nodes = append(nodes[2:], &tree{char: a.char, freq: a.freq + b.freq, left: a, right: b})
	}
	return nodes[0]
}

func codes(t *tree, prefix string, out map[rune]string) {
	if t.left == nil {
		out[t.char] = prefix
		return
	}
	codes(t.left, prefix+"0", out)
	codes(t.right, prefix+"1", out)
}

func main() {
	text := "she sells sea shells by the sea shore"
	table := map[rune]string{}
	codes(build(text), "", table)
	bits := 0
	for _, r := range text {
		bits += len(table[r])
	}
	fmt.Println(len(text)*8, bits, table['s'] != "")
}
