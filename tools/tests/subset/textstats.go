package main

import (
	"bufio"
	"fmt"
	"sort"
	"strings"
	"unicode"
)

const text = `It was the best of times, it was the worst of times,
it was the age of wisdom, it was the age of foolishness`

type count struct {
	word string
	n    int
}

func words(s string) []string {
	return strings.FieldsFunc(s, func(r rune) bool { return !unicode.IsLetter(r) })
}

func main() {
	counts := map[string]int{}
	lines := 0
	in := bufio.NewScanner(strings.NewReader(text))
	for in.Scan() {
		lines++
		for _, w := range words(in.Text()) {
			counts[strings.ToLower(w)]++
		}
	}
	var list []count
	for w, n := range counts {
		list = append(list, count{w, n})
	}
	sort.Slice(list, func(i, j int) bool {
		a, b := list[i], list[j]
		return a.n > b.n || a.n == b.n && a.word < b.word
	})
	fmt.Println(lines, len(list))
	for _, c := range list[:3] {
		fmt.Printf("%-6s %d\n", c.word, c.n)
	}
}
