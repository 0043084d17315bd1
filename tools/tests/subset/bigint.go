package main

import (
	"fmt"
	"strings"
)

const base = 1000000000

type Big []uint32

func FromInt(n uint64) Big {
	var b Big
	for n > 0 {
		b = append(b, uint32(n%base))
		n /= base
	}
	return b
}

func (b Big) Mul(m uint32) Big {
	out := make(Big, 0, len(b)+1)
	var carry uint64
	for _, d := range b {
		carry += uint64(d) * uint64(m)
		out = append(out, uint32(carry%base))
		carry /= base
	}
	if carry > 0 {
		out = append(out, uint32(carry))
	}
	return out
}

func (b Big) Add(c Big) Big {
	if len(b) < len(c) {
		b, c = c, b
	}
	out := make(Big, 0, len(b)+1)
	var carry uint32
	for i := range b {
		sum := b[i] + carry
		if i < len(c) {
			sum += c[i]
		}
		carry = sum / base
		out = append(out, sum%base)
	}
	if carry != 0 {
		out = append(out, carry)
	}
	return out
}

func (b Big) String() string {
	if len(b) == 0 {
		return "0"
	}
	var s strings.Builder
	fmt.Fprintf(&s, "%d", b[len(b)-1])
	for i := len(b) - 2; i >= 0; i-- {
		fmt.Fprintf(&s, "%09d", b[i])
	}
	return s.String()
}

func main() {
	f := FromInt(1)
	for i := uint32(2); i <= 100; i++ {
		f = f.Mul(i)
	}
	fmt.Println(f)
	a, b := FromInt(0), FromInt(1)
	for i := 0; i < 300; i++ {
		a, b = b, a.Add(b)
	}
	fmt.Println(a.String())
}
