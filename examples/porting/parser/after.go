package main

import "fmt"

// The kinds of tokens, and the codes of characters: a digit d is 10 + d.
var number, operator, open, closing, end int
var plus, minus, times, over, rest, opened, closed, blank int

func name() {
	operator = 1
	open = 2
	closing = 3
	end = 4
	plus = 20
	minus = 21
	times = 22
	over = 23
	rest = 24
	opened = 30
	closed = 31
	blank = 40
}

// Text is a text by the codes of its characters.
type Text struct {
	codes []int
	count int
}

// add appends the characters of a number that has two digits for each.
func add(t *Text, packed int) {
	first := 1
	for packed/first >= 100 {
		first *= 100
	}
	for first > 0 {
		t.codes[t.count] = packed / first % 100
		t.count++
		first /= 100
	}
}

type Token struct {
	kind, op, value int
}

// Node is a tree of an expression.
type Node struct {
	op, value   int
	left, right *Node
}

// Parser has the tokens of a text. It fails at the first fault, and then its trees are nil.
type Parser struct {
	tokens []*Token
	count  int
	pos    int
	failed bool
}

func push(p *Parser, kind, op, value int) {
	p.tokens[p.count] = &Token{kind, op, value}
	p.count++
}

func isDigit(c int) bool { return c >= 10 && c <= 19 }

func isOperator(c int) bool { return c >= plus && c <= rest }

// lexNumber pushes the number that begins at i, and returns where it ends.
func lexNumber(p *Parser, t *Text, i int) int {
	n := 0
	for i < t.count && isDigit(t.codes[i]) {
		n = n*10 + t.codes[i] - 10
		i++
	}
	push(p, number, 0, n)
	return i
}

func lex(t *Text) *Parser {
	p := &Parser{make([]*Token, t.count+1), 0, 0, false}
	i := 0
	for i < t.count {
		c := t.codes[i]
		if isDigit(c) {
			i = lexNumber(p, t, i) - 1
		} else if isOperator(c) {
			push(p, operator, c, 0)
		} else if c == opened {
			push(p, open, 0, 0)
		} else if c == closed {
			push(p, closing, 0, 0)
		} else if c != blank {
			p.failed = true
		}
		i++
	}
	push(p, end, 0, 0)
	return p
}

func peek(p *Parser) *Token { return p.tokens[p.pos] }

// take returns the next token. The last one, which ends the text, is taken again and again.
func take(p *Parser) *Token {
	t := p.tokens[p.pos]
	if t.kind != end {
		p.pos++
	}
	return t
}

func level(op int) int {
	if op == plus || op == minus {
		return 1
	}
	return 2
}

func expression(p *Parser, least int) *Node {
	left := operand(p)
	for !p.failed && peek(p).kind == operator && level(peek(p).op) >= least {
		op := take(p).op
		right := expression(p, level(op)+1)
		left = &Node{op, 0, left, right}
	}
	return left
}

func operand(p *Parser) *Node {
	t := take(p)
	if t.kind == number {
		return &Node{0, t.value, nil, nil}
	}
	if t.kind == open {
		n := expression(p, 1)
		if take(p).kind != closing {
			p.failed = true
		}
		return n
	}
	p.failed = true
	return nil
}

// Outcome says whether an evaluation divided by zero.
type Outcome struct {
	failed bool
}

func eval(n *Node, o *Outcome) int {
	if n.op == 0 {
		return n.value
	}
	a := eval(n.left, o)
	b := eval(n.right, o)
	if n.op == plus {
		return a + b
	} else if n.op == minus {
		return a - b
	} else if n.op == times {
		return a * b
	}
	if b == 0 {
		o.failed = true
		return 0
	}
	if n.op == over {
		return a / b
	}
	return a % b
}

func calculate(t *Text) {
	p := lex(t)
	if p.failed {
		fmt.Println("error")
		return
	}
	tree := expression(p, 1)
	if p.failed || peek(p).kind != end {
		fmt.Println("error")
		return
	}
	o := &Outcome{}
	v := eval(tree, o)
	if o.failed {
		fmt.Println("divided by zero")
	} else {
		fmt.Println(v)
	}
}

// text returns one of the texts.
func text(i int) *Text {
	t := &Text{make([]int, 40), 0}
	if i == 0 {
		// 1 + 2 * 3
		add(t, 114020401240224013)
	} else if i == 1 {
		// (1 + 2) * 3
		add(t, 30114020401231)
		add(t, 40224013)
	} else if i == 2 {
		// 100 / 7 % 4 - 20
		add(t, 111010402340174024)
		add(t, 40144021401210)
	} else if i == 3 {
		// 1 / (2 - 2)
		add(t, 11402340)
		add(t, 30124021401231)
	} else if i == 4 {
		// 2 * (3
		add(t, 124022403013)
	} else {
		// 4 ? 5
		add(t, 1440504015)
	}
	return t
}

func main() {
	name()
	for i := 0; i < 6; i++ {
		calculate(text(i))
	}
}
