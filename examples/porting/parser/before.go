package main

import (
	"fmt"
	"strings"
)

type Kind int

const (
	Number Kind = iota
	Operator
	Open
	Close
	End
)

func (k Kind) String() string {
	return [...]string{"number", "operator", "(", ")", "end"}[k]
}

type Token struct {
	Kind  Kind
	Op    byte
	Value int
}

// Node is a tree of an expression.
type Node struct {
	op          byte
	value       int
	left, right *Node
}

func lex(text string) ([]Token, error) {
	var tokens []Token
	for i := 0; i < len(text); {
		c := text[i]
		switch {
		case c == ' ':
			i++
		case c >= '0' && c <= '9':
			n := 0
			for ; i < len(text) && text[i] >= '0' && text[i] <= '9'; i++ {
				n = n*10 + int(text[i]-'0')
			}
			tokens = append(tokens, Token{Kind: Number, Value: n})
		case strings.ContainsRune("+-*/%", rune(c)):
			tokens = append(tokens, Token{Kind: Operator, Op: c})
			i++
		case c == '(':
			tokens = append(tokens, Token{Kind: Open})
			i++
		case c == ')':
			tokens = append(tokens, Token{Kind: Close})
			i++
		default:
			return nil, fmt.Errorf("bad character %q at %d", c, i)
		}
	}
	return append(tokens, Token{Kind: End}), nil
}

type Parser struct {
	tokens []Token
	pos    int
}

func (p *Parser) peek() Token { return p.tokens[p.pos] }

func (p *Parser) take() Token {
	t := p.tokens[p.pos]
	p.pos++
	return t
}

var levels = map[byte]int{'+': 1, '-': 1, '*': 2, '/': 2, '%': 2}

func (p *Parser) expression(least int) (*Node, error) {
	left, err := p.operand()
	if err != nil {
		return nil, err
	}
	for p.peek().Kind == Operator && levels[p.peek().Op] >= least {
		op := p.take().Op
		right, err := p.expression(levels[op] + 1)
		if err != nil {
			return nil, err
		}
		left = &Node{op: op, left: left, right: right}
	}
	return left, nil
}

func (p *Parser) operand() (*Node, error) {
	switch t := p.take(); t.Kind {
	case Number:
		return &Node{value: t.Value}, nil
	case Open:
		n, err := p.expression(1)
		if err != nil {
			return nil, err
		}
		if t := p.take(); t.Kind != Close {
			return nil, fmt.Errorf("expected ), found %v", t.Kind)
		}
		return n, nil
	default:
		return nil, fmt.Errorf("unexpected %v", t.Kind)
	}
}

func (n *Node) eval() (result int, err error) {
	defer func() {
		if r := recover(); r != nil {
			err = fmt.Errorf("%v", r)
		}
	}()
	return n.value2(), nil
}

func (n *Node) value2() int {
	switch n.op {
	case '+':
		return n.left.value2() + n.right.value2()
	case '-':
		return n.left.value2() - n.right.value2()
	case '*':
		return n.left.value2() * n.right.value2()
	case '/':
		return n.left.value2() / n.right.value2()
	case '%':
		return n.left.value2() % n.right.value2()
	}
	return n.value
}

func main() {
	for _, text := range []string{"1 + 2 * 3", "(1 + 2) * 3", "100 / 7 % 4 - 20", "1 / (2 - 2)", "2 * (3", "4 ? 5"} {
		tokens, err := lex(text)
		if err != nil {
			fmt.Println("error")
			continue
		}
		p := &Parser{tokens: tokens}
		tree, err := p.expression(1)
		if err == nil && p.peek().Kind != End {
			err = fmt.Errorf("more text")
		}
		if err != nil {
			fmt.Println("error")
			continue
		}
		if v, err := tree.eval(); err != nil {
			fmt.Println("divided by zero")
		} else {
			fmt.Println(v)
		}
	}
}
