package main

import (
	"fmt"
	"os"
	"strconv"
	"strings"
)

type Value interface{}

type Symbol string

type Func func(args []Value) (Value, error)

type Env struct {
	vars  map[Symbol]Value
	outer *Env
}

func (e *Env) Get(s Symbol) (Value, bool) {
	for ; e != nil; e = e.outer {
		if v, ok := e.vars[s]; ok {
			return v, true
		}
	}
	return nil, false
}

func tokenize(s string) []string {
	s = strings.ReplaceAll(s, "(", " ( ")
	s = strings.ReplaceAll(s, ")", " ) ")
	return strings.Fields(s)
}

func parse(tokens []string) (Value, []string) {
	t := tokens[0]
	tokens = tokens[1:]
	if t != "(" {
		if n, err := strconv.Atoi(t); err == nil {
			return n, tokens
		}
		return Symbol(t), tokens
	}
	var list []Value
	for tokens[0] != ")" {
		var v Value
		v, tokens = parse(tokens)
		list = append(list, v)
	}
	return list, tokens[1:]
}

func eval(v Value, env *Env) (Value, error) {
	switch v := v.(type) {
	case int:
		return v, nil
	case Symbol:
		if x, ok := env.Get(v); ok {
			return x, nil
		}
		return nil, fmt.Errorf("unknown %s", v)
	case []Value:
		f, err := eval(v[0], env)
		if err != nil {
			return nil, err
		}
		args := make([]Value, 0, len(v)-1)
		for _, a := range v[1:] {
			x, err := eval(a, env)
			if err != nil {
				return nil, err
			}
			args = append(args, x)
		}
		return f.(Func)(args)
	default:
		return nil, fmt.Errorf("bad value %v", v)
	}
}

func main() {
	env := &Env{vars: map[Symbol]Value{
		"+": Func(func(args []Value) (Value, error) {
			sum := 0
			for _, a := range args {
				sum += a.(int)
			}
			return sum, nil
		}),
		"*": Func(func(args []Value) (Value, error) { return args[0].(int) * args[1].(int), nil }),
	}}
	for _, text := range []string{"(+ 1 2 (* 3 4))", "(- 1)"} {
		tree, _ := parse(tokenize(text))
		if v, err := eval(tree, env); err != nil {
			fmt.Fprintln(os.Stderr, "error:", err)
		} else {
			fmt.Println(v)
		}
	}
}
