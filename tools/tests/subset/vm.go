package main

import "fmt"

type Opcode byte

const (
	Push Opcode = iota
	Add
	Mul
	Jump
	JumpIfZero
	Dup
	Print
	Halt
)

type Instr struct {
	Op  Opcode
	Arg int
}

type VM struct {
	stack []int
	pc    int
	out   []int
}

func (vm *VM) push(v int) { vm.stack = append(vm.stack, v) }

func (vm *VM) pop() (v int) {
	n := len(vm.stack) - 1
	v, vm.stack = vm.stack[n], vm.stack[:n]
	return
}

func (vm *VM) Run(program []Instr) (err error) {
	defer func() {
		if r := recover(); r != nil {
			err = fmt.Errorf("at %d: %v", vm.pc, r)
		}
	}()
loop:
	for {
		in := program[vm.pc]
		vm.pc++
		switch in.Op {
		case Push:
			vm.push(in.Arg)
		case Add:
			vm.push(vm.pop() + vm.pop())
		case Mul:
			vm.push(vm.pop() * vm.pop())
		case Dup:
			v := vm.pop()
			vm.push(v)
			vm.push(v)
		case Jump:
			vm.pc = in.Arg
		case JumpIfZero:
			if vm.pop() == 0 {
				vm.pc = in.Arg
			}
		case Print:
			vm.out = append(vm.out, vm.pop())
		case Halt:
			break loop
		default:
			return fmt.Errorf("bad opcode %d", in.Op)
		}
	}
	return nil
}

func main() {
	program := []Instr{{Push, 10}, {Dup, 0}, {Print, 0}, {Push, -1}, {Add, 0}, {Dup, 0}, {JumpIfZero, 8}, {Jump, 1}, {Halt, 0}}
	vm := new(VM)
	if err := vm.Run(program); err != nil {
		fmt.Println("error:", err)
	}
	fmt.Println(vm.out, len(vm.stack))
	bad := &VM{}
	fmt.Println(bad.Run([]Instr{{Op: Add}}) != nil)
}
