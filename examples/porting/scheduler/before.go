package main

import (
	"container/heap"
	"fmt"
)

type State uint8

const (
	Ready State = iota
	Running
	Blocked
	Finished
)

// Task is a process with bursts of work, between which it sleeps.
type Task struct {
	id       int
	priority int
	bursts   []int
	sleep    int
	state    State
	wakes    int
	ran      int
}

// readyQueue orders tasks by priority, and those of one priority by number.
type readyQueue []*Task

func (q readyQueue) Len() int      { return len(q) }
func (q readyQueue) Swap(i, j int) { q[i], q[j] = q[j], q[i] }
func (q readyQueue) Less(i, j int) bool {
	if q[i].priority != q[j].priority {
		return q[i].priority > q[j].priority
	}
	return q[i].id < q[j].id
}

func (q *readyQueue) Push(x any) { *q = append(*q, x.(*Task)) }

func (q *readyQueue) Pop() any {
	old := *q
	last := old[len(old)-1]
	*q = old[:len(old)-1]
	return last
}

type Event struct {
	time, task int
	state      State
}

type Scheduler struct {
	clock   int
	quantum int
	ready   readyQueue
	blocked []*Task
	log     []Event
	onEvent func(Event)
}

func (s *Scheduler) note(t *Task, state State) {
	t.state = state
	e := Event{s.clock, t.id, state}
	s.log = append(s.log, e)
	if s.onEvent != nil {
		s.onEvent(e)
	}
}

func (s *Scheduler) Add(tasks ...*Task) {
	for _, t := range tasks {
		heap.Push(&s.ready, t)
		s.note(t, Ready)
	}
}

func (s *Scheduler) wake() {
	kept := s.blocked[:0]
	for _, t := range s.blocked {
		if t.wakes <= s.clock {
			heap.Push(&s.ready, t)
			s.note(t, Ready)
		} else {
			kept = append(kept, t)
		}
	}
	s.blocked = kept
}

func (s *Scheduler) Run() int {
	idle := 0
	for len(s.ready) > 0 || len(s.blocked) > 0 {
		s.wake()
		if len(s.ready) == 0 {
			s.clock++
			idle++
			continue
		}
		t := heap.Pop(&s.ready).(*Task)
		s.note(t, Running)
		slice := s.quantum
		if t.bursts[0] < slice {
			slice = t.bursts[0]
		}
		s.clock += slice
		t.ran += slice
		t.bursts[0] -= slice
		switch {
		case t.bursts[0] > 0:
			heap.Push(&s.ready, t)
			s.note(t, Ready)
		case len(t.bursts) > 1:
			t.bursts = t.bursts[1:]
			t.wakes = s.clock + t.sleep
			s.blocked = append(s.blocked, t)
			s.note(t, Blocked)
		default:
			s.note(t, Finished)
		}
	}
	return idle
}

func main() {
	counts := make(map[State]int)
	s := Scheduler{quantum: 3, onEvent: func(e Event) { counts[e.state]++ }}
	s.Add(
		&Task{id: 1, priority: 1, bursts: []int{5, 2}, sleep: 4},
		&Task{id: 2, priority: 3, bursts: []int{2, 2, 2}, sleep: 3},
		&Task{id: 3, priority: 2, bursts: []int{7}},
	)
	idle := s.Run()
	for _, e := range s.log {
		if e.state == Finished {
			fmt.Println("task", e.task, "finished at", e.time)
		}
	}
	fmt.Println("clock", s.clock, "idle", idle)
	fmt.Printf("ready %d running %d blocked %d finished %d\n", counts[Ready], counts[Running], counts[Blocked], counts[Finished])
}
