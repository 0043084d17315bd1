package main

import "fmt"

var ready, running, blocked, finished int

// Task is a process with bursts of work, between which it sleeps.
type Task struct {
	id       int
	priority int
	bursts   []int
	burst    int
	sleep    int
	state    int
	wakes    int
	ran      int
}

// Queue is a heap of tasks, or a list of them in their order.
type Queue struct {
	tasks []*Task
	count int
}

func swap(q *Queue, i, j int) {
	t := q.tasks[i]
	q.tasks[i] = q.tasks[j]
	q.tasks[j] = t
}

// less orders tasks by priority, and those of one priority by number.
func less(q *Queue, i, j int) bool {
	a := q.tasks[i]
	b := q.tasks[j]
	if a.priority != b.priority {
		return a.priority > b.priority
	}
	return a.id < b.id
}

func push(q *Queue, t *Task) {
	i := q.count
	q.tasks[i] = t
	q.count++
	for i > 0 && less(q, i, (i-1)/2) {
		swap(q, i, (i-1)/2)
		i = (i - 1) / 2
	}
}

func pop(q *Queue) *Task {
	top := q.tasks[0]
	q.count--
	q.tasks[0] = q.tasks[q.count]
	i := 0
	for 2*i+1 < q.count {
		child := 2*i + 1
		if child+1 < q.count && less(q, child+1, child) {
			child++
		}
		if !less(q, child, i) {
			return top
		}
		swap(q, i, child)
		i = child
	}
	return top
}

type Event struct {
	time, task, state int
	next              *Event
}

type Scheduler struct {
	clock       int
	quantum     int
	ready       *Queue
	blocked     *Queue
	first, last *Event
	counts      []int
}

func newScheduler(quantum, most int) *Scheduler {
	ready := &Queue{make([]*Task, most), 0}
	blocked := &Queue{make([]*Task, most), 0}
	return &Scheduler{0, quantum, ready, blocked, nil, nil, make([]int, 4)}
}

func note(s *Scheduler, t *Task, state int) {
	t.state = state
	e := &Event{s.clock, t.id, state, nil}
	if s.first == nil {
		s.first = e
	} else {
		s.last.next = e
	}
	s.last = e
	s.counts[state]++
}

func add(s *Scheduler, t *Task) {
	push(s.ready, t)
	note(s, t, ready)
}

func wake(s *Scheduler) {
	kept := 0
	for i := 0; i < s.blocked.count; i++ {
		t := s.blocked.tasks[i]
		if t.wakes <= s.clock {
			push(s.ready, t)
			note(s, t, ready)
		} else {
			s.blocked.tasks[kept] = t
			kept++
		}
	}
	s.blocked.count = kept
}

// turn lets a task run for as long as it may.
func turn(s *Scheduler, t *Task) {
	note(s, t, running)
	slice := s.quantum
	if t.bursts[t.burst] < slice {
		slice = t.bursts[t.burst]
	}
	s.clock += slice
	t.ran += slice
	t.bursts[t.burst] -= slice
	if t.bursts[t.burst] > 0 {
		push(s.ready, t)
		note(s, t, ready)
	} else if t.burst+1 < len(t.bursts) {
		t.burst++
		t.wakes = s.clock + t.sleep
		s.blocked.tasks[s.blocked.count] = t
		s.blocked.count++
		note(s, t, blocked)
	} else {
		note(s, t, finished)
	}
}

func run(s *Scheduler) int {
	idle := 0
	for s.ready.count > 0 || s.blocked.count > 0 {
		wake(s)
		if s.ready.count == 0 {
			s.clock++
			idle++
		} else {
			turn(s, pop(s.ready))
		}
	}
	return idle
}

func task(id, priority, bursts, sleep int) *Task {
	return &Task{id: id, priority: priority, bursts: make([]int, bursts), sleep: sleep}
}

func main() {
	running = 1
	blocked = 2
	finished = 3
	s := newScheduler(3, 8)
	a := task(1, 1, 2, 4)
	a.bursts[0] = 5
	a.bursts[1] = 2
	b := task(2, 3, 3, 3)
	b.bursts[0] = 2
	b.bursts[1] = 2
	b.bursts[2] = 2
	c := task(3, 2, 1, 0)
	c.bursts[0] = 7
	add(s, a)
	add(s, b)
	add(s, c)
	idle := run(s)
	for e := s.first; e != nil; e = e.next {
		if e.state == finished {
			fmt.Println("task", e.task, "finished at", e.time)
		}
	}
	fmt.Println("clock", s.clock, "idle", idle)
	fmt.Println("ready", s.counts[ready], "running", s.counts[running], "blocked", s.counts[blocked], "finished", s.counts[finished])
}
