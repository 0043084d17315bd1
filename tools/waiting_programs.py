"""Programs in which many goroutines wait at one channel, or in a ring, for tools/soak and tools/test-workers. What they
print does not depend on the order of steps.

A goroutine that is not woken when it should be has a turn in the next check for a deadlock, so most programs end as they
should nevertheless. There is no such check while an endless loop runs: then such a goroutine waits forever.
"""

import collections

HEAD = """\
package main
import "fmt"
type Request struct { n int; reply chan int }
func worked(n int) int { for i := n % 7 * WORK; i > 0; i-- { n = n * 7 % 1000 + 1 }; return n }
func loop() { for { } }
"""

# Each sends a number to `main`.
COLLECT = """\
func child(c chan int, k int) { c <- worked(k) }
func main() { c := make(chan int, ROOM); LOOP
for k := 0; k < COUNT; k++ { go child(c, k) }
s := 0; for k := 0; k < COUNT; k++ { s += <-c }; fmt.Println(s) }
"""

# All wait for jobs, of which there are three for each, and for room for their results.
JOBS = """\
func worker(jobs, results chan int) { for { results <- worked(<-jobs) } }
func deal(jobs chan int) { for k := 0; k < 3 * COUNT; k++ { jobs <- k } }
func main() { jobs := make(chan int, ROOM); results := make(chan int, ROOM); LOOP
for k := 0; k < COUNT; k++ { go worker(jobs, results) }; go deal(jobs)
s := 0; for k := 0; k < 3 * COUNT; k++ { s += <-results }; fmt.Println(s) }
"""

# Each sends three requests to one server. `main` makes the requests: in a region, each goroutine makes objects in pages of its own.
SERVER = """\
func server(requests chan *Request) { for { r := <-requests; r.reply <- r.n + 1 } }
func client(r *Request, requests chan *Request, c chan int) { s := 0
for i := 0; i < 3; i++ { requests <- r; s += worked(<-r.reply) }; c <- s }
func main() { requests := make(chan *Request, ROOM); c := make(chan int, ROOM); LOOP
go server(requests); for k := 0; k < COUNT; k++ { go client(&Request{k, make(chan int)}, requests, c) }
s := 0; for k := 0; k < COUNT; k++ { s += <-c }; fmt.Println(s) }
"""

# Eight numbers go twice around a ring.
RING = """\
func pass(in, out chan int) { for { out <- worked(<-in) + 1 } }
func main() { first := make(chan int, ROOM); in := first; LOOP
for k := 0; k < COUNT; k++ { out := make(chan int, ROOM); go pass(in, out); in = out }
for k := 0; k < 8; k++ { first <- k }; for k := 0; k < 8; k++ { first <- <-in }
s := 0; for k := 0; k < 8; k++ { s += <-in }; fmt.Println(s) }
"""

# As many send to one channel as receive from it.
EXCHANGE = """\
func give(c chan int, k int) { c <- worked(k) }
func take(c, results chan int) { results <- <-c }
func main() { c := make(chan int, ROOM); results := make(chan int, ROOM); LOOP
for k := 0; k < COUNT; k++ { go give(c, k); go take(c, results) }
s := 0; for k := 0; k < COUNT; k++ { s += <-results }; fmt.Println(s) }
"""

# Each takes a lock three times. That is a channel with room for one: whoever has sent to it has the lock, and gives it back by a receive.
LOCK = """\
func child(lock chan bool, s []int, c chan int, k int) { for i := 0; i < 3; i++ { lock <- true; s[0] += worked(k); <-lock }; c <- 1 }
func main() { lock := make(chan bool, 1); s := make([]int, 1); c := make(chan int, ROOM); LOOP
for k := 0; k < COUNT; k++ { go child(lock, s, c, k) }
for k := 0; k < COUNT; k++ { <-c }; fmt.Println(s[0]) }
"""

# All wait for a close.
CLOSE = """\
func child(gate, c chan int, k int) { c <- <-gate + worked(k) }
func main() { gate := make(chan int, ROOM); c := make(chan int, ROOM); LOOP
for k := 0; k < COUNT; k++ { go child(gate, c, k) }; worked(6); close(gate)
s := 0; for k := 0; k < COUNT; k++ { s += <-c }; fmt.Println(s) }
"""

KINDS = {"collect": COLLECT, "jobs": JOBS, "server": SERVER, "ring": RING, "exchange": EXCHANGE, "lock": LOCK, "close": CLOSE}

# A way in which these programs differ: the room in their channels; how many numbers a goroutine computes between two
# operations on channels, at most six times as many; and whether there is an endless loop beside them.
Way = collections.namedtuple("Way", "room work has_loop")
PLAIN = Way(0, 0, False)
# So many numbers take more than one turn.
WORK = 200


def ways():
    """Ways of all sorts."""
    return [Way(room, work, has_loop) for room in (0, 3) for work in (0, WORK) for has_loop in (False, True)]


def described(way):
    """A way in words."""
    parts = [f"channels with room for {way.room}" if way.room else "channels without a buffer"]
    parts += ["long turns"] if way.work else []
    parts += ["an endless loop"] if way.has_loop else []
    return ", ".join(parts)


def text(kind, count, way):
    """The program of a kind with a number of goroutines, at least 8."""
    parts = {"COUNT": count, "ROOM": way.room, "WORK": way.work, "LOOP": "go loop()" if way.has_loop else ""}
    found = HEAD + KINDS[kind]
    for name, part in parts.items():
        found = found.replace(name, str(part))
    return found
