package main

import (
	"fmt"
	"sync"
)

type Op int

const (
	Get Op = iota
	Put
	Del
)

type Request struct {
	Op    Op
	Key   string
	Value int
	Reply chan Response
}

type Response struct {
	Value int
	Found bool
}

type Server struct {
	requests chan *Request
	data     map[string]int
	served   [3]uint64
}

func (s *Server) loop() {
	for r := range s.requests {
		s.served[r.Op]++
		var resp Response
		switch r.Op {
		case Get:
			resp.Value, resp.Found = s.data[r.Key]
		case Put:
			s.data[r.Key] = r.Value
			resp = Response{r.Value, true}
		case Del:
			if _, ok := s.data[r.Key]; ok {
				delete(s.data, r.Key)
				resp.Found = true
			}
		}
		r.Reply <- resp
	}
}

func (s *Server) do(op Op, key string, value int) Response {
	reply := make(chan Response, 1)
	s.requests <- &Request{op, key, value, reply}
	return <-reply
}

func main() {
	s := &Server{requests: make(chan *Request), data: map[string]int{}}
	go s.loop()
	var wg sync.WaitGroup
	for c := 0; c < 4; c++ {
		wg.Add(1)
		go func(c int) {
			defer wg.Done()
			for i := 0; i < 25; i++ {
				key := fmt.Sprintf("k%d", c*25+i)
				s.do(Put, key, i)
				if r := s.do(Get, key, 0); !r.Found || r.Value != i {
					panic("lost " + key)
				}
				if i%2 == 0 {
					s.do(Del, key, 0)
				}
			}
		}(c)
	}
	wg.Wait()
	close(s.requests)
	fmt.Println(len(s.data), s.served[Get], s.served[Put], s.served[Del])
}
