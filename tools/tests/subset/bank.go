package main

import (
	"errors"
	"fmt"
	"sync"
)

var errFunds = errors.New("insufficient funds")

type Account struct {
	sync.Mutex
	id      int
	balance int64
}

type Bank struct {
	accounts map[int]*Account
	mu       sync.RWMutex
	history  []Transfer
}

type Transfer struct {
	From, To int
	Amount   int64
}

func NewBank(n int) *Bank {
	b := &Bank{accounts: make(map[int]*Account)}
	for i := 0; i < n; i++ {
		b.accounts[i] = &Account{id: i, balance: 100}
	}
	return b
}

func (b *Bank) Move(t Transfer) error {
	b.mu.RLock()
	from, ok := b.accounts[t.From]
	to := b.accounts[t.To]
	b.mu.RUnlock()
	if !ok || to == nil {
		return fmt.Errorf("no account for %v", t)
	}
	if from == to {
		return nil
	}
	first, second := from, to
	if first.id > second.id {
		first, second = second, first
	}
	first.Lock()
	defer first.Unlock()
	second.Lock()
	defer second.Unlock()
	if from.balance < t.Amount {
		return errFunds
	}
	from.balance -= t.Amount
	to.balance += t.Amount
	b.mu.Lock()
	b.history = append(b.history, t)
	b.mu.Unlock()
	return nil
}

func (b *Bank) Total() (sum int64) {
	for _, a := range b.accounts {
		sum += a.balance
	}
	return
}

func main() {
	bank := NewBank(10)
	var wg sync.WaitGroup
	for w := 0; w < 4; w++ {
		wg.Add(1)
		go func(w int) {
			defer wg.Done()
			for i := 0; i < 100; i++ {
				t := Transfer{From: (w + i) % 10, To: (w*3 + i*7) % 10, Amount: int64(i % 20)}
				if err := bank.Move(t); err != nil && err != errFunds {
					panic(err)
				}
			}
		}(w)
	}
	wg.Wait()
	fmt.Println(bank.Total())
}
