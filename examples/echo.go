package main
import "fmt"
type N struct { v int; p *N }
func echo(a, b chan int) { for i := 0; i < 5; i++ { b <- <-a + 1 } }
func main() {
	a := make(chan int)
	b := make(chan int)
	go echo(a, b)
	for i := 0; i < 5; i++ {
		a <- i * 10
		fmt.Println(<-b)
	}
}
