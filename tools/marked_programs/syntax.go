// Lines that the grammar refuses.
package main
import "fmt"
type N struct { v int; p *N }

func main() { x := 1; (x) /* syntax */ := 1 }

func main() { new /* syntax */ := 1 }

var /* syntax */ new int

func main() { go fmt/* syntax */ .Println(1) }

func main() { x := &N{1, nil}/* syntax */ .v }
