// Whole texts.

package main
import /* BadImport */ "os"
func main() {}

package main
import "fmt"
import /* Redeclared */ "fmt"
func main() {}

package main
import ( "fmt"; /* Redeclared */ "fmt" )
func main() {}

package main
func main() { /* NoSuchName */ fmt.Println(1) }

package main
func main() { fmt.Println(/* NoSuchName */ zz) }

package main
func main() { x := /* NoSuchName */ fmt.Println }

package main
import /* BadImport */ "os"
import "os"
func main() { zz() }

package main
import "fmt"
import /* Redeclared */ "fmt"
import "os"
func main() {}

package main
import "fmt"
func main() {}

package main
import ()
func main() {}

package main
func main() {}

package main
import "fmt"
func main() { x := 1 }
