// The same in Go: arguments printed from a goroutine, and their number as the status.
package main

import (
	"fmt"
	"os"
)

func main() {
	done := make(chan int)
	go func() {
		for i, argument := range os.Args[1:] {
			fmt.Printf("%d <%s>\n", i, argument)
		}
		done <- len(os.Args) - 1
	}()
	os.Exit(<-done)
}
