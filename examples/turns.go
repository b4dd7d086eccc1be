// A goroutine in a recursion that computes or, with a word, one that waits.
package main

import (
	"fmt"
	"os"
	"time"
)

//go:noinline
func turn(n int, waits bool) int {
	if n > 0 {
		return turn(n-1, waits) + n
	}
	total := 0
	for i := 0; !waits; i++ {
		total = (total*31 + i) % 1000003
	}
	time.Sleep(time.Hour)
	return total
}

func main() {
	fmt.Println(turn(6, len(os.Args) > 1))
}
