// Records a channel of Go from goroutines, and writes the recording: go run record.go [CALLS].
package main

import (
	"fmt"
	"os"
	"time"
)

func main() {
	calls := 8
	if len(os.Args) > 1 {
		fmt.Sscan(os.Args[1], &calls)
	}
	queue, logs, start := make(chan string, 4*calls), make(chan string), time.Now()
	now := func() int64 { return time.Since(start).Nanoseconds() + 1 }
	work := func(name string) {
		log := ""
		for count := 1; count <= calls; count++ {
			first, call, reply := now(), "deq", "empty"
			if text := fmt.Sprint(name, "-", count); count%4 == 1 || count%4 == 2 {
				queue <- text
				call, reply = "enq "+text, "done"
			} else {
				select {
				case text := <-queue:
					reply = "value " + text
				default:
				}
			}
			log += fmt.Sprintln(name, call, "from", first, "to", now(), "reply", reply)
		}
		logs <- log
	}
	fmt.Printf("msq record 1\noperations %d\n", 4*calls)
	for _, name := range []string{"t1", "t2", "t3", "t4"} {
		go work(name)
	}
	fmt.Print(<-logs, <-logs, <-logs, <-logs)
}
