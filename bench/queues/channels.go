// Times Go's channels: `channels SECONDS` prints a line a run: the queue, the kind of work, the nanoseconds a pair, or a value taken,
// and how long the run was. works.rs says what a thread does in each kind; here each is a goroutine that sends and receives so many
// times, and sleeps where it has to wait, and a run ends with its last one.
package main

import (
	"fmt"
	"os"
	"strconv"
	"strings"
	"sync"
	"time"
)

type pair struct{ seat, body uint64 }

const burst = 100

// Of each goroutine: b does pairs, u pushes, o pops, r bursts; how many pairs or values there are, and how many the channel holds.
type kind struct {
	name, works  string
	values, room int
}

var kinds = []kind{
	{"one", "b", 100_000, 64},
	{"four", "bbbb", 80_000, 64},
	{"pair", "uo", 40_000, 64},
	{"two", "uuoo", 40_000, 64},
	{"three", "uuuo", 36_000, 64},
	{"one-three", "uooo", 36_000, 64},
	{"four-burst", "rrrr", 80_000, 512},
}

func does(work rune, values chan pair, count int) {
	size := 1
	if work == 'r' {
		size = burst
	}
	for done := 0; done < count; done += size {
		for k := 0; k < size && work != 'o'; k++ {
			values <- pair{1, 1}
		}
		for k := 0; k < size && work != 'u'; k++ {
			<-values
		}
	}
}

func run(its kind) time.Duration {
	values := make(chan pair, its.room)
	start := make(chan bool)
	var all sync.WaitGroup
	for _, work := range its.works {
		all.Add(1)
		go func(work rune) {
			defer all.Done()
			<-start
			does(work, values, its.values/strings.Count(its.works, string(work)))
		}(work)
	}
	time.Sleep(10 * time.Millisecond)
	began := time.Now()
	close(start)
	all.Wait()
	return time.Since(began)
}

func main() {
	seconds, _ := strconv.ParseFloat(os.Args[1], 64)
	for began := time.Now(); time.Since(began).Seconds() < seconds; {
		for _, its := range kinds {
			took := run(its)
			fmt.Printf("go chan\t%s\t%.2f\t%d\n", its.name, float64(took.Nanoseconds())/float64(its.values), took.Nanoseconds())
		}
	}
}
