// The statements that `goheap gen` writes, done by a plain Go program: four goroutines, each with four registers and a global of its
// own. bench/soak.sh times it beside `goheap soak`. It writes how many statements were done, and how many of them found nil where they
// wanted an object.
package main

import (
	"fmt"
	"os"
	"strconv"
	"sync"
)

type node struct {
	fields [2]*node
	number uint64
}

type statement struct{ kind, a, c, k uint8 }

var globals [4]*node

// The next word of SplitMix64.
func next(state *uint64) uint64 {
	*state += 0x9E3779B97F4A7C15
	z := *state
	z = (z ^ (z >> 30)) * 0xBF58476D1CE4E5B9
	z = (z ^ (z >> 27)) * 0x94D049BB133111EB
	return z ^ (z >> 31)
}

func do(i int, statements []statement) (faults int) {
	var registers [4]*node
	for _, s := range statements {
		switch s.kind {
		case 0, 1:
			registers[s.a] = new(node)
		case 2:
			if registers[s.a] == nil {
				faults++
			} else {
				registers[s.a].fields[s.k] = registers[s.c]
			}
		case 3:
			if registers[s.c] == nil {
				faults++
			} else {
				registers[s.a] = registers[s.c].fields[s.k]
			}
		case 4:
			globals[i] = registers[s.a]
		case 5:
			registers[s.a] = globals[i]
		case 6:
			registers[s.a] = registers[s.c]
		case 7:
			registers[s.a] = nil
		}
	}
	return faults
}

func main() {
	seed, _ := strconv.ParseUint(os.Args[1], 10, 64)
	size, _ := strconv.Atoi(os.Args[2])
	var scripts [4][]statement
	for i := range scripts {
		scripts[i] = make([]statement, size/4)
		for j := range scripts[i] {
			x := next(&seed)
			scripts[i][j] = statement{uint8(x % 8), uint8(x / 8 % 4), uint8(x / 32 % 4), uint8(x / 128 % 2)}
		}
	}
	var faults [4]int
	var all sync.WaitGroup
	for i := range scripts {
		all.Add(1)
		go func() {
			faults[i] = do(i, scripts[i])
			all.Done()
		}()
	}
	all.Wait()
	fmt.Println(4*(size/4), faults[0]+faults[1]+faults[2]+faults[3])
}
