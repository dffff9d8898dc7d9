// A limit of 100 requests for each client in a window of time. Four goroutines count in one store: update_counter adds 1 and
// returns the new count in one step, so no two goroutines get the same count.
package main

import (
	"fmt"
	"log"
	"os"
	"sync"
	"sync/atomic"

	ets "yoyoash.example/yoyoash"
)

const workers, requests, most = 4, 50, 100

// count counts a request of a client in a window. Returns the count.
func count(store *ets.Store, pid ets.Pid, client string, window int) int {
	key := ets.Tuple{client, window}
	counted, err := store.Call(pid, "update_counter", ets.Atom("counts"), key, ets.Tuple{2, 1}, ets.Tuple{ets.Atom("none"), 0})
	if err != nil {
		log.Fatalf("rate_limiter: %v", err)
	}
	return counted.(int)
}

func main() {
	store, err := ets.Open(os.Args[1])
	if err != nil {
		log.Fatal(err)
	}
	defer store.Close()
	for pid := ets.Pid(0); pid < workers; pid++ {
		if _, err := store.Spawn(pid); err != nil {
			log.Fatal(err)
		}
	}
	if _, err := store.Call(0, "new", ets.Atom("counts"), ets.List{ets.Atom("named_table"), ets.Atom("public")}); err != nil {
		log.Fatal(err)
	}
	var allowed, refused int64
	var running sync.WaitGroup
	for pid := ets.Pid(0); pid < workers; pid++ {
		running.Add(1)
		go func(pid ets.Pid) {
			defer running.Done()
			for sent := 0; sent < requests; sent++ {
				if count(store, pid, "10.0.0.7", 1) <= most {
					atomic.AddInt64(&allowed, 1)
				} else {
					atomic.AddInt64(&refused, 1)
				}
			}
		}(pid)
	}
	running.Wait()
	fmt.Printf("%d goroutines sent %d requests: %d allowed, %d refused\n", workers, workers*requests, allowed, refused)
	fmt.Printf("the next window begins with count %d\n", count(store, 0, "10.0.0.7", 2))
}
