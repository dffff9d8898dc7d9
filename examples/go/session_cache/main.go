// A cache of sessions {Name,User,End}: a match specification deletes those that have ended. Times are seconds, which the program
// gives itself.
package main

import (
	"fmt"
	"log"
	"os"

	ets "yoyoash.example/yoyoash"
)

var sessions = ets.Atom("sessions")

// cache is a store with the table of sessions, which process 0 owns.
type cache struct{ store *ets.Store }

// must makes a call, and ends the program if it is refused.
func (it cache) must(name string, arguments ...any) any {
	reply, err := it.store.Call(0, name, arguments...)
	if err != nil {
		log.Fatalf("session_cache: %s: %v", name, err)
	}
	return reply
}

// begin begins a session. Whatever name and user hold, they stay binaries.
func (it cache) begin(name, user string, end int) {
	it.must("insert", sessions, ets.Tuple{name, user, end})
}

// show prints the user and the end of a session, if it exists.
func (it cache) show(name string) {
	found := it.must("lookup", sessions, name).(ets.List)
	if len(found) == 0 {
		fmt.Printf("%s: no session\n", name)
		return
	}
	session := found[0].(ets.Tuple)
	fmt.Printf("%s: user %s, ends at %d\n", name, session[1], session[2])
}

// expire deletes the sessions that ended before now. Returns their number.
func (it cache) expire(now int) any {
	pattern := ets.Tuple{ets.Atom("_"), ets.Atom("_"), ets.Atom("$1")}
	hasEnded := ets.Tuple{ets.Atom("<"), ets.Atom("$1"), now}
	return it.must("select_delete", sessions, ets.List{ets.Tuple{pattern, ets.List{hasEnded}, ets.List{true}}})
}

func main() {
	store, err := ets.Open(os.Args[1])
	if err != nil {
		log.Fatal(err)
	}
	defer store.Close()
	if _, err := store.Spawn(0); err != nil {
		log.Fatal(err)
	}
	it := cache{store}
	it.must("new", sessions, ets.List{ets.Atom("named_table")})
	it.begin("s1", "anna", 160)
	it.begin("s2", "ben", 170)
	it.begin("s3", "}),exit(", 300)
	it.show("s1")
	it.show("s3")
	fmt.Printf("expired at 165: %d\n", it.expire(165))
	it.show("s1")
	it.show("s2")
}
