// A registry {Name,Pid,Port} of services. Its owner ends, and the heir gets the table and a message; the entries stay.
package main

import (
	"errors"
	"fmt"
	"log"
	"os"

	ets "yoyoash.example/yoyoash"
)

// These are the processes, by their numbers in the store.
const (
	keeper ets.Pid = iota
	standby
	mail
	web
)

var services = ets.Atom("services")

// must returns a reply, and ends the program if the request was refused.
func must(reply any, err error) any {
	if err != nil {
		log.Fatalf("registry: %v", err)
	}
	return reply
}

// enter registers a process under a name. A name is taken once.
func enter(store *ets.Store, pid ets.Pid, name string, port int) {
	outcome := "the name is taken"
	if must(store.Call(pid, "insert_new", services, ets.Tuple{name, pid, port})) == true {
		outcome = "registered"
	}
	fmt.Printf("%s by process %d: %s\n", name, pid, outcome)
}

// portOf prints the port of a service.
func portOf(store *ets.Store, name string) {
	port, err := store.Call(web, "lookup_element", services, name, 3, ets.Atom("none"))
	var refused *ets.Refused
	switch {
	case errors.As(err, &refused) && refused.Status == ets.BadArg:
		fmt.Printf("port of %s: the registry is gone\n", name)
	case must(port, err) == ets.Atom("none"):
		fmt.Printf("port of %s: not registered\n", name)
	default:
		fmt.Printf("port of %s: %d\n", name, port)
	}
}

// receive prints the messages of the standby: {'ETS-TRANSFER',Table,From,Data} for each table that it got.
func receive(store *ets.Store) {
	for _, it := range must(store.Call(standby, "receive")).(ets.List) {
		message := it.(ets.Tuple)
		fmt.Printf("process %d got %s from process %d: %s\n", standby, message[1], message[2], message[3])
	}
}

func main() {
	store, err := ets.Open(os.Args[1])
	if err != nil {
		log.Fatal(err)
	}
	defer store.Close()
	for pid := keeper; pid <= web; pid++ {
		must(store.Spawn(pid))
	}
	heir := ets.Tuple{ets.Atom("heir"), standby, ets.Atom("take_over")}
	must(store.Call(keeper, "new", services, ets.List{ets.Atom("named_table"), ets.Atom("public"), heir}))
	enter(store, mail, "mail", 25)
	enter(store, web, "web", 80)
	enter(store, web, "mail", 2525)
	must(store.Exit(keeper))
	receive(store)
	portOf(store, "mail")
	portOf(store, "ftp")
	must(store.Exit(standby))
	portOf(store, "mail")
}
