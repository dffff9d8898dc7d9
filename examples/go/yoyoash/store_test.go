package yoyoash

import (
	"errors"
	"math/big"
	"os"
	"reflect"
	"strings"
	"sync"
	"testing"
)

// open starts the program that YOYOASH_PROGRAM names, with process 0 and a table that all may write.
func open(t *testing.T) *Store {
	store, err := Open(os.Getenv("YOYOASH_PROGRAM"))
	if err != nil {
		t.Fatal(err)
	}
	if pid, err := store.Spawn(0); pid != Pid(0) || err != nil {
		t.Fatal(pid, err)
	}
	if name, err := store.Call(0, "new", Atom("t"), List{Atom("named_table")}); name != Atom("t") || err != nil {
		t.Fatal(name, err)
	}
	return store
}

// TestTerms writes terms of all types and reads them back.
func TestTerms(t *testing.T) {
	store := open(t)
	defer store.Close()
	large := new(big.Int).Neg(new(big.Int).Lsh(big.NewInt(1), 127))
	long := make(Tuple, 300)
	for at := range long {
		long[at] = at
	}
	terms := []any{0, 255, 256, -1, 1 << 31, -1 << 63, large, Atom(""), Atom("truer"), true, false, "", "},{exit", Pid(7), Table(3), Tuple{}, List{}, List{1, 255}, List{1, "a"}, long}
	for _, term := range terms {
		if _, err := store.Call(0, "insert", Atom("t"), Tuple{1, term}); err != nil {
			t.Fatal(term, err)
		}
		if got, err := store.Call(0, "lookup_element", Atom("t"), 1, 2); err != nil || !reflect.DeepEqual(got, term) {
			t.Errorf("%#v and not %#v: %v", got, term, err)
		}
	}
	if isNew, err := store.Call(0, "insert_new", Atom("t"), Tuple{1}); isNew != false || err != nil {
		t.Error(isNew, err)
	}
	for _, term := range []any{nil, 1.5, Atom(strings.Repeat("a", 256)), new(big.Int).Lsh(large, 1)} {
		if _, err := store.Call(0, "insert", Atom("t"), Tuple{1, term}); err == nil {
			t.Errorf("%v was accepted", term)
		}
	}
}

// TestPipes has 64 goroutines write and read 12.8 MB each way at once: both pipes are full most of the time.
func TestPipes(t *testing.T) {
	store := open(t)
	defer store.Close()
	var running sync.WaitGroup
	for each := 0; each < 64; each++ {
		running.Add(1)
		go func() {
			defer running.Done()
			reply, err := store.Call(0, "lookup_element", Atom("t"), 1, 2, strings.Repeat("x", 200000))
			if text, _ := reply.(string); len(text) != 200000 || err != nil {
				t.Errorf("%d bytes: %v", len(text), err)
			}
		}()
	}
	running.Wait()
}

// TestEnd has a refused call, and calls after the program has ended.
func TestEnd(t *testing.T) {
	store := open(t)
	var refused *Refused
	if _, err := store.Call(9, "lookup", Atom("t"), 1); !errors.As(err, &refused) || refused.Status != NoProcess {
		t.Error(err)
	}
	if err := store.program.Process.Kill(); err != nil {
		t.Fatal(err)
	}
	for each := 0; each < 3; each++ {
		if reply, err := store.Call(0, "lookup", Atom("t"), 1); err == nil {
			t.Error(reply)
		}
	}
	if store.Close() == nil {
		t.Error("the program was killed")
	}
}

// TestClose closes a store while 64 requests wait for their replies, and twice. Each request is answered, or refused as one after it.
func TestClose(t *testing.T) {
	store := open(t)
	var running sync.WaitGroup
	for each := 0; each < 64; each++ {
		running.Add(1)
		go func() {
			defer running.Done()
			reply, err := store.Call(0, "lookup_element", Atom("t"), 1, 2, strings.Repeat("x", 200000))
			if text, _ := reply.(string); len(text) != 200000 && err != ErrClosed {
				t.Errorf("%d bytes: %v", len(text), err)
			}
		}()
	}
	if err := store.Close(); err != nil {
		t.Error(err)
	}
	running.Wait()
	if _, err := store.Spawn(1); err != ErrClosed {
		t.Error(err)
	}
	if err := store.Close(); err != ErrClosed {
		t.Error(err)
	}
}

// TestShort decodes the beginnings of a reply, each of which is an error.
func TestShort(t *testing.T) {
	whole, err := encode([]byte{131}, Tuple{Atom("a"), List{1, "b", Pid(1), Table(2)}, 1 << 40})
	if err != nil {
		t.Fatal(err)
	}
	for end := range whole {
		if term, err := decode(whole[:end:end]); err == nil {
			t.Errorf("%d bytes: %v", end, term)
		}
	}
}
