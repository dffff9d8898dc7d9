// Package yoyoash calls a store over the pipe of `ets_script --external`. Any goroutine may call it: requests are written by
// their callers and replies read by a goroutine at the same time, so that neither side waits for the other.
package yoyoash

import (
	"bufio"
	"encoding/binary"
	"errors"
	"io"
	"os/exec"
	"sync"
)

// Store is a program that runs, and the callers that wait for its replies, in the order of their requests.
type Store struct {
	lock     sync.Mutex
	isClosed bool
	input    io.WriteCloser
	waiting  chan chan []byte
	answered chan struct{}
	program  *exec.Cmd
}

// Open starts a store: the program ets_script at this path, and its options, such as "--max-objects", "5000000".
func Open(path string, options ...string) (*Store, error) {
	program := exec.Command(path, append([]string{"--external"}, options...)...)
	input, err := program.StdinPipe()
	if err != nil {
		return nil, err
	}
	output, err := program.StdoutPipe()
	if err != nil {
		return nil, err
	}
	store := &Store{input: input, waiting: make(chan chan []byte, 4096), answered: make(chan struct{}), program: program}
	if err := program.Start(); err != nil {
		return nil, err
	}
	go store.read(bufio.NewReader(output))
	return store, nil
}

// Spawn starts the process with this number, which is used once. Returns its identifier.
func (store *Store) Spawn(pid Pid) (any, error) { return store.ask(0, pid, nil) }

// Exit ends a process. Each of its tables goes to its heir or is deleted.
func (store *Store) Exit(pid Pid) (any, error) { return store.ask(1, pid, nil) }

// Call makes a call for a process, such as Call(0, "lookup", Atom("prices"), "apple"). Returns its reply.
func (store *Store) Call(pid Pid, name string, arguments ...any) (any, error) {
	call, err := encode([]byte{131}, Tuple{Atom(name), List(arguments)})
	if err != nil {
		return nil, err
	}
	return store.ask(2, pid, call)
}

// Close ends the program, whose tables are lost, after it has answered the requests that it got. Later requests return ErrClosed.
func (store *Store) Close() error {
	store.lock.Lock()
	defer store.lock.Unlock()
	if store.isClosed {
		return ErrClosed
	}
	store.isClosed = true
	close(store.waiting)
	store.input.Close()
	<-store.answered
	return store.program.Wait()
}

// ask sends a request and waits for its reply.
func (store *Store) ask(kind byte, pid Pid, call []byte) (any, error) {
	packet := binary.BigEndian.AppendUint32(nil, uint32(5+len(call)))
	packet = binary.BigEndian.AppendUint32(append(packet, kind), uint32(pid))
	reply := make(chan []byte, 1)
	if err := store.send(append(packet, call...), reply); err != nil {
		return nil, err
	}
	switch body := <-reply; {
	case len(body) == 0:
		return nil, errors.New("the store has ended")
	case body[0] == 0:
		return decode(body[1:])
	case body[0] == 7:
		return nil, ErrUntold
	default:
		return nil, &Refused{Status(body[0]), string(body[1:])}
	}
}

// send writes a packet, whose reply goes to a channel.
func (store *Store) send(packet []byte, reply chan []byte) error {
	store.lock.Lock()
	defer store.lock.Unlock()
	if store.isClosed {
		return ErrClosed
	}
	store.waiting <- reply
	_, err := store.input.Write(packet)
	return err
}

// read hands each reply to the caller that waits for it, and an empty one after the end of the program.
func (store *Store) read(output io.Reader) {
	defer close(store.answered)
	for waiting := range store.waiting {
		var head [4]byte
		if _, err := io.ReadFull(output, head[:]); err != nil {
			waiting <- nil
			continue
		}
		body := make([]byte, binary.BigEndian.Uint32(head[:]))
		if _, err := io.ReadFull(output, body); err != nil {
			body = nil
		}
		waiting <- body
	}
}
