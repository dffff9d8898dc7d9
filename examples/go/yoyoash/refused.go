package yoyoash

import (
	"errors"
	"fmt"
)

// Status says why a request was refused. After each of these nothing has changed.
type Status byte

// These are the statuses of refusals.
const (
	BadArg      Status = 1 // the call's name, its arguments or the access are wrong
	SystemLimit Status = 2 // a limit would be passed
	NoProcess   Status = 3 // the process was never spawned, or has ended
	NoMemory    Status = 4 // out of memory
	Syntax      Status = 5 // the bytes are not a call
)

// Refused is the error of a request that was refused. Compare its Status. Its Reason is for people.
type Refused struct {
	Status Status
	Reason string
}

func (it *Refused) Error() string { return fmt.Sprintf("status %d: %s", it.Status, it.Reason) }

// ErrUntold is the error of a call that was made, but whose reply did not fit the memory or a packet.
var ErrUntold = errors.New("the call was made, but its reply was lost")

// ErrClosed is the error of a request after Close.
var ErrClosed = errors.New("the store is closed")
