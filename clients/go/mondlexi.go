// The limits and the failures, beside what the package says of itself. Used by: programs, all files of this folder. A further failure is
// one of each client, has a word in clients/cases/README.md, and a case in play/main.go. The version is that of the programs.

// Package mondlexi is a client of Mondlexi, a server of durable words, with the standard library alone.
//
// A tenant owns words at the addresses 0, 1, 2 and so on, at most 4,096 of them. Each word has a value from 0 to 2^48 - 1, and is 0
// at first. A change compares up to sixteen words with the values that are expected of them, and, if all are equal, writes a new
// value to each: durably, and wholly or not at all.
//
// [Client] speaks for one tenant, [Administrator] asks how all tenants are, and [Counted] makes changes of which it is found out
// whether they were made if a reply is lost. A client has one connection, and holds one of the server's sessions until it is closed.
// Goroutines may share a client: one of them asks at a time.
//
// Each call has a context. One that is over ends the call; if that has asked already, the connection is closed.
package mondlexi

import (
	"errors"
	"fmt"
)

// Version is that of the server's programs with which this client was released.
const Version = "0.2.0+unreleased"

const (
	// MaxValue is the greatest value of a word.
	MaxValue uint64 = 1<<48 - 1
	// MaxWords is the most words that a tenant can have; the greatest address is one less.
	MaxWords = 4096
	// MaxEntries is the most words of one change, or of one Read.
	MaxEntries = 16
)

// The kinds of failures, for [errors.Is]. Undecided: a change was made, or it was not, or it will still be made.
//
//	kind          after CAS    after Counted.CAS    the connection
//	ErrLost       not made     not made             is closed
//	ErrFull       not made     not made             is closed
//	ErrUnknown    undecided    undecided            is closed
//	ErrBusy       not made     not made             stays
//	ErrFault      undecided    not made             stays
//	ErrWorn       undecided    not made             stays
//	ErrRefused    not made     not made             stays
//	ErrInvalid    not made     not made             stays
//	ErrMoved                   not known            stays
var (
	// ErrLost: there is no connection, or it broke or timed out before a reply, or a context was over. Nothing was changed.
	ErrLost = errors.New("no connection")
	// ErrFull is a kind of ErrLost: the server closed a new connection before it gave any reply, as one does that is full.
	ErrFull = errors.New("the server is full, or ends")
	// ErrUnknown: the connection broke or timed out, or a context was over, before a change was answered.
	ErrUnknown = errors.New("a change is undecided")
	// ErrBusy: the server was busy, or the words changed, for as long as the client has patience. Nothing was changed.
	ErrBusy = errors.New("the server was busy, or the words kept changing")
	// ErrFault: the tenant's file has failed or did not open. All calls end so until the server is started again.
	ErrFault = errors.New("the tenant's file has failed")
	// ErrWorn: a number of the server has come to its end. After a restart the server counts from 0 again.
	ErrWorn = errors.New("a number of the server has come to its end")
	// ErrRefused: the server refuses the line, by the error's Number, and has done nothing. 5: no tenant has the name.
	ErrRefused = errors.New("refused")
	// ErrInvalid: an argument is out of its range. Nothing was sent.
	ErrInvalid = errors.New("an argument is out of its range")
	// ErrMoved: something else has moved a count.
	ErrMoved = errors.New("something else has moved the count")
)

// Error is any failure of a call.
type Error struct {
	// Kind is one of the errors above.
	Kind error
	// Text says what happened.
	Text string
	// Cause is what led to it, or nil: an error of the network or of a context; and, of a Counted's ErrUnknown, the *Error that
	// leaves its change undecided.
	Cause error
	// Number of ErrRefused, 1 to 99: docs/PROTOCOL.md says what each stands for.
	Number int
}

// Error is the kind and the text.
func (e *Error) Error() string {
	return fmt.Sprintf("mondlexi: %v: %s", e.Kind, e.Text)
}

// Is tells whether this is of a kind. One of ErrFull is of ErrLost too.
func (e *Error) Is(kind error) bool {
	return kind == e.Kind || kind == ErrLost && e.Kind == ErrFull
}

// Unwrap gives the cause, unless that is a failure of this package: what is undecided because of ErrFault is not of its kind.
func (e *Error) Unwrap() error {
	var own *Error
	if errors.As(e.Cause, &own) {
		return nil
	}
	return e.Cause
}

func invalid(format string, values ...any) error {
	return &Error{Kind: ErrInvalid, Text: fmt.Sprintf(format, values...)}
}
