// Counted changes. Used by: programs. What a call tells is the same in each client: change them together, with a case in
// clients/cases/counted.txt.

package mondlexi

import (
	"context"
	"errors"
	"fmt"
	"time"
)

// Counted makes changes of which it is found out whether they were made, if replies are lost and servers end.
//
// Each also moves a count by 2: a word, of any value at first, that nothing else writes. While a change is undecided, one of the
// count alone, by 1, is asked for until that is answered: either it is made, and the other never can be, or the count tells that the
// other was. One goroutine of one process at a time has a count, and one Counted of it; several of these may share a client, each
// with a count of its own.
type Counted struct {
	client      *Client
	address     int
	wait        time.Duration
	count       uint64
	isUndecided bool // a change is noted as undecided before it is sent
	isMade      bool // whether the last change was made, or, if it is undecided, may have been
}

// BeginCounted begins, at the count's address. wait is for how long to connect the client anew and ask again, while that fails or the
// server is busy.
//
// It moves the count: from then on no change of an earlier Counted of it is made any more. Its failures are those of Client.CAS.
func BeginCounted(ctx context.Context, client *Client, address int, wait time.Duration) (*Counted, error) {
	if err := checkTime("wait", wait); err != nil {
		return nil, err
	}
	counted := &Counted{client: client, address: address, wait: wait}
	for {
		value, isMoved, err := counted.move(ctx)
		if err != nil {
			return nil, err
		}
		counted.count = value
		if isMoved {
			return counted, nil
		}
	}
}

// CAS is as Client.CAS, of up to fifteen entries; but after ErrLost or ErrUnknown it connects the client anew and finds out. It first
// does so for the change before, if that is undecided, and forgets its outcome: call Settle first. What it tells as not made never
// will be. If a reply was lost it tells no word then, and perhaps none differs: read again, or send it again.
//
// Its failures: ErrUnknown, with its Cause, if its change stays undecided: then Settle tells. ErrMoved if something else writes the
// count. After any other its change was not made, and never will be.
func (o *Counted) CAS(ctx context.Context, entries ...Entry) (Outcome, error) {
	o.isMade = false
	if err := o.makeReady(ctx); err != nil {
		return Outcome{}, err
	}
	all := append(append([]Entry(nil), entries...), Entry{o.address, o.count, o.count + 2})
	if _, err := checkedEntries(all, o.client.Words()); err != nil {
		return Outcome{}, err
	}
	o.isUndecided, o.isMade = true, true
	outcome, err := o.client.CAS(ctx, all...)
	switch {
	case err == nil:
		return outcome, o.decide(outcome)
	case errors.Is(err, ErrLost), errors.Is(err, ErrUnknown):
		isMade, err := o.Settle(ctx)
		return Outcome{Made: isMade}, err
	case errors.Is(err, ErrFault), errors.Is(err, ErrWorn):
		return Outcome{}, o.undecided(err)
	}
	o.isUndecided, o.isMade = false, false
	return Outcome{}, err
}

// Settle tells whether the last change was made, whatever its CAS told; if not, it never will be. It is false before the first one.
//
// Its failures: ErrUnknown, with its Cause, as long as it can't tell: after wait, or at once from ErrFault, ErrWorn and ErrRefused.
// ErrMoved if something else writes the count.
func (o *Counted) Settle(ctx context.Context) (bool, error) {
	if err := o.findOut(ctx); err != nil {
		return false, o.undecided(err)
	}
	return o.isMade, nil
}

// decide notes what an answer says of the change.
func (o *Counted) decide(outcome Outcome) error {
	o.isUndecided, o.isMade = false, outcome.Made
	if outcome.Made {
		o.count += 2
	} else if outcome.Address == o.address {
		return o.movedByAnother()
	}
	return nil
}

func (o *Counted) movedByAnother() error {
	return &Error{Kind: ErrMoved, Text: fmt.Sprintf("the count at %d", o.address)}
}

// undecided is what is told if this leaves the last change undecided.
func (o *Counted) undecided(cause error) error {
	if errors.Is(cause, ErrMoved) {
		return cause
	}
	return &Error{Kind: ErrUnknown, Text: fmt.Sprintf("the last change with the count at %d: %v", o.address, cause), Cause: cause}
}

// makeReady settles the change before. A new one that waits for this was not sent, so it isn't ErrUnknown.
func (o *Counted) makeReady(ctx context.Context) error {
	err := o.findOut(ctx)
	if errors.Is(err, ErrUnknown) {
		return &Error{Kind: ErrLost, Text: "not sent: " + err.Error(), Cause: err}
	}
	return err
}

// findOut finds out whether the last change was made, if it is undecided.
func (o *Counted) findOut(ctx context.Context) error {
	if !o.isUndecided {
		return nil
	}
	value, _, err := o.move(ctx)
	if err != nil {
		return err
	}
	if value <= o.count || value > o.count+2 {
		return o.movedByAnother()
	}
	o.isMade = o.isMade && value == o.count+2
	o.count, o.isUndecided = value, false
	return nil
}

// move moves the count by 1, and tells its value then; or the other value that it has. While the server is busy or there is no
// connection it asks again, for wait.
func (o *Counted) move(ctx context.Context) (value uint64, isMoved bool, err error) {
	end := time.Now().Add(o.wait)
	for p := pauseUntil(end); ; {
		outcome, err := o.client.CAS(ctx, Entry{o.address, o.count, o.count + 1})
		if err == nil && outcome.Made {
			return o.count + 1, true, nil
		}
		isGone := errors.Is(err, ErrLost) || errors.Is(err, ErrUnknown)
		if !isGone && !errors.Is(err, ErrBusy) || !p.wait(ctx) {
			return outcome.Value, false, err
		}
		if isGone {
			if err = o.client.Reconnect(ctx, left(end)); err != nil {
				return 0, false, err
			}
		}
	}
}

// left is the time up to a moment, 0 if it has come.
func left(end time.Time) time.Duration {
	if time := time.Until(end); time > 0 {
		return time
	}
	return 0
}
