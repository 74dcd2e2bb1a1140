// A session: it connects, asks, asks again, and tells how a lost connection counts. Used by: client.go, counted.go. When it asks again is
// the same in each client: change them together, with a case in clients/cases.

package mondlexi

import (
	"context"
	"crypto/tls"
	"errors"
	"fmt"
	"strings"
	"sync/atomic"
	"syscall"
	"time"
)

// MaxTime is the longest time of an option.
const MaxTime = 1_000_000 * time.Second

// MaxReconnects is the most times that one call may connect anew.
const MaxReconnects = 1000

const goodbye = time.Second

// Options are how long a client waits, and how often it asks. Begin with DefaultOptions. Times are up to MaxTime.
type Options struct {
	// Timeout is how long to wait for a connection, and then for each reply, above 0.
	Timeout time.Duration
	// Patience is for how long CAS, Read and Stable ask again, with growing pauses, while the server is busy; 0 for not at all.
	Patience time.Duration
	// Within is for how long to try again if connecting fails, also when a call connects anew; 0 for one try.
	Within time.Duration
	// Reconnects is how often one call of Get, GetMany, Read, Stable or Report connects anew and asks again if the connection has
	// broken, 0 to MaxReconnects. A reply that doesn't come in time isn't asked for again.
	Reconnects int
	// TLS, if it isn't nil: speaks TLS over TCP. The server itself has no TLS: a proxy in front of it has.
	TLS *tls.Config
}

// DefaultOptions are 10 seconds for a reply, 5 seconds of patience, one try to connect, and one connection anew in a call.
func DefaultOptions() Options {
	return Options{Timeout: 10 * time.Second, Patience: 5 * time.Second, Reconnects: 1}
}

func checkTime(name string, time time.Duration) error {
	if time < 0 || time > MaxTime {
		return invalid("%s has to be from 0 to %v", name, MaxTime)
	}
	return nil
}

func checkOptions(options Options, at place) error {
	for name, time := range map[string]time.Duration{"Timeout": options.Timeout, "Patience": options.Patience, "Within": options.Within} {
		if err := checkTime(name, time); err != nil {
			return err
		}
	}
	if options.Timeout == 0 {
		return invalid("Timeout has to be above 0")
	}
	if options.Reconnects < 0 || options.Reconnects > MaxReconnects {
		return invalid("Reconnects has to be from 0 to %d", MaxReconnects)
	}
	if options.TLS != nil && at.host == "" {
		return invalid("TLS is for TCP, not for a local socket")
	}
	return nil
}

type state int

const (
	isClosed state = iota // by its owner, or not begun
	isBroken              // without a connection because one broke, or could not be made
	isOpen
)

// session is a session, over one connection after the other. Whatever uses the connection has the turn.
type session struct {
	options  Options
	at       place
	greeting *question
	greeted  int // the words that the last greeting told
	words    atomic.Int64
	turn     chan struct{}
	state    state
	link     *link
}

// begin checks the options, and connects.
func (s *session) begin(ctx context.Context, server string, options *Options) (err error) {
	if s.at, err = placeOf(server); err != nil {
		return err
	}
	s.options = DefaultOptions()
	if options != nil {
		s.options = *options
	}
	if err = checkOptions(s.options, s.at); err != nil {
		return err
	}
	s.turn = make(chan struct{}, 1)
	return s.beginUntil(ctx, time.Now().Add(s.options.Within), false)
}

// take waits for the turn.
func (s *session) take(ctx context.Context) error {
	select {
	case s.turn <- struct{}{}:
		return nil
	case <-ctx.Done():
		return &Error{Kind: ErrLost, Text: "not sent: " + ctx.Err().Error(), Cause: ctx.Err()}
	}
}

func (s *session) give() { <-s.turn }

// reconnect ends a session that there is, and begins anew.
func (s *session) reconnect(ctx context.Context, within time.Duration) error {
	if err := checkTime("within", within); err != nil {
		return err
	}
	end := time.Now().Add(within)
	s.close()
	return s.beginUntil(ctx, end, false)
}

// close ends the session, and waits for the server's goodbye, a second at most.
func (s *session) close() {
	s.turn <- struct{}{}
	defer s.give()
	if s.state == isOpen {
		limit := goodbye
		if s.options.Timeout < limit {
			limit = s.options.Timeout
		}
		s.link.finish(time.Now().Add(limit))
	}
	s.drop()
	s.state = isClosed
}

func (s *session) drop() {
	if s.link != nil {
		s.link.conn.Close()
	}
	s.link, s.state = nil, isBroken
}

// beginUntil begins; if there is no connection it tries again, with growing pauses, up to the end. A repair leaves a session alone
// that somebody else has repaired or closed.
func (s *session) beginUntil(ctx context.Context, end time.Time, isRepair bool) error {
	for p := pauseUntil(end); ; {
		err := s.beginTurn(ctx, isRepair)
		if !errors.Is(err, ErrLost) || !p.wait(ctx) {
			return err
		}
	}
}

func (s *session) beginTurn(ctx context.Context, isRepair bool) error {
	if err := s.take(ctx); err != nil {
		return err
	}
	defer s.give()
	if isRepair && s.state != isBroken {
		return nil
	}
	return s.beginOnce(ctx)
}

// beginOnce makes a new connection and its greeting, in place of what there was.
func (s *session) beginOnce(ctx context.Context) error {
	s.drop()
	made, err := dial(ctx, s.at, s.options.TLS, s.options.Timeout)
	if err != nil {
		kind := ErrLost
		if errors.Is(err, syscall.ECONNRESET) && s.options.TLS == nil {
			kind = ErrFull
		}
		return &Error{Kind: kind, Text: "connecting: " + err.Error(), Cause: err}
	}
	s.link = made
	if _, err = s.answer(ctx, s.greeting); err != nil {
		s.drop()
		return err
	}
	s.words.Store(int64(s.greeted))
	s.state = isOpen
	return nil
}

// ask asks a question. If it can change nothing and the connection has broken, it is asked again over a new one, as often as the
// options say. A reply that is late isn't waited for again.
func (s *session) ask(ctx context.Context, asked *question) error {
	left := 0
	if asked.gone == ErrLost {
		left = s.options.Reconnects
	}
	for ; ; left-- {
		canAskAgain, err := s.askTurn(ctx, asked)
		if !errors.Is(err, ErrLost) || left == 0 || !canAskAgain {
			return err
		}
		if err = s.beginUntil(ctx, time.Now().Add(s.options.Within), true); err != nil {
			return err
		}
	}
}

// askPatiently asks again while the server is busy, up to the end.
func (s *session) askPatiently(ctx context.Context, asked *question, end time.Time) error {
	for p := pauseUntil(end); ; {
		err := s.ask(ctx, asked)
		if !errors.Is(err, ErrBusy) || !p.wait(ctx) {
			return err
		}
	}
}

// askTurn asks over the connection that there is, and tells whether a new one may help.
func (s *session) askTurn(ctx context.Context, asked *question) (canAskAgain bool, err error) {
	if err := s.take(ctx); err != nil {
		return false, err
	}
	defer s.give()
	switch s.state {
	case isClosed:
		return false, &Error{Kind: ErrLost, Text: asked.lines[0] + ": not sent, the client is closed"}
	case isBroken:
		return true, &Error{Kind: ErrLost, Text: asked.lines[0] + ": not sent, the client has lost its connection"}
	}
	return s.answer(ctx, asked)
}

// answer asks. Whatever ends the exchange before its last reply closes the connection, because a late reply would be taken for that
// of the next line. It also tells whether a new connection may help.
func (s *session) answer(ctx context.Context, asked *question) (canAskAgain bool, err error) {
	replies, err := s.exchange(ctx, asked)
	if err == nil {
		if failure := firstFailure(asked.lines, replies); failure != nil {
			return false, failure
		}
		if asked.meaning(replies) {
			return false, nil
		}
		err = strange(strings.Join(replies[0], "; "))
	}
	kind, late, text := asked.gone, isLate(ctx, err), err.Error()
	if s.link.isSilent && !late {
		kind = ErrFull
	}
	if late && ctx.Err() == nil {
		text = noReply(s.link.isSilent, s.options.Timeout)
	}
	s.drop()
	return !late, &Error{Kind: kind, Text: asked.lines[0] + ": " + text, Cause: err}
}

// noReply is what is told of a reply that did not come in time.
func noReply(isSilent bool, timeout time.Duration) string {
	text := fmt.Sprintf("connected, but no reply in %v", timeout)
	if isSilent {
		text += "; perhaps all sessions are taken (mwserve --clients)"
	}
	return text
}

// exchange sends the lines and reads their replies.
func (s *session) exchange(ctx context.Context, asked *question) ([]reply, error) {
	defer s.link.watch(ctx)()
	replies := make([]reply, 0, len(asked.lines))
	for len(replies) < len(asked.lines) {
		lines := asked.lines[len(replies):]
		if len(lines) > linesAtOnce {
			lines = lines[:linesAtOnce]
		}
		if err := s.link.send(ctx, strings.Join(lines, "\n")+"\n", time.Now().Add(s.options.Timeout)); err != nil {
			return nil, err
		}
		told, err := s.replies(ctx, len(lines), asked.isReport)
		if err != nil {
			return nil, err
		}
		replies = append(replies, told...)
	}
	if len(s.link.rest) > 0 {
		return nil, strange(string(s.link.rest))
	}
	return replies, nil
}

// replies reads so many replies.
func (s *session) replies(ctx context.Context, count int, isReport bool) ([]reply, error) {
	found := make([]reply, 0, count)
	for len(found) < count {
		one, err := s.link.reply(ctx, isReport, s.options.Timeout)
		if err != nil {
			return nil, err
		}
		found = append(found, one)
	}
	return found, nil
}

// firstFailure is the first failure that a reply tells; nil if none does.
func firstFailure(lines []string, replies []reply) error {
	for k, it := range replies {
		if err := failureOf(lines[k], it[len(it)-1]); err != nil {
			return err
		}
	}
	return nil
}
