// The calls of a tenant and of the administrator. Used by: programs, counted.go. A further call is one of each client, has a case in
// play/main.go, and cases in clients/cases.

package mondlexi

import (
	"context"
	"sort"
	"time"
)

// Client is a session for one tenant, whose words it reads and changes.
type Client struct {
	session session
}

// Connect connects to a server, and speaks for a tenant from then on.
//
// server is where it listens. HOST:PORT: a name, or an address (of IPv6 in brackets), and a port from 1 to 65535; or unix:PATH: the
// path of a local socket, 1 to 107 bytes. tenant: a letter a to z, then up to 15 of a to z, 0 to 9 and "-". options: nil for
// DefaultOptions. The context is for connecting alone.
//
// Its failures: ErrInvalid, with nothing sent; ErrLost; ErrFull; ErrRefused, with number 5, if no tenant has the name.
func Connect(ctx context.Context, server, tenant string, options *Options) (*Client, error) {
	client := &Client{}
	greeting, err := tenantGreeting(tenant, &client.session.greeted)
	if err != nil {
		return nil, err
	}
	client.session.greeting = greeting
	if err = client.session.begin(ctx, server, options); err != nil {
		return nil, err
	}
	return client, nil
}

// Words is how many words the tenant has, 1 to MaxWords, as the server said when it was connected. It asks nobody.
func (c *Client) Words() int { return int(c.session.words.Load()) }

// Close ends the session and closes the connection. It waits for a call of another goroutine to end, and then for the server's
// goodbye, a second at most. Each further call ends as ErrLost, until Reconnect. It returns nil.
func (c *Client) Close() error {
	c.session.close()
	return nil
}

// Reconnect connects anew, after ErrLost, ErrUnknown or Close. A connection that there is, is closed first. within is for how long
// to try again, with growing pauses, if that fails.
//
// Its failures: ErrInvalid, with nothing done; ErrLost or ErrFull; ErrRefused at once.
func (c *Client) Reconnect(ctx context.Context, within time.Duration) error {
	return c.session.reconnect(ctx, within)
}

// Get is the value of the word at an address: durable, and no older than what this connection was told before. It costs no disk
// access.
//
// If the connection has broken, it connects anew and asks again, as often as the options say. Its failures: ErrInvalid; ErrLost;
// ErrFault; and, when it connects anew, ErrFull or ErrRefused.
func (c *Client) Get(ctx context.Context, address int) (uint64, error) {
	values, err := c.GetMany(ctx, []int{address})
	if err != nil {
		return 0, err
	}
	return values[0], nil
}

// GetMany is the values of any number of words, each of its own moment, by one round trip for up to 512. Its failures are those of
// Get.
func (c *Client) GetMany(ctx context.Context, addresses []int) ([]uint64, error) {
	if err := c.check(addresses); err != nil {
		return nil, err
	}
	values := make([]uint64, len(addresses))
	if len(addresses) == 0 {
		return values, nil
	}
	if err := c.session.ask(ctx, getQuestion(addresses, values)); err != nil {
		return nil, err
	}
	return values, nil
}

// Stable is the values of any number of words, all of one moment, without the disk: it reads them until two readings are equal.
//
// This is right only if no word that is read ever returns to an earlier value; put a word that only grows beside those that may.
// Its failures are those of Get, and ErrBusy if the words changed for as long as the client has patience.
func (c *Client) Stable(ctx context.Context, addresses []int) ([]uint64, error) {
	end := time.Now().Add(c.session.options.Patience)
	// The server answers a line before it looks at the next one, so two readings may be sent together.
	both, err := c.GetMany(ctx, append(append([]int(nil), addresses...), addresses...))
	if err != nil {
		return nil, err
	}
	before, values := both[:len(addresses)], both[len(addresses):]
	for !areEqual(values, before) {
		if !time.Now().Before(end) {
			return nil, &Error{Kind: ErrBusy, Text: "the words changed for " + c.session.options.Patience.String()}
		}
		before = values
		if values, err = c.GetMany(ctx, addresses); err != nil {
			return nil, err
		}
	}
	return values, nil
}

func areEqual(one, other []uint64) bool {
	for k := range one {
		if one[k] != other[k] {
			return false
		}
	}
	return true
}

// Read is the values of one to sixteen different words, all of one moment; one may come again.
//
// A single word is read by Get. Several are guessed, then confirmed by a change that writes to each the value that it has. So it
// costs the disk as much as a change, and beside many writers it may end as ErrBusy. Its failures are those of Get, ErrBusy and
// ErrWorn. It changes no word.
func (c *Client) Read(ctx context.Context, addresses []int) ([]uint64, error) {
	if err := c.check(addresses); err != nil {
		return nil, err
	}
	known := different(addresses)
	if len(known) < 1 || len(known) > MaxEntries {
		return nil, invalid("one to %d different words are read at a time", MaxEntries)
	}
	end := time.Now().Add(c.session.options.Patience)
	values, err := c.GetMany(ctx, known)
	if err == nil && len(known) > 1 {
		err = c.confirm(ctx, known, values, end)
	}
	if err != nil {
		return nil, err
	}
	found := make([]uint64, len(addresses))
	for k, address := range addresses {
		found[k] = values[sort.SearchInts(known, address)]
	}
	return found, nil
}

// different are the addresses, sorted, each once.
func different(addresses []int) []int {
	sorted := append([]int(nil), addresses...)
	sort.Ints(sorted)
	found := sorted[:0]
	for k, address := range sorted {
		if k == 0 || address != sorted[k-1] {
			found = append(found, address)
		}
	}
	return found
}

// confirm asks for the change that writes to each word its guessed value, and mends guesses that have gone stale, up to the end.
func (c *Client) confirm(ctx context.Context, addresses []int, values []uint64, end time.Time) error {
	for {
		var outcome Outcome
		asked := casQuestion(sameEntries(addresses, values), ErrLost, &outcome)
		if err := c.session.askPatiently(ctx, asked, end); err != nil || outcome.Made {
			return err
		}
		if !time.Now().Before(end) {
			return &Error{Kind: ErrBusy, Text: "the words changed for " + c.session.options.Patience.String()}
		}
		values[sort.SearchInts(addresses, outcome.Address)] = outcome.Value
	}
}

func sameEntries(addresses []int, values []uint64) []Entry {
	entries := make([]Entry, len(addresses))
	for k, address := range addresses {
		entries[k] = Entry{address, values[k], values[k]}
	}
	return entries
}

// CAS compares and swaps: it writes each entry's new value if all the words have the values expected, else nothing. One to sixteen
// entries in any order, each of another word. While the server is busy it asks again.
//
// Its failures: ErrInvalid, with nothing sent; ErrLost, ErrBusy, ErrRefused: not made. ErrUnknown, ErrFault, ErrWorn: undecided. It
// never connects anew.
func (c *Client) CAS(ctx context.Context, entries ...Entry) (Outcome, error) {
	checked, err := checkedEntries(entries, c.Words())
	if err != nil {
		return Outcome{}, err
	}
	var outcome Outcome
	err = c.session.askPatiently(ctx, casQuestion(checked, ErrUnknown, &outcome), time.Now().Add(c.session.options.Patience))
	return outcome, err
}

func (c *Client) check(addresses []int) error {
	words := c.Words()
	for _, address := range addresses {
		if address < 0 || address >= words {
			return invalid("the tenant has the addresses 0 to %d, not %d", words-1, address)
		}
	}
	return nil
}

// Administrator is a session of the administrator, who asks how the tenants are and sees no words.
type Administrator struct {
	session session
}

// ConnectAdministrator connects to a server, perhaps at a place for the administrator alone. Otherwise as Connect.
func ConnectAdministrator(ctx context.Context, server string, options *Options) (*Administrator, error) {
	administrator := &Administrator{}
	administrator.session.greeting = administratorGreeting()
	if err := administrator.session.begin(ctx, server, options); err != nil {
		return nil, err
	}
	return administrator, nil
}

// Report is how each tenant is, and the room of the server. It connects anew as Get of a Client does. Its failures: ErrLost, ErrFull,
// ErrRefused.
func (a *Administrator) Report(ctx context.Context) (Report, error) {
	var report Report
	err := a.session.ask(ctx, reportQuestion(&report))
	return report, err
}

// Reconnect is as that of a Client.
func (a *Administrator) Reconnect(ctx context.Context, within time.Duration) error {
	return a.session.reconnect(ctx, within)
}

// Close is as that of a Client.
func (a *Administrator) Close() error {
	a.session.close()
	return nil
}
