// Play is the client in Go, as the program of clients/cases/README.md: it reads calls, one a line, and tells what each tells.
//
// Used by: scripts/check-clients. A further call or failure of that page is a case here, and in play of each language. Status 0.
package main

import (
	"bufio"
	"context"
	"errors"
	"fmt"
	"os"
	"strconv"
	"strings"
	"time"

	"mondlexi"
)

// ender is what both kinds of client have.
type ender interface {
	Reconnect(ctx context.Context, within time.Duration) error
	Close() error
}

// player has the clients and the count of the last calls that made one.
type player struct {
	client        *mondlexi.Client
	administrator *mondlexi.Administrator
	last          ender
	counted       *mondlexi.Counted
}

var background = context.Background()

var kinds = []struct {
	kind error
	name string
}{
	{mondlexi.ErrInvalid, "invalid"}, {mondlexi.ErrFull, "full"}, {mondlexi.ErrLost, "lost"}, {mondlexi.ErrUnknown, "unknown"},
	{mondlexi.ErrBusy, "busy"}, {mondlexi.ErrFault, "fault"}, {mondlexi.ErrWorn, "worn"}, {mondlexi.ErrRefused, "refused"},
	{mondlexi.ErrMoved, "moved"},
}

func kindOf(err error) string {
	for _, it := range kinds {
		if errors.Is(err, it.kind) {
			return it.name
		}
	}
	return err.Error()
}

func failure(err error) string {
	var own, cause *mondlexi.Error
	name := kindOf(err)
	switch {
	case errors.Is(err, mondlexi.ErrRefused) && errors.As(err, &own):
		return fmt.Sprintf("refused %d", own.Number)
	case name == "unknown" && errors.As(err, &own) && errors.As(own.Cause, &cause):
		return "unknown from " + failure(cause)
	}
	return name
}

func number(text string) int {
	found, err := strconv.Atoi(text)
	if err != nil {
		panic(err)
	}
	return found
}

func milliseconds(text string) time.Duration { return time.Duration(number(text)) * time.Millisecond }

func optionsOf(words []string) *mondlexi.Options {
	options := mondlexi.DefaultOptions()
	for _, word := range words {
		name, value, _ := strings.Cut(word, "=")
		switch name {
		case "timeout":
			options.Timeout = milliseconds(value)
		case "patience":
			options.Patience = milliseconds(value)
		case "within":
			options.Within = milliseconds(value)
		default:
			options.Reconnects = number(value)
		}
	}
	return &options
}

func addressesOf(words []string) []int {
	addresses := make([]int, len(words))
	for k, word := range words {
		addresses[k] = number(word)
	}
	return addresses
}

func entriesOf(words []string) []mondlexi.Entry {
	entries := make([]mondlexi.Entry, len(words))
	for k, word := range words {
		parts := strings.Split(word, ":")
		entries[k] = mondlexi.Entry{Address: number(parts[0]), Expected: uint64(number(parts[1])), Value: uint64(number(parts[2]))}
	}
	return entries
}

func told(text string, err error) string {
	if err != nil {
		return failure(err)
	}
	return text
}

func toldValues(values []uint64, err error) string {
	text := "values"
	for _, value := range values {
		text += fmt.Sprintf(" %d", value)
	}
	return told(text, err)
}

func toldOutcome(outcome mondlexi.Outcome, err error) string {
	switch {
	case outcome.Made:
		return told("made", err)
	case outcome.Known:
		return told(fmt.Sprintf("not %d %d", outcome.Address, outcome.Value), err)
	}
	return told("not", err)
}

func toldReport(report mondlexi.Report, err error) string {
	text := ""
	for _, it := range report.Tenants {
		state := "down"
		if it.Up {
			state = "up"
		}
		text += fmt.Sprintf("tenant %s %d %d %d %d %s; ", it.Name, it.Words, it.Quota, it.Places, it.UnderWay, state)
	}
	return told(text+fmt.Sprintf("free %d", report.Free), err)
}

func (p *player) connect(words []string) string {
	client, err := mondlexi.Connect(background, words[0], words[1], optionsOf(words[2:]))
	if err != nil {
		return failure(err)
	}
	p.client, p.last = client, client
	return fmt.Sprintf("words %d", client.Words())
}

func (p *player) administer(words []string) string {
	administrator, err := mondlexi.ConnectAdministrator(background, words[0], optionsOf(words[1:]))
	if err != nil {
		return failure(err)
	}
	p.administrator, p.last = administrator, administrator
	return "connected"
}

func (p *player) count(words []string) string {
	wait := "wait=30000"
	if len(words) > 1 {
		wait = words[1]
	}
	counted, err := mondlexi.BeginCounted(background, p.client, number(words[0]), milliseconds(strings.TrimPrefix(wait, "wait=")))
	p.counted = counted
	return told("counted", err)
}

func (p *player) settle() string {
	isMade, err := p.counted.Settle(background)
	return toldOutcome(mondlexi.Outcome{Made: isMade}, err)
}

func (p *player) close() string {
	if p.last != nil {
		p.last.Close()
	}
	return "closed"
}

func (p *player) call(name string, words []string) string {
	switch name {
	case "client":
		return p.connect(words)
	case "administrator":
		return p.administer(words)
	case "get":
		value, err := p.client.Get(background, number(words[0]))
		return toldValues([]uint64{value}, err)
	case "get_many":
		return toldValues(p.client.GetMany(background, addressesOf(words)))
	case "read":
		return toldValues(p.client.Read(background, addressesOf(words)))
	case "stable":
		return toldValues(p.client.Stable(background, addressesOf(words)))
	case "cas":
		return toldOutcome(p.client.CAS(background, entriesOf(words)...))
	case "counted":
		return p.count(words)
	case "counted_cas":
		return toldOutcome(p.counted.CAS(background, entriesOf(words)...))
	case "settle":
		return p.settle()
	case "report":
		return toldReport(p.administrator.Report(background))
	case "reconnect":
		return told("connected", p.last.Reconnect(background, milliseconds(words[0])))
	case "close":
		return p.close()
	}
	panic("no call: " + name)
}

func main() {
	var it player
	lines := bufio.NewScanner(os.Stdin)
	for lines.Scan() {
		words := strings.Fields(lines.Text())
		fmt.Println(it.call(words[0], words[1:]))
	}
}
