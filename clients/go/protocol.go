// The protocol without a connection: which arguments are allowed, the line of each question, and what its reply means.
// docs/PROTOCOL.md has the grammar. Used by: client.go, counted.go, link.go, session.go. A command or limit that the page gains is added
// here, in the file of this name of each other client, and has cases in clients/cases.

package mondlexi

import (
	"fmt"
	"regexp"
	"sort"
	"strconv"
	"strings"
)

const (
	maxPath     = 107
	maxReply    = 35  // bytes of a line from the server, without its line feed
	linesAtOnce = 512 // lines sent before their replies are read: each socket has room for so many lines of GET
	maxTenants  = 16
	reportEnd   = 8 // the last line of a report alone has at most so many bytes
	maxDigits   = 15
)

var (
	portText   = regexp.MustCompile(`^(?:([^\[\]:\s\x00]+)|\[([^\[\]\s\x00]+)\]):([0-9]{1,5})$`)
	tenantText = regexp.MustCompile(`^[a-z][a-z0-9-]{0,15}$`)
)

// Entry is a part of a change.
type Entry struct {
	// Address is the word's, from 0 to the tenant's words - 1.
	Address int
	// Expected is the value that the word must have, and Value the new one, from 0 to MaxValue. They may be equal, to compare only.
	Expected, Value uint64
}

// Outcome is how a change ended.
type Outcome struct {
	// Made: all words had their expected values, and the new ones are written, durably. Otherwise nothing was changed.
	Made bool
	// Known: of a change that wasn't made, that the word at Address had Value, not the one expected. If several differ it is any. A
	// Counted knows no word if a reply was lost: perhaps none differs.
	Known   bool
	Address int
	Value   uint64
}

// TenantReport is how one tenant is.
type TenantReport struct {
	Name     string
	Words    int  // 1 to MaxWords
	Quota    int  // how many changes it may have under way at a time, 1 to 64
	Places   int  // the greatest quota that a start of the server may give it; 0 if its file didn't open or doesn't fit its line
	UnderWay int  // how many changes are under way
	Up       bool // whether it is served; if not, its calls end as ErrFault
}

// Report is how all tenants are, in the order of the server's tenants file. Each number is of its own moment.
type Report struct {
	Tenants []TenantReport
	Free    uint64 // how many more changes the server has room for
}

// place is where a server listens: at a host and a port, or, without a host, at a path.
type place struct{ host, port, path string }

func placeOf(server string) (place, error) {
	if path := strings.TrimPrefix(server, "unix:"); path != server {
		if len(path) < 1 || len(path) > maxPath || strings.Contains(path, "\x00") {
			return place{}, invalid("the path of a local socket has 1 to %d bytes, and none is 0", maxPath)
		}
		return place{path: path}, nil
	}
	found := portText.FindStringSubmatch(server)
	if found != nil {
		if port, _ := strconv.Atoi(found[3]); port >= 1 && port <= 65535 {
			return place{host: found[1] + found[2], port: found[3]}, nil
		}
	}
	return place{}, invalid("a server listens at HOST:PORT, with a port from 1 to 65535, at [HOST]:PORT for IPv6, or at unix:PATH")
}

// checkedEntries are these entries, sorted by address, if a tenant of so many words can be asked for them in one change.
func checkedEntries(entries []Entry, words int) ([]Entry, error) {
	sorted := append([]Entry(nil), entries...)
	if len(sorted) < 1 || len(sorted) > MaxEntries {
		return nil, invalid("a change has one to %d entries", MaxEntries)
	}
	sort.Slice(sorted, func(a, b int) bool { return sorted[a].Address < sorted[b].Address })
	for k, it := range sorted {
		if it.Address < 0 || it.Address >= words {
			return nil, invalid("the tenant has the addresses 0 to %d, not %d", words-1, it.Address)
		}
		if it.Expected > MaxValue || it.Value > MaxValue {
			return nil, invalid("a value is from 0 to %d", MaxValue)
		}
		if k > 0 && sorted[k-1].Address == it.Address {
			return nil, invalid("two entries have the address %d", it.Address)
		}
	}
	return sorted, nil
}

// reply is the lines of a reply: one, or several of a report.
type reply []string

// question is lines that are sent together.
type question struct {
	lines []string
	// gone is what is told if the connection ends before the last reply: ErrUnknown of a change, ErrLost if nothing can be changed.
	gone     error
	isReport bool
	// meaning takes the replies; false if no server says so.
	meaning func(replies []reply) bool
}

func tenantGreeting(name string, words *int) (*question, error) {
	if !tenantText.MatchString(name) {
		return nil, invalid(`a tenant has a name of a to z, then up to 15 of a to z, 0 to 9 and "-"`)
	}
	return &question{lines: []string{"TENANT " + name}, gone: ErrLost, meaning: func(replies []reply) bool {
		text := strings.TrimPrefix(replies[0][0], "OK ")
		found, ok := numberOf(text, MaxWords)
		*words = int(found)
		return ok && found > 0 && text != replies[0][0]
	}}, nil
}

func administratorGreeting() *question {
	return &question{lines: []string{"ADMIN"}, gone: ErrLost, meaning: func(replies []reply) bool { return replies[0][0] == "OK ADMIN" }}
}

// getQuestion asks for the values of the words at these addresses, each of its own moment.
func getQuestion(addresses []int, values []uint64) *question {
	lines := make([]string, len(addresses))
	for k, address := range addresses {
		lines[k] = "GET " + strconv.Itoa(address)
	}
	return &question{lines: lines, gone: ErrLost, meaning: func(replies []reply) bool {
		for k, it := range replies {
			text := strings.TrimPrefix(it[0], "VAL ")
			value, ok := numberOf(text, MaxValue)
			if !ok || text == it[0] {
				return false
			}
			values[k] = value
		}
		return true
	}}
}

// casQuestion asks for a change of these checked entries.
func casQuestion(entries []Entry, gone error, outcome *Outcome) *question {
	line := "CAS"
	for _, it := range entries {
		line += fmt.Sprintf(" %d:%d:%d", it.Address, it.Expected, it.Value)
	}
	return &question{lines: []string{line}, gone: gone, meaning: func(replies []reply) bool {
		var ok bool
		*outcome, ok = outcomeOf(replies[0][0], entries)
		return ok
	}}
}

func reportQuestion(report *Report) *question {
	return &question{lines: []string{"REPORT"}, gone: ErrLost, isReport: true, meaning: func(replies []reply) bool {
		var ok bool
		*report, ok = reportOf(replies[0])
		return ok
	}}
}

// failureOf is what any line may be answered; nil if this is none of it.
func failureOf(line, text string) error {
	switch text {
	case "BUSY":
		return &Error{Kind: ErrBusy, Text: line}
	case "FAULT":
		return &Error{Kind: ErrFault, Text: line}
	case "WORN":
		return &Error{Kind: ErrWorn, Text: line}
	}
	number, ok := numberOf(strings.TrimPrefix(text, "ERR "), 99)
	if !ok || number == 0 || !strings.HasPrefix(text, "ERR ") {
		return nil
	}
	return &Error{Kind: ErrRefused, Text: fmt.Sprintf("%s: ERR %d", line, number), Number: int(number)}
}

// numberOf is a number of up to 15 digits, without a zero before others, up to most.
func numberOf(text string, most uint64) (uint64, bool) {
	if len(text) < 1 || len(text) > maxDigits || len(text) > 1 && text[0] == '0' || strings.Trim(text, "0123456789") != "" {
		return 0, false
	}
	value, err := strconv.ParseUint(text, 10, 64)
	return value, err == nil && value <= most
}

func outcomeOf(text string, entries []Entry) (Outcome, bool) {
	if text == "YES" {
		return Outcome{Made: true}, true
	}
	parts := strings.Split(text, " ")
	if len(parts) != 3 || parts[0] != "NO" {
		return Outcome{}, false
	}
	address, isAddress := numberOf(parts[1], MaxWords)
	value, isValue := numberOf(parts[2], MaxValue)
	if !isAddress || !isValue {
		return Outcome{}, false
	}
	for _, it := range entries {
		if it.Address == int(address) {
			return Outcome{Known: true, Address: it.Address, Value: value}, it.Expected != value
		}
	}
	return Outcome{}, false
}

func reportOf(lines reply) (Report, bool) {
	var report Report
	last := len(lines) - 1
	for _, line := range lines[:last] {
		tenant, ok := tenantOf(line)
		if !ok {
			return Report{}, false
		}
		report.Tenants = append(report.Tenants, tenant)
	}
	text := strings.TrimPrefix(lines[last], "free ")
	free, ok := numberOf(text, 1<<32)
	report.Free = free
	return report, ok && text != lines[last] && last > 0
}

// tenantOf is a tenant's line of a report, in its columns.
func tenantOf(line string) (TenantReport, bool) {
	parts := strings.Fields(line)
	if len(parts) != 6 || !tenantText.MatchString(parts[0]) {
		return TenantReport{}, false
	}
	var numbers [4]int
	for k := range numbers {
		number, ok := numberOf(parts[k+1], 9999)
		if !ok {
			return TenantReport{}, false
		}
		numbers[k] = int(number)
	}
	it := TenantReport{parts[0], numbers[0], numbers[1], numbers[2], numbers[3], parts[5] == "up"}
	state := "down"
	if it.Up {
		state = "up"
	}
	return it, line == fmt.Sprintf("%-16s %4d %2d %2d %2d %s", it.Name, it.Words, it.Quota, it.Places, it.UnderWay, state)
}
