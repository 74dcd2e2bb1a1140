// One connection over TCP, with TLS if that is wanted, or to a local socket, with limits of time; and pauses. Used by: session.go;
// client.go and counted.go for pauses. These and the limits are the same in each client: change them together, with a case in clients/cases.

package mondlexi

import (
	"bytes"
	"context"
	"crypto/tls"
	"errors"
	"fmt"
	"hash/maphash"
	"io"
	"net"
	"os"
	"syscall"
	"time"
)

const (
	firstPause   = time.Millisecond
	longestPause = 250 * time.Millisecond
	piece        = 4096
)

var errClosed = errors.New("the server closed the connection")

// pause is pauses that grow, and are partly random, up to an end.
type pause struct {
	next time.Duration
	end  time.Time
}

func pauseUntil(end time.Time) *pause { return &pause{firstPause, end} }

// wait lets some time pass. It is false, at once, if the end has come or the context is over.
func (p *pause) wait(ctx context.Context) bool {
	left := time.Until(p.end)
	if left <= 0 || ctx.Err() != nil {
		return false
	}
	var random maphash.Hash // each has another seed
	length := p.next/2 + time.Duration(random.Sum64()%uint64(p.next/2+1))
	if length > left {
		length = left
	}
	timer := time.NewTimer(length)
	defer timer.Stop()
	select {
	case <-ctx.Done():
		return false
	case <-timer.C:
	}
	if p.next *= 2; p.next > longestPause {
		p.next = longestPause
	}
	return true
}

// strange is the error of a reply that no server of this protocol gives.
func strange(text string) error { return fmt.Errorf("not a reply of the protocol: %q", text) }

// isLate tells whether the time of a call was over.
func isLate(ctx context.Context, err error) bool {
	var net net.Error
	return ctx.Err() != nil || errors.Is(err, os.ErrDeadlineExceeded) || errors.As(err, &net) && net.Timeout()
}

// link is a connection, and what came over it and was not taken yet.
type link struct {
	conn     net.Conn
	rest     []byte
	isSilent bool // whether no byte has come yet
}

// dial connects to a server.
func dial(ctx context.Context, at place, config *tls.Config, timeout time.Duration) (*link, error) {
	end := time.Now().Add(timeout)
	ctx, cancel := context.WithDeadline(ctx, end)
	defer cancel()
	conn, err := dialPlace(ctx, at, end)
	if err == nil && config != nil {
		conn, err = speakTLS(ctx, conn, at.host, config)
	}
	if err != nil {
		return nil, err
	}
	return &link{conn: conn, isSilent: true}, nil
}

func dialPlace(ctx context.Context, at place, end time.Time) (net.Conn, error) {
	var dialer net.Dialer
	if at.host == "" {
		return dialPath(ctx, at.path, end)
	}
	conn, err := dialer.DialContext(ctx, "tcp", net.JoinHostPort(at.host, at.port))
	if err != nil {
		return nil, err
	}
	// The system may connect a socket to itself if nobody listens at a port of this machine.
	if conn.LocalAddr().String() == conn.RemoteAddr().String() {
		conn.Close()
		return nil, fmt.Errorf("%w: nobody listens", syscall.ECONNREFUSED)
	}
	return conn, nil
}

// dialPath connects to a local socket. While as many connections wait there as the system lets wait, it tries again.
func dialPath(ctx context.Context, path string, end time.Time) (net.Conn, error) {
	var dialer net.Dialer
	for p := pauseUntil(end); ; {
		conn, err := dialer.DialContext(ctx, "unix", path)
		if !errors.Is(err, syscall.EAGAIN) || !p.wait(ctx) {
			return conn, err
		}
	}
}

func speakTLS(ctx context.Context, conn net.Conn, host string, config *tls.Config) (net.Conn, error) {
	if config.ServerName == "" {
		config = config.Clone()
		config.ServerName = host
	}
	spoken := tls.Client(conn, config)
	if err := spoken.HandshakeContext(ctx); err != nil {
		conn.Close()
		return nil, err
	}
	return spoken, nil
}

// watch lets whatever waits for the connection fail once a context is over, until it is told to stop.
func (l *link) watch(ctx context.Context) (stop func()) {
	if ctx.Done() == nil {
		return func() {}
	}
	over, ended := make(chan struct{}), make(chan struct{})
	go func() {
		defer close(ended)
		select {
		case <-ctx.Done():
			l.conn.SetDeadline(time.Unix(1, 0))
		case <-over:
		}
	}()
	return func() {
		close(over)
		<-ended
	}
}

// limit sets the end of what follows. If the context is over it says so: then watch may have set an earlier end before.
func (l *link) limit(ctx context.Context, end time.Time) error {
	if err := l.conn.SetDeadline(end); err != nil {
		return err
	}
	return ctx.Err()
}

func (l *link) send(ctx context.Context, text string, end time.Time) error {
	if err := l.limit(ctx, end); err != nil {
		return err
	}
	_, err := l.conn.Write([]byte(text))
	return err
}

// line is the next line, without its line feed, before the end that was set.
func (l *link) line() (string, error) {
	for {
		stop := bytes.IndexByte(l.rest, '\n')
		if stop > maxReply || stop < 0 && len(l.rest) > maxReply {
			return "", strange(string(l.rest[:maxReply]))
		}
		if stop >= 0 {
			line := string(l.rest[:stop])
			l.rest = l.rest[stop+1:]
			return line, nil
		}
		if err := l.receive(); err != nil {
			return "", err
		}
	}
}

// receive takes more of what the server has sent.
func (l *link) receive() error {
	var buffer [piece]byte
	count, err := l.conn.Read(buffer[:])
	if count > 0 {
		l.rest = append(l.rest, buffer[:count]...)
		l.isSilent = false
		return nil
	}
	if errors.Is(err, io.EOF) {
		return errClosed
	}
	return err
}

// reply is the next one, within so much time.
func (l *link) reply(ctx context.Context, isReport bool, timeout time.Duration) (reply, error) {
	if err := l.limit(ctx, time.Now().Add(timeout)); err != nil {
		return nil, err
	}
	var lines reply
	for {
		line, err := l.line()
		if err != nil {
			return nil, err
		}
		lines = append(lines, line)
		if !isReport || len(line) <= reportEnd {
			return lines, nil
		}
		if len(lines) > maxTenants {
			return nil, strange(line)
		}
	}
}

// finish says QUIT, ends the writing side, and reads to the end; of TLS it reads a line.
func (l *link) finish(end time.Time) {
	if l.send(context.Background(), "QUIT\n", end) != nil {
		return
	}
	switch conn := l.conn.(type) {
	case *tls.Conn:
		l.line()
		return
	case *net.TCPConn:
		conn.CloseWrite()
	case *net.UnixConn:
		conn.CloseWrite()
	}
	for l.receive() == nil {
		l.rest = nil
	}
}
