// What clients/cases doesn't have: the texts of late replies; and contexts, goroutines that share a client, and TLS. Used by: `go test`,
// which scripts/check-clients runs.

package mondlexi

import (
	"bufio"
	"context"
	"crypto/ecdsa"
	"crypto/elliptic"
	"crypto/rand"
	"crypto/tls"
	"crypto/x509"
	"errors"
	"math/big"
	"net"
	"sync"
	"testing"
	"time"
)

// serve answers each line of each connection by the function; no answer if that gives nothing.
func serve(t *testing.T, listener net.Listener, answer func(line string) string) string {
	t.Cleanup(func() { listener.Close() })
	go func() {
		for {
			conn, err := listener.Accept()
			if err != nil {
				return
			}
			go serveOne(conn, answer)
		}
	}()
	return listener.Addr().String()
}

func serveOne(conn net.Conn, answer func(line string) string) {
	defer conn.Close()
	lines := bufio.NewScanner(conn)
	for lines.Scan() {
		if _, err := conn.Write([]byte(answer(lines.Text()))); err != nil || lines.Text() == "QUIT" {
			return
		}
	}
}

func listen(t *testing.T) net.Listener {
	listener, err := net.Listen("tcp", "127.0.0.1:0")
	if err != nil {
		t.Fatal(err)
	}
	return listener
}

func usual(line string) string {
	switch line {
	case "TENANT t":
		return "OK 9\n"
	case "GET 7":
		return "VAL 5\n"
	case "QUIT":
		return "BYE\n"
	}
	return ""
}

func dialed(t *testing.T, at string, options *Options) *Client {
	client, err := Connect(context.Background(), at, "t", options)
	if err != nil {
		t.Fatal(err)
	}
	return client
}

func TestAContextThatIsOverEndsAChange(t *testing.T) {
	client := dialed(t, serve(t, listen(t), usual), nil)
	ctx, cancel := context.WithTimeout(context.Background(), 50*time.Millisecond)
	defer cancel()
	_, err := client.CAS(ctx, Entry{0, 0, 1})
	if !errors.Is(err, ErrUnknown) || !errors.Is(err, context.DeadlineExceeded) && !isLate(ctx, err) {
		t.Fatalf("a change: %v", err)
	}
	if _, err = client.CAS(context.Background(), Entry{0, 0, 1}); !errors.Is(err, ErrLost) {
		t.Fatalf("the change after it: %v", err)
	}
	if value, err := client.Get(context.Background(), 7); err != nil || value != 5 {
		t.Fatalf("a get after it: %d, %v", value, err)
	}
	client.Close()
}

func TestAReplyThatIsLate(t *testing.T) {
	options := DefaultOptions()
	options.Timeout = 300 * time.Millisecond
	client := dialed(t, serve(t, listen(t), usual), &options)
	if _, err := client.Get(context.Background(), 3); err == nil || err.Error() != "mondlexi: no connection: GET 3: connected, but no reply in 300ms" {
		t.Fatalf("a get: %v", err)
	}
	silent := listen(t)
	defer silent.Close()
	_, err := Connect(context.Background(), silent.Addr().String(), "t", &options)
	wanted := "mondlexi: no connection: TENANT t: connected, but no reply in 300ms; perhaps all sessions are taken (mwserve --clients)"
	if !errors.Is(err, ErrLost) || err.Error() != wanted {
		t.Fatalf("a client: %v", err)
	}
}

func TestAContextThatIsOverBeforeACall(t *testing.T) {
	client := dialed(t, serve(t, listen(t), usual), nil)
	ctx, cancel := context.WithCancel(context.Background())
	cancel()
	if _, err := client.Get(ctx, 7); !errors.Is(err, ErrLost) || !errors.Is(err, context.Canceled) {
		t.Fatalf("a get: %v", err)
	}
	if _, err := Connect(ctx, client.session.at.host+":"+client.session.at.port, "t", nil); !errors.Is(err, ErrLost) {
		t.Fatalf("a client: %v", err)
	}
	client.Close()
}

func TestACountWhoseContextIsOver(t *testing.T) {
	count := 0
	at := serve(t, listen(t), func(line string) string {
		if line == "CAS 5:0:1" || line == "CAS 5:1:2" {
			count++
			return "YES\n"
		}
		return usual(line)
	})
	client := dialed(t, at, nil)
	own, err := BeginCounted(context.Background(), client, 5, 10*time.Second)
	if err != nil {
		t.Fatal(err)
	}
	ctx, cancel := context.WithTimeout(context.Background(), 50*time.Millisecond)
	defer cancel()
	if _, err = own.CAS(ctx, Entry{2, 0, 1}); !errors.Is(err, ErrUnknown) || errors.Is(err, ErrLost) {
		t.Fatalf("a counted change: %v", err)
	}
	if isMade, err := own.Settle(context.Background()); isMade || err != nil || count != 2 {
		t.Fatalf("settle: %v, %v, with %d changes of the count", isMade, err, count)
	}
	client.Close()
}

func TestGoroutinesThatShareAClient(t *testing.T) {
	client := dialed(t, serve(t, listen(t), usual), nil)
	var all sync.WaitGroup
	for k := 0; k < 8; k++ {
		all.Add(1)
		go func() {
			defer all.Done()
			for n := 0; n < 50; n++ {
				if value, err := client.Get(context.Background(), 7); err != nil || value != 5 {
					t.Errorf("a get: %d, %v", value, err)
				}
			}
		}()
	}
	all.Wait()
	client.Close()
}

// certificate makes one for this machine, and what trusts it.
func certificate(t *testing.T) (tls.Certificate, *x509.CertPool) {
	key, err := ecdsa.GenerateKey(elliptic.P256(), rand.Reader)
	if err != nil {
		t.Fatal(err)
	}
	template := &x509.Certificate{SerialNumber: big.NewInt(1), NotAfter: time.Now().Add(time.Hour), IPAddresses: []net.IP{net.IPv4(127, 0, 0, 1)}}
	made, err := x509.CreateCertificate(rand.Reader, template, template, &key.PublicKey, key)
	if err != nil {
		t.Fatal(err)
	}
	parsed, err := x509.ParseCertificate(made)
	if err != nil {
		t.Fatal(err)
	}
	trusted := x509.NewCertPool()
	trusted.AddCert(parsed)
	return tls.Certificate{Certificate: [][]byte{made}, PrivateKey: key}, trusted
}

func TestTLS(t *testing.T) {
	own, trusted := certificate(t)
	at := serve(t, tls.NewListener(listen(t), &tls.Config{Certificates: []tls.Certificate{own}}), usual)
	options := DefaultOptions()
	options.TLS = &tls.Config{RootCAs: trusted}
	client := dialed(t, at, &options)
	if value, err := client.Get(context.Background(), 7); err != nil || value != 5 {
		t.Fatalf("a get: %d, %v", value, err)
	}
	client.Close()
	options.TLS = &tls.Config{}
	if _, err := Connect(context.Background(), at, "t", &options); !errors.Is(err, ErrLost) || errors.Is(err, ErrFull) {
		t.Fatalf("a certificate that nobody trusts: %v", err)
	}
	if _, err := Connect(context.Background(), "unix:s", "t", &options); !errors.Is(err, ErrInvalid) {
		t.Fatalf("TLS at a local socket: %v", err)
	}
}
