package yamux

import (
	"bytes"
	"context"
	"errors"
	"fmt"
	"io"
	"net"
	"os"
	"strings"
	"sync"
	"testing"
	"time"
)

// What programs do that were written for version 0.1.2 of github.com/hashicorp/yamux, and not for those before.

// lines is a log that keeps what it is told.
type lines struct {
	lock sync.Mutex
	text strings.Builder
}

func (l *lines) Print(words ...interface{})   { l.add(fmt.Sprint(words...)) }
func (l *lines) Println(words ...interface{}) { l.add(fmt.Sprintln(words...)) }
func (l *lines) Printf(format string, words ...interface{}) {
	l.add(fmt.Sprintf(format, words...))
}

func (l *lines) add(line string) {
	l.lock.Lock()
	defer l.lock.Unlock()
	l.text.WriteString(line + "\n")
}

func (l *lines) String() string {
	l.lock.Lock()
	defer l.lock.Unlock()
	return l.text.String()
}

func TestALogOfOnesOwn(t *testing.T) {
	near, far := net.Pipe()
	log := new(lines)
	config := DefaultConfig()
	config.Logger = log
	if err := VerifyConfig(config); err == nil || err.Error() != "both Logger and LogOutput may not be set, select one" {
		t.Fatal(err)
	}
	config.LogOutput = nil
	session, err := Server(near, config)
	good(t, err)
	defer session.Close()
	go io.Copy(io.Discard, far)
	far.Write(bytes.Repeat([]byte{7}, headerSize)) // of a version that there isn't
	await(t, "the log says something", func() bool { return strings.HasPrefix(log.String(), "[ERR] yamux: ") })
}

func TestATimeoutIsANetError(t *testing.T) {
	client, server := overTCP(t, quiet())
	near, _ := pair(t, client, server)
	good(t, near.SetReadDeadline(time.Now()))
	_, err := near.Read(make([]byte, 1))
	var found *NetError
	if !errors.As(fmt.Errorf("more words: %w", err), &found) || found != ErrTimeout || !found.Timeout() || !found.Temporary() {
		t.Fatalf("%#v", err)
	}
	if !errors.Is(err, ErrTimeout) || !errors.Is(err, os.ErrDeadlineExceeded) {
		t.Fatal(err)
	}
	for _, other := range []error{ErrSessionShutdown, ErrStreamClosed, ErrConnectionReset, ErrKeepAliveTimeout} {
		if errors.Is(err, other) || errors.As(other, &found) {
			t.Fatal(other)
		}
	}
}

func TestAcceptEndsWithItsContext(t *testing.T) {
	_, server := overTCP(t, quiet())
	waits, end := context.WithTimeout(context.Background(), 20*time.Millisecond)
	defer end()
	if _, err := server.AcceptStreamWithContext(waits); err != context.DeadlineExceeded {
		t.Fatal(err)
	}
}

// What a configuration may have, as in theirs.
func TestAnIntervalThatNobodyUses(t *testing.T) {
	config := DefaultConfig()
	config.KeepAliveInterval = -1
	if VerifyConfig(config) == nil {
		t.Fatal("an interval before the time")
	}
	config.EnableKeepAlive = false
	good(t, VerifyConfig(config))
}
