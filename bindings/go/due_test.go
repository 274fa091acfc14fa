package yamux

import (
	"io"
	"testing"
	"time"
)

// A Read whose deadline has passed still gives what has come. The credit for that goes out, though the Read doesn't wait for it.
func TestCreditGoesOutBehindADeadline(t *testing.T) {
	for _, begin := range []func(*testing.T, *Config) (*Session, *Session){overTCP, overPipe} {
		client, server := begin(t, quiet())
		near, far := pair(t, client, server)
		const size = 3 * leastWindow
		wrote := make(chan error, 1)
		go func() {
			_, err := far.Write(make([]byte, size))
			wrote <- err
		}()
		waits(t, far) // for credit
		near.SetReadDeadline(time.Unix(1, 0))
		came := 0
		await(t, "all has come", func() bool {
			count, err := near.Read(make([]byte, leastWindow))
			if err != nil && err != ErrTimeout {
				t.Fatal(err)
			}
			came += count
			return came == size
		})
		good(t, <-wrote)
	}
}

// The same where the stream is reset right after that Read: neither the reset nor the answer to a ping is left unsent.
func TestAResetGoesOutBehindADeadline(t *testing.T) {
	for _, begin := range []func(*testing.T, *Config) (*Session, *Session){overTCP, overPipe} {
		client, server := begin(t, quiet())
		near, far := pair(t, client, server)
		wrote := make(chan error, 1)
		go func() {
			_, err := far.Write(make([]byte, 3*leastWindow))
			wrote <- err
		}()
		waits(t, far)
		near.SetReadDeadline(time.Unix(1, 0))
		came := 0
		await(t, "a window has come", func() bool {
			count, _ := near.Read(make([]byte, leastWindow-came))
			came += count
			return came == leastWindow
		})
		good(t, near.Reset())
		_, err := server.Ping()
		good(t, err)
		if err := <-wrote; err != ErrConnectionReset {
			t.Fatal(err)
		}
	}
}

// What a Write has handed over goes out, also where its deadline passes before it would wait for that.
func TestAWriteGoesOutBehindADeadline(t *testing.T) {
	for _, begin := range []func(*testing.T, *Config) (*Session, *Session){overTCP, overPipe} {
		client, server := begin(t, quiet())
		near, far := pair(t, client, server)
		word(t, near, far)
		client.lock.Lock()
		good(t, near.hand([]byte("word")))
		good(t, near.flush(&near.writable, func() bool { return true }))
		client.lock.Unlock()
		far.SetReadDeadline(time.Now().Add(hangs))
		_, err := io.ReadFull(far, make([]byte, 4))
		good(t, err)
	}
}
