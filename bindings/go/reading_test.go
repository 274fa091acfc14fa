package yamux

import (
	"context"
	"encoding/binary"
	"io"
	"net"
	"strings"
	"sync"
	"testing"
	"time"
)

// waits waits until a call of the stream waits for the peer, and says whether that call reads from the connection itself.
func waits(t *testing.T, stream *Stream) (reads bool) {
	t.Helper()
	await(t, "a call waits for the peer", func() bool {
		stream.session.lock.Lock()
		defer stream.session.lock.Unlock()
		reads = stream.session.reader == &stream.readable || stream.session.reader == &stream.writable
		return reads || stream.waiters > 0
	})
	return reads
}

// word goes there and back, so that nobody reads from the connection before long.
func word(t *testing.T, near, far *Stream) {
	t.Helper()
	block := make([]byte, 4)
	for _, way := range [][2]*Stream{{near, far}, {far, near}} {
		_, err := way[0].Write([]byte("word"))
		good(t, err)
		_, err = io.ReadFull(way[1], block)
		good(t, err)
	}
}

// The only call that waits for the peer reads from the connection itself, and is ended as any other.
func TestACallThatReadsTheConnectionIsEnded(t *testing.T) {
	read := func(stream *Stream) error {
		_, err := stream.Read(make([]byte, 1))
		return err
	}
	write := func(stream *Stream) error { // more than the peer has granted
		_, err := stream.Write(make([]byte, 2*leastWindow))
		return err
	}
	for name, end := range map[string]struct {
		end         func(near, far *Stream)
		read, write error
	}{
		"Close":        {func(near, far *Stream) { near.Close() }, ErrStreamClosed, ErrStreamClosed},
		"Reset":        {func(near, far *Stream) { near.Reset() }, ErrConnectionReset, ErrConnectionReset},
		"a deadline":   {func(near, far *Stream) { near.SetDeadline(time.Now().Add(20 * time.Millisecond)) }, ErrTimeout, ErrTimeout},
		"one gone by":  {func(near, far *Stream) { near.SetDeadline(time.Now().Add(-time.Hour)) }, ErrTimeout, ErrTimeout},
		"the session":  {func(near, far *Stream) { near.session.Close() }, ErrSessionShutdown, ErrSessionShutdown},
		"the peer":     {func(near, far *Stream) { far.Reset() }, ErrConnectionReset, ErrConnectionReset},
		"a lost peer":  {func(near, far *Stream) { far.session.Close() }, ErrSessionShutdown, ErrSessionShutdown},
		"a connection": {func(near, far *Stream) { near.session.connection.Close() }, ErrSessionShutdown, ErrSessionShutdown},
	} {
		for call, run := range map[string]func(*Stream) error{"Read": read, "Write": write} {
			want := end.read
			if call == "Write" {
				want = end.write
			}
			for reads, tries := false, 0; !reads && tries < 100; tries++ { // the reading goroutine may come first
				client, server := overTCP(t, quiet())
				near, far := pair(t, client, server)
				word(t, near, far)
				answer := make(chan error)
				go func() { answer <- run(near) }()
				reads = waits(t, near)
				end.end(near, far)
				select {
				case err := <-answer:
					if err != want {
						t.Errorf("%s, ended by %s: %v", call, name, err)
					}
				case <-time.After(hangs):
					t.Fatalf("%s isn't ended by %s", call, name)
				}
				client.Close()
				server.Close()
			}
		}
	}
}

// So is an AcceptStream, and an OpenStream that waits for the peer's acknowledgement.
func TestAnAcceptOrOpenThatReadsTheConnectionIsEnded(t *testing.T) {
	waitsItself := func(session *Session, cond *sync.Cond) bool {
		reads := false
		await(t, "a call waits for the peer", func() bool {
			session.lock.Lock()
			defer session.lock.Unlock()
			reads = session.reader == cond
			return reads || session.waiters > 0
		})
		return reads
	}
	for name, one := range map[string]struct {
		call func(waits context.Context, session *Session) error
		end  func(client, server *Session, stop func(), streams []*Stream)
		want error
	}{
		"an accept by its context": {accept, func(client, server *Session, stop func(), streams []*Stream) { stop() }, context.Canceled},
		"an accept by its session": {accept, func(client, server *Session, stop func(), streams []*Stream) { client.Close() }, ErrSessionShutdown},
		"an accept by the peer":    {accept, func(client, server *Session, stop func(), streams []*Stream) { server.Close() }, io.EOF},
		"an accept by a stream": {accept, func(client, server *Session, stop func(), streams []*Stream) {
			_, err := server.OpenStream()
			good(t, err)
		}, nil},
		"an open by its session": {open, func(client, server *Session, stop func(), streams []*Stream) { client.Close() }, ErrSessionShutdown},
		"an open by the peer":    {open, func(client, server *Session, stop func(), streams []*Stream) { server.Close() }, ErrSessionShutdown},
		"an open by a reset":     {open, func(client, server *Session, stop func(), streams []*Stream) { streams[0].Reset() }, nil},
		"an open by an accept": {open, func(client, server *Session, stop func(), streams []*Stream) {
			_, err := server.AcceptStream()
			good(t, err)
		}, nil},
	} {
		for reads, tries := false, 0; !reads && tries < 100; tries++ { // the reading goroutine may come first
			config := quiet()
			config.AcceptBacklog = 2
			client, server := overTCP(t, config)
			near, far := pair(t, client, server)
			word(t, near, far)
			var streams []*Stream
			for count := 0; count < 2; count++ {
				stream, err := client.OpenStream()
				good(t, err)
				streams = append(streams, stream)
			}
			word(t, near, far)
			waits, stop := context.WithCancel(context.Background())
			answer := make(chan error)
			go func() { answer <- one.call(waits, client) }()
			cond := client.openable
			if strings.HasPrefix(name, "an accept") {
				cond = client.acceptable
			}
			reads = waitsItself(client, cond)
			one.end(client, server, stop, streams)
			select {
			case err := <-answer:
				if err != one.want {
					t.Errorf("%s: %v", name, err)
				}
			case <-time.After(hangs):
				t.Fatalf("it isn't ended: %s", name)
			}
			stop()
			client.Close()
			server.Close()
		}
	}
}

func accept(waits context.Context, session *Session) error {
	_, err := session.AcceptStreamWithContext(waits)
	return err
}

func open(_ context.Context, session *Session) error {
	_, err := session.OpenStream()
	return err
}

// After a deadline that ended such a call the next one reads on, and nothing is lost.
func TestBehindADeadlineTheConnectionIsReadOn(t *testing.T) {
	client, server := overTCP(t, quiet())
	near, far := pair(t, client, server)
	word(t, near, far)
	for times := 0; times < 20; times++ {
		near.SetReadDeadline(time.Now().Add(time.Millisecond))
		if _, err := near.Read(make([]byte, 1)); err != ErrTimeout {
			t.Fatal(err)
		}
		near.SetReadDeadline(time.Time{})
		word(t, near, far)
	}
}

// While no call waits for the peer, its pings are answered and its streams come.
func TestThePeerIsHeardWhileNobodyWaits(t *testing.T) {
	client, server := overTCP(t, quiet())
	near, far := pair(t, client, server)
	for times := 0; times < 20; times++ {
		word(t, near, far)
		if _, err := client.Ping(); err != nil {
			t.Fatal(err)
		}
	}
	good(t, client.Close())
	select {
	case <-server.CloseChan():
	case <-time.After(hangs):
		t.Fatal("the session doesn't end with its connection")
	}
}

// A peer that pings and takes no answers holds up no call that reads from the connection. All pings are answered once it
// takes them, and what came after them is there.
func TestAFloodOfPingsHoldsUpNoRead(t *testing.T) {
	listener, err := net.Listen("tcp", "127.0.0.1:0")
	good(t, err)
	defer listener.Close()
	dialled, err := net.Dial("tcp", listener.Addr().String())
	good(t, err)
	peer := dialled.(*net.TCPConn)
	defer peer.Close()
	accepted, err := listener.Accept()
	good(t, err)
	good(t, peer.SetReadBuffer(4096))
	good(t, accepted.(*net.TCPConn).SetWriteBuffer(4096))
	config := quiet()
	config.EnableKeepAlive = false
	session, err := Server(accepted, config)
	good(t, err)
	defer session.Close()

	const count = 40000
	frame := func(kind byte, flags uint16, id, length uint32) []byte {
		header := make([]byte, headerSize)
		header[1] = kind
		binary.BigEndian.PutUint16(header[2:], flags)
		binary.BigEndian.PutUint32(header[4:], id)
		binary.BigEndian.PutUint32(header[8:], length)
		return header
	}
	if session.socket == nil {
		t.Skip("left out: here no call reads from the connection itself")
	}
	_, err = peer.Write(frame(frameWindowUpdate, flagSYN, 1, 0))
	good(t, err)
	stream, err := session.AcceptStream()
	good(t, err)
	type read struct {
		count int
		err   error
	}
	ended := make(chan read)
	for reads := false; !reads; { // the reading goroutine may come first
		go func() {
			count, err := stream.Read(make([]byte, 1))
			ended <- read{count, err}
		}()
		if reads = waits(t, stream); !reads {
			_, err = peer.Write(append(frame(frameData, 0, 1, 1), 'a'))
			good(t, err)
			<-ended
		}
	}
	go func() {
		for number := uint32(0); number < count; number++ {
			peer.Write(frame(framePing, flagSYN, 0, number))
		}
		peer.Write(append(frame(frameData, 0, 1, 1), 'b'))
	}()
	await(t, "no answer goes out any more", func() bool {
		session.lock.Lock()
		defer session.lock.Unlock()
		return len(session.unfed) > 0 || session.isReading && session.reader == nil
	})
	good(t, stream.SetReadDeadline(time.Now()))
	select {
	case read := <-ended:
		if read.err != ErrTimeout {
			t.Fatal(read)
		}
	case <-time.After(hangs):
		t.Fatal("the deadline doesn't end a Read that reads from the connection")
	}
	good(t, stream.SetReadDeadline(time.Time{}))
	pongs := make(chan uint32)
	go func() {
		next, header := uint32(0), make([]byte, headerSize)
		for next < count {
			if _, err := io.ReadFull(peer, header); err != nil {
				break
			}
			if header[1] == framePing && binary.BigEndian.Uint32(header[8:]) == next {
				next++
			}
		}
		pongs <- next
	}()
	block := make([]byte, 1)
	if _, err := io.ReadFull(stream, block); err != nil || block[0] != 'b' {
		t.Fatal(block, err)
	}
	if next := <-pongs; next != count {
		t.Fatalf("%d pings of %d are answered", next, count)
	}
}

// A side that closes its session while something of the peer's is unread, as nobody waited for it, tells the peer of an end.
func TestClosingWithUnreadBytesIsAnEnd(t *testing.T) {
	for round := 0; round < 100; round++ {
		client, server := overTCP(t, quiet())
		near, far := pair(t, client, server)
		word(t, near, far)
		for count := 0; count < 5; count++ {
			_, err := far.Write(make([]byte, 1000))
			good(t, err)
		}
		good(t, client.Close())
		if _, err := server.AcceptStream(); err != io.EOF {
			t.Fatalf("round %d: %v", round, err)
		}
		good(t, server.Close())
	}
}

// A session whose peer has gone while bytes were on their way doesn't wait for them.
func TestCloseBehindAResetIsQuick(t *testing.T) {
	for round := 0; round < 5; round++ {
		listener, err := net.Listen("tcp", "127.0.0.1:0")
		good(t, err)
		peer, err := net.Dial("tcp", listener.Addr().String())
		good(t, err)
		accepted, err := listener.Accept()
		good(t, err)
		listener.Close()
		good(t, peer.(*net.TCPConn).SetReadBuffer(4096))
		session, err := Client(accepted, quiet())
		good(t, err)
		for count := 0; count < 40; count++ { // 10 MiB, more than the system takes
			stream, err := session.OpenStream()
			good(t, err)
			go stream.Write(make([]byte, leastWindow))
		}
		await(t, "the connection is full", func() bool {
			session.lock.Lock()
			defer session.lock.Unlock()
			return session.isOccupied() && len(session.turns) > 0
		})
		time.AfterFunc(20*time.Millisecond, func() {
			peer.(*net.TCPConn).SetLinger(0)
			peer.Close()
		})
		began := time.Now()
		good(t, session.Close())
		if took := time.Since(began); took >= lastReads {
			t.Fatalf("round %d: it takes %v", round, took)
		}
	}
}
