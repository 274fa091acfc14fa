//go:build (linux || darwin || freebsd || windows) && (amd64 || arm64)

package yamux

import (
	"io"
	"net"
	"os"
	"sync"
	"syscall"
	"time"
)

// A block is for bytes that are on their way from or to a connection, for as long as that takes. It has room for the window
// of one stream and the headers of its frames, so that what one write made due goes out in one piece.
const blockSize = leastWindow + 16*1024

// blocks serve all sessions in turn, so that one in which nothing moves has none.
var blocks = sync.Pool{New: func() any { return new([blockSize]byte) }}

// socket is a connection that is read and written without waiting while a block is held.
type socket struct {
	connection net.Conn
	raw        syscall.RawConn

	// What one write gives and answers. One goroutine at a time writes.
	try   func(descriptor uintptr) bool // kept, so that a write allocates nothing
	bytes []byte
	count int
	err   error

	// What one read is for, and answers. One goroutine at a time reads.
	look  func(descriptor uintptr) bool
	block *[blockSize]byte // where the bytes lie; nil while a read waits
	most  int              // how many it takes
	came  int
	fault error
}

// newSocket gives nil for a connection that is no socket.
func newSocket(connection io.ReadWriteCloser) *socket {
	var raw syscall.RawConn
	var err error
	switch connection := connection.(type) {
	case *net.TCPConn:
		raw, err = connection.SyscallConn()
	case *net.UnixConn:
		raw, err = connection.SyscallConn()
	default:
		return nil
	}
	if err != nil || !preparedSocket(raw) {
		return nil
	}
	s := &socket{connection: connection.(net.Conn), raw: raw}
	s.try = func(descriptor uintptr) bool {
		s.count, s.err = writeNow(descriptor, s.bytes)
		return true // don't wait and try again
	}
	s.look = s.readAtOnce
	return s
}

// write writes what the socket takes at once, and says how much. An error is told again by the next write that waits.
func (s *socket) write(bytes []byte) (int, error) {
	s.bytes, s.count = bytes, 0
	err := s.raw.Write(s.try)
	s.bytes = nil
	if err != nil {
		return 0, err
	}
	if s.count < 0 {
		s.count = 0
	}
	return s.count, s.err
}

// read waits for so many bytes at most, which are good until the next read. No block is held while it waits.
func (s *socket) read(most int) ([]byte, error) {
	s.most = most
	if err := s.raw.Read(s.look); err != nil {
		return nil, err
	}
	if s.fault != nil {
		return nil, &net.OpError{Op: "read", Net: s.connection.LocalAddr().Network(), Source: s.connection.LocalAddr(),
			Addr: s.connection.RemoteAddr(), Err: os.NewSyscallError(nameOfRead, s.fault)}
	}
	if s.came == 0 {
		return nil, io.EOF
	}
	return s.block[:s.came], nil
}

// readAtOnce reads into a block, and says whether there was anything: bytes, the end or a fault.
func (s *socket) readAtOnce(descriptor uintptr) bool {
	if s.block == nil {
		s.block = blocks.Get().(*[blockSize]byte)
	}
	s.came, s.fault = readNow(descriptor, s.block[:s.most])
	if s.fault == nil && s.came > 0 {
		return true
	}
	blocks.Put(s.block)
	s.block = nil
	return s.fault != nothingThere
}

// settle waits until the system has sent all that was written, for so long at most, and drops what has come: where a
// connection is closed while something unread is there, the system resets it, and drops what it has still to send. Where the system
// doesn't say what is unsent, the peer is told that no more comes, and its own end, or a fault, says that it has got all. What was
// written to a Unix socket lies with the peer already.
func (s *socket) settle(most time.Duration) {
	tcp, isTCP := s.connection.(*net.TCPConn)
	isEnding := false
	for since, wait := time.Now(), time.Millisecond; ; wait *= 2 {
		hasEnded, left, isTold := true, 0, true
		err := s.raw.Control(func(descriptor uintptr) {
			hasEnded = drop(descriptor)
			left, isTold = unsent(descriptor)
		})
		isOver := left == 0
		if isTCP && !isTold && most > 0 {
			isOver = hasEnded
			if !isEnding {
				tcp.CloseWrite()
				isEnding = true
			}
		}
		if err != nil || isOver || time.Since(since) >= most {
			return
		}
		time.Sleep(wait)
	}
}

// drop reads what a socket has, and forgets it: so many blocks at most, as a peer may go on sending. It says whether that is all that
// will come.
func drop(descriptor uintptr) bool {
	const most = 64
	block := blocks.Get().(*[blockSize]byte)
	defer blocks.Put(block)
	for count := 0; count < most; count++ {
		if came, err := readNow(descriptor, block[:]); came <= 0 {
			return err != nothingThere
		}
	}
	return false
}

// source is what a session reads from: a socket, or any other connection, where a read waits with the place for its bytes.
// That place is `own` until bytes come, and a block from then on, until they come in small reads alone.
type source struct {
	socket     *socket
	connection io.Reader
	own        []byte
	block      *[blockSize]byte
	hasRead    bool
	smallReads int // how many there were since the last one that was not small, or since the first
}

const (
	ownSize        = 16 * 1024 // what TLS gives by one read, at most
	mostSmallReads = 64
)

func newSource(connection io.Reader, socket *socket) *source {
	if socket != nil {
		return &source{socket: socket}
	}
	return &source{connection: connection, own: make([]byte, ownSize), smallReads: mostSmallReads}
}

// read waits for bytes, which are good until the next read. Of a socket it takes so many at most.
func (s *source) read(most int) ([]byte, error) {
	if s.socket != nil {
		return s.socket.read(most)
	}
	place := s.own
	if s.smallReads < mostSmallReads {
		if s.block == nil {
			s.block = blocks.Get().(*[blockSize]byte)
		}
		place = s.block[:]
	} else if s.block != nil {
		blocks.Put(s.block)
		s.block = nil
	}
	count, err := s.connection.Read(place)
	if s.smallReads++; count >= ownSize || !s.hasRead {
		s.smallReads = 0
	}
	s.hasRead = true
	return place[:count], err
}

// release gives back the block, after the last read.
func (s *source) release() {
	place := &s.block
	if s.socket != nil {
		place = &s.socket.block
	}
	if *place != nil {
		blocks.Put(*place)
		*place = nil
	}
}
