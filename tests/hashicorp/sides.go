// The Session and Stream of HashiCorp's tests, over either package: CLIENT and SERVER say `ours` or `theirs`. The tests
// name some private fields and calls; what stands for them here says so, and what order.sed has them call stands at the end.
// hashicorp.sh puts this beside their tests.
package yamux

import (
	"bytes"
	"io"
	"log"
	"net"
	"os"
	"sync"
	"time"

	ours "scratch/ours"
	theirs "scratch/theirs"
)

// Config has the fields of their package.
type Config struct {
	AcceptBacklog          int
	EnableKeepAlive        bool
	KeepAliveInterval      time.Duration
	ConnectionWriteTimeout time.Duration
	MaxStreamWindowSize    uint32
	LogOutput              io.Writer
	Logger                 *log.Logger
}

func DefaultConfig() *Config {
	config := theirs.DefaultConfig()
	return &Config{config.AcceptBacklog, config.EnableKeepAlive, config.KeepAliveInterval, config.ConnectionWriteTimeout,
		config.MaxStreamWindowSize, config.LogOutput, config.Logger}
}

// What both packages' sessions have.
type session interface {
	IsClosed() bool
	CloseChan() <-chan struct{}
	NumStreams() int
	Open() (net.Conn, error)
	Accept() (net.Conn, error)
	GoAway() error
	Ping() (time.Duration, error)
	Close() error
	SendNoWait([]byte) error
}

// What both packages' streams have.
type stream interface {
	net.Conn
	StreamID() uint32
	Shrink()
}

// What theirs have beside it.
type hasWindow interface{ SendWindow() uint32 }

type Session struct {
	session
	conn   io.ReadWriteCloser
	config *Config
	logger *log.Logger
	side   string
	wire   *wire

	// The pings that went out are counted on the connection.
	pingLock sync.Mutex
	pingID   uint32
}

type Stream struct {
	stream
	recvBuf *bytes.Buffer // a test logs its size
	session *Session
}

// A connection that counts the pings in writes of headers alone.
type counting struct {
	io.ReadWriteCloser
	session *Session
}

func (c counting) Read(p []byte) (int, error) {
	count, err := c.ReadWriteCloser.Read(p)
	c.session.wire.came(p[:count])
	return count, err
}

// Write notes the bytes first, as the peer may answer before the write is over.
func (c counting) Write(p []byte) (int, error) {
	c.session.wire.went(p)
	for rest := p; len(p)%headerSize == 0 && len(rest) > 0; rest = rest[headerSize:] {
		if h := header(rest); h.MsgType() == typePing && h.Flags() == flagSYN {
			c.session.pingLock.Lock()
			c.session.pingID++
			c.session.pingLock.Unlock()
		}
	}
	if len(p) > headerSize && len(p) < shortWrite {
		if count, err := c.ReadWriteCloser.Write(p[:headerSize]); err != nil {
			return count, err
		}
		count, err := c.ReadWriteCloser.Write(p[headerSize:])
		return headerSize + count, err
	}
	return c.ReadWriteCloser.Write(p)
}

// Their package writes a header and what follows it apart, and TestHalfClose counts on that: a write to a pipe is over once
// the reader has taken it, so the second one says that the first was looked at. Written in one piece, a byte may not be
// looked at yet where their Read after Close looks for it, and that Read says EOF. So short writes go in two pieces here.
const shortWrite = 100

// wire is what the frames of a connection say of the credit that its side has on each stream, and of what came.
type wire struct {
	lock    sync.Mutex
	more    *sync.Cond       // a frame came
	credit  map[uint32]int64 // beyond the first window
	data    map[uint32]int64 // bytes of the Data frames that came, or have begun to
	in, out frames
}

func newWire() *wire {
	w := &wire{credit: make(map[uint32]int64), data: make(map[uint32]int64)}
	w.more = sync.NewCond(&w.lock)
	return w
}

// frames cuts a direction's bytes into frames.
type frames struct {
	header  []byte
	payload int
}

// cut calls for each header.
func (f *frames) cut(p []byte, call func(header)) {
	for len(p) > 0 {
		if f.payload > 0 {
			count := f.payload
			if count > len(p) {
				count = len(p)
			}
			f.payload -= count
			p = p[count:]
			continue
		}
		count := headerSize - len(f.header)
		if count > len(p) {
			count = len(p)
		}
		f.header = append(f.header, p[:count]...)
		p = p[count:]
		if len(f.header) == headerSize {
			h := header(f.header)
			call(h)
			if h.MsgType() == typeData {
				f.payload = int(h.Length())
			}
			f.header = f.header[:0]
		}
	}
}

func (w *wire) came(p []byte) {
	w.lock.Lock()
	defer w.lock.Unlock()
	w.in.cut(p, func(h header) {
		switch h.MsgType() {
		case typeWindowUpdate:
			w.credit[h.StreamID()] += int64(h.Length())
		case typeData:
			w.data[h.StreamID()] += int64(h.Length())
		}
	})
	w.more.Broadcast()
}

// await waits until so many bytes of a stream came, but for what is left of the last frame, or for ten seconds.
func (w *wire) await(id uint32, count int) {
	isLate := false
	timer := time.AfterFunc(10*time.Second, func() {
		w.lock.Lock()
		defer w.lock.Unlock()
		isLate = true
		w.more.Broadcast()
	})
	defer timer.Stop()
	w.lock.Lock()
	defer w.lock.Unlock()
	for w.data[id] < int64(count) && !isLate {
		w.more.Wait()
	}
}

func (w *wire) went(p []byte) {
	w.lock.Lock()
	defer w.lock.Unlock()
	w.out.cut(p, func(h header) {
		if h.MsgType() == typeData {
			w.credit[h.StreamID()] -= int64(h.Length())
		}
	})
}

func (w *wire) of(id uint32) uint32 {
	w.lock.Lock()
	defer w.lock.Unlock()
	return uint32(int64(initialStreamWindow) + w.credit[id])
}

// A log's lines go to the logger that the test has put in last.
type forwarding struct{ session *Session }

func (f forwarding) Write(line []byte) (int, error) {
	f.session.logger.Print(string(line))
	return len(line), nil
}

func Client(conn io.ReadWriteCloser, config *Config) (*Session, error) {
	return begin(os.Getenv("CLIENT"), conn, config, ours.Client, theirs.Client)
}

func Server(conn io.ReadWriteCloser, config *Config) (*Session, error) {
	return begin(os.Getenv("SERVER"), conn, config, ours.Server, theirs.Server)
}

func begin(side string, conn io.ReadWriteCloser, config *Config,
	beginOurs func(io.ReadWriteCloser, *ours.Config) (*ours.Session, error),
	beginTheirs func(io.ReadWriteCloser, *theirs.Config) (*theirs.Session, error)) (*Session, error) {
	s := &Session{conn: conn, config: config, logger: log.New(config.LogOutput, "", log.LstdFlags), side: side, wire: newWire()}
	logger := log.New(forwarding{s}, "", 0)
	var err error
	if side == "ours" {
		inner := ours.DefaultConfig()
		inner.AcceptBacklog, inner.EnableKeepAlive, inner.KeepAliveInterval = config.AcceptBacklog, config.EnableKeepAlive, config.KeepAliveInterval
		inner.ConnectionWriteTimeout, inner.MaxStreamWindowSize = config.ConnectionWriteTimeout, config.MaxStreamWindowSize
		inner.LogOutput, inner.Logger = nil, logger
		s.session, err = beginOurs(counting{conn, s}, inner)
	} else {
		inner := theirs.DefaultConfig()
		inner.AcceptBacklog, inner.EnableKeepAlive, inner.KeepAliveInterval = config.AcceptBacklog, config.EnableKeepAlive, config.KeepAliveInterval
		inner.ConnectionWriteTimeout, inner.MaxStreamWindowSize = config.ConnectionWriteTimeout, config.MaxStreamWindowSize
		inner.LogOutput, inner.Logger = nil, logger
		s.session, err = beginTheirs(counting{conn, s}, inner)
	}
	return s, same(err)
}

// An error of either package is the one of its name here.
var errorsOfBoth = map[error]error{
	ours.ErrInvalidVersion: ErrInvalidVersion, theirs.ErrInvalidVersion: ErrInvalidVersion,
	ours.ErrInvalidMsgType: ErrInvalidMsgType, theirs.ErrInvalidMsgType: ErrInvalidMsgType,
	ours.ErrSessionShutdown: ErrSessionShutdown, theirs.ErrSessionShutdown: ErrSessionShutdown,
	ours.ErrStreamsExhausted: ErrStreamsExhausted, theirs.ErrStreamsExhausted: ErrStreamsExhausted,
	ours.ErrDuplicateStream: ErrDuplicateStream, theirs.ErrDuplicateStream: ErrDuplicateStream,
	ours.ErrRecvWindowExceeded: ErrRecvWindowExceeded, theirs.ErrRecvWindowExceeded: ErrRecvWindowExceeded,
	ours.ErrTimeout: ErrTimeout, theirs.ErrTimeout: ErrTimeout,
	ours.ErrStreamClosed: ErrStreamClosed, theirs.ErrStreamClosed: ErrStreamClosed,
	ours.ErrUnexpectedFlag: ErrUnexpectedFlag, theirs.ErrUnexpectedFlag: ErrUnexpectedFlag,
	ours.ErrRemoteGoAway: ErrRemoteGoAway, theirs.ErrRemoteGoAway: ErrRemoteGoAway,
	ours.ErrConnectionReset: ErrConnectionReset, theirs.ErrConnectionReset: ErrConnectionReset,
	ours.ErrConnectionWriteTimeout: ErrConnectionWriteTimeout, theirs.ErrConnectionWriteTimeout: ErrConnectionWriteTimeout,
	ours.ErrKeepAliveTimeout: ErrKeepAliveTimeout, theirs.ErrKeepAliveTimeout: ErrKeepAliveTimeout,
}

func same(err error) error {
	if here, ok := errorsOfBoth[err]; ok {
		return here
	}
	return err
}

func (s *Session) streamOf(conn net.Conn, err error) (*Stream, error) {
	if err != nil {
		return nil, same(err)
	}
	return &Stream{conn.(stream), new(bytes.Buffer), s}, nil
}

func (s *Session) OpenStream() (*Stream, error)   { return s.streamOf(s.session.Open()) }
func (s *Session) AcceptStream() (*Stream, error) { return s.streamOf(s.session.Accept()) }

func (s *Session) Open() (net.Conn, error) {
	stream, err := s.OpenStream()
	if err != nil {
		return nil, err
	}
	return stream, nil
}

func (s *Session) Accept() (net.Conn, error) {
	stream, err := s.AcceptStream()
	if err != nil {
		return nil, err
	}
	return stream, nil
}

func (s *Session) GoAway() error { return same(s.session.GoAway()) }

func (s *Session) Ping() (time.Duration, error) {
	took, err := s.session.Ping()
	return took, same(err)
}

func (s *Session) sendNoWait(h header) error { return same(s.session.SendNoWait(h)) }

// A field in their package. hashicorp.sh writes the tests' mention of it as a call. libymx doesn't say the credit of a stream
// that was finished, so for ours it is what the wire says.
func (s *Stream) sendWindow() uint32 {
	if s.session.side == "ours" {
		return s.session.wire.of(s.StreamID())
	}
	return s.stream.(hasWindow).SendWindow()
}

// Their package sends what a Write has credit for in one frame, and a frame comes whole: TestSession_WindowUpdateWriteDuringRead
// counts on that where its Read wants all that the other side writes. libymx sends frames of 16,384 bytes, and their Read takes
// what has come. So a Read of theirs that wants more than such a frame begins once the last of its frames has begun to come.
const longestFrame = 16384

func (s *Stream) Read(p []byte) (int, error) {
	if s.session.side == "theirs" && len(p) > longestFrame {
		s.session.wire.await(s.StreamID(), len(p))
	}
	count, err := s.stream.Read(p)
	return count, same(err)
}

func (s *Stream) Write(p []byte) (int, error) {
	count, err := s.stream.Write(p)
	return count, same(err)
}

// waitFor waits until the channel is closed, for ten seconds at most.
func waitFor(done <-chan struct{}) {
	select {
	case <-done:
	case <-time.After(10 * time.Second):
	}
}

// waitForNone waits until no session has a stream, for ten seconds at most.
func waitForNone(sessions ...*Session) {
	for since := time.Now(); time.Since(since) < 10*time.Second; time.Sleep(time.Millisecond) {
		streams := 0
		for _, session := range sessions {
			streams += session.NumStreams()
		}
		if streams == 0 {
			return
		}
	}
}
