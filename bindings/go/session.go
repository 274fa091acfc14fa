//go:build (linux || darwin || freebsd || windows) && (amd64 || arm64)

// Package yamux carries many streams over one connection. It has the calls of github.com/hashicorp/yamux, over a session that is
// proved, whose machine code stands in assembly files. The README says what of it is trusted, and where it differs.
package yamux

import (
	"context"
	"io"
	"log"
	"net"
	"sync"
	"time"
)

// How long a session that can't write any more goes on to read what the peer has still sent.
const lastReads = time.Second

// Session is one side of a connection. All its calls may be made by many goroutines at once.
//
// One goroutine at a time reads, feeds, and wakes those who wait for a stream that was touched: over a socket the only call
// that waits for the peer, and otherwise a goroutine of the session. What that goroutine reads from a socket, a Read that waits
// copies itself once it is woken. Who has bytes to send emits them into one block and writes it, as far as the connection takes it at
// once. Another goroutine writes the rest, and what others have put into a second block meanwhile. Nobody holds the lock while it
// reads from the connection or writes to it.
type Session struct {
	config     *Config
	logger     Logger
	connection io.ReadWriteCloser
	socket     *socket       // nil where the connection is none
	source     *source       // for who reads alone
	done       chan struct{} // closed as the session ends
	readerDone chan struct{} // closed as nobody reads any more
	pingSeats  chan struct{} // the pings that the library keeps: 16 at most

	lock      sync.Mutex // guards all below, and each call of the core
	core      core
	isClient  bool
	window    uint32
	isSettled bool   // which side this is
	early     []byte // a part of the first header that came, until that is so
	over      bool
	mute      bool  // nothing goes out any more, and what the peer has sent is still read
	failure   error // why it is over, or will be once the last bytes are out
	due       bool  // there is something to emit
	busy      bool  // somebody writes to the connection
	full      bool  // the connection didn't take all at once, so the writing goroutine waits for it
	offered   int64 // streams that wait for AcceptStream
	unacked   int   // own streams that the peer has not acknowledged
	streams   map[uint32]*Stream
	leaving   map[uint32]*Stream // forgotten by the library, but their end is not out
	kept      []*Stream          // the peer's, which came before the session ended, and wait for AcceptStream
	pings     map[uint32]*ping
	block     *[blockSize]byte // for what is emitted; nil while nothing is
	rest      []byte           // what of it the connection has not taken
	next      *[blockSize]byte // for what goes out after it; nil while nothing does
	filled    int              // how many bytes stand there
	called    int              // how many bytes those have who were called to put theirs there, and have not come yet
	out       outgoing
	drains    uint64      // emissions after which nothing was due
	inRest    uint64      // how many of them are out once the rest is
	outside   uint64      // how many of them the connection has taken
	flushing  []*Stream   // of which calls wait for their bytes to be out
	passed    []*Stream   // of which a Read that waits has got bytes by the feed that is under way
	turns     []*Stream   // of which a Write waits for the connection, the first to come first
	away      bool        // our Go Away is out
	isSparing bool        // memory is given back before long, if no stream comes
	watching  bool        // a look at those who wait for the connection to take their bytes is planned
	watch     *time.Timer // that look; nil before the first time
	spare     *time.Timer // gives the memory back; nil before the first time
	opening   patience    // own streams that the peer has not acknowledged
	closing   patience    // streams that are closed here, and not ended by the peer
	timer     *time.Timer // for what is sent soon; nil before the first time
	isPlanned bool        // the timer will send it

	isReading     bool        // somebody reads from the connection, or feeds what came
	reader        *sync.Cond  // what the call that reads from the connection would wait for otherwise; nil where none reads
	isInterrupted bool        // that call shall look anew
	loan          *loan       // of the block that is fed, where Reads may copy from it later; or nil
	loans         [2]loan     // the blocks from which Reads have still to copy
	isDeaf        bool        // nobody reads any more
	isResting     bool        // the reading goroutine leaves it to calls that wait, for the time being
	unfed         []byte      // what a call has read, and the library doesn't take before answers are out
	waiters       int         // calls that wait for the peer, and that nothing has woken
	woken         int         // how many streams the last feed has touched
	isCrowded     bool        // they were several, many bytes had come, and no Read has still to copy some
	standby       *time.Timer // for the reading goroutine; nil before the first time
	isStandingBy  bool        // the timer will have it read, if nobody does

	receiver   *sync.Cond // the reading goroutine has something to do
	sender     *sync.Cond // the writing goroutine has something to do
	emitted    *sync.Cond // bytes were emitted
	acceptable *sync.Cond // a stream waits for AcceptStream
	openable   *sync.Cond // a stream was acknowledged, or is gone
	written    *sync.Cond // a Go Away was written
}

type ping struct {
	back chan struct{} // closed once the answer is back
	sent bool
}

func newSession(config *Config, connection io.ReadWriteCloser, client bool) (*Session, error) {
	window := config.MaxStreamWindowSize
	if window > widestWindow {
		window = widestWindow
	}
	core, err := newCore(client, window)
	if err != nil {
		return nil, err
	}
	logger := config.Logger
	if logger == nil {
		logger = log.New(config.LogOutput, "", log.LstdFlags)
	}
	s := &Session{
		config:     config,
		logger:     logger,
		connection: connection,
		socket:     newSocket(connection),
		done:       make(chan struct{}),
		readerDone: make(chan struct{}),
		pingSeats:  make(chan struct{}, 16),
		core:       core,
		isClient:   client,
		window:     window,
		streams:    make(map[uint32]*Stream),
		leaving:    make(map[uint32]*Stream),
		pings:      make(map[uint32]*ping),
	}
	s.source = newSource(connection, s.socket)
	s.opening = patience{lock: &s.lock, limit: config.StreamOpenTimeout, tired: (*Stream).openTimedOut}
	s.closing = patience{lock: &s.lock, limit: config.StreamCloseTimeout, tired: (*Stream).closeTimedOut}
	for _, cond := range []**sync.Cond{&s.receiver, &s.sender, &s.emitted, &s.acceptable, &s.openable, &s.written} {
		*cond = sync.NewCond(&s.lock)
	}
	go s.receive()
	go s.send()
	if config.EnableKeepAlive {
		go s.keepAlive()
	}
	return s, nil
}

// ---- the end

// IsClosed says whether the session has ended.
func (s *Session) IsClosed() bool {
	select {
	case <-s.done:
		return true
	default:
		return false
	}
}

// CloseChan gives a channel that is closed as the session ends.
func (s *Session) CloseChan() <-chan struct{} { return s.done }

// Close ends the session and its connection, and all streams. What has come of a stream that was accepted or opened can
// still be read. Streams that nobody has accepted are gone.
//
// What Write and Close of a stream have returned for is on its way: where the peer has no room for it, Close waits for a
// second at most (on Linux, over TCP).
func (s *Session) Close() error {
	s.lock.Lock()
	s.writeHere() // what is sent soon
	s.lock.Unlock()
	s.end(ErrSessionShutdown)
	<-s.readerDone
	s.lock.Lock()
	s.kept = nil
	s.lock.Unlock()
	return nil
}

// end ends the session, for this reason if it is the first.
func (s *Session) end(reason error) {
	s.lock.Lock()
	if s.over {
		s.lock.Unlock()
		return
	}
	if s.failure == nil {
		s.failure = reason
	}
	s.over = true
	for _, stream := range s.streams {
		stream.abandon()
	}
	if reason != ErrSessionShutdown {
		s.keepOffered()
	}
	s.wakeFlushing() // also of streams that the library has forgotten
	s.core.free()
	s.giveBlock()
	s.opening.stop()
	s.closing.stop()
	for _, timer := range []*time.Timer{s.timer, s.standby, s.watch, s.spare} {
		if timer != nil {
			timer.Stop()
		}
	}
	close(s.done)
	for _, cond := range []*sync.Cond{s.receiver, s.sender, s.emitted, s.acceptable, s.openable, s.written} {
		cond.Broadcast()
	}
	s.lock.Unlock()
	if s.socket != nil {
		most := time.Duration(0)
		if reason == ErrSessionShutdown {
			most = lastReads
		}
		s.socket.settle(most)
	}
	s.connection.Close()
}

// leftBy is io.EOF where either side has just ended the session, and ErrSessionShutdown where something went wrong.
func (s *Session) leftBy() error {
	s.lock.Lock()
	defer s.lock.Unlock()
	if s.failure == io.EOF || s.failure == ErrSessionShutdown {
		return io.EOF
	}
	return ErrSessionShutdown
}

// idle is how long a session has had no stream, at least, before it gives back what it keeps for those to come.
const idle = time.Second

// spareMemory plans that, where the last stream has gone.
func (s *Session) spareMemory() {
	if len(s.streams) > 0 || s.isSparing {
		return
	}
	s.isSparing = true
	s.spare = time.AfterFunc(idle, func() {
		s.lock.Lock()
		defer s.lock.Unlock()
		s.isSparing = false
		if !s.over && len(s.streams) == 0 {
			s.core.shrinkSpare()
		}
	})
}

// keepOffered takes what the peer has sent of streams that nobody has accepted yet, so that AcceptStream still gives them.
func (s *Session) keepOffered() {
	for id := s.core.accept(); id > 0; id = s.core.accept() {
		stream := newStream(s, uint32(id))
		stream.abandon()
		s.kept = append(s.kept, stream)
	}
}

// isDown says whether nothing goes out any more.
func (s *Session) isDown() bool { return s.over || s.mute }

// silence notes that the connection takes no more bytes. What the peer has sent is still read: a peer that hangs up refuses
// ours. If the connection doesn't end by that, the session ends for this reason. It says whether that is new.
func (s *Session) silence(reason error) bool {
	if s.isDown() {
		return false
	}
	s.mute = true
	for _, stream := range s.streams {
		stream.wake()
	}
	s.wakeFlushing()
	for _, cond := range []*sync.Cond{s.emitted, s.openable, s.written} {
		s.wake(cond)
	}
	time.AfterFunc(lastReads, func() { s.end(reason) })
	return true
}

// breakOff ends the session once the Go Away that names the peer's fault is out, or can't get out.
func (s *Session) breakOff(reason error) {
	s.failure = reason
	if !s.due || s.mute {
		go s.end(reason)
		return
	}
	time.AfterFunc(s.config.ConnectionWriteTimeout, func() { s.end(reason) })
}

// ---- bytes that go

// wakeWriter has the writing goroutine send what is due.
func (s *Session) wakeWriter() {
	if !s.due {
		s.due = true
		s.sender.Signal()
	}
}

// soon is how long a stream's first frame waits for something that goes out together with it.
const soon = 100 * time.Microsecond

// sendSoon has what is due sent with the next bytes that go out, or before the next Read waits, and in any case soon.
func (s *Session) sendSoon() {
	if s.due {
		return
	}
	s.due = true
	if s.isPlanned {
		return
	}
	s.isPlanned = true
	if s.timer == nil {
		s.timer = time.AfterFunc(soon, s.sendNow)
	} else {
		s.timer.Reset(soon)
	}
}

// sendNow is the timer's call.
func (s *Session) sendNow() {
	s.lock.Lock()
	defer s.lock.Unlock()
	s.isPlanned = false
	if s.due {
		s.sender.Signal()
	}
}

// send is the writing goroutine.
func (s *Session) send() {
	s.lock.Lock()
	defer s.lock.Unlock()
	for !s.over {
		if s.busy || !s.fill() {
			s.nextTurn()
			s.sender.Wait()
			continue
		}
		err := s.writeRest(s.writeAndWait)
		if err != nil {
			if s.silence(err) {
				s.lock.Unlock() // a log may write to a stream
				s.logger.Printf("[ERR] yamux: Failed to write: %v", err)
				s.lock.Lock()
			}
			return
		}
		s.full = false
		s.nextTurn()
	}
}

// writeAndWait writes to the connection until it has taken all.
func (s *Session) writeAndWait(bytes []byte) (int, error) {
	if s.socket != nil {
		return writeAndForget(s.connection, bytes)
	}
	return s.connection.Write(bytes)
}

// fill emits what is due, once all that was emitted is out, and says whether there is something to write.
func (s *Session) fill() bool {
	if len(s.rest) > 0 {
		return true
	}
	if !s.due {
		return false
	}
	s.takeBlock()
	count := s.core.emit(s.block[:])
	s.rest = s.block[:count]
	s.due = count == blockSize
	if !s.due {
		s.drains++
	}
	s.inRest = s.drains
	s.emitted.Broadcast()
	s.drained()
	s.giveBlock()
	return count > 0
}

// takeBlock has a block for what is emitted.
func (s *Session) takeBlock() {
	if s.block == nil {
		s.block = blocks.Get().(*[blockSize]byte)
	}
}

// giveBlock gives it back, and the one after it, once the connection has taken all, or takes no more.
func (s *Session) giveBlock() {
	if s.busy || len(s.rest) > 0 && !s.over {
		return
	}
	s.rest, s.filled = nil, 0
	for _, block := range []**[blockSize]byte{&s.block, &s.next} {
		if *block != nil {
			blocks.Put(*block)
			*block = nil
		}
	}
}

// through has bytes of a stream go straight into frames, if all that was due before is out, and says how many.
func (s *Session) through(id uint32, bytes []byte) int {
	if s.isOccupied() || s.due {
		return 0
	}
	s.takeBlock()
	taken, filled := s.core.writeThrough(id, bytes, s.block[:])
	s.rest = s.block[:filled]
	if filled > 0 {
		s.drains++ // nothing is due after it
	}
	s.inRest = s.drains
	s.giveBlock()
	return taken
}

// ahead has bytes of a stream go into frames while somebody writes those before them, after what is due, and says how many. There
// is room for them.
func (s *Session) ahead(id uint32, bytes []byte) int {
	if s.next == nil {
		s.next = blocks.Get().(*[blockSize]byte)
	}
	if s.due {
		s.filled += s.core.emit(s.next[s.filled:])
		s.due = s.filled == blockSize
		if !s.due {
			s.drains++
		}
		s.emitted.Broadcast()
	}
	taken := 0
	if !s.due {
		var count int
		taken, count = s.core.writeThrough(id, bytes, s.next[s.filled:])
		if count > 0 {
			s.filled += count
			s.drains++
		}
	}
	if s.filled == 0 {
		s.inRest = s.drains
	}
	return taken
}

// hasRoom says whether a frame can go ahead, beside so many bytes of others.
func (s *Session) hasRoom(others int) bool { return s.filled+others <= blockSize-headerSize-leastTurn }

// turnOver has what went ahead be written next, once all before it is out.
func (s *Session) turnOver() {
	if len(s.rest) == 0 && s.filled > 0 {
		s.block, s.next = s.next, s.block
		s.rest, s.filled = s.block[:s.filled], 0
		s.inRest = s.drains
	}
}

// writeRest writes what was emitted, without the lock, and notes what the connection took.
func (s *Session) writeRest(write func([]byte) (int, error)) error {
	rest := s.rest
	s.busy = true
	s.lock.Unlock()
	count, err := write(rest)
	s.lock.Lock()
	s.busy = false
	if !s.over {
		s.rest = rest[count:]
		s.sent(rest[:count])
		s.drained()
		s.turnOver()
		if s.failure != nil && !s.due && len(s.rest) == 0 {
			go s.end(s.failure)
		}
	}
	s.giveBlock()
	return err
}

// writeHere writes what is due in the calling goroutine, as far as the connection takes it at once, and says whether it
// did. Then the lock was released meanwhile, so the caller looks anew before it waits. The writing goroutine goes on.
func (s *Session) writeHere() bool {
	if s.busy || s.full || s.isDown() {
		return false
	}
	if !s.fill() {
		s.nextTurn()
		return false
	}
	if s.socket == nil {
		s.sender.Signal()
		return false
	}
	s.writeRest(s.socket.write)
	s.full = len(s.rest) > 0
	if s.due || s.full {
		s.sender.Signal()
	}
	s.nextTurn()
	return true
}

// isOccupied says whether somebody writes to the connection, or has still to.
func (s *Session) isOccupied() bool { return s.busy || s.full || len(s.rest) > 0 }

// nextTurn calls those who wait for the connection, the first to come first: as many as have room ahead of others, also if it is free
// and nothing else is to go out.
func (s *Session) nextTurn() {
	if !s.isOccupied() && s.due {
		return
	}
	for len(s.turns) > 0 && s.hasRoom(s.called) {
		first := s.turns[0]
		s.leaveTurns(first)
		s.called += first.waiting
		first.hasTurn = true
		first.writable.Broadcast()
	}
}

// leaveTurns takes a stream off the list of those that wait for the connection.
func (s *Session) leaveTurns(stream *Stream) {
	for place, other := range s.turns {
		if other == stream {
			s.turns = append(s.turns[:place], s.turns[place+1:]...)
			return
		}
	}
}

// drained notes that all that was emitted is out, if it is, and wakes those who wait for no more than that.
func (s *Session) drained() {
	if s.outside == s.inRest || len(s.rest) > 0 {
		return
	}
	s.outside = s.inRest
	s.wakeFlushing()
}

// wakeFlushing wakes all who wait for their bytes to be out. Who goes on waiting enters the list anew.
func (s *Session) wakeFlushing() {
	for _, stream := range s.flushing {
		stream.isFlushing = false
		stream.readable.Broadcast()
		stream.writable.Broadcast()
	}
	s.flushing = s.flushing[:0]
}

// overdue says whether who has waited since then for the connection to take its bytes should give up. It plans a look.
func (s *Session) overdue(since time.Time) bool {
	if time.Since(since) >= s.config.ConnectionWriteTimeout {
		return true
	}
	if !s.watching {
		s.watching = true
		s.watch = time.AfterFunc(s.config.ConnectionWriteTimeout/4, s.look)
	}
	return false
}

// look wakes those who wait for the connection to take their bytes, so that they see how late it is.
func (s *Session) look() {
	s.lock.Lock()
	defer s.lock.Unlock()
	s.watching = false
	s.written.Broadcast()
	s.wakeFlushing()
	for _, stream := range s.turns {
		stream.writable.Broadcast()
	}
}

// ---- streams

// NumStreams says how many streams there are: opened or accepted, and not ended on both sides.
func (s *Session) NumStreams() int {
	s.lock.Lock()
	defer s.lock.Unlock()
	return len(s.streams)
}

// Open is OpenStream for programs that want a net.Conn.
func (s *Session) Open() (net.Conn, error) {
	stream, err := s.OpenStream()
	if err != nil {
		return nil, err
	}
	return stream, nil
}

// OpenStream opens a stream. It waits while AcceptBacklog streams are not acknowledged. Once the session is over it returns
// ErrSessionShutdown, and ErrRemoteGoAway where the peer takes no more streams.
func (s *Session) OpenStream() (*Stream, error) {
	return s.OpenStreamWithContext(context.Background())
}

// OpenStreamWithContext is OpenStream, and stops waiting with the context's error once that is done.
func (s *Session) OpenStreamWithContext(waits context.Context) (*Stream, error) {
	defer s.wakeWith(waits, s.openable)()
	s.lock.Lock()
	defer s.lock.Unlock()
	for !s.isDown() {
		if err := waits.Err(); err != nil {
			return nil, err
		}
		if s.unacked >= s.config.AcceptBacklog {
			s.await(s.openable)
			continue
		}
		answer := s.core.open()
		if answer == answerOpensPending {
			s.await(s.openable)
			continue
		}
		if answer < 0 {
			return nil, refusal(answer)
		}
		s.isSettled = true
		stream := newStream(s, uint32(answer))
		stream.isUnacked = true
		s.unacked++
		s.opening.add(&stream.opening, stream)
		if err := stream.begin(); err != nil {
			stream.breakOff(err)
			return nil, err
		}
		return stream, nil
	}
	return nil, ErrSessionShutdown
}

// Accept is AcceptStream for programs that want a net.Conn. With it a Session is a net.Listener, whose end is no
// net.ErrClosed unless this side has closed it.
func (s *Session) Accept() (net.Conn, error) {
	stream, err := s.AcceptStream()
	if err != nil {
		return nil, err
	}
	return stream, nil
}

// AcceptStream waits for a stream of the peer's. Once the session is over, and all streams that came before are given,
// it returns why: io.EOF where the peer has hung up, ErrSessionShutdown where this side has closed the session,
// ErrKeepAliveTimeout, ErrTimeout where the peer has not acknowledged a stream in time, the fault where the peer broke the
// rules, or the error of the connection. Where this side has closed the session, streams that came before are not given.
func (s *Session) AcceptStream() (*Stream, error) {
	return s.AcceptStreamWithContext(context.Background())
}

// wakeWith has the calls that wait for this look anew once the context is done, until what it gives is called.
func (s *Session) wakeWith(waits context.Context, cond *sync.Cond) (end func()) {
	if waits.Done() == nil {
		return func() {}
	}
	stop := make(chan struct{})
	go func() {
		select {
		case <-waits.Done():
			s.lock.Lock()
			s.wake(cond)
			s.lock.Unlock()
		case <-stop:
		}
	}()
	return func() { close(stop) }
}

// AcceptStreamWithContext is AcceptStream, and stops waiting with the context's error once that is done.
func (s *Session) AcceptStreamWithContext(waits context.Context) (*Stream, error) {
	defer s.wakeWith(waits, s.acceptable)()
	s.lock.Lock()
	defer s.lock.Unlock()
	for {
		if err := waits.Err(); err != nil {
			return nil, err
		}
		if len(s.kept) > 0 {
			stream := s.kept[0]
			s.kept = s.kept[1:]
			return stream, nil
		}
		if s.over {
			return nil, s.failure
		}
		if s.offered == 0 {
			s.await(s.acceptable)
			continue
		}
		s.offered--
		answer := s.core.accept()
		if answer == 0 {
			s.offered = 0
			continue
		}
		if answer < 0 {
			return nil, refusal(answer)
		}
		stream := newStream(s, uint32(answer))
		stream.begin() // a later call tells if the session has ended: what came of the stream is there
		return stream, nil
	}
}

// ---- the session as a whole

// GoAway tells the peer that no more of its streams are taken. Streams that are there go on.
func (s *Session) GoAway() error {
	s.lock.Lock()
	defer s.lock.Unlock()
	if s.isDown() {
		return ErrSessionShutdown
	}
	if answer := s.core.goAway(); answer < 0 {
		return refusal(answer)
	}
	s.isSettled = true
	s.wakeWriter()
	for since := time.Now(); !s.away; s.written.Wait() {
		if s.isDown() {
			return ErrSessionShutdown
		}
		if s.overdue(since) {
			return ErrConnectionWriteTimeout
		}
	}
	return nil
}

// Ping says how long the peer takes to answer.
func (s *Session) Ping() (time.Duration, error) {
	timer := time.NewTimer(s.config.ConnectionWriteTimeout)
	defer timer.Stop()
	ping, err := s.beginPing(timer.C)
	if err != nil {
		return 0, err
	}
	began := time.Now()
	select {
	case <-ping.back:
		return time.Since(began), nil
	case <-s.done:
		return 0, ErrSessionShutdown
	case <-timer.C:
	}
	s.lock.Lock()
	defer s.lock.Unlock()
	if !ping.sent {
		return 0, ErrConnectionWriteTimeout
	}
	return 0, ErrTimeout
}

// beginPing sends a ping, once fewer than 16 have no answer.
func (s *Session) beginPing(timeout <-chan time.Time) (*ping, error) {
	select {
	case s.pingSeats <- struct{}{}:
	case <-s.done:
		return nil, ErrSessionShutdown
	case <-timeout:
		return nil, ErrConnectionWriteTimeout
	}
	s.lock.Lock()
	defer s.lock.Unlock()
	if s.isDown() {
		<-s.pingSeats
		return nil, ErrSessionShutdown
	}
	answer := s.core.ping()
	if answer < 0 {
		<-s.pingSeats
		return nil, refusal(answer)
	}
	ping := &ping{back: make(chan struct{})}
	s.pings[uint32(answer)] = ping
	s.callReader()
	s.wakeWriter()
	return ping, nil
}

func (s *Session) keepAlive() {
	ticker := time.NewTicker(s.config.KeepAliveInterval)
	defer ticker.Stop()
	for {
		select {
		case <-ticker.C:
		case <-s.done:
			return
		}
		if _, err := s.Ping(); err != nil {
			if err != ErrSessionShutdown {
				s.logger.Printf("[ERR] yamux: keepalive failed: %v", err)
				s.end(ErrKeepAliveTimeout)
			}
			return
		}
	}
}
