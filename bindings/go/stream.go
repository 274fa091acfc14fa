//go:build (linux || darwin || freebsd || windows) && (amd64 || arm64)

package yamux

import (
	"io"
	"sync"
	"time"
)

// Stream is one stream of a session: a net.Conn. All its calls may be made by many goroutines at once.
type Stream struct {
	session *Session
	id      uint32
	sending sync.Mutex // one Write at a time

	// The session's lock guards all below. Those of one byte stand together, so that the whole takes no more than 512.
	nothing    bool // a read would wait
	stalled    bool // a write would wait
	finished   bool // our end is on its way, or out
	closed     bool
	hasRead    bool  // a Read has begun before Close
	isDoomed   bool  // it is looked at once the grace of late bytes is over
	isUnacked  bool  // the peer has not acknowledged it
	begins     bool  // its first frame is out
	ends       bool  // our end is out
	isFlushing bool  // it is in the session's list of those
	hasTurn    bool  // its Write was called, as there is room for its bytes
	waiters    int16 // calls that wait for the peer, and that nothing has woken

	readable sync.Cond // something has come, or the end; or a credit is out
	writable sync.Cond // credit has come, or the end; or bytes are out
	reading  deadline
	writing  deadline

	place  []byte  // where a Read that waits wants its bytes; nil where none has a seat
	placed int     // how many have come for it
	pieces []piece // what of them that Read has still to copy there
	rest   []byte  // what has come after Close, or before the session ended
	end    error   // what Read returns after that, once the library has forgotten the stream; nil before
	last   error   // what it returns there in place of that, and at once, as Close has decided; or nil

	closedAt time.Time
	opening  waiting
	closing  waiting

	waiting int    // bytes of a Write that waits, which the library hasn't taken
	taken   uint64 // bytes that the library took from Write
	gone    uint64 // how many of them are out
	credits uint64 // how many credits are out
}

func newStream(session *Session, id uint32) *Stream {
	stream := &Stream{session: session, id: id}
	stream.readable.L, stream.writable.L = &session.lock, &session.lock
	session.streams[id] = stream
	return stream
}

// begin sends the first frame of a stream that was just opened or accepted. Over a socket that is soon, and together with
// what comes meanwhile. Over any other connection this waits until the frame is out.
func (st *Stream) begin() error {
	s := st.session
	if s.socket != nil {
		s.sendSoon()
		return nil
	}
	s.due = true
	return st.flush(&st.writable, func() bool { return st.begins })
}

// Session gives the stream's session.
func (st *Stream) Session() *Session { return st.session }

// StreamID gives the stream's number on the wire.
func (st *Stream) StreamID() uint32 { return st.id }

// Shrink gives memory back that the stream doesn't need now, as a pool of connections wants of a stream that is idle. Of a
// session's only stream that is what the session keeps beside it, too. What waits to be read stays.
func (st *Stream) Shrink() {
	s := st.session
	s.lock.Lock()
	defer s.lock.Unlock()
	if st.end == nil && !s.over {
		s.core.shrink(st.id, len(s.streams) == 1)
	}
}

// ---- reading

// lateReads is how long after Close bytes of the peer's may come before they reset the stream, and how long a Read that
// begins there waits for them, if there was none before.
const lateReads = 100 * time.Millisecond

// Read reads what has come, and waits while there is nothing. io.EOF comes once the peer has ended the stream and all was
// read, and for no other reason. Close ends a Read that waits, with ErrStreamClosed. A Read that begins after Close gives
// what had come before, and then ErrStreamClosed, or io.EOF if that had come too: what comes later may be the peer's answer
// to Close. Only where there was no Read before Close, as that of a request whose answer is read next, it gives also what
// comes within 100 milliseconds. Where the session ends before the stream, Read gives what has come, and then
// ErrSessionShutdown. After a reset it is ErrConnectionReset, and ErrTimeout where nothing is there and the deadline has
// passed.
func (st *Stream) Read(buffer []byte) (int, error) {
	st.session.lock.Lock()
	defer st.session.lock.Unlock()
	return st.read(buffer)
}

func (st *Stream) read(buffer []byte) (int, error) {
	if len(buffer) == 0 {
		return 0, nil
	}
	s := st.session
	st.hasRead = st.hasRead || !st.closed
	for {
		if len(st.rest) > 0 {
			count := copy(buffer, st.rest)
			st.rest = st.rest[count:]
			return count, nil
		}
		if st.end != nil {
			return 0, st.end
		}
		if st.last != nil {
			return 0, st.last
		}
		if !st.nothing {
			answer := s.core.read(st.id, buffer)
			if answer > 0 {
				return int(answer), st.credit()
			}
			if answer == 0 {
				if st.closed {
					st.leave(io.EOF)
				}
				return 0, io.EOF
			}
			if answer != answerWait {
				st.leave(refusal(answer))
				continue
			}
			st.nothing = true
		}
		if st.closed {
			left := lateReads - time.Since(st.closedAt)
			if left <= 0 {
				return 0, ErrStreamClosed
			}
			time.AfterFunc(left, st.wakeAll)
		}
		if st.reading.isPast() {
			return 0, ErrTimeout
		}
		if s.due && s.writeHere() {
			continue // something may have come meanwhile
		}
		if count := st.await(buffer); count > 0 {
			if s.over {
				return count, nil
			}
			return count, st.credit()
		}
	}
}

// await waits until something has come, or what is to be looked at, and says how many bytes of the buffer are filled. Bytes come
// straight there, as long as no other Read of the stream waits so.
func (st *Stream) await(buffer []byte) int {
	s := st.session
	if st.place != nil {
		st.awaitPeer(&st.readable, blockSize)
		return 0
	}
	st.place, st.placed = buffer, 0
	s.core.seat(st.id)
	st.awaitPeer(&st.readable, wanted(len(buffer)))
	if !s.over {
		s.core.unseat(st.id)
	}
	st.place = nil
	count := st.placed
	st.copyPieces()
	return count
}

// leastRead is how many bytes a call of a stream reads from the connection at once, at least: most frames are no longer.
const leastRead = 65536

// wanted is how many bytes a Read that waits reads from the connection: what its buffer takes, with the headers of frames of
// 16,384 bytes, so that what comes after it waits in the connection and is copied once.
func wanted(count int) int {
	switch {
	case count >= leastWindow:
		return blockSize
	case count < leastRead:
		count = leastRead
	}
	return count + (count/leastTurn+1)*headerSize
}

// awaitPeer waits for bytes that touch the stream, as a session awaits the peer, and reads so many from the connection at most.
func (st *Stream) awaitPeer(cond *sync.Cond, most int) {
	s := st.session
	if s.mayRead() {
		s.readOnce(cond, most)
		return
	}
	st.waiters++
	s.waiters++
	s.callReader()
	cond.Wait()
	if st.waiters > 0 { // nothing has touched the stream
		st.waiters--
		s.waiters--
	}
}

// deliver takes payload that has come for a Read that waits, and says how much. What more comes, waits for the next Read. Where the
// block is lent, the Read copies it itself, once it is woken.
func (st *Stream) deliver(bytes []byte) int {
	s := st.session
	if last := len(s.passed) - 1; last < 0 || s.passed[last] != st {
		s.passed = append(s.passed, st)
	}
	place := st.place[st.placed:]
	count := len(bytes)
	if len(place) < count {
		count = len(place)
	}
	if s.loan != nil && count >= leastPiece {
		s.loan.readers++
		st.pieces = append(st.pieces, piece{place, bytes[:count], s.loan})
	} else {
		copy(place, bytes[:count])
	}
	st.placed += count
	if st.placed == len(st.place) {
		s.core.unseat(st.id)
	}
	return count
}

func (st *Stream) wakeAll() {
	st.session.lock.Lock()
	st.wake()
	st.session.lock.Unlock()
}

// wake has all calls of the stream that wait look anew.
func (st *Stream) wake() {
	st.session.wake(&st.readable)
	st.session.wake(&st.writable)
}

// credit sends what a read has made due, and waits until it is out.
func (st *Stream) credit() error {
	s := st.session
	if s.due || !s.core.isDue() {
		return nil
	}
	s.due = true
	wanted := st.credits + 1
	err := st.flush(&st.readable, func() bool { return st.credits >= wanted || st.closed || st.reading.isPast() })
	if err == ErrSessionShutdown {
		return nil // the bytes have come, and the next call tells it
	}
	return err
}

// copySize is how many bytes WriteTo has on the way.
const copySize = 32 * 1024

// WriteTo has io.Copy write all that comes. It returns nil once the peer has ended the stream and all is written. Where
// this side has closed the stream, or either has ended the session, it returns io.EOF, which io.Copy then returns too, and
// never does at an end: so a copy that was broken off isn't taken for a whole one, and programs that pass over io.EOF, as
// go-plugin, log nothing.
func (st *Stream) WriteTo(writer io.Writer) (int64, error) {
	block := make([]byte, copySize)
	var all int64
	for {
		st.session.lock.Lock()
		count, err := st.read(block)
		st.session.lock.Unlock()
		if count > 0 {
			written, fault := writer.Write(block[:count])
			all += int64(written)
			if fault == nil && written < count {
				fault = io.ErrShortWrite
			}
			if fault != nil {
				return all, fault
			}
		}
		switch err {
		case nil:
		case io.EOF:
			return all, nil
		case ErrStreamClosed:
			return all, io.EOF
		case ErrSessionShutdown:
			return all, st.session.leftBy()
		default:
			return all, err
		}
	}
}

// ---- writing

// Write writes all of it, and waits until the connection has taken it. The count is of bytes that the connection took. Where
// the deadline passes it is of bytes that go out, also later, so who goes on from there repeats none; and where all of them
// do, there is no ErrTimeout.
func (st *Stream) Write(bytes []byte) (int, error) {
	st.sending.Lock()
	defer st.sending.Unlock()
	s := st.session
	s.lock.Lock()
	defer s.lock.Unlock()
	if st.writing.isPast() && len(bytes) > 0 {
		return 0, ErrTimeout
	}
	before, all := st.taken, len(bytes)
	err := st.hand(bytes)
	if err != nil {
		s.nextTurn() // it may have had a turn
	}
	st.waiting = 0
	fault := st.flush(&st.writable, func() bool { return st.gone >= st.taken || st.closed || st.writing.isPast() })
	if err == nil {
		err = fault
	}
	if st.gone >= before+uint64(all) {
		return all, nil
	}
	if err == nil {
		err = st.unsent()
	}
	if err == ErrTimeout {
		if st.taken == before+uint64(all) {
			err = nil
		}
		return int(st.taken - before), err
	}
	if st.gone <= before {
		return 0, err
	}
	return int(st.gone - before), err
}

// unsent is why bytes of a Write didn't get out.
func (st *Stream) unsent() error {
	if st.end == nil && st.session.core.look(st.id).isReset() {
		st.leave(ErrConnectionReset)
	}
	if fault := st.writeFault(); fault != nil {
		return fault
	}
	return ErrTimeout
}

// leastTurn is how many bytes go straight into frames also where somebody else writes, and wait for room if there is none. Fewer are
// copied into the stream's ring there: a frame's payload.
const leastTurn = 16384

// hand gives all of it to the library, as the peer grants credit.
func (st *Stream) hand(bytes []byte) error {
	s := st.session
	st.hasTurn = false
	for len(bytes) > 0 {
		st.waiting = len(bytes)
		if err := st.writeFault(); err != nil {
			return err
		}
		if !st.stalled {
			if len(bytes) >= leastTurn && (s.isOccupied() || s.due) {
				if s.writeHere() {
					continue
				}
				if s.isOccupied() {
					if !st.hasRoom() {
						if err := st.awaitTurn(); err != nil {
							return err
						}
						continue
					}
					if count := s.ahead(st.id, bytes); count > 0 {
						st.taken += uint64(count)
						bytes = bytes[count:]
						continue
					}
				}
			}
			if count := s.through(st.id, bytes); count > 0 {
				st.taken += uint64(count)
				bytes = bytes[count:]
				continue
			}
			answer := s.core.write(st.id, bytes)
			if answer > 0 {
				st.taken += uint64(answer)
				bytes = bytes[answer:]
				s.due = true
				st.stalled = len(bytes) > 0
				continue
			}
			if answer != answerWait {
				return st.refused(answer)
			}
			st.stalled = true
		}
		if s.writeHere() {
			continue // credit may have come meanwhile
		}
		s.nextTurn()
		if st.writing.isPast() {
			return ErrTimeout
		}
		st.awaitPeer(&st.writable, blockSize)
	}
	return nil
}

// hasRoom says whether bytes of the stream can go ahead. Those who were called keep the room for which they were.
func (st *Stream) hasRoom() bool {
	if st.hasTurn {
		st.hasTurn = false
		return st.session.hasRoom(0)
	}
	return st.session.hasRoom(st.session.called)
}

// awaitTurn waits until the connection is free, or there is room ahead, after those who came first.
func (st *Stream) awaitTurn() error {
	s := st.session
	since := time.Now()
	st.hasTurn = false
	s.turns = append(s.turns, st)
	for !st.hasTurn {
		if err := st.turnFault(since); err != nil {
			s.leaveTurns(st)
			return err
		}
		st.writable.Wait()
	}
	s.called -= st.waiting
	return nil
}

// turnFault is why a Write that has waited since then for the connection waits no longer.
func (st *Stream) turnFault(since time.Time) error {
	if err := st.writeFault(); err != nil {
		return err
	}
	if st.session.over {
		return ErrSessionShutdown
	}
	if st.writing.isPast() {
		return ErrTimeout
	}
	if st.session.overdue(since) {
		return ErrConnectionWriteTimeout
	}
	return nil
}

// writeFault is why nothing can be written any more.
func (st *Stream) writeFault() error {
	if st.finished {
		return ErrStreamClosed
	}
	if st.end == io.EOF {
		if st.closed {
			return ErrStreamClosed
		}
		return ErrSessionShutdown // which has ended after the peer's end of the stream
	}
	if st.end == nil && st.session.mute {
		return ErrSessionShutdown
	}
	return st.end
}

// refused is the error for a refusal, and lets a stream that was reset go.
func (st *Stream) refused(answer int64) error {
	err := refusal(answer)
	if err == ErrConnectionReset {
		st.leave(err)
	}
	return err
}

// flush has what is due sent, and waits until it holds that these bytes of the stream are out, or all that was due is: a reset or
// the peer's end may have made them needless.
func (st *Stream) flush(cond *sync.Cond, areOut func() bool) error {
	s := st.session
	if areOut() {
		if s.due || len(s.rest) > 0 {
			s.sender.Signal() // the caller doesn't wait for it, so the writing goroutine sends it
		}
		return nil
	}
	enough := s.drains
	if s.due {
		enough++
	}
	var since time.Time
	for ; !areOut() && s.outside < enough; cond.Wait() {
		for s.writeHere() {
			if areOut() || s.outside >= enough {
				return nil
			}
		}
		if s.isDown() {
			return ErrSessionShutdown
		}
		if areOut() || s.outside >= enough {
			return nil
		}
		if since.IsZero() {
			since = time.Now()
		}
		if s.overdue(since) {
			return ErrConnectionWriteTimeout
		}
		if !st.isFlushing {
			st.isFlushing = true
			s.flushing = append(s.flushing, st)
		}
	}
	return nil
}

// sent notes that so many bytes of Write are out.
func (st *Stream) sent(count uint64) {
	st.gone += count
	if st.gone >= st.taken {
		st.writable.Broadcast()
	}
}

// sentFrame notes what a frame that is out, or its header, says beside its payload.
func (st *Stream) sentFrame(kind byte, flags uint16, length uint32) {
	if flags&(flagSYN|flagACK) != 0 {
		st.begins = true
		st.writable.Broadcast()
	}
	if flags&flagFIN != 0 {
		st.ends = true
		st.writable.Broadcast()
		delete(st.session.leaving, st.id)
	}
	if kind == frameWindowUpdate && length > 0 {
		st.credits++
		st.readable.Broadcast()
	}
}

// ---- the end

// CloseWrite ends the writing side, after the last byte and after a Write that is under way, and waits until the
// connection has taken the end. The stream may still be read. It returns ErrConnectionReset or ErrSessionShutdown where the
// end can't be told any more, and ErrConnectionWriteTimeout where the connection doesn't take it.
func (st *Stream) CloseWrite() error {
	st.sending.Lock()
	defer st.sending.Unlock()
	st.session.lock.Lock()
	defer st.session.lock.Unlock()
	if st.finished {
		return nil
	}
	if fault := st.writeFault(); fault != nil {
		if st.end == io.EOF {
			return nil
		}
		return fault
	}
	return st.finish()
}

// Close ends both sides. The writing side ends after the last byte, and Close waits until the connection has taken that
// end. A Read or Write that waits returns ErrStreamClosed, but a Read gives what has come first. Who wants to read on calls
// CloseWrite. The stream is gone once the peer has ended it. It is reset if that takes longer than StreamCloseTimeout, or
// bytes come after Close, and 100 milliseconds are over: so a peer that goes on writing learns of it.
//
// Where it ends a Write that has bytes left for which the peer gave no credit, the stream is reset, so that the peer doesn't
// take what has come for the whole.
//
// Close returns nil, whatever happens; CloseWrite before it says whether the peer can learn of the end.
func (st *Stream) Close() error {
	s := st.session
	s.lock.Lock()
	defer s.lock.Unlock()
	if st.closed || st.end != nil {
		st.closed = true
		return nil
	}
	st.closed, st.closedAt = true, time.Now()
	news := s.core.look(st.id)
	if news.hasUnread() {
		st.rest = s.core.take(st.id, st.rest, widestWindow)
	}
	if news.hasEnded() {
		st.last = io.EOF
	} else if st.hasRead && !news.isReset() {
		st.last = ErrStreamClosed
		s.core.unseat(st.id)
	}
	st.wake()
	if st.waiting > 0 && !st.finished {
		st.breakOff(ErrStreamClosed)
		s.writeHere()
		return nil
	}
	s.closing.add(&st.closing, st)
	st.finish()
	if st.end == nil && (news.hasEnded() || news.isReset()) { // what comes meanwhile touches the stream
		st.settle(news)
	}
	return nil
}

// finish ends the writing side, and waits until the end is out.
func (st *Stream) finish() error {
	if st.finished || st.end != nil {
		return nil
	}
	st.finished = true
	if answer := st.session.core.finish(st.id); answer < 0 {
		return st.refused(answer)
	}
	st.session.due = true
	st.wake()
	return st.flush(&st.writable, func() bool { return st.ends })
}

// Reset breaks the stream off, both ways. Both sides' calls return ErrConnectionReset.
func (st *Stream) Reset() error {
	st.session.lock.Lock()
	defer st.session.lock.Unlock()
	if st.end == nil {
		st.breakOff(ErrConnectionReset)
	}
	return nil
}

// breakOff resets the stream, and lets it go.
func (st *Stream) breakOff(reason error) {
	if st.end != nil {
		return
	}
	st.session.core.reset(st.id)
	st.leave(reason)
}

// touch is called where bytes have come for this stream.
func (st *Stream) touch() {
	st.nothing, st.stalled = false, false
	s := st.session
	s.waiters -= int(st.waiters)
	st.waiters = 0
	if st.isUnacked || st.closed {
		news := st.session.core.look(st.id)
		if news.isAcknowledged() || news.isReset() {
			st.acknowledged()
		}
		if st.closed {
			st.settle(news)
		}
	}
	st.readable.Broadcast()
	st.writable.Broadcast()
}

// acknowledged lets the next stream be opened: the peer has this one, or doesn't want it, or it is gone.
func (st *Stream) acknowledged() {
	if !st.isUnacked {
		return
	}
	st.isUnacked = false
	st.session.unacked--
	st.session.wake(st.session.openable)
	st.session.opening.remove(&st.opening)
}

// tidy lets a closed stream go, if that can be.
func (st *Stream) tidy() { st.settle(st.session.core.look(st.id)) }

// settle lets a closed stream go, once the peer has ended it, or sends bytes though the grace is over. What a Read may still
// give waits for it.
func (st *Stream) settle(news news) {
	if news.isReset() {
		st.leave(ErrConnectionReset)
	} else if news.hasEnded() {
		if news.hasUnread() && st.last == nil {
			st.rest = st.session.core.take(st.id, st.rest, widestWindow)
		}
		st.leave(io.EOF)
	} else if news.hasUnread() && !st.isDoomed {
		left := lateReads - time.Since(st.closedAt)
		switch {
		case left > 0:
		case st.ends:
			st.breakOff(ErrStreamClosed)
			return
		default:
			left = lateReads // what was written isn't out yet
		}
		st.isDoomed = true
		time.AfterFunc(left, st.graceIsOver)
	}
}

// graceIsOver is called where bytes came after Close.
func (st *Stream) graceIsOver() {
	st.session.lock.Lock()
	defer st.session.lock.Unlock()
	st.isDoomed = false
	if st.end == nil {
		st.tidy()
	}
}

// leave has the library forget the stream.
func (st *Stream) leave(reason error) {
	s := st.session
	st.acknowledged()
	s.core.forget(st.id)
	if s.core.isDue() {
		s.wakeWriter() // there is a reset to send
	}
	delete(s.streams, st.id)
	s.spareMemory()
	if st.finished && !st.ends {
		s.leaving[st.id] = st
	}
	st.over(reason)
}

// abandon keeps what has come, as the session ends. Only where the library has the peer's end is that an end.
func (st *Stream) abandon() {
	core := st.session.core
	news := core.look(st.id)
	if news.hasUnread() && st.last == nil {
		st.rest = core.take(st.id, st.rest, widestWindow)
	}
	reason := ErrSessionShutdown
	switch {
	case news.isReset():
		reason = ErrConnectionReset
	case news.hasEnded():
		reason = io.EOF
	case st.closed:
		reason = ErrStreamClosed
	}
	delete(st.session.streams, st.id)
	st.over(reason)
}

func (st *Stream) over(reason error) {
	st.end = reason
	if st.last != nil {
		st.end = st.last
	}
	st.session.opening.remove(&st.opening)
	st.session.closing.remove(&st.closing)
	st.wake()
}

// closeTimedOut is called where the peer hasn't ended a closed stream in time.
func (st *Stream) closeTimedOut() {
	if st.end == nil {
		st.breakOff(ErrStreamClosed)
	}
}

// openTimedOut is called where the peer hasn't acknowledged a stream in time.
func (st *Stream) openTimedOut() {
	s := st.session
	if st.isUnacked && !s.over {
		go func() {
			s.logger.Printf("[ERR] yamux: aborted stream open: i/o deadline reached")
			s.end(ErrTimeout)
		}()
	}
}

// ---- deadlines

// deadline is a time, and a timer that wakes who waits.
type deadline struct {
	at    time.Time
	timer *time.Timer
}

func (d *deadline) isPast() bool { return !d.at.IsZero() && !time.Now().Before(d.at) }

// set has the calls of the stream that wait look anew, now and once the time has come.
func (d *deadline) set(at time.Time, stream *Stream) {
	lock := &stream.session.lock
	lock.Lock()
	defer lock.Unlock()
	if d.timer != nil {
		d.timer.Stop()
		d.timer = nil
	}
	d.at = at
	if !at.IsZero() {
		d.timer = time.AfterFunc(time.Until(at), stream.wakeAll)
	}
	stream.wake()
}

// SetDeadline sets both deadlines. The zero time is none.
func (st *Stream) SetDeadline(at time.Time) error {
	st.SetReadDeadline(at)
	return st.SetWriteDeadline(at)
}

// SetReadDeadline sets when a Read that waits returns ErrTimeout, also one that waits already.
func (st *Stream) SetReadDeadline(at time.Time) error {
	st.reading.set(at, st)
	return nil
}

// SetWriteDeadline sets when a Write that waits returns ErrTimeout, also one that waits already.
func (st *Stream) SetWriteDeadline(at time.Time) error {
	st.writing.set(at, st)
	return nil
}
