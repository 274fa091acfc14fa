//go:build (linux || darwin || freebsd || windows) && (amd64 || arm64)

package yamux

import (
	"runtime"
	"strconv"
	"unsafe"
)

// What the proved functions answer, as ymx.h has it.
const (
	refusedNoStream     = -1
	refusedFinished     = -2
	refusedReset        = -3
	refusedLost         = -4
	refusedClosed       = -5
	refusedPeerAway     = -6
	refusedOpensPending = -7
	refusedTooMany      = -8
	refusedExhausted    = -9
	refusedNoMemory     = -11
	ymxWait             = -12
	ymxBroken           = 100
)

var errorNames = [...]string{"OK", "NO_STREAM", "FINISHED", "RESET", "LOST", "CLOSED", "PEER_AWAY", "OPENS_PENDING", "TOO_MANY", "EXHAUSTED",
	"PINGS_PENDING", "NO_MEMORY", "WAIT", "BAD_WINDOW", "BAD_FIRST", "NULL", "BAD_ROLE"}

func errorName(answer int64) string {
	if answer <= 0 && -answer < int64(len(errorNames)) {
		return errorNames[-answer]
	}
	return strconv.FormatInt(answer, 10)
}

// The most streams that wait to be accepted, so that one feed makes, and the most blocks that a session keeps beside its streams.
const (
	mostOffered = 256
	mostSpare   = 16
)

// The most streams that one feed names, and the most bytes that write_through takes.
const (
	mostTouched = 1024
	fewTouched  = 32
	mostThrough = 16384
)

// core is the proved session, which does no input or output. The lock of the Session that has it is held during each call.
type core struct{ c *coreState }

// coreState is a session, and what the last call said of it.
type coreState struct {
	session uintptr // memory of the proved part, as touched
	note    uintptr
	lent    uintptr // bytes that wait on a stream: memory of the proved part
	count   int     // of ids: the streams that the fed bytes have touched
	offered int64   // streams that wait to be accepted
	state   int64
	class   int     // the place in heap.large of blocks as wide as the window
	piece   uintptr // the size of a piece that holds one
	syns    syns
	passing int    // where a feed stopped before payload that a seat is for: how many bytes of it are to come
	stream  uint32 // whose payload that is
	seated  int    // how many seats there are
	all     bool   // more were touched than ids has room for
	pong    bool   // an answer to a ping came
	due     bool   // bytes wait to be emitted
	owed    bool   // payload that went to a seat has made credit due, and nothing else was
	ids     [fewTouched]uint32
	more    *[mostTouched]uint32 // in place of ids, once they were more
	seats   [64]uint32           // streams of which a Read waits with the place for its bytes, by seatOf; 0 where there is none
}

func seatOf(c *coreState, id uint32) *uint32 { return &c.seats[id/2%64] }

func newCore(client bool, window uint32) (core, error) {
	role := uintptr(1)
	if client {
		role = 0
	}
	c := &coreState{class: bufferClass, piece: bufferPiece}
	if window != leastWindow {
		c.class, c.piece = int(ymxClass(uintptr(window))), uintptr(ymxPiece(uintptr(window)))
	}
	c.promise(demand{})
	defer c.done(demand{})
	if fault := ymxNew(role, uintptr(window), 0, &c.session); fault != 0 {
		return core{}, refusal(fault)
	}
	if fault := ymxTouchedNew(&c.note); fault != 0 {
		core{c}.freeSession()
		return core{}, refusal(fault)
	}
	// Where nobody calls free. Who makes a call uses the Session, and so this, after the call.
	runtime.SetFinalizer(c, func(c *coreState) { core{c}.free() })
	return core{c}, nil
}

func (core core) freeSession() {
	ymxDrop(core.c.session)
	ymxDealloc(core.c.session)
	core.c.session = 0
}

func (core core) free() {
	runtime.SetFinalizer(core.c, nil)
	ymxTouchedDrop(core.c.note)
	ymxDealloc(core.c.note)
	core.c.note = 0
	core.freeSession()
	trim()
}

var nowhere byte

// first is the address of the first byte. Of no bytes it is one that nobody reads or writes.
func first(bytes []byte) *byte {
	if len(bytes) == 0 {
		return &nowhere
	}
	return &bytes[0]
}

// feedToSeat feeds bytes, as far as the next payload that a seat is for.
func (c *coreState) feedToSeat(bytes []byte) int {
	done := 0
	if c.seated == 0 {
		return int(ymxFeedTouching(c.session, first(bytes), uintptr(len(bytes)), c.note))
	}
	for done < len(bytes) {
		rest := bytes[done:]
		taken := int(ymxFeedToPayload(c.session, first(rest), uintptr(len(rest)), c.note))
		done += taken
		passing := 0
		if done < len(bytes) {
			c.stream = 0
			passing = int(ymxPassing(c.session, &c.stream, 1))
		}
		if passing > 0 {
			if *seatOf(c, c.stream) == c.stream {
				c.passing = passing
				break
			}
			rest = bytes[done:]
			if len(rest) > passing {
				rest = rest[:passing]
			}
			taken = int(ymxFeedTouching(c.session, first(rest), uintptr(len(rest)), c.note))
			done += taken
		}
		if taken == 0 {
			break
		}
	}
	return done
}

// needsOfSYNs is what a feed takes with so many of them: two buffers for each stream, as for one that is opened here, and a third
// beside the first.
func (c *coreState) needsOfSYNs(count uint64) demand {
	if count <= mostSpare {
		return c.needs(2*count, count)
	}
	if most := mostOffered - uint64(ymxOfferedCount(c.session)); count > most {
		count = most // the others are rejected
	}
	return c.needs(count+mostSpare, count)
}

// feed says how many bytes were taken. The first `passed` are payload that a Read has got. It stops before payload of a
// stream that is seated, as passing says then. Else touched, hasPong, offered, isDue and status are anew.
func (core core) feed(bytes []byte, passed int) int {
	c := core.c
	c.syns.scan(bytes)
	var demand demand
	opens := c.syns.count
	if opens > 0 {
		demand = c.needsOfSYNs(opens)
		c.promise(demand)
	}
	taken := 0
	if passed > 0 {
		due := ymxDue(c.session)
		taken = int(ymxPass(c.session, first(bytes), uintptr(passed)))
		if due == 0 && ymxDue(c.session) == 1 {
			c.owed = true
		}
	}
	c.passing = 0
	taken += c.feedToSeat(bytes[taken:])
	c.syns.taken(taken)
	if opens > 0 {
		c.done(demand)
	}
	if c.passing > 0 {
		return taken
	}
	c.count = int(ymxTouchedIds(c.note, &c.ids[0], fewTouched))
	if c.count > fewTouched {
		if c.more == nil {
			c.more = new([mostTouched]uint32)
		}
		c.count = int(ymxTouchedIds(c.note, &c.more[0], mostTouched))
	}
	c.all = c.count == mostTouched && ymxTouchedIsAll(c.note) == 1
	c.pong = ymxTouchedHasPong(c.note) == 1
	ymxTouchedClear(c.note)
	c.offered = ymxOfferedCount(c.session)
	c.due = ymxDue(c.session) == 1
	c.state = ymxStatus(c.session)
	return taken
}

// passing says how many bytes are to come of the payload before which the last feed stopped, or 0, and of which stream.
func (core core) passing() (count int, id uint32) { return core.c.passing, core.c.stream }

// seat has feed stop before payload of this stream. Another one may have had the place before.
func (core core) seat(id uint32) {
	place := seatOf(core.c, id)
	if *place == 0 {
		core.c.seated++
	}
	*place = id
}

// unseat has feed stop there no longer.
func (core core) unseat(id uint32) {
	if place := seatOf(core.c, id); *place == id {
		*place = 0
		core.c.seated--
	}
}

// isOwed says, once, whether payload that went to a seat has made credit due.
func (core core) isOwed() bool {
	owed := core.c.owed
	core.c.owed = false
	return owed
}

// touched gives the streams that the last feed has touched. With isAll there were more.
func (core core) touched() (ids []uint32, isAll bool) {
	if core.c.count > fewTouched {
		return core.c.more[:core.c.count], core.c.all
	}
	return core.c.ids[:core.c.count], core.c.all
}

func (core core) hasPong() bool  { return core.c.pong }
func (core core) offered() int64 { return core.c.offered }

// isDue says whether something was due after the last feed, read or forget.
func (core core) isDue() bool { return core.c.due }

func (core core) status() int64 { return core.c.state }

// emit fills the buffer with bytes for the peer. Where it is not full, nothing is left due.
func (core core) emit(buffer []byte) int {
	count := int(ymxEmit(core.c.session, first(buffer), uintptr(len(buffer))))
	if count < len(buffer) {
		core.c.due = false
	}
	return count
}

// open needs two buffers, and keeps a third beside the first streams.
func (core core) open() int64 {
	demand := core.c.needs(2, 1)
	core.c.promise(demand)
	answer := ymxOpen(core.c.session)
	core.c.done(demand)
	return answer
}

func (core core) accept() int64 { return ymxAccept(core.c.session) }

func (core core) write(id uint32, bytes []byte) int64 {
	answer := ymxWrite(core.c.session, uintptr(id), first(bytes), uintptr(len(bytes)))
	for tries := 0; again(answer, &tries); {
		answer = ymxWrite(core.c.session, uintptr(id), first(bytes), uintptr(len(bytes)))
	}
	return answer
}

// writeThrough writes bytes and emits them at once into the front of a block, if nothing is due: how many it took, and how
// many bytes of the block it filled.
func (core core) writeThrough(id uint32, bytes, block []byte) (taken, filled int) {
	for taken < len(bytes) {
		some := bytes[taken:]
		if len(some) > mostThrough {
			some = some[:mostThrough]
		}
		room := block[filled:]
		made := ymxWriteThrough(core.c.session, uintptr(id), first(some), uintptr(len(some)), first(room), uintptr(len(room)))
		if made <= 0 {
			break
		}
		filled += int(made)
		taken += len(some)
	}
	return taken, filled
}

// read renews isDue where it gives bytes.
func (core core) read(id uint32, buffer []byte) int64 {
	count := ymxRead(core.c.session, uintptr(id), first(buffer), uintptr(len(buffer)))
	if count > 0 {
		core.c.due = ymxDue(core.c.session) == 1
	}
	return count
}

func (core core) atEnd(id uint32) bool   { return ymxIsAtEnd(core.c.session, uintptr(id)) == 1 }
func (core core) finish(id uint32) int64 { return ymxFinish(core.c.session, uintptr(id)) }
func (core core) reset(id uint32) int64  { return ymxReset(core.c.session, uintptr(id)) }

// forget renews isDue.
func (core core) forget(id uint32) {
	ymxForget(core.c.session, uintptr(id))
	trim()
	core.c.due = ymxDue(core.c.session) == 1
}

// shrink gives memory of a stream back that it doesn't need now, and if `all` what the session keeps beside its streams.
func (core core) shrink(id uint32, all bool) {
	demand := core.c.needs(1, 1) // other buffers, in exchange
	core.c.promise(demand)
	ymxShrink(core.c.session, uintptr(id))
	core.c.done(demand)
	trim()
	if all {
		core.shrinkSpare()
	}
}

// shrinkSpare gives that back alone, and says whether there was some.
func (core core) shrinkSpare() bool {
	had := ymxShrinkSpare(core.c.session) == 1
	trim()
	return had
}

// unread says how many bytes of a stream lie at lent.
func (core core) unread(id uint32) int {
	return int(ymxUnread(core.c.session, uintptr(id), &core.c.lent, 1))
}

// take appends the bytes that wait on a stream to some, by at most `most` bytes. They are copied from where they lie.
func (core core) take(id uint32, some []byte, most int) []byte {
	for most > 0 {
		count := core.unread(id)
		if count <= 0 {
			break
		}
		if count > most {
			count = most
		}
		some = append(some, unsafe.Slice(*(**byte)(unsafe.Pointer(&core.c.lent)), count)...)
		ymxConsume(core.c.session, uintptr(id), uintptr(count))
		most -= count
	}
	return some
}

// news is what there is to say of a stream.
type news int

const (
	isAcknowledged news = 1 << iota
	isReset
	hasEnded
	hasUnread
)

// look asks for the news of a stream.
func (core core) look(id uint32) news {
	var said news
	if ymxIsAcknowledged(core.c.session, uintptr(id)) == 1 {
		said |= isAcknowledged
	}
	if ymxIsReset(core.c.session, uintptr(id)) == 1 {
		said |= isReset
	}
	if ymxHasEnded(core.c.session, uintptr(id)) == 1 {
		said |= hasEnded
	}
	if core.unread(id) > 0 {
		said |= hasUnread
	}
	return said
}

// isAcknowledged says whether the peer has acknowledged a stream that was opened here.
func (n news) isAcknowledged() bool { return n&isAcknowledged != 0 }

func (n news) isReset() bool { return n&isReset != 0 }

// hasEnded says whether the peer's end has arrived, also with bytes unread.
func (n news) hasEnded() bool { return n&hasEnded != 0 }

func (n news) hasUnread() bool { return n&hasUnread != 0 }

func (core core) ping() int64               { return ymxPing(core.c.session) }
func (core core) ponged(number uint32) bool { return ymxPonged(core.c.session, uintptr(number)) == 1 }
func (core core) goAway() int64             { return ymxGoAway(core.c.session) }
