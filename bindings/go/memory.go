//go:build (linux || darwin || freebsd || windows) && (amd64 || arm64)

package yamux

import (
	"encoding/binary"
	"math"
	"sync/atomic"
	"time"
)

// The proved part can't ask for memory during a call: no system has one way for that, and Go's runtime can't be called with the
// proved part's frames on the stack of a goroutine. So its heap, release/go/heap.c, gets the memory before: pieces that the system
// fills with pages as they are used. A call that is refused memory changes nothing and can be made again; but a feed then rejects a
// stream. So what a call may take is promised before.

// What heap.c calls so.
const (
	bufferClass = 1       // the place of buffers in heap.large
	bufferPiece = 262160  // the size of a piece that holds one
	chunkPiece  = 1 << 20 // the size of a piece for small blocks
)

// heap is what heap.c knows, for all sessions. It leads to no memory of Go's.
var heap struct {
	promised atomic.Uint64 // in the upper half the calls that may take small blocks, in the lower half buffers
	ready    atomic.Uint64 // how many of these calls there is room for
	wide     atomic.Uint64 // free blocks that are larger than buffers
	large    [30]struct {
		_               [2]uintptr
		count, promised atomic.Uint64 // how many are free, and how many of them are promised
	}
	_ [133]uint64
}

// lent is how many bytes all sessions together have of the system, and lendable how many they may have: tests lower that.
var lent, lendable atomic.Uint64

func init() { lendable.Store(math.MaxInt64) }

// lend gives the heap a piece of memory, and says whether the system had it.
func lend(size uintptr) bool {
	if lent.Add(uint64(size)) <= lendable.Load() {
		if piece := pages(size); piece != 0 {
			ymxLend(piece, size)
			return true
		}
	}
	lent.Add(-uint64(size))
	return false
}

// demand is what a call may take beside small blocks: buffers of 262,144 bytes, and blocks as wide as the session's window.
type demand struct{ buffers, wides uint64 }

// needs is what a call takes that makes so many buffers, and so many streams.
func (c *coreState) needs(buffers, streams uint64) demand {
	if c.class == bufferClass {
		return demand{buffers: buffers + streams}
	}
	return demand{buffers, streams}
}

// promise has the heap ready for a call, unless the system refuses memory. After the call, done takes the promise back.
func (c *coreState) promise(demand demand) {
	word := heap.promised.Add(1<<32 | demand.buffers)
	isLent := true
	for isLent && heap.large[bufferClass].count.Load() < uint64(uint32(word)) {
		regret()
		isLent = lend(bufferPiece)
	}
	for isLent && heap.ready.Load() < word>>32 {
		isLent = lend(chunkPiece)
	}
	if demand.wides > 0 {
		wide := &heap.large[c.class]
		promised := wide.promised.Add(demand.wides)
		for isLent && wide.count.Load() < promised {
			isLent = lend(c.piece)
		}
	}
}

func (c *coreState) done(demand demand) {
	heap.promised.Add(-(1<<32 | demand.buffers))
	if demand.wides > 0 {
		heap.large[c.class].promised.Add(-demand.wides)
	}
}

// again says whether a call that was refused memory shall be made again.
func again(answer int64, tries *int) bool {
	const most = 8 // another session may take what was lent
	if answer != refusedNoMemory || *tries == most {
		return false
	}
	*tries++
	size := uintptr(ymxWanted())
	return size != 0 && lend(size)
}

// How many free buffers stay for the next streams: few, and those that were given back and had to be lent again, up to most. So
// streams that come and go don't have the system give and take pages all the time, and a lot that only go leave little. What is
// free after a second goes back.
const (
	fewBuffers  = 32
	mostBuffers = 1024
	rest        = time.Second
)

var kept, missed atomic.Int64

// regret notes that a buffer is lent which had been given back, if it had.
func regret() {
	if missed.Load() > 0 && kept.Load() < mostBuffers-fewBuffers {
		missed.Add(-1)
		kept.Add(1)
	}
}

// isResting says that a look at what is free is planned.
var isResting atomic.Bool

// trim gives free buffers back, but for those that stay, and all larger blocks that are free.
func trim() {
	least := fewBuffers + uint64(kept.Load())
	free := heap.large[bufferClass].count.Load()
	if free > least || heap.wide.Load() > 0 {
		giveBack(least)
	}
	if free > 0 && !isResting.Load() && isResting.CompareAndSwap(false, true) {
		time.AfterFunc(rest, func() {
			isResting.Store(false)
			trimAll()
		})
	}
}

// trimAll gives back all that is free.
func trimAll() {
	missed.Store(0)
	kept.Store(0)
	giveBack(0)
	missed.Store(0)
}

// giveBack gives buffers back, as far as more than `least` are free, and all larger blocks that are.
func giveBack(least uint64) {
	var size uintptr
	for piece := ymxTake(uintptr(least), &size); piece != 0; piece = ymxTake(uintptr(least), &size) {
		release(uintptr(piece), size)
		lent.Add(-uint64(size))
		if size == bufferPiece {
			missed.Add(1)
		}
	}
}

// syns is what a session knows of the frames that come. It stands where the scan has come to, which may be ahead of what was fed.
type syns struct {
	header  [headerSize]byte
	have    int    // bytes of the header
	payload uint32 // what is left of a Data frame
	ahead   int    // bytes that were scanned and not taken yet
	count   uint64
}

// scan counts the SYNs in bytes that are to be fed. A count that is wrong does no harm but to have a stream rejected for lack of memory.
func (s *syns) scan(bytes []byte) {
	if s.ahead >= len(bytes) {
		return
	}
	fresh := bytes[s.ahead:]
	s.ahead = len(bytes)
	for len(fresh) > 0 {
		if s.payload > 0 {
			if uint64(len(fresh)) <= uint64(s.payload) {
				s.payload -= uint32(len(fresh))
				return
			}
			fresh = fresh[s.payload:]
			s.payload = 0
		}
		if s.have == 0 && len(fresh) >= headerSize {
			s.note(fresh[:headerSize])
			fresh = fresh[headerSize:]
			continue
		}
		count := copy(s.header[s.have:], fresh)
		s.have += count
		fresh = fresh[count:]
		if s.have < headerSize {
			return
		}
		s.have = 0
		s.note(s.header[:])
	}
}

func (s *syns) note(header []byte) {
	if header[1] <= frameWindowUpdate && header[3]&flagSYN != 0 {
		s.count++
	}
	if header[1] == frameData {
		s.payload = binary.BigEndian.Uint32(header[8:])
	}
}

// taken notes how many bytes were fed.
func (s *syns) taken(count int) {
	if s.ahead -= count; s.ahead <= 0 {
		s.ahead, s.count = 0, 0
	}
}
