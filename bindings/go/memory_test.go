//go:build (linux || darwin || freebsd || windows) && (amd64 || arm64)

package yamux

import (
	"bytes"
	"encoding/binary"
	"io"
	"math/rand"
	"runtime"
	"runtime/pprof"
	"sync"
	"testing"
	"time"
	"unsafe"
)

func synFrames(from, count uint32) []byte {
	var frames []byte
	for n := uint32(0); n < count; n++ {
		header := [headerSize]byte{1: frameWindowUpdate, 3: flagSYN}
		binary.BigEndian.PutUint32(header[4:], 2*(from+n)+1)
		frames = append(frames, header[:]...)
	}
	return frames
}

// As many SYNs as one feed can take find memory, in whatever pieces they come, and with any window.
func TestManySYNsAtOnceFindMemory(t *testing.T) {
	for _, window := range []uint32{leastWindow, leastWindow + 1, 1 << 20, 1 << 24} {
		for _, piece := range []int{1 << 20, 1000, 7} {
			core, err := newCore(false, window)
			good(t, err)
			answers := make([]byte, 1<<16)
			for round := uint32(0); round < 4; round++ {
				bytes := synFrames(256*round, 256)
				for len(bytes) > 0 {
					some := bytes
					if len(some) > piece {
						some = some[:piece]
					}
					taken := core.feed(some, 0)
					if taken != len(some) {
						t.Fatal("taken", taken)
					}
					bytes = bytes[taken:]
				}
				for n := uint32(0); n < 256; n++ {
					if id := core.accept(); id != int64(2*(256*round+n)+1) {
						t.Fatal(window, piece, round, n, id)
					}
				}
				for core.emit(answers) == len(answers) {
				}
			}
			core.free()
		}
	}
	trimAll()
}

// Where no more memory is lent, a stream is refused, nothing else changes, and later it goes on.
func TestWantOfMemoryRefusesAStream(t *testing.T) {
	client, err := newCore(true, leastWindow)
	good(t, err)
	server, err := newCore(false, leastWindow)
	good(t, err)
	trimAll()
	before := lendable.Load()
	defer lendable.Store(before)
	lendable.Store(lent.Load())
	if answer := client.open(); answer != refusedNoMemory {
		t.Fatal(answer)
	}
	bytes := append(synFrames(0, 1), 0, frameData, 0, 0, 0, 0, 0, 1, 0, 0, 0, 3, 'a', 'b', 'c')
	if taken := server.feed(bytes, 0); taken != len(bytes) || server.accept() != 0 || server.status() >= ymxBroken {
		t.Fatal(taken, server.status())
	}
	answer := make([]byte, 100)
	if count := server.emit(answer); count != headerSize || answer[1] != frameWindowUpdate || answer[3]&8 == 0 || answer[7] != 1 {
		t.Fatal("no RST:", answer[:count])
	}
	lendable.Store(before)
	if answer := client.open(); answer != 1 {
		t.Fatal(answer)
	}
	if taken := server.feed(synFrames(1, 1), 0); taken != headerSize || server.accept() != 3 {
		t.Fatal(taken)
	}
	// credit beyond 262,144 bytes, so that more than that waits: the first block gets too small
	grant := []byte{0, frameWindowUpdate, 0, 0, 0, 0, 0, 1, 0, 0x20, 0, 0}
	if taken := client.feed(grant, 0); taken != len(grant) {
		t.Fatal(taken)
	}
	some := make([]byte, leastWindow)
	if answer := client.write(1, some); answer != leastWindow {
		t.Fatal(answer)
	}
	lendable.Store(lent.Load())
	if answer := client.write(1, some); answer != refusedNoMemory {
		t.Fatal(answer)
	}
	lendable.Store(before)
	for n := 0; n < 3; n++ {
		if answer := client.write(1, some); answer != leastWindow {
			t.Fatal(answer)
		}
	}
	client.free()
	server.free()
	trimAll()
}

// lendOnly has no more than so many bytes lent from here on, until what it gives is called.
func lendOnly(most uint64) (all func()) {
	before := lendable.Load()
	lendable.Store(lent.Load() + most)
	return func() { lendable.Store(before) }
}

// carryText has a stream carry more than its first buffers take, and says how many calls were refused memory on the way.
func carryText(t *testing.T, client, server core, text []byte) (refused int) {
	t.Helper()
	block := make([]byte, 1<<20)
	id := client.open()
	if id == refusedNoMemory {
		return 1
	}
	carry(t, client, server, block)
	if server.accept() != id {
		carry(t, server, client, block)
		if !client.look(uint32(id)).isReset() {
			t.Fatal("neither accepted nor reset")
		}
		client.forget(uint32(id))
		return 1
	}
	carry(t, server, client, block) // its credit
	var came []byte
	for sent := 0; len(came) < len(text); {
		answer := client.write(uint32(id), text[sent:])
		if answer == refusedNoMemory {
			refused++
			if answer = client.write(uint32(id), text[sent:][:1000]); answer != 1000 {
				t.Fatal("a few bytes aren't taken:", answer)
			}
		}
		sent += int(answer)
		carry(t, client, server, block)
		came = server.take(uint32(id), came, len(text))
		carry(t, server, client, block)
		server.shrink(uint32(id), false)
	}
	if !bytes.Equal(came, text) {
		t.Fatal("other bytes")
	}
	for _, end := range []core{client, server} {
		end.reset(uint32(id))
		end.forget(uint32(id))
	}
	carry(t, client, server, block)
	carry(t, server, client, block)
	return refused
}

// Whatever piece of memory is the first that isn't lent, the call is refused, nothing else has changed, and with memory all goes on.
func TestEachRefusalIsAnAnswer(t *testing.T) {
	text := random(1, 3*leastWindow) // more than a buffer takes
	trimAll()
	for most, total := uint64(0), 0; ; most += bufferPiece / 2 {
		client, server := cores(t, 1<<20)
		all := lendOnly(most)
		refused := carryText(t, client, server, text)
		all()
		if carryText(t, client, server, text) != 0 {
			t.Fatal("refused with memory")
		}
		client.free()
		server.free()
		trimAll()
		if total += refused; refused == 0 {
			if total < 3 {
				t.Fatal("few refusals:", total)
			}
			return
		}
	}
}

// As the last of 600 streams that had bytes unread goes, few of their buffers stay, and a second later none.
func TestStreamsThatGoLeaveLittle(t *testing.T) {
	const streams, unread = 600, 200000
	client, server := overTCP(t, quiet())
	text := random(5, unread)
	trimAll()
	before := lent.Load()
	type both struct{ near, far *Stream }
	var all []both
	for n := 0; n < streams; n++ {
		near, far := pair(t, client, server)
		_, err := near.Write(text)
		good(t, err)
		all = append(all, both{near, far})
	}
	if most := lent.Load(); most < before+streams*leastWindow {
		t.Fatalf("%d bytes are lent for what can't fit into them", most-before)
	}
	for _, each := range all {
		good(t, each.near.CloseWrite())
		_, err := io.ReadFull(each.far, text)
		good(t, err)
		good(t, each.far.Close())
		good(t, each.near.Close())
	}
	await(t, "all streams are gone", func() bool { return client.NumStreams() == 0 && server.NumStreams() == 0 })
	if free := heap.large[bufferClass].count.Load(); free*bufferPiece > 12000000 {
		t.Fatalf("%d buffers stay", free)
	}
	await(t, "none stays", func() bool { return heap.large[bufferClass].count.Load() == 0 })
}

// Streams that come and go in bursts take their buffers from those before, once these were needed again.
func TestBurstsOfStreamsKeepTheirBuffers(t *testing.T) {
	const streams = 200
	client, server := cores(t, leastWindow)
	block := make([]byte, 1<<16)
	trimAll()
	burst := func() {
		for n := 0; n < streams; n++ {
			if id := client.open(); id < 0 {
				t.Fatal(id)
			}
		}
		carry(t, client, server, block)
		for id := server.accept(); id > 0; id = server.accept() {
			server.finish(uint32(id))
			carry(t, server, client, block)
			client.finish(uint32(id))
			carry(t, client, server, block)
			client.forget(uint32(id))
			server.forget(uint32(id))
		}
		carry(t, client, server, block)
		carry(t, server, client, block)
	}
	for n := 0; n < 10; n++ {
		burst()
	}
	given := missed.Load()
	burst()
	if kept.Load() < streams || missed.Load() != given {
		t.Fatalf("%d buffers stay, and %d went", kept.Load(), missed.Load()-given)
	}
	client.free()
	server.free()
	trimAll()
}

// Sessions are refused once nothing more is lent, and those that are there go on.
func TestASessionIsRefused(t *testing.T) {
	client, server := cores(t, leastWindow)
	defer client.free()
	defer server.free()
	carryText(t, client, server, random(2, 1000))
	all := lendOnly(0)
	defer all()
	var others []core
	for {
		other, err := newCore(true, leastWindow)
		if err == ErrNoMemory {
			break
		}
		good(t, err)
		if others = append(others, other); len(others) > 10000 {
			t.Fatal("nothing is refused")
		}
	}
	if carryText(t, client, server, random(3, 1000)) != 0 {
		t.Fatal("refused")
	}
	for _, other := range others {
		other.free()
	}
	other, err := newCore(false, leastWindow)
	good(t, err)
	other.free()
}

// What a session has comes back where nobody has ended it, once it can't be reached any more.
func TestMemoryOfWhatIsForgottenComesBack(t *testing.T) {
	forget := func() {
		for n := 0; n < 100; n++ {
			core, err := newCore(true, leastWindow)
			good(t, err)
			if core.open() != 1 {
				t.Fatal("no stream")
			}
		}
		for n := 0; n < 3; n++ {
			runtime.GC()
			time.Sleep(10 * time.Millisecond)
		}
		trimAll()
	}
	forget()
	before := lent.Load()
	for n := 0; n < 10; n++ {
		forget()
	}
	if after := lent.Load(); after > before+chunkPiece {
		t.Fatalf("%d bytes are lent, and were %d", after, before)
	}
}

// Calls are made at any depth of the stack, which grows and shrinks meanwhile, beside the collector and a profile, and each session
// keeps its bytes.
func TestCallsAtAnyDepth(t *testing.T) {
	if pprof.StartCPUProfile(io.Discard) == nil { // or the tests have one
		defer pprof.StopCPUProfile()
	}
	until := time.Now().Add(time.Second)
	var all sync.WaitGroup
	for n := 0; n < 16; n++ {
		all.Add(1)
		go func(seed int64) {
			defer all.Done()
			numbers := rand.New(rand.NewSource(seed))
			for time.Now().Before(until) {
				deeply(numbers.Intn(300), func() {
					client, server := cores(t, leastWindow)
					if carryText(t, client, server, random(int(seed), 1+numbers.Intn(100000))) != 0 {
						t.Error("refused")
					}
					client.free()
					server.free()
				})
			}
		}(int64(n))
	}
	for time.Now().Before(until) {
		runtime.GC()
		time.Sleep(time.Millisecond)
	}
	all.Wait()
}

// deeply makes a call so many frames of a kilobyte further down.
func deeply(frames int, call func()) byte {
	var room [1024]byte
	room[frames] = byte(frames)
	if frames == 0 {
		call()
		return 0
	}
	return deeply(frames-1, call) + room[frames]
}

// What memory.go says of the heap is what release/go/heap.c says.
func TestTheHeapIsAsItIsSaid(t *testing.T) {
	if unsafe.Offsetof(heap.large) != 24 || unsafe.Sizeof(heap.large[0]) != 32 || unsafe.Sizeof(heap) != 2048 {
		t.Fatal("the heap lies otherwise")
	}
	if ymxPiece(leastWindow) != bufferPiece || ymxClass(leastWindow) != bufferClass {
		t.Fatal("buffers are others")
	}
}
