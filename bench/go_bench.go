// Times yamux for Go, ours and HashiCorp's in turn: both sides in this process, over TCP on the loopback. Each line has
// a name, the package, an amount a second, and milliseconds of processor time. `go_bench RUNS`; go.sh takes the medians.
package main

import (
	"fmt"
	"io"
	"log"
	"net"
	"os"
	"runtime"
	"strconv"
	"sync"
	"syscall"
	"time"

	theirs "github.com/hashicorp/yamux"
	ours "ymx.example/yamux"
)

type session interface {
	Open() (net.Conn, error)
	Accept() (net.Conn, error)
	Close() error
}

func check(err error) {
	if err != nil {
		log.Fatal(err)
	}
}

func connections() (net.Conn, net.Conn) {
	listener, err := net.Listen("tcp", "127.0.0.1:0")
	check(err)
	defer listener.Close()
	near, err := net.Dial("tcp", listener.Addr().String())
	check(err)
	far, err := listener.Accept()
	check(err)
	return near, far
}

func ofOurs() (session, session) {
	near, far := connections()
	client, err := ours.Client(near, nil)
	check(err)
	server, err := ours.Server(far, nil)
	check(err)
	return client, server
}

func ofTheirs() (session, session) {
	near, far := connections()
	config := theirs.DefaultConfig()
	config.LogOutput = io.Discard
	client, err := theirs.Client(near, config)
	check(err)
	server, err := theirs.Server(far, config)
	check(err)
	return client, server
}

// Words of 64 bytes that go there and back, one after another.
func words(client, server session, count int) float64 {
	go func() {
		stream, err := server.Accept()
		check(err)
		word := make([]byte, 64)
		for {
			if _, err := io.ReadFull(stream, word); err != nil {
				return
			}
			stream.Write(word)
		}
	}()
	stream, err := client.Open()
	check(err)
	word := make([]byte, 64)
	began := time.Now()
	for number := 0; number < count; number++ {
		_, err = stream.Write(word)
		check(err)
		_, err = io.ReadFull(stream, word)
		check(err)
	}
	return float64(count) / time.Since(began).Seconds()
}

// So many streams that send so many bytes each, in writes of 64 KiB, all at once: megabytes.
func bulk(client, server session, streams, size int) float64 {
	var all sync.WaitGroup
	began := time.Now()
	for number := 0; number < streams; number++ {
		all.Add(2)
		go func() {
			defer all.Done()
			stream, err := server.Accept()
			check(err)
			block := make([]byte, 65536)
			for left := size; left > 0; {
				count, err := stream.Read(block)
				check(err)
				left -= count
			}
			stream.Close()
		}()
		go func() {
			defer all.Done()
			stream, err := client.Open()
			check(err)
			block := make([]byte, 65536)
			for left := size; left > 0; left -= len(block) {
				_, err := stream.Write(block)
				check(err)
			}
			stream.Close()
		}()
	}
	all.Wait()
	return float64(streams) * float64(size) / 1e6 / time.Since(began).Seconds()
}

// Streams that are opened and closed one after another, and accepted and closed at the other side meanwhile.
func openAndClose(client, server session, count int) float64 {
	var all sync.WaitGroup
	all.Add(1)
	began := time.Now()
	go func() {
		defer all.Done()
		for number := 0; number < count; number++ {
			stream, err := server.Accept()
			check(err)
			check(stream.Close())
		}
	}()
	for number := 0; number < count; number++ {
		stream, err := client.Open()
		check(err)
		check(stream.Close())
	}
	all.Wait()
	return float64(count) / time.Since(began).Seconds()
}

// The same, but each side waits for the other's end before the next stream.
func inTurn(client, server session, count int) float64 {
	go func() {
		for number := 0; number < count; number++ {
			stream, err := server.Accept()
			if err != nil {
				return
			}
			stream.Close()
		}
	}()
	nothing := make([]byte, 1)
	began := time.Now()
	for number := 0; number < count; number++ {
		stream, err := client.Open()
		check(err)
		if _, err := stream.Read(nothing); err != io.EOF {
			log.Fatal(err)
		}
		check(stream.Close())
	}
	return float64(count) / time.Since(began).Seconds()
}

// What a session has on Go's heap before anything was sent.
func heap(begin func() (session, session)) uint64 {
	const pairs = 50
	all := make([]session, 0, 2*pairs)
	before := onHeap()
	for number := 0; number < pairs; number++ {
		client, server := begin()
		all = append(all, client, server)
	}
	after := onHeap()
	for _, session := range all {
		session.Close()
	}
	return (after - before) / uint64(len(all))
}

// How much is on the heap, once all that nobody needs is gone. What packages pool goes by the second collection.
func onHeap() uint64 {
	var found runtime.MemStats
	for times := 0; times < 3; times++ {
		time.Sleep(50 * time.Millisecond)
		runtime.GC()
	}
	runtime.ReadMemStats(&found)
	return found.HeapAlloc
}

// The processor time of this process.
func spent() time.Duration {
	var usage syscall.Rusage
	check(syscall.Getrusage(syscall.RUSAGE_SELF, &usage))
	return time.Duration(usage.Utime.Nano() + usage.Stime.Nano())
}

func main() {
	runs, err := strconv.Atoi(os.Args[1])
	check(err)
	fmt.Fprintf(os.Stderr, "heap of a session: ymx %d, hashicorp %d bytes\n", heap(ofOurs), heap(ofTheirs))
	for ; runs > 0; runs-- {
		for _, one := range []struct {
			name  string
			begin func() (session, session)
		}{{"ymx", ofOurs}, {"hashicorp", ofTheirs}} {
			for _, measured := range []struct {
				name string
				time func(client, server session) float64
			}{
				{"words", func(c, s session) float64 { return words(c, s, 20000) }},
				{"one_stream_MB", func(c, s session) float64 { return bulk(c, s, 1, 1<<29) }},
				{"64_streams_MB", func(c, s session) float64 { return bulk(c, s, 64, 1<<23) }},
				{"open_and_close", func(c, s session) float64 { return openAndClose(c, s, 20000) }},
				{"open_close_turn", func(c, s session) float64 { return inTurn(c, s, 20000) }},
			} {
				client, server := one.begin()
				before := spent()
				speed := measured.time(client, server)
				fmt.Printf("%s %s %.0f %d\n", measured.name, one.name, speed, (spent() - before).Milliseconds())
				client.Close()
				server.Close()
			}
		}
	}
}
