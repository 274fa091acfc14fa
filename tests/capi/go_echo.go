// HashiCorp's yamux for Go as the other side, with the words of bindings/go/examples/echo. `go_echo serve` echoes each
// stream, and says where it listens; one that begins with `count` is told how many were reset, and `break` breaks the
// connection off. `go_echo call ADDRESS STREAMS BYTES` has so many streams echoed, 100 at once, and compares what comes
// back. `go_echo reset ADDRESS` has the server reset a stream.
package main

import (
	"bytes"
	"fmt"
	"io"
	"log"
	"math/rand"
	"net"
	"os"
	"strconv"
	"sync"
	"sync/atomic"

	"github.com/hashicorp/yamux"
)

func config() *yamux.Config {
	config := yamux.DefaultConfig()
	config.LogOutput = io.Discard
	return config
}

func serve() {
	listener, err := net.Listen("tcp", "127.0.0.1:0")
	if err != nil {
		log.Fatal(err)
	}
	fmt.Println("listening at", listener.Addr())
	for {
		connection, err := listener.Accept()
		if err != nil {
			log.Fatal(err)
		}
		go func() {
			session, err := yamux.Server(connection, config())
			if err != nil {
				log.Fatal(err)
			}
			for {
				stream, err := session.Accept()
				if err != nil {
					return
				}
				go answer(session, stream)
			}
		}()
	}
}

// How many streams the peers have reset.
var resets int64

func answer(session *yamux.Session, stream net.Conn) {
	defer stream.Close()
	word := make([]byte, 5)
	length, _ := io.ReadFull(stream, word)
	switch string(word[:length]) {
	case "break":
		stream.Write(make([]byte, 1000))
		session.Close()
		return
	case "count":
		fmt.Fprint(stream, atomic.LoadInt64(&resets))
		return
	}
	stream.Write(word[:length])
	if _, err := io.Copy(stream, stream); err == yamux.ErrConnectionReset {
		atomic.AddInt64(&resets, 1)
	}
}

// One stream: the bytes go while they come back. Go's side ends once it has read them all.
func echoed(session *yamux.Session, seed, size int) error {
	stream, err := session.Open()
	if err != nil {
		return err
	}
	sent, back := make([]byte, size), make([]byte, size)
	rand.New(rand.NewSource(int64(seed))).Read(sent)
	if size > 0 {
		sent[0] = 0 // no word
	}
	go stream.Write(sent)
	if _, err := io.ReadFull(stream, back); err != nil {
		return err
	}
	if !bytes.Equal(sent, back) {
		return fmt.Errorf("other bytes came back")
	}
	return stream.Close()
}

func dial(address string) *yamux.Session {
	connection, err := net.Dial("tcp", address)
	if err != nil {
		log.Fatal(err)
	}
	session, err := yamux.Client(connection, config())
	if err != nil {
		log.Fatal(err)
	}
	return session
}

func reset(address string) {
	session := dial(address)
	stream, err := session.Open()
	if err != nil {
		log.Fatal(err)
	}
	stream.Write([]byte("reset"))
	if _, err := io.ReadAll(stream); err != yamux.ErrConnectionReset {
		log.Fatalf("a reset reads as %v", err)
	}
	if err := echoed(session, 1, 100000); err != nil {
		log.Fatal(err)
	}
	fmt.Println("the stream was reset, and another one goes on")
}

func call(address string, streams, size int) {
	session := dial(address)
	places, group := make(chan bool, 100), sync.WaitGroup{}
	for number := 1; number <= streams; number++ {
		places <- true
		group.Add(1)
		go func(number int) {
			defer func() { <-places; group.Done() }()
			if err := echoed(session, number, size); err != nil {
				log.Fatalf("stream %d: %v", number, err)
			}
		}(number)
	}
	group.Wait()
	if _, err := session.Ping(); err != nil {
		log.Fatal(err)
	}
	fmt.Printf("%d streams of %d bytes echoed and compared, a ping answered\n", streams, size)
}

func main() {
	if len(os.Args) == 5 && os.Args[1] == "call" {
		streams, _ := strconv.Atoi(os.Args[3])
		size, _ := strconv.Atoi(os.Args[4])
		call(os.Args[2], streams, size)
		return
	}
	if len(os.Args) == 3 && os.Args[1] == "reset" {
		reset(os.Args[2])
		return
	}
	serve()
}
