// The other side of the tests and measurements of the tunnel: HashiCorp's yamux for Go, plain TCP, and both
// together. `peer MODE -at ADDRESS ..`; run.sh and bench/tunnel.sh say which modes go together.
package main

import (
	"encoding/binary"
	"errors"
	"flag"
	"fmt"
	"io"
	"log"
	"math/rand"
	"net"
	"os"
	"sync"
	"sync/atomic"
	"time"

	"github.com/hashicorp/yamux"
)

// How a checked exchange goes. It begins with 13 bytes from the caller: this number, the seed of the bytes (8)
// and how many there are each way (4).
//
// A stream of this version of Go's library reads no more once its own side has ended. So Go's side of a stream is
// never the first to end that still wants to read.
const (
	callerEndsFirst = 0 // the caller sends and ends, the server sends the same bytes back meanwhile, and ends
	serverEndsFirst = 1 // the server sends and ends; then the caller sends and ends
	serverBreaks    = 2 // the server breaks its connection after half of the bytes
	callerBreaks    = 3 // the caller breaks its connection after half of the bytes
	callerCounts    = 4 // the caller sends, reads as many bytes back, and ends; then the server ends
	tellsCounts     = 9 // the server answers with how many exchanges it had (8) and how many failed (8)
)

// A connection or a stream, of which each side can be ended alone.
type twoWay interface {
	io.ReadWriteCloser
	CloseWrite() error
}

// A stream. Its Close ends the writing side alone.
type stream struct{ *yamux.Stream }

func (s stream) CloseWrite() error { return s.Stream.Close() }

// The bytes of a seed, from the first on.
type content struct {
	state uint64
	rest  []byte
}

func newContent(seed uint64) *content { return &content{state: seed*2 + 1} }

func (c *content) Read(p []byte) (int, error) {
	for at := 0; at < len(p); {
		if len(c.rest) == 0 {
			c.state ^= c.state << 13
			c.state ^= c.state >> 7
			c.state ^= c.state << 17
			c.rest = make([]byte, 8)
			binary.LittleEndian.PutUint64(c.rest, c.state)
		}
		n := copy(p[at:], c.rest)
		c.rest = c.rest[n:]
		at += n
	}
	return len(p), nil
}

var errDiffers = errors.New("other bytes came")
var errCount = errors.New("another number of bytes came")

// A break of a TCP connection must reach a stream at the other side as a reset. The other way nothing is asked: a
// stream that was reset ends its TCP connection like any other.
var errEnds = errors.New("a break looks like an end")

// Reads to the end. The bytes must be the first so many of the seed.
func compare(from io.Reader, seed uint64, size int64) error {
	wanted := newContent(seed)
	came := make([]byte, 32768)
	same := make([]byte, 32768)
	var count int64
	for {
		n, err := from.Read(came)
		wanted.Read(same[:n])
		if string(came[:n]) != string(same[:n]) {
			return errDiffers
		}
		count += int64(n)
		if err == io.EOF {
			break
		}
		if err != nil {
			return err
		}
	}
	if count != size {
		return errCount
	}
	return nil
}

func sendOn(to io.Writer, seed uint64, size int64) error {
	_, err := io.CopyBuffer(struct{ io.Writer }{to}, io.LimitReader(newContent(seed), size), make([]byte, 32768))
	return err
}

func send(to twoWay, seed uint64, size int64) error {
	if err := sendOn(to, seed, size); err != nil {
		return err
	}
	return to.CloseWrite()
}

// Ends a TCP connection by a reset.
func breakOff(c twoWay) {
	if tcp, ok := c.(*net.TCPConn); ok {
		tcp.SetLinger(0)
	}
	c.Close()
}

// ---- the server of checked exchanges

type counts struct{ exchanges, failures int64 }

func (k *counts) serve(c twoWay) {
	defer c.Close()
	head := make([]byte, 13)
	if _, err := io.ReadFull(c, head); err != nil {
		return
	}
	seed, size := binary.BigEndian.Uint64(head[1:]), int64(binary.BigEndian.Uint32(head[9:]))
	var err error
	switch head[0] {
	case callerEndsFirst, callerCounts:
		if err = compare(io.TeeReader(c, c), seed, size); err == nil {
			err = c.CloseWrite()
		}
	case serverEndsFirst:
		if err = send(c, seed+1, size); err == nil {
			err = compare(c, seed, size)
		}
	case serverBreaks:
		_, err = io.CopyN(io.Discard, c, size/2)
		breakOff(c)
	case callerBreaks:
		switch err = compare(c, seed, size); err {
		case nil, errCount:
			err = errEnds
		case errDiffers:
		default:
			err = nil
		}
	case tellsCounts:
		answer := make([]byte, 16)
		binary.BigEndian.PutUint64(answer, uint64(atomic.LoadInt64(&k.exchanges)))
		binary.BigEndian.PutUint64(answer[8:], uint64(atomic.LoadInt64(&k.failures)))
		c.Write(answer)
		io.Copy(io.Discard, c)
		return
	}
	atomic.AddInt64(&k.exchanges, 1)
	if err != nil {
		atomic.AddInt64(&k.failures, 1)
		log.Printf("server: exchange %d of %d bytes: %v", head[0], size, err)
	}
}

// ---- the caller of checked exchanges

func header(how byte, seed uint64, size int64) []byte {
	head := make([]byte, 13)
	head[0] = how
	binary.BigEndian.PutUint64(head[1:], seed)
	binary.BigEndian.PutUint32(head[9:], uint32(size))
	return head
}

func exchange(c twoWay, how byte, seed uint64, size int64) error {
	defer c.Close()
	if _, err := c.Write(header(how, seed, size)); err != nil {
		return err
	}
	switch how {
	case callerEndsFirst:
		sent := make(chan error, 1)
		go func() { sent <- send(c, seed, size) }()
		if err := compare(c, seed, size); err != nil {
			return err
		}
		return <-sent
	case callerCounts:
		sent := make(chan error, 1)
		go func() { sent <- sendOn(c, seed, size) }()
		if err := compare(io.LimitReader(c, size), seed, size); err != nil {
			return err
		}
		return <-sent
	case serverEndsFirst:
		if err := compare(c, seed+1, size); err != nil {
			return err
		}
		return send(c, seed, size)
	case serverBreaks:
		go sendOn(c, seed, size)
		switch err := compare(c, seed, size); err {
		case nil, errCount:
			return errEnds
		case errDiffers:
			return err
		}
		return nil
	case callerBreaks:
		if err := sendOn(c, seed, size/2); err != nil {
			return err
		}
		breakOff(c)
		return nil
	}
	return errors.New("unknown exchange")
}

// Makes so many exchanges, some at once, and asks the server for its counts.
func callAll(open func() (twoWay, error), hows []byte, count, atOnce int, most int64) {
	var failures int64
	var places sync.WaitGroup
	numbers := make(chan int)
	for place := 0; place < atOnce; place++ {
		places.Add(1)
		go func() {
			defer places.Done()
			for number := range numbers {
				random := rand.New(rand.NewSource(int64(number)))
				how := hows[number%len(hows)]
				size := random.Int63n(most + 1)
				c, err := open()
				if err == nil {
					err = exchange(c, how, uint64(number), size)
				}
				if err != nil {
					atomic.AddInt64(&failures, 1)
					log.Printf("caller: exchange %d (%d) of %d bytes: %v", number, how, size, err)
				}
			}
		}()
	}
	began := time.Now()
	for number := 0; number < count; number++ {
		numbers <- number
	}
	close(numbers)
	places.Wait()
	took := time.Since(began)
	c, err := open()
	check(err)
	_, err = c.Write(header(tellsCounts, 0, 0))
	check(err)
	answer := make([]byte, 16)
	_, err = io.ReadFull(c, answer)
	check(err)
	c.CloseWrite()
	c.Close()
	there, lost := binary.BigEndian.Uint64(answer), binary.BigEndian.Uint64(answer[8:])
	fmt.Printf("%d exchanges, %d failed here; the server saw %d, %d failed there; %.1f seconds\n", count, failures, there, lost, took.Seconds())
	if failures != 0 || lost != 0 || there < uint64(count)*3/4 {
		os.Exit(1)
	}
}

// ---- sessions

func config(window uint) *yamux.Config {
	c := yamux.DefaultConfig()
	c.MaxStreamWindowSize = uint32(window)
	c.EnableKeepAlive = false
	return c
}

func check(err error) {
	if err != nil {
		log.Fatal(err)
	}
}

// Pings until the session ends.
func pingOn(session *yamux.Session) {
	for !session.IsClosed() {
		if _, err := session.Ping(); err != nil {
			if !session.IsClosed() {
				log.Fatalf("ping: %v", err)
			}
			return
		}
		time.Sleep(50 * time.Millisecond)
	}
}

func dial(address string) *net.TCPConn {
	c, err := net.Dial("tcp", address)
	check(err)
	return c.(*net.TCPConn)
}

// Copies both ways, and ends each side after its last byte.
func join(a, b twoWay) {
	done := make(chan bool, 2)
	one := func(to, from twoWay) {
		io.CopyBuffer(struct{ io.Writer }{to}, struct{ io.Reader }{from}, make([]byte, 65536))
		to.CloseWrite()
		done <- true
	}
	go one(a, b)
	go one(b, a)
	<-done
	<-done
	a.Close()
	b.Close()
}

func acceptEach(listener net.Listener, serve func(*net.TCPConn)) {
	for {
		c, err := listener.Accept()
		check(err)
		go serve(c.(*net.TCPConn))
	}
}

// ---- measuring

// Makes so many connections, some at once; each sends so many bytes to an echo server, and reads them back.
func load(address string, count, atOnce int, size int64) {
	var failures int64
	var places sync.WaitGroup
	numbers := make(chan int)
	block := make([]byte, 65536)
	newContent(7).Read(block)
	began := time.Now()
	for place := 0; place < atOnce; place++ {
		places.Add(1)
		go func() {
			defer places.Done()
			for range numbers {
				c := dial(address)
				go func() {
					for left := size; left > 0; {
						n := left
						if n > int64(len(block)) {
							n = int64(len(block))
						}
						if _, err := c.Write(block[:n]); err != nil {
							break
						}
						left -= n
					}
				}()
				if size == 0 {
					c.CloseWrite()
					io.Copy(io.Discard, c)
				} else if !comesBack(c, block, size) {
					atomic.AddInt64(&failures, 1)
				}
				c.Close()
			}
		}()
	}
	for number := 0; number < count; number++ {
		numbers <- number
	}
	close(numbers)
	places.Wait()
	fmt.Printf("%.6f %d\n", time.Since(began).Seconds(), failures)
}

// Whether so many bytes come, which are the block again and again.
func comesBack(c *net.TCPConn, block []byte, size int64) bool {
	came := make([]byte, 65536)
	var at int64
	for at < size {
		n, err := c.Read(came)
		for i := 0; i < n; {
			from := int((at + int64(i)) % int64(len(block)))
			m := len(block) - from
			if m > n-i {
				m = n - i
			}
			if string(came[i:i+m]) != string(block[from:from+m]) {
				return false
			}
			i += m
		}
		at += int64(n)
		if err != nil {
			return at == size
		}
	}
	return at == size
}

func main() {
	log.SetFlags(0)
	mode := os.Args[1]
	words := flag.NewFlagSet(mode, flag.ExitOnError)
	at := words.String("at", "", "where it listens, or which address it calls")
	to := words.String("to", "", "where it forwards to")
	window := words.Uint("window", 262144, "the window of its streams, in bytes")
	count := words.Int("count", 100, "how many exchanges or connections")
	atOnce := words.Int("at-once", 1, "how many at once")
	size := words.Int64("size", 1<<20, "bytes of each, or the most of each")
	words.Parse(os.Args[2:])
	listen := func() net.Listener {
		l, err := net.Listen("tcp", *at)
		check(err)
		fmt.Printf("listening at %s\n", l.Addr())
		return l
	}
	served := &counts{}
	switch mode {
	case "serve-tcp":
		acceptEach(listen(), func(c *net.TCPConn) { served.serve(c) })
	case "serve-mux":
		acceptEach(listen(), func(c *net.TCPConn) {
			session, err := yamux.Server(c, config(*window))
			check(err)
			go pingOn(session)
			for {
				s, err := session.AcceptStream()
				if err != nil {
					return
				}
				go served.serve(stream{s})
			}
		})
	case "call-tcp":
		callAll(func() (twoWay, error) { return dial(*at), nil }, []byte{callerEndsFirst, callerCounts, callerEndsFirst, callerBreaks}, *count, *atOnce, *size)
	case "call-mux":
		session, err := yamux.Client(dial(*at), config(*window))
		check(err)
		go pingOn(session)
		callAll(func() (twoWay, error) {
			s, err := session.OpenStream()
			return stream{s}, err
		}, []byte{callerCounts, serverEndsFirst, callerCounts, serverBreaks}, *count, *atOnce, *size)
		session.Close()
	case "echo":
		acceptEach(listen(), func(c *net.TCPConn) {
			io.CopyBuffer(struct{ io.Writer }{c}, struct{ io.Reader }{c}, make([]byte, 65536))
			c.CloseWrite()
			c.Close()
		})
	case "local":
		session, err := yamux.Client(dial(*to), config(*window))
		check(err)
		acceptEach(listen(), func(c *net.TCPConn) {
			s, err := session.OpenStream()
			check(err)
			join(c, stream{s})
		})
	case "remote":
		acceptEach(listen(), func(c *net.TCPConn) {
			session, err := yamux.Server(c, config(*window))
			check(err)
			for {
				s, err := session.AcceptStream()
				if err != nil {
					return
				}
				go func() { join(dial(*to), stream{s}) }()
			}
		})
	case "forward":
		acceptEach(listen(), func(c *net.TCPConn) { join(c, dial(*to)) })
	case "load":
		load(*at, *count, *atOnce, *size)
	default:
		log.Fatalf("unknown mode %s", mode)
	}
}
