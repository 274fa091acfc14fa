// What bench/hub_bench.rattle measures, of HashiCorp's yamux for Go: two sessions of one process over TCP on the
// loopback. A line has a name, how many units, and the nanoseconds that they took. With a word after its name it sends 4 GiB
// over 64 streams alone.
package main

import (
	"fmt"
	"io"
	"log"
	"net"
	"os"
	"sync"
	"time"

	"github.com/hashicorp/yamux"
)

// Bytes of one write.
const block = 65536

func check(err error) {
	if err != nil {
		log.Fatal(err)
	}
}

// Two sessions that talk over a connection.
func connect() (client, server *yamux.Session) {
	config := yamux.DefaultConfig()
	config.EnableKeepAlive = false
	config.LogOutput = io.Discard
	listener, err := net.Listen("tcp", "127.0.0.1:0")
	check(err)
	defer listener.Close()
	near, err := net.Dial("tcp", listener.Addr().String())
	check(err)
	far, err := listener.Accept()
	check(err)
	client, err = yamux.Client(near, config)
	check(err)
	server, err = yamux.Server(far, config)
	check(err)
	return client, server
}

// So many streams at once carry so many blocks each: bytes that were read.
func send(streams, blocks int) uint64 {
	client, server := connect()
	var all sync.WaitGroup
	counts := make(chan int64, streams)
	for k := 0; k < streams; k++ {
		all.Add(2)
		go func() {
			defer all.Done()
			stream, err := client.OpenStream()
			check(err)
			bytes := make([]byte, block)
			for n := 0; n < blocks; n++ {
				_, err := stream.Write(bytes)
				check(err)
			}
			check(stream.Close())
		}()
		go func() {
			defer all.Done()
			stream, err := server.AcceptStream()
			check(err)
			buffer := make([]byte, block)
			var count int64
			for {
				n, err := stream.Read(buffer)
				count += int64(n)
				if err == io.EOF {
					break
				}
				check(err)
			}
			counts <- count
		}()
	}
	all.Wait()
	client.Close()
	server.Close()
	var sum uint64
	for k := 0; k < streams; k++ {
		sum += uint64(<-counts)
	}
	return sum
}

// Pings, one after the other: how many were answered.
func ping(count int) uint64 {
	client, server := connect()
	for n := 0; n < count; n++ {
		_, err := client.Ping()
		check(err)
	}
	client.Close()
	server.Close()
	return uint64(count)
}

// So many streams on which both sides wait to read.
func idle(client, server *yamux.Session, count int) {
	for n := 0; n < count; n++ {
		near, err := client.OpenStream()
		check(err)
		far, err := server.AcceptStream()
		check(err)
		go near.Read(make([]byte, 1))
		go far.Read(make([]byte, 1))
	}
}

// A byte goes there and back so often, beside streams that wait: how long that took.
func echo(waiting, count int) time.Duration {
	client, server := connect()
	idle(client, server, waiting)
	near, err := client.OpenStream()
	check(err)
	far, err := server.AcceptStream()
	check(err)
	go func() {
		buffer := make([]byte, 1)
		for {
			if _, err := far.Read(buffer); err != nil {
				return
			}
			if _, err := far.Write(buffer); err != nil {
				return
			}
		}
	}()
	buffer := make([]byte, 1)
	began := time.Now()
	for n := 0; n < count; n++ {
		_, err := near.Write(buffer)
		check(err)
		_, err = near.Read(buffer)
		check(err)
	}
	took := time.Since(began)
	client.Close()
	server.Close()
	return took
}

func tell(name string, units uint64, took time.Duration) {
	fmt.Printf("%s %d %d\n", name, units, took.Nanoseconds())
}

func timed(name string, work func() uint64) {
	began := time.Now()
	units := work()
	tell(name, units, time.Since(began))
}

func main() {
	log.SetFlags(0)
	if len(os.Args) > 1 {
		timed("go_64_streams_bytes", func() uint64 { return send(64, 1024) })
		return
	}
	timed("go_one_stream_bytes", func() uint64 { return send(1, 16384) })
	timed("go_64_streams_bytes", func() uint64 { return send(64, 256) })
	timed("go_pings", func() uint64 { return ping(20000) })
	for _, waiting := range []int{10, 1000} {
		tell(fmt.Sprintf("go_echoes_beside_%d_waiting", waiting), 20000, echo(waiting, 20000))
	}
}
