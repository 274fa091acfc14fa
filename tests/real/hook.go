// Package ystream has net.Listen and net.Dial of the copy of Go that real.sh makes go over streams: all that dial one address
// share a session. It is linked into the tests of others. YPLAIN=1 leaves it out, so that they run over TCP.
package ystream

import (
	"context"
	"net"
	"os"
	"strings"
	"sync"
	"syscall"
	"time"

	"github.com/hashicorp/yamux"
)

// listener is one address, at which streams come.
type listener struct {
	below   net.Listener
	streams chan net.Conn
	done    chan struct{}
	once    sync.Once

	lock     sync.Mutex
	client   *yamux.Session // of those that dial
	sessions []*yamux.Session
	isClosed bool
}

var (
	lock      sync.Mutex
	listeners = map[string]*listener{} // by port
)

func port(address string) string { return address[strings.LastIndex(address, ":")+1:] }

func config() *yamux.Config {
	config := yamux.DefaultConfig()
	config.EnableKeepAlive = false
	if out, err := os.OpenFile(os.DevNull, os.O_WRONLY, 0); err == nil {
		config.LogOutput = out
	}
	return config
}

func init() {
	if os.Getenv("YPLAIN") == "" {
		net.YListen, net.YDial = listen, dial
	}
}

func listen(network, address string) (net.Listener, error, bool) {
	if network != "tcp" && network != "tcp4" && network != "tcp6" {
		return nil, nil, false
	}
	below, err := new(net.ListenConfig).Listen(context.Background(), network, address)
	if err != nil {
		return nil, err, true
	}
	l := &listener{below: below, streams: make(chan net.Conn), done: make(chan struct{})}
	lock.Lock()
	listeners[port(below.Addr().String())] = l
	lock.Unlock()
	go l.run()
	return l, nil, true
}

func dial(waits context.Context, network, address string) (net.Conn, error, bool) {
	if !strings.HasPrefix(network, "tcp") || !strings.Contains(address, ":") {
		return nil, nil, false
	}
	switch address[:strings.LastIndex(address, ":")] {
	case "127.0.0.1", "localhost", "[::1]", "", "[::]", "0.0.0.0":
	default:
		return nil, nil, false
	}
	lock.Lock()
	l := listeners[port(address)]
	lock.Unlock()
	if l == nil {
		return nil, nil, false
	}
	stream, err := l.dial(waits)
	if err != nil {
		if waits.Err() == nil {
			err = os.NewSyscallError("connect", syscall.ECONNREFUSED)
		}
		return nil, &net.OpError{Op: "dial", Net: network, Addr: l.Addr(), Err: err}, true
	}
	return stream, nil, true
}

func (l *listener) dial(waits context.Context) (net.Conn, error) {
	if err := waits.Err(); err != nil {
		return nil, err
	}
	l.lock.Lock()
	defer l.lock.Unlock()
	if l.isClosed {
		return nil, net.ErrClosed
	}
	if l.client == nil || l.client.IsClosed() {
		below, err := new(net.Dialer).PlainDialContext(context.Background(), l.Addr().Network(), l.Addr().String())
		if err != nil {
			return nil, err
		}
		if l.client, err = yamux.Client(below, config()); err != nil {
			return nil, err
		}
		l.sessions = append(l.sessions, l.client)
	}
	return l.client.Open()
}

func (l *listener) run() {
	for {
		below, err := l.below.Accept()
		if err != nil {
			return
		}
		session, err := yamux.Server(below, config())
		if err != nil {
			panic(err)
		}
		l.lock.Lock()
		l.sessions = append(l.sessions, session)
		l.lock.Unlock()
		go func() {
			for {
				stream, err := session.Accept()
				if err != nil {
					return
				}
				select {
				case l.streams <- stream:
				case <-l.done:
					stream.Close()
				}
			}
		}()
	}
}

func (l *listener) fault(call string) error {
	return &net.OpError{Op: call, Net: "tcp", Addr: l.Addr(), Err: net.ErrClosed}
}

func (l *listener) Accept() (net.Conn, error) {
	select {
	case <-l.done:
		return nil, l.fault("accept")
	default:
	}
	select {
	case stream := <-l.streams:
		return stream, nil
	case <-l.done:
		return nil, l.fault("accept")
	}
}

func (l *listener) Addr() net.Addr { return l.below.Addr() }

// Close lets streams that are there go on, as that of a TCP listener does. The sessions end after the last of them.
func (l *listener) Close() error {
	err := l.fault("close")
	l.once.Do(func() {
		err = nil
		close(l.done)
		lock.Lock()
		delete(listeners, port(l.Addr().String()))
		lock.Unlock()
		l.lock.Lock()
		l.isClosed = true
		l.lock.Unlock()
		l.below.Close()
		go l.end()
	})
	return err
}

func (l *listener) end() {
	for since := time.Now(); time.Since(since) < time.Minute; time.Sleep(10 * time.Millisecond) {
		streams := 0
		l.lock.Lock()
		for _, session := range l.sessions {
			streams += session.NumStreams()
		}
		l.lock.Unlock()
		if streams == 0 {
			break
		}
	}
	for _, session := range l.sessions {
		session.Close()
	}
}
