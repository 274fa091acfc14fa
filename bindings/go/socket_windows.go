//go:build amd64 || arm64

package yamux

import (
	"io"
	"syscall"
	"unsafe"
)

// nothingThere is the error of a read or write that would wait: WSAEWOULDBLOCK.
const nothingThere = syscall.Errno(10035)

const nameOfRead = "wsarecv"

var ioctlsocket = syscall.NewLazyDLL("ws2_32.dll").NewProc("ioctlsocket")

// preparedSocket has reads and writes that are made by hand not wait. Go's own are overlapped, and so they aren't touched by that.
func preparedSocket(raw syscall.RawConn) bool {
	const fionbio = 0x8004667e
	answer := uintptr(1)
	err := raw.Control(func(descriptor uintptr) {
		yes := uint32(1)
		answer, _, _ = ioctlsocket.Call(descriptor, fionbio, uintptr(unsafe.Pointer(&yes)))
	})
	return err == nil && answer == 0
}

func buffer(bytes []byte) *syscall.WSABuf {
	return &syscall.WSABuf{Len: uint32(len(bytes)), Buf: first(bytes)}
}

// readNow reads what is there.
func readNow(descriptor uintptr, bytes []byte) (int, error) {
	var count, flags uint32
	err := syscall.WSARecv(syscall.Handle(descriptor), buffer(bytes), 1, &count, &flags, nil, nil)
	return int(count), err
}

// writeNow writes what is taken at once.
func writeNow(descriptor uintptr, bytes []byte) (int, error) {
	var count uint32
	err := syscall.WSASend(syscall.Handle(descriptor), buffer(bytes), 1, &count, 0, nil, nil)
	return int(count), err
}

// writeAndForget writes all, and leaves no block with the connection. Here Go's own keeps the last bytes that it was given to write, and
// what they lie in, as long as it lives. So these are few, in a place of their own.
func writeAndForget(connection io.Writer, bytes []byte) (int, error) {
	const few = 4096
	count := 0
	if rest := len(bytes) - few; rest > 0 {
		var err error
		if count, err = connection.Write(bytes[:rest]); err != nil {
			return count, err
		}
	}
	last, err := connection.Write(append([]byte(nil), bytes[count:]...))
	return count + last, err
}
