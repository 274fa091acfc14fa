//go:build (linux || darwin || freebsd) && (amd64 || arm64)

package yamux

import (
	"io"
	"syscall"
)

// nothingThere is the error of a read or write that would wait.
const nothingThere = syscall.EAGAIN

const nameOfRead = "read"

// preparedSocket says whether a read or write that is made by hand doesn't wait. Go's sockets are so.
func preparedSocket(syscall.RawConn) bool { return true }

// readNow reads what is there.
func readNow(descriptor uintptr, bytes []byte) (int, error) {
	for {
		count, err := syscall.Read(int(descriptor), bytes)
		if err != syscall.EINTR {
			return count, err
		}
	}
}

// writeNow writes what is taken at once.
func writeNow(descriptor uintptr, bytes []byte) (int, error) {
	return syscall.Write(int(descriptor), bytes)
}

// writeAndForget writes all, and leaves no block with the connection. Here none stays there.
func writeAndForget(connection io.Writer, bytes []byte) (int, error) {
	return connection.Write(bytes)
}
