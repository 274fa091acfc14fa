//go:build amd64 || arm64

package yamux

import (
	"syscall"
	"unsafe"
)

// siocoutqnsd is what Linux calls the question for bytes that stand in a socket's queue and were not sent yet.
const siocoutqnsd = 0x894b

// tcpClose is the state of a socket whose connection is gone, as after a reset. What stands in its queue stays there.
const tcpClose = 7

// unsent says how many bytes of a socket the system has still to send, if it tells. It doesn't of a Unix socket, and some sandboxes don't
// at all.
func unsent(descriptor uintptr) (count int, isTold bool) {
	if state, fault := syscall.GetsockoptInt(int(descriptor), syscall.IPPROTO_TCP, syscall.TCP_INFO); fault == nil && byte(state) == tcpClose {
		return 0, true
	}
	var left int32
	if _, _, fault := syscall.Syscall(syscall.SYS_IOCTL, descriptor, siocoutqnsd, uintptr(unsafe.Pointer(&left))); fault != 0 {
		return 0, false
	}
	return int(left), true
}
