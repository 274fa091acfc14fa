//go:build (linux || darwin || freebsd) && (amd64 || arm64)

package yamux

import (
	"syscall"
	"unsafe"
)

func pages(size uintptr) uintptr {
	piece, err := syscall.Mmap(-1, 0, int(size), syscall.PROT_READ|syscall.PROT_WRITE, syscall.MAP_ANON|syscall.MAP_PRIVATE)
	if err != nil {
		return 0
	}
	return uintptr(unsafe.Pointer(&piece[0]))
}

func release(piece, size uintptr) {
	syscall.Munmap(unsafe.Slice(*(**byte)(unsafe.Pointer(&piece)), int(size)))
}
