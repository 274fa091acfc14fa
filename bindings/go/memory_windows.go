//go:build amd64 || arm64

package yamux

import "syscall"

var (
	kernel       = syscall.NewLazyDLL("kernel32.dll")
	virtualAlloc = kernel.NewProc("VirtualAlloc")
	virtualFree  = kernel.NewProc("VirtualFree")
)

func pages(size uintptr) uintptr {
	const commit, reserve, readWrite = 0x1000, 0x2000, 4
	piece, _, _ := virtualAlloc.Call(0, size, commit|reserve, readWrite)
	return piece
}

func release(piece, _ uintptr) {
	const release = 0x8000
	virtualFree.Call(piece, 0, release)
}
