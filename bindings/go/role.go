//go:build (linux || darwin || freebsd || windows) && (amd64 || arm64)

package yamux

import "encoding/binary"

// Who called opens streams of odd numbers, and who was called those of even ones. HashiCorp's package never looks at that, so
// some programs make both ends by Server, and only one of them opens. So the first to open decides: where the peer's first
// stream has a number of this side, and none was opened here, this side is the other one from there on.

// settleRole feeds the pings that come before the peer's first stream, and gives what is to be fed next.
func (s *Session) settleRole(bytes []byte) []byte {
	if s.early != nil {
		bytes = append(s.early, bytes...)
		s.early = nil
	}
	for !s.isSettled && len(bytes) > 0 && bytes[0] == 0 {
		if len(bytes) < headerSize {
			s.early = append(s.early, bytes...)
			return nil
		}
		if bytes[1] != framePing {
			break
		}
		taken := s.core.feed(bytes[:headerSize], 0)
		s.serve()
		bytes = bytes[taken:]
		if taken < headerSize {
			s.isSettled = true
			return bytes
		}
	}
	if s.isSettled || len(bytes) == 0 {
		return bytes
	}
	s.isSettled = true
	if len(bytes) >= headerSize && bytes[1] <= frameWindowUpdate && binary.BigEndian.Uint16(bytes[2:])&flagSYN != 0 {
		s.takeRole(binary.BigEndian.Uint32(bytes[4:]))
	}
	return bytes
}

// takeRole has the session be the other side, if the peer opens a stream of a number of this one.
func (s *Session) takeRole(id uint32) {
	if id == 0 || (id%2 == 1) != s.isClient {
		return
	}
	if s.due && !s.isOccupied() {
		s.fill() // answers to pings
	}
	if s.due {
		return
	}
	other, err := newCore(!s.isClient, s.window)
	if err != nil {
		return
	}
	s.core.free()
	s.core, s.isClient = other, !s.isClient
	pings := s.pings
	s.pings = make(map[uint32]*ping)
	for _, ping := range pings {
		s.pings[uint32(s.core.ping())] = ping
		s.wakeWriter()
	}
}
