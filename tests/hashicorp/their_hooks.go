// What HashiCorp's tests ask of private fields and calls, for the copy of their package that hashicorp.sh makes.
package yamux

import "sync/atomic"

// SendWindow is the credit of the stream.
func (s *Stream) SendWindow() uint32 { return atomic.LoadUint32(&s.sendWindow) }

// SendNoWait sends a header once there is room in the queue.
func (s *Session) SendNoWait(hdr []byte) error { return s.sendNoWait(header(hdr)) }
