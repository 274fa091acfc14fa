// What HashiCorp's tests ask of private fields and calls, for the copy of the binding that hashicorp.sh makes.
package yamux

import "time"

// SendNoWait sends a ping, and waits for no answer. The tests send headers of pings alone by it.
func (s *Session) SendNoWait([]byte) error {
	_, err := s.beginPing(time.After(s.config.ConnectionWriteTimeout))
	return err
}
