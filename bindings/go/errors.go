//go:build (linux || darwin || freebsd || windows) && (amd64 || arm64)

package yamux

import (
	"errors"
	"net"
	"os"
	"syscall"
)

// NetError is a net.Error with the text of github.com/hashicorp/yamux: the type of ErrTimeout, as there.
type NetError struct{ fault }

// fault is an error with the text of github.com/hashicorp/yamux, which is by errors.Is an error of the standard library
// too. It is a net.Error, as net.ErrClosed is.
type fault struct {
	text               string
	standard           error // or nil
	timeout, temporary bool
}

func (f *fault) Error() string { return f.text }

// Timeout says whether a time has passed.
func (f *fault) Timeout() bool { return f.timeout }

// Temporary says whether the call may be made again, as for the deadlines of the standard library.
func (f *fault) Temporary() bool { return f.temporary }

// Is has errors.Is find the standard library's error.
func (f *fault) Is(target error) bool { return f.standard != nil && target == f.standard }

// The errors have the names and texts of github.com/hashicorp/yamux. Compare them by == or errors.Is.
var (
	// ErrInvalidVersion: the peer sent a frame of another version.
	ErrInvalidVersion = errors.New("invalid protocol version")
	// ErrInvalidMsgType: the peer sent a frame of an unknown type.
	ErrInvalidMsgType = errors.New("invalid msg type")
	// ErrSessionShutdown: the session has ended, before the call or during it. By errors.Is it is net.ErrClosed.
	ErrSessionShutdown error = &fault{text: "session shutdown", standard: net.ErrClosed}
	// ErrStreamsExhausted: all ids for streams are used up. Make a new session.
	ErrStreamsExhausted = errors.New("streams exhausted")
	// ErrDuplicateStream: the peer opened a stream that is there.
	ErrDuplicateStream = errors.New("duplicate stream initiated")
	// ErrRecvWindowExceeded: the peer sent more than its credit.
	ErrRecvWindowExceeded = errors.New("recv window exceeded")
	// ErrTimeout: a deadline has passed, or no answer to a ping came. It is a net.Error whose Timeout and Temporary are true, and
	// by errors.Is os.ErrDeadlineExceeded.
	ErrTimeout = &NetError{fault{text: "i/o deadline reached", standard: os.ErrDeadlineExceeded, timeout: true, temporary: true}}
	// ErrStreamClosed: this side has closed the stream, before the call or during it. By errors.Is it is net.ErrClosed.
	ErrStreamClosed error = &fault{text: "stream closed", standard: net.ErrClosed}
	// ErrUnexpectedFlag is here for programs that name it. No call returns it: such a frame is passed over.
	ErrUnexpectedFlag = errors.New("unexpected flag")
	// ErrRemoteGoAway: the peer takes no more streams.
	ErrRemoteGoAway = errors.New("remote end is not accepting connections")
	// ErrConnectionReset: either side has reset the stream. The peer does so with a stream that it can't take. By errors.Is
	// it is syscall.ECONNRESET.
	ErrConnectionReset error = &fault{text: "connection reset", standard: syscall.ECONNRESET}
	// ErrConnectionWriteTimeout: the connection took no bytes for Config.ConnectionWriteTimeout. It is a net.Error whose
	// Timeout is true. No deadline has passed, so it isn't os.ErrDeadlineExceeded.
	ErrConnectionWriteTimeout error = &fault{text: "connection write timeout", timeout: true}
	// ErrKeepAliveTimeout: a keepalive had no answer, so the session has ended.
	ErrKeepAliveTimeout = errors.New("keepalive timeout")

	// ErrTooManyStreams: the session has 1,024 streams, as many as it can. HashiCorp's package has no such limit.
	ErrTooManyStreams = errors.New("too many streams: a session has 1,024 at most, so open another one over a connection of its own")
	// ErrNoMemory: the system gave none. The call may be made again.
	ErrNoMemory = errors.New("no memory: the system gave none for this call, which may be made again")
)

// refusal is the error for a negative answer of the proved part.
func refusal(answer int64) error {
	switch answer {
	case refusedFinished:
		return ErrStreamClosed
	case refusedReset:
		return ErrConnectionReset
	case refusedLost, refusedClosed, refusedNoStream:
		return ErrSessionShutdown
	case refusedPeerAway:
		return ErrRemoteGoAway
	case refusedExhausted:
		return ErrStreamsExhausted
	case refusedTooMany:
		return ErrTooManyStreams
	case refusedNoMemory:
		return ErrNoMemory
	}
	return errors.New("yamux: " + errorName(answer))
}

// These answers are no refusals: the caller waits, and asks again.
const (
	answerWait         = ymxWait
	answerOpensPending = refusedOpensPending
)

// broken is the error for a status of YMX_BROKEN and more.
func broken(status int64) error {
	switch status - ymxBroken {
	case 1:
		return ErrInvalidVersion
	case 2:
		return ErrInvalidMsgType
	case 3:
		return errors.New("stream id of the wrong side initiated, as where both sides are servers")
	case 4:
		return ErrDuplicateStream
	case 5:
		return ErrRecvWindowExceeded
	case 6:
		return errors.New("send window above 4,294,967,295")
	case 7:
		return errors.New("unexpected go away received")
	case 8:
		return errors.New("yamux protocol error")
	}
	return errors.New("remote yamux internal error")
}

// statusBroken is the least status of a session that broke.
const statusBroken = ymxBroken
