//go:build (linux || darwin || freebsd || windows) && (amd64 || arm64)

package yamux

import (
	"errors"
	"fmt"
	"io"
	"os"
	"time"
)

const (
	leastWindow  = 262144
	widestWindow = 16777216
)

// Config says how a session behaves. The fields are those of github.com/hashicorp/yamux.
type Config struct {
	// AcceptBacklog is how many own streams may be open that the peer has not acknowledged. OpenStream waits where so
	// many are. Above 256 it acts as 256. At most 256 streams of the peer's wait for AcceptStream; more are reset.
	AcceptBacklog int

	// EnableKeepAlive has the session ping its peer, and end with ErrKeepAliveTimeout if no answer comes.
	EnableKeepAlive bool

	// KeepAliveInterval is the time between one ping and the next.
	KeepAliveInterval time.Duration

	// ConnectionWriteTimeout is how long a call waits for the connection to take its bytes, and Ping for an answer.
	ConnectionWriteTimeout time.Duration

	// MaxStreamWindowSize is how many unread bytes a stream may have, 262,144 or more. Above 16,777,216 it acts as that.
	MaxStreamWindowSize uint32

	// StreamOpenTimeout ends the session if the peer acknowledges a stream no sooner. 0 is no limit.
	StreamOpenTimeout time.Duration

	// StreamCloseTimeout resets a stream if the peer doesn't end it within this time after Close. 0 is no limit.
	StreamCloseTimeout time.Duration

	// LogOutput is where the log goes. Either Logger or LogOutput is set, not both.
	LogOutput io.Writer

	// Logger is the log. Either Logger or LogOutput is set, not both.
	Logger Logger
}

// Logger is what a session writes its log to, such as a *log.Logger.
type Logger interface {
	Print(words ...interface{})
	Printf(format string, words ...interface{})
	Println(words ...interface{})
}

// DefaultConfig is what Client and Server take for nil.
func DefaultConfig() *Config {
	return &Config{
		AcceptBacklog:          256,
		EnableKeepAlive:        true,
		KeepAliveInterval:      30 * time.Second,
		ConnectionWriteTimeout: 10 * time.Second,
		MaxStreamWindowSize:    leastWindow,
		StreamOpenTimeout:      75 * time.Second,
		StreamCloseTimeout:     5 * time.Minute,
		LogOutput:              os.Stderr,
	}
}

// VerifyConfig says what is wrong with a configuration.
func VerifyConfig(config *Config) error {
	if config.AcceptBacklog <= 0 {
		return errors.New("backlog must be positive")
	}
	if config.KeepAliveInterval == 0 || config.EnableKeepAlive && config.KeepAliveInterval < 0 {
		return errors.New("keep-alive interval must be positive")
	}
	if config.MaxStreamWindowSize < leastWindow {
		return fmt.Errorf("MaxStreamWindowSize must be larger than %d", leastWindow)
	}
	if config.LogOutput != nil && config.Logger != nil {
		return errors.New("both Logger and LogOutput may not be set, select one")
	}
	if config.LogOutput == nil && config.Logger == nil {
		return errors.New("one of Logger or LogOutput must be set, select one")
	}
	return nil
}

// Server begins the side that was called. The session owns the connection from here on.
func Server(connection io.ReadWriteCloser, config *Config) (*Session, error) {
	return begin(connection, config, false)
}

// Client begins the side that called. The session owns the connection from here on.
func Client(connection io.ReadWriteCloser, config *Config) (*Session, error) {
	return begin(connection, config, true)
}

func begin(connection io.ReadWriteCloser, config *Config, client bool) (*Session, error) {
	if config == nil {
		config = DefaultConfig()
	}
	if err := VerifyConfig(config); err != nil {
		return nil, err
	}
	return newSession(config, connection, client)
}
