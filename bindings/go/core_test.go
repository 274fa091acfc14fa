//go:build (linux || darwin || freebsd || windows) && (amd64 || arm64)

package yamux

import "testing"

// cores is two sessions whose bytes go to each other without a connection.
func cores(t testing.TB, window uint32) (client, server core) {
	t.Helper()
	client, err := newCore(true, window)
	if err != nil {
		t.Fatal(err)
	}
	server, err = newCore(false, window)
	if err != nil {
		t.Fatal(err)
	}
	return client, server
}

// carry feeds one session what the other emits.
func carry(t testing.TB, from, to core, block []byte) {
	for {
		count := from.emit(block)
		if count == 0 {
			return
		}
		if taken := to.feed(block[:count], 0); taken != count {
			t.Fatal("taken", taken, "of", count)
		}
	}
}

func BenchmarkOpenUseClose(b *testing.B) {
	client, server := cores(b, leastWindow)
	block, word := make([]byte, 1<<16), make([]byte, 64)
	for n := 0; n < b.N; n++ {
		id := client.open()
		client.write(uint32(id), word)
		carry(b, client, server, block)
		server.accept()
		server.read(uint32(id), word)
		server.write(uint32(id), word)
		server.finish(uint32(id))
		carry(b, server, client, block)
		client.read(uint32(id), word)
		client.finish(uint32(id))
		carry(b, client, server, block)
		client.forget(uint32(id))
		server.forget(uint32(id))
		carry(b, server, client, block)
	}
	client.free()
	server.free()
}

func BenchmarkEmptyFeed(b *testing.B) {
	client, server := cores(b, leastWindow)
	for n := 0; n < b.N; n++ {
		client.feed(nil, 0)
	}
	client.free()
	server.free()
}

func BenchmarkSession(b *testing.B) {
	for n := 0; n < b.N; n++ {
		core, err := newCore(true, leastWindow)
		if err != nil {
			b.Fatal(err)
		}
		core.free()
	}
}
