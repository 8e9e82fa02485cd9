package ipwire

import (
	"bytes"
	"io"
	"net"
	"os"
	"runtime"
	"testing"
	"time"
)

// pair returns both ends of a connection to a listener at port 80.
func pair(t *testing.T, a, b *Stack, own string) (*Conn, *Conn, net.Listener) {
	t.Helper()
	listener, err := b.Listen(80)
	if err != nil {
		t.Fatal(err)
	}
	conn, err := a.Dial(to(own, "192.0.2.2:80"))
	if err != nil {
		t.Fatal(err)
	}
	peer, err := listener.Accept()
	if err != nil {
		t.Fatal(err)
	}
	return conn, peer.(*Conn), listener
}

// heap returns how many bytes are in use.
func heap() int {
	var stats runtime.MemStats
	runtime.GC()
	runtime.ReadMemStats(&stats)
	return int(stats.HeapAlloc)
}

func TestWritesDoNotMix(t *testing.T) {
	a, b, end := stacks(0)
	defer end()
	conn, peer, _ := pair(t, a, b, "192.0.2.1:4000")
	const length, count = 300_000, 4
	for place := 0; place < count; place++ {
		go conn.Write(bytes.Repeat([]byte{byte(place)}, length))
	}
	peer.SetDeadline(time.Now().Add(20 * time.Second))
	all, seen := make([]byte, count*length), map[byte]bool{}
	if n, err := io.ReadFull(peer, all); err != nil {
		t.Fatal(n, err)
	}
	for place := 0; place < count; place++ {
		part := all[place*length:][:length]
		if seen[part[0]] || bytes.Count(part, part[:1]) != length {
			t.Error("part", place, "is mixed")
		}
		seen[part[0]] = true
	}
}

// A Write that waits for another one ends at its deadline, and when the connection is closed.
func TestWriteThatWaits(t *testing.T) {
	a, b, end := stacks(0)
	defer end()
	conn, _, _ := pair(t, a, b, "192.0.2.1:4000")
	errs := make(chan error)
	write := func() {
		_, err := conn.Write(make([]byte, 1<<20)) // more than both buffers take
		errs <- err
	}
	for _, it := range []struct {
		end func()
		err error
	}{
		{func() { conn.SetWriteDeadline(time.Now().Add(50 * time.Millisecond)) }, os.ErrDeadlineExceeded},
		{func() { conn.Close() }, net.ErrClosed},
	} {
		go write()
		go write()
		it.end()
		for n := 0; n < 2; n++ {
			if err := <-errs; err != it.err {
				t.Error(err, it.err)
			}
		}
		conn.SetWriteDeadline(time.Time{})
	}
}

func TestDeadlinesKeepNoMemory(t *testing.T) {
	a, b, end := stacks(0)
	defer end()
	conn, _, _ := pair(t, a, b, "192.0.2.1:4000")
	before := heap()
	for n := 0; n < 200_000; n++ {
		conn.SetDeadline(time.Now().Add(time.Hour))
	}
	if more := heap() - before; more > 2_000_000 {
		t.Error("200,000 deadlines keep bytes:", more)
	}
	conn.SetReadDeadline(time.Now().Add(time.Hour))
	conn.SetReadDeadline(time.Now().Add(10 * time.Millisecond)) // an earlier one
	if _, err := conn.Read(make([]byte, 1)); err != os.ErrDeadlineExceeded {
		t.Error(err)
	}
}

// A connection that was accepted, has ended and is used no more is freed, though its listener and its deadline wait.
func TestEndedConnsAreFreed(t *testing.T) {
	a, b, end := stacks(0)
	defer end()
	conn, peer, listener := pair(t, a, b, "192.0.2.1:4000")
	freed := make(chan bool, 1)
	runtime.SetFinalizer(&peer.outgoing[0], func(*byte) { freed <- true }) // a Conn and its timer point to each other
	peer.SetDeadline(time.Now().Add(time.Hour))
	conn.Close()
	if _, err := io.ReadAll(peer); err != nil {
		t.Error(err)
	}
	peer.Close()
	peer = nil
	for n := 0; n < 500; n++ {
		runtime.GC()
		select {
		case <-freed:
			runtime.KeepAlive(listener)
			return
		case <-time.After(10 * time.Millisecond):
		}
	}
	t.Error("it is not freed")
}

// What is done with a connection that has ended does not touch a later one between the same endpoints.
func TestLaterConn(t *testing.T) {
	a, b, end := stacks(0)
	defer end()
	conn, peer, listener := pair(t, a, b, "192.0.2.1:4000")
	a.mu.Lock()
	conn.run(abort, nil)
	conn.flush()
	a.mu.Unlock()
	if _, err := io.ReadAll(peer); err != ErrReset {
		t.Error(err)
	}
	if _, err := a.Dial(to("192.0.2.1:4000", "192.0.2.2:80")); err != nil {
		t.Fatal(err)
	}
	later, err := listener.Accept()
	if err != nil {
		t.Fatal(err)
	}
	peer.Close()
	b.mu.Lock()
	if b.conns[later.(*Conn).ends()] != later {
		t.Error("the later connection is gone")
	}
	b.mu.Unlock()
}

func TestOddConfigs(t *testing.T) {
	for _, config := range []StackConfig{{Buffer: -1}, {Buffer: 1 << 30}, {MTU: -100}, {MTU: 67}, {MTU: 1 << 20}, {KeepAlive: -1}} {
		for at, base := range []StackConfig{client, server} {
			config.Hardware, config.IPv4, config.IPv6 = base.Hardware, base.IPv4, base.IPv6
			if s := NewStack(nil, config); s.config.Buffer != 65536 || s.config.MTU != 1500 || s.config.KeepAlive != 0 {
				t.Error(at, s.config)
			}
		}
	}
	_, b, end := stacks(0)
	defer end()
	listener, _ := b.Listen(80)
	if listener.Close() != nil || listener.Close() != net.ErrClosed {
		t.Error("a listener that is closed twice")
	}
	if _, err := b.Listen(80); err != nil {
		t.Error(err)
	}
	listener.Close() // the one before
	if _, err := b.Listen(80); err == nil {
		t.Error("the port has two listeners")
	}
}
