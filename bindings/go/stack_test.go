package ipwire

import (
	"bytes"
	"encoding/binary"
	"errors"
	"io"
	"math/rand"
	"net"
	"net/netip"
	"os"
	"testing"
	"time"
)

// cable is one end of a device in memory with a router, whose MTU is 1280. It drops some frames, and those for which there
// is no room.
type cable struct {
	sends, receives chan []byte
	rng             *rand.Rand
	loss            float64
	ended           chan struct{}
	isPartial       bool    // it leaves TCP checksums to a device
	old             *router // if there is one
}

// router is one whose next link has the MTU 300, and whose errors tell another one.
type router struct {
	told       uint16
	fragmented []IP // the headers of what it fragments
	longest    int
}

// withPartialChecksum writes the sum of the pseudo-header over a TCP checksum.
func withPartialChecksum(frame []byte) {
	f := ReadFrame(frame)
	if f.Transport != TransportTCP {
		return
	}
	pseudo := binary.BigEndian.AppendUint32(nil, uint32(len(frame)-f.TransportOffset))
	pseudo = append(append(append(pseudo, 0, 0, 0, 6), f.Src.Addr().AsSlice()...), f.Dst.Addr().AsSlice()...)
	binary.BigEndian.PutUint16(frame[f.TransportOffset+16:], Checksum(pseudo))
}

func (c cable) Write(frame []byte) (int, error) {
	to, data := c.sends, append([]byte(nil), frame...)
	if c.isPartial {
		withPartialChecksum(data)
	}
	if f := ReadFrame(frame); c.old != nil && f.Network == NetworkIPv4 && len(frame) > 14+300 {
		if f.IP.DontFragment {
			c.receives <- tooBig(frame, uint32(c.old.told))
			return len(frame), nil
		}
		c.old.fragmented = append(c.old.fragmented, f.IP)
		if c.old.longest < len(frame)-14 {
			c.old.longest = len(frame) - 14
		}
	}
	if len(frame) > 14+1280 {
		to, data = c.receives, tooBig(frame, 1280)
	} else if c.loss > 0 && c.rng.Float64() < c.loss {
		return len(frame), nil
	}
	select {
	case to <- data:
	default:
	}
	return len(frame), nil
}

// tooBig returns the ICMP error of the router. It quotes 8 bytes after an IPv4 header.
func tooBig(frame []byte, mtu uint32) []byte {
	f := ReadFrame(frame)
	headers, quoted := f.Reply(), frame[14:42]
	headers.ICMP = ICMP{Type: 3, Code: 4, Word: mtu}
	if f.Network == NetworkIPv6 {
		headers.ICMP, quoted = ICMP{Type: 2, Word: mtu}, frame[14:1246]
	}
	data, err := headers.EmitICMP(quoted, make([]byte, 1294))
	if err != nil {
		panic(err)
	}
	return data
}

func (c cable) Read(frame []byte) (int, error) {
	select {
	case received := <-c.receives:
		return copy(frame, received), nil
	case <-c.ended:
		return 0, io.EOF
	}
}

var (
	_ net.Conn     = (*Conn)(nil)
	_ net.Listener = (*Listener)(nil)
)

var client = StackConfig{
	Hardware: HardwareAddr{2, 0, 0, 0, 0, 1},
	IPv4:     netip.MustParseAddr("192.0.2.1"),
	IPv6:     netip.MustParseAddr("2001:db8::1"),
}

var server = StackConfig{
	Hardware: HardwareAddr{2, 0, 0, 0, 0, 2},
	IPv4:     netip.MustParseAddr("192.0.2.2"),
	IPv6:     netip.MustParseAddr("2001:db8::2"),
}

// stacks returns two hosts, and a function that ends them.
func stacks(loss float64) (*Stack, *Stack, func()) {
	there, back, ended := make(chan []byte, 1000), make(chan []byte, 1000), make(chan struct{})
	a := NewStack(cable{there, back, rand.New(rand.NewSource(1)), loss, ended, false, nil}, client)
	b := NewStack(cable{back, there, rand.New(rand.NewSource(2)), loss, ended, false, nil}, server)
	go a.Serve()
	go b.Serve()
	return a, b, func() { close(ended) }
}

func to(own, peer string) *Headers {
	return &Headers{
		Ethernet: Ethernet{Src: client.Hardware, Dst: server.Hardware},
		Src:      netip.MustParseAddrPort(own),
		Dst:      netip.MustParseAddrPort(peer),
		IP:       IP{HopLimit: 64, DontFragment: true},
	}
}

// exchange writes all bytes, and returns those of the peer.
func exchange(conn *Conn, data []byte) (read []byte, err error) {
	written := make(chan error)
	go func() {
		_, err := conn.Write(data)
		conn.CloseWrite()
		written <- err
	}()
	read, err = io.ReadAll(conn)
	if failure := <-written; failure != nil {
		err = failure
	}
	return read, err
}

func TestAllBytesArrive(t *testing.T) {
	for _, it := range [][2]string{{"192.0.2.1:4000", "192.0.2.2:80"}, {"[2001:db8::1]:4000", "[2001:db8::2]:80"}} {
		a, b, end := stacks(0.01)
		listener, err := b.Listen(80)
		if err != nil {
			t.Fatal(err)
		}
		sent := [2][]byte{make([]byte, 1_000_000), make([]byte, 1_000_000)}
		rand.Read(sent[0])
		rand.Read(sent[1])
		came := make(chan []byte)
		go func() {
			conn, err := listener.Accept()
			if err != nil || conn.RemoteAddr().String() != it[0] || conn.LocalAddr().String() != it[1] {
				t.Error(conn, err)
			}
			read, err := exchange(conn.(*Conn), sent[1])
			if err != nil {
				t.Error(err)
			}
			came <- read
		}()
		conn, err := a.Dial(to(it[0], it[1]))
		if err != nil {
			t.Fatal(err)
		}
		read, err := exchange(conn, sent[0])
		if err != nil || !bytes.Equal(read, sent[1]) || !bytes.Equal(<-came, sent[0]) {
			t.Error(it, len(read), err)
		}
		end()
	}
}

func TestFailures(t *testing.T) {
	a, b, end := stacks(0)
	listener, _ := b.Listen(80)
	if _, err := a.Dial(to("192.0.2.1:4000", "192.0.2.2:81")); err != ErrReset {
		t.Error(err)
	}
	if _, err := a.Dial(to("[::1]:4000", "192.0.2.2:80")); err != TwoVersions {
		t.Error(err)
	}
	conn, err := a.Dial(to("192.0.2.1:4000", "192.0.2.2:80"))
	if err != nil {
		t.Fatal(err)
	}
	peer, err := listener.Accept()
	if err != nil {
		t.Fatal(err)
	}
	conn.SetReadDeadline(time.Now().Add(10 * time.Millisecond))
	if _, err := conn.Read(make([]byte, 1)); !errors.Is(err, os.ErrDeadlineExceeded) {
		t.Error(err)
	}
	// The peer closes without reading, so that it sends a RST.
	conn.SetDeadline(time.Time{})
	if n, err := conn.Write([]byte("unread")); n != 6 || err != nil {
		t.Error(n, err)
	}
	peer.Close()
	if _, err := peer.Read(nil); err != net.ErrClosed {
		t.Error(err)
	}
	if _, err := io.ReadAll(conn); err != nil && err != ErrReset {
		t.Error(err)
	}
	listener.Close()
	if _, err := listener.Accept(); err != net.ErrClosed {
		t.Error(err)
	}
	end()
	if _, err := a.Dial(to("192.0.2.1:4001", "192.0.2.3:80")); err != io.EOF {
		t.Error(err)
	}
}

// After an error that tells less than 576, packets of 576 bytes go without DF, each with its own identification.
func TestOldRouters(t *testing.T) {
	for _, told := range []uint16{0, 20, 39, 68, 300, 575} {
		there, back, ended, old := make(chan []byte, 1000), make(chan []byte, 1000), make(chan struct{}), &router{told: told}
		a := NewStack(cable{there, back, nil, 0, ended, false, old}, client)
		b := NewStack(cable{back, there, nil, 0, ended, false, nil}, server)
		go a.Serve()
		go b.Serve()
		listener, _ := b.Listen(80)
		go func() {
			conn, err := a.Dial(to("192.0.2.1:4000", "192.0.2.2:80"))
			if err != nil {
				t.Error(err)
				return
			}
			conn.Write(make([]byte, 100_000))
			conn.CloseWrite()
		}()
		conn, err := listener.Accept()
		if err != nil {
			t.Fatal(err)
		}
		conn.SetDeadline(time.Now().Add(20 * time.Second))
		data, err := io.ReadAll(conn)
		if len(data) != 100_000 || err != nil {
			t.Error(told, len(data), err)
		}
		a.mu.Lock()
		idents := map[uint32]bool{}
		for _, ip := range old.fragmented {
			idents[ip.Ident] = true
		}
		if len(idents) < 100 || len(idents) != len(old.fragmented) || old.longest != 576 {
			t.Error(told, len(idents), len(old.fragmented), old.longest)
		}
		a.mu.Unlock()
		close(ended)
	}
}

// Only a stack that computes them takes segments whose checksum is left to the device of their sender.
func TestPartialChecksums(t *testing.T) {
	for _, it := range [][2]string{{"192.0.2.1:4000", "192.0.2.2:80"}, {"[2001:db8::1]:4000", "[2001:db8::2]:80"}} {
		for _, isTaken := range []bool{false, true} {
			there, back, ended := make(chan []byte, 10), make(chan []byte, 10), make(chan struct{})
			a, b := client, server
			a.PartialChecksums, b.PartialChecksums = isTaken, isTaken
			dialer := NewStack(cable{there, back, rand.New(rand.NewSource(1)), 0, ended, true, nil}, a)
			host := NewStack(cable{back, there, rand.New(rand.NewSource(2)), 0, ended, true, nil}, b)
			go host.Serve()
			go dialer.Serve()
			host.Listen(80)
			opened := make(chan error, 1)
			go func() {
				_, err := dialer.Dial(to(it[0], it[1]))
				opened <- err
			}()
			var err error
			select {
			case err = <-opened:
			case <-time.After(map[bool]time.Duration{false: 200 * time.Millisecond, true: time.Minute}[isTaken]):
				err = os.ErrDeadlineExceeded
			}
			if (err == nil) != isTaken {
				t.Error(it, isTaken, err)
			}
			close(ended)
		}
	}
}
