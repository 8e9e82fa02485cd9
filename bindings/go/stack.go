package ipwire

/*
#include <ip_wire.h>
*/
import "C"

import (
	"crypto/rand"
	"encoding/binary"
	"io"
	"math"
	"net"
	"net/netip"
	"sync"
	"syscall"
	"time"
)

// StackConfig is the host of a Stack. Zero values are the defaults, and so are numbers out of range.
type StackConfig struct {
	Hardware   HardwareAddr
	IPv4, IPv6 netip.Addr    // zero: it has none
	MTU        int           // 68 to 65535: 1500
	Buffer     int           // for each direction of a connection, in bytes, 1 to 2^30 - 1: 65536
	KeepAlive  time.Duration // how long a peer may be silent until it is probed, in whole seconds: 2 hours

	// PartialChecksums says to compute TCP and UDP checksums that the sender of a received frame left to its device, before
	// they are checked. A packet socket (AF_PACKET) needs this for frames of programs on its own machine (checksum
	// offload), with segmentation offload off.
	PartialChecksums bool
}

// Stack is a host with TCP connections over a device. Its calls may run in many goroutines at once.
type Stack struct {
	mu        sync.Mutex // of what follows, and of all connections
	device    io.ReadWriter
	config    StackConfig
	host      C.struct_lk_host
	conns     map[ends]*Conn
	listeners map[uint16]*Listener
	start     time.Time
	out       []byte            // a frame that is sent
	ident     uint16            // of the next packet that may be fragmented
	frame     C.struct_lk_frame // the headers of one that was received
	options   C.struct_lk_tcp_options
	err       error // of the device
}

type ends struct {
	own, peer netip.AddrPort
}

// NewStack returns a host over a device. Each Read of the device returns one Ethernet frame, and each Write sends one, as
// those of a TAP device; for a TUN device put an Ethernet header with zero addresses before each packet. Write may drop
// the frame, and must not wait for what Serve does.
//
// A frame for no connection gets the answer of lk_answer, so that ARP, neighbour discovery and pings work, and a segment
// for none gets a RST. ICMP errors about the path MTU are taken (RFC 1191, RFC 8201). Not supported: fragments.
func NewStack(device io.ReadWriter, config StackConfig) *Stack {
	if config.MTU < 68 || config.MTU > 65535 {
		config.MTU = 1500
	}
	if config.Buffer <= 0 || config.Buffer >= 1<<30 {
		config.Buffer = 65536
	}
	if config.KeepAlive < 0 || config.KeepAlive/time.Second > math.MaxUint32 {
		config.KeepAlive = 0
	}
	if !config.IPv4.IsValid() {
		config.IPv4 = netip.IPv4Unspecified()
	}
	if !config.IPv6.IsValid() {
		config.IPv6 = netip.IPv6Unspecified()
	}
	return &Stack{
		device:    device,
		config:    config,
		host:      C.struct_lk_host{ipv4: cAddr(config.IPv4), ipv6: cAddr(config.IPv6), hardware: config.Hardware.c()},
		conns:     map[ends]*Conn{},
		listeners: map[uint16]*Listener{},
		start:     time.Now(),
		out:       make([]byte, 14+config.MTU+48), // 48: see lk_answer
	}
}

// Serve receives frames until the device fails, and returns its error. From then on all calls return it.
func (s *Stack) Serve() error {
	frame := make([]byte, 14+s.config.MTU)
	for {
		n, err := s.device.Read(frame)
		s.mu.Lock()
		if err != nil {
			s.err = err
			for _, c := range s.conns {
				c.changed.Broadcast()
			}
			for _, l := range s.listeners {
				l.changed.Broadcast()
			}
			s.mu.Unlock()
			return err
		}
		s.receive(frame[:n])
		s.mu.Unlock()
	}
}

// Dial opens a connection from headers.Src to headers.Dst, and waits until it is established. headers.Ethernet.Dst is the
// peer, or the router to it. The error is ErrReset, syscall.EADDRINUSE if there is a connection between these endpoints, or
// a Failure if no frame can have these headers.
func (s *Stack) Dial(headers *Headers) (*Conn, error) {
	s.mu.Lock()
	defer s.mu.Unlock()
	c := s.newConn(headers.c())
	if s.conns[c.ends()] != nil {
		c.timer.Stop()
		return nil, syscall.EADDRINUSE
	}
	if syn := c.run(connect, nil); syn < 0 {
		c.timer.Stop()
		return nil, Failure(syn)
	}
	s.conns[c.ends()] = c
	for c.flush(); s.err == nil && (c.state() == C.LK_SYN_SENT || c.state() == C.LK_SYN_RECEIVED); {
		c.changed.Wait()
	}
	if err := c.failure(time.Time{}); err != nil {
		return nil, err
	}
	return c, nil
}

// Listener waits for the connections to a port. It is a net.Listener.
type Listener struct {
	stack    *Stack
	port     uint16
	queue    []*Conn // those that are established
	count    int     // with those that open
	changed  *sync.Cond
	isClosed bool
}

// Listen waits for connections to a port of the host. At most 128 wait for Accept, and others are refused. The error is
// syscall.EADDRINUSE.
func (s *Stack) Listen(port uint16) (*Listener, error) {
	s.mu.Lock()
	defer s.mu.Unlock()
	if s.listeners[port] != nil {
		return nil, syscall.EADDRINUSE
	}
	l := &Listener{stack: s, port: port, changed: sync.NewCond(&s.mu)}
	s.listeners[port] = l
	return l, nil
}

// Accept waits for the next connection, a *Conn.
func (l *Listener) Accept() (net.Conn, error) {
	l.stack.mu.Lock()
	defer l.stack.mu.Unlock()
	for ; !l.isClosed && l.stack.err == nil; l.changed.Wait() {
		if len(l.queue) > 0 {
			c := l.queue[0]
			l.queue[0] = nil // else the array keeps it
			l.queue = l.queue[1:]
			l.count--
			return c, nil
		}
	}
	if l.isClosed {
		return nil, net.ErrClosed
	}
	return nil, l.stack.err
}

// Close ends the listener, and resets the connections that wait for Accept.
func (l *Listener) Close() error {
	l.stack.mu.Lock()
	defer l.stack.mu.Unlock()
	if l.isClosed {
		return net.ErrClosed
	}
	l.isClosed = true
	delete(l.stack.listeners, l.port)
	for _, c := range l.queue {
		c.run(abort, nil)
		c.flush()
	}
	l.queue = nil
	l.changed.Broadcast()
	return nil
}

// Addr returns the port, as a *net.TCPAddr.
func (l *Listener) Addr() net.Addr {
	return &net.TCPAddr{Port: int(l.port)}
}

// receive takes a frame.
func (s *Stack) receive(frame []byte) {
	ptr, length := memory(frame)
	out, room := memory(s.out)
	C.lk_read_frame_options(ptr, length, &s.frame, &s.options)
	if s.config.PartialChecksums && s.frame.transport_checksum == C.LK_CHECKSUM_PARTIAL {
		C.lk_fill_checksum(ptr, length)
		C.lk_read_frame_options(ptr, length, &s.frame, &s.options)
	}
	// A checksum that is left to a device is wrong, as for lk_answer.
	if s.frame.reason == C.LK_READ && s.frame.ipv4_checksum != C.LK_CHECKSUM_INVALID && s.frame.transport_checksum == C.LK_CHECKSUM_VALID {
		if c := s.find(); c != nil {
			c.run(step, ptr)
			c.flush()
			return
		}
		s.learnMTU(frame)
	}
	s.send(C.lk_answer(&s.host, ptr, length, out, room))
}

// find returns the connection of the frame that was parsed, or a new one for a SYN to a listener.
func (s *Stack) find() *Conn {
	f := &s.frame
	if f.transport != C.LK_TCP {
		return nil
	}
	between := ends{endpointOf(&f.dst), endpointOf(&f.src)}
	if c := s.conns[between]; c != nil {
		return c
	}
	own, peer, l := between.own.Addr(), between.peer.Addr(), s.listeners[between.own.Port()]
	isOwn := (own == s.config.IPv4 || own == s.config.IPv6) && hardwareOf(&f.ethernet.dst) == s.config.Hardware
	isSYN := f.tcp.flags&(C.LK_SYN|C.LK_ACK|C.LK_RST) == C.LK_SYN
	if l == nil || !isOwn || !isSYN || own == peer || !IsUnicast(peer) || l.count == 128 {
		return nil
	}
	headers := *f
	C.lk_make_reply(&headers)
	c := s.newConn(headers)
	c.listener = l
	l.count++
	C.lk_connection_listen(&c.fields)
	s.conns[between] = c
	return c
}

// learnMTU takes the path MTU of an ICMP error about a segment of a connection. Below 576 for IPv4, as the 0 of a router that
// tells none, packets of 576 bytes may be fragmented (RFC 1191, section 5). Below 1280 for IPv6 it is not valid (RFC 8201,
// section 4).
func (s *Stack) learnMTU(data []byte) {
	frame := ReadFrame(data)
	sent, ok := frame.ReadQuoted()
	header := sent.TCPHeader
	if header == nil {
		header = sent.Payload
	}
	if !ok || sent.Protocol != ProtocolTCP || len(header) < 8 || sent.Network != frame.Network {
		return
	}
	mtu, least, headersLen := frame.ICMP.Word, uint32(1280), uint32(60)
	if frame.Network == NetworkIPv4 {
		mtu, least, headersLen = mtu&0xffff, 576, 40
	}
	isIPv4 := frame.Network == NetworkIPv4 && frame.ICMP.Type == ICMPUnreachable && frame.ICMP.Code == ICMPCodeFragmentationNeeded
	isIPv6 := frame.Network == NetworkIPv6 && frame.ICMP.Type == ICMPv6PacketTooBig && mtu >= least && mtu <= 65535
	if !isIPv4 && !isIPv6 {
		return
	}
	mss := least - headersLen
	if mtu >= least {
		mss = mtu - headersLen
	}
	own := netip.AddrPortFrom(sent.Src.Addr(), binary.BigEndian.Uint16(header))
	peer := netip.AddrPortFrom(sent.Dst.Addr(), binary.BigEndian.Uint16(header[2:]))
	if c := s.conns[ends{own, peer}]; c != nil {
		number := C.uint32_t(binary.BigEndian.Uint32(header[4:]))
		if C.lk_connection_too_big(&c.fields, number, C.uint16_t(mss)) != 0 && mtu < least {
			c.headers.ip.dont_fragment = 0
		}
		c.flush()
	}
}

// settle gives a connection that is established to its listener, and forgets one that has ended.
func (s *Stack) settle(c *Conn) {
	state, l := c.state(), c.listener
	if l != nil && state != C.LK_SYN_RECEIVED {
		c.listener = nil
		if state > C.LK_SYN_RECEIVED && !l.isClosed {
			l.queue = append(l.queue, c)
			l.changed.Signal()
		} else {
			l.count--
			c.run(abort, nil)
		}
	}
	if c.state() == C.LK_CLOSED {
		if s.conns[c.ends()] == c { // and not a later one
			delete(s.conns, c.ends())
		}
		c.stopAlarms()
	}
}

// send sends the frame that a call wrote to s.out, if there is one.
func (s *Stack) send(length C.ptrdiff_t) {
	if length > 0 {
		s.device.Write(s.out[:length])
	}
}

// now returns the time in milliseconds.
func (s *Stack) now() C.uint64_t {
	return C.uint64_t(time.Since(s.start).Milliseconds())
}

// random returns an initial sequence number.
func random() C.uint32_t {
	var octets [4]byte
	if _, err := rand.Read(octets[:]); err != nil {
		panic("ipwire: there are no random numbers: " + err.Error())
	}
	return C.uint32_t(binary.BigEndian.Uint32(octets[:]))
}
