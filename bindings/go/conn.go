package ipwire

/*
#include <ip_wire.h>

enum { CONNECT, STEP, TICK, ABORT };

// Writes the frame of the segment that a call stores, which points into a buffer of Go, before this returns. 0: there is
// none. STEP takes the segment of a frame; number is the sequence number of an own SYN.
static ptrdiff_t run(int event, struct lk_connection *c, const uint8_t *outgoing, size_t outgoing_len, uint8_t *incoming,
                     size_t incoming_len, uint64_t now, uint32_t number, const uint8_t *frame, const struct lk_frame *f,
                     const struct lk_tcp_options *options, const struct lk_frame *headers, uint8_t *out, size_t cap)
{
    struct lk_segment in = {f->tcp, *options, frame, f->payload_len}, s;
    struct lk_frame sent = *headers;
    int stored;
    if (event == CONNECT)
        stored = lk_connection_connect(c, outgoing, outgoing_len, incoming, incoming_len, now, number, &s);
    else if (event == TICK)
        stored = lk_connection_tick(c, outgoing, outgoing_len, incoming, incoming_len, now, &s);
    else if (event == ABORT)
        stored = lk_connection_abort(c, &s);
    else {
        in.payload += f->payload_offset;
        stored = lk_connection_step(c, outgoing, outgoing_len, incoming, incoming_len, now, &in, number, &s);
    }
    if (stored != 1)
        return 0;
    sent.tcp = s.tcp;
    return lk_emit_tcp_frame(&sent, &s.options, s.payload, s.payload_len, out, cap);
}
*/
import "C"

import (
	"errors"
	"io"
	"math"
	"net"
	"os"
	"sync"
	"time"
)

// ErrReset is returned for a connection that the peer has reset or refused, or whose peer was silent for too long.
var ErrReset = errors.New("ipwire: the connection was reset, refused, or timed out")

// Conn is a TCP connection of a Stack, with timers, congestion control, selective acknowledgements, window scale and
// timestamps. It is a net.Conn.
type Conn struct {
	stack              *Stack
	listener           *Listener // it has not been established for this listener yet
	fields             C.struct_lk_connection
	headers            C.struct_lk_frame // of the frames that it sends
	outgoing, incoming []byte
	changed            *sync.Cond
	timer              *time.Timer
	deadlines          [2]time.Time   // of Read and Write
	alarms             [2]*time.Timer // wake them then; nil: no deadline was set
	isWriting          bool           // a Write has begun, and others wait for its end
	isHalfClosed       bool           // the application writes no more,
	isClosed           bool           // and reads no more
}

// The methods with small letters are called with the lock of the stack.

// newConn returns a connection in CLOSED, which sends frames with these headers.
func (s *Stack) newConn(headers C.struct_lk_frame) *Conn {
	c := &Conn{stack: s, headers: headers, changed: sync.NewCond(&s.mu)}
	c.outgoing, c.incoming = make([]byte, s.config.Buffer), make([]byte, s.config.Buffer)
	size := s.config.MTU - 40
	if headers.src.addr.version == 6 {
		size -= 20
	}
	C.lk_connection_init(&c.fields, C.uint16_t(size), C.uint32_t(s.config.KeepAlive/time.Second), 1) // as net.TCPConn
	c.timer = time.AfterFunc(math.MaxInt64, c.locked(c.flush))
	return c
}

// locked returns a function that does the same with the lock.
func (c *Conn) locked(do func()) func() {
	return func() {
		c.stack.mu.Lock()
		defer c.stack.mu.Unlock()
		do()
	}
}

// What run does.
const (
	connect = C.CONNECT
	step    = C.STEP // takes the segment of the frame that the stack has parsed
	tick    = C.TICK
	abort   = C.ABORT
)

// run does something with the connection, and sends the frame that it writes, of this length.
func (c *Conn) run(event C.int, frame *C.uint8_t) C.ptrdiff_t {
	s, number := c.stack, C.uint32_t(0)
	if event == connect || c.state() == C.LK_LISTEN {
		number = random()
	}
	outgoing, outgoingLen := memory(c.outgoing)
	incoming, incomingLen := memory(c.incoming)
	out, room := memory(s.out)
	// Packets that may be fragmented have different identifications, also those of two connections (RFC 6864, section 4.3).
	mayBeCut := c.headers.src.addr.version == 4 && c.headers.ip.dont_fragment == 0
	if mayBeCut {
		c.headers.ip.ident = C.uint32_t(s.ident)
	}
	length := C.run(event, &c.fields, outgoing, outgoingLen, incoming, incomingLen, s.now(), number, frame, &s.frame,
		&s.options, &c.headers, out, room)
	if mayBeCut && length > 0 {
		s.ident++
	}
	s.send(length)
	return length
}

func (c *Conn) read(out []byte) int {
	incoming, incomingLen := memory(c.incoming)
	ptr, room := memory(out)
	return int(C.lk_connection_read(&c.fields, incoming, incomingLen, ptr, room))
}

func (c *Conn) ends() ends {
	return ends{endpointOf(&c.headers.src), endpointOf(&c.headers.dst)}
}

func (c *Conn) state() C.int {
	return C.lk_connection_state(&c.fields)
}

// flush sends what is to be sent at this time, wakes those that wait, and sets the timer.
func (c *Conn) flush() {
	for c.run(tick, nil) > 0 {
	}
	if c.isClosed && c.read(make([]byte, 1)) > 0 {
		c.run(abort, nil) // RFC 1122, section 4.2.2.13
	}
	c.stack.settle(c)
	c.changed.Broadcast()
	if due := C.lk_connection_next_timeout(&c.fields); due == math.MaxUint64 {
		c.timer.Stop()
	} else {
		c.timer.Reset(time.Duration(due)*time.Millisecond - time.Since(c.stack.start))
	}
}

// failure returns why a call must not wait, or nil.
func (c *Conn) failure(deadline time.Time) error {
	switch {
	case c.isClosed:
		return net.ErrClosed
	case c.stack.err != nil:
		return c.stack.err
	case c.state() == C.LK_CLOSED:
		return ErrReset
	case !deadline.IsZero() && !time.Now().Before(deadline):
		return os.ErrDeadlineExceeded
	}
	return nil
}

// Read reads what the peer wrote, and waits for it. After all of it the error is io.EOF.
func (c *Conn) Read(out []byte) (int, error) {
	c.stack.mu.Lock()
	defer c.stack.mu.Unlock()
	for !c.isClosed {
		if n := c.read(out); n > 0 || len(out) == 0 {
			c.flush() // the window
			return n, nil
		}
		if C.lk_connection_at_eof(&c.fields) != 0 {
			return 0, io.EOF
		}
		if err := c.failure(c.deadlines[0]); err != nil {
			return 0, err
		}
		c.changed.Wait()
	}
	return 0, net.ErrClosed
}

// Write writes for the peer, and waits until there is room for all of it. The bytes of two calls at once do not mix.
func (c *Conn) Write(data []byte) (int, error) {
	c.stack.mu.Lock()
	defer c.stack.mu.Unlock()
	outgoing, outgoingLen := memory(c.outgoing)
	isOurs := false
	defer func() {
		if isOurs {
			c.isWriting = false
			c.changed.Broadcast()
		}
	}()
	for n := 0; ; c.changed.Wait() {
		if err := c.failure(c.deadlines[1]); err != nil {
			return n, err
		}
		if c.isHalfClosed {
			return n, net.ErrClosed
		}
		if c.isWriting && !isOurs {
			continue
		}
		c.isWriting, isOurs = true, true
		ptr, length := memory(data[n:])
		n += int(C.lk_connection_write(&c.fields, outgoing, outgoingLen, ptr, length))
		c.flush()
		if n == len(data) {
			return n, nil
		}
	}
}

// CloseWrite tells the peer that nothing more is written. What it writes can be read as before.
func (c *Conn) CloseWrite() error {
	c.stack.mu.Lock()
	defer c.stack.mu.Unlock()
	c.isHalfClosed = true
	C.lk_connection_close(&c.fields)
	c.flush()
	return nil
}

// Close closes the connection, and does not wait until what was written has arrived. If there is something that was not
// read, or the peer writes more, the connection is reset.
func (c *Conn) Close() error {
	c.locked(func() {
		c.isClosed = true
		c.stopAlarms()
	})()
	return c.CloseWrite()
}

// Unacked returns how many bytes the peer has not acknowledged. A FIN counts as one.
func (c *Conn) Unacked() int {
	c.stack.mu.Lock()
	defer c.stack.mu.Unlock()
	return int(C.lk_connection_unacked(&c.fields))
}

// LocalAddr returns the own endpoint, a *net.TCPAddr.
func (c *Conn) LocalAddr() net.Addr {
	return net.TCPAddrFromAddrPort(endpointOf(&c.headers.src))
}

// RemoteAddr returns the endpoint of the peer, a *net.TCPAddr.
func (c *Conn) RemoteAddr() net.Addr {
	return net.TCPAddrFromAddrPort(endpointOf(&c.headers.dst))
}

// SetDeadline sets when Read and Write fail with os.ErrDeadlineExceeded. The zero time: never.
func (c *Conn) SetDeadline(t time.Time) error {
	return c.setDeadlines(t, 0, 1)
}

// SetReadDeadline sets that of Read.
func (c *Conn) SetReadDeadline(t time.Time) error {
	return c.setDeadlines(t, 0)
}

// SetWriteDeadline sets that of Write.
func (c *Conn) SetWriteDeadline(t time.Time) error {
	return c.setDeadlines(t, 1)
}

func (c *Conn) setDeadlines(t time.Time, places ...int) error {
	c.stack.mu.Lock()
	defer c.stack.mu.Unlock()
	for _, place := range places {
		c.deadlines[place] = t
		if c.alarms[place] != nil {
			c.alarms[place].Stop()
		}
		if t.IsZero() || c.isClosed || c.state() == C.LK_CLOSED {
			continue // nothing waits for it
		}
		if c.alarms[place] == nil {
			c.alarms[place] = time.AfterFunc(time.Until(t), c.locked(c.changed.Broadcast))
		} else {
			c.alarms[place].Reset(time.Until(t))
		}
	}
	c.changed.Broadcast()
	return nil
}

// stopAlarms ends the timers of the deadlines of a connection on which nothing waits any more.
func (c *Conn) stopAlarms() {
	for _, alarm := range c.alarms {
		if alarm != nil {
			alarm.Stop()
		}
	}
}
