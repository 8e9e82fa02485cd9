package ipwire

import (
	"bytes"
	"context"
	"errors"
	flags "flag"
	"fmt"
	"io"
	"math/rand"
	"net"
	"net/netip"
	"sync"
	"sync/atomic"
	"testing"
	"time"

	"gvisor.dev/gvisor/pkg/bufferv2"
	"gvisor.dev/gvisor/pkg/tcpip"
	"gvisor.dev/gvisor/pkg/tcpip/adapters/gonet"
	"gvisor.dev/gvisor/pkg/tcpip/link/channel"
	"gvisor.dev/gvisor/pkg/tcpip/network/ipv4"
	"gvisor.dev/gvisor/pkg/tcpip/network/ipv6"
	"gvisor.dev/gvisor/pkg/tcpip/stack"
	"gvisor.dev/gvisor/pkg/tcpip/transport/tcp"
)

var seed = flags.Int64("seed", 1, "of losses, texts and applications")

// gvisor returns a host of gVisor, and its device, whose packets have no Ethernet header.
func gvisor(mtu uint32, config StackConfig) (*stack.Stack, *channel.Endpoint) {
	s := stack.New(stack.Options{
		NetworkProtocols:   []stack.NetworkProtocolFactory{ipv4.NewProtocol, ipv6.NewProtocol},
		TransportProtocols: []stack.TransportProtocolFactory{tcp.NewProtocol},
	})
	hasSACK := tcpip.TCPSACKEnabled(true)
	buffer := tcpip.TCPReceiveBufferSizeRangeOption{Min: 4096, Default: 100_000, Max: 1 << 22}
	// Without RACK, which in this version does not send a FIN again that was lost twice.
	recovery, longest := tcpip.TCPRecovery(0), tcpip.TCPMaxRTOOption(time.Second)
	retries := tcpip.TCPMaxRetriesOption(200)
	for _, option := range []tcpip.SettableTransportProtocolOption{&hasSACK, &buffer, &recovery, &longest, &retries} {
		s.SetTransportProtocolOption(tcp.ProtocolNumber, option)
	}
	var routes []tcpip.Route
	device := channel.New(10_000, mtu, "")
	if err := s.CreateNIC(1, device); err != nil {
		panic(err)
	}
	for _, addr := range []netip.Addr{config.IPv4, config.IPv6} {
		octets := tcpip.Address(addr.AsSlice())
		own := tcpip.ProtocolAddress{Protocol: protocolOf(addr), AddressWithPrefix: octets.WithPrefix()}
		zeros := string(make([]byte, len(octets)))
		all, err := tcpip.NewSubnet(tcpip.Address(zeros), tcpip.AddressMask(zeros))
		if failure := s.AddProtocolAddress(1, own, stack.AddressProperties{}); failure != nil || err != nil {
			panic(err)
		}
		routes = append(routes, tcpip.Route{Destination: all, NIC: 1})
	}
	s.SetRouteTable(routes)
	return s, device
}

func protocolOf(addr netip.Addr) tcpip.NetworkProtocolNumber {
	if addr.Is4() {
		return ipv4.ProtocolNumber
	}
	return ipv6.ProtocolNumber
}

func fullAddress(endpoint netip.AddrPort) tcpip.FullAddress {
	return tcpip.FullAddress{NIC: 1, Addr: tcpip.Address(endpoint.Addr().AsSlice()), Port: endpoint.Port()}
}

// forward gives the packets that gVisor sends to a function.
func forward(ctx context.Context, device *channel.Endpoint, take func(tcpip.NetworkProtocolNumber, []byte)) {
	for packet := device.ReadContext(ctx); !packet.IsNil(); packet = device.ReadContext(ctx) {
		take(packet.NetworkProtocolNumber, packet.ToView().AsSlice())
		packet.DecRef()
	}
}

// inject gives a packet to gVisor.
func inject(device *channel.Endpoint, protocol tcpip.NetworkProtocolNumber, packet []byte) {
	buffer := stack.NewPacketBuffer(stack.PacketBufferOptions{Payload: bufferv2.MakeWithData(packet)})
	device.InjectInbound(protocol, buffer)
	buffer.DecRef()
}

// network lies between a Stack, whose device it is, and gVisor. It loses, repeats and reorders frames.
type network struct {
	loss    float64
	isPlain bool // it removes all options of SYNs but the first one, the MSS
	mtu     int  // for the Stack
	own     *Stack
	peer    *stack.Stack
	toOwn   chan []byte
	toPeer  chan []byte
	ended   context.Context
	mu      sync.Mutex // of what follows
	rng     *rand.Rand
	seen    map[string]int
}

func (n *network) Write(frame []byte) (int, error) {
	if len(frame) > 14+n.mtu {
		n.carry("ICMP", tooBig(frame), n.toOwn)
	} else {
		n.carry("own", append([]byte(nil), frame...), n.toPeer)
	}
	return len(frame), nil
}

func (n *network) Read(frame []byte) (int, error) {
	select {
	case received := <-n.toOwn:
		return copy(frame, received), nil
	case <-n.ended.Done():
		return 0, io.EOF
	}
}

// carry sends a frame on: never, once or twice, and sometimes later.
func (n *network) carry(from string, frame []byte, to chan<- []byte) {
	n.mu.Lock()
	defer n.mu.Unlock()
	n.count(from, frame)
	for chance := n.loss; n.rng.Float64() >= chance; chance = 0.98 {
		send := func() {
			select {
			case to <- frame:
			default:
			}
		}
		if n.rng.Float64() < 0.02 {
			time.AfterFunc(time.Duration(n.rng.Intn(10_000))*time.Microsecond, send)
		} else {
			send()
		}
	}
}

// count counts what a frame has.
func (n *network) count(from string, data []byte) {
	frame, options := ReadFrameOptions(data)
	isSYN := frame.TCP.Flags&SYN != 0
	if isSYN && n.isPlain {
		for at := 24; at < len(frame.TCPHeader); at++ {
			SetBytes(data, frame.TransportOffset+at, []byte{1})
		}
		frame, options = ReadFrameOptions(data)
	}
	n.seen[from]++
	for name, is := range map[string]func() bool{
		" scale": func() bool { return isSYN && options.WindowScale != nil && *options.WindowScale > 0 },
		" stamp": func() bool { return !isSYN && options.Timestamp != nil },
		" SACK":  func() bool { return options.SackRanges != nil },
	} {
		if options != nil && is() {
			n.seen[from+name]++
		}
	}
}

// link returns a Stack and a host of gVisor with this between them, and a function that ends it.
func link(n *network) func() {
	ctx, end := context.WithCancel(context.Background())
	n.ended, n.toOwn, n.toPeer, n.seen = ctx, make(chan []byte, 10_000), make(chan []byte, 10_000), map[string]int{}
	config := client
	config.Buffer = 100_000
	n.own = NewStack(n, config)
	peer, device := gvisor(1500, server)
	n.peer = peer
	go n.own.Serve()
	go forward(ctx, device, func(protocol tcpip.NetworkProtocolNumber, packet []byte) {
		header := append(append(client.Hardware[:], server.Hardware[:]...), byte(protocol>>8), byte(protocol))
		n.carry("gVisor", append(header, packet...), n.toOwn)
	})
	go func() {
		for {
			select {
			case frame := <-n.toPeer:
				inject(device, tcpip.NetworkProtocolNumber(frame[12])<<8|tcpip.NetworkProtocolNumber(frame[13]), frame[14:])
			case <-ctx.Done():
				return
			}
		}
	}()
	go func() { // The clock of the Stack is five times as fast, since its time-outs double up to a minute.
		for ctx.Err() == nil {
			time.Sleep(50 * time.Millisecond)
			n.pass(200 * time.Millisecond)
		}
	}()
	return end
}

// openers returns how either end of a connection is opened, and its listener. Even numbers are for IPv4. gVisor
// connects in two of four.
func (n *network) openers(number int) (own, peer func() (net.Conn, error), listener net.Listener, err error) {
	ownAddr, peerAddr := client.IPv4, server.IPv4
	if number%2 != 0 {
		ownAddr, peerAddr = client.IPv6, server.IPv6
	}
	port := uint16(2000 + number)
	ownEnd, peerEnd := netip.AddrPortFrom(ownAddr, port), netip.AddrPortFrom(peerAddr, port)
	if number%4 < 2 {
		listener, err = n.own.Listen(port)
		peer := func() (net.Conn, error) { return gonet.DialTCP(n.peer, fullAddress(ownEnd), protocolOf(ownAddr)) }
		return listener.Accept, peer, listener, err
	}
	own = func() (net.Conn, error) { return n.own.Dial(to(ownEnd.String(), peerEnd.String())) }
	listener, err = gonet.ListenTCP(n.peer, fullAddress(peerEnd), protocolOf(peerAddr))
	return own, listener.Accept, listener, err
}

// expected is a text that is still to come.
type expected []byte

func (e *expected) Write(came []byte) (int, error) {
	if !bytes.HasPrefix(*e, came) {
		return 0, errors.New("other bytes came")
	}
	*e = (*e)[len(came):]
	return len(came), nil
}

// application writes a text in pieces, reads another one after a pause, and closes before or after the peer.
type application struct {
	text, wanted []byte
	piece        int
	pause        time.Duration
	closesLast   bool
}

func (a *application) run(conn net.Conn) error {
	read := make(chan error, 1)
	go func() {
		time.Sleep(a.pause)
		rest := expected(a.wanted)
		_, err := io.Copy(&rest, conn)
		if err == nil && len(rest) > 0 {
			err = fmt.Errorf("the last %d bytes did not come", len(rest))
		}
		read <- err
	}()
	for at := 0; at < len(a.text); at += a.piece {
		if _, err := conn.Write(a.text[at:min(at+a.piece, len(a.text))]); err != nil {
			return err
		}
	}
	closeWrite := conn.(interface{ CloseWrite() error }).CloseWrite
	closing := []func() error{closeWrite, func() error { return <-read }, conn.Close}
	if a.closesLast {
		closing[0], closing[1] = closing[1], closing[0]
	}
	for _, step := range closing {
		if err := step(); err != nil {
			return err
		}
	}
	return nil
}

func min(a, b int) int {
	if a < b {
		return a
	}
	return b
}

// talk opens connection number, and both applications write a text of this length.
func (n *network) talk(number, length int, rng *rand.Rand, latest time.Time) error {
	own, peer, listener, err := n.openers(number)
	if err != nil {
		return err
	}
	defer listener.Close()
	texts := [2][]byte{make([]byte, length), make([]byte, length)}
	last, failures := rng.Intn(3), make(chan error)
	for i := range texts {
		rng.Read(texts[i])
	}
	for i, open := range []func() (net.Conn, error){own, peer} {
		pause := time.Duration(rng.Intn(4)/3) * time.Second
		app := application{texts[i], texts[1-i], []int{700, 5000, length}[rng.Intn(3)], pause, last == i}
		open := open
		go func() {
			conn, err := open()
			if err == nil {
				conn.SetDeadline(latest)
				err = app.run(conn)
			}
			failures <- err
		}()
	}
	for range texts {
		if failure := <-failures; failure != nil {
			err = failure
		}
	}
	return err
}

// unclosed returns what is open at either end, but not in TIME-WAIT. If both ends close at once, and gVisor sends its
// FIN again, it goes back from CLOSING to FIN-WAIT-1, and waits in FIN-WAIT-2, or in CLOSING though our end is done.
func (n *network) unclosed() (found []string) {
	for _, it := range n.peer.RegisteredEndpoints() {
		endpoint := it.(tcpip.Endpoint)
		state := tcp.EndpointState(endpoint.State())
		if state != tcp.StateTimeWait && state != tcp.StateFinWait2 && state != tcp.StateClosing {
			found = append(found, fmt.Sprint("gVisor ", state, endpoint.Info()))
		}
	}
	n.own.mu.Lock()
	defer n.own.mu.Unlock()
	for between, c := range n.own.conns {
		if c.state() != 10 { // LK_TIME_WAIT: a test cannot use cgo
			found = append(found, fmt.Sprint(between, c.state()))
		}
	}
	return found
}

// pass lets time pass for the Stack, and returns how many connections it has then.
func (n *network) pass(time time.Duration) int {
	n.own.mu.Lock()
	defer n.own.mu.Unlock()
	n.own.start = n.own.start.Add(-time)
	for _, c := range n.own.conns {
		c.flush()
	}
	return len(n.own.conns)
}

// check tells what went through the network that must not, or did not although it must.
func (n *network) check(t *testing.T) {
	n.mu.Lock()
	defer n.mu.Unlock()
	for name, must := range map[string]bool{
		"ICMP": n.mtu < 1500, "own scale": !n.isPlain, "own stamp": !n.isPlain, "own SACK": !n.isPlain,
		"gVisor scale": !n.isPlain, "gVisor stamp": !n.isPlain, "gVisor SACK": !n.isPlain,
	} {
		if n.seen[name] > 0 != must {
			t.Errorf("%s: %d", name, n.seen[name])
		}
	}
	t.Log(n.loss, n.isPlain, n.mtu, n.seen)
}

// run opens all connections of a network at once, and waits until they are closed.
func (n *network) run(t *testing.T, source int64, length int) {
	end, _ := t.Deadline()
	latest := end.Add(-10 * time.Second)
	defer link(n)()
	var all sync.WaitGroup
	for number := 0; number < 40; number++ {
		number, rng := number, rand.New(rand.NewSource(source<<8+int64(number)))
		all.Add(1)
		go func() {
			defer all.Done()
			if err := n.talk(number, length, rng, latest); err != nil {
				t.Error(number, err)
			}
		}()
	}
	all.Wait()
	for found := n.unclosed(); len(found) > 0; found = n.unclosed() {
		if time.Until(latest) < 0 {
			t.Fatal(found)
		}
		time.Sleep(10 * time.Millisecond)
	}
	if count := n.pass(61 * time.Second); count > 0 {
		t.Error(count, "connections stay in TIME-WAIT")
	}
	n.check(t)
}

func TestGvisor(t *testing.T) {
	for i, it := range []struct {
		loss   float64
		length int
	}{{0.01, 200_000}, {0.03, 100_000}, {0.1, 15_000}} {
		for kind := 0; kind < 4; kind++ {
			source, length := *seed*100+int64(i*4+kind), it.length
			n := &network{loss: it.loss, isPlain: kind%2 != 0, mtu: 1500 - kind/2*220, rng: rand.New(rand.NewSource(source))}
			t.Run(fmt.Sprintf("%v/%v/%d", n.loss, n.isPlain, n.mtu), func(t *testing.T) {
				t.Parallel()
				n.run(t, source, length)
			})
		}
	}
}

// gvisors returns a connection of gVisor with itself, without loss, and how many packets went so far.
func gvisors(b *testing.B) (conns [2]net.Conn, count func() int64) {
	ctx, end := context.WithCancel(context.Background())
	b.Cleanup(end)
	var packets atomic.Int64
	peer, device := gvisor(1512, server) // so that a segment with timestamps has 1,460 bytes
	own, ownDevice := gvisor(1512, client)
	for _, way := range [][2]*channel.Endpoint{{device, ownDevice}, {ownDevice, device}} {
		to := way[1]
		go forward(ctx, way[0], func(protocol tcpip.NetworkProtocolNumber, packet []byte) {
			packets.Add(1)
			inject(to, protocol, packet)
		})
	}
	address := fullAddress(netip.AddrPortFrom(server.IPv4, 80))
	listener, err := gonet.ListenTCP(peer, address, ipv4.ProtocolNumber)
	if err == nil {
		conns[0], err = gonet.DialTCP(own, address, ipv4.ProtocolNumber)
	}
	if err == nil {
		conns[1], err = listener.Accept()
	}
	if err != nil {
		b.Fatal(err)
	}
	return conns, packets.Load
}

// BenchmarkGvisor times gVisor by itself: segments of 1,460 bytes one way, and an echo of 100 bytes.
func BenchmarkGvisor(b *testing.B) {
	for name, length := range map[string]int{"OneWay": 1460, "Echo": 100} {
		b.Run(name, func(b *testing.B) {
			conns, count := gvisors(b)
			data, ended, isEcho := make([]byte, length), make(chan error), length == 100
			go func() {
				var err error
				for i, data := 0, make([]byte, length); i < b.N && err == nil; i++ {
					if _, err = io.ReadFull(conns[1], data); err == nil && isEcho {
						_, err = conns[1].Write(data)
					}
				}
				ended <- err
			}()
			begun := time.Now()
			for i := 0; i < b.N; i++ {
				conns[0].Write(data)
				if isEcho {
					io.ReadFull(conns[0], data)
				}
			}
			if err := <-ended; err != nil {
				b.Fatal(err)
			}
			b.ReportMetric(float64(count())/time.Since(begun).Seconds(), "frames/s")
			b.ReportMetric(float64(count()), "frames")
		})
	}
}
