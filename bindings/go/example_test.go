package ipwire_test

import (
	"fmt"
	"io"
	"log"
	"net/netip"
	"time"

	"lerkvist.example/ipwire"
)

// written returns a frame with a UDP packet.
func written(payload []byte) []byte {
	headers := ipwire.Headers{
		Ethernet: ipwire.Ethernet{Src: ipwire.HardwareAddr{2, 0, 0, 0, 0, 1}, Dst: ipwire.HardwareAddr{2, 0, 0, 0, 0, 2}},
		Src:      netip.MustParseAddrPort("192.0.2.1:4000"),
		Dst:      netip.MustParseAddrPort("198.51.100.7:53"),
		IP:       ipwire.IP{HopLimit: 64},
	}
	frame, err := headers.EmitUDP(payload, make([]byte, 65549))
	if err != nil {
		log.Fatal(err)
	}
	return frame
}

// A receiver trusts a frame only after Check. The reply has the addresses and ports exchanged.
func Example() {
	frame := ipwire.ReadFrame(written([]byte("ping")))
	if err := frame.Check(); err != nil {
		log.Fatal(err)
	}
	headers := frame.Reply()
	reply, err := headers.EmitUDP([]byte("pong"), make([]byte, 1514))
	if err != nil {
		log.Fatal(err)
	}
	fmt.Println(ipwire.ReadFrame(reply))
	// Output: IPv4 198.51.100.7:53 > 192.0.2.1:4000 UDP len=4
}

// In a loop over frames nothing is allocated.
func ExampleReadFrameInto() {
	var frame ipwire.Frame
	for _, data := range [][]byte{written([]byte("ping")), {1, 2, 3}} {
		if err := ipwire.ReadFrameInto(&frame, data); err != nil {
			fmt.Println(err)
			continue
		}
		fmt.Printf("%s to port %d\n", frame.Payload, frame.Dst.Port())
	}
	// Output:
	// ping to port 53
	// ipwire: LK_TOO_SHORT
}

// The sender of a packet learns which one did not arrive.
func ExampleFrame_ReadQuoted() {
	sent := written([]byte("ping"))
	headers := ipwire.Headers{
		Src:  netip.MustParseAddrPort("203.0.113.1:0"),
		Dst:  netip.MustParseAddrPort("192.0.2.1:0"),
		IP:   ipwire.IP{HopLimit: 64},
		ICMP: ipwire.ICMP{Type: 11}, // time exceeded
	}
	data, err := headers.EmitICMP(sent[14:14+28], make([]byte, 1514)) // the IPv4 header and 8 bytes
	if err != nil {
		log.Fatal(err)
	}
	frame := ipwire.ReadFrame(data)
	if quoted, ok := frame.ReadQuoted(); ok {
		fmt.Println("expired:", quoted.Src, "to", quoted.Dst)
	}
	// Output: expired: 192.0.2.1:4000 to 198.51.100.7:53
}

// The checksums stay valid.
func ExampleSetAddr() {
	data := written([]byte("ping"))
	if !ipwire.SetAddr(data, ipwire.Source, netip.MustParseAddr("203.0.113.9")) || !ipwire.SetPort(data, ipwire.Source, 5353) {
		log.Fatal("the packet has no such field")
	}
	frame := ipwire.ReadFrame(data)
	fmt.Println(frame, frame.Check())
	// Output: IPv4 203.0.113.9:5353 > 198.51.100.7:53 UDP len=4 <nil>
}

// The length of the packet says where it ends, so that it is not replaced.
func ExampleSetBytes() {
	data := written([]byte("ping"))
	frame := ipwire.ReadFrame(data)
	fmt.Println(ipwire.SetBytes(data, frame.PayloadOffset, []byte("pong")), ipwire.SetBytes(data, 16, []byte{0, 0}))
	// Output: true false
}

// A router checks the source, chooses a route and forwards the packet to its next hop.
func ExampleForward() {
	routes, err := ipwire.NewRoutes([]ipwire.Route{
		{Prefix: netip.MustParsePrefix("192.0.2.0/24"), Interface: 1},
		{Prefix: netip.MustParsePrefix("0.0.0.0/0"), NextHop: netip.MustParseAddr("203.0.113.1"), Interface: 2},
	})
	if err != nil {
		log.Fatal(err)
	}
	data := written([]byte("ping"))
	frame := ipwire.ReadFrame(data)
	if err := routes.CheckSource(frame.Src.Addr(), 1); err != nil {
		log.Fatal(err)
	}
	fmt.Println("route", routes.Choose(frame.Dst.Addr()))
	own, next := ipwire.HardwareAddr{2, 0, 0, 0, 0, 3}, ipwire.HardwareAddr{2, 0, 0, 0, 0, 4}
	if err := ipwire.Forward(data, own, next); err != nil {
		log.Fatal(err)
	}
	frame = ipwire.ReadFrame(data)
	fmt.Println("hop limit", frame.IP.HopLimit)
	// Output:
	// route 1
	// hop limit 63
}

// A packet is cut for a link with an MTU of 1,500, and put together again.
func ExampleReassembler() {
	reassembler := ipwire.NewReassembler(16, 65535)
	data, start, out := written(make([]byte, 3000)), time.Now(), make([]byte, ipwire.MaxFrame)
	for number := 0; ; number++ {
		fragment, err := ipwire.Fragment(data, 1500, 1, number, make([]byte, 1514))
		if err != nil || len(fragment) == 0 {
			break
		}
		whole, err := reassembler.Reassemble(time.Since(start), fragment, out)
		fmt.Println(len(fragment), len(whole), err)
	}
	// Output:
	// 1514 0 <nil>
	// 1514 0 <nil>
	// 82 3042 <nil>
}

// wire is one end of a device in memory. A file of /dev/net/tun is an io.ReadWriter of frames too.
type wire struct{ in, out chan []byte }

func (w wire) Read(frame []byte) (int, error) { return copy(frame, <-w.in), nil }
func (w wire) Write(frame []byte) (int, error) {
	w.out <- append([]byte{}, frame...)
	return len(frame), nil
}

// One host echoes what another one writes.
func ExampleStack() {
	there, back := make(chan []byte, 100), make(chan []byte, 100)
	server := ipwire.NewStack(wire{there, back}, ipwire.StackConfig{IPv4: netip.MustParseAddr("192.0.2.2")})
	client := ipwire.NewStack(wire{back, there}, ipwire.StackConfig{IPv4: netip.MustParseAddr("192.0.2.1")})
	go server.Serve()
	go client.Serve()
	listener, err := server.Listen(7)
	if err != nil {
		log.Fatal(err)
	}
	go func() {
		if conn, err := listener.Accept(); err == nil {
			io.Copy(conn, conn)
			conn.Close()
		}
	}()
	conn, err := client.Dial(&ipwire.Headers{
		Src: netip.MustParseAddrPort("192.0.2.1:4000"),
		Dst: netip.MustParseAddrPort("192.0.2.2:7"),
		IP:  ipwire.IP{HopLimit: 64, DontFragment: true},
	})
	if err != nil {
		log.Fatal(err)
	}
	fmt.Fprint(conn, "ping")
	conn.CloseWrite()
	reply, err := io.ReadAll(conn)
	fmt.Println(string(reply), err)
	// Output: ping <nil>
}

// A packet of a capture of the loopback device of BSD: the address family of IPv4 comes before it.
func ExampleReadLinkType() {
	captured := append([]byte{2, 0, 0, 0}, written([]byte("ping"))[14:]...)
	fmt.Println(ipwire.ReadLinkType(0, captured, len(captured)))
	// Output: IPv4 192.0.2.1:4000 > 198.51.100.7:53 UDP len=4
}
