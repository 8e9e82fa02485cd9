package ipwire

import (
	"bytes"
	"net/netip"
	"reflect"
	"testing"
	"time"
)

// both returns headers over IPv4 and over IPv6, from a client to a server.
func both() []Headers {
	found := []Headers{*to("192.0.2.1:4000", "192.0.2.2:80"), *to("[2001:db8::1]:4000", "[2001:db8::2]:80")}
	for place := range found {
		found[place].TCP = TCP{SeqNumber: 7, AckNumber: 8, WindowLen: 9, Flags: 0x12}
		found[place].ICMP = ICMP{Type: []uint8{8, 128}[place], Word: 0x10002}
	}
	return found
}

// joined joins the results of calls.
func joined(t *testing.T, calls ...func(out []byte) ([]byte, error)) []byte {
	t.Helper()
	var all []byte
	for _, call := range calls {
		part, err := call(make([]byte, 200))
		if err != nil {
			t.Fatal(err)
		}
		all = append(all, part...)
	}
	return all
}

// The layers one by one are the whole frame, and so are headers around a payload.
func TestLayers(t *testing.T) {
	payload, size := []byte("ping"), uint16(1460)
	options := &TCPOptions{MSS: &size, SackPermitted: true}
	for place, h := range both() {
		h.Ethernet.Type = []uint16{0x0800, 0x86dd}[place]
		start := []int{34, 54}[place]
		for _, it := range []struct {
			protocol     uint8
			whole, layer func(out []byte) ([]byte, error)
			wrap         func(out []byte) ([]byte, error)
		}{
			{17, func(out []byte) ([]byte, error) { return h.EmitUDP(payload, out) },
				func(out []byte) ([]byte, error) { return h.EmitUDPPacket(payload, true, out) },
				func(out []byte) ([]byte, error) { copy(out[start+8:], payload); return h.WrapUDP(4, out) }},
			{6, func(out []byte) ([]byte, error) { return h.EmitTCP(options, payload, out) },
				func(out []byte) ([]byte, error) { return h.EmitTCPSegment(options, payload, true, out) },
				func(out []byte) ([]byte, error) { copy(out[start+28:], payload); return h.WrapTCP(options, 4, out) }},
			{[]uint8{1, 58}[place], func(out []byte) ([]byte, error) { return h.EmitICMP(payload, out) },
				func(out []byte) ([]byte, error) { return h.EmitICMPMessage(payload, true, out) }, nil},
		} {
			h.IP.Protocol = it.protocol
			whole, layer := joined(t, it.whole), joined(t, it.layer)
			header := func(out []byte) ([]byte, error) { return h.EmitIPHeader(len(layer), true, out) }
			if found := append(joined(t, h.EmitEthernetHeader, header), layer...); !bytes.Equal(found, whole) {
				t.Errorf("%d: %x %x", it.protocol, found, whole)
			}
			if it.wrap != nil && !bytes.Equal(joined(t, it.wrap), whole) {
				t.Errorf("%d: %x", it.protocol, joined(t, it.wrap))
			}
		}
		if packet, err := h.EmitUDPPacket(payload, false, make([]byte, 12)); err != nil || packet[6] != 0 || packet[7] != 0 {
			t.Errorf("%x %v", packet, err)
		}
		if _, err := h.WrapTCP(&TCPOptions{SackRanges: make([]SackRange, 5)}, 0, make([]byte, 99)); err != OptionsTooLong {
			t.Error(err)
		}
		udp, inIP := joined(t, func(out []byte) ([]byte, error) { return h.EmitUDP(payload, out) }), make([]byte, 200)
		for name, emit := range map[string]func([]byte) ([]byte, error){
			"emitted": func(out []byte) ([]byte, error) { return h.EmitUDPInIP(payload, out) },
			"wrapped": func(out []byte) ([]byte, error) { return h.WrapUDPInIP(4, out) },
		} {
			copy(inIP[start-14+8:], payload)
			if packet, err := emit(inIP); err != nil || !bytes.Equal(packet, udp[14:]) {
				t.Errorf("%s: %x, %v", name, packet, err)
			}
		}
		tcp := joined(t, func(out []byte) ([]byte, error) { return h.EmitTCP(options, payload, out) })
		for name, emit := range map[string]func([]byte) ([]byte, error){
			"emitted": func(out []byte) ([]byte, error) { return h.EmitTCPInIP(options, payload, out) },
			"wrapped": func(out []byte) ([]byte, error) { return h.WrapTCPInIP(options, 4, out) },
		} {
			copy(inIP[start-14+28:], payload)
			if packet, err := emit(inIP); err != nil || !bytes.Equal(packet, tcp[14:]) {
				t.Errorf("%s: %x, %v", name, packet, err)
			}
		}
		echo := joined(t, func(out []byte) ([]byte, error) { return h.EmitICMP(payload, out) })
		if packet, err := h.EmitICMPInIP(payload, inIP); err != nil || !bytes.Equal(packet, echo[14:]) {
			t.Errorf("%x, %v", packet, err)
		}
		if _, err := h.WrapUDP(-1, make([]byte, 99)); err != PayloadTooLong {
			t.Error(err)
		}
	}
	arp := both()[0]
	arp.Ethernet.Type, arp.ARP.Operation = 0x0806, 1
	if !bytes.Equal(joined(t, arp.EmitEthernetHeader, arp.EmitARPPacket), joined(t, arp.EmitARP)) {
		t.Error("ARP")
	}
}

func TestNdisc(t *testing.T) {
	own, target := client.Hardware, server.IPv6
	group := Ethernet{Src: own, Dst: HardwareAddr{0x33, 0x33, 0xff, 0, 0, 2}}
	asked := Ndisc{Target: target, Hardware: &own}
	ask, err := asked.Emit(group, client.IPv6, netip.MustParseAddr("ff02::1:ff00:2"), make([]byte, 86))
	if found, ok := ReadNdisc(ask); err != nil || !ok || !reflect.DeepEqual(found, asked) {
		t.Error(found, ok, err)
	}
	host := Host{Hardware: server.Hardware, IPv6: target, IsRouter: true}
	answer, err := host.Answer(ask, make([]byte, 200))
	advert := Ndisc{Target: target, Hardware: &server.Hardware, IsAdvert: true, IsRouter: true, IsSolicited: true, Overrides: true}
	if found, ok := ReadNdisc(answer); err != nil || !ok || !reflect.DeepEqual(found, advert) {
		t.Error(found, ok, err)
	}
	if _, ok := ReadNdisc(nil); ok {
		t.Error("no frame has a message")
	}
	asked.Target = client.IPv4
	if _, err := asked.Emit(group, client.IPv6, target, make([]byte, 86)); err != NoVersion {
		t.Error(err)
	}
}

func TestHost(t *testing.T) {
	host := Host{Hardware: server.Hardware, IPv4: server.IPv4, IPv6: server.IPv6, OpenPorts: []uint16{22, 80},
		OpenUDPPorts: []uint16{53}, EchoPort: 7, SeqNumber: 5, MSS: 1460, WindowLen: 100}
	own := Interface{Hardware: server.Hardware, IPv4: server.IPv4, IPv6: server.IPv6}
	for place, h := range both() {
		answer := func(port uint16, emit func(out []byte) ([]byte, error)) Frame {
			h.Dst = netip.AddrPortFrom(h.Dst.Addr(), port)
			found, err := host.Answer(joined(t, emit), make([]byte, 300))
			if err != nil {
				t.Fatal(err)
			}
			return ReadFrame(found)
		}
		udp := func(out []byte) ([]byte, error) { return h.EmitUDP([]byte("ping"), out) }
		tcp := func(out []byte) ([]byte, error) { h.TCP.Flags = 2; return h.EmitTCP(nil, nil, out) }
		if found := answer(7, udp); string(found.Payload) != "ping" || found.Src.Port() != 7 {
			t.Error(found)
		}
		if found := answer(53, udp); found.Network != 0 {
			t.Error(found)
		}
		if found := answer(9, udp); found.Transport != TransportICMP || found.ICMP.Type != []uint8{3, 1}[place] {
			t.Error(found)
		}
		if found := answer(80, tcp); found.TCP.Flags != 0x12 || found.TCP.SeqNumber != 5 || found.TCP.AckNumber != 8 {
			t.Error(found)
		}
		if found := answer(81, tcp); found.TCP.Flags != 0x14 {
			t.Error(found)
		}
		told, err := own.EmitError(NoRouteToDestination, 0, joined(t, udp), make([]byte, 1294))
		frame := ReadFrame(told)
		if quoted, ok := frame.ReadQuoted(); err != nil || !ok || quoted.Dst != h.Dst || frame.ICMP.Type != []uint8{3, 1}[place] {
			t.Error(frame, err)
		}
		if told, err := own.EmitError(PacketTooBig, 1500, joined(t, udp), make([]byte, 1294)); len(told) != 0 || err != nil {
			t.Error(told, err)
		}
	}
}

func TestNAT(t *testing.T) {
	nat, err := NewNAT(NATConfig{Outside: netip.MustParseAddr("203.0.113.9"), FirstPort: 5000, Ports: 1, UDPTimeout: time.Second})
	if err != nil {
		t.Fatal(err)
	}
	udp := func(src, dst string) []byte {
		h := Headers{Src: netip.MustParseAddrPort(src), Dst: netip.MustParseAddrPort(dst), IP: IP{HopLimit: 64}}
		return joined(t, func(out []byte) ([]byte, error) { return h.EmitUDP([]byte("data"), out) })
	}
	inside, outside, remote := "10.0.0.2:4000", "203.0.113.9:5000", "198.51.100.7:53"
	for _, it := range []struct {
		call     func(time.Duration, []byte) error
		src, dst string
		at       time.Duration
		err      error
		from, to string
	}{
		{nat.TranslateIn, remote, outside, 0, NoMapping, remote, outside},
		{nat.TranslateOut, inside, remote, 0, nil, outside, remote},
		{nat.TranslateIn, remote, outside, 999 * time.Millisecond, nil, remote, inside},
		{nat.TranslateOut, "10.0.0.3:4000", remote, 999 * time.Millisecond, NoFreePort, "10.0.0.3:4000", remote},
		{nat.TranslateIn, remote, outside, time.Second, NoMapping, remote, outside},
		{nat.TranslateOut, "10.0.0.3:4000", remote, time.Second, nil, outside, remote},
	} {
		nat.ShrinkReach(it.at)
		frame := udp(it.src, it.dst)
		if err := it.call(it.at, frame); err != it.err || !bytes.Equal(frame, udp(it.from, it.to)) {
			t.Error(it, err, ReadFrame(frame).String())
		}
	}
	frame := udp(inside, remote)
	if err := Translate(frame, Destination, netip.MustParseAddrPort(outside)); err != nil || !bytes.Equal(frame, udp(inside, outside)) {
		t.Error(err)
	}
	if err := Translate(frame, Source, netip.MustParseAddrPort("[::1]:1")); err != NoIPv4 {
		t.Error(err)
	}
	if _, err := NewNAT(NATConfig{Outside: server.IPv6}); err != NoVersion {
		t.Error(err)
	}
	if other, err := NewNAT(NATConfig{Outside: server.IPv4}); err != nil || len(other.mappings) != 3*64512 || other.nat.key == nat.nat.key {
		t.Error(err)
	}
}

// RFC 9293, sections 3.2 and 3.4, and the version of the header.
func TestSmallCalls(t *testing.T) {
	header := unhex(t, "00500051000000010000000080100000000000000101020405b40000")
	header = append(header, 0, 0, 0, 0)
	options, err := RawTCPOptions(header)
	if expected := []RawOption{{20, 1, 1}, {21, 1, 1}, {22, 2, 4}, {26, 0, 1}}; err != nil || !reflect.DeepEqual(options, expected) {
		t.Error(options, err)
	}
	header[23] = 99
	if options, err := RawTCPOptions(header); err != BadOptions || len(options) != 2 {
		t.Error(options, err)
	}
	if TCPFlagName(2) != "SYN" || TCPFlagName(3) != "unknown" {
		t.Error(TCPFlagName(2), TCPFlagName(3))
	}
	if AddSeq(1<<32-1, 2) != 1 || SubtractSeq(1, 1<<32-1) != 2 || CompareSeq(1<<32-1, 1) != -1 || CompareSeq(7, 7) != 0 {
		t.Error("sequence numbers")
	}
	if major, minor, patch := Version(); major != 0 || minor < 4 || patch < 0 {
		t.Error(major, minor, patch)
	}
	a, b, end := stacks(0)
	defer end()
	conn, _, _ := pair(t, a, b, "192.0.2.1:4000")
	if conn.Unacked() != 0 {
		t.Error(conn.Unacked())
	}
}
