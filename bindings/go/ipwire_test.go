package ipwire

import (
	"bytes"
	"encoding/hex"
	"errors"
	"fmt"
	"math"
	"net/netip"
	"reflect"
	"testing"
)

// Frames from Linux hosts, with the names of what is in them.
const (
	ethernet = "020000000002" + "020000000001" + "0800"
	header   = "45000020000040004011b6c9" + "c0000201" + "c0000202" // UDP in IPv4, 32 bytes
	ports    = "b5e314e9000c"
)

func unhex(t *testing.T, text string) []byte {
	t.Helper()
	data, err := hex.DecodeString(text)
	if err != nil {
		t.Fatal(err)
	}
	return data
}

// The texts are those of net/netip, and of RFC 5952, sections 4 to 6.
func TestTexts(t *testing.T) {
	for _, text := range []string{"0.0.0.0", "255.255.255.255", "::", "2001:db8::1:0:0:1", "2001:0:0:1::1", "fe80::",
		"::ffff:192.0.2.1"} {
		addr, err := ParseAddr(text)
		if err != nil || addr != netip.MustParseAddr(text) {
			t.Errorf("ParseAddr(%q): %v, %v", text, addr, err)
		}
		if printed, err := PrintAddr(addr); printed != text || err != nil {
			t.Errorf("PrintAddr(%v): %q, %v", addr, printed, err)
		}
		wanted := netip.AddrPortFrom(addr, 80)
		if printed, err := PrintEndpoint(wanted); err != nil {
			t.Errorf("PrintEndpoint(%v): %v", wanted, err)
		} else if endpoint, err := ParseEndpoint(printed); endpoint != wanted || err != nil {
			t.Errorf("ParseEndpoint(%q): %v, %v", printed, endpoint, err)
		}
		block := netip.PrefixFrom(addr, 20)
		if printed, err := PrintPrefix(block); printed != text+"/20" || err != nil {
			t.Errorf("PrintPrefix(%v): %q, %v", block, printed, err)
		}
		if parsed, err := ParsePrefix(text + "/20"); parsed != block || err != nil {
			t.Errorf("ParsePrefix(%s/20): %v, %v", text, parsed, err)
		}
		if IsMulticast(addr) != addr.IsMulticast() {
			t.Errorf("IsMulticast(%v)", addr)
		}
	}
	hardware, err := ParseHardwareAddr("AB:cd:ef:0:00:1")
	if err != nil || hardware.String() != "ab-cd-ef-00-00-01" {
		t.Errorf("ParseHardwareAddr: %v, %v", hardware, err)
	}
}

func TestRejectedTexts(t *testing.T) {
	for _, text := range []string{"", "1.2.3", "::1%lo", "1.2.3.4\x00", "\xff", "10.0.0.0/33"} {
		_, addr := ParseAddr(text)
		_, endpoint := ParseEndpoint(text)
		_, prefix := ParsePrefix(text)
		_, hardware := ParseHardwareAddr(text)
		for _, err := range []error{addr, endpoint, prefix, hardware} {
			if err != ErrText {
				t.Errorf("%q: %v", text, err)
			}
		}
	}
	_, addr := PrintAddr(netip.Addr{})
	_, prefix := PrintPrefix(netip.PrefixFrom(netip.MustParseAddr("::"), 129))
	if !errors.Is(addr, NoVersion) || !errors.Is(prefix, BadPrefix) {
		t.Errorf("%v, %v", addr, prefix)
	}
}

func TestBlocks(t *testing.T) {
	for _, it := range []struct{ block, addr string }{
		{"192.0.2.77/24", "192.0.2.255"}, {"192.0.2.77/24", "192.0.3.0"}, {"::/0", "192.0.2.1"}, {"::/0", "::1"},
	} {
		block, addr := netip.MustParsePrefix(it.block), netip.MustParseAddr(it.addr)
		if Contains(block, addr) != block.Contains(addr) {
			t.Errorf("Contains(%v, %v)", block, addr)
		}
	}
	if !IsUnicast(netip.MustParseAddr("192.0.2.1")) || IsUnicast(netip.MustParseAddr("ff02::1")) || IsUnicast(netip.Addr{}) {
		t.Error("IsUnicast")
	}
}

func TestReading(t *testing.T) {
	for _, it := range []struct {
		name, frame string
		err         error
		transport   Transport
		payload     string
	}{
		{"no checksum", ethernet + header + ports + "0000" + "70696e67", nil, TransportUDP, "ping"},
		{"checksum offload", ethernet + header + ports + "8421" + "70696e67", nil, TransportUDP, "ping"},
		{"wrong checksum", ethernet + header + ports + "1234" + "70696e67", ErrChecksum, TransportUDP, "ping"},
		{"padding", ethernet + header + ports + "0000" + "70696e67" + "0000", nil, TransportUDP, "ping"},
		{"port 0", ethernet + header + "b5e30000000c" + "0000" + "70696e67", PortZero, 0, "\xb5\xe3\x00\x00\x00\x0c\x00\x00ping"},
		{"nothing", "", TooShort, 0, ""},
	} {
		frame := ReadFrame(unhex(t, it.frame))
		if err := frame.Check(); err != it.err || frame.Transport != it.transport || string(frame.Payload) != it.payload {
			t.Errorf("%s: %v, %v, %q", it.name, err, frame.Transport, frame.Payload)
		}
	}
	data := unhex(t, ethernet+header+ports+"0000"+"70696e67")
	wanted := Headers{
		Ethernet: Ethernet{HardwareAddr{2, 0, 0, 0, 0, 1}, HardwareAddr{2, 0, 0, 0, 0, 2}, 0x0800},
		Src:      netip.MustParseAddrPort("192.0.2.1:46563"),
		Dst:      netip.MustParseAddrPort("192.0.2.2:5353"),
		IP:       IP{Protocol: 17, HopLimit: 64, DontFragment: true},
	}
	if frame := ReadFrame(data); frame.Headers != wanted || frame.TransportChecksum != ChecksumOmitted || frame.IPv4Checksum != ChecksumValid {
		t.Errorf("%+v", frame)
	}
	if packet := ReadPacket(data[14:]); string(packet.Payload) != "ping" || packet.Ethernet != (Ethernet{}) {
		t.Errorf("%+v", packet)
	}
	if cut := ReadCaptured(data[:44], len(data)); string(cut.Payload) != "pi" || cut.PayloadLen != 4 {
		t.Errorf("%+v", cut)
	}
	if cut := ReadCapturedPacket(data[14:30], len(data)-14); !errors.Is(cut.Check(), HeaderCut) {
		t.Errorf("%+v", cut)
	}
	for _, cut := range []Frame{
		ReadCaptured(data[:44], math.MaxInt),
		ReadCapturedPacket(data[14:44], math.MaxInt),
		ReadLinkType(1, data[:44], math.MaxInt),
	} {
		if cut.Check() != nil || string(cut.Payload) != "pi" || cut.PayloadLen != 4 {
			t.Errorf("%+v", cut)
		}
	}
}

// A Frame that is used again is like a new one, also after a frame with other headers.
func TestReadingInto(t *testing.T) {
	var again Frame
	udp := unhex(t, ethernet+header+ports+"0000"+"70696e67")
	headers := ReadFrame(udp).Headers
	headers.TCP = TCP{Flags: SYN}
	syn, err := headers.EmitTCP(nil, nil, make([]byte, 100))
	if err != nil {
		t.Fatal(err)
	}
	for _, data := range [][]byte{udp, syn, udp[:40], syn, nil, udp} {
		wanted := ReadFrame(data)
		if err := ReadFrameInto(&again, data); err != wanted.Check() || !reflect.DeepEqual(again, wanted) {
			t.Errorf("ReadFrameInto: %v, %+v, and not %+v", err, again, wanted)
		}
	}
}

func TestAllocations(t *testing.T) {
	data := unhex(t, ethernet+header+ports+"1234"+"70696e67")
	var frame Frame
	for name, call := range map[string]func(){
		"ReadFrame":         func() { frame = ReadFrame(data) },
		"ReadFrameInto":     func() { _ = ReadFrameInto(&frame, data) },
		"ParseAddr":         func() { _, _ = ParseAddr("2001:db8::1") },
		"ParseEndpoint":     func() { _, _ = ParseEndpoint("192.0.2.1:80") },
		"ParsePrefix":       func() { _, _ = ParsePrefix("192.0.2.0/24") },
		"ParseHardwareAddr": func() { _, _ = ParseHardwareAddr("02:00:00:00:00:01") },
	} {
		if allocations := testing.AllocsPerRun(100, call); allocations != 0 {
			t.Errorf("%s: %v allocations", name, allocations)
		}
	}
}

// Scapy packed the packet: hop-by-hop options, and UDP with the payload f1f2f3.
func TestExtensionHeaders(t *testing.T) {
	packet := unhex(t, "6becdef10013003e20010db800000000000000000000000120010db8000000000000000000000002"+
		"110005020000010031324142000b4cfbf1f2f3")
	frame := ReadPacket(packet)
	if frame.Check() != nil || frame.IP.Protocol != 0 || frame.Protocol != 17 || frame.TransportOffset != 48 {
		t.Errorf("%+v", frame)
	}
	if line := fmt.Sprint(frame); line != "IPv6 [2001:db8::1]:12594 > [2001:db8::2]:16706 UDP len=3" {
		t.Error(line)
	}
	packet[6], packet[43] = 43, 1
	if frame = ReadPacket(packet); frame.Check() != HopsLeft || frame.Protocol != 43 {
		t.Errorf("%+v", frame)
	}
}

func TestLines(t *testing.T) {
	const hosts = "Ethernet 02-00-00-00-00-01 > 02-00-00-00-00-02 "
	const ends = "IPv4 192.0.2.1:46563 > 192.0.2.2:5353 UDP "
	for _, it := range []struct{ frame, line string }{
		{ethernet + header + ports + "0000" + "70696e67", ends + "len=4 (no checksum)"},
		{ethernet + header + ports + "8421" + "70696e67", ends + "len=4 (partial checksum correct)"},
		{ethernet + header + ports + "1234" + "70696e67", ends + "len=4 (checksum incorrect)"},
		{ethernet + header + ports[:8] + "000d" + "0000" + "70696e67", ends + "len=12 (bad length)"},
		{ethernet + header[:24], hosts + "type=0x0800 len=12 (too short)"},
	} {
		if line := fmt.Sprint(ReadFrame(unhex(t, it.frame))); line != it.line {
			t.Errorf("%s: %s", it.frame, line)
		}
	}
	if names := ProtocolName(58) + " " + EtherTypeName(0x88cc) + " " + EtherTypeName(0); names != "IPv6-ICMP LLDP unknown" {
		t.Error(names)
	}
}

func TestWriting(t *testing.T) {
	read := ReadFrame(unhex(t, ethernet+header+ports+"0000"+"70696e67"))
	out := make([]byte, 100)
	// The checksum by RFC 768.
	written, err := read.EmitUDP([]byte("ping"), out)
	if wanted := ethernet + header + ports + "d234" + "70696e67"; err != nil || hex.EncodeToString(written) != wanted {
		t.Errorf("EmitUDP: %x, %v", written, err)
	}
	rebuilt, err := Rebuild(append(written, 0, 0), make([]byte, 100))
	if err != nil || !bytes.Equal(rebuilt, written) {
		t.Errorf("Rebuild: %x, %v", rebuilt, err)
	}
	reply := read.Reply()
	if reply.Src != read.Dst || reply.Dst != read.Src || reply.Ethernet.Dst != read.Ethernet.Src {
		t.Errorf("Reply: %+v", reply)
	}
	other, none := read.Headers, read.Headers
	other.Dst = netip.MustParseAddrPort("[2001:db8::1]:7")
	none.IP.HopLimit = 0
	for _, it := range []struct {
		headers Headers
		out     []byte
		err     error
	}{{other, out, TwoVersions}, {none, out, NoHopLimit}, {read.Headers, out[:45], NoRoom}, {Headers{}, nil, NoVersion}} {
		if written, err := it.headers.EmitUDP([]byte("ping"), it.out); written != nil || !errors.Is(err, it.err) {
			t.Errorf("%v: %v", it.err, err)
		}
	}
	if _, err := Rebuild(nil, nil); !errors.Is(err, NoHeader) || err.Error() != "ipwire: LK_NO_HEADER" {
		t.Errorf("Rebuild: %v", err)
	}
}

func TestOtherProtocols(t *testing.T) {
	read := ReadFrame(unhex(t, ethernet+header+ports+"0000"+"70696e67"))
	echo := read.Headers
	echo.ICMP = ICMP{Word: 0x12340001, Type: 8}
	written, err := echo.EmitICMP([]byte("data"), make([]byte, 100))
	if frame := ReadFrame(written); err != nil || frame.Check() != nil || frame.ICMP != echo.ICMP || string(frame.Payload) != "data" {
		t.Errorf("EmitICMP: %x, %v", written, err)
	}
	// RFC 826.
	arp := read.Headers
	arp.ARP = ARP{1, arp.Ethernet.Src, HardwareAddr{}}
	written, err = arp.EmitARP(make([]byte, 42))
	wanted := ethernet[:24] + "0806" + "0001080006040001" + "020000000001c0000201" + "000000000000c0000202"
	if err != nil || hex.EncodeToString(written) != wanted {
		t.Errorf("EmitARP: %x, %v", written, err)
	}
}

// RFC 9293, section 3.2, RFC 7323, section 2.2, and RFC 2018, sections 2 and 3.
func TestTCPOptions(t *testing.T) {
	size, scale := uint16(1460), uint8(7)
	for _, it := range []struct {
		options TCPOptions
		bytes   string
	}{
		{TCPOptions{}, ""},
		{TCPOptions{MSS: &size, WindowScale: &scale, SackPermitted: true, Timestamp: &Timestamp{3, 4}},
			"020405b4" + "030307" + "0402" + "080a0000000300000004" + "00"},
		{TCPOptions{SackRanges: []SackRange{{1, 2}, {3, 4}}}, "0512" + "00000001" + "00000002" + "00000003" + "00000004" + "0000"},
	} {
		headers := ReadFrame(unhex(t, ethernet+header+ports+"0000"+"70696e67")).Headers
		headers.TCP = TCP{SeqNumber: 1, AckNumber: 2, WindowLen: 9, Flags: ACK}
		written, err := headers.EmitTCP(&it.options, []byte("data"), make([]byte, 200))
		frame := ReadFrame(written)
		if err != nil || frame.Check() != nil || frame.TCP != headers.TCP || string(frame.Payload) != "data" {
			t.Errorf("EmitTCP: %x, %v", written, err)
			continue
		}
		if hex.EncodeToString(frame.TCPHeader[20:]) != it.bytes {
			t.Errorf("EmitTCP: %x", frame.TCPHeader)
		}
		if options, err := ReadTCPOptions(frame.TCPHeader); err != nil || !reflect.DeepEqual(options, it.options) {
			t.Errorf("ReadTCPOptions: %+v, %v", options, err)
		}
		if same, options := ReadFrameOptions(written); !reflect.DeepEqual(same, frame) || !reflect.DeepEqual(options, &it.options) {
			t.Errorf("ReadFrameOptions: %+v, %+v", same, options)
		}
		if length, err := it.options.HeaderLen(); length != len(frame.TCPHeader) || err != nil {
			t.Errorf("HeaderLen: %v, %v", length, err)
		}
	}
	if _, err := ReadTCPOptions(nil); !errors.Is(err, BadOptions) {
		t.Errorf("ReadTCPOptions: %v", err)
	}
	if frame, options := ReadFrameOptions(nil); frame.Reason != TooShort || options != nil {
		t.Errorf("ReadFrameOptions: %+v, %+v", frame, options)
	}
	many := TCPOptions{SackRanges: make([]SackRange, 5)}
	if _, err := many.HeaderLen(); !errors.Is(err, OptionsTooLong) {
		t.Errorf("HeaderLen: %v", err)
	}
}

// RFC 1071, section 3, and RFC 1624, section 4.
func TestChecksums(t *testing.T) {
	if sum := Checksum(unhex(t, "0001f203f4f5f6f7")); sum != 0xddf2 {
		t.Errorf("Checksum: %x", sum)
	}
	if field := UpdateChecksum(0xdd2f, 0x5555, 0x3285); field != 0 {
		t.Errorf("UpdateChecksum: %x", field)
	}
	if field := UpdateUDPChecksum(0xdd2f, 0x5555, 0x3285); field != 0xffff {
		t.Errorf("UpdateUDPChecksum: %x", field)
	}
	// RFC 1071, section 2 B: at an odd offset the byte is the low one of a word.
	if UpdateChecksumBytes(0xfffe, 1, []byte{1}, []byte{2}) != 0xfffd || UpdateUDPChecksumBytes(0, 1, []byte{1}, []byte{2}) != 0 {
		t.Error("UpdateChecksumBytes")
	}
	before, after := netip.MustParseAddr("192.0.2.1"), netip.MustParseAddr("198.51.100.9")
	field := ^Checksum(before.AsSlice())
	if UpdateChecksumAddr(field, before, after) != ^Checksum(after.AsSlice()) || UpdateUDPChecksumAddr(0, before, after) != 0 {
		t.Error("UpdateChecksumAddr")
	}
}

func TestRoutes(t *testing.T) {
	list := []Route{
		{netip.MustParsePrefix("10.0.0.0/8"), netip.Addr{}, 1},
		{netip.MustParsePrefix("10.1.0.0/16"), netip.MustParseAddr("10.0.0.1"), 2},
		{netip.MustParsePrefix("10.1.0.0/16"), netip.Addr{}, 3},
		{netip.MustParsePrefix("2001:db8::/32"), netip.Addr{}, 2},
	}
	routes, err := NewRoutes(list)
	if err != nil {
		t.Fatal(err)
	}
	for _, it := range []struct {
		addr   string
		place  int
		source error // of a packet that came in by interface 1
	}{
		{"10.2.3.4", 0, nil},
		{"10.1.2.3", 1, OtherInterface},
		{"2001:db8::1", 3, OtherInterface},
		{"192.0.2.1", -1, NoRouteToSource},
		{"127.0.0.1", -1, Martian},
		{"::1", -1, Martian},
	} {
		addr := netip.MustParseAddr(it.addr)
		if place, err := routes.Choose(addr), routes.CheckSource(addr, 1); place != it.place || err != it.source {
			t.Errorf("%v: %v, %v", addr, place, err)
		}
	}
	if _, err := NewRoutes([]Route{{}}); !errors.Is(err, NoVersion) {
		t.Errorf("NewRoutes: %v", err)
	}
	if none, err := NewRoutes(nil); err != nil || none.Choose(netip.MustParseAddr("::1")) != -1 {
		t.Errorf("NewRoutes: %v", err)
	}
}

func TestForwarding(t *testing.T) {
	own, next := HardwareAddr{2, 0, 0, 0, 0, 0xaa}, HardwareAddr{2, 0, 0, 0, 0, 0xbb}
	frame := unhex(t, ethernet+header+ports+"0000"+"70696e67")
	// One hop less is 0x0100 more in the checksum (RFC 1624).
	wanted := "0200000000bb" + "0200000000aa" + "0800" + "4500002000004000" + "3f11b7c9" + header[24:] + ports + "0000" + "70696e67"
	if err := Forward(frame, own, next); err != nil || hex.EncodeToString(frame) != wanted {
		t.Errorf("Forward: %x, %v", frame, err)
	}
	for _, it := range []struct {
		frame string
		err   error
	}{
		{"", NotIP},
		{ethernet + header[:24], BadHeader},
		{ethernet + "4500002000004000" + "4011b6c8" + header[24:] + ports + "0000" + "70696e67", WrongChecksum},
		{ethernet + "4500002000004000" + "0111f5c9" + header[24:] + ports + "0000" + "70696e67", HopLimitTooLow},
	} {
		if err := Forward(unhex(t, it.frame), own, next); err != it.err {
			t.Errorf("Forward(%s): %v", it.frame, err)
		}
	}
	if err := Forward(nil, own, next); err.Error() != "ipwire: LK_NOT_IP" {
		t.Errorf("Forward: %v", err)
	}
	headers := ReadFrame(frame).Headers
	headers.TCP = TCP{Flags: SYN}
	size := uint16(1460)
	syn, err := headers.EmitTCP(&TCPOptions{MSS: &size}, nil, make([]byte, 100))
	if err != nil || !ClampMSS(syn, 1260) || ClampMSS(syn, 1260) {
		t.Errorf("ClampMSS: %v", err)
	}
	if clamped := ReadFrame(syn); clamped.Check() != nil || !bytes.Equal(clamped.TCPHeader[20:], unhex(t, "020404ec")) {
		t.Errorf("ClampMSS: %x", syn)
	}
}

func ExampleReadFrame() {
	data, _ := hex.DecodeString(ethernet + header + ports + "0000" + "70696e67")
	frame := ReadFrame(data)
	if err := frame.Check(); err != nil {
		fmt.Println(err)
		return
	}
	fmt.Printf("%s from %v\n", frame.Payload, frame.Src)
	reply := frame.Reply()
	out, err := reply.EmitUDP([]byte("pong"), make([]byte, 1514))
	fmt.Println(len(out), err)
	// Output:
	// ping from 192.0.2.1:46563
	// 46 <nil>
}

// Linux sent both errors about UDP packets to a closed port on its loopback device. By hand: other types, and quotes of 8
// bytes of UDP and of TCP.
func TestQuoted(t *testing.T) {
	const (
		loopback = "000000000000" + "000000000000"
		ends6    = "0000000000000000000000000000000100000000000000000000000000000001"
		ipv4     = loopback + "0800" + "45c0003cb9fb00004001c2037f0000017f000001" + "0303354b00000000" +
			"4500002026b64000401116157f0000017f000001" + "d5cb14e9000cfe1f" + "70696e67"
		ipv6 = loopback + "86dd" + "6006125f003c3a40" + ends6 + "0104964600000000" +
			"60092d35000c1140" + ends6 + "d5cb14e9000c001f" + "70696e67"
	)
	for _, it := range []struct {
		data         string
		place, quote int // of the type, and of the packet that is quoted
		isError      func(icmpType int) bool
	}{
		{ipv4, 34, 42, func(it int) bool { return it == 3 || it == 4 || it == 5 || it == 11 || it == 12 }},
		{ipv6, 54, 62, func(it int) bool { return it < 128 }},
	} {
		data := unhex(t, it.data)
		frame := ReadFrame(data)
		quoted, ok := frame.ReadQuoted()
		if err := frame.Check(); err != nil || !ok || quoted.Src.Port() != 54731 || quoted.Dst.Port() != 5353 ||
			quoted.Check() != nil || string(quoted.Payload) != "ping" || quoted.Ethernet != (Ethernet{}) {
			t.Errorf("%v, %+v", err, quoted)
		}
		frame = ReadCaptured(data[:len(data)-4], math.MaxInt)
		quoted, ok = frame.ReadQuoted()
		if !ok || quoted.Dst.Port() != 5353 || quoted.PayloadLen != 4 || len(quoted.Payload) != 0 ||
			quoted.TransportChecksum != ChecksumCut {
			t.Errorf("%+v", quoted)
		}
		for icmpType := 0; icmpType < 256; icmpType++ {
			data[it.place] = byte(icmpType)
			frame := ReadFrame(data)
			if _, ok := frame.ReadQuoted(); ok != it.isError(icmpType) {
				t.Errorf("type %d: %v", icmpType, ok)
			}
		}
	}
	data := unhex(t, ipv4)
	data[42+3], data[42+9] = 64, 6 // 44 bytes of TCP
	frame := ReadCaptured(data[:70], math.MaxInt)
	if quoted, ok := frame.ReadQuoted(); !ok || quoted.Reason != HeaderCut || !bytes.Equal(quoted.Payload, data[62:70]) {
		t.Errorf("%+v", quoted)
	}
	frame = ReadFrame(unhex(t, ethernet+header+ports+"0000"+"70696e67"))
	if _, ok := frame.ReadQuoted(); ok {
		t.Error("a UDP packet is no error")
	}
}
