package ipwire

/*
#include <ip_wire.h>

// The calls return structs, since Go would allocate one that a call has a pointer to.
static struct lk_frame read_frame(const uint8_t *ptr, size_t len)
{
    struct lk_frame frame;
    lk_read_frame(ptr, len, &frame);
    return frame;
}

static struct lk_frame read_packet(const uint8_t *ptr, size_t len)
{
    struct lk_frame frame;
    lk_read_packet(ptr, len, &frame);
    return frame;
}

static struct lk_frame read_captured(const uint8_t *ptr, size_t count, size_t len)
{
    struct lk_frame frame;
    lk_read_captured(ptr, count, len, &frame);
    return frame;
}

static struct lk_frame read_captured_packet(const uint8_t *ptr, size_t count, size_t len)
{
    struct lk_frame frame;
    lk_read_captured_packet(ptr, count, len, &frame);
    return frame;
}
*/
import "C"

import (
	"errors"
	"math"
)

// ErrChecksum is returned by Check for a frame with a wrong checksum.
var ErrChecksum = errors.New("ipwire: a checksum is wrong")

// Network is the protocol after the Ethernet header.
type Network uint8

// Transport is the protocol after the IP header.
type Transport uint8

// The protocols. The zero values are no header.
const (
	NetworkARP    Network   = C.LK_ARP
	NetworkIPv4   Network   = C.LK_IPV4
	NetworkIPv6   Network   = C.LK_IPV6
	TransportUDP  Transport = C.LK_UDP
	TransportTCP  Transport = C.LK_TCP
	TransportICMP Transport = C.LK_ICMP
)

// Reason is why a header was rejected. Its zero value is no reason.
type Reason uint8

// The reasons. If several apply to a header, it is the first of them in this order.
const (
	TooShort    Reason = C.LK_TOO_SHORT    // fewer bytes than the shortest header
	BadVersion  Reason = C.LK_BAD_VERSION  // another version than the EtherType or link type names; a packet of neither version
	BadLength   Reason = C.LK_BAD_LENGTH   // a length field that does not fit
	OtherARP    Reason = C.LK_OTHER_ARP    // ARP for other addresses than Ethernet and IPv4
	PortZero    Reason = C.LK_PORT_ZERO    // UDP: destination port 0; TCP: a port 0
	BadFlags    Reason = C.LK_BAD_FLAGS    // TCP: more than one of SYN, FIN and RST
	BadOptions  Reason = C.LK_BAD_OPTIONS  // TCP: a malformed option before the end mark
	HeaderCut   Reason = C.LK_HEADER_CUT   // the header was not captured as a whole
	UnknownLink Reason = C.LK_UNKNOWN_LINK // ReadLink does not know the link type
	HopsLeft    Reason = C.LK_HOPS_LEFT    // IPv6: a routing header with segments left
	BadOrder    Reason = C.LK_BAD_ORDER    // IPv6: hop-by-hop options that do not follow the IPv6 header directly
)

// Error returns the name of the reason in ip_wire.h, as "ipwire: LK_PORT_ZERO".
func (r Reason) Error() string {
	return "ipwire: " + C.GoString(C.lk_reason_name(C.int(r)))
}

// Verdict is what a checksum says. Its zero value is that there is none.
type Verdict uint8

// The verdicts.
const (
	ChecksumValid   Verdict = C.LK_CHECKSUM_VALID
	ChecksumInvalid Verdict = C.LK_CHECKSUM_INVALID
	ChecksumOmitted Verdict = C.LK_CHECKSUM_OMITTED // UDP over IPv4: the sender computed none
	ChecksumPartial Verdict = C.LK_CHECKSUM_PARTIAL // only the pseudo-header is summed: checksum offload
	ChecksumCut     Verdict = C.LK_CHECKSUM_CUT     // not all bytes that it covers were captured
)

// Frame is a frame or packet that was read. The headers before a rejected one are there, and the payload begins at
// the rejected header. So call Check first, if the payload is to be trusted.
type Frame struct {
	Headers
	Reason            Reason    // 0: no header was rejected
	Network           Network   // the header that was read
	Transport         Transport // the header that was read
	Rejected          Transport // the header that was rejected, but whose fields are in Headers
	Protocol          uint8     // the number of the transport or the payload of an IP packet, after IPv6 extension headers
	IsFragment        bool      // a part of an IP packet, so only ports of its payload are stored
	IPv4Checksum      Verdict
	TransportChecksum Verdict
	NetworkOffset     int    // of the ARP or IP header, from the first byte of the frame or packet
	TransportOffset   int    // of the UDP, TCP or ICMP header
	PayloadOffset     int    // of the payload
	PayloadLen        int    // of the whole frame: the payload may end past the captured bytes
	Payload           []byte // a part of what was read, as far as it was captured
	TCPHeader         []byte // a TCP header that was read, with its options; else nil
}

// ReadFrame parses an Ethernet frame.
func ReadFrame(frame []byte) Frame {
	ptr, length := memory(frame)
	return frameOf(frame, C.read_frame(ptr, length))
}

// ReadFrameInto parses an Ethernet frame into a Frame, whose values it replaces, and returns what Check returns. It
// allocates nothing, and copies less than ReadFrame.
func ReadFrameInto(frame *Frame, data []byte) error {
	ptr, length := memory(data)
	value := C.read_frame(ptr, length)
	frame.fill(data, &value)
	return frame.Check()
}

// ReadFrameOptions parses an Ethernet frame and the options of its TCP header. They are nil if no TCP header was read.
func ReadFrameOptions(frame []byte) (Frame, *TCPOptions) {
	var f C.struct_lk_frame
	var set C.struct_lk_tcp_options
	ptr, length := memory(frame)
	C.lk_read_frame_options(ptr, length, &f, &set)
	if f.transport != C.LK_TCP {
		return frameOf(frame, f), nil
	}
	options := optionsOf(&set)
	return frameOf(frame, f), &options
}

// ReadPacket parses a packet that begins with its IPv4 or IPv6 header.
func ReadPacket(packet []byte) Frame {
	ptr, length := memory(packet)
	return frameOf(packet, C.read_packet(ptr, length))
}

// sizeOf returns the length of a frame, as the library takes it: at most LK_MAX_LEN.
func sizeOf(length int) C.size_t {
	if length > C.LK_MAX_LEN {
		return C.LK_MAX_LEN
	}
	return C.size_t(length)
}

// ReadCaptured parses an Ethernet frame of this length, of which only the first bytes were captured. If the length is
// not known, math.MaxInt serves: the lengths in the headers count.
func ReadCaptured(captured []byte, length int) Frame {
	ptr, count := memory(captured)
	return frameOf(captured, C.read_captured(ptr, count, sizeOf(length)))
}

// ReadCapturedPacket does the same with a packet that begins with its IPv4 or IPv6 header.
func ReadCapturedPacket(captured []byte, length int) Frame {
	ptr, count := memory(captured)
	return frameOf(captured, C.read_captured_packet(ptr, count, sizeOf(length)))
}

// ReadQuoted parses the packet that an ICMP error quotes, as far as it is quoted. Call Check of the error first.
//
// It returns false if the frame is no ICMP error. Errors are of type 3, 4, 5, 11 and 12 over IPv4 (RFC 1122, section
// 3.2.2), and below 128 over IPv6 (RFC 4443, section 2.1). Offsets count from the first byte of the quoted packet.
//
// A header that is not quoted as a whole is rejected with HeaderCut. RFC 792 asks only for 8 bytes after the IP header:
// then a TCP header is cut, and its ports are the first 4 bytes of the payload. Extensions of RFC 4884 may count as bytes
// of the quoted packet.
func (f *Frame) ReadQuoted() (Frame, bool) {
	if !f.isICMPError() {
		return Frame{}, false
	}
	return ReadCapturedPacket(f.Payload, math.MaxInt), true
}

func (f *Frame) isICMPError() bool {
	if f.Transport != TransportICMP {
		return false
	}
	if f.Network == NetworkIPv6 {
		return f.ICMP.Type < ICMPv6EchoRequest
	}
	switch f.ICMP.Type {
	case ICMPUnreachable, ICMPSourceQuench, ICMPRedirect, ICMPTimeExceeded, ICMPParameterProblem:
		return true
	}
	return false
}

func frameOf(data []byte, value C.struct_lk_frame) (frame Frame) {
	frame.fill(data, &value)
	return frame
}

// fill replaces all values by those of a struct, which was read from these bytes.
func (f *Frame) fill(data []byte, value *C.struct_lk_frame) {
	f.Headers.fill(value)
	f.Reason = Reason(value.reason)
	f.Network = Network(value.network)
	f.Transport = Transport(value.transport)
	f.Rejected = Transport(value.rejected)
	f.Protocol = uint8(value.protocol)
	f.IsFragment = value.is_fragment != 0
	f.IPv4Checksum = Verdict(value.ipv4_checksum)
	f.TransportChecksum = Verdict(value.transport_checksum)
	f.NetworkOffset = int(value.network_offset)
	f.TransportOffset = int(value.transport_offset)
	f.PayloadOffset = int(value.payload_offset)
	f.PayloadLen = int(value.payload_len)
	f.Payload = data[f.PayloadOffset:][:value.payload_captured]
	f.TCPHeader = nil
	if f.Transport == TransportTCP {
		f.TCPHeader = data[f.TransportOffset:][:value.tcp.header_len]
	}
}

// Check returns the Reason if a header was rejected, ErrChecksum if a checksum is wrong, and else nil.
func (f *Frame) Check() error {
	if f.Reason != 0 {
		return f.Reason
	}
	if f.IPv4Checksum == ChecksumInvalid || f.TransportChecksum == ChecksumInvalid {
		return ErrChecksum
	}
	return nil
}

// String returns one line: the addresses, the innermost header, the length of the payload and what is wrong.
func (f Frame) String() string {
	value := f.Headers.c()
	value.reason = C.uint8_t(f.Reason)
	value.network = C.uint8_t(f.Network)
	value.transport = C.uint8_t(f.Transport)
	value.rejected = C.uint8_t(f.Rejected)
	value.protocol = C.uint8_t(f.Protocol)
	value.is_fragment = flag(f.IsFragment)
	value.ipv4_checksum = C.uint8_t(f.IPv4Checksum)
	value.transport_checksum = C.uint8_t(f.TransportChecksum)
	value.payload_len = C.size_t(f.PayloadLen)
	var out [C.LK_FRAME_TEXT]C.char
	C.lk_print_frame(&value, &out[0], C.size_t(len(out)))
	return C.GoString(&out[0])
}

// ProtocolName returns the name of an IP protocol, as "UDP" for 17, or "unknown".
func ProtocolName(protocol uint8) string {
	return C.GoString(C.lk_protocol_name(C.int(protocol)))
}

// EtherTypeName returns the name of an EtherType, as "IPv6" for 0x86dd, or "unknown".
func EtherTypeName(etherType uint16) string {
	return C.GoString(C.lk_ethertype_name(C.int(etherType)))
}
