package ipwire

/*
#include <ip_wire.h>
*/
import "C"

// EmitUDP writes a whole frame with a UDP packet to the beginning of out, and returns this part of it. EtherType,
// protocol, lengths and checksums are filled in. The error is a Failure; out is unchanged then. A frame is at most 62
// bytes longer than its payload.
func (h *Headers) EmitUDP(payload, out []byte) ([]byte, error) {
	frame := h.c()
	ptr, length := memory(payload)
	to, room := memory(out)
	return written(out, C.lk_emit_udp_frame(&frame, ptr, length, to, room))
}

// EmitTCP does the same with a TCP segment. A frame is at most 114 bytes longer than its payload.
func (h *Headers) EmitTCP(options *TCPOptions, payload, out []byte) ([]byte, error) {
	frame := h.c()
	set, err := options.c()
	if err != nil {
		return nil, err
	}
	ptr, length := memory(payload)
	to, room := memory(out)
	return written(out, C.lk_emit_tcp_frame(&frame, &set, ptr, length, to, room))
}

// EmitICMP does the same with an ICMP message. No port is used. A frame is at most 62 bytes longer than its payload.
func (h *Headers) EmitICMP(payload, out []byte) ([]byte, error) {
	frame := h.c()
	ptr, length := memory(payload)
	to, room := memory(out)
	return written(out, C.lk_emit_icmp_frame(&frame, ptr, length, to, room))
}

// EmitUDPInIP writes an IP packet with UDP, without Ethernet, as for a TUN device. It is the frame of EmitUDP without
// its first 14 bytes.
func (h *Headers) EmitUDPInIP(payload, out []byte) ([]byte, error) {
	frame := h.c()
	ptr, length := memory(payload)
	to, room := memory(out)
	return written(out, C.lk_emit_udp_packet(&frame, ptr, length, to, room))
}

// EmitTCPInIP does the same with TCP.
func (h *Headers) EmitTCPInIP(options *TCPOptions, payload, out []byte) ([]byte, error) {
	frame := h.c()
	set, err := options.c()
	if err != nil {
		return nil, err
	}
	ptr, length := memory(payload)
	to, room := memory(out)
	return written(out, C.lk_emit_tcp_packet(&frame, &set, ptr, length, to, room))
}

// EmitICMPInIP does the same with an ICMP message.
func (h *Headers) EmitICMPInIP(payload, out []byte) ([]byte, error) {
	frame := h.c()
	ptr, length := memory(payload)
	to, room := memory(out)
	return written(out, C.lk_emit_icmp_packet(&frame, ptr, length, to, room))
}

// EmitARP writes a frame as EmitUDP does, with an ARP packet, in 42 bytes. Its IPv4 addresses are those of Src and Dst.
func (h *Headers) EmitARP(out []byte) ([]byte, error) {
	frame := h.c()
	to, room := memory(out)
	return written(out, C.lk_emit_arp_frame(&frame, to, room))
}

// Rebuild parses an Ethernet frame, emits each header again from its values to the beginning of out, and returns this
// part of it. It is no longer than the frame. The comment of lk_rebuild in ip_wire.h lists what changes.
func Rebuild(frame, out []byte) ([]byte, error) {
	ptr, length := memory(frame)
	to, room := memory(out)
	return written(out, C.lk_rebuild(ptr, length, to, room))
}

// Forwarded is the identification of Fragment for a packet that is forwarded.
const Forwarded = C.LK_FORWARDED

// Fragment writes one of the fragments into which an IP packet is cut for a link with this MTU (RFC 791, section 3.2; RFC
// 8200, section 4.5) to the beginning of out, and returns this part of it. Packet and fragment are in Ethernet frames with
// the same header. Number counts the fragments from 0. After the last one nothing is written, and the part is empty. A
// packet that fits is its only fragment.
//
// A router passes Forwarded as ident: an IPv4 packet keeps its identification, and is cut only if DF is clear; an IPv6
// packet is not cut. A sender passes an identification, over IPv4 of 16 bits and over IPv6 of 32, and DF is cleared. No
// other packet between these addresses, over IPv4 of the same protocol, may have the same identification for two minutes
// (RFC 6864).
func Fragment(frame []byte, mtu int, ident int64, number int, out []byte) ([]byte, error) {
	ptr, length := memory(frame)
	to, room := memory(out)
	return written(out, C.lk_fragment(ptr, length, C.size_t(mtu), C.int64_t(ident), C.size_t(number), to, room))
}
