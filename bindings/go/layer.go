package ipwire

/*
#include <ip_wire.h>
*/
import "C"

import "net/netip"

// The layers one by one. Each writes one header, or a header with its payload, to the beginning of out, and returns this
// part of it. Of the headers only those are used that it writes, and the addresses and ports that it needs. A checksum is 0
// unless it is computed. The error is a Failure.

// EmitEthernetHeader writes an Ethernet header, 14 bytes.
func (h *Headers) EmitEthernetHeader(out []byte) ([]byte, error) {
	frame := h.c()
	to, room := memory(out)
	return written(out, C.lk_emit_ethernet(&frame.ethernet, to, room))
}

// EmitARPPacket writes an ARP packet, 28 bytes. Its IPv4 addresses are those of Src and Dst.
func (h *Headers) EmitARPPacket(out []byte) ([]byte, error) {
	frame := h.c()
	to, room := memory(out)
	return written(out, C.lk_emit_arp(&frame.arp, &frame.src.addr, &frame.dst.addr, to, room))
}

// EmitIPHeader writes an IPv4 header of 20 bytes or an IPv6 header of 40 bytes, by the version of the addresses, for a
// payload of this length.
func (h *Headers) EmitIPHeader(payloadLen int, computed bool, out []byte) ([]byte, error) {
	frame := h.c()
	to, room := memory(out)
	length := C.lk_emit_ip(&frame.ip, &frame.src.addr, &frame.dst.addr, C.size_t(payloadLen), C.int(flag(computed)), to, room)
	return written(out, length)
}

// EmitUDPPacket writes a UDP header and the payload, of at most 65527 bytes.
func (h *Headers) EmitUDPPacket(payload []byte, computed bool, out []byte) ([]byte, error) {
	frame := h.c()
	ptr, length := memory(payload)
	to, room := memory(out)
	return written(out, C.lk_emit_udp(&frame.src, &frame.dst, ptr, length, C.int(flag(computed)), to, room))
}

// EmitTCPSegment writes a TCP header with its options and the payload, together at most 65535 bytes.
func (h *Headers) EmitTCPSegment(options *TCPOptions, payload []byte, computed bool, out []byte) ([]byte, error) {
	frame := h.c()
	set, err := options.c()
	if err != nil {
		return nil, err
	}
	ptr, length := memory(payload)
	to, room := memory(out)
	return written(out, C.lk_emit_tcp(&frame.tcp, &set, &frame.src, &frame.dst, ptr, length, C.int(flag(computed)), to, room))
}

// EmitICMPMessage writes the header of an ICMP message and the payload, of at most 65527 bytes.
func (h *Headers) EmitICMPMessage(payload []byte, computed bool, out []byte) ([]byte, error) {
	frame := h.c()
	ptr, length := memory(payload)
	to, room := memory(out)
	sent := C.lk_emit_icmp(&frame.icmp, &frame.src.addr, &frame.dst.addr, ptr, length, C.int(flag(computed)), to, room)
	return written(out, sent)
}

// WrapUDP writes the headers of a frame with UDP before a payload that is in out already, and returns the whole frame. The
// payload begins at byte 42 over IPv4, and at byte 62 over IPv6.
func (h *Headers) WrapUDP(payloadLen int, out []byte) ([]byte, error) {
	frame := h.c()
	to, room := memory(out)
	return written(out, C.lk_wrap_udp_frame(&frame, C.size_t(payloadLen), to, room))
}

// WrapTCP does the same with TCP. The payload begins at byte 34 over IPv4, and at byte 54 over IPv6, plus HeaderLen of the
// options.
func (h *Headers) WrapTCP(options *TCPOptions, payloadLen int, out []byte) ([]byte, error) {
	frame := h.c()
	set, err := options.c()
	if err != nil {
		return nil, err
	}
	to, room := memory(out)
	return written(out, C.lk_wrap_tcp_frame(&frame, &set, C.size_t(payloadLen), to, room))
}

// WrapUDPInIP writes the headers of an IP packet with UDP, without Ethernet, before a payload that is in out already. The
// payload begins 14 bytes before that of WrapUDP.
func (h *Headers) WrapUDPInIP(payloadLen int, out []byte) ([]byte, error) {
	frame := h.c()
	to, room := memory(out)
	return written(out, C.lk_wrap_udp_packet(&frame, C.size_t(payloadLen), to, room))
}

// WrapTCPInIP does the same with TCP.
func (h *Headers) WrapTCPInIP(options *TCPOptions, payloadLen int, out []byte) ([]byte, error) {
	frame := h.c()
	set, err := options.c()
	if err != nil {
		return nil, err
	}
	to, room := memory(out)
	return written(out, C.lk_wrap_tcp_packet(&frame, &set, C.size_t(payloadLen), to, room))
}

// Ndisc is a neighbour solicitation or advertisement (RFC 4861, sections 4.3 and 4.4). A solicitation has no flags.
type Ndisc struct {
	Target      netip.Addr
	Hardware    *HardwareAddr // the link-layer address option; nil: there is none
	IsAdvert    bool
	IsRouter    bool
	IsSolicited bool
	Overrides   bool
}

// ReadNdisc parses the message in an Ethernet frame. It returns false if there is none that is valid (RFC 4861, sections
// 7.1.1 and 7.1.2).
func ReadNdisc(frame []byte) (Ndisc, bool) {
	var it C.struct_lk_ndisc
	ptr, length := memory(frame)
	if C.lk_find_ndisc(ptr, length, &it) != 1 {
		return Ndisc{}, false
	}
	found := Ndisc{addrOf(&it.target), nil, it.is_advert != 0, it.is_router != 0, it.is_solicited != 0, it.overrides != 0}
	if it.has_hardware != 0 {
		hardware := hardwareOf(&it.hardware)
		found.Hardware = &hardware
	}
	return found, true
}

// Emit writes a whole frame with the message, of 78 bytes, or 86 with the option, to the beginning of out, and returns this
// part of it. The hop limit is 255. The error is NoVersion unless all addresses are IPv6, BadField if
// ReadNdisc would reject the message for its addresses or flags, or NoRoom.
func (n *Ndisc) Emit(ethernet Ethernet, src, dst netip.Addr, out []byte) ([]byte, error) {
	headers := Headers{Ethernet: ethernet, Src: netip.AddrPortFrom(src, 0), Dst: netip.AddrPortFrom(dst, 0)}
	frame := headers.c()
	it := C.struct_lk_ndisc{
		target:       cAddr(n.Target),
		is_advert:    flag(n.IsAdvert),
		is_router:    flag(n.IsRouter),
		is_solicited: flag(n.IsSolicited),
		overrides:    flag(n.Overrides),
	}
	if n.Hardware != nil {
		it.hardware, it.has_hardware = n.Hardware.c(), 1
	}
	to, room := memory(out)
	return written(out, C.lk_emit_ndisc_frame(&frame, &it, to, room))
}
