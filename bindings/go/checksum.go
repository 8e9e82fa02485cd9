package ipwire

/*
#include <ip_wire.h>
*/
import "C"

import "net/netip"

// Checksum returns the Internet checksum (RFC 1071) before its complement. An odd last byte is the high byte of a
// word.
func Checksum(data []byte) uint16 {
	ptr, length := memory(data)
	return uint16(C.lk_checksum(ptr, length))
}

// UpdateChecksum returns the checksum field of IPv4, TCP or ICMP after a 16-bit word that it covers changed (RFC 1624).
func UpdateChecksum(checksum, before, after uint16) uint16 {
	return uint16(C.lk_update_checksum(C.uint16_t(checksum), C.uint16_t(before), C.uint16_t(after)))
}

// UpdateChecksumAddr does the same after an address changed. A field that was left to the device is the complement of
// another one, and covers only the pseudo-header: ^UpdateChecksumAddr(^field, before, after).
func UpdateChecksumAddr(checksum uint16, before, after netip.Addr) uint16 {
	from, to := cAddr(before), cAddr(after)
	return uint16(C.lk_update_checksum_addr(C.uint16_t(checksum), &from, &to))
}

// UpdateChecksumBytes does the same after bytes at any offset in what it covers were replaced. The lengths are equal or
// differ by an even number, unless nothing follows the bytes.
func UpdateChecksumBytes(checksum uint16, offset int, before, after []byte) uint16 {
	from, fromLen := memory(before)
	to, toLen := memory(after)
	return uint16(C.lk_update_checksum_bytes(C.uint16_t(checksum), C.size_t(offset), from, fromLen, to, toLen))
}

// UpdateUDPChecksum is UpdateChecksum for UDP: a field of 0, which means that there is no checksum, stays 0, and a
// computed 0 becomes 0xffff (RFC 768).
func UpdateUDPChecksum(checksum, before, after uint16) uint16 {
	return uint16(C.lk_update_udp_checksum(C.uint16_t(checksum), C.uint16_t(before), C.uint16_t(after)))
}

// UpdateUDPChecksumAddr is UpdateChecksumAddr for UDP.
func UpdateUDPChecksumAddr(checksum uint16, before, after netip.Addr) uint16 {
	from, to := cAddr(before), cAddr(after)
	return uint16(C.lk_update_udp_checksum_addr(C.uint16_t(checksum), &from, &to))
}

// UpdateUDPChecksumBytes is UpdateChecksumBytes for UDP.
func UpdateUDPChecksumBytes(checksum uint16, offset int, before, after []byte) uint16 {
	from, fromLen := memory(before)
	to, toLen := memory(after)
	return uint16(C.lk_update_udp_checksum_bytes(C.uint16_t(checksum), C.size_t(offset), from, fromLen, to, toLen))
}
