//! Edits of one field of the packet in an Ethernet frame, in place. The checksums that cover it are updated (RFC 1624):
//! that of the IPv4 header, and that of TCP, UDP, ICMP or `ICMPv6`. No other byte changes.
//!
//! Each call returns `false` if the packet has no such field. Then the frame is unchanged.
//!
//! - A valid checksum stays valid, and a wrong one stays wrong. UDP's 0 over IPv4 stays 0. The exception is an ICMP
//!   message whose other bytes are all 0.
//! - A TCP or UDP checksum that is [left to the device](crate::Verdict::Partial) stays so: an address changes it, as
//!   part of the pseudo-header, and nothing else does. The calls guess which it is ([`Offload::Guess`]). To those with
//!   `_as` the caller says it.
//! - The IP header must be one that [`Frame::parse`](crate::Frame::parse) does not reject. The TCP, UDP or ICMP header
//!   need only be there up to its checksum field, also in the first of several fragments. Append zeros to a packet that
//!   was cut, up to its length: only [`fill_checksum`] needs the bytes themselves.
//! - IPv6 extension headers are stepped through, up to the header of a fragment. They are not changed. Not supported: a
//!   Home Address option (RFC 6275).
//! - Of the Ethernet header only the EtherType is used. For a frame with VLAN tags give
//!   `&mut frame[link.offset() - 14..]` of its [`Link`](crate::Link).
//! - If an IPv4 source route has hops left, the checksum covers the last address of the route: a new destination makes a
//!   valid one wrong.
//!
//! ```
//! use ip_wire_c::{edit, Frame, Side, Verdict};
//! # use ip_wire_c::{Ethernet, Headers, Ip};
//! # let (src, dst) = ("192.0.2.1:4000".parse().unwrap(), "198.51.100.7:53".parse().unwrap());
//! # let mut out = [0; 64];
//! # let bytes = Headers { ethernet: Ethernet::default(), src, dst, ip: Ip::default() }.emit_udp(b"ping", &mut out).unwrap();
//! assert!(edit::set_addr(bytes, Side::Source, "203.0.113.9".parse()?));
//! assert!(edit::set_port(bytes, Side::Source, 5353));
//! assert!(edit::set_hop_limit(bytes, 1));
//! assert!(edit::set_dscp(bytes, 46)); // expedited forwarding
//!
//! let frame = Frame::parse(bytes);
//! assert_eq!(frame.src(), "203.0.113.9:5353".parse().ok());
//! assert_eq!(frame.transport_checksum(), Some(Verdict::Valid));
//! # Ok::<(), std::net::AddrParseError>(())
//! ```

use crate::sys::library;
use crate::{Offload, Side};
use core::net::IpAddr;

/// Writes the TTL of IPv4, or the hop limit of IPv6.
pub fn set_hop_limit(frame: &mut [u8], hop_limit: u8) -> bool {
    // SAFETY: there are `len` bytes at `frame`.
    unsafe { library().lk_set_hop_limit(frame.as_mut_ptr(), frame.len(), hop_limit) != 0 }
}

/// Writes the DSCP, 6 bits (RFC 2474). ECN stays. Returns `false` for numbers above 63.
pub fn set_dscp(frame: &mut [u8], dscp: u8) -> bool {
    // SAFETY: there are `len` bytes at `frame`.
    unsafe { library().lk_set_dscp(frame.as_mut_ptr(), frame.len(), dscp) != 0 }
}

/// Writes an address. Returns `false` if the packet has another version, and if a checksum covers the addresses and is not
/// found:
///
/// - TCP, UDP or ICMP is cut, or the length of UDP is below 8.
/// - There is an authentication header: an edit would make it invalid.
/// - An IPv6 extension header is rejected: it is cut, hop-by-hop options are not the first, or a routing header has
///   segments left. Or another one follows the header of a fragment.
/// - It is DCCP (33), OSPF (89), VRRP (112), UDP-Lite (136) or HIP (139), or over IPv6 PIM (103) or Mobility (135).
///
/// Of a fragment that is not the first, only the IP header is updated.
pub fn set_addr(frame: &mut [u8], side: Side, addr: IpAddr) -> bool {
    // SAFETY: there are `len` bytes at `frame`, and the call reads only the address.
    unsafe { library().lk_set_addr(frame.as_mut_ptr(), frame.len(), side.number(), &addr.into()) != 0 }
}

/// [`set_addr`] of a frame whose checksum is known to be left to the device, or not to be.
pub fn set_addr_as(frame: &mut [u8], side: Side, addr: IpAddr, offload: Offload) -> bool {
    let (ptr, len) = (frame.as_mut_ptr(), frame.len());
    // SAFETY: there are `len` bytes at `frame`, and the call reads only the address.
    unsafe { library().lk_set_addr_as(ptr, len, side.number(), &addr.into(), offload.number()) != 0 }
}

/// Writes a port of TCP or UDP. Port 0 is written too.
pub fn set_port(frame: &mut [u8], side: Side, port: u16) -> bool {
    // SAFETY: there are `len` bytes at `frame`.
    unsafe { library().lk_set_port(frame.as_mut_ptr(), frame.len(), side.number(), port) != 0 }
}

/// [`set_port`] of a frame whose checksum is known to be left to the device, or not to be.
pub fn set_port_as(frame: &mut [u8], side: Side, port: u16, offload: Offload) -> bool {
    let (ptr, len) = (frame.as_mut_ptr(), frame.len());
    // SAFETY: there are `len` bytes at `frame`.
    unsafe { library().lk_set_port_as(ptr, len, side.number(), port, offload.number()) != 0 }
}

/// Writes bytes from byte `offset` of the frame on, as an option, an address, payload or padding. Returns `false` if the
/// frame does not have all of them, if they would replace one of these bytes, or if there are none and `offset` is between
/// two of these bytes:
///
/// - the Ethernet header,
/// - the version, lengths, identification, flags, fragment offset, protocol and checksum of the IPv4 header,
/// - the version, payload length and next header of the IPv6 header, and its extension headers,
/// - the transport checksum, the data offset of TCP, and the length of UDP,
/// - the payload of a fragment that is not the first, whose checksum is in the first one,
/// - all from the addresses to the end of the packet, if a checksum covers the addresses and is not found ([`set_addr`]).
///
/// ```
/// # use ip_wire_c::{edit, Ethernet, Frame, Headers, Ip};
/// # let (src, dst) = ("192.0.2.1:4000".parse().unwrap(), "198.51.100.7:53".parse().unwrap());
/// # let mut out = [0; 64];
/// # let bytes = Headers { ethernet: Ethernet::default(), src, dst, ip: Ip::default() }.emit_udp(b"ping", &mut out).unwrap();
/// let start = Frame::parse(bytes).payload_offset();
/// assert!(edit::set_bytes(bytes, start, b"pong"));
/// assert_eq!(Frame::parse(bytes).check(), Ok(()));
/// assert!(!edit::set_bytes(bytes, 16, &[0, 0])); // the length of the IPv4 packet
/// ```
pub fn set_bytes(frame: &mut [u8], offset: usize, bytes: &[u8]) -> bool {
    let (ptr, len) = (frame.as_mut_ptr(), frame.len());
    // SAFETY: there are `len` bytes at `frame`, and as many as it says at `bytes`.
    unsafe { library().lk_set_bytes(ptr, len, offset, bytes.as_ptr(), bytes.len()) != 0 }
}

/// [`set_bytes`] of a frame whose checksum is known to be left to the device, or not to be.
pub fn set_bytes_as(frame: &mut [u8], offset: usize, bytes: &[u8], offload: Offload) -> bool {
    let (ptr, len) = (frame.as_mut_ptr(), frame.len());
    let (from, count) = (bytes.as_ptr(), bytes.len());
    // SAFETY: there are `len` bytes at `frame`, and `count` bytes at `from`.
    unsafe { library().lk_set_bytes_as(ptr, len, offset, from, count, offload.number()) != 0 }
}

/// Computes the TCP, UDP, ICMP or `ICMPv6` checksum anew, as a device does for
/// [`Partial`](crate::Verdict::Partial), also where UDP has none. Returns `false` for fragments other than atomic
/// ones, and for UDP whose length does not fit.
///
/// If an IPv4 source route has hops left, the result covers the next hop, and the last receiver rejects it.
pub fn fill_checksum(frame: &mut [u8]) -> bool {
    // SAFETY: there are `len` bytes at `frame`.
    unsafe { library().lk_fill_checksum(frame.as_mut_ptr(), frame.len()) != 0 }
}
