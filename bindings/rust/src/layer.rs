//! The layers one by one, for frames that [`Headers`](crate::Headers) cannot write: with VLAN tags, within tunnels, or
//! with a checksum that a device fills in.
//!
//! Each call writes one header, or a header with its payload, at the beginning of `out`, and returns it. After a
//! failure `out` is unchanged.
//!
//! ```
//! use ip_wire_c::layer::{self, Checksum};
//! use ip_wire_c::{Ethernet, Frame, Ip};
//!
//! // A UDP packet after a VLAN tag: EtherType 0x8100, then the tag and the EtherType of IPv4.
//! let (src, dst) = ("192.0.2.1:4000".parse()?, "192.0.2.2:53".parse()?);
//! let (mut out, mut at) = ([0; 64], 14);
//! layer::emit_ethernet(&Ethernet { ethertype: 0x8100, ..Ethernet::default() }, &mut out)?;
//! out[at..][..4].copy_from_slice(&[0, 7, 0x08, 0x00]);
//! at += 4;
//! let ip = Ip { protocol: 17, ..Ip::default() };
//! at += layer::emit_ip(&ip, "192.0.2.1".parse()?, "192.0.2.2".parse()?, 12, Checksum::Computed, &mut out[at..])?.len();
//! at += layer::emit_udp(src, dst, b"ping", Checksum::Computed, &mut out[at..])?.len();
//! assert_eq!(Frame::parse_packet(&out[18..at]).check(), Ok(()));
//! # Ok::<(), Box<dyn std::error::Error>>(())
//! ```

use crate::emit::write;
use crate::sys;
use crate::{Arp, Error, Ethernet, Icmp, Ip, Tcp, TcpOptions};
use core::ffi::c_int;
use core::net::{IpAddr, SocketAddr};

/// What is written into a checksum field.
#[derive(Clone, Copy, Debug, PartialEq, Eq, Hash)]
pub enum Checksum {
    /// The checksum.
    Computed,
    /// 0.
    Zero,
}

impl From<Checksum> for c_int {
    fn from(checksum: Checksum) -> Self {
        (checksum == Checksum::Computed).into()
    }
}

/// Writes an Ethernet header, 14 bytes.
///
/// # Errors
///
/// [`Error::NoRoom`]
pub fn emit_ethernet<'o>(header: &Ethernet, out: &'o mut [u8]) -> Result<&'o mut [u8], Error> {
    // SAFETY: the call reads only the header, and there are `cap` bytes at `out`.
    write(out, |c, out, cap| unsafe { c.lk_emit_ethernet(&(*header).into(), out, cap) })
}

/// Writes an ARP packet, 28 bytes.
///
/// # Errors
///
/// [`Error::NoRoom`]
pub fn emit_arp<'o>(packet: &Arp, out: &'o mut [u8]) -> Result<&'o mut [u8], Error> {
    let (src, dst) = (packet.src.into(), packet.dst.into());
    // SAFETY: the call reads only header and addresses, and there are `cap` bytes at `out`.
    write(out, |c, out, cap| unsafe { c.lk_emit_arp(&(*packet).into(), &src, &dst, out, cap) })
}

/// Writes an IPv4 header of 20 bytes or an IPv6 header of 40 bytes, by the version of the addresses, for a payload of
/// `payload_len` bytes. `protocol` is written as it is. Of IPv4 it may be the header of a fragment.
///
/// # Errors
///
/// - [`Error::TwoVersions`]
/// - [`Error::NoHopLimit`]
/// - [`Error::BadField`]: `dscp`, `ecn`, `ident` or `flow_label` has more bits than the header, `fragment_offset` is no
///   multiple of 8, or IPv6 has `ident`, `fragment_offset` or `more_fragments`.
/// - [`Error::PayloadTooLong`]: more than 65515 bytes over IPv4, or 65535 over IPv6.
/// - [`Error::NoRoom`]
pub fn emit_ip<'o>(
    header: &Ip,
    src: IpAddr,
    dst: IpAddr,
    payload_len: usize,
    checksum: Checksum,
    out: &'o mut [u8],
) -> Result<&'o mut [u8], Error> {
    let (header, src, dst) = ((*header).into(), src.into(), dst.into());
    // SAFETY: the call reads only header and addresses, and there are `cap` bytes at `out`.
    write(out, |c, out, cap| unsafe {
        c.lk_emit_ip(&header, &src, &dst, payload_len, checksum.into(), out, cap)
    })
}

/// Writes a UDP header and the payload.
///
/// # Errors
///
/// - [`Error::TwoVersions`]
/// - [`Error::PortZero`]: the destination port is 0.
/// - [`Error::PayloadTooLong`]: more than 65527 bytes.
/// - [`Error::NoRoom`]
pub fn emit_udp<'o>(
    src: SocketAddr,
    dst: SocketAddr,
    payload: &[u8],
    checksum: Checksum,
    out: &'o mut [u8],
) -> Result<&'o mut [u8], Error> {
    let (src, dst) = (src.into(), dst.into());
    // SAFETY: the call reads only the endpoints and the `len` bytes at `ptr`, and there are `cap` bytes at `out`.
    write(out, |c, out, cap| unsafe {
        c.lk_emit_udp(&src, &dst, payload.as_ptr(), payload.len(), checksum.into(), out, cap)
    })
}

/// Writes a TCP header with its options and the payload.
///
/// # Errors
///
/// - [`Error::TwoVersions`]
/// - [`Error::PortZero`]: a port is 0.
/// - [`Error::TwoControls`]
/// - [`Error::OptionsTooLong`]
/// - [`Error::PayloadTooLong`]: header and payload have more than 65535 bytes.
/// - [`Error::NoRoom`]
pub fn emit_tcp<'o>(
    header: &Tcp,
    options: &TcpOptions,
    src: SocketAddr,
    dst: SocketAddr,
    payload: &[u8],
    checksum: Checksum,
    out: &'o mut [u8],
) -> Result<&'o mut [u8], Error> {
    let (header, options): (sys::Tcp, sys::TcpOptions) = ((*header).into(), (*options).into());
    let (src, dst, computed) = (src.into(), dst.into(), checksum.into());
    // SAFETY: the call reads only headers, endpoints and `len` bytes at `ptr`, and there are `cap` bytes at `out`.
    write(out, |c, out, cap| unsafe {
        c.lk_emit_tcp(&header, &options, &src, &dst, payload.as_ptr(), payload.len(), computed, out, cap)
    })
}

/// Writes the header of an ICMP message and the payload. Between IPv6 addresses the checksum covers a pseudo-header
/// too.
///
/// # Errors
///
/// - [`Error::TwoVersions`]
/// - [`Error::PayloadTooLong`]: more than 65527 bytes.
/// - [`Error::NoRoom`]
pub fn emit_icmp<'o>(
    header: &Icmp,
    src: IpAddr,
    dst: IpAddr,
    payload: &[u8],
    checksum: Checksum,
    out: &'o mut [u8],
) -> Result<&'o mut [u8], Error> {
    let (header, src, dst) = ((*header).into(), src.into(), dst.into());
    // SAFETY: the call reads only header, addresses and `len` bytes at `ptr`, and there are `cap` bytes at `out`.
    write(out, |c, out, cap| unsafe {
        c.lk_emit_icmp(&header, &src, &dst, payload.as_ptr(), payload.len(), checksum.into(), out, cap)
    })
}
