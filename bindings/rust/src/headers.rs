//! The values of headers.

use crate::numbers::arp_operation;
use crate::sys::{self, library};
use crate::EthernetAddr;
use core::ffi::{c_char, CStr};
use core::net::{IpAddr, Ipv4Addr, SocketAddr};

/// An Ethernet header.
#[derive(Clone, Copy, Debug, Default, PartialEq, Eq, Hash)]
pub struct Ethernet {
    /// The sender.
    pub src: EthernetAddr,
    /// The receiver.
    pub dst: EthernetAddr,
    /// The EtherType, a number of [`ethertype`](crate::numbers::ethertype). It is filled in when a frame is emitted.
    pub ethertype: u16,
}

impl Ethernet {
    /// A header with EtherType 0.
    #[must_use]
    pub fn new(src: EthernetAddr, dst: EthernetAddr) -> Self {
        Self { src, dst, ethertype: 0 }
    }
}

/// An ARP packet for Ethernet and IPv4 (RFC 826).
#[derive(Clone, Copy, Debug, PartialEq, Eq, Hash)]
pub struct Arp {
    /// [`Arp::REQUEST`], [`Arp::REPLY`] or another number.
    pub operation: u16,
    /// The hardware address of the sender.
    pub src_hardware: EthernetAddr,
    /// The hardware address of the target. A request has zeros.
    pub dst_hardware: EthernetAddr,
    /// The IPv4 address of the sender.
    pub src: Ipv4Addr,
    /// The IPv4 address of the target.
    pub dst: Ipv4Addr,
}

impl Arp {
    /// Asks for the hardware address of the target.
    pub const REQUEST: u16 = arp_operation::REQUEST;
    /// Tells the hardware address of the sender.
    pub const REPLY: u16 = arp_operation::REPLY;
}

/// An IPv4 or IPv6 header without its addresses and lengths. The default is that of a new packet: hop
/// limit 64, DF, and 0 in all other fields.
#[derive(Clone, Copy, Debug, PartialEq, Eq, Hash)]
pub struct Ip {
    /// IPv4: 16 bits; IPv6: of the fragment header.
    pub ident: u32,
    /// IPv6: 20 bits.
    pub flow_label: u32,
    /// In bytes, a multiple of 8.
    pub fragment_offset: u16,
    /// A number of [`protocol`](crate::numbers::protocol). It is filled in when a frame is emitted.
    pub protocol: u8,
    /// 0 is read, and cannot be written.
    pub hop_limit: u8,
    /// 6 bits; of IPv6 those of the traffic class.
    pub dscp: u8,
    /// 2 bits.
    pub ecn: u8,
    /// More fragments follow.
    pub more_fragments: bool,
    /// IPv4: DF.
    pub dont_fragment: bool,
}

impl Default for Ip {
    fn default() -> Self {
        Self {
            ident: 0,
            flow_label: 0,
            fragment_offset: 0,
            protocol: 0,
            hop_limit: 64,
            dscp: 0,
            ecn: 0,
            more_fragments: false,
            dont_fragment: true,
        }
    }
}

/// The header of an ICMP message (RFC 792; over IPv6 RFC 4443), without its checksum. The payload follows it: it is
/// the data of an echo, or the beginning of the packet that an error is about.
#[derive(Clone, Copy, Debug, Default, PartialEq, Eq, Hash)]
pub struct Icmp {
    /// A number of [`icmp_type`](crate::numbers::icmp_type), over IPv6 of [`icmpv6_type`](crate::numbers::icmpv6_type).
    pub icmp_type: u8,
    /// The code.
    pub code: u8,
    /// Bytes 4 to 7: of an echo the identifier and the sequence number, of errors an MTU or a pointer.
    pub word: u32,
}

/// The headers of a UDP, TCP or ICMP packet: with them it is emitted.
#[derive(Clone, Copy, Debug, PartialEq, Eq, Hash)]
pub struct Headers {
    /// The Ethernet header.
    pub ethernet: Ethernet,
    /// The sender. Of an IPv6 address `flowinfo` and `scope_id` are not used.
    pub src: SocketAddr,
    /// The receiver.
    pub dst: SocketAddr,
    /// The IP header.
    pub ip: Ip,
}

impl From<sys::Ethernet> for Ethernet {
    fn from(header: sys::Ethernet) -> Self {
        Self { src: header.src.into(), dst: header.dst.into(), ethertype: header.r#type }
    }
}

impl From<Ethernet> for sys::Ethernet {
    fn from(header: Ethernet) -> Self {
        Self { src: header.src.0, dst: header.dst.0, r#type: header.ethertype }
    }
}

impl From<Arp> for sys::Arp {
    fn from(arp: Arp) -> Self {
        Self { operation: arp.operation, src_hardware: arp.src_hardware.0, dst_hardware: arp.dst_hardware.0 }
    }
}

impl Arp {
    pub(crate) fn of_fields(fields: &sys::Frame) -> Option<Self> {
        let (IpAddr::V4(src), IpAddr::V4(dst)) = (fields.src.addr.ip()?, fields.dst.addr.ip()?) else {
            return None;
        };
        Some(Self {
            operation: fields.arp.operation,
            src_hardware: fields.arp.src_hardware.into(),
            dst_hardware: fields.arp.dst_hardware.into(),
            src,
            dst,
        })
    }
}

impl From<sys::Ip> for Ip {
    fn from(header: sys::Ip) -> Self {
        Self {
            ident: header.ident,
            flow_label: header.flow_label,
            fragment_offset: header.fragment_offset,
            protocol: header.protocol,
            hop_limit: header.hop_limit,
            dscp: header.dscp,
            ecn: header.ecn,
            more_fragments: header.more_fragments != 0,
            dont_fragment: header.dont_fragment != 0,
        }
    }
}

impl From<Ip> for sys::Ip {
    fn from(header: Ip) -> Self {
        Self {
            ident: header.ident,
            flow_label: header.flow_label,
            fragment_offset: header.fragment_offset,
            protocol: header.protocol,
            hop_limit: header.hop_limit,
            dscp: header.dscp,
            ecn: header.ecn,
            more_fragments: header.more_fragments.into(),
            dont_fragment: header.dont_fragment.into(),
        }
    }
}

impl From<sys::Icmp> for Icmp {
    fn from(header: sys::Icmp) -> Self {
        Self { icmp_type: header.r#type, code: header.code, word: header.word }
    }
}

impl From<Icmp> for sys::Icmp {
    fn from(header: Icmp) -> Self {
        Self { r#type: header.icmp_type, code: header.code, word: header.word }
    }
}

impl Headers {
    pub(crate) fn of_fields(fields: &sys::Frame) -> Option<Self> {
        Some(Self {
            ethernet: fields.ethernet.into(),
            src: fields.src.socket_addr()?,
            dst: fields.dst.socket_addr()?,
            ip: fields.ip.into(),
        })
    }

    pub(crate) fn fields(&self) -> sys::Frame {
        sys::Frame {
            ethernet: self.ethernet.into(),
            src: self.src.into(),
            dst: self.dst.into(),
            ip: self.ip.into(),
            ..sys::Frame::default()
        }
    }
}

/// A constant text of the library.
fn name(text: *const c_char) -> &'static str {
    // SAFETY: the text is constant, and ends in a null.
    unsafe { CStr::from_ptr(text) }.to_str().unwrap_or("unknown")
}

/// The name of an IP protocol in the registry of IANA, or `"unknown"`.
///
/// ```
/// assert_eq!((ip_wire_c::protocol_name(17), ip_wire_c::protocol_name(255)), ("UDP", "unknown"));
/// ```
#[must_use]
pub fn protocol_name(protocol: u8) -> &'static str {
    // SAFETY: the call takes only a number.
    name(unsafe { library().lk_protocol_name(protocol.into()) })
}

/// The name of an EtherType, or `"unknown"`.
///
/// ```
/// assert_eq!((ip_wire_c::ethertype_name(0x86dd), ip_wire_c::ethertype_name(0)), ("IPv6", "unknown"));
/// ```
#[must_use]
pub fn ethertype_name(ethertype: u16) -> &'static str {
    // SAFETY: the call takes only a number.
    name(unsafe { library().lk_ethertype_name(ethertype.into()) })
}
