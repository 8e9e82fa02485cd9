//! Ethernet II, ARP, IPv4, IPv6, ICMP, UDP and TCP packets: safe calls of the C library `ip_wire`, every
//! contract of which is proved. `man 3 ip_wire` and `ip_wire.h` describe its behaviour in full.
//!
//! The crate is `no_std`, has no dependencies and allocates nothing. It links the C library: the one in its folder
//! `bundled`, or else the installed one, which `build.rs` finds by `pkg-config`.
//!
//! | To | There is |
//! |---|---|
//! | parse a frame, packet or capture | [`Frame`], [`Link`], [`Ipv6Headers`], [`RawOptions`], [`Ndisc::parse`] |
//! | write a frame | [`Headers`], [`Arp`], [`Ndisc`], [`rebuild`], [`layer`] |
//! | answer as a host | [`Host`], [`Interface::emit_error`] |
//! | hold TCP connections | [`Socket`] over any [`Device`], [`Connection`] |
//! | route and translate | [`RouteTable`], [`forward`], [`clamp_mss`], [`Nat`], [`translate`] |
//! | edit a frame in place | [`edit`] |
//! | cut a packet into fragments, put it together | [`Fragments`], [`Reassembler`] |
//! | parse and print addresses | [`parse_addr`], [`parse_endpoint`], [`Prefix`], [`EthernetAddr`] |
//! | compute checksums | [`checksum`] |
//! | name EtherTypes, protocols, ICMP types, link types | [`numbers`] |
//!
//! ```
//! use ip_wire_c::{Frame, Transport};
//!
//! fn pong<'o>(bytes: &[u8], out: &'o mut [u8]) -> Option<&'o mut [u8]> {
//!     let frame = Frame::parse(bytes);
//!     frame.check().ok()?; // no header was rejected, and no checksum is wrong
//!     if frame.transport() != Some(Transport::Udp) || frame.payload() != b"ping" {
//!         return None;
//!     }
//!     frame.reply()?.emit_udp(b"pong", out).ok()
//! }
//!
//! # use ip_wire_c::{Ethernet, Headers, Ip};
//! # let headers = Headers {
//! #     ethernet: Ethernet::default(),
//! #     src: "192.0.2.1:46563".parse().unwrap(),
//! #     dst: "192.0.2.2:5353".parse().unwrap(),
//! #     ip: Ip::default(),
//! # };
//! # let (mut ping, mut out) = ([0; 64], [0; 64]);
//! # let ping = headers.emit_udp(b"ping", &mut ping).unwrap();
//! let reply = Frame::parse(pong(ping, &mut out).unwrap());
//! assert_eq!(reply.payload(), b"pong");
//! assert_eq!(reply.dst(), "192.0.2.1:46563".parse().ok());
//! ```
//!
//! # Panics
//!
//! The library needs an x86-64-v2 processor (SSE4.2 and POPCNT). On an older one each call panics, but
//! for [`cpu_supported`]. So it does if another version than 0.5 of the shared library was loaded.
//! Nothing else panics.

#![no_std]
#![deny(unsafe_op_in_unsafe_fn)]
#![warn(missing_docs)]

#[cfg(not(all(target_arch = "x86_64", target_pointer_width = "64")))]
compile_error!("the C library ip_wire is only for x86-64");

#[cfg(test)]
extern crate std;

mod addr;
pub mod checksum;
mod connection;
pub mod edit;
mod emit;
mod error;
mod fragments;
mod frame;
mod headers;
mod hop;
mod host;
mod icmp;
mod ipv6;
pub mod layer;
mod link;
mod mld;
mod nat;
pub mod numbers;
mod reassembly;
mod routes;
mod socket;
mod sys;
mod tcp;

pub use addr::{is_unicast, parse_addr, parse_endpoint, EthernetAddr, ParseError, Prefix};
pub use connection::{Connection, ConnectionConfig, Segment};
pub use emit::rebuild;
pub use error::{ConnectionState, Defect, Error, Network, Reason, Rejection, Transport, Verdict};
pub use fragments::Fragments;
pub use frame::Frame;
pub use headers::{ethertype_name, protocol_name, Arp, Ethernet, Headers, Icmp, Ip};
pub use hop::{clamp_mss, clamp_mss_as, forward, translate, Offload, Side};
pub use host::Host;
pub use icmp::{AdvertFlags, Interface, Ndisc, Problem};
pub use ipv6::{Ipv6Header, Ipv6Headers};
pub use link::Link;
pub use mld::{emit_mld_report, parse_mld_query};
pub use nat::{Mapping, Nat, NatConfig};
pub use reassembly::{Reassembler, Reassembly};
pub use routes::{InterfaceId, Route, RouteNode, RouteTable};
pub use socket::{poll, Device, Socket};
pub use tcp::{
    RawOption, RawOptions, SackRange, SackRanges, SeqNumber, Tcp, TcpFlags, TcpOptions, Timestamp,
};

/// Whether the processor has what the library needs.
#[must_use]
pub fn cpu_supported() -> bool {
    sys::cpu_supported()
}

/// The version of the C library that is linked: major, minor and patch.
#[must_use]
pub fn version() -> (u32, u32, u32) {
    sys::version()
}
