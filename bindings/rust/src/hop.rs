//! One hop, NAT of one packet, and the MSS clamp. Each call changes a frame in place.

use crate::sys::library;
use crate::{EthernetAddr, Rejection};
use core::ffi::c_int;
use core::net::SocketAddrV4;

/// Forwards the packet of an Ethernet frame by one hop (RFC 1812, section 5.3.1; RFC 8200, section 3): writes the new
/// Ethernet addresses, lowers the hop limit by one, and updates the checksum of an IPv4 header. All other bytes stay.
///
/// # Errors
///
/// [`Rejection::NotIp`], [`Rejection::BadHeader`], [`Rejection::WrongChecksum`] or [`Rejection::HopLimitTooLow`]. The frame is
/// unchanged then. For an expired one a router sends [`Problem::HopLimitExpired`](crate::Problem::HopLimitExpired).
///
/// ```
/// # use ip_wire_c::{forward, Ethernet, EthernetAddr, Frame, Headers, Ip, Rejection};
/// # let ip = Ip { hop_limit: 2, ..Ip::default() };
/// # let (src, dst) = ("192.0.2.1:4000".parse().unwrap(), "198.51.100.7:53".parse().unwrap());
/// # let mut out = [0; 64];
/// # let frame = Headers { ethernet: Ethernet::default(), src, dst, ip }.emit_udp(b"ping", &mut out).unwrap();
/// let (own, next) = (EthernetAddr([2, 0, 0, 0, 0, 1]), EthernetAddr([2, 0, 0, 0, 0, 2]));
/// forward(frame, own, next)?;
/// assert_eq!(Frame::parse(frame).ip().unwrap().hop_limit, 1);
/// assert_eq!(forward(frame, own, next), Err(Rejection::HopLimitTooLow));
/// # Ok::<(), Rejection>(())
/// ```
pub fn forward(frame: &mut [u8], src: EthernetAddr, dst: EthernetAddr) -> Result<(), Rejection> {
    let (ptr, len) = (frame.as_mut_ptr(), frame.len());
    // SAFETY: there are `len` bytes at `ptr`, and the 6 bytes of each address.
    Rejection::check(unsafe { library().lk_forward(ptr, len, src.0.as_ptr(), dst.0.as_ptr()) })
}

/// The end of a packet whose address and port [`translate`] replaces.
#[derive(Clone, Copy, Debug, PartialEq, Eq, Hash)]
pub enum Side {
    /// The sender.
    Source,
    /// The receiver.
    Destination,
}

impl Side {
    pub(crate) fn number(self) -> c_int {
        match self {
            Self::Source => 0,
            Self::Destination => 1,
        }
    }
}

/// Writes an IPv4 address and a port into the UDP or TCP packet of an Ethernet frame (RFC 3022), and updates the
/// checksums. The identifier of an ICMP echo message counts as its port on either side, and may be 0.
/// [`Nat`](crate::Nat) keeps a table of the endpoints.
///
/// # Errors
///
/// Any [`Rejection`] from [`NotIp`](Rejection::NotIp) to [`PortZero`](Rejection::PortZero) but
/// [`HopLimitTooLow`](Rejection::HopLimitTooLow). The frame is unchanged then. The source port of UDP may be 0.
///
/// ```
/// # use ip_wire_c::{translate, Ethernet, Frame, Headers, Ip, Rejection, Side};
/// # let (src, dst) = ("192.0.2.1:4000".parse().unwrap(), "198.51.100.7:53".parse().unwrap());
/// # let mut out = [0; 64];
/// # let frame = Headers { ethernet: Ethernet::default(), src, dst, ip: Ip::default() }.emit_udp(b"ping", &mut out).unwrap();
/// translate(frame, Side::Destination, "192.0.2.80:8080".parse().unwrap())?;
/// assert_eq!(Frame::parse(frame).dst(), "192.0.2.80:8080".parse().ok());
/// # Ok::<(), Rejection>(())
/// ```
pub fn translate(frame: &mut [u8], side: Side, end: SocketAddrV4) -> Result<(), Rejection> {
    let (ptr, len) = (frame.as_mut_ptr(), frame.len());
    // SAFETY: there are `len` bytes at `ptr`, and the call reads only the endpoint.
    Rejection::check(unsafe { library().lk_translate(ptr, len, side.number(), &end.into()) })
}

/// Whether the TCP or UDP checksum of a frame is left to the device that sends it (checksum offload). No frame says so,
/// but a virtio header and a packet socket do.
#[derive(Clone, Copy, Debug, Default, PartialEq, Eq, Hash)]
pub enum Offload {
    /// Unknown: it is left to the device if the field is the sum of the pseudo-header, and is not valid as it is. This is
    /// wrong for one in 65,536 frames whose checksum is left to the device, and spoils it.
    #[default]
    Guess,
    /// It is left to the device: the field is the sum of the pseudo-header.
    Offloaded,
    /// It is not left to the device.
    Complete,
}

impl Offload {
    pub(crate) fn number(self) -> c_int {
        match self {
            Self::Guess => 0,
            Self::Offloaded => 1,
            Self::Complete => 2,
        }
    }
}

/// Lowers the maximum segment size of a TCP SYN in an Ethernet frame to `mss`, and updates the TCP checksum
/// (RFC 1624). A router does so with each frame that comes in or leaves by a link with a smaller MTU: to the MTU less 40
/// over IPv4, and less 60 over IPv6. Returns `false` if there is no larger size. Then the frame is unchanged.
///
/// - Of several such options the last counts. A SYN without one stays as it is.
/// - A valid checksum stays valid, and a wrong one wrong. One that is left to the device ([`Offload::Guess`]) is unchanged,
///   because it does not cover the option.
/// - A frame stays as it is if [`Frame::parse`](crate::Frame::parse) rejects a header, and if it is a fragment, has a wrong
///   IPv4 header checksum, or has IPv6 extension headers before TCP.
///
/// ```
/// # use ip_wire_c::{clamp_mss, Ethernet, Frame, Headers, Ip, Tcp, TcpFlags, TcpOptions};
/// # let (src, dst) = ("192.0.2.1:4000".parse().unwrap(), "198.51.100.7:80".parse().unwrap());
/// # let headers = Headers { ethernet: Ethernet::default(), src, dst, ip: Ip::default() };
/// # let tcp = Tcp { flags: TcpFlags::SYN, ..Tcp::default() };
/// # let options = TcpOptions { mss: Some(1460), ..TcpOptions::default() };
/// # let mut out = [0; 64];
/// # let syn = headers.emit_tcp(&tcp, &options, b"", &mut out).unwrap();
/// assert!(clamp_mss(syn, 1412)); // PPPoE: an MTU of 1452
/// assert_eq!(Frame::parse(syn).tcp_options().unwrap().mss, Some(1412));
/// assert!(!clamp_mss(syn, 1412));
/// ```
pub fn clamp_mss(frame: &mut [u8], mss: u16) -> bool {
    // SAFETY: there are `len` bytes at `frame`.
    unsafe { library().lk_clamp_mss(frame.as_mut_ptr(), frame.len(), mss) != 0 }
}

/// [`clamp_mss`] of a frame whose checksum is known to be left to the device, or not to be.
pub fn clamp_mss_as(frame: &mut [u8], mss: u16, offload: Offload) -> bool {
    let (ptr, len) = (frame.as_mut_ptr(), frame.len());
    // SAFETY: there are `len` bytes at `frame`.
    unsafe { library().lk_clamp_mss_as(ptr, len, mss, offload.number()) != 0 }
}
