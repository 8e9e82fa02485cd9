//! Parsed frames and packets.

use crate::addr::print;
use crate::numbers::{icmp_type, icmpv6_type};
use crate::sys::{self, library, Library};
use crate::{
    link, Arp, Defect, Ethernet, Headers, Icmp, Ip, Network, Reason, Tcp, TcpOptions, Transport, Verdict,
};
use core::ffi::c_int;
use core::fmt;
use core::net::SocketAddr;

/// ICMP errors over IPv4.
const IPV4_ERRORS: [u8; 5] = [
    icmp_type::UNREACHABLE,
    icmp_type::SOURCE_QUENCH,
    icmp_type::REDIRECT,
    icmp_type::TIME_EXCEEDED,
    icmp_type::PARAMETER_PROBLEM,
];

/// The longest frame that the library parses, in bytes: `LK_MAX_LEN`.
const MAX_LEN: usize = (1 << 40) - 1;

/// The bytes of a frame of `len` bytes that were captured, and the length that the library is given.
fn first_bytes(captured: &[u8], len: usize) -> (&[u8], usize) {
    let len = len.min(MAX_LEN);
    (&captured[..captured.len().min(len)], len)
}

/// A parsed frame or packet. It borrows the bytes.
///
/// Parsing always succeeds: the headers before a rejected one are there, and [`Frame::payload`] begins at
/// the rejected header. A receiver that trusts the payload calls [`Frame::check`] first.
///
/// - The payload begins after the last header that was read. It ends at the length in this header or in
///   one before it, so padding is no payload.
/// - After an unknown EtherType or protocol all bytes are payload. IPv4 options are skipped.
/// - IPv6 extension headers are stepped through, as [`Ipv6Headers`](crate::Ipv6Headers) does. [`Frame::protocol`] is the number of
///   what follows them.
/// - The values of an IPv6 fragment header are there. If it is that of a fragment, the payload begins at it.
///
/// A call that writes cannot be given the bytes of a frame as its buffer, because they are borrowed:
///
/// ```compile_fail,E0502
/// let mut bytes = [0; 64];
/// let frame = ip_wire_c::Frame::parse(&bytes);
/// let _ = ip_wire_c::rebuild(frame.payload(), &mut bytes);
/// ```
#[derive(Clone, Copy, Debug, PartialEq, Eq, Hash)]
pub struct Frame<'a> {
    bytes: &'a [u8],
    fields: sys::Frame,
    is_packet: bool,
}

impl<'a> Frame<'a> {
    /// Parses an Ethernet frame.
    #[must_use]
    pub fn parse(bytes: &'a [u8]) -> Self {
        // SAFETY: there are `len` bytes at `ptr`, and only `fields` is written.
        Self::read(bytes, false, |c, fields| unsafe { c.lk_read_frame(bytes.as_ptr(), bytes.len(), fields) })
    }

    /// Parses an Ethernet frame into a value that is there, and replaces it. In a loop over frames this copies less than
    /// [`Frame::parse`].
    ///
    /// ```
    /// # use ip_wire_c::Frame;
    /// fn payload_len(frames: &[&[u8]]) -> usize {
    ///     let mut frame = Frame::parse(&[]);
    ///     let mut len = 0;
    ///     for bytes in frames {
    ///         Frame::parse_into(bytes, &mut frame);
    ///         len += frame.payload_len();
    ///     }
    ///     len
    /// }
    /// # assert_eq!(payload_len(&[&[0; 20], &[0; 16]]), 6 + 2);
    /// ```
    #[inline]
    pub fn parse_into(bytes: &'a [u8], frame: &mut Self) {
        frame.bytes = bytes;
        frame.is_packet = false;
        // SAFETY: there are `len` bytes at `ptr`, and only `fields` is written.
        unsafe { library().lk_read_frame(bytes.as_ptr(), bytes.len(), &mut frame.fields) };
    }

    /// Parses an Ethernet frame and the options of its TCP header, in one call. The options are those of
    /// [`Frame::tcp_options`].
    #[must_use]
    pub fn parse_with_options(bytes: &'a [u8]) -> (Self, Option<TcpOptions>) {
        let mut options = sys::TcpOptions::default();
        // SAFETY: there are `len` bytes at `ptr`, and only `fields` and `options` are written.
        let frame = Self::read(bytes, false, |c, fields| unsafe {
            c.lk_read_frame_options(bytes.as_ptr(), bytes.len(), fields, &mut options)
        });
        (frame, frame.tcp().map(|_| options.into()))
    }

    /// Parses a packet that begins with its IPv4 or IPv6 header: of a TUN device, of a capture of raw
    /// packets, or after VLAN tags.
    #[must_use]
    pub fn parse_packet(bytes: &'a [u8]) -> Self {
        // SAFETY: there are `len` bytes at `ptr`, and only `fields` is written.
        Self::read(bytes, true, |c, fields| unsafe { c.lk_read_packet(bytes.as_ptr(), bytes.len(), fields) })
    }

    /// Parses a frame of `len` bytes of which only the first ones were captured. `captured` is not used
    /// past `len`. If `len` is not known, `usize::MAX` serves: the lengths in the headers count.
    ///
    /// A header that was not captured as a whole is rejected with [`Reason::HeaderCut`].
    #[must_use]
    pub fn parse_captured(captured: &'a [u8], len: usize) -> Self {
        let (bytes, len) = first_bytes(captured, len);
        // SAFETY: there are `bytes.len()` bytes at `ptr`, and only `fields` is written.
        Self::read(bytes, false, |c, fields| unsafe {
            c.lk_read_captured(bytes.as_ptr(), bytes.len(), len, fields)
        })
    }

    /// The same for a packet that begins with its IPv4 or IPv6 header.
    #[must_use]
    pub fn parse_captured_packet(captured: &'a [u8], len: usize) -> Self {
        let (bytes, len) = first_bytes(captured, len);
        // SAFETY: there are `bytes.len()` bytes at `ptr`, and only `fields` is written.
        Self::read(bytes, true, |c, fields| unsafe {
            c.lk_read_captured_packet(bytes.as_ptr(), bytes.len(), len, fields)
        })
    }

    /// The same for a packet of any link type that [`Link`](crate::Link) knows. Offsets count from the first byte.
    ///
    /// A link-layer header is rejected together with its VLAN tags, and the payload begins at the first byte then. The
    /// reasons are those of [`Link::parse`](crate::Link::parse), and [`Reason::HeaderCut`] instead of
    /// [`Reason::TooShort`] if `len` has room for the header.
    ///
    /// ```
    /// # use ip_wire_c::{Frame, Reason};
    /// // A capture of the loopback device of BSD: the address family of IPv4, and the packet.
    /// # let mut captured = [0; 24];
    /// # captured[..8].copy_from_slice(&[2, 0, 0, 0, 0x45, 0, 0, 20]);
    /// # captured[12] = 64;
    /// let frame = Frame::parse_linktype(0, &captured, captured.len());
    /// assert_eq!((frame.rejected(), frame.network_offset()), (None, Some(4)));
    /// assert_eq!(Frame::parse_linktype(105, &captured, 24).rejected(), Some(Reason::UnknownLink));
    /// ```
    #[must_use]
    pub fn parse_linktype(link_type: u32, captured: &'a [u8], len: usize) -> Self {
        let (bytes, len) = first_bytes(captured, len);
        // SAFETY: there are `bytes.len()` bytes at `ptr`, and only `fields` is written.
        Self::read(bytes, link_type != link::ETHERNET, |c, fields| unsafe {
            c.lk_read_linktype(link_type, bytes.as_ptr(), bytes.len(), len, fields)
        })
    }

    /// Parses the packet that an ICMP error quotes, as far as it is quoted. Call [`Frame::check`] of the error first.
    ///
    /// - `None`: this is no ICMP error. Errors are of type 3, 4, 5, 11 and 12 over IPv4 (RFC 1122, section 3.2.2), and
    ///   below 128 over IPv6 (RFC 4443, section 2.1).
    /// - Offsets count from the first byte of the quoted packet.
    /// - A header that is not quoted as a whole is rejected with [`Reason::HeaderCut`]. RFC 792 asks only for 8 bytes after
    ///   the IP header: then a TCP header is cut, and its ports are the first 4 bytes of the payload.
    /// - Extensions of RFC 4884 may count as bytes of the quoted packet.
    ///
    /// ```
    /// # use ip_wire_c::{Ethernet, EthernetAddr, Frame, Headers, Interface, Ip, Problem};
    /// # let (src, dst) = ("192.0.2.1:4000".parse().unwrap(), "198.51.100.7:53".parse().unwrap());
    /// # let (mut out, mut error) = ([0; 64], [0; 590]);
    /// # let hardware = EthernetAddr([2, 0, 0, 0, 0, 1]);
    /// # let ethernet = Ethernet::new(EthernetAddr([2, 0, 0, 0, 0, 9]), hardware);
    /// # let sent = Headers { ethernet, src, dst, ip: Ip::default() }.emit_udp(b"ping", &mut out).unwrap();
    /// # let own = Interface { hardware, ipv4: [192, 0, 2, 254].into(), ipv6: 0.into() };
    /// # let bytes = own.emit_error(Problem::NoRouteToDestination, sent, &mut error).unwrap().unwrap();
    /// let frame = Frame::parse(bytes);
    /// frame.check()?;
    /// if let Some(quoted) = frame.parse_quoted() {
    ///     // The packet that did not arrive.
    ///     assert_eq!(quoted.src(), "192.0.2.1:4000".parse().ok());
    ///     assert_eq!(quoted.dst(), "198.51.100.7:53".parse().ok());
    /// }
    /// # assert!(frame.parse_quoted().is_some() && Frame::parse(sent).parse_quoted().is_none());
    /// # Ok::<(), ip_wire_c::Defect>(())
    /// ```
    #[must_use]
    pub fn parse_quoted(&self) -> Option<Self> {
        let icmp = self.icmp()?;
        let is_error = match self.network()? {
            Network::Ipv4 => IPV4_ERRORS.contains(&icmp.icmp_type),
            _ => icmp.icmp_type < icmpv6_type::ECHO_REQUEST,
        };
        is_error.then(|| Self::parse_captured_packet(self.payload(), MAX_LEN))
    }

    #[inline]
    fn read(bytes: &'a [u8], is_packet: bool, call: impl FnOnce(Library, &mut sys::Frame) -> c_int) -> Self {
        let mut fields = sys::Frame::default();
        call(library(), &mut fields);
        Self { bytes, fields, is_packet }
    }

    /// The bytes that were parsed.
    #[must_use]
    pub fn bytes(&self) -> &'a [u8] {
        self.bytes
    }

    /// Whether a receiver may trust the frame.
    ///
    /// # Errors
    ///
    /// [`Defect::Rejected`] if a header was rejected, or [`Defect::WrongChecksum`].
    pub fn check(&self) -> Result<(), Defect> {
        match self.rejected() {
            Some(reason) => Err(Defect::Rejected(reason)),
            None if self.has_wrong_checksum() => Err(Defect::WrongChecksum),
            None => Ok(()),
        }
    }

    /// Why a header was rejected, if one was.
    #[must_use]
    pub fn rejected(&self) -> Option<Reason> {
        Reason::of_number(self.fields.reason.into())
    }

    /// Whether the checksum of IPv4, UDP, TCP or ICMP is wrong.
    #[must_use]
    pub fn has_wrong_checksum(&self) -> bool {
        [self.ipv4_checksum(), self.transport_checksum()].contains(&Some(Verdict::Invalid))
    }

    /// The checksum of the IPv4 header. `None`: there is no such header.
    #[must_use]
    pub fn ipv4_checksum(&self) -> Option<Verdict> {
        Verdict::of_number(self.fields.ipv4_checksum.into())
    }

    /// The checksum of UDP, TCP or ICMP. `None`: there is no such header, or a UDP header whose length field does
    /// not fit.
    #[must_use]
    pub fn transport_checksum(&self) -> Option<Verdict> {
        Verdict::of_number(self.fields.transport_checksum.into())
    }

    /// The Ethernet header. After [`Frame::parse_linktype`] its EtherType is that after any VLAN tags. `None`: the
    /// frame is too short, or it is a packet, or of another link type, whose EtherType is in [`Link`](crate::Link).
    #[must_use]
    pub fn ethernet(&self) -> Option<Ethernet> {
        let is_there = !self.is_packet && self.fields.payload_offset >= 14;
        is_there.then(|| self.fields.ethernet.into())
    }

    /// The protocol of the ARP or IP header that was read.
    #[must_use]
    pub fn network(&self) -> Option<Network> {
        Network::of_number(self.fields.network.into())
    }

    /// The ARP packet that was read.
    #[must_use]
    pub fn arp(&self) -> Option<Arp> {
        if self.network()? != Network::Arp {
            return None;
        }
        Arp::of_fields(&self.fields)
    }

    /// The IP header that was read.
    #[must_use]
    pub fn ip(&self) -> Option<Ip> {
        (self.network()? != Network::Arp).then(|| self.fields.ip.into())
    }

    /// The sender in the ARP or IP header. The port is 0 unless a UDP or TCP header is there, or begins in a fragment.
    #[must_use]
    pub fn src(&self) -> Option<SocketAddr> {
        self.fields.src.socket_addr()
    }

    /// The receiver in the ARP or IP header. The port is 0 unless a UDP or TCP header is there, or begins in a fragment.
    #[must_use]
    pub fn dst(&self) -> Option<SocketAddr> {
        self.fields.dst.socket_addr()
    }

    /// The number of the transport or the payload of an IP packet, after IPv6 extension headers. [`Ip`] has the number in
    /// the IP header.
    #[must_use]
    pub fn protocol(&self) -> Option<u8> {
        (self.network()? != Network::Arp).then_some(self.fields.protocol)
    }

    /// Whether this is a part of an IP packet, so that only ports of its payload are stored.
    #[must_use]
    pub fn is_fragment(&self) -> bool {
        self.fields.is_fragment != 0
    }

    /// The protocol of the UDP, TCP or ICMP header that was read.
    #[must_use]
    pub fn transport(&self) -> Option<Transport> {
        Transport::of_number(self.fields.transport.into())
    }

    /// The protocol of the UDP or TCP header that was rejected, but whose ports are in `src` and `dst`.
    #[must_use]
    pub fn rejected_transport(&self) -> Option<Transport> {
        Transport::of_number(self.fields.rejected.into())
    }

    /// The TCP header that was read.
    #[must_use]
    pub fn tcp(&self) -> Option<Tcp> {
        (self.transport()? == Transport::Tcp).then(|| self.fields.tcp.into())
    }

    /// The TCP header that was rejected, if it is not too short. RFC 9293 needs it for RST.
    #[must_use]
    pub fn rejected_tcp(&self) -> Option<Tcp> {
        (self.rejected_transport()? == Transport::Tcp).then(|| self.fields.tcp.into())
    }

    /// The ICMP header that was read.
    #[must_use]
    pub fn icmp(&self) -> Option<Icmp> {
        (self.transport()? == Transport::Icmp).then(|| self.fields.icmp.into())
    }

    /// The bytes of the TCP header that was read, with its options: for [`RawOptions::new`].
    ///
    /// [`RawOptions::new`]: crate::RawOptions::new
    #[must_use]
    pub fn tcp_header(&self) -> Option<&'a [u8]> {
        self.tcp()?;
        let start = self.fields.transport_offset;
        self.bytes.get(start..)?.get(..self.fields.tcp.header_len.into())
    }

    /// The options of the TCP header that was read.
    #[must_use]
    pub fn tcp_options(&self) -> Option<TcpOptions> {
        TcpOptions::parse(self.tcp_header()?)
    }

    /// Where the ARP or IP header begins. `None` if there is none.
    #[must_use]
    pub fn network_offset(&self) -> Option<usize> {
        self.network().map(|_| self.fields.network_offset)
    }

    /// Where the UDP, TCP or ICMP header begins, also a rejected one. `None` if there is none.
    #[must_use]
    pub fn transport_offset(&self) -> Option<usize> {
        self.transport().or(self.rejected_transport()).map(|_| self.fields.transport_offset)
    }

    /// Where the payload begins.
    #[must_use]
    pub fn payload_offset(&self) -> usize {
        self.fields.payload_offset
    }

    /// The length of the payload in the whole frame, also of what was not captured.
    #[must_use]
    pub fn payload_len(&self) -> usize {
        self.fields.payload_len
    }

    /// The payload, as far as it was captured.
    #[must_use]
    pub fn payload(&self) -> &'a [u8] {
        &self.bytes[self.fields.payload_offset..][..self.fields.payload_captured]
    }

    /// The headers that were read, to emit them again. `None` unless it is an IP packet.
    #[must_use]
    pub fn headers(&self) -> Option<Headers> {
        self.ip()?;
        Headers::of_fields(&self.fields)
    }

    /// The headers of the reply: the addresses and ports are exchanged. The IP header is that of a new packet,
    /// with the same DSCP. `None` unless it is an IP packet.
    #[must_use]
    pub fn reply(&self) -> Option<Headers> {
        self.ip()?;
        Headers::of_fields(&self.replied())
    }

    /// The ARP packet of the reply with its Ethernet header: the addresses are exchanged, and the operation stays. A
    /// request does not have the hardware address of the reply. `None` unless it is an ARP packet.
    ///
    /// ```
    /// # use ip_wire_c::{Arp, Ethernet, EthernetAddr, Frame};
    /// fn answer<'o>(request: &Frame, own: EthernetAddr, out: &'o mut [u8]) -> Option<&'o mut [u8]> {
    ///     let (ethernet, arp) = request.reply_arp()?;
    ///     let arp = Arp { operation: Arp::REPLY, src_hardware: own, ..arp };
    ///     arp.emit(&Ethernet::new(own, ethernet.dst), out).ok()
    /// }
    /// ```
    #[must_use]
    pub fn reply_arp(&self) -> Option<(Ethernet, Arp)> {
        self.arp()?;
        let fields = self.replied();
        Some((fields.ethernet.into(), Arp::of_fields(&fields)?))
    }

    fn replied(&self) -> sys::Frame {
        let mut fields = self.fields;
        // SAFETY: the call writes only to the copy.
        unsafe { library().lk_make_reply(&mut fields) };
        fields
    }
}

/// One line: the addresses, the innermost header, the length of the payload and what is wrong.
///
/// ```
/// # let mut bytes = [0; 42];
/// # bytes[12..14].copy_from_slice(&[8, 6]);
/// # bytes[14..22].copy_from_slice(&[0, 1, 8, 0, 6, 4, 0, 1]);
/// # bytes[28..32].copy_from_slice(&[192, 0, 2, 1]);
/// # bytes[38..42].copy_from_slice(&[192, 0, 2, 2]);
/// # bytes[22..28].copy_from_slice(&[2, 0, 0, 0, 0, 1]);
/// let line = ip_wire_c::Frame::parse(&bytes).to_string();
/// assert_eq!(line, "ARP 192.0.2.1 > 192.0.2.2 op=1 hardware=02-00-00-00-00-01 len=0");
/// ```
impl fmt::Display for Frame<'_> {
    fn fmt(&self, f: &mut fmt::Formatter<'_>) -> fmt::Result {
        // SAFETY: there are `cap` bytes at `out`.
        print::<275>(f, |c, out, cap| unsafe { c.lk_print_frame(&self.fields, out, cap) })
    }
}
