//! TCP connections over a device.

use crate::numbers::{icmp_code, icmp_type, icmpv6_type, protocol};
use crate::{
    edit, is_unicast, Connection, ConnectionConfig, ConnectionState, Error, Ethernet, Frame, Headers, Host,
    Ip, Network, Segment, SeqNumber, TcpOptions, Verdict,
};
use core::net::{IpAddr, Ipv4Addr, SocketAddr};
use core::sync::atomic::{AtomicU16, Ordering};
use core::time::Duration;

/// What carries Ethernet frames: a TAP device, a packet socket, or the driver of a card. Over a TUN device put an
/// Ethernet header with zero addresses before each packet.
pub trait Device {
    /// Sends a frame. It may drop it.
    fn send(&mut self, frame: &[u8]);

    /// Copies the next received frame to the beginning of the buffer, and returns its length. 0: there is none.
    fn receive(&mut self, buffer: &mut [u8]) -> usize;

    /// Whether [`poll`] computes TCP and UDP checksums that the sender of a received frame left to its device, before they
    /// are checked. A packet socket (`AF_PACKET`) needs `true` for frames of programs on its own machine (checksum
    /// offload). It also needs buffers of 65589 bytes, or a device whose segmentation offload is off.
    fn partial_checksums(&self) -> bool {
        false
    }
}

/// A TCP connection with its addresses. [`poll`] sends and receives for it.
#[derive(Clone, Debug)]
pub struct Socket<M> {
    /// The connection, to write, read and close. After an end it stays in `Closed`: make another socket then.
    pub connection: Connection<M>,
    headers: Headers, // of the frames that it sends; in `Listen` only the source port counts
    wish: Option<Wish>,
}

/// What the next poll does.
#[derive(Clone, Copy, Debug, PartialEq, Eq)]
enum Wish {
    Connect,
    Abort,
}

impl<M: AsMut<[u8]>> Socket<M> {
    /// A socket without a peer, with the memory of a [`Connection`].
    pub fn new(config: &ConnectionConfig, outgoing: M, incoming: M) -> Self {
        let none = SocketAddr::new(Ipv4Addr::UNSPECIFIED.into(), 0);
        let headers = Headers { ethernet: Ethernet::default(), src: none, dst: none, ip: Ip::default() };
        Self { connection: Connection::new(config, outgoing, incoming), headers, wish: None }
    }

    /// Waits for one peer at this port of the host. A server has several sockets that wait at one port.
    pub fn listen(&mut self, port: u16) {
        if self.connection.state() == ConnectionState::Closed {
            self.connection.listen();
            self.headers.src.set_port(port);
        }
    }

    /// Opens a connection from `src` to `dst`, by the next [`poll`]. The Ethernet header has the address of the peer, or
    /// of the router to it.
    pub fn connect(&mut self, headers: &Headers) {
        if matches!(self.connection.state(), ConnectionState::Closed | ConnectionState::Listen) {
            self.headers = *headers;
            self.wish = Some(Wish::Connect);
        }
    }

    /// Gives the connection up, by the next [`poll`], which sends a RST.
    pub fn abort(&mut self) {
        self.wish = Some(Wish::Abort);
    }

    /// The peer, once it is known.
    #[must_use]
    pub fn peer(&self) -> Option<SocketAddr> {
        let is_known = self.headers.dst.port() != 0 && self.connection.state() != ConnectionState::Listen;
        is_known.then_some(self.headers.dst)
    }

    fn is_between(&self, own: SocketAddr, peer: SocketAddr) -> bool {
        let state = self.connection.state();
        !matches!(state, ConnectionState::Closed | ConnectionState::Listen)
            && (self.headers.src, self.headers.dst) == (own, peer)
    }

    fn listens_at(&self, port: u16) -> bool {
        let is_listening = self.connection.state() == ConnectionState::Listen && self.wish.is_none();
        is_listening && self.headers.src.port() == port
    }

    /// Sends what the application wished, and what is to be sent at this time.
    fn tick<D: Device>(
        &mut self,
        link: &mut Link<D>,
        now: Duration,
        random: &mut impl FnMut() -> u32,
    ) -> Result<(), Error> {
        let first = match self.wish.take() {
            Some(Wish::Connect) => self.connection.connect(now, SeqNumber(random())),
            Some(Wish::Abort) => self.connection.abort(),
            None => None,
        };
        link.send(&mut self.headers, first)?;
        while let Some(segment) = self.connection.tick(now) {
            link.send(&mut self.headers, Some(segment))?;
        }
        Ok(())
    }
}

/// A device, with room for a frame that it sends.
struct Link<'a, D> {
    device: &'a mut D,
    out: &'a mut [u8],
}

/// The next identification. Packets that may be fragmented have different ones, also those of two sockets (RFC 6864,
/// section 4.3).
static IDENT: AtomicU16 = AtomicU16::new(1);

impl<D: Device> Link<'_, D> {
    fn send(&mut self, headers: &mut Headers, segment: Option<Segment>) -> Result<(), Error> {
        if let Some(Segment { tcp, options, payload }) = segment {
            if headers.src.is_ipv4() && !headers.ip.dont_fragment {
                headers.ip.ident = IDENT.fetch_add(1, Ordering::Relaxed).into();
            }
            self.device.send(headers.emit_tcp(&tcp, &options, payload, self.out)?);
        }
        Ok(())
    }
}

/// How many frames one [`poll`] receives. So a flood of frames does not keep the program from its timers.
const FRAMES: usize = 64;

/// Receives the frames that are there, at most 64, sends what is to be sent at this time, and returns when to poll again if
/// no frame comes and nothing is written, read or closed before. `None`: never. After 64 frames this time is `now`.
///
/// A frame for no connection gets the [answer of the host](Host::answer), so that ARP, neighbour discovery and pings work,
/// and a segment for none gets a RST. `random` gives initial sequence numbers, which are hard to guess. The buffers are for
/// a frame that is received and one that is sent: the MTU and 14 bytes.
///
/// ICMP errors about the path MTU are taken (RFC 1191, RFC 8201). Not supported: fragments.
///
/// # Errors
///
/// Those of [`Headers::emit_tcp`]: `headers` of [`Socket::connect`] cannot be sent, or `mss` of the connection
/// needs larger buffers.
///
/// ```no_run
/// use ip_wire_c::{poll, Connection, ConnectionConfig, Device, Host, Socket};
/// # fn serve(mut device: impl Device, host: Host, random: fn() -> u32) -> Result<(), ip_wire_c::Error> {
/// let ring = || vec![0; 65536];
/// let mut sockets = [0; 8].map(|_| Socket::new(&ConnectionConfig::default(), ring(), ring()));
/// let (start, mut buffers, mut bytes) = (std::time::Instant::now(), [[0; 1514]; 2], [0; 4096]);
/// sockets.iter_mut().for_each(|socket| socket.listen(7));
/// loop {
///     let due = poll(&mut device, &host, &mut sockets, start.elapsed(), random, &mut buffers)?;
///     for Socket { connection, .. } in &mut sockets {
///         if connection.unacked() == 0 {
///             let len = connection.read(&mut bytes);
///             connection.write(&bytes[..len]);
///         }
///         if connection.at_eof() {
///             connection.close();
///         }
///     }
///     // .. wait until a frame comes or this time, if nothing was read
/// #   let _ = due;
/// }
/// # }
/// ```
pub fn poll<M: AsMut<[u8]>, const FRAME: usize>(
    device: &mut impl Device,
    host: &Host,
    sockets: &mut [Socket<M>],
    now: Duration,
    mut random: impl FnMut() -> u32,
    buffers: &mut [[u8; FRAME]; 2],
) -> Result<Option<Duration>, Error> {
    let [received, out] = buffers;
    let mut link = Link { device, out };
    let mut count = 0;
    while count < FRAMES {
        let len = link.device.receive(received);
        if len == 0 {
            break;
        }
        count += 1;
        let bytes = &mut received[..len.min(FRAME)];
        if link.device.partial_checksums() {
            complete(bytes);
        }
        take(bytes, &mut link, host, sockets, now, &mut random)?;
    }
    for socket in sockets.iter_mut() {
        socket.tick(&mut link, now, &mut random)?;
    }
    let due = sockets.iter().filter_map(|socket| socket.connection.next_timeout()).min();
    Ok(if count == FRAMES { Some(now) } else { due })
}

/// Computes a checksum that is left to a device.
fn complete(bytes: &mut [u8]) {
    if Frame::parse(bytes).transport_checksum() == Some(Verdict::Partial) {
        edit::fill_checksum(bytes);
    }
}

/// Handles a received frame.
fn take<M: AsMut<[u8]>, D: Device>(
    bytes: &[u8],
    link: &mut Link<D>,
    host: &Host,
    sockets: &mut [Socket<M>],
    now: Duration,
    random: &mut impl FnMut() -> u32,
) -> Result<(), Error> {
    let (frame, options) = Frame::parse_with_options(bytes);
    if let Some((socket, segment)) = find(&frame, options, host, sockets) {
        let is_listening = socket.connection.state() == ConnectionState::Listen;
        let fresh = SeqNumber(if is_listening { random() } else { 0 });
        link.send(&mut socket.headers, socket.connection.step(now, &segment, fresh))?;
        socket.tick(link, now, random)?;
    } else if learn_mtu(&frame, sockets).is_none() {
        if let Ok(Some(answer)) = host.answer(bytes, link.out) {
            link.device.send(answer);
        }
    }
    Ok(())
}

/// `None` unless a receiver may trust the frame. As for [`Host::answer`], a checksum that is left to a device is wrong.
fn check(frame: &Frame) -> Option<()> {
    frame.check().ok()?;
    (frame.transport_checksum()? == Verdict::Valid).then_some(())
}

/// The socket that a segment is for: that of its endpoints, or one that listens.
fn find<'a, 's, M: AsMut<[u8]>>(
    frame: &Frame<'a>,
    options: Option<TcpOptions>,
    host: &Host,
    sockets: &'s mut [Socket<M>],
) -> Option<(&'s mut Socket<M>, Segment<'a>)> {
    check(frame)?;
    let segment = Segment { tcp: frame.tcp()?, options: options?, payload: frame.payload() };
    let (own, peer) = (frame.dst()?, frame.src()?);
    if let Some(place) = sockets.iter().position(|socket| socket.is_between(own, peer)) {
        return Some((&mut sockets[place], segment));
    }
    let is_own = own.ip() == IpAddr::from(host.ipv4) || own.ip() == IpAddr::from(host.ipv6);
    if !is_own || frame.ethernet()?.dst != host.hardware || !is_unicast(peer.ip()) || own.ip() == peer.ip() {
        return None;
    }
    let socket = sockets.iter_mut().find(|socket| socket.listens_at(own.port()))?;
    socket.headers = frame.reply()?;
    Some((socket, segment))
}

/// Takes the path MTU of an ICMP error about a segment of a socket. Below 576 for IPv4, as the 0 of a router that tells none,
/// packets of 576 bytes may be fragmented (RFC 1191, section 5). Below 1280 for IPv6 it is not valid (RFC 8201, section 4).
fn learn_mtu<M: AsMut<[u8]>>(frame: &Frame, sockets: &mut [Socket<M>]) -> Option<()> {
    check(frame)?;
    let icmp = frame.icmp()?;
    let (mtu, least, headers_len) = match (frame.network()?, icmp.icmp_type, icmp.code) {
        (Network::Ipv4, icmp_type::UNREACHABLE, icmp_code::FRAGMENTATION_NEEDED) => {
            (icmp.word & 0xffff, 576, 40)
        }
        (Network::Ipv6, icmpv6_type::PACKET_TOO_BIG, _) if icmp.word >= 1280 => (icmp.word, 1280, 60),
        _ => return None,
    };
    let sent = frame.parse_quoted()?;
    if sent.protocol() != Some(protocol::TCP) || sent.network() != frame.network() {
        return None;
    }
    let header = sent.tcp_header().unwrap_or(sent.payload());
    let [a, b, c, d, number @ ..] = *header.first_chunk::<8>()?;
    let own = SocketAddr::new(sent.src()?.ip(), u16::from_be_bytes([a, b]));
    let peer = SocketAddr::new(sent.dst()?.ip(), u16::from_be_bytes([c, d]));
    let socket = sockets.iter_mut().find(|socket| socket.is_between(own, peer))?;
    let mss = (mtu.max(least) - headers_len).try_into().ok()?;
    if !socket.connection.too_big(SeqNumber(u32::from_be_bytes(number)), mss) {
        return None;
    }
    socket.headers.ip.dont_fragment &= mtu >= least;
    Some(())
}
