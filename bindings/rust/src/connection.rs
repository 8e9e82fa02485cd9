//! TCP connections.

use crate::nat::milliseconds;
use crate::sys::{self, library, Library};
use crate::{ConnectionState, SeqNumber, Tcp, TcpOptions};
use core::ffi::c_int;
use core::ptr;
use core::time::Duration;

/// What a [`Connection`] is made with.
#[derive(Clone, Copy, Debug, PartialEq, Eq, Hash)]
pub struct ConnectionConfig {
    /// The largest segment that it takes and sends, in bytes: the MTU without the IP and TCP header, 1460 for IPv4 over
    /// Ethernet and 1440 for IPv6. 0 is 536.
    pub mss: u16,
    /// How long a peer may be silent until it is probed, in whole seconds, at least 1.
    pub keep_alive: Duration,
    /// Whether small segments go at once, as with `TCP_NODELAY`: Nagle's algorithm is off.
    pub no_delay: bool,
}

impl Default for ConnectionConfig {
    /// Segments of 1220 bytes, which fit each MTU of IPv6; probes after two hours; Nagle's algorithm.
    fn default() -> Self {
        Self { mss: 1220, keep_alive: Duration::from_secs(7200), no_delay: false }
    }
}

/// A TCP segment without its ports.
#[derive(Clone, Copy, Debug, Default, PartialEq, Eq, Hash)]
pub struct Segment<'a> {
    /// The header.
    pub tcp: Tcp,
    /// The options of the header.
    pub options: TcpOptions,
    /// What follows the header.
    pub payload: &'a [u8],
}

impl<'a> Segment<'a> {
    fn fields(&self) -> sys::Segment {
        sys::Segment {
            tcp: self.tcp.into(),
            options: self.options.into(),
            payload: self.payload.as_ptr(),
            payload_len: self.payload.len(),
        }
    }

    /// The segment that a call stored, with its payload in this ring.
    fn of_fields(fields: &sys::Segment, ring: &'a [u8]) -> Self {
        let start = (fields.payload as usize).wrapping_sub(ring.as_ptr() as usize);
        let payload = ring.get(start..).and_then(|rest| rest.get(..fields.payload_len)).unwrap_or(&[]);
        Self { tcp: fields.tcp.into(), options: fields.options.into(), payload }
    }
}

/// One end of a TCP connection (RFC 9293), with its timers, congestion control, selective acknowledgements, window scale
/// and timestamps. It sends nothing itself: [`Socket`](crate::Socket) has a connection over a device.
///
/// It keeps the memory that it is given for the bytes that go out and come in: two slices, arrays or `Vec`s, each of at
/// least 1 byte. At most the first 2^30 - 1 bytes of each are used.
///
/// - `now` is the time since a fixed moment, and never goes back.
/// - What a call returns has to be sent. After each other call, and when the time of [`next_timeout`](Self::next_timeout) has come, call
///   [`tick`](Self::tick) until it returns `None`.
///
/// ```
/// use ip_wire_c::{Connection, ConnectionConfig, ConnectionState, SeqNumber};
/// # use std::time::Duration;
/// # let (random, now) = (|| 4, Duration::ZERO);
///
/// let config = ConnectionConfig::default();
/// let mut client = Connection::new(&config, vec![0; 65536], vec![0; 65536]);
/// let mut server = Connection::new(&config, vec![0; 65536], vec![0; 65536]);
/// server.listen();
/// let syn = client.connect(now, SeqNumber(random())).unwrap();
/// let answer = server.step(now, &syn, SeqNumber(random())).unwrap(); // SYN and ACK
/// assert!(client.step(now, &answer, SeqNumber(0)).is_some());
/// assert_eq!(client.state(), ConnectionState::Established);
/// assert_eq!(client.write(b"ping"), 4);
/// while let Some(segment) = client.tick(now) {
///     server.step(now, &segment, SeqNumber(0));
/// }
/// let mut bytes = [0; 100];
/// let len = server.read(&mut bytes);
/// assert_eq!(&bytes[..len], b"ping");
/// ```
#[derive(Clone, Debug)]
pub struct Connection<M> {
    fields: sys::Connection,
    outgoing: M,
    incoming: M,
}

/// The part of the memory that serves as a ring.
fn ring(memory: &mut impl AsMut<[u8]>) -> &mut [u8] {
    let memory = memory.as_mut();
    let len = memory.len().min((1 << 30) - 1);
    &mut memory[..len]
}

impl<M: AsMut<[u8]>> Connection<M> {
    /// A connection in the state [`Closed`](ConnectionState::Closed).
    pub fn new(config: &ConnectionConfig, outgoing: M, incoming: M) -> Self {
        let mut fields = sys::Connection { memory: [0; 64] };
        let seconds = config.keep_alive.as_secs().clamp(1, u32::MAX.into());
        // SAFETY: only `fields` is written.
        unsafe {
            library().lk_connection_init(
                &mut fields,
                config.mss,
                u32::try_from(seconds).unwrap_or(u32::MAX),
                config.no_delay.into(),
            );
        }
        Self { fields, outgoing, incoming }
    }

    /// Waits for the SYN of a peer, in `Closed`. In another state nothing happens.
    pub fn listen(&mut self) {
        // SAFETY: only `fields` is written.
        unsafe { library().lk_connection_listen(&mut self.fields) }
    }

    /// Opens the connection, from `Closed` or `Listen`, and returns its SYN. `iss` is hard to guess (RFC 6528), as random
    /// bytes are. In another state nothing happens.
    pub fn connect(&mut self, now: Duration, iss: SeqNumber) -> Option<Segment<'_>> {
        let (now, iss) = (milliseconds(now), iss.0);
        // SAFETY: the rings have these lengths, and only `it`, `i` and `out` are written.
        self.run(|c, it, o, i, out| unsafe {
            c.lk_connection_connect(it, o.as_ptr(), o.len(), i.as_mut_ptr(), i.len(), now, iss, out)
        })
    }

    /// Takes a segment of the peer, and returns the one that answers it at once. The caller has found the connection by both
    /// endpoints, and checked the checksum. `fresh` is as hard to guess as the `iss` of [`connect`](Self::connect): that of
    /// the own SYN, if this is the peer's and the connection listens. A connection in `Closed` answers with RST. Nothing
    /// happens if the payload has more than 65535 bytes.
    pub fn step(&mut self, now: Duration, segment: &Segment, fresh: SeqNumber) -> Option<Segment<'_>> {
        let (now, segment, fresh) = (milliseconds(now), segment.fields(), fresh.0);
        // SAFETY: as above. Of the segment only the bytes of its payload are read, which are there.
        self.run(|c, it, o, i, out| unsafe {
            c.lk_connection_step(it, o.as_ptr(), o.len(), i.as_mut_ptr(), i.len(), now, &segment, fresh, out)
        })
    }

    /// The next segment that is to be sent at this time. A connection whose peer was silent for too long ends, with a RST.
    pub fn tick(&mut self, now: Duration) -> Option<Segment<'_>> {
        let now = milliseconds(now);
        // SAFETY: as above.
        self.run(|c, it, o, i, out| unsafe {
            c.lk_connection_tick(it, o.as_ptr(), o.len(), i.as_mut_ptr(), i.len(), now, out)
        })
    }

    /// The segment that a call stores, if it stores one.
    fn run(
        &mut self,
        call: impl FnOnce(Library, &mut sys::Connection, &[u8], &mut [u8], &mut sys::Segment) -> c_int,
    ) -> Option<Segment<'_>> {
        let (outgoing, incoming) = (ring(&mut self.outgoing), ring(&mut self.incoming));
        let mut out = sys::Segment { payload: ptr::null(), ..Segment::default().fields() };
        let stored = call(library(), &mut self.fields, outgoing, incoming, &mut out);
        (stored == 1).then(|| Segment::of_fields(&out, outgoing))
    }

    /// Takes bytes for the peer, as far as there is room, and returns how many. 0 in `Closed` and `Listen`, and after
    /// [`close`](Self::close).
    pub fn write(&mut self, bytes: &[u8]) -> usize {
        let ring = ring(&mut self.outgoing);
        let (to, room) = (ring.as_mut_ptr(), ring.len());
        // SAFETY: the ring and the bytes have these lengths, and only the ring and `fields` are written.
        let taken =
            unsafe { library().lk_connection_write(&mut self.fields, to, room, bytes.as_ptr(), bytes.len()) };
        taken.try_into().unwrap_or(0)
    }

    /// Copies the next bytes of the peer to the beginning of `out`, and returns how many. 0: none is there yet, or the peer
    /// writes no more ([`at_eof`](Self::at_eof)).
    pub fn read(&mut self, out: &mut [u8]) -> usize {
        let ring = ring(&mut self.incoming);
        // SAFETY: the ring and `out` have these lengths, and only `out` and `fields` are written.
        let copied = unsafe {
            let (from, len) = (ring.as_ptr(), ring.len());
            library().lk_connection_read(&mut self.fields, from, len, out.as_mut_ptr(), out.len())
        };
        copied.try_into().unwrap_or(0)
    }

    /// Writes no more: a FIN follows the bytes that were written. What the peer sends can be read as before.
    pub fn close(&mut self) {
        // SAFETY: only `fields` is written.
        unsafe { library().lk_connection_close(&mut self.fields) }
    }

    /// Gives the connection up, and returns a RST for the peer, if there may be one.
    pub fn abort(&mut self) -> Option<Segment<'_>> {
        // SAFETY: only `it` and `out` are written.
        self.run(|c, it, _, _, out| unsafe { c.lk_connection_abort(it, out) })
    }

    /// When [`tick`](Self::tick) has something to do, if no other call comes before. `None`: never.
    #[must_use]
    pub fn next_timeout(&self) -> Option<Duration> {
        // SAFETY: the call only reads `fields`.
        let due = unsafe { library().lk_connection_next_timeout(&self.fields) };
        (due != u64::MAX).then(|| Duration::from_millis(due))
    }

    /// The state.
    #[must_use]
    pub fn state(&self) -> ConnectionState {
        // SAFETY: the call only reads `fields`.
        let number = unsafe { library().lk_connection_state(&self.fields) };
        ConnectionState::of_number(number.unsigned_abs() as usize + 1).unwrap_or(ConnectionState::Closed)
    }

    /// Whether all that the peer wrote was read, and it writes no more.
    #[must_use]
    pub fn at_eof(&self) -> bool {
        // SAFETY: the call only reads `fields`.
        unsafe { library().lk_connection_at_eof(&self.fields) != 0 }
    }

    /// How much the peer has not acknowledged: each byte that was written counts, and a SYN or FIN too.
    #[must_use]
    pub fn unacked(&self) -> usize {
        // SAFETY: the call only reads `fields`.
        unsafe { library().lk_connection_unacked(&self.fields) }
    }

    /// An ICMP error says that the segment with this number, which it quotes, was too big (RFC 1191, RFC 8201). `mss` is
    /// the MTU in the error without the IP header and 20 bytes. False: no such segment is in flight, and nothing changes.
    pub fn too_big(&mut self, seq_number: SeqNumber, mss: u16) -> bool {
        // SAFETY: only `fields` is written.
        unsafe { library().lk_connection_too_big(&mut self.fields, seq_number.0, mss) != 0 }
    }

    /// The memory, for example for another connection.
    pub fn into_parts(self) -> (M, M) {
        (self.outgoing, self.incoming)
    }
}
