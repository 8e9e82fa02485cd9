//! A NAT.

use crate::sys::{self, library, Library};
use crate::Rejection;
use core::ffi::c_int;
use core::net::Ipv4Addr;
use core::time::Duration;

/// What a [`Nat`] is made with.
#[derive(Clone, Copy, Debug, PartialEq, Eq, Hash)]
pub struct NatConfig {
    /// Random and secret: else endpoints can be chosen that compete for one port.
    pub key: [u64; 2],
    /// How long a UDP mapping lives.
    pub udp_timeout: Duration,
    /// How long a mapping of an established TCP connection lives.
    pub tcp_timeout: Duration,
    /// How long one of a TCP connection lives that opens or closes.
    pub tcp_transitory_timeout: Duration,
    /// How long a mapping of an ICMP echo lives. If it is 0, no echo reply comes in.
    pub icmp_timeout: Duration,
    /// The outside address.
    pub outside: Ipv4Addr,
    /// The first outside port. 0: there is no outside port.
    pub first_port: u16,
}

impl NatConfig {
    /// With the time-outs that RFC 4787 (REQ-5), RFC 5382 (REQ-5) and RFC 5508 (REQ-2) ask for.
    #[must_use]
    pub const fn new(key: [u64; 2], outside: Ipv4Addr, first_port: u16) -> Self {
        Self {
            key,
            udp_timeout: Duration::from_secs(300),
            tcp_timeout: Duration::from_secs(7440),
            tcp_transitory_timeout: Duration::from_secs(240),
            icmp_timeout: Duration::from_secs(60),
            outside,
            first_port,
        }
    }
}

/// As the library counts it. A longer time is the longest.
pub(crate) fn milliseconds(time: Duration) -> u64 {
    time.as_millis().try_into().unwrap_or(u64::MAX)
}

impl From<NatConfig> for sys::Nat {
    fn from(config: NatConfig) -> Self {
        Self {
            key: config.key,
            udp_timeout: milliseconds(config.udp_timeout),
            tcp_timeout: milliseconds(config.tcp_timeout),
            tcp_transitory_timeout: milliseconds(config.tcp_transitory_timeout),
            icmp_timeout: milliseconds(config.icmp_timeout),
            outside: config.outside.octets(),
            first_port: config.first_port,
            unused: 0,
        }
    }
}

/// The place of one mapping in a [`Nat`].
#[derive(Clone, Copy, Debug, PartialEq, Eq, Hash)]
#[repr(transparent)]
pub struct Mapping(sys::Mapping);

impl Mapping {
    /// A mapping of no endpoint.
    pub const FREE: Self = Self(sys::Mapping {
        expires: 0,
        inside: [0; 4],
        remote: [0; 4],
        inside_port: 0,
        remote_port: 0,
        state: 0,
        shared: 0,
        reach: 0,
    });

    /// How many mappings so many outside ports need: each has one of UDP, one of TCP and one of ICMP.
    #[must_use]
    pub const fn count(ports: u16) -> usize {
        3 * ports as usize
    }
}

/// A NAT with one outside address (RFC 3022, RFC 4787). It keeps the memory that it is given for its mappings: a slice,
/// an array, or a `Vec` of a program with `std`.
///
/// A mapping belongs to one inside endpoint, whatever the remote endpoints are. It lives until its time-out has passed
/// since the last packet of this endpoint. `ip_wire.h` describes ports, TCP connections and ICMP messages.
///
/// ```
/// use ip_wire_c::{Frame, Mapping, Nat, NatConfig, Rejection};
/// use std::time::Instant;
/// # use ip_wire_c::{Ethernet, Headers, Ip};
/// # let random = || 4;
/// # let (src, dst) = ("192.0.2.1:4000".parse().unwrap(), "198.51.100.7:53".parse().unwrap());
/// # let mut out = [0; 64];
/// # let headers = Headers { ethernet: Ethernet::default(), src, dst, ip: Ip::default() };
/// # let frame = headers.emit_udp(b"ping", &mut out).unwrap();
///
/// let config = NatConfig::new([random(), random()], [203, 0, 113, 9].into(), 1024);
/// let mut nat = Nat::new(&config, vec![Mapping::FREE; Mapping::count(u16::MAX - 1023)]);
/// let start = Instant::now();
///
/// nat.translate_out(start.elapsed(), frame)?;
/// assert_eq!(Frame::parse(frame).src(), "203.0.113.9:4000".parse().ok());
/// # Ok::<(), Rejection>(())
/// ```
#[derive(Clone, Debug)]
pub struct Nat<M> {
    nat: sys::Nat,
    mappings: M,
}

/// Either call that translates by a table.
type Call = unsafe fn(Library, &sys::Nat, *mut sys::Mapping, usize, u64, *mut u8, usize) -> c_int;

impl<M: AsMut<[Mapping]>> Nat<M> {
    /// A NAT without a live mapping. [`Mapping::count`] mappings give so many outside ports from `first_port` on, but
    /// none above 65535.
    pub fn new(config: &NatConfig, mut mappings: M) -> Self {
        mappings.as_mut().fill(Mapping::FREE);
        Self { nat: (*config).into(), mappings }
    }

    /// Translates the source of a packet that leaves, in place. `now` is the time since a fixed moment, and never goes
    /// back.
    ///
    /// # Errors
    ///
    /// Any [`Rejection`] from [`NotIp`](Rejection::NotIp) to [`NoFreePort`](Rejection::NoFreePort) but
    /// [`HopLimitTooLow`](Rejection::HopLimitTooLow). The frame is unchanged then.
    pub fn translate_out(&mut self, now: Duration, frame: &mut [u8]) -> Result<(), Rejection> {
        self.translate(Library::lk_translate_out, now, frame)
    }

    /// Translates the destination of a packet that comes in, in place. `now` is the time since the same moment.
    ///
    /// # Errors
    ///
    /// Any [`Rejection`] from [`NotIp`](Rejection::NotIp) to [`NoMapping`](Rejection::NoMapping) but
    /// [`HopLimitTooLow`](Rejection::HopLimitTooLow). The frame is unchanged then.
    pub fn translate_in(&mut self, now: Duration, frame: &mut [u8]) -> Result<(), Rejection> {
        self.translate(Library::lk_translate_in, now, frame)
    }

    /// Shortens the search for the port of a new endpoint, after mappings have ended. Call it now and then, as once a
    /// minute: it reads all mappings. Each endpoint keeps its outside port.
    pub fn shrink_reach(&mut self, now: Duration) {
        let (mappings, now) = (self.mappings.as_mut(), milliseconds(now));
        let (table, count) = (mappings.as_mut_ptr().cast(), mappings.len());
        // SAFETY: there are `count` mappings, which are those of C.
        unsafe { library().lk_shrink_reach(&self.nat, table, count, now) }
    }

    /// The mappings, for example for another NAT.
    pub fn into_mappings(self) -> M {
        self.mappings
    }

    fn translate(&mut self, call: Call, now: Duration, frame: &mut [u8]) -> Result<(), Rejection> {
        let (mappings, now) = (self.mappings.as_mut(), milliseconds(now));
        let (table, count) = (mappings.as_mut_ptr().cast(), mappings.len());
        // SAFETY: there are `count` mappings, which are those of C, and `len` bytes of the frame.
        Rejection::check(unsafe {
            call(library(), &self.nat, table, count, now, frame.as_mut_ptr(), frame.len())
        })
    }
}
