//! Addresses, CIDR prefixes and endpoints, and their texts.

use crate::sys::{self, library, Library};
use crate::Error;
use core::ffi::c_char;
use core::fmt;
use core::net::{IpAddr, Ipv4Addr, Ipv6Addr, SocketAddr};
use core::str::{from_utf8, FromStr};

impl<A: Into<IpAddr>> From<A> for sys::Addr {
    fn from(addr: A) -> Self {
        let mut octets = [0; 16];
        match addr.into() {
            IpAddr::V4(addr) => {
                octets[..4].copy_from_slice(&addr.octets());
                Self { octets, version: 4 }
            }
            IpAddr::V6(addr) => Self { octets: addr.octets(), version: 6 },
        }
    }
}

impl<E: Into<SocketAddr>> From<E> for sys::Endpoint {
    fn from(endpoint: E) -> Self {
        let endpoint = endpoint.into();
        Self { addr: endpoint.ip().into(), port: endpoint.port() }
    }
}

impl sys::Addr {
    /// The address, if there is one.
    pub fn ip(&self) -> Option<IpAddr> {
        let [a, b, c, d, ..] = self.octets;
        match self.version {
            4 => Some(Ipv4Addr::new(a, b, c, d).into()),
            6 => Some(Ipv6Addr::from(self.octets).into()),
            _ => None,
        }
    }
}

impl sys::Endpoint {
    /// The address with port 0.
    pub fn of_addr(addr: impl Into<IpAddr>) -> Self {
        Self { addr: addr.into().into(), port: 0 }
    }

    /// The address with its port, if there is one.
    pub fn socket_addr(&self) -> Option<SocketAddr> {
        Some(SocketAddr::new(self.addr.ip()?, self.port))
    }
}

/// A text does not parse.
#[derive(Clone, Copy, Debug, PartialEq, Eq, Hash)]
pub struct ParseError;

impl fmt::Display for ParseError {
    fn fmt(&self, f: &mut fmt::Formatter<'_>) -> fmt::Result {
        f.pad("the text does not parse")
    }
}

impl core::error::Error for ParseError {}

/// Parses by a call that stores a value and returns whether the text parses.
fn parse<T: Default>(
    text: &str,
    call: impl FnOnce(Library, *const c_char, usize, &mut T) -> i32,
) -> Result<T, ParseError> {
    let mut value = T::default();
    match call(library(), text.as_ptr().cast(), text.len(), &mut value) {
        0 => Err(ParseError),
        _ => Ok(value),
    }
}

/// Formats what a call prints, which has at most `CAP` bytes.
pub(crate) fn print<const CAP: usize>(
    f: &mut fmt::Formatter<'_>,
    call: impl FnOnce(Library, *mut c_char, usize) -> isize,
) -> fmt::Result {
    let mut out = [0u8; CAP];
    let len = usize::try_from(call(library(), out.as_mut_ptr().cast(), out.len()));
    let text = out.get(..len.map_err(|_| fmt::Error)?).ok_or(fmt::Error)?;
    f.pad(from_utf8(text).map_err(|_| fmt::Error)?)
}

/// Parses an IPv4 or IPv6 address. Other than by `core`, leading zeros are accepted and are decimal.
///
/// # Errors
///
/// [`ParseError`] if the text is no address, or has more than an address, such as a scope.
///
/// ```
/// assert_eq!(ip_wire_c::parse_addr("192.0.2.010").unwrap().to_string(), "192.0.2.10");
/// assert!(ip_wire_c::parse_addr("fe80::1%eth0").is_err());
/// ```
pub fn parse_addr(text: &str) -> Result<IpAddr, ParseError> {
    // SAFETY: the text has `len` bytes, and only `addr` is written.
    let addr: sys::Addr = parse(text, |c, ptr, len, addr| unsafe { c.lk_parse_addr(ptr, len, addr) })?;
    addr.ip().ok_or(ParseError)
}

/// Parses an address, ':' and a port, with an IPv6 address in brackets; or an address by itself, with port 0.
///
/// # Errors
///
/// [`ParseError`] if the text is neither, or the port is above 65535.
///
/// ```
/// assert_eq!(ip_wire_c::parse_endpoint("[2001:db8::1]:53").unwrap().port(), 53);
/// assert_eq!(ip_wire_c::parse_endpoint("192.0.2.1").unwrap().port(), 0);
/// ```
pub fn parse_endpoint(text: &str) -> Result<SocketAddr, ParseError> {
    // SAFETY: the text has `len` bytes, and only `endpoint` is written.
    let endpoint: sys::Endpoint =
        parse(text, |c, ptr, len, endpoint| unsafe { c.lk_parse_endpoint(ptr, len, endpoint) })?;
    endpoint.socket_addr().ok_or(ParseError)
}

/// Whether the address is neither multicast, nor unspecified (0.0.0.0, ::), nor 255.255.255.255.
#[must_use]
pub fn is_unicast(addr: IpAddr) -> bool {
    // SAFETY: the call reads only the address.
    unsafe { library().lk_is_unicast(&addr.into()) != 0 }
}

/// An Ethernet address. Its text is six groups of 1 or 2 hex digits, all joined by '-' or all by ':'.
///
/// ```
/// let addr: ip_wire_c::EthernetAddr = "2:0:0:0:aa:7".parse().unwrap();
/// assert_eq!(addr.to_string(), "02-00-00-00-aa-07");
/// ```
#[derive(Clone, Copy, Debug, Default, PartialEq, Eq, PartialOrd, Ord, Hash)]
pub struct EthernetAddr(pub [u8; 6]);

impl EthernetAddr {
    /// The address of all hosts.
    pub const BROADCAST: Self = Self([0xff; 6]);
}

impl From<[u8; 6]> for EthernetAddr {
    fn from(octets: [u8; 6]) -> Self {
        Self(octets)
    }
}

impl FromStr for EthernetAddr {
    type Err = ParseError;

    fn from_str(text: &str) -> Result<Self, ParseError> {
        // SAFETY: the text has `len` bytes, and `octets` has the 6 that are written.
        parse(text, |c, ptr, len, octets: &mut [u8; 6]| unsafe {
            c.lk_parse_mac(ptr, len, octets.as_mut_ptr())
        })
        .map(Self)
    }
}

impl fmt::Display for EthernetAddr {
    fn fmt(&self, f: &mut fmt::Formatter<'_>) -> fmt::Result {
        // SAFETY: there are the 6 bytes that are read, and `cap` bytes at `out`.
        print::<17>(f, |c, out, cap| unsafe { c.lk_print_mac(self.0.as_ptr(), out, cap) })
    }
}

/// A prefix (CIDR block): the addresses that have the first `prefix_len` bits of `addr`.
///
/// ```
/// let prefix: ip_wire_c::Prefix = "10.1.2.3/8".parse().unwrap();
/// assert!(prefix.contains("10.255.0.1".parse().unwrap()));
/// assert_eq!(prefix.to_string(), "10.1.2.3/8"); // the address keeps all its bits
/// ```
#[derive(Clone, Copy, Debug, PartialEq, Eq, Hash)]
pub struct Prefix {
    addr: IpAddr,
    prefix_len: u8,
}

impl Prefix {
    /// The prefix of this address and prefix length.
    ///
    /// # Errors
    ///
    /// [`Error::BadPrefix`] if the prefix is longer than the address.
    pub fn new(addr: IpAddr, prefix_len: u8) -> Result<Self, Error> {
        let most = if addr.is_ipv4() { 32 } else { 128 };
        if prefix_len > most {
            return Err(Error::BadPrefix);
        }
        Ok(Self { addr, prefix_len })
    }

    /// The address, with all its bits.
    #[must_use]
    pub fn addr(&self) -> IpAddr {
        self.addr
    }

    /// At most 32 for IPv4, 128 for IPv6.
    #[must_use]
    pub fn prefix_len(&self) -> u8 {
        self.prefix_len
    }

    /// Whether the address is in the prefix. No address is in a prefix of the other version.
    #[must_use]
    pub fn contains(&self, addr: IpAddr) -> bool {
        // SAFETY: the call reads only both values.
        unsafe { library().lk_contains(&(*self).into(), &addr.into()) != 0 }
    }
}

impl From<Prefix> for sys::Prefix {
    fn from(prefix: Prefix) -> Self {
        Self { addr: prefix.addr.into(), prefix_len: prefix.prefix_len.into() }
    }
}

impl sys::Prefix {
    /// The prefix, if it has an address and its prefix is not too long.
    pub fn prefix(&self) -> Option<Prefix> {
        Prefix::new(self.addr.ip()?, self.prefix_len.try_into().ok()?).ok()
    }

    /// The prefix of a value that was made from one.
    pub fn valid(&self) -> Prefix {
        self.prefix().expect("an address and its prefix")
    }
}

impl TryFrom<(IpAddr, u8)> for Prefix {
    type Error = Error;

    fn try_from((addr, prefix_len): (IpAddr, u8)) -> Result<Self, Error> {
        Self::new(addr, prefix_len)
    }
}

impl FromStr for Prefix {
    type Err = ParseError;

    fn from_str(text: &str) -> Result<Self, ParseError> {
        // SAFETY: the text has `len` bytes, and only `prefix` is written.
        let prefix: sys::Prefix =
            parse(text, |c, ptr, len, prefix| unsafe { c.lk_parse_prefix(ptr, len, prefix) })?;
        prefix.prefix().ok_or(ParseError)
    }
}

impl fmt::Display for Prefix {
    fn fmt(&self, f: &mut fmt::Formatter<'_>) -> fmt::Result {
        // SAFETY: the call reads only the prefix, and there are `cap` bytes at `out`.
        print::<43>(f, |c, out, cap| unsafe { c.lk_print_prefix(&(*self).into(), out, cap) })
    }
}
