//! Neighbour discovery, and ICMP errors.

use crate::emit::write;
use crate::sys::{self, library};
use crate::{Error, Ethernet, EthernetAddr};
use core::ffi::c_int;
use core::net::{IpAddr, Ipv4Addr, Ipv6Addr};

/// A neighbour solicitation or advertisement (RFC 4861, sections 4.3 and 4.4).
#[derive(Clone, Copy, Debug, PartialEq, Eq, Hash)]
pub struct Ndisc {
    /// The address that is asked for, or of the sender.
    pub target: Ipv6Addr,
    /// The link-layer address option: of the source in a solicitation, else of the target.
    pub hardware: Option<EthernetAddr>,
    /// The flags of an advertisement. `None`: it is a solicitation.
    pub advert: Option<AdvertFlags>,
}

/// The flags of a neighbour advertisement.
#[derive(Clone, Copy, Debug, Default, PartialEq, Eq, Hash)]
pub struct AdvertFlags {
    /// R: the sender is a router.
    pub is_router: bool,
    /// S: it answers a solicitation.
    pub is_solicited: bool,
    /// O: the hardware address replaces one that is known.
    pub overrides: bool,
}

impl Ndisc {
    /// A solicitation with the hardware address of its sender.
    #[must_use]
    pub fn solicitation(target: Ipv6Addr, own: EthernetAddr) -> Self {
        Self { target, hardware: Some(own), advert: None }
    }

    /// Parses the message in an Ethernet frame. `None`: the frame has none that is valid (RFC 4861, sections 7.1.1
    /// and 7.1.2).
    #[must_use]
    pub fn parse(frame: &[u8]) -> Option<Self> {
        let mut fields = sys::Ndisc::default();
        // SAFETY: there are `len` bytes at `ptr`, and only `fields` is written.
        let found = unsafe { library().lk_find_ndisc(frame.as_ptr(), frame.len(), &mut fields) };
        match fields.target.ip()? {
            IpAddr::V6(target) if found == 1 => Some(Self {
                target,
                hardware: (fields.has_hardware != 0).then(|| fields.hardware.into()),
                advert: (fields.is_advert != 0).then_some(AdvertFlags {
                    is_router: fields.is_router != 0,
                    is_solicited: fields.is_solicited != 0,
                    overrides: fields.overrides != 0,
                }),
            }),
            _ => None,
        }
    }

    /// Writes a whole frame, of 78 bytes or 86. The hop limit is 255.
    ///
    /// # Errors
    ///
    /// [`Error::BadField`] if [`Ndisc::parse`] would reject the message for its addresses or flags, and [`Error::NoRoom`].
    ///
    /// ```
    /// use ip_wire_c::{Ethernet, EthernetAddr, Ndisc};
    ///
    /// let own = EthernetAddr([2, 0, 0, 0, 0, 1]);
    /// let ask = Ndisc::solicitation("fe80::2".parse().unwrap(), own);
    /// let to_group = Ethernet::new(own, EthernetAddr([0x33, 0x33, 0xff, 0, 0, 2]));
    /// let (src, dst) = ("fe80::1".parse().unwrap(), "ff02::1:ff00:2".parse().unwrap());
    /// let mut out = [0; 86];
    /// assert_eq!(Ndisc::parse(ask.emit(&to_group, src, dst, &mut out).unwrap()), Some(ask));
    /// ```
    pub fn emit<'o>(
        &self,
        ethernet: &Ethernet,
        src: Ipv6Addr,
        dst: Ipv6Addr,
        out: &'o mut [u8],
    ) -> Result<&'o mut [u8], Error> {
        let headers = sys::Frame {
            ethernet: (*ethernet).into(),
            src: sys::Endpoint::of_addr(src),
            dst: sys::Endpoint::of_addr(dst),
            ..sys::Frame::default()
        };
        let flags = self.advert.unwrap_or_default();
        let fields = sys::Ndisc {
            target: self.target.into(),
            hardware: self.hardware.unwrap_or_default().0,
            has_hardware: self.hardware.is_some().into(),
            is_advert: self.advert.is_some().into(),
            is_router: flags.is_router.into(),
            is_solicited: flags.is_solicited.into(),
            overrides: flags.overrides.into(),
        };
        // SAFETY: the call reads only headers and message, and there are `cap` bytes at `out`.
        write(out, |c, out, cap| unsafe { c.lk_emit_ndisc_frame(&headers, &fields, out, cap) })
    }
}

/// Why a packet was dropped.
#[derive(Clone, Copy, Debug, PartialEq, Eq, Hash)]
#[non_exhaustive]
pub enum Problem {
    /// The hop limit is 0 or 1.
    HopLimitExpired,
    /// The packet is longer than this MTU of the next link, and over IPv4 has DF.
    PacketTooBig(u32),
    /// There is no route.
    NoRouteToDestination,
    /// The next hop has no hardware address.
    NeighbourMissing,
    /// Nothing is at the port.
    PortClosed,
    /// A filter rejects the packet.
    Prohibited,
    /// The packet is a first fragment, and the others did not come in time.
    FragmentMissing,
}

impl Problem {
    pub(crate) fn number(self) -> c_int {
        match self {
            Self::HopLimitExpired => 1,
            Self::PacketTooBig(_) => 2,
            Self::NoRouteToDestination => 3,
            Self::NeighbourMissing => 4,
            Self::PortClosed => 5,
            Self::Prohibited => 6,
            Self::FragmentMissing => 7,
        }
    }
}

/// An interface of a host or router.
#[derive(Clone, Copy, Debug, PartialEq, Eq, Hash)]
pub struct Interface {
    /// Its IPv4 address. 0.0.0.0 is none.
    pub ipv4: Ipv4Addr,
    /// Its IPv6 address. `::` is none.
    pub ipv6: Ipv6Addr,
    /// Its Ethernet address.
    pub hardware: EthernetAddr,
}

impl Interface {
    /// Writes an Ethernet frame with an ICMP error about a frame that came in by the interface, to its sender. `None`:
    /// the frame may get none; `ip_wire.h` has the cases.
    ///
    /// The caller limits the rate (RFC 1812, section 4.3.2.8; RFC 4443, section 2.4 f).
    ///
    /// # Errors
    ///
    /// [`Error::NoRoom`]. A buffer of 1294 bytes always suffices.
    ///
    /// ```
    /// use ip_wire_c::{EthernetAddr, Frame, Interface, Problem};
    /// # use ip_wire_c::{Ethernet, Headers, Ip};
    /// # let (src, dst) = ("192.0.2.1:4000".parse().unwrap(), "198.51.100.7:53".parse().unwrap());
    /// # let mut room = [0; 64];
    /// # let ethernet = Ethernet::new(EthernetAddr([2, 0, 0, 0, 0, 9]), EthernetAddr([2, 0, 0, 0, 0, 1]));
    /// # let frame = Headers { ethernet, src, dst, ip: Ip::default() }.emit_udp(b"ping", &mut room).unwrap();
    ///
    /// let own = Interface {
    ///     ipv4: [192, 0, 2, 254].into(),
    ///     ipv6: "2001:db8::fe".parse().unwrap(),
    ///     hardware: EthernetAddr([2, 0, 0, 0, 0, 1]),
    /// };
    /// let mut out = [0; 1294];
    /// if let Some(error) = own.emit_error(Problem::NoRouteToDestination, frame, &mut out)? {
    ///     let error = Frame::parse(error);
    ///     assert_eq!(error.icmp().unwrap().icmp_type, 3); // destination unreachable
    /// }
    /// # assert!(own.emit_error(Problem::NoRouteToDestination, frame, &mut out)?.is_some());
    /// # Ok::<(), ip_wire_c::Error>(())
    /// ```
    pub fn emit_error<'o>(
        &self,
        problem: Problem,
        frame: &[u8],
        out: &'o mut [u8],
    ) -> Result<Option<&'o mut [u8]>, Error> {
        let own =
            sys::Interface { ipv4: self.ipv4.into(), ipv6: self.ipv6.into(), hardware: self.hardware.0 };
        let mtu = if let Problem::PacketTooBig(mtu) = problem { mtu } else { 0 };
        // SAFETY: the call reads only the interface and the `len` bytes at `ptr`, and there are `cap` bytes at `out`.
        let error = write(out, |c, out, cap| unsafe {
            c.lk_emit_icmp_error(&own, problem.number(), mtu, frame.as_ptr(), frame.len(), out, cap)
        })?;
        Ok(if error.is_empty() { None } else { Some(error) })
    }
}
