//! The headers of IPv6 packets.

use crate::sys::{self, library};
use crate::Reason;
use core::iter::FusedIterator;

/// A header of an IPv6 packet.
#[derive(Clone, Copy, Debug, PartialEq, Eq, Hash)]
pub struct Ipv6Header<'a> {
    /// 41: the IPv6 header, 0: hop-by-hop options, 43: routing, 44: fragment, 60: destination options.
    pub protocol: u8,
    /// The protocol of what follows the header. 59: nothing, or the middle of a packet, after the header of a
    /// fragment that is not the first.
    pub next: u8,
    /// Where the header begins in the packet.
    pub offset: usize,
    /// The whole header.
    pub bytes: &'a [u8],
}

impl Ipv6Header<'_> {
    /// Where the header ends in the packet, and what follows it begins.
    #[must_use]
    pub fn end(&self) -> usize {
        self.offset + self.bytes.len()
    }
}

/// The headers of an IPv6 packet: the IPv6 header, and then its extension headers (RFC 8200, section 4) in their
/// order. After the last one the packet of protocol [`next`](Ipv6Header::next) begins.
///
/// An error is the last item:
///
/// - [`Reason::TooShort`] or [`Reason::BadVersion`] if the IPv6 header is not there as a whole, or has another version.
/// - [`Reason::BadLength`] if the next header does not end within the packet and its captured bytes.
///
/// ```
/// # use ip_wire_c::{Ipv6Headers, Reason};
/// # let mut packet = [0; 56];
/// # packet[..8].copy_from_slice(&[0x60, 0, 0, 0, 0, 16, 0, 64]);
/// # packet[40..48].copy_from_slice(&[17, 0, 5, 2, 0, 0, 1, 0]);
/// // A UDP packet after a hop-by-hop options header.
/// let last = Ipv6Headers::new(&packet).last().unwrap()?; // there is always a header, or an error
/// assert_eq!((last.protocol, last.next, last.end()), (0, 17, 48));
/// let udp = &packet[last.end()..];
/// # assert_eq!(udp.len(), 8);
/// # Ok::<(), Reason>(())
/// ```
#[derive(Clone, Debug)]
pub struct Ipv6Headers<'a> {
    packet: &'a [u8],
    last: Option<sys::Ipv6Header>, // none: at the end
}

impl<'a> Ipv6Headers<'a> {
    /// The headers of a packet that begins with its IPv6 header, as far as it was captured.
    #[must_use]
    pub fn new(packet: &'a [u8]) -> Self {
        Self { packet, last: Some(sys::Ipv6Header::default()) }
    }
}

impl<'a> Iterator for Ipv6Headers<'a> {
    type Item = Result<Ipv6Header<'a>, Reason>;

    fn next(&mut self) -> Option<Self::Item> {
        let mut header = self.last.take()?;
        // SAFETY: there are `len` bytes at `ptr`, and only `header` is written.
        match unsafe { library().lk_next_ipv6_header(self.packet.as_ptr(), self.packet.len(), &mut header) } {
            0 if header.is_malformed == 0 => return None,
            0 if header.len != 0 => return Some(Err(Reason::BadLength)),
            0 if self.packet.len() < 40 => return Some(Err(Reason::TooShort)),
            0 => return Some(Err(Reason::BadVersion)),
            _ => self.last = Some(header),
        }
        let offset = header.offset as usize;
        let bytes = self.packet.get(offset..offset + usize::from(header.len)).unwrap_or(&[]);
        Some(Ok(Ipv6Header { protocol: header.protocol, next: header.next, offset, bytes }))
    }
}

impl FusedIterator for Ipv6Headers<'_> {}
