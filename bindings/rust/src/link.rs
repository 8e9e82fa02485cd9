//! Link-layer headers.

use crate::sys::{self, library};
use crate::Reason;

/// The link type whose header is an Ethernet header.
pub(crate) const ETHERNET: u32 = 1;

/// A link-layer header with its VLAN tags.
///
/// The link type is the number that a capture file has, or that `pcap_datalink` returns
/// (<https://www.tcpdump.org/linktypes.html>):
///
/// | Link type | Name | Header |
/// |---|---|---|
/// | 0 | NULL | an address family, in either byte order |
/// | 1 | ETHERNET | an Ethernet header |
/// | 12, 14, 101 | RAW | none: the IP version is in the first byte of the packet |
/// | 108 | LOOP | an address family, in network byte order |
/// | 113 | LINUX_SLL | the header of Linux cooked captures, 16 bytes |
/// | 228, 229 | IPV4, IPV6 | none: the packet must have this version |
/// | 276 | LINUX_SLL2 | the second version of LINUX_SLL, 20 bytes |
///
/// ```
/// # use ip_wire_c::{Frame, Link};
/// # let mut frame = [0; 46];
/// # frame[12..19].copy_from_slice(&[0x81, 0, 0xe0, 100, 8, 0, 0x45]);
/// // A frame of VLAN 100.
/// let link = Link::parse(1, &frame)?;
/// assert_eq!((link.offset(), link.ethertype(), link.tags()), (18, Some(0x0800), &[0xe064][..]));
/// assert_eq!(link.tags()[0] & 0xfff, 100);
/// let packet = &frame[link.offset()..];
/// # assert_eq!(packet[0], 0x45);
/// # Ok::<(), ip_wire_c::Reason>(())
/// ```
#[derive(Clone, Copy, Debug, PartialEq, Eq, Hash)]
pub struct Link {
    fields: sys::Link,
}

impl Link {
    /// Parses the header of a packet of which these bytes were captured.
    ///
    /// # Errors
    ///
    /// - [`Reason::UnknownLink`]: the link type is not one of the table.
    /// - [`Reason::TooShort`]: the header or a tag is not there as a whole, or without a header no byte is there.
    /// - [`Reason::BadVersion`]: a packet without a header has no version of its link type.
    pub fn parse(link_type: u32, captured: &[u8]) -> Result<Self, Reason> {
        let mut fields = sys::Link::default();
        // SAFETY: there are `captured` bytes at `ptr`, and only `fields` is written.
        let reason =
            unsafe { library().lk_read_link(link_type, captured.as_ptr(), captured.len(), &mut fields) };
        Reason::of_number(reason.unsigned_abs() as usize).map_or(Ok(Self { fields }), Err)
    }

    /// The length of the header and its VLAN tags, in bytes: there the packet begins.
    #[must_use]
    pub fn offset(&self) -> usize {
        self.fields.offset
    }

    /// The EtherType of the packet, after any tags. `None`: the header has none, or has another address family than
    /// those of IPv4 (2) and IPv6 (10, 24, 28, 30).
    ///
    /// A cooked header has none if the packet comes from a device for frame relay, radiotap or netlink.
    #[must_use]
    pub fn ethertype(&self) -> Option<u16> {
        (self.fields.r#type != 0).then_some(self.fields.r#type)
    }

    /// The control information (TCI) of each VLAN tag, the outer one first, at most 2. Its low 12 bits are the VLAN.
    ///
    /// Before a third tag the EtherType is that of a tag: 0x8100, 0x88a8 or 0x9100 (IEEE 802.1Q). The packet begins at
    /// the control information of that tag.
    #[must_use]
    pub fn tags(&self) -> &[u16] {
        self.fields.tags.get(..self.fields.tag_count.into()).unwrap_or(&[])
    }
}
