//! Multicast listener discovery (RFC 2710).

use crate::emit::write;
use crate::sys::{self, library};
use crate::{Error, Ethernet, EthernetAddr};
use core::net::Ipv6Addr;
use core::time::Duration;

/// Writes a whole frame, 86 bytes, with a report of version 1: a host says that it listens to a multicast group. A switch
/// with MLD snooping sends the frames for a group only where it got reports.
///
/// Send it when an interface comes up, and after each query that [`parse_mld_query`] finds. `src` is a link-local address,
/// or `::` if there is none (RFC 3590, section 4). The frame goes to the Ethernet address of the group, which is not
/// checked.
///
/// # Errors
///
/// [`Error::NoRoom`]
///
/// ```
/// use ip_wire_c::{emit_mld_report, Frame};
///
/// let mut out = [0; 86];
/// let own = [2, 0, 0, 0, 0, 1].into();
/// let report = emit_mld_report(own, "fe80::1".parse().unwrap(), "ff02::fb".parse().unwrap(), &mut out)?;
/// let frame = Frame::parse(report);
/// assert_eq!(frame.check(), Ok(()));
/// assert_eq!(frame.icmp().unwrap().icmp_type, 131);
/// # Ok::<(), ip_wire_c::Error>(())
/// ```
pub fn emit_mld_report(
    hardware: EthernetAddr,
    src: Ipv6Addr,
    group: Ipv6Addr,
    out: &mut [u8],
) -> Result<&mut [u8], Error> {
    let headers = sys::Frame {
        ethernet: Ethernet::new(hardware, EthernetAddr::default()).into(),
        src: sys::Endpoint::of_addr(src),
        dst: sys::Endpoint::of_addr(group),
        ..sys::Frame::default()
    };
    // SAFETY: the call reads only the headers, and there are `cap` bytes at `out`.
    write(out, |c, out, cap| unsafe { c.lk_emit_mld_report(&headers, out, cap) })
}

/// The maximum response delay of a query in an Ethernet frame that asks for a multicast group, up to 65.535 seconds: report
/// the group after a random part of it (RFC 2710, section 4).
///
/// `None`: the frame has no valid query of version 1 or 2 for all groups or for this one. `ip_wire.h` has the conditions.
#[must_use]
pub fn parse_mld_query(frame: &[u8], group: Ipv6Addr) -> Option<Duration> {
    let mut query = sys::MldQuery::default();
    // SAFETY: there are `len` bytes at `ptr`, the call reads the address, and writes only the query.
    let found =
        unsafe { library().lk_find_mld_query(frame.as_ptr(), frame.len(), &group.into(), &mut query) };
    (found != 0).then(|| Duration::from_millis(query.max_delay.into()))
}
