//! Internet checksums (RFC 1071), and their update after a change (RFC 1624).
//!
//! An update returns the checksum field after a part of what it covers changed from `before` to `after`.
//! Call once for each changed part. `update` is for a 16-bit word at an even offset, `update_addr` for an
//! address, and `update_bytes` for bytes at any offset. UDP has calls of its own: a field of 0, which means
//! that there is no checksum, stays 0, and a computed 0 becomes 0xffff (RFC 768).
//!
//! ```
//! use ip_wire_c::checksum;
//!
//! let sum = checksum::sum(&[0x12, 0x34, 0x56, 0x78]);
//! assert_eq!(checksum::update(!sum, 0x5678, 0x0001), !checksum::sum(&[0x12, 0x34, 0, 1]));
//! ```

use crate::sys::library;
use core::net::IpAddr;

/// The checksum before its complement: the one's complement sum of the 16-bit big-endian words. An odd
/// last byte is the high byte of a word. The sum is 0 only if every byte is 0.
#[must_use]
pub fn sum(bytes: &[u8]) -> u16 {
    // SAFETY: there are `len` bytes at `ptr`.
    unsafe { library().lk_checksum(bytes.as_ptr(), bytes.len()) }
}

/// After a 16-bit word changed. For IPv4, TCP and ICMP.
#[must_use]
pub fn update(checksum: u16, before: u16, after: u16) -> u16 {
    // SAFETY: this call takes only numbers.
    unsafe { library().lk_update_checksum(checksum, before, after) }
}

/// After an address of the pseudo-header or of the IPv4 header changed. For IPv4, TCP and ICMP.
///
/// A field that was left to the device is the complement of another one, and covers only the pseudo-header:
/// `!update_addr(!field, before, after)`.
#[must_use]
pub fn update_addr(checksum: u16, before: IpAddr, after: IpAddr) -> u16 {
    // SAFETY: the call reads only both addresses.
    unsafe { library().lk_update_checksum_addr(checksum, &before.into(), &after.into()) }
}

/// After the bytes `before` were replaced by `after`. For IPv4, TCP and ICMP.
///
/// `offset` is that of the first one in the IPv4, TCP, UDP or ICMP header and its payload. If it is odd, this byte
/// is the low one of a word (RFC 1071, section 2 B). The lengths are equal or differ by an even number, unless nothing
/// follows the bytes. A length field that changes too is another part.
///
/// ```
/// # use ip_wire_c::checksum;
/// // An MSS of 1440 after one no-operation becomes 1220.
/// let (before, after) = ([1, 2, 4, 5, 160], [1, 2, 4, 4, 196]);
/// let field = checksum::update_bytes(!checksum::sum(&before), 3, &before[3..], &after[3..]);
/// assert_eq!(field, !checksum::sum(&after));
/// ```
#[must_use]
pub fn update_bytes(checksum: u16, offset: usize, before: &[u8], after: &[u8]) -> u16 {
    // SAFETY: there are `before_len` bytes at `before`, and `after_len` at `after`.
    unsafe {
        library().lk_update_checksum_bytes(
            checksum,
            offset,
            before.as_ptr(),
            before.len(),
            after.as_ptr(),
            after.len(),
        )
    }
}

/// After a 16-bit word changed. For UDP.
#[must_use]
pub fn update_udp(checksum: u16, before: u16, after: u16) -> u16 {
    // SAFETY: this call takes only numbers.
    unsafe { library().lk_update_udp_checksum(checksum, before, after) }
}

/// After an address of the pseudo-header changed. For UDP.
#[must_use]
pub fn update_udp_addr(checksum: u16, before: IpAddr, after: IpAddr) -> u16 {
    // SAFETY: the call reads only both addresses.
    unsafe { library().lk_update_udp_checksum_addr(checksum, &before.into(), &after.into()) }
}

/// After the bytes `before` were replaced by `after`, as [`update_bytes`]. For UDP.
#[must_use]
pub fn update_udp_bytes(checksum: u16, offset: usize, before: &[u8], after: &[u8]) -> u16 {
    // SAFETY: there are `before_len` bytes at `before`, and `after_len` at `after`.
    unsafe {
        library().lk_update_udp_checksum_bytes(
            checksum,
            offset,
            before.as_ptr(),
            before.len(),
            after.as_ptr(),
            after.len(),
        )
    }
}
