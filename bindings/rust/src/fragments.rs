//! Fragments of IP packets.

use crate::emit::write;
use crate::Error;

/// The fragments into which an IP packet is cut for a link with this MTU (RFC 791, section 3.2; RFC 8200, section 4.5).
/// The packet and each fragment are in Ethernet frames with the same header. A packet that fits is its only fragment.
///
/// ```
/// # use ip_wire_c::{Ethernet, Error, Fragments, Frame, Headers, Ip};
/// # let (src, dst) = ("192.0.2.1:4000".parse().unwrap(), "192.0.2.2:53".parse().unwrap());
/// # let mut frame = [0; 3000];
/// # let headers = Headers { ethernet: Ethernet::default(), src, dst, ip: Ip::default() };
/// let frame = headers.emit_udp(&[0; 2000], &mut frame)?;
/// let mut fragments = Fragments::with_ident(frame, 1500, 1);
/// let mut out = [0; 1514];
/// let mut count = 0;
/// while let Some(fragment) = fragments.emit_next(&mut out)? {
///     assert!(Frame::parse(fragment).is_fragment());
///     count += 1;
/// }
/// assert_eq!(count, 2);
/// # Ok::<(), Error>(())
/// ```
#[derive(Clone, Debug)]
pub struct Fragments<'f> {
    frame: &'f [u8],
    mtu: usize,
    ident: i64,
    number: usize,
}

impl<'f> Fragments<'f> {
    /// The fragments of a packet that is forwarded. An IPv4 packet keeps its identification, and is cut only if DF is
    /// clear. An IPv6 packet is not cut.
    #[must_use]
    pub fn forwarded(frame: &'f [u8], mtu: usize) -> Self {
        Self { frame, mtu, ident: -1, number: 0 }
    }

    /// The fragments of a packet of one's own. They have this identification, over IPv4 of 16 bits, and their DF is clear.
    /// No other packet between these addresses, over IPv4 of the same protocol, may have it for two minutes (RFC 6864).
    #[must_use]
    pub fn with_ident(frame: &'f [u8], mtu: usize, ident: u32) -> Self {
        Self { frame, mtu, ident: ident.into(), number: 0 }
    }

    /// Writes the next fragment to the beginning of `out`, or returns `None` after the last one.
    ///
    /// # Errors
    ///
    /// - [`Error::BadField`]: the MTU is less than the header and 8 bytes, or the identification is too large.
    /// - [`Error::PayloadTooLong`]: an IPv4 fragment that ends after byte 65535 of its packet.
    /// - [`Error::NoHeader`]: no packet with a valid header, or a fragment of one's own. Also an IPv6 packet that has to be
    ///   cut, and has hop-by-hop options, a routing header or destination options after its header.
    /// - [`Error::NoRoom`]
    /// - [`Error::DontFragment`]
    pub fn emit_next<'o>(&mut self, out: &'o mut [u8]) -> Result<Option<&'o mut [u8]>, Error> {
        let (ptr, len) = (self.frame.as_ptr(), self.frame.len());
        // SAFETY: there are `len` bytes at `ptr`, and `cap` bytes at `out`.
        let written = write(out, |c, out, cap| unsafe {
            c.lk_fragment(ptr, len, self.mtu, self.ident, self.number, out, cap)
        })?;
        self.number += 1;
        Ok(Some(written).filter(|fragment| !fragment.is_empty()))
    }
}
