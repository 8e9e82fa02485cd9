//! Packets that are put together from their fragments.

use crate::emit::write;
use crate::nat::milliseconds;
use crate::sys::{self, library};
use crate::Error;
use core::net::{IpAddr, Ipv4Addr, Ipv6Addr};
use core::time::Duration;

/// The place of one packet in a [`Reassembler`].
#[derive(Clone, Copy, Debug, PartialEq, Eq, Hash)]
#[repr(transparent)]
pub struct Reassembly(sys::Reassembly);

impl Reassembly {
    /// The place of no packet.
    pub const FREE: Self = Self(sys::Reassembly {
        expires: 0,
        ident: 0,
        version: 0,
        protocol: 0,
        unused1: [0; 2],
        src: [0; 16],
        dst: [0; 16],
        len: 0,
        high: 0,
        header: [0; 60],
        not_ect: 0,
        ce: 0,
        unused2: [0; 2],
        dropped: 0,
        link: [0; 14],
        unused3: 0,
    });

    /// The memory of a packet that suffices for the longest, in bytes. Each 8 bytes of its payload take 9.
    pub const MEMORY: usize = 73728;

    /// When its fragments are dropped, or `None` if there are none.
    #[must_use]
    pub fn expires(&self) -> Option<Duration> {
        Some(Duration::from_millis(self.0.expires)).filter(|time| !time.is_zero())
    }

    /// The source and the destination of the packet, if there is one.
    #[must_use]
    pub fn addrs(&self) -> Option<(IpAddr, IpAddr)> {
        self.expires().map(|_| (self.addr(self.0.src), self.addr(self.0.dst)))
    }

    fn addr(&self, octets: [u8; 16]) -> IpAddr {
        let [a, b, c, d, ..] = octets;
        if self.0.version == 4 {
            Ipv4Addr::new(a, b, c, d).into()
        } else {
            Ipv6Addr::from(octets).into()
        }
    }
}

/// Puts IPv4 and IPv6 packets together from their fragments (RFC 791, section 3.2; RFC 8200, section 4.5). It keeps the
/// memory that it is given: slices, arrays, or a `Vec` of a program with `std`.
///
/// Each packet has a [`Reassembly`] and an equal part of the memory. Fragments are kept for 60 seconds. If all are in use,
/// the packet that expires first makes room. `ip_wire.h` describes which fragments belong together, and which contradict
/// each other. A host calls [`Host::answer`](crate::Host::answer) for each fragment before. If there is an answer, the
/// fragment has a fault: send the answer, and discard the fragment.
///
/// ```
/// use ip_wire_c::{Error, Frame, Reassembly, Reassembler};
/// use std::time::Instant;
/// # use ip_wire_c::{Ethernet, Fragments, Headers, Ip};
/// # let (src, dst) = ("192.0.2.1:4000".parse().unwrap(), "192.0.2.2:53".parse().unwrap());
/// # let (mut frame, mut fragment) = ([0; 3000], [0; 1514]);
/// # let headers = Headers { ethernet: Ethernet::default(), src, dst, ip: Ip::default() };
/// # let mut fragments = Fragments::with_ident(headers.emit_udp(&[7; 2000], &mut frame)?, 1500, 1);
///
/// let mut reassembler = Reassembler::new([Reassembly::FREE; 16], vec![0; 16 * Reassembly::MEMORY]);
/// let start = Instant::now();
/// let mut out = vec![0; 65589];
///
/// while let Some(bytes) = fragments.emit_next(&mut fragment)? {
///     if let Some(whole) = reassembler.reassemble(start.elapsed(), bytes, &mut out)? {
///         assert_eq!(Frame::parse(whole).payload(), [7; 2000]);
///     }
/// }
/// # Ok::<(), Error>(())
/// ```
#[derive(Clone, Debug)]
pub struct Reassembler<P, M> {
    reassemblies: P,
    memory: M,
}

impl<P: AsMut<[Reassembly]>, M: AsMut<[u8]>> Reassembler<P, M> {
    /// A reassembler without a fragment, for as many packets as there are reassemblies. With less memory than
    /// [`Reassembly::MEMORY`] for each, longer packets get [`Error::PayloadTooLong`].
    pub fn new(mut reassemblies: P, memory: M) -> Self {
        reassemblies.as_mut().fill(Reassembly::FREE);
        Self { reassemblies, memory }
    }

    /// Takes the fragment in an Ethernet frame. Returns the frame with the whole packet, at the beginning of `out`, or
    /// `None` if a part of it is missing. A packet that is not fragmented is returned at once: of IPv4 each, of IPv6 one
    /// with an atomic fragment header. 65589 bytes of `out` always suffice. `now` is the time since a fixed moment, and
    /// never goes back.
    ///
    /// # Errors
    ///
    /// - [`Error::PayloadTooLong`]: the fragment ends after what the memory of its packet can keep.
    /// - [`Error::NoHeader`]: there is no valid fragment.
    /// - [`Error::NoRoom`]: the packet is complete. Its fragments are kept, so that any of them gives it again.
    /// - [`Error::Dropped`]: the fragments of the packet contradict each other, or would make more bytes than a packet can
    ///   have. All of them are dropped until it expires.
    pub fn reassemble<'o>(
        &mut self,
        now: Duration,
        frame: &[u8],
        out: &'o mut [u8],
    ) -> Result<Option<&'o mut [u8]>, Error> {
        let (reassemblies, memory) = (self.reassemblies.as_mut(), self.memory.as_mut());
        let (table, count) = (reassemblies.as_mut_ptr().cast(), reassemblies.len());
        let (room, room_len, now) = (memory.as_mut_ptr(), memory.len(), milliseconds(now));
        // SAFETY: there are `count` reassemblies, which are those of C, and as many bytes of each slice as are said.
        let written = write(out, |c, out, cap| unsafe {
            let (ptr, len) = (frame.as_ptr(), frame.len());
            c.lk_reassemble(table, count, room, room_len, now, ptr, len, out, cap)
        })?;
        Ok(Some(written).filter(|whole| !whole.is_empty()))
    }

    /// Frees packets whose time is over, up to one whose fragment with offset 0 was received. Returns the frame with this
    /// fragment, at the beginning of `out`: an ICMP error tells its sender (time exceeded, code 1). Call it until it
    /// returns `None`. 65589 bytes of `out` always suffice.
    pub fn expire<'o>(&mut self, now: Duration, out: &'o mut [u8]) -> Option<&'o mut [u8]> {
        let (reassemblies, memory) = (self.reassemblies.as_mut(), self.memory.as_mut());
        let (table, count) = (reassemblies.as_mut_ptr().cast(), reassemblies.len());
        let (room, room_len, now) = (memory.as_ptr(), memory.len(), milliseconds(now));
        // SAFETY: as above. The call only reads the memory.
        let len = unsafe {
            library().lk_expire_reassembly(table, count, room, room_len, now, out.as_mut_ptr(), out.len())
        };
        Some(&mut out[..len]).filter(|fragment| !fragment.is_empty())
    }

    /// The places of the packets, for example to count those of a sender.
    pub fn reassemblies(&mut self) -> &[Reassembly] {
        self.reassemblies.as_mut()
    }

    /// The memory, for example for another reassembler.
    pub fn into_parts(self) -> (P, M) {
        (self.reassemblies, self.memory)
    }
}
