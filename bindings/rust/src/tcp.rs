//! TCP headers (RFC 9293) and their options (RFC 2018, RFC 7323).

use crate::sys::{self, library};
use crate::{Error, Reason};
use core::fmt;
use core::iter::FusedIterator;
use core::ops::{Add, BitAnd, BitAndAssign, BitOr, BitOrAssign, Deref, Not, Sub};

/// A sequence number, modulo 2^32. There is no order on them, only a distance (RFC 9293, section 3.4).
///
/// ```
/// use ip_wire_c::SeqNumber;
///
/// let last = SeqNumber(u32::MAX);
/// assert!(last.is_before(last + 2));
/// assert_eq!(last + 2 - last, 2);
/// ```
#[derive(Clone, Copy, Debug, Default, PartialEq, Eq, Hash)]
pub struct SeqNumber(pub u32);

impl SeqNumber {
    /// Whether this number is before the other. At a distance of 2^31 each is before the other.
    #[must_use]
    pub fn is_before(self, other: Self) -> bool {
        // SAFETY: this call takes only numbers.
        unsafe { library().lk_compare_seq(self.0, other.0) < 0 }
    }
}

impl Add<u32> for SeqNumber {
    type Output = Self;

    fn add(self, steps: u32) -> Self {
        // SAFETY: this call takes only numbers.
        Self(unsafe { library().lk_add_seq(self.0, steps) })
    }
}

impl Sub for SeqNumber {
    type Output = i32;

    /// How far this number is after the other; below 0 if it is before. At a distance of 2^31 it is -2^31.
    fn sub(self, other: Self) -> i32 {
        // SAFETY: this call takes only numbers.
        unsafe { library().lk_subtract_seq(self.0, other.0) }
    }
}

/// A set of flags of a TCP header.
///
/// ```
/// use ip_wire_c::TcpFlags;
///
/// let flags = TcpFlags::SYN | TcpFlags::ACK;
/// assert!(flags.contains(TcpFlags::SYN) && !flags.contains(TcpFlags::RST));
/// assert_eq!(flags & !TcpFlags::ACK, TcpFlags::SYN);
/// assert_eq!(flags.to_string(), "SYN ACK");
/// ```
#[derive(Clone, Copy, Debug, Default, PartialEq, Eq, Hash)]
pub struct TcpFlags(u8);

macro_rules! flags {
    ($($name:ident: $bit:literal,)*) => {
        impl TcpFlags {
            $(#[doc = concat!("Only ", stringify!($name), ".")] pub const $name: Self = Self(1 << $bit);)*
            const NAMES: &'static [&'static str] = &[$(stringify!($name)),*];
        }
    };
}

flags! { FIN: 0, SYN: 1, RST: 2, PSH: 3, ACK: 4, URG: 5, ECE: 6, CWR: 7, }

impl TcpFlags {
    /// The flags of these bits, with FIN as the lowest.
    #[must_use]
    pub const fn from_bits(bits: u8) -> Self {
        Self(bits)
    }

    /// The bits, with FIN as the lowest.
    #[must_use]
    pub const fn bits(self) -> u8 {
        self.0
    }

    /// Whether all these flags are set.
    #[must_use]
    pub const fn contains(self, flags: Self) -> bool {
        self.0 & flags.0 == flags.0
    }
}

impl BitOr for TcpFlags {
    type Output = Self;

    fn bitor(self, flags: Self) -> Self {
        Self(self.0 | flags.0)
    }
}

impl BitAnd for TcpFlags {
    type Output = Self;

    fn bitand(self, flags: Self) -> Self {
        Self(self.0 & flags.0)
    }
}

impl Not for TcpFlags {
    type Output = Self;

    fn not(self) -> Self {
        Self(!self.0)
    }
}

impl BitOrAssign for TcpFlags {
    fn bitor_assign(&mut self, flags: Self) {
        *self = *self | flags;
    }
}

impl BitAndAssign for TcpFlags {
    fn bitand_assign(&mut self, flags: Self) {
        *self = *self & flags;
    }
}

impl fmt::Display for TcpFlags {
    fn fmt(&self, f: &mut fmt::Formatter<'_>) -> fmt::Result {
        let mut blank = "";
        for (bit, name) in Self::NAMES.iter().enumerate() {
            if self.contains(Self(1 << bit)) {
                write!(f, "{blank}{name}")?;
                blank = " ";
            }
        }
        Ok(())
    }
}

/// A TCP header without its ports, checksum and options.
#[derive(Clone, Copy, Debug, Default, PartialEq, Eq, Hash)]
pub struct Tcp {
    /// The number of the first payload byte, or of SYN.
    pub seq_number: SeqNumber,
    /// The next expected number, if ACK is set.
    pub ack_number: SeqNumber,
    /// In bytes, before scaling.
    pub window_len: u16,
    /// The urgent pointer.
    pub urgent_at: u16,
    /// The flags. More than one of SYN, FIN and RST is rejected.
    pub flags: TcpFlags,
}

impl From<sys::Tcp> for Tcp {
    fn from(header: sys::Tcp) -> Self {
        Self {
            seq_number: SeqNumber(header.seq_number),
            ack_number: SeqNumber(header.ack_number),
            window_len: header.window_len,
            urgent_at: header.urgent_at,
            flags: TcpFlags(header.flags),
        }
    }
}

impl From<Tcp> for sys::Tcp {
    fn from(header: Tcp) -> Self {
        Self {
            seq_number: header.seq_number.0,
            ack_number: header.ack_number.0,
            window_len: header.window_len,
            urgent_at: header.urgent_at,
            flags: header.flags.0,
            header_len: 0, // not used when a header is emitted
        }
    }
}

/// A range of received data, from `left` up to `right`, without `right`.
#[derive(Clone, Copy, Debug, Default, PartialEq, Eq, Hash)]
pub struct SackRange {
    /// The first number that was received.
    pub left: SeqNumber,
    /// The first number after them.
    pub right: SeqNumber,
}

/// At most 4 SACK ranges. It is used as a slice.
#[derive(Clone, Copy, Debug, Default, PartialEq, Eq, Hash)]
pub struct SackRanges {
    ranges: [SackRange; 4], // zeros after `len`
    len: u8,
}

impl Deref for SackRanges {
    type Target = [SackRange];

    fn deref(&self) -> &[SackRange] {
        &self.ranges[..self.len.into()]
    }
}

impl TryFrom<&[SackRange]> for SackRanges {
    type Error = Error;

    /// Fails with [`Error::OptionsTooLong`] if there are more than 4.
    fn try_from(ranges: &[SackRange]) -> Result<Self, Error> {
        let len = u8::try_from(ranges.len()).map_err(|_| Error::OptionsTooLong)?;
        let mut result = Self { len, ..Self::default() };
        result.ranges.get_mut(..ranges.len()).ok_or(Error::OptionsTooLong)?.copy_from_slice(ranges);
        Ok(result)
    }
}

/// The timestamp option.
#[derive(Clone, Copy, Debug, Default, PartialEq, Eq, Hash)]
pub struct Timestamp {
    /// The timestamp.
    pub tsval: u32,
    /// The timestamp that it answers.
    pub tsecr: u32,
}

/// The options of a TCP header. Options of other kinds are in [`RawOptions`].
#[derive(Clone, Copy, Debug, Default, PartialEq, Eq, Hash)]
pub struct TcpOptions {
    /// In bytes.
    pub mss: Option<u16>,
    /// In bits; at most 14 is read.
    pub window_scale: Option<u8>,
    /// SACK permitted.
    pub sack_permitted: bool,
    /// The ranges. Beside `sack_permitted` zeros are written instead.
    pub sack_ranges: SackRanges,
    /// The timestamp.
    pub timestamp: Option<Timestamp>,
}

impl TcpOptions {
    /// Parses the options of a TCP header. `None` if an option before the end mark is malformed, or the header
    /// is shorter than 20 bytes or than it says. Of each kind the last option counts.
    #[must_use]
    pub fn parse(header: &[u8]) -> Option<Self> {
        let mut options = sys::TcpOptions::default();
        // SAFETY: there are `len` bytes at `ptr`, and only `options` is written.
        let is_stored = unsafe { library().lk_find_tcp_options(header.as_ptr(), header.len(), &mut options) };
        (is_stored != 0).then(|| options.into())
    }

    /// The length of a TCP header with these options, 20 to 60.
    ///
    /// # Errors
    ///
    /// [`Error::OptionsTooLong`]
    pub fn header_len(&self) -> Result<usize, Error> {
        // SAFETY: the call reads only the options.
        Error::check(unsafe { library().lk_tcp_header_len(&(*self).into()) })
    }
}

impl From<sys::TcpOptions> for TcpOptions {
    fn from(options: sys::TcpOptions) -> Self {
        let len = options.sack_range_count.min(4);
        let mut sack_ranges = SackRanges { len, ..SackRanges::default() };
        for (range, from) in sack_ranges.ranges[..len.into()].iter_mut().zip(options.sack_ranges) {
            *range = SackRange { left: SeqNumber(from.left), right: SeqNumber(from.right) };
        }
        Self {
            mss: (options.has_mss != 0).then_some(options.mss),
            window_scale: (options.has_window_scale != 0).then_some(options.window_scale),
            sack_permitted: options.sack_permitted != 0,
            sack_ranges,
            timestamp: (options.has_timestamp != 0)
                .then_some(Timestamp { tsval: options.tsval, tsecr: options.tsecr }),
        }
    }
}

impl From<TcpOptions> for sys::TcpOptions {
    fn from(options: TcpOptions) -> Self {
        let timestamp = options.timestamp.unwrap_or_default();
        Self {
            sack_ranges: options
                .sack_ranges
                .ranges
                .map(|r| sys::SackRange { left: r.left.0, right: r.right.0 }),
            tsval: timestamp.tsval,
            tsecr: timestamp.tsecr,
            mss: options.mss.unwrap_or_default(),
            window_scale: options.window_scale.unwrap_or_default(),
            sack_permitted: options.sack_permitted.into(),
            sack_range_count: options.sack_ranges.len,
            has_mss: options.mss.is_some().into(),
            has_window_scale: options.window_scale.is_some().into(),
            has_timestamp: options.timestamp.is_some().into(),
        }
    }
}

/// An option of a TCP header, of any kind.
#[derive(Clone, Copy, Debug, PartialEq, Eq, Hash)]
pub struct RawOption<'a> {
    /// 0: the end mark, 1: padding.
    pub kind: u8,
    /// Where the option begins in the header.
    pub offset: usize,
    /// What follows the kind and the length.
    pub data: &'a [u8],
}

/// The options of a TCP header, of every kind, in their order, with padding. Nothing follows the end mark. A
/// malformed option gives [`Reason::BadOptions`], and is the last.
///
/// ```
/// # use ip_wire_c::{Reason, RawOptions};
/// let mut header = [0; 24];
/// header[12] = 6 << 4; // the length of the header, in words
/// header[20..].copy_from_slice(&[1, 254, 3, 7]);
/// let kinds = RawOptions::new(&header).map(|option| option.map(|o| (o.kind, o.data)));
/// assert!(kinds.eq([Ok((1, &[][..])), Ok((254, &[7][..]))]));
/// ```
#[derive(Clone, Debug)]
pub struct RawOptions<'a> {
    header: &'a [u8],
    last: Option<sys::TcpOption>, // none: at the end
}

impl<'a> RawOptions<'a> {
    /// The options of a TCP header, which [`Frame::tcp_header`](crate::Frame::tcp_header) gives.
    #[must_use]
    pub fn new(header: &'a [u8]) -> Self {
        Self { header, last: Some(sys::TcpOption::default()) }
    }
}

impl<'a> Iterator for RawOptions<'a> {
    type Item = Result<RawOption<'a>, Reason>;

    fn next(&mut self) -> Option<Self::Item> {
        let mut option = self.last.take()?;
        // SAFETY: there are `len` bytes at `ptr`, and only `option` is written.
        match unsafe { library().lk_next_tcp_option(self.header.as_ptr(), self.header.len(), &mut option) } {
            0 if option.is_malformed == 0 => return None,
            0 => return Some(Err(Reason::BadOptions)),
            _ => self.last = Some(option),
        }
        let offset = usize::from(option.offset);
        let bytes = self.header.get(offset..offset + usize::from(option.len)).unwrap_or(&[]);
        Some(Ok(RawOption { kind: option.kind, offset, data: bytes.get(2..).unwrap_or(&[]) }))
    }
}

impl FusedIterator for RawOptions<'_> {}
