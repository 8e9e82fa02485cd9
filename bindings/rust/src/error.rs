//! The enums: what the library says in numbers.

use core::ffi::c_int;
use core::fmt;

/// Declares an enum whose values have the numbers from 1 on in C, and texts.
macro_rules! numbered {
    ($(#[$meta:meta])* enum $name:ident { $($variant:ident: $text:literal,)* }) => {
        $(#[$meta])*
        #[derive(Clone, Copy, Debug, PartialEq, Eq, Hash)]
        #[non_exhaustive]
        pub enum $name {
            $(#[doc = concat!($text, ".")] $variant,)*
        }

        impl $name {
            const ALL: &'static [Self] = &[$(Self::$variant),*];

            /// The value of a number. 0 is none.
            pub(crate) fn of_number(number: usize) -> Option<Self> {
                Some(Self::ALL[number.checked_sub(1)?]) // the header has no other numbers
            }
        }

        impl fmt::Display for $name {
            fn fmt(&self, f: &mut fmt::Formatter<'_>) -> fmt::Result {
                f.pad(match self {
                    $(Self::$variant => $text,)*
                })
            }
        }
    };
}

numbered! {
    /// Why a call wrote nothing. If several failures apply to a call, it is the first of them.
    enum Error {
        NoVersion: "an address has another version than the call can write",
        TwoVersions: "one address is IPv4, the other IPv6",
        BadPrefix: "the prefix length is above 32 for IPv4, or above 128 for IPv6",
        PortZero: "a port is 0 that a receiver rejects",
        NoHopLimit: "the hop limit is 0",
        BadField: "a field of the IP header has a value that this header has no place for",
        TwoControls: "more than one of SYN, FIN and RST is set",
        OptionsTooLong: "the TCP options have more than 40 bytes, or more than 4 SACK ranges",
        PayloadTooLong: "the payload is longer than the length field can say, or than the memory of a packet",
        NoHeader: "the frame has no valid header: the one to be rebuilt, cut or put together",
        NoRoom: "the result is longer than the buffer",
        DontFragment: "the packet is longer than the MTU, and has DF",
        Dropped: "the fragments of the packet contradict each other",
    }
}

impl core::error::Error for Error {}

impl Error {
    /// The length or count that a call returned. A number below 0 is a failure.
    pub(crate) fn check(returned: isize) -> Result<usize, Self> {
        let failure = |_| Self::of_number(returned.unsigned_abs() >> 40).expect("a failure of ip_wire.h");
        usize::try_from(returned).map_err(failure)
    }
}

numbered! {
    /// Why a header was rejected. If several reasons apply to it, it is the first of them.
    enum Reason {
        TooShort: "there are fewer bytes than the shortest header has",
        BadVersion: "the IP version is not that of the EtherType or link type, or neither 4 nor 6",
        BadLength: "a length field does not fit",
        OtherArp: "ARP is for other addresses than Ethernet and IPv4",
        PortZero: "a port is 0",
        BadFlags: "TCP has more than one of SYN, FIN and RST",
        BadOptions: "a TCP option is malformed",
        HeaderCut: "the header was not captured as a whole",
        UnknownLink: "the link type is unknown",
        HopsLeft: "an IPv6 routing header has segments left",
        BadOrder: "IPv6 hop-by-hop options do not follow the IPv6 header directly",
    }
}

impl core::error::Error for Reason {}

numbered! {
    /// Why a frame is not forwarded, translated or accepted. If several reasons apply, it is the first of them.
    enum Rejection {
        NoIpv4: "the endpoint to be written has no IPv4 address",
        NotIp: "the frame has no IPv4 or IPv6 packet, or for NAT no IPv4 packet",
        BadHeader: "the version of the IP header does not match the EtherType, or its lengths do not fit",
        WrongChecksum: "the checksum of the IPv4 header is wrong",
        HopLimitTooLow: "the hop limit is 0 or 1",
        Fragment: "the packet is a fragment, which NAT does not translate",
        OtherProtocol: "the packet has no UDP, no TCP and no ICMP message that is translated",
        BadTransport: "the UDP or TCP header is rejected, a checksum is wrong, or an ICMP error quotes too little",
        PortZero: "a port is 0",
        NoMapping: "no live mapping has this outside address and port",
        NoFreePort: "no outside port is free for this endpoint",
        Martian: "no host may send from this address",
        NoRouteToSource: "there is no route back to the source",
        OtherInterface: "the route back to the source leads to another interface",
    }
}

impl core::error::Error for Rejection {}

impl Rejection {
    /// What a call returned: 0, or why the frame is rejected.
    pub(crate) fn check(returned: c_int) -> Result<(), Self> {
        Self::of_number(returned.unsigned_abs() as usize).map_or(Ok(()), Err)
    }
}

numbered! {
    /// What a checksum says.
    enum Verdict {
        Valid: "the checksum is right",
        Invalid: "the checksum is wrong",
        Omitted: "the sender computed no checksum (UDP over IPv4)",
        Partial: "only the pseudo-header is summed (checksum offload)",
        Cut: "not all bytes that the checksum covers were captured",
    }
}

numbered! {
    /// The protocol after the Ethernet header.
    enum Network {
        Arp: "ARP",
        Ipv4: "IPv4",
        Ipv6: "IPv6",
    }
}

numbered! {
    /// The protocol after the IP header.
    enum Transport {
        Udp: "UDP",
        Tcp: "TCP",
        Icmp: "ICMP",
    }
}

numbered! {
    /// Where a TCP connection is (RFC 9293, section 3.3.2).
    enum ConnectionState {
        Closed: "CLOSED",
        Listen: "LISTEN",
        SynSent: "SYN-SENT",
        SynReceived: "SYN-RECEIVED",
        Established: "ESTABLISHED",
        FinWait1: "FIN-WAIT-1",
        FinWait2: "FIN-WAIT-2",
        CloseWait: "CLOSE-WAIT",
        Closing: "CLOSING",
        LastAck: "LAST-ACK",
        TimeWait: "TIME-WAIT",
    }
}

/// Why a receiver should drop a frame.
#[derive(Clone, Copy, Debug, PartialEq, Eq, Hash)]
#[non_exhaustive]
pub enum Defect {
    /// A header was rejected.
    Rejected(Reason),
    /// The checksum of IPv4, UDP, TCP or ICMP is wrong.
    WrongChecksum,
}

impl fmt::Display for Defect {
    fn fmt(&self, f: &mut fmt::Formatter<'_>) -> fmt::Result {
        match self {
            Self::Rejected(reason) => write!(f, "a header was rejected: {reason}"),
            Self::WrongChecksum => f.pad("a checksum is wrong"),
        }
    }
}

impl core::error::Error for Defect {}
