//! What `bench/reference.rs` uses of smoltcp 0.14, with types and without bodies. Where smoltcp is missing, `tests/docs/bench`
//! compiles it with these.
#![allow(unused_variables)]

pub mod phy {
    #[derive(Clone, Default)]
    pub struct ChecksumCapabilities;

    impl ChecksumCapabilities {
        pub fn ignored() -> Self {
            Self
        }
    }
}

pub mod wire {
    use crate::phy::ChecksumCapabilities;
    use std::fmt;
    use std::str::FromStr;

    #[derive(Debug, Clone, Copy, PartialEq, Eq)]
    pub struct Error;
    pub type Result<T> = std::result::Result<T, Error>;

    pub mod checksum {
        pub fn data(data: &[u8]) -> u16 {
            panic!()
        }
    }

    /// Functions without bodies.
    macro_rules! calls {
        ($($name:ident($($parameter:ident: $type:ty),*) $(-> $result:ty)?;)*) => {
            $(pub fn $name(&self, $($parameter: $type),*) $(-> $result)? { panic!() })*
        };
    }

    /// Views of packets.
    macro_rules! views {
        ($($name:ident { $($calls:tt)* })*) => {
            $(
                pub struct $name<T: AsRef<[u8]>>(T);

                impl<T: AsRef<[u8]>> $name<T> {
                    pub fn new_unchecked(buffer: T) -> Self {
                        Self(buffer)
                    }
                    pub fn new_checked(buffer: T) -> Result<Self> {
                        panic!()
                    }
                    calls! { $($calls)* }
                }

                impl<'a, T: AsRef<[u8]> + ?Sized> $name<&'a T> {
                    pub fn payload(&self) -> &'a [u8] {
                        panic!()
                    }
                }

                impl<T: AsRef<[u8]> + AsMut<[u8]>> $name<T> {
                    pub fn payload_mut(&mut self) -> &mut [u8] {
                        panic!()
                    }
                }
            )*
        };
    }

    views! {
        EthernetFrame {}
        ArpPacket {}
        Ipv4Packet {
            ident() -> u16; frag_offset() -> u16; dscp() -> u8; ecn() -> u8; more_frags() -> bool; dont_frag() -> bool;
            verify_checksum() -> bool; header_len() -> u8;
        }
        Ipv6Packet { traffic_class() -> u8; flow_label() -> u32; header_len() -> usize; }
        Ipv6FragmentHeader { ident() -> u32; frag_offset() -> u16; more_frags() -> bool; }
        UdpPacket {
            src_port() -> u16; dst_port() -> u16; checksum() -> u16; check_len() -> Result<()>;
            verify_checksum(src: &IpAddress, dst: &IpAddress) -> bool;
            verify_partial_checksum(src: &IpAddress, dst: &IpAddress) -> bool;
        }
        TcpPacket {
            src_port() -> u16; dst_port() -> u16; seq_number() -> TcpSeqNumber; ack_number() -> TcpSeqNumber;
            window_len() -> u16; urgent_at() -> u16; header_len() -> u8; check_len() -> Result<()>; fin() -> bool;
            syn() -> bool; rst() -> bool; psh() -> bool; ack() -> bool; urg() -> bool; ece() -> bool; cwr() -> bool;
            verify_checksum(src: &IpAddress, dst: &IpAddress) -> bool;
            verify_partial_checksum(src: &IpAddress, dst: &IpAddress) -> bool;
        }
    }

    impl<'a, T: AsRef<[u8]> + ?Sized> TcpPacket<&'a T> {
        pub fn options(&self) -> &'a [u8] {
            panic!()
        }
    }

    /// Numbers of protocols, as enums.
    macro_rules! numbers {
        ($($name:ident of $number:ty { $($variant:ident),* })*) => {
            $(
                #[derive(Debug, Clone, Copy, PartialEq, Eq)]
                pub enum $name {
                    $($variant,)*
                    Unknown($number),
                }

                impl From<$number> for $name {
                    fn from(number: $number) -> Self {
                        panic!()
                    }
                }

                impl From<$name> for $number {
                    fn from(value: $name) -> Self {
                        panic!()
                    }
                }
            )*
        };
    }

    numbers! {
        EthernetProtocol of u16 { Ipv4, Arp, Ipv6 }
        ArpOperation of u16 { Request, Reply }
        IpProtocol of u8 { Udp, Tcp, Ipv6Frag }
    }

    #[derive(Debug, Clone, Copy, PartialEq, Eq)]
    pub struct EthernetAddress(pub [u8; 6]);
    pub type Ipv4Address = std::net::Ipv4Addr;
    pub type Ipv6Address = std::net::Ipv6Addr;

    #[derive(Debug, Clone, Copy, PartialEq, Eq)]
    pub enum IpVersion {
        Ipv4,
        Ipv6,
    }

    #[derive(Debug, Clone, Copy, PartialEq, Eq)]
    pub enum IpAddress {
        Ipv4(Ipv4Address),
        Ipv6(Ipv6Address),
    }

    impl IpAddress {
        pub const fn v4(a: u8, b: u8, c: u8, d: u8) -> Self {
            Self::Ipv4(Ipv4Address::new(a, b, c, d))
        }
        calls! { version() -> IpVersion; }
    }

    impl From<Ipv4Address> for IpAddress {
        fn from(addr: Ipv4Address) -> Self {
            Self::Ipv4(addr)
        }
    }

    impl From<Ipv6Address> for IpAddress {
        fn from(addr: Ipv6Address) -> Self {
            Self::Ipv6(addr)
        }
    }

    #[derive(Debug, Clone, Copy, PartialEq, Eq)]
    pub struct IpCidr;

    impl IpCidr {
        pub const fn new(addr: IpAddress, prefix_len: u8) -> Self {
            Self
        }
        calls! { address() -> IpAddress; prefix_len() -> u8; contains_addr(addr: &IpAddress) -> bool; }
    }

    pub struct IpEndpoint;

    impl<T: Into<IpAddress>> From<(T, u16)> for IpEndpoint {
        fn from(parts: (T, u16)) -> Self {
            Self
        }
    }

    macro_rules! texts {
        ($($name:ident)*) => {
            $(impl fmt::Display for $name {
                fn fmt(&self, f: &mut fmt::Formatter) -> fmt::Result {
                    panic!()
                }
            })*
        };
    }

    texts! { IpAddress IpCidr IpEndpoint }

    macro_rules! parsers {
        ($($name:ident)*) => {
            $(impl FromStr for $name {
                type Err = ();
                fn from_str(text: &str) -> std::result::Result<Self, ()> {
                    panic!()
                }
            })*
        };
    }

    parsers! { IpAddress IpCidr }

    pub struct EthernetRepr {
        pub src_addr: EthernetAddress,
        pub dst_addr: EthernetAddress,
        pub ethertype: EthernetProtocol,
    }

    impl EthernetRepr {
        pub fn parse<T: AsRef<[u8]> + ?Sized>(frame: &EthernetFrame<&T>) -> Result<Self> {
            panic!()
        }
        pub fn emit<T: AsRef<[u8]> + AsMut<[u8]>>(&self, frame: &mut EthernetFrame<T>) {
            panic!()
        }
        calls! { buffer_len() -> usize; }
    }

    #[non_exhaustive]
    pub enum ArpRepr {
        EthernetIpv4 {
            operation: ArpOperation,
            source_hardware_addr: EthernetAddress,
            source_protocol_addr: Ipv4Address,
            target_hardware_addr: EthernetAddress,
            target_protocol_addr: Ipv4Address,
        },
    }

    impl ArpRepr {
        pub fn parse<T: AsRef<[u8]>>(packet: &ArpPacket<T>) -> Result<Self> {
            panic!()
        }
        pub fn emit<T: AsRef<[u8]> + AsMut<[u8]>>(&self, packet: &mut ArpPacket<T>) {
            panic!()
        }
        calls! { buffer_len() -> usize; }
    }

    pub struct Ipv4Repr {
        pub src_addr: Ipv4Address,
        pub dst_addr: Ipv4Address,
        pub next_header: IpProtocol,
        pub payload_len: usize,
        pub hop_limit: u8,
    }

    pub struct Ipv6Repr {
        pub src_addr: Ipv6Address,
        pub dst_addr: Ipv6Address,
        pub next_header: IpProtocol,
        pub payload_len: usize,
        pub hop_limit: u8,
    }

    impl Ipv4Repr {
        pub fn parse<T: AsRef<[u8]> + ?Sized>(packet: &Ipv4Packet<&T>, caps: &ChecksumCapabilities) -> Result<Self> {
            panic!()
        }
    }

    impl Ipv6Repr {
        pub fn parse<T: AsRef<[u8]> + ?Sized>(packet: &Ipv6Packet<&T>) -> Result<Self> {
            panic!()
        }
    }

    pub enum IpRepr {
        Ipv4(Ipv4Repr),
        Ipv6(Ipv6Repr),
    }

    impl IpRepr {
        pub fn new(src: IpAddress, dst: IpAddress, next_header: IpProtocol, payload_len: usize, hop_limit: u8) -> Self {
            panic!()
        }
        pub fn emit<T: AsRef<[u8]> + AsMut<[u8]>>(&self, buffer: T, caps: &ChecksumCapabilities) {
            panic!()
        }
        pub fn set_payload_len(&mut self, len: usize) {
            panic!()
        }
        calls! {
            header_len() -> usize; buffer_len() -> usize; src_addr() -> IpAddress; dst_addr() -> IpAddress;
            next_header() -> IpProtocol;
        }
    }

    impl From<Ipv4Repr> for IpRepr {
        fn from(header: Ipv4Repr) -> Self {
            Self::Ipv4(header)
        }
    }

    impl From<Ipv6Repr> for IpRepr {
        fn from(header: Ipv6Repr) -> Self {
            Self::Ipv6(header)
        }
    }

    #[derive(Clone, Copy)]
    pub struct UdpRepr {
        pub src_port: u16,
        pub dst_port: u16,
    }

    impl UdpRepr {
        pub fn parse<T: AsRef<[u8]> + ?Sized>(
            packet: &UdpPacket<&T>,
            src: &IpAddress,
            dst: &IpAddress,
            caps: &ChecksumCapabilities,
        ) -> Result<Self> {
            panic!()
        }
        pub fn emit<T: AsRef<[u8]> + AsMut<[u8]> + ?Sized>(
            &self,
            packet: &mut UdpPacket<&mut T>,
            src: &IpAddress,
            dst: &IpAddress,
            payload_len: usize,
            emit_payload: impl FnOnce(&mut [u8]),
            caps: &ChecksumCapabilities,
        ) {
            panic!()
        }
        calls! { header_len() -> usize; }
    }

    #[derive(Debug, Clone, Copy, PartialEq, Eq)]
    pub struct TcpSeqNumber(pub i32);

    pub enum TcpControl {
        None,
        Psh,
        Syn,
        Fin,
        Rst,
    }

    pub struct TcpTimestampRepr {
        pub tsval: u32,
        pub tsecr: u32,
    }

    pub enum TcpOption<'a> {
        EndOfList,
        NoOperation,
        MaxSegmentSize(u16),
        WindowScale(u8),
        SackPermitted,
        SackRange([Option<(u32, u32)>; 3]),
        TimeStamp { tsval: u32, tsecr: u32 },
        Unknown { kind: u8, data: &'a [u8] },
    }

    impl<'a> TcpOption<'a> {
        pub fn parse(buffer: &'a [u8]) -> Result<(&'a [u8], TcpOption<'a>)> {
            panic!()
        }
    }

    pub struct TcpRepr<'a> {
        pub src_port: u16,
        pub dst_port: u16,
        pub control: TcpControl,
        pub seq_number: TcpSeqNumber,
        pub ack_number: Option<TcpSeqNumber>,
        pub window_len: u16,
        pub window_scale: Option<u8>,
        pub max_seg_size: Option<u16>,
        pub sack_permitted: bool,
        pub sack_ranges: [Option<(u32, u32)>; 3],
        pub timestamp: Option<TcpTimestampRepr>,
        pub payload: &'a [u8],
    }

    impl<'a> TcpRepr<'a> {
        pub fn parse<T: AsRef<[u8]> + ?Sized>(
            packet: &TcpPacket<&'a T>,
            src: &IpAddress,
            dst: &IpAddress,
            caps: &ChecksumCapabilities,
        ) -> Result<TcpRepr<'a>> {
            panic!()
        }
        pub fn emit<T: AsRef<[u8]> + AsMut<[u8]> + ?Sized>(
            &self,
            packet: &mut TcpPacket<&mut T>,
            src: &IpAddress,
            dst: &IpAddress,
            caps: &ChecksumCapabilities,
        ) {
            panic!()
        }
        calls! { header_len() -> usize; buffer_len() -> usize; }
    }
}
