//! Programs that were written for the module `wire` of smoltcp find its names and calls: in constants, and over slices.

use ip_wire::{
    ArpHardware, ArpOperation, ArpPacket, ArpPacketMut, ArpRepr, ChecksumCapabilities, Error,
    EthernetAddress, EthernetFrame, EthernetFrameMut, EthernetProtocol, EthernetRepr, HardwareAddress,
    IPV6_LINK_LOCAL_ALL_NODES, IPV6_LINK_LOCAL_ALL_ROUTERS, IpAddress, IpCidr, IpEndpoint, IpListenEndpoint,
    IpPacket, IpProtocol, IpRepr, IpVersion, Ipv4Address, Ipv4Cidr, Ipv4Packet, Ipv4PacketMut, Ipv4Repr,
    Ipv6Address, Ipv6Cidr, Ipv6FragmentHeader, Ipv6FragmentHeaderMut, Ipv6FragmentRepr, Ipv6MulticastScope,
    Ipv6Packet, Ipv6PacketMut, Ipv6Repr, TcpControl, TcpOption, TcpPacket, TcpPacketMut, TcpRepr,
    TcpSeqNumber, UdpPacket, UdpPacketMut, UdpRepr,
};

const HOST: Ipv6Address = Ipv6Address::new(0x2001, 0xdb8, 0, 0, 0, 0, 0xa, 0xb);
const LINK: Ipv6Cidr = Ipv6Cidr::new(HOST, 64);
const OTHER: Ipv4Address = Ipv4Address::new(192, 0, 2, 1);
const NET: Ipv4Cidr = Ipv4Cidr::new(OTHER, 24);
const SERVICE: IpEndpoint = IpEndpoint::new(IpAddress::Ipv6(HOST), 53);
const DATAGRAM: UdpRepr = UdpRepr { src_port: 46563, dst_port: 5353 };

#[test]
fn constants() {
    assert_eq!(HOST.to_string(), "2001:db8::a:b");
    assert_eq!(HOST.octets(), [0x20, 1, 0xd, 0xb8, 0, 0, 0, 0, 0, 0, 0, 0, 0, 0xa, 0, 0xb]);
    assert_eq!((LINK.to_string(), NET.to_string()), ("2001:db8::a:b/64".into(), "192.0.2.1/24".into()));
    assert_eq!(SERVICE.to_string(), "[2001:db8::a:b]:53");
    assert_eq!(
        (HOST.x_multicast_scope(), SERVICE.addr.version()),
        (Ipv6MulticastScope::Global, IpVersion::Ipv6)
    );
    assert_eq!(
        IPV6_LINK_LOCAL_ALL_NODES.to_string() + "," + &IPV6_LINK_LOCAL_ALL_ROUTERS.to_string(),
        "ff02::1,ff02::2"
    );
    assert_eq!("192.0.2.1/24".parse(), Ok(IpCidr::Ipv4(NET)));
    assert_eq!(IpListenEndpoint::from(53).port, 53);
}

/// The values of each format, by the names of their fields. What is emitted is parsed again.
#[test]
fn values() {
    let caps = ChecksumCapabilities::default();
    let (src_addr, dst_addr) = (EthernetAddress([2, 0, 0, 0, 0, 1]), EthernetAddress::BROADCAST);
    let mut bytes = [0xff; 60];
    let link = EthernetRepr { src_addr, dst_addr, ethertype: EthernetProtocol::Arp };
    link.emit(&mut EthernetFrameMut::new_unchecked(&mut bytes[..14]));
    assert_eq!(EthernetRepr::parse(&EthernetFrame::new_unchecked(&bytes[..14])), Ok(link));
    assert_eq!(HardwareAddress::Ethernet(src_addr).to_string(), "02-00-00-00-00-01");

    let request = ArpRepr::EthernetIpv4 {
        operation: ArpOperation::Request,
        source_hardware_addr: src_addr,
        source_protocol_addr: OTHER,
        target_hardware_addr: dst_addr,
        target_protocol_addr: Ipv4Address::BROADCAST,
    };
    request.emit(&mut ArpPacketMut::new_unchecked(&mut bytes[..28]));
    let packet = ArpPacket::new_checked(&bytes[..28]).unwrap();
    assert_eq!((packet.hardware_type(), ArpRepr::parse(&packet)), (ArpHardware::Ethernet, Ok(request)));

    let (next_header, hop_limit) = (IpProtocol::Udp, 64);
    let ipv4 = Ipv4Repr { src_addr: OTHER, dst_addr: OTHER, next_header, payload_len: 12, hop_limit };
    ipv4.emit(&mut Ipv4PacketMut::new_unchecked(&mut bytes[..32]), &caps);
    assert_eq!(Ipv4Repr::parse(&Ipv4Packet::new_checked(&bytes[..32]).unwrap(), &caps), Ok(ipv4));
    assert_eq!(IpRepr::parse(&IpPacket::new_checked(&bytes[..32]).unwrap(), &caps), Ok(IpRepr::Ipv4(ipv4)));

    let ipv6 = Ipv6Repr { src_addr: HOST, dst_addr: HOST, next_header, payload_len: 12, hop_limit };
    ipv6.emit(&mut Ipv6PacketMut::new_unchecked(&mut bytes[..52]));
    assert_eq!(Ipv6Repr::parse(&Ipv6Packet::new_checked(&bytes[..52]).unwrap()), Ok(ipv6));

    let fragment = Ipv6FragmentRepr { frag_offset: 5, more_frags: true, ident: 7 };
    fragment.emit(&mut Ipv6FragmentHeaderMut::new_unchecked(&mut bytes[..6]));
    assert_eq!(Ipv6FragmentRepr::parse(&Ipv6FragmentHeader::new_checked(&bytes[..6]).unwrap()), Ok(fragment));
}

/// A SYN with an option, over a slice.
#[test]
fn a_segment_over_a_slice() {
    let (src, dst, caps) = (IpAddress::Ipv6(HOST), IpAddress::Ipv6(HOST), ChecksumCapabilities::default());
    let syn = TcpRepr {
        src_port: 1,
        dst_port: 2,
        control: TcpControl::Syn,
        seq_number: TcpSeqNumber(3),
        ack_number: None,
        window_len: 4,
        window_scale: None,
        max_seg_size: Some(1220),
        sack_permitted: false,
        sack_ranges: [None; 4],
        timestamp: None,
        payload: &[],
    };
    let mut bytes = [0xff; 24];
    assert_eq!(syn.buffer_len(), bytes.len());
    syn.emit(&mut TcpPacketMut::new_unchecked(&mut bytes[..]), &src, &dst, &caps);
    let packet = TcpPacket::new_checked(&bytes[..]).unwrap();
    assert_eq!(TcpRepr::parse(&packet, &src, &dst, &caps), Ok(syn));
    assert_eq!(TcpOption::parse(packet.options()), Ok((&[][..], TcpOption::MaxSegmentSize(1220))));
}

/// Emits a UDP packet over a slice and parses it again.
#[test]
fn a_datagram_over_a_slice() {
    let (src, dst) = (IpAddress::Ipv4(OTHER), IpAddress::Ipv4(Ipv4Address::BROADCAST));
    let (caps, mut bytes) = (ChecksumCapabilities::default(), [0xff; 12]);
    DATAGRAM.emit(&mut UdpPacketMut::new_unchecked(&mut bytes[..]), &src, &dst, b"ping", &caps);
    let packet = UdpPacket::new_checked(&bytes[..]).unwrap();
    assert_eq!((packet.len(), packet.payload()), (12, &b"ping"[..]));
    assert_eq!(UdpRepr::parse(&packet, &src, &dst, &caps), Ok(DATAGRAM));
    bytes[11] ^= 1;
    assert_eq!(UdpRepr::parse(&UdpPacket::new_unchecked(&bytes[..]), &src, &dst, &caps), Err(Error));
}

/// Each view rejects bytes that are shorter than its header.
#[test]
fn short_slices() {
    fn rejects<T>(found: Result<T, Error>) {
        assert!(matches!(found, Err(Error)));
    }
    let mut bytes = [0; 3];
    rejects(EthernetFrame::new_checked(&bytes[..]));
    rejects(ArpPacket::new_checked(&bytes[..]));
    rejects(Ipv4Packet::new_checked(&bytes[..]));
    rejects(Ipv6Packet::new_checked(&bytes[..]));
    rejects(Ipv6FragmentHeader::new_checked(&bytes[..]));
    rejects(UdpPacket::new_checked(&bytes[..]));
    rejects(TcpPacket::new_checked(&bytes[..]));
    rejects(EthernetFrameMut::new_checked(&mut bytes[..]));
    rejects(ArpPacketMut::new_checked(&mut bytes[..]));
    rejects(Ipv4PacketMut::new_checked(&mut bytes[..]));
    rejects(Ipv6PacketMut::new_checked(&mut bytes[..]));
    rejects(Ipv6FragmentHeaderMut::new_checked(&mut bytes[..]));
    rejects(TcpPacketMut::new_checked(&mut bytes[..]));
    assert_eq!(IpVersion::of_packet(&bytes), Err(Error));
}
