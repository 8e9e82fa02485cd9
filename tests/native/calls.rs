//! Programs that were written for the module `wire` of smoltcp find its calls: fields of views, and questions to addresses.

use ip_wire::*;
use std::str::FromStr;

const MAC: EthernetAddress = EthernetAddress([2, 0, 0, 0, 0, 1]);
const LOW: Ipv4Address = Ipv4Address::new(192, 0, 2, 1);
const GLOBAL: Ipv6Address = Ipv6Address::new(0x2001, 0xdb8, 0, 0, 0, 0, 0, 1);

/// Sets each field of a header of zeros to a value, and gets it. Whose mutable view and view they are is in brackets.
macro_rules! fields {
    ($bytes:ident, [$mutable:ident, $view:ident], $($set:ident $get:ident $value:expr;)*) => {
        $(
            $mutable::new_unchecked(&mut $bytes[..]).$set($value);
            assert_eq!($view::new_unchecked(&$bytes[..]).$get(), $value);
        )*
    };
}

#[test]
fn fields_of_ethernet_and_arp() {
    let mut bytes = [0; 18];
    fields!(bytes, [EthernetFrameMut, EthernetFrame],
        set_dst_addr dst_addr EthernetAddress::BROADCAST;
        set_src_addr src_addr MAC;
        set_ethertype ethertype EthernetProtocol::Ipv4;
    );
    EthernetFrameMut::new_checked(&mut bytes[..]).unwrap().payload_mut().copy_from_slice(b"ping");
    assert_eq!(bytes, *b"\xff\xff\xff\xff\xff\xff\x02\0\0\0\0\x01\x08\0ping");
    assert_eq!(EthernetFrame::new_unchecked(&bytes[..]).into_inner(), bytes);

    let mut bytes = [0; 28];
    fields!(bytes, [ArpPacketMut, ArpPacket],
        set_hardware_type hardware_type ArpHardware::Ethernet;
        set_protocol_type protocol_type EthernetProtocol::Ipv4;
        set_hardware_len hardware_len 6;
        set_protocol_len protocol_len 4;
        set_operation operation ArpOperation::Request;
        set_source_hardware_addr source_hardware_addr &MAC.0;
        set_source_protocol_addr source_protocol_addr &LOW.octets();
        set_target_hardware_addr target_hardware_addr &[0xff; 6];
        set_target_protocol_addr target_protocol_addr &[192, 0, 2, 2];
    );
    assert_eq!(bytes, *b"\0\x01\x08\0\x06\x04\0\x01\x02\0\0\0\0\x01\xc0\0\x02\x01\xff\xff\xff\xff\xff\xff\xc0\0\x02\x02");
    assert_eq!(ArpPacket::new_unchecked(&bytes[..]).check_len(), Ok(()));
}

#[test]
fn fields_of_ipv4() {
    let mut bytes = [0; 24];
    fields!(bytes, [Ipv4PacketMut, Ipv4Packet],
        set_version version 4;
        set_header_len header_len 20;
        set_dscp dscp 46;
        set_ecn ecn 1;
        set_total_len total_len 24;
        set_ident ident 0x102;
        set_dont_frag dont_frag true;
        set_more_frags more_frags true;
        set_frag_offset frag_offset 8;
        set_hop_limit hop_limit 64;
        set_next_header next_header IpProtocol::Icmp;
        set_src_addr src_addr LOW;
        set_dst_addr dst_addr Ipv4Address::BROADCAST;
        set_checksum checksum 7;
    );
    let mut packet = Ipv4PacketMut::new_checked(&mut bytes[..]).unwrap();
    packet.clear_flags();
    packet.fill_checksum();
    packet.payload_mut().copy_from_slice(b"ping");
    let packet = Ipv4Packet::new_checked(&bytes[..]).unwrap();
    assert!(packet.verify_checksum() && !packet.dont_frag() && !packet.more_frags());
    assert_eq!((packet.frag_offset(), packet.payload(), packet.into_inner()), (8, &b"ping"[..], &bytes[..]));
}

#[test]
fn fields_of_ipv6() {
    let mut bytes = [0; 44];
    fields!(bytes, [Ipv6PacketMut, Ipv6Packet],
        set_version version 6;
        set_traffic_class traffic_class 0xb8;
        set_flow_label flow_label 0xf_0123;
        set_payload_len payload_len 4;
        set_next_header next_header IpProtocol::Udp;
        set_hop_limit hop_limit 255;
        set_src_addr src_addr GLOBAL;
        set_dst_addr dst_addr Ipv6Address::LOCALHOST;
    );
    Ipv6PacketMut::new_checked(&mut bytes[..]).unwrap().payload_mut().copy_from_slice(b"ping");
    let packet = Ipv6Packet::new_unchecked(&bytes[..]);
    assert_eq!((packet.check_len(), packet.total_len(), packet.header_len()), (Ok(()), 44, 40));
    assert_eq!((packet.payload(), packet.into_inner()), (&b"ping"[..], &bytes[..]));

    let mut bytes = [0; 6];
    fields!(bytes, [Ipv6FragmentHeaderMut, Ipv6FragmentHeader],
        set_frag_offset frag_offset 185;
        set_more_frags more_frags true;
        set_ident ident 0x0102_0304;
    );
    assert_eq!(bytes, [5, 0xc9, 1, 2, 3, 4]);
}

#[test]
fn fields_of_udp_and_tcp() {
    let (src, dst) = (IpAddress::v4(192, 0, 2, 1), IpAddress::v4(192, 0, 2, 2));
    let mut bytes = [0; 12];
    fields!(bytes, [UdpPacketMut, UdpPacket],
        set_src_port src_port 46563;
        set_dst_port dst_port 5353;
        set_len len 12;
        set_checksum checksum 0xffff;
    );
    let mut packet = UdpPacketMut::new_checked(&mut bytes[..]).unwrap();
    packet.payload_mut().copy_from_slice(b"ping");
    packet.fill_checksum(&src, &dst);
    assert!(UdpPacket::new_checked(&bytes[..]).unwrap().verify_checksum(&src, &dst));

    let mut bytes = [0; 28];
    fields!(bytes, [TcpPacketMut, TcpPacket],
        set_src_port src_port 80;
        set_dst_port dst_port 40000;
        set_seq_number seq_number TcpSeqNumber(7);
        set_ack_number ack_number TcpSeqNumber(-1);
        set_header_len header_len 24;
        set_fin fin true;
        set_syn syn true;
        set_rst rst true;
        set_psh psh true;
        set_ack ack true;
        set_urg urg true;
        set_window_len window_len 0x1234;
        set_urgent_at urgent_at 3;
        set_checksum checksum 9;
    );
    let mut packet = TcpPacketMut::new_checked(&mut bytes[..]).unwrap();
    packet.clear_flags();
    packet.options_mut().copy_from_slice(&[2, 4, 4, 0xc4]);
    packet.payload_mut().copy_from_slice(b"ping");
    packet.fill_checksum(&src, &dst);
    let packet = TcpPacket::new_checked(&bytes[..]).unwrap();
    assert!(packet.verify_checksum(&src, &dst));
    assert!(![packet.fin(), packet.syn(), packet.rst(), packet.psh(), packet.ack(), packet.urg()].contains(&true));
    assert_eq!(packet.options_summary().unwrap().max_segment_size, Some(1220));
}

#[test]
fn options() {
    for (option, bytes) in [
        (TcpOption::EndOfList, &[0][..]),
        (TcpOption::NoOperation, &[1]),
        (TcpOption::MaxSegmentSize(1460), &[2, 4, 5, 0xb4]),
        (TcpOption::WindowScale(7), &[3, 3, 7]),
        (TcpOption::SackPermitted, &[4, 2]),
        (TcpOption::SackRange([Some((1, 2)), None, None, None]), &[5, 10, 0, 0, 0, 1, 0, 0, 0, 2]),
        (TcpOption::TimeStamp { tsval: 1, tsecr: 2 }, &[8, 10, 0, 0, 0, 1, 0, 0, 0, 2]),
        (TcpOption::Unknown { kind: 253, bytes: &[1] }, &[253, 3, 1]),
    ] {
        assert_eq!(TcpOption::parse(bytes), Ok((&[][..], option)));
        let mut out = [0; 10];
        assert_eq!(option.emit(&mut out[..bytes.len()]), &mut [0; 0][..]);
        assert_eq!(&out[..bytes.len()], bytes);
    }
}

#[test]
fn questions_to_addresses() {
    assert!(MAC.is_unicast() && MAC.is_local() && EthernetAddress::from_bytes(&[0xff; 6]).is_broadcast());
    assert!(EthernetAddress([1, 0, 0x5e, 0, 0, 1]).is_multicast() && EthernetAddress::from_str("02-00").is_err());
    assert_eq!(RawHardwareAddress::from_bytes(&MAC.0).parse(Medium::Ethernet), Ok(HardwareAddress::Ethernet(MAC)));

    assert!(Ipv4Address::UNSPECIFIED.is_unspecified() && Ipv4Address::new(127, 0, 0, 1).is_loopback());
    assert!(Ipv4Address::new(169, 254, 1, 1).is_link_local() && Ipv4Address::new(224, 0, 0, 1).is_multicast());
    let net = Ipv4Cidr::from_netmask(LOW, Ipv4Address::new(255, 255, 255, 0)).unwrap();
    assert_eq!((net.address(), net.prefix_len(), net.netmask().octets()), (LOW, 24, [255, 255, 255, 0]));
    assert_eq!(net.network(), Ipv4Cidr::new(Ipv4Address::from_octets([192, 0, 2, 0]), 24));
    assert_eq!(net.broadcast(), Some(Ipv4Address::new(192, 0, 2, 255)));
    assert!(net.contains_addr(&LOW) && net.contains_subnet(&Ipv4Cidr::new(LOW, 32)));

    assert!(Ipv6Address::UNSPECIFIED.is_unspecified() && Ipv6Address::LOCALHOST.is_loopback());
    assert!(GLOBAL.is_global_unicast() && IPV6_LINK_LOCAL_ALL_NODES.is_multicast());
    assert!(Ipv6Address::new(0xfe80, 0, 0, 0, 0, 0, 0, 1).is_link_local());
    assert!(Ipv6Address::new(0xfd00, 0, 0, 0, 0, 0, 0, 1).is_unique_local());
    assert!(Ipv6Address::new(0xff02, 0, 0, 0, 0, 1, 0xff00, 1).is_solicited_node_multicast());
    assert_eq!(GLOBAL.mask(16), [0x20, 1, 0, 0, 0, 0, 0, 0, 0, 0, 0, 0, 0, 0, 0, 0]);
    let own = Ipv6Address::new(0x2001, 0xdb8, 0, 0, 0, 0xff, 0xfe00, 1);
    let net = Ipv6Cidr::new(GLOBAL.mask(64).into(), 64);
    assert_eq!(Ipv6Address::from_link_prefix(&net, HardwareAddress::Ethernet(MAC)), Some(own));
    assert_eq!(Ipv6Cidr::from_link_prefix(&net, HardwareAddress::Ethernet(MAC)), Some(Ipv6Cidr::new(own, 64)));
    assert!(net.contains_addr(&GLOBAL) && net.contains_subnet(&Ipv6Cidr::new(GLOBAL, 128)));

    for (number, scope) in [
        (1, Ipv6MulticastScope::InterfaceLocal),
        (2, Ipv6MulticastScope::LinkLocal),
        (3, Ipv6MulticastScope::Unknown),
        (4, Ipv6MulticastScope::AdminLocal),
        (5, Ipv6MulticastScope::SiteLocal),
        (8, Ipv6MulticastScope::OrganizationLocal),
        (14, Ipv6MulticastScope::Global),
    ] {
        assert_eq!(Ipv6Address::new(0xff00 + number, 0, 0, 0, 0, 0, 0, 1).x_multicast_scope(), scope);
    }

    assert_eq!(IpAddress::v6(0, 0, 0, 0, 0, 0, 0, 1), IpAddress::from(Ipv6Address::LOCALHOST));
    assert_eq!(IpCidr::from_str("192.0.2.1/24").map(|block| block.prefix_len()), Ok(24));
    assert_eq!(IpEndpoint::from_str("192.0.2.1:53"), Ok(IpEndpoint::new(LOW.into(), 53)));
    assert!(IpAddress::from(LOW).is_unicast() && IpAddress::from(Ipv4Address::BROADCAST).is_broadcast());
}
