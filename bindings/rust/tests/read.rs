//! Frames and packets are parsed.

mod common;
#[allow(dead_code, reason = "other tests use the rest")]
mod worked;

use common::{ipv4, ipv6, CLIENT, SERVER};
use ip_wire_c::*;
use worked::bytes;

fn udp(headers: &Headers, payload: &[u8]) -> Vec<u8> {
    headers.emit_udp(payload, &mut [0; 200]).unwrap().to_vec()
}

fn tcp(headers: &Headers, flags: TcpFlags, options: &TcpOptions) -> Vec<u8> {
    let header = Tcp { seq_number: SeqNumber(7), window_len: 1000, flags, ..Tcp::default() };
    headers.emit_tcp(&header, options, b"data", &mut [0; 200]).unwrap().to_vec()
}

#[test]
fn a_udp_frame_has_its_values() {
    for (headers, network) in [(ipv4(), Network::Ipv4), (ipv6(), Network::Ipv6)] {
        let mut bytes = udp(&headers, b"ping");
        bytes.extend([0xee; 20]); // padding
        let frame = Frame::parse(&bytes);
        assert_eq!(frame.check(), Ok(()));
        assert_eq!((frame.network(), frame.transport()), (Some(network), Some(Transport::Udp)));
        assert_eq!((frame.src(), frame.dst()), (Some(headers.src), Some(headers.dst)));
        assert_eq!((frame.payload(), frame.payload_len()), (&b"ping"[..], 4));
        assert_eq!(frame.payload_offset(), headers.udp_payload_offset());
        assert_eq!(frame.network_offset(), Some(14));
        assert_eq!(frame.transport_offset(), Some(headers.udp_payload_offset() - 8));
        assert_eq!(frame.ethernet().unwrap().src.0, CLIENT);
        assert_eq!(frame.ethernet().unwrap().dst.0, SERVER);
        assert_eq!(frame.ip().unwrap().hop_limit, 64);
        assert_eq!(frame.ip().unwrap().protocol, 17);
        assert_eq!(frame.ipv4_checksum().is_some(), network == Network::Ipv4);
        assert_eq!(frame.transport_checksum(), Some(Verdict::Valid));
        assert_eq!((frame.arp(), frame.tcp(), frame.tcp_options()), (None, None, None));
        assert!(!frame.is_fragment());
    }
}

#[test]
fn a_value_is_parsed_into_again() {
    let (short, udp, syn) =
        (vec![0; 13], udp(&ipv4(), b"ping"), tcp(&ipv6(), TcpFlags::SYN, &TcpOptions::default()));
    for first in [&short, &udp, &syn] {
        for bytes in [&udp, &syn, &short] {
            for mut frame in [Frame::parse(first), Frame::parse_packet(first)] {
                Frame::parse_into(bytes, &mut frame);
                assert_eq!(frame, Frame::parse(bytes));
            }
        }
    }
}

#[test]
fn a_tcp_frame_has_its_values() {
    let options = TcpOptions { mss: Some(1460), window_scale: Some(7), ..TcpOptions::default() };
    let bytes = tcp(&ipv6(), TcpFlags::SYN, &options);
    let frame = Frame::parse(&bytes);
    let header = frame.tcp().unwrap();
    assert_eq!((header.seq_number, header.window_len), (SeqNumber(7), 1000));
    assert_eq!(header.flags, TcpFlags::SYN);
    assert_eq!(frame.tcp_options(), Some(options));
    assert_eq!(frame.tcp_header().unwrap().len(), options.header_len().unwrap());
    let kinds: Vec<_> = RawOptions::new(frame.tcp_header().unwrap()).map(|o| o.unwrap().kind).collect();
    assert!(kinds.contains(&2) && kinds.contains(&3));
    assert_eq!(frame.rejected_tcp(), None);
}

#[test]
fn a_frame_is_parsed_with_its_options() {
    let options = TcpOptions { mss: Some(1460), sack_permitted: true, ..TcpOptions::default() };
    let mut bytes = tcp(&ipv4(), TcpFlags::SYN, &options);
    assert_eq!(Frame::parse_with_options(&bytes), (Frame::parse(&bytes), Some(options)));
    bytes[14 + 20 + 20 + 1] = 3; // the length of the first option
    let (frame, none) = Frame::parse_with_options(&bytes);
    assert_eq!((frame.rejected(), none), (Some(Reason::BadOptions), None));
    let bytes = udp(&ipv6(), b"ping");
    assert_eq!(Frame::parse_with_options(&bytes), (Frame::parse(&bytes), None));
}

#[test]
fn an_icmp_frame_has_its_values() {
    for (headers, protocol, icmp_type) in [(ipv4(), 1, 8), (ipv6(), 58, 128)] {
        let echo = Icmp { icmp_type, code: 0, word: 0x1234_0001 };
        let mut bytes = headers.emit_icmp(&echo, b"data", &mut [0; 80]).unwrap().to_vec();
        let frame = Frame::parse(&bytes);
        assert_eq!(
            (frame.check(), frame.transport(), frame.icmp()),
            (Ok(()), Some(Transport::Icmp), Some(echo))
        );
        assert_eq!(
            (frame.payload(), frame.ip().unwrap().protocol, frame.tcp()),
            (&b"data"[..], protocol, None)
        );
        assert_eq!(frame.transport_offset(), Some(frame.payload_offset() - 8));
        *bytes.last_mut().unwrap() ^= 1;
        assert_eq!(Frame::parse(&bytes).check(), Err(Defect::WrongChecksum));
    }
}

#[test]
fn a_rejected_header_is_there_in_parts() {
    let mut bytes = tcp(&ipv4(), TcpFlags::SYN, &TcpOptions::default());
    bytes[14 + 20 + 13] |= 1; // FIN
    let frame = Frame::parse(&bytes);
    assert_eq!(frame.rejected(), Some(Reason::BadFlags));
    assert_eq!(frame.check(), Err(Defect::Rejected(Reason::BadFlags)));
    assert_eq!((frame.transport(), frame.rejected_transport()), (None, Some(Transport::Tcp)));
    assert_eq!(frame.tcp(), None);
    assert_eq!(frame.rejected_tcp().unwrap().flags, TcpFlags::SYN | TcpFlags::FIN);
    assert_eq!((frame.src(), frame.transport_offset()), (Some(ipv4().src), Some(34)));
    assert_eq!(frame.payload(), &bytes[34..]);

    let frame = Frame::parse(&bytes[..13]);
    assert_eq!((frame.rejected(), frame.ethernet()), (Some(Reason::TooShort), None));
    assert_eq!((frame.network(), frame.src(), frame.payload()), (None, None, &bytes[..13]));
}

#[test]
fn a_wrong_checksum_is_a_defect() {
    let mut bytes = udp(&ipv4(), b"ping");
    *bytes.last_mut().unwrap() ^= 1;
    let frame = Frame::parse(&bytes);
    assert_eq!((frame.rejected(), frame.transport_checksum()), (None, Some(Verdict::Invalid)));
    assert_eq!(frame.check(), Err(Defect::WrongChecksum));
    assert_eq!(frame.check().unwrap_err().to_string(), "a checksum is wrong");
}

#[test]
fn a_packet_has_no_ethernet_header() {
    let bytes = udp(&ipv6(), b"ping");
    let frame = Frame::parse_packet(&bytes[14..]);
    assert_eq!((frame.check(), frame.payload()), (Ok(()), &b"ping"[..]));
    assert_eq!((frame.ethernet(), frame.network_offset()), (None, Some(0)));
    assert_eq!(frame.payload_offset(), 48);
    assert_eq!(Frame::parse_packet(&[0; 40]).rejected(), Some(Reason::BadVersion));
}

/// Scapy packed it: hop-by-hop options, and UDP with the payload f1f2f3.
const EXTENDED: [u8; 59] = [
    0x6b, 0xec, 0xde, 0xf1, 0, 0x13, 0, 0x3e, 0x20, 1, 0xd, 0xb8, 0, 0, 0, 0, 0, 0, 0, 0, 0, 0, 0, 1, 0x20,
    1, 0xd, 0xb8, 0, 0, 0, 0, 0, 0, 0, 0, 0, 0, 0, 2, 0x11, 0, 5, 2, 0, 0, 1, 0, 0x31, 0x32, 0x41, 0x42, 0,
    0xb, 0x4c, 0xfb, 0xf1, 0xf2, 0xf3,
];

#[test]
fn extension_headers_are_stepped_through() {
    let frame = Frame::parse_packet(&EXTENDED);
    assert_eq!((frame.check(), frame.payload()), (Ok(()), &EXTENDED[56..]));
    assert_eq!((frame.ip().unwrap().protocol, frame.protocol()), (0, Some(17)));
    assert_eq!(frame.transport_offset(), Some(48));

    let mut routed = EXTENDED;
    (routed[6], routed[43]) = (43, 1);
    let frame = Frame::parse_packet(&routed);
    assert_eq!((frame.rejected(), frame.protocol()), (Some(Reason::HopsLeft), Some(43)));
    assert_eq!(Frame::parse_packet(&[]).protocol(), None);
}

#[test]
fn a_captured_frame_is_cut() {
    let bytes = udp(&ipv4(), b"ping");
    let frame = Frame::parse_captured(&bytes[..44], bytes.len());
    assert_eq!((frame.rejected(), frame.transport()), (None, Some(Transport::Udp)));
    assert_eq!(frame.transport_checksum(), Some(Verdict::Cut));
    assert_eq!((frame.payload(), frame.payload_len()), (&b"pi"[..], 4));

    let frame = Frame::parse_captured(&bytes[..41], bytes.len());
    assert_eq!(frame.rejected(), Some(Reason::HeaderCut));
    assert_eq!(frame.payload(), &bytes[34..41]);

    let frame = Frame::parse_captured_packet(&bytes[14..43], bytes.len() - 14);
    assert_eq!((frame.payload(), frame.payload_len(), frame.ethernet()), (&b"p"[..], 4, None));

    // More bytes than the frame has.
    assert_eq!(Frame::parse_captured(&bytes, 41).bytes(), &bytes[..41]);
}

#[test]
fn a_frame_of_unknown_length_is_parsed_by_its_headers() {
    let bytes = udp(&ipv4(), b"ping");
    for len in [(1 << 40) - 1, 1 << 40, usize::MAX] {
        let frame = Frame::parse_captured(&bytes, len);
        assert_eq!((frame.check(), frame.payload(), frame.payload_len()), (Ok(()), &b"ping"[..], 4));
        let frame = Frame::parse_captured(&bytes[..44], len);
        assert_eq!((frame.check(), frame.payload(), frame.payload_len()), (Ok(()), &b"pi"[..], 4));
        let frame = Frame::parse_captured_packet(&bytes[14..44], len);
        assert_eq!((frame.check(), frame.payload(), frame.payload_len()), (Ok(()), &b"pi"[..], 4));
        let frame = Frame::parse_linktype(1, &bytes[..44], len);
        assert_eq!((frame.check(), frame.payload(), frame.payload_len()), (Ok(()), &b"pi"[..], 4));
    }
}

#[test]
fn frames_compare_bytes_and_how_they_were_parsed() {
    let bytes = udp(&ipv4(), b"ping");
    let frame = Frame::parse(&bytes);
    assert_eq!(frame, Frame::parse(&bytes.clone()));
    assert_ne!(frame, Frame::parse_packet(&bytes));
    assert_ne!(frame, Frame::parse(&udp(&ipv4(), b"pong")));
    assert_ne!(Frame::parse(&bytes[..44]), Frame::parse_captured(&bytes[..44], bytes.len()));
}

/// The address of the first byte of a slice, and the one after its last byte.
fn ends(bytes: &[u8]) -> (*const u8, *const u8) {
    let range = bytes.as_ptr_range();
    (range.start, range.end)
}

/// Looks at all of a frame, and tests that its slices are within the bytes.
fn look_at(frame: &Frame, bytes: &[u8]) {
    let (start, end) = ends(bytes);
    for slice in [frame.payload(), frame.bytes(), frame.tcp_header().unwrap_or(bytes)] {
        assert!(ends(slice).0 >= start && ends(slice).1 <= end);
    }
    assert!(frame.payload().len() <= frame.payload_len());
    let options = RawOptions::new(frame.tcp_header().unwrap_or(frame.payload()));
    for option in options.flatten().filter(|option| !option.data.is_empty()) {
        assert!(ends(option.data).0 >= start && ends(option.data).1 <= end);
    }
    let packet = &frame.bytes()[frame.network_offset().unwrap_or(0)..];
    for header in Ipv6Headers::new(packet).flatten() {
        assert_eq!(header.bytes, &packet[header.offset..header.end()]);
    }
    let _ = format!("{frame:?} {:?} {:?} {:?}", frame.check(), frame.arp(), frame.tcp_options());
    if let Some(headers) = frame.headers() {
        assert_eq!((Some(headers.src), Some(headers.ip)), (frame.src(), frame.ip()));
        assert_eq!(frame.reply().unwrap().dst, headers.src);
    }
}

#[test]
fn any_bytes_are_parsed() {
    let options = TcpOptions { sack_permitted: true, mss: Some(536), ..TcpOptions::default() };
    let frames = [
        udp(&ipv4(), b"ping"),
        udp(&ipv6(), b"ping"),
        tcp(&ipv4(), TcpFlags::SYN, &options),
        tcp(&ipv6(), TcpFlags::ACK, &options),
    ];
    let mut random = 1u32;
    for bytes in &frames {
        for len in 0..=bytes.len() {
            look_at(&Frame::parse(&bytes[..len]), &bytes[..len]);
            look_at(&Frame::parse_packet(&bytes[14.min(len)..len]), bytes);
            for whole in [0, len / 2, len, bytes.len(), 1 << 40, usize::MAX] {
                look_at(&Frame::parse_captured(&bytes[..len], whole), bytes);
                look_at(&Frame::parse_captured_packet(&bytes[14.min(len)..len], whole), bytes);
                for link_type in [0, 1, 101, 108, 113, 228, 229, 276, 277] {
                    look_at(&Frame::parse_linktype(link_type, &bytes[..len], whole), bytes);
                }
            }
        }
        for _ in 0..5000 {
            let mut changed = bytes.clone();
            for _ in 0..2 {
                random = random.wrapping_mul(1_664_525).wrapping_add(1_013_904_223);
                let at = (random >> 8) as usize % changed.len();
                changed[at] = (random >> 24) as u8;
            }
            look_at(&Frame::parse(&changed), &changed);
        }
    }
}

#[test]
fn a_frame_is_a_line() {
    let (mut bytes, ports) = (udp(&ipv4(), b"ping"), (ipv4().src.port(), ipv4().dst.port()));
    let line = format!("IPv4 192.0.2.1:{} > 192.0.2.2:{} UDP len=4", ports.0, ports.1);
    assert_eq!(Frame::parse(&bytes).to_string(), line);
    *bytes.last_mut().unwrap() ^= 1;
    assert_eq!(Frame::parse(&bytes).to_string(), line + " (checksum incorrect)");
    let bytes = tcp(&ipv6(), TcpFlags::SYN | TcpFlags::PSH, &TcpOptions::default());
    let line = Frame::parse(&bytes).to_string();
    assert!(
        line.starts_with("IPv6 [2001:db8::1]:") && line.ends_with(" TCP syn psh seq=7 win=1000 len=4"),
        "{line}"
    );
    let nothing = "Ethernet 00-00-00-00-00-00 > 00-00-00-00-00-00 type=0x0000 len=0 (too short)";
    assert_eq!(Frame::parse(&[]).to_string(), nothing);
}

/// Linux sent both errors about UDP packets to a closed port on its loopback device. By hand: other types, and quotes of 8
/// bytes of UDP and of TCP.
#[test]
fn a_quoted_packet_is_parsed() {
    const IPV4: &str =
        "000000000000 000000000000 0800 45c0003cb9fb00004001c2037f0000017f000001 0303354b00000000 \
        4500002026b64000401116157f0000017f000001 d5cb14e9000cfe1f 70696e67";
    const IPV6: &str = "000000000000 000000000000 86dd \
        6006125f003c3a400000000000000000000000000000000100000000000000000000000000000001 0104964600000000 \
        60092d35000c11400000000000000000000000000000000100000000000000000000000000000001 d5cb14e9000c001f 70696e67";
    for (text, icmp_type, quote) in [(IPV4, 34, 42), (IPV6, 54, 62)] {
        let mut data = bytes(text);
        let frame = Frame::parse(&data);
        assert_eq!(frame.check(), Ok(()));
        let quoted = frame.parse_quoted().unwrap();
        assert_eq!((quoted.bytes(), quoted.rejected()), (&data[quote..], None));
        assert_eq!((quoted.src().unwrap().port(), quoted.dst().unwrap().port()), (54731, 5353));
        assert_eq!((quoted.payload(), quoted.payload_len()), (&b"ping"[..], 4));
        assert_eq!((quoted.ethernet(), quoted.parse_quoted()), (None, None));

        let cut = data.len() - 4;
        let cut = Frame::parse_captured(&data[..cut], usize::MAX);
        let quoted = cut.parse_quoted().unwrap();
        assert_eq!(
            (quoted.dst().unwrap().port(), quoted.payload(), quoted.payload_len()),
            (5353, &b""[..], 4)
        );
        assert_eq!(quoted.transport_checksum(), Some(Verdict::Cut));

        let errors: Vec<u8> = (0..=255)
            .filter(|&it| {
                data[icmp_type] = it;
                Frame::parse(&data).parse_quoted().is_some()
            })
            .collect();
        let wanted: Vec<u8> = if quote == 42 { vec![3, 4, 5, 11, 12] } else { (0..128).collect() };
        assert_eq!(errors, wanted);
    }
    let mut data = bytes(IPV4);
    (data[42 + 3], data[42 + 9]) = (64, 6); // 44 bytes of TCP
    assert_eq!(Frame::parse(&data[..70]).parse_quoted(), None); // the IP header that is not quoted is rejected
    let quoted = Frame::parse_captured(&data[..70], usize::MAX).parse_quoted().unwrap();
    assert_eq!((quoted.rejected(), quoted.payload()), (Some(Reason::HeaderCut), &data[62..70]));
}
