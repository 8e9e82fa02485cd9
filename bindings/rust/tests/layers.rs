//! Each layer is written by itself.

mod worked;

use ip_wire_c::layer::{self, Checksum};
use ip_wire_c::{Arp, Error, Ethernet, EthernetAddr, Frame, Icmp, Ip, Transport};
use ip_wire_c::{SackRange, Tcp, TcpFlags, TcpOptions, Timestamp};
use std::net::SocketAddr;
use worked::{changed, frame};

const SUM: Checksum = Checksum::Computed;

/// Writes each layer of a frame again.
fn emit(frame: &Frame, checksum: Checksum, out: &mut [u8]) -> Result<usize, Error> {
    let mut at = layer::emit_ethernet(&frame.ethernet().unwrap(), out)?.len();
    if let Some(arp) = frame.arp() {
        return Ok(at + layer::emit_arp(&arp, &mut out[at..])?.len());
    }
    let (src, dst, payload) = (frame.src().unwrap(), frame.dst().unwrap(), frame.payload());
    let len = frame.payload_offset() - frame.transport_offset().unwrap() + payload.len();
    at += layer::emit_ip(&frame.ip().unwrap(), src.ip(), dst.ip(), len, checksum, &mut out[at..])?.len();
    let out = &mut out[at..];
    let written = match frame.transport().unwrap() {
        Transport::Udp => layer::emit_udp(src, dst, payload, checksum, out)?,
        Transport::Tcp => {
            let (header, options) = (frame.tcp().unwrap(), frame.tcp_options().unwrap());
            layer::emit_tcp(&header, &options, src, dst, payload, checksum, out)?
        }
        _ => layer::emit_icmp(&frame.icmp().unwrap(), src.ip(), dst.ip(), payload, checksum, out)?,
    };
    Ok(at + written.len())
}

/// The places of the checksums in each frame.
const FRAMES: [(&str, &[usize]); 9] = [
    ("arp_request", &[]),
    ("ping", &[24, 40]),
    ("pong6", &[60]),
    ("syn_ack", &[24, 50]),
    ("syn_ack6", &[70]),
    ("ack6", &[70]),
    ("echo_reply", &[24, 36]),
    ("echo_request6", &[56]),
    ("expired", &[24, 36]),
];

#[test]
fn layers_are_those_of_other_programs() {
    for (name, sums) in FRAMES {
        let bytes = frame(name);
        let parsed = Frame::parse(&bytes);
        let zeros: Vec<_> = sums.iter().flat_map(|&at| [(at, 0), (at + 1, 0)]).collect();
        for (checksum, expected) in [(SUM, &bytes), (Checksum::Zero, &changed(name, &zeros))] {
            let mut out = [0xee; 128];
            assert_eq!(emit(&parsed, checksum, &mut out), Ok(bytes.len()), "{name}");
            assert_eq!(&out[..bytes.len()], expected, "{name}");
            assert!(out[bytes.len()..].iter().all(|&byte| byte == 0xee));
        }
    }
}

#[test]
fn an_arp_reply_is_that_of_another_program() {
    let own = EthernetAddr([2, 0, 0, 0, 0, 2]);
    let request = frame("arp_request");
    let (ethernet, arp) = Frame::parse(&request).reply_arp().unwrap();
    let arp = Arp { operation: Arp::REPLY, src_hardware: own, ..arp };
    let mut out = [0; 42];
    assert_eq!(arp.emit(&Ethernet::new(own, ethernet.dst), &mut out).unwrap(), frame("arp_reply"));
    assert_eq!(Frame::parse(&frame("ping")).reply_arp(), None);
}

fn endpoint(text: &str) -> SocketAddr {
    text.parse().unwrap()
}

#[test]
fn failures_of_ip_leave_the_buffer() {
    let (new, mut out) = (Ip::default(), [0xee; 40]);
    for (header, src, dst, len, cap, error) in [
        (new, "192.0.2.1", "::1", 0, 40, Error::TwoVersions),
        (Ip { hop_limit: 0, ..new }, "192.0.2.1", "192.0.2.2", 0, 40, Error::NoHopLimit),
        (Ip { dscp: 64, ..new }, "192.0.2.1", "192.0.2.2", 0, 40, Error::BadField),
        (Ip { fragment_offset: 4, ..new }, "192.0.2.1", "192.0.2.2", 0, 40, Error::BadField),
        (Ip { more_fragments: true, ..new }, "::1", "::2", 0, 40, Error::BadField),
        (new, "192.0.2.1", "192.0.2.2", 65516, 40, Error::PayloadTooLong),
        (new, "::1", "::2", usize::MAX, 40, Error::PayloadTooLong),
        (new, "192.0.2.1", "192.0.2.2", 65515, 19, Error::NoRoom),
        (new, "::1", "::2", 65535, 39, Error::NoRoom),
    ] {
        let (src, dst) = (src.parse().unwrap(), dst.parse().unwrap());
        assert_eq!(layer::emit_ip(&header, src, dst, len, SUM, &mut out[..cap]), Err(error), "{header:?}");
    }
    assert_eq!(out, [0xee; 40]);
}

#[test]
fn failures_of_transport_leave_the_buffer() {
    let (icmp, long, mut out) = (Icmp::default(), vec![0; 65528], [0xee; 40]);
    let two_controls = Tcp { flags: TcpFlags::SYN | TcpFlags::FIN, ..Tcp::default() };
    let range = SackRange::default();
    let too_long = TcpOptions {
        mss: Some(1460),
        timestamp: Some(Timestamp::default()),
        sack_ranges: [range; 4][..].try_into().unwrap(),
        ..TcpOptions::default()
    };
    let (tcp, none) = (Tcp::default(), TcpOptions::default());
    for (src, dst, len, [udp, segment, message]) in [
        ("192.0.2.1:1", "[::1]:2", 0, [Error::TwoVersions; 3]),
        ("192.0.2.1:1", "192.0.2.2:0", 40, [Error::PortZero, Error::PortZero, Error::NoRoom]),
        ("192.0.2.1:0", "192.0.2.2:2", 40, [Error::NoRoom, Error::PortZero, Error::NoRoom]),
        ("[::1]:1", "[::2]:2", 65528, [Error::PayloadTooLong; 3]),
    ] {
        let (src, dst, payload) = (endpoint(src), endpoint(dst), &long[..len]);
        assert_eq!(layer::emit_udp(src, dst, payload, SUM, &mut out), Err(udp));
        assert_eq!(layer::emit_tcp(&tcp, &none, src, dst, payload, SUM, &mut out), Err(segment));
        assert_eq!(layer::emit_icmp(&icmp, src.ip(), dst.ip(), payload, SUM, &mut out), Err(message));
    }
    let (src, dst) = (endpoint("192.0.2.1:1"), endpoint("192.0.2.2:2"));
    for (header, options, error) in
        [(two_controls, none, Error::TwoControls), (tcp, too_long, Error::OptionsTooLong)]
    {
        assert_eq!(layer::emit_tcp(&header, &options, src, dst, &[], SUM, &mut out), Err(error));
    }
    assert_eq!(layer::emit_ethernet(&Ethernet::default(), &mut out[..13]), Err(Error::NoRoom));
    assert_eq!(out, [0xee; 40]);
}
