//! Frames are emitted, wrapped and rebuilt.

mod common;

use common::{headers, ipv4, ipv6, CLIENT, SERVER};
use ip_wire_c::*;

const OUT: [u8; 200] = [0xee; 200];

fn all_options() -> TcpOptions {
    let range = |left| SackRange { left: SeqNumber(left), right: SeqNumber(left + 10) };
    TcpOptions {
        mss: Some(0),
        sack_ranges: [range(100), range(200)][..].try_into().unwrap(),
        timestamp: Some(Timestamp { tsval: 3, tsecr: 4 }),
        ..TcpOptions::default()
    }
}

#[test]
fn tcp_reads_back() {
    let flags = TcpFlags::ACK | TcpFlags::PSH | TcpFlags::CWR;
    let ip = Ip { dscp: 10, ecn: 1, hop_limit: 9, dont_fragment: false, ident: 77, ..Ip::default() };
    let tcp = Tcp { seq_number: SeqNumber(1), ack_number: SeqNumber(2), window_len: 3, urgent_at: 4, flags };
    let headers = Headers { ip, ..ipv4() };
    let mut out = OUT;
    let bytes = headers.emit_tcp(&tcp, &all_options(), b"data", &mut out).unwrap();
    let frame = Frame::parse(bytes);
    assert_eq!(frame.check(), Ok(()));
    assert_eq!((frame.tcp(), frame.tcp_options()), (Some(tcp), Some(all_options())));
    let read = frame.headers().unwrap();
    assert_eq!(read.ip, Ip { protocol: 6, ..ip });
    assert_eq!((read.src, read.dst, read.ethernet.ethertype), (headers.src, headers.dst, 0x0800));
}

#[test]
fn wrapping_equals_emitting() {
    for headers in [ipv4(), ipv6()] {
        let (tcp, options) = (Tcp { flags: TcpFlags::ACK, ..Tcp::default() }, all_options());
        let (mut emitted, mut wrapped) = (OUT, OUT);
        let at = headers.tcp_payload_offset(&options).unwrap();
        wrapped[at..][..4].copy_from_slice(b"data");
        let len = headers.wrap_tcp(&tcp, &options, 4, &mut wrapped).unwrap().len();
        assert_eq!(len, at + 4);
        headers.emit_tcp(&tcp, &options, b"data", &mut emitted).unwrap();
        assert_eq!(wrapped, emitted);

        let at = headers.udp_payload_offset();
        wrapped[at..][..4].copy_from_slice(b"ping");
        headers.wrap_udp(4, &mut wrapped).unwrap();
        assert_eq!(wrapped[..at + 4], *headers.emit_udp(b"ping", &mut emitted).unwrap());
        assert_eq!(headers.wrap_udp(usize::MAX, &mut wrapped), Err(Error::PayloadTooLong));
    }
}

// A packet is the frame without its first 14 bytes.
#[test]
fn packets_are_in_frames() {
    let tcp = Tcp { flags: TcpFlags::ACK, ..Tcp::default() };
    let (icmp, options) = (Icmp::default(), all_options());
    for headers in [ipv4(), ipv6()] {
        let (mut frame, mut packet) = (OUT, OUT);
        let framed = headers.emit_udp(b"ping", &mut frame).unwrap();
        assert_eq!(*headers.emit_udp_packet(b"ping", &mut packet).unwrap(), framed[14..]);
        assert_eq!(*headers.wrap_udp_packet(4, &mut packet).unwrap(), framed[14..]);
        let framed = headers.emit_tcp(&tcp, &options, b"data", &mut frame).unwrap();
        assert_eq!(*headers.emit_tcp_packet(&tcp, &options, b"data", &mut packet).unwrap(), framed[14..]);
        assert_eq!(*headers.wrap_tcp_packet(&tcp, &options, 4, &mut packet).unwrap(), framed[14..]);
        let framed = headers.emit_icmp(&icmp, b"echo", &mut frame).unwrap();
        assert_eq!(*headers.emit_icmp_packet(&icmp, b"echo", &mut packet).unwrap(), framed[14..]);
    }
}

#[test]
fn failures_leave_the_buffer() {
    let ip = |ip| Headers { ip, ..ipv4() };
    let long = vec![0; 65508];
    let udp_cases = [
        (headers("192.0.2.1:1", "[::1]:2"), &b""[..], Error::TwoVersions),
        (headers("192.0.2.1:1", "192.0.2.2:0"), b"", Error::PortZero),
        (ip(Ip { hop_limit: 0, ..Ip::default() }), b"", Error::NoHopLimit),
        (ip(Ip { ecn: 4, ..Ip::default() }), b"", Error::BadField),
        (ip(Ip { more_fragments: true, ..Ip::default() }), b"", Error::BadField),
        (ipv4(), &long, Error::PayloadTooLong),
        (ipv4(), &long[..159], Error::NoRoom),
    ];
    let mut out = OUT;
    for (headers, payload, error) in udp_cases {
        assert_eq!(headers.emit_udp(payload, &mut out), Err(error));
    }
    let two_controls = Tcp { flags: TcpFlags::SYN | TcpFlags::RST, ..Tcp::default() };
    let too_long =
        TcpOptions { sack_ranges: [SackRange::default(); 4][..].try_into().unwrap(), ..all_options() };
    let none = TcpOptions::default();
    assert_eq!(ipv4().emit_tcp(&two_controls, &none, b"", &mut out), Err(Error::TwoControls));
    assert_eq!(ipv4().emit_tcp(&Tcp::default(), &too_long, b"", &mut out), Err(Error::OptionsTooLong));
    assert_eq!(ipv4().wrap_tcp(&Tcp::default(), &too_long, 0, &mut out), Err(Error::OptionsTooLong));
    assert_eq!(too_long.header_len(), Err(Error::OptionsTooLong));
    assert_eq!(SackRanges::try_from(&[SackRange::default(); 5][..]), Err(Error::OptionsTooLong));
    assert_eq!(
        headers("192.0.2.1:0", "192.0.2.2:1").emit_tcp(&Tcp::default(), &none, b"", &mut out),
        Err(Error::PortZero)
    );
    assert_eq!(rebuild(&[0; 13], &mut out), Err(Error::NoHeader));
    assert_eq!(rebuild(&[0; 14], &mut out[..13]), Err(Error::NoRoom));
    assert_eq!(ipv4().emit_udp(b"", &mut []), Err(Error::NoRoom));
    assert_eq!(out, OUT);
    assert_eq!(Error::NoRoom.to_string(), "the result is longer than the buffer");
}

#[test]
fn a_reply_goes_back() {
    let ip = Ip { dscp: 10, ecn: 1, hop_limit: 9, dont_fragment: false, ident: 77, ..Ip::default() };
    let mut out = OUT;
    let frame = Frame::parse(Headers { ip, ..ipv4() }.emit_udp(b"ping", &mut out).unwrap());
    let reply = frame.reply().unwrap();
    assert_eq!((reply.src, reply.dst), (ipv4().dst, ipv4().src));
    assert_eq!((reply.ethernet.src.0, reply.ethernet.dst.0), (SERVER, CLIENT));
    assert_eq!(reply.ip, Ip { dscp: 10, protocol: 17, ..Ip::default() });
}

#[test]
fn rebuilding_removes_padding() {
    let (mut bytes, mut out) = (OUT, OUT);
    let len = ipv6().emit_udp(b"ping", &mut bytes).unwrap().len();
    assert_eq!(rebuild(&bytes, &mut out).unwrap(), &bytes[..len]);
}
