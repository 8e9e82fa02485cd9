//! Packets by their link type, and the headers of IPv6 packets.

#[allow(dead_code, reason = "other tests use the rest")]
mod worked;

use ip_wire_c::*;
use worked::{bytes, frame};

/// UDP from port 54731 to 5353 with the payload "ping".
const IPV4: &str = "4500002055fd40004011e6cd7f0000017f000001d5cb14e9000cfe1f70696e67";
const IPV6: &str = concat!(
    "60000000000c114020010db800000000000000000000000120010db8000000000000000000000002",
    "d5cb14e9000c87f570696e67"
);
const ADDRESSES: &str = "020000000002020000000001";

const RAW: u32 = 101;
const SLL: u32 = 113;

/// The offset of the packet, its EtherType, and the tags.
type Found = (usize, Option<u16>, &'static [u16]);

/// A link type, bytes in hex, how many of them are captured (0: all), and what is found.
type Row = (u32, &'static [&'static str], usize, Result<Found, Reason>);

/// By hand from <https://www.tcpdump.org/linktypes.html>. The worked calls of the C library have more rows.
const ROWS: &[Row] = &[
    (SLL, &["00000304000600000000000000000800", IPV4], 0, Ok((16, Some(0x0800), &[]))),
    (0, &["07000000", IPV4], 0, Ok((4, None, &[]))),
    (0, &["02000000"], 3, Err(Reason::TooShort)),
    (RAW, &[IPV6], 0, Ok((0, Some(0x86dd), &[]))),
    (RAW, &[], 0, Err(Reason::TooShort)),
    (228, &[IPV6], 1, Err(Reason::BadVersion)),
    (1, &[ADDRESSES, "0800", IPV4], 0, Ok((14, Some(0x0800), &[]))),
    (1, &[ADDRESSES, "810000640800", IPV4], 0, Ok((18, Some(0x0800), &[100]))),
    (1, &[ADDRESSES, "88a8e0c88100006486dd", IPV6], 0, Ok((22, Some(0x86dd), &[0xe0c8, 100]))),
    (1, &[ADDRESSES, "0026424203000000"], 0, Ok((14, Some(0x0026), &[]))),
    (u32::MAX, &[IPV4], 0, Err(Reason::UnknownLink)),
];

/// The bytes of a row, and the ones that are captured.
fn captured_of((_, hex, captured, _): &Row) -> (Vec<u8>, Vec<u8>) {
    let whole = bytes(&hex.concat());
    let captured = if *captured == 0 { whole.clone() } else { whole[..*captured].to_vec() };
    (whole, captured)
}

#[test]
fn link_layer_headers_have_their_values() {
    for row in ROWS {
        let link = Link::parse(row.0, &captured_of(row).1);
        assert_eq!(
            link.as_ref().map(|it| (it.offset(), it.ethertype(), it.tags())),
            row.3.as_ref().copied(),
            "{row:?}"
        );
    }
}

/// Tests that a frame is the UDP packet at `offset`.
fn assert_udp(frame: &Frame, network: Network, offset: usize, header_len: usize) {
    assert_eq!(
        (frame.rejected(), frame.network(), frame.transport()),
        (None, Some(network), Some(Transport::Udp))
    );
    assert_eq!(frame.network_offset(), Some(offset));
    assert_eq!(frame.transport_offset(), Some(offset + header_len));
    assert_eq!((frame.payload_offset(), frame.payload()), (offset + header_len + 8, &b"ping"[..]));
    assert_eq!((frame.src().unwrap().port(), frame.dst().unwrap().port()), (54731, 5353));
}

#[test]
fn a_packet_of_each_link_type_is_parsed() {
    for row in ROWS {
        let (whole, captured) = captured_of(row);
        let frame = Frame::parse_linktype(row.0, &captured, whole.len());
        let ethertype = row.3.ok().filter(|_| row.0 == 1).map(|(_, ethertype, _)| ethertype.unwrap());
        let ethernet = ethertype.map(|it| (it, [2, 0, 0, 0, 0, 1], [2, 0, 0, 0, 0, 2]));
        assert_eq!(frame.ethernet().map(|it| (it.ethertype, it.src.0, it.dst.0)), ethernet, "{row:?}");
        match row.3 {
            Ok((offset, Some(0x0800), _)) => assert_udp(&frame, Network::Ipv4, offset, 20),
            Ok((offset, Some(0x86dd), _)) => assert_udp(&frame, Network::Ipv6, offset, 40),
            Ok((offset, ..)) => {
                assert_eq!((frame.rejected(), frame.network()), (None, None), "{row:?}");
                assert_eq!(frame.payload(), &whole[offset..], "{row:?}");
            }
            Err(reason) => {
                let is_cut = reason == Reason::TooShort && captured.len() < whole.len();
                let reason = if is_cut { Reason::HeaderCut } else { reason };
                assert_eq!((frame.rejected(), frame.network()), (Some(reason), None), "{row:?}");
                assert_eq!((frame.payload(), frame.payload_len()), (&captured[..], whole.len()), "{row:?}");
            }
        }
    }
}

/// ARP after a tag; a header that the packet is too short for; a TCP header that was cut.
#[test]
fn other_packets_are_parsed_by_link_type() {
    let tagged = bytes(concat!(
        "ffffffffffff02000000000181000064",
        "08060001080006040001020000000001c0000201000000000000c0000202"
    ));
    let request = Frame::parse_linktype(1, &tagged, tagged.len());
    assert_eq!((request.check(), request.network_offset(), request.payload_offset()), (Ok(()), Some(18), 46));
    assert_eq!(request.arp().unwrap().operation, Arp::REQUEST);
    let syn = &frame("syn")[14..];
    for (link_type, bytes, len, reason, payload_offset) in [
        (1, &tagged[..10], 12, Reason::TooShort, 0),
        (1, &tagged[..16], 17, Reason::TooShort, 0),
        (1, &tagged[..20], tagged.len(), Reason::HeaderCut, 18),
        (RAW, &[], 9, Reason::HeaderCut, 0),
        (RAW, &syn[..40], syn.len(), Reason::HeaderCut, 20),
        (228, &tagged, tagged.len(), Reason::BadVersion, 0),
    ] {
        let frame = Frame::parse_linktype(link_type, bytes, len);
        assert_eq!((frame.rejected(), frame.payload_offset()), (Some(reason), payload_offset));
    }
    let cut = Frame::parse_linktype(RAW, &syn[..40], syn.len());
    assert_eq!(cut.rejected_transport(), Some(Transport::Tcp));
    // More bytes than the packet has.
    assert_eq!(Frame::parse_linktype(1, &tagged, 20).bytes(), &tagged[..20]);
}

const ENDS: &str = "20010db800000000000000000000000120010db8000000000000000000000002";
const UDP: &str = "d5cb14e900080000";
const ZEROS: &str = "0000000000000000";

/// Bytes in hex, how many of them are captured, each header as number@offset+length:next, and the error after them.
type Packet = (&'static [&'static str], usize, &'static str, Option<Reason>);

/// By hand, from RFC 8200, sections 4.3 to 4.6. The worked calls of the C library have more packets.
const PACKETS: &[Packet] = &[
    (&[IPV6], 52, "41@0+40:17", None),
    (
        &[
            "6000000000280040",
            ENDS,
            "2b000502000001003c010000",
            ZEROS,
            "000000002c0001040000000011000001000000ff",
        ],
        80,
        "41@0+40:0 0@40+8:43 43@48+16:60 60@64+8:44 44@72+8:17",
        None,
    ),
    (&["6000000000102c40", ENDS, "1100000800000001", UDP], 56, "41@0+40:44 44@40+8:59", None),
    (&["6000000000103c40", ENDS, "1101000000000000", ZEROS], 55, "41@0+40:60", Some(Reason::BadLength)),
    (&["4000000000103c40", ENDS, "1100000000000000", ZEROS], 56, "", Some(Reason::BadVersion)),
    (&[IPV6], 39, "", Some(Reason::TooShort)),
];

#[test]
fn ipv6_headers_are_in_their_order() {
    for &(hex, captured, expected, error) in PACKETS {
        let packet = &bytes(&hex.concat())[..captured];
        let mut headers = Ipv6Headers::new(packet);
        let (mut texts, mut ended) = (Vec::new(), None);
        for header in headers.by_ref() {
            match header {
                Ok(h) => texts.push(format!("{}@{}+{}:{}", h.protocol, h.offset, h.bytes.len(), h.next)),
                Err(reason) => ended = Some(reason),
            }
        }
        assert_eq!((texts.join(" ").as_str(), ended), (expected, error), "{hex:?}");
        assert!(headers.next().is_none());
    }
}
