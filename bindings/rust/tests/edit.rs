//! Fields are written in place, and the checksums that cover them updated. Packets are cut, and put together. Scapy packed
//! the frames after each edit, and the fragments.

mod worked;

use ip_wire_c::{clamp_mss_as, edit, Error, Fragments, Offload, Reassembler, Reassembly, Side};
use std::net::IpAddr;
use std::time::Duration;
use worked::{bytes, changed, frame};

/// Makes an edit of the frame: these bytes change, or none, and then it returns `false`.
fn edits(name: &str, edit: impl Fn(&mut [u8]) -> bool, changes: &[(usize, u8)]) {
    let mut bytes = frame(name);
    assert_eq!(edit(&mut bytes), !changes.is_empty(), "{name}");
    assert_eq!(bytes, changed(name, changes), "{name}");
}

fn addr(text: &str) -> IpAddr {
    text.parse().unwrap()
}

#[test]
fn header_fields_are_written() {
    edits("ping", |bytes| edit::set_hop_limit(bytes, 1), &[(22, 0x01), (24, 0xd4)]);
    edits("ping6", |bytes| edit::set_hop_limit(bytes, 0), &[(21, 0x00)]);
    edits("arp_request", |bytes| edit::set_hop_limit(bytes, 1), &[]);
    edits("ping", |bytes| edit::set_dscp(bytes, 46), &[(15, 0xb8), (24, 0x94), (25, 0xb1)]);
    edits("ping6", |bytes| edit::set_dscp(bytes, 46), &[(14, 0x6b), (15, 0x80)]);
    edits("ping", |bytes| edit::set_dscp(bytes, 64), &[]);
}

#[test]
fn addresses_and_ports_are_written() {
    let after = [(24, 0x1b), (25, 0x61), (26, 0xcb), (28, 0x71), (29, 0x09), (40, 0x81), (41, 0x8a)];
    edits("ping", |bytes| edit::set_addr(bytes, Side::Source, addr("203.0.113.9")), &after);
    let after = [(43, 0x01), (53, 0x07), (71, 0x5b)];
    edits("syn6", |bytes| edit::set_addr(bytes, Side::Destination, addr("2001:db8:1::7")), &after);
    edits("syn6", |bytes| edit::set_addr(bytes, Side::Destination, addr("203.0.113.9")), &[]);
    let after = [(34, 0x14), (35, 0xe9), (40, 0x88), (41, 0x11)];
    edits("ping", |bytes| edit::set_port(bytes, Side::Source, 5353), &after);
    let after = [(36, 0x1f), (37, 0x90), (50, 0xb9), (51, 0x7d)];
    edits("syn", |bytes| edit::set_port(bytes, Side::Destination, 8080), &after);
    edits("echo_request", |bytes| edit::set_port(bytes, Side::Source, 1), &[]);
}

#[test]
fn other_bytes_are_written() {
    edits("ping", |bytes| edit::set_bytes(bytes, 42, b"pong"), &[(41, 0x8c), (43, 0x6f)]);
    edits("ping", |bytes| edit::set_bytes(bytes, 43, b"pong"), &[]);
    edits("ping", |bytes| edit::set_bytes(bytes, 23, &[6]), &[]);
}

/// Makes an edit of a SYN whose checksum is the sum of the pseudo-header, and valid as it is.
fn edits_both(edit: impl Fn(&mut [u8]) -> bool, changes: &[(usize, u8)]) {
    let both = [(48, 0x4f), (49, 0x7c), (50, 0x84), (51, 0x32)];
    let mut bytes = changed("syn", &both);
    assert!(edit(&mut bytes));
    assert_eq!(bytes, changed("syn", &[&both, changes].concat()));
}

#[test]
fn checksums_are_left_as_the_caller_says() {
    let (to, new) = (Side::Destination, addr("198.51.100.7"));
    let ip = [(24, 0xfa), (25, 0xc3), (30, 0xc6), (31, 0x33), (32, 0x64), (33, 0x07)];
    let after = [&ip[..], &[(50, 0xec), (51, 0x6a)]].concat();
    edits_both(|bytes| edit::set_addr_as(bytes, to, new, Offload::Offloaded), &after);
    let after = [(36, 0x1f), (37, 0x90)];
    edits_both(|bytes| edit::set_port_as(bytes, to, 8080, Offload::Offloaded), &after);
    let after = [(36, 0x1f), (37, 0x90), (50, 0x64), (51, 0xf2)];
    edits_both(|bytes| edit::set_port_as(bytes, to, 8080, Offload::Complete), &after);
    edits_both(|bytes| edit::set_port(bytes, to, 8080), &after);
    let after = [(56, 0x04), (57, 0xec)];
    edits_both(|bytes| edit::set_bytes_as(bytes, 56, &[0x04, 0xec], Offload::Offloaded), &after);
    edits_both(|bytes| clamp_mss_as(bytes, 1260, Offload::Offloaded), &after);
}

#[test]
fn checksums_are_filled_in() {
    edits("tcp4_left_to_device", edit::fill_checksum, &[(50, 0x96), (51, 0x9e)]);
    edits("udp6_left_to_device", edit::fill_checksum, &[(60, 0xb5), (61, 0x6d)]);
    edits("fragment4_first", edit::fill_checksum, &[]);
}

#[test]
fn a_packet_is_cut() {
    let (ping, mut out) = (frame("ping"), [0; 64]);
    let mut fragments = Fragments::with_ident(&ping, 28, 0x1234);
    for digits in [
        "4500001c123420004011c499c0000201c0000202a1670007000cfb92",
        "45000018123400014011e49cc0000201c000020270696e67",
    ] {
        let fragment = fragments.emit_next(&mut out).unwrap().unwrap();
        assert_eq!((&fragment[..14], &fragment[14..]), (&ping[..14], &bytes(digits)[..]));
    }
    assert_eq!(fragments.emit_next(&mut out), Ok(None));
    let forwarded =
        |mtu| Fragments::forwarded(&ping, mtu).emit_next(&mut [0; 64]).map(|it| it.unwrap().to_vec());
    assert_eq!(forwarded(31), Err(Error::DontFragment));
    assert_eq!(forwarded(32), Ok(ping.clone()));
    assert_eq!(Fragments::with_ident(&ping, 28, 65536).emit_next(&mut out), Err(Error::BadField));
}

#[test]
fn an_ipv6_packet_is_cut() {
    const ADDRS: &str = "20010db800000000000000000000000120010db8000000000000000000000002";
    let ipv6 =
        |header: &str, rest: &str| bytes(&format!("02000000000202000000000186dd{header}{ADDRS}{rest}"));
    let payload = ["0001020304050607", "08090a0b0c0d0e0f", "1011121314151617"];
    let (esp, mut out) = (ipv6("6000000000183240", &payload.concat()), [0; 78]);
    let mut fragments = Fragments::with_ident(&esp, 63, 0xffff_ffff);
    for (place, part) in ["32000001", "32000009", "32000010"].iter().zip(payload) {
        let wanted = ipv6("6000000000102c40", &format!("{place}ffffffff{part}"));
        assert_eq!(fragments.emit_next(&mut out).unwrap().unwrap(), &wanted[..]);
    }
    assert_eq!(fragments.emit_next(&mut out), Ok(None));
    assert_eq!(Fragments::forwarded(&esp, 63).emit_next(&mut out), Err(Error::DontFragment));
    assert_eq!(Fragments::forwarded(&esp, 64).emit_next(&mut out).unwrap().unwrap(), &esp[..]);
}

const LINK: &str = "0200000000020200000000010800";
const WHOLE: &str = "45000034123400004011e481c0000201c00002020fa000070020e772000102030405060708090a0b0c0d0e0f1011121314151617";
const FIRST: &str = "45000024123420004011c491c0000201c00002020fa000070020e7720001020304050607";
const LAST: &str = "45000024123400024011e48fc0000201c000020208090a0b0c0d0e0f1011121314151617";
const OTHER_LAST: &str = "45000024123400024011e48fc0000201c000020209090a0b0c0d0e0f1011121314151617";
const LINK6: &str = "02000000000202000000000186dd";
const WHOLE6: &str = "600000000020114020010db800000000000000000000000120010db80000000000000000000000020fa0000700201002000102030405060708090a0b0c0d0e0f1011121314151617";
const FIRST6: &str = "6000000000182c4020010db800000000000000000000000120010db800000000000000000000000211000001123456780fa00007002010020001020304050607";
const LAST6: &str = "6000000000182c4020010db800000000000000000000000120010db8000000000000000000000002110000101234567808090a0b0c0d0e0f1011121314151617";

fn at(seconds: u64) -> Duration {
    Duration::from_secs(seconds)
}

fn framed(packet: &str) -> Vec<u8> {
    bytes(&[if packet.starts_with('6') { LINK6 } else { LINK }, packet].concat())
}

fn reassembler() -> Reassembler<[Reassembly; 2], Vec<u8>> {
    Reassembler::new([Reassembly::FREE; 2], vec![0xa5; 2 * 72])
}

#[test]
fn packets_are_put_together() {
    let (mut reassembler, mut out) = (reassembler(), [0; 200]);
    for (first, last, whole) in [(FIRST, LAST, WHOLE), (LAST, FIRST, WHOLE), (LAST6, FIRST6, WHOLE6)] {
        assert_eq!(reassembler.reassemble(at(1), &framed(first), &mut out), Ok(None));
        assert_eq!(reassembler.reassemble(at(1), &framed(first), &mut out), Ok(None));
        assert_eq!(reassembler.reassemble(at(1), &framed(last), &mut [0; 40]), Err(Error::NoRoom));
        let came = reassembler.reassemble(at(60), &framed(last), &mut out).unwrap().unwrap();
        assert_eq!(came, framed(whole));
    }
    let came = reassembler.reassemble(at(60), &framed(WHOLE), &mut out).unwrap().unwrap();
    assert_eq!(came, framed(WHOLE));
}

#[test]
fn fragments_expire() {
    let (mut reassembler, mut out) = (reassembler(), [0; 200]);
    reassembler.reassemble(at(1), &framed(FIRST), &mut out).unwrap();
    reassembler.reassemble(at(2), &framed(LAST6), &mut out).unwrap();
    let addrs = [("192.0.2.1", "192.0.2.2"), ("2001:db8::1", "2001:db8::2")];
    for (partial, (src, dst)) in reassembler.reassemblies().iter().zip(addrs) {
        assert_eq!(partial.addrs(), Some((addr(src), addr(dst))));
    }
    assert_eq!(reassembler.reassemblies()[1].expires(), Some(at(62)));
    assert_eq!(reassembler.expire(at(60), &mut out), None);
    assert_eq!(reassembler.expire(at(62), &mut out).unwrap(), framed(FIRST));
    assert_eq!(reassembler.expire(at(62), &mut out), None);
    assert_eq!(reassembler.reassemblies().iter().find_map(Reassembly::addrs), None);
    assert_eq!(reassembler.into_parts().1.len(), 144);
}

#[test]
fn failures_are_told() {
    let (mut reassembler, mut out) = (reassembler(), [0; 200]);
    assert_eq!(reassembler.reassemble(at(1), b"", &mut out), Err(Error::NoHeader));
    assert_eq!(reassembler.reassemble(at(1), &framed(WHOLE6), &mut out), Err(Error::NoHeader));
    assert_eq!(reassembler.reassemble(at(1), &framed(LAST), &mut out), Ok(None));
    assert_eq!(reassembler.reassemble(at(1), &framed(OTHER_LAST), &mut out), Err(Error::Dropped));
    assert_eq!(reassembler.reassemble(at(60), &framed(FIRST), &mut out), Err(Error::Dropped));
    assert_eq!(reassembler.reassemble(at(61), &framed(FIRST), &mut out), Ok(None));
    let mut none = Reassembler::new([Reassembly::FREE; 0], []);
    assert_eq!(none.reassemble(at(1), &framed(LAST), &mut out), Err(Error::PayloadTooLong));
}
