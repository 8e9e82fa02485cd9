//! Texts, CIDR prefixes, checksums and sequence numbers.

use ip_wire_c::*;
use std::net::{IpAddr, SocketAddr};

#[test]
fn addresses_parse_as_by_core() {
    for text in ["0.0.0.0", "255.255.255.255", "::", "::1", "2001:db8::1:0:0:1", "::ffff:192.0.2.1", "fe80::"]
    {
        let addr: IpAddr = text.parse().unwrap();
        assert_eq!(parse_addr(text), Ok(addr));
        assert_eq!(parse_addr(&addr.to_string()), Ok(addr));
        assert_eq!(parse_endpoint(text), Ok(SocketAddr::new(addr, 0)));
        let endpoint = SocketAddr::new(addr, 8080);
        assert_eq!(parse_endpoint(&endpoint.to_string()), Ok(endpoint));
        let prefix = Prefix::new(addr, 32).unwrap();
        assert_eq!(prefix.to_string(), format!("{addr}/32"));
        assert_eq!(prefix.to_string().parse(), Ok(prefix));
    }
    for text in ["", "1.2.3", "1.2.3.256", "::1%lo", "1::2::3", "1.2.3.4 ", "1.2.3.4\0"] {
        assert_eq!(parse_addr(text), Err(ParseError));
        assert_eq!(text.parse::<Prefix>(), Err(ParseError));
    }
    assert_eq!(parse_endpoint("1.2.3.4:65536"), Err(ParseError));
    assert_eq!(ParseError.to_string(), "the text does not parse");
}

#[test]
fn blocks_contain() {
    let prefix: Prefix = "192.0.2.77/24".parse().unwrap();
    assert_eq!((prefix.addr(), prefix.prefix_len()), ([192, 0, 2, 77].into(), 24));
    assert!(prefix.contains([192, 0, 2, 255].into()));
    assert!(!prefix.contains([192, 0, 3, 0].into()));
    assert!(!Prefix::new([0; 16].into(), 0).unwrap().contains([192, 0, 2, 1].into()));
    assert_eq!(Prefix::try_from(([1, 2, 3, 4].into(), 33)), Err(Error::BadPrefix));
    assert_eq!(Prefix::new([0; 16].into(), 129), Err(Error::BadPrefix));
    assert_eq!("10.0.0.0/33".parse::<Prefix>(), Err(ParseError));
    assert_eq!("10.0.0.0/".parse::<Prefix>(), Err(ParseError));
}

#[test]
fn unicast_is_neither_of_three() {
    for (text, expected) in
        [("192.0.2.1", true), ("224.0.0.1", false), ("255.255.255.255", false), ("::", false)]
    {
        assert_eq!(is_unicast(text.parse().unwrap()), expected);
    }
}

#[test]
fn hardware_addresses_have_texts() {
    let addr = EthernetAddr([0xab, 0xcd, 0xef, 0, 0, 1]);
    assert_eq!("AB:cd:ef:0:00:1".parse(), Ok(addr));
    assert_eq!(addr.to_string(), "ab-cd-ef-00-00-01");
    assert_eq!(format!("{addr:>19}"), "  ab-cd-ef-00-00-01");
    for text in ["ab:cd-ef:0:0:1", "ab:cd:ef:0:0", "ab:cd:ef:0:0:1:", "é"] {
        assert_eq!(text.parse::<EthernetAddr>(), Err(ParseError));
    }
}

#[test]
fn checksums_are_updated() {
    let before = [0x45, 0, 0, 0x20, 192, 0, 2, 1];
    let after = [0x45, 0, 0, 0x54, 198, 51, 100, 9];
    let checksum = checksum::update(!checksum::sum(&before), 0x20, 0x54);
    let checksum = checksum::update_addr(checksum, [192, 0, 2, 1].into(), [198, 51, 100, 9].into());
    assert_eq!(checksum, !checksum::sum(&after));
    assert_eq!(checksum::sum(&[]), 0);
    assert_eq!(checksum::sum(&[0x12]), 0x1200);
    assert_eq!(checksum::update_udp(0, 1, 2), 0);
    assert_eq!(checksum::update_udp_addr(0, [0; 16].into(), [1; 16].into()), 0);
    assert_eq!(checksum::update_udp(1, 0, 1), 0xffff);
}

/// RFC 1071, section 3, and RFC 1624, section 4.
#[test]
fn checksums_are_those_of_the_rfcs() {
    assert_eq!(checksum::sum(&[0x00, 0x01, 0xf2, 0x03, 0xf4, 0xf5, 0xf6, 0xf7]), 0xddf2);
    assert_eq!(checksum::update(0xdd2f, 0x5555, 0x3285), 0x0000);
}

/// A checksum, an offset, the bytes there and those that replace them, and the checksum then.
type Replaced = (u16, usize, &'static [u8], &'static [u8], u16);

/// RFC 1624, section 4; the bytes of RFC 1071, section 3; and the headers of a packet whose hop limit, address or MSS
/// changes.
#[test]
fn checksums_are_updated_at_any_offset() {
    let rows: &[Replaced] = &[
        (0xdd2f, 0, &[0x55, 0x55], &[0x32, 0x85], 0x0000),
        (0x8fe6, 8, &[0x3f], &[0x3e], 0x90e6),
        (0xb1e6, 12, &[192, 0, 2, 1], &[198, 51, 100, 7], 0x49ad),
        (0x4ea2, 23, &[0x05, 0xa0], &[0x04, 0xc4], 0x2aa3),
        (0x220d, 3, &[0x03, 0xf4, 0xf5], &[0, 0, 0], 0x1706),
        (0x220d, 1, &[0x01], &[0xfe], 0x2110),
        (0x220d, 2, &[0xf2, 0x03], &[], 0x1411),
        (0x1411, 2, &[], &[0xf2, 0x03], 0x220d),
        (0x220d, 5, &[0xf5, 0xf6, 0xf7], &[0xaa], 0x1950), // nothing follows
    ];
    for &(checksum, offset, before, after, updated) in rows {
        assert_eq!(checksum::update_bytes(checksum, offset, before, after), updated);
        let of_udp = if updated == 0 { 0xffff } else { updated };
        assert_eq!(checksum::update_udp_bytes(checksum, offset, before, after), of_udp);
        assert_eq!(checksum::update_udp_bytes(0, offset, before, after), 0);
    }
}

#[test]
fn flags_are_sets() {
    let both = TcpFlags::SYN | TcpFlags::ACK;
    for (flags, bits, text) in [
        (both, 0x12, "SYN ACK"),
        (both & TcpFlags::ACK, 0x10, "ACK"),
        (both & !TcpFlags::ACK, 0x02, "SYN"),
        (!both, 0xed, "FIN RST PSH URG ECE CWR"),
        (both & TcpFlags::FIN, 0, ""),
    ] {
        assert_eq!(
            (flags.bits(), flags, flags.to_string().as_str()),
            (bits, TcpFlags::from_bits(bits), text)
        );
    }
    let mut flags = TcpFlags::SYN;
    flags |= TcpFlags::ACK;
    assert_eq!(flags, both);
    flags &= TcpFlags::SYN;
    assert_eq!(flags, TcpFlags::SYN);
}

#[test]
fn sequence_numbers_wrap() {
    let (a, b) = (SeqNumber(u32::MAX), SeqNumber(3));
    assert_eq!((a + 4, b - a, a - b), (b, 4, -4));
    assert!(a.is_before(b) && !b.is_before(a) && !a.is_before(a));
    let far = a + (1 << 31);
    assert!(a.is_before(far) && far.is_before(a));
    assert_eq!(far - a, i32::MIN);
}

#[test]
fn the_library_has_this_version() {
    assert!(cpu_supported());
    let (major, minor, _) = version();
    assert_eq!((major, minor), (0, 5));
}
