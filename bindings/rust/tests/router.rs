//! Frames are forwarded by routes, and their segment size is clamped.

mod worked;

use ip_wire_c::{clamp_mss, forward, EthernetAddr};
use ip_wire_c::{Error, InterfaceId, Prefix, Rejection, Route, RouteNode, RouteTable};
use std::net::IpAddr;
use worked::{changed, frame};

const OWN: EthernetAddr = EthernetAddr([2, 0, 0, 0, 0, 0x11]);
const NEXT: EthernetAddr = EthernetAddr([2, 0, 0, 0, 0, 0x12]);

#[test]
fn packets_take_one_hop() {
    for name in ["query", "fragment_of_options"] {
        let mut bytes = frame(name);
        assert_eq!(forward(&mut bytes, OWN, NEXT), Ok(()));
        assert_eq!(bytes, frame(&format!("{name}_forwarded")), "{name}");
    }
}

#[test]
fn some_packets_take_none() {
    use Rejection::{BadHeader, HopLimitTooLow, NotIp, WrongChecksum};
    for (name, len, changes, rejection) in [
        ("query", 13, &[][..], NotIp),
        ("query", 46, &[(13, 0x06)], NotIp),
        ("query", 33, &[], BadHeader),
        ("query", 46, &[(14, 0x65), (22, 1)], BadHeader),
        ("query", 46, &[(25, 0xd5), (22, 1)], WrongChecksum),
        ("query", 46, &[(22, 0x01), (24, 0x5f)], HopLimitTooLow),
        ("router_solicit", 53, &[], BadHeader),
        ("router_solicit", 70, &[(21, 1)], HopLimitTooLow),
    ] {
        let mut bytes = changed(name, changes);
        bytes.truncate(len);
        let before = bytes.clone();
        assert_eq!(forward(&mut bytes, OWN, NEXT), Err(rejection), "{name} {changes:?}");
        assert_eq!(bytes, before);
    }
}

#[test]
fn segment_sizes_are_clamped() {
    for (name, mss, changes) in [
        ("syn", 1260, &[(50, 0xd9), (51, 0x85), (56, 0x04), (57, 0xec)][..]),
        ("syn", 1460, &[]),
        ("query", 0, &[]),
        ("syn_ack_of_1440", 1220, &[(70, 0x1a), (71, 0xa3), (77, 0x04), (78, 0xc4)]),
        ("syn_ack_of_1440", 1440, &[]),
    ] {
        let mut bytes = frame(name);
        assert_eq!(clamp_mss(&mut bytes, mss), !changes.is_empty(), "{name} {mss}");
        assert_eq!(bytes, changed(name, changes));
    }
}

/// Blocks in prefixes, over both versions. The third one is the first again.
fn routes() -> Vec<Route> {
    let route = |(prefix, next_hop, interface): (&str, &str, u16)| {
        Route::new(prefix.parse().unwrap(), next_hop.parse().ok(), InterfaceId(interface))
    };
    let rows = [
        ("10.0.0.0/8", "192.0.2.1", 1),
        ("10.1.0.0/16", "", 2),
        ("10.9.9.9/8", "192.0.2.3", 3),
        ("10.1.2.3/32", "192.0.2.4", 4),
        ("::/0", "fe80::1", 65535),
        ("2001:db8::/33", "", 6),
        ("127.0.0.0/8", "", 1),
    ];
    rows.map(route).to_vec()
}

#[test]
fn the_longest_prefix_is_chosen() {
    let routes = routes();
    let index = RouteTable::new(&routes, [RouteNode::default(); 9]).unwrap();
    let table = RouteTable::with_cells(&routes, [RouteNode::default(); 9], [7; 50]).unwrap();
    for (addr, place) in [
        ("10.0.0.0", Some(0)),
        ("10.255.255.255", Some(0)),
        ("11.0.0.0", None),
        ("10.1.255.255", Some(1)),
        ("10.1.2.3", Some(3)),
        ("::", Some(4)),
        ("2001:db8:7fff::", Some(5)),
        ("2001:db8:8000::", Some(4)),
    ] {
        let addr: IpAddr = addr.parse().unwrap();
        assert_eq!((index.position(addr), table.position(addr)), (place, place), "{addr}");
        let route = place.map(|place| &routes[place]);
        assert_eq!((index.choose(addr), table.choose(addr)), (route, route));
    }
}

/// Whether an address is IPv4, and its bits from the highest on.
fn bits(addr: IpAddr) -> (bool, u128) {
    match addr {
        IpAddr::V4(ipv4) => (true, u128::from(u32::from(ipv4)) << 96),
        IpAddr::V6(ipv6) => (false, u128::from(ipv6)),
    }
}

/// The place of the route for an address. All routes are looked at.
fn linear_search(routes: &[Route], addr: IpAddr) -> Option<usize> {
    let contains = |prefix: Prefix| {
        let ((is_ipv4, first), (other, bits)) = (bits(prefix.addr()), bits(addr));
        let shift = 128 - u32::from(prefix.prefix_len());
        is_ipv4 == other && (first ^ bits).checked_shr(shift).unwrap_or(0) == 0
    };
    let found = routes.iter().enumerate().filter(|(_, route)| contains(route.prefix()));
    found.min_by_key(|(place, route)| (u8::MAX - route.prefix().prefix_len(), *place)).map(|(place, _)| place)
}

/// The first and last address of a prefix, and those before and after.
fn edges(prefix: Prefix) -> [IpAddr; 4] {
    let (is_ipv4, bits) = bits(prefix.addr());
    let rest = u128::MAX.checked_shr(prefix.prefix_len().into()).unwrap_or(0);
    let (first, last, one) = (bits & !rest, bits | rest, if is_ipv4 { 1 << 96 } else { 1 });
    [first.wrapping_sub(one), first, last, last.wrapping_add(one)].map(|bits| {
        let octets = bits.to_be_bytes();
        if is_ipv4 {
            [octets[0], octets[1], octets[2], octets[3]].into()
        } else {
            octets.into()
        }
    })
}

/// Routes to prefixes of both versions, where the last `spread` bits of an address are random. Some prefixes
/// are larger, and some are single addresses.
fn random_routes(count: u16, spread: u8, random: &mut impl FnMut(u64) -> u64) -> Vec<Route> {
    let mut route = |place| {
        let low = random(1 << spread);
        let (addr, width, base): (IpAddr, u8, u8) = match random(4) {
            0 => ((0x2001_0db8_u128 << 96 | u128::from(low)).to_be_bytes().into(), 128, 32),
            _ => ((0x0a00_0000 | u32::try_from(low).unwrap()).to_be_bytes().into(), 32, 8),
        };
        let mut up_to = |len: u8| u8::try_from(random(u64::from(len) + 1)).unwrap();
        let prefix_len = match up_to(7) {
            0 => up_to(base),
            1 => width,
            _ => width - up_to(spread),
        };
        Route::new(Prefix::new(addr, prefix_len).unwrap(), None, InterfaceId(place))
    };
    (0..count).map(&mut route).collect()
}

#[test]
fn each_search_finds_the_same() {
    let mut state = 1u64;
    let mut random = |below: u64| {
        state = state.wrapping_mul(6_364_136_223_846_793_005).wrapping_add(1_442_695_040_888_963_407);
        (state >> 33) % below
    };
    let lists = [(0, 8), (1, 24), (2, 1), (3, 24), (12, 8), (40, 2), (40, 6), (200, 8), (300, 16), (300, 24)];
    for (count, spread) in lists {
        let routes = random_routes(count, spread, &mut random);
        let nodes = vec![RouteNode::default(); routes.len()];
        let cells = vec![u64::MAX; RouteTable::cells(routes.len())];
        let index = RouteTable::new(&routes, nodes.clone()).unwrap();
        let table = RouteTable::with_cells(&routes, nodes, cells).unwrap();
        let others = ["0.0.0.0", "255.255.255.255", "::"].map(|addr| addr.parse().unwrap());
        for addr in routes.iter().flat_map(|route| edges(route.prefix())).chain(others) {
            let place = linear_search(&routes, addr);
            assert_eq!((index.position(addr), table.position(addr)), (place, place), "{addr} {routes:?}");
        }
    }
}

#[test]
fn sources_are_checked() {
    use Rejection::{Martian, NoRouteToSource, OtherInterface};
    let index = RouteTable::new(routes(), vec![RouteNode::default(); 7]).unwrap();
    let cells = [0; RouteTable::cells(7)];
    let table = RouteTable::with_cells(routes(), vec![RouteNode::default(); 7], cells).unwrap();
    for (src, interface, result) in [
        ("10.0.0.1", 1, Ok(())),
        ("10.0.0.1", 3, Err(OtherInterface)),
        ("11.0.0.1", 1, Err(NoRouteToSource)),
        ("fe80::", 65535, Ok(())),
        // RFC 1122, section 3.2.1.3, and RFC 4291, section 2
        ("0.255.255.255", 1, Err(Martian)),
        ("127.0.0.1", 1, Err(Martian)),
        ("224.0.0.1", 1, Err(Martian)),
        ("240.0.0.1", 1, Err(Martian)),
        ("::1", 65535, Err(Martian)),
        ("::ffff:192.0.2.1", 65535, Err(Martian)),
        ("ff02::1", 65535, Err(Martian)),
    ] {
        let (src, interface) = (src.parse().unwrap(), InterfaceId(interface));
        assert_eq!(index.check_source(src, interface), result, "{src}");
        assert_eq!(table.check_source(src, interface), result, "{src}");
    }
}

#[test]
fn a_table_keeps_its_memory() {
    let prefix: Prefix = "10.9.9.9/8".parse().unwrap();
    let route = Route::new(prefix, None, InterfaceId(3));
    assert_eq!((route.prefix(), route.next_hop(), route.interface()), (prefix, None, InterfaceId(3)));
    assert_eq!(RouteTable::new([route; 2], [RouteNode::default()]).unwrap_err(), Error::NoRoom);

    let mut nodes = [RouteNode::default(); 2];
    let table = RouteTable::new([route; 0], &mut nodes[..]).unwrap();
    let addr = prefix.addr();
    assert_eq!((table.choose(addr), table.position(addr), table.routes()), (None, None, &[][..]));
    assert_eq!(table.check_source(addr, InterfaceId(3)), Err(Rejection::NoRouteToSource));
    let (_, nodes) = table.into_parts();
    let table = RouteTable::new([route; 2], nodes).unwrap();
    assert_eq!(table.position(addr), Some(0));
}

#[test]
fn a_table_has_its_cells() {
    assert_eq!([0, 1, 2, 1000].map(RouteTable::cells), [5, 10, 15, 5005]);
    let routes = routes();
    let fails = Err(Error::NoRoom);
    for (room, made) in [(0, Ok(0)), (1, fails), (39, fails), (40, Ok(40)), (47, Ok(40))] {
        let mut cells = vec![7; room];
        let table = RouteTable::with_cells(&routes, [RouteNode::default(); 7], &mut cells);
        let place = table.map(|table| table.position("10.1.2.3".parse().unwrap()));
        assert_eq!(place, made.map(|_| Some(3)), "{room}");
        // What follows the table stays, and without a table all of it.
        assert!(cells[made.unwrap_or(0)..].iter().all(|cell| *cell == 7), "{room}");
    }
    let nodes = [RouteNode::default(); 2];
    assert_eq!(RouteTable::with_cells(&routes, nodes, [0; 40]).unwrap_err(), Error::NoRoom);

    let table = RouteTable::with_cells([routes[0]; 2], nodes, [7; 15]).unwrap();
    let (_, nodes, cells) = table.into_parts_with_cells();
    assert_ne!(cells, [7; 15]);
    let table = RouteTable::with_cells([routes[6]; 1], nodes, cells).unwrap();
    assert_eq!(table.position("127.0.0.1".parse().unwrap()), Some(0));
    assert_eq!(table.position("10.0.0.1".parse().unwrap()), None);
}
