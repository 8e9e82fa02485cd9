//! Packets are translated, one by one and by a table.

mod worked;

use ip_wire_c::{translate, Mapping, Nat, NatConfig, Rejection, Side};
use std::net::{Ipv4Addr, SocketAddrV4};
use std::time::Duration;
use worked::{changed, frame};

const OUTSIDE: Ipv4Addr = Ipv4Addr::new(203, 0, 113, 9);

fn outside(port: u16) -> SocketAddrV4 {
    SocketAddrV4::new(OUTSIDE, port)
}

#[test]
fn one_side_is_translated() {
    let inside = SocketAddrV4::new(Ipv4Addr::new(192, 0, 2, 1), 46563);
    for (before, side, end, after) in [
        ("query", Side::Source, outside(40000), "query_out"),
        ("query_out", Side::Source, inside, "query"),
        ("response_in", Side::Destination, inside, "response"),
        ("syn", Side::Source, outside(40001), "syn_out"),
        ("nat_request", Side::Source, outside(39999), "nat_request_out"),
    ] {
        let mut bytes = frame(before);
        assert_eq!(translate(&mut bytes, side, end), Ok(()));
        assert_eq!(bytes, frame(after), "{before}");
    }
}

/// What neither one call nor a table translates.
#[test]
fn some_packets_are_not_translated() {
    use Rejection::{BadHeader, BadTransport, Fragment, NotIp, OtherProtocol, WrongChecksum};
    for (name, changes, rejection) in [
        ("ethernet_too_short", &[][..], NotIp),
        ("router_solicit", &[], NotIp),
        ("query", &[(14, 0x65)], BadHeader),
        ("fragment_of_options", &[(24, 0)], WrongChecksum),
        ("fragment_of_options", &[], Fragment),
        ("query", &[(23, 0x10), (25, 0xd5)], OtherProtocol),
        ("query", &[(39, 0x07)], BadTransport),
        ("syn", &[(47, 0x03)], BadTransport),
    ] {
        let before = changed(name, changes);
        let (mut bytes, mut nat) = (before.clone(), nat());
        for side in [Side::Source, Side::Destination] {
            assert_eq!(translate(&mut bytes, side, outside(40000)), Err(rejection), "{name} {changes:?}");
        }
        assert_eq!(nat.translate_out(Duration::ZERO, &mut bytes), Err(rejection));
        assert_eq!(nat.translate_in(Duration::ZERO, &mut bytes), Err(rejection));
        assert_eq!(bytes, before);
    }
    let mut query = frame("query");
    assert_eq!(translate(&mut query, Side::Destination, outside(0)), Err(Rejection::PortZero));
    assert_eq!(translate(&mut frame("nat_error_in"), Side::Source, outside(1)), Err(OtherProtocol));
}

/// With two outside ports, 39999 and 40000, which the inside ports of the frames are not.
fn nat() -> Nat<[Mapping; Mapping::count(2)]> {
    Nat::new(&NatConfig::new([1, 1], OUTSIDE, 39999), [Mapping::FREE; Mapping::count(2)])
}

enum Way {
    Out,
    In,
}
use Way::{In, Out};

/// A frame goes one way at a time in milliseconds, and becomes another one.
type Step<'a> = (Way, u64, &'a [u8], Result<&'a [u8], Rejection>);

fn run(nat: &mut Nat<impl AsMut<[Mapping]>>, steps: &[Step]) {
    for (number, (way, now, before, after)) in steps.iter().enumerate() {
        let (mut bytes, now) = (before.to_vec(), Duration::from_millis(*now));
        let result = match way {
            Out => nat.translate_out(now, &mut bytes),
            In => nat.translate_in(now, &mut bytes),
        };
        assert_eq!(result, after.map(|_| ()), "step {number}");
        assert_eq!(bytes, after.unwrap_or(before), "step {number}");
    }
}

#[test]
fn a_table_translates_udp() {
    let [query, query_out, response_in, response] =
        ["query", "query_out", "response_in", "response"].map(frame);
    // The source port is 46564 and 46565. The first becomes 39999.
    let next = changed("query", &[(35, 0xe4), (41, 0x33)]);
    let next_out = changed("query_out", &[(34, 0x9c), (35, 0x3f), (41, 0xd0)]);
    let third = changed("query", &[(35, 0xe5), (41, 0x32)]);
    let steps: [Step; 9] = [
        (In, 0, &response_in, Err(Rejection::NoMapping)),
        (Out, 0, &next, Ok(&next_out)),
        (Out, 1, &query, Ok(&query_out)),
        (Out, 2, &third, Err(Rejection::NoFreePort)),
        (In, 3, &response_in, Ok(&response)),
        (Out, 299_999, &next, Ok(&next_out)),
        (In, 300_000, &response_in, Ok(&response)),
        (In, 300_001, &response_in, Err(Rejection::NoMapping)), // RFC 4787, REQ-5
        (In, 300_001, &query, Err(Rejection::NoMapping)),       // for another address
    ];
    run(&mut nat(), &steps);

    // The endpoints keep their ports.
    let mut shrunk = nat();
    run(&mut shrunk, &steps[1..3]);
    shrunk.shrink_reach(Duration::from_millis(2));
    run(&mut shrunk, &steps[3..]);

    // A new NAT has no mapping of the old one.
    let mut old = nat();
    run(&mut old, &steps[1..5]);
    let config = NatConfig::new([1, 1], OUTSIDE, 39999);
    run(&mut Nat::new(&config, old.into_mappings()), &[(In, 3, &response_in, Err(Rejection::NoMapping))]);
}

#[test]
fn a_table_translates_echoes() {
    let [request, request_out] = ["nat_request", "nat_request_out"].map(frame);
    let [reply_in, reply, error_in, error] =
        ["nat_reply_in", "nat_reply", "nat_error_in", "nat_error"].map(frame);
    let steps: [Step; 7] = [
        (In, 0, &reply_in, Err(Rejection::NoMapping)),
        (Out, 0, &request, Ok(&request_out)),
        (In, 1, &reply_in, Ok(&reply)),
        (In, 2, &error_in, Ok(&error)),
        (In, 59_999, &reply_in, Ok(&reply)),
        (In, 60_000, &reply_in, Err(Rejection::NoMapping)), // RFC 5508, REQ-2
        (In, 60_000, &error_in, Err(Rejection::NoMapping)),
    ];
    run(&mut nat(), &steps);
}

#[test]
fn a_table_may_have_no_port() {
    let query = frame("query");
    let config = NatConfig::new([1, 1], OUTSIDE, 39999);
    run(&mut Nat::new(&config, []), &[(Out, 0, &query, Err(Rejection::NoFreePort))]);
    let config = NatConfig { first_port: 0, udp_timeout: Duration::MAX, ..config };
    let mut none = Nat::new(&config, vec![Mapping::FREE; Mapping::count(1)]);
    run(&mut none, &[(Out, u64::MAX, &query, Err(Rejection::NoFreePort))]);
}
