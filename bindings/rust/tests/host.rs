//! A host answers frames, asks for neighbours, and tells why it dropped a packet.

mod worked;

use ip_wire_c::{
    emit_mld_report, parse_mld_query, AdvertFlags, Ethernet, EthernetAddr, Frame, Ndisc, SeqNumber,
};
use ip_wire_c::{Error, Host, Interface, Problem};
use std::net::Ipv6Addr;
use std::time::Duration;
use worked::{changed, frame};

const CLIENT: EthernetAddr = EthernetAddr([2, 0, 0, 0, 0, 1]);
const SERVER: EthernetAddr = EthernetAddr([2, 0, 0, 0, 0, 2]);
const OUT: [u8; 200] = [0xee; 200];

fn host<'a>(open_ports: &'a [u16], open_udp_ports: &'a [u16]) -> Host<'a> {
    Host {
        open_ports,
        open_udp_ports,
        ipv4: [192, 0, 2, 2].into(),
        ipv6: "2001:db8::2".parse().unwrap(),
        hardware: SERVER,
        echo_port: Some(7),
        seq_number: SeqNumber(0x0a0b_0c0d),
        tsval: 0x5566_7788,
        window_len: 0x7210,
        mss: 1460,
        window_scale: 7,
        is_router: false,
    }
}

/// The name of a frame, and of its answer. `None`: there is none.
type Answer<'a> = (&'a str, Option<&'a str>);

fn answers(host: &Host, expected: &[Answer]) {
    for (asked, answer) in expected {
        let (asked, mut out) = (frame(asked), OUT);
        let written = host.answer(&asked, &mut out).unwrap().map(|answer| answer.to_vec());
        assert_eq!(written, answer.map(frame), "{answer:?}");
        let room = written.map_or(0, |written| written.len());
        assert!(out[room..].iter().all(|&byte| byte == 0xee));
        if let Some(less) = room.checked_sub(1) {
            assert_eq!(host.answer(&asked, &mut out[..less]), Err(Error::NoRoom));
        }
    }
}

#[test]
fn a_host_answers_as_other_programs_do() {
    let to_any: [Answer; 13] = [
        ("arp_request", Some("arp_reply")),
        ("arp_reply", None),
        ("ping", Some("pong")),
        ("pong", None),
        ("ping6", Some("pong6")),
        ("ack6", Some("ack_reset6")),
        ("syn_reset", None),
        ("echo_request", Some("echo_reply")),
        ("echo_request6", Some("echo_reply6")),
        ("solicit", Some("advert")),
        ("probe", Some("advert_to_all")),
        ("to_closed_port", Some("unreachable")),
        ("to_closed_port6", Some("unreachable6")),
    ];
    answers(&host(&[22, 80], &[9]), &to_any);
    answers(&host(&[22, 80], &[]), &[("syn", Some("syn_ack")), ("syn6", Some("syn_ack6"))]);
    answers(&host(&[22], &[80]), &[("syn", Some("syn_reset")), ("syn6", Some("syn_reset6"))]);
    let serving = Host { echo_port: None, ..host(&[], &[7, 0x14e9]) };
    answers(&serving, &[("ping", None), ("to_closed_port", None), ("to_closed_port6", None)]);
    answers(&Host { is_router: true, ..serving }, &[("solicit", Some("router_advert"))]);
}

#[test]
fn neighbours_are_asked_and_tell() {
    let [client, server]: [Ipv6Addr; 2] = ["2001:db8::1", "2001:db8::2"].map(|text| text.parse().unwrap());
    let group = EthernetAddr([0x33, 0x33, 0xff, 0, 0, 2]);
    let flags = AdvertFlags { is_router: false, is_solicited: true, overrides: true };
    let told = |flags| Ndisc { target: server, hardware: Some(SERVER), advert: Some(flags) };
    let asked = Ndisc::solicitation(server, CLIENT);
    let to_group = (Ethernet::new(CLIENT, group), client, "ff02::1:ff00:2".parse().unwrap());
    let to_client = (Ethernet::new(SERVER, CLIENT), server, client);
    for (name, (ethernet, src, dst), ndisc) in [
        ("solicit", to_group, asked),
        ("probe", (to_group.0, Ipv6Addr::UNSPECIFIED, to_group.2), Ndisc { hardware: None, ..asked }),
        ("advert", to_client, told(flags)),
        ("router_advert", to_client, told(AdvertFlags { is_router: true, ..flags })),
    ] {
        let (bytes, mut out) = (frame(name), OUT);
        assert_eq!(Ndisc::parse(&bytes), Some(ndisc), "{name}");
        assert_eq!(ndisc.emit(&ethernet, src, dst, &mut out).unwrap(), bytes, "{name}");
        let less = bytes.len() - 1;
        assert_eq!(ndisc.emit(&ethernet, src, dst, &mut out[..less]), Err(Error::NoRoom));
        // RFC 4861, section 7.1: the hop limit is 255.
        assert_eq!(Ndisc::parse(&changed(name, &[(21, 254)])), None);
    }
}

#[test]
fn errors_are_those_of_other_programs() {
    let own =
        Interface { ipv4: [192, 0, 2, 2].into(), ipv6: "2001:db8::2".parse().unwrap(), hardware: SERVER };
    for (name, asked, problem) in [
        ("expired", "last_hop", Problem::HopLimitExpired),
        ("too_big", "last_hop", Problem::PacketTooBig(32)),
        ("no_route", "last_hop", Problem::NoRouteToDestination),
        ("no_neighbour", "last_hop", Problem::NeighbourMissing),
        ("port_closed", "last_hop", Problem::PortClosed),
        ("prohibited", "last_hop", Problem::Prohibited),
        ("no_others", "first_part", Problem::FragmentMissing),
        ("expired6", "last_hop6", Problem::HopLimitExpired),
        ("too_big6", "last_hop6", Problem::PacketTooBig(50)),
    ] {
        let (asked, mut out) = (frame(asked), OUT);
        assert_eq!(own.emit_error(problem, &asked, &mut out).unwrap().unwrap(), frame(name), "{name}");
        assert_eq!(own.emit_error(problem, &asked, &mut out[..10]), Err(Error::NoRoom));
        assert_eq!(Frame::parse(&frame(name)).payload(), &asked[14..]);
    }
    // The hop limit is 64, the packet has 33 bytes, and an error gets none.
    for (asked, problem) in [
        ("ping", Problem::HopLimitExpired),
        ("last_hop", Problem::PacketTooBig(33)),
        ("expired6", Problem::NoRouteToDestination),
    ] {
        assert_eq!(own.emit_error(problem, &frame(asked), &mut OUT.clone()), Ok(None), "{asked}");
    }
    let without_ipv4 = Interface { ipv4: [0; 4].into(), ..own };
    assert_eq!(without_ipv4.emit_error(Problem::NoRouteToDestination, &frame("last_hop"), &mut []), Ok(None));
}

/// The frames are those of Linux.
#[test]
fn it_listens_to_groups() {
    let (mut out, addr) = (OUT, |text: &str| text.parse::<Ipv6Addr>().unwrap());
    for (name, src, group) in
        [("mld_report", "fe80::ff:fe00:1", "ff02::1:ff00:2"), ("mld_report_of_none", "::", "ff02::1:ff00:1")]
    {
        assert_eq!(emit_mld_report(CLIENT, addr(src), addr(group), &mut out).unwrap(), frame(name));
    }
    assert_eq!(emit_mld_report(CLIENT, addr("::"), addr("ff02::1"), &mut out[..85]), Err(Error::NoRoom));
    for (name, group, delay) in [
        ("mld_query", "ff02::fb", Some(500)),
        ("mld_query2", "ff02::1:ff00:7", Some(500)),
        ("mld_query_of_group", "ff02::1:ff00:7", Some(1000)),
        ("mld_query_of_group", "ff02::1:ff00:8", None),
        ("mld_query2_of_group", "ff02::1:ff00:2", Some(1000)),
        ("mld_report", "ff02::1:ff00:2", None),
    ] {
        assert_eq!(parse_mld_query(&frame(name), addr(group)), delay.map(Duration::from_millis), "{name}");
    }
    assert_eq!(parse_mld_query(&changed("mld_query", &[(85, 1)]), addr("ff02::1")), None); // a wrong checksum
    assert_eq!(parse_mld_query(&[], addr("ff02::1")), None);
}
