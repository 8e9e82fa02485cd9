//! Times calls of the library, and of std where it has the same:  cargo run --release --example speed
//!
//! Also of smoltcp 0.14, in the same process:
//!
//!     cargo add --dev smoltcp@0.14
//!     RUSTFLAGS='--cfg smoltcp' cargo run --release --example speed
//!
//! A line has the least of 301 times for each library, in ns a call; TURNS sets another number. The libraries take turns,
//! and must get the same result. With a word as argument, only the lines whose titles have it.
#![allow(unexpected_cfgs)]

use ip_wire::flat::{read::read_frame, structs::FrameFields};
use ip_wire::{Carried, ChecksumCapabilities, EthernetAddress, Frame, IpAddress, IpProtocol, IpRepr};
use ip_wire::{TcpControl, TcpRepr, TcpSeqNumber, TcpTimestampRepr, Transport, UdpRepr, checksum};
use std::fmt::{Display, Write};
use std::hint::black_box;
use std::net::IpAddr;
use std::time::Instant;

const CALLS: usize = 1000;
const IPV4: [&str; 4] = ["192.0.2.1", "10.20.30.255", "1.2.3.4", "255.255.255.255"];
const IPV6: [&str; 4] = ["2001:db8::1:0:0:1", "fe80::202:3ff:fe04:506", "::1", "2001:db8:1:2:3:4:5:6"];
const MACS: [[u8; 6]; 2] = [[2, 0, 0, 0, 0, 1], [2, 0, 0, 0, 0, 2]];

/// The same code for two libraries: what a program takes from a frame, by views and values, with all checksums verified.
macro_rules! parse_by_views {
    ($name:ident, $wire:path, $caps:expr) => {
        #[inline(never)]
        fn $name(bytes: &[u8]) -> Option<u64> {
            use $wire::*;
            let caps = $caps;
            let frame = EthernetFrame::new_checked(bytes).ok()?;
            let (src, dst, protocol, inner): (IpAddress, IpAddress, _, _) = match frame.ethertype() {
                EthernetProtocol::Ipv4 => {
                    let packet = Ipv4Packet::new_checked(frame.payload()).ok()?;
                    let header = Ipv4Repr::parse(&packet, &caps).ok()?;
                    (header.src_addr.into(), header.dst_addr.into(), header.next_header, packet.payload())
                }
                EthernetProtocol::Ipv6 => {
                    let packet = Ipv6Packet::new_checked(frame.payload()).ok()?;
                    let header = Ipv6Repr::parse(&packet).ok()?;
                    (header.src_addr.into(), header.dst_addr.into(), header.next_header, packet.payload())
                }
                _ => return None,
            };
            match protocol {
                IpProtocol::Udp => {
                    let packet = UdpPacket::new_checked(inner).ok()?;
                    let header = UdpRepr::parse(&packet, &src, &dst, &caps).ok()?;
                    Some(packet.payload().len() as u64 + u64::from(header.src_port))
                }
                IpProtocol::Tcp => {
                    let value = TcpRepr::parse(&TcpPacket::new_checked(inner).ok()?, &src, &dst, &caps).ok()?;
                    Some(value.payload.len() as u64 + u64::from(value.src_port))
                }
                _ => None,
            }
        }
    };
}

/// The same for a frame that is written: UDP over IPv4. The checksum of UDP.
macro_rules! emit_by_views {
    ($name:ident, $wire:path, $caps:expr, $ethernet:ident, $ip:ident, $udp:ident, $emit:expr) => {
        #[inline(never)]
        fn $name(payload: &[u8], out: &mut [u8]) -> u64 {
            use $wire::*;
            let (caps, len, ethertype) = ($caps, payload.len() + 8, EthernetProtocol::Ipv4);
            let (src_addr, dst_addr) = (EthernetAddress(MACS[0]), EthernetAddress(MACS[1]));
            EthernetRepr { src_addr, dst_addr, ethertype }.emit(&mut $ethernet::new_unchecked(&mut out[..]));
            let (src_addr, dst_addr) = (Ipv4Address::new(192, 0, 2, 1), Ipv4Address::new(192, 0, 2, 2));
            let ip = Ipv4Repr { src_addr, dst_addr, next_header: IpProtocol::Udp, payload_len: len, hop_limit: 64 };
            ip.emit(&mut $ip::new_unchecked(&mut out[14..]), &caps);
            let mut packet = $udp::new_unchecked(&mut out[34..34 + len]);
            let ports = UdpRepr { src_port: 4000, dst_port: 53 };
            $emit(ports, &mut packet, &src_addr.into(), &dst_addr.into(), payload, &caps);
            u64::from(out[40]) << 8 | u64::from(out[41])
        }
    };
}

parse_by_views!(views, ip_wire, ChecksumCapabilities::default());
emit_by_views!(emit, ip_wire, ChecksumCapabilities::default(), EthernetFrameMut, Ipv4PacketMut, UdpPacketMut,
    |ports: UdpRepr, packet: &mut _, src, dst, payload, caps| ports.emit(packet, src, dst, payload, caps));

#[cfg(smoltcp)]
mod peer {
    use super::MACS;
    use smoltcp::phy::ChecksumCapabilities as Caps;

    parse_by_views!(parse, smoltcp::wire, Caps::default());
    emit_by_views!(emit, smoltcp::wire, Caps::default(), EthernetFrame, Ipv4Packet, UdpPacket,
        |ports: UdpRepr, packet: &mut _, src, dst, payload: &[u8], caps| {
            ports.emit(packet, src, dst, payload.len(), |room| room.copy_from_slice(payload), caps)
        });

    #[inline(never)]
    fn sum(bytes: &[u8]) -> u64 {
        smoltcp::wire::checksum::data(bytes).into()
    }

    pub const CALLS: (fn(&[u8]) -> Option<u64>, fn(&[u8], &mut [u8]) -> u64, fn(&[u8]) -> u64) = (parse, emit, sum);
}

/// The whole frame as one value.
#[inline(never)]
fn value(bytes: &[u8]) -> Option<u64> {
    let Carried::Packet(_, inner) = Frame::parse(bytes, &ChecksumCapabilities::default()).ok()?.carried else {
        return None;
    };
    match inner {
        Transport::Udp(header, payload) => Some(payload.len() as u64 + u64::from(header.src_port)),
        Transport::Tcp(value) => Some(value.payload.len() as u64 + u64::from(value.src_port)),
        _ => None,
    }
}

/// The struct that the C library fills.
#[inline(never)]
fn fields(fields: &mut FrameFields, bytes: &[u8]) -> u64 {
    read_frame(fields, bytes);
    fields.payload_len as u64 + u64::from(fields.src.port)
}

#[inline(never)]
fn sum(bytes: &[u8]) -> u64 {
    checksum::data(bytes).into()
}

struct Line([u8; 64], usize);

impl Write for Line {
    fn write_str(&mut self, text: &str) -> std::fmt::Result {
        self.0[self.1..self.1 + text.len()].copy_from_slice(text.as_bytes());
        self.1 += text.len();
        Ok(())
    }
}

#[inline(never)]
fn print<T: Display>(value: &T) -> u64 {
    let mut line = Line([0; 64], 0);
    write!(line, "{value}").unwrap();
    line.1 as u64 + u64::from(line.0[line.1 - 1])
}

#[inline(never)]
fn parse<T: std::str::FromStr>(text: &str) -> u64 {
    text.parse::<T>().is_ok().into()
}

/// A frame of UDP, or of TCP with a timestamp, over IPv4 or IPv6.
fn frame(number: u16, is_tcp: bool, is_ipv6: bool) -> Vec<u8> {
    let [a, b, ..] = if is_ipv6 { IPV6 } else { IPV4 };
    let ip = IpRepr::new(a.parse().unwrap(), b.parse().unwrap(), IpProtocol::Udp, 0, 64);
    let (links, src_port) = (MACS.map(EthernetAddress), 1024 + number);
    let payload = vec![number as u8; usize::from(number * 7 % 40)];
    let segment = TcpRepr {
        src_port,
        dst_port: 443,
        control: TcpControl::Psh,
        seq_number: TcpSeqNumber(number.into()),
        ack_number: Some(TcpSeqNumber(9)),
        window_len: 64240,
        window_scale: None,
        max_seg_size: None,
        sack_permitted: false,
        sack_ranges: [None; 4],
        timestamp: Some(TcpTimestampRepr::new(number.into(), 7)),
        payload: &payload,
    };
    let found = match is_tcp {
        false => Frame::udp(links[0], links[1], ip, UdpRepr { src_port, dst_port: 53 }, &payload),
        true => Frame::tcp(links[0], links[1], ip, segment),
    };
    let mut out = vec![0; 160];
    let len = found.unwrap().try_emit(&mut out, &ChecksumCapabilities::default()).unwrap();
    out.truncate(len);
    out
}

type Job<'a> = (&'a str, Box<dyn FnMut() -> u64 + 'a>);

/// A job that calls over all items by turns.
fn job<'a, T>(name: &'a str, items: &'a [T], mut call: impl FnMut(&T) -> u64 + 'a) -> Job<'a> {
    (name, Box::new(move || items.iter().cycle().take(CALLS).map(|item| call(black_box(item))).sum()))
}

fn row(title: &str, mut jobs: Vec<Job>) {
    if std::env::args().nth(1).is_some_and(|word| !title.contains(&word)) {
        return;
    }
    let turns = std::env::var("TURNS").map_or(301, |turns| turns.parse().unwrap());
    let mut found = vec![(f64::MAX, 0); jobs.len()];
    for _ in 0..turns {
        for ((_, job), (least, result)) in jobs.iter_mut().zip(&mut found) {
            let start = Instant::now();
            *result = job();
            *least = least.min(start.elapsed().as_secs_f64());
        }
    }
    assert!(found.iter().all(|(_, result)| *result == found[0].1), "{title}: {found:?}");
    let texts = jobs.iter().zip(found).map(|((name, _), (least, _))| format!("  {name} {:.1}", least * 1e9 / CALLS as f64));
    println!("{title:<32}{}", texts.collect::<String>());
}

fn addresses<T: std::str::FromStr>(texts: &[&str]) -> Vec<T> {
    texts.iter().filter_map(|text| text.parse().ok()).collect()
}

fn main() {
    let kinds = |number: u16| (number / 2 % 2 == 1, number % 2 == 1);
    let mixed: Vec<_> = (0..200).map(|number| frame(number, kinds(number).0, kinds(number).1)).collect();
    let segments: Vec<_> = (0..200).map(|number| frame(number, true, kinds(number).1)).collect();
    for (title, frames) in [("UDP, TCP, below 120 bytes", &mixed), ("TCP with a timestamp", &segments)] {
        let mut place = FrameFields::nothing(0);
        let jobs = vec![
            job("views", frames, |bytes| views(bytes).unwrap()),
            job("Frame::parse", frames, |bytes| value(bytes).unwrap()),
            job("read_frame", frames, move |bytes| fields(&mut place, bytes)),
            #[cfg(smoltcp)]
            job("smoltcp", frames, |bytes| peer::CALLS.0(bytes).unwrap()),
        ];
        row(title, jobs);
    }
    for len in [18, 64, 1400] {
        let payload = [(0..len).map(|byte| byte as u8).collect::<Vec<_>>()];
        let mut out = [0; 2048];
        #[cfg(smoltcp)]
        let mut other = out;
        let jobs = vec![
            job("views", &payload, |payload| emit(payload, black_box(&mut out[..]))),
            #[cfg(smoltcp)]
            job("smoltcp", &payload, |payload| peer::CALLS.1(payload, black_box(&mut other[..]))),
        ];
        row(&format!("emit UDP, {len} bytes"), jobs);
    }
    for (title, texts) in [("IPv4", IPV4), ("IPv6", IPV6)] {
        let (ours, std) = (addresses::<IpAddress>(&texts), addresses::<IpAddr>(&texts));
        #[cfg(smoltcp)]
        let smoltcp = addresses::<smoltcp::wire::IpAddress>(&texts);
        let prints = vec![
            job("ip_wire", &ours, print),
            job("std", &std, print),
            #[cfg(smoltcp)]
            job("smoltcp", &smoltcp, print),
        ];
        row(&format!("print {title}"), prints);
        let parses = vec![
            job("ip_wire", &texts, |text| parse::<IpAddress>(text)),
            job("std", &texts, |text| parse::<IpAddr>(text)),
            #[cfg(smoltcp)]
            job("smoltcp", &texts, |text| parse::<smoltcp::wire::IpAddress>(text)),
        ];
        row(&format!("parse {title}"), parses);
    }
    for len in [20, 64, 576, 1500, 9000, 65535] {
        let bytes = [(0..len).map(|byte| (byte * 7) as u8).collect::<Vec<_>>()];
        let jobs = vec![
            job("ip_wire", &bytes, |bytes| sum(bytes)),
            #[cfg(smoltcp)]
            job("smoltcp", &bytes, |bytes| peer::CALLS.2(bytes)),
        ];
        row(&format!("checksum, {len} bytes"), jobs);
    }
}
