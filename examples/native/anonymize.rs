//! Copies a capture of Ethernet frames (pcap) without what identifies people. Addresses become others, the same for the same
//! address, and payloads become zeros. Lengths, times, ports, flags and valid checksums stay.
//!
//!     cargo run -q --example anonymize < capture.pcap > anonymous.pcap

use ip_wire::edit::{Offload, Side, set_addr, set_bytes};
use ip_wire::flat::read::read_frame;
use ip_wire::flat::structs::{Addr, FrameFields, Reason, TransportKind, Verdict};
use ip_wire::{IpAddress, Ipv4Address, Ipv6Address};
use std::hash::{BuildHasher, RandomState};
use std::io::{self, BufReader, BufWriter, Read, Write};

const FILE_HEADER: usize = 24;
const LONGEST: usize = 1 << 18; // a packet of libpcap, in bytes

/// Another address for this one: in 10.0.0.0/8 or fd00::/8, by a hash with a random key.
fn hidden(addr: &Addr, key: &RandomState) -> IpAddress {
    let hash = key.hash_one((addr.version, addr.octets)).to_be_bytes();
    if addr.version == 4 {
        return IpAddress::Ipv4(Ipv4Address::new(10, hash[0], hash[1], hash[2]));
    }
    let mut octets = [0; 16];
    octets[0] = 0xfd;
    octets[8..].copy_from_slice(&hash);
    IpAddress::Ipv6(Ipv6Address::from_octets(octets))
}

/// Whether the frame has a whole UDP, TCP or ICMP packet, valid checksums, and nothing between the two headers.
fn is_plain(fields: &FrameFields) -> bool {
    let ip_header = if fields.src.addr.version == 4 { 20 } else { 40 };
    fields.reason == Reason::Read.code()
        && fields.ipv4_checksum != Verdict::Wrong.code()
        && fields.transport_checksum != Verdict::Wrong.code()
        && fields.transport != TransportKind::None.code()
        && fields.transport_offset == fields.network_offset + ip_header
}

/// Hides what the frame tells. Returns whether it could: an edit is rejected where it would break a checksum.
fn anonymize(frame: &mut [u8], key: &RandomState) -> bool {
    let mut fields = FrameFields::nothing(0);
    read_frame(&mut fields, frame);
    if !is_plain(&fields) {
        return false;
    }
    // With the padding after the packet.
    let zeros = vec![0; frame.len() - fields.payload_offset];
    let is_hidden = set_addr(frame, Side::Source, &hidden(&fields.src.addr, key), Offload::Guess)
        && set_addr(frame, Side::Destination, &hidden(&fields.dst.addr, key), Offload::Guess)
        && (zeros.is_empty() || set_bytes(frame, fields.payload_offset, &zeros, Offload::Guess));
    frame[..12].fill(0);
    is_hidden
}

fn main() -> io::Result<()> {
    let (mut input, mut output) = (BufReader::new(io::stdin()), BufWriter::new(io::stdout()));
    let key = RandomState::new();
    let mut header = [0; FILE_HEADER];
    input.read_exact(&mut header)?;
    if header[..4] != [0xd4, 0xc3, 0xb2, 0xa1] || header[20..22] != [1, 0] {
        return Err(io::Error::other("this is no pcap file of Ethernet frames, with numbers in little-endian order"));
    }
    output.write_all(&header)?;
    let (mut record, mut copied, mut left_out) = ([0; 16], 0, 0);
    while input.read_exact(&mut record).is_ok() {
        let number = |at: usize| u32::from_le_bytes([0, 1, 2, 3].map(|n| record[at + n])) as usize;
        let (captured, len) = (number(8), number(12));
        if captured > len || len > LONGEST {
            return Err(io::Error::other(format!("a packet of {captured} of {len} bytes")));
        }
        let mut frame = vec![0; captured];
        input.read_exact(&mut frame)?;
        if captured == len && anonymize(&mut frame, &key) {
            output.write_all(&record)?;
            output.write_all(&frame)?;
            copied += 1;
        } else {
            left_out += 1;
        }
    }
    eprintln!("{copied} packets copied, {left_out} left out");
    output.flush()
}
