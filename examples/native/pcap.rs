//! Prints one line for each packet of a pcap file, of any link type that the library knows:  cargo run -q --example pcap FILE

use ip_wire::flat::read::{print_frame, read_linked};
use ip_wire::flat::structs::FrameFields;
use ip_wire::link::LinkType;
use std::error::Error;
use std::fs::File;
use std::io::{self, BufReader, BufWriter, Read, Write};

const MAGICS: [u32; 2] = [0xa1b2_c3d4, 0xa1b2_3c4d]; // times in microseconds, nanoseconds
const LONGEST: u32 = 1 << 18; // a packet of libpcap, in bytes

/// Reads 32-bit numbers of a file, or returns `None` at its end.
fn numbers<const N: usize>(file: &mut impl Read, is_big: bool) -> io::Result<Option<[u32; N]>> {
    let mut numbers = [0; N];
    for (place, number) in numbers.iter_mut().enumerate() {
        let mut bytes = [0; 4];
        match file.read(&mut bytes[..1])? {
            0 if place == 0 => return Ok(None),
            _ => file.read_exact(&mut bytes[1..])?,
        }
        *number = if is_big { u32::from_be_bytes(bytes) } else { u32::from_le_bytes(bytes) };
    }
    Ok(Some(numbers))
}

fn main() -> Result<(), Box<dyn Error>> {
    let path = std::env::args().nth(1).ok_or("usage: pcap FILE")?;
    let mut file = BufReader::new(File::open(path)?);
    let [magic] = numbers(&mut file, false)?.ok_or("an empty file")?;
    let is_big = MAGICS.contains(&magic.swap_bytes());
    if !is_big && !MAGICS.contains(&magic) {
        return Err("this is no pcap file".into());
    }
    let [_version, _zone, _accuracy, _limit, link] = numbers(&mut file, is_big)?.ok_or("no link type")?;
    let link_type = link & 0xffff; // the upper bits say whether frames have a check sequence
    if LinkType::of(link_type).is_none() {
        return Err(format!("link type {link_type} is not supported").into());
    }
    let mut out = BufWriter::new(io::stdout().lock());
    let mut packet = Vec::new();
    let mut fields = FrameFields::nothing(0);
    let mut line = [0; 256];
    while let Some([_seconds, _fraction, captured, len]) = numbers(&mut file, is_big)? {
        if captured > LONGEST {
            return Err(format!("a packet of {captured} bytes").into());
        }
        packet.resize(captured as usize, 0);
        file.read_exact(&mut packet)?;
        let len = len as usize;
        let captured = &packet[..packet.len().min(len)];
        read_linked(&mut fields, link_type, captured, len);
        let used = print_frame(&fields, fields.icmp.msg_type, fields.icmp.code, &mut line);
        out.write_all(&line[..usize::try_from(used)?])?;
        writeln!(out)?;
    }
    Ok(out.flush()?)
}
