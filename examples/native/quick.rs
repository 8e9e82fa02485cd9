//! Checks a frame and replies to it:  cargo run --example quick

use ip_wire::{Carried, ChecksumCapabilities, Frame, IpRepr, Transport, UdpRepr};

const BYTES: &[u8] = b"\x02\0\0\0\0\x02\x02\0\0\0\0\x01\x08\0\
    \x45\0\0\x20\0\0\x40\0\x40\x11\xb6\xc9\xc0\0\x02\x01\xc0\0\x02\x02\
    \xb5\xe3\x14\xe9\0\x0c\0\0ping";

fn main() -> Result<(), Box<dyn std::error::Error>> {
    let caps = ChecksumCapabilities::default();
    let frame = Frame::parse(BYTES, &caps)?;
    let Carried::Packet(ip, Transport::Udp(udp, payload)) = frame.carried else {
        return Err("the frame has no UDP packet".into());
    };
    println!("{} from {}:{}", String::from_utf8_lossy(payload), ip.src_addr(), udp.src_port);

    let (link, protocol) = (frame.header, ip.next_header());
    let back = IpRepr::new(ip.dst_addr(), ip.src_addr(), protocol, 0, 64);
    let ports = UdpRepr { src_port: udp.dst_port, dst_port: udp.src_port };
    let reply = Frame::udp(link.dst_addr, link.src_addr, back, ports, b"pong")?;
    let mut out = [0; 1514];
    let len = reply.try_emit(&mut out, &caps).ok_or("there is no room")?;
    println!("the reply has {len} bytes");
    Ok(())
}
