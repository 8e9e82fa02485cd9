//! Reads a frame, as examples/quick.c does, by the crate `ip_wire_c` of bindings/rust:
//!
//!     cd bindings/rust && cargo run --example quick

use ip_wire_c::{Frame, Transport};

const BYTES: &[u8] = b"\x02\0\0\0\0\x02\x02\0\0\0\0\x01\x08\0\
    \x45\0\0\x20\0\0\x40\0\x40\x11\xb6\xc9\xc0\0\x02\x01\xc0\0\x02\x02\
    \xb5\xe3\x14\xe9\0\x0c\0\0ping";

fn main() -> Result<(), Box<dyn std::error::Error>> {
    let frame = Frame::parse(BYTES);
    frame.check()?;
    if frame.transport() != Some(Transport::Udp) {
        return Err("the frame has no UDP packet".into());
    }
    let sender = frame.src().ok_or("there is no sender")?;
    println!("{} from {sender}", String::from_utf8_lossy(frame.payload()));

    let headers = frame.reply().ok_or("there is no reply")?;
    let mut out = [0; 1514];
    let reply = headers.emit_udp(b"pong", &mut out)?;
    println!("the reply has {} bytes", reply.len());
    Ok(())
}
