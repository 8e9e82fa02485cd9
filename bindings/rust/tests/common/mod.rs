//! Headers that the tests share.

use ip_wire_c::{Ethernet, Headers, Ip};

pub const CLIENT: [u8; 6] = [2, 0, 0, 0, 0, 1];
pub const SERVER: [u8; 6] = [2, 0, 0, 0, 0, 2];

/// From a client to a server.
pub fn headers(src: &str, dst: &str) -> Headers {
    Headers {
        ethernet: Ethernet::new(CLIENT.into(), SERVER.into()),
        src: src.parse().unwrap(),
        dst: dst.parse().unwrap(),
        ip: Ip::default(),
    }
}

pub fn ipv4() -> Headers {
    headers("192.0.2.1:46563", "192.0.2.2:7")
}

pub fn ipv6() -> Headers {
    headers("[2001:db8::1]:46563", "[2001:db8::2]:7")
}
