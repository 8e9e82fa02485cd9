//! The frames of the worked calls of the C library. Other programs packed them.

use std::str::from_utf8;

/// A frame by its name. The file has lines of C: `FRAME(name, "hex digits" "more of them")`.
pub fn frame(name: &str) -> Vec<u8> {
    let start = format!("FRAME({name},");
    let (_, rest) = include_str!(env!("IP_WIRE_FRAMES")).split_once(&start).expect(name);
    bytes(rest.split_once(')').unwrap().0)
}

/// The bytes of hex digits. Other characters are skipped.
pub fn bytes(text: &str) -> Vec<u8> {
    let digits: Vec<u8> = text.bytes().filter(u8::is_ascii_hexdigit).collect();
    digits.chunks(2).map(|pair| u8::from_str_radix(from_utf8(pair).unwrap(), 16).unwrap()).collect()
}

/// The frame with some bytes changed: the place of each, and its value.
pub fn changed(name: &str, changes: &[(usize, u8)]) -> Vec<u8> {
    let mut bytes = frame(name);
    for &(at, byte) in changes {
        bytes[at] = byte;
    }
    bytes
}
