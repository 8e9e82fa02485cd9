//! The program `ip_frames`. Its text is in the module of the same name.
#![forbid(unsafe_code)]

#[allow(unused)]
mod hex;
#[allow(unused, clippy::all)]
mod hex_digits;
#[allow(unused, clippy::all)]
mod ip_frames;
mod kit;

/// The part of the crate `memchr` that the program uses.
mod memchr {
    pub fn memchr(byte: u8, bytes: &[u8]) -> Option<usize> {
        bytes.iter().position(|b| *b == byte)
    }
}

fn main() -> std::process::ExitCode {
    ip_frames::main(kit::HostRuntime)
}
