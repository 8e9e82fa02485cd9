//! The calls of `include/ip_wire.h` that parse and print texts, over smoltcp 0.14 and Rust's `core::net`.

use crate::reading::addr;
use crate::structs::*;
use crate::{NO_ROOM, address, cidr, input, output};
use smoltcp::wire::*;
use std::fmt::{self, Write};
use std::str::FromStr;

/// The front of a slice that has been written.
struct Front<'a> {
    slice: &'a mut [u8],
    len: usize,
}

impl fmt::Write for Front<'_> {
    fn write_str(&mut self, text: &str) -> fmt::Result {
        let end = self.len + text.len();
        let room = self.slice.get_mut(self.len..end).ok_or(fmt::Error)?;
        room.copy_from_slice(text.as_bytes());
        self.len = end;
        Ok(())
    }
}

/// Stores what a text is parsed as, if it is one.
unsafe fn store<T: FromStr, V>(
    text: *const u8,
    len: usize,
    stored: *mut V,
    value: impl Fn(T) -> V,
) -> i32 {
    let text = std::str::from_utf8(unsafe { input(text, len) });
    let Some(read) = text.ok().and_then(|text| text.parse().ok()) else { return 0 };
    unsafe { *stored = value(read) };
    1
}

#[unsafe(no_mangle)]
pub unsafe extern "C" fn lk_parse_addr(text: *const u8, len: usize, stored: *mut Addr) -> i32 {
    unsafe { store(text, len, stored, addr) }
}

/// The same by core::net's own parsers.
#[unsafe(no_mangle)]
pub unsafe extern "C" fn core_parse_ipv4(text: *const u8, len: usize, stored: *mut Addr) -> i32 {
    unsafe { store(text, len, stored, |read: core::net::Ipv4Addr| addr(read.into())) }
}

#[unsafe(no_mangle)]
pub unsafe extern "C" fn core_parse_ipv6(text: *const u8, len: usize, stored: *mut Addr) -> i32 {
    unsafe { store(text, len, stored, |read: core::net::Ipv6Addr| addr(read.into())) }
}

#[unsafe(no_mangle)]
pub unsafe extern "C" fn lk_parse_prefix(text: *const u8, len: usize, stored: *mut Prefix) -> i32 {
    let value = |read: IpCidr| Prefix { addr: addr(read.address()), prefix_len: read.prefix_len().into() };
    unsafe { store(text, len, stored, value) }
}

/// Writes the text of a value to the front of a slice, and a null after it if there is room.
unsafe fn print(value: Result<impl fmt::Display>, out: *mut u8, cap: usize) -> isize {
    let slice = unsafe { output(out, cap) };
    let mut front = Front { slice, len: 0 };
    match value.map(|value| write!(front, "{value}")) {
        Ok(Ok(())) => {
            if let Some(end) = front.slice.get_mut(front.len) {
                *end = 0;
            }
            front.len as isize
        }
        _ => NO_ROOM,
    }
}

#[unsafe(no_mangle)]
pub unsafe extern "C" fn lk_print_addr(value: &Addr, out: *mut u8, cap: usize) -> isize {
    unsafe { print(address(value), out, cap) }
}

#[unsafe(no_mangle)]
pub unsafe extern "C" fn lk_print_prefix(value: &Prefix, out: *mut u8, cap: usize) -> isize {
    unsafe { print(cidr(value), out, cap) }
}

/// With brackets, which smoltcp doesn't print.
#[unsafe(no_mangle)]
pub unsafe extern "C" fn lk_print_endpoint(value: &Endpoint, out: *mut u8, cap: usize) -> isize {
    match address(&value.addr) {
        Ok(IpAddress::Ipv6(address)) => unsafe {
            print(Ok(format_args!("[{address}]:{}", value.port)), out, cap)
        },
        address => unsafe {
            print(address.map(|address| IpEndpoint::from((address, value.port))), out, cap)
        },
    }
}
