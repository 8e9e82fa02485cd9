//! Compares the enums with `ip_wire.h`, by a C compiler, and names with those of the library.

use super::{Addr, Endpoint};
use crate::{ConnectionState, Error, Network, Offload, Problem, Reason, Rejection, Side, Transport, Verdict};
use core::ffi::{c_char, c_int, CStr};
use core::net::{IpAddr, SocketAddr};
use std::fmt::Debug;
use std::process::Command;
use std::string::{String, ToString};
use std::{env, format, fs, println};

extern "C" {
    fn lk_failure_name(failure: isize) -> *const c_char;
    fn lk_reason_name(reason: c_int) -> *const c_char;
    fn lk_rejection_name(rejection: c_int) -> *const c_char;
    fn lk_print_addr(addr: &Addr, out: *mut c_char, cap: usize) -> isize;
    fn lk_print_endpoint(endpoint: &Endpoint, out: *mut c_char, cap: usize) -> isize;
    fn lk_is_multicast(addr: &Addr) -> c_int;
}

/// The name in C of a variant, as `LK_NO_ROOM` of `NoRoom`.
fn c_name(variant: impl Debug) -> String {
    let variant = format!("{variant:?}");
    let words = variant.trim_end_matches("(0)").chars().flat_map(|c| {
        let blank = if c.is_uppercase() { "_" } else { "" };
        blank.chars().chain(c.to_uppercase())
    });
    words.fold(String::from("LK"), |name, c| name + &c.to_string())
}

/// Assertions that a name of the header has this number.
fn assert_numbers(names: impl IntoIterator<Item = (String, c_int)>) -> String {
    let assertion = |(name, number)| format!("_Static_assert({name} == {number}, \"{name}\");\n");
    names.into_iter().map(assertion).collect()
}

/// The same of each variant of an enum, from 1 on.
fn numbers<T: Debug>(of_number: fn(usize) -> Option<T>, count: usize) -> String {
    assert_numbers((1..=count).map(|number| c_name(of_number(number).unwrap())).zip(1..))
}

/// The same of the states, from 0 on.
fn states() -> String {
    let name = |state| c_name(state).replace("WAIT1", "WAIT_1").replace("WAIT2", "WAIT_2");
    assert_numbers((1..=11).map(|place| name(ConnectionState::of_number(place).unwrap())).zip(0..))
}

/// The same of enums that have numbers of their own.
fn own_numbers() -> String {
    let problems = [
        Problem::HopLimitExpired,
        Problem::PacketTooBig(0),
        Problem::NoRouteToDestination,
        Problem::NeighbourMissing,
        Problem::PortClosed,
        Problem::Prohibited,
        Problem::FragmentMissing,
    ];
    let sides = [Side::Source, Side::Destination];
    let offloads = [Offload::Guess, Offload::Offloaded, Offload::Complete];
    assert_numbers(problems.map(|problem| (c_name(problem), problem.number())))
        + &assert_numbers(sides.map(|side| (c_name(side), side.number())))
        + &assert_numbers(offloads.map(|offload| (c_name(offload), offload.number())))
}

#[test]
fn enums_are_those_of_the_header() {
    let compiler = env::var("CC").unwrap_or_else(|_| "cc".to_string());
    if Command::new(&compiler).arg("--version").output().is_err() {
        println!("skipped: there is no C compiler");
        return;
    }
    let numbers = [
        numbers(Reason::of_number, 9),
        numbers(Verdict::of_number, 5).replace("LK_", "LK_CHECKSUM_"),
        numbers(Network::of_number, 3),
        numbers(Transport::of_number, 3),
        numbers(Rejection::of_number, 14).replace("LK_PORT_ZERO", "LK_NAT_PORT_ZERO"),
        states(),
        own_numbers(),
    ];
    let folder = env::temp_dir().join(format!("ip_wire_{}", std::process::id()));
    fs::create_dir_all(&folder).unwrap();
    let file = folder.join("assertions.c");
    fs::write(&file, String::from("#include <ip_wire.h>\n") + &numbers.concat()).unwrap();
    let mut run = Command::new(&compiler);
    run.args(["-std=c11", "-fsyntax-only", "-Werror", "-I", env!("IP_WIRE_INCLUDE")]).arg(&file);
    let output = run.output().unwrap();
    fs::remove_dir_all(&folder).unwrap();
    assert!(output.status.success(), "{}", String::from_utf8_lossy(&output.stderr));
}

/// A name that the library gives.
fn text(ptr: *const c_char) -> &'static str {
    // SAFETY: the text is constant, and ends in a null.
    unsafe { CStr::from_ptr(ptr) }.to_str().unwrap()
}

#[test]
fn failures_and_reasons_have_their_names() {
    for number in 1..=11 {
        let failure = -(number << 40);
        let error = Error::check(failure).unwrap_err();
        // SAFETY: these calls take only a number.
        assert_eq!(text(unsafe { lk_failure_name(failure) }).replace("LK_EMIT_", "LK_"), c_name(error));
    }
    for (number, c_number) in (1..=9).zip(1..) {
        let reason = Reason::of_number(number).unwrap();
        assert_eq!(text(unsafe { lk_reason_name(c_number) }), c_name(reason));
    }
    for number in 1..=14 {
        let rejection = Rejection::check(number).unwrap_err();
        assert_eq!(text(unsafe { lk_rejection_name(number) }).replace("LK_NAT_", "LK_"), c_name(rejection));
    }
    assert_eq!((Error::check(0), Reason::of_number(0), Rejection::check(0)), (Ok(0), None, Ok(())));
}

/// What a call prints.
fn printed(call: impl FnOnce(*mut c_char, usize) -> isize) -> String {
    let mut out = [0u8; 48];
    let len = Error::check(call(out.as_mut_ptr().cast(), out.len())).unwrap();
    String::from_utf8(out[..len].to_vec()).unwrap()
}

/// So this crate needs no calls for it.
#[test]
fn core_says_the_same_of_addresses() {
    for text in [
        "0.0.0.0",
        "223.255.255.255",
        "224.0.0.1",
        "240.0.0.1",
        "::",
        "::1",
        "::192.0.2.1",
        "::ffff:192.0.2.1",
        "::ffff:0:1",
        "1:0:0:2:0:0:0:3",
        "1:0:0:2:3:0:0:4",
        "1:0:2:3:4:5:6:7",
        "2001:db8::ABCD",
        "fe80::",
        "ff02::1:ff00:2",
    ] {
        let addr: IpAddr = text.parse().unwrap();
        let endpoint = SocketAddr::new(addr, 53);
        // SAFETY: the calls read only the value, and there are `cap` bytes at `out`.
        assert_eq!(printed(|out, cap| unsafe { lk_print_addr(&addr.into(), out, cap) }), addr.to_string());
        assert_eq!(
            printed(|out, cap| unsafe { lk_print_endpoint(&endpoint.into(), out, cap) }),
            endpoint.to_string()
        );
        assert_eq!(unsafe { lk_is_multicast(&addr.into()) } != 0, addr.is_multicast());
    }
}
