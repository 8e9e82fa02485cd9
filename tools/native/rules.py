"""What the package has in other words than the proved sources, since stable Rust has no such words. `make.py` rewrites lines
by these rules. `check.py` has rules of its own for tokens, and shares only the lists of names here."""
import pathlib

HERE = pathlib.Path(__file__).resolve().parent
TOP = HERE.parents[1]
LAYER = """net_base wire_addr wire_checksum wire_ethernet wire_arp wire_ipv4 wire_ipv6 wire_ip wire_udp wire_tcp_options wire_tcp
    ip_wire wire_icmp wire_link wire_extensions""".split()
APPS = """app_short app_host app_mld app_router app_edit app_nat app_fragment app_congestion app_options tcp_stream
    app_connection app_socket""".split()
FLAT = "c_structs c_read c_write c_icmp c_routing c_socket".split()
CRATES = LAYER + APPS + FLAT
# Modules only of the tests.
TESTS = "promises hex_digits test_support test_wire test_apps test_fragments test_tcp".split()
# Modules that stand for crates of the kit.
STAND_INS = ["hex", "memchr"]
EXPORTS = "c_exports"
PROGRAM = "ip_frames"
# The packages, each by its folder, and their modules.
PACKAGES = {"": CRATES + TESTS, "c": [EXPORTS], "frames": [PROGRAM, "hex_digits"]}

# A rule: its name, a pattern of a part of a line, and what is written instead.
RULES = [
    ("formatter", r"<W: (?:fmt::)?Write>(?=\((?!writer: &mut W))", ""),
    ("formatter", r"<'(\w+), W: (?:fmt::)?Write>(?=\()", r"<'\1>"),
    ("formatter", r"<W: (?:fmt::)?Write, ", "<"),
    ("formatter", r", W: (?:fmt::)?Write(?=[>,])", ""),
    ("formatter", r"Formatter<W>", "Formatter<'_>"),
    ("drop", r"derive\(Drop(?:, )?", "derive("),
    ("drop", r", Drop(?=[,)])", ""),
    ("vectors", r"\bby_vectors\(bytes\)", "by_words(bytes, tail(bytes))"),
    ("assert", r"= prove!\(", "= assert!("),
    ("hash", r"use std::hash::\{DefaultHasher, Hasher\};", "use crate::native::DefaultHasher;"),
    ("text", r"unsafe \{ str::from_utf8_unchecked\((\w+)\) \}", r"crate::native::ascii(\1)"),
]
# Rules only for tests: a function `main` or a test gets the means of the process in Rattle.
TEST_RULES = [
    ("runtime", r"\(rt: HostRuntime\)", "()"),
    ("runtime", r"\brt: &impl Abort(?:, ?)?", ""),
    ("runtime", r"^use std::process::Abort;$", ""),
    ("runtime", r"&rt, ", ""),
    ("runtime", r"(?<=\()rt, ", ""),
    ("runtime", r"(?<=\()rt; ?", ""),
    ("memory", r"use std::alloc::\{AllocError, Global\};", "type AllocError = std::convert::Infallible;"),
    ("memory", r"use std::test::Fail;", "type Fail = AllocError;"),
    ("memory", r"(?:rt\.alloc\(\)|alloc: Global),(?: |$)", ""),
    ("memory", r"format!\(in alloc; (.*)\)\?", r"format!(\1)"),
    ("memory", r"vec!\[in alloc; (.*)\]\?", r"vec![\1]"),
    ("memory", r"HashSet::new\(alloc\)", "HashSet::new()"),
    ("memory", r"seen\.insert\(\*value\)\?;", "seen.insert(*value);"),
]
# Rules only for the program. The module `kit` has what Rust has in another form.
PROGRAM_RULES = [
    ("runtime", r"\bfn main\(rt: ", "pub fn main(rt: "),
    ("runtime", r"\beprintln!\(rt; ", "eprintln!("),
    ("memory", r"^use std::process::ExitCode;$", "use crate::kit::*;\nuse std::process::ExitCode;"),
    ("memory", r"^use std::alloc::(?:AllocError|\{AllocError, Global\});$", "use crate::kit::*;"),
    ("memory", r"^use std::io::\{BufWriter, ", "use std::io::{"),
    ("memory", r"\bvec!\[in alloc; 0; len\]", "Vec::zeros(alloc, len)"),
    ("drop", r" \+ Drop\b", ""),
    ("law", r", laws\}", "}"),
    ("law", r"^ *laws::frame_rebuilds\(bytes, frame\);$", ""),
]
# Functions over `std::simd`, which are left out with their comments.
VECTORS = {"wire_checksum/src/totals.rt": ["by_vectors", "lanes", "by_lanes"]}
# Whole lines of one file, and what is written instead.
BLOCKS = {
    "ip_frames/src/main.rt": [(["#[cfg(test)]", "mod tests;"], [])],
    # Here the buffer does so itself.
    "ip_frames/src/streams.rt": [
        (
            """impl<W: Write + Drop> Drop for StreamSink<W> {
    fn drop(self) {
        let StreamSink {
            writer,
            failures: _,
            flushed: _,
        } = self;
        let _ = writer.into_parts();
    }
}
""".split("\n"),
            [],
        )
    ],
    "wire_checksum/src/totals.rt": [(["use std::simd::prelude::*;", ""], [])],
    "net_base/src/located.rt": [
        (["", "use std::slice::from_raw_parts_mut;"], []),
        (
            """        unsafe {
            from_raw_parts_mut(
                self.bytes.as_mut_ptr().add(self.start),
                self.end - self.start,
            )
        }""".split("\n"),
            ["        &mut self.bytes[self.start..self.end]"],
        ),
    ],
}
# The types of which the views are aliases: rustdoc shows their calls only where they are public.
VIEWS = {
    "wire_ethernet": "EthernetView",
    "wire_arp": "ArpView",
    "wire_ipv4": "Ipv4View",
    "wire_ipv6": "Ipv6View, Ipv6FragmentView",
    "wire_udp": "UdpView",
    "wire_tcp": "TcpView",
    "net_base": "Octets",
}

# The modules of the package that users see, beside those of the root, and the crate of each.
PUBLIC = {
    "icmp": "wire_icmp",
    "link": "wire_link",
    "extensions": "wire_extensions",
    "uses": "app_short",
    "host": "app_host",
    "mld": "app_mld",
    "router": "app_router",
    "edit": "app_edit",
    "nat": "app_nat",
    "fragments": "app_fragment",
    "congestion": "app_congestion",
    "syn_options": "app_options",
    "stream": "tcp_stream",
    "connection": "app_connection",
    "socket": "app_socket",
}
# The calls of the C library on flat structs, before they are exported to C.
FLAT_MODULES = {crate[2:]: crate for crate in FLAT}
# Where a user of the package sees a crate.
SEEN_AS = {crate: f"ip_wire::{name}" for name, crate in PUBLIC.items()}
SEEN_AS |= {crate: f"ip_wire::flat::{name}" for name, crate in FLAT_MODULES.items()}


def const_calls():
    """The calls that stable Rust can evaluate in constants: pairs of a file of the package, without `.rs`, and a name."""
    return [tuple(line.split()) for line in (HERE / "const.txt").read_text().splitlines()]


def modules_of(package):
    return PACKAGES[package] + STAND_INS


def is_test(crate, path):
    return crate in TESTS or "tests" in path.relative_to(TOP / "crates" / crate).with_suffix("").parts


def files_of(crate):
    """The sources of a crate, and of each the file of the package. The root of a crate is the file of its module."""
    source = TOP / "crates" / crate / "src"
    for path in sorted(source.rglob("*.rt")):
        inner = path.relative_to(source).with_suffix(".rs")
        if crate != PROGRAM or not is_test(crate, path):
            yield path, pathlib.Path(f"{crate}.rs") if str(inner) in ("lib.rs", "main.rs") else pathlib.Path(crate) / inner
