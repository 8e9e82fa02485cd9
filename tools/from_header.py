#!/usr/bin/env python3
"""Writes what other files say of include/ip_wire.h: its structs and calls for Rust and Python, and its version.

    tools/from_header.py [--check]

With --check it writes nothing, prints the files that differ, and its status is 1 then.
"""
import glob
import os
import re
import sys

TOP = os.path.dirname(os.path.dirname(os.path.abspath(__file__)))
HEADER = "include/ip_wire.h"
# What a program in C alone uses.
ONLY_C = {"lk_out"}
# The calls that the Rust crate has no method for, and what a program has instead.
NOT_IN_RUST = {
    "lk_version": "`version`", "lk_cpu_supported": "`cpu_supported`", "lk_failure_name": "`Debug` of `Error`",
    "lk_reason_name": "`Debug` of `Reason`", "lk_rejection_name": "`Debug` of `Rejection`", "lk_tcp_flag_name": "`TcpFlags`",
    "lk_print_addr": "`Display` of `IpAddr`", "lk_print_endpoint": "`Display` of `SocketAddr`",
    "lk_is_multicast": "`IpAddr::is_multicast`", "lk_choose_route": "lk_choose_route_by_table without cells",
    "lk_check_source": "lk_check_source_by_table without cells",
}
# The same of the Python package. A table saves less time than a call from Python takes.
NOT_IN_PYTHON = {
    "lk_clamp_mss": "lk_clamp_mss_as", "lk_set_addr": "lk_set_addr_as", "lk_set_port": "lk_set_port_as",
    "lk_set_bytes": "lk_set_bytes_as", "lk_make_route_table": "", "lk_choose_route_by_table": "lk_choose_route",
    "lk_check_source_by_table": "lk_check_source",
}
RUST = {"uint8_t": "u8", "uint16_t": "u16", "uint32_t": "u32", "uint64_t": "u64", "int32_t": "i32", "int64_t": "i64", "size_t": "usize",
        "ptrdiff_t": "isize", "int": "c_int", "char": "c_char"}
PYTHON = {"void": "None", "ptrdiff_t": "c_ssize_t", "size_t": "c_size_t", "int": "c_int"}
# The enums of numbers that others give, as IANA, with the type of their fields in Rust.
NUMBERS = {
    "lk_header_len": "usize", "lk_ethertype": "u16", "lk_protocol": "u8", "lk_arp_operation": "u16", "lk_icmp_type": "u8",
    "lk_icmp_code": "u8", "lk_icmpv6_type": "u8", "lk_icmpv6_code": "u8", "lk_linktype": "u32",
}
WIDTH = 120
# What files say of the version. {next} is the minor version after it.
VERSIONS = [
    ("README.md", "Release {version},"),
    ("SECURITY.md", "the newest version, {series}."),
    ("bindings/go/README.md", "require lerkvist.example/ipwire v{version}"),
    ("bindings/rust/Cargo.toml", '\nversion = "{version}"'),
    ("bindings/rust/Cargo.lock", '\nname = "ip_wire_c"\nversion = "{version}"'),
    ("bindings/rust/build.rs", "ip_wire >= {version} ip_wire < {next}"),
    ("bindings/rust/build.rs", "the C library ip_wire {series} ("),
    ("bindings/rust/src/lib.rs", "another version than {series} of"),
    ("bindings/rust/tests/texts.rs", "assert_eq!((major, minor), ({major}, {minor}));"),
    ("crates/c_exports/src/read_calls.rt", "VERSION_MAJOR: u32 = {major};"),
    ("crates/c_exports/src/read_calls.rt", "VERSION_MINOR: u32 = {minor};"),
    ("crates/c_exports/src/read_calls.rt", "VERSION_PATCH: u32 = {patch};"),
    ("crates/c_exports/src/read_calls.rt", "result ≡ {number} "),
    ("docs/C.md", "`libip_wire.so.{series}`"),
    ("examples/cmake/CMakeLists.txt", "find_package(ip_wire {series} REQUIRED)"),
    ("examples/go/go.mod", "require lerkvist.example/ipwire v{version}"),
    ("programs/ip_dump", 'VERSION = "{version}"'),
    ("man/*", ".Os ip_wire {version}"),
]


def read(path):
    with open(path, encoding="utf-8") as file:
        return file.read()


def without_comments(text):
    return re.sub(r"/\*.*?\*/|//[^\n]*|^#.*?$", " ", text, flags=re.S | re.M)


def structs_of(text):
    """Each struct as a name with its fields: type, name and length of an array."""
    for name, body in re.findall(r"struct (lk_\w+) {(.*?)};", without_comments(text), re.S):
        yield name, re.findall(r"(\S[\w ]*?(?: \*)?) ?\b(\w+)(?:\[(\d+)\])?;", body)


def calls_of(text):
    """Each prototype or definition as a name with the type of its result, and the types and names of its parameters."""
    text = re.sub(r"static inline [^{]*{.*?\n}", "", without_comments(text), flags=re.S)
    for result, name, parameters in re.findall(r"((?:const )?\w+ +\*?)(lk_\w+)\(([^()]*)\)\s*[;{]", text):
        given = [] if parameters.strip() == "void" else re.findall(r"\s*([^,]*?)\s*(\w+)\s*(?:,|$)", parameters)
        yield name, result.strip(), given


def inline_calls_of(text):
    """The names of the calls that the header itself defines."""
    return re.findall(r"^static inline [^({]*?(lk_\w+)\(", without_comments(text), re.M)


def numbers_of(text):
    """Each enum of NUMBERS as a name with its comment, and its names with their numbers. A name has no beginning that all share."""
    for comment, name, body in re.findall(r"^/\* ((?:(?!\*/).)*) \*/\nenum (lk_\w+) {(.*?)};", text, re.S | re.M):
        if name in NUMBERS:
            found = re.findall(r"(LK_\w+) = (\w+)", body)
            shared = os.path.commonprefix([word for word, _ in found]).rpartition("_")[0] + "_"
            yield name, re.sub(r"\n \* ", " ", comment), [(word.removeprefix(shared), number) for word, number in found]


def version_of(text):
    return re.findall(r"^#define LK_VERSION_(?:MAJOR|MINOR|PATCH) (\d+)", text, re.M)


def camel(struct):
    """The name of a struct in Rust and Python, such as `TcpOptions` of `struct lk_tcp_options`."""
    return "".join(word.capitalize() for word in re.sub("^(struct )?lk_", "", struct).split("_"))


def is_with_length(parameters, at):
    """Whether the parameter after this pointer is its length: the count of structs or numbers, or a length in bytes."""
    kind, name = (*parameters, ("", ""))[at + 1]
    is_bytes = re.fullmatch(r"(const )?(uint8_t|char) \*", parameters[at][0])
    return kind == "size_t" and (is_bytes or name.endswith("count"))


def wrapped(head, parts, end, inner):
    """One line, or several ones with `inner` before each of those in the middle."""
    line = head + ", ".join(parts) + end
    if len(line) <= WIDTH:
        return line
    lines, indent = [inner + parts[0]], len(inner)
    for part in parts[1:]:
        if len(lines[-1]) + len(part) + 3 > WIDTH:
            lines[-1] += ","
            lines.append(" " * indent + part)
        else:
            lines[-1] += f", {part}"
    return "\n".join([head, *lines, re.match(" *", head)[0] + end])


# ---- Rust


def rust_type(kind, is_slice=True):
    pointer = re.fullmatch(r"(const )?(.*?) ?\*", kind)
    target = pointer[2] if pointer else kind
    plain = RUST.get(target) or camel(target)
    if not pointer:
        return plain
    if target.startswith("struct ") and not is_slice:
        return ("&" if pointer[1] else "&mut ") + plain
    return ("*const " if pointer[1] else "*mut ") + plain


def rust_field(kind, name, length):
    plain = rust_type(kind)
    return f"        {'r#type' if name == 'type' else name}: {f'[{plain}; {length}]' if length else plain},"


def rust(header):
    yield "// The structs and calls of ip_wire.h, written by tools/from_header.py.\n"
    yield "/// The version of these declarations. Another minor version may have other structs."
    yield f"#[allow(dead_code)]\npub const VERSION: (u32, u32) = ({', '.join(version_of(header)[:2])});\n\nstructs! {{"
    for name, fields in structs_of(header):
        if name not in ONLY_C:
            # Rust has no default of pointers and of longer arrays.
            has_default = not any(kind.endswith("*") or int(length or 0) > 32 for kind, _, length in fields)
            yield from ["    #[derive(Default)]"] if has_default else []
            yield f"    struct {camel(name)} {{"
            yield from (rust_field(*field) for field in fields)
            yield "    }\n"
    yield "}\n\ncalls! {"
    for name, result, given in calls_of(header):
        if name in NOT_IN_RUST:
            continue
        words = [f"{'r#type' if it == 'type' else it}: {rust_type(kind, is_with_length(given, at))}" for at, (kind, it) in enumerate(given)]
        returned = "" if result == "void" else f" -> {rust_type(result)}"
        yield wrapped(f"    fn {name}(", words, f"){returned};", " " * 8)
    yield "}"


def rust_numbers(header):
    yield "//! The numbers of header fields, written by `tools/from_header.py`: EtherTypes, protocols, ICMP types and others."
    yield '#![allow(missing_docs, reason = "their names say it")]\n'
    for name, comment, numbers in numbers_of(header):
        kind = NUMBERS[name]
        constants = [f"pub const {word}: {kind} = {number};" for word, number in numbers]
        if name == "lk_header_len":
            yield from constants
        else:
            yield from [f"\n/// {comment}", f"pub mod {name.removeprefix('lk_')} {{", *("    " + one for one in constants), "}"]


# ---- Python


def python_type(kind):
    kind = re.sub(r"^const | ?\*$", "", kind)
    return camel(kind) if kind.startswith("struct ") else PYTHON.get(kind) or "c_" + kind.removesuffix("_t")


def python_field(kind, name, length):
    plain = python_type(kind)
    plain = f"POINTER({plain})" if kind.endswith("*") else plain
    return f"{name}={'Hardware' if (plain, length) == ('c_uint8', '6') else plain + (f' * {length}' if length else '')}"


def python_parameters(given):
    """What the table of calls has for parameters: one name for a pointer with its length."""
    skip = False
    for at, (kind, _) in enumerate(given):
        if skip:
            skip = False
        elif not kind.endswith("*"):
            yield python_type(kind)
        elif not is_with_length(given, at):
            yield "Hardware" if kind.removeprefix("const ") == "uint8_t *" else python_type(kind)
        else:
            skip = True
            is_bytes = re.fullmatch(r"(const )?(uint8_t|char) \*", kind)
            yield (("DATA" if is_bytes[1] else "OUT") if is_bytes else f"_many({python_type(kind)})")


def python(header):
    yield '"""The structs and calls of ip_wire.h, written by tools/from_header.py."""'
    yield "import ctypes"
    yield "from ctypes import POINTER, c_char_p, c_int, c_int32, c_int64, c_size_t, c_ssize_t"
    yield "from ctypes import c_uint8, c_uint16, c_uint32, c_uint64, c_void_p"
    yield "from typing import Any, Dict, Tuple\n\n"
    yield "def _declare(name: str, **fields: Any) -> Any:"
    yield '    return type(name, (ctypes.Structure,), {"_fields_": list(fields.items())})\n\n'
    yield "def _many(kind: Any) -> Tuple[Any, Any]:"
    yield "    return POINTER(kind), c_size_t\n\n"
    yield "Hardware = c_uint8 * 6"
    for name, fields in structs_of(header):
        if name not in ONLY_C:
            yield wrapped(f"{camel(name)} = _declare(", [f'"{name}"', *(python_field(*field) for field in fields)], ")", "    ")
    yield f'\nVERSION = "{".".join(version_of(header))}"'
    yield "DATA = (c_char_p, c_size_t)  # bytes that are read"
    yield "OUT = (c_void_p, c_size_t)  # a buffer that is written"
    yield "# Of each call the result and the parameters. A pair is a pointer with a length. A struct or array is a pointer to one."
    yield "CALLS: Dict[str, Tuple[Any, ...]] = {"
    for name, result, given in calls_of(header):
        if name in NOT_IN_PYTHON:
            continue
        returned = "c_char_p" if "*" in result else python_type(result)
        yield f'    "{name}": ({", ".join([returned, *python_parameters(given)])}{"" if given else ","}),'
    yield "}"


def python_numbers(header):
    yield '"""The numbers of header fields, written by tools/from_header.py."""'
    yield "from ._convert import NamedInt\n"
    for name, comment, numbers in numbers_of(header):
        constants = [f"{word} = {re.sub('(?<=x).*', lambda digits: digits[0].upper(), number)}" for word, number in numbers]
        if name == "lk_header_len":
            yield from constants
        else:
            yield from [f"\n\nclass {camel(name)}(NamedInt):", f'    """{comment}"""\n', *("    " + one for one in constants)]


FILES = {
    "bindings/rust/src/declarations.rs": rust, "bindings/rust/src/numbers.rs": rust_numbers,
    "bindings/python/ip_wire/_declarations.py": python, "bindings/python/ip_wire/numbers.py": python_numbers,
}


def with_version(text, said, header):
    """A text that says the version in this way, with the version of the header. None if it does not say it."""
    major, minor, patch = version_of(header)
    words = {"major": major, "minor": minor, "patch": patch, "series": f"{major}.{minor}", "version": f"{major}.{minor}.{patch}",
             "next": f"{major}.{int(minor) + 1}.0", "number": (int(major) << 16) + (int(minor) << 8) + int(patch)}
    pattern = re.sub(r"\\{\w+\\}", r"[0-9]+(?:[.][0-9]+)*", re.escape(said))
    return re.sub(pattern, lambda _: said.format(**words), text) if re.search(pattern, text) else None


def written(header):
    """The files that are written from the header, with their texts. A text is None if the file does not say the version."""
    found = {path: re.sub(r"\n\n( *})", r"\n\1", "\n".join(lines(header))) + "\n" for path, lines in FILES.items()}
    for pattern, said in VERSIONS:
        for path in sorted(glob.glob(f"{TOP}/{pattern}")):
            name = os.path.relpath(path, TOP)
            text = found.get(name, read(path))
            found[name] = text and with_version(text, said, header)
    return found


def main(words):
    status = 0
    for path, text in written(read(f"{TOP}/{HEADER}")).items():
        if text is None:
            print(f"{path} does not say the version of {HEADER}")
            status = 1
        elif words != ["--check"]:
            with open(f"{TOP}/{path}", "w", encoding="utf-8") as file:
                file.write(text)
        elif not os.path.exists(f"{TOP}/{path}") or read(f"{TOP}/{path}") != text:
            print(f"{path} is not as tools/from_header.py writes it")
            status = 1
    return status


if __name__ == "__main__":
    if sys.argv[1:] not in ([], ["--check"]):
        sys.exit(__doc__)
    sys.exit(main(sys.argv[1:]))
