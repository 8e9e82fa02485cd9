#!/usr/bin/env python3
"""Compares the calls, structs and enums of include/ip_wire.h with the sources of the C library.

    tests/docs/c_calls.py
    tests/docs/c_calls.py --write    writes docs/audit/CALLS.md

Each call of the header must be a function of c_exports, c/cpu.c or c/names.c with the same types, and the other way round.
Each struct with `repr(C)` must have the same fields in the same order, and each enum and each failure the same names and
numbers; tests/judge/numbers.c compares the numbers that others give, as IANA, with the headers of the system. A constant such as LK_REASON_COUNT must be the number of names of its enum, and no example and no source of c/ has
a name of an enum plus one instead. `lk_append` and its struct are in the header only. Each name `lk_..` in README.md and
docs/ must be in the header. No other file has an old name, and CHANGELOG.md has a row for each.
Each call must also be judged, counted and wrapped, or the list docs/audit/CALLS.md says why not (tests/docs/call_list.py).
Differences are printed, and the status is 1 then; also if tools/from_header.py would write
anything else. tests/install/run compares the header with the man pages.
"""
import glob
import os
import re
import subprocess
import sys

TOP = os.path.dirname(os.path.dirname(os.path.dirname(os.path.abspath(__file__))))
sys.path.append(os.path.join(TOP, "tools"))
import call_list  # noqa: E402
import from_header  # noqa: E402
from from_header import NUMBERS as REGISTERED, ONLY_C, calls_of, read, structs_of, without_comments  # noqa: E402
from sources import Sources  # noqa: E402

NUMBERS = {"u8": "uint8_t", "u16": "uint16_t", "u32": "uint32_t", "u64": "uint64_t", "i32": "int", "i64": "int64_t", "usize": "size_t",
           "isize": "ptrdiff_t"}
SAME = {"char": "uint8_t", "int32_t": "int"}
# The field has another name in Rattle, because `type` is a keyword, or its crates have the names of smoltcp.
FIELDS = {"ethertype": "type", "msg_type": "type", "max_seg_size": "mss", "has_max_seg_size": "has_mss", "block": "prefix"}
# The names that are not those of the variants in Rattle, because in C those of all enums are beside each other.
NAMES = {
    "LK_NO_PORT": "LK_EMIT_PORT_ZERO", "LK_ZERO_PORT": "LK_NAT_PORT_ZERO", "LK_EXPIRED": "LK_HOP_LIMIT_TOO_LOW",
    "LK_NO_ROUTE": "LK_NO_ROUTE_TO_SOURCE", "LK_ROUTE_MISSING": "LK_NO_ROUTE_TO_DESTINATION", "LK_RIGHT": "LK_CHECKSUM_VALID",
    "LK_NO_CHECKSUM": "LK_CHECKSUM_NOT_READ", "LK_WRONG": "LK_CHECKSUM_INVALID", "LK_LEFT_OUT": "LK_CHECKSUM_OMITTED",
    "LK_LEFT_TO_DEVICE": "LK_CHECKSUM_PARTIAL",
}
# What is in C.
OF_C = ("/c/cpu.c", "/c/names.c")
# The crates of the structs and calls. The first ones are used without C too, and their structs have other names there.
OF_LIBRARY = ("wire_link", "app_fragment", "app_router", "app_nat", "c_structs", "c_icmp", "c_routing", "c_socket", "c_exports")
STRUCTS = {"Block": "struct lk_prefix", "Node": "struct lk_route_node", "Mapping": "struct lk_mapping", "Nat": "struct lk_nat", "Partial": "struct lk_reassembly",
           "SocketFields": "struct lk_connection"}
# The struct whose fields C does not see. c_socket compares its size.
OPAQUE = "lk_connection"
# Structs in a struct, which has their fields in C.
PARTS = ("Datagram", "FragKey", "Ends", "TcpOptionPlace", "Ipv6HeaderPlace")
# Enums that are used without C too, and whose doc lines do not name them as C does.
ENUMS = {"Side": "lk_side", "Offload": "lk_offload", "State": "lk_connection_state"}
# The flags of a TCP header, from bit 0 on (RFC 9293, section 3.1).
TCP_FLAGS = ("FIN", "SYN", "RST", "PSH", "ACK", "URG", "ECE", "CWR")


def c_type(kind):
    """A type of C. Bytes of a text are `uint8_t`, and `int32_t` is `int` here."""
    return " ".join(SAME.get(word, word) for word in re.findall(r"\w+|\*", kind))


def c_calls(text):
    """Each prototype or definition as a name with its types: those of the parameters, then that of the result."""
    for name, result, parameters in calls_of(text):
        yield name, [*(c_type(kind) for kind, _ in parameters), c_type(result) if "*" not in result else "const char *"]


def c_failures(text):
    """The names of the failures with their numbers."""
    return {name: int(number) for name, number in re.findall(r"#define (LK_\w+) LK_FAILURE\((\d+)\)", text)}


def c_enums(text):
    """Each enum as a name with its names and numbers."""
    for name, body in re.findall(r"enum (lk_\w+) {(.*?)}", without_comments(text), re.S):
        numbers = {}
        for word, number in re.findall(r"(\w+)(?: = (\w+))?", body):
            numbers[word] = int(number, 0) if number else max(numbers.values(), default=-1) + 1
        yield name, numbers


def wrong_counts(text):
    """The constants LK_.._COUNT that are not the number of names of their enum, which are from 0 on."""
    enums = dict(c_enums(text))
    for name, count in re.findall(r"#define LK_(\w+)_COUNT (.+)", text):
        numbers = enums.get("lk_" + name.lower(), {})
        if sorted(numbers.values()) != list(range(len(numbers))) or count != str(len(numbers)):
            yield f"LK_{name}_COUNT is {count}, and enum lk_{name.lower()} has {len(numbers)} names"


def guessed_counts(top, text):
    """Where a program takes a name of an enum for the last one. Then it has too few places after the next one came."""
    names = "|".join(name for _, numbers in c_enums(text) for name in numbers)
    for path in sorted(path for pattern in ("examples/*.c", "programs/**/*.[ch]", "c/*.c") for path in glob.glob(f"{top}/{pattern}", recursive=True)):
        for found in re.findall(rf"\b(?:{names}) *\+ *1\b", read(path)):
            yield f"{os.path.relpath(path, top)}: {found}: the header has a constant for the number of names"


class Library:
    """The sources of the C library. The doc line of a struct names it as C does."""

    def __init__(self, top):
        crates = Sources(top).crates
        everything = [item for crate in crates.values() for module in crate.modules.values() for item in module.items]
        self.items = [item for name in OF_LIBRARY for module in crates[name].modules.values()
                      for item in module.items]
        self.plain_enums = [item for item in everything if item.kind == "enum" and item.name in ENUMS]
        docs = {item.name: " ".join(item.docs) for item in self.items if item.kind == "struct"}
        names = {rust: re.match(r"`(struct lk_\w+)`", doc) for rust, doc in docs.items()}
        self.types = {**NUMBERS, **{rust: found.group(1) for rust, found in names.items() if found}, **STRUCTS}
        constants = (re.fullmatch(r"const (\w+): usize = (\d+)", item.text) for item in everything if item.visibility == "pub")
        self.constants = dict(found.groups() for found in constants if found)

    def name(self, rust):
        return self.types.get(re.sub(r"<.*", "", rust), rust)

    def c_types(self, rust):
        """The C types of a parameter: a slice is a pointer and a length."""
        reference, inner = re.match(r"(&(?:mut )?)?(.*)", rust).groups()
        element = re.match(r"\[([^;\]]*)(;)?", inner)
        const = "const " if reference == "&" else ""
        if element:
            yield const + self.name(element.group(1)) + " *"
            yield from [] if element.group(2) else ["size_t"]
        else:
            yield const + self.name(inner) + " *" if reference else self.name(inner)

    def calls(self):
        for item in self.items:
            head = re.fullmatch(r'extern "C" fn (lk_\w+)(?:<\'a>)?\((.*)\)(?: -> (\w+))?', item.text.replace("&'a ", "&"))
            if head:
                name, parameters, result = head.groups()
                found = re.findall(r"\w+: (&?(?:mut )?(?:\[.*?\]|[^,\s]+))", parameters)
                types = [t for rust in found for t in self.c_types(rust)]
                yield name, [*types, self.name(result) if result else "void"]

    def structs(self):
        for item in self.items:
            if item.kind == "struct" and "repr(C)" in item.attributes and item.name not in PARTS:
                yield re.sub("^struct ", "", self.name(item.name)), numbered(list(self.fields_of(item)))

    def fields_of(self, struct):
        for member in struct.members:
            kind = member.text.rpartition(": ")[2]
            if kind in PARTS:
                yield from self.fields_of(next(item for item in self.items if item.name == kind and item.kind == "struct"))
            else:
                yield from self.fields(member.text)

    def enums(self):
        yield "lk_tcp_flag", {"LK_" + flag: 1 << bit for bit, flag in enumerate(TCP_FLAGS)}
        for item in self.plain_enums:
            words = [re.sub(r"\B([A-Z0-9])", r"_\1", member.text).upper() for member in item.members]
            yield ENUMS[item.name], {"LK_" + word: number for number, word in enumerate(words)}
        for item in self.items:
            found = re.match(r"`enum (lk_\w+)`", " ".join(item.docs)) if item.kind == "enum" else None
            if found:
                name = found.group(1)
                nothing = "NO_CHECKSUM" if name == "lk_verdict" else "NO_" + name[len("lk_") :].upper()
                words = [re.sub(r"\B([A-Z])", r"_\1", member.text).upper() for member in item.members]
                names = ["LK_" + (nothing if word == "NONE" else word) for word in words]
                yield name, {NAMES.get(it, it): number for number, it in enumerate(names)}

    def failures(self):
        failure = next(item for item in self.items if item.kind == "enum" and item.name == "Failure")
        words = [re.sub(r"\B([A-Z])", r"_\1", member.text).upper() for member in failure.members]
        return {NAMES.get("LK_" + word, "LK_" + word): number for number, word in enumerate(words, 1)}

    def fields(self, member):
        """The fields in C of a field: a slice is a pointer and a count."""
        declared = re.fullmatch(r"(?:pub(?:\(crate\))? )?(\w+): (?:\[(\w+); (\w+)\]|&'\w+ \[(\w+)\]|(\w+))", member)
        if declared:
            name, array, length, slice_of, plain = declared.groups("")
            if slice_of:
                yield "const " + self.name(slice_of) + " *", name, ""
                yield "size_t", name + "_len" if slice_of == "u8" else re.sub("s$", "", name) + "_count", ""
            else:
                yield self.name(array or plain), FIELDS.get(name, name), self.constants.get(length, length)


def numbered(fields):
    """The fields with a number after a name that several have."""
    names = [name for _, name, _ in fields]
    numbers = [f"{names[: at + 1].count(name)}" if names.count(name) > 1 else "" for at, name in enumerate(names)]
    return [(kind, name + number, length) for (kind, name, length), number in zip(fields, numbers)]


def differences(header, sources):
    header, sources = dict(header), dict(sources)
    for name in sorted(header.keys() | sources.keys()):
        if header.get(name) != sources.get(name):
            yield f"{name}: the header has {header.get(name)}, the sources have {sources.get(name)}"


def unknown_names(top, header):
    """The names `lk_..` of the documents that are not in the header. One that ends in `_` is the beginning of some."""
    for path in [top + "/README.md", *sorted(glob.glob(top + "/docs/**/*.md", recursive=True))]:
        for name in sorted(set(re.findall(r"\blk_\w*", read(path)))):
            if not re.search(rf"\b{name}" if name.endswith("_") else rf"\b{name}\b", header):
                yield f"{os.path.relpath(path, top)}: {name} is not in the header"


def old_names(top, text):
    """Where an old name of the header is used, and the old names that CHANGELOG.md has no row for. Its history has them too."""
    old = dict(re.findall(r"^#define (\w+) (\w+)$", text.partition("#ifndef LK_NO_OLD_NAMES\n")[2], re.M))
    names = re.compile(rf"(?<![A-Za-z])(?:{'|'.join(old)})\b")
    changes = read(top + "/CHANGELOG.md")
    yield from (f"CHANGELOG.md: no row has `{name}` and `{new}`" for name, new in old.items() if f"| `{name}` | `{new}` |" not in changes)
    listed = subprocess.run(["git", "-C", top, "ls-files"], capture_output=True, text=True, check=False).stdout.splitlines()
    for path in listed:
        if re.match(r"(README|bench|bindings|c/names|docs|examples|man|packaging|programs|tests/[^d]|tools)", path):
            with open(f"{top}/{path}", encoding="utf-8", errors="ignore") as file:
                yield from (f"{path}: {found} has another name now" for found in sorted(set(names.findall(file.read()))))


def main(words):
    if words not in ([], ["--write"]):
        sys.exit(__doc__)
    header = read(TOP + "/include/ip_wire.h")
    sources = Library(TOP)
    calls = dict(c_calls(header))
    found = [
        *differences(calls, [*sources.calls(), *(call for name in OF_C for call in c_calls(read(TOP + name)))]),
        *differences((it for it in structs_of(header) if it[0] not in {*ONLY_C, OPAQUE}), sources.structs()),
        *differences(c_failures(header), sources.failures()),
        *differences((it for it in c_enums(header) if it[0] not in REGISTERED), sources.enums()),
        *wrong_counts(header),
        *guessed_counts(TOP, header),
        *unknown_names(TOP, header),
        *old_names(TOP, header),
        *call_list.check(bool(words)),
    ]
    print("".join(line + "\n" for line in found), end="")
    return 1 if found or not calls else from_header.main(["--check"])


if __name__ == "__main__":
    sys.exit(main(sys.argv[1:]))
