#!/usr/bin/env python3
"""Compares the licences that the tree names with what the programs contain.

- LICENSES has the text of each crate of the kit that the C library or `ip_frames` uses, and of no other. It is the text of the
  kit, where the kit is.
- The metadata of each package names the licence of what is in it.
- The copies of LICENSE are equal, and Debian's `copyright` has its text and names each crate.
"""
import pathlib
import re
import shutil
import sys

TOP = pathlib.Path(__file__).resolve().parents[2]
sys.path.append(str(TOP / "tests/gate"))
from proved import crates, kit  # noqa: E402

SHIPPED = "c_exports", "ip_frames"
BOTH, OWN = "0BSD AND MIT", "0BSD"
# The packages with compiled code have both, and the others only their own.
METADATA = {
    "bindings/rust/Cargo.toml": f'license = "{BOTH}"',
    "bindings/python/setup.py": f'license="{BOTH}"',
    "tools/native/package/Cargo.toml": f'license = "{OWN}"',
}
COPIES = "bindings/python/LICENSE", "bindings/go/LICENSE"


def text(path):
    return (TOP / path).read_text(encoding="utf-8")


def used():
    """The crates of the kit that are compiled into what is shipped."""
    listed, found = crates(), set()
    waiting = list(SHIPPED)
    while waiting:
        name = waiting.pop()
        if name not in found:
            found.add(name)
            waiting += listed[name][1] if name in listed else []
    return found - set(listed)


def words(some):
    """The words of a text, without the marks of Debian's format."""
    return [word for word in some.split() if word != "."]


def has_words(some, part):
    return " ".join(words(part)) in " ".join(words(some))


def faults():
    names = {path.stem for path in (TOP / "LICENSES").glob("*.txt")}
    debian, page = text("packaging/deb.copyright"), text("LICENSES/README.md")
    if names != used():
        yield f"LICENSES: {sorted(names)}, but the programs contain {sorted(used())}"
    for name in sorted(names):
        own = text(f"LICENSES/{name}.txt")
        if shutil.which("rt") and own not in {path.read_text(encoding="utf-8") for path in (kit() / "rattle" / name).glob("LICENSE*")}:
            yield f"LICENSES/{name}.txt: the kit has another text"
        if not has_words(debian, own[own.index("Permission is hereby"):]) or f"rattle/{name}/" not in debian:
            yield f"packaging/deb.copyright: lacks {name}, or the text of its licence"
        for notice in re.findall(r"^Copyright \(c\) (.*?)\.?$", own, re.M):
            if any(word not in debian for word in re.findall(r"[\w-]+", notice)):
                yield f"packaging/deb.copyright: lacks {notice}"
        if f"[{name}.txt]({name}.txt)" not in page:
            yield f"LICENSES/README.md: lacks {name}"
    own = text("LICENSE")
    if not has_words(debian, own[own.index("Permission to use"):]):
        yield "packaging/deb.copyright: lacks the text of LICENSE"
    yield from (f"{path}: differs from LICENSE" for path in COPIES if text(path) != own)
    yield from (f"{path}: lacks {line}" for path, line in METADATA.items() if line not in text(path))


if __name__ == "__main__":
    found = list(faults())
    print("".join(fault + "\n" for fault in found), end="")
    sys.exit(1 if found else 0)
