#!/usr/bin/env python3
"""Compares what compiled programs know of the library with the last release, as c/abi.txt records it: tests/install/abi.py [--write]

These are the symbols, the size of each struct, the offset and size of each field, and the value of each constant. What is gone
or other needs another minor version than the recorded one, because that changes the soname. What is new needs a later version.
A release renews the file with --write.
"""
import os
import re
import subprocess
import sys
import tempfile

TOP = os.path.dirname(os.path.dirname(os.path.dirname(os.path.abspath(__file__))))
sys.path.append(os.path.join(TOP, "tools"))
from from_header import HEADER, calls_of, read, structs_of, version_of, without_comments  # noqa: E402

RECORD = "c/abi.txt"
# What describes the version itself.
OF_VERSION = re.compile(r"LK_VERSION_\w+")


def constants_of(text):
    """The names of the numbers that the header defines."""
    names = re.findall(r"^#define (LK_\w+) ", text, re.M)
    for body in re.findall(r"enum \w+ {(.*?)};", without_comments(text), re.S):
        names += re.findall(r"\b(LK_\w+)\b(?=[ \n]*(?:=|,|$))", body)
    return [name for name in dict.fromkeys(names) if not OF_VERSION.fullmatch(name)]


def program(text):
    """A program that prints the sizes, offsets and values."""
    rows = []
    for struct, fields in structs_of(text):
        rows.append(f'printf("struct {struct} %zu\\n", sizeof(struct {struct}));')
        rows += [f'printf("field {struct}.{name} %zu %zu\\n", offsetof(struct {struct}, {name}), sizeof(((struct {struct} *)0)->{name}));'
                 for _, name, _ in fields]
    rows += [f'printf("constant {name} %lld\\n", (long long)({name}));' for name in constants_of(text)]
    return '#include <stdio.h>\n#include "ip_wire.h"\nint main(void) {\n' + "\n".join(rows) + "\nreturn 0;\n}\n"


def abi():
    """The lines of the present header."""
    text = read(f"{TOP}/{HEADER}")
    with tempfile.TemporaryDirectory() as room:
        subprocess.run(["cc", f"-I{TOP}/include", "-x", "c", "-o", f"{room}/abi", "-"], input=program(text).encode(), check=True)
        printed = subprocess.run([f"{room}/abi"], stdout=subprocess.PIPE, check=True).stdout.decode()
    return [f"symbol {name}" for name, *_ in calls_of(text)] + printed.splitlines()


def faults(recorded, lines, then, now):
    """What differs from the record of version `then`, and must not in version `now`."""
    gone, added = [line for line in recorded if line not in lines], [line for line in lines if line not in recorded]
    if gone and then[:2] == now[:2]:
        yield from (f"{line}: gone or other, so the version must be {then[0]}.{int(then[1]) + 1}.0" for line in gone)
    if added and then == now:
        yield from (f"{line}: new, so the version must be later than {'.'.join(then)}" for line in added)


def main(words):
    version, lines = version_of(read(f"{TOP}/{HEADER}")), abi()
    if words == ["--write"]:
        with open(f"{TOP}/{RECORD}", "w", encoding="utf-8") as file:
            file.write("\n".join([f"version {'.'.join(version)}", *lines]) + "\n")
        return 0
    if words:
        sys.exit(__doc__)
    head, *recorded = read(f"{TOP}/{RECORD}").splitlines()
    found = list(faults(recorded, lines, head.split()[1].split("."), version))
    print("".join(f"{HEADER}: {fault}\n" for fault in found), end="")
    return bool(found)


if __name__ == "__main__":
    sys.exit(main(sys.argv[1:]))
