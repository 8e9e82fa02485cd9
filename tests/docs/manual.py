#!/usr/bin/env python3
"""Reads the manual pages that c/pages makes of include/ip_wire.h, which takes comments apart.

    tests/docs/manual.py

The text of a section ends with a full stop or a colon, or in literal lines. No paragraph begins with "it", because what
it means may be on another page or in another section, and none is about "the next" calls or structs. What is wrong is
printed. Each fault that is planted in the header must be noticed. If one is not, the status is 1 too.

The date of a page in man/ is not before the last commit that changed it. c/pages gives that of ip_wire.3 to all pages of
calls, so it is not before that of the header. Without history the dates are not compared.
"""
import glob
import os
import re
import shutil
import subprocess
import sys
import tempfile
from datetime import date, datetime

TOP = os.path.dirname(os.path.dirname(os.path.dirname(os.path.abspath(__file__))))
SOURCES = ("c/pages", "include/ip_wire.h", "c/proved.txt", "man/ip_wire.3")
# The pages that are written by hand, with the files whose changes they show.
DATED = {"man/ip_wire.3": ["man/ip_wire.3", "include/ip_wire.h"], "man/ip_frames.1": ["man/ip_frames.1"], "man/ip_dump.1": ["man/ip_dump.1"]}
# Sections of names, declarations and references.
OF_CODE = ("NAME", "SYNOPSIS", "TYPES", "SEE ALSO")
BEGINS_WITH_IT = re.compile(r"(?:\w+ )?its?\b", re.I)
NEXT = re.compile(r"\bthe next (?:two|three|four|\d+|calls?|structs?)\b", re.I)
# A page, what is printed of it, a text of the header, and the text instead of it that has this fault.
FAULTS = [
    ("lk_check_source", "no full stop", "LK_NOT_REJECTED, or one of\n * these:", "LK_NOT_REJECTED, or"),
    ("lk_check_source", "no full stop", "2.5.6). */\nint lk_check_source", "2.5.6) */\nint lk_check_source"),
    ("lk_clamp_mss", "begins with it", "0; then the frame is unchanged. */", "0.\n *\n * If it is 0, it stays. */"),
    ("lk_append", "begins with it", "/* Advances `out` past", "/* It advances `out` past"),
    ("lk_parse_prefix", "names the next", "/* A text is `len` bytes.", "/* The next structs: a text is `len` bytes."),
]


def paragraphs_of(lines):
    """The paragraphs of a section. Literal lines are a full stop, and an item of a list begins with a dash."""
    paragraph, literal = [], False
    for line in lines:
        if line.startswith((".Bd", ".Ed")):
            literal = line.startswith(".Bd")
            paragraph.append(".")
        elif line.startswith((".Pp", ".Bl", ".It", ".El")):
            yield paragraph
            paragraph = ["-"] if line.startswith(".It") else []
        elif not literal:
            paragraph.append(re.sub(r"^\.[A-Z][a-z] ", "", line))
    yield paragraph


def sections_of(page):
    """The names of the sections of text, and their paragraphs."""
    parts = re.split(r"^\.S[hs] (.*)\n", page, flags=re.M)
    for name, text in zip(parts[1::2], parts[2::2]):
        if name not in OF_CODE:
            paragraphs = [re.sub(r" (?=[.,:;)])", "", " ".join(one)) for one in paragraphs_of(text.splitlines())]
            yield name, [one for one in paragraphs if one]


def faults_of(page):
    for name, paragraphs in sections_of(page):
        if not paragraphs or not paragraphs[-1].endswith((".", ":")):
            yield f"{name}: there is no full stop at its end"
        for one in paragraphs:
            if BEGINS_WITH_IT.match(one):
                yield f"{name}: a paragraph begins with it: {one[:40]}"
            if NEXT.search(one):
                yield f"{name}: it names the next ones: {one[:40]}"


def faults(top):
    """The faults of the pages that c/pages makes in this folder, by page."""
    with tempfile.TemporaryDirectory() as folder:
        subprocess.run([sys.executable, "-S", os.path.join(top, "c/pages"), folder], check=True)
        for path in sorted(glob.glob(os.path.join(folder, "lk_*.3"))):
            with open(path, encoding="utf-8") as file:
                text = file.read()
            if not text.startswith(".so "):
                yield from ((os.path.basename(path), fault) for fault in faults_of(text))


def old_dates():
    """The pages with a date before their last change."""
    for page, sources in DATED.items():
        log = subprocess.run(["git", "-C", TOP, "log", "-1", "--format=%ad", "--date=short", "--", *sources],
                             capture_output=True, text=True, check=False).stdout
        with open(os.path.join(TOP, page), encoding="utf-8") as file:
            said = re.search(r"^\.Dd (.*)$", file.read(), re.M)[1]
        changed = date.fromisoformat(log.strip()) if log.strip() else date.min
        if datetime.strptime(said, "%B %d, %Y").date() < changed:
            yield f"{page}: .Dd {said} is before its last change, {changed:%B} {changed.day}, {changed.year}"


def unnoticed(top):
    """The planted faults that are not noticed. `top` has the sources, which are changed."""
    path = os.path.join(top, "include/ip_wire.h")
    with open(path, encoding="utf-8") as file:
        header = file.read()
    for page, message, old, new in FAULTS:
        if header.count(old) != 1:
            yield f"{old!r} is not once in include/ip_wire.h"
            continue
        with open(path, "w", encoding="utf-8") as file:
            file.write(header.replace(old, new))
        if not any(name == page + ".3" and message in fault for name, fault in faults(top)):
            yield f"{new!r} is not noticed in {page}.3"


def main():
    found = [*(f"{page}: {fault}" for page, fault in faults(TOP)), *old_dates()]
    with tempfile.TemporaryDirectory() as top:
        for source in SOURCES:
            os.makedirs(os.path.dirname(os.path.join(top, source)), exist_ok=True)
            shutil.copy(os.path.join(TOP, source), os.path.join(top, source))
        found += unnoticed(top)
    print("".join(f"tests/docs/manual.py: {one}\n" for one in found), end="")
    return 1 if found else 0


if __name__ == "__main__":
    sys.exit(main())
