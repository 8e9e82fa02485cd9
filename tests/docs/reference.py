#!/usr/bin/env python3
"""Checks the reference: tests/docs/reference.py [TOP | --write]

It is made twice, with the same bytes. Its HTML must be well-formed, no name may be twice in a page, and each link must
lead to a page or name of the reference. Each public call of the libraries and each law must be on a page. LEAST of the
clauses must be shown in words, and at most UNSAID have none; others have too many. What is wrong is printed, and the status
is 1 then. TOP is the top of the repository.

c/proved.txt has the promises of the calls of the C library in the words of the reference, for their manual pages. With --write
it is only made anew.
"""
import os
import re
import subprocess
import sys
import tempfile
from html.parser import HTMLParser
from urllib.parse import unquote

TOP = os.path.dirname(os.path.dirname(os.path.dirname(os.path.abspath(__file__))))
MAKER = os.path.join(TOP, "tools/reference")
sys.path.append(MAKER)
from model import LIBRARIES, VIEW, Sources  # noqa: E402

LEAST, UNSAID = 0.82, 0.01
PROVED = "c/proved.txt"
EMPTY = "meta", "link", "input", "br", "hr", "img"


class Page(HTMLParser):
    """The names, the links and the faults of a page."""

    def __init__(self, text):
        super().__init__()
        self.open, self.names, self.links, self.faults = [], set(), [], []
        self.feed(text)
        self.close()
        self.faults += [f"<{tag}> is not closed" for tag in self.open]

    def handle_starttag(self, tag, attrs):
        for key, value in attrs:
            if key == "id":
                self.faults += [f"the name {value} is there twice"] if value in self.names else []
                self.names.add(value)
            elif key in ("href", "src"):
                self.links.append(value)
        self.open += [tag] if tag not in EMPTY else []

    def handle_startendtag(self, tag, attrs):
        self.handle_starttag(tag, attrs)

    def handle_endtag(self, tag):
        if not self.open or self.open.pop() != tag:
            self.faults.append(f"</{tag}> in line {self.getpos()[0]} closes another element")


def dead(file, page, pages):
    """The links of a page that lead nowhere, or out of the reference."""
    for link in page.links:
        path, _, name = unquote(link).partition("#")
        target = os.path.normpath(os.path.join(os.path.dirname(file), path)) if path else file
        if target not in pages or name and name not in pages[target].names:
            yield f"{link} leads nowhere"


def made(top, folder):
    """Makes the reference: the texts of its files, and what was printed."""
    command = [sys.executable, os.path.join(MAKER, "make.py"), folder, top]
    done = subprocess.run(command, stdout=subprocess.PIPE, encoding="utf-8")
    if done.returncode:
        sys.exit(1)
    texts = {}
    for path in (os.path.join(root, name) for root, _, names in os.walk(folder) for name in names):
        with open(path, encoding="utf-8") as file:
            texts[os.path.relpath(path, folder)] = file.read()
    return texts, done.stdout


def public_calls(top):
    """The calls that must be shown: public functions that are exported or of an exported type, and laws. Of each the
    place, the name and whether it has a condition."""
    sources = Sources(top)
    exports = {path for library in LIBRARIES for path in sources.exports(library).values() if path[0] in sources.crates}
    items = [item for path in exports for item in sources.items_at(path[0], path[1:-1]) if item.name == path[-1]]
    types = {item.name for item in items} | {found[1] for item in items for found in [VIEW.search(item.text)] if found}
    for crate in {path[0] for path in exports}:
        for path, module in sources.crates[crate].modules.items():
            for item in module.items:
                is_shown = (crate, *path, item.name) in exports or (crate, *path) in exports
                is_type = item.kind == "impl" and not item.trait() and item.owner() in types
                for inner in item.items if is_type else [item] if is_shown else []:
                    if inner.kind == "fn" and inner.visibility == "pub":
                        has_condition = any(clause.kind == "requires" for clause in inner.clauses)
                        yield f"{module.file}:{inner.line}", inner.name, has_condition


def main(top):
    with tempfile.TemporaryDirectory() as room:
        (texts, shown), (again, _) = (made(top, os.path.join(room, name)) for name in "ab")
    faults = [f"{name} differs in two runs" for name in texts if texts[name] != again.get(name)]
    pages = {name: Page(text if name.endswith(".html") else "") for name, text in texts.items()}
    faults += [f"{name}: {fault}" for name, page in pages.items() for fault in [*page.faults, *dead(name, page, pages)]]
    places = set(re.findall(r">(crates/[^<]*:\d+)<", "".join(texts.values())))
    for place, call, has_condition in public_calls(top):
        faults += [f"no page has {call} of {place}"] if place not in places else []
        if has_condition and f"<code>{call}</code></a>" not in texts["conditions.html"]:
            faults.append(f"conditions.html lacks {call} of {place}")
    counts = [int(re.search(rf"(\d+) clauses {what}", shown)[1]) for what in ("in words", "without words", "too long for words")]
    said, unsaid, _ = counts
    faults += [f"only {said} of {sum(counts)} clauses are in words"] if said < LEAST * sum(counts) else []
    faults += [f"{unsaid} of {sum(counts)} clauses have no words"] if unsaid > UNSAID * sum(counts) else []
    with open(os.path.join(top, PROVED), encoding="utf-8") as file:
        faults += [f"{PROVED} is not what tests/docs/reference.py --write makes"] if file.read() != texts["proved.txt"] else []
    print("".join(fault + "\n" for fault in faults), end="")
    return 1 if faults else 0


def write():
    """Makes c/proved.txt anew."""
    with tempfile.TemporaryDirectory() as room:
        texts, _ = made(TOP, room)
    with open(os.path.join(TOP, PROVED), "w", encoding="utf-8") as file:
        file.write(texts["proved.txt"])
    return 0


if __name__ == "__main__":
    sys.exit(write() if sys.argv[1:] == ["--write"] else main(os.path.abspath(sys.argv[1]) if len(sys.argv) > 1 else TOP))
