#!/usr/bin/env python3
"""Checks the Markdown pages against the tree.

    tests/docs/markdown.py [TOP]
    tests/docs/markdown.py --links FOLDER   only the links of the pages in a folder

- A link leads to a file, and to a heading of it. README.md links to each page beside it.
- A file, a call, a type, a law, a goal of make or another name of code that a page has in code type exists.
- The files and goals of make that its commands name exist.
- The lines of a fenced excerpt stand in one file of the sources. A line `..` skips lines. Rattle code that is a
  whole file is left to tests/docs/examples.
- No line of a text is longer than 120 columns, and all code is fenced.
- No page has a mail address at a domain that is reserved for examples.

What is wrong is printed, and the status is 1 then. TOP is the top of the repository.
"""
import glob
import os
import re
import sys

TOP = os.path.dirname(os.path.dirname(os.path.dirname(os.path.abspath(__file__))))
sys.path.append(os.path.join(TOP, "tools"))
from sources import WORD, Sources  # noqa: E402

# Names of old commits, of smoltcp, of the standard library and of Linux.
FOREIGN = {"ip_nat", "pretty_print", "AsMut", "is_private", "to_ipv6_mapped", "CAP_NET_ADMIN",
           "CAP_NET_RAW", "frame_raw"}
# Pages of old names, and of names that another test compares.
UNNAMED = {"CHANGELOG.md", "docs/audit/REQUIREMENTS.md"}
EXCERPTS = {
    "rust": ["crates/**/*.rt", "crates/**/*.antt", "bindings/rust/**/*.rs", "examples/rust/*.rs", "examples/native/*.rs", "crates.txt"],
    "c": ["include/*.h", "c/*.c", "examples/*.c", "programs/**/*.[ch]", "bench/*.[ch]"],
    "python": ["bindings/python/**/*.py", "examples/**/*.py", "programs/*.py"],
    "go": ["bindings/go/*.go", "examples/go/**/*.go", "examples/go/go.mod"],
}
LANGUAGES = {*EXCERPTS, "console", "sh", "text"}
BUILT = {".git", "out", "target", "__pycache__"}
ENDINGS = "rt|antt|c|h|py|md|txt|hex|pcap|svg|map|sh"
FENCE = re.compile(r"^( *)```(\w*)\s*$")
RESERVED_MAIL = re.compile(r"[\w.+-]+@(?:[\w-]+\.)*(?:example|invalid|test|localhost)\b(?:\.(?:com|net|org)\b)?")
PLACEHOLDER = re.compile(r"[A-Z]{3,}(?!\.md)")


def read(path):
    with open(path, encoding="utf-8", errors="replace") as file:
        return file.read()


def slug(heading):
    """The anchor of a heading, as GitHub makes it."""
    text = re.sub(r"\[([^\]]*)\]\([^)]*\)", r"\1", heading).replace("`", "").lower()
    return re.sub(r"[^\w\- ]", "", text).strip().replace(" ", "-")


def expanded(pattern):
    """The patterns without braces that `a_{b,c}` stands for."""
    found = re.search(r"\{([^{}]*)\}", pattern)
    if not found:
        return [pattern]
    before, after = pattern[:found.start()], pattern[found.end():]
    return [whole for part in found.group(1).split(",") for whole in expanded(before + part + after)]


def files(top):
    """The paths of all files, but for what was built."""
    for folder, folders, names in os.walk(top):
        folders[:] = [name for name in folders if name not in BUILT]
        yield from (os.path.relpath(os.path.join(folder, name), top) for name in names)


class Page:
    """The parts of a page: lines of text, and fenced blocks with the number of their first line."""

    def __init__(self, path):
        self.path, self.lines = path, read(path).split("\n")
        self.text, self.blocks, self.anchors = [], [], set()
        block = None
        for number, line in enumerate(self.lines, 1):
            fence = FENCE.match(line)
            if block is None and fence:
                block = (number, fence.group(2), [])
            elif block is None:
                self.text.append((number, line))
            elif fence and not fence.group(2):
                self.blocks.append(block)
                block = None
            else:
                block[2].append(line)
        self.is_open = block is not None
        for _, line in self.text:
            if re.match("#+ ", line):
                self.anchors.add(slug(line.lstrip("#")))

    def spans(self):
        """The texts in code type, each with its place in `text`."""
        whole = "\n".join(line for _, line in self.text)
        for part in re.finditer(r"(?<!`)`([^`]+)`(?!`)", whole):
            yield whole.count("\n", 0, part.start()), " ".join(part.group(1).split())


class Tree:
    """What exists: files, names of code, calls of types, laws, goals."""

    def __init__(self, top):
        self.files = sorted(files(top))
        self.names = {part for file in self.files for part in file.split("/")}
        self.names |= {os.path.basename(file).split(".")[0] for file in self.files}
        self.tops = {f.split("/")[0] for f in self.files if "/" in f}
        sources = Sources(top)
        self.crates = set(sources.crates)
        self.goals = set(re.findall(r"^([a-z-]+)(?=[^=\n]*:)", read("Makefile"), re.M))
        self.members, self.words = {}, set()
        for crate in sources.crates.values():
            for module in crate.modules.values():
                self.add_members(module)
        for file in self.files:
            if not file.endswith((".md", ".pcap", ".pcapng", ".svg", ".hex", ".call")) and "/data/" not in file:
                self.words |= set(WORD.findall(read(file)))

    def add_members(self, module):
        for item in module.items:
            if item.kind in ("impl", "trait"):
                owner = item.owner() if item.kind == "impl" else item.name
                self.members.setdefault(re.sub(r"<.*", "", owner), set()).update(i.name for i in item.items)
            elif item.kind in ("struct", "enum"):
                names = {WORD.search(re.sub("^pub ", "", m.text)).group() for m in item.members if WORD.search(m.text)}
                self.members.setdefault(item.name, set()).update(names)
            elif item.kind == "type":
                view = re.search(r"= (\w+)", item.text)
                self.members.setdefault(item.name, set()).add(">" + (view.group(1) if view else ""))

    def has_member(self, owner, name):
        known = self.members.get(owner, set())
        return name in known or any(self.has_member(k[1:], name) for k in known if k.startswith(">") and k[1:] != owner)

    def has_file(self, name, folder):
        for pattern in expanded(PLACEHOLDER.sub("*", name.rstrip("/"))):
            first = pattern.split("/")[0]
            places = [pattern, os.path.join(folder, pattern), "crates/" + pattern if first in self.crates else pattern]
            if not any(glob.glob(place, recursive=True) for place in places):
                return False
        return True


def looks_like_a_file(span, tree):
    first = span.split("/")[0]
    if not re.fullmatch(r"[\w.{},*/-]+", span) or span.startswith(("out/", "/")):
        return False
    return "/" in span and first in tree.tops | tree.crates or bool(re.fullmatch(rf"[\w-]+\.({ENDINGS})", span))


def span_fault(span, tree, folder):
    """What a text in code type names that does not exist."""
    goal = re.match(r"make ([a-z-]+)", span)
    if goal and goal.group(1) not in tree.goals:
        return "there is no goal " + goal.group(1)
    if looks_like_a_file(span, tree):
        is_there = tree.has_file(span, folder) or "/" not in span and span in tree.names
        return None if is_there else "there is no file " + span
    member = re.fullmatch(r"([A-Z]\w+)::(\w+)(\(\))?", span)
    if member and member.group(1) in tree.members and not tree.has_member(*member.groups()[:2]):
        return "there is no " + span
    name = re.fullmatch(r"(?:\w+::)*([A-Za-z]\w*)(\(\))?", span)
    is_name = name and re.search(r"[A-Za-z]_[A-Za-z]|[a-z][A-Z]|::", span)
    if is_name and name.group(1) not in tree.words | tree.names | FOREIGN:
        return "nothing is named " + span
    return None


def link_faults(page, pages):
    for number, line in page.text:
        for target in re.findall(r"\]\(([^)\s]+)\)", re.sub(r"`[^`]*`", "``", line)):
            if re.match(r"\w+:", target):
                continue
            file, _, anchor = target.partition("#")
            path = os.path.normpath(os.path.join(os.path.dirname(page.path), file)) if file else page.path
            if not os.path.exists(path):
                yield number, "there is no file " + target
            elif anchor and anchor not in (pages[path].anchors if path in pages else set()):
                yield number, "there is no heading " + target


def unlinked(pages):
    """The pages beside README.md to which it has no link."""
    linked = {target for _, line in pages["README.md"].text for target in re.findall(r"\]\(([^)\s#]+)", line)}
    return [path for path in pages if "/" not in path and path not in linked | {"README.md"}]


def stands_in(lines, source):
    """Whether the lines stand in this order in the lines of a file, without gaps but where a line is `..`."""
    parts, at = [[]], 0
    for line in lines:
        if line == "..":
            parts.append([])
        else:
            parts[-1].append(line)
    for part in filter(None, parts):
        at = next((i for i in range(at, len(source) - len(part) + 1) if source[i:i + len(part)] == part), None)
        if at is None:
            return False
        at += len(part)
    return True


def excerpt_faults(page):
    for number, language, block in page.blocks:
        if language not in LANGUAGES:
            yield number, f"a fence has no language of {', '.join(sorted(LANGUAGES))}"
        lines = [line.strip() for line in block if line.strip()]
        if language in EXCERPTS and not (lines and lines[0] == "#![tactic(auto)]"):
            files = (f for pattern in EXCERPTS[language] for f in sorted(glob.glob(pattern, recursive=True)))
            if not any(stands_in(lines, [s.strip() for s in read(f).split("\n") if s.strip()]) for f in files):
                yield number, f"these lines of {language} stand in no file"


def command_faults(page, tree):
    for number, language, block in page.blocks:
        for line in block if language in ("sh", "console") else []:
            if language == "sh" or line.startswith(("$ ", "# ")):
                command = line.split(" # ")[0]
                goals = re.findall(r"\bmake ([a-z-]+)(?![\w/])", command)
                yield from ((number, "there is no goal " + goal) for goal in goals if goal not in tree.goals)
                paths = re.findall(r"(?<![^\s(])(?:tests|bench|tools|c|examples|include|programs)/[\w./-]+", command)
                yield from ((number, "there is no file " + path) for path in paths if not tree.has_file(path, ""))


def mail_faults(page):
    """Addresses to which nobody can write (RFC 2606)."""
    for number, line in enumerate(page.lines, 1):
        yield from ((number, f"{it} is at a reserved domain") for it in RESERVED_MAIL.findall(line))


def form_faults(page):
    if page.is_open:
        yield len(page.lines), "a fence is not closed"
    before = ""
    for number, line in page.text:
        if len(line) > 120 and not line.startswith("|"):
            yield number, "a line is longer than 120 columns"
        if line.startswith("    ") and not before.strip() and not re.match(r"\s+([-*]|\d+\.) ", line):
            yield number, "code is not fenced"
        before = line


def report(faults):
    """Prints what is wrong, and returns the status."""
    print("".join(fault + "\n" for fault in faults), end="")
    return 1 if faults else 0


def check_links(folder):
    os.chdir(folder)
    pages = {path: Page(path) for path in sorted(files(".")) if path.endswith(".md")}
    return report([f"{path}:{number}: {fault}" for path, page in pages.items() for number, fault in link_faults(page, pages)])


def main(top):
    os.chdir(top)
    tree = Tree(top)
    pages = {path: Page(path) for path in tree.files if path.endswith(".md")}
    faults = []
    for page in pages.values():
        folder = os.path.dirname(page.path)
        found = [*form_faults(page), *mail_faults(page), *link_faults(page, pages), *excerpt_faults(page), *command_faults(page, tree)]
        starts = [number for number, _ in page.text]
        spans = page.spans() if page.path not in UNNAMED else []
        found += [(starts[line], fault) for line, span in spans for fault in [span_fault(span, tree, folder)] if fault]
        faults += [f"{page.path}:{number}: {fault}" for number, fault in found]
    return report(faults + [f"README.md: no link to {path}" for path in unlinked(pages)])


if __name__ == "__main__":
    if sys.argv[1:2] == ["--links"]:
        sys.exit(check_links(sys.argv[2]))
    sys.exit(main(sys.argv[1] if len(sys.argv) > 1 else os.path.join(os.path.dirname(__file__), "../..")))
