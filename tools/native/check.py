#!/usr/bin/env python3
"""Compares the package of cargo with the proved sources, token by token: tools/native/check.py [OUT [--plant N]]

OUT is out/native. Of each module the tokens of the source without contracts, changed by RULES, must be those of the package.
The last line counts the tokens, and the changes of each rule. Files of the package that are no text of the sources are in OWN.

It shares no code with `make.py`: the reader of `tools/contracts.py`, which the reference uses, says what is a contract. With
--plant N it changes one token N times. It must find each of these changes.
"""
import collections
import pathlib
import random
import re
import sys

HERE = pathlib.Path(__file__).resolve().parent
TOP = HERE.parents[1]
sys.path[:0] = [str(TOP / "tools"), str(HERE)]

from contracts import CLOSED_BY, Reader, tokens_of  # noqa: E402
from rules import EXPORTS, PACKAGES, SEEN_AS, const_calls, files_of, is_test, modules_of  # noqa: E402

OWN = "src/lib.rs src/native.rs src/hex.rs c/src/lib.rs frames/src/main.rs frames/src/kit.rs frames/src/hex.rs".split()
# Functions that the package does not have.
LEFT_OUT = {"wire_checksum/src/totals.rt": {"by_vectors", "lanes", "by_lanes"}}
# A rule: its name, a pattern of the tokens with a blank between two, and what the package has.
RULES = [
    ("formatter", r"< W : (?:fmt : : )?Write > (?=\( (?!writer : & mut W))", ""),
    ("formatter", r"(< ' \w+) , W : (?:fmt : : )?Write (?=> \()", r"\1 "),
    ("formatter", r"(?<=< )W : (?:fmt : : )?Write , ", ""),
    ("formatter", r", W : (?:fmt : : )?Write (?=[>,])", ""),
    ("formatter", r"(?<=\bFormatter < )W (?=>)", "' _ "),
    ("drop", r"(?<=\bderive \( )Drop (?:, )?", ""),
    ("drop", r"(\bderive \([^)]*?) , Drop\b", r"\1"),
    ("assert", r"(?<== )prove(?= ! \()", "assert"),
    ("hash", r"\buse std : : hash : : \{ DefaultHasher , Hasher \} ;", "use crate : : native : : DefaultHasher ;"),
    ("text", r"\bunsafe \{ str : : from_utf8_unchecked \( (\w+) \) \}", r"crate : : native : : ascii ( \1 )"),
    ("vectors", r"\buse std : : simd : : prelude : : \* ; ", ""),
    ("vectors", r"\bby_vectors \( bytes \)", "by_words ( bytes , tail ( bytes ) )"),
    ("slice", r"\buse std : : slice : : from_raw_parts_mut ; ", ""),
    (
        "slice",
        r"\bunsafe \{ from_raw_parts_mut \( self \. bytes \. as_mut_ptr \( \) \. add \( self \. start \) , "
        r"self \. end - self \. start , \) \}",
        "& mut self . bytes [ self . start . . self . end ]",
    ),
]
TEST_RULES = [
    ("runtime", r"(?<=\( )rt : HostRuntime (?=\))", ""),
    ("runtime", r"\brt : & impl Abort (?:, )?", ""),
    ("runtime", r"\buse std : : process : : Abort ; ", ""),
    ("runtime", r"& rt , ", ""),
    ("runtime", r"(?<=\( )rt [,;] ", ""),
    ("memory", r"\buse std : : alloc : : \{ AllocError , Global \} ;", "type AllocError = std : : convert : : Infallible ;"),
    ("memory", r"\buse std : : test : : Fail ;", "type Fail = AllocError ;"),
    ("memory", r"(?:\brt \. alloc \( \)|\balloc : Global) , ", ""),
    ("memory", r"\b(vec ! \[|format ! \() in alloc ; (.*?) ([\])]) \? (?=[;,)])", r"\1 \2 \3 "),
    ("memory", r"(?<=\bHashSet : : new \( )alloc ", ""),
    ("memory", r"(\bseen \. insert \( \* value \)) \?", r"\1"),
]
PROGRAM_RULES = [
    ("runtime", r"\bfn main (?=\( rt : )", "pub fn main "),
    ("runtime", r"(?<=\beprintln ! \( )rt ; ", ""),
    ("memory", r"\buse std : : process : : ExitCode ;", "use crate : : kit : : * ; use std : : process : : ExitCode ;"),
    ("memory", r"\buse std : : alloc : : (?:AllocError|\{ AllocError , Global \}) ;", "use crate : : kit : : * ;"),
    ("memory", r"(?<=\buse std : : io : : \{ )BufWriter , ", ""),
    ("memory", r"\bvec ! \[ in alloc ; 0 ; len \]", "Vec : : zeros ( alloc , len )"),
    ("drop", r"\bimpl < W : Write \+ Drop > Drop for StreamSink < W > \{ fn drop .*? into_parts \( \) ; \} \} ", ""),
    ("drop", r"\+ Drop ", ""),
    ("law", r", laws (?=\})", ""),
    ("law", r"\blaws : : frame_rebuilds \( bytes , frame \) ; ", ""),
    ("tests", r"# \[ cfg \( test \) \] mod tests ; ", ""),
]
POINTER_RULES = [
    ("pointers", r"(?<=\()( & captured) \[ \. \. len \] , frame(?= \))", " captured . as_ptr ( ) , len , frame"),
    ("pointers", r"(\blk_read_\w+ \() bytes , frame(?= \))", r"\1 bytes . as_ptr ( ) , bytes . len ( ) , frame"),
]
SLICE = re.compile(r"(\w+) : & ((?:' \w+ )?)((?:mut )?)\[ (\w+) \]")
HEAD = re.compile(r'(extern "C" fn \w+ (?:< \' \w+ > )?\()([^)]*)(\)[^{]*\{)')
VIEW = re.compile(r"\b(?:(\w+)PacketMut|(Ethernet)FrameMut|(Ipv6Fragment)HeaderMut)\b")


class Marks(Reader):
    """A reader that notes where contracts, ghost items, tactics and functions that are left out are: ranges of its tokens."""

    def __init__(self, text, file, left_out=()):
        self.spans, self.left_out = [], left_out
        super().__init__(text, file)
        if self.at:
            self.spans.append((0, self.at))

    def item(self, docs):
        first = self.at
        while self.is_next("#"):
            begin = self.at
            self.take()
            if self.balanced()[0].text == "tactic":
                self.spans.append((begin, self.at))
        self.at = first
        found = super().item(docs)
        text = " ".join(token.text for token in self.tokens[first : self.at][:12])
        if re.match("(pub )?ghost |impl (< [^>]* > )?Model |use std : : marker : :", text) or getattr(found, "name", None) in self.left_out:
            self.spans.append((first, self.at))
        return found

    def type(self, item, first):
        """A struct may have ghost fields, which say what its values are."""
        at = self.at
        found = super().type(item, first)
        while at < self.at:
            if self.tokens[at].text == "ghost":
                self.spans.append((at, self.end_of_field(at)))
                at = self.spans[-1][1]
            else:
                at += 1
        return found

    def end_of_field(self, at):
        depth = 0
        while depth or self.tokens[at].text not in (",", "}"):
            depth += (self.tokens[at].text in CLOSED_BY) - (self.tokens[at].text in (")", "]", "}"))
            at += 1
        return at + (self.tokens[at].text == ",")

    def function(self, item, first):
        self.until("requires", "ensures", "{", ";")
        begin = self.at
        while self.peek() in ("requires", "ensures"):
            while self.peek() != "{":
                self.take()
            self.balanced()
        self.spans.append((begin, self.at))
        if not self.accept(";"):
            self.balanced()
        return item


def runtime_tokens(path):
    """The tokens of a proved source without contracts."""
    reader = Marks(path.read_text(), path, LEFT_OUT.get(str(path.relative_to(TOP / "crates")), ()))
    reader.items()
    if reader.at < len(reader.tokens):
        reader.fail()
    cut = {at for first, last in reader.spans for at in range(first, last)}
    return [token.text for at, token in enumerate(reader.tokens) if at not in cut]


def with_modules(tokens, crate, package):
    """With paths from the root of the package: `crate::a` of a crate, and `wire_udp::a`."""
    for at, token in enumerate(tokens):
        starts = tokens[at + 1 : at + 3] == [":", ":"] and tokens[at - 2 : at] != [":", ":"] and tokens[at - 1] not in (".", "$")
        if token == "crate" and starts:
            yield from ("crate", ":", ":", crate)
        elif crate == EXPORTS and starts and token in SEEN_AS:
            yield from SEEN_AS[token].replace("::", " : : ").split()
        elif crate != EXPORTS and starts and token in modules_of(package):
            yield from ("crate", ":", ":", token)
        else:
            yield token


def with_views(text):
    """With the type of each mutable view that `pub use` names, if the file does not name it there."""

    def both(found):
        view = next(filter(None, found.groups())) + "View"
        return found[0] if view in text.split() else f"{found[0]} , {view}"

    return re.sub(r"\bpub use [^;]* ;", lambda use: VIEW.sub(both, use[0]), text)


def with_slices(head):
    """The head of a call of C, with a pointer and a length for each slice, and the first lines of its body."""
    slices = SLICE.findall(head[2])
    parameters = SLICE.sub(lambda s: f"{s[1]}_at : * {s[3] or 'const '}{s[4]} , {s[1]}_len : usize", head[2])
    lines = (
        f" let {name} : & {life}{mut}[ {item} ] = unsafe {{ crate : : slice{mut and '_mut'} ( {name}_at , {name}_len ) }} ;"
        for name, life, mut, item in slices
    )
    return head[1] + parameters + head[3] + "".join(lines)


def rules_of(package, crate, path):
    if package == "frames":
        return RULES + PROGRAM_RULES
    return RULES + (POINTER_RULES if crate == EXPORTS else TEST_RULES if is_test(crate, path) else [])


def expected(package, crate, path, place, counts):
    """The tokens that the package must have of a source. Counts what each rule changes."""
    text = " ".join(with_modules(runtime_tokens(path), crate, package))
    for rule, pattern, other in rules_of(package, crate, path):
        text, count = re.subn(pattern, other, text)
        counts[rule] += count
    if crate == EXPORTS:
        counts["pointers"] += sum(len(SLICE.findall(head[1])) for head in HEAD.findall(text))
        return HEAD.sub(with_slices, text)
    if crate.startswith("wire_"):
        before, text = text, with_views(text)
        counts["views"] += text.count("View ") - before.count("View ")
    for name in (name for file, name in const_calls() if file == str(place.with_suffix(""))):
        text, count = re.subn(rf"(?<=\bpub )fn {name}\b", f"const fn {name}", text)
        counts["const"] += count
    return text


def modules(out):
    """Each module: its file, and where its text is from."""
    for package, crates in PACKAGES.items():
        for crate in crates:
            for path, place in files_of(crate):
                yield out / package / "src" / place, (package, crate, path, place)


def unlisted():
    """The crates of the library and its tests that the package lacks."""
    listed = {crate for crates in PACKAGES.values() for crate in crates}
    for name in re.findall(r"^((?:wire|app|c|test)_\w+):", (TOP / "crates.txt").read_text(), re.M):
        if name not in listed:
            yield name


def packed(file):
    return " ".join(token.text for token in tokens_of(file.read_text())[0])


def difference(wanted, found):
    """The first place where two texts of tokens differ."""
    old, new = wanted.split(), found.split()
    at = next(i for i in range(len(old) + 1) if old[i : i + 1] != new[i : i + 1])
    return f"the source has {' '.join(old[at : at + 12])!r}, and the package {' '.join(new[at : at + 12])!r}"


def plant(out, times):
    """Changes one token of the package at a time. Each change must be found."""
    files = [(file, expected(*source, collections.Counter())) for file, source in modules(out)]
    texts = {file: [token.text for token in tokens_of(file.read_text())[0]] for file, _ in files}
    missed = 0
    for number in range(times):
        chance = random.Random(number)
        file, wanted = chance.choices(files, [len(texts[file]) for file, _ in files])[0]
        tokens = list(texts[file])
        at, other, kind = chance.randrange(len(tokens)), chance.choice(tokens), chance.choice(("delete", "insert", "replace"))
        tokens[at : at + (kind != "insert")] = [other] * (kind != "delete")
        is_same = tokens == texts[file]
        missed += not is_same and " ".join(tokens) == wanted
    print(f"{times} changes of a token, {missed} not found")
    return missed


def main():
    words = sys.argv[1:]
    out = pathlib.Path(words[0] if words and words[0] != "--plant" else TOP / "out" / "native")
    if "--plant" in words:
        return 1 if plant(out, int(words[-1])) else 0
    counts, wrong, total, seen = collections.Counter(), 0, 0, set()
    for file, source in modules(out):
        seen.add(file)
        wanted, found = expected(*source, counts), packed(file)
        total += found.count(" ") + 1
        if wanted != found:
            wrong += 1
            print(f"{file.relative_to(out)}: {difference(wanted, found)}")
    there = {file for package in PACKAGES for file in (out / package / "src").rglob("*.rs")}
    for file in sorted(there - seen - {out / name for name in OWN}):
        wrong += 1
        print(f"{file.relative_to(out)}: no module of the sources")
    for name in unlisted():
        wrong += 1
        print(f"crates.txt: {name} is in no list of tools/native/rules.py")
    changed = ", ".join(f"{count} {rule}" for rule, count in counts.most_common())
    print(f"{total} tokens of {len(seen)} modules, {sum(counts.values())} changed by rules ({changed}), {wrong} faults")
    return 1 if wrong else 0


if __name__ == "__main__":
    sys.exit(main())
