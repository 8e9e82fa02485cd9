#!/usr/bin/env python3
"""Compares what the sources state with what they stated at a commit.

    tests/docs/statements.py [COMMIT]

The statements are all names that a library exports, the public functions with their conditions and promises, the public
types and constants, the members of each `impl` and trait, and all definitions of specs/, wherever they stand: no layout,
comments, bodies or proofs, and no private item that nothing of this names. A law that returns or changes a value is stated
with its body, because it promises something of what the body does. So is each function of promises and promises_c, private
ones too. An imported name is the same as long as what it means is the same.

With a commit it prints all that differs. Without one it compares with the commit that tests/data/statements.txt names by
`make statements SINCE=COMMIT`. What is gone since, or asks for more, must be named in this file as `NAME` or `TYPE::NAME`. The rest is printed, and the status is 1 then. So it is if the commit lacks a crate: what this crate
states would be compared with nothing. What only moved into a new crate is compared with what it was. The commit must be one
before this one. Without a history, as in an archive or a shallow copy, the status is 77.
"""
import collections
import io
import os
import re
import subprocess
import sys
import tarfile
import tempfile

TOP = os.path.dirname(os.path.dirname(os.path.dirname(os.path.abspath(__file__))))
sys.path.append(os.path.join(TOP, "tools"))
from contracts import ReadError  # noqa: E402
from sources import Sources, words_of  # noqa: E402

# The names that are exempt, and the commit of the comparison.
TOLD = "tests/data/statements.txt"
SINCE = re.compile(r"`make statements SINCE=(\S+)`")
# The crates whose functions promise something of what their bodies do, beside the laws.
PROMISES = {"promises", "promises_c"}
# Attributes that change no statement.
PLAIN = re.compile(r"(?:inline|allow|tactic|must_use|cold)\b")

# One thing that the sources state of a name: its kind, the type or crate that the name belongs to, the text, and the full
# paths of the imported names in the text.
Fact = collections.namedtuple("Fact", "kind owner name text meanings")


def shown(fact):
    name = f"{fact.owner}::{fact.name}" if fact.owner else fact.name
    return f"{fact.kind} {name}" + (f": {fact.text}" if fact.text else "")


def with_attributes(item):
    attributes = [f"#[{a}] " for a in item.attributes if not PLAIN.match(a)]
    return "".join(attributes) + (item.visibility + " " if item.visibility else "") + item.text


class Statements:
    """What one crate states."""

    def __init__(self, sources, crate):
        self.sources, self.crate = sources, crate
        self.types = self.cited_types()

    def cited_types(self):
        """The names of the types and constants that are public, or that a statement names."""
        items = [i for m in self.crate.modules.values() for i in m.items if i.kind not in ("fn", "impl", "mod", "ghost")]
        self.local = {item.name for item in items}
        self.types, found = set(), {item.name for item in items if item.visibility == "pub"}
        while found != self.types:
            self.types = set(found)
            words = words_of("\n".join(fact.text for fact in self.of_modules()))
            found |= self.local & (words | self.sources.declared_names)
        return found

    def facts(self):
        if not self.crate.is_program:
            for name, path in self.sources.exports(self.crate.name).items():
                yield Fact("export", self.crate.name, "::".join(name), "", {name[-1]: path})
        yield from self.of_modules()
        for module in self.crate.specs.values():
            for use in module.uses:
                if use.is_public:
                    yield self.fact("passed on by", "::".join(module.path), use.name, use.name, module, [use])
            for it in module.items:
                yield self.fact("definition", "", it.name, "\n    ".join(it.lines), module, module.uses)

    def fact(self, kind, owner, name, text, module, uses):
        # A clause means a definition by its name, also where a function has the same.
        uses = sorted(uses, key=lambda use: use.is_ghost)
        meanings = dict(self.sources.meanings(self.crate, module, uses, text))
        for path in meanings.values():
            if path[0] == "Rattle" and path[1] in self.sources.crates and path[2] == "proofs":
                raise ReadError(f"{module.file} states something by {'.'.join(path[1:])}, which is not in specs/")
        return Fact(kind, owner, name, text, meanings)

    def of_modules(self):
        for module in self.crate.modules.values():
            yield from self.of_items(module, module.items, None)

    def of_items(self, module, items, block):
        """The facts of the items in a module, or in a block: an `impl`, an `impl` of a trait, or a trait."""
        for item in items:
            if item.kind in ("impl", "trait"):
                yield from self.of_block(module, item)
            elif item.kind == "fn":
                is_named = item.visibility == "pub" or self.crate.name in PROMISES
                if is_named or block and (block.kind == "trait" or block.trait() and item.clauses):
                    yield from self.of_function(module, item, block)
            elif item.kind != "mod" and self.is_stated(item, block):
                text = "; ".join([with_attributes(item), *(member.text for member in item.members)])
                yield self.inside(block, item.kind, item.name, text, module)

    def is_stated(self, item, block):
        if item.kind == "ghost" or block and (block.kind == "trait" or block.trait()):
            return True
        return item.visibility == "pub" or not block and item.name in self.types

    def inside(self, block, kind, name, text, module):
        """A fact of an item in a block, if there is one."""
        if not block:
            return self.fact(kind, "", name, text, module, module.uses)
        owner = block.name if block.kind == "trait" else block.owner()
        return self.fact(kind, owner, name, f"{block.text}: {text}", module, [*module.uses, *block.uses])

    def of_function(self, module, item, block):
        has_default = block and block.kind == "trait" and item.has_body
        yield self.inside(block, "fn", item.name, with_attributes(item) + (" { .. }" if has_default else ""), module)
        for clause in item.clauses:
            yield self.inside(block, "condition of" if clause.kind == "requires" else "promise of", item.name, str(clause), module)
        is_promise = "laws" in module.path or self.crate.name in PROMISES
        if is_promise and re.search("->|&mut", item.text):
            yield self.inside(block, "body of", item.name, item.body, module)

    def of_block(self, module, item):
        owner = item.name if item.kind == "trait" else item.owner()
        if owner in self.local and owner not in self.types:
            return
        inner = list(self.of_items(module, item.items, item))
        if inner or item.kind == "trait" or item.trait():
            yield self.fact(item.kind, "", owner, with_attributes(item), module, module.uses)
            yield from inner


def statements_of(sources):
    """The facts of all libraries and programs."""
    return [fact for crate in sources.crates.values() if not crate.is_for_tests for fact in Statements(sources, crate).facts()]


def content(sources, path):
    """What a full path means: the text of the definition or item, or the path itself if it is not of these crates."""
    at = 1 if path[0] == "Rattle" else 0
    crate = sources.crates.get(path[at]) if len(path) > at + 1 else None
    if not crate:
        return path
    if at:
        named = [it for module in crate.specs.values() if module.path == path[3:-1] for it in module.items if it.name == path[-1]]
        return [it.lines for it in named] or path[3:]
    # A variant is of the type before it.
    for end in (len(path), *(n for n, word in enumerate(path) if word == "TheVariants")):
        items = [it for it in sources.items_at(path[0], path[1 : end - 1]) if it.name == path[end - 1] and it.kind != "impl"]
        if items:
            return [(with_attributes(it), it.members) for it in items], path[end:]
    return path[1:]


def is_same(old, new, before, after):
    """Whether the imported names of one fact mean in the new sources what they meant in the old ones."""
    return all(
        name not in after or path == after[name] or content(old, path) == content(new, after[name])
        for name, path in before.items()
    )


def differences(old, new):
    """The facts that only the old sources state, and those that only the new ones state."""
    left = collections.defaultdict(list)
    for fact in statements_of(new):
        left[fact[:4]].append(fact)
    gone = []
    for fact in statements_of(old):
        places = [fact[:4]]
        if fact.kind == "export" and fact.owner not in new.crates:
            # Its crate was joined with another one.
            places = [("export", crate, *fact[2:4]) for crate in new.crates]
        if fact.kind == "fn":
            # A call that is `const` now can be made wherever it could be made before.
            places.append((*fact[:3], re.sub(rf"\bfn (?={fact.name}\b)", "const fn ", fact.text, count=1)))
        found = next((it for key in places for it in left[key] if is_same(old, new, fact.meanings, it.meanings)), None)
        if found:
            left[found[:4]].remove(found)
        else:
            gone.append(fact)
    return gone, [fact for facts in left.values() for fact in facts]


def uncompared(old, new, added):
    """The crates that only the new sources have, with the number of their statements that are compared with nothing."""
    for name, crate in new.crates.items():
        if name not in old.crates and not crate.is_for_tests:
            fresh = [fact for fact in Statements(new, crate).facts() if fact.kind not in ("export", "passed on by") and fact in added]
            if fresh:
                yield f"{name} ({len(fresh)})"


def narrowed(old, new, gone, added):
    """What is gone, and what asks for more."""
    known = {(fact.owner, fact.name) for fact in statements_of(old)}
    yield from (("gone", fact) for fact in gone if fact.kind != "condition of")
    yield from (("new", fact) for fact in added if fact.kind == "condition of" and (fact.owner, fact.name) in known)


def is_told(fact, told):
    """Whether a fact's name is one of these."""
    return (f"{fact.owner}::{fact.name}" if fact.owner else fact.name) in told


def git(*words):
    return subprocess.run(["git", "-C", TOP, *words], capture_output=True, check=False)


def has_history():
    """Whether this is a repository with all commits before the one that is checked out."""
    if not os.path.exists(os.path.join(TOP, ".git")):
        return False
    found = git("rev-parse", "--git-path", "shallow")
    if found.returncode:
        raise ReadError(found.stderr.decode().strip())
    return not os.path.exists(os.path.join(TOP, found.stdout.decode().rstrip("\n")))


def sources_of(commit):
    """The sources of a commit. None if the repository does not have it."""
    packed = git("archive", commit, "crates", "crates.txt")
    if packed.returncode:
        return None
    with tempfile.TemporaryDirectory() as room:
        tarfile.open(fileobj=io.BytesIO(packed.stdout)).extractall(room)
        return Sources(room)


def told_since():
    """The commit with which TOLD compares, and the names that it tells of since."""
    with open(os.path.join(TOP, TOLD), encoding="utf-8") as file:
        text = file.read()
    since = SINCE.search(text)
    if not since:
        sys.exit(f"{TOLD} does not say with which commit the statements are compared")
    return since[1], set(re.findall(r"`([\w:]+)`", text))


def check(since, told):
    """Prints what is gone or narrower since a commit and not told, and what is compared with nothing. Returns the status."""
    old, new = sources_of(since), Sources(TOP)
    if not old and not has_history():
        print(f"tests/docs/statements.py: skipped: there is no history here, so no commit {since}")
        return 77
    if not old or git("merge-base", "--is-ancestor", since, "HEAD").returncode:
        print(f"{TOLD}: SINCE={since} is no commit before this one")
        return 1
    gone, added = differences(old, new)
    found = [f"{how}: {shown(fact)}" for how, fact in narrowed(old, new, gone, added) if not is_told(fact, told)]
    print("".join(line + "\n" for line in found), end="")
    if found:
        print(f"{TOLD} does not name these beside SINCE={since}: they were stated otherwise then")
    fresh = list(uncompared(old, new, added))
    if fresh:
        print(f"{TOLD}: SINCE={since} lacks these crates. Name a commit that has them, so that their statements")
        print(f"are compared too: {', '.join(fresh)}")
    return 1 if found or fresh else 0


def main(words):
    if len(words) > 1:
        sys.exit(__doc__)
    if not words:
        return check(*told_since())
    old = sources_of(words[0])
    if not old:
        sys.exit(f"tests/docs/statements.py: {words[0]} is no commit of this repository")
    gone, added = differences(old, Sources(TOP))
    found = sorted((shown(fact), sign) for sign, facts in (("-", gone), ("+", added)) for fact in facts)
    print("".join(f"{sign} {text}\n" for text, sign in found), end="")
    return 0


if __name__ == "__main__":
    try:
        sys.exit(main(sys.argv[1:]))
    except ReadError as error:
        sys.exit(f"tests/docs/statements.py: {error}")
