"""The record of what `make mutants` tried: which crates' wrong bodies were tried as they are now.

tests/data/tried.txt has a line for each crate with wrong bodies: its name, and a sum of all that their trials depend on.
Where the sum differs now, or there is none, make test tries all of the crate. It also tries one other crate, by the commit.
"""
import collections
import fcntl
import functools
import hashlib
import re
import sys

import proved

TOP = proved.TOP
LIST = TOP / "tests/data/tried.txt"
COMMENT = re.compile(rb"^[ \t]*(?://|--).*\n", re.M)
sys.path[:0] = [str(TOP / "tests/docs"), str(TOP / "tools")]
from sources import Sources, words_of  # noqa: E402


def sum_of(parts):
    """A sum of texts and bytes."""
    return hashlib.sha256(repr(parts).encode()).hexdigest()[:32]


def files_in(*places):
    """These files and those in these folders, with their bytes without the lines of comments."""
    paths = sorted({path for place in places for path in (place, *place.rglob("*")) if path.is_file()})
    return [(str(path.relative_to(TOP)), COMMENT.sub(b"", path.read_bytes())) for path in paths]


@functools.lru_cache(maxsize=None)
def sources():
    return Sources(str(TOP))


@functools.lru_cache(maxsize=None)
def statements():
    """What the crates state, by each word of its name: pairs of a crate and a text."""
    found = collections.defaultdict(list)

    def add(crate, name, text):
        for word in words_of(name) or {""}:
            found[word].append((crate, text))

    for crate in sources().crates.values():
        for item in (item for module in crate.modules.values() for item in module.items):
            add(crate.name, item.owner() if item.kind == "impl" else item.name, stated(item))
            for inner in item.items:
                add(crate.name, inner.name, f"{item.text} {stated(inner)}")
        for definition in (it for module in crate.specs.values() for it in module.items):
            add(crate.name, definition.name, "\n".join(definition.lines))
    return found


def stated(item):
    """What users of an item know: its attributes and its head with conditions, promises and fields."""
    return " ".join([*item.attributes, item.text, *map(str, item.clauses), *(member.text for member in item.members)])


def used_below(crate, text):
    """The statements of the crates below that a text of this crate names, and those that these name in turn."""
    below, seen, left, used = proved.below(crate), set(), {"", *words_of(text)}, set()
    while left:
        word = left.pop()
        seen.add(word)
        for home, statement in statements().get(word, ()):
            if home in below and (home, statement) not in used:
                used.add((home, statement))
                left |= words_of(statement) - seen
    return sorted(used)


def recorded():
    """The sums of what was tried, by crate."""
    return dict(line.split() for line in LIST.read_text(encoding="utf-8").splitlines()) if LIST.exists() else {}


def changed(sums):
    """The crates that are not as they were when all of their trials were made, or of which not all were made yet."""
    return [crate for crate, found in sums.items() if recorded().get(crate) != found]


def another(sums):
    """One crate of which all trials were made, by the commit; none if there is none."""
    done = [crate for crate in sums if crate not in changed(sums)]
    return done[proved.by_commit(len(done)) :][:1] if done else []


def due(sums, asked):
    """The crates whose trials are made, as the command line asks."""
    return changed(sums) if asked in (["--beside-gate"], ["--untried"]) else asked or list(sums)


def record(sums, crate):
    """Records that this crate was tried as it is now. A crate that is not in `sums` any more loses its line."""
    with open(LIST, "a+", encoding="utf-8") as file:
        fcntl.flock(file, fcntl.LOCK_EX)
        known = {**{name: found for name, found in recorded().items() if name in sums}, crate: sums[crate]}
        file.truncate(0)
        file.write("".join(f"{name} {found}\n" for name, found in sorted(known.items())))
