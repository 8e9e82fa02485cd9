#!/usr/bin/env python3
"""Proves what a change reaches, and nothing else: tests/gate/affected.py [--names] COMMIT

The change is what differs from the commit, and it reaches:
- the crates whose sources, input or expected output differ, and the crates with their tests;
- all crates above a crate in which a statement, a definition or a lemma is gone or other, a known function asks for more, or a
  known trait has another member. What is only new is cited by no crate above.

The tests run first, without proofs. rt ci proves the other crates in a copy without the rest, and runs their programs. Then all
wrong bodies of the changed crates are tried. What rt ci prints is in out/affected/test.log. Other files that differ are named,
because only make test looks at them. With --names nothing is proved: what would be is printed.
"""
import os
import pathlib
import re
import shutil
import subprocess
import sys
import tempfile

import proved
import untried

# Modules of tools/ and tests/docs/, whose folders `untried` adds to the path.
from sources import Sources
from statements import Statements

TOP = proved.TOP
OUT = TOP / "out/affected"


def unpacked(commit, folder):
    """The sources of the commit, in a folder."""
    packed = subprocess.run(["git", "-C", TOP, "archive", commit, "crates", "crates.txt"], stdout=subprocess.PIPE, check=False)
    if packed.returncode:
        sys.exit(f"tests/gate/affected.py: {commit} is no commit of this repository")
    subprocess.run(["tar", "-x", "-C", folder], input=packed.stdout, check=True)
    return Sources(folder)


def line_of(top, crate):
    found = re.search(rf"^{crate}\b.*$", (top / "crates.txt").read_text(), re.M)
    return found and found[0].split()


def files(top, crate):
    """The bytes of the files that the proof of a crate and its wrong bodies are made of, by their path."""
    folder = top / "crates" / crate
    paths = [path for kind in ("src", "specs", "proofs") for path in (folder / kind).rglob("*") if path.is_file()]
    paths += folder.glob("edits.txt")
    return {str(path.relative_to(top)): path.read_bytes() for path in paths}


def data(top, crate):
    """The bytes of the arguments, the input and the expected output of a program, by their name."""
    return {path.name: path.read_bytes() for path in (top / "crates" / crate).glob("*") if path.is_file() and path.name != "edits.txt"}


def read_above(top, sources, crate):
    """What the crates above read of a crate: its statements, and the lemmas that stand in no folder of a function."""
    lemmas = {str(path.name): path.read_bytes() for path in (top / "crates" / crate / "proofs").glob("*.antt")}
    return list(Statements(sources, sources.crates[crate]).facts()), lemmas


def reaches_above(before, now):
    """Whether crates above can fail because of what differs."""
    (facts, lemmas), (facts_now, lemmas_now) = before, now
    if any(fact not in facts_now for fact in facts) or any(lemmas_now.get(name) != text for name, text in lemmas.items()):
        return True
    known, traits = {(fact.owner, fact.name) for fact in facts}, {fact.name for fact in facts if fact.kind == "trait"}
    more = [fact for fact in facts_now if fact not in facts]
    return any(fact.owner in traits or fact.kind == "condition of" and (fact.owner, fact.name) in known for fact in more)


def differing(old, sources):
    """The crates whose sources differ from those in a folder, those of them that reach the crates above, and the programs of which
    only the input or the expected output differs."""
    changed, restated, rerun = [], [], []
    for crate in proved.crates():
        if line_of(old, crate) == line_of(TOP, crate) and files(old, crate) == files(TOP, crate):
            rerun += [crate] if data(old, crate) != data(TOP, crate) else []
            continue
        changed.append(crate)
        if crate in sources.crates:
            if reaches_above(read_above(old, sources, crate), read_above(TOP, untried.sources(), crate)):
                restated.append(crate)
    return changed, restated, rerun


def reached(changed, restated, rerun):
    """The crates that a change reaches."""
    tests = {re.compile(rf"test_{crate.partition('_')[0]}s?") for crate in changed}

    def runs_it(name, named):
        is_test = name.startswith("test_") or name in ("ip_calls", "tcp_steps")
        return is_test and (set(named) & set(changed) or any(kind.fullmatch(name) for kind in tests))

    return [
        name for name, (_, named) in proved.crates().items()
        if name in {*changed, *rerun} or proved.below(name) & set(restated) or runs_it(name, named)
    ]


def listed(*words):
    """The paths that a command of git lists."""
    found = subprocess.run(["git", "-C", TOP, *words], stdout=subprocess.PIPE, check=True).stdout.decode("utf-8", "replace")
    return {path for path in found.split("\0") if path}


def others(commit, names):
    """The files that differ from the commit and are of no crate among these names."""
    paths = listed("diff", "--name-only", "-z", commit, "--") | listed("ls-files", "--others", "--exclude-standard", "-z")
    return sorted(path for path in paths - {"crates.txt"} if not (path.startswith("crates/") and path.split("/")[1] in names))


def tell(commit, changed, names, tests):
    """Prints what is proved and tested, and what only make test looks at."""
    if names or tests:
        print(f"changed: {', '.join(changed) or 'no source'}; proved: {', '.join(names) or 'none'}; tested: {', '.join(tests) or 'none'}")
    else:
        print(f"no crate differs from {commit}")
    left = others(commit, names)
    if left:
        more = f" and {len(left) - 5} more" if len(left) > 5 else ""
        print(f"not looked at here, but by make test: {', '.join(left[:5])}{more}")


def prove(changed, names):
    """Proves these crates, and tries the wrong bodies of the changed ones. Returns the status."""
    below = set().union(*(proved.below(name) for name in names))
    shutil.rmtree(OUT, ignore_errors=True)
    with tempfile.TemporaryDirectory() as room:
        copy = pathlib.Path(room) / "copy"
        shutil.copytree(TOP, copy, ignore=shutil.ignore_patterns("out", ".git"), symlinks=True)
        proved.leave_out(copy, [name for name in proved.crates() if name not in {*names, *below}])
        status = subprocess.run([copy / "tests/gate/progress.py", OUT / "test.log", "rt", "ci"], cwd=copy, check=False).returncode
    if status or not changed:
        return status
    kept = {**os.environ, "PROVED": str(OUT / "proved")}
    return subprocess.run([TOP / "tests/gate/wrong.py", *changed], env=kept, check=False).returncode


def test(crates):
    """Runs the tests of these crates without proofs. Returns the status."""
    return max((subprocess.run([TOP / "tests/gate/unproved", name], check=False).returncode for name in crates), default=0)


def main():
    words = sys.argv[1:]
    only_names = words[:1] == ["--names"]
    if len(words) != 1 + only_names:
        sys.exit(__doc__)
    commit = words[-1]
    with tempfile.TemporaryDirectory() as room:
        changed, restated, rerun = differing(pathlib.Path(room), unpacked(commit, room))
    found = reached(changed, restated, rerun)
    names = [name for name in found if name not in proved.APART]
    tests = [name for name in found if name.startswith("test_")]
    tell(commit, changed, names, tests)
    if only_names:
        return 0
    return test(tests) or (prove(changed, names) if names else 0)


if __name__ == "__main__":
    sys.exit(main())
