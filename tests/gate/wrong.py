#!/usr/bin/env python3
"""Tries the wrong bodies and their controls: tests/gate/wrong.py [--beside-gate | --untried | CRATE..]

An edit in crates/CRATE/edits.txt has two texts for the same place. The first puts a wrong body into a function (a mutant),
and the prover must reject that function. The second puts a correct body of the same form there (the control), and that
function must be proved. A rejection is not decisive if the proof of the function cites a name that the edit took away: it
shows nothing of the contract, and counts as a failure.

A proof of a function cites only the contracts of the functions that it calls. So edits of different
functions are applied together, and only these functions are checked, over the libraries that
make test proved. tests/data/tried.txt gets a line for each crate whose edits are all as they must be. With --untried these are
the crates that changed since they got theirs, or have none. Beside the gate it tries these and one other crate, by the commit,
each as soon as the libraries under it are proved. What rattle prints is in out/wrong.log. The last line counts the edits.
"""
import collections
import os
import pathlib
import re
import shutil
import subprocess
import sys
import tempfile
import time
from concurrent.futures import ThreadPoolExecutor

import proved
import untried

TOP = pathlib.Path(__file__).resolve().parents[2]
PROCESSORS = len(os.sched_getaffinity(0))
# An edit. All texts begin in the tenth column.
PLACE = "file:    (.*)\nold:     (.*)\nwrong:   (.*)\ncontrol: (.*)\n"
EDIT = re.compile(rf"name:    (.*)\n(?:fn:      (.*)\n)?((?:{PLACE})+)\n*")
Place = collections.namedtuple("Place", "file old wrong control")
FUNCTION = re.compile(r'^( *)(?:pub(?:\([^)]*\))? )?(?:(?:const|unsafe|extern "C") )*fn (\w+)', re.M)
IMPL = re.compile(r"^impl(?:<.*?>)? (\w+)(?:<[^{]*>)?( for )?", re.M)
VERDICT = re.compile(r"^fn (\S+): (.*)$", re.M)
# The folder of a proof that cites a name which is gone. What is missing may be on a further line of the error.
NAME_GONE = re.compile(r"^\./proofs/(\S+)/\w+\.antt:\d+:\d+: error: .*(?:\n  .*)*?has no (?:field|lemma|`)", re.M)
NOT_DECISIVE = "not decisive, since its proof cites a name that the edit took away"
# A function that is proved, or has no proof only because of another function, or of which the prover cannot tell.
NOT_REJECTED = re.compile(rf"proved$|no proof: it calls [^;]*$|could not tell|{NOT_DECISIVE}")
OF_ANOTHER = re.compile(r"no proof: it calls [^;]*$")
# Whether these verdicts on the functions of an edit are as they must be.
IS_RIGHT = {
    "wrong": lambda found: not all(NOT_REJECTED.match(it) for it in found),
    "control": lambda found: all(it == "proved" for it in found),
}


class Edit:
    """An edit of lines of a crate's sources, each of which occurs once.

    Its functions are those around the old lines. A line `fn: NAME` names one instead: the name that rattle prints, or the end of it.
    """

    def __init__(self, crate, name, function, places):
        self.crate, self.name = crate, name
        self.places = [Place(*texts) for texts in re.findall(PLACE, places)]
        self.functions = {function} if function else {self.around(place.file, place.old) for place in self.places}

    def around(self, file, old):
        """The function around a text, with the name of its type if it has one."""
        text = (TOP / "crates" / self.crate / file).read_text(encoding="utf-8")
        if text.count(old) != 1:
            sys.exit(f"{self.crate}/{self.name}: {file} has this text {text.count(old)} times: {old}")
        end = text.index(old) + len(old)
        *_, function = [None, *FUNCTION.finditer(text, 0, end)]
        *_, impl = [None, *IMPL.finditer(text, 0, function.start())] if function and function[1] else [None]
        if not function or impl and impl[2]:
            sys.exit(f"{self.crate}/{self.name}: a line 'fn: NAME' must name the function that is not proved")
        return f"{impl[1]}::{function[2]}" if impl else f"{pathlib.Path(file).stem}::{function[2]}"

    def apply(self, folder, kind):
        """Puts the wrong body or the control into the sources in this folder."""
        for place in self.places:
            path = folder / place.file
            text = path.read_text(encoding="utf-8")
            path.write_text(text.replace(place.old, getattr(place, kind)), encoding="utf-8")


def edits(crate):
    """The edits of a crate."""
    path = TOP / "crates" / crate / "edits.txt"
    text = path.read_text(encoding="utf-8") if path.exists() else ""
    other = EDIT.sub("", text)
    if other:
        sys.exit(f"crates/{crate}/edits.txt: this is no edit: {other.splitlines()[0]}")
    return [Edit(crate, name, function, places) for name, function, places, *_ in EDIT.findall(text)]


def rounds(found):
    """Lists of edits in which no two edit the same function."""
    lists = []
    for edit in found:
        for one in lists:
            if not any(edit.functions & other.functions for other in one):
                one.append(edit)
                break
        else:
            lists.append([edit])
    return lists


class Trial:
    """The edits of one crate, each round over what the rounds before it proved."""

    unfinished = set()

    def __init__(self, crate, found):
        self.crate, self.edits, self.log, self.faults, self.passed = crate, found, [], [], 0
        self.unfinished.add(crate)

    def jobs(self):
        """How many processors a run of rattle may use: the last crates use those of the crates that are done."""
        return max(1, PROCESSORS // len(self.unfinished))

    def verdicts(self, tried, kind):
        """What rattle says of each function that it checks with the edits applied."""
        with tempfile.TemporaryDirectory() as room:
            folder = pathlib.Path(room)
            for part in ("src", "specs", "proofs"):
                if (TOP / "crates" / self.crate / part).is_dir():
                    shutil.copytree(TOP / "crates" / self.crate / part, folder / part)
            for edit in tried:
                edit.apply(folder, kind)
            only = [word for name in sorted(set().union(*(edit.functions for edit in tried))) for word in ("--only", name)]
            words = [*proved.command_line("check", self.crate), "--jobs", str(self.jobs()), "--incremental", self.kept, *only]
            began = time.time()
            ran = subprocess.run(words, cwd=folder, stdin=subprocess.DEVNULL, stdout=subprocess.PIPE, stderr=subprocess.STDOUT, text=True, errors="replace")
        self.log.append(f"== {self.crate}, {kind}: {' '.join(edit.name for edit in tried)} ({time.time() - began:.0f} s)\n{ran.stdout}")
        gone = {f"{self.crate}::{folder.replace('/', '::')}" for folder in NAME_GONE.findall(ran.stdout)}
        return [(name, NOT_DECISIVE if name in gone else verdict) for name, verdict in VERDICT.findall(ran.stdout)]

    def judge(self, tried, kind, again):
        """Counts the edits whose functions have the verdict that they must have. The wrong bodies to try by themselves go to `again`."""
        told = self.verdicts(tried, kind)
        for edit in tried:
            found = [verdict for name, verdict in told if any(name.endswith(f"::{one}") for one in edit.functions)]
            if not found:
                self.faults.append(f"{self.crate}/{edit.name}, {kind}: was not checked")
            elif IS_RIGHT[kind](found):
                self.passed += 1
            elif kind == "wrong" and len(tried) > 1 and any(OF_ANOTHER.match(it) for it in found):
                again.append([edit])
            else:
                self.faults.append(f"{self.crate}/{edit.name}, {kind}: {'; '.join(sorted(set(found)))}")

    def run(self):
        left = collections.deque(rounds(self.edits))
        with tempfile.TemporaryDirectory() as self.kept:
            self.judge(self.edits, "control", left)
            while left:
                self.judge(left.popleft(), "wrong", left)
        self.unfinished.discard(self.crate)


def ready(trials, beside_gate):
    """The trials, each when the libraries under its crate are kept."""
    left = list(trials)
    while left:
        is_over = not beside_gate or proved.is_over()
        begins = [trial for trial in left if not proved.stale(trial.crate)]
        yield from begins
        left = [trial for trial in left if trial not in begins]
        if is_over:
            break
        time.sleep(1)
    for trial in left:
        trial.faults.append(f"{trial.crate}: the libraries under it were not proved by make test as they are now")


def sums():
    """A sum of what the trials of each crate depend on: its sources and edits, and the statements below that these use."""
    def sum_of(crate):
        files = untried.files_in(*(TOP / "crates" / crate / part for part in ("src", "specs", "proofs", "edits.txt")))
        text = "\n".join(content.decode() for _, content in files)
        return untried.sum_of([proved.crates()[crate], files, untried.used_below(crate, text)])

    return {crate: sum_of(crate) for crate in sorted(path.parent.name for path in TOP.glob("crates/*/edits.txt"))}


def main():
    known, asked = sums(), sys.argv[1:]
    beside_gate = asked == ["--beside-gate"]
    crates = untried.due(known, asked) + (untried.another(known) if beside_gate else [])
    unknown = [crate for crate in crates if not (TOP / "crates" / crate / "src").is_dir()]
    if unknown:
        sys.exit(f"tests/gate/wrong.py: there is no crate {', '.join(unknown)}")
    trials = [Trial(crate, found) for crate in crates if (found := edits(crate))]
    trials.sort(key=lambda trial: -len(trial.edits))
    (TOP / "out").mkdir(exist_ok=True)

    def run(trial):
        trial.run()
        if not beside_gate and not trial.faults:
            untried.record(known, trial.crate)

    with ThreadPoolExecutor(PROCESSORS) as pool:
        runs = [pool.submit(run, trial) for trial in ready(trials, beside_gate)]
    for it in runs:
        it.result()
    (TOP / "out/wrong.log").write_text("".join(it for trial in trials for it in trial.log), encoding="utf-8")
    faults = [fault for trial in trials for fault in trial.faults]
    print("".join(f"FAILED: {fault}\n" for fault in faults), end="")
    print(f"{sum(trial.passed for trial in trials)} wrong bodies and controls are as they must be, and {len(faults)} are not")
    sys.exit(bool(faults))


if __name__ == "__main__":
    main()
