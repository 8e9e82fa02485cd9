#!/usr/bin/env python3
"""Runs a command of rt and says what it is at, a line a crate: tests/gate/progress.py LOG rt COMMAND..

LOG gets all that the command says. Of a failure its own lines are printed too. The status is the command's.
Each library and program that the gate proves is kept at once in the folder `proved` beside LOG. The file `proved/all` says
that the gate has ended, and which sources it proved.

A build in the current folder makes out/NAME, and its LOG is NAME.log. out/NAME gets the time when the build began,
so that make sees a source that has changed since. If the build fails or is stopped, a half-written out/NAME is removed.
"""
import _signal

# Before all other imports: Ctrl-C in one would print a traceback. The module `signal` itself imports others.
_signal.signal(_signal.SIGINT, _signal.SIG_DFL)

import os
import pathlib
import re
import signal
import subprocess
import sys
import time

import proved

TOP = os.path.dirname(os.path.dirname(os.path.dirname(os.path.abspath(__file__))))
# What a log says of what was loaded, proved or left for later.
QUIET = re.compile(r"(statements|library|crate|logic|note|axioms|empty contracts|linked|fn|struct|enum|trait|impl)\b|.*\bnote: |test .* ok$|$")
SHOWN = 60
SIGNALS = signal.SIGINT, signal.SIGTERM, signal.SIGHUP
START = time.time()


def listed():
    with open(f"{TOP}/crates.txt", encoding="utf-8") as file:
        return [line.split(":")[0].split()[0] for line in file if line.strip() and line[0] != "#"]


def clock(seconds):
    return f"{int(seconds) // 60}:{int(seconds) % 60:02d}"


def say(text):
    print(f"{clock(time.time() - START):>6}  {text}", flush=True)


def show(lines):
    """The lines of a failure, without those that say what went well."""
    told = [line for line in lines if not QUIET.match(line) or ": error" in line or "not proved" in line]
    print("\n".join(told[:SHOWN]), flush=True)


def begun(crate):
    """When the gate began with a crate, which is when it made the crate's folder out/ anew."""
    made = subprocess.run(["stat", "-c", "%W", f"{TOP}/crates/{crate}/out"], capture_output=True, text=True).stdout
    return max(int(made.strip() or 0), START)


def time_of(file):
    return file.stat().st_mtime_ns if file.exists() else None


class Gate:
    """rt ci: the crates in the order in which they end, then what was built is run."""

    LOADS = re.compile(r"rt: (\w+) (?:proved|is kept: )")
    DONE = re.compile(r"rt: (\w+)(: its tests are)? (proved|NOT PROVED)")
    WELL = re.compile(r"rt: (\w+ ran\b.* wrote what|\w+: its tests passed|ok; )|\d+ passed, \d+ failed$")

    def __init__(self, folder):
        self.names, self.ended, self.lines, self.inside = listed(), 0, [], False
        self.kept = folder / "proved"
        self.kept.mkdir(exist_ok=True)

    def take(self, line):
        done, loads = self.DONE.match(line), self.LOADS.match(line)
        if loads:
            proved.keep(loads[1], self.kept)
        if line.startswith("== "):
            self.lines, self.inside = [], True
            return
        self.lines.append(line)
        if done:
            self.tell(*done.groups())
        elif self.inside or not line.startswith("rt: ") and not self.WELL.match(line):
            return
        elif not self.WELL.match(line):
            show(self.lines)
        self.lines, self.inside = [], False

    def tell(self, crate, tests, verdict):
        if tests:
            say(f"{crate}: its tests are {verdict}")
        else:
            self.ended += 1
            say(f"{self.ended} of {len(self.names)}: {crate} {verdict}, {clock(time.time() - begun(crate))}")
        if verdict != "proved":
            show(self.lines)

    def end(self, _):
        proved.note_all(self.kept)

    def drop(self):
        """What was proved before the gate was stopped is kept."""


class Build:
    """A build in the folder of a crate: the crates by their place in crates.txt, but for those that stand already."""

    BEGUN = re.compile(r"rt: chose --jobs \d+ for (\w+)")

    def __init__(self, built):
        self.names, self.crate, self.since, self.lines = listed(), pathlib.Path.cwd().name, START, []
        self.built, self.before = built, time_of(built)

    def take(self, line):
        begins = self.BEGUN.match(line)
        if begins:
            self.crate, self.since, self.lines = begins[1], time.time(), []
        self.lines.append(line)
        if line.startswith("logic=") and self.crate:
            verdict = "proved" if line.startswith("logic=proved") else "NOT PROVED"
            place = self.names.index(self.crate) + 1
            say(f"{place} of {len(self.names)}: {self.crate} {verdict}, {clock(time.time() - self.since)}")

    def end(self, failed):
        if failed:
            show(self.lines)
            self.drop()
        elif self.built.exists():
            os.utime(self.built, (START, START))

    def drop(self):
        if time_of(self.built) not in (None, self.before):
            self.built.unlink()


class Stopped(Exception):
    """A signal came."""


def stop(number, _):
    """Stops once: make passes a signal on that its whole group got."""
    for each in SIGNALS:
        signal.signal(each, signal.SIG_IGN)
    raise Stopped(number)


def run_logged(command, file, take):
    """Runs the command, and returns its status. Ctrl-C reaches the command too; another signal is passed on."""
    how = {"stdin": subprocess.DEVNULL, "stdout": subprocess.PIPE, "stderr": subprocess.STDOUT, "text": True, "errors": "replace"}
    with subprocess.Popen(command, **how) as run:
        for number in SIGNALS:
            signal.signal(number, stop)
        try:
            for line in run.stdout:
                file.write(line)
                file.flush()
                take(line.rstrip("\n"))
        except Stopped as why:
            if why.args[0] != signal.SIGINT:
                run.send_signal(why.args[0])
            raise
    return run.returncode


def main():
    if len(sys.argv) < 3:
        sys.exit(__doc__.strip())
    log, command = pathlib.Path(os.path.abspath(sys.argv[1])), sys.argv[2:]
    log.parent.mkdir(parents=True, exist_ok=True)
    teller = Gate(log.parent) if command[1:2] == ["ci"] else Build(pathlib.Path("out", log.stem))
    say(f"the log is {log}")
    with open(log, "w", encoding="utf-8") as file:
        try:
            status = run_logged(command, file, teller.take)
        except Stopped:
            teller.drop()
            raise
    teller.end(status)
    if status:
        say(f"{' '.join(command)} failed: see {log}")
    sys.exit(abs(status))


if __name__ == "__main__":
    try:
        main()
    except Stopped as why:
        signal.signal(why.args[0], signal.SIG_DFL)
        os.kill(os.getpid(), why.args[0])
