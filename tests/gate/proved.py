#!/usr/bin/env python3
"""Runs rattle over the libraries that the gate proved, so that none is proved again.

    tests/gate/proved.py rattle COMMAND CRATE WORD..
                                           runs `rattle COMMAND` on crates/CRATE over the kept libraries
    tests/gate/proved.py check CRATE            proves crates/CRATE, and keeps what it proved for the next check
    tests/gate/proved.py wait CRATE             beside the gate: waits until it has proved the libraries below crates/CRATE
    tests/gate/proved.py built CRATE            beside the gate: waits until it has built crates/CRATE/out/CRATE
    tests/gate/proved.py archive CRATE          builds crates/CRATE/out/libCRATE.a over the libraries that `rt lib` built
    tests/gate/proved.py apart COPY             takes out of a copy of the repository what the gate does not prove

PROVED names another folder than out/proved for the kept libraries.

The status is 3 if a library below the crate has changed since it was kept, or was not kept.
"""
import functools
import hashlib
import os
import pathlib
import re
import shutil
import subprocess
import sys
import time

TOP = pathlib.Path(__file__).resolve().parents[2]
KEPT = pathlib.Path(os.environ.get("PROVED", TOP / "out" / "proved"))
STALE = 3


@functools.lru_cache(maxsize=None)
def told_by_rt(command):
    return subprocess.run(["rt", command], check=True, capture_output=True, text=True).stdout.strip()


def kit():
    """The folder of the kit."""
    return pathlib.Path(told_by_rt("doc")).parent


def kit_version():
    return told_by_rt("version")


@functools.lru_cache(maxsize=None)
def crates():
    """The kinds and the libraries of the crates in crates.txt, by their names."""
    lines = (line.partition("#")[0].partition(":") for line in (TOP / "crates.txt").read_text().splitlines())
    return {head.split()[0]: (head.split()[1:], below.split()) for head, _, below in lines if head.strip()}


# What the gate leaves out: tests run without proofs, and bench/run has ip_bench proved and built, as `make mutants` has.
APART = {name for name in crates() if name == "ip_bench" or name.startswith("test_")}


def below(name):
    """The libraries of the repository under this crate."""
    found = set()
    for library in crates()[name][1]:
        if library in crates():
            found |= {library} | below(library)
    return found


@functools.lru_cache(maxsize=None)
def source_sum_of(name):
    """A sum of a crate's line in crates.txt and its sources, which is the same with each kit."""
    seen = hashlib.sha256(repr(crates()[name]).encode())
    for part in ("src", "specs", "proofs"):
        for path in sorted((TOP / "crates" / name / part).rglob("*")):
            if path.is_file():
                seen.update(repr((str(path.relative_to(TOP)), path.read_bytes())).encode())
    return seen.hexdigest()


def sum_of(name):
    """A sum of what the proof of a crate reads, beside the libraries under it: the kit and the sources."""
    return hashlib.sha256(f"{kit_version()} {source_sum_of(name)}".encode()).hexdigest()


def by_commit(number):
    """A number below this one, which the commit tells: other commits have others."""
    told = subprocess.run(["git", "-C", TOP, "rev-parse", "HEAD"], capture_output=True, text=True)
    return int(told.stdout.strip() or "0", 16) % number


def keep(name, folder):
    """Keeps the library or the program that the gate proved here, in a folder for those of another copy of the repository."""
    out = TOP / "crates" / name / "out"
    library, program = out / "rlib" / f"{name}.rlib", out / name
    if library.is_dir():
        shutil.copytree(library, folder / library.name)
        (folder / f"{name}.sum").write_text(sum_of(name))
    elif program.exists():
        # The name is there once the file is whole.
        shutil.copy(program, folder / f"{name}.part")
        (folder / f"{name}.part").rename(folder / name)


def note_all(folder):
    """Notes in a file that the gate has ended, with the sum of each crate that it proved."""
    (folder / "all").write_text("".join(f"{name} {sum_of(name)}\n" for name in crates()))


def leave_out(copy, names):
    """Takes these crates out of a copy of the repository."""
    lines = (copy / "crates.txt").read_text().splitlines(keepends=True)
    (copy / "crates.txt").write_text("".join(line for line in lines if re.match(r"\w*", line)[0] not in names))
    for name in names:
        shutil.rmtree(copy / "crates" / name)


def changed():
    """The crates that are not as the last gate proved them. None if no gate has ended."""
    if not is_over():
        return None
    noted = set((KEPT / "all").read_text().splitlines())
    return [name for name in crates() if name not in APART and f"{name} {sum_of(name)}" not in noted]


def stale(crate):
    """The libraries under a crate that were not kept as they are now."""
    def is_kept(name):
        kept = KEPT / f"{name}.sum"
        return kept.exists() and kept.read_text() == sum_of(name)

    return [name for name in sorted(below(crate)) if not is_kept(name)]


def is_over():
    """Whether the gate has ended."""
    return (KEPT / "all").exists()


def wait(crate):
    """Waits until the libraries under a crate are kept, or the gate has ended."""
    while stale(crate) and not is_over():
        time.sleep(1)
    return STALE if stale(crate) else 0


def built(crate):
    """Waits until the gate has built a program, or has ended, and puts the program into its folder, as old as the sources."""
    program = TOP / "crates" / crate / "out" / crate
    while not (KEPT / crate).exists():
        if is_over():
            print(f"the gate did not build {crate}", file=sys.stderr)
            return STALE
        time.sleep(1)
    program.parent.mkdir(exist_ok=True)
    shutil.copy(KEPT / crate, program)
    begun = (KEPT / "begun").stat().st_mtime
    os.utime(program, (begun, begun))
    return 0


def command_line(command, crate, folder=lambda name: KEPT):
    """The command line of rattle for a crate, in its folder or a copy of that, over the kept libraries or those in other folders."""
    named = {name: folder(name) if name in crates() else kit() / "rlibs" for name in ["std", *crates()[crate][1]]}
    given = [word for name, place in named.items() for word in ("--extern", f"{name}={place / name}.rlib")]
    places = [kit() / "rlibs", *sorted({folder(name) for name in below(crate)})]
    given += [word for place in places for word in ("-L", f"dependency={place}")]
    given += ["--antt-project", kit() / "rattle/logic/antt-project.json", "--logic-built", kit() / "logic_built"]
    root = "src/main.rt" if (TOP / "crates" / crate / "src/main.rt").exists() else "src/lib.rt"
    return ["rattle", command, "--crate-name", crate, *given, root]


def rattle(command, crate, *more):
    lacking = stale(crate)
    if lacking:
        print(f"not proved by make test as they are now: {', '.join(lacking)}", file=sys.stderr)
        return STALE
    return subprocess.run([*command_line(command, crate), *more], cwd=TOP / "crates" / crate, check=False).returncode


def check(crate):
    kept = KEPT / f"{crate}.kept"
    kept.mkdir(parents=True, exist_ok=True)
    return rattle("check", crate, "--incremental", kept, "--jobs", str(len(os.sched_getaffinity(0))))


def archive(crate):
    """Becomes rattle, which builds a static library over the libraries of rt, from what rt kept of its proof."""
    os.chdir(TOP / "crates" / crate)
    words = command_line("build", crate, lambda name: TOP / "crates" / name / "out/rlib")
    words += ["--crate-type", "staticlib", "--toolchain", kit() / "toolchain", "--incremental", "out/incremental"]
    os.execvp("rattle", [*words, "--jobs", str(len(os.sched_getaffinity(0))), "-o", f"out/lib{crate}.a"])


if __name__ == "__main__":
    mode, *words = sys.argv[1:] or [""]
    if mode == "rattle" and len(words) >= 2:
        sys.exit(rattle(*words))
    modes = {"check": check, "wait": wait, "built": built, "archive": archive, "apart": lambda copy: leave_out(pathlib.Path(copy), APART)}
    if mode in modes and len(words) == 1:
        sys.exit(modes[mode](*words))
    sys.exit(__doc__)
