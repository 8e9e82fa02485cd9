"""Waiting, for the scripts of tests/kernel: for an event, and not for a time within which it should have happened."""
import contextlib
import os
import pathlib
import time

# Seconds, until what has not happened counts as missing. On a quiet machine nothing takes a tenth of this.
LATEST = 60
PF_EXITING = 4


def until(holds, seconds=LATEST):
    """Waits until this holds. Whether it does."""
    end = time.monotonic() + seconds
    while not holds():
        if time.monotonic() > end:
            return bool(holds())
        time.sleep(0.005)
    return True


@contextlib.contextmanager
def slowly(file):
    """While this file is there, the clock of a program goes slowly (fast_clock.c): its own limits are no limits for others."""
    pathlib.Path(file).touch()
    yield
    os.remove(file)


def leap(file, seconds):
    """From now on the clock of a program is ahead by so many seconds (fast_clock.c)."""
    other = f"{file}.new"
    pathlib.Path(other).write_text(str(seconds), encoding="ascii")
    os.replace(other, file)  # else the program could read a part


class Clock:
    """A clock for a program: the library to be preloaded. It goes as always, but within `slowly`."""

    def __init__(self, library, program, factor=0.01):
        self.file = f"{program}.slow"
        # The run-time of the sanitizers need not be the first library.
        self.env = {**os.environ, "LD_PRELOAD": library, "FAST_CLOCK": str(factor), "FAST_CLOCK_WHILE": self.file,
                    "ASAN_OPTIONS": "verify_asan_link_order=0"}

    def slowly(self):
        return slowly(self.file)


def joins_groups(process="self"):
    """Waits until the kernel of a process hears questions for its IPv6 addresses. It may have them long before it joins their
    groups: other namespaces take the lock for that too."""
    def has_joined():
        with open(f"/proc/{process}/net/if_inet6", encoding="ascii") as file:
            own = {(name, f"ff02{19 * '0'}1ff{addr[-6:]}") for addr, *_, name in map(str.split, file) if name != "lo"}
        with open(f"/proc/{process}/net/igmp6", encoding="ascii") as file:
            return own <= {tuple(line.split()[1:3]) for line in file}

    return until(has_joined)


def state_of(process):
    """The letter of a process's state, as S for one that waits, or nothing if there is none."""
    try:
        with open(f"/proc/{process}/stat", encoding="utf-8") as file:
            return file.read().rpartition(")")[2].split()[0]
    except (FileNotFoundError, ProcessLookupError):
        return ""


def is_idle(process):
    """Whether a program waits, is stopped or has ended. One that got a signal or a frame is not idle before it has taken
    them."""
    return state_of(process) in "STtZX"


def ends(process):
    """Whether there is no such process, or it has ended but for what the kernel still releases: a busy device takes long."""
    try:
        with open(f"/proc/{process}/stat", encoding="utf-8") as file:
            fields = file.read().rpartition(")")[2].split()
    except (FileNotFoundError, ProcessLookupError):
        return True
    return fields[0] in "ZX" or int(fields[6]) & PF_EXITING != 0
