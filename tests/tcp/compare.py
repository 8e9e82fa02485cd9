#!/usr/bin/env python3
"""Compares the TCP of a program with a model of RFC 9293, event by event: tests/tcp/compare.py PROGRAM SEED COUNT

The program is crates/tcp_steps. Both get the same random events, at least COUNT of connections and as many of sockets, and the
first difference is shown. Of sockets it also checks what must hold by itself (watch.py). Each seed gives its own events, the
same in each run.

    tests/tcp/compare.py --counts SEED COUNT     prints how often each state meets each rule of the RFC
    tests/tcp/compare.py --faults SEED COUNT     shows that each damaged copy of the model differs from it
    tests/tcp/compare.py --answers < LINES       prints the answers of the model to lines for the program
"""
import collections
import functools
import multiprocessing
import pathlib
import shutil
import subprocess
import sys

sys.path.append(str(pathlib.Path(__file__).resolve().parents[1] / "frames"))
import faults  # noqa: E402
import model  # noqa: E402
import option_faults  # noqa: E402
import rules  # noqa: E402
from dice import Random  # noqa: E402
from lines import event_of, happens, line_of, parsed  # noqa: E402
from schedules import Schedule  # noqa: E402
from socket_model import Socket  # noqa: E402
from socket_schedules import SocketSchedule  # noqa: E402
from watch import Watch  # noqa: E402

# Events of a schedule after its first ones.
LENGTH = 150
# How many lines before a difference are shown.
BEFORE = 12
# The first events of an endpoint, and the answers.
FIRST = {"new": "Closed -", "socket": "Closed - -"}
# The schedules of one run of the program, which has at least so many events, by the end of the seed.
SOCKETS = " sockets"
SCHEDULES, EVENTS = {"": 100, SOCKETS: 25}, 15000


def plans(rng, seed):
    """The schedules of a seed, of connections or of sockets."""
    is_timed = seed.endswith(SOCKETS)
    for _ in range(SCHEDULES[SOCKETS if is_timed else ""]):
        yield (SocketSchedule if is_timed else Schedule)(rng, LENGTH)


def schedule(plan, counts):
    """The lines and the answers of both endpoints of a schedule, each from its first event to its last."""
    lines, answers = ([], []), ([], [])
    for end, name, *operands in plan.events():
        one = plan.ends[end]
        answer = FIRST.get(name)
        if not answer:
            before = one.state
            returned, answer = happens(one, name, operands)
            plan.sent(end, returned)
            counts.update((before, rule) for rule in one.met)
        lines[end].append(line_of(name, operands))
        answers[end].append(answer)
    return lines, answers


def part(seed):
    """The lines and the answers of the schedules of a seed, and how often each state met each rule."""
    rng, counts = Random(seed), collections.Counter()
    lines, answers = [], []
    for plan in plans(rng, seed):
        for more_lines, more_answers in zip(*schedule(plan, counts)):
            lines += more_lines
            answers += more_answers
    return lines, answers, counts


def difference(lines, ours, theirs):
    """The first answer that differs, with the lines before it; None if there is none."""
    for at, (one, other) in enumerate(zip(ours, theirs)):
        if one != other:
            first = max(0, at - BEFORE)
            before = "".join(f"{line}\n    {answer}\n" for line, answer in zip(lines[first:at], ours[first:at]))
            return f"{before}line {at + 1}: {lines[at]}\nthe model:   {one}\nthe program: {other}"
    return None if len(ours) == len(theirs) else f"{len(ours)} answers of the model, {len(theirs)} of the program"


def answers_of(program, lines):
    """What the program prints for these lines."""
    text = "".join(f"{line}\n" for line in lines)
    return subprocess.run([program], input=text, stdout=subprocess.PIPE, text=True, check=True).stdout.splitlines()


def broken(lines, answers):
    """What must hold of sockets by itself and does not; None if there is nothing."""
    watch = None
    for line, answer in zip(lines, answers):
        name, operands = event_of(line)
        if name == "socket":
            watch = Watch()
        try:
            watch.sees(name, operands, parsed(answer))
        except AssertionError as error:
            return f"{line}\n    {answer}\n{error}"
    return None


def compared(program, seed):
    """How many events of a seed were compared, and the first difference, or what is wrong by itself."""
    lines, answers, _ = part(seed)
    theirs = answers_of(program, lines)
    found = difference(lines, answers, theirs)
    return len(lines), found or seed.endswith(SOCKETS) and broken(lines, theirs)


def seeds(seed, count, kind=""):
    """The seeds of so many events."""
    return [f"{seed}.{at}{kind}" for at in range(-(-count // EVENTS))]


def compare(program, seed, count):
    total = 0
    named = seeds(seed, count) + seeds(seed, count, SOCKETS)
    compared_part = functools.partial(compared, program)
    with multiprocessing.Pool() as pool:
        for each, (events, found) in zip(named, pool.imap(compared_part, named)):
            if found:
                sys.exit(f"seed {each}\n{found}")
            total += events
    print(f"{total} events, no difference")


def is_found(fault, every):
    return any(is_noticed(fault, seed) for seed in every)


def is_noticed(fault, seed):
    """Whether the damaged copy answers an event of the seed otherwise."""
    rng = Random(seed)
    for plan in plans(rng, seed):
        ends = [None, None]
        for end, name, *operands in plan.events():
            if name in FIRST:
                ends[end] = fault(*operands)
                continue
            returned, answer = happens(plan.ends[end], name, operands)
            plan.sent(end, returned)
            if happens(ends[end], name, operands)[1] != answer:
                return True
    return False


def try_faults(seed, count):
    # Faults of sockets show in fewer schedules.
    of_sockets = faults.SOCKET_FAULTS + option_faults.OPTION_FAULTS
    for found, every in ((faults.FAULTS, seeds(seed, count)), (of_sockets, seeds(seed, 8 * count, SOCKETS))):
        with multiprocessing.Pool() as pool:
            noticed = pool.map(functools.partial(is_found, every=every), found, 1)
        if not all(noticed):
            sys.exit("not noticed: " + " ".join(fault.__doc__ for fault, is_one in zip(found, noticed) if not is_one))
    print(f"{len(faults.FAULTS)} faults and {len(of_sockets)} of sockets, all noticed")


def print_counts(seed, count):
    """Prints the tables. Fails if a state never meets a rule of the RFCs, or meets one that it cannot."""
    wrong = table(rules.RULES, seeds(seed, count)) + table(rules.SOCKET_RULES, seeds(seed, count // 2, SOCKETS))
    if wrong:
        sys.exit("\n".join(wrong))


def table(named, every):
    """Prints how often each state meets these rules with the seeds. Returns what is wrong."""
    with multiprocessing.Pool() as pool:
        counts = sum(pool.imap(counted, every), collections.Counter())
    print(f"{'':36}" + "".join(f"{state:>13}" for state in model.STATES))
    for rule in named:
        print(f"{rule:36}" + "".join(f"{counts[state, rule] or '':>13}" for state in model.STATES))
    return [f"{state}, {rule}: {counts[state, rule]}" for rule, state in rules.wrong_cells(named, counts)]


def counted(seed):
    return part(seed)[2]


def print_answers():
    one = None
    for line in sys.stdin:
        name, operands = event_of(line)
        if name in FIRST:
            one = (model.Connection if name == "new" else Socket)(*operands)
            print(FIRST[name])
        else:
            print(happens(one, name, operands)[1])


def main():
    if sys.argv[1:] == ["--answers"]:
        print_answers()
        return
    if len(sys.argv) != 4 or not (sys.argv[2] + sys.argv[3]).isdecimal():
        sys.exit(__doc__.strip())
    seed, count = int(sys.argv[2]), int(sys.argv[3])
    if sys.argv[1] == "--faults":
        try_faults(seed, count)
    elif sys.argv[1] == "--counts":
        print_counts(seed, count)
    elif not shutil.which(sys.argv[1]):
        sys.exit(f"there is no program {sys.argv[1]}")
    else:
        compare(sys.argv[1], seed, count)


if __name__ == "__main__":
    main()
