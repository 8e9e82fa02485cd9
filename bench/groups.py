"""Summarizes the table of bench/calls.c: a row per group of calls, beside this project's goals."""
import re
import statistics

from chart import cells_of

# A group: its name, the calls in it, and the goals for floor / ours: the median, and the least. A call is in
# the first group that has it.
GROUPS = [
    ("checksum", r"checksum", 0.90, None),
    ("read a frame", r"read (ARP|IPv4|IPv6|(UDP|TCP|ICMP)/.*)", 0.80, 0.60),
    ("read mixed frames", r"read mixed frames.*", None, None),
    ("read a neighbour solicitation", r"read solicitation", 0.50, None),
    ("read a link type", r"read link.*", None, None),
    ("read TCP options", r"read options .*", 0.80, 0.60),
    ("read a frame and TCP options", r"read frame, options .*", 0.80, 0.60),
    ("emit one layer", r"emit (?!frame|ICMP error).*", 0.90, 0.70),
    ("emit a whole frame", r"(emit|wrap) frame .*", 0.90, 0.70),
    ("rebuild", r"rebuild .*", 0.80, 0.60),
    ("forward, translate", r"(forward|translate) .*", 0.90, None),
    ("NAT", r"NAT .*", None, None),
    ("answer, ICMP error", r"(answer|emit ICMP error).*", 0.83, None),
    ("edit a packet", r"(set|fill|clamp) .*", 0.50, None),
    ("print a frame", r"print frame .*", 0.55, None),
    ("an address in a block", r".*contains.*", None, None),
    ("parse texts", r"parse .*", None, None),
    ("print texts", r"print .*", None, None),
]


def rows(table):
    """(call, speed, floor / ours) of each line of a Markdown table; a ratio that it lacks is None."""
    for cells in cells_of(table):
        yield cells[0], *(float(cell) if cell else None for cell in cells[5:7])


def group_of(call):
    """The first group with this call. None for a call that does nothing."""
    return next((name for name, pattern, *_ in GROUPS if re.fullmatch(pattern, call)), None)


def shown(number):
    return "" if number is None else f"{number:.2f}"


def range_of_speeds(found):
    speeds = [speed for _, speed, _ in found if speed is not None]
    return f"{min(speeds):.2f} to {max(speeds):.2f}" if speeds else ""


def summary(table):
    """In Markdown, a row per group. Below it, the calls below the least goal and those slower than the reference."""
    found = [row for row in rows(table) if group_of(row[0])]
    lines = ["| Group | `speed` | `floor / ours`, median | least | goal, median | least |"]
    lines.append("|---|---|---|---|---|---|")
    for name, _, median, least in GROUPS:
        group = [row for row in found if group_of(row[0]) == name]
        ratios = [ratio for *_, ratio in group if ratio is not None]
        seen = [statistics.median(ratios), min(ratios)] if ratios else [None, None]
        cells = [name, range_of_speeds(group), *map(shown, [*seen, median, least])]
        lines.append(f"| {' | '.join(cells)} |")
    lines.append("")
    for name, _, _, least in GROUPS:
        if least is not None:
            missed = [call for call, _, ratio in found if group_of(call) == name and ratio and ratio < least]
            lines.append(f"- {name}: {', '.join(dict.fromkeys(missed)) or 'none'}.")
    slower = {call: speed for call, speed, _ in found if speed is not None and speed < 1}
    lines.append(f"- slower than the reference: {', '.join(slower) or 'none'}.")
    return "\n".join(lines)
