#!/usr/bin/env python3
"""Names the rows of docs/PERF.md and docs/speed.svg whose instructions have changed since their times were measured.

    tests/docs/speed.py           the status is 1 if a row does not say that it has changed
    tests/docs/speed.py --write   says so in these rows

`make bench` writes the recorded instructions of each call beside its times. Where the record (tests/counts) has changed
since by more than 5 %, the row says what it has now, as in `268, now 301`. A new run of `make bench` ends that.
"""
import re
import sys

sys.path.append("tests/counts")
import record  # noqa: E402

# Where the instructions of a row are, after its call and its bytes.
COUNT = r"(?P<then>\d+)(?P<now>, now (?P<later>\d+))?"
PLACES = {
    "docs/PERF.md": re.compile(rf"^(?P<front>\| (?P<call>[^|*]+?)(?: \*)? \| (?P<size>\d+) \|.*\| ){COUNT}(?= \|$)", re.M),
    "docs/speed.svg": re.compile(rf"(?P<front>>(?P<call>[^<>]+), (?P<size>\d+) bytes</text>\n<text[^>]*>){COUNT}(?= instructions<)"),
}


def has_changed(count, other):
    return abs(count - other) * 20 > count


def is_right(row, count):
    """Whether a row says that its instructions have changed, if they have."""
    if not row["later"]:
        return not has_changed(int(row["then"]), count)
    return has_changed(int(row["then"]), count) and not has_changed(int(row["later"]), count)


def renewed(row, count):
    now = f", now {count}" if has_changed(int(row["then"]), count) else ""
    return f"{row['front']}{row['then']}{now}"


def main(words):
    if words not in ([], ["--write"]):
        sys.exit(__doc__.strip())
    counts, found = record.read(), []

    def recorded(row):
        return counts.get((row["call"], int(row["size"])), [0])[0]

    for path, place in PLACES.items():
        with open(path, encoding="utf-8") as file:
            text = file.read()
        rows = [*place.finditer(text)]
        if not rows:
            found.append(f"{path}: no row has instructions")
        found += [f"{path}: {row['call']}, {row['size']} bytes: {row['then']} instructions when measured, {recorded(row)} now"
                  for row in rows if not is_right(row, recorded(row))]
        if words:
            with open(path, "w", encoding="utf-8") as file:
                file.write(place.sub(lambda row: renewed(row, recorded(row)), text))
    if found and not words:
        print(*found, "Run make bench again, or tests/docs/speed.py --write, which says so in these rows.", sep="\n")
        return 1
    return 0


if __name__ == "__main__":
    sys.exit(main(sys.argv[1:]))
