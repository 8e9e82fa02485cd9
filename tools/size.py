#!/usr/bin/env python3
"""Prints how large each crate is, in Markdown: tools/size.py

All numbers are lines, but for the number of functions. `src` is without tests, and `comments` is the share of its lines that
are comments or doc lines. The lines of a function are those of its body. `laws` are functions whose body is empty.
"""
import pathlib
import re
import statistics
import sys

from sources import Sources

TOP = pathlib.Path(__file__).resolve().parents[1]
COLUMNS = ("crate", "src", "comments", "functions", "median", "p90", "longest", "laws", "specs", "proofs", "tests")
IS_TEST = re.compile(r"/tests(/|\.rt$)")


def functions(items):
    for item in items:
        if item.kind == "fn" and item.has_body:
            yield item
        yield from functions(item.items)


def lines(paths):
    return [line for path in paths for line in path.read_text(encoding="utf-8").splitlines()]


def row(crate, only_tests):
    """The figures of a crate, in the order of the columns from `src` on."""
    folder = TOP / "crates" / crate.name
    sources = sorted((folder / "src").rglob("*.rt"))
    tests = [path for path in sources if only_tests or IS_TEST.search(str(path.relative_to(folder)))]
    code = lines(path for path in sources if path not in tests)
    found = [] if only_tests else [it for module in crate.modules.values() for it in functions(module.items)]
    bodies = sorted(it.body_lines for it in found if it.body)
    return {
        "src": len(code),
        "comments": f"{100 * sum(line.lstrip().startswith('//') for line in code) // max(1, len(code))} %",
        "functions": len(bodies),
        "median": statistics.median_low(bodies) if bodies else 0,
        "p90": bodies[9 * len(bodies) // 10] if bodies else 0,
        "longest": max(bodies, default=0),
        "laws": len(found) - len(bodies),
        "specs": len(lines((folder / "specs").rglob("*.antt"))),
        "proofs": len(lines((folder / "proofs").rglob("*.antt"))),
        "tests": len(lines(tests)),
    }


def main():
    print("| " + " | ".join(COLUMNS) + " |")
    print("|" + "---|" * len(COLUMNS))
    total = dict.fromkeys(("src", "functions", "laws", "specs", "proofs", "tests"), 0)
    for crate in Sources(TOP).crates.values():
        figures = row(crate, only_tests=crate.is_for_tests)
        total = {name: total[name] + figures[name] for name in total}
        print(f"| {crate.name} |", *(f"{figures[name]} |" for name in COLUMNS[1:]))
    print("| all |", *(f"{total.get(name, '')} |" for name in COLUMNS[1:]))


if __name__ == "__main__":
    sys.exit(main())
