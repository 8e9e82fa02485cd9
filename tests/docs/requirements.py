#!/usr/bin/env python3
"""Checks docs/audit/REQUIREMENTS.md against the sources: tests/docs/requirements.py [TOP]

Each statement and test that the tables name must exist, and each row must name one. Each wrong body must have its control.
Also, no library may name what allocates, each public type of the libraries for Rattle must have Debug, and the crates above
`ip_wire` name none below it. What is wrong is printed, and the status is 1 then. TOP is the top of the repository.
"""
import glob
import itertools
import os
import re
import sys

TOP = os.path.dirname(os.path.dirname(os.path.dirname(os.path.abspath(__file__))))
sys.path.append(os.path.join(TOP, "tools"))
from sources import Sources  # noqa: E402

DOCUMENT = "docs/audit/REQUIREMENTS.md"
# The crates with test functions, by the first word of their names in the tables.
TESTS = {
    **{kind: f"test_{kind}/src/tests" for kind in ("wire", "apps", "fragments")}, "frames": "ip_frames/src/tests",
    **{kind: f"test_tcp/src/tests/{kind}" for kind in ("tcp", "connection", "congestion", "options", "socket")},
}
LIBRARY = re.compile(r"net_base|ip_wire|wire_\w+")
# The libraries whose types a Rattle program uses, also those of `wire_*` that `ip_wire` does not export. The types of the
# crates for C are its structs and numbers.
SHOWN = re.compile(r"net_base|tcp_stream|(?:ip|app|wire)_\w+")
# The crates that use the layer through `ip_wire` only. They may name the formats beside `ip_wire` too. Crates with tests of
# the layer name what they test, and those of TCP name its options, so that they are proved early.
ABOVE = re.compile(r"ip_(?!wire\b)\w+|app_\w+|promises\w*|test_(?!wire\b|support\b)\w+")
BESIDE = ("wire_icmp", "wire_link", "wire_extensions", "wire_tcp_options")
TEST_FUNCTION = re.compile(r"#\[test\]\n(?: *#.*\n)* *fn (\w+)\(")
# A function that allocates is given an allocator, and returns one of these types.
ALLOCATES = re.compile(r"\b(alloc|AllocError|HostRuntime|Vec|String|Box|Rc|Arc)\b")


def read(path):
    with open(path, encoding="utf-8") as file:
        return file.read()


def expanded(name):
    """The names that `a_{b,c}` stands for."""
    parts = re.split(r"\{([^}]*)\}", name)
    choices = [part.split(",") if at % 2 else [part] for at, part in enumerate(parts)]
    return ["".join(choice) for choice in itertools.product(*choices)]


class Statements:
    """The names of all statements, as the tables write them."""

    def __init__(self, sources):
        self.calls, self.promises, self.definitions, self.types = {}, set(), set(), {}
        for crate in sources.crates.values():
            for module in crate.modules.values():
                for item in module.items:
                    self.add(crate.name, module, item)
            self.definitions |= {f"{path[-1]}.{d.name}" for path, module in crate.specs.items() for d in module.items}
        crates = (
            "ip_wire", "wire_icmp", "app_nat", "app_host", "app_edit", "app_fragment", "tcp_stream", "app_connection",
            "app_congestion", "app_options", "app_socket", "c_socket", "c_read", "c_write", "c_icmp",
        )
        self.laws = {name[-1] for crate in crates
                     for name, target in sources.exports(crate).items() if name[0] == "laws" and name[-1][0].islower()}

    def add(self, crate, module, item):
        if item.kind == "type":
            view = re.search(r"= (\w+View)<", item.text)
            if view:
                self.types.setdefault(view.group(1), []).append(item.name)
        elif item.kind == "fn":
            for owner in (crate, module.path[-1] if module.path else ""):
                self.add_call(owner, item)
        elif item.kind == "impl" and item.trait():
            trait = item.trait().replace("fmt::", "")
            if any(inner.kind == "ghost" or inner.clauses for inner in item.items):
                self.promises.add(f"{trait} for {item.owner()}")
        elif item.kind == "impl":
            for owner in [item.owner(), *self.types.get(item.owner(), [])]:
                for inner in item.items:
                    self.add_call(owner, inner)

    def add_call(self, owner, item):
        if item.kind == "fn" and item.visibility == "pub":
            names = {clause.name for clause in item.clauses if clause.kind.startswith("ensures")}
            self.calls.setdefault(f"{owner}::{item.name}", set()).update(names)

    def has(self, name):
        """Whether there is such a law, `impl` with a promise, definition, type with such calls, or call with a promise (of
        this name)."""
        if name.startswith("law "):
            return name[len("law ") :] in self.laws
        if " for " in name:
            return name in self.promises
        call, _, clause = name.partition(".")
        if "::" not in call:
            has_calls = any(it.startswith(name + "::") and names for it, names in self.calls.items())
            return name in self.definitions or has_calls
        return clause in self.calls.get(call, ()) if clause else bool(self.calls.get(call))


def test_functions(path):
    """The test functions of a file below src/tests, with or without the first word of its crates."""
    kind, _, file = path.partition("/")
    folders = [TESTS[kind]] if file and kind in TESTS else sorted(TESTS.values())
    paths = [p for folder in folders for p in glob.glob(f"crates/{folder}/{file or kind}.rt")]
    found = [TEST_FUNCTION.findall(read(p)) for p in paths]
    return found[0] if len(found) == 1 else []


def is_test(name):
    """Whether there is a test of this name, or a file with test functions. `worked/FILE/NAME` is a function of the judge's
    worked calls, which another one calls."""
    kind, _, rest = name.partition("/")
    if kind == "cases":
        return os.path.exists(f"tests/data/cases/{rest}.hex") and os.path.exists(f"tests/data/cases/{rest}.txt")
    if kind == "calls":
        return os.path.exists(f"tests/data/calls/{rest}.call") and os.path.exists(f"tests/data/calls/{rest}.txt")
    if kind == "worked":
        file, _, function = rest.partition("/")
        path = f"tests/judge/worked_{file}.c"
        return os.path.exists(path) and all(re.search(rf"^{it} *{function}\(", read(path), re.M) for it in ("static void", "   "))
    if name.startswith("wrong "):
        *crate, edit = name[len("wrong ") :].split("/")
        paths = glob.glob(f"crates/{crate[0] if crate else '*'}/edits.txt")
        return any(re.search(f"^name: +{edit}$", read(path), re.M) for path in paths)
    if os.path.exists(name):
        return True
    module, _, function = name.rpartition("::")
    if os.path.exists(module):
        return function in TEST_FUNCTION.findall(read(module))
    file, _, function = name.rpartition("/")
    return bool(test_functions(name)) or function in test_functions(file)


def rows(document):
    """The rows of the tables with their line numbers: requirement, statements and tests. A row without a requirement
    continues the one above it."""
    found = []
    for number, line in enumerate(document.split("\n"), 1):
        cells = [cell.strip() for cell in re.split(r" \|(?= |$)", line.strip().lstrip("|"))][:-1]
        if not line.startswith("| ") or len(cells) != 3 or cells[1] == "Statements":
            continue
        names = [[n for span in re.findall(r"`([^`]+)`", cell) for n in expanded(span)] for cell in cells[1:]]
        if cells[0]:
            found.append((number, cells[0], *names))
        else:
            found[-1][2].extend(names[0])
            found[-1][3].extend(names[1])
    return found


def allocations(sources):
    """The places of the libraries that name what allocates, but for tests, which end a module."""
    for crate in sources.crates.values():
        for module in crate.modules.values() if LIBRARY.fullmatch(crate.name) else []:
            for number, line in enumerate(sources.read(module.file).partition("#[cfg(test)]")[0].split("\n"), 1):
                found = ALLOCATES.search(re.sub(r'//.*|"(?:\\.|[^"\\])*"', "", line))
                if found and not line.startswith("ghost use"):
                    yield f"{module.file}:{number}: {found.group()}: a library takes no memory"


def types_without_debug(sources):
    """The public types of the libraries for Rattle that neither derive nor implement Debug."""
    shown, types = set(), {}
    for crate in sources.crates.values():
        for path, module in crate.modules.items():
            for item in module.items:
                if item.kind in ("struct", "enum"):
                    types[(crate.name, *path, item.name)] = f"{module.file}: {item.name}"
                    if any(re.match(r"derive\(.*\bDebug\b", attribute) for attribute in item.attributes):
                        shown.add((crate.name, item.name))
                elif item.kind == "impl" and item.trait() in ("Debug", "fmt::Debug"):
                    shown.add((crate.name, item.owner()))
    public = {tuple(path) for name in sources.crates if SHOWN.fullmatch(name) for path in sources.exports(name).values()}
    lacking = sorted(path for path in types if path in public and (path[0], path[-1]) not in shown)
    return [f"{types[path]} has no Debug" for path in lacking]


def wire_crates_named():
    """The lines of crates.txt in which a crate above `ip_wire` names a crate below it."""
    for number, line in enumerate(read("crates.txt").split("\n"), 1):
        name, _, below = line.partition(":")
        if ABOVE.fullmatch(name):
            named = (it for it in below.split() if it.startswith("wire_") and it not in BESIDE)
            yield from (f"crates.txt:{number}: {name} names {it}" for it in named)


def main(top):
    os.chdir(top)
    sources = Sources(".")
    statements = Statements(sources)
    found = rows(read(DOCUMENT))
    wrong = [f"{DOCUMENT}:{number}: no statement and no test" for number, _, *names in found if not names[0] + names[1]]
    for number, _, named, tests in found:
        wrong += [f"{DOCUMENT}:{number}: there is no statement {name}" for name in named if not statements.has(name)]
        wrong += [f"{DOCUMENT}:{number}: there is no test {name}" for name in tests if not is_test(name)]
    named_laws = {name for _, _, named, _ in found for name in named if name.startswith("law ")}
    wrong += [f"{DOCUMENT}: no row names law {name}" for name in sorted(statements.laws) if f"law {name}" not in named_laws]
    wrong += [*allocations(sources), *types_without_debug(sources), *wire_crates_named()]
    print("".join(line + "\n" for line in wrong), end="")
    return 1 if wrong or not found else 0


if __name__ == "__main__":
    sys.exit(main(sys.argv[1] if len(sys.argv) > 1 else TOP))
