"""The list docs/audit/CALLS.md: where each call of include/ip_wire.h is judged, counted and wrapped, or why it is not.

tests/docs/c_calls.py compares it, and writes it with --write. What stands in a column is found in the sources. The reasons are
here. A call that is not in a column needs one, and a call that is in it has none.
"""
import glob
import os
import re
import subprocess
import sys

TOP = os.path.dirname(os.path.dirname(os.path.dirname(os.path.abspath(__file__))))
sys.path += [os.path.join(TOP, "tools"), os.path.join(TOP, "tests/counts")]
import record  # noqa: E402
from from_header import HEADER, calls_of, inline_calls_of, read  # noqa: E402

PAGE = "docs/audit/CALLS.md"
COLUMNS = ("judge", "counts", "Rust", "Python", "Go")
# A letter, the reason that it stands for, and for each column the calls without `lk_` that are not there because of it.
REASONS = [
    ("A", "The package has the call with `_as`, which serves both.", {
        "Python": "clamp_mss set_addr set_bytes set_port", "Go": "clamp_mss set_addr set_bytes set_port"}),
    ("C", "It is called once for a connection.", {
        "counts": "connection_abort connection_close connection_connect connection_init connection_listen"}),
    ("E", "The names of an enumeration or of flags stand for the call.", {
        "Rust": "failure_name reason_name rejection_name tcp_flag_name", "Python": "reason_name rejection_name tcp_flag_name"}),
    ("F", "It returns a string of a table.", {
        "counts": "ethertype_name failure_name protocol_name reason_name rejection_name tcp_flag_name"}),
    ("H", "It is a function of the header, and for C only.", {
        "counts": "append is_valid", "Rust": "append", "Python": "append", "Go": "append"}),
    ("K", "`check` of a frame does the same, and says what is wrong.", {"Rust": "is_valid", "Python": "is_valid", "Go": "is_valid"}),
    ("O", "A program calls it once.", {"counts": "cpu_supported version"}),
    ("P", "It runs what the counted call `lk_read_captured` runs after the Ethernet header.", {"counts": "read_captured_packet"}),
    ("R", "It is called for a timer, an ICMP error or an MLD message, not for each packet.", {
        "counts": "connection_too_big emit_mld_report expire_reassembly find_mld_query shrink_reach"}),
    ("S", "It takes fewer than 100 instructions.", {
        "counts": "add_seq compare_seq connection_next_timeout connection_at_eof connection_state connection_unacked emit_ethernet"
                  " is_multicast is_unicast next_ipv6_header make_reply subtract_seq tcp_header_len"}),
    ("T", "The call by a table serves both: the package makes a table, or gives one without cells.", {
        "Rust": "check_source choose_route", "Go": "check_source choose_route"}),
    ("U", "Types of the standard library do this.", {"Rust": "is_multicast print_addr print_endpoint"}),
    ("V", "It runs the function of the counted call without `_as`.", {
        "counts": "clamp_mss_as set_addr_as set_bytes_as set_port_as"}),
    ("W", "A table saves less time than a call from Python takes.", {
        "Python": "check_source_by_table choose_route_by_table make_route_table"}),
]
HEAD = """# Calls of the C library

This page is for people who change calls of the C library. `tests/docs/c_calls.py --write` makes it. For each call of
`include/ip_wire.h` it says:

| Column | Contents |
|---|---|
| Judge | the file of `tests/judge` that compares the call with its model, or with what the header says |
| Counts | the first row of the call in `tests/counts/counts.txt`, which records its instructions |
| Rust, Python, Go | the file of `bindings/` that calls it |

A letter stands for a [reason](#reasons) why a call is missing there. `make test` fails if a call has
neither. A new reason goes into the list in `tests/docs/call_list.py`.

"""


def expanded(source):
    """A file of C after the preprocessor, with the files of this repository that it includes, but for the header."""
    output = subprocess.run(["cc", "-E", "-Iinclude", source], cwd=TOP, check=True, stdout=subprocess.PIPE).stdout.decode("utf-8")
    lines, is_ours = [], False
    for line in output.split("\n"):
        marker = re.match(r'# \d+ "([^"]*)"', line)
        if marker:
            name = os.path.relpath(os.path.realpath(os.path.join(TOP, marker[1])), os.path.realpath(TOP))
            is_ours = name.startswith(("tests/", "bench/"))
        elif is_ours:
            lines.append(line)
    return "\n".join(lines)


def judged():
    """The file of the judge that tests each call with random arguments. One beside a model is tested where cases call both."""
    paths = [path for path in sorted(glob.glob(f"{TOP}/tests/judge/*.c")) if not re.search("faults|worked", path)]
    texts = {os.path.basename(path): expanded(path) for path in paths}
    for file, text in texts.items():
        for name in re.findall(r'call = {"(lk_\w+)"', text):
            both = rf"\bboth_{name[len('lk_'):]}\s*\("
            if not re.search(both, text):
                yield name, file
            yield from ((name, other) for other in sorted(texts) if other != file and re.search(both, texts[other]))


def counted():
    """The first recorded row of each call."""
    text = expanded("tests/counts/calls.c")
    _, *parts = re.split(r"\bstatic \w+ (\w+)\(const struct library \*library,", text)
    bodies = dict(zip(parts[::2], parts[1::2]))
    functions = {name: set(re.findall(r"library->(\w+)", body)) for name, body in bodies.items()}
    for name, body in bodies.items():
        functions[name] |= set().union(*(functions[other] for other in functions if re.search(rf"\b{other}\(library", body)))
    rows = re.findall(r'{"([^"]+)", \w+, (\w+)}', text)
    for name, parse, _, output in re.findall(r'{"[^"]*", "([^"]+)", ([^,{}]+), ([^,{}]+), ([^,{}]+)}', text):
        rows += [(f"parse {name}", parse), (f"print {name}", output)]
    recorded = {name for name, _ in record.read(f"{TOP}/{record.PATH}")}
    for row, function in rows:
        if any(name == row or name.startswith(row + " ") for name in recorded):
            yield from (("lk_" + call, row) for call in sorted(functions.get(function, ())))


def wrapped(pattern, left_out, comment, call):
    """The first file of a package that has each call. `call` is how it has them."""
    for path in sorted(glob.glob(f"{TOP}/{pattern}")):
        name = os.path.basename(path)
        if not re.search(left_out, name):
            yield from ((found, name) for found in re.findall(call, re.sub(comment, "", read(path), flags=re.M)))


def found():
    """For each column where each call is."""
    ways = {
        "judge": judged(),
        "counts": counted(),
        "Rust": wrapped("bindings/rust/src/*.rs", "^declarations|_tests", r"//.*", r"(?<!fn )\b(lk_\w+)\b"),
        "Python": wrapped("bindings/python/ip_wire/*.py", "^_declarations", r"#.*", r"\b(lk_\w+)\b"),
        "Go": wrapped("bindings/go/*.go", "_test", r"^\s*//.*", r"\b(lk_\w+)\("),
    }
    # The first place of a call stays.
    return {column: dict(reversed(list(places))) for column, places in ways.items()}


def reasons():
    """The letter of each column and call that has a reason."""
    given = ((letter, column, names.split()) for letter, _, columns in REASONS for column, names in columns.items())
    return {(column, "lk_" + name): letter for letter, column, names in given for name in names}


def faults(calls, places, letters):
    """What the list lacks, and what it has too much."""
    for column in COLUMNS:
        for name in calls:
            is_there, has_reason = name in places[column], (column, name) in letters
            if not is_there and not has_reason:
                yield f"{name} is not in {column}, and tests/docs/call_list.py has no reason"
            if is_there and has_reason:
                yield f"{name} is in {column}: {places[column][name]}. So tests/docs/call_list.py needs no reason"
    yield from (f"tests/docs/call_list.py: there is no call {name}" for _, name in letters if name not in calls)


def page(calls, places, letters):
    lines = ["| Call | Judge | Counts | Rust | Python | Go |", "|---|---|---|---|---|---|"]
    for name in calls:
        cells = [places[column].get(name) or letters.get((column, name), "?") for column in COLUMNS]
        lines.append(f"| {' | '.join([f'`{name}`', *cells])} |")
    lines += ["", "## Reasons", "", "| Letter | Reason |", "|---|---|"]
    lines += [f"| {letter} | {reason} |" for letter, reason, _ in REASONS]
    return HEAD + "\n".join(lines) + "\n"


def check(is_written):
    """Writes the page, or compares it. Yields what is wrong."""
    header = read(f"{TOP}/{HEADER}")
    calls = [*(name for name, *_ in calls_of(header)), *inline_calls_of(header)]
    places, letters = found(), reasons()
    yield from faults(calls, places, letters)
    text, path = page(calls, places, letters), f"{TOP}/{PAGE}"
    if is_written:
        with open(path, "w", encoding="utf-8") as file:
            file.write(text)
    elif not os.path.exists(path) or read(path) != text:
        yield f"{PAGE} is not as tests/docs/c_calls.py --write writes it"
