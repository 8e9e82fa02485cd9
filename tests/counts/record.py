"""The record of tests/counts/run: what each call executes."""

PATH = "tests/counts/counts.txt"
HEAD = """# A call, its bytes or routes, the instructions that it takes, and its calls of memcpy and the like
# with their bytes (tests/counts/run).
"""
# What a row has, and one in how many may differ; without a number none may.
PARTS = [("instructions", 50), ("calls of libc", None), ("bytes of libc", 50)]


def rows_of(lines):
    """The parts of each row, by its name and size."""
    return {(name, int(size)): [*map(int, parts)] for name, size, *parts in lines}


def read(path=PATH):
    with open(path, encoding="utf-8") as file:
        return rows_of(line.rsplit(None, 1 + len(PARTS)) for line in file if line[0] != "#")


def write(rows, path=PATH):
    with open(path, "w", encoding="utf-8") as file:
        file.write(HEAD)
        file.writelines(f"{name:<38}{size:>8}{count:>9}{calls:>5}{moved:>8}\n"
                        for (name, size), (count, calls, moved) in rows.items())
