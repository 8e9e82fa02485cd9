#!/usr/bin/env python3
"""Checks how much stack the calls of the C library take: tests/counts/stack.py [LIBRARY.so] [--print]

The bound of a function is read from its machine code: its return address, all registers that it pushes, all that it takes off
the stack pointer, and the largest bound of a function to which it calls or jumps. So it holds for every input. The library
calls nothing by a pointer, has no recursion but in the calls that sort, and no array of a variable length: else this fails. What
the functions of libc take is not counted. Each call must stay within the bound that `docs/C.md` and `README.md` promise.
"""
import os
import re
import subprocess
import sys

TOP = os.path.dirname(os.path.dirname(os.path.dirname(os.path.abspath(__file__))))
SORTS = {"lk_index_routes", "lk_make_route_table"}
PAGES = ("docs/C.md", "README.md")
PROMISE = re.compile(r"at most ([\d,]+) bytes of stack")
LIBC = {"memcpy", "memmove", "memset", "memcmp", "bcmp", "abort"}  # what rustc makes may abort
CODE = re.compile(r"^ *([0-9a-f]+):\t(?:(?:cs|data16|notrack|bnd) )*(\w+) *(.*)$")
START = re.compile(r"^([0-9a-f]+) <(.+)>:$")
TARGET = re.compile(r"^([0-9a-f]+) <")
OUTSIDE = re.compile(r"(?:^| # )[0-9a-f]+ <(\w+)@")
RELATIVE = re.compile(r"^([0-9a-f]+) .* R_X86_64_RELATIVE +([0-9a-f]+)$", re.M)
BY_SLOT = re.compile(r"# ([0-9a-f]+) <_GLOBAL_OFFSET_TABLE_")


class Fault(Exception):
    pass


class Recursion(Fault):
    pass


def output_of(*command):
    return subprocess.run(command, check=True, stdout=subprocess.PIPE, universal_newlines=True).stdout


class Function:
    """A function: its name, the addresses of its instructions, and of each the operation and the operands."""

    def __init__(self, name):
        self.name, self.places, self.code = name, set(), []


def functions(library):
    """The functions of a library by their addresses. A call by a slot of the table of addresses has its target as operand."""
    slots = {int(slot, 16): place for slot, place in RELATIVE.findall(output_of("readelf", "-rW", library))}
    found, function = {}, None
    for line in output_of("objdump", "-d", "--no-show-raw-insn", library).splitlines():
        start, code = START.match(line), CODE.match(line)
        if start:
            function = found[int(start[1], 16)] = Function(start[2])
        elif code:
            slot = BY_SLOT.search(code[3])
            place = slot and slots.get(int(slot[1], 16))
            function.places.add(int(code[1], 16))
            function.code.append((code[2], f"{place} <by a slot>" if place else code[3]))
    return found


def number(text):
    return int(text, 16)


def own_bytes(function):
    """The most bytes that a function takes by itself, with its return address."""
    total = 8
    for operation, operands in function.code:
        if operation.startswith("push"):
            total += 8
        elif operation == "sub" and operands.endswith(",%rsp"):
            taken = re.match(r"\$0x([0-9a-f]+),", operands)
            if not taken:
                raise Fault(f"{function.name}: takes a variable number of bytes: sub {operands}")
            total += number(taken[1]) if len(taken[1]) < 9 else 0  # 2^64 less a number adds it
        elif operation == "add" and re.match(r"\$0xf{8,}[0-9a-f]+,%rsp", operands):
            total += 2**64 - number(operands[3:].split(",")[0])
        elif operation == "and" and operands.endswith(",%rsp"):
            total += 2**64 - number(operands[3:].split(",")[0])
        elif operation == "lea" and operands.endswith(",%rsp") and re.match(r"-0x([0-9a-f]+)\(%rsp\)", operands):
            total += number(re.match(r"-0x([0-9a-f]+)", operands)[1])
    return total


def callees(function, known):
    """The addresses of the functions to which a function calls or jumps."""
    for operation, operands in function.code:
        is_call = operation.startswith("call")
        if not is_call and not operation.startswith("j"):
            continue
        target, outside = TARGET.match(operands), OUTSIDE.search(operands)
        place = target and int(target[1], 16)
        if outside and outside[1] in LIBC:
            continue
        if place in known and (is_call or place not in function.places):
            yield place
        elif is_call or outside or target and place not in function.places:
            raise Fault(f"{function.name}: {operation} {operands}")


def bounds(code):
    """The most bytes of stack that each call of the library takes, with the functions that it calls."""
    known, open_, found = {}, [], {}

    def bound(place):
        if place in open_:
            raise Recursion(f"{code[place].name}: calls itself by {code[open_[-1]].name}")
        if place not in known:
            open_.append(place)
            below = [bound(other) for other in callees(code[place], code)]
            known[place] = own_bytes(code[place]) + max(below, default=0)
            open_.pop()
        return known[place]

    for place, function in code.items():
        if function.name.startswith("lk_"):
            try:
                found[function.name] = bound(place)
            except Recursion:
                if function.name not in SORTS:
                    raise
                open_.clear()
    return found


def promise_of(page):
    with open(os.path.join(TOP, page), encoding="utf-8") as file:
        return int(PROMISE.search(file.read())[1].replace(",", ""))


def main(words):
    library = next((word for word in words if word != "--print"), os.path.join(TOP, "out/lib/libip_wire.so"))
    promise = min(promise_of(page) for page in PAGES)
    try:
        found = bounds(functions(library))
    except Fault as fault:
        print(f"tests/counts/stack.py: {fault}")
        return 1
    order = sorted(found.items(), key=lambda pair: (-pair[1], pair[0]))
    if "--print" in words:
        print("".join(f"{taken:6} {name}\n" for name, taken in order), end="")
    over = [f"{name} takes {taken} bytes of stack, and the pages promise {promise}\n" for name, taken in order if taken > promise]
    print("".join(over), end="")
    print(f"{len(found)} calls, at most {order[0][1]} bytes of stack ({order[0][0]})")
    return 1 if over or not found else 0


if __name__ == "__main__":
    sys.exit(main(sys.argv[1:]))
