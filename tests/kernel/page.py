#!/usr/bin/env python3
"""Runs the commands of docs/ROUTER.md, and compares what they print with the page. Before the last one of the home router
it runs day.py.

tests/kernel/page.py PROGRAMS

PROGRAMS is a folder with the programs router and nat. In the page a command of root follows `#` in a block of a console,
and the lines after it are among those that it prints; `..` stands for any text or lines. Commands after `$` are not run.
A section with a command that is not on the path, or that cannot run in a user namespace, is skipped.
"""
import os
import re
import shutil
import subprocess
import sys
import threading
import time

LATEST, LATEST_OF_DAY = 120, 600  # seconds
DAY = f"ip netns exec client {sys.executable} {os.path.dirname(os.path.abspath(__file__))}/day.py"
END = "the end of a command"
TOOLS = ("ping", "curl", "dnsmasq", "udhcpc", "busybox")


def sections(path):
    """The headings, each with its commands, and those with the lines that the page shows."""
    sections, found, shown, is_console = [], [], [], False
    with open(path, encoding="utf-8") as page:
        for line in map(str.rstrip, page):
            if line.startswith("```"):
                is_console = line == "```console"
            elif not is_console and line.startswith("## "):
                found = []
                sections.append((line[3:], found))
            elif is_console and line[:2] in ("# ", "$ "):
                shown = []
                if line.startswith("# "):
                    found.append((line[2:], shown))
            elif is_console and line != "..":
                shown.append(line.strip())
    return sections


def may_set_groups():
    """Not in a user namespace."""
    with open("/proc/self/setgroups", encoding="ascii") as file:
        return file.read() == "allow\n"


def commands(path):
    """The commands of the sections whose tools are there."""
    for heading, found in sections(path):
        words = {word for command, _ in found for word in re.findall(r"\w+", command)}
        lacking = [f"{tool} is not on the path" for tool in TOOLS if tool in words and not shutil.which(tool)]
        if "dnsmasq" in words and not may_set_groups():
            lacking.append("dnsmasq cannot set its groups")
        if heading == "A home router":
            found.insert(-1, (DAY, ["day: .., 0 wrong, ..", "nat: nat.conf: read again"]))
        if lacking:
            print(f'tests/kernel: skipped: docs/ROUTER.md, "{heading}": {lacking[0]}')
        else:
            yield from found


def is_printed(shown, lines):
    pattern = ".*".join(map(re.escape, shown.split("..")))
    return any(re.fullmatch(pattern, line) for line in lines)


def main(programs):
    page = os.path.join(os.path.dirname(os.path.dirname(os.path.dirname(os.path.abspath(__file__)))), "docs/ROUTER.md")
    os.chdir(programs)
    shell = subprocess.Popen(["bash"], stdin=subprocess.PIPE, stdout=subprocess.PIPE, stderr=subprocess.STDOUT, text=True,
                             bufsize=1)
    lines, count = [], 0
    threading.Thread(target=lambda: lines.extend(line.rstrip("\n") for line in shell.stdout), daemon=True).start()
    for command, shown in commands(page):
        begin, end = len(lines), time.monotonic() + (LATEST_OF_DAY if command == DAY else LATEST)
        # In a line of its own, also if a program has written half of one.
        shell.stdin.write(f"{command}\nprintf '\\n{END} %s\\n' $?\n")
        while time.monotonic() < end:
            new = lines[begin:]
            if any(line.startswith(END) for line in new) and all(is_printed(line, new) for line in shown):
                break
            time.sleep(0.05)
        count += 1
        for line in [line for line in shown if not is_printed(line, lines[begin:])]:
            sys.exit(f"tests/kernel: wrong: {command}\nprints no line\n{line}\nbut\n" + "\n".join(lines[begin:]))
        if f"{END} 0" not in lines[begin:]:
            sys.exit(f"tests/kernel: wrong: {command}\nfails: " + "\n".join(lines[begin:]))
    shell.stdin.close()
    if not any(found for _, found in sections(page)):
        sys.exit("tests/kernel: wrong: docs/ROUTER.md has no command")
    for line in [line for line in lines if line.startswith("day: ")]:
        print(line)
    print(f"docs/ROUTER.md: {count} commands, each prints what the page shows")


if __name__ == "__main__":
    main(*sys.argv[1:])
