"""Cuts what only the checker reads from the text of a proved source: contracts, ghost items, tactics and models."""
import re

GHOST = re.compile(r"\s*(?:pub )?ghost\b")
CLAUSE = re.compile(r"\s*(?:requires|ensures)\b")
TACTIC = re.compile(r"\s*#!?\[tactic\b")
MODEL = re.compile(r"\s*use std::marker::Model;")
TOKEN = re.compile(r'b?"(?:\\.|[^"\\])*"|b?\'(?:\\[^\']+|[^\'\\])\'|//[^\n]*|[{};]')


def after_braces(text, at):
    """The index after the brace that closes the one at `at`, past strings and comments."""
    depth = 0
    for token in TOKEN.finditer(text, at):
        depth += {"{": 1, "}": -1}.get(token.group(), 0)
        if depth == 0:
            return token.end()
    raise ValueError("a brace that is not closed")


def end_of_ghost(text, at):
    if re.match(r"\s*(?:pub )?ghost use\b", text[at:]):
        return text.index(";", at) + 1
    first = next(token for token in TOKEN.finditer(text, at) if token.group() in "{;")
    end = after_braces(text, first.start()) if first.group() == "{" else first.end()
    if proof := re.match(r"\s*by\s*(?=\{)", text[end:]):
        end = after_braces(text, end + proof.end())
    return end + len(re.match(r"[;,]?", text[end:]).group())


def end_of_attribute(text, at):
    depth = 0
    for found in re.compile(r"[\[\]]").finditer(text, text.index("[", at)):
        depth += 1 if found.group() == "[" else -1
        if depth == 0:
            return found.end()
    raise ValueError("an attribute that is not closed")


def end_of_cut(text, at, line):
    """The index after what is cut at the line that begins at `at`, or nothing."""
    if GHOST.match(line):
        return end_of_ghost(text, at)
    if CLAUSE.match(line):
        return after_braces(text, text.index("{", at))
    if TACTIC.match(line):
        return end_of_attribute(text, at)
    return at + len(line) if MODEL.match(line) else None


def without_contracts(text, file):
    """The other lines, each with its number from 0."""
    lines, kept, number, starts = text.split("\n"), [], 0, [0]
    for line in lines:
        starts.append(starts[-1] + len(line) + 1)
    while number < len(lines):
        end = end_of_cut(text, starts[number], lines[number])
        if end is None:
            kept.append((number, lines[number]))
            number += 1
            continue
        # The comments of a ghost item are about it.
        while GHOST.match(lines[number]) and kept and re.match(r"\s*//(?![/!])", kept[-1][1]):
            kept.pop()
        rest = text[end : text.index("\n", end)].strip()
        number = text.count("\n", 0, end) + 1
        if rest not in ("", ";"):
            raise ValueError(f"{file}:{number}: {rest} after a clause")
        if rest:
            # Of a call without a body: its `;` comes after its clauses.
            kept.append((kept[-1][0], kept.pop()[1] + rest))
    return tidy(kept)


def tidy(kept):
    """Without blank lines that follow another or a brace, and without an `impl` that had only ghost items."""
    out = []
    for number, line in kept:
        last = out[-1][1] if out else "{"
        if not line.strip() and (not last.strip() or last.endswith("{")):
            continue
        if line.strip() == "}" and not last.strip():
            out.pop()
            last = out[-1][1]
        if line.strip() == "}" and re.match(r"impl(?:<[^>]*>)? Model for ", last):
            out.pop()
            continue
        out.append((number, line))
    return out
