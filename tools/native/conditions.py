"""The conditions of each public call and operator as doc lines: what `requires` says, in the words of the reference
(`tools/reference`), and `can_add` and the like as they are written."""
import html
import pathlib
import re
import sys
import textwrap

TOP = pathlib.Path(__file__).resolve().parents[2]
sys.path[:0] = [str(TOP / "tools"), str(TOP / "tools" / "reference")]

import lists  # noqa: E402
from model import Call, Reference  # noqa: E402
from pages import Pages  # noqa: E402


def markdown(text):
    text = re.sub(r"</?(?:code|var|i|em)>", "`", text)
    text = html.unescape(re.sub(r"<[^>]*>", "", text))
    return text[:1].upper() + text[1:] + ("" if text.endswith(".") else ".")


def lines_of(pages, call):
    clauses = [clause for clause in call.item.clauses if clause.kind == "requires"]
    if clauses:
        yield from ("///", "/// # Requires", "///")
    for (words, _), clause in zip(lists.conditions_of(pages, call), clauses):
        text = markdown(words or f"`{clause.text}`")
        yield from textwrap.wrap(text, 100, initial_indent="/// - ", subsequent_indent="///   ", break_on_hyphens=False)


def operator_lines(block):
    """Of the `impl` of an operator: `n < 2 ^ 31` in `a + n`."""
    for item in block.items:
        if item.kind == "ghost" and item.name in lists.OPERATORS:
            names, _, clause = item.text.partition(" = ")[2][1:-1].strip().removeprefix("λ ").partition(". ")
            left, right = names.split()
            yield from ("///", "/// # Requires", "///", f"/// - `{clause}` in `{left} {lists.OPERATORS[item.name]} {right}`.")


def calls(crate):
    """The public functions, but for laws."""
    for module in crate.modules.values():
        if "laws" not in module.path:
            blocks = [(item, item.items) for item in module.items if item.kind in ("impl", "trait")]
            for block, items in [*blocks, (None, module.items)]:
                yield from (Call(crate, module, block, item) for item in items if item.kind == "fn" and item.visibility == "pub")


def doc_lines():
    """The doc lines of each call and operator with a condition, by its file and line."""
    pages = Pages(Reference(str(TOP)))
    found = {}
    for crate in pages.reference.sources.crates.values():
        for call in calls(crate):
            found[call.module.file, call.item.line] = list(lines_of(pages, call))
        for module in crate.modules.values():
            for block in module.items:
                if block.kind == "impl":
                    found[module.file, block.line] = list(operator_lines(block))
    return {place: lines for place, lines in found.items() if lines}
