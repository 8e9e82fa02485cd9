"""The drawings of headers in docs/audit/DIAGRAMS.md."""
import os
import re

TOP = os.path.dirname(os.path.dirname(os.path.dirname(os.path.abspath(__file__))))


def fields(drawing):
    """The fields of a drawing in order, as pairs of a name and a width in bits."""
    found, border = [], ""
    for line in drawing:
        if "|" not in line:
            border = line
            continue
        bars = [place for place, mark in enumerate(line) if mark == "|"]
        for left, right in zip(bars, bars[1:]):
            is_open = "-" not in border[left + 1 : right]
            # The name of a field of several rows may stand between two of them.
            cell = border[left + 1 : right] + line[left + 1 : right] if is_open else line[left + 1 : right]
            name, width = re.sub(r"\(.*\)", "", cell).strip(), (right - left) // 2
            if found and (is_open or name and name == found[-1][0]):
                found[-1] = (found[-1][0] or name, found[-1][1] + width)
            else:
                found.append((name, width))
    return found


def drawings(document):
    """The drawing below each heading, as its lines between the first border and the last."""
    for section in document.split("\n## ")[1:]:
        heading, _, text = section.partition("\n")
        block = text.partition("```text\n")[2].partition("```")[0]
        yield heading, [line for line in block.split("\n") if re.match(r"[+|]", line)]


def read(top=TOP):
    """The fields of each drawing, by its heading."""
    with open(f"{top}/docs/audit/DIAGRAMS.md", encoding="utf-8") as file:
        return {heading: fields(drawing) for heading, drawing in drawings(file.read())}
