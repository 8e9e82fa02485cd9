#!/usr/bin/env python3
"""Makes the reference from the sources: static HTML pages of the public types and calls, the laws and the definitions.

    tools/reference/make.py FOLDER [TOP [SOURCES]]

The pages are written into FOLDER. TOP is the top of the repository. With SOURCES, which leads from FOLDER to TOP, the
pages link to the sources.
"""
import os
import sys

import lists
from c_pages import c_pages
from model import Reference
from pages import Pages
from proved import proved
from contracts import ReadError

HERE = os.path.dirname(os.path.abspath(__file__))


def made(top, sources=None):
    """The text of each page by its name, and the counts by what they count."""
    pages = Pages(Reference(top), sources)
    files = {subject.page: pages.subject(subject) for subject in pages.reference.subjects.values()}
    files["proved.txt"] = proved(pages)
    files["laws.html"] = lists.laws(pages)
    definitions = list(lists.definition_pages(pages))
    files.update((url, text) for url, text, _ in definitions)
    files["definitions.html"] = lists.definition_index(pages, definitions)
    files["conditions.html"], conditions = lists.conditions(pages)
    files["lemmas.html"], lemmas = lists.lemmas(pages)
    c_files = c_pages(top)
    files["index.html"] = lists.index(pages, c_files.get("c/index.html", ""))
    with open(os.path.join(HERE, "style.css"), encoding="utf-8") as style:
        files["style.css"] = style.read()
    files.update(c_files)
    counts = {
        "files": len(files), "types and modules": len(pages.reference.subjects), "calls": len(pages.calls),
        "calls with a condition": conditions, "laws": len(pages.reference.laws),
        "definitions": len(pages.reference.definitions), "lemmas": lemmas, "C pages": len(c_files),
        "clauses in words": pages.said, "clauses without words": pages.unsaid,
        "clauses too long for words": pages.long,
    }
    return files, counts


def main(folder, top, sources=None):
    folder = os.path.abspath(folder)
    os.chdir(top)
    files, counts = made(".", sources)
    for name, text in files.items():
        path = os.path.join(folder, name)
        os.makedirs(os.path.dirname(path), exist_ok=True)
        with open(path, "w", encoding="utf-8") as file:
            file.write(text)
    if not counts["C pages"]:
        print("make reference: without mandoc there are no pages of the C library", file=sys.stderr)
    print(", ".join(f"{count} {what}" for what, count in counts.items()))


if __name__ == "__main__":
    if len(sys.argv) not in (2, 3, 4):
        sys.exit(__doc__)
    try:
        main(sys.argv[1], sys.argv[2] if len(sys.argv) > 2 else os.path.join(HERE, "../.."), *sys.argv[3:])
    except (OSError, ReadError) as error:
        sys.exit(f"make.py: {error}")
