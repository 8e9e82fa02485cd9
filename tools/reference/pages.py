"""The pages of the types and calls, and the parts that all pages have."""
import html
import re
import shutil

from model import NAME, Call, fields_of
from words import Words, code

NAV = {"index.html": "ip_wire reference", "conditions.html": "conditions", "laws.html": "laws",
       "definitions.html": "definitions", "lemmas.html": "lemmas"}
if shutil.which("mandoc"):
    NAV["c/index.html"] = "C calls"


# Clauses that take more words than this are easier to read as the contract has them.
MOST_WORDS = 40
# At the foot of each page: the signs of the contracts.
LEGEND = "<footer>" + " &middot; ".join(f"<code>{sign}</code> {meaning}" for sign, meaning in {
    "a ≡ b": "equal", "P × Q": "and", "P ⊎ Q": "or", "P → Q": "if P then Q", "P ↔ Q": "exactly if", "¬ P": "not",
    "λ v. P": "P about v", "x.now": "what &amp;x refers to", "x.old, x.new": "what &amp;mut x refers to before and after the call",
}.items()) + "</footer>"


def page(title, body, depth=""):
    """A page with its head. `depth` leads to the folder of the reference."""
    links = "".join(f'<a href="{depth}{url}">{name}</a>' for url, name in NAV.items())
    legend = "" if depth else LEGEND
    return ('<!doctype html>\n<html lang="en"><head><meta charset="utf-8">'
            '<meta name="viewport" content="width=device-width, initial-scale=1">'
            f'<title>{html.escape(title)}</title><link rel="stylesheet" href="{depth}style.css"></head>\n'
            f"<body><nav>{links}</nav>\n<main>\n<h1>{html.escape(title)}</h1>\n{body}</main>\n{legend}</body></html>\n")


def doc(lines):
    """Doc lines as HTML: paragraphs, and items that begin with a dash."""
    text = re.sub(r"&lt;(/?sup)&gt;", r"<\1>", html.escape("\n".join(lines), False))
    text = re.sub(r"`([^`]+)`", r"<code>\1</code>", text)
    out = []
    for part in re.split(r"\n\s*\n", text):
        first, *items = re.split(r"(?:^|\n)- ", part)
        out.append(f"<p>{first}</p>" if first.strip() else "")
        out.append("<ul>" + "".join(f"<li>{item}</li>" for item in items) + "</ul>" if items else "")
    return "".join(out)


def first_sentence(lines):
    """The first sentence of doc lines, as HTML without paragraphs."""
    return re.sub("</?(p|ul|li)>", "", doc([re.split(r"(?<=\.) |\n", " ".join(lines) + " ")[0]])).strip()


def sentence(said):
    """Words as a sentence: the first letter large, a stop at the end."""
    said = re.sub(r"^((?:<a [^>]*>)?)([a-z])", lambda found: found[1] + found[2].upper(), said)
    return re.sub(r"[.]?((?:</\w+>)*)$", r"\1.", said, count=1)


def anchor_of(call, tag=""):
    return re.sub(r"\W+", "_", f"{tag} {call.item.name}".strip())


def table(rows, head=()):
    """A table of names and what they are, or one of three columns with a head."""
    cells = ["<tr>" + "".join(f"<th>{cell}</th>" for cell in head) + "</tr>\n"] if head else []
    cells += ["<tr>" + "".join(f"<td>{cell}</td>" for cell in row) + "</tr>\n" for row in rows]
    return f'<table class="{"wide" if head else "toc"}">{"".join(cells)}</table>\n' if cells else ""


class Pages:
    """Makes the pages of types and the parts of others. It counts the clauses in words, and collects the calls. `sources`
    leads from the folder of the pages to the top of the repository; None: sources are not linked."""

    def __init__(self, reference, sources=None):
        self.reference, self.sources = reference, sources
        self.said = self.unsaid = self.long = 0
        self.named = None  # Filled when all pages of types are made.
        self.calls = []  # of all pages of types: subject, name of the type or module if it has one, call, URL
        self.law_urls = {law.item.name: f"laws.html#{reference.law_anchor(law)}" for law in reversed(reference.laws)}

    def calls_of(self, definition):
        """The calls whose contracts name a definition: the name of the type or module, the call and its URL."""
        if self.named is None:
            self.named = {}
            for _, owner, call, url in self.calls:
                words = {word for clause in call.item.clauses for word in NAME.findall(clause.text)}
                found = (self.reference.of_word(call.crate, call.module, call.uses, word) for word in sorted(words))
                for one in {id(one): one for one in found}.values():
                    self.named.setdefault(id(one), []).append((owner, call, url))
        return self.named.get(id(definition), [])

    def linked(self, text, call):
        return self.reference.linked(text, call.crate, call.module, call.uses)

    def place(self, file, line):
        """The place of an item in the sources, with a link if they are there."""
        shown = f"{file}:{line}"
        return f'<p class="src">{shown if self.sources is None else self.source_link(file, shown)}</p>'

    def source_link(self, file, shown):
        return f'<a href="{self.sources}{file}">{shown}</a>'

    def words_of(self, call, text, others=()):
        """The words of a clause that stands beside others, or nothing, and what they name."""
        def meaning(name):
            return self.reference.meaning(call.crate, call.module, call.uses, name)
        words = Words(meaning, fields_of(call.crate, call.module))
        said = words.say(text, others)
        notes = [f'<p class="note">{note}</p>' for _, note in sorted(words.notes.items())]
        return (sentence(said), "".join(notes)) if said else ("", "")

    def clauses(self, call):
        """The conditions and promises of a call, in words and as the contract has them."""
        rows = []
        for clause in call.item.clauses:
            others = [other.text for other in call.item.clauses if other.kind == clause.kind]
            said, notes = self.words_of(call, clause.text, others)
            is_long = len(re.sub("<[^>]+>", "", said).split()) > MOST_WORDS
            self.said, self.unsaid, self.long = self.said + (said != "") - is_long, self.unsaid + (not said), self.long + is_long
            said, notes = ("", "") if is_long else (said, notes)
            kind = "needs" if clause.kind == "requires" else "gives"
            label = f' <span class="n">{html.escape(clause.name)}</span>' if clause.name else ""
            rows.append(f'<div class="{kind}"><b>{kind}</b>{label} <p>{said}</p>{notes}'
                        f"<pre>{self.linked(clause.text, call)}</pre></div>\n")
        return "".join(rows)

    def section(self, call, anchor, said="", labels=""):
        """A function or constant: its signature, its doc lines and what else is said of it."""
        return (f'<section id="{anchor}"><h3><code>{self.linked(call.item.text, call)}</code>{labels}</h3>\n'
                f'{doc(call.item.docs)}{said}{self.place(call.module.file, call.item.line)}</section>\n')

    def call(self, call, tag):
        item = call.item
        if item.kind == "const":
            return self.section(call, anchor_of(call, tag))
        labels = f'<span class="tag">{tag}</span>' if tag else ""
        if not any(clause.kind == "requires" for clause in item.clauses):
            labels += '<span class="tag ok">no condition</span>'
        said = self.clauses(call) if item.clauses else '<div class="gives"><b>no contract of its own</b></div>'
        return self.section(call, anchor_of(call, tag), said, labels)

    def law(self, law):
        return self.section(law, self.reference.law_anchor(law), self.clauses(law))

    def type(self, call):
        """A struct, enum, alias or trait with its public members."""
        item = call.item
        members = [(f"<code>{self.linked(re.sub('^pub ', '', one.text), call)}</code>", first_sentence(one.docs))
                   for one in item.members if item.kind == "enum" or one.text.startswith("pub ")]
        derives = [f'<p class="src">{html.escape(one)}</p>' for one in item.attributes if one.startswith("derive")]
        return (f'{doc(item.docs)}<pre>{self.linked("pub " + item.text, call)}</pre>{table(members)}{"".join(derives)}'
                f"{self.place(call.module.file, item.line)}\n")

    def trait(self, call):
        """A trait that a type has, with what its calls promise."""
        crate, module, block = call.crate, call.module, call.block
        inner = [f"<pre>{self.linked(item.text, call)}</pre>" for item in block.items if item.kind == "ghost"]
        inner += [self.clauses(Call(crate, module, block, item)) for item in block.items if item.kind == "fn"]
        return (f"<details><summary>{code(block.text)}</summary>{''.join(inner) or '<p>no contract of its own</p>'}"
                f"{self.place(module.file, block.line)}</details>\n")

    def parts(self, subject):
        """The types, the calls and the traits of a subject. A call has a tag if only one type of a view has it."""
        items = [Call(subject.crate, module, None, item) for module, item in subject.items]
        types = [call for call in items if call.item.kind not in ("fn", "const")]
        calls, traits = [(call, "") for call in items if call.item.kind in ("fn", "const")], []
        for crate, module, block in self.reference.blocks(subject):
            is_for_one = subject.view() and "View" not in block.text
            tag = "" if not is_for_one else "Mut only" if "Mut" in block.text else "reading only"
            if block.trait():
                traits.append(Call(crate, module, block, block))
            else:
                calls += [(Call(crate, module, block, item), tag) for item in block.items
                          if item.visibility == "pub" and item.kind in ("fn", "const")]
        return types, calls, traits

    def contents(self, calls):
        """A table of the calls, if there are more than a reader sees at once."""
        rows = [(f'<a href="#{anchor_of(call, tag)}">{code(call.item.name)}</a>' + (" *" if tag == "Mut only" else ""),
                 first_sentence(call.item.docs)) for call, tag in calls]
        star = '<p class="src">* only of a mutable view</p>' if any(tag == "Mut only" for _, tag in calls) else ""
        return table(rows) + star if len(calls) > 4 else ""

    def subject(self, subject):
        view, names = subject.view(), subject.names
        types, calls, traits = self.parts(subject)
        for call, tag in calls:
            if call.item.kind == "fn":
                owner = "" if " of " in subject.title else subject.title + ("Mut" if tag == "Mut only" else "")
                self.calls.append((subject, owner, call, f"{subject.page}#{anchor_of(call, tag)}"))
        out = [f'<p class="src">use {subject.imported};</p>', doc(view.docs) if view else "", *map(self.type, types)]
        out += [self.contents(calls), *(self.call(*one) for one in calls)]
        out += ['<h2 id="traits">Traits</h2>', *map(self.trait, traits)] if traits else []
        shown = {name for name in names if not name.endswith("View")}
        laws = [self.law_row(law) for law in self.reference.laws
                if any(self.reference.sources.meaning(law.crate.name, law.module.path, name) in subject.paths
                       for name in shown & set(re.findall(r"\w+", law.item.text)))]
        out += ["<h2>Laws</h2>", table(laws)] if laws else []
        title = f"{subject.title} and {subject.title}Mut" if subject.title + "Mut" in names else subject.title
        return page(title, "".join(out))

    def law_row(self, law):
        """A law as a row of a table of contents."""
        link = f'<a href="laws.html#{self.reference.law_anchor(law)}">{code(law.item.name)}</a>'
        return link, first_sentence(law.item.docs)
