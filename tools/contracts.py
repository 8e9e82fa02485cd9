"""Reads one source file: the items of a .rt file with their contracts, the definitions of a .antt file, and their imports.

The text of an item has one space instead of any layout, and no comments. An item that the reader does not know raises
ReadError. `sources.py` reads whole crates.
"""
import functools
import re
from dataclasses import dataclass, field

TOKEN = re.compile(r"""
    (?P<space>\s+)
  | (?P<comment>//[^\n]*|/\*.*?\*/)
  | (?P<string>b?"(?:\\.|[^"\\])*"|r(?P<hashes>\#*)".*?"(?P=hashes))
  | (?P<char>b?'(?:\\[^']+|[^'\\])')
  | (?P<word>[^\W\d][\w']*)
  | (?P<other>.)
""", re.X | re.S)
CLOSED_BY = {"(": ")", "[": "]", "{": "}"}
SPEC_ITEM = re.compile(r"(?:abbrev|unfoldable|opaque|record|data|pub|mod|infix\w*|syntax)\b")
# Its words, and its name.
SPEC_HEAD = re.compile(rf"((?:{SPEC_ITEM.pattern} ?)+(?:\d+ )?)(\S+)")
SPEC_COMMENT = re.compile(r'("(?:\\.|[^"\\])*")|\s*--.*')
SPEC_SPACE = re.compile(r'("(?:\\.|[^"\\])*")|\s+')
# `rt fmt` writes it after the last field of a record that has several lines.
LAST_SEMICOLON = re.compile(r";(?= \})")


class ReadError(Exception):
    """A text that this reader does not understand."""


@dataclass
class Token:
    kind: str
    text: str
    spaced: bool  # There is layout or a comment before it.
    docs: list  # The doc lines before it.
    line: int


@dataclass
class Clause:
    kind: str  # requires, ensures or ensures*
    name: str
    text: str

    def __str__(self):
        return " ".join(filter(None, (self.kind, self.name, "{", self.text, "}")))


@dataclass
class Member:
    """A field or a variant."""

    text: str
    docs: list


@dataclass
class Item:
    """An item of a module, an `impl` or a trait. A function has clauses, a block has items."""

    kind: str  # fn, const, static, type, struct, enum, union, trait, impl, mod, ghost
    name: str
    text: str  # Without attributes and visibility; of a function the signature, of a block the head.
    visibility: str  # "", pub, or pub(..)
    attributes: list
    docs: list
    line: int
    members: list = field(default_factory=list)
    clauses: list = field(default_factory=list)
    items: list = field(default_factory=list)
    uses: list = field(default_factory=list)
    has_body: bool = False
    body: str = ""
    body_lines: int = 0  # From its first brace to its last.

    def owner(self):
        """The name of the type that an `impl` is for."""
        return last_name(re.split(r" for (?!<)", without_first_generics(self.text))[-1])

    def trait(self):
        """The trait of an `impl`, or nothing."""
        found = re.match(r"(.*?) for (?!<)", without_first_generics(self.text))
        return found.group(1) if found else ""


@dataclass
class Use:
    """An import of one name."""

    name: str  # As it is known here.
    path: tuple
    is_ghost: bool
    is_public: bool


@dataclass
class Definition:
    kind: str  # The words before its name, such as `abbrev pub`.
    name: str
    lines: list  # The head, then the equations or fields.
    docs: list


def without_first_generics(text):
    """The head of an `impl` after `impl<..>`."""
    text = re.sub("^(unsafe )?impl", "", text)
    if text.startswith("<"):
        depth = end = 0
        for end, char in enumerate(text):
            depth += (char == "<") - (char == ">" and text[end - 1] != "-")
            if not depth:
                break
        text = text[end + 1 :]
    return text.strip()


def last_name(text):
    return (re.findall(r"\w+", re.sub(r"<.*", "", text)) or [text])[-1]


def tokens_of(text):
    """The tokens of a .rt file, and the doc lines of the file itself."""
    docs, file_docs, spaced, line, tokens = [], [], False, 1, []
    for found in TOKEN.finditer(text):
        kind, part = found.lastgroup, found.group()
        if kind == "hashes":
            kind = "string"
        if kind in ("space", "comment"):
            spaced = True
            if re.match(r"//[/!](?!/)", part):
                (file_docs if part[2] == "!" else docs).append(re.sub("^ ", "", part[3:]))
        else:
            tokens.append(Token(kind, part, spaced, docs, line))
            docs, spaced = [], False
        line += part.count("\n")
    return tokens, file_docs


def joined(tokens):
    """The text of tokens, with one space for any layout, none inside of ( ) and [ ], and no last comma in brackets."""
    out = []
    for at, token in enumerate(tokens):
        following = tokens[at + 1].text if at + 1 < len(tokens) else ""
        if token.text == "," and following in (")", "]", "}", ">"):
            continue
        if token.spaced and out and out[-1] not in ("(", "[") and token.text not in (")", "]"):
            out.append(" ")
        out.append(token.text)
    return "".join(out)


class Reader:
    """Reads the items of one .rt file."""

    def __init__(self, text, file):
        self.file, self.at = file, 0
        self.tokens, self.docs = tokens_of(text)
        while self.is_next("#", "!"):
            self.at += 2
            self.balanced()

    def fail(self):
        token = self.tokens[min(self.at, len(self.tokens) - 1)]
        raise ReadError(f"{self.file}:{token.line}: cannot read {token.text!r}")

    def peek(self, ahead=0):
        at = self.at + ahead
        return self.tokens[at].text if at < len(self.tokens) else ""

    def is_next(self, *texts):
        return all(self.peek(n) == text for n, text in enumerate(texts))

    def take(self):
        if self.at == len(self.tokens):
            self.fail()
        self.at += 1
        return self.tokens[self.at - 1]

    def accept(self, text):
        found = self.peek() == text
        self.at += found
        return found

    def balanced(self):
        """The tokens inside of the next pair of brackets, which is passed."""
        close = CLOSED_BY.get(self.peek()) or self.fail()
        self.take()
        first = self.at
        while self.peek() != close:
            if self.peek() in CLOSED_BY:
                self.balanced()
            elif self.peek() in (")", "]", "}"):
                self.fail()
            else:
                self.take()
        self.take()
        return self.tokens[first : self.at - 1]

    def until(self, *ends):
        """The tokens up to one of these texts outside of brackets."""
        first = self.at
        while self.peek() not in ends:
            if self.peek() in CLOSED_BY:
                self.balanced()
            else:
                self.take()
        return self.tokens[first : self.at]

    def items(self):
        """The items and imports up to the end of the block or file."""
        items, uses = [], []
        while self.at < len(self.tokens) and self.peek() != "}":
            docs = self.tokens[self.at].docs
            item = self.item(docs)
            if isinstance(item, list):
                uses += item
            elif item:
                items.append(item)
        return items, uses

    def item(self, docs):
        attributes = []
        while self.accept("#"):
            attributes.append(joined(self.balanced()))
        line = self.tokens[self.at].line
        visibility = ""
        if self.accept("pub"):
            visibility = "pub" if self.peek() != "(" else f"pub({joined(self.balanced())})"
        words = []
        while self.peek() in ("unsafe", "extern", "ghost") or self.is_next("const", "fn") or self.is_next("const", "unsafe"):
            words.append(self.take().text)
            if self.tokens[self.at].kind == "string":
                words.append(self.take().text)
        return self.of_kind(Item("", "", "", visibility, attributes, docs, line), words)

    def of_kind(self, item, words):
        item.kind = self.peek()
        if item.kind in ("use", "mod") and any(a != "cfg(test)" or item.kind == "use" for a in item.attributes):
            self.fail()
        if item.kind == "use":
            self.take()
            text = joined(self.until(";"))
            self.take()
            return list(imports(text, "ghost" in words, item.visibility == "pub"))
        if words == ["ghost"]:
            return self.ghost(item)
        reads = {
            "fn": self.function, "impl": self.block, "trait": self.block, "mod": self.module, "const": self.value,
            "static": self.value, "type": self.value, "struct": self.type, "enum": self.type, "union": self.type,
        }
        if item.kind not in reads:
            self.fail()
        first = self.at
        self.take()
        item.name = self.peek()
        item = reads[item.kind](item, first)
        if item:
            item.text = " ".join([*words, item.text])
        return item

    def ghost(self, item):
        item.kind = "ghost"
        item.name = self.peek()
        item.text = "ghost " + joined(self.until(";"))
        self.take()
        return item

    def function(self, item, first):
        self.until("requires", "ensures", "{", ";")
        item.text = joined(self.tokens[first : self.at])
        while self.peek() in ("requires", "ensures"):
            kind = self.take().text + ("*" if self.accept("*") else "")
            name = "" if self.peek() == "{" else self.take().text
            item.clauses.append(Clause(kind, name, LAST_SEMICOLON.sub("", joined(self.balanced()).strip())))
        item.has_body = self.peek() == "{"
        if item.has_body:
            begin = self.tokens[self.at].line
            item.body = joined(self.balanced()).strip()
            item.body_lines = self.tokens[self.at - 1].line - begin + 1
        elif not self.accept(";"):
            self.fail()
        return item

    def block(self, item, first):
        self.until("{")
        item.text = joined(self.tokens[first : self.at])
        self.take()
        item.items, item.uses = self.items()
        self.take()
        return item

    def module(self, item, first):
        self.take()
        item.text = "mod " + item.name
        if self.accept("{"):
            item.items, item.uses = self.items()
            self.take()
            item.has_body = True
        elif not self.accept(";"):
            self.fail()
        return None if item.attributes else item

    def value(self, item, first):
        self.until(";")
        item.text = joined(self.tokens[first : self.at])
        self.take()
        return item

    def type(self, item, first):
        self.until("{", "(", ";")
        item.text = joined(self.tokens[first : self.at]) + ("(..)" if self.peek() == "(" else "")
        if self.peek() != ";":
            item.members = list(split_at_commas(self.balanced()))
        if item.kind != "enum" and self.peek() == ";":
            self.take()
        return item


def split_at_commas(tokens):
    """The members between the commas outside of brackets."""
    first = depth = 0
    for at, token in enumerate(tokens):
        depth += (token.text in "([{<") - (token.text in ")]}" or token.text == ">" and tokens[at - 1].text != "-")
        if token.text == "," and not depth:
            yield Member(joined(tokens[first:at]), tokens[first].docs)
            first = at + 1
    if tokens[first:]:
        yield Member(joined(tokens[first:]), tokens[first].docs)


def imports(text, is_ghost, is_public):
    """The names of an import such as `a::b::{c, d as e}`, or `Rattle.a.B.{c} `."""
    sep = "." if is_ghost else "::"
    text = text.strip()
    found = re.fullmatch(re.escape(sep).join((r"(.*?)", r"\{(.*)\}")), text)
    if found:
        depth, first, names = 0, 0, found.group(2).strip()
        for at, char in enumerate(names + ","):
            depth += (char == "{") - (char == "}")
            if char == "," and not depth and names[first:at].strip():
                yield from imports(found.group(1) + sep + names[first:at].strip(), is_ghost, is_public)
                first = at + 1
        return
    path, _, name = text.partition(" as ")
    path = tuple(path.split(sep))
    if path[-1] == "self":
        path = path[:-1]
    yield Use(name or path[-1], path, is_ghost, is_public)


@functools.lru_cache(None)
def read_module(text, file):
    """The docs, items and imports of a .rt file."""
    reader = Reader(text, file)
    items, uses = reader.items()
    if reader.at < len(reader.tokens):
        reader.fail()
    return reader.docs, items, uses


def spec_lines(text):
    """The logical lines of a .antt file with the comments before each: a line that is indented further continues one. A field
    of a record is indented by two."""
    docs, lines, in_record = [], [], False
    for line in text.split("\n"):
        if re.match(r"\s*--", line):
            docs.append(re.sub(r"\s*-- ?", "", line))
            continue
        line = SPEC_COMMENT.sub(lambda m: m.group(1) or "", line).rstrip()
        if not line:
            docs = []
            continue
        indent = len(line) - len(line.lstrip())
        line = SPEC_SPACE.sub(lambda m: m.group(1) or " ", line.strip())
        if indent == 0:
            in_record = bool(re.match(r"(?:pub )*(?:record|data)\b", line)) and line.endswith("where")
        if (indent == 0 or in_record and indent == 2) and line[0] not in "})]":
            lines.append((indent > 0, line, docs))
            docs = []
        else:
            lines[-1] = (lines[-1][0], lines[-1][1] + " " + line, lines[-1][2])
    return [(is_inner, LAST_SEMICOLON.sub("", line), docs) for is_inner, line, docs in lines]


@functools.lru_cache(None)
def read_spec(text, file):
    """The docs, definitions and imports of a .antt file."""
    definitions, uses, lines = [], [], spec_lines(text)
    for is_inner, line, docs in lines:
        if re.match(r"(?:pub )?use ", line):
            is_public, line = line.startswith("pub "), re.sub(r"^(?:pub )?use ", "", line)
            uses += imports(line, True, is_public)
        elif not is_inner and SPEC_ITEM.match(line):
            head = SPEC_HEAD.match(line)
            definitions.append(Definition(head.group(1).strip(), head.group(2), [line], docs))
        elif definitions:
            definitions[-1].lines.append(line)
        else:
            raise ReadError(f"{file}: cannot read {line!r}")
    return lines[0][2] if lines else [], definitions, uses
