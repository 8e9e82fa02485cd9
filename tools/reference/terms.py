"""Reads a clause of a contract into a term: a name or number is a string, any other term one of the tuples below."""
import re
from collections import namedtuple

Apply = namedtuple("Apply", "head given")
Infix = namedtuple("Infix", "sign left right")
Not = namedtuple("Not", "fact")
Quantified = namedtuple("Quantified", "is_every bound body")  # bound: pairs of the names and their type
Lambda = namedtuple("Lambda", "names body")
Let = namedtuple("Let", "name value body")
Choice = namedtuple("Choice", "test then other")
Pair = namedtuple("Pair", "parts")
Record = namedtuple("Record", "base fields")
Part = namedtuple("Part", "of names")

WORD = re.compile(r"⟦[^⟧]*⟧\.\w+|[^\W\d][\w'-]*(?:\.\w[\w']*)*")
TOKEN = re.compile(rf"\s*({WORD.pattern}|0x[0-9a-f]+|\d+|\+\+|&&|\|\||==|\.\w[\w.']*|[→↔≡≢≤<×⊎¬+\-*/%^∷λ.()" r"{},;:=⊥⊤\[\]])")
# The infix signs, from those that bind least. The signs of RIGHT group to the right.
LEVELS = (["→"], ["↔"], ["⊎"], ["×"], ["≡", "≢"], ["||"], ["&&"], ["=="], ["≤", "<"], ["+", "-", "++"], ["∷"],
          ["*", "/", "%"], ["^"])
RIGHT = "→", "⊎", "×", "||", "&&", "∷", "^"
RELATIONS = 4  # the level of those that bind more than `¬`
KEYWORDS = "in", "then", "else"


class Unreadable(Exception):
    """A term that has no reader, or no words."""


def tokens_of(text):
    tokens, at, text = [], 0, text.strip()
    while at < len(text):
        found = TOKEN.match(text, at)
        if not found:
            raise Unreadable(text[at:])
        tokens.append(found.group(1))
        at = found.end()
    return tokens


def spelled(tokens):
    """Tokens as one text."""
    return re.sub(r"(?<=\() | (?=[,;)])", "", " ".join(tokens)).rstrip(";")


def read(text):
    """The term of a whole text."""
    reader = Reader(tokens_of(text))
    term = reader.term()
    if reader.peek():
        raise Unreadable(reader.peek())
    return term


class Reader:
    def __init__(self, tokens):
        self.tokens, self.at = tokens, 0

    def peek(self, ahead=0):
        return self.tokens[self.at + ahead] if self.at + ahead < len(self.tokens) else ""

    def take(self, expected=""):
        token = self.peek()
        if not token or expected not in ("", token):
            raise Unreadable(token)
        self.at += 1
        return token

    def until(self, end):
        """The tokens up to an end, which is passed."""
        first = self.at
        while self.take() != end:
            pass
        return self.tokens[first : self.at - 1]

    def term(self, level=0):
        if self.peek() == "λ":
            self.take()
            return Lambda(spelled(self.until(".")), self.term())
        if self.peek() == "let":
            self.take()
            return Let(spelled(self.until("=")), self.term_before("in"), self.term())
        if self.begins_binder():
            return self.quantified()
        if level >= RELATIONS and self.peek() == "¬":
            self.take()
            return Not(self.term(RELATIONS))
        if level == len(LEVELS):
            return self.application()
        term = self.term(level + 1)
        while self.peek() in LEVELS[level]:
            sign = self.take()
            term = Infix(sign, term, self.term(level if sign in RIGHT else level + 1))
        return term

    def term_before(self, token):
        term = self.term()
        self.take(token)
        return term

    def begins_binder(self):
        """Whether names and their type follow in brackets."""
        ahead = 1
        while WORD.fullmatch(self.peek(ahead)):
            ahead += 1
        return self.peek() == "(" and ahead > 1 and self.peek(ahead) == ":"

    def quantified(self):
        bound = []
        while self.begins_binder():
            self.take("(")
            names, kind, depth = self.until(":"), [], 1
            while depth:
                kind.append(self.take())
                depth += (kind[-1] == "(") - (kind[-1] == ")")
            bound.append((names, spelled(kind[:-1])))
        sign = self.take()
        if sign not in ("→", "×"):
            raise Unreadable(sign)
        return Quantified(sign == "→", bound, self.term())

    def application(self):
        head, given = self.atom(), []
        while self.begins_argument():
            given.append(self.term() if self.peek() == "λ" else self.atom())
        return Apply(head, given) if given else head

    def begins_argument(self):
        token = self.peek()
        return token in ("(", "λ", "⊥", "[") or token[:1].isdigit() or (WORD.fullmatch(token) and token not in KEYWORDS)

    def atom(self):
        token = self.take()
        if token == "(":
            return self.bracketed()
        if token == "record":
            base = "" if self.peek() == "{" else self.atom()
            self.take("{")
            return Record(base, spelled(self.until("}")))
        if token == "[":
            self.take("]")
            return "[]"
        if token == "if":
            return Choice(self.term_before("then"), self.term_before("else"), self.term())
        if not WORD.fullmatch(token) and not token[0].isdigit() and token not in ("⊥", "⊤"):
            raise Unreadable(token)
        return token

    def bracketed(self):
        parts = [self.term()]
        while self.peek() == ",":
            self.take()
            parts.append(self.term())
        self.take(")")
        term = parts[0] if len(parts) == 1 else Pair(parts)
        return Part(term, self.take()[1:]) if re.match(r"\.\w", self.peek()) else term
