"""Says a clause of a contract in words.

The words come from the sources. A fact is said by the comment before its definition, a value by the first words of that
comment. The signs between them, and the definitions of the standard library, have their words in the tables below. A
clause that has no words here is shown only as text.
"""
import html
import re

from terms import Apply, Choice, Infix, Lambda, Let, Not, Pair, Part, Quantified, Record, Unreadable, read

# The bytes under a view: of a parameter such as `self`, with the time at which it has them, or of the result.
UNDER_VIEW = re.compile(r"B\.octets \((?:packet|frame|header)_slice (self\.\w+)\)"
                        r"|(?:\w+\.)?(?:packet|frame|header)_bytes(?:_mut)? (?:"
                        r"((?:self|packet|frame|header)\.\w+)(?=\)|$| (?:[≡≤<↔→×⊎+]|in\b))"
                        r"|(result|packet|frame|header)\b(?!\.))")
RELATIONS = {"≡": "{} {} {}", "≢": "{} {} not {}", "≤": "{} {} at most {}", "<": "{} {} less than {}"}
SIGNS = "→×⊎↔"
# The signs between booleans, and the calls that return one.
JOINS = {"&&": " and ", "||": " or "}
TESTS = "not", "nat_lt"
NAMES = {
    "result": "the result", "self": "the value", "self.old": "the value before", "self.new": "the value after",
    "bytes": "the bytes", "bytes.old": "the bytes before", "bytes.new": "the bytes after",
    "bytes.result": "the bytes of the result", "⊥": "this never happens", "[]": "the empty list",
    "true": "<code>true</code>", "false": "<code>false</code>", "None": "<code>None</code>",
}
TYPES = {"ℕ": ("number", "numbers"), "List ℕ": ("list of bytes", "lists of bytes"), "Bool": ("boolean", "booleans")}
# Facts about a result: which case it is, and what holds in a case. Those with If have a property of the value in it.
IS_CASE = {"IsOk": "Ok", "IsErr": "Err", "IsSome": "Some", "IsNone": "None", "IsTrue": "true"}
IN_CASE = {"IfOk": "Ok", "OnOk": "Ok", "IfErr": "Err", "OnErr": "Err", "IfSome": "Some", "IfNone": "None"}
MATCHES = {"MatchOption": ("None", "Some"), "MatchResult": ("Ok", "Err")}
# Other facts and values of the standard library.
FACTS = {
    "pre": "{0} may be called", "post": "{1} is a result of {0}",
    "Parses": "{2} is the value that {1} has by {0}, or an error if it has none",
}
VALUES = {
    "length": "the length of {0}", "take": "the first {0} bytes of {1}", "drop": "{1} from byte {0} on",
    "slice_index": "element {1} of {0}", "big_number": "the number of the {0} bytes {1}", "map": "{0} of each of {1}",
    "is_some": "whether {0} is <code>Some</code>", "is_none": "whether {0} is <code>None</code>",
    "result_ok": "the value in <code>Ok</code> of {0}, or <code>None</code> if it is <code>Err</code>",
    "slice_cmp": "the order of {1} and {2}, element by element",
}
VERB = re.compile(r"\b(accepts?|allows|agree|are|asks|begins?|borrows|can|cannot|carr(y|ies)|changes|comes|computed|"
                  r"computes|contains?|covers|does|encloses|exists|fits|gets|goes|ha[sd]|have|holds?|is|leads?|leaves|"
                  r"may|must|names|parses?|passes|quotes|returns|rose|says|sends?|serves|stores|verifies|was|were)\b")
# What begins a part of a sentence that has a verb of its own.
PART = re.compile(r"\b(after|as|how|if|that(?! of)|to which|unless|what|where|whether|which|who|whose|why)\b.*")
PLURAL = re.compile(r"the (bytes(?! as one)|values|fields|lengths)\b")
STOP = re.compile(r"[:;] |(?<!\.)\. ")


def plain(clause):
    """A clause with `bytes` for the bytes under a view, if they are those of one view."""
    def name(found):
        of = next(filter(None, found.groups()))
        return "bytes.result" if of == "result" else re.sub(r"^\w+(\.now)?", "bytes", of)
    views = {next(filter(None, found)).partition(".")[0] for found in UNDER_VIEW.findall(clause)} - {"result"}
    if len(views) + bool(re.search(r"\bbytes\.(now|old|new)\b", clause)) > 1:
        return clause
    text = re.sub(r"\((bytes(?:\.\w+)?)\)", r"\1", UNDER_VIEW.sub(name, clause))
    before, let, after = text.partition("let bytes = bytes")
    found = re.match(r"((?:\.\w+)?) in ", after) if let else None
    return before + re.sub(r"(?<![\w.])bytes(?![\w.'])", "bytes" + found[1], after[found.end() :]) if found else text


def is_statement(comment):
    """Whether a comment is a sentence such as "the bytes hold a header", and no noun such as "the header's length"."""
    return VERB.search(PART.sub("", STOP.split(comment)[0])) is not None


def lower_first(text):
    return text[0].lower() + text[1:] if re.match(r"(The|A|An|Any|Each|No|If|It|Of|Whether|One)\b", text) else text


def noun_of(comment):
    """The first words of a comment, which name a value."""
    whole = re.sub(r"\([^()]*\)", lambda found: found[0].replace("; ", ";\0"), comment)
    noun = lower_first(STOP.split(whole)[0].replace("\0", " ").rstrip("."))
    return ("the reason " if noun.startswith("why ") else "whether " if is_statement(comment) else "") + noun


def tested(said):
    """The fact of a value such as "whether the bytes hold a header", or nothing for another value."""
    found = re.match(r"(<a [^>]*>)?whether (.*?),?$", said)
    return (found[1] or "") + found[2] if found else ""


def applications(term, found):
    """All applications of a name in a term, added to `found` by their name."""
    if isinstance(term, Apply) and isinstance(term.head, str):
        found.setdefault(term.head, []).append(term.given)
    for part in term if isinstance(term, (tuple, list)) else ():
        applications(part, found)
    return found


def terms_of(clauses):
    """The terms of the clauses that have a reader."""
    for clause in clauses:
        try:
            yield read(plain(clause))
        except Unreadable:
            pass


def bound_names(term):
    """All names that a quantifier in a term binds."""
    found = {name for names, _ in term.bound for name in names} if isinstance(term, Quantified) else set()
    return found.union(*map(bound_names, term if isinstance(term, (tuple, list)) else ()))


def own_names(term):
    """All names that a `let` or `λ` in a term has of its own."""
    names = term.name if isinstance(term, Let) else term.names if isinstance(term, Lambda) else ""
    return set(names.split()).union(*map(own_names, term if isinstance(term, (tuple, list)) else ()))


def is_open(name, comment):
    """Whether a noun with this comment may be of something other than this name."""
    base = re.sub(r"\.(now|entry|old|new)\b", "", name) if isinstance(name, str) else ""
    return base == "result" and "result" not in comment or base not in NAMES


def chain(term, sign):
    """The sides of a sign that is applied to several."""
    sides = []
    while isinstance(term, Infix) and term.sign == sign:
        sides, term = [*sides, term.left], term.right
    return [*sides, term]


def in_a_row(words, last=" and "):
    return last.join([", ".join(words[:-1]), words[-1]]) if len(words) > 1 else "".join(words)


def unmarked(text):
    return re.sub(r"<[^>]*>", "", text)


def has_comma(said):
    """Whether a value in words has a comma that is not in brackets."""
    return ", " in re.sub(r"\([^()]*\)", "", unmarked(said)) and not said.startswith("(")


def var(name):
    return f"<var>{html.escape(name)}</var>"


def code(text):
    return f"<code>{html.escape(text)}</code>"


class Words:
    """Says clauses. `meaning` gives the definition of a name in them, and `fields` the names of the header's fields by
    first bit and width. After `say`, `notes` are the facts that the words only name, as HTML."""

    def __init__(self, meaning, fields):
        self.meaning, self.fields = meaning, fields
        self.notes, self.given, self.has_times = {}, {}, False
        self.bound_names, self.own_names = set(), set()

    def say(self, clause, others=()):
        """A clause in words, or None. `others` are the clauses beside which it stands."""
        self.notes = {}
        try:
            term = read(plain(clause))
            self.given = applications([term, *terms_of(others)], {})
            self.bound_names, self.own_names = bound_names(term), own_names(term)
            self.has_times = ".old" in clause and ".new" in clause
            return self.fact(term, True)
        except (Unreadable, IndexError):  # IndexError: a call with fewer arguments than its words need
            return None

    # ---- facts

    def fact(self, term, is_last=False):
        """A fact in words. The last words of a clause may be of several sentences."""
        if isinstance(term, str):
            return self.by_comment(term, [], is_last) if self.meaning(term) else self.thing(term)
        if isinstance(term, Not):
            return f"it is not so that {self.side(term.fact)}"
        kinds = {Quantified: self.quantified, Let: self.let, Infix: self.relation, Apply: self.applied}
        if type(term) not in kinds:
            raise Unreadable(term)
        return kinds[type(term)](term, is_last)

    def side(self, term):
        """A fact beside others, in brackets if it has parts of its own."""
        said = self.fact(term)
        has_parts = isinstance(term, Apply) and term.head in (*IN_CASE, *MATCHES, "Any", "All")
        is_compound = has_parts or isinstance(term, (Quantified, Let)) or isinstance(term, Infix) and term.sign in SIGNS
        return f"({said})" if is_compound else said

    def quantified(self, term, is_last):
        bound, body = list(term.bound), term.body
        while isinstance(body, Quantified) and body.is_every == term.is_every:
            bound, body = bound + list(body.bound), body.body
        return f"for {in_a_row([self.bound(term.is_every, *one) for one in bound])}: {self.fact(body, is_last)}"

    def bound(self, is_every, names, kind):
        said = in_a_row([var(name) for name in names])
        is_one = len(names) == 1
        word = "some" if not is_every else "every" if is_one else "all"
        if kind in TYPES:
            return f"{word} {TYPES[kind][0 if is_one else 1]} {said}"
        return f"{word} {code(kind)} {said}" if is_one and " " not in kind else f"{word} {said} of type {code(kind)}"

    def let(self, term, _):
        values = []
        while isinstance(term, Let):
            values.append(f"{var(term.name)} is {self.thing(term.value)}")
            term = term.body
        return f"{self.fact(term)}, where {in_a_row(values)}"

    def relation(self, term, is_last):
        sign, left, right = term
        if sign == "→":
            *premises, fact = chain(term, sign)
            is_match = isinstance(fact, Apply) and fact.head in MATCHES
            then = self.side(fact) if is_match else self.fact(fact, is_last)
            return f"if {in_a_row([self.side(one) for one in premises], ', and if ')}, then {then}"
        if sign == "↔":
            return f"{self.side(left)} exactly if {self.side(right)}"
        if sign in "×⊎":
            return (", and " if sign == "×" else ", or ").join(map(self.side, chain(term, sign)))
        if sign == "≤" and isinstance(right, Apply) and right.head == "length" and str(left).isdigit():
            of, count = right.given[0], f"at least {left} byte" + ("s" if left != "1" else "")
            there = "there is" if left == "1" else "there are"
            is_bytes = isinstance(of, str) and of.split(".")[0] == "bytes" and of not in self.own_names
            return f"{there} {count}" if is_bytes else f"{self.thing(of)} has {count}"
        if sign not in RELATIONS:
            raise Unreadable(sign)
        subject, of = self.subject(left), self.thing(right)
        test = tested(subject)
        if sign == "≡" and test and right in ("true", "false"):
            return test if right == "true" else f"it is not so that {test}"
        if sign == "≡" and test and tested(of):
            return f"{test} exactly if {tested(of)}"
        return RELATIONS[sign].format(subject, "are" if PLURAL.match(unmarked(subject)) else "is", of)

    def applied(self, term, is_last):
        head, given = term
        if not isinstance(head, str):
            raise Unreadable(head)
        if head in IN_CASE:
            return self.case(IN_CASE[head], *given, is_last, head.startswith("If") and head != "IfNone")
        if head in MATCHES:
            of, first, second = given
            one, other = MATCHES[head]
            return f"{self.case(one, of, first, False, one == 'Ok')}; {self.case(other, of, second, is_last, True)}"
        if head in IS_CASE:
            of = self.subject(given[0])
            return head == "IsTrue" and tested(of) or f"{of} is {code(IS_CASE[head])}"
        if head == "sem":
            return self.fact(given[1], is_last)
        if head in FACTS and not self.meaning(head):
            return FACTS[head].format(*map(self.thing, given))
        if head == "Becomes":
            return f"the bytes are then {self.thing(given[2])}"
        if head in ("Any", "All") and isinstance(given[0], Lambda):
            word = "some" if head == "Any" else "every"
            return f"for {word} {var(given[0].names)} of {self.thing(given[1])}: {self.fact(given[0].body)}"
        return self.by_comment(head, given, is_last)

    def case(self, name, of, fact, is_last, takes_value):
        """What holds if a result is of one kind. `fact` may be a property of the value in it."""
        of = self.subject(of)
        if fact == "⊥" or isinstance(fact, Lambda) and fact.body == "⊥":
            return f"{of} is never {code(name)}"
        if isinstance(fact, Lambda):
            case, fact = name if fact.names == "_" else f"{name}({fact.names})", fact.body
        elif takes_value:
            case = f"{name}(value)"
            fact = Apply(fact.head, [*fact.given, "value"]) if isinstance(fact, Apply) else Apply(fact, ["value"])
        else:
            case = name
        return f"if {of} is {code(case)}: {self.fact(fact, is_last)}"

    def by_comment(self, head, given, is_last):
        """A fact by the comment before its definition. One that is no sentence, or is of several, is only named."""
        found = self.meaning(head)
        comment = self.about(found, given) if found else ""
        if comment and is_statement(found.comment) and (is_last or not re.search(r"; |(?<!\.)\. ", found.comment)):
            said = comment if is_last else comment.partition(": ")[0]
            return self.linked(head, lower_first(said).rstrip(".")) + self.which(head, given)
        is_noun = re.match(r"(.*\.)?(Is|Are)[A-Z]", head) and re.match("(the|an?) ", comment)
        if is_noun and (len(given) == 1 or str(given[-1]).startswith("result")):
            return f"{self.thing(given[-1])} is {self.linked(head, noun_of(comment))}"
        if comment:
            self.notes[head] = f"{self.linked(head, code(head))}: {comment}"
        of = in_a_row([self.thing(one) for one in given if not isinstance(one, Lambda)])
        return f"{self.linked(head, code(head))} holds" + (f" of {of}" if of else "")

    def about(self, found, given):
        """The comment of a definition, in HTML, with the arguments that it names by one letter or as code."""
        values = {name: one for name, one in zip(found.names, given) if isinstance(one, str)}
        text = re.sub(r"`([^`]+)`", lambda m: self.thing(values[m[1]]) if m[1] in values else f"<code>{m[1]}</code>",
                      html.escape(found.comment, False))
        for name in values:
            if len(name) == 1 and (name != "a" or text.startswith("a is ")):
                text = re.sub(rf"(?<![\w<>/'-]){name}(?![\w<>'-])", lambda m: self.thing(values[m[0]]), text)
        return text

    def which(self, head, given, is_noun=False):
        """The arguments that the comment of a definition does not make clear. In a noun the result is one of them."""
        found = self.meaning(head)
        comment = found.comment if found else ""
        others = [other for other in self.given.get(head, []) if len(other) == len(given)]
        said = []
        for at, one in enumerate(given):
            name = found.names[at] if found and at < len(found.names) else ""
            is_same = all(other[at] == one for other in others)
            value = self.thing(one) if not isinstance(one, Lambda) else ""
            is_same = is_same and not (is_noun and is_open(one, comment))
            is_told = value == f"the {name}" or value == var(name) and re.search(rf"\b{re.escape(name)}\b", comment)
            if not self.is_clear(name, one, comment, is_same) and not is_told:
                is_needed = name and name not in self.bound_names | self.own_names and value != var(name)
                said.append((f"{var(name)} = " if is_needed else "") + value)
        return f" ({', '.join(said)})" if said else ""

    def is_clear(self, name, one, comment, is_same):
        """Whether a reader knows an argument: it is a name, and the same in all applications in the clause, or the
        comment names it by its letter or as code. A part of a value, a constructor and a bound name are not known."""
        if not isinstance(one, str):
            return isinstance(one, Lambda)
        if one[0] == "⟦" or len(name) == 1 and re.search(rf"\b{name}\b", comment) or f"`{name or one}`" in comment:
            return True
        base = re.sub(r"\.(now|entry|old|new)\b", "", one)
        if "." in base or base[:1].isupper():
            return False
        if base in self.bound_names and not re.search(r"\bth(is|ese)\b", comment):
            return False
        is_name = not one[0].isdigit() and one not in ("true", "false") and not self.meaning(one)
        return is_name and is_same and not (self.has_times and re.search(r"\.(old|new)$", one))

    # ---- values

    def thing(self, term):
        """A value in words."""
        if isinstance(term, str):
            return self.name(term)
        if isinstance(term, Apply) and isinstance(term.head, str):
            return self.computed(term.head, term.given)
        if isinstance(term, Infix) and term.sign in ("&&", "||", "=="):
            return f"whether {self.truth(term)}"
        if isinstance(term, Infix) and term.sign == "++":
            return f"{self.bracketed(term.left)} followed by {self.thing(term.right)}"
        if isinstance(term, Infix) and term.sign == "∷":
            *elements, rest = chain(term, "∷")
            words = [*map(self.thing, elements), *([] if rest == "[]" else [f"and then {self.thing(rest)}"])]
            return f"the list of {', '.join(words)}"
        if isinstance(term, Infix) and term.sign in "+-*/%^":
            return f"{self.operand(term.left)} {term.sign} {self.operand(term.right)}"
        if isinstance(term, Pair):
            return "(" + ", ".join(map(self.thing, term.parts)) + ")"
        if isinstance(term, Part):
            return f"{code(term.names)} of {self.thing(term.of)}"
        if isinstance(term, Record):
            return f"{self.thing(term.base) if term.base else 'a value'} with {code(term.fields)}"
        if isinstance(term, Choice):
            return f"({self.thing(term.then)} if {self.truth(term.test)}, else {self.thing(term.other)})"
        raise Unreadable(term)

    def truth(self, term):
        """What is so if a boolean is true."""
        if isinstance(term, Infix) and term.sign in JOINS:
            return JOINS[term.sign].join(map(self.truth_beside, chain(term, term.sign)))
        if isinstance(term, Infix) and term.sign == "==":
            return self.relation(Infix("≡", term.left, term.right), False)
        if isinstance(term, Apply) and term.head == "not":
            is_equation = isinstance(term.given[0], Infix) and term.given[0].sign == "=="
            opposite = Infix("≢", *term.given[0][1:]) if is_equation else Not(Apply("IsTrue", term.given))
            return self.fact(opposite)
        if isinstance(term, Apply) and term.head == "nat_lt":
            return self.relation(Infix("<", *term.given), False)
        said = self.thing(term)
        return tested(said) or f"{said} is <code>true</code>"

    def truth_beside(self, term):
        """The same beside others, in brackets if it has parts of its own."""
        return f"({self.truth(term)})" if isinstance(term, Infix) and term.sign in JOINS else self.truth(term)

    def subject(self, term):
        """A value as the subject of a sentence: if it has a comma, a comma follows it too."""
        said = self.thing(term)
        return said + "," if has_comma(said) else said

    def bracketed(self, term):
        """A value before others, in brackets if it has a comma."""
        said = self.thing(term)
        return f"({said})" if has_comma(said) else said

    def operand(self, term):
        said = self.thing(term)
        return f"({said})" if " " in unmarked(said) else said

    def name(self, term):
        base = re.sub(r"\.(?:now|entry)\b", "", term)
        if base in NAMES and base not in self.own_names:
            return NAMES[base]
        found = self.meaning(term)
        if found and found.comment:
            is_noun = not found.names and not is_statement(found.comment)
            return self.linked(term, noun_of(found.comment).partition(",")[0] if is_noun else code(term))
        base, time = re.fullmatch(r"(.*?)(?:\.(old|new))?", base).groups()
        return base if base[0].isdigit() else var(base) + {"old": " before", "new": " after"}.get(time, "")

    def computed(self, head, given):
        """The result of a definition."""
        found, short = self.meaning(head), head.rpartition(".")[2]
        if short in TESTS and not found:
            return f"whether {self.truth(Apply(short, given))}"
        if head == "field":
            is_known = given[0] in ("bytes", "bytes.old") and given[0] not in self.own_names
            return self.bits(*given[1:]) + ("" if is_known else f" of {self.thing(given[0])}")
        if head == "with_field":
            return f"{self.thing(given[0])} with {self.thing(given[3])} in {self.bits(*given[1:3])}"
        if head == "slice_range":
            return f"{self.bytes_from(*given[1:])} of {self.thing(given[0])}"
        if head == "with_range":
            return f"{self.thing(given[0])} with {self.thing(given[3])} as {self.bytes_from(*given[1:3])}"
        if head == "option_map" and isinstance(given[0], Lambda) and given[0].body == given[0].names + ".now":
            return self.thing(given[1])
        if short in VALUES and not found:
            first = {"take": self.operand, "drop": self.operand, "is_some": self.subject, "is_none": self.subject}
            return VALUES[short].format(first.get(short, self.thing)(given[0]), *map(self.thing, given[1:]))
        if found and found.comment and (found.is_bool or not is_statement(found.comment)):
            noun, which = noun_of(self.about(found, given)), self.which(head, given, True)
            of = re.fullmatch(r"(.*\b(?:of|in) )(?:an?|the) [\w ]+", noun) if len(given) == 1 and which else None
            if of and "," not in which:  # "the version of an address (src)" is the version of src
                return self.linked(head, of[1] + re.sub(r"^<var>\w+</var> = ", "", which[2:-1]))
            return self.linked(head, noun) + which
        return f"{self.linked(head, code(short))} of {in_a_row([self.thing(one) for one in given])}"

    def bytes_from(self, first, end):
        if str(first).isdigit() and str(end).isdigit():
            return f"bytes {first} to {int(end) - 1}"
        return f"the bytes from {self.operand(first)} to before {self.operand(end)}"

    def bits(self, first, width):
        """A range of bits: a field of the header, if the diagram has one there."""
        if not str(first).isdigit() or not str(width).isdigit():
            return f"{self.thing(width)} bits from bit {self.thing(first)}"
        first, width = int(first), int(width)
        where = f"bits {first} to {first + width - 1}" if width > 1 else f"bit {first}"
        name = self.fields.get((first, width))
        return f"the field <em>{name}</em> ({where})" if name else where

    def linked(self, name, text):
        found = self.meaning(name)
        return f'<a class="w" href="{found.url}" title="{html.escape(name)}">{text}</a>' if found else text
