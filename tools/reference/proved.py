"""What is proved of each call of the C library, as text: the words of its contract, without links and arguments. Promises
whose words are not readable without the definitions are only counted."""
import html
import re

LIBRARY = "c_exports"
# What only names the parts of a call before and after it.
ARGUMENT = re.compile(r"(?:None|(?:old|new|text|before|after|out) = .*|\w+ (?:before|after))$")
PLAIN = (
    (re.compile(r"\bpos of "), ""),
    (re.compile(r"\b(\w+)\.new\.(\w+(?:\.\w+)*)"), r"`\2` of `\1`"),
    (re.compile(r"\b(\w+)\.(?:now|old)\.(\w+(?:\.\w+)*)"), r"`\2` of `\1`"),
    (re.compile(r"\b(?:Some|IsSomeAnd) of "), ""),
    (re.compile(r"\boption_(?:map|and_then|map_or) of "), ""),
    (re.compile(r"\b(\w+)_(struct|bytes|text)\b"), r"the \2 of \1"),
    (re.compile(r"\bReads(Address|Cidr|Endpoint|Ethernet|Ndisc)\b"), r"`Reads\1`"),
    (re.compile(r" +([.,;)])"), r"\1"),
    (re.compile(r"the length of the longest input or output in bytes"), "LK_MAX_LEN"),
    (re.compile(r" If there are none, a failure is returned; the law failures_are_exact says that there is a failure exactly if "
                r"there are no bytes \((.*?)(?:, the failure of .*)?\)\.$"),
     r" They are \1. If there are none, a failure is returned."),
    (re.compile(r"^(\w+) (after|before)\b"), r"`\1` \2"),
)
# Words that only say the name of a definition, or how the contract is written.
UNREADABLE = re.compile(r"^`\w+ \(|\bholds of\b|\bFor every\b|, where |\b(?:negsuc|Some|Fact|fact|pos|list|min|unwrap_or|step)\b|=<|[=']|\bIn_|"
                        r"\b(?!LK_)\w+_\w+ of\b|\bAsksFor\b|is the struct of frame before|\(the input\)|\(0 without|"
                        r"\(the first bytes|has this size|the sequence number with")


def parts_of(text):
    """The parts of a text between its outermost commas."""
    found, depth = [""], 0
    for letter in text:
        depth += {"(": 1, ")": -1}.get(letter, 0)
        if letter == "," and depth == 0:
            found.append("")
        else:
            found[-1] += letter
    return [part.strip() for part in found]


def without_nested(text):
    """A text without what is in parentheses."""
    before = None
    while before != text:
        before, text = text, re.sub(r" ?\([^()]*\)", "", text)
    return text


def group_at(text):
    """The first outermost pair of parentheses: where it begins and ends."""
    start = text.find("(")
    depth = 0
    for at in range(start, len(text)) if start >= 0 else ():
        depth += {"(": 1, ")": -1}.get(text[at], 0)
        if depth == 0:
            return start, at + 1
    return None


def plain(said):
    """The words of a clause without links, and of arguments only what has words."""
    text, out = html.unescape(re.sub("<[^>]+>", "", said)), ""
    while group := group_at(text):
        start, end = group
        parts = [part for part in parts_of(text[start + 1 : end - 1]) if not ARGUMENT.match(part)]
        parts = [re.sub(r"^\w+ = ", "", without_nested(part)) for part in parts]
        parts = [part for part in parts if " " in part]
        out += text[:start].rstrip() + (f" ({', '.join(parts)})" if parts else "")
        text = text[end:]
    text = out + text
    for pattern, better in PLAIN:
        text = pattern.sub(better, text)
    return text


def promises(pages, call):
    """The words of the promises of a call, or nothing for one without them."""
    clauses = [clause for clause in call.item.clauses if clause.kind == "ensures"]
    for clause in clauses:
        said, _ = pages.words_of(call, clause.text, [other.text for other in clauses])
        text = plain(said) if said else ""
        yield "" if UNREADABLE.search(text) else text


def lines(name, said):
    """The call, with how many of its promises have no words here, and the words of the others."""
    told = list(dict.fromkeys(filter(None, said)))
    return "\n".join([f"{name} {said.count('')}", *(f"- {one}" for one in told)]) + "\n"


def proved(pages):
    """The calls with their promises, one in each line."""
    found = {call.item.name: list(promises(pages, call)) for subject, _, call, _ in pages.calls
             if subject.crate.name == LIBRARY and call.item.name.startswith("lk_")}
    return "".join(lines(name, found[name]) for name in sorted(found))
