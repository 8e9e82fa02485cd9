"""What the reference shows: the public types, calls, laws and definitions of the sources, their pages and links."""
import html
import os
import re
import sys
from dataclasses import dataclass, field

sys.path.insert(0, os.path.dirname(os.path.dirname(os.path.abspath(__file__))))
from contracts import Item  # noqa: E402
from sources import Crate, Module, Sources  # noqa: E402

# The libraries that a program in Rattle names.
LIBRARIES = (
    "net_base", "ip_wire", "wire_icmp", "app_short", "wire_link", "wire_extensions", "app_host", "app_router", "app_nat",
    "app_edit", "app_fragment", "app_mld", "tcp_stream", "app_connection", "app_congestion", "app_options", "app_socket",
    "c_exports",
)
VIEW = re.compile(r"= (\w+View)<")
NAME = re.compile(r"[^\W\d][\w'-]*(?:\.[^\W\d][\w'-]*)?")


@dataclass
class Call:
    """A function with the crate, module and block in which it is."""

    crate: Crate
    module: Module
    block: Item
    item: Item

    @property
    def uses(self):
        return self.block.uses if self.block else []


@dataclass
class Subject:
    """What has a page: a type with its views, a module, or the constants or functions of a crate."""

    title: str
    crate: Crate
    imported: str  # how a program names it in a `use`
    page: str
    paths: set = field(default_factory=set)  # of the types
    items: list = field(default_factory=list)  # pairs of the module and the item

    @property
    def names(self):
        return {path[-1] for path in self.paths}

    def view(self):
        """The struct under the two types of a view."""
        return next((item for module in self.crate.modules.values() for item in module.items
                     if item.kind == "struct" and item.name in self.names and item.name.endswith("View")), None)


@dataclass
class Meaning:
    """What a name means: a page; of a definition also its comment, its parameters and whether it computes a boolean."""

    url: str
    comment: str = ""
    names: list = field(default_factory=list)
    is_bool: bool = False


@dataclass
class Definition(Meaning):
    crate: Crate = None
    module: Module = None
    item: object = None
    laws: list = field(default_factory=list)  # Those that name it.


def parameters(lines):
    """The parameters of a definition, if one equation or a record defines it."""
    if re.match(r"(pub )*record\b", lines[0]):
        return [name for names in re.findall(r"\(([^():]+) : ", lines[0]) for name in names.split()]
    names = lines[1].partition("=")[0].split()[1:] if len(lines) == 2 else []
    names = [name for name in names if not name.startswith("{")]
    return [] if re.search(r"[()\[\]{}]", "".join(names)) else names


def file_name(title):
    return re.sub(r"\W+", "_", title) + ".html"


class Reference:
    def __init__(self, top):
        self.sources = Sources(top)
        self.definitions, self.subjects, self.page_of = {}, {}, {}
        for crate in self.sources.crates.values():
            for module in crate.specs.values():
                self.add_definitions(crate, module)
        for library in LIBRARIES:
            for shown, path in sorted(self.sources.exports(library).items()):
                if "laws" not in shown and path[0] in self.sources.crates:
                    self.add(library, shown, path)
        modules = [(crate, module) for crate in self.sources.crates.values() for module in crate.modules.values()]
        self.laws = [Call(crate, module, None, item) for crate, module in modules
                     if "laws" in module.path and not crate.is_for_tests and not crate.name.startswith("promises")
                     for item in module.items if item.kind == "fn" and item.visibility == "pub"]
        for law in self.laws:
            text = " ".join(clause.text for clause in law.item.clauses)
            named = (self.of_word(law.crate, law.module, (), word) for word in dict.fromkeys(NAME.findall(text)))
            for definition in {id(one): one for one in named if isinstance(one, Definition)}.values():
                definition.laws.append(law)

    # ---- pages

    def add_definitions(self, crate, module):
        page = file_name(f"spec {crate.name} {'.'.join(module.path)}")
        for item in module.items:
            if not re.match(r"(pub )*mod$", item.kind):
                is_bool = item.lines[0].endswith("→ Bool")
                self.definitions[("Rattle", crate.name, "specs", *module.path, item.name)] = Definition(
                    f"{page}#{item.name}", " ".join(map(str.strip, item.docs)), parameters(item.lines), is_bool, crate, module, item)

    def add(self, library, shown, path):
        """Adds an exported name to its page."""
        if path in self.page_of:
            return
        crate = self.sources.crates[path[0]]
        prefix, name, module = "::".join([library, *shown[:-1]]), shown[-1], crate.modules.get(path[1:])
        if module:
            items = [item for item in module.items if item.kind == "fn" and item.visibility == "pub"]
            self.page_of[path] = self.subject(f"{prefix}::{name}", crate, f"{prefix}::{name}", set(), module, items)
            return
        module = crate.modules[path[1:-1]]
        item = next(item for item in module.items if item.name == path[-1])
        if item.kind in ("const", "fn"):
            kind = {"const": "constants", "fn": "functions"}[item.kind]
            title, imported = (prefix, prefix) if shown[1:] else (f"{kind} of {crate.name}", prefix + "::{..}")
            self.page_of[path] = self.subject(title, crate, imported, set(), module, [item])
            return
        view = VIEW.search(item.text) if item.kind == "type" else None
        title = re.sub("Mut$", "", name) if view else name
        paths = {path, (*path[:-1], view[1] if view else name)}
        imported = f"{prefix}::{{{title}, {title}Mut}}" if view else f"{prefix}::{title}"
        page = self.subject(title, crate, imported, paths, module, [item])
        self.page_of.update((path, page) for path in paths)

    def subject(self, title, crate, imported, paths, module, items):
        """The page of a subject, to which these items are added."""
        page = file_name(title)
        if page in self.subjects and self.subjects[page].crate is not crate:
            page = file_name(f"{crate.name} {title}")
        subject = self.subjects.setdefault(page, Subject(title, crate, imported, page))
        subject.paths |= paths
        subject.items += [(module, item) for item in items]
        return page

    def blocks(self, subject):
        """The blocks for the types of a subject, with their crates and modules."""
        names = subject.names
        return [(crate, module, block) for crate in self.sources.crates.values() for module in crate.modules.values()
                for block in module.items if block.kind == "impl" and block.owner() in names
                and self.sources.meaning(crate.name, module.path, block.owner()) in subject.paths]

    def law_anchor(self, law):
        """The name of a law, with its module if another law has the same name."""
        twice = sum(other.item.name == law.item.name for other in self.laws) > 1
        return ".".join([*law.module.path, law.item.name]) if twice else law.item.name

    # ---- links

    def meaning(self, crate, module, uses, name):
        """What a name in the text of a definition or contract means, or None."""
        head, _, rest = name.partition(".")
        for use in (use for use in [*uses, *module.uses] if use.name == head):
            path = self.sources.use_target(crate, module, use)
            full = ("Rattle", *path[1:], rest)
            found = self.definitions.get(full) or self.definitions.get(path)
            if found:
                return found
            if path in self.page_of:
                return Meaning(self.page_of[path])
        return self.definitions.get(("Rattle", crate.name, "specs", *module.path, head)) if is_spec(module) else None

    def of_word(self, crate, module, uses, name):
        """What a word of a text means: the whole word, the part before its dot, or an item of the code."""
        found = self.meaning(crate, module, uses, name) or self.meaning(crate, module, uses, name.partition(".")[0])
        if found or is_spec(module) or module.path not in crate.modules:
            return found
        path = self.sources.meaning(crate.name, module.path, name)
        return Meaning(self.page_of[path]) if path in self.page_of else None

    def linked(self, text, crate, module, uses=()):
        """Code as HTML, with a link for each name that has a definition or page."""
        out, last = [], 0
        for found in NAME.finditer(text):
            is_member = found.start() > 0 and text[found.start() - 1] == "."
            meaning = None if is_member else self.of_word(crate, module, uses, found.group())
            if meaning:
                tip = f' title="{html.escape(meaning.comment)}"' if meaning.comment else ""
                link = f'<a href="{meaning.url}"{tip}>{html.escape(found.group())}</a>'
                out += [html.escape(text[last : found.start()]), link]
                last = found.end()
        return "".join(out) + html.escape(text[last:])


def is_spec(module):
    return module.file.endswith(".antt")


def fields_of(crate, module):
    """The names of the fields that the calls of a module read and write, by first bit and width."""
    found = {}
    for spec in crate.specs.values():
        items = {definition.name: definition for definition in spec.items}
        name = spec.path[-1]
        if "diagram" in items and "write_of" in items and name.lower().replace("fields", "") in module.path:
            widths = list(map(int, re.findall(r"\b\d+\b", items["diagram"].lines[-1].partition("=")[2])))
            for setter, index in re.findall(r"set\.(\w+)[^)]*\) = \((\d+)", " ".join(items["write_of"].lines)):
                first = sum(widths[: int(index)])
                found.setdefault((first, widths[int(index)]), re.sub(r"(?<!^)(?=[A-Z])", " ", setter).lower())
    return found
