"""Reads all crates: their modules and definitions, and what a name in them means.

    for crate in Sources(top).crates.values():
        for module in crate.modules.values(): ...     # src/*.rt, without tests
        for module in crate.specs.values(): ...       # specs/*.antt

`Sources(top, edits)` reads the text of `edits` instead of a file.
"""
import glob
import os
import re
from dataclasses import dataclass

from contracts import ReadError, read_module, read_spec

WORD = re.compile(r"[^\W\d][\w']*")


@dataclass
class Module:
    file: str
    path: tuple  # Of a .rt file its modules, of a .antt file its name
    docs: list
    items: list
    uses: list
    is_inline: bool = False  # It is written in the file of another module.


@dataclass
class Crate:
    name: str
    is_program: bool
    modules: dict  # By path; the root is the empty path.
    specs: dict  # By name; the root is Lib.

    @property
    def is_for_tests(self):
        """Whether it has only tests and what these share."""
        return self.name.startswith("test_")


def words_of(text):
    return set(WORD.findall(text))


def is_named(name, words, text):
    """Whether a text names what is imported under this name. An operator such as `◌≡◌` has no word."""
    return name in words if WORD.fullmatch(name) else all(part in text for part in name.split("◌"))


class Sources:
    """The crates of crates.txt. `edits` has texts that replace files, by path from the top."""

    def __init__(self, top, edits=None):
        self.top, self.edits = top, edits or {}
        self.crates = {}
        for line in self.read("crates.txt").split("\n"):
            head = re.match(r"(\w+):", line)
            if head:
                self.crates[head.group(1)] = self.crate(head.group(1))
        modules = [m for crate in self.crates.values() for m in (*crate.modules.values(), *crate.specs.values())]
        # The names of the items of code that definitions and contracts cite.
        self.declared_names = {name for m in modules for use in m.uses if "declared" in use.path for name in use.path}

    def read(self, file):
        if file in self.edits:
            return self.edits[file]
        with open(os.path.join(self.top, file), encoding="utf-8") as source:
            return source.read()

    def exists(self, file):
        return file in self.edits or os.path.exists(os.path.join(self.top, file))

    def crate(self, name):
        folder = f"crates/{name}"
        root = next((r for r in ("lib", "main") if self.exists(f"{folder}/src/{r}.rt")), None)
        if not root:
            raise ReadError(f"{folder}/src has no lib.rt and no main.rt")
        crate = Crate(name, root == "main", {}, {})
        self.add_module(crate, f"{folder}/src/{root}.rt", ())
        pattern = os.path.join(self.top, folder, "specs", "**", "*.antt")
        for path in sorted(glob.glob(pattern, recursive=True)):
            file = os.path.relpath(path, self.top)
            module = tuple(file[: -len(".antt")].split("/")[3:])
            crate.specs[module] = Module(file, module, *read_spec(self.read(file), file))
        return crate

    def add_module(self, crate, file, path):
        self.add_items(crate, Module(file, path, *read_module(self.read(file), file)))

    def add_items(self, crate, module):
        file, path = module.file, module.path
        crate.modules[path] = module
        base = f"crates/{crate.name}/src/" + "/".join(path)
        for item in module.items:
            if item.kind == "mod" and item.has_body:
                self.add_items(crate, Module(file, (*path, item.name), item.docs, item.items, item.uses, True))
            elif item.kind == "mod":
                names = [f"{base.rstrip('/')}/{item.name}.rt", f"{base.rstrip('/')}/{item.name}/mod.rt"]
                found = next((n for n in names if self.exists(n)), None)
                if not found:
                    raise ReadError(f"{file}: there is no {names[0]}")
                self.add_module(crate, found, (*path, item.name))

    # ---- what a name means

    def meanings(self, crate, module, uses, text):
        """The names of these imports that a text in a module has, each with its full path."""
        words = words_of(text)
        for use in uses:
            if is_named(use.name, words, text):
                yield use.name, self.use_target(crate, module, use)

    def use_target(self, crate, module, use):
        """The full path of an import."""
        is_spec = use.is_ghost or module.file.endswith(".antt")
        return self.spec_target(use.path) if is_spec else self.target(crate.name, module.path, use.path)

    def meaning(self, crate, path, name, depth=0):
        """The full path of a name in a module of a crate, as a tuple, or None."""
        module = self.crates[crate].modules[path]
        if depth > 30:
            raise ReadError(f"{module.file}: {name} is imported in a circle")
        if any(item.name == name and item.kind not in ("impl", "ghost") for item in module.items):
            return (crate, *path, name)
        for use in module.uses:
            if use.name == name and not use.is_ghost:
                return self.target(crate, path, use.path, depth + 1)
        return None

    def target(self, crate, path, names, depth=0):
        """The full path that a `use` of these names in a module means. A name of another crate of the kit stays."""
        first, rest = names[0], names[1:]
        starts = {"crate": (crate,), "self": (crate, *path), "super": (crate, *path[:-1])}
        found = starts.get(first) or self.meaning(crate, path, first, depth) or (first in self.crates and (first,))
        return self.following(found, rest, depth) if found else names

    def following(self, found, names, depth):
        """The meaning of names after a full path."""
        if not names:
            return found
        crate, path = found[0], found[1:]
        if crate not in self.crates or path not in self.crates[crate].modules:
            return (*found, *names)
        inner = self.meaning(crate, path, names[0], depth + 1)
        return self.following(inner, names[1:], depth) if inner else (*found, *names)

    def spec_target(self, names):
        """The full path of an imported definition: through `pub use` lines to the module that defines it, and from a
        declaration to the item of the code."""
        if names[0] != "Rattle" or len(names) < 4 or names[1] not in self.crates or names[2] != "specs":
            return names
        crate = names[1]
        if names[3] == "declared":
            return self.declared(crate, names[4:]) or names
        for size in range(len(names), 3, -1):
            module = self.crates[crate].specs.get(names[3:size])
            if module:
                return self.in_spec(module, names[:size], names[size:])
        for use in self.crates[crate].specs.get(("Lib",), Module("", (), [], [], [])).uses:
            if use.is_public and use.name == names[3]:
                return self.spec_target((*use.path, *names[4:]))
        return names

    def in_spec(self, module, prefix, names):
        if not names or any(d.name == names[0] for d in module.items):
            return (*prefix, *names)
        for use in module.uses:
            if use.is_public and use.name == names[0]:
                return self.spec_target((*use.path, *names[1:]))
        return (*prefix, *names)

    def declared(self, crate, names):
        """The item of the code that a generated module `declared.a.B` is of, with the rest of the names."""
        if "TheVariants" in names:
            at = names.index("TheVariants")
        else:
            at = len(names) - (len(names) > 1 and names[-1] == names[-2])
        found = self.following((crate,), names[:at], 0)
        if found[0] not in self.crates or not any(i.name == found[-1] for i in self.items_at(found[0], found[1:-1])):
            return None
        return (*found, *names[at:]) if "TheVariants" in names else found

    def items_at(self, crate, path):
        module = self.crates[crate].modules.get(path)
        return module.items if module else []

    def exports(self, crate):
        """The public names of a library with what they mean, by their paths from the root."""
        found = {}
        waiting = [((), (crate,))]
        while waiting:
            shown, (owner, *path) = waiting.pop()
            module = self.crates[owner].modules[tuple(path)]
            named = [(it.name, (owner, *path, it.name)) for it in module.items if it.visibility == "pub"]
            named += [(use.name, self.target(owner, tuple(path), use.path)) for use in module.uses if use.is_public and not use.is_ghost]
            for name, target in named:
                if target[0] in self.crates and target[1:] in self.crates[target[0]].modules:
                    waiting.append(((*shown, name), target))
                else:
                    found[(*shown, name)] = target
        return found
