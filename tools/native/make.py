#!/usr/bin/env python3
"""Writes the library in Rust, as a package for cargo: tools/native/make.py [OUT]

OUT is out/native. The text is that of the proved sources without contracts: a line of the package is a line of them, or one
that a path or `rules.py` rewrites. `check.py` compares both. Each crate is a module of one package, whose root exports what
`ip_wire` does. In it are two more packages, for the calls of C and for the program `ip_frames`.

It needs neither the Rattle kit nor cargo. A file that does not change keeps its time, so that cargo does not compile it again.
"""
import pathlib
import re
import shutil
import subprocess
import sys

from conditions import doc_lines
from cut import without_contracts
from rules import (
    BLOCKS, CRATES, EXPORTS, FLAT_MODULES, HERE, PACKAGES, PROGRAM_RULES, PUBLIC, RULES, SEEN_AS, TEST_RULES, TESTS, TOP,
    VECTORS, VIEWS, const_calls, files_of, is_test, modules_of,
)

OWN = HERE / "package"
# Where Debian's packages librust-..-dev put crates. With these no network is needed.
REGISTRY = pathlib.Path("/usr/share/cargo/registry")
DEPENDENCIES = ("arrayvec", "byteorder", "itoa")
DEBIAN = f"""[source.crates-io]
replace-with = "debian"

[source.debian]
directory = "{REGISTRY}"

[net]
offline = true
"""
MODULE = "#[allow(unused, clippy::all)]\nmod {};\n"
VIEW = re.compile(r"\b(?:(\w+)PacketMut|(Ethernet)FrameMut|(Ipv6Fragment)HeaderMut)\b")


def without_vectors(lines, file):
    for function in VECTORS.get(file, ()):
        texts = [line for _, line in lines]
        at = next(i for i, line in enumerate(texts) if re.match(rf"(?:pub(?:\(\w+\))? )?fn {function}\(", line))
        end = texts.index("}", at) + 1
        while re.match(r"//|#\[", texts[at - 1]):
            at -= 1
        del lines[at - (not texts[at - 1]) : end]
    return lines


def with_blocks(lines, file):
    for old, new in BLOCKS.get(file, ()):
        texts = [line for _, line in lines]
        at = next(i for i in range(len(texts)) if texts[i : i + len(old)] == old)
        lines[at : at + len(old)] = [(lines[at][0], line) for line in new]
    return lines


def with_paths(line, crate, package):
    """A path that begins with a crate begins with its module."""
    if line.lstrip().startswith("//"):
        return line
    line = re.sub(r"(?<![\w:$])crate::", f"crate::{crate}::", line)
    if crate == EXPORTS:
        return re.sub(rf"(?<![\w:.])({'|'.join(SEEN_AS)})(?=::)", lambda found: SEEN_AS[found[1]], line)
    return re.sub(rf"(?<![\w:.])(?={'|'.join(name + '::' for name in modules_of(package))})", "crate::", line)


def with_views(line, text):
    """With the types of views beside their aliases, if the file does not export them."""

    def both(found):
        view = next(filter(None, found.groups())) + "View"
        return found[0] if re.search(rf"\b{view}\b", text) else f"{found[0]}, {view}"

    return VIEW.sub(both, line)


def with_pointers(text):
    """Exported calls take a pointer and a length for a slice, as those that Rattle compiles."""

    def head(found):
        lets = []

        def parameter(slice_of):
            name, life, mutable, item = slice_of.groups()
            kind, call = ("mut", "slice_mut") if mutable else ("const", "slice")
            lets.append(f" let {name}: &{life or ''}{mutable or ''}[{item}] = unsafe {{ crate::{call}({name}_at, {name}_len) }};")
            return f"{name}_at: *{kind} {item}, {name}_len: usize"

        parameters = re.sub(r"(\w+): &('\w+ )?(mut )?\[(\w+)\]", parameter, found[2])
        return found[1] + parameters + found[3] + "".join(lets)

    text = re.sub(r"(lk_read_\w+)\(&captured\[\.\.len\], frame\)", r"\1(captured.as_ptr(), len, frame)", text)
    text = re.sub(r"(lk_read_\w+)\(bytes, frame\)", r"\1(bytes.as_ptr(), bytes.len(), frame)", text)
    return re.sub(r"""(extern "C" fn \w+(?:<'\w+>)?\()([^)]*)(\)[^{]*\{)""", head, text)


class Modules:
    """The texts of modules. `met` are the calls of const.txt that were in them."""

    def __init__(self):
        self.docs, self.const, self.met = doc_lines(), set(const_calls()), set()

    def text_of(self, crate, path, place, package):
        text, file = path.read_text(), str(path.relative_to(TOP / "crates"))
        rules = RULES + (PROGRAM_RULES if package == "frames" else TEST_RULES if is_test(crate, path) else [])
        shows_views = crate.startswith("wire_") and path.name == "lib.rt"
        lines = []
        for number, line in with_blocks(without_vectors(without_contracts(text, path), file), file):
            line = with_paths(line, crate, package)
            for _, pattern, other in rules:
                line = re.sub(pattern, other, line)
            lines += (re.match(r" *", line)[0] + doc for doc in self.docs.get((f"crates/{file}", number + 1), ()))
            if shows_views or crate.startswith("wire_") and re.match(r"pub use (?:packet|header)::\{", line):
                line = with_views(line, text)
            lines.append(self.with_const(line, str(place.with_suffix(""))))
        return with_pointers("\n".join(lines)) if crate == EXPORTS else "\n".join(lines)

    def with_const(self, line, place):
        call = re.match(r"\s*pub fn (\w+)", line)
        if not call or (place, call[1]) not in self.const:
            return line
        self.met.add((place, call[1]))
        return line.replace("pub fn", "pub const fn", 1)


def docs_of(crate):
    text = (TOP / "crates" / crate / "src" / "lib.rt").read_text()
    return "".join("///" + line[3:] + "\n" for line in text.split("\n") if line.startswith("//!"))


def seen(crate, indent="    "):
    """What the root of a crate exports, without its laws."""
    text = (TOP / "crates" / crate / "src" / "lib.rt").read_text()
    found = [name for name in re.findall(r"^pub mod (\w+);", text, re.M) if name != "laws"]
    for names in re.findall(r"^pub use (?:\w+::)+(\{[^}]*\}|\w+);", text, re.M):
        found += re.findall(r"\w+", names)
    found += ["IcmpView"] if crate == "wire_icmp" else []
    body = "".join(f"{indent}    {name},\n" for name in sorted(found))
    return f"{indent}pub use crate::{crate}::{{\n{body}{indent}}};\n"


def root(text):
    """The root of the package: the modules, and what users see of them."""
    text = text.replace("// MODULES\n", "".join(MODULE.format(crate) for crate in CRATES))
    text = text.replace("// TESTS\n", "".join("#[cfg(test)]\n" + MODULE.format(crate) for crate in TESTS))
    public = [docs_of(crate) + f"pub mod {name} {{\n{seen(crate)}}}\n" for name, crate in PUBLIC.items()]
    flat = [docs_of(crate) + f"pub mod {name} {{\n{seen(crate)}}}\n" for name, crate in FLAT_MODULES.items()]
    flat = "".join("    " + line + "\n" if line else "\n" for line in "\n".join(flat).rstrip().split("\n"))
    public.append("/// The calls of the C library, on the structs of its header.\npub mod flat {\n" + flat + "}\n")
    views = "".join(f"pub use crate::{crate}::{{{names}}};\n" for crate, names in VIEWS.items())
    return text.replace("// LAYER\n", seen("ip_wire", "") + views).replace("// PUBLIC\n", "\n".join(public))


def own_files():
    """The files that are no text of the sources."""
    version = subprocess.run([TOP / "c" / "version"], check=True, capture_output=True, text=True).stdout.strip()
    for path in OWN.rglob("*.*"):
        # The excerpt of the README is no test of the documentation.
        yield path.relative_to(OWN), path.read_text().replace("VERSION", version).replace("```rust\n", "```rust,ignore\n")
    yield pathlib.Path("frames/src/hex.rs"), (OWN / "src" / "hex.rs").read_text()
    yield pathlib.Path("src/lib.rs"), root((OWN / "src" / "lib.rs").read_text())
    yield pathlib.Path("LICENSE"), (TOP / "LICENSE").read_text()
    for path in [*sorted((TOP / "examples" / "native").iterdir()), TOP / "bench" / "speed.rs"]:
        yield pathlib.Path("examples") / path.name, path.read_text()
    for path in (TOP / "tests" / "native").glob("*.rs"):
        yield pathlib.Path("tests") / path.name, path.read_text()
    if all(list(REGISTRY.glob(f"{name}-[0-9]*")) for name in DEPENDENCIES):
        yield pathlib.Path(".cargo/config.toml"), DEBIAN


def store(out, files):
    """Writes the files that differ, and removes others in their folders."""
    for folder in {str(place.parent) for place in files if str(place.parent) != "."}:
        for old in (out / folder).glob("*"):
            if old.is_file() and old.relative_to(out) not in files:
                old.unlink()
    for place, text in files.items():
        path = out / place
        if not path.exists() or path.read_text() != text:
            path.parent.mkdir(parents=True, exist_ok=True)
            path.write_text(text)


def main():
    out = pathlib.Path(sys.argv[1] if len(sys.argv) > 1 else TOP / "out" / "native")
    if out.exists() and list(out.iterdir()) and not (out / "frames").exists():
        sys.exit(f"make native: {out} is no package of make native")
    files, modules = dict(own_files()), Modules()
    for package, crates in PACKAGES.items():
        for crate in crates:
            for path, place in files_of(crate):
                files[pathlib.Path(package) / "src" / place] = modules.text_of(crate, path, place, package)
    if modules.const - modules.met:
        sys.exit(f"tools/native/const.txt: no such calls: {sorted(modules.const - modules.met)}")
    store(out, files)
    print(out.relative_to(pathlib.Path.cwd()) if out.is_relative_to(pathlib.Path.cwd()) else out)


if __name__ == "__main__":
    main()
