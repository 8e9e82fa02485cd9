"""The manual pages of the C library and the programs as HTML, made by `c/pages` and `mandoc`."""
import glob
import html
import os
import re
import subprocess
import tempfile

from pages import NAV, code, page, table

# A constant of an enum or a macro, with the comment beside it.
CONSTANT = re.compile(r"^(?: +|#define )(LK_\w+)(?:[ ,(=][^/\n]*)?(?:/\* (.*?) \*/)?", re.M | re.S)
LINK = re.compile(r'<a class="Xr" href="(\w+)\.html">(.*?)</a>', re.S)


def c_pages(top):
    """The pages by their names below the folder of the reference. There are none without mandoc."""
    if "c/index.html" not in NAV:
        return {}
    with tempfile.TemporaryDirectory() as folder:
        subprocess.run([os.path.join(top, "c/pages"), folder], check=True)
        texts, bodies = {}, {}
        for path in sorted(glob.glob(os.path.join(folder, "*.3")) + glob.glob(os.path.join(top, "man/*.1"))):
            name = os.path.basename(path)[:-2]
            with open(path, encoding="utf-8") as file:
                texts[name] = file.read()
            if not texts[name].startswith(".so "):
                bodies[name] = html_of(path)
    page_of = {name: name if name in bodies else re.sub(r"\.so man3/(\w+)\.3\n", r"\1", text)
               for name, text in texts.items()}
    found = {f"c/{name}.html": page(name, linked(body, page_of), "../") for name, body in bodies.items()}
    with open(os.path.join(top, "include/ip_wire.h"), encoding="utf-8") as file:
        constants = constants_of(file.read(), texts)
    found["c/index.html"] = index(texts["ip_wire"], page_of, constants)
    return found


def constants_of(header, texts):
    """The constants of the header, each with the page that explains it first and its comment there."""
    found = {}
    header = re.sub(r"^enum lk_\w+ \{ (.*) \};$", lambda found: "  " + found[1].replace(", ", ",\n  "), header, flags=re.M)
    for name, comment in CONSTANT.findall(header):
        word = re.compile(rf"\b{name}\b")
        named = [page for page, text in texts.items() if page != "ip_wire" and word.search(text)]
        # The call that names the constants of its enum comes first, then one that reads or edits.
        named.sort(key=lambda page: (not page.endswith("_name"), page not in ("lk_read_frame", "lk_set_addr")))
        if named and name not in found:
            found[name] = named[0], " ".join(re.sub(r"\n \* +|\n +\* ", " ", comment).split())
    return found


def html_of(path):
    """A manual page without its title and date, whose headings are below that of the page."""
    command = ["mandoc", "-T", "html", "-O", "fragment,man=%N.html", path]
    body = subprocess.run(command, check=True, stdout=subprocess.PIPE, encoding="utf-8").stdout
    body = re.sub(r'<(table|div) class="(head|foot)".*?</\1>', "", body, flags=re.S)
    return re.sub(r"<(/?)h([12])\b", lambda found: f"<{found[1]}h{int(found[2]) + 1}", body)


def linked(body, page_of):
    """A page whose links lead to pages that exist."""
    def link(found):
        return found[0].replace(found[1], page_of[found[1]], 1) if found[1] in page_of else found[2]
    return LINK.sub(link, body)


def index(overview, page_of, constants):
    """The calls in the groups of man/ip_wire.3, the programs and the constants."""
    def link(name):
        return f'<a href="{page_of[name]}.html">{code(name)}</a>'
    out = [f"<p>The calls of <code>ip_wire.h</code> for C and C++. {link('ip_wire')} has the rules for all calls.</p>"]
    for heading, part in re.findall(r"^\.Ss (.*)\n((?:(?!\.S[sh]).*\n)*)", overview, re.M):
        items = re.findall(r"^\.It Xr (.*)\n(.*)$", part, re.M)
        rows = [(", ".join(map(link, re.findall(r"lk_\w+", names))), says) for names, says in items]
        out.append(f"<h2>{heading}</h2>{table(rows)}" if rows else "")
    programs = [f"<li>{link(name)}</li>" for name in sorted(page_of) if not re.match("lk_|ip_wire$", name)]
    out.append(f"<h2>Programs</h2><ul>{''.join(programs)}</ul>")
    rows = [(f'<a href="{at}.html">{code(name)}</a>', html.escape(says)) for name, (at, says) in constants.items()]
    return page("C calls", "".join(out) + f"<h2>Constants</h2>{table(rows)}", "../")
