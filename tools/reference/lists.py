"""The pages that list: conditions, laws, definitions with their pins, lemmas, and the index."""
import glob
import html
import re

from model import Call, Module
from pages import code, doc, first_sentence, page, table
from words import plain
from pins import path_of, pins_of
from contracts import imports, spec_lines

# How many calls are named beside a definition.
MOST_CALLS = 12
OPERATORS = {"can_add": "+", "can_sub": "-", "can_add_assign": "+="}
# The headings of the index, and the crates whose types and calls are below them.
GROUPS = {
    "net_base": "Errors and checksum choices", "ip_wire": "Whole frames", "wire_ethernet": "Ethernet",
    "wire_arp": "ARP", "wire_ip": "IP of either version", "wire_ipv4": "IPv4", "wire_ipv6": "IPv6", "wire_udp": "UDP",
    "wire_tcp": "TCP", "wire_tcp_options": "TCP options and sequence numbers", "wire_checksum": "Checksums",
    "wire_addr": "Addresses, CIDR blocks, endpoints and protocol numbers",
    "wire_icmp": "ICMP and neighbor discovery", "app_short": "Short applications",
    "wire_link": "Link-layer headers", "wire_extensions": "IPv6 extension headers", "app_host": "Host",
    "app_router": "Router", "app_nat": "NAT", "app_edit": "Edits of a field",
    "app_fragment": "Fragments", "app_mld": "Multicast listener discovery", "tcp_stream": "TCP streams",
    "app_connection": "TCP connections", "app_congestion": "TCP timers and congestion control",
    "app_options": "TCP options of a connection", "app_socket": "TCP connections with timers",
    "c_exports": "Calls of the C library",
}
# What types come first below a heading, by the end of their names.
ORDER = "Frame", "Packet", "Header", "Repr", "Address", "Cidr"
# A row is shown if words of it begin with all that was typed, or else, if there is none, if it has all of that in it.
SEARCH = """<script>q.hidden=0;{const plain=t=>t.toLowerCase().replace(/[^a-z0-9]+/g," ");
const rows=[...names.querySelectorAll("tr")].map(r=>[r,r.textContent.toLowerCase(),
" "+plain([...r.cells].map(c=>c.textContent).join(" ").replace(/([a-z0-9])([A-Z])/g,"$1 $2"))]);
q.oninput=()=>{const w=q.value.toLowerCase().trim().split(/\\s+/);names.open=q.value.length>1;
let found=rows.filter(r=>w.every(one=>r[2].includes(" "+plain(one))));
if(!found.length)found=rows.filter(r=>w.every(one=>r[1].includes(one)));
const shown=new Set(found.map(r=>r[0]));none.hidden=found.length>0;
for(const r of rows)r[0].hidden=!shown.has(r[0])}}</script>"""
CONDITIONS = """<p>A condition is a fact that the caller must prove before the call. If its conditions are met, every
call of these libraries returns, and is safe on any bytes. <b>A call without a row has no condition.</b></p>
<ul><li>A getter of a view requires only the bytes that it reads. After <code>check_len</code> returns <code>Ok</code>,
every getter may be called, until a length field is written.</li>
<li><code>parse</code> has no condition on the bytes. For UDP and TCP both addresses must have the same IP version.</li>
<li>A program can test each condition with a length or with a call of the library. The exception is the clock of a
timestamp, a function of the caller: only the caller knows when it may be called.</li></ul>
<p>In the tables, <code>bytes</code> are the bytes under a view, and the marks <code>.now</code> and <code>.old</code>
of the contract are left out. A view and its mutable view share a row. Each call leads to its contract.</p>"""


# ---- conditions and laws


def in_table(pages, call, texts):
    """Conditions as the tables have them, in words and as text: without times, and `bytes` are those under a view."""
    texts = [re.sub(r"\.(?:now|old)\b", "", plain(text)) for text in texts]
    return [("".join(pages.words_of(call, text, texts)), f"<code>{pages.linked(text, call)}</code>") for text in texts]


def conditions_of(pages, call):
    """What the caller of a call must prove."""
    return in_table(pages, call, [clause.text for clause in call.item.clauses if clause.kind == "requires"])


def operators(pages, subject):
    """The conditions of operators, with their signs and places: the part `can_..` of a trait."""
    for crate, module, block in pages.reference.blocks(subject):
        for item in block.items:
            if item.kind == "ghost" and item.name in OPERATORS:
                text = item.text.partition(" = ")[2][1:-1].strip()
                sign = OPERATORS[item.name]
                key = in_table(pages, Call(crate, module, block, item), [text])[0]
                yield key, sign, f"{subject.page}#traits", sign


def conditions(pages):
    """Each call with a condition, below its type, and their number. Calls with the same condition share a row."""
    out, count = [CONDITIONS], 0
    for subject in sorted(pages.reference.subjects.values(), key=lambda one: one.title):
        found = [(key, call.item.name, url, url) for of, _, call, url in pages.calls if of is subject
                 for key in conditions_of(pages, call)]
        found += operators(pages, subject)
        count += len({call for _, _, _, call in found})
        rows = {}
        for key, name, url, _ in found:
            rows.setdefault(key, {}).setdefault(name, f'<a href="{url}">{code(name)}</a>')
        if rows:
            shown = [(*key, ", ".join(links.values())) for key, links in rows.items()]
            out.append(f'<h2><a href="{subject.page}">{code(subject.title)}</a></h2>')
            out.append(table(shown, ("Condition", "In the contract", "Calls")))
    rows = [(*key, pages.law_row(law)[0]) for law in pages.reference.laws for key in conditions_of(pages, law)]
    out.append("<h2>Laws</h2><p>A law is a call too: its conditions are its premises.</p>")
    out.append(table(rows, ("Condition", "In the contract", "Law")))
    return page("Conditions of the calls", "".join(out)), count


def laws(pages):
    out = ["<p>A law is a proved function. After a call of it the prover knows what it gives. Most laws do nothing; "
           "one that takes a mutable slice makes the calls that it is about.</p>"]
    for crate in pages.reference.sources.crates.values():
        found = [law for law in pages.reference.laws if law.crate is crate]
        if found:
            out += [f"<h2>{crate.name}</h2>\n", table(map(pages.law_row, found)), *map(pages.law, found)]
    return page("Laws", "".join(out))


# ---- definitions


def called_by(pages, one):
    """The public calls whose contracts name a definition."""
    links = [f'<a href="{url}">{code("::".join(filter(None, (owner, call.item.name))))}</a>'
             for owner, call, url in pages.calls_of(one)]
    more = f" and {len(links) - MOST_CALLS} more" if len(links) > MOST_CALLS else ""
    return f'<p class="pins">Calls: {", ".join(links[:MOST_CALLS])}{more}</p>' if links else ""


def definition(pages, one, file):
    """A definition with the laws that name it. `file` is the text of its file."""
    head = re.search(rf"^(?:[a-z]+ (?:\d+ )?)+{re.escape(one.item.name)}(?=[\s:])", file, re.M)
    line = file.count("\n", 0, head.start()) + 1
    text = "\n  ".join(one.item.lines)
    laws = ", ".join(f'<a href="{pages.law_urls[law.item.name]}">{code(law.item.name)}</a>' for law in one.laws)
    named = f'<p class="pins">Laws: {laws}</p>' if laws else ""
    return (f'<section id="{html.escape(one.item.name)}"><h3>{code(one.item.name)}</h3>{doc([one.comment])}'
            f"<pre>{pages.reference.linked(text, one.crate, one.module)}</pre>{named}{called_by(pages, one)}"
            f"{pages.place(one.module.file, line)}</section>\n")


def definition_pages(pages):
    """The pages of the modules of definitions: the file name, the page and the definitions of each."""
    groups = {}
    for one in pages.reference.definitions.values():
        groups.setdefault(one.url.partition("#")[0], []).append(one)
    given_on = {use.path[1:] for use in pages.reference.sources.crates["ip_wire"].specs[("Lib",)].uses}
    for url, group in groups.items():
        module, crate, name = group[0].module, group[0].crate, ".".join(group[0].module.path)
        text = pages.reference.sources.read(module.file)
        library = "ip_wire" if (crate.name, "specs", *module.path) in given_on else crate.name
        pins, docs = pins_of(module.docs)
        files = ", ".join(code(path) for pin in pins for path in sorted(glob.glob(path_of(pin))))
        body = doc(docs) + (f'<p class="pins">Pinned by {files}</p>' if files else "")
        body += f'<p class="src">ghost use Rattle.{library}.specs.{name}.{{..}};</p>'
        body += "".join(definition(pages, one, text) for one in group)
        yield url, page(f"{name} in {crate.name}", body), group


def definition_index(pages, found):
    out, crate = ["<p>Contracts and laws cite these definitions, which are never run. Bytes are a list of numbers from "
                  "0 to 255, byte 0 first. Laws, recorded rows and models pin them.</p><ul>"], ""
    for url, _, group in found:
        out.append(f"</ul><h2>{group[0].crate.name}</h2><ul>" if group[0].crate.name != crate else "")
        crate, module = group[0].crate.name, group[0].module
        out.append(f'<li><a href="{url}">{".".join(module.path)}</a> {first_sentence(module.docs)}</li>\n')
    return page("Definitions", "".join(out) + "</ul>")


# ---- lemmas


def reached(pages):
    """The files of the modules of proofs that a crate above `ip_wire` reaches, by name."""
    text = pages.reference.sources.read("crates/ip_wire/proofs/Lib.antt")
    listed = re.findall(r"^pub (?:mod|use Rattle\.(\w+)\.proofs\.)\s*(\w+)$", text, re.M)
    return {module: f"crates/{crate or 'ip_wire'}/proofs/{module}.antt" for crate, module in listed}


def lemmas(pages):
    """The public lemmas of the modules of proofs that a crate above `ip_wire` reaches, and their number."""
    out, count = ["<p>The prover finds most proofs of a contract. Where it does not, these lemmas help. A crate that "
                  "lists <code>ip_wire</code> imports each as its module says.</p>"], 0
    for name, file in sorted(reached(pages).items()):
        lines = spec_lines(pages.reference.sources.read(file))
        uses = [line.partition("use ")[2] for _, line, _ in lines if re.match("(pub )?use ", line)]
        module = Module(file, (name,), lines[0][2], [], [use for text in uses for use in imports(text, True, False)])
        crate = pages.reference.sources.crates[file.split("/")[1]]
        found = [(head, docs) for is_inner, line, docs in lines if not is_inner
                 for head in [re.match(r"(?:abbrev )?pub (\S+) : (.*)", line)] if head]
        count += len(found)
        used = f"use Rattle.ip_wire.proofs.{name}.{{..}};"
        out.append(f'<h2 id="{name}">{name}</h2>{doc(module.docs)}<p class="src">{used} {file}</p>\n' if found else "")
        out += [f"<section><h3>{code(head[1])}</h3>{doc(docs)}"
                f"<pre>{pages.reference.linked(head[2], crate, module)}</pre></section>\n" for head, docs in found]
    return page("Lemmas", "".join(out)), count


# ---- the index


def rank(subject):
    """Views first, then values, other types, modules, functions and constants."""
    title = subject.title
    place = next((at for at, end in enumerate(ORDER) if title.endswith(end)), len(ORDER))
    return title.startswith("constants"), title.startswith("functions"), title[0].islower(), place, title


def about(subject):
    """One line about a subject: the names of constants and functions, or what the doc lines of a module or type say."""
    view, (module, item) = subject.view(), subject.items[0]
    if not subject.paths and (" of " in subject.title or not module.docs):
        return ", ".join(code(item.name) for _, item in subject.items)
    return first_sentence(view.docs if view else item.docs if subject.paths else module.docs)


def names(pages, c_index):
    """A row for each name that the search finds: its link, what kind of name it is, and its first sentence."""
    rows = []
    for _, owner, call, url in sorted(pages.calls, key=lambda one: (one[1], one[2].item.name)):
        name = f"{owner}::{call.item.name}" if owner else call.item.name
        rows.append((f'<a href="{url}">{code(name)}</a>', "call", first_sentence(call.item.docs)))
    rows += [(f'<a href="{one.page}">{code(one.title)}</a>', "type", about(one))
             for one in sorted(pages.reference.subjects.values(), key=lambda one: one.title)]
    rows += [(link, "law", sentence) for link, sentence in map(pages.law_row, pages.reference.laws)]
    rows += [(f'<a href="{one.url}">{code(one.item.name)}</a>', "definition", first_sentence([one.comment]))
             for one in pages.reference.definitions.values()]
    c_rows = re.findall(r"<tr><td>(.*?)</td><td>(.*?)</td></tr>", c_index)
    return rows + [(links.replace('href="', 'href="c/'), "C constant" if ">LK_" in links else "C call", says)
                   for links, says in c_rows]


def index(pages, c_index):
    groups = []
    for crate, heading in GROUPS.items():
        found = sorted((one for one in pages.reference.subjects.values() if one.crate.name == crate), key=rank)
        items = [f'<li><a href="{one.page}">{html.escape(one.title)}</a> <small>{about(one)}</small></li>\n'
                 for one in found]
        groups.append(f'<div><h2>{heading}</h2><p class="src">{crate}</p><ul>{"".join(items)}</ul></div>')
    rows = names(pages, c_index)
    return page("ip_wire reference", f'''<p>Every public type and call of the libraries for Rattle, made from the
sources. <b>needs</b> is a condition that the caller proves, <b>gives</b> is a promise that the caller then knows. Below
the words is the text of the contract.</p>
<p><input id="q" placeholder="Search" aria-label="Search" hidden></p>
<details id="names"><summary>All {len(rows)} calls, types, laws, definitions and C constants</summary>{table(rows)}
<p id="none" hidden>Nothing found.</p></details>
<div class="groups">{"".join(groups)}</div>{SEARCH}''')
