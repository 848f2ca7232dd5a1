#!/usr/bin/env python3
"""Makes the contract book: each public call with what it asks and gives, and each definition that a clause cites, linked.

    bench/book.py            writes static pages to out/book, and ends with 1 where something is missing
    bench/book.py --count    says only what is missing

It fails on a crate, a module, a public call or a public type without a sentence, a definition without a comment, a name in
a clause or a definition that it can't find, a call or a clause of docs/PROMISES.md that isn't there, and a dead link, also of a
document. It reads crates.txt, the documents, of the tour both pictures, and of each crate src/, specs/ and the first lines of proofs/.
"""
import html
import json
import os
import re
import sys
import textwrap

sys.dont_write_bytecode = True
from contracts import FIELD, TOP, WORD, Book, Definition, bounds_of, cited_in, clause_text, keepers_among, may_keep, parameters_of, read_lines

OUT = f"{TOP}/out/book"

# The heading below which the tour tells of the machine.
MACHINE = "\n## A transaction's way, on threads\n"
# Where each tower of the tour's picture stands on a wide page.
PLACES = ["program program program threads", "runs runs runs threads", "images log home threads", "texts log home threads", "base base base base", "tests tests tests tests"]
# The clause that the book begins with: its crate, its call, its name, and the definition that it cites.
HEADLINE = ("dude_program", "dude", "headline", ("Headline", "Headline"))

STYLE = """
:root { color-scheme: light dark; --ink: #1d2329; --paper: #fcfcfa; --soft: #545e68; --line: #d8dde3; --box: #f1f3f0; --link: #0b5c8a; --mark: #fff3c4; --band: #0b5c8a; }
@media (prefers-color-scheme: dark) { :root { --ink: #dde3e8; --paper: #14181c; --soft: #9aa6b1; --line: #323b44; --box: #1d2329; --link: #7cc4ee; --mark: #4a4020; --band: #7cc4ee; } }
* { box-sizing: border-box; }
html { scroll-padding-top: 1rem; }
body { margin: 0 auto; max-width: 64rem; padding: 1rem 1.2rem 4rem; background: var(--paper); color: var(--ink); font: 1rem/1.55 Georgia, 'Times New Roman', serif; overflow-wrap: anywhere; }
nav, h1, h2, h3, .kind, .used, .tower, .letters, .names, input { font-family: system-ui, 'DejaVu Sans', sans-serif; }
nav { display: flex; flex-wrap: wrap; gap: .4rem 1.1rem; padding-bottom: .6rem; border-bottom: 1px solid var(--line); font-size: .9rem; }
h1 { font-size: 1.6rem; line-height: 1.25; margin: 1.2rem 0 .6rem; } h2 { font-size: 1.2rem; margin: 2.2rem 0 .5rem; padding-top: .6rem; border-top: 1px solid var(--line); } h3 { font-size: 1rem; margin: 1.8rem 0 .3rem; }
p { margin: .5rem 0; } a { color: var(--link); text-decoration: none; } a:hover { text-decoration: underline; }
code { font: .9em ui-monospace, 'DejaVu Sans Mono', monospace; }
pre { margin: .4rem 0; padding: .6rem .8rem; background: var(--box); border-radius: .3rem; font: .82rem/1.5 ui-monospace, 'DejaVu Sans Mono', monospace; white-space: pre-wrap; tab-size: 4; }
.said { font-size: 1.1rem; padding-left: .9rem; border-left: .25rem solid var(--band); }
.block { display: block; white-space: pre; overflow-x: auto; font-size: .8rem; }
.gap { display: block; height: .5rem; }
.kind, .used { color: var(--soft); font-size: .85rem; } h3 .kind { font-weight: normal; margin-left: .4rem; }
.clause { margin: .6rem 0 .6rem 1rem; padding-left: .7rem; border-left: 2px solid var(--line); } .clause b { font: bold .85rem system-ui, 'DejaVu Sans', sans-serif; } .clause p { display: inline; color: var(--soft); }
:target { background: var(--mark); }
.names { font-size: .9rem; } .names a { display: inline-block; margin-right: .8rem; } .letters a { display: inline-block; padding: .1rem .4rem; }
.towers { display: grid; gap: .7rem; margin: 1.2rem 0; }
.tower { border: 1px solid var(--line); border-radius: .4rem; padding: .5rem .6rem; } .tower h2 { margin: 0 0 .3rem; padding: 0; border: 0; font-size: .95rem; color: var(--soft); }
.floor { display: flex; flex-wrap: wrap; gap: .3rem; padding: .25rem 0; border-top: 1px dashed var(--line); }
.floor a { flex: 1 1 auto; text-align: center; background: var(--box); border-radius: .25rem; padding: .2rem .45rem; font-size: .85rem; }
input { width: 100%; padding: .5rem .7rem; font-size: 1rem; border: 1px solid var(--line); border-radius: .3rem; background: var(--box); color: var(--ink); }
table { border-collapse: collapse; width: 100%; font-size: .92rem; } th, td { text-align: left; vertical-align: top; padding: .3rem .5rem .3rem 0; border-bottom: 1px solid var(--line); } th { font-family: system-ui, 'DejaVu Sans', sans-serif; }
ul { padding-left: 1.2rem; } li { margin: .15rem 0; }
@media (min-width: 56rem) { .towers { grid-template-columns: 1fr 1fr 1fr 1fr; grid-template-areas: AREAS; } .tower { grid-area: var(--place); } }
@media (max-width: 40rem) { body { padding: .7rem .8rem 3rem; } pre { font-size: .75rem; padding: .5rem; } .clause { margin-left: 0; } h1 { font-size: 1.35rem; } }
@media print { :root { color-scheme: light; --ink: #000; --paper: #fff; --soft: #444; --line: #ccc; --box: #fff; --link: #000; --mark: #fff; --band: #000; } nav, input, .letters { display: none; } .block { white-space: pre-wrap; } body { max-width: none; padding: 0; font-size: 10pt; } pre { border: 1px solid #ccc; } h3 { break-after: avoid; } .clause { break-inside: avoid; } }
"""

SEARCH = """
<input id="search" placeholder="Search: persist, Crash, recovers .." aria-label="Search" autocomplete="off" hidden><ul id="found"></ul>
<script src="words.js"></script><script>
const field = document.getElementById('search'), found = document.getElementById('found');
field.hidden = false;
function search() {
  const asked = field.value.trim().toLowerCase();
  const rank = it => { const own = it[0].toLowerCase().split('.').pop(), at = own.indexOf(asked); return own === asked ? 0 : at < 0 ? 1000 : at * 40 + own.length; };
  const rows = asked.length < 2 ? [] : WORDS.filter(it => (it[0] + ' ' + it[2]).toLowerCase().includes(asked));
  rows.sort((a, b) => rank(a) - rank(b));
  found.replaceChildren(...rows.slice(0, 40).map(([word, link, what]) => {
    const row = document.createElement('li'), one = document.createElement('a');
    one.href = link; one.textContent = word; row.append(one, ' ' + what);
    return row;
  }));
}
field.addEventListener('input', search);
search();
</script>
"""


def page(name, title, body):
    top = '<nav><a href="index.html">Contract book</a><a href="headline.html">The headline</a><a href="promises.html">Promises</a><a href="machine.html">The machine</a><a href="safe.html">Safe and total</a><a href="words.html">All words</a></nav>'
    with open(f"{OUT}/{name}", "w", encoding="utf-8") as it:
        it.write(
            f'<!doctype html><html lang="en"><head><meta charset="utf-8"><meta name="viewport" content="width=device-width, initial-scale=1">'
            f'<title>{html.escape(title)}</title><link rel="stylesheet" href="book.css"></head><body>{top}<h1>{html.escape(title)}</h1>{body}</body></html>\n'
        )


def sentence(text):
    """A comment as a sentence: it begins with a capital where its first word is no name, and ends with a stop."""
    first = re.match(r"[a-z]{2,}(?=[ ,:;])|[aA] ", text)
    text = text[:1].upper() + text[1:] if first else text
    return text + "." if text and text[-1].isalnum() or text.endswith((")", "`")) else text


def prose(text):
    """A comment as text: its paragraphs, and names between back quotes as code."""
    blocks = []
    for k, block in enumerate(text.split("\n\n")):
        shown = html.escape(textwrap.dedent(block) if block.startswith("   ") else sentence(block), quote=False)
        blocks.append(f'<code class="block">{shown}</code>' if block.startswith("   ") else re.sub(r"`([^`]*)`", r"<code>\1</code>", shown))
    return '<span class="gap"></span>'.join(blocks)


def first(text):
    return prose(text.split("\n\n")[0])


def linked(book, lines, imports, module=None, own=None):
    """A text of clauses or definitions, each name that the repository defines as a link."""

    def one(found):
        name = found[0]
        to = None if name == own else book.find(name, imports, module)
        if not to:
            return name
        said = to.comment if isinstance(to, Definition) else to.sentence
        return f'<a href="{to.link()}" title="{html.escape(sentence(said))}">{name}</a>'

    texts = []
    for line in lines:
        text, dashes, said = html.escape(line, quote=False).partition("-- ")
        field = FIELD.match(text)
        at = field.end() if field else 0
        texts.append(text[:at] + re.sub(r"(?<![\w.&'])" + WORD.pattern, one, text[at:]) + dashes + said)
    return "\n".join(texts)


def definition_text(book, module, one):
    users = sorted(one.used_by.items(), key=lambda it: it[1])
    used = ", ".join(f'<a href="{link}">{html.escape(label)}</a>' for link, label in users[:12]) + (f" and {len(users) - 12} more" if len(users) > 12 else "")
    return (
        f'<h3 id="{one.name}">{one.name}</h3><p>{prose(one.comment)}</p><pre>{linked(book, one.text, module.imports, module, one.name)}</pre>'
        + (f'<p class="used">Cited by {used}.</p>' if used else "")
    )


def clause_html(book, call, before, text):
    """A clause: its name, or what it is where it has none; its sentence; its text."""
    name = re.match(r"(requires|ensures)\*?\s*([\w-]*)", text[0])
    place = f' id="{call.anchor()}.{name[1]}.{name[2]}"' if name[2] else ""
    said = f" <p>{prose(before)}</p>" if before else ""
    return f'<div class="clause"{place}><b>{name[1]} {name[2]}</b>{said}<pre>{linked(book, strip_braces(text), call.imports)}</pre></div>'


def strip_braces(text):
    """A clause's fact alone."""
    whole = "\n".join(clause_text(text)).strip().rstrip(";")
    whole = whole.removesuffix("{}").strip() if whole.endswith("{}") else whole
    return whole.removeprefix("{").removesuffix("}").strip().split("\n")


def call_text(book, call):
    rows = "".join(clause_html(book, call, before, text) for before, text in call.clauses)
    return (
        f'<h3 id="{call.anchor()}">{html.escape(call.shown())}<span class="kind">{f"by {call.trait}, " if call.trait else ""}{call.file}</span></h3><p>{prose(call.sentence)}</p>'
        f"<pre>{linked(book, call.signature, {name: it for name, it in call.imports.items() if it[1] == 'code' or it[1].startswith('declared.')})}</pre>{rows}"
    )


def type_html(one):
    return f'<h3 id="{one.anchor()}">{one.name}<span class="kind">{one.file}</span></h3><p>{prose(one.sentence)}</p><pre>{html.escape(chr(10).join(one.text))}</pre>'


def names_of(links):
    return '<p class="names">' + " ".join(f'<a href="{link}">{html.escape(name)}</a>' for name, link in links) + "</p>"


def write_crate(book, crate):
    below = ", ".join(f'<a href="{it}.html">{it}</a>' if it in book.crates else it for it in book.crates[crate]) or "nothing"
    above = ", ".join(f'<a href="{it}.html">{it}</a>' for it in book.above[crate]) or "nothing"
    body = f'<p>{prose(book.sentences[crate])}</p><p class="kind">Stands on {below}. Under {above}.</p>'
    modules = [it for (of, _), it in book.modules.items() if of == crate]
    if modules:
        body += "<h2>Definitions</h2><ul>" + "".join(f'<li><a href="{crate}.{it.name}.html">{it.name}</a>: {first(it.sentence)}</li>' for it in modules) + "</ul>"
    for title, calls in (("Public calls", [it for it in book.calls[crate] if not it.is_inner]), ("Calls between its files", [it for it in book.calls[crate] if it.is_inner])):
        if calls:
            body += f"<h2>{title}</h2>" + names_of([(it.shown(), f"#{it.anchor()}") for it in calls]) + "".join(call_text(book, it) for it in calls)
    if book.hands_on[crate]:
        body += "<h2>Names of other crates</h2><ul>" + "".join(f'<li>of <a href="{it}.html">{it}</a>: {", ".join(names)}</li>' for it, names in book.hands_on[crate]) + "</ul>"
    types = list(book.types[crate].values())
    if types:
        body += "<h2>Types and constants</h2>" + names_of([(it.name, f"#{it.anchor()}") for it in types]) + "".join(type_html(it) for it in types)
    lemmas = [it for it in book.lemmas[crate] if it[1]]
    if lemmas:
        body += "<h2>Proofs</h2><ul>" + "".join(f"<li>{name}: {first(said)}</li>" for name, said in lemmas) + "</ul>"
    page(f"{crate}.html", crate, body)
    for module in modules:
        body = f'<p>{prose(module.sentence)}</p><p class="kind">Of <a href="{crate}.html">{crate}</a>.</p>' + names_of([(it.name, f"#{it.name}") for it in module.definitions])
        page(f"{crate}.{module.name}.html", f"{crate}: {module.name}", body + "".join(definition_text(book, module, it) for it in module.definitions))


def towers():
    """The towers of the tour's picture, from the top down: of each its name and its floors of crates, between which dots stand."""
    with open(f"{TOP}/docs/TOUR.md", encoding="utf-8") as it:
        lines = re.search(r"(?:^    .*\n)+", it.read(), re.M)[0].split("\n")
    rows = [line.split(maxsplit=1) for line in lines if line.strip()]
    return [(name, [re.findall(r"\w+", floor) for floor in floors.split(" . ")]) for name, floors in rows]


def picture(book):
    rows = []
    for name, floors in towers():
        shown = ""
        for floor in floors:
            links = "".join(f'<a href="{it}.html" title="{html.escape(sentence(book.sentences[it]))}">{it}</a>' for it in floor if it in book.crates)
            shown += f'<div class="floor">{links}</div>' if links else ""
        rows.append(f'<div class="tower" style="--place: {name}"><h2>{name.capitalize()}</h2>{shown}</div>')
    return f'<div class="towers">{"".join(rows)}</div>'


def below_of(book, start):
    """The definitions that these cite, and those that these cite, level by level."""
    levels, seen, now = [], {start.link()}, [start]
    while now:
        levels.append(now)
        following = []
        for one in now:
            module = book.modules[one.crate, one.module]
            for name in sorted(cited_in(one.text)):
                other = book.find(name, module.imports, module)
                if isinstance(other, Definition) and other.link() not in seen:
                    seen.add(other.link())
                    following.append(other)
        now = following
    return levels


def write_headline(book):
    crate, name, clause, (module, definition) = HEADLINE
    call = next((it for it in book.calls.get(crate, []) if it.name == name), None)
    start = book.defined(crate, module, definition)
    if not call or not start:
        book.miss(f"headline: {crate} has no {name} or no {definition}")
        page("headline.html", "The headline", "<p>It isn't found.</p>")
        return
    levels = below_of(book, start)
    said = book.modules[crate, module].sentence.split("\n\n")
    body = "".join(f'<p{"" if k else " class=said"}>{prose(it.removeprefix("The headline: "))}</p>' for k, it in enumerate(said))
    body += f'<p class="kind">It is a clause of the public call <a href="{call.link()}">{name}</a>. Below it stands each definition that it cites, and each that these cite, down to those that cite nothing: {sum(map(len, levels))} in {len(levels)} steps.</p>'
    body += "<h2>The clause</h2>" + "".join(clause_html(book, call, before, text) for before, text in call.clauses if re.match(rf"ensures\*? {clause}\b", text[0]))
    for depth, level in enumerate(levels):
        body += f"<h2>{'What it says' if not depth else f'Step {depth}'}</h2>" + (names_of([(it.name, f"#{it.crate}.{it.module}.{it.name}") for it in level]) if depth else "")
        for one in level:
            own = book.modules[one.crate, one.module]
            body += (
                f'<h3 id="{one.crate}.{one.module}.{one.name}"><a href="{one.link()}">{one.name}</a><span class="kind">{one.crate}</span></h3><p>{prose(one.comment)}</p>'
                f"<pre>{linked(book, one.text, own.imports, own, one.name)}</pre>"
            )
    page("headline.html", "The headline", body)


def write_promises(book):
    rows = ""
    for said, calls, clauses in book.promises:
        shown = ", ".join(f'<a href="{call.link()}">{html.escape(name)}</a>' if call else html.escape(name) for name, call in calls)
        named = ", ".join(f'<a href="{clause_link(ones[0], name)}">{html.escape(name)}</a>' if ones else html.escape(name) for name, ones in clauses)
        rows += f"<tr><td>{prose(said.strip('*'))}</td><td>{shown}</td><td>{named}</td></tr>"
    body = "<p>Each line is carried by a clause of a public call. <code>docs/PROMISES.md</code> has them too, with what only tests show, what is neither proved nor tested, and what is trusted.</p>"
    page("promises.html", "Promises", f"{body}<table><tr><th>Promise</th><th>Public call</th><th>Clause</th></tr>{rows}</table>")


def write_machine(book):
    """What the tour says of the machine of running transactions with its medium, and its picture."""
    with open(f"{TOP}/docs/TOUR.md", encoding="utf-8") as it:
        told = it.read().partition(MACHINE)[2].partition("\n|")[0].strip("\n")
    if not told:
        book.miss(f"docs/TOUR.md: no {MACHINE.strip()}")
    body = ""
    for part in re.split(r"\n\n+(?=\S)|(?<=\S)\n\n+(?= )", told):
        if part.startswith("    "):
            body += f"<pre>{html.escape(textwrap.dedent(part))}</pre>"
        else:
            body += "<p>" + re.sub(r"[*](\w+(?: \w+)*)[*]", r"<em>\1</em>", prose(" ".join(part.split()))) + "</p>"
    links = [("core_step", "dude_core"), ("law_of_machines", "core_medium"), ("law_of_crashes", "core_medium"), ("law_of_marks", "core_medium")]
    page("machine.html", "The machine", body + names_of([(name, f"{crate}.html#{name}") for name, crate in links]))


def write_safety(book):
    """What each public call may take: memory, through which of its arguments, and handles."""
    fields, keeping = keepers_among(book.sources)
    rows, none = "", 0
    for crate, calls in book.calls.items():
        for call in calls:
            through = [name for name, kinds in parameters_of(call) if any(may_keep(it, fields, keeping) for it in kinds)]
            handles = sorted(bounds_of(call) & {"Threads", "Wait", "Net", "Processes"})
            none += not through
            if "Wait" in handles:
                book.miss(f"{crate}: {call.shown()} may wait, which the page of what calls take denies")
            returns = "unless it waits" if "Wait" in handles else "once its threads have" if handles else "always"
            memory = ", ".join(f"<code>{it}</code>" for it in through) or "none"
            rows += f'<tr><td><a href="{call.link()}">{html.escape(call.shown())}</a></td><td>{crate}</td><td>{memory}</td><td>{", ".join(handles) or "none"}</td><td>{returns}</td></tr>'
    body = (
        "<p>Every function is proved safe: no index out of range, no sum that wraps, no cast that loses bits, no zero divisor, no use after free. "
        "And it returns. No call has the handle to wait, so none waits but for the threads that it started.</p>"
        f"<p>A call takes memory only through an argument that is, or keeps, an allocator; these are named, and {none} calls have none. "
        "What an argument of a type parameter does, as a medium or a sink, is its own. Want of memory is an answer, never an end.</p>"
    )
    page("safe.html", "What each call takes", f"{body}<table><tr><th>Public call</th><th>Crate</th><th>Memory through</th><th>Handles</th><th>Returns</th></tr>{rows}</table>")


def clause_link(call, name):
    """The place of a clause; where it has no name, that of its call."""
    clause = name.split(".")[0]
    has = any(re.match(rf"ensures\*? {clause}\b", text[0]) for _, text in call.clauses)
    return f"{call.crate}.html#{call.anchor()}.ensures.{clause}" if has else call.link()


def words_of(book):
    rows = [(it.name, it.link(), f"{it.crate}: {sentence(it.comment)}") for module in book.modules.values() for it in module.definitions]
    rows += [(call.shown(), call.link(), f"{crate}: {sentence(call.sentence)}") for crate, calls in book.calls.items() for call in calls]
    rows += [(it.name, it.link(), f"{it.crate}: {sentence(it.sentence)}") for types in book.types.values() for it in types.values() if it.is_public]
    rows += [(crate, f"{crate}.html", sentence(text)) for crate, text in book.sentences.items()]
    return sorted(rows, key=lambda it: (it[0].lower(), it[2]))


def write_words(rows):
    with open(f"{OUT}/words.js", "w", encoding="utf-8") as it:
        it.write("const WORDS = " + json.dumps([[word, link, textwrap.shorten(what.replace("`", ""), 160, placeholder=" ..")] for word, link, what in rows], ensure_ascii=False) + ";\n")
    letters, body, last = [], "", ""
    for word, link, what in rows:
        if word[:1].upper() != last:
            last = word[:1].upper()
            letters.append((last, f"#letter-{last}"))
            body += f'{"</ul>" if body else ""}<h2 id="letter-{last}">{html.escape(last)}</h2><ul>'
        body += f'<li><a href="{link}">{html.escape(word)}</a> {prose(what)}</li>'
    jumps = '<p class="letters">' + "".join(f'<a href="{link}">{html.escape(it)}</a>' for it, link in letters) + "</p>"
    page("words.html", "All words", f"<p>{len(rows)} crates, public calls, types and definitions.</p>{jumps}{body}</ul>")


def write(book):
    os.makedirs(OUT, exist_ok=True)
    for name in os.listdir(OUT):
        os.remove(f"{OUT}/{name}")
    with open(f"{OUT}/book.css", "w", encoding="utf-8") as it:
        it.write(STYLE.replace("AREAS", " ".join(f"'{row}'" for row in PLACES)))
    write_words(words_of(book))
    for crate in book.crates:
        write_crate(book, crate)
    write_headline(book)
    write_promises(book)
    write_machine(book)
    write_safety(book)
    front = (
        "<p>Each public call, with what it asks and what it gives; each definition that a clause cites, with its sentence and its text, down to the bottom. "
        "All of it is made from the sources.</p>"
        "<p>What an <code>ensures</code> says holds whenever the call returns; what a <code>requires</code> says each caller proves. "
        "<code>x.old</code> and <code>x.new</code> are a value at entry and exit, <code>x.now</code> one that stays; a <code>sight</code> is what clauses see of a medium, files or a sink; "
        "<code>IfOk</code> and <code>IfErr</code> say something of an answer that is so.</p>"
        '<p>Begin with <a href="headline.html">the headline</a>, with <a href="promises.html">the promises</a>, with a word, or with a crate:</p>'
    )
    page("index.html", "Yelmsker: the contract book", front + SEARCH + picture(book))


def check_links(book):
    """Notes links of pages to a page or a place that isn't there, and places that a page has twice."""
    pages = {name: "\n".join(read_lines(f"{OUT}/{name}")) for name in os.listdir(OUT) if name.endswith(".html")}
    places = {name: re.findall(r'\bid="([^"]*)"', text) for name, text in pages.items()}
    sets = {name: set(it) for name, it in places.items()}
    links = [(name, link) for name, text in pages.items() for link in re.findall(r'(?:href|src)="([^"]*)"', text)]
    links += [("words.js", link) for _, link, _ in words_of(book)]
    for name, link in links:
        to, _, place = link.partition("#")
        to = to or name
        if not os.path.isfile(f"{OUT}/{to}") or place and html.unescape(place) not in sets.get(to, ()):
            book.miss(f"{name}: dead link {link}")
    for name, own in places.items():
        for place in {it for it in own if own.count(it) > 1} if len(sets[name]) < len(own) else ():
            book.miss(f"{name}: the place {place} is there twice")


def check_documents(book):
    """Notes paths in documents that lead nowhere, and what the tour's picture lacks or has too much. A path with a name in
    capitals stands for any."""
    documents = [f"{TOP}/README.md", *(f"{TOP}/docs/{it}" for it in sorted(os.listdir(f"{TOP}/docs")) if it.endswith(".md"))]
    for document in documents:
        for path in re.findall(r"[`(]((?:crates|docs|bench|examples)/[\w./-]+)", "\n".join(read_lines(document))):
            if not re.search(r"/[A-Z]+(?:/|$)", path) and not os.path.exists(f"{TOP}/{path}"):
                book.miss(f"{os.path.relpath(document, TOP)}: dead link {path}")
    placed = [it for _, floors in towers() for floor in floors for it in floor]
    for crate in set(book.crates) ^ set(placed):
        book.miss(f"docs/TOUR.md: the picture {'lacks the crate' if crate in book.crates else 'has no crate'} {crate}")


def main():
    book = Book()
    check_documents(book)
    if "--count" not in sys.argv:
        write(book)
        check_links(book)
    for line in book.missing:
        print(line)
    calls, definitions = sum(map(len, book.calls.values())), sum(len(it.definitions) for it in book.modules.values())
    print(f"{len(book.crates)} crates, {calls} public calls, {definitions} definitions; {len(book.missing)} things missing")
    return 1 if book.missing else 0


sys.exit(main())
