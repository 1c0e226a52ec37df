#!/usr/bin/env python3
"""Opens the pages of reviews (`--form html`) in a real browser, and compares them with the other forms.

usage: page.py [PROGRAM] [--reference]

The files are those of a small made-up fleet, with texts that were made to become markup; a file that is not there and an empty
one are among them. The page of the program is that of reference_page.py, byte for byte. In the browser, its elements are those
of the pieces, whatever the texts say; there is no script, no image, no form, no link out, no request and no dialog; each link
leads to a place on the page; the text form, made anew from what the browser has read, is what `--form text` prints; and no
text is too pale. html5lib reads the page without an error. With all texts changed, the tags are the same in the same order.
Wrong pages, made by wrong generators, are refused.

With --reference the pages are those of reference_page.py, made of the program's JSON lines: it tries this check, and not
the program. What needs chromium (Debian: chromium) or html5lib (python3-html5lib) is left out where that is missing, which a
line says. The last line is 'N passed, M failed'; the status is 0 where nothing failed. It takes some 20 seconds."""
import argparse
import base64
import collections
import hashlib
import json
import os
import pathlib
import re
import shutil
import subprocess
import sys
import tempfile

sys.dont_write_bytecode = True
import browser
import page_fleet
import program
import reference_page
from program import HINT, Program, Tally, review

DEFAULT = pathlib.Path(program.CRATE) / "out" / "ssh_audit"
NOW = 1_770_000_000
TITLE = "</title><script>alert(1)</script> it's \"&amp;\" \u00fc \\ \u202e"
FLEETS = {"auth": page_fleet.keys, "known": page_fleet.hosts}
# Reviews of a few files: the number of a file of the fleet, and what is looked for.
SMALL = (("auth", [7], None), ("auth", [3], None), ("auth", [4], None), ("auth", [5, 3], "all"), ("auth", [6], "none"), ("known", [4], None), ("known", [2, 3], "all"))
# The attributes that an element may have.
ATTRIBUTES = {
    "html": "lang", "meta": "charset http-equiv content name", "a": "class href", "p": "class", "h3": "class", "nav": "aria-label", "section": "id class", "div": "class",
    "table": "class", "th": "scope", "td": "class colspan", "tr": "class id", "span": "class aria-hidden", "b": "class", "strong": "class", "ul": "class", "dl": "class",
    "article": "id", "input": "type name id checked", "label": "for", "svg": "class viewBox preserveAspectRatio aria-hidden", "rect": "width height", "path": "class d",
}  # fmt: skip
ALLOWED = {f"{element} {name}" for element, names in ATTRIBUTES.items() for name in names.split()}
LEAST_CONTRAST = 4.5

# What the browser has read.
READ = """(() => {
const all = [...document.querySelectorAll('*')], text = e => e ? e.textContent : null;
const walker = document.createTreeWalker(document, NodeFilter.SHOW_COMMENT | NodeFilter.SHOW_PROCESSING_INSTRUCTION | NodeFilter.SHOW_CDATA_SECTION);
const row = r => ({id: r.id, classes: [...r.classList].slice(1), number: text(r.cells[0]), own: r.cells[1].firstChild.nodeType == 3 ? r.cells[1].firstChild.data : null,
    comment: text(r.cells[1].querySelector('code')), type: text(r.cells[1].querySelector('span')), key: text(r.cells[1].querySelector('samp')),
    rights: [...r.cells[2].children].map(text).filter(t => t), what: text(r.cells[2]),
    limits: [...r.cells[3].children].map(p => ({classes: [...p.classList], text: text(p), link: p.querySelector('a') ? [p.querySelector('a').getAttribute('href'), text(p.querySelector('a'))] : null}))});
return {
    tags: all.map(e => e.localName), attributes: [...new Set(all.flatMap(e => [...e.attributes].map(a => e.localName + ' ' + a.name)))],
    links: all.filter(e => e.hasAttribute('href')).map(e => e.getAttribute('href')), ids: all.filter(e => e.hasAttribute('id')).map(e => e.id),
    others: walker.nextNode() !== null, refused: refused, sheets: [...document.styleSheets].map(s => s.cssRules.length), mode: document.compatMode, title: text(document.querySelector('title')), heading: text(document.querySelector('h1')),
    files: [...document.querySelectorAll('section.fl')].map(s => ({id: s.id, classes: [...s.classList].slice(1), name: text(s.querySelector('h3>code')), fault: text(s.querySelector(':scope>p>strong')),
        says: text(s.querySelector(':scope>p')), rows: [...s.querySelectorAll('tr')].slice(1).map(row)})),
    register: [...document.querySelectorAll('.reg>tbody>tr')].map(r => [r.querySelector('a').getAttribute('href'), ...[...r.cells].map(text)]),
    total: text(document.querySelector('#files>p:last-child')),
    verdict: [...document.querySelectorAll('.verdict')].map(p => [p.className, text(p)]), tiles: [...document.querySelectorAll('.tiles>li')].map(text), asked: [...document.querySelectorAll('.asked>*')].map(text),
    groups: [...document.querySelectorAll('#mend>h3')].map(h => [h.className, text(h), [...h.nextElementSibling.nextElementSibling.children].map(e =>
        e.localName == 'dt' ? [text(e.querySelector('.cd')), text(e.querySelector('.n')), e.querySelector('svg').getAttribute('viewBox'), e.querySelector('rect').getAttribute('width'), text(e.querySelector('.mean'))] : text(e.firstElementChild))]),
    places: [...document.querySelectorAll('#mend dd')].map(d => [text(d.previousElementSibling.querySelector('.cd')), [...d.children].slice(1).map(text), [...d.querySelectorAll('p+p>a')].map(a => [a.getAttribute('href'), text(a.querySelector('code')), text(a)])]),
    keys: [...document.querySelectorAll('#keys>article')].map(a => [a.id, text(a.querySelector('h3>code')), text(a.querySelector('samp')), text(a.querySelector('p')), [...a.querySelectorAll('p+p>a')].map(l => [l.getAttribute('href'), text(l.querySelector('code')), text(l), l.nextElementSibling?.localName == 'i'])]),
    picture: [...document.querySelectorAll('#keys>.mx>tbody>tr')].map(r => [r.querySelector('a').getAttribute('href'), text(r.querySelector('code')), text(r.cells[1]), r.querySelector('svg').getAttribute('viewBox'), r.querySelector('path').getAttribute('d')]),
    choices: [...document.querySelectorAll('#lines>input')].map(i => [i.id, i.name, i.checked, i.nextElementSibling.htmlFor, text(i.nextElementSibling)]),
    keys_say: [...document.querySelectorAll('#keys>p')].map(text),
    rest: [...document.querySelectorAll('#mend>p')].filter(p => p.className != 'says' || p.previousElementSibling.localName != 'h3').map(text), absent: [...document.querySelectorAll('#mend>ul>li')].map(text),
};})()"""
# The sections and the lines that each choice leaves on the screen.
CHOOSE = """(() => {
const shown = e => getComputedStyle(e).display != 'none';
return [...document.querySelectorAll('#lines>input')].reverse().map(i => {
    i.checked = true;
    const files = [...document.querySelectorAll('section.fl')].filter(shown);
    return [i.id, files.map(s => s.id), files.flatMap(s => [...s.querySelectorAll('tr.ln')].filter(shown).map(r => r.id))];
});})()"""
# The least contrast of a text with its ground, as WCAG 2.2 has it, and which text that is.
CONTRAST = """(() => {
const light = c => { const v = c.map(x => x / 255).map(x => x <= .04045 ? x / 12.92 : ((x + .055) / 1.055) ** 2.4); return .2126 * v[0] + .7152 * v[1] + .0722 * v[2]; };
const colour = t => { const v = t.match(/[\\d.]+/g).map(Number); return v.length == 4 && v[3] == 0 ? null : v.slice(0, 3); };
const ground = e => { for (; e; e = e.parentElement) { const c = colour(getComputedStyle(e).backgroundColor); if (c) return c; } return [255, 255, 255]; };
const found = new Map();
for (const e of document.body.querySelectorAll('*')) if ([...e.childNodes].some(n => n.nodeType == 3 && n.data.trim())) {
    const pair = [colour(getComputedStyle(e).color), ground(e)], [a, b] = pair.map(light).sort((x, y) => y - x);
    found.set(pair.join(' on '), [(a + .05) / (b + .05), e.localName + '.' + e.className]);
}
const least = [...found.values()].sort((x, y) => x[0] - y[0])[0];
return [found.size, ...least];})()"""


class Review:
    """A review of some files: what each form prints, and the page."""

    def __init__(self, audit, kind, names, findings=None, title=None, reference=False):
        self.kind, self.title = kind, title
        (audit.room / "listed").write_bytes(b"".join(name + b"\0" for name in names))
        ask = lambda **more: audit.run(review(kind=kind, now=NOW, files_from="listed", findings=findings, **more))
        (self.status, self.text, _), (_, lines, _) = ask(form="text"), ask(form="json")
        self.objects = [json.loads(line) for line in lines.splitlines()]
        self.wanted = reference_page.page_of(self.objects, title)
        self.answer = (self.status, self.wanted.html, b"") if reference else ask(form="html", title=title)

    @property
    def page(self):
        return self.answer[1]


# ---- the bytes of a page

# A line that counts a code, before the total.
CODE_LINE = re.compile(rb"^F\d+: \d+, .*\n(?:F\d+: .*\n)*total: ", re.MULTILINE)
TAG = re.compile(rb"<[^<>]*>")


def byte_rows(asked):
    """What can be said of a page without a browser."""
    page, style = asked.page, re.search(rb"<style>(.*?)</style>", asked.page, re.DOTALL)
    digest = base64.b64encode(hashlib.sha256(style[1] if style else b"").digest()).decode()
    yield "the status, and the page of the reference", (asked.answer[0], first_difference(page, asked.wanted.html), asked.answer[2]), (asked.status, None, b"")
    yield "printable ASCII and LF alone", sorted({byte for byte in page if byte != 10 and not 32 <= byte < 127}), []
    yield "the policy has the hash of the style", re.findall(rb"style-src 'sha256-([^']*)'", page), [digest.encode()]


def first_difference(found, wanted):
    """Where two pages differ, and how they go on there."""
    if found == wanted:
        return None
    place = next((at for at, pair in enumerate(zip(found, wanted)) if pair[0] != pair[1]), min(len(found), len(wanted)))
    return place, found[max(0, place - 60) : place + 60], wanted[max(0, place - 60) : place + 60]


# ---- what the browser has read


def record_text(name, row, kind):
    """The lines of a row, as the text form has them."""
    what = (row["own"] or "").strip() if kind == "auth" else row["what"]
    what = what or ("authority" if "ca" in row["classes"] else "key")
    words = [what, row["type"], row["key"], row["comment"]]
    yield f"{name}:{row['number']}: " + " ".join(word for word in words if word)
    if kind == "auth" and what != "unreadable":
        yield "    rights " + " ".join(row["rights"])
    for limit in row["limits"]:
        if limit["classes"] == ["nl"] or limit["text"] == "authority: whoever it certifies":
            continue
        yield "    " + (limit["text"].removesuffix(" " + limit["link"][1]) if limit["link"] else limit["text"])


def counted(read):
    """How often each code stands at a line of the page."""
    limits = (limit for file in read["files"] for row in file["rows"] for limit in row["limits"])
    return collections.Counter(limit["text"].split(":")[0].split()[0] for limit in limits if "f" in limit["classes"])


def why_behind(cell):
    """Why a file could not be read, as it stands behind the code of its fault; by what the register says of it."""
    return next((f": {why}" for why, meaning in reference_page.CAUSES.items() if cell.endswith(f": {meaning}")), "")


def text_form(read, kind, has_codes):
    """The text form, made anew from the page; some have a line for each code that was found, the most urgent first."""
    lines = []
    for file, (_, _, *cells) in zip(read["files"], read["register"]):
        for row in file["rows"]:
            lines += record_text(file["name"], row, kind)
        lines.append(f"{file['name']}: {file['fault']}{why_behind(cells[0])}" if file["fault"] else f"{file['name']}: {file['says']}, sha256 {cells[-1]}")
    if has_codes:
        found = counted(read)
        lines += [f"{code}: {found[code]}, {reference_page.MEANS[code]}" for code in sorted(found, key=lambda code: (reference_page.SOON[code], int(code[1:])))]
    return "".join(f"{line}\n" for line in [*lines, read["total"]]).encode()


def numbers(text):
    return re.findall(r"\d+", text)


def wrong_registers(read):
    """Rows of the register that tell otherwise than the section of the file."""
    for number, (file, (link, name, *cells)) in enumerate(zip(read["files"], read["register"])):
        told = cells[0].startswith(file["fault"]) if file["fault"] else cells[:4] == numbers(file["says"])
        if (file["id"], link, name, told) != (f"f{number}", f"#f{number}", file["name"], True):
            yield number, file["name"], name, cells


def wrong_links(read):
    """Links to a line that lead elsewhere."""
    for number, file in enumerate(read["files"]):
        for row in file["rows"]:
            for limit in row["limits"]:
                line = re.findall(r"^F\d+(?: spelling)? (\d+):", limit["text"]) if "f" in limit["classes"] else []
                wanted = [f"#f{number}l{line[0]}", f"see line {line[0]}"] if line and not limit["text"].startswith("F5 ") else None
                if limit["link"] != wanted or row["id"] != f"f{number}l{row['number']}":
                    yield row["id"], limit


def classes_of(limits):
    """The classes that the findings of a row have, without those that say what a paragraph is."""
    return {name for limit in limits if "f" in limit["classes"] for name in limit["classes"][1:]}


def wrong_classes(read):
    """Rows and sections whose classes are not those of their findings, and findings with the class of another code."""
    for file in read["files"]:
        own = set()
        for row in file["rows"]:
            found = [limit for limit in row["limits"] if "f" in limit["classes"]]
            codes = {limit["text"].split(":")[0].split()[0] for limit in found}
            what = {"u"} if row["rights"] == ["cannot be read"] or "unreadable" in row["what"] else set()
            wanted = {name for code in codes for name in (reference_page.SOON[code], code)} | what | ({"ca"} & set(row["classes"]))
            own |= wanted
            if set(row["classes"]) != wanted or classes_of(found) != wanted - {"u", "ca"}:
                yield row["id"], row["classes"], wanted
        if set(file["classes"]) != own:
            yield file["id"], file["classes"], own


def wrong_places(read):
    """Codes whose places are not each line that has the code, once, in the order of files and lines; of a policy there are none."""
    for code, paragraphs, links in read["places"]:
        rows = [(row["id"], file["name"], f"{file['name']}:{row['number']}") for file in read["files"] for row in file["rows"] if code in row["classes"]]
        wanted = [] if reference_page.SOON[code] == "p" else [[f"#{name}", of_file, words] for name, of_file, words in rows]
        if links != wanted or paragraphs != [" ".join(words for *_, words in wanted)] * bool(wanted):
            yield code, links, wanted


def is_limited(row):
    """Whether an entry has not all rights, or has a limit."""
    return "u" not in row["classes"] and bool(row["rights"]) and (row["rights"] != list(reference_page.RIGHTS) or ["nl"] not in (limit["classes"] for limit in row["limits"]))


def rows_by_key(read):
    """Each key of the rows, and the rows that have it, with the name of their file, in the order of files and lines."""
    keys = collections.defaultdict(list)
    for file in read["files"]:
        for row in file["rows"]:
            if row["key"]:
                keys[row["key"]].append((file, row))
    return keys


def wrong_keys(read):
    """What is wrong in the list of keys: each line with a key is there once, below its key, with the comment of the first; those in most
    files come first."""
    keys = rows_by_key(read)
    for name, comment, key, said, links in read["keys"]:
        rows = keys.pop(key, [])
        wanted = [[f"#{row['id']}", file["name"], f"{file['name']}:{row['number']}", is_limited(row)] for file, row in rows]
        files = len({file["id"] for file, _ in rows})
        counts = f"{key} in {files} file{'s' * (files != 1)}, on {len(rows)} line{'s' * (len(rows) != 1)}."
        if not rows or (name, comment, said, links) != (rows[0][1]["id"].replace("f", "k", 1), rows[0][1]["comment"], counts, wanted):
            yield key, name, comment, said, links
    for key, rows in keys.items():
        yield "not in the list", key, [row["id"] for _, row in rows]
    in_files = [len({link[0].split("l")[0] for link in links}) for *_, links in read["keys"]]
    if in_files != sorted(in_files, reverse=True):
        yield "in another order", in_files


def picture_of(read):
    """The picture, by the list of keys: the first 40 that are in more than two files, and a mark for the file of each line."""
    for name, comment, _, _, links in read["keys"][:40]:
        files = [link[0].split("l")[0].removeprefix("#f") for link in links]
        if len(set(files)) > 2:
            marks = "".join(f"M{file} {'.5h1v.5' if limited else '0h1v1'}h-1z" for file, (*_, limited) in zip(files, links))
            yield [f"#{name}", comment, str(len(set(files))), f"0 0 {len(read['files'])} 1", marks]


def key_rows(read):
    """What is said of the keys, by the lines that have them."""
    keys = rows_by_key(read)
    yield "each line with a key is once in the list of keys", list(wrong_keys(read)), []
    yield "the picture of the keys in many files", read["picture"], list(picture_of(read))
    yield "the number of keys", read["keys_say"], [f"{len(keys)} different keys, on {sum(map(len, keys.values()))} lines, those that cannot be read or revoke a key among them. Those in most files come first."]


def choice_rows(read, opened):
    """What is said of the choices of one code, and what each leaves on the screen. The last that is tried is that of all lines."""
    found, rows = counted(read), [row for file in read["files"] for row in file["rows"]]
    numbers = sorted(int(code[1:]) for code in found)
    wanted = [[f"s{number}", "show", False, f"s{number}", f"F{number} {found[f'F{number}']}"] for number in numbers]
    yield "the choices", read["choices"], [["s0", "show", True, "s0", "all lines"], *wanted] if found else []
    of_code = lambda those, number: [one["id"] for one in those if number == 0 or f"F{number}" in one["classes"]]
    left = [[f"s{number}", of_code(read["files"], number), of_code(rows, number)] for number in [*reversed(numbers), 0]]
    yield "what each choice leaves", opened.ask(CHOOSE), left if found else []


def header_rows(read, asked):
    """What is said above the lines, by what stands at them."""
    found, total, codes = counted(read), asked.objects[-1], reference_page.CODES[asked.kind]
    today = sum(number for code, number in found.items() if reference_page.SOON[code] == "a")
    numbers = [total[field] for field in ("files", "faults", "lines", "key_lines", "unreadable")] + [sum(found.values()), today]
    words = ("files", "not read", "lines", "key lines", "unreadable lines", "findings", "to be mended today")
    yield "the numbers", read["tiles"], [f"{number} {word}" for number, word in zip(numbers, words)]
    good, said = not total["faults"] and not found, "".join(text for _, text in read["verdict"])
    told = [re.search(rf"\b{number} \w+ {words}", said) is not None for number, words in zip(numbers[1:2] + numbers[-1:-3:-1], ("could not be read", "ha(?:s|ve) to be mended today", "in all"))]
    yield "the verdict", ([name for name, _ in read["verdict"]], told), ([f"verdict {'ok' if good else 'a'}"], [number > 0 for number in (numbers[1], today, numbers[5])])
    terms = dict(zip(read["asked"][::2], read["asked"][1::2]))
    looked_for = [code for code in codes if code in total["told"]]
    wanted = [f"{total['now']} {total['at']}", total["zone"], f"{total['rsa_minimum']} bits", " ".join(looked_for) or "nothing", total["program"]]
    yield "what was asked", [text.strip() for text in terms.values()][1:], wanted
    shown = [(letter, item[0]) for letter, _, items in read["groups"] for item in items[::2]]
    yield "the codes that were found, by how soon", shown, [(letter, code) for letter in "abcp" for code in codes if reference_page.SOON[code] == letter and found[code]]
    bars = [[code, number, f"0 0 {numbers[5]} 1", number, reference_page.MEANS[code]] for code in found if (number := str(found[code]))]
    yield "how often, and what each means", sorted(item for _, _, items in read["groups"] for item in items[::2]), sorted(bars)
    does = {item[0]: text for _, _, items in read["groups"] for item, text in zip(items[::2], items[1::2])}
    yield "what to do", does, {code: f"What to do: {reference_page.REMEDIES[code]}." for code in found}
    yield "the places of each code", list(wrong_places(read)), []
    yield "the codes that were not found", read["absent"], [f"{code}: {reference_page.MEANS[code]}" for code in looked_for if not found[code]]
    left_out = [code for code in codes if code not in looked_for]
    rest = ["Nothing."] * good + ["Looked for in every line, and not found:"] * bool(set(looked_for) - set(found))
    yield "the rest", read["rest"], rest + [f"Not looked for: {' '.join(left_out)}. What each means: ssh_audit explain {' '.join(left_out)}"] * bool(left_out)


def dom_rows(opened, asked):
    """What is said of the page that the browser has open."""
    try:
        read = opened.ask(READ)
    except browser.Late as error:
        yield "the page can be read", error, None
        return
    tags = collections.Counter(read["tags"])
    requests = [one["params"]["request"]["url"] for one in opened.events if one.get("method") == "Network.requestWillBeSent"]
    heading = reference_page.escaped((reference_page.TITLES[asked.kind] if asked.title is None else asked.title).encode())
    found, wanted = text_form(read, asked.kind, CODE_LINE.search(asked.text) is not None), asked.text
    yield "the text form, made anew from the page", first_difference(found, wanted), None
    yield "elements by tag are those of the pieces", dict(tags), asked.wanted.tags
    yield "attributes", sorted(set(read["attributes"]) - ALLOWED), []
    yield "one style, all of it", (tags["style"], len(read["sheets"]), sum(read["sheets"]) > 50), (1, 1, True)
    yield "links lead to places on the page", [link for link in read["links"] if not re.fullmatch(r"#[a-z0-9]+", link) or link[1:] not in read["ids"]], []
    yield "no id twice", [name for name, times in collections.Counter(read["ids"]).items() if times > 1], []
    yield "no comment", read["others"], False
    yield "the title and the heading, in the standards mode", (read["title"], read["heading"], read["mode"]), (heading, heading, "CSS1Compat")
    yield "nothing that the policy refused", read["refused"], []
    yield "no request but the page", [url for url in requests[1:] if not url.startswith("about:")], []
    yield "no dialog", [one for one in opened.events if one.get("method") == "Page.javascriptDialogOpening"], []
    yield "the register, and the sections", (list(wrong_registers(read)), len(read["register"])), ([], len(read["files"]))
    yield "links to lines", list(wrong_links(read)), []
    yield "classes", list(wrong_classes(read)), []
    yield from header_rows(read, asked)
    yield from key_rows(read)
    yield from choice_rows(read, opened)


def contrast_rows(opened):
    """Whether each text can be read, on light and on dark."""
    for scheme in ("dark", "light"):
        opened.scheme(scheme)
        pairs, least, which = opened.ask(CONTRAST)
        yield f"{scheme}: the contrast of {pairs} pairs of colours", (round(least, 2), which) if least < LEAST_CONTRAST else None, None


# Run by a Python that has html5lib: the errors of a page, and its elements by tag.
PARSE = """
import collections, html5lib, json, sys
parser = html5lib.HTMLParser(tree=html5lib.getTreeBuilder("etree"), namespaceHTMLElements=False)
tree = parser.parse(sys.stdin.read())
print(json.dumps([str(parser.errors[:3]), collections.Counter(one.tag.rpartition("}")[2] for one in tree.iter() if isinstance(one.tag, str))]))
"""


def python_with_parser():
    """A Python that has html5lib: this one, or the system's."""
    for python in (sys.executable, "/usr/bin/python3"):
        if shutil.which(python) and subprocess.run([python, "-c", "import html5lib"], stderr=subprocess.DEVNULL, check=False).returncode == 0:
            return python
    return None


def parser_rows(python, page, wanted):
    """What html5lib reads, and its errors."""
    ran = subprocess.run([python, "-c", PARSE], input=page, stdout=subprocess.PIPE, timeout=program.SECONDS, check=True)
    errors, tags = json.loads(ran.stdout)
    yield "html5lib: errors", errors, "[]"
    yield "html5lib: elements by tag", tags, wanted.tags


# ---- wrong generators

# What is wrong, and a text of reference_page.py and what stands there instead.
WRONG = (
    ("a comment is written as it is", "text.translate(REFERENCES) for", "(text if 'onerror' in text else text.translate(REFERENCES)) for"),
    ("< is left as it is", '"<": "&lt;", ', ""),
    ("& is left as it is", '"&": "&amp;", ', ""),
    ("quotes are left as they are in a value", 'page.tell(made["comment"])', 'page.put("SeeFile").say(made["comment"]).put("FileName", "LinkEnd")'),
    ("a comment stands outside of code", 'page.tell(made["comment"])', 'page.say(made["comment"])'),
    ("a comment is cut", 'page.tell(made["comment"])', 'page.tell(made["comment"][:500])'),
    ("a record is left out", "    for made in records:\n        put_row", '    for made in records:\n        made["line"] != 7 and put_row'),
    ("a record without a finding is left out", "    for made in records:\n        put_row", '    for made in records:\n        made["findings"] and put_row'),
    ("a record stands twice", "    for made in records:\n        put_row", "    for made in [*records, *records[3:4]]:\n        put_row"),
    ("findings of the line before", "        put_row(page, file, made, kind)", '        put_row(page, file, made | {"findings": records[records.index(made) - 1]["findings"]}, kind)'),
    ("a right that is off is shown", 'right if right in on else "RightOff"', "right"),
    ("from= is left out", "        if made[field] is not None:", '        if made[field] is not None and field != "source":'),
    ("a carried text is left out", "        if name in CARRIED:", "        if name in CARRIED[1:]:"),
    ("a limited key is free", "    if len(page.parts) == before:", "    if made['command'] is None:"),
    ("the class of the first finding alone", '    for found in made["findings"]:\n        put_class', '    for found in made["findings"][:1]:\n        put_class'),
    ("the classes of a section are those of its last line", 'made["what"] for made in records}', 'made["what"] for made in records[-1:]}'),
    ("what gives more can wait", '"a": (1, 4, 8, 10, 11, 12, 14, 22), "b": (2,', '"a": (1, 8, 10, 11, 12, 14, 22), "b": (2, 4,'),
    ("a digest of another file", 'page.put("Digest").say(end["sha256"])', 'page.put("Digest").say("0" * 64)'),
    ("the row of another file", 'page.put("FileId").say(file).put("LineId")', 'page.put("FileId").say(file + 1).put("LineId")'),
    ("a link to the next line", '.put("LineId").say(number).put("SeeLine")', '.put("LineId").say(int(number) + 1).put("SeeLine")'),
    ("counts of another file", '    page.say(counts(end)).put(kind', '    page.say(counts(end | {"lines": 1})).put(kind'),
    ("a cell is not closed", '"RowEnd": "</td></tr>\\n"', '"RowEnd": "</p>\\n"'),
    ("a fault is a file without a line", '    if end["fault"]:\n        page.put("Fault")', '    if False:\n        page.put("Fault")'),
    ("a good verdict where a file was not read", 'if total["faults"] or total["findings"]', 'if total["lines"] > 1000'),
    ("fewer findings of today", 'if SOON[code] == "a")', 'if code == "F1")'),
    ("a code that was found is left out", "and code in found]", 'and code in found and code != "F9"]'),
    ("how often another code was found", "put_found(page, code, found[code], total", 'put_found(page, code, found["F1"], total'),
    ("the places of another code", "total, places[code])", 'total, places["F1"])'),
    ("the place of another file", 'page.put("PlaceFile").say(file)', 'page.put("PlaceFile").say(max(file - 1, 0))'),
    ("the place of the line before", 'page.put("PlaceFile").say(file).put("LineId").say(line)', 'page.put("PlaceFile").say(file).put("LineId").say(max(line - 1, 1))'),
    ("the name of another file", 'places[code].append((end["file"], number', 'places[code].append((files[0][1]["file"], number'),
    ("a place is left out", 'put_places(page, [] if SOON[code] == "p" else places)', 'put_places(page, [] if SOON[code] == "p" else places[:-1])'),
    ("the list of keys has a line without a key", 'if made["key"]:\n                keys[made["key"]]', 'if True:\n                keys[made["key"] or "SHA256:"]'),
    ("a line is left out of the list of keys", "                keys[made[\"key\"]].append", "                made[\"line\"] != 7 and keys[made[\"key\"]].append"),
    ("a line stands below the key of the line before", "keys[made[\"key\"]].append", "keys[records[max(records.index(made) - 1, 0)][\"key\"] or made[\"key\"]].append"),
    ("a key has the comment of its last line", "    put_name(page, comment)\n    files", "    put_name(page, rows[-1][0])\n    files"),
    ("a key is in as many files as lines", "    files = len({file for _, _, file, *_ in rows})", "    files = len(rows)"),
    ("a limited line is free in the list of keys", '        page.put(*["Limited"] * limited)', "        pass"),
    ("a limited line is free in the picture", '"LowColumnEnd" if limited else "ColumnEnd"', '"ColumnEnd"'),
    ("keys in the order of their fingerprints", "key=lambda one: -len(", "key=lambda one: 0 * len("),
    ("a key in two files is in the picture", "for _, _, file, *_ in rows}) > 2]", "for _, _, file, *_ in rows}) > 1]"),
    ("a mark of the file before", "page.put(\"Column\").say(file)", "page.put(\"Column\").say(max(file - 1, 0))"),
    ("a choice of another code", 'page.put("Choice").say(number)', 'page.put("Choice").say(number + 1)'),
    ("a choice is left out", "sorted(int(code[1:]) for code in found)", "sorted(int(code[1:]) for code in found)[1:]"),
    ("how often all codes were found in a choice", "{found[f'F{number}']}", "{sum(found.values())}"),
    ("what to do about another code", "say(REMEDIES[code])", 'say(REMEDIES["F3"])'),
    ("a code that was found is not found", "if code not in found]", 'if code not in found or code == "F9"]'),
    ("another code was looked for", 'if code in total["told"]]', 'if code in total["told"] or code == "F15"]'),
    ("a byte that is not ASCII", "        text = str(text)\n", "        text = str(text).replace('\\\\xc3', '\\xc3')\n"),
    ("the policy has no hash", "style-src 'sha256-%s'; base", "style-src 'none'; x %s; base"),
    ("the policy has the hash of another style", 'hashlib.sha256(("\\n" + STYLE)', "hashlib.sha256((STYLE)"),
    ("a script", '"LinesEnd": "</div>', '"LinesEnd": "<script>alert(1)</script></div>'),
    ("a picture from outside", '"LinesEnd": "</div>', '"LinesEnd": "<img src=//evil.example/x></div>'),
    ("a link out", '<a href="#sign">', '<a href="https://evil.example/">'),
    ("pale words", "    \"Style\": STYLE,", "    \"Style\": STYLE.replace('--dim:#52606d', '--dim:#9aa6b2'),"),
)  # fmt: skip


def wrong_page(source, old, new, asked):
    """The page of a wrong generator, or None where it refuses the texts itself."""
    assert source.count(old) >= 1, old
    made = {"__name__": "wrong", "__file__": reference_page.__file__}
    exec(compile(source.replace(old, new), "wrong", "exec"), made)
    try:
        return made["page_of"](asked.objects, asked.title).html
    except (AssertionError, UnicodeEncodeError):
        return None


def refusals(opened, asked):
    """The rows by which the page that the browser has open is refused. A page that leads away has no colours to ask for."""
    try:
        return [what for what, found, wanted in (*dom_rows(opened, asked), *contrast_rows(opened)) if found != wanted]
    except browser.Late as error:
        return [str(error)]


def wrong_rows(room, tally, opened, asked):
    """Each wrong page is refused by a row of the check, and not by the comparison with the right page alone."""
    source = pathlib.Path(reference_page.__file__).read_text()
    for name, old, new in WRONG:
        page = wrong_page(source, old, new, asked)
        rows = []
        if page is not None:
            (room / "wrong.html").write_bytes(page)
            opened.open(room / "wrong.html")
            rows = refusals(opened, asked)
        tally.check(f"refused: {name}", bool(rows) or page is None, True)


# ---- all of it


def renamed(text):
    """Another text in place of this one, that has bytes where it has."""
    return b"t" + hashlib.sha256(text).hexdigest()[:14].encode()


def reviews(audit, reference):
    """The reviews whose pages are tried, by a name."""
    for kind, fleet in FLEETS.items():
        names = list(fleet(bytes))
        yield f"{kind}, by default", Review(audit, kind, names, None, TITLE, reference)
        yield f"{kind}, all findings", Review(audit, kind, names, "all", None, reference)
    for kind, numbers_of_files, findings in SMALL:
        names = list(FLEETS[kind](bytes))
        yield f"{kind}, files {numbers_of_files}", Review(audit, kind, [names[number] for number in numbers_of_files], findings, None, reference)


def browser_rows(audit, tally, asked):
    """Each page in the browser, the wrong ones too."""
    opened = browser.Browser()
    try:
        for name, one in asked.items():
            (audit.room / "page.html").write_bytes(one.page)
            opened.open(audit.room / "page.html")
            for what, found, wanted in (*dom_rows(opened, one), *contrast_rows(opened)):
                tally.check(f"{name}: {what}", found, wanted)
        wrong_rows(audit.room, tally, opened, asked["auth, by default"])
    finally:
        opened.close()


def shape_rows(audit, tally, asked, reference):
    """All texts changed: the same tags in the same order."""
    for kind, fleet in FLEETS.items():
        page_fleet.write(audit.room, fleet(renamed))
        other = Review(audit, kind, list(fleet(renamed)), None, "another title", reference)
        one = asked[f"{kind}, by default"]
        tally.check(f"{kind}: all texts changed", TAG.findall(other.page), TAG.findall(one.page))
        tally.check(f"{kind}: all texts changed, the pieces of the reference", other.wanted.pieces, one.wanted.pieces)


def usage_rows(audit, tally):
    """A title without a page, one that is no UTF-8, and two of them; a page of one key, and one of which a part is shown."""
    for more in (["--title", "x"], ["--form", "json", "--title", "x"], ["--form", "html", "--title", b"\xff"], ["--form", "html", "--title", "x", "--title", "x"], ["--form", "html", "--key", "SHA256:" + 43 * "a"],
                 ["--form", "html", "--show", "found"], ["--form=html", "--show", "totals", "--fail-on", "F1"], ["--title", "x", "--fail-on", "F1"]):
        tally.check(f"{more}", audit.run(["review", "--kind", "auth", "--now", "150", *more, "listed"]), (2, b"fault usage\n", HINT))


def status_rows(audit, tally):
    """The status of a page is that of the text for the same words: here of a line that cannot be read."""
    (audit.room / "unread").write_bytes(b"x y\n")
    for fails, status in (None, 1), ("F1", 1), ("F4,F5", 0), ("none", 0):
        for form in "text", "html":
            answer = audit.run(review("unread", kind="auth", fail_on=fails, form=form))
            tally.check(f"--fail-on {fails}, {form}: the status", answer[0], status)


def try_all(audit, tally, reference):
    for fleet in FLEETS.values():
        page_fleet.write(audit.room, fleet(bytes))
    asked = dict(reviews(audit, reference))
    for name, one in asked.items():
        for what, found, wanted in byte_rows(one):
            tally.check(f"{name}: {what}", found, wanted)
    shape_rows(audit, tally, asked, reference)
    if not reference:
        usage_rows(audit, tally)
        status_rows(audit, tally)
    python = python_with_parser()
    if python is None:
        print("html5lib is missing: pages were not parsed by it (Debian: python3-html5lib)")
    for name, one in asked.items() if python else ():
        for what, found, wanted in parser_rows(python, one.page, one.wanted):
            tally.check(f"{name}: {what}", found, wanted)
    if shutil.which(browser.NAME):
        try:
            browser_rows(audit, tally, asked)
        except browser.Late as error:
            tally.check("the browser answers", str(error), None)
    else:
        print(f"{browser.NAME} is missing: no page was opened (Debian: {browser.PACKAGE})")


def main():
    parser = argparse.ArgumentParser(description=__doc__, formatter_class=argparse.RawDescriptionHelpFormatter)
    parser.add_argument("program", nargs="?", default=str(DEFAULT))
    parser.add_argument("--reference", action="store_true")
    args = parser.parse_args()
    path, tally = os.path.abspath(args.program), Tally()
    if not os.access(path, os.X_OK):
        print(f"{path} is not built: nothing was tried\n0 passed, 1 failed")
        return 1
    with tempfile.TemporaryDirectory() as folder:
        try_all(Program(path, pathlib.Path(folder)), tally, args.reference)
    print(f"{tally.passed} passed, {tally.failed} failed")
    return 1 if tally.failed else 0


if __name__ == "__main__":
    sys.exit(main())
