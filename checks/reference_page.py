#!/usr/bin/env python3
"""Writes the page of a review from its JSON lines: what `review --form html` has to print, byte for byte.

usage: reference_page.py [--title TEXT] < LIST > PAGE

It was written from the definition of the page, and not from the source: it has a table of the markup and the style of its own
(reference_page.css), and takes what codes mean from docs/CODES.md. A page is a row of pieces of constant markup, and of
texts between them. Of a text the five bytes that could begin markup or end a value are written as references; nothing
else is ever written, so no text can become markup."""
import argparse
import base64
import collections
import datetime
import hashlib
import json
import pathlib
import re
import sys

sys.dont_write_bytecode = True
import explained

STYLE = (pathlib.Path(__file__).resolve().parent / "reference_page.css").read_text(encoding="ascii")
POLICY = "default-src 'none'; style-src 'sha256-%s'; base-uri 'none'; form-action 'none'" % base64.b64encode(
    hashlib.sha256(("\n" + STYLE).encode()).digest()
).decode()
WHAT = {"auth": "authorized_keys: who is let in", "known": "known_hosts: which hosts are trusted"}
TITLES = {"auth": "Access review of SSH keys", "known": "Review of trusted SSH host keys"}
FAULTS = {
    "A7": "it has more than 67,108,864 bytes: split it, or drop comments",
}
CAUSES = {
    "not found": "there is no such file: look at its name",
    "no permission": "it may not be read: look at its permissions",
    "a folder": "it is a folder: name the files in it",
    "not readable": "it could not be read: look at the disk",
}
UNREADABLE = {"unreadable", "revocation-unreadable"}
RIGHTS = ("port", "agent", "x11", "pty", "rc")
CARRIED = ("environment", "permitlisten", "permitopen", "tunnel")

# How soon to mend what a code tells: a today, b soon, c tidy up, p a policy may want it otherwise.
SOON = {f"F{number}": letter for letter, numbers in {"a": (1, 4, 8, 10, 11, 12, 14, 22), "b": (2, 5, 7, 9, 13), "c": (3, 6), "p": range(15, 22)}.items() for number in numbers}
# The codes that files of each kind may have.
CODES = {kind: [f"F{number}" for number in sorted((1, 5, 8, 22, *own))] for kind, own in {"auth": (2, 3, 4, 6, 7, 9, *range(15, 20)), "known": (*range(10, 15), 20, 21)}.items()}
# Codes of findings that name another line of the same file.
NAMES_A_LINE = {"F2", "F3", "F4", "F11", "F12", "F21"}
# The sentence of a finding by its code and the word in its detail; of some also by what the line is. {n} is the number in the detail.
SENTENCES = {
    "F2": "line {n} has the same key: where that line does not let it in, this one may",
    "F3": "never decides: line {n} has the same key and lets it in first",
    "F4": "never decides: line {n} has the same key, lets it in first and gives more",
    "F5": "an RSA key of {n} bits is too short",
    "F6": "has expired",
    "F7 from": "lets nobody in: its from= list permits nobody",
    "F7 from-here": "permits nobody here, but OpenSSH may read its from= list otherwise: count it as access",
    "F7 principals": "lets nobody in: its principals= list permits nobody",
    "F8 principals": "OpenSSH refuses this line: principals= stands without cert-authority",
    "F8 empty-principal": "OpenSSH reads principals= only up to its empty piece",
    "F8 verify-required": "OpenSSH lets this key in: it ignores verify-required of a key that is no security key",
    "F8 local-time": "an expiry time without Z is in the zone of the server: give that as --zone",
    "F8 short-address": "OpenSSH reads a short address in from= (127.1) as an address: count it as access",
    "F8 tab authority": "OpenSSH passes over this line: a tab follows its marker",
    "F8 tab revoked": "ssh passes over this revocation: a tab follows its marker",
    "F8 type revoked": "ssh passes over this revocation: its type word is not the type of its key",
    "F9": "its command is forced, but it may still forward: add restrict",
    "F10": "may revoke any key and cannot be read: here it denies every host, OpenSSH may pass over it",
    "F11": "another key of this type for a name of line {n}",
    "F12": "its key is both trusted and revoked: see line {n}",
    "F12 spelling": "the revocation on line {n} has another spelling of this key: ssh refuses the key, and the rules here trust it",
    "F12 spelling revoked": "this revocation has another spelling of the key on line {n}: ssh refuses the key, and the rules here trust it",
    "F13": "one key for all hosts that a pattern names",
    "F14": "an authority for every host",
    "F15": 'good from any address: no from=, or from="*"',
    "F16": "any command may be run: no command=",
    "F17": "good for ever: no expiry-time=",
    "F18": "whoever it certifies for the user's name is let in: no principals=",
    "F19": "nothing says whose key this is: no comment",
    "F20": "its names are in clear",
    "F21": "the same host key stands on line {n}",
    "F22": "OpenSSH may refuse this line, and a later one then decides",
    "F22 nul known": "ssh may pass over this line: a NUL stands in its names, and ends the line for ssh",
    "F22 long-item known": "ssh may pass over this line: a name of 1,023 bytes or more stands in its list, which then matches nothing",
    "F22 rsa known": "ssh may pass over this line: ssh reads no RSA key under 1,024 bits or over 16,384",
}

HEADS = "".join(f'<th scope="col">{head}</th>' for head in ("File", "Lines", "Keys", "Unreadable", "Findings", "SHA-256"))
TABLE = '</p>\n<div class="t">\n<table>\n<thead><tr><th scope="col">Line</th><th scope="col">Key and comment</th><th scope="col">%s</th><th scope="col">%s, and what was found</th></tr></thead>\n<tbody>\n'
GROUP = '<h3 class="%s"><span class="dot" aria-hidden="true"></span>%s</h3>\n<p class="says">%s</p>\n<dl class="codes">\n'
GROUPS = (
    ("a", "Today", "A line does other than it seems to do, or nobody can say what it does."),
    ("b", "Soon", "A weak key, a way around a limit, or two lines for one key."),
    ("c", "Tidy up", "Lines that let nobody in, or never decide."),
    ("p", "Policy", "Told because it was asked for: a policy may want it otherwise."),
)
SIGNED = "".join(f'<tr><th scope="row">{row}</th><td></td><td></td></tr>\n' for row in ("Name, role", "Date", "Compared with the review of", "To be removed or mended, by when, by whom", "Signature"))
PIECES = {
    "Code": "<code>",
    "CodeEnd": "</code>",
    # the row of a line
    "Row": '<tr class="ln',
    "FileId": '" id="f',
    "LineId": "l",
    "RowNumber": '"><th scope="row">',
    "KeyCell": '</th><td>',
    "RightsCell": '</td><td>',
    "LimitsCell": '</td><td>',
    "RowEnd": "</td></tr>\n",
    # classes, before the number of a code
    "a": " a F",
    "b": " b F",
    "c": " c F",
    "p": " p F",
    "UnreadableClass": " u",
    "AuthorityClass": " ca",
    # the key of a line
    "NoComment": "<i>no comment</i>",
    "KeyType": ' <span>',
    "KeyTypeEnd": "</span>",
    "Fingerprint": "<br><samp>SHA256:",
    "FingerprintEnd": "</samp>",
    # its rights
    **{right: f"<b>{right}</b>" for right in RIGHTS},
    "RightOff": "<i></i>",
    "NoRights": '<b class="no">none</b>',
    "RightsUnknown": "<i>cannot be read</i>",
    # its limits
    "Limit": "<p>",
    "LimitEnd": "</p>",
    "NoLimit": '<p class="nl">any command, from anywhere, for ever</p>',
    # a finding
    "Finding": '<p class="f',
    "FindingCode": '"><b>',
    "FindingSays": "</b>: ",
    "SeeFile": ' <a href="#f',
    "SeeLine": '">see line ',
    "LinkEnd": "</a>",
    # the section of a file
    "Section": '<section class="fl',
    "SectionName": '">\n<h3>',
    "SectionSays": "</h3>\n<p>",
    "auth": TABLE % ("Rights", "Limits"),
    "known": TABLE % ("Is", "Names"),
    "TableEnd": "</tbody>\n</table>\n</div>\n</section>\n",
    "SectionEnd": "</p>\n</section>\n",
    "Fault": '<strong class="a">',
    "FaultEnd": "</strong>: ",
    # the register of files
    "Register": '<section id="files">\n<h2>Files that were read</h2>\n<p class="says">SHA-256 is that of the bytes that were read, as sha256sum prints it: it ties this page to them.</p>\n'
    f'<table class="reg">\n<thead><tr>{HEADS}</tr></thead>\n<tbody>\n',
    "FileRow": '<tr><th scope="row"><a href="#f',
    "FileName": '">',
    "FirstCount": '</a></th><td class="n">',
    "NextCount": '</td><td class="n">',
    "Digest": "</td><td><samp>",
    "DigestEnd": "</samp></td></tr>\n",
    "FaultCell": '</a></th><td colspan="5">',
    "FaultCellEnd": "</td></tr>\n",
    "RegisterTotal": "</tbody>\n</table>\n<p>",
    # the table to sign
    "Sign": '<section id="sign">\n<h2>Sign</h2>\n<p>The review says what the lines of these files give. It does not read sshd_config, file permissions or key revocation '
    'lists, and it does not know who holds a key. Count a line that cannot be read (F1) as access. "Keep" is a decision of the people who sign.</p>\n'
    '<table class="sg">\n<thead><tr><td></td><th scope="col">Reviewed by</th><th scope="col">Approved by</th></tr></thead>\n<tbody>\n'
    f"{SIGNED}</tbody>\n</table>\n<p>To sign the file itself: <kbd>ssh-keygen -Y sign -n access-review -f KEY PAGE</kbd>. To see whether a file of the list is "
    "still the same: <kbd>sha256sum FILE</kbd>. What changed since the last review is a difference of two JSON lists: docs/RECIPES.md.</p>\n</section>\n",
    # the head and the end of the page
    "Front": '<!DOCTYPE html>\n<html lang="en">\n<head>\n<meta charset="utf-8">\n'
    f'<meta http-equiv="Content-Security-Policy" content="{POLICY}">\n<meta name="viewport" content="width=device-width, initial-scale=1">\n'
    '<meta name="color-scheme" content="light dark">\n<meta name="format-detection" content="telephone=no, date=no, address=no, email=no">\n'
    '<meta name="robots" content="noindex">\n<title>',
    "StyleStart": "</title>\n<style>\n",
    "Style": STYLE,
    "StyleEnd": '</style>\n</head>\n<body>\n<a class="skip" href="#mend">To what has to be mended</a>\n<header>\n<p class="org">ssh_audit review</p>\n<h1>',
    "HeadingEnd": "</h1>\n",
    # the header: the verdict, the numbers, what was asked
    "VerdictGood": '<p class="verdict ok"><span class="dot" aria-hidden="true"></span>',
    "VerdictBad": '<p class="verdict a"><span class="dot" aria-hidden="true"></span>',
    "ParagraphEnd": "</p>\n",
    "Tiles": '<ul class="tiles">\n',
    "Tile": "<li><b>",
    "TileWords": "</b> ",
    "ItemEnd": "</li>\n",
    "ListEnd": "</ul>\n",
    "Asked": '<dl class="asked">\n',
    "Term": "<dt>",
    "TermSays": "</dt><dd>",
    "TermEnd": "</dd>\n",
    "HeaderEnd": '</dl>\n<p class="says">Text on a tinted ground, <code>like this</code>, comes from the files: whoever can write there wrote it. It is printable '
    "ASCII; every other byte, and the backslash, is shown as \\x and two digits.</p>\n"
    '<nav aria-label="Parts of this page"><a href="#mend">What has to be mended</a> <a href="#keys">Keys</a> <a href="#lines">Every line</a> <a href="#files">Files</a> '
    '<a href="#sign">Sign</a></nav>\n</header>\n<main>\n',
    # what has to be mended
    "Mend": '<section id="mend">\n<h2>What has to be mended</h2>\n',
    **{f"{letter} group": GROUP % (letter, name, says) for letter, name, says in GROUPS},
    "GroupEnd": "</dl>\n",
    "FoundCode": '<dt><b class="cd">',
    "FoundCount": '</b> <span class="n">',
    "FoundBar": '</span> <svg class="bar" viewBox="0 0 ',
    "FoundBarLength": ' 1" preserveAspectRatio="none" aria-hidden="true"><rect width="',
    "FoundMeans": '" height="1"></rect></svg> <span class="mean">',
    "FoundRemedy": "</span></dt>\n<dd><p>What to do: ",
    "FoundEnd": ".</p></dd>\n",
    # its places
    "Places": '.</p><p>',
    "PlaceFile": '<a href="#f',
    "PlacesEnd": "</p></dd>\n",
    "NothingToMend": "<p>Nothing.</p>\n",
    "MendEnd": "</section>\n",
    "Absent": '<p class="says">Looked for in every line, and not found:</p>\n<ul>\n',
    "Item": "<li>",
    "LeftOut": '<p class="says">Not looked for:',
    # where each key stands
    "Keys": '<section id="keys">\n<h2>Where each key stands</h2>\n<p class="says">',
    "Key": '<article id="k',
    "KeyPrint": "<samp>SHA256:",
    "Limited": " <i>(limited)</i>",
    "KeyEnd": "</p>\n</article>\n",
    # the keys in many files, as a picture
    "Picture": '<table class="mx">\n<caption>Keys in more than two files: each column is a file, in the order of the list of files. A mark is low where the key is limited.</caption>\n<thead><tr><th scope="col">Key</th><th scope="col">Files</th><th scope="col">Where</th></tr></thead>\n<tbody>\n',
    "PictureRow": '<tr><th scope="row"><a href="#k',
    "Strip": '</td><td><svg class="strip" viewBox="0 0 ',
    "StripColumns": ' 1" preserveAspectRatio="none" aria-hidden="true"><path class="full" d="',
    "Column": "M",
    "ColumnEnd": " 0h1v1h-1z",
    "LowColumnEnd": " .5h1v.5h-1z",
    "StripEnd": '"></path></svg></td></tr>\n',
    "PictureEnd": "</tbody>\n</table>\n",
    # the lines of all files, and the choices of one code
    "Lines": '<section id="lines">\n<h2>Every line, by file</h2>\n',
    "Choices": '<p class="says">A choice hides the other lines on the screen. On paper all lines stand.</p>\n<b class="show">Show</b> <input type="radio" name="show" id="s0" checked><label for="s0">all lines</label>\n',
    "Choice": '<input type="radio" name="show" id="s',
    "ChoiceLabel": '"><label for="s',
    "ChoiceWords": '">',
    "ChoiceEnd": "</label>\n",
    "Sections": '<div class="all">\n',
    "LinesEnd": "</div>\n</section>\n",
    "PageEnd": "</main>\n<footer><p>Written by ssh_audit review --form html. No script, nothing from outside, no link out.</p></footer>\n</body>\n</html>\n",
}
REFERENCES = str.maketrans({"&": "&amp;", "<": "&lt;", ">": "&gt;", '"': "&quot;", "'": "&#39;"})


class Page:
    """A page, or a part of it: pieces, and texts between them."""

    def __init__(self):
        self.parts = []

    def put(self, *pieces):
        self.parts += [(piece, None) for piece in pieces]
        return self

    def say(self, text):
        """Words of the program, or a number."""
        text = str(text)
        assert all(" " <= letter <= "~" for letter in text), f"not printable ASCII: {text!r}"
        self.parts.append((None, text))
        return self

    def tell(self, text):
        """A text of a file."""
        return self.put("Code").say(text).put("CodeEnd")

    def add(self, other):
        self.parts += other.parts
        return self

    @property
    def pieces(self):
        return [piece for piece, _ in self.parts if piece]

    @property
    def html(self):
        return "".join(PIECES[piece] if piece else text.translate(REFERENCES) for piece, text in self.parts).encode("ascii")

    @property
    def tags(self):
        """How often each element stands on the page, by its pieces alone."""
        count = {}
        for piece in self.pieces:
            for tag in TAGS[piece]:
                count[tag] = count.get(tag, 0) + 1
        return count


TAGS = {piece: re.findall(r"<([a-z][a-z0-9]*)", html) for piece, html in PIECES.items() if piece != "Style"} | {"Style": []}


# What each code means and what to do about it, by docs/CODES.md.
MEANS = {code: sentence for code, sentence, _ in explained.rows_of_page()}
REMEDIES = {code: remedy for code, _, remedy in explained.rows_of_page()}


def escaped(text):
    """A text of the command line, as the forms spell bytes."""
    return "".join(f"\\x{byte:02x}" if byte == 0x5C or not 0x20 <= byte <= 0x7E else chr(byte) for byte in text)


def date(moment):
    if not 0 <= moment <= 253_402_300_799:
        return "-"
    return (datetime.datetime(1970, 1, 1) + datetime.timedelta(seconds=moment)).strftime("%Y-%m-%dT%H:%M:%SZ").rjust(20, "0")


def options_of(text):
    """The names and values of canonical options; a quote in a value is spelled \\x5c" there."""
    found = re.findall(r'([A-Za-z0-9-]+)(?:="((?:\\x5c"|[^"])*)")?(?:,|$)', text)
    valued = re.findall(r'([A-Za-z0-9-]+)(=")?(?:(?:\\x5c"|[^"])*")?(?:,|$)', text)
    return [(name, value.replace('\\x5c"', '"') if has else None) for (name, value), (_, has) in zip(found, valued)]


# ---- the row of a line


def put_class(page, code):
    page.put(SOON[code]).say(code[1:])


def put_finding(page, file, made, found, kind):
    code, detail = found["code"], found["detail"]
    word, _, number = detail.rpartition(" ") if detail.rpartition(" ")[2].isdigit() else (detail, "", "")
    page.put("Finding")
    put_class(page, code)
    page.put("FindingCode").say(f"{code} {detail}" if detail else code).put("FindingSays")
    if code == "F1":
        page.say("cannot be read here, and OpenSSH may read it: " + MEANS[detail.split()[0]])
    else:
        keys = (" ".join(filter(None, (code, word, more))) for more in (made["what"], kind, ""))
        page.say(next(SENTENCES[key] for key in [*keys, code] if key in SENTENCES).format(n=number))
    if code in NAMES_A_LINE:
        page.put("SeeFile").say(file).put("LineId").say(number).put("SeeLine").say(number).put("LinkEnd")
    page.put("LimitEnd")


def put_key(page, made):
    """The type of a key, the size of an RSA key, and its fingerprint, where it has them."""
    if made["type"]:
        page.put("KeyType").say(made["type"] if made["bits"] is None else f"{made['type']} {made['bits']}").put("KeyTypeEnd")
    if made["key"]:
        page.put("Fingerprint").say(made["key"].removeprefix("SHA256:")).put("FingerprintEnd")


def put_limit(page, words, text=None):
    page.put("Limit").say(words)
    if text is not None:
        page.tell(text)
    page.put("LimitEnd")


def put_auth_limits(page, made):
    before, options = len(page.parts), options_of(made["options"])
    if made["what"] == "authority":
        put_limit(page, "authority: whoever it certifies")
    if made["command"] is not None:
        put_limit(page, "command ", made["command"])
    for name, value in options:
        if name in CARRIED:
            put_limit(page, f"carry {name} ", value)
    for name in ("no-touch-required", "verify-required"):
        if (name, None) in options:
            put_limit(page, name)
    for field, word in (("source", "from "), ("principals", "principals ")):
        if made[field] is not None:
            put_limit(page, word, made[field])
    if made["expires"] is not None:
        put_limit(page, f"expires {made['expires']} {date(made['expires'])}")
    if len(page.parts) == before:
        page.put("NoLimit")


def put_rights(page, made):
    on = made["rights"].split()
    page.put(*(["NoRights"] if on == ["none"] else [right if right in on else "RightOff" for right in RIGHTS]))


def put_auth_cells(page, made):
    """What an authorized_keys line gives, and what limits it."""
    if made["what"] == "unreadable":
        page.put("RightsCell", "RightsUnknown", "LimitsCell")
    else:
        page.put("RightsCell")
        put_rights(page, made)
        page.put("LimitsCell")
        put_auth_limits(page, made)


def put_known_cells(page, made):
    """What the key of a known_hosts line is, and its names."""
    page.put("RightsCell").say(made["what"]).put("LimitsCell")
    if made["names"] is not None:
        put_limit(page, "names ", made["names"])
    if made["what"] == "revoked":
        put_limit(page, "in ssh it counts for these names alone")


def put_row(page, file, made, kind):
    page.put("Row")
    for found in made["findings"]:
        put_class(page, found["code"])
    page.put(*(["UnreadableClass"] if made["what"] in UNREADABLE else ["AuthorityClass"] if made["what"] == "authority" else []))
    page.put("FileId").say(file).put("LineId").say(made["line"]).put("RowNumber").say(made["line"]).put("KeyCell")
    if made["comment"]:
        page.tell(made["comment"])
    elif made["comment"] is not None:
        page.put("NoComment")
    else:
        page.say(made["what"])
    put_key(page, made)
    (put_auth_cells if kind == "auth" else put_known_cells)(page, made)
    for found in made["findings"]:
        put_finding(page, file, made, found, kind)
    page.put("RowEnd")


# ---- the section of a file, and the register


def counts(end):
    return f"{end['lines']} lines, {end['key_lines']} key lines, {end['unreadable']} unreadable, {end['findings']} findings"


def meaning(end):
    """What the fault of a file means, and what to do."""
    return CAUSES[end["why"]] if end["why"] else FAULTS[end["fault"]]


def put_section(page, file, records, end, kind):
    whats = {made["what"] for made in records}
    page.put("Section")
    for number in sorted({int(found["code"][1:]) for made in records for found in made["findings"]}):
        put_class(page, f"F{number}")
    page.put(*["UnreadableClass"] * bool(whats & UNREADABLE), *["AuthorityClass"] * ("authority" in whats)).put("FileId").say(file).put("SectionName").tell(end["file"]).put("SectionSays")
    if end["fault"]:
        page.put("Fault").say(f"fault {end['fault']}").put("FaultEnd").say(f"{meaning(end)}. Nothing else is told of this file.").put("SectionEnd")
        return
    page.say(counts(end)).put(kind if records else "SectionEnd")
    for made in records:
        put_row(page, file, made, kind)
    if records:
        page.put("TableEnd")


def put_register_row(page, file, end):
    page.put("FileRow").say(file).put("FileName").tell(end["file"])
    if end["fault"]:
        page.put("FaultCell").say(f"fault {end['fault']}: {meaning(end)}").put("FaultCellEnd")
        return
    cells = [end[name] for name in ("lines", "key_lines", "unreadable", "findings")]
    page.put("FirstCount").say(cells[0])
    for cell in cells[1:]:
        page.put("NextCount").say(cell)
    page.put("Digest").say(end["sha256"]).put("DigestEnd")


def total_line(total):
    distinct = "more than 65536" if total["distinct_keys"] is None else total["distinct_keys"]
    counted = counts(total).replace(" key lines, ", f" key lines, {distinct} distinct keys, ")
    return f"total: {total['files']} files, {total['faults']} faults, {counted}, asked at {total['now']} {date(total['now'])}, zone {total['zone']}"


# ---- the header, and what has to be mended


def few(number, one, more):
    """How many there are, in a sentence; nothing where there is none."""
    return f"{number} {one if number == 1 else more}" if number else ""


def put_verdict(page, total, today, looked_for):
    page.put("VerdictBad" if total["faults"] or total["findings"] else "VerdictGood")
    page.say(few(total["faults"], "file could not be read: this review is not whole. ", "files could not be read: this review is not whole. "))
    page.say(few(today, "finding has to be mended today. ", "findings have to be mended today. "))
    nothing = "Nothing that was looked for was found." if looked_for else "No finding was asked for."
    page.say(few(total["findings"], "finding in all.", "findings in all.") or nothing).put("ParagraphEnd")


def put_tiles(page, total, today):
    page.put("Tiles")
    counted = (("files", "files"), ("faults", "not read"), ("lines", "lines"), ("key_lines", "key lines"), ("unreadable", "unreadable lines"), ("findings", "findings"))
    for number, words in [*((total[field], words) for field, words in counted), (today, "to be mended today")]:
        page.put("Tile").say(number).put("TileWords").say(words).put("ItemEnd")
    page.put("ListEnd")


def put_asked(page, total, looked_for):
    terms = {
        "Files": WHAT[total["kind"]],
        "Time of the review": f"{total['now']} {date(total['now'])}",
        "Zone of expiry times without one": total["zone"],
        "RSA keys need": f"{total['rsa_minimum']} bits",
        "Looked for": "".join(f" {code}" for code in looked_for) or "nothing",
        "Written by": total["program"],
    }
    page.put("Asked")
    for term, said in terms.items():
        page.put("Term").say(term).put("TermSays").say(said).put("TermEnd")
    page.put("HeaderEnd")


def put_place(page, name, file, line):
    page.put("PlaceFile").say(file).put("LineId").say(line).put("FileName").tell(name).say(f":{line}").put("LinkEnd")


def put_places(page, places):
    """The end of a code that was found, with a link to each of its places, if there are any."""
    page.put("Places" if places else "FoundEnd")
    for number, (name, file, line) in enumerate(places):
        page.say(" " if number else "")
        put_place(page, name, file, line)
    page.put(*["PlacesEnd"] * bool(places))


def put_found(page, code, number, total, places):
    page.put("FoundCode").say(code).put("FoundCount").say(number).put("FoundBar").say(total["findings"]).put("FoundBarLength").say(number)
    page.put("FoundMeans").say(MEANS[code]).put("FoundRemedy").say(REMEDIES[code])
    put_places(page, [] if SOON[code] == "p" else places)


def places_of(files):
    """Each line that has a code, in the order of files and lines, for each code: the name of its file, the file's number, and its own."""
    places = collections.defaultdict(list)
    for number, (records, end) in enumerate(files):
        for made in records:
            for code in {found["code"] for found in made["findings"]}:
                places[code].append((end["file"], number, made["line"]))
    return places


def put_mend(page, total, found, looked_for, places):
    """What was found, by how soon; what was looked for and not found; what was not looked for."""
    page.put("Mend")
    for letter, _, _ in GROUPS:
        codes = [code for code in CODES[total["kind"]] if SOON[code] == letter and code in found]
        page.put(*[f"{letter} group"] * bool(codes))
        for code in codes:
            put_found(page, code, found[code], total, places[code])
        page.put(*["GroupEnd"] * bool(codes))
    if not total["faults"] and not found:
        page.put("NothingToMend")
    absent = [code for code in looked_for if code not in found]
    page.put(*["Absent"] * bool(absent))
    for code in absent:
        page.put("Item").say(f"{code}: {MEANS[code]}").put("ItemEnd")
    page.put(*["ListEnd"] * bool(absent))
    left_out = "".join(f" {code}" for code in CODES[total["kind"]] if code not in looked_for)
    if left_out:
        page.put("LeftOut").say(f"{left_out}. What each means: ssh_audit explain{left_out}").put("ParagraphEnd")
    page.put("MendEnd")


# ---- where each key stands


def is_limited(made):
    """Whether an entry of authorized_keys has not all rights, or something limits it."""
    if "rights" not in made or made["rights"] is None:
        return False
    page = Page()
    put_auth_limits(page, made)
    return made["rights"].split() != list(RIGHTS) or page.pieces != ["NoLimit"]


def keys_of(files):
    """Each different key, and of each line that has it the comment, the name of its file, the file's number, its own, and whether its
    rights are limited. Those in most files come first, and those in as many in the order of their fingerprints."""
    keys = collections.defaultdict(list)
    for number, (records, end) in enumerate(files):
        for made in records:
            if made["key"]:
                keys[made["key"]].append((made["comment"], end["file"], number, made["line"], is_limited(made)))
    return sorted(sorted(keys.items()), key=lambda one: -len({file for _, _, file, *_ in one[1]}))


def put_name(page, comment):
    if comment:
        page.tell(comment)
    else:
        page.put("NoComment")


def put_picture(page, keys, files):
    """A row for each of the first 40 keys that is in more than two files, and in it a mark for each file."""
    wide = [rows for _, rows in keys[:40] if len({file for _, _, file, *_ in rows}) > 2]
    page.put(*["Picture"] * bool(wide))
    for rows in wide:
        comment, _, file, line, _ = rows[0]
        page.put("PictureRow").say(file).put("LineId").say(line).put("FileName")
        put_name(page, comment)
        page.put("FirstCount").say(len({file for _, _, file, *_ in rows})).put("Strip").say(len(files)).put("StripColumns")
        for _, _, file, _, limited in rows:
            page.put("Column").say(file).put("LowColumnEnd" if limited else "ColumnEnd")
        page.put("StripEnd")
    page.put(*["PictureEnd"] * bool(wide))


def put_key_of(page, key, rows):
    comment, _, file, line, _ = rows[0]
    page.put("Key").say(file).put("LineId").say(line).put("SectionName")
    put_name(page, comment)
    files = len({file for _, _, file, *_ in rows})
    page.put("SectionSays", "KeyPrint").say(key.removeprefix("SHA256:")).put("FingerprintEnd")
    page.say(f" in {few(files, 'file', 'files')}, on {few(len(rows), 'line', 'lines')}").put("Places")
    for place, (_, name, file, line, limited) in enumerate(rows):
        page.say(" " if place else "")
        put_place(page, name, file, line)
        page.put(*["Limited"] * limited)
    page.put("KeyEnd")


def put_keys(page, files):
    keys = keys_of(files)
    page.put("Keys").say(f"{len(keys)} different keys, on {sum(len(rows) for _, rows in keys)} lines, those that cannot be read or revoke a key among them. Those in most files come first.").put("ParagraphEnd")
    put_picture(page, keys, files)
    for key, rows in keys:
        put_key_of(page, key, rows)
    page.put("MendEnd")


def put_choices(page, found):
    """A choice for each code that was found, after that of all lines."""
    page.put(*["Choices"] * bool(found))
    for number in sorted(int(code[1:]) for code in found):
        page.put("Choice").say(number).put("ChoiceLabel").say(number).put("ChoiceWords").say(f"F{number} {found[f'F{number}']}").put("ChoiceEnd")


def put_front(page, objects, total, files):
    """All that comes before the lines of the first file."""
    found = collections.Counter(one["code"] for made in objects if made["what"] != "end" for one in made["findings"])
    looked_for = [code for code in CODES[total["kind"]] if code in total["told"]]
    today = sum(number for code, number in found.items() if SOON[code] == "a")
    put_verdict(page, total, today, looked_for)
    put_tiles(page, total, today)
    put_asked(page, total, looked_for)
    put_mend(page, total, found, looked_for, places_of(files))
    put_keys(page, files)
    page.put("Lines")
    put_choices(page, found)
    page.put("Sections")


# ---- the page


def page_of(objects, title=None):
    """The page of a review, by its JSON lines."""
    *objects, total = objects
    assert total["what"] == "total", "the list was cut off"
    kind, records, files = total["kind"], [], []
    for made in objects:
        if made["what"] == "end":
            files.append((records, made))
            records = []
        else:
            records.append(made)
    heading, page = escaped((TITLES[kind] if title is None else title).encode()), Page()
    page.put("Front").say(heading).put("StyleStart", "Style", "StyleEnd").say(heading).put("HeadingEnd")
    put_front(page, objects, total, files)
    for number, (records, end) in enumerate(files):
        put_section(page, number, records, end, kind)
    page.put("LinesEnd", "Register")
    for number, (_, end) in enumerate(files):
        put_register_row(page, number, end)
    return page.put("RegisterTotal").say(total_line(total)).put("SectionEnd", "Sign", "PageEnd")


def main():
    parser = argparse.ArgumentParser(description=__doc__, formatter_class=argparse.RawDescriptionHelpFormatter)
    parser.add_argument("--title")
    sys.stdout.buffer.write(page_of([json.loads(line) for line in sys.stdin], parser.parse_args().title).html)


if __name__ == "__main__":
    main()
