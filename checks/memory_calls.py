#!/usr/bin/env python3
"""Compares the table of calls that take memory, growths/calls.md, with the sources: each public call of a library that is
lent an allocator or a vector, or that may tell out of memory, stands in it once, and each row that it names is there.

The last line is 'N passed, M failed', of the calls; the status is 0 where nothing failed."""
import pathlib
import re
import sys

TOP = pathlib.Path(__file__).resolve().parent.parent
HEAD = "| Call | Answered whatever memory does | After a refusal | Row |"
# What takes memory, as its signature tells: an allocator, a vector to append to, or out of memory as an error, that of
# an audit's own pieces among them.
TAKES = re.compile(r"alloc: Global|&mut Vec<|AllocError|self\b.*AuditError>")
SIGNATURE = re.compile(r"^( *)(?:pub )?fn (\w+)(.*?)(?=\n +(?:requires|ensures|//)|\n *where|;\n|\{\n)", re.MULTILINE | re.DOTALL)
BLOCK = re.compile(r"^(pub trait|trait|impl)\b(.*?)\{?$", re.MULTILINE)


def exported(crate):
    """The names that the crate's root shows."""
    root = (crate / "src" / "lib.rt").read_text()
    lists = re.findall(r"^pub use (\w+)::(?:\{([^}]*)\}|(\w+));", root, re.MULTILINE)
    return {name.strip() for home, many, one in lists if (crate / "src" / f"{home}.rt").exists() for name in (many or one).split(",") if name.strip()}


def plain(header):
    """The name of the type in the header of a block, without its parameters."""
    while "<" in header:
        header = re.sub(r"<[^<>]*>", "", header)
    return header.split(" for ")[-1].split(":")[0].strip()


def owners(text, signature, names):
    """The public names of the type or the trait whose method this is, where it is one that callers see."""
    blocks = [block.groups() for block in BLOCK.finditer(text) if block.start() < signature.start()]
    kind, header = blocks[-1] if blocks else ("", "")
    own = plain(header)
    aliases = re.findall(rf"^pub type (\w+).*= {own}\b", text, re.MULTILINE)
    is_seen = kind == "pub trait" or "pub fn" in signature[0]
    return [name for name in (own, *aliases) if name in names and is_seen]


def calls_of(crate):
    """The public calls of a library that take memory."""
    names = exported(crate)
    for source in sorted((crate / "src").glob("*.rt")):
        text = source.read_text()
        for signature in SIGNATURE.finditer(text):
            indent, name, rest = signature.groups()
            if not TAKES.search(re.sub(r"\s+", " ", rest)):
                continue
            if indent == "    ":
                yield from (f"{crate.name}::{own}::{name}" for own in owners(text, signature, names))
            elif not indent and name in names and "pub fn" in signature[0]:
                yield f"{crate.name}::{name}"


def listed():
    """The calls of the table, each with its rows."""
    text = (TOP / "checks" / "growths" / "calls.md").read_text()
    table = text[text.index(HEAD) :].split("\n\n", 1)[0].splitlines()[2:]
    crate = ""
    for line in table:
        calls, *_, rows = [cell.strip() for cell in line.strip("|").split("|")]
        crate = (re.findall(r"\*\*`(\w+)`\*\*", calls) or [crate])[0]
        for call in re.findall(r"(?<!\*)`([\w:]+)`(?!\*)", calls):
            yield f"{crate}::{call}", re.findall(r"`(\w+)`", rows)


def libraries():
    """The folders of the libraries that others use."""
    names = [line.split(":")[0] for line in (TOP / "crates.txt").read_text().splitlines() if ":" in line and line[0] != "#"]
    folders = [TOP / "crates" / name for name in names if name != "ssh_program_tests"]
    return [folder for folder in folders if (folder / "src" / "lib.rt").exists()]


def tested():
    """The sources of the rows, and of the checks that run some."""
    files = [*(TOP / "checks" / "growths").glob("*.rattle"), *(TOP / "checks").glob("*.py")]
    return "".join(path.read_text() for path in files)


def faults(found, table, rows):
    """What is wrong with the table, by these calls of the sources and these sources of rows."""
    calls = [call for call, _ in table]
    yield from (f"{call}: not in the table" for call in found - set(calls))
    yield from (f"{call}: not in the sources" for call in set(calls) - found)
    yield from (f"{call}: in the table twice" for call in found if calls.count(call) > 1)
    for call, names in table:
        if not names:
            yield f"{call}: names no row"
        yield from (f"{call}: no row {name}" for name in names if f"fn {name}(" not in rows and f"def {name}(" not in rows)


def main():
    found = {call for crate in libraries() for call in calls_of(crate)}
    wrong = sorted(faults(found, list(listed()), tested()))
    print("\n".join([*wrong, f"{len(found) - min(len(found), len(wrong))} passed, {len(wrong)} failed"]))
    return 1 if wrong else 0


if __name__ == "__main__":
    sys.exit(main())
