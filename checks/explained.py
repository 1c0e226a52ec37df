#!/usr/bin/env python3
"""Compares the tables of docs/CODES.md with the table in the source (crates/ssh_print/src/table.rt): the same codes in
the same order, and for each the same sentence and the same remedy. It runs nothing.

usage: explained.py

A row of the page is one whose first cell begins with a code between backticks. Its code is the first word there; after
`denied` and `fault`, the second. Its texts are the other two cells without markup: no backticks, of a link its text, and
`\\|` is `|`. A row of the source is three texts between double quotes. The last line is 'N passed, M failed'; the status
is 0 where nothing failed."""
import itertools
import pathlib
import re
import sys

TOP = pathlib.Path(__file__).resolve().parent.parent
PAGE = TOP / "docs" / "CODES.md"
SOURCE = TOP / "crates" / "ssh_print" / "src" / "table.rt"
CELL_END = re.compile(r"(?<!\\)\|")
LINK = re.compile(r"\[([^\]]*)\]\([^)]*\)")
LITERAL = re.compile(r'"((?:[^"\\]|\\.)*)"')
SECTION = re.compile(r"^pub\(crate\) static (\w+): \[Texts; (\d+)\] = \[(.*?)^\];$", re.MULTILINE | re.DOTALL)


def plain(cell):
    """What a cell says, without markup."""
    return LINK.sub(r"\1", cell).replace("`", "").replace("\\|", "|")


def code(cell):
    """The code that a first cell stands for."""
    words = cell.split("`")[1].split()
    return words[1] if words[0] in ("denied", "fault") else words[0]


def rows_of_page():
    """Each row as code, sentence and remedy."""
    rows = []
    for line in PAGE.read_text().splitlines():
        if line.startswith("| `"):
            first, *texts = (cell.strip() for cell in CELL_END.split(line)[1:-1])
            rows.append((code(first), *map(plain, texts)))
    return rows


def rows_of_source():
    """The same of the table in the source."""
    rows = []
    for name, count, body in SECTION.findall(SOURCE.read_text()):
        texts = [re.sub(r"\\(.)", r"\1", text) for text in LITERAL.findall(re.sub(r"^\s*//.*$", "", body, flags=re.MULTILINE))]
        found = [tuple(texts[at : at + 3]) for at in range(0, len(texts), 3)]
        if len(found) != int(count):
            print(f"FAILED {name}: {count} rows are said, and {len(found)} read")
            sys.exit(1)
        rows.extend(found)
    return rows


def main():
    passed = failed = 0
    seen = set()
    for page, source in itertools.zip_longest(rows_of_page(), rows_of_source()):
        good = page == source and len(page) == 3 and page[0] not in seen
        if good:
            seen.add(page[0])
            passed += 1
        else:
            failed += 1
            print(f"FAILED\n  page   {page}\n  source {source}" + ("\n  the code has a row before" if page and page[0] in seen else ""))
    print(f"{passed} passed, {failed} failed")
    return 1 if failed or not passed else 0


if __name__ == "__main__":
    sys.exit(main())
