#!/usr/bin/env python3
"""Lists the sentences of README.md and of the documents in docs/ that have more than 30 words. Headings, tables and blocks of
code are left out; what stands between backticks is one word, and of a link its text counts. An item of a list begins a
sentence. It runs nothing.

usage: sentences.py

The last line is 'N passed, M failed', of the documents; the status is 0 where nothing failed."""
import pathlib
import re
import sys

TOP = pathlib.Path(__file__).resolve().parent.parent
DOCUMENTS = [TOP / "README.md", *sorted((TOP / "docs").glob("*.md"))]
LIMIT = 30
BLOCK = re.compile(r"^```.*?^```$", re.MULTILINE | re.DOTALL)
# Each of these lines ends the paragraph before it: a heading and a row of a table are none themselves.
OUTSIDE = re.compile(r"^(?:#.*|\|.*| {4}\S.*)$", re.MULTILINE)
ITEM = re.compile(r"^(?:> )?(?:- |\d+\. )", re.MULTILINE)
LINK = re.compile(r"\[([^\]]*)\]\([^)]*\)")
SPAN = re.compile(r"`[^`]*`")
END = re.compile(r"(?<=[.!?])[*)\"]*\s+")
MARK = "``"
WORD = re.compile(rf"\w|{MARK}")


def sentences(text):
    """The sentences of a document, each in one line, with a mark for what stands between backticks."""
    text = OUTSIDE.sub("\n", BLOCK.sub("\n", text))
    text = re.sub(r"^> ?", "", ITEM.sub("\n\n", text), flags=re.MULTILINE)
    for paragraph in re.split(r"\n\s*\n", text):
        line = " ".join(SPAN.sub(MARK, LINK.sub(r"\1", paragraph)).split())
        yield from END.split(line)


def long_ones(text):
    """Those that have too many words, with the number of these."""
    for sentence in sentences(text):
        count = sum(bool(WORD.search(word)) for word in sentence.split())
        if count > LIMIT:
            yield count, sentence


def main():
    failed = 0
    for path in DOCUMENTS:
        found = list(long_ones(path.read_text()))
        failed += bool(found)
        for count, sentence in found:
            print(f"FAILED {path.relative_to(TOP)}: {count} words: {sentence}")
    print(f"{len(DOCUMENTS) - failed} passed, {failed} failed")
    return 1 if failed else 0


if __name__ == "__main__":
    sys.exit(main())
