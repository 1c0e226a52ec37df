#!/usr/bin/env python3
"""Sees that each wrong edit can be applied: the edits of crates/*/must-fail, which the gate tries, and of checks/planted,
which planted.py tries. It runs nothing.

usage: edits.py

An edit names a file of its crate by `file:`, and then pairs of one line each, `old:` and `new:`; another `file:` may follow
with pairs of its own. The pairs are made one after the other: each old text has to stand in the file exactly once then. An
edit has to change something. The last line is 'N passed, M failed', of the edits; the status is 0 where nothing failed."""
import pathlib
import sys

TOP = pathlib.Path(__file__).resolve().parent.parent
PLANTED = TOP / "checks" / "planted"


def edits():
    """Each edit with the folder of its crate."""
    for path in sorted(TOP.glob("crates/*/must-fail/*.edit")):
        yield path, path.parent.parent
    for path in sorted(PLANTED.glob("*/*.edit")):
        yield path, TOP / "crates" / path.parent.name


def fault(path, crate):
    """What is wrong with an edit, or nothing."""
    texts, name, old = {}, None, None
    for line in path.read_text(encoding="utf-8").splitlines():
        word, _, said = line.partition(": ")
        if word == "file":
            name, old = said, None
            if not (crate / name).is_file():
                return f"there is no file {name}"
            texts.setdefault(name, (crate / name).read_text(encoding="utf-8"))
        elif word == "old" and name:
            old = said
        elif line.startswith("new:") and old:
            count = texts[name].count(old)
            if count != 1:
                return f"{name} has {count} times: {old}"
            texts[name] = texts[name].replace(old, said)
            old = None
        else:
            return f"a line that is not read: {line}"
    same = all(text == (crate / name).read_text(encoding="utf-8") for name, text in texts.items())
    return "it changes nothing" if same else None


def main():
    found = [(path, fault(path, crate)) for path, crate in edits()]
    wrong = [(path, what) for path, what in found if what]
    for path, what in wrong:
        print(f"FAILED {path.relative_to(TOP)}: {what}")
    print(f"{len(found) - len(wrong)} passed, {len(wrong)} failed")
    return 1 if wrong or not found else 0


if __name__ == "__main__":
    sys.exit(main())
