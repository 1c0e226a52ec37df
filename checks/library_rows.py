#!/usr/bin/env python3
"""Runs the worked rows of the libraries: each public call once with ample memory, blobs that OpenSSH made, and answers and
reviews worked out by hand. They are tests in Rattle, in rows/. Run it as

    python3 checks/library_rows.py [REPOSITORY]

It needs the kit's `rt`, proves nothing, and takes a minute or two of one processor: a copy of the repository gets a crate
of the rows, and `rt try --test` runs them, compiled with checks of each index and each sum. The rows stand in no crate of
the gate's own, since a proof that a test returns says nothing of what it tests, and took the gate 26 minutes of a
processor. The last line is 'N passed, M failed'."""
import pathlib
import sys

sys.dont_write_bytecode = True
from refused import answers, crate_of_rows, libraries_of

HERE = pathlib.Path(__file__).resolve().parent
TOP = pathlib.Path(sys.argv[1]).resolve() if sys.argv[1:] else HERE.parent


def main():
    modules = {path.stem: path.read_text(encoding="utf-8") for path in (HERE / "rows").glob("*.rattle")}
    count = sum(text.count("#[test]") for text in modules.values())
    with crate_of_rows(TOP, libraries_of(TOP), modules) as crate:
        found, printed = answers(crate, 0)
    wrong = [f"FAILED {row}: {answer}" for row, answer in sorted(found.items()) if answer != "ok"]
    if len(found) != count:
        wrong += [f"FAILED {len(found)} of {count} rows answered\n{printed}"] + (count - len(found) - 1) * ["FAILED no answer"]
    print("\n".join([*wrong, f"{count - len(wrong)} passed, {len(wrong)} failed"]))
    return 1 if wrong else 0


if __name__ == "__main__":
    sys.exit(main())
