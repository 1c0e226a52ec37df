#!/usr/bin/env python3
"""Makes each public call that takes memory with growths of memory refused in turn. Each has to tell out of memory or give
its row's own answer; what was lent is as it was, and an audit whose piece was refused answers so for ever. The calls that
take no memory give their rows whatever growth is refused. growths/calls.md lists the calls with their rows. Run it as

    python3 checks/refused_calls.py [--every] [REPOSITORY]

It needs the kit's `rt`, proves nothing, and takes a minute of one processor for each growth, three side by side where
there are processors: a copy of the repository gets a crate of the rows of growths/ and of the tables in refused_lines.py,
and `rt try --test --fail-alloc N` runs them. With --every N is 1, 2, .. until no row has an Nth growth, some twenty; else
it is one of eleven numbers, of which the last two are past them all, as the gate runs it. The last line is 'N passed, M failed'."""
import pathlib
import sys

sys.dont_write_bytecode = True
import refused_lines
from refused import check_rows, libraries_of

HERE = pathlib.Path(__file__).resolve().parent
GIVEN = [word for word in sys.argv[1:] if word != "--every"]
TOP = pathlib.Path(GIVEN[0]).resolve() if GIVEN else HERE.parent

def main():
    modules = {path.stem: path.read_text() for path in (HERE / "growths").glob("*.rattle")}
    modules |= {"line_rows": refused_lines.line_tests(), "file_rows": refused_lines.file_tests()}
    passed, failed = check_rows(TOP, libraries_of(TOP), modules, "--every" in sys.argv)
    print(f"{passed} passed, {failed} failed")
    return 1 if failed else 0


if __name__ == "__main__":
    sys.exit(main())
