#!/usr/bin/env python3
"""Times `ssh_audit admits` over many files in one call beside a lower bound in C, `limit logins`, which decodes each line's
key too; and beside `cat`, which only reads the files.

The answers are checked first: a key that is in no line has to be kept out by every file. Then it prints a Markdown table.
README.md beside this file says how to build the program and how to read it.
"""

import argparse
import os
import sys
import tempfile

import inputs
from review import CAT, NOW, output, race, write_small
from run import AUDIT, BUILT, LIMIT, Bench, Command, milliseconds, needed, print_machine, print_table


def commands(bench, folder, names):
    key = f"{folder}/absent.pub"
    with open(key, "wb") as file:
        file.write(inputs.line_of("", inputs.ABSENT, "absent"))
    asked = ("--key", key, "--user", "ann", "--host", inputs.CLIENT, "--address", inputs.ADDRESS, "--now", NOW, "--zone", "UTC0")
    ours = Command(AUDIT, "", (bench.binary, "admits", *asked, *names), 1)
    limit = Command(LIMIT, "", (bench.limit, "logins", inputs.b64(inputs.ABSENT), inputs.CLIENT, inputs.ADDRESS, *names), 0)
    return ours, limit, Command(CAT, "", (needed("cat", "coreutils"), *names), 0)


def faults(names, ours, limit):
    """What is wrong with the answers on these files."""
    status, text = output(ours)
    said = [line.partition(": does not admit: N3: ")[0] for line in text.splitlines() if ": does not admit: N3: " in line]
    if status != 1 or said != names:
        yield f"ssh_audit: status {status}, or some file is not said to keep the key out"
    if output(limit) != (0, "".join(f"{name}: none\n" for name in names)):
        yield "C: some file is not said to keep the key out"


def many_files(bench, folder, lines, count, turns):
    place = f"{folder}/{lines}"
    os.mkdir(place)
    names = write_small(place, count, lines)
    ours, limit, read = commands(bench, place, names)
    wrong = list(faults(names, ours, limit))
    if wrong:
        sys.exit("\n".join(wrong))
    text, c, cat = race(bench, [ours, limit, read], turns)
    return [f"{count:,} of {lines} lines", f"{text.cpu / c.cpu:.2f}", f"{text.cpu / cat.cpu:.2f}", *map(milliseconds, (text, c, cat)), f"{text.peak:.1f}"]


def main():
    parser = argparse.ArgumentParser(description=__doc__, formatter_class=argparse.RawDescriptionHelpFormatter)
    parser.add_argument("--binary", metavar="PATH", default=str(BUILT), help="the built program (%(default)s)")
    parser.add_argument("--files", type=int, default=1000, metavar="N", help="how many files (%(default)s)")
    parser.add_argument("--lines", nargs="+", type=int, default=[5, 17, 100], metavar="N", help="of how many lines each (5 17 100)")
    parser.add_argument("--turns", metavar="N", type=int, default=10, help="runs of each program (%(default)s)")
    args = parser.parse_args()
    with tempfile.TemporaryDirectory(prefix="ssh_audit_bench-") as folder:
        bench = Bench(os.path.abspath(args.binary), folder)
        rows = [many_files(bench, folder, lines, args.files, args.turns) for lines in args.lines]
        print_machine(args.binary)
        print_table(["files", "ssh_audit / C", "ssh_audit / cat", "ssh_audit ms", "C ms", "cat ms", "peak MiB"], rows)


if __name__ == "__main__":
    main()
