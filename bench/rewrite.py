#!/usr/bin/env python3
"""Times `ssh_audit rewrite` beside a lower bound in C, on the same files in one run.

The answers are checked first: a loose spelling of each file has to be written as the file, and the file as itself. Then
it prints a Markdown table. README.md beside this file says how to build the program and how to read it.
"""

import argparse
import os
import pathlib
import re
import subprocess
import sys
import tempfile

import inputs
from run import AUDIT, BUILT, LIMIT, Bench, Command, Cost, milliseconds, print_machine, print_table

REWRITE_KINDS = ["ed25519", "mixed", "options", "names", "hashed"]
LOOSE_SIZES = ["1k", "10k", "100k"]  # a loose file of 64 MiB would pass the limit


def kind_of(file):
    return "known" if inputs.KINDS[file.kind].asked == "host" else "auth"


def loosened(line):
    """The line with more blanks, an option in other case, and a CR at its end; a comment or a blank line as it is."""
    if not line.strip() or line.startswith((b"#", b"@revoked")):
        return line
    front = re.sub(rb"^(restrict|no-agent-forwarding)", lambda name: name.group().upper(), line)
    fields = re.sub(rb" (?=[a-z0-9@.-]+ AAAA)", b"\t ", front.removesuffix(b"\n"))
    return b"  " + fields.replace(b" AAAA", b"   AAAA") + b" \r\n"


def commands(bench, file, path):
    return [
        Command(AUDIT, "", (bench.binary, "rewrite", "--kind", kind_of(file), "--file", path), 0),
        Command(LIMIT, "", (bench.limit, kind_of(file), path), 0),
    ]


def faults(bench, file):
    """What is wrong with the new files."""
    wanted = pathlib.Path(file.path).read_bytes()
    rows = [(command, "") for command in commands(bench, file, file.path)]
    if file.size in LOOSE_SIZES:
        path = f"{file.path}.loose"
        loose = b"".join(map(loosened, wanted.splitlines(keepends=True)))
        pathlib.Path(path).write_bytes(loose)
        rows.append((commands(bench, file, path)[0], " loose"))
        if loose == wanted:
            yield f"{file.kind} {file.size}: no line is spelled loosely"
    for command, spelled in rows:
        got = subprocess.run(command.words, stdin=subprocess.DEVNULL, stdout=subprocess.PIPE)
        if (got.returncode, got.stdout) != (0, wanted):
            asked = f"{command.program}, {file.kind} {file.size}{spelled}"
            yield f"{asked}: status {got.returncode}, or not the file's lines"


def race(bench, file, turns):
    """The least processor time and the highest peak of both programs, which take turns."""
    costs = {command: [] for command in commands(bench, file, file.path)}
    for _ in range(turns):
        for command, found in costs.items():
            found.append(bench.measure(command))
    print(f"measured: {file.kind} {file.size}", file=sys.stderr)
    return [Cost(min(cost.cpu for cost in found), max(cost.peak for cost in found)) for found in costs.values()]


def run(args, folder):
    bench = Bench(args.binary, folder)
    files = [inputs.write(folder, kind, size) for kind in args.kinds for size in args.sizes]
    wrong = [fault for file in files for fault in faults(bench, file)]
    if wrong:
        print("\n".join(wrong), file=sys.stderr)
        return 1
    print(f"the new files of {len(files)} files are as wanted", file=sys.stderr)
    print_machine(args.binary)
    head = ["file", "ssh_audit / C", "ssh_audit ms", "C ms", "ssh_audit MB/s", "peak MiB: ssh_audit", "C"]
    rows = []
    for file in files:
        audit, limit = race(bench, file, args.turns)
        row = [f"{file.kind} {file.size}", f"{audit.cpu / limit.cpu:.2f}", milliseconds(audit), milliseconds(limit)]
        rows.append([*row, f"{file.bytes / audit.cpu / 1e6:.0f}", f"{audit.peak:.1f}", f"{limit.peak:.1f}"])
    print_table(head, rows)
    return 0


def main():
    parser = argparse.ArgumentParser(description=__doc__, formatter_class=argparse.RawDescriptionHelpFormatter)
    parser.add_argument("--binary", metavar="PATH", default=str(BUILT), help="the built program (%(default)s)")
    parser.add_argument("--kinds", nargs="+", choices=REWRITE_KINDS, default=REWRITE_KINDS, help="which files (all)")
    sizes = ["10k", "100k", "64MiB"]
    parser.add_argument("--sizes", nargs="+", choices=list(inputs.SIZES), default=sizes, help=f"which sizes ({sizes})")
    parser.add_argument("--turns", metavar="N", type=int, default=10, help="runs of each program (%(default)s)")
    args = parser.parse_args()
    args.binary = os.path.abspath(args.binary)
    with tempfile.TemporaryDirectory(prefix="ssh_audit_bench-") as folder:
        return run(args, folder)


if __name__ == "__main__":
    sys.exit(main())
