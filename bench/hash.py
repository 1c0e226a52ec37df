#!/usr/bin/env python3
"""Times `ssh_audit hash` beside a lower bound in C and `ssh-keygen -H`, on the same files in one run.

The answers are checked first: each plain name has to be a line of its own, hashed as Python's hmac hashes it with the
next salt, and every other line has to stand as it was. Then it prints a Markdown table. README.md beside this file says
how to build the program and how to read it.
"""

import argparse
import hashlib
import hmac
import os
import pathlib
import shutil
import subprocess
import sys
import tempfile

import inputs
from run import AUDIT, BUILT, KEYGEN, LIMIT, Bench, Command, Cost, milliseconds, print_machine, print_table

SALT = 20


def hashed_lines(line, salts):
    """What has to stand in place of a line, with the next salts."""
    words = line.split(b" ")
    marker = [words.pop(0)] if words[0] == b"@cert-authority" else []
    names, rest = words[0], words[1:]
    if not rest or names[:1] in b"#|@" or set(b"*?!") & set(names):
        yield line
        return
    for name in names.lower().split(b","):
        salt = next(salts)
        digest = hmac.digest(salt, name, "sha1")
        field = f"|1|{inputs.b64(salt)}|{inputs.b64(digest)}".encode()
        yield b" ".join([*marker, field, *rest])


def salts_of(size):
    """Salts without end; a file of them has as many as names can stand in a file of this size."""
    return hashlib.shake_128(f"salts of {size}".encode()).digest(SALT * 5 * (inputs.SIZES[size] or 0))


def commands(bench, file):
    return [
        Command(AUDIT, "", (bench.binary, "hash", "--file", file.path, "--salts", f"{file.path}.salts"), 0),
        Command(LIMIT, "", (bench.limit, "hash", file.path, f"{file.path}.salts"), 0),
        Command(KEYGEN, "", (bench.keygen, "-H", "-f", f"{file.path}.copy"), 0),
    ]


def faults(bench, file):
    """What is wrong with the new files."""
    salts = salts_of(file.size)
    pathlib.Path(f"{file.path}.salts").write_bytes(salts)
    following = (salts[at : at + SALT] for at in range(0, len(salts), SALT))
    lines = pathlib.Path(file.path).read_bytes().splitlines()
    wanted = b"".join(new + b"\n" for line in lines for new in hashed_lines(line, following))
    for command in commands(bench, file)[:2]:
        got = subprocess.run(command.words, stdin=subprocess.DEVNULL, stdout=subprocess.PIPE)
        if (got.returncode, got.stdout) != (0, wanted):
            yield f"{command.program}, {file.kind} {file.size}: status {got.returncode}, or not the wanted lines"


def race(bench, file, turns):
    """The least processor time and the highest peak of the programs, which take turns."""
    costs = {command: [] for command in commands(bench, file)}
    for _ in range(turns):
        shutil.copyfile(file.path, f"{file.path}.copy")
        for command, found in costs.items():
            found.append(bench.measure(command))
    print(f"measured: {file.kind} {file.size}", file=sys.stderr)
    return [Cost(min(cost.cpu for cost in found), max(cost.peak for cost in found)) for found in costs.values()]


def run(args, folder):
    bench = Bench(args.binary, folder)
    files = [inputs.write(folder, "names", size) for size in args.sizes]
    wrong = [fault for file in files for fault in faults(bench, file)]
    if wrong:
        print("\n".join(wrong), file=sys.stderr)
        return 1
    print(f"the new files of {len(files)} files are as wanted", file=sys.stderr)
    print_machine(args.binary)
    ratios = ["ssh_audit / C", "ssh-keygen -H / ssh_audit"]
    head = ["file", *ratios, "ssh_audit ms", "C ms", "ssh-keygen ms", "ssh_audit MB/s", "peak MiB: ssh_audit", "C"]
    rows = []
    for file in files:
        audit, limit, keygen = race(bench, file, args.turns)
        row = [f"{file.kind} {file.size}", f"{audit.cpu / limit.cpu:.2f}", f"{keygen.cpu / audit.cpu:.1f}"]
        row += [milliseconds(audit), milliseconds(limit), milliseconds(keygen)]
        rows.append([*row, f"{file.bytes / audit.cpu / 1e6:.0f}", f"{audit.peak:.1f}", f"{limit.peak:.1f}"])
    print_table(head, rows)
    return 0


def main():
    parser = argparse.ArgumentParser(description=__doc__, formatter_class=argparse.RawDescriptionHelpFormatter)
    parser.add_argument("--binary", metavar="PATH", default=str(BUILT), help="the built program (%(default)s)")
    sizes = ["10k", "100k"]  # of 64 MiB of names the hashed lines pass the limit
    parser.add_argument("--sizes", nargs="+", choices=["1k", *sizes], default=sizes, help=f"which sizes ({sizes})")
    parser.add_argument("--turns", metavar="N", type=int, default=10, help="runs of each program (%(default)s)")
    args = parser.parse_args()
    args.binary = os.path.abspath(args.binary)
    with tempfile.TemporaryDirectory(prefix="ssh_audit_bench-") as folder:
        return run(args, folder)


if __name__ == "__main__":
    sys.exit(main())
