#!/usr/bin/env python3
"""Times `ssh_audit review` beside a lower bound in C and `ssh-keygen -l`, on the same files in one run; then on many small
files in one call, beside `cat`, which only reads them.

The answers are checked first: each key of a file has to be listed at its line with the fingerprint that Python's hashlib
gives, by the review, by C, and by ssh-keygen in the same order; and the file's own SHA-256 at its end. Then it prints
Markdown tables. README.md beside this file says how to build the program and how to read them.
"""

import argparse
import base64
import hashlib
import json
import os
import pathlib
import subprocess
import sys
import tempfile
import time

import inputs
from run import AUDIT, BUILT, KEYGEN, LIMIT, Bench, Command, Cost, milliseconds, needed, print_machine, print_table

CAT = "cat"
REVIEW_KINDS = ["ed25519", "mixed", "options"]
NOW = "1750000000"
FORMS = ["text", "json", "html"]
SMALL = 5  # lines of a small file
CACHES = pathlib.Path("/proc/sys/vm/drop_caches")  # Linux: what is written there by root empties the caches of files


def fingerprint(blob):
    return "SHA256:" + base64.b64encode(hashlib.sha256(blob).digest()).decode().rstrip("=")


def review(bench, status, *files, form="text"):
    return Command(AUDIT, form, (bench.binary, "review", "--kind", "auth", "--now", NOW, "--form", form, *files), status)


def limit(bench, *files):
    return Command(LIMIT, "", (bench.limit, "digest", *files), 0)


def keygen(bench, file):
    return Command(KEYGEN, "", (bench.keygen, "-l", "-f", file), 0)


def output(command):
    ran = subprocess.run(command.words, stdin=subprocess.DEVNULL, stdout=subprocess.PIPE, stderr=subprocess.DEVNULL, check=False)
    return ran.returncode, ran.stdout.decode("ascii")


def expected(path, file):
    """What C has to print of a file that inputs.py wrote."""
    lines = [f"{path}:{number} {fingerprint(key)}" for number, (_, key) in enumerate(inputs.whole(file.kind, inputs.SIZES[file.size]), 1) if key]
    return [*lines, f"{path} {file.sha256}"]


def listed(text):
    """The same of a review's JSON lines."""
    for line in text.splitlines():
        made = json.loads(line)
        if "line" in made:
            yield f"{made['file']}:{made['line']} {made['key']}"
        elif made["what"] == "end":
            yield f"{made['file']} {made['sha256']}"


def faults(bench, file):
    """What is wrong with the answers on this file."""
    wanted = expected(file.path, file)
    if output(limit(bench, file.path)) != (0, "".join(line + "\n" for line in wanted)):
        yield f"C, {file.kind} {file.size}: not the keys of the file"
    status, text = output(review(bench, 0, file.path, form="json"))
    if status not in (0, 1) or list(listed(text)) != wanted:
        yield f"ssh_audit, {file.kind} {file.size}: status {status}, or not the keys of the file"
    marks = [line.split()[1] for line in output(keygen(bench, file.path))[1].splitlines()]
    if marks != [line.split()[1] for line in wanted[:-1]]:
        yield f"ssh-keygen, {file.kind} {file.size}: not the keys of the file"


def race(bench, commands, turns):
    """The least processor time and the highest peak of the programs, which take turns."""
    costs = {command: [] for command in commands}
    for _ in range(turns):
        for command, found in costs.items():
            found.append(bench.measure(command))
    return [Cost(min(cost.cpu for cost in found), max(cost.peak for cost in found)) for found in costs.values()]


def from_disk(commands, turns):
    """The least seconds by the clock of each command while no file is cached, or none where caches cannot be emptied."""
    if not os.access(CACHES, os.W_OK):
        return None
    least = [float("inf")] * len(commands)
    for _ in range(turns):
        for at, command in enumerate(commands):
            os.sync()
            CACHES.write_text("3\n", encoding="ascii")
            begun = time.perf_counter()
            subprocess.run(command.words, stdin=subprocess.DEVNULL, stdout=subprocess.DEVNULL, stderr=subprocess.DEVNULL, check=False)
            least[at] = min(least[at], time.perf_counter() - begun)
    return least


def by_clock(commands, turns):
    """The row's ends: by the clock, with every file on the disk."""
    seconds = from_disk(commands, turns)
    if seconds is None:
        return ["-", "-", "-"]
    ours, read = seconds
    return [f"{ours / read:.2f}", f"{ours * 1e3:.0f}", f"{read * 1e3:.0f}"]


def status_of(bench, *files):
    """0 or 1, as something is found in the files or not."""
    return output(review(bench, 0, *files))[0]


def one_file(bench, file, turns):
    status = status_of(bench, file.path)
    forms = [review(bench, status, file.path, form=form) for form in FORMS]
    text, objects, page, c, scan = race(bench, [*forms, limit(bench, file.path), keygen(bench, file.path)], turns)
    print(f"measured: {file.kind} {file.size}", file=sys.stderr)
    ratios = [f"{form.cpu / c.cpu:.2f}" for form in (text, objects, page)]
    times = [f"{scan.cpu / text.cpu:.2f}", milliseconds(text), milliseconds(c), milliseconds(scan)]
    return [f"{file.kind} {file.size}", *ratios, *times, f"{file.bytes / text.cpu / 1e6:.0f}", f"{text.peak:.1f}", f"{page.peak:.1f}"]


def write_small(folder, count, size=SMALL):
    """So many files of a few lines each, of the lines of one long file."""
    lines = [line for line, _ in inputs.whole("options", size * count)]
    names = []
    for number in range(count):
        names.append(f"{folder}/s{number}")
        pathlib.Path(names[-1]).write_bytes(b"".join(lines[size * number : size * (number + 1)]))
    return names


def many_files(bench, folder, count, turns):
    names = write_small(folder, count)
    status, text = output(review(bench, 0, *names, form="json"))
    if status not in (0, 1) or list(listed(text)) != output(limit(bench, *names))[1].splitlines():
        sys.exit(f"{count} small files: status {status}, or C lists other keys")
    cat = Command(CAT, "", (needed("cat", "coreutils"), *names), 0)
    ours = review(bench, status, *names)
    text, page, c, read = race(bench, [ours, review(bench, status, *names, form="html"), limit(bench, *names), cat], turns)
    ratios = [f"{text.cpu / c.cpu:.2f}", f"{page.cpu / c.cpu:.2f}", f"{text.cpu / read.cpu:.2f}"]
    cached = [*ratios, milliseconds(text), milliseconds(c), milliseconds(read), f"{text.peak:.1f}", f"{page.peak:.1f}"]
    return [f"{count:,} of {SMALL} lines", *cached, *by_clock([ours, cat], turns)]


def run(args, folder):
    bench = Bench(args.binary, folder)
    files = [inputs.write(folder, kind, size) for kind in args.kinds for size in args.sizes]
    wrong = [fault for file in files for fault in faults(bench, file)]
    if wrong:
        print("\n".join(wrong), file=sys.stderr)
        return 1
    print(f"the keys of {len(files)} files are as wanted", file=sys.stderr)
    print_machine(args.binary)
    times = ["ssh_audit ms", "C ms"]
    print_table(["file", "ssh_audit / C", "as JSON", "as a page", "ssh-keygen / ssh_audit", *times, "ssh-keygen ms", "ssh_audit MB/s", "peak MiB", "of a page"], [one_file(bench, file, args.turns) for file in files])
    clock = ["from the disk: ssh_audit / cat", "ssh_audit ms", "cat ms"]
    print_table(["small files", "ssh_audit / C", "as a page", "ssh_audit / cat", *times, "cat ms", "peak MiB", "of a page", *clock], [many_files(bench, folder, count, args.turns) for count in args.files])
    return 0


def main():
    parser = argparse.ArgumentParser(description=__doc__, formatter_class=argparse.RawDescriptionHelpFormatter)
    parser.add_argument("--binary", metavar="PATH", default=str(BUILT), help="the built program (%(default)s)")
    parser.add_argument("--kinds", nargs="+", choices=REVIEW_KINDS, default=REVIEW_KINDS, help="which files (all)")
    sizes = ["10k", "100k", "64MiB"]
    parser.add_argument("--sizes", nargs="+", choices=list(inputs.SIZES), default=sizes, help=f"which sizes ({sizes})")
    parser.add_argument("--files", nargs="+", type=int, default=[10_000], metavar="N", help="how many small files (10000)")
    parser.add_argument("--turns", metavar="N", type=int, default=5, help="runs of each program (%(default)s)")
    args = parser.parse_args()
    args.binary = os.path.abspath(args.binary)
    with tempfile.TemporaryDirectory(prefix="ssh_audit_bench-") as folder:
        return run(args, folder)


if __name__ == "__main__":
    sys.exit(main())
