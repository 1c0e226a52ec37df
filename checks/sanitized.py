#!/usr/bin/env python3
"""Runs the program as `rt try` builds it, unproved, with the compiler's checks and AddressSanitizer, on random bytes, half
of them mutations of files that are read: no run may touch memory that is not its own, overflow, or come to no end.

usage: sanitized.py [--files N] [--seed N]

It needs the kit's `rt`, and builds the program once. The last line is 'N passed, M failed', of the files; the status is 0
where nothing failed."""
import argparse
import pathlib
import random
import re
import subprocess
import sys
import tempfile

sys.dont_write_bytecode = True
import hostile
import program

# The files that are asked for by name, in one word each, as words on standard input have to be.
NAMED = {name.replace(" ", "_"): text.encode() for name, text in program.FILES.items() if name.isascii() and name not in ("-", "")}
NAMED |= {"body": program.SSHSIG, "message": program.SIGNED_MESSAGE, "many_salts": bytes(20 * 1000)}


def cases(count, seed):
    """Standard inputs, each with the words on its first line."""
    draw, kinds = random.Random(seed), list(hostile.samples())
    while count > 0:
        for asked, data in hostile.random_turn(draw, kinds):
            words = [word.replace(" ", "_") for word in asked]
            yield " ".join(words).encode() + b"\n" + data
            count -= 1
            if count == 0:
                return


def tried(room, count, seed):
    """What `rt try` says of the cases, and its status. Its interpreter, which is slow, is left out by `--steps`."""
    command = ["rt", "try", "--steps", "1", "--cases", str(room / "cases")]
    (room / "cases").mkdir()
    for number, data in enumerate(cases(count, seed)):
        (room / "cases" / f"case{number}").write_bytes(data)
    (room / "named").mkdir()
    for name, data in NAMED.items():
        (room / "named" / name).write_bytes(data)
        command += ["--data", f"{name}={room / 'named' / name}"]
    ran = subprocess.run(command, cwd=program.CRATE, stdin=subprocess.DEVNULL, capture_output=True, check=False)
    return ran.returncode, ran.stderr.decode(errors="replace")


def main():
    parser = argparse.ArgumentParser(description=__doc__, formatter_class=argparse.RawDescriptionHelpFormatter)
    parser.add_argument("--files", type=int, default=200)
    parser.add_argument("--seed", type=int, default=1)
    args = parser.parse_args()
    with tempfile.TemporaryDirectory() as folder:
        status, said = tried(pathlib.Path(folder), args.files, args.seed)
    ended = len(re.findall(r"^case=\S+ run=ended status=[012]\b", said, re.MULTILINE))
    if status or ended != args.files:
        print(f"status {status}\n{said[-4000:]}")
    print(f"{ended} passed, {args.files - ended} failed")
    return 1 if status or ended != args.files else 0


if __name__ == "__main__":
    sys.exit(main())
