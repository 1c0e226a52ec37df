#!/usr/bin/env python3
"""Times `ssh_audit sshsig` on a message beside the kit's own SHA-256 and coreutils' `sha256sum`, on the same file in
one run.

Each answer is checked: what a program prints has to hold the message's digest. Then it prints a Markdown table. README.md
beside this file says how to build the program and how to read it.
"""

import argparse
import hashlib
import os
import pathlib
import shutil
import subprocess
import sys
import tempfile

from inputs import string

HERE = pathlib.Path(__file__).resolve().parent
BUILT = HERE.parent / "crates" / "ssh_audit" / "out" / "ssh_audit"
FILE_LIMIT = 67_108_864  # the most bytes that ssh_audit takes of a message
KEY = string(b"ssh-ed25519") + string(bytes(32))
SIGNATURE = string(b"ssh-ed25519") + string(b"\xaa" * 64)
NAMED = string(b"file") + string(b"") + string(b"sha256")


def build_kit_sha256(folder):
    """Proves and builds kit_sha256.rattle, and gives the program."""
    crate = folder / "crates" / "kit_sha256"
    (crate / "src").mkdir(parents=True)
    shutil.copy(HERE / "kit_sha256.rattle", crate / "src" / "main.rt")
    (folder / "crates.txt").write_text("kit_sha256: sha2\n")
    empty = folder / "empty"
    empty.write_bytes(b"")
    quiet = subprocess.DEVNULL
    subprocess.run(["rt", "run", "--", str(empty)], cwd=crate, stdout=quiet, stderr=quiet, check=True)
    return crate / "out" / "kit_sha256"


def build_meter(folder):
    meter = folder / "meter"
    subprocess.run(["gcc", "-O2", "-static", "-o", str(meter), str(HERE / "meter.c")], check=True)
    return meter


def commands(binary, kit_sha256, message, body):
    """Each program's words and status, and what it has to print somewhere."""
    digest = hashlib.sha256(message.read_bytes()).digest()
    signed = b"SSHSIG" + NAMED + string(digest)
    words = ["sshsig", "--body", str(body), "--message", str(message), "--namespace", "file"]
    return {
        "ssh_audit": ([str(binary), *words], 1, signed.hex()),
        "kit": ([str(kit_sha256), str(message)], 0, digest.hex()),
        "sha256sum": (["sha256sum", str(message)], 0, digest.hex()),
    }


def measure(meter, output, words, status, answer):
    """The seconds of processor time and the peak in MiB."""
    said = subprocess.run([str(meter), str(output), *words], check=True, stdout=subprocess.PIPE).stdout
    microseconds, kilobytes, ended = map(int, said.split())
    if ended != status or answer not in output.read_text():
        sys.exit(f"{words[0]}: status {ended}, and not the answer that is wanted")
    return microseconds / 1e6, kilobytes / 1024


def run(args, folder):
    message, body, output = folder / "message", folder / "body", folder / "output"
    message.write_bytes(hashlib.shake_128(b"message").digest(args.size))
    body.write_bytes(b"SSHSIG" + bytes([0, 0, 0, 1]) + string(KEY) + NAMED + string(SIGNATURE))
    meter = build_meter(folder)
    costs = {}
    asked = commands(args.binary, build_kit_sha256(folder), message, body)
    for _ in range(args.turns):
        for name, command in asked.items():
            costs.setdefault(name, []).append(measure(meter, output, *command))
    cpu = {name: min(seconds for seconds, _ in found) for name, found in costs.items()}
    peak = {name: max(most for _, most in found) for name, found in costs.items()}
    print("| program | ms | MB/s | peak MiB | ssh_audit / program |\n|---|---:|---:|---:|---:|")
    for name, seconds in cpu.items():
        rate, ratio = args.size / seconds / 1e6, cpu["ssh_audit"] / seconds
        print(f"| {name} | {seconds * 1e3:,.1f} | {rate:,.0f} | {peak[name]:.1f} | {ratio:.2f} |")


def main():
    parser = argparse.ArgumentParser(description=__doc__, formatter_class=argparse.RawDescriptionHelpFormatter)
    parser.add_argument("--binary", metavar="PATH", default=str(BUILT), help="the built program (%(default)s)")
    parser.add_argument("--size", metavar="BYTES", type=int, default=FILE_LIMIT, help="of the message (%(default)s)")
    parser.add_argument("--turns", metavar="N", type=int, default=5, help="runs of each program (%(default)s)")
    args = parser.parse_args()
    args.binary = os.path.abspath(args.binary)
    with tempfile.TemporaryDirectory(prefix="ssh_audit_bench-") as folder:
        run(args, pathlib.Path(folder))


if __name__ == "__main__":
    main()
