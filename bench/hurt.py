#!/usr/bin/env python3
"""Times `ssh_audit` on input that was made to hurt, at four sizes that double each time: lists that name nobody against a
certificate of many principals, long lists of nets and of clients, a name of a critical option that is as long as a
certificate lets it be, vouch files of other triples, a file of which one line is shown, and a host's key that the first
line of a long file admits.

Each answer is checked, and then a Markdown table is printed: the processor time, the exponent p of time ~ size^p from one
size to the next, and the peak of memory. README.md beside this file says how to build the program and how to read it.
"""

import argparse
import dataclasses
import itertools
import math
import pathlib
import sys
import tempfile

import inputs
import sshsig
from inputs import b64, string
from run import AUDIT, BUILT, USER, Bench, Certificate, Command, Host, Login, print_machine, print_table

MIB = 1 << 20
LINE = 65_000  # bytes of a long line, below the limit of 65,536
KEY_LINE = f"ssh-ed25519 {b64(inputs.LAST)}\n"
AUTHORITY_LINE = f"ssh-ed25519 {b64(inputs.SIGNER)}\n"


@dataclasses.dataclass
class Case:
    """What is asked: the program's words, and the status and the first line of its answer."""

    words: list
    status: int
    answer: str


def listed(texts, room):
    """As many of the texts as fit, with commas between them."""
    taken, used = [], 0
    for text in texts:
        used += len(text) + 1
        if used > room:
            break
        taken.append(text)
    return ",".join(taken)


def written(folder, name, lines):
    path = pathlib.Path(folder) / name
    with path.open("wb") as file:
        file.writelines(line if isinstance(line, bytes) else line.encode() for line in lines)
    return str(path)


class Made(Certificate):
    """A login with a certificate of these principals, critical options and extensions, each a name and its data."""

    def __init__(self, principals=(b"ann",), critical=(), extensions=()):
        super().__init__(inputs.SIGNER)
        names = b"".join(string(name) for name in principals)
        options, more = (string(b"".join(string(name) + string(data) for name, data in pairs)) for pairs in (critical, extensions))
        front = inputs.CERTIFICATE[:108] + (1).to_bytes(8, "big") + (1).to_bytes(4, "big") + string(b"bench")
        times = bytes(8) + b"\xff" * 8
        self.issued = front + string(names) + times + options + more + string(b"") + string(inputs.SIGNER)
        self.offered = self.issued + string(inputs.SIGNATURE)


@dataclasses.dataclass
class Asked:
    path: str


def asked(login, path, vouched="/dev/null"):
    return login.words(Asked(path), vouched)


# ---- the shapes: each gives a case for a size


def principals_of_lines(folder, size):
    names = [f"{number:06}" for number in range(6_000)]
    line = f'cert-authority,principals="{listed((f"x{number}" for number in itertools.count()), LINE - 200)}" {AUTHORITY_LINE}'
    path = written(folder, "lists", itertools.repeat(line, 8 * size))
    return Case(asked(Made([name.encode() for name in names]), path), 1, "denied N3")


def principals_of_certificate(folder, size):
    names = [f"{number:06}" for number in range(750 * size)]
    line = f'cert-authority,principals="{listed((f"x{number}" for number in itertools.count()), LINE - 200)}" {AUTHORITY_LINE}'
    path = written(folder, "lists", itertools.repeat(line, 16))
    return Case(asked(Made([name.encode() for name in names]), path), 1, "denied N3")


def nets_of_certificate(folder, size):
    nets = ",".join(f"10.{number // 256}.{number % 256}.0/24" for number in range(500 * size))
    path = written(folder, "authorities", itertools.repeat(f"cert-authority {AUTHORITY_LINE}", 20_000))
    return Case(asked(Made([USER], [(b"source-address", string(nets.encode()))]), path), 1, "denied N3")


def name_of_option(folder, size):
    path = written(folder, "authorities", itertools.repeat(f"cert-authority {AUTHORITY_LINE}", 20_000))
    return Case(asked(Made([USER], [(b"x" * (8_000 * size), b"")]), path), 1, "denied N3")


def clients_of_lines(folder, size):
    items = listed((f"10.{n // 65536}.{n // 256 % 256}.{n % 256}" for n in itertools.count()), LINE - 200)
    path = written(folder, "clients", itertools.repeat(f'from="{items}" {KEY_LINE}', 8 * size))
    return Case(asked(Login(inputs.LAST), path), 1, "denied N3")


def other_triples(folder, size):
    path = written(folder, "trust", [KEY_LINE])
    vouched = written(folder, "vouched", [b"00 00 00\n" * (8 * size * MIB // 9)])
    return Case(asked(Login(inputs.LAST), path, vouched), 1, "denied N6 0")


def other_file_triples(folder, size):
    body = b"SSHSIG" + bytes([0, 0, 0, 1]) + string(sshsig.KEY) + sshsig.NAMED + string(sshsig.SIGNATURE)
    contents = {"body": body, "message": b"", "vouch": b"00 00 00\n" * (8 * size * MIB // 9)}
    files = [word for name, content in contents.items() for word in (f"--{name}", written(folder, name, [content]))]
    return Case(["sshsig", *files, "--namespace", "file"], 1, "denied N6 0")


def one_line_shown(folder, size):
    path = written(folder, "shown", [KEY_LINE, *itertools.repeat(b"#" * 99 + b"\n", 8 * size * MIB // 100 - 1)])
    return Case(["show", "--kind", "key", "--file", path], 0, "")


def after_the_candidate(folder, size):
    room, lines = 8 * size * MIB, [f"{inputs.HOST} {KEY_LINE}"]
    for line, key in inputs.endless("names"):
        room -= len(line)
        if room < 0:
            break
        if key != inputs.LAST:
            lines.append(line)
    path = written(folder, "hosts", lines)
    host = Host(inputs.LAST)
    vouched = written(folder, "vouched", [" ".join(part.hex() for part in triple) + "\n" for triple in host.evidence()])
    return Case(asked(host, path, vouched), 0, "granted line 1")


SHAPES = {
    "lists of principals, more lines": principals_of_lines,
    "lists of principals, more of the certificate's": principals_of_certificate,
    "source-address, more nets": nets_of_certificate,
    "an unknown critical option, a longer name": name_of_option,
    "from, more lines of addresses": clients_of_lines,
    "a vouch file of other triples": other_triples,
    "a file signature's vouch file of other triples": other_file_triples,
    "show, the first line of a longer file": one_line_shown,
    "host, the first line of a longer file": after_the_candidate,
}
SIZES = [1, 2, 4, 8]


def measured(bench, shape, size, turns, folder):
    case = SHAPES[shape](folder, size)
    command = Command(AUDIT, shape, (bench.binary, *case.words), case.status)
    costs = [bench.measure(command) for _ in range(turns)]
    first = pathlib.Path(bench.output(command)).read_bytes().split(b"\n")[0].decode("ascii")
    if case.answer and first != case.answer:
        sys.exit(f"{shape}, size {size}: {first!r} is answered, and {case.answer!r} is wanted")
    return min(cost.cpu for cost in costs), max(cost.peak for cost in costs)


def run(args, folder):
    bench = Bench(args.binary, folder)
    print_machine(args.binary)
    rows = []
    for shape in args.shapes or SHAPES:
        before = None
        for size in SIZES:
            cpu, peak = measured(bench, shape, size, args.turns, folder)
            exponent = f"{math.log2(cpu / before):.2f}" if before else ""
            rows.append([shape, str(size), f"{cpu * 1000:.1f}", exponent, f"{peak:.1f}"])
            before = cpu
        print(f"measured: {shape}", file=sys.stderr)
    print_table(["Shape", "size", "ms", "exponent", "peak MiB"], rows)


def main():
    parser = argparse.ArgumentParser(description=__doc__, formatter_class=argparse.RawDescriptionHelpFormatter)
    parser.add_argument("--binary", default=BUILT, help="the built program")
    parser.add_argument("--turns", type=int, default=3, help="how often each is run")
    parser.add_argument("--shapes", nargs="+", choices=list(SHAPES), help="which shapes; all, if left out")
    args = parser.parse_args()
    with tempfile.TemporaryDirectory() as folder:
        run(args, folder)


if __name__ == "__main__":
    main()
