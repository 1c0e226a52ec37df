#!/usr/bin/env python3
"""Times `ssh_audit login` and `ssh_audit host` beside a lower bound in C and `ssh-keygen`, on the same files in one run.

The answers are checked first: a fast wrong scan is worth nothing. Then it prints Markdown tables. README.md beside this
file says how to build the program and how to read the tables.
"""

import argparse
import dataclasses
import hashlib
import math
import os
import pathlib
import platform
import re
import shutil
import subprocess
import sys
import tempfile

import inputs
from inputs import string

HERE = pathlib.Path(__file__).resolve().parent
BUILT = HERE.parent / "crates" / "ssh_audit" / "out" / "ssh_audit"
ENOUGH = 4.0  # seconds of processor time: a program that has used them has no turn after its second
TOO_SHORT = 0.001  # seconds of processor time: growth cannot be told from less
AUDIT, LIMIT, KEYGEN = "ssh_audit", "C", "ssh-keygen"


# ---- what is asked

SESSION, USER, EXCHANGE_HASH = b"\x01\x02\x03\x04", b"ann", b"\x05\x06\x07\x08"
GRANTS, REVOKES, DENIES = (  # an outcome: the status, and what ssh_audit and C say of the line
    (0, "granted line {}", "line {}"),
    (1, "denied N1 {}", "revoked {}"),
    (1, "denied N3", "none"),
)


class Login:
    """A login with a key, and what is signed for it."""

    command, limit = "login", ("login", inputs.CLIENT, inputs.ADDRESS)

    def __init__(self, key):
        self.key = self.offered = self.subject = key  # the plain key, what is offered, and whose key a line has to hold
        kind = inputs.type_of(key)
        self.algorithm = b"rsa-sha2-512" if kind == b"ssh-rsa" else kind
        # The signature of a security key also has flags, here user presence, and a counter (PROTOCOL.u2f).
        tail = b"\x01" + bytes(4) if kind.startswith(b"sk-") else b""
        self.signature = string(self.algorithm) + string(b"\xaa" * 64) + tail

    def message(self):
        """The bytes that are signed (RFC 4252 section 7)."""
        request = b"\x32" + string(USER) + string(b"ssh-connection") + string(b"publickey") + b"\x01"
        return string(SESSION) + request + string(self.algorithm) + string(self.offered)

    def evidence(self):
        return [(self.key, self.message(), self.signature)]

    def circumstances(self):
        signed = ["--algorithm", self.algorithm.decode(), "--session", SESSION.hex(), "--user", USER.decode()]
        return [*signed, "--host", inputs.CLIENT, "--address", inputs.ADDRESS]

    def words(self, file, vouched):
        offer = ["--offer", inputs.b64(self.offered), "--signature", self.signature.hex(), "--now", "150"]
        return [self.command, "--file", file.path, *offer, *self.circumstances(), "--vouch", vouched]

    def limit_words(self, file):
        command, *texts = self.limit
        return [command, file.path, inputs.b64(self.subject), *texts]


class Certificate(Login):
    """A login with a certificate that the key issued."""

    limit = ("authority", *Login.limit[1:])

    def __init__(self, signer):
        super().__init__(inputs.CERTIFIED)
        self.subject = signer
        self.issued, self.offered = inputs.issued_by(signer)
        self.algorithm = inputs.type_of(self.offered)

    def evidence(self):
        return [*super().evidence(), (self.subject, self.issued, inputs.SIGNATURE)]


class Host(Login):
    """A host's key, which signs the exchange hash (RFC 4253 section 8)."""

    command, limit = "host", ("host", inputs.HOST)

    def message(self):
        return EXCHANGE_HASH

    def circumstances(self):
        return ["--hash", EXCHANGE_HASH.hex(), "--host", inputs.HOST, "--port", "22"]


ASKED = {"login": Login, "authority": Certificate, "host": Host}


def ends_of(file):
    """The keys that are timed: a name, the key, the outcome and its line."""
    return [("absent", inputs.ABSENT, DENIES, 0), ("last line", inputs.KINDS[file.kind].last, GRANTS, file.lines)]


def firsts_of(file):
    for word, (key, line) in file.firsts.items():
        yield f"first {word}", key, REVOKES if word == "@revoked" else GRANTS, line


def keygen_words(file):
    """What ssh-keygen is asked, and how many lines it has to print."""
    if inputs.KINDS[file.kind].asked == "host":
        return ("-F", inputs.HOST, "-f", file.path), 2
    return ("-l", "-f", file.path), file.keys


# ---- running the programs


@dataclasses.dataclass(frozen=True)
class Command:
    """A program at work on a file, and how it has to answer."""

    program: str
    offer: str
    words: tuple
    status: int
    answer: str = ""


@dataclasses.dataclass(frozen=True)
class Cost:
    cpu: float  # seconds
    peak: float  # MiB


def needed(tool, package):
    return shutil.which(tool) or sys.exit(f"{tool} is missing: apt-get install -y {package}")


class Bench:
    def __init__(self, binary, folder):
        self.binary, self.folder = binary, folder
        self.keygen = needed("ssh-keygen", "openssh-client")
        self.limit = self.compile("limit", "-O3", sources=["hmac", "sha256"])
        self.meter = self.compile("meter", "-O2", "-static")

    def compile(self, name, *flags, sources=()):
        made = f"{self.folder}/{name}"
        files = [HERE / f"{source}.c" for source in (name, *sources)]
        subprocess.run([needed("gcc", "gcc libc6-dev"), *flags, "-o", made, *files], check=True)
        return made

    def commands(self, file, offers):
        """Both programs with each offer, all evidence vouched."""
        vouched = f"{file.path}.vouched"
        ask = ASKED[inputs.KINDS[file.kind].asked]
        offers = [(name, ask(key), outcome, line) for name, key, outcome, line in offers]
        triples = [triple for _, offer, _, _ in offers for triple in offer.evidence()]
        pathlib.Path(vouched).write_text("".join(" ".join(part.hex() for part in triple) + "\n" for triple in triples))
        for name, offer, (status, audit, limit), line in offers:
            yield Command(AUDIT, name, (self.binary, *offer.words(file, vouched)), status, audit.format(line))
            yield Command(LIMIT, name, (self.limit, *offer.limit_words(file)), status, limit.format(line))

    def faults(self, file):
        """What is wrong with the answers on this file, also to the first line of each kind."""
        for command in self.commands(file, [*ends_of(file), *firsts_of(file)]):
            got = subprocess.run(command.words, stdin=subprocess.DEVNULL, stdout=subprocess.PIPE)
            lines = got.stdout.decode("ascii", "replace").splitlines() or [""]
            asked = f"{command.program}, {file.kind} {file.size}, offered key {command.offer}"
            if (got.returncode, lines[0]) != (command.status, command.answer):
                yield f"{asked}: status {got.returncode}, {lines[0]!r}; wanted {command.status}, {command.answer!r}"
            if any(re.match(r"reason \d+ G1|unreadable", line) for line in lines):
                yield f"{asked}: calls lines unreadable, and each is well formed"

    def output(self, command):
        return f"{self.folder}/{command.program}.output"

    def measure(self, command):
        words = self.meter, self.output(command), *command.words
        said = subprocess.run(words, check=True, stdout=subprocess.PIPE).stdout
        microseconds, kilobytes, status = map(int, said.split())
        if status != command.status:
            sys.exit(f"{command.program} ended with status {status} in a timed run: {command.status} is wanted")
        return Cost(microseconds / 1e6, kilobytes / 1024)

    def race(self, file, turns):
        """The least processor time and the highest peak of each program.

        The programs take turns, so that a burst of other work on the machine meets all of them.
        """
        words, wanted_lines = keygen_words(file)
        scan = Command(KEYGEN, "any", (self.keygen, *words), 0)
        costs = {command: [] for command in [*self.commands(file, ends_of(file)), scan]}
        for turn in range(turns):
            for command, found in costs.items():
                if turn < 2 or sum(cost.cpu for cost in found) < ENOUGH:
                    found.append(self.measure(command))
        if pathlib.Path(self.output(scan)).read_bytes().count(b"\n") != wanted_lines:
            sys.exit(f"ssh-keygen does not print {wanted_lines} lines on {file.path}: the input is at fault")
        print(f"measured: {file.kind} {file.size}", file=sys.stderr)
        return {
            (command.program, command.offer): Cost(min(cost.cpu for cost in found), max(cost.peak for cost in found))
            for command, found in costs.items()
        }


# ---- printing


def print_table(head, rows):
    print("\n| " + " | ".join(head) + " |\n|---|" + "---:|" * (len(head) - 1))
    for row in rows:
        print("| " + " | ".join(row) + " |")


def print_machine(binary):
    cpu = re.search(r"model name\s*: (.*)", pathlib.Path("/proc/cpuinfo").read_text())
    ssh = subprocess.run(["ssh", "-V"], stderr=subprocess.PIPE).stderr.decode().strip()
    gcc = subprocess.run(["gcc", "-dumpfullversion"], stdout=subprocess.PIPE).stdout.decode().strip()
    program = hashlib.sha256(pathlib.Path(binary).read_bytes()).hexdigest()
    print(f"- {os.cpu_count()} processors, {cpu.group(1) if cpu else platform.machine()}; Linux {platform.release()}")
    print(f"- load when the timing began: {os.getloadavg()[0]:.1f}")
    print(f"- {ssh}; gcc {gcc}; SHA-256 of ssh_audit {program[:16]}")


def milliseconds(cost):
    return f"{cost.cpu * 1e3:.2f}" if cost.cpu < 0.01 else f"{cost.cpu * 1e3:,.0f}"


def print_costs(kind, races):
    head = ["size", "offered key", "ssh_audit / C", "ssh-keygen / ssh_audit", "ssh_audit ms", "C ms", "ssh-keygen ms"]
    head += ["ssh_audit MB/s", "peak MiB: ssh_audit", "C", "ssh-keygen"]
    rows = []
    for file, costs in races:
        for offer, *_ in ends_of(file):
            all_three = audit, limit, keygen = costs[AUDIT, offer], costs[LIMIT, offer], costs[KEYGEN, "any"]
            row = [file.size, offer, f"{audit.cpu / limit.cpu:.2f}", f"{keygen.cpu / audit.cpu:.1f}"]
            row += [*map(milliseconds, all_three), f"{file.bytes / audit.cpu / 1e6:.0f}"]
            rows.append(row + [f"{cost.peak:.1f}" for cost in all_three])
    print(f"\n## {ASKED[inputs.KINDS[kind].asked].command}: {kind}")
    print_table(head, rows)


def print_growth(races):
    """The exponent p of time ~ bytes^p from each size to the next, with the time of the file of one line taken off."""
    (one_line, start), *longer = races
    if one_line.lines != 1 or len(longer) < 2:
        return
    steps = list(zip(longer, longer[1:]))
    rows = []
    for program, offer in start:
        row = [program, offer]
        for (small, few), (large, many) in steps:
            less, more = (costs[program, offer].cpu - start[program, offer].cpu for costs in (few, many))
            known = min(less, more) >= TOO_SHORT
            row.append(f"{math.log(more / less) / math.log(large.bytes / small.bytes):.2f}" if known else "")
        rows.append(row)
    print("\nGrowth: the exponent p of processor time ~ bytes^p (1.00 is linear; empty: too short to tell).")
    head = ["program", "offered key", *(f"{small.size} to {large.size}" for (small, _), (large, _) in steps)]
    print_table(head, rows)


def print_inputs(files):
    print("\n## Inputs")
    counts = (map("{:,}".format, (file.lines, file.keys, file.bytes)) for file in files)
    rows = [(f"{file.kind} {file.size}", *count, file.sha256[:16]) for file, count in zip(files, counts)]
    print_table(("file", "lines", "keys", "bytes", "SHA-256"), rows)


# ---- the whole run


def run(args, folder):
    bench = Bench(args.binary, folder)
    files = [inputs.write(folder, kind, size) for kind in args.kinds for size in args.sizes]
    faults = [fault for file in files for fault in bench.faults(file)]
    if faults:
        print("\n".join(faults), file=sys.stderr)
        return 1
    print(f"the answers on {len(files)} files are as wanted", file=sys.stderr)
    print_machine(args.binary)
    for kind in args.kinds:
        races = [(file, bench.race(file, args.turns)) for file in files if file.kind == kind]
        print_costs(kind, races)
        print_growth(races)
    print_inputs(files)
    return 0


def main():
    parser = argparse.ArgumentParser(description=__doc__, formatter_class=argparse.RawDescriptionHelpFormatter)
    parser.add_argument("--binary", metavar="PATH", default=str(BUILT), help="the built program (%(default)s)")
    for option, known in (("--kinds", list(inputs.KINDS)), ("--sizes", list(inputs.SIZES))):
        parser.add_argument(option, nargs="+", choices=known, default=known, help="which files (all)")
    parser.add_argument("--turns", metavar="N", type=int, default=20, help="runs of each program (%(default)s)")
    parser.add_argument("--keep", metavar="FOLDER", help="write the inputs there, and leave them")
    args = parser.parse_args()
    args.binary = os.path.abspath(args.binary)
    if not os.access(args.binary, os.X_OK):
        parser.error(f"{args.binary} is no program: README.md says how to build it")
    if args.keep:
        os.makedirs(args.keep, exist_ok=True)
        return run(args, os.path.abspath(args.keep))
    with tempfile.TemporaryDirectory(prefix="ssh_audit_bench-") as folder:
        return run(args, folder)


if __name__ == "__main__":
    sys.exit(main())
