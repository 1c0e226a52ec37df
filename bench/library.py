#!/usr/bin/env python3
"""Times the library for C and Python beside starting the program, and compares with what is wanted.

usage: library.py [PROGRAM] [--built FOLDER] [--rounds N]

PROGRAM is crates/ssh_audit/out/ssh_audit and FOLDER, what bindings/build.sh made, bindings/out where they are left out. A login on
ten lines and a review of them: by the calls in C (bindings/c/example.c), by the Python package, and by starting the program. Then
10,000 files of ten lines: by a call each, by one call, and by the program once; of the last two the least of three turns. The texts
have to be the same. Times are of the clock, so nothing else may run: the load of the machine is printed. Needs gcc."""
import argparse
import base64
import hashlib
import os
import pathlib
import subprocess
import sys
import tempfile
import time

TOP = pathlib.Path(__file__).resolve().parent.parent
NOW = 1_750_000_000
SIGNATURE = bytes.fromhex("0000000b7373682d6564323535313900000001aa")


def key(seed):
    return b"\0\0\0\x0bssh-ed25519\0\0\0\x20" + hashlib.sha256(str(seed).encode()).digest()


def line(seed):
    return b"ssh-ed25519 %s user%d@host\n" % (base64.b64encode(key(seed)), seed)


def timed(rounds, call):
    """The microseconds of a call, the least of five turns."""
    turns = []
    for _ in range(5):
        begun = time.perf_counter()
        for _ in range(rounds):
            call()
        turns.append((time.perf_counter() - begun) / rounds * 1e6)
    return min(turns)


def seconds(call, turns=1):
    """The seconds of a call, the least of so many turns, and what it gave."""
    least, made = None, None
    for _ in range(turns):
        begun = time.perf_counter()
        made = call()
        took = time.perf_counter() - begun
        least = took if least is None else min(least, took)
    return least, made


def told(what, found, unit, wanted=None):
    """A line for a measure, with what is wanted of it."""
    print(f"{what}: {found:.3g} {unit}" + ("" if wanted is None else f" (wanted: {wanted}; {'met' if found <= wanted else 'NOT MET'})"))
    return found


def started(program, words, room, rounds):
    """The microseconds of starting the program, by posix_spawn, with nothing printed to the terminal."""
    quiet = [(os.POSIX_SPAWN_OPEN, 0, "/dev/null", os.O_RDONLY, 0), (os.POSIX_SPAWN_OPEN, 1, "/dev/null", os.O_WRONLY, 0)]
    here = os.getcwd()
    os.chdir(room)
    took = timed(rounds // 100 + 1, lambda: os.waitpid(os.posix_spawn(program, [program, *words], os.environ, file_actions=quiet), 0))
    os.chdir(here)
    return took


def by_c(built, room, rounds):
    """The microseconds of each call in C, by its name."""
    made = room / "example"
    subprocess.run(["gcc", "-O2", "-std=c99", "-o", made, TOP / "bindings" / "c" / "example.c", built / "libssh_audit.a", "-lm"], check=True)
    turns = []
    for _ in range(5):
        ran = subprocess.run([made, str(rounds)], capture_output=True, text=True, check=True)
        lines = [line.split(": ") for line in ran.stdout.splitlines() if line.endswith("us a call")]
        turns.append({name: float(found.split(" ")[0]) for name, found in lines})
    return {name: min(turn[name] for turn in turns) for name in turns[0]}


def one_login(package, program, built, room, rounds):
    """A login on ten lines, in each way."""
    trust = b"".join(map(line, range(10)))
    asked = {"offer": key(9), "signature": SIGNATURE, "algorithm": "ssh-ed25519", "session": b"\1\2\3\4", "user": "ann", "address": "192.0.2.1", "now": NOW}
    vouched = package.login(trust, **asked).evidence
    (room / "trust").write_bytes(trust)
    (room / "vouched").write_bytes(b"".join(signed.line() for signed in vouched))
    words = ["login", "--file", "trust", "--offer", base64.b64encode(key(9)).decode(), "--signature", SIGNATURE.hex(), "--algorithm", "ssh-ed25519"]
    words += ["--session", "01020304", "--user", "ann", "--address", "192.0.2.1", "--now", str(NOW), "--zone", "UTC0", "--vouch", "vouched"]
    start = told("starting the program for a login", started(program, words, room, rounds), "us")
    calls = by_c(built, room, rounds)
    typed = told("C, ssh_audit_login", calls["typed login"], "us", 6)
    told("  of starting the program", typed / start, "", 0.01)
    told("C, ssh_audit_run of a login", calls["login"], "us", 40)
    told("C, ssh_audit_run of a review", calls["review"], "us", 40)
    told("Python, decide_login", timed(rounds, lambda: package.decide_login(trust, **asked, vouched=vouched)), "us")
    told("Python, login", timed(rounds // 10 + 1, lambda: package.login(trust, **asked, vouched=vouched)), "us")


def many(package, program, room):
    files = {f"f{n}": b"".join(line(n * 10 + k) for k in range(10)) for n in range(10_000)}
    words = ["review", "--kind", "auth", "--now", str(NOW), "--zone", "UTC0", "--form", "json"]
    for name, held in files.items():
        (room / name).write_bytes(held)
    how = {"cwd": room, "stdin": subprocess.DEVNULL, "stdout": subprocess.PIPE, "check": False}
    once, ran = seconds(lambda: subprocess.run([program, *words, *files], **how), 3)
    told("10,000 files, the program once", once, "s")
    took, whole = seconds(lambda: package.run([*words, *files], files), 3)
    told("10,000 files, one run from Python", took, "s")
    told("  of the program once", took / once, "times", 2)
    print(f"  the same text: {ran.stdout == whole.text}")
    took, _ = seconds(lambda: [package.run([*words, name], {name: held}) for name, held in files.items()])
    told("10,000 files, a run each from Python", took / once, "times the program once")
    took, _ = seconds(lambda: [list(package.review({name: held}, now=NOW)) for name, held in files.items()])
    told("10,000 files, a review each, as records", took / once, "times the program once")


def main():
    parser = argparse.ArgumentParser(description=__doc__, formatter_class=argparse.RawDescriptionHelpFormatter)
    parser.add_argument("program", nargs="?", default=TOP / "crates" / "ssh_audit" / "out" / "ssh_audit", type=pathlib.Path)
    parser.add_argument("--built", default=TOP / "bindings" / "out", type=pathlib.Path)
    parser.add_argument("--rounds", default=5000, type=int)
    args = parser.parse_args()
    program = os.path.abspath(args.program)
    with tempfile.TemporaryDirectory() as folder:
        room = pathlib.Path(folder)
        subprocess.run([sys.executable, "-m", "zipfile", "-e", next(args.built.glob("*.whl")), room / "package"], check=True)
        sys.path.insert(0, str(room / "package"))
        import ssh_audit

        print(f"load of the machine: {os.getloadavg()[0]:.2f} on {os.cpu_count()} processors")
        one_login(ssh_audit, program, args.built, room, args.rounds)
        many(ssh_audit, program, room)


if __name__ == "__main__":
    main()
