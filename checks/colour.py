#!/usr/bin/env python3
"""Runs the built program on a pseudo terminal and into a pipe, and compares what it prints: on the terminal the lines that deny,
that are a fault or that tell what has to be fixed stand between two sequences, and nothing else differs.

usage: colour.py [PROGRAM]

The last line is 'N passed, M failed'; the status is 0 where nothing failed."""
import os
import pathlib
import pty
import re
import subprocess
import sys
import tempfile

sys.dont_write_bytecode = True
from program import CRATE, FILES, KEY, OTHER_KEY, SIGNED_MESSAGE, SSHSIG, Tally, hash_names, host, login, readable, review, rewrite, show, sshsig

PROGRAM = pathlib.Path(sys.argv[1] if len(sys.argv) > 1 else CRATE / "out" / "ssh_audit").resolve()
SECONDS = 60
SEQUENCE = re.compile(rb"\x1b\[[0-9;]*m")
# A line in colour: the sequences stand around it, the second before its end.
COLOURED = re.compile(rb"\x1b\[(31|33)m([^\x1b]*)\x1b\[0m")
RED, YELLOW = b"31", b"33"
# An answer that denies, or a fault: of one answer, of a file. What has to be fixed: a finding, a line that cannot be read.
ANSWER = ((re.compile(rb"denied |fault "), RED),)
OF_FILES = (
    (re.compile(rb"fault |[^ ][^:]*: (?:fault |does not (?:admit|trust): )"), RED),
    (re.compile(rb"    F\d|[^ ][^:]*:\d+: unreadable"), YELLOW),
)
ASKED = ["--user", "ann", "--address", "192.0.2.1", "--now", "150"]
# The comment of a key, and lines that are none, as the lines that have a colour: it is the program's own lines that have one.
DECOYS = f"ssh-ed25519 {KEY} a: fault A9\ndenied N3\nfault A9\n    F1 L1: x\nx: does not admit: N3: y\n"
HOST_DECOYS = f"h ssh-ed25519 {KEY} a: fault A9\ndenied N3\nfault A9\n    F1 L1: x\n"

# The words of a question, which of its lines have a colour, and how many of them have each.
QUESTIONS = (
    (login("keys"), ANSWER, 1, 0),
    (login("keys", "vouched"), ANSWER, 0, 0),
    (login("missing"), ANSWER, 1, 0),
    (login("keys", "a missing file"), ANSWER, 1, 0),
    (login("decoys"), ANSWER, 1, 0),
    (login("command", "vouched"), ANSWER, 0, 0),
    (host("revoked", "host vouched"), ANSWER, 1, 0),
    (host("hosts", "host vouched"), ANSWER, 0, 0),
    (sshsig("body", "message"), ANSWER, 1, 0),
    (sshsig("body", "message", "file vouched"), ANSWER, 0, 0),
    (sshsig("body", "message", "file vouched", "git"), ANSWER, 1, 0),
    (["admits", "--key", "key.pub", *ASKED, "missing", "keys", "other keys", "decoys"], OF_FILES, 2, 0),
    (["admits", "--key", "missing", *ASKED, "keys"], OF_FILES, 1, 0),
    (["trusts", "--key", "key.pub", "--host", "h", "--now", "150", "hosts", "revoked", "missing"], OF_FILES, 2, 0),
    (review("decoys", "missing", "keys", findings="all"), OF_FILES, 1, None),
    (review("host decoys", "revoked", kind="known"), OF_FILES, 0, None),
    (review("keys", findings="x"), OF_FILES, 1, 0),
    (review("keys", soon=1), OF_FILES, 1, 0),
)
# Questions whose answer has no line with a colour, whatever stands in the files.
PLAIN = (
    review("decoys", "keys", form="json", findings="all"), review("decoys", "keys", form="line", findings="all"), ["admits", "--key", "key.pub", *ASKED, "--form", "json", "keys", "other keys"],
    rewrite("auth", "decoys"), rewrite("known", "host decoys"), readable("decoys"), hash_names("host decoys", "salts"), show("key", "decoys"),
    show("key", "missing"), ["explain"], ["explain", "Q1"], ["denied"],
)


def settings(**more):
    return {"PATH": os.environ["PATH"], "TERM": "xterm", **more}


def run(words, room, **more):
    """The status, and what goes into a pipe."""
    ran = subprocess.run([PROGRAM, *words], cwd=room, env=settings(**more), stdin=subprocess.DEVNULL, capture_output=True, timeout=SECONDS, check=False)
    return ran.returncode, ran.stdout


def read_all(master):
    """What comes to a terminal until nobody writes to it any more."""
    pieces = []
    while True:
        try:
            piece = os.read(master, 65536)
        except OSError:
            break
        if not piece:
            break
        pieces.append(piece)
    return b"".join(pieces)


def run_on_terminal(words, room, **more):
    """The status, and what comes to a terminal, with LF for its line ends."""
    master, slave = pty.openpty()
    try:
        started = subprocess.Popen([PROGRAM, *words], cwd=room, env=settings(**more), stdin=subprocess.DEVNULL, stdout=slave, stderr=subprocess.DEVNULL)
        os.close(slave)
        printed = read_all(master)
        return started.wait(SECONDS), printed.replace(b"\r\n", b"\n")
    finally:
        os.close(master)


def colour_of(line, kinds):
    return next((colour for kind, colour in kinds if kind.match(line)), None)


def wrong_lines(printed, kinds):
    """Lines without the sequences that they have to have, or with others."""
    for line in printed.split(b"\n"):
        text = SEQUENCE.sub(b"", line)
        found = COLOURED.fullmatch(line)
        wanted = colour_of(text, kinds)
        if (found[1] if found else None) != wanted or (found is None and b"\x1b" in line):
            yield line, wanted


def try_all(room, tally):
    for words, kinds, red, yellow in QUESTIONS:
        name = " ".join(words)[:100]
        answer = run(words, room)
        status, printed = run_on_terminal(words, room)
        tally.check(f"{name}: the same without colour", (status, SEQUENCE.sub(b"", printed)), answer)
        tally.check(f"{name}: no colour in a pipe", b"\x1b" in answer[1], False)
        tally.check(f"{name}: each line", list(wrong_lines(printed, kinds))[:1], [])
        colours = [found[1] for found in COLOURED.finditer(printed)]
        tally.check(f"{name}: red lines", colours.count(RED), red)
        tally.check(f"{name}: yellow lines", colours.count(YELLOW) > 0 if yellow is None else colours.count(YELLOW), True if yellow is None else yellow)
        for more in ({"NO_COLOR": "1"}, {"NO_COLOR": "0"}, {"TERM": "dumb"}):
            tally.check(f"{name}: no colour with {more}", run_on_terminal(words, room, **more), answer)
        tally.check(f"{name}: an empty NO_COLOR", run_on_terminal(words, room, NO_COLOR=""), (status, printed))
    for words in PLAIN:
        tally.check(f"{' '.join(words)[:100]}: never a colour", run_on_terminal(words, room), run(words, room))


def main():
    if not os.access(PROGRAM, os.X_OK):
        print(f"{PROGRAM} is not built: nothing was tried\n0 passed, 1 failed")
        return 1
    tally = Tally()
    with tempfile.TemporaryDirectory() as folder:
        room = pathlib.Path(folder)
        for name, text in FILES.items():
            (room / name).write_text(text, encoding="utf-8")
        (room / "body").write_bytes(SSHSIG)
        (room / "message").write_bytes(SIGNED_MESSAGE)
        (room / "decoys").write_text(DECOYS)
        (room / "host decoys").write_text(HOST_DECOYS)
        (room / "command").write_text(f'command="a: fault A9" ssh-ed25519 {KEY}\nssh-ed25519 {OTHER_KEY}\n')
        try_all(room, tally)
    print(f"{tally.passed} passed, {tally.failed} failed")
    return 1 if tally.failed else 0


if __name__ == "__main__":
    sys.exit(main())
