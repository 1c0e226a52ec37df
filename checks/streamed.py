#!/usr/bin/env python3
"""Tries from outside whether `review` writes the records of a file while they are made.

usage: streamed.py [PROGRAM]

The last of three names is a pipe that is opened only when the records of the first file were read: whole, for one key, as
text and as JSON. 2,000 files take little more memory than 20, and a file of 64 MiB of lines `x` little more than its bytes.
Each write ends where a line ends, and has at most 4,096 bytes if its line is no longer; a short review is one write. Where
memory is refused within a file, `fault A8` stands behind a front of its records. Where a write fails, of a full device or of
a pipe whose reader went away, the status is 2, what was read is the front of the list, and no later file is opened. A list of
more names than a command line may have takes the memory of its names.

Needs gcc, /dev/full and the built program. The last line is 'N passed, M failed'; the status is 0 where nothing failed."""
import argparse
import fcntl
import os
import pathlib
import resource
import socket
import subprocess
import sys
import tempfile
import threading

sys.dont_write_bytecode = True
import program
from program import FILE_LIMIT, FILES, KEY, MARK, SECONDS, Program, Tally, cost_of, review

HERE = pathlib.Path(__file__).resolve().parent
DEFAULT = pathlib.Path(program.CRATE) / "out" / "ssh_audit"
# The least room of a pipe of Linux: pipe(7).
PIPE_ROOM = 4096
MANY, FEW, LINES = 2_000, 20, 40
# How many KiB the names and the system may take of more files. The text of all is some 12,000.
ROOM = 4096
# How many names no command line may have, and how many bytes each may take.
LISTED, NAME_ROOM = 200_000, 512
# How many KiB a file of 64 MiB may take, whatever stands in it but keys.
MOST = 160 * 1024
# How many bytes of memory are too few for what is kept of so many keys, and enough for their file.
FEW_BYTES, KEYS = 96 << 20, 400_000


def starts(audit, words, stdout):
    return audit.start(words, stdin=subprocess.DEVNULL, stdout=stdout)


def ended(ran):
    """The status of a program that has to end soon."""
    try:
        ran.communicate(timeout=SECONDS)
    except subprocess.TimeoutExpired:
        ran.kill()
        ran.communicate()
        return "no end"
    return ran.returncode


def turn_rows(audit, tally):
    """The last file is a pipe that is opened when the records of the first were read."""
    for name in ("first", "second", "third"):
        (audit.room / name).write_text(f"ssh-ed25519 {KEY} {name}\n")
    for form in ("text", "json"):
        for key in (None, f"SHA256:{MARK}", "key.pub"):
            words = review("first", "second", "third", form=form, key=key, findings="none")
            status, whole, _ = audit.run(words)
            content = (audit.room / "third").read_bytes()
            (audit.room / "third").unlink()
            os.mkfifo(audit.room / "third")
            ran = starts(audit, words, subprocess.PIPE)
            ends = threading.Timer(SECONDS, ran.kill)
            ends.start()
            front = ran.stdout.readline()
            (audit.room / "third").write_bytes(content)
            text = front + ran.stdout.read()
            found = ended(ran), text
            ends.cancel()
            (audit.room / "third").unlink()
            (audit.room / "third").write_bytes(content)
            tally.check(f"a record before the last file, as {form}, of {key}", (bool(front), found), (True, (status, whole)))


def many_files(audit):
    """The names of files of LINES keys each, whose text is longer than a pipe of one page."""
    (audit.room / "many").mkdir()
    names = [f"many/{number}" for number in range(MANY)]
    for name in names:
        (audit.room / name).write_text("".join(f"ssh-ed25519 {KEY} {name} {line}\n" for line in range(LINES)))
    return names


def memory_rows(audit, tally, names):
    """So many files take as much memory as a few, but for their names."""
    meter = audit.room / "meter"
    subprocess.run(["gcc", "-O2", "-static", "-o", meter, HERE.parent / "bench" / "meter.c"], check=True)
    for key in (None, f"SHA256:{MARK}"):
        (few, text), _, least = cost_of(audit, meter, review(*names[:FEW], key=key, findings="none"))
        (many, long), _, most = cost_of(audit, meter, review(*names, key=key, findings="none"))
        tally.check(f"{MANY} files", (many, long.count(b"\n") - 1), (few, (text.count(b"\n") - 1) * MANY // FEW))
        tally.check(f"{FEW} files in {least} KiB, {MANY} in {most} KiB, {len(long)} bytes of text", most <= least + ROOM, True)


def list_rows(audit, tally, names):
    """A list of names takes no other memory than they do, and as many as no command line may have take some bytes for each."""
    meter = audit.room / "meter"
    (audit.room / "listed").write_text("".join(f"{name}\0" for name in names))
    given, _, least = cost_of(audit, meter, review(*names, findings="none"))
    listed, _, most = cost_of(audit, meter, review(findings="none", files_from="listed"))
    tally.check(f"a list of {MANY} names", listed, given)
    tally.check(f"{MANY} names in {least} KiB, as a list in {most} KiB", most <= least + ROOM, True)
    (audit.room / "listed").write_text("".join(f"/no/such/folder/{number:040}/authorized_keys\n" for number in range(LISTED)))
    (status, text), took, most = cost_of(audit, meter, review(findings="none", files_from="listed"))
    total = f"total: {LISTED} files, {LISTED} faults, 0 lines, ".encode()
    tally.check(f"a list of {LISTED} names", (status, text.count(b": fault A9: not found\n"), text.rpartition(b"\n")[0].rpartition(b"\n")[2].startswith(total)), (2, LISTED, True))
    tally.check(f"a list of {LISTED} names in {most} KiB", most <= LISTED * NAME_ROOM // 1024, True)


def large_rows(audit, tally):
    """A file of the largest size, whose lines have a record each and nothing that is kept."""
    meter = audit.room / "meter"
    (audit.room / "large").write_bytes(b"x\n" * (FILE_LIMIT // 2))
    words = [meter, "/dev/null", audit.path, *review("large", findings="none")]
    ran = subprocess.run(words, cwd=audit.room, stdout=subprocess.PIPE, timeout=SECONDS, check=True)
    _, peak, status = map(int, ran.stdout.split())
    tally.check(f"64 MiB of lines in {peak} KiB", (status, peak <= MOST), (0, True))
    (audit.room / "large").unlink()


def refused_rows(audit, tally):
    """Memory that is refused within a file: what was written are whole lines, and the end is missing."""
    front, last = KEY[:-7], len(KEY[-7:])
    with open(audit.room / "keys", "w", encoding="ascii") as keys:
        keys.writelines(f"ssh-ed25519 {front}{number:0{last - 1}}A\n" for number in range(KEYS))
    for key in (None, f"SHA256:{MARK}"):
        words = review("keys", key=key, findings="none")
        whole = audit.run(words)[1]
        few = lambda: resource.setrlimit(resource.RLIMIT_AS, (FEW_BYTES, FEW_BYTES))
        ran = audit.start(words, stdin=subprocess.DEVNULL, stdout=subprocess.PIPE, preexec_fn=few)
        text = ran.communicate(timeout=SECONDS)[0]
        made = text.removesuffix(b"fault A8\n")
        is_front = whole.startswith(made) and made.endswith(b"\n") if key is None else made == b""
        tally.check(f"memory that is refused behind {len(made)} of {len(whole)} bytes, {key}", (ran.returncode, is_front, made == text), (2, True, False))
    (audit.room / "keys").unlink()


def writes_of(audit, words):
    """The status, and each write to standard output: a socket of packets keeps them apart."""
    ours, theirs = socket.socketpair(socket.AF_UNIX, socket.SOCK_SEQPACKET)
    ran = starts(audit, words, theirs)
    theirs.close()
    writes = []
    while written := ours.recv(1 << 20):
        writes.append(written)
    ours.close()
    return ended(ran), writes


def is_piece(written):
    """It ends where a line ends, and is no longer than a pipe keeps together, or one line."""
    return written.endswith(b"\n") and (len(written) <= PIPE_ROOM or written.count(b"\n") == 1)


def piece_rows(audit, tally):
    """Each write of reviews."""
    lines = [f"ssh-ed25519 {KEY} {number} {number % 70 * 'a'}\n" for number in range(2_000)]
    (audit.room / "short").write_text("".join(lines[:5]))
    (audit.room / "mixed").write_text("".join([*lines[:500], f"ssh-ed25519 {KEY} {20_000 * 'b'}\n", "x\n", *lines[500:]]))
    for form in ("text", "json"):
        for key in (None, f"SHA256:{MARK}"):
            words = review("mixed", "missing", "short", form=form, key=key)
            status, whole, _ = audit.run(words)
            found, writes = writes_of(audit, words)
            tally.check(f"the writes of a review as {form}, {key}", (found, b"".join(writes)), (status, whole))
            tally.check(f"each ends a line, as {form}, {key}", [written[:80] for written in writes if not is_piece(written)], [])
            tally.check(f"{len(writes)} writes as {form}, {key}", len(writes) <= len(whole) // 3_500 + 8, True)
            short = writes_of(audit, review("short", form=form, key=key))[1]
            tally.check(f"a short file and the total, as {form}, {key}", len(short), 2)


def broken_rows(audit, tally, names):
    """Writes that fail: the status is 2, and no file is read after it."""
    for key in (None, f"SHA256:{MARK}"):
        words = review(*names, key=key, findings="none")
        whole = audit.run(words)[1]
        with open("/dev/full", "wb") as full:
            tally.check(f"a full device, {key}", audit.status(words, full), (2, b""))
        closed = program.closed_pipe()
        tally.check(f"a closed pipe, {key}", audit.status(words, closed), (2, b""))
        os.close(closed)
        read, write = os.pipe()
        fcntl.fcntl(write, fcntl.F_SETPIPE_SZ, PIPE_ROOM)
        # It is never opened for writing: a program that went on to read it would not end.
        os.mkfifo(audit.room / "never")
        ran = starts(audit, [*words, "never"], write)
        os.close(write)
        front = os.read(read, 1000)
        os.close(read)
        tally.check(f"a reader that goes away, {key}", (ended(ran), whole.startswith(front)), (2, True))
        (audit.room / "never").unlink()


def main():
    parser = argparse.ArgumentParser(description=__doc__, formatter_class=argparse.RawDescriptionHelpFormatter)
    parser.add_argument("program", nargs="?", default=str(DEFAULT))
    path, tally = os.path.abspath(parser.parse_args().program), Tally()
    if not os.access(path, os.X_OK):
        print(f"{path} is not built: nothing was tried\n0 passed, 1 failed")
        return 1
    with tempfile.TemporaryDirectory() as folder:
        audit = Program(path, pathlib.Path(folder))
        (audit.room / "key.pub").write_text(FILES["key.pub"])
        turn_rows(audit, tally)
        piece_rows(audit, tally)
        names = many_files(audit)
        for row in (memory_rows, list_rows, broken_rows):
            row(audit, tally, names)
        for row in (large_rows, refused_rows):
            row(audit, tally)
    print(f"{tally.passed} passed, {tally.failed} failed")
    return 1 if tally.failed else 0


if __name__ == "__main__":
    sys.exit(main())
