#!/usr/bin/env python3
"""Runs the built program on input that was made to hurt: pipes without an end as each kind of file, little address
space, a file that shrinks while it is read, names of files that are no plain words, and random bytes, half of them
mutations of files that are read. Whatever it is given, the program has to end with a status of 0 to 2 and a text of
one of the forms that docs/CODES.md lists, and nothing on standard error, but for what program.py tells apart.

usage: hostile.py [PROGRAM] [--files N] [--seconds N] [--seed N]

A million random files are tried, or as many as 60 seconds allow; the same seed gives the same files, and how many were
tried is printed. run_again.c, which is loaded before the program, has its `main` answer them one after the other in one
process; the first thousands are answered by a process each too, which run_many.c starts, and both answers have to be the
same. gcc makes both. The last line is 'N passed, M failed'; the status is 0 where nothing failed."""
import argparse
import collections
import concurrent.futures
import os
import pathlib
import random
import re
import resource
import signal
import subprocess
import sys
import tempfile
import threading
import time

sys.dont_write_bytecode = True
import program
from program import FILES, SSHSIG, SIGNED_MESSAGE, Tally, asked_at, hash_names, host, login, readable, review, rewrite, show, sshsig
from refused_growth import private_body, without_memory

HERE = pathlib.Path(__file__).resolve().parent
DEFAULT = pathlib.Path(program.CRATE) / "out" / "ssh_audit"
CODE = rb"[A-Z]\d+( [ -~]*)?"
TRIPLE = rb"( ([0-9a-f]{2})+| -){3}"
EVIDENCE = rb"(evidence \d" + TRIPLE + rb"\n){1,2}"
FAULT = re.compile(rb"fault (" + CODE + rb"|usage|value [a-z]+|file [ -~]*|vouch \d+)\n")
DECISION = re.compile(
    rb"(granted line \d+\n(rights[ a-z0-9]*\n(command [ -~]*\n)?(carry [ -~]*\n)*)?"
    rb"|denied N[1-6]( \d+)?\n(reason \d+ G\d+[ -~]*\n){0,100})" + EVIDENCE
)
SIGNATURE = re.compile(rb"denied namespace\n|(vouched|denied N6 0)\n" + EVIDENCE)
SHOWN = re.compile(rb"type [ -~]*\n([a-z-]+ [ -~]*\n)*")
NEW = re.compile(rb"(.*\n)?", re.DOTALL)
REVIEWED = re.compile(
    rb"(-:\d+: [ -~]+\n( {4}[ -~]+\n)*)*-: \d+ lines[ -~]+\n(F\d+: \d+, [ -~]+\n)*total: 1 files, 0 faults[ -~]+\n"
    rb"|(\{\"file\":\"-\",[ -~]+\}\n)+\{\"what\":\"total\",[ -~]+\}\n"
)
# What `readable` says on standard error of lines.
LEFT_OUT = re.compile(rb"(ssh_audit: line \d+ left out: (F\d+( [ -~]+)?|application)\n)*")
# An answer that takes more seconds of processor time is stopped.
LONGEST = 10


def form_of(asked):
    """The form of an answer to these words that is no fault."""
    forms = {"login": DECISION, "host": DECISION, "sshsig": SIGNATURE, "show": SHOWN, "rewrite": NEW, "readable": NEW, "hash": NEW, "review": REVIEWED}
    return forms[asked[0]]


def run(path, room, asked, stdin=b"", memory=None):
    limit = (lambda: resource.setrlimit(resource.RLIMIT_AS, (memory, memory))) if memory else None
    how = {"input": stdin} if isinstance(stdin, bytes) else {"stdin": stdin}
    ran = subprocess.run([path, *asked], cwd=room, capture_output=True, timeout=program.SECONDS, check=False, preexec_fn=limit, **how)
    return ran.returncode, ran.stdout, program.told_apart(ran.stderr)


def is_defined(asked, answer):
    """Whether the status goes with the text, and the text has a defined form."""
    status, text, errors = answer
    if not (LEFT_OUT.fullmatch(errors) if asked[0] == "readable" else errors == b"") or status not in (0, 1, 2):
        return False
    return bool((FAULT if status == 2 else form_of(asked)).fullmatch(text))


# ---- files without an end, by a name


def fed(fifo):
    """Writes LFs into a FIFO for ever, or until nobody reads it."""
    return subprocess.Popen(["sh", "-c", 'yes "" > "$1"', "", fifo], stderr=subprocess.DEVNULL)


def fifo_rows(path, room, tally):
    os.mkfifo(room / "fifo")
    for asked, wanted in (
        (login("fifo"), "fault A7\n"),
        (login("keys", "fifo"), "fault file fifo\n"),
        (host("fifo"), "fault A7\n"),
        (host("hosts", "fifo"), "fault file fifo\n"),
        (sshsig("fifo", "message"), "fault file fifo\n"),
        (sshsig("body", "fifo"), "fault file fifo\n"),
        (sshsig("body", "message", "fifo"), "fault file fifo\n"),
        (rewrite("auth", "fifo"), "fault A7\n"),
        (rewrite("known", "fifo"), "fault A7\n"),
        (readable("fifo"), "fault A7\n"),
        (hash_names("fifo", "salts"), "fault A7\n"),
        (hash_names("hosts", "fifo"), "fault file fifo\n"),
        (review("fifo"), f"fifo: fault A7\ntotal: 1 files, 1 faults, 0 lines, 0 key lines, 0 distinct keys, 0 unreadable, 0 findings, {asked_at()}\n"),
        *((show(kind, "fifo"), "fault file fifo\n") for kind in ("key", "cert", "private", "sshsig")),
    ):
        writer = fed(room / "fifo")
        try:
            found = run(path, room, asked)
        except subprocess.TimeoutExpired:
            found = "no end"
        writer.kill()
        writer.wait()
        tally.check(f"a FIFO without an end: {' '.join(asked[:5])}", found, (2, wanted.encode(), b""))


# ---- little memory


def memory_rows(path, room, tally):
    """With little address space the answer is the own one, or out of memory, or the system starts no program at all."""
    for asked in (login("keys", "vouched"), host("hosts", "host vouched"), rewrite("auth", "keys"), hash_names("hosts", "salts"), review("keys"), show("key", "keys"), sshsig("body", "message", "file vouched")):
        own = run(path, room, asked)
        answers = [run(path, room, asked, memory=mebibytes << 20) for mebibytes in range(1, 40)]
        started = [answer for answer in answers if answer[0] >= 0 and answer[0] != 127]
        cut = [(*answer, b"") for answer in without_memory(asked, own)]
        other = [answer for answer in started if answer != own and answer not in cut]
        tally.check(f"little address space: {asked[0]}", (other[:1], answers[-1]), ([], own))


# ---- a limit on the size of files


def file_size_rows(path, room, tally):
    """Past the file size limit a front of the answer stands: the signal ends the program, or where it is ignored the status is 2."""
    asked = show("key", "keys")
    own = run(path, room, asked)[1]
    for size in (0, 1, len(own) - 1, len(own)):
        for how, status in ((signal.SIG_DFL, -signal.SIGXFSZ), (signal.SIG_IGN, 2)):

            def limit():
                signal.signal(signal.SIGXFSZ, how)
                resource.setrlimit(resource.RLIMIT_FSIZE, (size, size))

            with open(room / "out", "wb") as out:
                ran = subprocess.run([path, *asked], cwd=room, stdin=subprocess.DEVNULL, stdout=out, stderr=subprocess.PIPE, timeout=program.SECONDS, check=False, preexec_fn=limit)
            wanted = (0 if size == len(own) else status, own[:size], b"")
            tally.check(f"a file size limit of {size} bytes, {how.name}", (ran.returncode, (room / "out").read_bytes(), ran.stderr), wanted)
    (room / "out").unlink()


# ---- files that change


def shrinking_rows(path, room, tally):
    """A trust file that is cut off while it is read: the answer is of a defined form, whatever was read."""
    line = b"#" + b"x" * 62 + b"\n"
    for turn in range(5):
        (room / "shrinking").write_bytes(line * (1 << 20))
        cut = threading.Timer(0.002 * (turn + 1), os.truncate, (room / "shrinking", turn * 1000))
        cut.start()
        answer = run(path, room, login("shrinking"))
        cut.join()
        tally.check(f"a file that shrinks, turn {turn}", is_defined(login("shrinking"), answer), True)
    (room / "shrinking").unlink()


# ---- names of files


def name_rows(path, room, tally):
    """A name with a line break, one with bytes that are no UTF-8, and long ones."""
    (room / "a\nb").write_text(FILES["keys"])
    tally.check("a line break in a name", run(path, room, login("a\nb", "vouched"))[0], 0)
    tally.check("a missing name with a line break", run(path, room, login("keys", "c\nd")), (2, b"fault file c\\x0ad\n", b""))
    (room / "real").mkdir()
    with open(os.fsencode(room / "real") + b"/\xff", "wb") as other:
        other.write(FILES["keys"].encode())
    tally.check("a name that is no UTF-8", run(path, room, login(b"real/\xff", "vouched")), (2, b"fault usage\n", program.HINT))
    for length in (255, 256, 4095, 4096, 100_000):
        name = "n" * length
        tally.check(f"a name of {length} bytes", run(path, room, login("keys", name)), (2, f"fault file {name}\n".encode(), b""))


# ---- random bytes


def mutated(draw, sample):
    """The bytes with some changes: a byte, a run cut out, doubled or replaced, the end cut off."""
    data = bytearray(sample)
    for _ in range(draw.randint(1, 8)):
        at = draw.randint(0, len(data))
        end = min(len(data), at + draw.choice((1, 1, 2, 4, 16, 64)))
        change = draw.randint(0, 5)
        if change == 0 and at < len(data):
            data[at] = draw.randint(0, 255)
        elif change == 1:
            del data[at:end]
        elif change == 2:
            data[at:at] = data[at:end]
        elif change == 3:
            data[at:end] = draw.randbytes(end - at)
        elif change == 4:
            data[at:at] = draw.choice((b"\n", b" ", b"\t", b",", b'"', b"\\", b"\0", b"=", b"@", b"|", b"\xff\xff\xff\xff", b"\r\n"))
        else:
            del data[at + draw.randint(0, 64) :]
    return bytes(data)


def samples():
    """The words that ask about standard input, and what is read from it."""
    lines = (
        'from="10.0.0.0/8,*.example.org,!b?d",command="a \\"b\\"",no-pty,expiry-time="20300101" ' + FILES["keys"]
        + 'cert-authority,principals="ann,bob" ' + FILES["keys"] + "# c\n\n" + FILES["keys"]
    ).encode()
    known = ("h,*.g,!x.g " + FILES["hosts"].split(" ", 1)[1] + "|1|" + "A" * 27 + "=|" + "A" * 27 + "= " + FILES["hosts"].split(" ", 1)[1]
             + "@cert-authority " + FILES["hosts"] + FILES["revoked"]).encode()
    yield login("-", "vouched"), lines
    yield host("-", "host vouched"), known
    yield rewrite("auth", "-"), lines
    yield rewrite("known", "-"), known
    yield readable("-"), lines
    yield hash_names("-", "many salts"), known
    yield review("-", findings="all", zone="UTC0"), lines
    yield review("-", findings="all", form="json", zone="UTC0"), lines
    yield login("keys", "-"), (FILES["vouched"] + "# c\n" + FILES["file vouched"]).encode()
    yield show("key", "-"), FILES["keys"].encode()
    yield show("cert", "-"), FILES["certificate"].encode()
    yield show("private", "-"), private_body()
    yield show("sshsig", "-"), SSHSIG
    yield sshsig("-", "message", "file vouched"), SSHSIG


def made(room, name, *flags):
    """The program, or the library, of the C file of this name."""
    subprocess.run(["gcc", "-O2", "-Wall", *flags, "-o", str(room / name), str(HERE / f"{name}.c")], check=True)
    return str(room / name)


def requests(asked):
    """The pairs of words and standard input, as run_many.c and run_again.c read them."""
    written = bytearray()
    for number, (words, data) in enumerate(asked):
        texts = [os.fsencode(word) for word in words]
        written += b"%d %d %d\n" % (number, len(texts), len(data)) + b"".join(text + b"\0" for text in texts) + data
    return written


def told(written):
    """The number, the status and the texts of each answer that they write."""
    at = 0
    while at < len(written):
        end = written.index(b"\n", at)
        number, status, out, errors = map(int, written[at:end].split())
        middle = end + 1 + out
        at = middle + errors
        yield number, (os.waitstatus_to_exitcode(status), written[end + 1 : middle], written[middle:at])


def answers(driver, path, room, asked):
    """What the program answers to each pair of words and standard input, by a process each."""
    side_by_side = str((os.cpu_count() or 2) + 1)
    command = [driver, side_by_side, str(LONGEST), path]
    ran = subprocess.run(command, cwd=room, input=requests(asked), capture_output=True, timeout=program.SECONDS, check=True)
    return [answer for _, answer in sorted(told(ran.stdout))]


def answers_again(library, path, room, asked):
    """The same, by one process for all; the words that it is started with make room for theirs. Where it ends early, its
    end stands in the place of the next answer, and there are none after that."""
    command = [path, *max((words for words, _ in asked), key=len)]
    ran = subprocess.run(
        command, cwd=room, input=requests(asked), capture_output=True, timeout=program.SECONDS, check=False,
        env=os.environ | {"LD_PRELOAD": library},
    )
    found = [answer for _, answer in told(ran.stdout)]
    ended = (ran.returncode, b"", b"the process ended\n" + ran.stderr)
    return [*found, ended, *[None] * len(asked)][: len(asked)]


def random_turn(draw, kinds):
    """A thousand pairs of words and standard input, half of them mutations of files that are read."""
    for _ in range(1000):
        asked, sample = draw.choice(kinds)
        yield asked, mutated(draw, sample) if draw.random() < 0.5 else draw.randbytes(draw.choice((0, 1, 7, 64, 300, 5000)))


def turns(draw, kinds, count, seconds):
    """Such turns until there are so many, or the time is over."""
    ends = time.monotonic() + seconds
    while count > 0 and time.monotonic() < ends:
        yield list(random_turn(draw, kinds))
        count -= 1


def wrong_answers(turn, begun):
    """What was asked of a turn that has been begun, with each answer that has no defined form."""
    for (asked, data), answer in zip(turn, begun.result(), strict=True):
        if answer is None or not is_defined(asked, answer):
            yield asked, data, answer


def same_rows(path, room, tally, library, seed):
    """What answers in one process say, the program says in a process of its own."""
    driver, draw, kinds = made(room, "run_many"), random.Random(seed), list(samples())
    for turn in turns(draw, kinds, 3, program.SECONDS):
        found = zip(turn, answers_again(library, path, room, turn), answers(driver, path, room, turn), strict=True)
        tally.check("random files, in one process and in one each", [row for row in found if row[1] != row[2]][:1], [])


def random_rows(path, room, tally, library, seed, count, seconds):
    """As many files as are wanted, or as the time allows; other turns are drawn and looked at while some are answered. One
    check: all have an answer of a defined form."""
    begins, workers = time.monotonic(), os.cpu_count() or 2
    tried, wrong, waiting = 0, [], collections.deque()
    with concurrent.futures.ThreadPoolExecutor(workers) as pool:
        for turn in turns(random.Random(seed), list(samples()), count // 1000, seconds):
            waiting.append((turn, pool.submit(answers_again, library, path, room, turn)))
            tried += len(turn)
            if len(waiting) > 2 * workers:
                wrong += wrong_answers(*waiting.popleft())
        for turn in waiting:
            wrong += wrong_answers(*turn)
    print(f"random files: {tried} by seed {seed}, {tried / (time.monotonic() - begins):.0f} a second")
    tally.check("random files", wrong[:1], [])


def main():
    parser = argparse.ArgumentParser(description=__doc__, formatter_class=argparse.RawDescriptionHelpFormatter)
    parser.add_argument("program", nargs="?", default=str(DEFAULT))
    parser.add_argument("--files", type=int, default=1_000_000)
    parser.add_argument("--seconds", type=float, default=60)
    parser.add_argument("--seed", type=int, default=1)
    args = parser.parse_args()
    path, tally = os.path.abspath(args.program), Tally()
    if not os.access(path, os.X_OK):
        print(f"{path} is not built: nothing was tried\n0 passed, 1 failed")
        return 1
    with tempfile.TemporaryDirectory() as folder:
        room = pathlib.Path(folder)
        for name, text in FILES.items():
            (room / name).write_text(text, encoding="utf-8")
        (room / "body").write_bytes(SSHSIG)
        (room / "message").write_bytes(SIGNED_MESSAGE)
        (room / "many salts").write_bytes(bytes(20 * 1000))
        for row in (fifo_rows, memory_rows, file_size_rows, shrinking_rows, name_rows):
            row(path, room, tally)
        library = made(room, "run_again", "-shared", "-fPIC")
        same_rows(path, room, tally, library, args.seed)
        random_rows(path, room, tally, library, args.seed, args.files, args.seconds)
    print(f"{tally.passed} passed, {tally.failed} failed")
    return 1 if tally.failed else 0


if __name__ == "__main__":
    sys.exit(main())
