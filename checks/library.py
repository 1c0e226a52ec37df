#!/usr/bin/env python3
"""Asks the library for C and Python what the built program is asked, and compares every byte.

usage: library.py [PROGRAM] [--files N] [--seed N] [--built FOLDER]

PROGRAM is crates/ssh_audit/out/ssh_audit where it is left out. bindings/build.sh makes the library, over what was proved before,
unless FOLDER has what it makes. Then: the header against the sources (library_header.py). The worked rows of rows/, each by the
program, by C as each compiler links it and under AddressSanitizer and UBSan, and by Python; logins and hosts' keys by the typed
calls too, with their causes, rights, texts and reasons. N random files, 4,000 where it is left out, as hostile.py makes them.
Buffers of all lengths round the text's, and round those of the typed calls. Each growth of memory refused in turn, after which
nothing may be left. Eight threads at once. 1,000 files with names that stand twice. The calls of the Python package, and the examples.

In C each call has a thread of its own with 64 KiB of stack, and what is lent ends at a page that may not be touched
(ask_library.c). Needs gcc and the built program; clang is asked too where it is installed. The last line is 'N passed, M failed';
the status is 0 where nothing failed."""
import argparse
import base64
import binascii
import contextlib
import os
import pathlib
import random
import re
import shutil
import struct
import subprocess
import sys
import tempfile

sys.dont_write_bytecode = True
import hostile
import program
from library_header import header_rows
from program import BLOB, FILES, KEY, MESSAGE, SIGNATURE, SIGNED_MESSAGE, SSHSIG, Program, Tally, hash_names, host, login, review, rewrite, show, sshsig
from refused_growth import without_memory
from rows.asking import Asker
from worked import MODULES

HERE = pathlib.Path(__file__).resolve().parent
BINDINGS = HERE.parent / "bindings"
ROOM = 1 << 16
FILLED = b"\xa5"
# The numbers of an answer, and the room that a typed call is given: for reasons, for options that are passed on, and for texts.
NUMBERS, ROOMS = 13, (100, 64, 4096)
RIGHTS = ("port", "agent", "x11", "pty", "rc")
CARRIED = ("environment", "permitlisten", "permitopen", "tunnel")
NO_RIGHTS = ([False] * 5, None, [])
SANITIZED = ("-g", "-fsanitize=address,undefined", "-fno-sanitize-recover=all", "-DSTACK=1048576")


# ---- the library, by C


class Driver:
    """ask_library.c, linked with the library; it answers one question after the other."""

    def __init__(self, name, path):
        self.name = name
        # What leaks is counted by the driver itself.
        environment = os.environ | {"ASAN_OPTIONS": "detect_leaks=0"}
        self.process = subprocess.Popen([path], stdin=subprocess.PIPE, stdout=subprocess.PIPE, env=environment)

    def ask(self, kind, parts, refused=0, threads=1, room=0, rooms=(0, 0)):
        """The growths, the blocks that are left, whether all threads were answered alike, the numbers, the buffer of bytes, and those
        of rows."""
        self.process.stdin.write(numbers(kind, refused, threads) + parts)
        self.process.stdin.flush()
        head = self.process.stdout.read(24 + 8 * NUMBERS)
        if len(head) < 24 + 8 * NUMBERS:
            return f"{self.name} ended with {self.process.wait()}"
        growths, blocks, alike, *told = struct.unpack(f"<{3 + NUMBERS}Q", head)
        rows = [[struct.unpack("<2Q", self.process.stdout.read(16)) for _ in range(count)] for count in rooms]
        return growths, blocks, alike, tuple(told), self.process.stdout.read(room), *rows

    def ask_typed(self, kind, parts, rooms=ROOMS, **how):
        """The same for a typed call, with room for so many reasons, options and bytes."""
        return self.ask(kind, parts + numbers(*rooms), room=rooms[2], rooms=rooms[:2], **how)

    def end(self):
        self.process.stdin.close()
        return self.process.wait()


def numbers(*values):
    return struct.pack(f"<{len(values)}Q", *values)


def lent(data):
    return numbers(len(data)) + data


def run_parts(words, files, stdin, room):
    """The parts of a run: words, files by name, standard input, and the length of the buffer."""
    listed = b"".join(lent(os.fsencode(word)) for word in words)
    named = b"".join(lent(os.fsencode(name)) + lent(held) for name, held in files.items())
    return numbers(len(words)) + listed + numbers(len(files)) + named + lent(stdin) + numbers(room)


def printed(driver, words, files, stdin, **how):
    """The status and the text of a run; or what is wrong, as a text. A buffer that is too short gives the length alone."""
    room = how.pop("room", ROOM)
    found = driver.ask(0, run_parts(words, files, stdin, room), room=room, **how)
    if isinstance(found, str):
        return found
    _, blocks, alike, (status, length, *_), out, *_ = found
    if blocks or not alike:
        return f"{blocks} blocks are left, alike: {alike}"
    if length > room:
        return printed(driver, words, files, stdin, room=length, **how) if out == FILLED * room else "a short buffer was written"
    return (status, out[:length]) if out[length:] == FILLED * (room - length) else "written past the text"


def driver_of(room, built, compiler, *flags):
    name = " ".join([compiler, *flags[1:2]])
    path = room / name.replace(" ", "").replace(",", "_").replace("=", "_")
    wraps = ["-Wl,--wrap=malloc,--wrap=realloc,--wrap=free"]
    subprocess.run(
        [compiler, "-O1", "-Wall", "-Wextra", "-Werror", *flags, "-pthread", "-o", path, HERE / "ask_library.c", built / "libssh_audit.a", *wraps, "-lm"],
        check=True,
    )
    return Driver(name, path)


# ---- typed questions


def options_of(words):
    """The options of a command, where each has a value in a word of its own, or none."""
    if len(words) % 2 == 0 or any(not word.startswith("--") or "=" in word for word in words[1::2]):
        return None
    return {name[2:]: value for name, value in zip(words[1::2], words[2::2])}


def unhex(text):
    return b"" if text == "-" else bytes.fromhex(text)


def triples(data):
    """The signatures that a vouch file lists."""
    lines = [line for line in data.split(b"\n") if line and not line.startswith(b"#")]
    return [[unhex(part.decode()) for part in line.split(b" ")] for line in lines]


def typed_question(words, files, stdin):
    """What a typed call is asked where these words ask it: its subcommand, the trust file, the values by the names of the Python
    package, and the vouched signatures. None where there is no such question."""
    asked = options_of(words)
    if words[:1] not in (["login"], ["host"]) or asked is None or "zone" in asked or asked.get("file") == "-":
        return None
    given = {**files, "-": stdin}
    try:
        trust, vouched = given[asked["file"]], triples(given[asked["vouch"]]) if "vouch" in asked else []
        values = {"offer": base64.b64decode(asked["offer"], validate=True), "signature": unhex(asked["signature"]), "now": int(asked["now"])}
        values |= {"rsa_minimum": int(asked.get("rsa-minimum", "0")), "empty_principals": asked.get("empty-principals", "any")}
        if words[0] == "host":
            values |= {"exchange_hash": unhex(asked["hash"]), "host": asked["host"], "port": int(asked.get("port", "22"))}
        else:
            values |= {name: asked[name] for name in ("algorithm", "user", "address")}
            values |= {"session": unhex(asked["session"]), "host": asked.get("host")}
        return words[0], trust, values, vouched
    except (KeyError, ValueError, binascii.Error):
        return None


def typed_parts(subcommand, trust, values, vouched):
    """The kind of such a question for the driver, and its parts."""
    text = lambda name: lent(os.fsencode(values[name] or ""))
    blobs = lent(trust) + lent(values["offer"]) + lent(values["signature"])
    moment, never = numbers(values["now"], values["rsa_minimum"]), values["empty_principals"] == "never"
    listed = numbers(len(vouched)) + b"".join(lent(part) for triple in vouched for part in triple)
    if subcommand == "host":
        return 2, blobs + lent(values["exchange_hash"]) + text("host") + moment + numbers(values["port"], never) + listed
    middle = text("algorithm") + lent(values["session"]) + text("user") + text("address") + text("host")
    return 1, blobs + middle + moment + numbers(values["host"] is not None, never) + listed


def as_told(text, unescaped):
    """What the typed calls answer where this is printed: kind, code and number; the rights that are on, the command and the options
    that are passed on; and the reasons, which are printed of a denial only. None where it is no decision and no fault of an audit."""
    lines = [line.partition(" ")[::2] for line in text.decode(errors="replace").split("\n")]
    first, _, number = lines[0][1].partition(" ")
    if lines[0][0] == "granted" and first == "line":
        rights = next((value.split(" ") for word, value in lines if word == "rights"), [])
        command = next((unescaped(value) for word, value in lines if word == "command"), None)
        carried = [(value.split(" ", 1)[0], unescaped(value.split(" ", 1)[1])) for word, value in lines if word == "carry"]
        return (0, 0, int(number)), ([name in rights for name in RIGHTS], command, carried), None
    if lines[0][0] == "denied" and first[:1] == "N":
        reasons = [(int(value.split(" ")[0]), int(value.split(" ")[1][1:])) for word, value in lines if word == "reason"]
        return (1, int(first[1:]), int(number or 0)), NO_RIGHTS, reasons
    if lines[0][0] == "fault" and first in [f"A{n}" for n in range(1, 8)]:
        return (2, int(first[1:]), 0), NO_RIGHTS, []
    return None


def typed(driver, kind, parts, rooms=ROOMS, **how):
    """The same as a typed call tells it, or what is wrong as a text. What is behind a list has to be as it was, and so has a buffer
    that is too short, of which only the length is told."""
    found = driver.ask_typed(kind, parts, rooms, **how)
    if isinstance(found, str):
        return found
    _, blocks, alike, told, texts, reasons, carried = found
    code, number, count, *rights, has_command, command_length, carried_length, texts_length = told[1:]
    if blocks or not alike:
        return f"{blocks} blocks are left, alike: {alike}"
    lists = (cut(reasons, count, FILLED_REASON), cut(carried, carried_length, FILLED_OPTION), cut(list(texts), texts_length, FILLED[0]))
    if None in lists:
        return "written past a list, or into a short buffer"
    texts, options, at = bytes(lists[2]), [], command_length
    for name, length in lists[1]:
        options.append((CARRIED[name - 1], texts[at : at + length]))
        at += length
    if len(lists[1]) == carried_length and len(texts) == texts_length and at != texts_length:
        return f"{at} bytes of texts, and not {texts_length}"
    return (told[0], code, number), ([bool(right) for right in rights], texts[:command_length] if has_command else None, options), lists[0]


def typed_whole(driver, kind, parts):
    """The same with room for all that is told: the first call tells how much that is."""
    first = driver.ask_typed(kind, parts)
    return first if isinstance(first, str) else typed(driver, kind, parts, tuple(map(max, ROOMS, lengths(first))))


def lengths(found):
    """How many reasons, options and bytes of texts there are."""
    return found[3][3], found[3][11], found[3][12]


FILLED_REASON, FILLED_OPTION = (0xA5A5A5A5A5A5A5A5, 0xA5), (0xA5, 0xA5A5A5A5A5A5A5A5)


def cut(buffer, count, filled):
    """The items of a buffer, where there are so many: none where they do not fit. None where more was written than they."""
    kept = count if count <= len(buffer) else 0
    return buffer[:kept] if all(item == filled for item in buffer[kept:]) else None


# ---- the worked rows


class Everywhere(Program):
    """The built program; what it answers is compared with what the library answers by C and by Python."""

    def __init__(self, path, room, drivers, package, tally):
        super().__init__(path, room)
        self.drivers, self.package, self.tally, self.asked, self.typed = drivers, package, tally, 0, 0

    def files_of(self, words):
        """The files of the folder that the words name."""
        names = {text for word in words for text in (word, word.partition("=")[2]) if text not in ("", "-") and "\0" not in text}
        with contextlib.suppress(OSError, ValueError):
            return {name: (self.room / name).read_bytes() for name in names if len(os.fsencode(name)) < 4096 and is_file(self.room / name)}
        return {}

    def run(self, words, stdin=b""):
        ran = self.start(words, stdin=subprocess.PIPE, stdout=subprocess.PIPE)
        out, errors = ran.communicate(stdin, timeout=program.SECONDS)
        # Where the program adds what the words leave out, the library is not asked.
        if b"asked with" not in errors:
            self.compare(words, stdin, (ran.returncode, out))
        return ran.returncode, out, program.told_apart(errors)

    def compare(self, words, stdin, wanted):
        files, self.asked = self.files_of(words), self.asked + 1
        name = " ".join(map(str, words))[:200]
        for driver in self.drivers:
            self.tally.check(f"{driver.name}: {name}", printed(driver, words, files, stdin), wanted)
        answer = self.package.run(words, files, stdin)
        self.tally.check(f"Python: {name}", (answer.status, answer.text), wanted)
        self.compare_typed(words, files, stdin, wanted, name)

    def compare_typed(self, words, files, stdin, wanted, name):
        told = as_told(wanted[1], self.package.unescaped)
        question = typed_question(words, files, stdin) if told else None
        if question is None:
            return
        self.typed += 1
        for driver in self.drivers:
            found = typed_whole(driver, *typed_parts(*question))
            # The reasons of a grant are printed nowhere.
            found = found if isinstance(found, str) or told[2] is not None else (*found[:2], None)
            self.tally.check(f"{driver.name}, typed: {name}", found, told)
        self.tally.check(f"Python, typed: {name}", decided(self.package, *question), told)


def decided(package, subcommand, trust, values, vouched):
    """The same as the Python package decides it."""
    decide = package.decide_login if subcommand == "login" else package.decide_host
    try:
        found = decide(trust, **values, vouched=[package.Signed(*triple) for triple in vouched])
    except package.Fault as fault:
        return (2, int(fault.code[1:]), 0), NO_RIGHTS, []
    if isinstance(found, package.Denied):
        code, _, number = found.cause.partition(" ")
        return (1, int(code[1:]), int(number or 0)), NO_RIGHTS, [(reason.line, int(reason.code[1:])) for reason in found.reasons]
    carried = [line.split(" ", 1) for line in found.limits.get("carry", "").splitlines()]
    command = package.unescaped(found.limits["command"]) if "command" in found.limits else None
    rights = [right in found.rights for right in RIGHTS]
    return (0, 0, found.line), (rights, command, [(name, package.unescaped(text)) for name, text in carried]), None


def is_file(path):
    try:
        return path.is_file()
    except (OSError, ValueError):
        return False


def worked_rows(everywhere):
    """The rows of worked.py; their own comparisons are counted there."""
    asker = Asker(everywhere, Tally())
    for module in MODULES:
        for test in module.TESTS:
            asker.test = f"{module.__name__}, {test.__name__}"
            test(asker)
    everywhere.tally.check("rows that were asked", everywhere.asked > 1000 and everywhere.typed > 100, True)
    everywhere.tally.check("worked rows by the program", asker.tally.failed, 0)


# ---- other rows


def questions():
    """A question of each command, with its files and its standard input."""
    files = {name: text.encode() for name, text in FILES.items()} | {"body": SSHSIG, "message": SIGNED_MESSAGE}
    for words in (
        login("keys", "vouched"), login("other keys", "vouched"), login("loose keys", "bad vouch"), host("revoked", "host vouched"),
        show("key", "keys"), show("cert", "certificate"), show("sshsig", "body"), rewrite("auth", "loose keys"),
        hash_names("loose names", "salts"), sshsig("body", "message", "file vouched"), review("loose keys", "keys", "gone", form="json"),
        review("loose hosts", kind="known"), ["explain", "N6"], ["frob"],
        ["admits", "--key", "key.pub", "--user", "ann", "--address", "192.0.2.1", "--now", "150", "keys", "loose keys"],
        ["trusts", "--key", "key.pub", "--host", "h", "--now", "150", "hosts", "revoked"],
    ):
        yield words, {name: files[name] for name in words if name in files and name != "-"}, b""
    yield [], files, b"login --file keys\n"
    yield login("-", "vouched"), {"vouched": files["vouched"]}, files["keys"]


def buffer_rows(driver, tally):
    for words, files, stdin in questions():
        wanted = printed(driver, words, files, stdin)
        for room in (0, 1, len(wanted[1]) - 1, len(wanted[1]), len(wanted[1]) + 1):
            tally.check(f"a buffer of {room} bytes: {words}", printed(driver, words, files, stdin, room=room), wanted)


# A file by whose second line a login is granted, with rights and texts; none of its lines is for another user.
RESTRICTED = (
    f'from="10.0.0.0/8" ssh-ed25519 {KEY}\n'
    f'restrict,pty,command="back up",permitopen="db:5432",environment="A=b c",tunnel="0" ssh-ed25519 {KEY}\n'
)


def typed_questions():
    """Typed questions that are granted, with much to tell and with little, and that are denied; of each its parts."""
    files = {name: text.encode() for name, text in FILES.items()} | {"restricted": RESTRICTED.encode()}
    asked = [login("keys", "vouched"), login("restricted", "vouched"), login("restricted"), login("loose keys", "vouched")]
    for words in (*asked, host("hosts", "host vouched"), host("revoked", "host vouched"), host("loose hosts")):
        yield words, *typed_parts(*typed_question(words, files, b""))


def typed_rows(driver, tally):
    """Typed calls with buffers of all lengths round what is told, each buffer by itself."""
    for words, kind, parts in typed_questions():
        whole = typed(driver, kind, parts)
        counts = lengths(driver.ask_typed(kind, parts))
        for at in range(1 if kind == 2 else 3):
            for room in {0, 1, max(0, counts[at] - 1), counts[at], counts[at] + 1}:
                rooms = tuple(room if other == at else ROOMS[other] for other in range(3))
                found = typed(driver, kind, parts, rooms)
                # A list that does not fit is not told; what stands on it is left out on both sides.
                wanted = whole if room >= counts[at] else without(whole, at)
                tally.check(f"{driver.name}, typed, room {rooms}: {words}", found if room >= counts[at] or isinstance(found, str) else without(found, at), wanted)
    found = typed(driver, *next(parts for words, *parts in typed_questions() if "restricted" in words and "--vouch" in words))
    options = [("permitopen", b"db:5432"), ("environment", b"A=b c"), ("tunnel", b"0")]
    tally.check(f"{driver.name}, a login with options", found, ((0, 0, 2), ([False, False, False, True, False], b"back up", options), [(1, 8)]))


def without(told, at):
    """What is told, without the reasons (0), the options (1) or the texts (2), which the options stand on."""
    decision, (rights, command, options), reasons = told
    return decision, (rights, None if at == 2 else command, [] if at else options), [] if at == 0 else reasons


def refused_rows(driver, tally):
    """Each growth of memory refused: the answer is the whole one or the fault of memory, and nothing is left."""
    for words, files, stdin in questions():
        parts = run_parts(words, files, stdin, ROOM)
        whole = driver.ask(0, parts, room=ROOM)
        texts = [text for _, text in without_memory(words, (whole[3][0], whole[4][: whole[3][1]]))]
        faults = [(len(text), text.ljust(ROOM, FILLED)) for text in texts]
        refuse_each(driver, tally, words, whole, lambda index: driver.ask(0, parts, room=ROOM, refused=index), faults)
    for words, kind, parts in typed_questions():
        whole = driver.ask_typed(kind, parts)
        refuse_each(driver, tally, words, whole, lambda index: driver.ask_typed(kind, parts, refused=index), [(8, FILLED * ROOMS[2])])


def refuse_each(driver, tally, words, whole, asked, faults):
    """Each fault of memory has its second number and its buffer of bytes. Its buffers of rows are as they were."""
    for index in range(1, whole[0] + 1):
        found = asked(index)
        rows = [FILLED_REASON] * len(whole[5]), [FILLED_OPTION] * len(whole[6])
        allowed = [whole[3:], *(((2, number, *[0] * (NUMBERS - 2)), out, *rows) for number, out in faults)]
        is_right = not isinstance(found, str) and found[1] == 0 and found[3:] in allowed
        tally.check(f"{driver.name}: growth {index} of {whole[0]} refused: {words}", is_right, True)


def thread_rows(driver, tally):
    for words, files, stdin in questions():
        wanted = printed(driver, words, files, stdin)
        found = {str(printed(driver, words, files, stdin, threads=8)) for _ in range(30)}
        tally.check(f"eight threads: {words}", found, {str(wanted)})
    for words, kind, parts in typed_questions():
        wanted = typed(driver, kind, parts)
        tally.check(f"eight threads, typed: {words}", {str(typed(driver, kind, parts, threads=8)) for _ in range(30)}, {str(wanted)})


def named_twice(driver, tally):
    """A thousand files, each name twice and in no order: the first of the two counts."""
    draw, count = random.Random(7), 1000
    names = [f"f{draw.randrange(10 ** draw.randrange(1, 9))}" for _ in range(count // 2)]
    files = [(name, b"" if turn else f"ssh-ed25519 {KEY} {name}\n".encode()) for turn in range(2) for name in draw.sample(names, len(names))]
    words = ["review", "--kind", "auth", "--now", "150", "--form", "json", *sorted(set(names))]
    named = b"".join(lent(name.encode()) + lent(held) for name, held in files)
    parts = numbers(len(words)) + b"".join(lent(word.encode()) for word in words) + numbers(count) + named + lent(b"") + numbers(1 << 21)
    found = driver.ask(0, parts, room=1 << 21)
    told = found[4][: found[3][1]].decode()
    tally.check(f"{driver.name}: names that stand twice", [name in told for name in set(names)].count(False) + told.count('"keys":0'), 0)


def random_rows(path, room, drivers, package, tally, count, seed):
    """Random files, as hostile.py makes them: the library answers each as the program does."""
    starter, draw, kinds = hostile.made(room, "run_many"), random.Random(seed), list(hostile.samples())
    files = {entry.name: entry.read_bytes() for entry in room.iterdir() if entry.is_file() and entry.name != "-" and entry.name in NAMED}
    for turn in range(max(1, count // 1000)):
        asked = list(hostile.random_turn(draw, kinds))
        for number, ((words, data), answer) in enumerate(zip(asked, hostile.answers(starter, path, room, asked), strict=True)):
            named = {name: files[name] for name in words if name in files}
            told = package.run(words, named, data)
            found = [printed(driver, words, named, data) for driver in drivers] + [(told.status, told.text)]
            tally.check(f"random file {turn * 1000 + number}: {words}", found, [answer[:2]] * len(found))


NAMED = {*FILES, "body", "message", "many salts"}


# ---- the Python package


def python_rows(package, tally):
    blob, message, signature = (bytes.fromhex(text) for text in (BLOB, MESSAGE, SIGNATURE))
    trust, known = FILES["keys"].encode(), FILES["hosts"].encode()
    asked = {"offer": blob, "signature": signature, "algorithm": "ssh-ed25519", "session": b"\1\2\3\4", "user": "ann", "address": "192.0.2.1", "now": 150}
    denied = package.login(trust, **asked)
    tally.check("login, denied", (denied.cause, denied.evidence), ("N6 0", (package.Signed(blob, message, signature),)))
    granted = package.login(trust, **asked, vouched=denied.evidence)
    tally.check("login, granted", (granted.line, granted.rights), (1, ("port", "agent", "x11", "pty", "rc")))
    host_asked = {"offer": blob, "signature": signature, "exchange_hash": b"\1\2\3\4", "host": "h", "now": 150}
    tally.check("host, denied", package.host(known, **host_asked).cause, "N6 0")
    vouched = [package.Signed(blob, b"\1\2\3\4", signature)]
    tally.check("host, granted", package.host(known, **host_asked, vouched=vouched).line, 1)
    restricted = package.decide_login(RESTRICTED.encode(), **asked, vouched=denied.evidence)
    limits = {"command": "back up", "carry": "permitopen db:5432\nenvironment A=b c\ntunnel 0"}
    tally.check("decide_login, granted", restricted, package.Granted(2, ("pty",), limits, (package.Reason(1, "G8"),), None))
    by_text = package.login(RESTRICTED.encode(), **asked, vouched=denied.evidence)
    tally.check("login, granted with limits", (by_text.line, by_text.rights, by_text.limits), (2, ("pty",), limits))
    many = "".join(f'permitopen="host{n}:22",' for n in range(200))
    wide = f'{many}command="{"long " * 500}" ssh-ed25519 {KEY}\n'.encode()
    tally.check("decide_login, long texts", package.decide_login(wide, **asked, vouched=denied.evidence).limits, package.login(wide, **asked, vouched=denied.evidence).limits)
    tally.check("decide_login, denied", package.decide_login(trust, **asked), package.Denied("N6 0", (), None))
    tally.check("decide_host, denied", package.decide_host(FILES["revoked"].encode(), **host_asked), package.Denied("N1 2", (), None))
    tally.check("decide_host, granted", package.decide_host(known, **host_asked, vouched=vouched), package.Granted(1, (), {}, (), None))
    told = package.admits({"a": trust, "b": b""}, key=FILES["key.pub"].encode(), user="ann", address="192.0.2.1", now=150)
    tally.check("admits", (told.status, [(it.file, it.line, it.cause) for it in told.files]), (0, [("a", 1, None), ("b", None, "N3")]))
    told = package.trusts({"a": FILES["revoked"].encode()}, key=FILES["key.pub"].encode(), host="h", now=150)
    tally.check("trusts", (told.status, told.files[0].cause), (1, "N1 2"))
    told = list(package.review({"a": FILES["loose keys"].encode(), "\u00e9": trust}, now=150))
    tally.check("review", [(type(it).__name__, getattr(it, "file", None)) for it in told],
                [("Record", "a"), ("FileEnd", "a"), ("Record", "\u00e9"), ("FileEnd", "\u00e9"), ("Total", None)])
    dated = f'expiry-time="20300101" ssh-ed25519 {KEY}\n'.encode()
    for zone, found in ((None, [("F8", "local-time")]), ("local:UTC0", [("F8", "local-time")]), ("UTC0", [])):
        made = next(package.review({"a": dated}, now=150, zone=zone))
        tally.check(f"review in the zone {zone}", [(it.code, it.detail) for it in made.findings], found)
    tally.check("explain", package.explain("L9").sentence, "ssh-dss, which is retired")
    tally.check("unescaped", package.unescaped("a\\xff\\x5cb"), b"a\xff\\b")
    for code, call in (
        ("A6", lambda: package.login(trust, **{**asked, "address": "nowhere"})),
        ("value zone", lambda: package.login(trust, **asked, zone="nowhere")),
        ("A6", lambda: package.decide_login(trust, **{**asked, "address": "nowhere"})),
        ("value now", lambda: package.decide_login(trust, **{**asked, "now": 1 << 64})),
        ("value port", lambda: package.decide_host(known, **host_asked, port=1 << 16)),
        ("value empty-principals", lambda: package.decide_host(known, **host_asked, empty_principals="some")),
        ("value code", lambda: package.explain("Q1")),
        ("value findings", lambda: list(package.review({"a": b""}, now=1, findings="F99"))),
    ):
        try:
            found = call()
        except package.Fault as fault:
            found = fault.code if fault.sentence else "no sentence"
        tally.check(f"Fault: {code}", found, code)


# ---- the documents


def example_rows(room, built, compilers, tally):
    """bindings/c/example.c, and the example of docs/LIBRARIES.md."""
    for compiler in compilers:
        made = room / f"example_{compiler}"
        subprocess.run([compiler, "-std=c99", "-Wall", "-Wextra", "-Werror", "-o", made, BINDINGS / "c" / "example.c", built / "libssh_audit.so", f"-Wl,-rpath,{built}"], check=True)
        ran = subprocess.run([made, "10"], capture_output=True, check=False)
        tally.check(f"the example by {compiler}", (ran.returncode, ran.stdout[:34]), (0, b"kind 0 line 10, kind 1 code N6\nlin"))
    code = re.findall(r"^```python\n(.*?)^```$", (HERE.parent / "docs" / "LIBRARIES.md").read_text(), re.MULTILINE | re.DOTALL)
    ran = subprocess.run([sys.executable, "-c", "\n".join(code)], cwd=room / "package", capture_output=True, check=False)
    tally.check("the example of LIBRARIES.md", (len(code), ran.returncode, ran.stderr[-400:]), (1, 0, b""))


# ---- all of it


def built_in(room, given):
    if given is not None:
        return given.resolve()
    subprocess.run([BINDINGS / "build.sh", room / "built"], check=True, stdout=subprocess.DEVNULL)
    return room / "built"


def package_of(room, built):
    """The package as the wheel has it."""
    wheel = next(built.glob("*.whl"))
    shutil.unpack_archive(wheel, room / "package", "zip")
    sys.path.insert(0, str(room / "package"))
    import ssh_audit

    return ssh_audit


def try_all(path, room, tally, args):
    built = built_in(room, args.built)
    compilers = [name for name in ("gcc", "clang") if shutil.which(name)]
    header_rows(tally, room, compilers)
    drivers = [driver_of(room, built, name) for name in compilers] + [driver_of(room, built, "gcc", *SANITIZED)]
    package = package_of(room, built)
    worked = room / "worked"
    worked.mkdir()
    worked_rows(Everywhere(path, worked, drivers, package, tally))
    for name, held in {**{name: text.encode() for name, text in FILES.items()}, "body": SSHSIG, "message": SIGNED_MESSAGE, "many salts": bytes(20 * 1000)}.items():
        (room / name).write_bytes(held)
    random_rows(path, room, drivers, package, tally, args.files, args.seed)
    for driver in drivers:
        buffer_rows(driver, tally)
        typed_rows(driver, tally)
        thread_rows(driver, tally)
    refused_rows(drivers[0], tally)
    named_twice(drivers[0], tally)
    python_rows(package, tally)
    example_rows(room, built, compilers, tally)
    for driver in drivers:
        tally.check(f"{driver.name} ends", driver.end(), 0)


def main():
    parser = argparse.ArgumentParser(description=__doc__, formatter_class=argparse.RawDescriptionHelpFormatter)
    parser.add_argument("program", nargs="?", default=program.CRATE / "out" / "ssh_audit", type=pathlib.Path)
    parser.add_argument("--files", type=int, default=4000)
    parser.add_argument("--seed", type=int, default=1)
    parser.add_argument("--built", type=pathlib.Path)
    args = parser.parse_args()
    path, tally = args.program.resolve(), Tally()
    if not os.access(path, os.X_OK):
        print(f"{path} is not built: nothing was tried\n0 passed, 1 failed")
        return 1
    with tempfile.TemporaryDirectory() as folder:
        try_all(str(path), pathlib.Path(folder), tally, args)
    print(f"{tally.passed} passed, {tally.failed} failed")
    return 1 if tally.failed else 0


if __name__ == "__main__":
    sys.exit(main())
