#!/usr/bin/env python3
"""Runs the built program from outside: files by name, each status, what cannot be read or written, and large files.

usage: program.py [PROGRAM] [--after LOG]

PROGRAM is crates/ssh_audit/out/ssh_audit where it is left out. After its own rows it starts the checks beside it:
help.py (what goes to standard error), colour.py (colours on a terminal), worked.py (worked rows of the whole command),
examples.py (keys, certificates and signatures of ssh-keygen and openssl through examples/), documents.py (the commands of
README.md and docs/MANUAL.md as they stand), packaging.py (packages: made, installed into a folder, used and removed), review.py (reviews
of random files), streamed.py (whether a review is written while it is made), page.py (the page of a review in a browser),
openssh.py (what docs/OPENSSH_DIFFERENCES.md says, asked of a real sshd and ssh, and whether whoever they let in is shown),
recipes.py (the commands of docs/RECIPES.md), codes.py (whether each printed code is in a row),
explained.py (whether docs/CODES.md says what the source's table says), manual_page.py and completion.py (whether
docs/ssh_audit.1 and the completions are made of the sources), closure.py (how much a reviewer has to read),
memory_calls.py (whether each call that takes memory is in the table of growths/calls.md), edits.py (whether each wrong edit
can be applied), sentences.py (whether the sentences of the documents are short), refused_growth.py (each growth of memory
refused in turn), cut_vectors.py (worked blobs, cut) and hostile.py (input that was made to hurt). With --after, as .ci/run
starts it, library_rows.py (worked rows of the libraries), refused_calls.py (each growth of memory of the libraries' calls
refused in turn) and sanitized.py (random bytes under AddressSanitizer) run too, which need the kit's `rt`, and the counts in
the last line of LOG, what `rt ci` printed, are added. The last line is 'N passed, M failed' for all of them. The status is 0
where nothing failed. What cannot run has failed; but without dpkg-deb nothing of packaging.py is counted, and without chromium
or html5lib page.py leaves out what needs them.

Needs ssh and ssh-keygen (Debian: openssh-client), sshd (openssh-server), openssl 3, gcc, jq, git, /dev/full, and the built
program. It takes some ten minutes, without --after.
"""
import argparse
import base64
import datetime
import fcntl
import hashlib
import hmac
import itertools
import os
import pathlib
import re
import shutil
import subprocess
import sys
import tempfile
import threading

HERE = pathlib.Path(__file__).resolve().parent
sys.dont_write_bytecode = True
sys.path.insert(0, str(HERE.parent / "bench"))
import explained
import hurt
import inputs
from rewrite import kind_of, loosened

CRATE = HERE.parent / "crates" / "ssh_audit"
NEEDS = {"ssh-keygen": "openssh-client", "sshd": "openssh-server", "openssl": "openssl", "gcc": "gcc", "jq": "jq"}
COUNTS = re.compile(r"(\d+) passed, (\d+) failed")
# How long rt ci took, as .ci/run writes it behind what rt ci printed.
TOOK = re.compile(r"^rt ci took .*\n", re.MULTILINE)
# What a check says that it did not try.
MISSING = re.compile(r"^\S+ is missing.*\n", re.MULTILINE)
# Where TERM names a terminal the program says more on standard error. help.py sets it.
os.environ.pop("TERM", None)
SECONDS = 60
FILE_LIMIT = inputs.FILE_LIMIT

# An Ed25519 key of 32 zero bytes, another one, a signature, and what has to be vouched for: for a login, for a host.
KEY = "AAAAC3NzaC1lZDI1NTE5AAAAIAAAAAAAAAAAAAAAAAAAAAAAAAAAAAAAAAAAAAAAAAAA"
OTHER_KEY = KEY[:-1] + "B"
SIGNATURE = "0000000b7373682d6564323535313900000001aa"
BLOB = "0000000b7373682d6564323535313900000020" + 64 * "0"
MESSAGE = (
    "00000004010203043200000003616e6e0000000e7373682d636f6e6e656374696f6e000000097075626c69636b6579010000000b"
    "7373682d6564323535313900000033" + BLOB
)
LOGIN_TRIPLE = f"{BLOB} {MESSAGE} {SIGNATURE}\n"
HOST_TRIPLE = f"{BLOB} 01020304 {SIGNATURE}\n"
GRANTED = f"granted line 1\nrights port agent x11 pty rc\nevidence 0 {LOGIN_TRIPLE}"
UNVOUCHED = f"denied N6 0\nevidence 0 {LOGIN_TRIPLE}"
NO_LINE = f"denied N3\nevidence 0 {LOGIN_TRIPLE}"
TRUSTED = f"granted line 1\nevidence 0 {HOST_TRIPLE}"
REVOKED = f"denied N1 2\nevidence 0 {HOST_TRIPLE}"
# Stands for what goes to standard error after a usage fault. help.py compares the texts.
HINT = b"which word is wrong, and where help is\n"
# What standard error says beside that: the sentence of a fault, and why a file could not be read.
BESIDE = re.compile(
    rb"^ssh_audit: (?:--[a-z-]+ wants .*|fault \S+: .*"
    rb"|.*: (?:there is no such file|it may not be read|it is a folder|it could not be read)"
    rb"|(?:admits|trusts|review|explain): (?:a file has a fault|a word is no code): .*)\n",
    re.MULTILINE,
)
GUIDANCE = re.compile(rb"ssh_audit: .+\nsee 'ssh_audit .+\n|ssh_audit: an argument is not UTF-8\n|(?:ssh_audit .+\n)(?:  .+\n)+see .+\n")


def told_apart(errors):
    """Standard error without what may stand beside; HINT for what goes with a usage fault."""
    left = BESIDE.sub(b"", errors)
    return HINT if GUIDANCE.fullmatch(left) else left
MARK = "kmYcvdi2GkPeWxB6XLjrZB8JHsy2Hm8luHMFp9GMvqk"
SHOWN_KEY = f"type ssh-ed25519\nfingerprint SHA256:{MARK}\n"
SHOWN = f"{SHOWN_KEY}comment me\n"
# A file signature by this key for the namespace `file`, the signature of its message `abc`, and what is shown of it.
SIGNED_MESSAGE = b"abc"
SSHSIG = bytes.fromhex(
    "53534853494700000001" + "00000033" + BLOB + "0000000466696c65" + "00000000" + "00000006736861323536" + "00000014" + SIGNATURE
)
FILE_TRIPLE = (
    f"{BLOB} 5353485349470000000466696c65000000000000000673686132353600000020"
    f"ba7816bf8f01cfea414140de5dae2223b00361a396177a9cb410ff61f20015ad {SIGNATURE}\n"
)
SHOWN_SIGNATURE = f"{SHOWN_KEY}namespace file\nreserved -\nhash sha256\nsignature ssh-ed25519\n"
VOUCHED = f"vouched\nevidence 0 {FILE_TRIPLE}"
NOT_VOUCHED = f"denied N6 0\nevidence 0 {FILE_TRIPLE}"
# A certificate for this key by the other one, and what is shown of it.
CERTIFICATE = (
    "AAAAIHNzaC1lZDI1NTE5LWNlcnQtdjAxQG9wZW5zc2guY29tAAAAAQcAAAAgAAAAAAAAAAAAAAAAAAAAAAAAAAAAAAAAAAAAAAAAAAAAAAAAAAAA"
    "BQAAAAEAAAACaWQAAAAHAAAAA2FubgAAAAAAAABkAAAAAAAAAMgAAAAAAAAAAAAAAAAAAAAzAAAAC3NzaC1lZDI1NTE5AAAAIAAAAAAAAAAAAAAA"
    "AAAAAAAAAAAAAAAAAAAAAAAAAAABAAAAFAAAAAtzc2gtZWQyNTUxOQAAAAGq"
)
SHOWN_CERTIFICATE = (
    "type ssh-ed25519-cert-v01@openssh.com\nfingerprint SHA256:kmYcvdi2GkPeWxB6XLjrZB8JHsy2Hm8luHMFp9GMvqk\n"
    "signer ssh-ed25519 SHA256:gOPgXFWkBoXrFVwpjf0SBo3P1kFs+IvH5q/vnQhNpFw\nkind user\nserial 5\nid id\nprincipal ann\n"
    "valid-after 100 1970-01-01T00:01:40Z\nvalid-before 200 1970-01-01T00:03:20Z\nsignature ssh-ed25519\n"
)
# Two salts, and what `h` is hashed to by the first and `g` by the second (Python's hmac).
SALTS = "0123456789abcdefghij0123456789ABCDEFGHIJ"


def hashed_name(name, salt):
    parts = salt.encode(), hmac.digest(salt.encode(), name.encode(), "sha1")
    return "|1|" + "|".join(base64.b64encode(part).decode() for part in parts)


HASHED_LINES = "".join(f"{hashed_name(name, salt)} ssh-ed25519 {KEY}\n" for name, salt in (("h", SALTS[:20]), ("g", SALTS[20:])))
FILES = {
    "keys": f"ssh-ed25519 {KEY} me\n",
    "other keys": f"ssh-ed25519 {OTHER_KEY} me\n",
    "keys ": f"ssh-ed25519 {OTHER_KEY} me\n",
    " keys": f"ssh-ed25519 {OTHER_KEY} me\n",
    "vouched": LOGIN_TRIPLE,
    "vouched ": "",
    "hosts": f"h ssh-ed25519 {KEY}\n",
    "revoked": f"h ssh-ed25519 {KEY}\n@revoked * ssh-ed25519 {KEY}\n",
    "host vouched": HOST_TRIPLE,
    "file vouched": FILE_TRIPLE,
    "certificate": f"ssh-ed25519-cert-v01@openssh.com {CERTIFICATE} me\n",
    "bad vouch": "# none\nzz\n",
    "loose keys": f"  PTY,Restrict  ssh-ed25519\t{KEY}  me \r\n#  x",
    "loose hosts": f"h,g\tssh-ed25519  {KEY}\r\n@revoked  *  ssh-ed25519 {KEY}\n",
    "loose names": f"# c\r\nH,g\tssh-ed25519  {KEY}\r\n@revoked  h ssh-ed25519 {KEY}\n",
    "key.pub": f"ssh-ed25519 {KEY} me@home\nssh-ed25519 {OTHER_KEY}\n",
    "bare key": KEY,
    "returned key": f" \tssh-ed25519  {KEY}\r\n",
    "no base64": "ssh-ed25519 AAA!\n",
    "signature": SIGNATURE + "\n",
    "salts": SALTS,
    "long salts": SALTS + "k",
    "empty": "",
    "-": f"ssh-ed25519 {OTHER_KEY} me\n",
    "\u00e9\\": f"ssh-ed25519 {KEY} me\n",
}


class Tally:
    """How many checks passed and failed."""

    passed = failed = 0

    def check(self, name, found, wanted):
        if found == wanted:
            self.passed += 1
        else:
            self.failed += 1
            print(f"FAILED {name}\n  wanted {str(wanted)[:600]}\n  found  {str(found)[:600]}", flush=True)


class Program:
    """The built program, in a folder with the files above."""

    def __init__(self, path, room):
        self.path, self.room = path, room

    def start(self, words, **how):
        return subprocess.Popen([self.path, *words], cwd=self.room, stderr=subprocess.PIPE, **how)

    def run(self, words, stdin=b""):
        """The status, what was written, and what went to standard error. `stdin` is bytes, or a file."""
        given = stdin if isinstance(stdin, bytes) else None
        how = subprocess.PIPE if given is not None else stdin
        ran = self.start(words, stdin=how, stdout=subprocess.PIPE)
        try:
            out, errors = ran.communicate(given, timeout=SECONDS)
        except subprocess.TimeoutExpired:
            ran.kill()
            return "no end", ran.communicate()[0], b""
        return ran.returncode, out, told_apart(errors)

    def status(self, words, stdout):
        """The status where standard output is this file, and what went to standard error."""
        ran = self.start(words, stdin=subprocess.DEVNULL, stdout=stdout)
        try:
            _, errors = ran.communicate(timeout=SECONDS)
        except subprocess.TimeoutExpired:
            ran.kill()
            return "no end", ran.communicate()[1]
        return ran.returncode, told_apart(errors)


def login(trust, vouch=None, **other):
    """The words of a login; a value that is None is left out."""
    given = {"offer": KEY, "signature": SIGNATURE, "algorithm": "ssh-ed25519", "session": "01020304", "user": "ann"}
    given.update({"address": "192.0.2.1", "now": "150"}, **other)
    return words("login", trust, vouch, given)


def host(trust, vouch=None, **other):
    """The same of a host's key."""
    given = {"offer": KEY, "signature": SIGNATURE, "hash": "01020304", "host": "h", "port": "22", "now": "150"}
    given.update(other)
    return words("host", trust, vouch, given)


def words(subcommand, trust, vouch, given):
    files = ["--file", trust] + (["--vouch", vouch] if vouch is not None else [])
    options = (("--" + name.replace("_", "-"), value) for name, value in given.items() if value is not None)
    return [subcommand, *files, *itertools.chain.from_iterable(options)]


def sshsig(body, message, vouch=None, namespace="file"):
    files = ["--body", body, "--message", message, "--namespace", namespace]
    return ["sshsig", *files, *(["--vouch", vouch] if vouch is not None else [])]


def show(kind, file):
    return ["show", "--kind", kind, "--file", file]


def rewrite(kind, file):
    return ["rewrite", "--kind", kind, "--file", file]


def readable(file):
    return ["readable", "--file", file]


def hash_names(file, salts):
    return ["hash", "--file", file, "--salts", salts]


def review(*names, kind="auth", now=150, **other):
    """The words of a review; a value that is None is left out."""
    given = {"kind": kind, "now": now, **other}
    options = [word for name, value in given.items() if value is not None for word in ("--" + name.replace("_", "-"), str(value))]
    return ["review", *options, *names]


# ---- rows


def asked_at(now=150, zone="UTC0"):
    """What the last line of an answer says of the moment and the zone; `trusts` reads no time in a zone."""
    date = f"{datetime.datetime.fromtimestamp(int(now), datetime.timezone.utc):%Y-%m-%dT%H:%M:%SZ}"
    return f"asked at {now} {date}" + (f", zone {zone}" if zone else "")


# The codes of findings, the most urgent first, and what each means.
WORST_FIRST = [f"F{number}" for number in (1, 4, 8, 10, 11, 12, 14, 22, 2, 5, 7, 9, 13, 3, 6, *range(15, 22))]
MEANING = {code: sentence for code, sentence, _ in explained.rows_of_page()}


def found_text(found):
    """The lines before a total: how often each of these codes was found, and what it means."""
    return "".join(f"{code}: {found[code]}, {MEANING[code]}\n" for code in WORST_FIRST if found.get(code))


def asked_by(words):
    """The last line of the text of this `admits` or `trusts`."""
    given = dict(zip(words, words[1:]))
    return asked_at(given["--now"], given.get("--zone", "UTC0") if words[0] == "admits" else None) + "\n"


def rows():
    """The words, what is wanted, the status, and standard input where it matters."""
    keys, hosts, certificate = (FILES[name].encode() for name in ("keys", "hosts", "certificate"))
    # each status of each subcommand, its files by name
    yield login("keys", "vouched"), GRANTED, 0
    yield login("./keys", "./vouched"), GRANTED, 0
    yield login("keys"), UNVOUCHED, 1
    yield login("other keys", "vouched"), NO_LINE, 1
    yield login("empty"), NO_LINE, 1
    yield login("keys", "vouched", algorithm="ssh-rsa"), "fault A3\n", 2
    yield login("keys", "bad vouch"), "fault vouch 2\n", 2
    yield login("keys", session="0"), "fault value session\n", 2
    yield host("hosts", "host vouched"), TRUSTED, 0
    yield host("revoked", "host vouched"), REVOKED, 1
    yield host("hosts", "host vouched", port="65536"), "fault value port\n", 2
    yield show("key", "keys"), SHOWN, 0
    yield show("cert", "certificate"), SHOWN_CERTIFICATE, 0
    yield show("cert", "keys"), "fault L8\n", 2
    yield show("sshsig", "body"), SHOWN_SIGNATURE, 0
    yield show("private", "body"), "fault B1\n", 2
    yield show("frob", "keys"), "fault value kind\n", 2
    yield rewrite("auth", "loose keys"), f"pty,restrict ssh-ed25519 {KEY} me\n#  x\n", 0
    yield rewrite("known", "loose hosts"), f"h,g ssh-ed25519 {KEY}\n@revoked  *  ssh-ed25519 {KEY}\n", 0
    yield rewrite("auth", "empty"), "", 0
    yield rewrite("hosts", "loose hosts"), "fault value kind\n", 2
    yield readable("loose keys"), f"pty,restrict ssh-ed25519 {KEY} me\n", 0
    yield hash_names("loose names", "salts"), f"# c\r\n{HASHED_LINES}@revoked  h ssh-ed25519 {KEY}\n", 0
    yield hash_names("empty", "empty"), "", 0
    yield hash_names("loose names", "empty"), "fault A12\n", 2
    yield hash_names("loose names", "long salts"), "fault file long salts\n", 2
    yield sshsig("body", "message", "file vouched"), VOUCHED, 0
    yield sshsig("body", "message"), NOT_VOUCHED, 1
    yield sshsig("body", "message", "file vouched", "git"), "denied namespace\n", 1
    yield sshsig("keys", "message", "file vouched"), "fault A11 B1\n", 2
    # standard input by its name, also where a file has that name; another file does not look at it
    yield login("-", "vouched"), GRANTED, 0, keys
    yield login("keys", "-"), GRANTED, 0, LOGIN_TRIPLE.encode()
    yield login("-", "-"), GRANTED, 0, LOGIN_TRIPLE.encode() + b"\n" + keys
    yield login("./-", "vouched"), NO_LINE, 1, keys
    yield login("other keys", "vouched"), NO_LINE, 1, keys
    yield host("-", "host vouched"), TRUSTED, 0, hosts
    yield show("key", "-"), SHOWN, 0, keys
    yield show("cert", "-"), SHOWN_CERTIFICATE, 0, certificate
    yield rewrite("auth", "-"), FILES["keys"], 0, keys
    yield hash_names("-", "salts"), HASHED_LINES, 0, f"h,g ssh-ed25519 {KEY}".encode()
    yield hash_names("hosts", "-"), HASHED_LINES.split("\n")[0] + "\n", 0, SALTS.encode()
    yield sshsig("body", "-", "file vouched"), VOUCHED, 0, SIGNED_MESSAGE
    yield sshsig("-", "message", "file vouched"), VOUCHED, 0, SSHSIG
    yield sshsig("body", "-", "-"), VOUCHED, 0, FILE_TRIPLE.encode() + b"\n" + SIGNED_MESSAGE
    yield login("\u00e9\\", "vouched"), GRANTED, 0
    # a name is opened as it stands, with its blanks
    yield login("keys ", "vouched"), NO_LINE, 1
    yield login(" keys", "vouched"), NO_LINE, 1
    yield login("keys", "vouched "), UNVOUCHED, 1
    yield login("keys", " vouched"), "fault file  vouched\n", 2
    yield login("keys\t", "vouched"), "fault A9\n", 2
    yield show("key", "keys "), SHOWN.replace(MARK, "gOPgXFWkBoXrFVwpjf0SBo3P1kFs+IvH5q/vnQhNpFw"), 0
    yield ["explain", "version"], "version: ssh_audit 1.0.0 - a package tells the commit too, in share/doc/ssh-trust-audit/VERSION\n", 0
    denied = f"keys : does not admit: N3: no line admits the offer\n    looked for SHA256:{MARK}\n{asked_at()}\n"
    yield ["admits", "--key", "keys", "--user", "ann", "--address", "192.0.2.1", "--now", "150", "keys "], denied, 1
    # an offer and a signature in files: one place of each, the first line of a file, which is read before the values are
    # judged, the offer's first; the option that gives no value is named
    for name in ("key.pub", "bare key", "returned key"):
        yield login("keys", "vouched", offer=None, offer_file=name), GRANTED, 0
        yield host("hosts", "host vouched", offer=None, offer_file=name), TRUSTED, 0
    in_files = {"offer": None, "signature": None, "offer_file": "key.pub", "signature_file": "signature"}
    yield login("keys", "vouched", **in_files), GRANTED, 0
    yield host("hosts", "host vouched", **in_files), TRUSTED, 0
    yield login("other keys", "vouched", **in_files), NO_LINE, 1
    yield login("keys", "vouched", **{**in_files, "offer_file": "-"}), GRANTED, 0, keys
    yield login("keys", "vouched", **{**in_files, "signature_file": "-"}), GRANTED, 0, SIGNATURE.encode()
    yield login("-", "vouched", **{**in_files, "offer_file": "-"}), NO_LINE, 1, keys + keys
    yield login("keys", "vouched", offer_file="key.pub"), "fault usage\n", 2
    yield login("keys", "vouched", signature_file="missing"), "fault usage\n", 2
    yield login("keys", "vouched", offer=None), "fault usage\n", 2
    yield host("hosts", "host vouched", signature=None), "fault usage\n", 2
    for name in ("missing", ".", "/dev/zero"):
        yield login("keys", "vouched", offer=None, offer_file=name), f"fault file {name}\n", 2
        yield login("keys", "missing", **{**in_files, "signature_file": name}), f"fault file {name}\n", 2
        yield host("hosts", "host vouched", offer=None, offer_file=name, signature=None, signature_file="bad vouch"), f"fault file {name}\n", 2
    yield login("keys", "missing", **{**in_files, "offer_file": "no base64"}), "fault value offer-file\n", 2
    yield login("keys", "missing", **{**in_files, "signature_file": "bad vouch"}, session="0"), "fault value signature-file\n", 2
    yield login("keys", "missing", **in_files, session="0"), "fault value session\n", 2
    yield login("keys", "vouched", offer=None, offer_file="empty"), "fault A1 K1 V1 0\n", 2
    yield login("keys", "vouched", signature=None, signature_file="empty"), "fault value signature-file\n", 2
    # files that are not there, whatever standard input has
    for name in ("missing", "", "keys/missing", "missing/", "\u00e8\\"):
        told = "".join(f"\\x{byte:02x}" if byte == 0x5C or byte > 0x7E else chr(byte) for byte in name.encode())
        yield login(name, "vouched"), "fault A9\n", 2, keys
        yield login("keys", name), f"fault file {told}\n", 2, LOGIN_TRIPLE.encode()
        yield host(name, "host vouched"), "fault A9\n", 2, hosts
        yield host("hosts", name), f"fault file {told}\n", 2, HOST_TRIPLE.encode()
        yield sshsig(name, "message", "file vouched"), f"fault file {told}\n", 2, SSHSIG
        yield sshsig("body", name, "file vouched"), f"fault file {told}\n", 2, SIGNED_MESSAGE
        yield sshsig("body", "message", name), f"fault file {told}\n", 2, FILE_TRIPLE.encode()
        yield show("key", name), f"fault file {told}\n", 2, keys
        yield show("cert", name), f"fault file {told}\n", 2, certificate
        yield show("private", name), f"fault file {told}\n", 2, keys
        yield show("sshsig", name), f"fault file {told}\n", 2, SSHSIG
        yield rewrite("auth", name), "fault A9\n", 2, keys
        yield readable(name), "fault A9\n", 2, keys
        yield hash_names(name, "salts"), "fault A9\n", 2, hosts
        yield hash_names("hosts", name), f"fault file {told}\n", 2, SALTS.encode()
    # files whose reads fail: a folder; the one that is read first is told
    yield login(".", "vouched"), "fault A9\n", 2, keys
    yield login("keys", "."), "fault file .\n", 2, keys
    yield login("missing", "."), "fault file .\n", 2
    yield login(".", "missing"), "fault file missing\n", 2
    yield login(".", "bad vouch"), "fault vouch 2\n", 2
    yield host(".", "host vouched"), "fault A9\n", 2, hosts
    yield host("hosts", "."), "fault file .\n", 2
    yield rewrite("known", "."), "fault A9\n", 2, hosts
    yield readable("."), "fault A9\n", 2, keys
    yield hash_names(".", "salts"), "fault A9\n", 2, hosts
    yield hash_names(".", "."), "fault file .\n", 2, hosts
    yield sshsig(".", "missing"), "fault file .\n", 2
    yield sshsig("missing", "."), "fault file missing\n", 2
    yield show("key", "."), "fault file .\n", 2, keys
    # a refused offer is told first
    yield login("missing", "vouched", algorithm="ssh-rsa"), "fault A3\n", 2
    yield login(".", "vouched", algorithm="ssh-rsa"), "fault A3\n", 2
    yield host("missing", "host vouched", signature="00"), "fault A2 V1 0\n", 2
    # files without an end
    yield login("/dev/zero"), "fault A7\n", 2
    yield login("keys", "/dev/zero"), "fault file /dev/zero\n", 2
    yield host("/dev/zero"), "fault A7\n", 2
    yield host("hosts", "/dev/zero"), "fault file /dev/zero\n", 2
    yield sshsig("/dev/zero", "message"), "fault file /dev/zero\n", 2
    yield sshsig("body", "/dev/zero"), "fault file /dev/zero\n", 2
    yield sshsig("body", "message", "/dev/zero"), "fault file /dev/zero\n", 2
    for kind in ("key", "cert", "private", "sshsig"):
        yield show(kind, "/dev/zero"), "fault file /dev/zero\n", 2
    yield rewrite("auth", "/dev/zero"), "fault A7\n", 2
    yield rewrite("known", "/dev/zero"), "fault A7\n", 2
    yield readable("/dev/zero"), "fault A7\n", 2
    yield hash_names("/dev/zero", "salts"), "fault A7\n", 2
    yield hash_names("hosts", "/dev/zero"), "fault file /dev/zero\n", 2
    # words
    yield ["frob"], "fault usage\n", 2
    yield ["login"], "fault usage\n", 2
    yield ["--help"], "fault usage\n", 2
    yield login("keys") + ["--now", "150"], "fault usage\n", 2
    yield login("keys", user=b"\xff"), "fault usage\n", 2
    yield [], "fault usage\n", 2
    yield [], "fault usage\n", 2, b"\xff\n"
    yield [], GRANTED, 0, " ".join(login("keys", "vouched")).encode() + b"\n"
    yield [], (CRATE / "stdout").read_text(), 0, (CRATE / "stdin").read_bytes()


def hint_of(wanted):
    """What goes to standard error where the answer is this one."""
    return HINT if wanted == "fault usage\n" else b""


def answer_rows(program, tally):
    for asked, wanted, status, *stdin in rows():
        name = " ".join(word if isinstance(word, str) else repr(word) for word in asked) or repr(stdin)
        tally.check(name, program.run(asked, *stdin), (status, wanted.encode(), hint_of(wanted)))


def size_rows(program, tally):
    """A trust file at the limit and one byte past it, by name and through a pipe; written anew both would pass it."""
    for length, wanted, status in ((FILE_LIMIT, NO_LINE, 1), (FILE_LIMIT + 1, "fault A7\n", 2)):
        content = b"#" + b"x\n#" * (length // 3 + 1)
        (program.room / "large").write_bytes(content[:length])
        tally.check(f"a file of {length} bytes", program.run(login("large")), (status, wanted.encode(), b""))
        tally.check(f"{length} bytes in a pipe", program.run(login("-"), content[:length]), (status, wanted.encode(), b""))
        tally.check(f"{length} bytes written anew", program.run(rewrite("auth", "large")), (2, b"fault A7\n", b""))
    (program.room / "large").unlink()


def input_rows(program, tally):
    """A standard input that cannot be read."""
    for asked, wanted in (
        ([], "fault usage\n"),
        (login("-", "vouched"), "fault A9\n"),
        (login("keys", "-"), "fault file -\n"),
        (show("key", "-"), "fault file -\n"),
        (rewrite("auth", "-"), "fault A9\n"),
        (readable("-"), "fault A9\n"),
        (["admits", "--key", "keys", "--user", "ann", "--address", "192.0.2.1", "--now", "150", "-", "-"], 2 * "-: fault A9\n" + asked_at() + "\n"),
        (["trusts", "--key", "keys", "--host", "h", "--now", "150", "-", "-"], 2 * "-: fault A9\n" + asked_at(zone=None) + "\n"),
        (["trusts", "--key", "-", "--host", "h", "--now", "150", "-"], "fault file -\n"),
        (review("-", "-"), 2 * "-: fault A9: a folder\n" + f"total: 2 files, 2 faults, 0 lines, 0 key lines, 0 distinct keys, 0 unreadable, 0 findings, {asked_at()}\n"),
    ):
        folder = os.open(program.room, os.O_RDONLY)
        tally.check(f"a folder as input: {asked[:1]}", program.run(asked, folder), (2, wanted.encode(), hint_of(wanted)))
        os.close(folder)


def endless_rows(program, tally):
    """An input of LFs alone, without an end: as a file by its name, and as `-`. Where `-` is the vouch file, the first
    line ends it."""
    for asked, wanted, status in (
        (login("-"), "fault A7\n", 2),
        (login("/dev/stdin"), "fault A7\n", 2),
        (host("-"), "fault A7\n", 2),
        (host("/dev/stdin"), "fault A7\n", 2),
        (rewrite("auth", "-"), "fault A7\n", 2),
        (rewrite("known", "/dev/stdin"), "fault A7\n", 2),
        (readable("-"), "fault A7\n", 2),
        (sshsig("body", "-"), "fault file -\n", 2),
        (login("keys", "/dev/stdin"), "fault file /dev/stdin\n", 2),
        (login("keys", "-"), UNVOUCHED, 1),
    ):
        lines = subprocess.Popen(["yes", ""], stdout=subprocess.PIPE)
        name = " ".join(asked[:5])
        tally.check(f"lines without an end: {name}", program.run(asked, lines.stdout), (status, wanted.encode(), b""))
        lines.stdout.close()
        lines.wait()


# ---- large files

# A name, and a pattern of ten stars that matches it up to its end, and then not.
LONG_NAME = 63 * "a"
TEN_STARS = 9 * "*a" + "*b"


def cost_of(program, meter, asked, stdin="/dev/null"):
    """The status and what was written, then the microseconds of processor time and the KiB of memory at the most."""
    out = program.room / "metered"
    fed = ("sh", "-c", 'exec "$@" < "$0"', stdin)
    ran = subprocess.run([meter, out, *fed, program.path, *asked], cwd=program.room, stdout=subprocess.PIPE, timeout=SECONDS, check=True)
    took, peak, status = map(int, ran.stdout.split())
    return (status, out.read_bytes()), took, peak


def star_rows(program, tally):
    """Files of lines with ten stars. Linear time: eight times the bytes take less than 24 times as long, not 64 times.
    Constant memory: no more than 4 MiB for 64 MiB."""
    meter = program.room / "meter"
    subprocess.run(["gcc", "-O2", "-static", "-o", meter, HERE.parent / "bench" / "meter.c"], check=True)
    refused = "".join(f"reason {number} G8\n" for number in range(1, 101))
    for line, asked, wanted in (
        (f'from="{TEN_STARS}" ssh-ed25519 {KEY}\n', login("stars", host=LONG_NAME), NO_LINE.replace("\n", "\n" + refused, 1)),
        (f"{TEN_STARS} ssh-ed25519 {KEY}\n", host("stars", host=LONG_NAME), f"denied N3\nevidence 0 {HOST_TRIPLE}"),
    ):
        times = []
        for size in (FILE_LIMIT // 8, FILE_LIMIT):
            (program.room / "stars").write_bytes(size // len(line) * line.encode())
            answer, took, peak = cost_of(program, meter, asked)
            tally.check(f"{asked[0]}: {size} bytes of lines with ten stars", answer, (1, wanted.encode()))
            tally.check(f"{asked[0]}: {size} bytes in {peak} KiB", peak <= 4096, True)
            times.append(took)
        tally.check(f"{asked[0]}: linear time, of {times} microseconds", times[1] < 24 * times[0], True)
    (program.room / "stars").unlink()


# An Ed25519 key whose last eight bytes are the multiplier of std's fold hash, the lowest first, has the hash 0, so all of
# these are looked for in one row of a map that keeps keys by their hashes.
MULTIPLIER = 0x9E3779B97F4A7C15


def picked_keys(count, end):
    """So many Ed25519 keys that end so, in base64."""
    for number in range(count):
        own = hashlib.sha256(b"%d" % number).digest()[: 32 - len(end)]
        yield base64.b64encode(b"\0\0\0\x0bssh-ed25519\0\0\0\x20" + own + end).decode()


def picked_rows(program, tally, count=100_000):
    """A review of keys that were picked to have one hash takes less than eight times as long as one of others. In a row
    without an end, 2,000 of them took fifty times as long."""
    meter = program.room / "meter"
    subprocess.run(["gcc", "-O2", "-static", "-o", meter, HERE.parent / "bench" / "meter.c"], check=True)
    total = f"total: 1 files, 0 faults, {count} lines, {count} key lines, more than 65536 distinct keys, 0 unreadable, 0 findings, {asked_at()}\n".encode()
    for kind, front in (("auth", ""), ("known", "h ")):
        times = []
        for end in (b"", MULTIPLIER.to_bytes(8, "little")):
            (program.room / "picked").write_text("".join(f"{front}ssh-ed25519 {key}\n" for key in picked_keys(count, end)))
            (status, text), took, _ = cost_of(program, meter, review("picked", kind=kind, findings="F3,F12"))
            tally.check(f"review of {kind}: {count} keys that end with {end}", (status, text.endswith(total)), (0, True))
            times.append(took)
        tally.check(f"review of {kind}: keys of one hash, of {times} microseconds", times[1] < 8 * times[0], True)
    (program.room / "picked").unlink()


def streamed_rows(program, tally):
    """A file of 64 MiB that is shown or asked about, and a message of 64 MiB that is hashed: no more than 4 MiB."""
    meter = program.room / "meter"
    subprocess.run(["gcc", "-O2", "-static", "-o", meter, HERE.parent / "bench" / "meter.c"], check=True)
    large = (FILES["keys"].encode() + (b"x" * 99 + b"\n") * (FILE_LIMIT // 100))[:FILE_LIMIT]
    (program.room / "large").write_bytes(large)
    evidence = FILE_TRIPLE.replace(hashlib.sha256(SIGNED_MESSAGE).hexdigest(), hashlib.sha256(large).hexdigest())
    for asked, wanted in (
        (show("key", "large"), (0, SHOWN.encode())),
        (show("private", "large"), (2, b"fault B14\n")),
        (show("sshsig", "large"), (2, b"fault B14\n")),
        (sshsig("body", "large"), (1, f"denied N6 0\nevidence 0 {evidence}".encode())),
        (sshsig("keys", "large"), (2, b"fault A11 B1\n")),
    ):
        answer, _, peak = cost_of(program, meter, asked)
        tally.check(f"{' '.join(asked[:5])} of {FILE_LIMIT} bytes", answer, wanted)
        tally.check(f"{' '.join(asked[:5])} of {FILE_LIMIT} bytes in {peak} KiB", peak <= 4096, True)
    asked = ("admits", "--user", "ann", "--address", "192.0.2.1", "--now", "1700000000", "keys", "--key")
    wanted, _, _ = cost_of(program, meter, (*asked, "keys"))
    answer, _, peak = cost_of(program, meter, (*asked, "large"))
    tally.check("admits of a key's file of 64 MiB, as of its first line", answer, wanted)
    tally.check(f"the same in {peak} KiB", (wanted[0], peak <= 4096), (0, True))
    (program.room / "large").unlink()


def vouching_rows(program, tally):
    """Vouch files of 64 MiB, of the shortest triples and of one line: no more than 4 MiB."""
    meter = program.room / "meter"
    short = b"- - -\n"
    for asked, triple, unvouched, vouched in (
        (login("keys", "large"), FILES["vouched"], UNVOUCHED, (0, GRANTED)),
        (sshsig("body", "message", "large"), FILES["file vouched"], NOT_VOUCHED, (0, VOUCHED)),
    ):
        count = (FILE_LIMIT - len(triple)) // len(short)
        for name, content, wanted in (
            ("other triples", short * count, (1, unvouched)),
            ("the one that is sought after others", short * count + triple.encode(), vouched),
            ("no triple after others", short * count + b"-\n", (2, f"fault vouch {count + 1}\n")),
            ("one line", b"0" * (FILE_LIMIT - 4) + b" - -", (1, unvouched)),
        ):
            (program.room / "large").write_bytes(content)
            answer, took, peak = cost_of(program, meter, asked)
            tally.check(f"{asked[0]}: a vouch file of {len(content)} bytes, {name}", answer, (wanted[0], wanted[1].encode()))
            tally.check(f"the same in {peak} KiB, {took} microseconds", peak <= 4096, True)
    (program.room / "large").unlink()


def held_vouch_row(program, tally):
    """A file signature's vouch file of 8 MiB on standard input: its bytes are held, and no more than 4 MiB beside them."""
    meter = program.room / "meter"
    content = b"- - -\n" * (2**23 // 6) + FILES["file vouched"].encode()
    (program.room / "large").write_bytes(content)
    answer, _, peak = cost_of(program, meter, sshsig("body", "message", "-"), "large")
    tally.check(f"sshsig: {len(content)} bytes of a vouch file on standard input", answer, (0, VOUCHED.encode()))
    tally.check(f"the same in {peak} KiB", peak <= 4096 + len(content) // 1024, True)
    (program.room / "large").unlink()


def piped_vouch_row(program, tally):
    """A file signature's vouch file that is a pipe with a name gives its bytes once: they are held, and not read again."""
    pipe = program.room / "pipe"
    os.mkfifo(pipe)
    writer = threading.Thread(target=pipe.write_text, args=(FILES["file vouched"],), daemon=True)
    writer.start()
    tally.check("sshsig: a vouch file that is a pipe", program.run(sshsig("body", "message", "pipe"))[:2], (0, VOUCHED.encode()))
    pipe.unlink()


def longest_row(program, tally):
    """A certificate of 262,144 bytes, which no word holds: it is judged, and one byte more is not."""
    made = hurt.Made(extensions=[(b"long@example.com", b"")])
    room = 262_144 - len(made.offered)
    for more in (0, 1):
        long = hurt.Made(extensions=[(b"long@example.com", bytes(room + more))])
        (program.room / "long.pub").write_text(f"ssh-ed25519-cert-v01@openssh.com {inputs.b64(long.offered)} me\n")
        (program.room / "authority").write_text("cert-authority " + hurt.AUTHORITY_LINE)
        asked = [*long.words(hurt.Asked("authority"), "empty")]
        at = asked.index("--offer")
        asked[at : at + 2] = ["--offer-file", "long.pub"]
        status, answer, _ = program.run(asked)
        wanted = (2, b"fault A1 C9") if more else (1, b"denied N6 0")
        tally.check(f"a certificate of {len(long.offered)} bytes", (status, answer.split(b"\n")[0][:11]), wanted)
        tally.check("its length", len(long.offered), 262_144 + more)


def named_rows(program, tally):
    """A hundred reasons that each tell a critical option's name, up to the longest that a certificate holds, of letters and of
    bytes that are escaped: no more than 4 MiB."""
    meter = program.room / "meter"
    subprocess.run(["gcc", "-O2", "-static", "-o", meter, HERE.parent / "bench" / "meter.c"], check=True)
    (program.room / "authorities").write_text(100 * f"cert-authority {hurt.AUTHORITY_LINE}")
    longest = 262_144 - len(hurt.Made(critical=[(b"", b"")]).offered)
    for letter, told, length in ((b"x", b"x", 64_000), (b"x", b"x", longest), (b"\n", rb"\x0a", longest)):
        made = hurt.Made(critical=[(length * letter, b"")])
        (program.room / "long.pub").write_text(inputs.b64(made.offered))
        asked = made.words(hurt.Asked("authorities"), "empty")
        at = asked.index("--offer")
        asked[at : at + 2] = ["--offer-file", "long.pub"]
        reasons = b"".join(b"reason %d G13 %s\n" % (number, length * told) for number in range(1, 101))
        triples = (b" ".join(part.hex().encode() for part in triple) for triple in made.evidence())
        evidence = b"".join(b"evidence %d %s\n" % numbered for numbered in enumerate(triples))
        # How many pages of the program's own file the kernel maps at once differs from run to run: the least of three counts.
        costs = [cost_of(program, meter, asked) for _ in range(3)]
        answer, peak = costs[0][0], min(cost[2] for cost in costs)
        tally.check(f"a hundred names of {length} bytes {letter}", answer == (1, b"denied N3\n" + reasons + evidence), True)
        tally.check(f"the same in {peak} KiB", peak <= 4096, True)


def bench_rows(program, tally):
    """The bench's files of 100,000 lines, spelled loosely: written anew they are the bench's, and that is its own."""
    for kind in ("options", "names"):
        file = inputs.write(program.room, kind, "100k")
        wanted = pathlib.Path(file.path).read_bytes()
        loose = b"".join(map(loosened, wanted.splitlines(keepends=True)))
        tally.check(f"{kind}: 100,000 lines, some of them loose", (file.lines, loose != wanted), (100_000, True))
        (program.room / "loose").write_bytes(loose)
        for spelled in ("loose", file.path):
            status, new, errors = program.run(rewrite(kind_of(file), spelled))
            tally.check(f"{kind}: {spelled} written anew", (status, new == wanted, errors), (0, True, b""))


# ---- what ssh-keygen makes


def armoured(text):
    """The bytes inside an armour."""
    return base64.b64decode("".join(line for line in text.splitlines() if not line.startswith("-----")))


def keygen(program, *words_given, **how):
    ran = subprocess.run(["ssh-keygen", "-q", *words_given], cwd=program.room, stdout=subprocess.PIPE, stderr=subprocess.DEVNULL, check=True, **how)
    return ran.stdout.decode()


def vouched_for(program, tally, asked):
    """Hands in what an answer without a vouch file lists. What is answered then, without the evidence."""
    status, answer, _ = program.run(asked)
    tally.check(f"nothing vouched: {asked[0]}", (status, answer.split(b"\n")[0]), (1, b"denied N6 0"))
    triples = [line.split(b" ", 2)[2] + b"\n" for line in answer.splitlines() if line.startswith(b"evidence ")]
    (program.room / "triples").write_bytes(b"".join(triples))
    status, answer, _ = program.run([*asked, "--vouch", "triples"])
    return status, answer.split(b"evidence ")[0]


def keygen_rows(program, tally):
    """A private key, a hashed known_hosts file and a file signature of ssh-keygen."""
    room = program.room
    keygen(program, "-t", "ed25519", "-N", "", "-C", "a  b", "-f", "real")
    key = (room / "real.pub").read_text().split()[1]
    (room / "known").write_text(f"# c\n[h.example]:2222 ssh-ed25519 {key}\n")
    keygen(program, "-H", "-f", "known")
    asked = host("known", offer=key, host="H.example", port="2222")
    tally.check("a hashed name", (room / "known").read_text().split("\n")[1].startswith("|1|"), True)
    tally.check("a hashed host", vouched_for(program, tally, asked), (0, b"granted line 2\n"))
    with (room / "known").open("a") as known:
        known.write(f"@revoked x ssh-ed25519 {key}\n")
    status, answer, _ = program.run([*asked, "--vouch", "triples"])
    tally.check("a revoked hashed host", (status, answer.split(b"\n")[0]), (1, b"denied N1 3"))
    body = armoured((room / "real").read_text())
    (room / "raw").write_bytes(body)
    fingerprint = keygen(program, "-l", "-f", "real.pub").split()[1]
    check = int.from_bytes(body[98:102], "big")
    shown = f"type ssh-ed25519\nfingerprint {fingerprint}\ncheck {check}\ncomment a  b\n"
    tally.check("a private key", program.run(show("private", "raw")), (0, shown.encode(), b""))
    (room / "raw").write_bytes(armoured(keygen(program, "-Y", "sign", "-n", "file", "-f", "real", input=SIGNED_MESSAGE)))
    tally.check("a file signature", vouched_for(program, tally, sshsig("raw", "message")), (0, b"vouched\n"))
    tally.check("another namespace", program.run(sshsig("raw", "message", namespace="File")), (1, b"denied namespace\n", b""))


def hashing_rows(program, tally):
    """Names that ssh-keygen -H would hash, hashed here: ssh-keygen finds each at its line, and no other name, and no name
    is there to read."""
    keygen(program, "-t", "ed25519", "-N", "", "-f", "host key")
    key = (program.room / "host key.pub").read_text().split()[1]
    names = ["h.example", "192.0.2.7", "[g.example]:2222", "2001:db8::7", "Upper.example", "alias"]
    lines = [f"{names[0]},{names[1]} ssh-ed25519 {key} c\n", f"{names[2]} ssh-ed25519 {key}\n", f"{names[3]},{names[4]},{names[5]} ssh-ed25519 {key}\n"]
    (program.room / "plain").write_text("".join(lines))
    (program.room / "random salts").write_bytes(os.urandom(20 * len(names)))
    status, new, errors = program.run(hash_names("plain", "random salts"))
    tally.check("names hashed", (status, new.count(b"\n"), errors), (0, len(names), b""))
    tally.check("no name to read", [name for name in names if name.lower().encode() in new.lower()], [])
    (program.room / "hashed").write_bytes(new)
    for number, name in enumerate(names):
        found = keygen(program, "-F", name.lower(), "-f", "hashed")
        tally.check(f"ssh-keygen finds {name}", found.encode(), new.splitlines(keepends=True)[number])
    for name in ("x.example", "[h.example]:2222", "g.example"):
        ran = subprocess.run(["ssh-keygen", "-F", name, "-f", "hashed"], cwd=program.room, stdout=subprocess.PIPE, stderr=subprocess.DEVNULL)
        tally.check(f"ssh-keygen does not find {name}", (ran.returncode, ran.stdout), (1, b""))


# ---- writers


def closed_pipe():
    read, write = os.pipe()
    os.close(read)
    return write


def full_pipe():
    """A pipe that takes no more and does not wait, and its other end."""
    read, write = os.pipe()
    os.set_blocking(write, False)
    try:
        while True:
            os.write(write, bytes(4096))
    except BlockingIOError:
        pass
    return read, write


def writer_rows(program, tally):
    """Writers that fail: the status is 2, whatever the answer's own status is."""
    asked = (
        *(login("keys", "vouched"), login("keys"), host("revoked"), sshsig("body", "message", "file vouched")),
        *(show("key", "keys"), show("cert", "certificate"), show("sshsig", "body")),
        *(rewrite("auth", "keys"), readable("keys"), hash_names("loose names", "salts"), ["frob"]),
    )
    for words_asked in asked:
        name, wanted = " ".join(words_asked[:3]), (2, HINT if words_asked == ["frob"] else b"")
        with open("/dev/full", "wb") as full:
            tally.check(f"a full device: {name}", program.status(words_asked, full), wanted)
        write = closed_pipe()
        tally.check(f"a closed pipe: {name}", program.status(words_asked, write), wanted)
        os.close(write)
        read, write = full_pipe()
        tally.check(f"a full pipe: {name}", program.status(words_asked, write), wanted)
        os.close(read)
        os.close(write)
        closed = subprocess.run(["sh", "-c", 'exec "$@" >&-', "", program.path, *words_asked], cwd=program.room, stdin=subprocess.DEVNULL, stderr=subprocess.PIPE, check=False)
        tally.check(f"no output: {name}", (closed.returncode, told_apart(closed.stderr)), wanted)


def long_text_rows(program, tally):
    """A text of a megabyte through a small pipe: a slow reader gets it whole, and one that goes away ends the program."""
    comment = 1_000_000 * "c"
    (program.room / "long").write_text(f"ssh-ed25519 {KEY} {comment}\n")
    wanted = SHOWN.replace("comment me", "comment " + comment).encode()
    for wants, status in ((len(wanted) + 1, 0), (5000, 2)):
        read, write = os.pipe()
        fcntl.fcntl(write, fcntl.F_SETPIPE_SZ, 4096)
        ran = program.start(show("key", "long"), stdin=subprocess.DEVNULL, stdout=write)
        os.close(write)
        got = b""
        ends = threading.Timer(SECONDS, ran.kill)
        ends.start()
        while len(got) < wants:
            piece = os.read(read, min(1000, wants - len(got)))
            if not piece:
                break
            got += piece
        os.close(read)
        ended = ran.wait(), ran.stderr.read()
        ends.cancel()
        tally.check(f"a long text, of which {wants} bytes are read", (ended, got == wanted[:wants]), ((status, b""), True))


ROWS = (answer_rows, size_rows, input_rows, endless_rows, star_rows, picked_rows, streamed_rows, vouching_rows, held_vouch_row, piped_vouch_row, longest_row, named_rows, bench_rows, keygen_rows, hashing_rows, writer_rows, long_text_rows)


# ---- the other checks


def counts_of(text):
    """The counts in the last line of a check's output; a check that tells none has failed."""
    found = COUNTS.search(text.rstrip().rsplit("\n", 1)[-1])
    return (int(found[1]), int(found[2])) if found else None


def other_check(name, tally, *arguments):
    ran = subprocess.run([sys.executable, HERE / name, *arguments], stdout=subprocess.PIPE, stderr=subprocess.STDOUT, text=True, errors="replace", check=False)
    passed, failed = counts_of(ran.stdout) or (0, 1)
    if ran.returncode or failed:
        failed = failed or 1
        print(f"FAILED {name}\n{ran.stdout}", flush=True)
    else:
        print(*MISSING.findall(ran.stdout), sep="", end="")
    tally.passed += passed
    tally.failed += failed
    print(f"{name}: {passed} passed, {failed} failed", flush=True)


def found(need):
    """Where a program is; sshd's folder is not on every path."""
    return shutil.which(need, path=os.environ.get("PATH", os.defpath) + ":/usr/sbin")


def what_is_missing(path):
    for need, package in NEEDS.items():
        if found(need) is None:
            yield f"{need} is missing (Debian: {package})"
    if not os.access(path, os.X_OK):
        yield f"{path} is not built"
    if not os.path.exists("/dev/full"):
        yield "/dev/full is missing"


def try_all(path, tally):
    missing = list(what_is_missing(path))
    if missing:
        print("\n".join(missing) + "\nnothing was tried", flush=True)
        tally.failed += 1
        return
    with tempfile.TemporaryDirectory() as folder:
        program = Program(path, pathlib.Path(folder))
        for name, text in FILES.items():
            (program.room / name).write_text(text, encoding="utf-8")
        (program.room / "body").write_bytes(SSHSIG)
        (program.room / "message").write_bytes(SIGNED_MESSAGE)
        for row in ROWS:
            try:
                row(program, tally)
            except (OSError, subprocess.SubprocessError) as error:
                tally.check(row.__name__, repr(error), "no error")
    print(f"program.py itself: {tally.passed} passed, {tally.failed} failed", flush=True)
    for name in ("help.py", "colour.py", "worked.py", "examples.py", "documents.py", "packaging.py", "review.py", "streamed.py", "page.py", "recipes.py", "refused_growth.py", "cut_vectors.py", "hostile.py"):
        other_check(name, tally, path)
    other_check("openssh.py", tally, "--audit", path)


def main():
    parser = argparse.ArgumentParser(description="Runs the built program from outside.")
    parser.add_argument("program", nargs="?", default=CRATE / "out" / "ssh_audit", type=pathlib.Path)
    parser.add_argument("--after", metavar="LOG", type=pathlib.Path, help="what rt ci printed, whose counts are added")
    asked = parser.parse_args()
    tally = Tally()
    try_all(asked.program.resolve(), tally)
    for name in ("codes.py", "explained.py", "manual_page.py", "completion.py", "closure.py", "memory_calls.py", "edits.py", "sentences.py"):
        other_check(name, tally)
    if asked.after is not None:
        for name in ("library_rows.py", "refused_calls.py", "sanitized.py"):
            other_check(name, tally)
        log = asked.after.read_text(errors="replace")
        passed, failed = counts_of(TOOK.sub("", log)) or (0, 1)
        tally.passed += passed
        tally.failed += failed
        # Of a long output often the end alone is kept.
        print("".join(TOOK.findall(log)), end="")
    print(f"{tally.passed} passed, {tally.failed} failed")
    return 1 if tally.failed else 0


if __name__ == "__main__":
    sys.exit(main())
