"""`admits` and `trusts` on worked rows: what is told of each file, the status over several files, standard input by more
names than one, and each option. The key's file is `k`; a name that is no file here is missing."""
import base64
import contextlib
import hashlib
import json

from program import asked_at, asked_by, review
from rows.asking import as_bytes
from rows.host_certificates import ANY_HOST, X1
from rows.keys import K0, K1, RSA
from rows.user_certificates import NO_PRINCIPALS, X0

KEY = f"ssh-ed25519 {K0} me\n"
OTHER_KEY = f"ssh-ed25519 {K1} me\n"
RSA_KEY = f"ssh-rsa {RSA}\n"
CERTIFIED = "ssh-ed25519-cert-v01@openssh.com"
AUTHORITY = f"cert-authority {OTHER_KEY}"
HOST_AUTHORITY = f"@cert-authority h {OTHER_KEY}"

K0_MARK = "SHA256:kmYcvdi2GkPeWxB6XLjrZB8JHsy2Hm8luHMFp9GMvqk"
PROGRAM = "ssh_audit 1.0.0"
K1_MARK = "SHA256:gOPgXFWkBoXrFVwpjf0SBo3P1kFs+IvH5q/vnQhNpFw"

# What follows the name of a file: a plain key that gets in, a host's that is trusted, and either that is kept out.
ADMITTED = "admits by line 1, if the client's signature is good\n    rights port agent x11 pty rc\n"
TRUSTED = "trusts by line 1, if the host's signature is good\n"
NOT_ADMITTED = f"does not admit: N3: no line admits the offer\n    looked for {K0_MARK}\n"
NOT_TRUSTED = f"does not trust: N3: no line admits the offer\n    looked for {K0_MARK}\n"
CHANGED = f"    line 1 names the host with another key of this type, {K1_MARK}\n"
UNREAD = "fault A9\n"


@contextlib.contextmanager
def standing(asker, files):
    """These files, by name, for as long as they are asked about."""
    for name, text in files.items():
        (asker.program.room / name).write_bytes(as_bytes(text))
    yield
    for name in files:
        (asker.program.room / name).unlink()


def admits(*names, key="k", user="ann", address="192.0.2.1", now="150", **more):
    return asked("admits", names, {"key": key, "user": user, "address": address, "now": now, **more})


def trusts(*names, key="k", host="h", now="150", **more):
    return asked("trusts", names, {"key": key, "host": host, "now": now, **more})


def asked(subcommand, names, given):
    options = [word for name, value in given.items() for word in ("--" + name.replace("_", "-"), value)]
    return [subcommand, *options, *names]


def told(*answers):
    """What is printed: of each file its name, and what is told of it."""
    return "".join(f"{name}: {answer}" for name, answer in answers)


def compare(asker, words, stdin, wanted, status):
    wanted += asked_by(words) if words[0] != "review" else ""
    asker.check(" ".join(words)[:300], asker.program.run(words, as_bytes(stdin)), (status, wanted.encode(), b""))


# What is answered of a file, and of another: a grant, a denial, a fault. A grant outdoes a denial, and a fault outdoes both,
# in any order.
PAIRS = [
    ("granted", "granted", 0), ("granted", "denied", 0), ("granted", "missing", 2),
    ("denied", "granted", 0), ("denied", "denied", 1), ("denied", "missing", 2),
    ("missing", "granted", 2), ("missing", "denied", 2), ("missing", "missing", 2),
]
KINDS = [
    (admits, KEY, OTHER_KEY, {"granted": ADMITTED, "denied": NOT_ADMITTED, "missing": UNREAD}),
    (trusts, f"h {KEY}", f"h {OTHER_KEY}", {"granted": TRUSTED, "denied": NOT_TRUSTED + CHANGED, "missing": UNREAD}),
]


def has_one_status_over_several_files(asker):
    for words, good, bad, answers in KINDS:
        with standing(asker, {"k": KEY, "granted": good, "denied": bad}):
            for name, answer in answers.items():
                compare(asker, words(name), "", told((name, answer)), {"granted": 0, "denied": 1, "missing": 2}[name])
            for first, second, status in PAIRS:
                compare(asker, words(first, second), "", told((first, answers[first]), (second, answers[second])), status)
            for order, status in ((["denied", "granted", "denied"], 0), (["missing", "denied", "granted"], 2), (["granted", "missing", "granted"], 2)):
                compare(asker, words(*order), "", told(*((name, answers[name]) for name in order)), status)


def reads_standard_input_once(asker):
    """The first file that is standard input takes all of it, also where the key is its first line; a later one is empty."""
    for words, line, grant, denial in ((admits, KEY, ADMITTED, NOT_ADMITTED), (trusts, f"h {KEY}", TRUSTED, NOT_TRUSTED)):
        with standing(asker, {"k": KEY, "granted": line}):
            compare(asker, words("-", "-"), line, told(("-", grant), ("-", denial)), 0)
            compare(asker, words("-", "granted", "-"), line, told(("-", grant), ("granted", grant), ("-", denial)), 0)
            compare(asker, words("-", key="-"), KEY + line, told(("-", denial)), 1)
            compare(asker, words("-", "-", key="-"), KEY + line + line, told(("-", denial), ("-", denial)), 1)
            compare(asker, words("-", "granted", key="-"), KEY + line, told(("-", denial), ("granted", grant)), 0)
            compare(asker, words("./-", "-"), line, told(("./-", UNREAD), ("-", grant)), 2)


def reviews_standard_input_once(asker):
    """The first `-` of a review takes all of it, and a later one has no lines."""
    for kind, line in (("auth", KEY), ("known", f"h {KEY}")):
        once = asker.program.run(review("-", kind=kind, findings="none"), line.encode())[1].decode()
        none = asker.program.run(review("-", kind=kind, findings="none"))[1].decode()
        wanted = without_total(once) + without_total(none) + f"total: 2 files, 0 faults, 1 lines, 1 key lines, 1 distinct keys, 0 unreadable, 0 findings, {asked_at()}\n"
        asker.check("one key", once.count(K0_MARK), 1)
        compare(asker, review("-", "-", kind=kind, findings="none"), line, wanted, 0)


def without_total(text):
    return text.partition("total: ")[0]


# The certificate of X0 is K0's by K1 for `ann`, X1 the host's `h`; both are in force from 100 on and before 200.
SIGNED = "if the client's and the signer's signatures are good\n"
SIGNED_OF_HOST = "if the host's and the signer's signatures are good\n"
ELSEWHERE = '    line 1 has this key, but not for this host and port; names "g"\n'
LOOKED_FOR_SIGNER = f"    looked for the certificate's signer {K1_MARK}\n"
OF_CERTIFICATES = [
    (admits(), X0, AUTHORITY, f"admits by line 1, {SIGNED}    rights none\n", 0),
    (admits(), X0, KEY, f"does not admit: N3: no line admits the offer\n{LOOKED_FOR_SIGNER}", 1),
    (admits(), X0, "", f"does not admit: N3: no line admits the offer\n{LOOKED_FOR_SIGNER}", 1),
    (trusts(), X1, HOST_AUTHORITY, f"trusts by line 1, {SIGNED_OF_HOST}", 0),
    (trusts(), X1, f"g {KEY}", f"does not trust: N3: no line admits the offer\n{LOOKED_FOR_SIGNER}{ELSEWHERE}", 1),
    (trusts(), X1, "", f"does not trust: N3: no line admits the offer\n{LOOKED_FOR_SIGNER}", 1),
]


def tells_of_certificates(asker):
    """Both signatures are told that have to be good, and that the signer's key was looked for, not the certified one."""
    for words, certificate, file, answer, status in OF_CERTIFICATES:
        with standing(asker, {"k": f"{CERTIFIED} {certificate} me\n", "t": file}):
            compare(asker, [*words, "t"], "", told(("t", answer)), status)


def blob(*fields):
    """The base64 of fields, each a string of the SSH protocols (RFC 4251 section 5)."""
    return base64.b64encode(b"".join(len(field).to_bytes(4, "big") + field for field in fields)).decode()


def rsa_key(bits):
    """The line of an RSA key of so many bits."""
    modulus = (2 ** (bits - 1) + 1).to_bytes(bits // 8 + 1, "big")
    return f"ssh-rsa {blob(b'ssh-rsa', bytes([1, 0, 1]), modulus)}\n"


# The keys of K0 and K1 with another word for their type in the blob, which ssh reads as the same keys (sshkey.c,
# sshkey_type_from_name). A revocation counts here for the bytes that it has.
RESPELLED = f"ssh-ed25519 {blob(b'ED25519', bytes(32))}\n"
OTHER_RESPELLED = f"ssh-ed25519 {blob(b'ED25519', bytes(31) + bytes([1]))}\n"
HOST_CERTIFICATE = f"{CERTIFIED} {X1} me\n"

# A known_hosts file that trusts a key here, the line that does so, and what is told of ssh: of lines that it may pass over
# (an item of 1,023 bytes, a NUL in the names, an RSA key of fewer than 1,024 bits, a tab or another marker after a marker),
# and of revocations that it counts, a certificate's among them.
OF_SSH = [
    (KEY, f"h,{1023 * 'x'} {KEY}", 1, ["ssh may refuse line 1", "no other line trusts it"]),
    (KEY, f"h,{1022 * 'x'} {KEY}", 1, []),
    (KEY, f"h,\0 {KEY}", 1, ["ssh may refuse line 1", "no other line trusts it"]),
    (rsa_key(1000), f"h {rsa_key(1000)}", 1, ["ssh may refuse line 1", "no other line trusts it"]),
    (rsa_key(1023), f"h {rsa_key(1023)}", 1, ["ssh may refuse line 1", "no other line trusts it"]),
    (rsa_key(1024), f"h {rsa_key(1024)}", 1, []),
    (KEY, f"h,\0 {KEY}h {KEY}", 1, ["ssh may refuse line 1", "line 2 decides then"]),
    (KEY, f"h {KEY}h,\0 {KEY}", 1, []),
    (KEY, f"h,\0 {KEY}h,\0 {KEY}", 1, ["ssh may refuse line 1", "no other line trusts it"]),
    (KEY, f"g {KEY}h,{1023 * 'x'} {KEY}# h\nh {KEY}", 2, ["ssh may refuse line 2", "line 4 decides then"]),
    (KEY, f"h,\0 {KEY}h {OTHER_KEY}", 1, ["ssh may refuse line 1", "no other line trusts it"]),
    (KEY, f"h {KEY}@revoked h {RESPELLED}", 1, ["ssh may take the key as revoked by line 2"]),
    (KEY, f"@revoked h {RESPELLED}h {KEY}", 2, ["ssh may take the key as revoked by line 1"]),
    (KEY, f"h {KEY}@revoked h {RESPELLED}@revoked h {RESPELLED}", 1, ["ssh may take the key as revoked by line 2"]),
    (KEY, f"h {KEY}@revoked g {RESPELLED}", 1, []),
    (KEY, f"h {KEY}@revoked h {OTHER_RESPELLED}", 1, []),
    (KEY, f"h {KEY}@revoked\th {RESPELLED}", 1, []),
    (
        KEY,
        f"h,\0 {KEY}h {KEY}@revoked h {RESPELLED}",
        1,
        ["ssh may refuse line 1", "line 2 decides then", "ssh may take the key as revoked by line 3"],
    ),
    (HOST_CERTIFICATE, f"@cert-authority h,\0 {OTHER_KEY}", 1, ["ssh may refuse line 1", "no other line trusts it"]),
    (
        HOST_CERTIFICATE,
        f"@cert-authority h,\0 {OTHER_KEY}{HOST_AUTHORITY}",
        1,
        ["ssh may refuse line 1", "line 2 decides then"],
    ),
    (HOST_CERTIFICATE, f"@cert-authority\th {OTHER_KEY}", 1, ["ssh may refuse line 1", "no other line trusts it"]),
    (
        HOST_CERTIFICATE,
        f"@cert-authority\th {OTHER_KEY}{HOST_AUTHORITY}",
        1,
        ["ssh may refuse line 1", "line 2 decides then"],
    ),
    (HOST_CERTIFICATE, f"{HOST_AUTHORITY}@cert-authority\th {OTHER_KEY}", 1, []),
    (HOST_CERTIFICATE, f"@cert-authority @x,h {OTHER_KEY}", 1, ["ssh may refuse line 1", "no other line trusts it"]),
    (HOST_CERTIFICATE, f"{HOST_AUTHORITY}@revoked h {OTHER_RESPELLED}", 1, ["ssh may take the key as revoked by line 2"]),
    (HOST_CERTIFICATE, f"{HOST_AUTHORITY}@revoked h {RESPELLED}", 1, ["ssh may take the key as revoked by line 2"]),
    (KEY, f"h {KEY}@revoked h {HOST_CERTIFICATE}", 1, ["ssh may take the key as revoked by line 2"]),
    (KEY, f"h {KEY}@revoked g {HOST_CERTIFICATE}", 1, []),
    (KEY, f"h {KEY}@revoked h ssh-ed25519 {X1}\n", 1, []),
    (OTHER_KEY, f"h {OTHER_KEY}@revoked h {HOST_CERTIFICATE}", 1, []),
    (HOST_CERTIFICATE, f"{HOST_AUTHORITY}@revoked h {HOST_CERTIFICATE}", 1, ["ssh may take the key as revoked by line 2"]),
]


def tells_what_ssh_may_refuse(asker):
    """A line that trusts here, and the lines by which ssh may not: the status stays 0."""
    for key, file, line, lines in OF_SSH:
        signed = SIGNED_OF_HOST if key == HOST_CERTIFICATE else "if the host's signature is good\n"
        answer = f"trusts by line {line}, {signed}" + "".join(f"    {told_line}\n" for told_line in lines)
        with standing(asker, {"k": key, "t": file}):
            compare(asker, [*trusts(), "t"], "", told(("t", answer)), 0)


SECURITY = "sk-ssh-ed25519@openssh.com"


def security_key(application):
    """The base64 of a security key for this application."""
    return blob(SECURITY.encode(), bytes(32), application)


def mark_of(text):
    return "SHA256:" + base64.b64encode(hashlib.sha256(base64.b64decode(text)).digest()).decode().rstrip("=")


# The application of a key, and what OpenSSH reads of it: it drops one NUL at the end (sshbuf-getput-basic.c,
# sshbuf_get_cstring), and reads no key where another stays.
APPLICATIONS = [(b"ssh:", b"ssh:"), (b"ssh:\0", b"ssh:"), (b"\0", b""), (b"ssh:\0\0", b"ssh:\0\0"), (b"s\0h:\0", b"s\0h:\0")]


def lists_the_key_that_openssh_reads(asker):
    for kind, names in (("auth", ""), ("known", "h ")):
        for application, read in APPLICATIONS:
            line = f"{names}{SECURITY} {security_key(application)}\n"
            answer = asker.program.run(review("-", kind=kind, findings="none"), line.encode())[1].decode()
            found = [word for word in answer.split() if word.startswith("SHA256:")]
            asker.check(f"review of {application} in {kind}", found, [mark_of(security_key(read))])


def finds_the_key_that_openssh_reads(asker):
    """A key is asked for, and the file has it with another application: OpenSSH may read this key all the same."""
    sought = security_key(b"ssh:")
    for words, names, denied, may in ((admits, "", NOT_ADMITTED, "OpenSSH may let it in"), (trusts, "h ", NOT_TRUSTED, "ssh may trust it")):
        for application, reads in ((b"ssh:\0", True), (b"ssh:\0\0", False), (b"ssh;\0", False), (b"ssh", False)):
            other = security_key(application)
            answer = denied.replace(K0_MARK, mark_of(sought))
            if words is trusts:
                answer += f"    line 1 names the host with another key of this type, {mark_of(other)}\n"
            if reads:
                answer += f"    {may} by line 1: OpenSSH drops a NUL of its application, and reads this key\n"
            files = {"k": f"{SECURITY} {sought}\n", "t": f"{names}{SECURITY} {other}\n"}
            with standing(asker, files):
                compare(asker, [*words(), "t"], "", told(("t", answer)), 3 if reads else 1)


IN, OUT = "admits by line 1, ", "does not admit: N3: "
TRUSTS, MISTRUSTS = "trusts by line 1, ", "does not trust: N3: "
CERTIFICATE = f"{CERTIFIED} {X0} me\n"
FOR_ANYBODY = f"{CERTIFIED} {NO_PRINCIPALS} me\n"
FOR_ANY_HOST = f"{CERTIFIED} {ANY_HOST} me\n"
FAR = f"[h]:2222 {KEY}"
# Two hours after it came in UTC, New Year has not come yet five hours to the west.
LOCAL = f'expiry-time="20260101" {KEY}'
LATE = "1767232800"

# A key's file, a trust file, the question, and what follows the trust file's name: each option as it changes the answer.
OPTIONS = [
    (KEY, f'from="*.example" {KEY}', admits(host="a.example"), IN),
    (KEY, f'from="*.example" {KEY}', admits(host="a.other"), OUT),
    (KEY, f'from="UTC0" {KEY}', admits(zone="UTC0", host="a.other"), OUT),
    (KEY, LOCAL, admits(now=LATE), OUT),
    (KEY, LOCAL, admits(now=LATE, zone="EST5"), IN),
    (KEY, LOCAL, admits(now=LATE, host="EST5"), OUT),
    (FOR_ANYBODY, AUTHORITY, admits(), IN),
    (FOR_ANYBODY, AUTHORITY, admits(empty_principals="any"), IN),
    (FOR_ANYBODY, AUTHORITY, admits(empty_principals="never"), OUT),
    (CERTIFICATE, AUTHORITY, admits(empty_principals="never"), IN),
    (CERTIFICATE, AUTHORITY, admits(user="bob"), OUT),
    (CERTIFICATE, AUTHORITY, admits(now="200"), OUT),
    (RSA_KEY, RSA_KEY, admits(), IN),
    (RSA_KEY, RSA_KEY, admits(rsa_minimum="8"), IN),
    (RSA_KEY, RSA_KEY, admits(rsa_minimum="9"), OUT),
    (KEY, f'from="192.0.2.0/24" {KEY}', admits(), IN),
    (KEY, f'from="192.0.2.0/24" {KEY}', admits(address="192.0.3.1"), OUT),
    (KEY, f"h {KEY}", trusts(), TRUSTS),
    (KEY, f"h {KEY}", trusts(host="g"), MISTRUSTS),
    (KEY, FAR, trusts(), MISTRUSTS),
    (KEY, FAR, trusts(port="2222"), TRUSTS),
    (KEY, FAR, trusts(port="22"), MISTRUSTS),
    (FOR_ANY_HOST, HOST_AUTHORITY, trusts(), TRUSTS),
    (FOR_ANY_HOST, HOST_AUTHORITY, trusts(empty_principals="any"), TRUSTS),
    (FOR_ANY_HOST, HOST_AUTHORITY, trusts(empty_principals="never"), MISTRUSTS),
    (HOST_CERTIFICATE, HOST_AUTHORITY, trusts(empty_principals="never"), TRUSTS),
    (HOST_CERTIFICATE, HOST_AUTHORITY, trusts(now="200"), MISTRUSTS),
    (RSA_KEY, f"h {RSA_KEY}", trusts(), TRUSTS),
    (RSA_KEY, f"h {RSA_KEY}", trusts(rsa_minimum="8"), TRUSTS),
    (RSA_KEY, f"h {RSA_KEY}", trusts(rsa_minimum="9"), MISTRUSTS),
]


def asks_by_each_option(asker):
    for key, file, words, wanted in OPTIONS:
        with standing(asker, {"k": key, "t": file}):
            _, answer, errors = asker.program.run([*words, "t"])
            found = answer.decode()[: len("t: " + wanted)], errors
            asker.check(f"{' '.join(words)} of {file[:60]}", found, ("t: " + wanted, b""))


# A key's file, a trust file, the question, the code of the reason on line 1, and what was compared.
COMPARED = [
    (CERTIFICATE, AUTHORITY, admits(user="bob"), "G12", '; user "bob"; principal "ann"'),
    (CERTIFICATE, f'cert-authority,principals="ops,dev" {OTHER_KEY}', admits(), "G12", '; principals "ops,dev"; principal "ann"'),
    (CERTIFICATE, AUTHORITY, admits(now="99"), "G10", "; start 100 1970-01-01T00:01:40Z; now 99 1970-01-01T00:01:39Z"),
    (CERTIFICATE, AUTHORITY, admits(now="200"), "G11", "; end 200 1970-01-01T00:03:20Z; now 200 1970-01-01T00:03:20Z"),
    (HOST_CERTIFICATE, HOST_AUTHORITY, trusts(now="200"), "G11", "; end 200 1970-01-01T00:03:20Z; now 200 1970-01-01T00:03:20Z"),
    (HOST_CERTIFICATE, f"@cert-authority * {OTHER_KEY}", trusts(host="g"), "G12", '; host "g"; principal "h"'),
    (RSA_KEY, RSA_KEY, admits(rsa_minimum="9"), "G20", "; at least 9 bits"),
    (RSA_KEY, f"h {RSA_KEY}", trusts(rsa_minimum="9"), "G20", "; at least 9 bits"),
    (KEY, f'from="*.example" {KEY}', admits(host="a.other"), "G8", '; from "*.example"; address "192.0.2.1"; host "a.other"'),
    (KEY, f"cert-authority {KEY}", admits(), "G3", "and the line is cert-authority"),
]


def tells_what_was_compared(asker):
    for key, file, words, code, compared in COMPARED:
        with standing(asker, {"k": key, "t": file}):
            _, answer, _ = asker.program.run([*words, "t"])
            found = [line for line in answer.decode().splitlines() if line.startswith(f"    1 {code}: ")]
            asker.check(f"{' '.join(words)} of {file[:60]}: {found}", [line.endswith(compared) for line in found], [True])


# The options of a security key's line, and what the key has to show.
SHOWN = [
    ("", "has to be touched"),
    ("no-touch-required ", "need not be touched"),
    ("verify-required ", "has to be touched, and to verify its user by PIN or biometrics"),
    ("no-touch-required,verify-required ", "has to verify its user by PIN or biometrics"),
]


def tells_what_a_security_key_has_to_show(asker):
    line = f"{SECURITY} {security_key(b'ssh:')}\n"
    for options, shown in SHOWN:
        with standing(asker, {"k": line, "t": options + line}):
            compare(asker, [*admits(), "t"], "", told(("t", f"{ADMITTED}    the security key {shown}\n")), 0)


# The fields of an answer in JSON, in their order, as they are where a file has a fault.
NO_ANSWER = {
    "file": "t", "what": "answer", "asked": "admits", "answer": "fault", "line": None, "rights": None, "command": None, "carry": [],
    "cause": None, "number": None, "key": None, "signer": False, "reasons": [], "notes": [], "fault": None,
}
LET_IN = {"answer": "granted", "line": 1, "rights": "port agent x11 pty rc", "key": K0_MARK}
LEFT_OUT = {"answer": "denied", "cause": "N3", "key": K0_MARK}

# A key's file, a trust file, the question, the status, and the fields that are others.
IN_JSON = [
    (KEY, KEY, admits(), 0, LET_IN),
    (KEY, f'command="a\\"b",no-pty,permitopen="h:1" {KEY}', admits(), 0,
     {**LET_IN, "rights": "port agent x11 rc", "command": 'a"b', "carry": ["permitopen h:1"]}),
    (KEY, OTHER_KEY, admits(), 1, LEFT_OUT),
    (KEY, f"restrict {KEY}", admits(), 0, {**LET_IN, "rights": "none"}),
    (CERTIFICATE, AUTHORITY, admits(user="bob"), 1,
     {**LEFT_OUT, "key": K1_MARK, "signer": True, "reasons": [{"line": 1, "code": "G12", "detail": ""}], "notes": 1}),
    (KEY, f"x {KEY}", admits(), 3, {**LEFT_OUT, "answer": "open", "reasons": [{"line": 1, "code": "G1", "detail": "L3"}], "notes": 2}),
    (KEY, KEY, admits(address="nowhere"), 2, None),
    (KEY, f"h {KEY}", trusts(), 0, {"asked": "trusts", "answer": "granted", "line": 1, "key": K0_MARK}),
    (KEY, f"h {KEY}@revoked * {KEY}", trusts(), 1, {"asked": "trusts", "answer": "denied", "cause": "N1", "number": 2, "key": K0_MARK}),
    (KEY, None, admits(), 2, {"fault": "A9"}),
]


def answers_in_json(asker):
    for key, file, words, status, fields in IN_JSON:
        files = {"k": key} if file is None else {"k": key, "t": file}
        with standing(asker, files):
            found, answer, _ = asker.program.run([*words, "--form", "json", "t"])
        asker.check(f"status of {file}", found, status)
        if fields is None:
            asker.check("a refused offer", answer, b"fault A6\n")
            continue
        one, total = [json.loads(line) for line in answer.decode().splitlines()]
        wanted = {**NO_ANSWER, **fields}
        if isinstance(wanted["notes"], int):
            one["notes"] = len(one["notes"])
        asker.check(f"fields of {file}", list(one), list(NO_ANSWER))
        asker.check(f"answer in JSON on {file}", one, wanted)
        at = {"now": int(words[words.index("--now") + 1]), "zone": "UTC0" if wanted["asked"] == "admits" else None}
        at["at"] = asked_at(at["now"]).split()[3].rstrip(",")
        asker.check("total", total, {"what": "total", "format": 2, "program": PROGRAM, "asked": wanted["asked"], **at, "files": 1, "status": status})
        asker.check("fields of the total", list(total), ["what", "format", "program", "asked", "now", "at", "zone", "files", "status"])


TESTS = (
    has_one_status_over_several_files, reads_standard_input_once, reviews_standard_input_once, tells_of_certificates,
    tells_what_ssh_may_refuse, lists_the_key_that_openssh_reads, finds_the_key_that_openssh_reads, asks_by_each_option,
    tells_what_was_compared, tells_what_a_security_key_has_to_show, answers_in_json,
)
