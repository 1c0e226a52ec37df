"""`review --key`: of worked files the records of one key, which are those of the whole review, by its fingerprint and by its
file; the statuses; and values that give no key."""
import collections
import hashlib
import json
import re

from program import found_text, review
from rows.admission_rows import K0_MARK, K1_MARK, admits, mark_of, security_key, standing
from rows.asking import as_bytes
from rows.keys import K0, K1, RSA, SK_NAME
from rows.user_certificates import X0

KEY = f"ssh-ed25519 {K0}"
OTHER = f"ssh-ed25519 {K1}"
CERTIFICATE = f"ssh-ed25519-cert-v01@openssh.com {X0} me\n"

# A file of each kind, and the lines that hold each of the two keys: entries, an authority, revocations, and lines that
# cannot be read, of which some hold a key.
AUTH = f"""# c
{KEY} me
{OTHER} other

restrict {KEY} again
cert-authority {KEY} ca
no-ptty {KEY} typo
no-ptty {OTHER} typo
ssh-dss AAAA
restrict {KEY[:-4]}
"""
KNOWN = f"""# c
h {KEY}
g {OTHER}
@cert-authority * {KEY}

@revoked * {KEY}
@revoked * {OTHER}
h,,g {KEY}
@revoked h,,g {KEY}
@revoked * ssh-ed25519
h {KEY[:-4]}
"""
FILES = [
    ("auth", AUTH, {K0_MARK: [2, 5, 6, 7], K1_MARK: [3, 8], mark_of(RSA): []}),
    ("known", KNOWN, {K0_MARK: [2, 4, 6, 8, 9], K1_MARK: [3, 7], mark_of(RSA): []}),
]
RECORD = re.compile(r"^f:(\d+): (.*)\n((?:    .*\n)*)", re.MULTILINE)


def end_text(name, content, lines=0, keys=0, unreadable=0, findings=0):
    return f"{name}: {counts_text(lines, keys, unreadable, findings)}, sha256 {hashlib.sha256(content).hexdigest()}\n"


def counts_text(lines, keys, unreadable, findings):
    return f"{lines} lines, {keys} key lines, {unreadable} unreadable, {findings} findings"


def total_counts_text(lines, keys, *others):
    """All key lines that are counted have the key that is sought."""
    return counts_text(lines, keys, *others).replace(" key lines, ", f" key lines, {min(keys, 1)} distinct keys, ")


def counts_of(records):
    """How many of these records are entries, how many are unreadable, and how many findings of each code they have."""
    kinds = [head.split(" ")[0] for _, head, _ in records]
    return (
        sum(kind in ("key", "authority") for kind in kinds),
        sum(kind in ("unreadable", "revocation-unreadable") for kind in kinds),
        collections.Counter(code for _, _, rest in records for code in re.findall(r"^    (F\d+)", rest, re.MULTILINE)),
    )


def prints_the_records_of_the_key(asker):
    """They are the same bytes as in the whole review, and the ends count them alone."""
    for kind, file, marks in FILES:
        for findings in ("all", "none", "F3,F4,F12"):
            _, answer, _ = asker.printed(review("f", kind=kind, findings=findings), file)
            whole = RECORD.findall(answer.decode())
            for mark, lines in marks.items():
                records = [record for record in whole if mark in record[1].split(" ")]
                asker.check(f"lines of {mark} in {kind}", [int(number) for number, _, _ in records], lines)
                *counts, found = file.count("\n"), *counts_of(records)
                counts.append(sum(found.values()))
                text = "".join(f"f:{number}: {head}\n{rest}" for number, head, rest in records)
                wanted = text + end_text("f", file.encode(), *counts) + found_text(found) + f"total: 1 files, 0 faults, {total_counts_text(*counts)}"
                status, answer, errors = asker.program.run(review("f", kind=kind, findings=findings, key=mark))
                asker.check(f"{mark} in {kind} with {findings}", (status, answer.decode()[: len(wanted)], errors), (1 if lines else 0, wanted, b""))


def prints_json_alike(asker):
    for kind, file, marks in FILES:
        _, answer, _ = asker.printed(review("f", kind=kind, form="json"), file)
        whole = [line for line in answer.decode().splitlines() if "line" in json.loads(line)]
        for mark, lines in marks.items():
            status, answer, errors = asker.program.run(review("f", kind=kind, form="json", key=mark))
            printed = answer.decode().splitlines()
            asker.check(f"{mark} in {kind} as JSON", (status, printed[:-2], errors), (1 if lines else 0, [line for line in whole if json.loads(line)["key"] == mark], b""))
            end, total = map(json.loads, printed[-2:])
            asker.check(f"the ends of {mark} in {kind}", (end["what"], end["lines"], end["key_lines"] + end["unreadable"] <= len(lines), total["what"]), ("end", file.count("\n"), True, "total"))


def takes_the_key_of_a_file(asker):
    """A plain key, a certificate of it, and standard input; and the file is read before the others."""
    keys = {"k.pub": f"{KEY} me\n{OTHER}\n", "k-cert.pub": CERTIFICATE, "bare": f" \t{KEY}\r\n", "SHA256:k": f"{KEY}\n"}
    with standing(asker, keys):
        for kind, file, _ in FILES:
            wanted = asker.printed(review("f", kind=kind, key=K0_MARK), file)
            for name in ("k.pub", "k-cert.pub", "bare", "./SHA256:k"):
                asker.check(f"{name} in {kind}", asker.program.run(review("f", kind=kind, key=name)), wanted)
            asker.check(f"standard input in {kind}", asker.program.run(review("f", kind=kind, key="-"), keys["k.pub"].encode()), wanted)
            status, answer, errors = asker.program.run(review("-", kind=kind, key="-"), as_bytes(f"{KEY}\n{file}"))
            asker.check(f"standard input twice in {kind}", (status, answer.decode().split("total: ")[0], errors), (0, end_text("-", b""), b""))


def has_one_status_over_several_files(asker):
    for kind, file, _ in FILES:
        here = asker.printed(review("f", kind=kind, key=K0_MARK), file)[1].decode()
        with standing(asker, {"empty": ""}):
            for names, status in ((["empty"], 0), (["empty", "f"], 1), (["f", "empty"], 1), (["f", "missing"], 2), (["missing", "f"], 2), (["missing"], 2)):
                found, answer, errors = asker.program.run(review(*names, kind=kind, key=K0_MARK))
                asker.check(f"{names} in {kind}", (found, errors), (status, b""))
                parts = [here[: here.index("\nF") + 1] if name == "f" else f"{name}: fault A9: not found\n" if name == "missing" else end_text(name, b"") for name in names]
                asker.check(f"what is printed of {names} in {kind}", re.split(r"^(?:F\d+|total): ", answer.decode(), maxsplit=1, flags=re.MULTILINE)[0], "".join(parts))


def finds_the_key_that_openssh_reads(asker):
    """A security key's application that ends in NUL: the fingerprint is that of ssh-keygen, in a line and in the key's file."""
    read, written = security_key(b"ssh:"), security_key(b"ssh:\0")
    with standing(asker, {"k": f"{SK_NAME} {written}\n"}):
        for kind, names in (("auth", ""), ("known", "h ")):
            whole = asker.printed(review("f", kind=kind), f"{names}{SK_NAME} {written}\n")[1]
            for key, wanted in ((mark_of(read), True), ("k", True), (mark_of(written), False)):
                status, answer, errors = asker.program.run(review("f", kind=kind, key=key))
                asker.check(f"{key} in {kind}", (status, answer == whole, errors), (1 if wanted else 0, wanted, b""))


def refuses_what_is_no_fingerprint(asker):
    """What begins as a fingerprint names no file, also where a file has this name."""
    with standing(asker, {"SHA256:k": KEY}):
        for value in ("SHA256:", "SHA256:k", K0_MARK[:-1], K0_MARK + "=", K0_MARK[:-1] + "l", K0_MARK[:-1] + "-", K0_MARK + " ", K0_MARK[:-2] + "==", "SHA256:" + 43 * "/"):
            asker.check(value, asker.printed(review("f", key=value), AUTH), (2, b"fault value key\n", b""))
    for given in ({"kind": "x"}, {"now": "x"}, {"findings": "x"}, {"form": "x"}):
        option = next(iter(given))
        asker.check(f"{option} before the key", asker.printed(review("f", key="SHA256:", **given), AUTH), (2, f"fault value {option}\n".encode(), b""))


def tells_the_faults_of_the_key_file(asker):
    """They are those of `admits`, and nothing else is printed."""
    asker.check("missing", asker.printed(review("f", key="k"), AUTH), (2, b"fault file k\n", b""))
    for text in ("", "# c\n", "ssh-dss AAAA\n", "ssh-ed25519\n", "ssh-ed25519 AAA!\n", f"ssh-rsa {K0}\n", f"ssh-ed25519 {X0}\n", CERTIFICATE[:-20], f"h {KEY}\n", f"restrict {KEY}\n"):
        with standing(asker, {"k": text}):
            found, told = asker.printed(review("f", key="k"), AUTH), asker.program.run(admits("f"))
            asker.check(f"{text[:40]!r}", (found, found[0], found[1][:6]), (told, 2, b"fault "))


TESTS = (
    prints_the_records_of_the_key, prints_json_alike, takes_the_key_of_a_file, has_one_status_over_several_files,
    finds_the_key_that_openssh_reads, refuses_what_is_no_fingerprint, tells_the_faults_of_the_key_file,
)
