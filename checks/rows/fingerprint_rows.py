"""`admits --fingerprint` on worked rows: where a file holds a key of the fingerprint, the answer is that of `admits --key` with
the file of that key, in text and in JSON; where it holds none, what is told; and which values and pairs of options are
refused."""
import json

from rows.admission_rows import (
    ADMITTED, CERTIFICATE, K0_MARK, K1_MARK, KEY, NO_ANSWER, OTHER_KEY, RSA_KEY, SECURITY, UNREAD, admits, asked, compare, mark_of, security_key,
    standing, told,
)

SOUGHT = f"{SECURITY} {security_key(b'ssh:')}\n"
HELD_WITH_NUL = f"{SECURITY} {security_key(b'ssh:' + bytes(1))}\n"
RETIRED = "ssh-dss AAAA\n"
ABSENT = "does not admit: N3: no line holds a key of this fingerprint\n"
UNTOLD = "    OpenSSH may let it in by line {}: no key can be told of it, and it cannot be read here\n"

# The file of a key, and a trust file that holds the key: on a line that can be read, on one that cannot, under an authority,
# on a later line, on several, with conditions that are not met, and as the key that OpenSSH reads on a line of another.
HELD = [
    (KEY, KEY),
    (KEY, f"# Ann\n\n{OTHER_KEY}{KEY}"),
    (KEY, f'from="10.0.0.0/8" {KEY}restrict,pty,command="backup" {KEY}'),
    (KEY, f'from="10.0.0.0/8" {KEY}'),
    (KEY, f"no-ptty {KEY}"),
    (KEY, f"no-ptty {KEY}{KEY}"),
    (KEY, f"{RETIRED}{OTHER_KEY}no-ptty {KEY}"),
    (KEY, f"{RETIRED}{KEY}"),
    (KEY, f"cert-authority {KEY}"),
    (KEY, f'expiry-time="19700101" {KEY}'),
    (KEY, f'restrict,permitopen="none" {KEY}{KEY}'),
    (KEY, f"verify-required {KEY}"),
    (RSA_KEY, RSA_KEY),
    (SOUGHT, SOUGHT),
    (SOUGHT, HELD_WITH_NUL),
    (SOUGHT, f"{HELD_WITH_NUL}{SOUGHT}"),
    (HELD_WITH_NUL, HELD_WITH_NUL),
    (HELD_WITH_NUL, f"{SOUGHT}no-touch-required {HELD_WITH_NUL}"),
]
# Files that hold no key of KEY's fingerprint, and what is told of them.
NONE = [
    ("", ABSENT, 1),
    ("# only a comment\n\n", ABSENT, 1),
    (OTHER_KEY, ABSENT, 1),
    (f"no-ptty {OTHER_KEY}", ABSENT, 1),
    (f"# {KEY}", ABSENT, 1),
    (f"cert-authority {OTHER_KEY}{CERTIFICATE}", ABSENT + UNTOLD.format(2), 3),
    (f"{OTHER_KEY}{RETIRED}", ABSENT + UNTOLD.format(2), 3),
    (RETIRED * 101, ABSENT + "".join(UNTOLD.format(line) for line in range(1, 101)) + "    .. and more\n", 3),
]
OPTIONS = [{}, {"form": "json"}, {"address": "10.1.1.1"}, {"rsa_minimum": "9"}, {"now": "0", "zone": "EST5"}, {"user": "bob", "host": "a.example"}]


def fingerprint(mark, *names, **more):
    return asked("admits", names, {"fingerprint": mark, "user": "ann", "address": "192.0.2.1", "now": "150", **more})


def mark(line):
    """The fingerprint of the key on a line."""
    return mark_of(line.split()[1])


def answers_as_for_the_key(asker):
    """Text, status and what goes to standard error are those of the key's file."""
    for key, file in HELD:
        with standing(asker, {"k": key, "t": file}):
            for more in OPTIONS:
                wanted = asker.program.run(admits("t", **more))
                asker.check(f"{file[:60]} {more}", asker.program.run(fingerprint(mark(key), "t", **more)), wanted)


def tells_where_no_line_holds_it(asker):
    for file, answer, status in NONE:
        with standing(asker, {"t": file}):
            compare(asker, fingerprint(K0_MARK, "t"), "", told(("t", answer)), status)
            compare(asker, fingerprint(K0_MARK, "-"), file, told(("-", answer)), status)


def tells_so_in_json(asker):
    for file, answer, status in NONE:
        with standing(asker, {"t": file}):
            found, printed, _ = asker.program.run(fingerprint(K0_MARK, "t", form="json"))
        asker.check(f"status on {file[:60]}", found, status)
        one, total = [json.loads(line) for line in printed.decode().splitlines()]
        notes = [line[4:] for line in answer.splitlines()[1:]]
        wanted = {**NO_ANSWER, "answer": "open" if status == 3 else "denied", "cause": "N3", "notes": notes}
        asker.check(f"fields on {file[:60]}", list(one), list(NO_ANSWER))
        asker.check(f"object on {file[:60]}", one, wanted)
        asker.check(f"total on {file[:60]}", (total["files"], total["status"]), (1, status))


def has_one_status_over_several_files(asker):
    """Each file is asked about the key that it holds; a fault outdoes a grant, and a grant what is open or denied."""
    files = {"granted": KEY, "denied": OTHER_KEY, "open": RETIRED}
    answers = {"granted": ADMITTED, "denied": ABSENT, "open": ABSENT + UNTOLD.format(1), "missing": UNREAD}
    orders = [
        (["granted", "denied"], 0), (["denied", "granted", "open"], 0), (["denied", "denied"], 1), (["denied", "open"], 3), (["open", "denied"], 3),
        (["missing", "granted"], 2), (["granted", "missing"], 2), (["missing", "denied", "missing"], 2), (["missing"], 2),
    ]
    with standing(asker, files):
        for order, status in orders:
            compare(asker, fingerprint(K0_MARK, *order), "", told(*((name, answers[name]) for name in order)), status)
        compare(asker, fingerprint(K0_MARK, "-", "-"), KEY, told(("-", ADMITTED), ("-", ABSENT)), 0)


# Texts that are no fingerprint: of another digest, cut, longer, padded, with bits past the last byte, and none.
BAD = ["", "SHA256:", K0_MARK[7:], K0_MARK[:-1], K0_MARK + "A", K0_MARK + "=", K0_MARK.lower(), f"MD5:{K0_MARK[7:]}", K0_MARK[:-1] + "l", " " + K0_MARK]


def refuses_what_is_no_fingerprint(asker):
    with standing(asker, {"k": KEY, "t": KEY}):
        for text in BAD:
            asker.check(f"the value {text}", asker.program.run(fingerprint(text, "t"))[:2], (2, b"fault value fingerprint\n"))
        both = ["admits", "--key", "k", *fingerprint(K0_MARK, "t")[1:]]
        neither = [word for word in fingerprint(K0_MARK, "t") if word not in ("--fingerprint", K0_MARK)]
        for words in (both, neither):
            asker.check(" ".join(words), asker.program.run(words)[:2], (2, b"fault usage\n"))
        for more in ({}, {"form": "json"}):
            words = fingerprint(K1_MARK, "t", address="nowhere", **more)
            asker.check(" ".join(words), asker.program.run(words)[:2], (2, b"fault A6\n"))


TESTS = (
    answers_as_for_the_key, tells_where_no_line_holds_it, tells_so_in_json, has_one_status_over_several_files, refuses_what_is_no_fingerprint,
)
