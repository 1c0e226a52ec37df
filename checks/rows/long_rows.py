"""Long values: texts of five thousand bytes in each place that holds one, a line far down a file, and blobs past their
limit. The long hashed name and the certificate were made outside."""
from dataclasses import replace

from program import rewrite
from rows import host_rows, login_rows
from rows.keys import K0, K1
from rows.login_rows import CERTIFIED, PLAIN, words_of

# The name of five thousand letters `x`, hashed.
HASHED = "|1|AQIDBAUGBwgJCgsMDQ4PEBESExQ=|pfUwl8PsHaA6vIFr4IrNtM7JuXE="

# A certificate for K0 by K1 with a critical option: what stands before its name of 5,001 letters `x`, and after it.
BEFORE_NAME = (
    "AAAAIHNzaC1lZDI1NTE5LWNlcnQtdjAxQG9wZW5zc2guY29tAAAAAwcHBwAAACAAAAAAAAAAAAAAAAAAAAAAAAAAAAAAAAAAAAAAAAAAAAAAAAAA"
    "AAAFAAAAAQAAAAJpZAAAAAcAAAADYW5uAAAAAAAAAGQAAAAAAAAAyAAAE5EAABOJ"
)
AFTER_NAME = (
    "AAAAAAAAAAAAAAAAAAAAMwAAAAtzc2gtZWQyNTUxOQAAACAAAAAAAAAAAAAAAAAAAAAAAAAAAAAAAAAAAAAAAAAAAQAAABQAAAALc3NoLWVkMjU1"
    "MTkAAAABqg=="
)


def answers_long_texts_of_a_line(asker):
    long = 5_000 * "x"
    options = f'command="{long}",environment="A={long}"'
    file = f"# {long}\n{options}  ssh-ed25519 {K0}  {long} \n"
    rights = "rights port agent x11 pty rc"
    wanted = f"granted line 2\n{rights}\ncommand {long}\ncarry environment A={long}\n"
    login_rows.compare_vouched(asker, replace(PLAIN, user=long), file, wanted)
    asker.compare(rewrite("auth", "f"), file, "", f"# {long}\n{options} ssh-ed25519 {K0} {long}\n")


def answers_long_names_of_options(asker):
    long = 5_001 * "x"
    file = f"{long} ssh-ed25519 {K0}\n" + 2 * f"cert-authority ssh-ed25519 {K1}\n"
    reason = "denied N3\nreason 1 G1 L3\n"
    login_rows.compare_vouched(asker, PLAIN, file, reason)
    asked = replace(CERTIFIED, offer=BEFORE_NAME + 1_667 * "eHh4" + AFTER_NAME)
    login_rows.compare_vouched(asker, asked, file, f"{reason}reason 2 G13 {long}\nreason 3 G13 {long}\n")


def answers_long_host_names(asker):
    long = 5_000 * "x"
    for line in (
        f"{long}  ssh-ed25519 {K0} {long}",
        f"{HASHED} ssh-ed25519 {K0}",
        f"g,*{long} ssh-ed25519\t{K0}\r",
    ):
        host_rows.compare_vouched(asker, replace(host_rows.PLAIN, host=long), line, "granted line 1\n")


def finds_a_line_far_down(asker):
    file = 100_000 * "#\n"
    head = "granted line 100001\nrights port agent x11 pty rc\n"
    login_rows.compare_vouched(asker, PLAIN, f"{file}ssh-ed25519 {K0}\n", head)
    for line, head in (("h", "granted line 100001\n"), ("@revoked h", "denied N1 100001\n")):
        host_rows.compare_vouched(asker, host_rows.PLAIN, f"{file}{line} ssh-ed25519 {K0}\n", head)


# What 262,146 bytes begin with whose other bytes are zero, in base64, and the fault of such an offer.
LONG_OFFERS = [
    ("", "fault A1 K8\n"),
    ("AAAAIHNzaC1lZDI1NTE5LWNlcnQtdjAxQG9wZW5zc2guY29t", "fault A1 C9\n"),
]


def in_file(words, option):
    """The words with the text of this option in the file `f`, since it is longer than a word may be."""
    at = words.index(option)
    return [*words[:at], f"{option}-file", "f", *words[at + 2 :]]


def refuses_long_offers(asker):
    words = words_of(PLAIN)
    for front, fault in LONG_OFFERS:
        asker.compare(in_file(words, "--offer"), front.ljust(349_528, "A"), "", fault)
    asker.compare(in_file(words, "--signature"), 524_290 * "0", "", "fault A2 V5 0\n")


TESTS = (
    answers_long_texts_of_a_line, answers_long_names_of_options, answers_long_host_names, finds_a_line_far_down,
    refuses_long_offers,
)
