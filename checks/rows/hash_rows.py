"""`hash` on worked files: the new file's bytes and nothing else, or a fault. The salts are the file `f`, the trust file
is standard input. The hashed names were made by Python's hmac."""
from dataclasses import replace

from rows import host_rows
from rows.keys import K0

# Two salts.
SALTS = "0123456789abcdefghij0123456789ABCDEFGHIJ"

# The name `a` by the first salt, `b` by the second and by the first, and `[h]:2222` by the first.
A = "|1|MDEyMzQ1Njc4OWFiY2RlZmdoaWo=|b2UR6KmG2j7ekYz9WnHWBpZ+b14="
B = "|1|MDEyMzQ1Njc4OUFCQ0RFRkdISUo=|iFhPF/35G2UPS0WebLac1SLtnpM="
FIRST_B = "|1|MDEyMzQ1Njc4OWFiY2RlZmdoaWo=|yOwZqkD0Vi87uHad68PRYp9k2EQ="
FAR = "|1|MDEyMzQ1Njc4OWFiY2RlZmdoaWo=|FrQPBzJADvF+uRm380RUja/XMIg="

# The words that ask for it.
WORDS = ["hash", "--file", "-", "--salts", "f"]

# A file, how many bytes of the salts are there, and the new file.
FILE_ROWS = [
    ("", 0, ""),
    (f"A,b ssh-ed25519 {K0} c", 40, f"{A} ssh-ed25519 {K0} c\n{B} ssh-ed25519 {K0} c\n"),
    (f"*.x ssh-ed25519 {K0}\na,!b  ssh-ed25519 {K0} \r\n", 0, f"*.x ssh-ed25519 {K0}\na,!b  ssh-ed25519 {K0} \r\n"),
    (f"a,h?\tssh-ed25519 {K0}\nb  ssh-ed25519 {K0}", 20, f"a,h?\tssh-ed25519 {K0}\n{FIRST_B} ssh-ed25519 {K0}\n"),
    (f"@revoked  a ssh-ed25519 {K0}\n# a\r\n\nb,,a  x", 0, f"@revoked  a ssh-ed25519 {K0}\n# a\r\n\nb,,a  x\n"),
    (f" @cert-authority\tB  ssh-ed25519\t{K0}  c \r\n", 20, f"@cert-authority {FIRST_B} ssh-ed25519 {K0} c\n"),
    (f"[H]:2222 ssh-ed25519 {K0}", 40, f"{FAR} ssh-ed25519 {K0}\n"),
]


def hashes_names(asker):
    """A file whose names are hashed needs no salts."""
    for file, count, wanted in FILE_ROWS:
        asker.compare(WORDS, SALTS[:count], file, wanted)
        if count == 40:
            asker.compare(WORDS, "", asker.printed(WORDS, SALTS, file)[1], wanted)


def keeps_what_would_pass_the_line_limit(asker):
    line = f"h ssh-ed25519 {K0} "
    for comment, grown in ((65_394, 59), (65_395, 0)):
        file = line + comment * "c"
        status, new, errors = asker.printed(WORDS, SALTS, file)
        asker.check(f"a comment of {comment} bytes", (status, len(new), errors), (0, len(file) + grown + 1, b""))
    file = line + 65_395 * "c"
    asker.compare(WORDS, "", file, file + "\n")


def finds_a_hashed_host(asker):
    """A host is found by the hashed line of its own port alone."""
    _, new, _ = asker.printed(WORDS, SALTS, f"[H]:2222 ssh-ed25519 {K0}")
    for port, wanted in (("2222", "granted line 1\n"), ("22", "denied N3\n")):
        host_rows.compare_vouched(asker, replace(host_rows.PLAIN, host="h", port=port), new, wanted)


# The words, the salts, and the fault.
FAULTS = [
    (["hash", "--file", "-"], SALTS, "fault usage\n"),
    (["hash", "--salts", "f"], SALTS, "fault usage\n"),
    (["hash", "--file", "-", "--salts", "g"], SALTS, "fault file g\n"),
    (["hash", "--file", "g", "--salts", "f"], "x", "fault file f\n"),
    (["hash", "--file", "g", "--salts", "f"], SALTS, "fault A9\n"),
    (WORDS, "0123456789abcdefghij", "fault A12\n"),
    (WORDS, "", "fault A12\n"),
]


def names_faults_in_their_order(asker):
    for words, salts, fault in FAULTS:
        asker.compare(words, salts, f"A,b ssh-ed25519 {K0} c", fault)


TESTS = (hashes_names, keeps_what_would_pass_the_line_limit, finds_a_hashed_host, names_faults_in_their_order)
