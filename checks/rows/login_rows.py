"""`login` on worked rows. What a row does not say is what PLAIN or CERTIFIED says."""
from dataclasses import dataclass, replace

from rows.keys import K0, K1, RSA, RSA_SHA2_SIGNATURE, RSA_SHA512_SIGNATURE, RSA_SIGNATURE, S0
from rows.user_certificates import (
    ADDRESS_AND_MORE, BAD_SIGNER, BAD_SIGNER_OF_RSA, COMMAND_AND_MORE, ELSEWHERE, ENDLESS, EXTENDED, FORCED, HOST,
    NEGATED, NO_COMMAND, NO_PRINCIPALS, PERMITTED, RSA_CERTIFICATE, TWICE, UNKNOWN, VERIFIED, VERIFIED_WITH_DATA, X0,
)

# What has to be vouched for where K0 is offered, and where K1 is.
K0_TRIPLE = (
    "0000000b7373682d65643235353139000000200000000000000000000000000000000000000000000000000000000000000000 "
    "00000004010203043200000003616e6e0000000e7373682d636f6e6e656374696f6e000000097075626c69636b6579010000000b7373682d"
    "65643235353139000000330000000b7373682d65643235353139000000200000000000000000000000000000000000000000000000000000"
    "000000000000 0000000b7373682d6564323535313900000001aa"
)

K1_TRIPLE = (
    "0000000b7373682d65643235353139000000200000000000000000000000000000000000000000000000000000000000000001 "
    "00000004010203043200000003616e6e0000000e7373682d636f6e6e656374696f6e000000097075626c69636b6579010000000b7373682d"
    "65643235353139000000330000000b7373682d65643235353139000000200000000000000000000000000000000000000000000000000000"
    "000000000001 0000000b7373682d6564323535313900000001aa"
)

# The same where X0 is: the login's signature, and the signer's.
X0_LOGIN = (
    "0000000b7373682d65643235353139000000200000000000000000000000000000000000000000000000000000000000000000 "
    "00000004010203043200000003616e6e0000000e7373682d636f6e6e656374696f6e000000097075626c69636b657901000000207373682d"
    "656432353531392d636572742d763031406f70656e7373682e636f6d000000d5000000207373682d656432353531392d636572742d763031"
    "406f70656e7373682e636f6d0000000107000000200000000000000000000000000000000000000000000000000000000000000000000000"
    "0000000005000000010000000269640000000700000003616e6e000000000000006400000000000000c80000000000000000000000000000"
    "00330000000b7373682d65643235353139000000200000000000000000000000000000000000000000000000000000000000000001000000"
    "140000000b7373682d6564323535313900000001aa 0000000b7373682d6564323535313900000001aa"
)

X0_SIGNER = (
    "0000000b7373682d65643235353139000000200000000000000000000000000000000000000000000000000000000000000001 "
    "000000207373682d656432353531392d636572742d763031406f70656e7373682e636f6d0000000107000000200000000000000000000000"
    "0000000000000000000000000000000000000000000000000000000005000000010000000269640000000700000003616e6e000000000000"
    "006400000000000000c8000000000000000000000000000000330000000b7373682d65643235353139000000200000000000000000000000"
    "000000000000000000000000000000000000000001 0000000b7373682d6564323535313900000001aa"
)


@dataclass(frozen=True)
class Asked:
    """A login that is asked of a file."""

    offer: str
    algorithm: str
    signature: str
    user: str
    address: str
    now: str
    # The options that may be left out.
    more: list


PLAIN = Asked(offer=K0, algorithm="ssh-ed25519", signature=S0, user="ann", address="192.0.2.1", now="150", more=[])
CERTIFIED = replace(PLAIN, offer=X0, algorithm="ssh-ed25519-cert-v01@openssh.com")


def words_of(asked):
    """The words that ask for it, the vouch file being standard input."""
    return [
        *("login", "--file", "f", "--offer", asked.offer, "--signature", asked.signature),
        *("--algorithm", asked.algorithm, "--session", "01020304", "--user", asked.user),
        *("--address", asked.address, "--now", asked.now, "--vouch", "-", *asked.more),
    ]


def listed(answer):
    """The signatures that an answer lists, as a vouch file."""
    lines = answer.splitlines(keepends=True)
    return b"".join(line.split(b" ", 2)[2] for line in lines if line.startswith(b"evidence "))


def compare_vouched(asker, asked, file, wanted):
    """Compares the lines before the evidence, where all that is listed is vouched for."""
    words = words_of(asked)
    _, answer, _ = asker.printed(words, file)
    asker.compare_head(words, file, listed(answer), wanted)


def compare_files(asker, rows):
    """The same of whole files."""
    for file, asked, wanted in rows:
        compare_vouched(asker, asked, file, wanted)


def compare_lines(asker, key, rows):
    """The same of files of one line, which holds these options and this key."""
    for options, asked, wanted in rows:
        compare_vouched(asker, asked, f"{options} ssh-ed25519 {key}\n", wanted)


ALL_RIGHTS = "granted line 1\nrights port agent x11 pty rc\n"
NO_RIGHTS = "granted line 1\nrights none\n"

# Lines of two keys.
ONE = f"ssh-ed25519 {K0} me\n"
BAD = f"ssh-dss AAAA\nnosuch ssh-ed25519 {K0}\nssh-ed25519 {K0}"

CAUSES = (
    f"ssh-ed25519\n\n # x\nssh-ed25519-cert-v01@openssh.com {K0}\nssh-ed25519 {K0}*\nssh-ed25519 AAAA\nssh-rsa {K0}\n"
    f"frob\nssh-ed25519 {K0}\r\r\nssh-ed25519 {K0}=\n\tssh-ed25519\t {K1} a\r\n"
)

# The key, the file, what is vouched for, the lines before the evidence, and the evidence.
KEY_ROWS = [
    (K0, ONE, K0_TRIPLE, ALL_RIGHTS, K0_TRIPLE),
    (K0, "", K0_TRIPLE, "denied N3\n", K0_TRIPLE),
    (K0, ONE, "", "denied N6 0\n", K0_TRIPLE),
    (K0, ONE, K1_TRIPLE, "denied N6 0\n", K0_TRIPLE),
    (K1, ONE, K1_TRIPLE, "denied N3\n", K1_TRIPLE),
    (K0, BAD, K0_TRIPLE, "granted line 3\nrights port agent x11 pty rc\n", K0_TRIPLE),
    (K1, BAD, K1_TRIPLE, "denied N3\nreason 1 G1 L9\nreason 2 G1 L3\n", K1_TRIPLE),
    (
        K0,
        CAUSES,
        K0_TRIPLE,
        "denied N3\nreason 1 G1 L7\nreason 4 G1 L13\nreason 5 G1 L10\nreason 6 G1 L11 K1 V1 0\nreason 7 G1 L12\n"
        "reason 8 G1 L3\nreason 9 G1 L10\nreason 10 G1 L10\n",
        K0_TRIPLE,
    ),
    (K1, CAUSES, K1_TRIPLE, "granted line 11\nrights port agent x11 pty rc\n", K1_TRIPLE),
]


def with_evidence(head, triple):
    """The lines of an answer with one piece of evidence."""
    return f"{head}evidence 0 {triple}\n"


def answers_ed25519_rows(asker):
    for offer, file, vouched, head, triple in KEY_ROWS:
        asker.compare(words_of(replace(PLAIN, offer=offer)), file, vouched, with_evidence(head, triple))


def holds_the_limit_of_a_line(asker):
    text = f"ssh-ed25519 {K0} ".encode()
    for front, fill, length, head in (
        (text, b"x", 65_536, ALL_RIGHTS),
        (text, b"x", 65_537, "denied N3\nreason 1 G1 L1\n"),
        (b"", b"\xff", 65_536, "denied N3\nreason 1 G1 L2\n"),
        (b"", b"\xff", 65_537, "denied N3\nreason 1 G1 L1\n"),
    ):
        asker.compare(words_of(PLAIN), front.ljust(length, fill), K0_TRIPLE, with_evidence(head, K0_TRIPLE))


def lists_the_first_hundred_reasons(asker):
    reasons = "".join(f"reason {number} G1 L9\n" for number in range(1, 101))
    compare_vouched(asker, PLAIN, 101 * "ssh-dss AAAA\n", "denied N3\n" + reasons)


def holds_the_limit_of_a_trust_file(asker):
    file = b"#".ljust(67_108_865, b"x")
    asker.compare(words_of(PLAIN), file, "", "fault A7\n")
    asker.compare(words_of(PLAIN), file[1:], "", with_evidence("denied N3\nreason 1 G1 L1\n", K0_TRIPLE))


# The offer, the algorithm and the signature, and why they are refused.
REFUSED = [
    ("", "ssh-ed25519", S0, "fault A1 K1 V1 0\n"),
    (
        "AAAAC3NzaC1lZDI1NTE5AAAAIAAAAAAAAAAAAAAAAAAAAAAAAAAAAAAAAAAAAAAAAAAAAA==",
        "ssh-ed25519",
        S0,
        "fault A1 K1 V4 51\n",
    ),
    ("AAAAIHNzaC1lZDI1NTE5LWNlcnQtdjAxQG9wZW5zc2guY29t", "ssh-ed25519", S0, "fault A1 C1 V1 36\n"),
    ("AAAABGZyb2I=", "frob", S0, "fault A1 K2\n"),
    ("AAAAB3NzaC1kc3M=", "ssh-dss", S0, "fault A1 K3\n"),
    ("AAAAE2VjZHNhLXNoYTItbmlzdHAyNTYAAAAIbmlzdHAzODQ=", "ssh-ed25519", S0, "fault A1 K5\n"),
    (
        "AAAAE2VjZHNhLXNoYTItbmlzdHAyNTYAAAAIbmlzdHAyNTYAAABBAgAAAAAAAAAAAAAAAAAAAAAAAAAAAAAAAAAAAAAAAAAAAAAAAAAAAAAAA"
        "AAAAAAAAAAAAAAAAAAAAAAAAAAAAAA=",
        "ssh-ed25519",
        S0,
        "fault A1 K6\n",
    ),
    ("AAAAC3NzaC1lZDI1NTE5AAAAHwAAAAAAAAAAAAAAAAAAAAAAAAAAAAAAAAAAAAAAAAA=", "ssh-ed25519", S0, "fault A1 K7\n"),
    ("AAAAB3NzaC1yc2EAAAAAAAAAAgCA", "rsa-sha2-256", S0, "fault A1 K1 V5 11\n"),
    ("AAAAB3NzaC1yc2EAAAADAQABAAAAAgAB", "rsa-sha2-256", S0, "fault A1 K1 V2 18\n"),
    ("AAAAB3NzaC1yc2EAAAADAQABAAAAAYA=", "rsa-sha2-256", S0, "fault A1 K1 V3 18\n"),
    (
        "AAAAKGVjZHNhLXNoYTItbmlzdHAyNTYtY2VydC12MDFAb3BlbnNzaC5jb20AAAAAAAAACG5pc3RwMzg0",
        "ssh-ed25519",
        S0,
        "fault A1 C2 K5\n",
    ),
    (
        "AAAAKGVjZHNhLXNoYTItbmlzdHAyNTYtY2VydC12MDFAb3BlbnNzaC5jb20AAAAAAAAACG5pc3RwMjU2AAAAAQQ=",
        "ssh-ed25519",
        S0,
        "fault A1 C2 K6\n",
    ),
    (
        "AAAAIHNzaC1lZDI1NTE5LWNlcnQtdjAxQG9wZW5zc2guY29tAAAAAAAAAB8AAAAAAAAAAAAAAAAAAAAAAAAAAAAAAAAAAAAAAAAA",
        "ssh-ed25519",
        S0,
        "fault A1 C2 K7\n",
    ),
    (
        "AAAAIHNzaC1lZDI1NTE5LWNlcnQtdjAxQG9wZW5zc2guY29tAAAAAQcAAAAgAAAAAAAAAAAAAAAAAAAAAAAAAAAAAAAAAAAAAAAAAAAAAAAAA"
        "AAABQAAAAEAAAACaWQAAAAHAAAAA2FubgAAAAAAAABkAAAAAAAAAMgAAAAAAAAAAAAAAAAAAAAzAAAAC3NzaC1lZDI1NTE5AAAAIAAAAAAAAA"
        "AAAAAAAAAAAAAAAAAAAAAAAAAAAAAAAAABAAAAFAAAAAtzc2gtZWQyNTUxOQAAAAGqAA==",
        "ssh-ed25519-cert-v01@openssh.com",
        S0,
        "fault A1 C1 V4 213\n",
    ),
    (K0, "ssh-ed25519", "00", "fault A2 V1 0\n"),
    (K0, "ssh-ed25519", "0000000b7373682d6564323535313900000001aa00", "fault A2 V4 20\n"),
    (
        K0,
        "ssh-ed25519",
        "0000001a736b2d7373682d65643235353139406f70656e7373682e636f6d00000001aa01000000",
        "fault A2 V1 36\n",
    ),
    (K0, "ssh-rsa", S0, "fault A3\n"),
    (K0, "ssh-ed25519", RSA_SHA2_SIGNATURE, "fault A3\n"),
    (RSA, "ssh-rsa", S0, "fault A4\n"),
    (RSA, "ssh-rsa-cert-v01@openssh.com", S0, "fault A4\n"),
    (RSA, "rsa-sha2-256", RSA_SIGNATURE, "fault A4\n"),
    (RSA, "rsa-sha2-256", S0, "fault A3\n"),
    (RSA, "frob", RSA_SIGNATURE, "fault A3\n"),
    (RSA, "rsa-sha2-256", RSA_SHA512_SIGNATURE, "fault A3\n"),
    (RSA, "rsa-sha2-512", RSA_SHA2_SIGNATURE, "fault A3\n"),
    (RSA_CERTIFICATE, "rsa-sha2-256-cert-v01@openssh.com", RSA_SHA512_SIGNATURE, "fault A3\n"),
    (RSA_CERTIFICATE, "rsa-sha2-512-cert-v01@openssh.com", RSA_SHA2_SIGNATURE, "fault A3\n"),
    (RSA_CERTIFICATE, "rsa-sha2-256", RSA_SHA2_SIGNATURE, "fault A3\n"),
]

# Two reasons to refuse an offer, of which the first is told; the address is none either.
REFUSED_TWICE = [
    ("AAAA", "ssh-ed25519", "00", "fault A1 K1 V1 0\n"),
    (K0, "ssh-rsa", "00", "fault A2 V1 0\n"),
    (RSA, "ssh-rsa", "00", "fault A2 V1 0\n"),
    (RSA, "ssh-rsa", S0, "fault A4\n"),
    (BAD_SIGNER, "ssh-ed25519", S0, "fault A3\n"),
    (BAD_SIGNER, "ssh-ed25519-cert-v01@openssh.com", RSA_SHA2_SIGNATURE, "fault A3\n"),
    (BAD_SIGNER_OF_RSA, "ssh-rsa-cert-v01@openssh.com", RSA_SHA2_SIGNATURE, "fault A4\n"),
    (BAD_SIGNER_OF_RSA, "rsa-sha2-256-cert-v01@openssh.com", RSA_SIGNATURE, "fault A4\n"),
    (BAD_SIGNER_OF_RSA, "rsa-sha2-256-cert-v01@openssh.com", RSA_SHA2_SIGNATURE, "fault A5\n"),
]


def refuses_offers(asker):
    for rows, address in ((REFUSED, "192.0.2.1"), (REFUSED_TWICE, "10.0.0.256")):
        for offer, algorithm, signature, fault in rows:
            asked = replace(PLAIN, offer=offer, algorithm=algorithm, signature=signature, address=address)
            asker.compare(words_of(asked), "", "", fault)


def login_line(given):
    """The words of a login as a line, with the trust file, the offer, the signature, the session, the moment and the
    vouch file filled in."""
    file, offer, signature, session, now, vouch = given
    return (
        f"login --file {file} --offer {offer} --signature {signature} --algorithm ssh-ed25519 --session {session}"
        f" --user ann --address ::1 --now {now} --vouch {vouch}\n"
    )


# What is filled in, what follows the line, and the fault.
FAULTS = [
    (["f", "A", "x", "x", "x", "g"], "", "fault value offer\n"),
    (["f", K0, "aaa", "x", "x", "g"], "", "fault value signature\n"),
    (["f", K0, S0, "0g", "x", "g"], "", "fault value session\n"),
    (["f", K0, S0, "-", "+5", "g"], "", "fault value now\n"),
    (["f", K0, S0, "-", "18446744073709551616", "g"], "", "fault value now\n"),
    (["g", K0, S0, "-", "007", "g\\\u00e9"], "", "fault file g\\x5c\\xc3\\xa9\n"),
    (["g", "", S0, "-", "7", "-"], "\n#\n", "fault usage\n"),
    (["g", K0, S0, "-", "7", "-"], "#\n- - -\nx\n", "fault vouch 3\n"),
    (["g", K0, S0, "-", "7", "-"], "- - - -\n", "fault vouch 1\n"),
    (["g", K0, S0, "-", "7", "-"], "\n- - - -\n", "fault A9\n"),
    (["g", K0, S0, "-", "7", "-"], "", "fault A9\n"),
    (["g", K0, "00", "-", "7", "-"], "", "fault A2 V1 0\n"),
    (["g", "AAAA", S0, "-", "7", "-"], "", "fault A1 K1 V1 0\n"),
    (["-", K0, "00", "-", "7", "-"], "AA - -\n\nx", "fault A2 V1 0\n"),
]


def names_faults_in_their_order(asker):
    for given, rest, fault in FAULTS:
        asker.compare([], "", login_line(given) + rest, fault)


# First lines of standard input that ask for nothing.
NO_REQUESTS = [
    "",
    "\n",
    "frob\n",
    "login\n",
    "--help\n",
    "  login  --user -x \n",
]


def tells_usage_faults(asker):
    for stdin in (*NO_REQUESTS, b"login \xff\n"):
        asker.compare([], "", stdin, "fault usage\n")


HOSTS = 'from="*.example.org,!bad.example.org"'
TEN = replace(PLAIN, address="10.0.0.1")

# The options of the line of K0, the login, and the lines before the evidence.
OPTION_ROWS = [
    (HOSTS, replace(PLAIN, more=["--host", "bad.example.org"]), "denied N3\nreason 1 G8\n"),
    (HOSTS, replace(PLAIN, more=["--host", "BAD.example.org"]), "denied N3\nreason 1 G8\n"),
    (HOSTS, replace(PLAIN, more=["--host", "good.example.org"]), ALL_RIGHTS),
    (HOSTS, PLAIN, "denied N3\nreason 1 G8\n"),
    ('from="10.0.0.1/8"', TEN, "denied N3\nreason 1 G7\n"),
    ('from="0.0.0.0/0"', TEN, ALL_RIGHTS),
    ('from="::/0"', TEN, "denied N3\nreason 1 G8\n"),
    ("restrict,pty", PLAIN, "granted line 1\nrights pty\n"),
    ("pty,restrict", PLAIN, NO_RIGHTS),
    ("no-pty,PTY,No-User-RC", PLAIN, "granted line 1\nrights port agent x11 pty\n"),
    ('expiry-time="20240229Z"', replace(PLAIN, now="1709164800"), ALL_RIGHTS),
    ('expiry-time="20240229Z"', replace(PLAIN, now="1709164801"), "denied N3\nreason 1 G6\n"),
    ('expiry-time="20240229"', replace(PLAIN, now="1709164800"), ALL_RIGHTS),
    ('expiry-time="20240229"', replace(PLAIN, now="1709164801"), "denied N3\nreason 1 G6\n"),
    ('expiry-time="20230229Z"', PLAIN, "denied N3\nreason 1 G1 L6\n"),
    ('expiry-time="20300101",expiry-time="19691231Z"', PLAIN, "denied N3\nreason 1 G6\n"),
    ("cert-authority", PLAIN, "denied N3\nreason 1 G3\n"),
    ("verify-required", PLAIN, "denied N5\n"),
    (
        'command="",environment="A=\\"b",tunnel="0",permitopen="h:1",permitlisten="2"',
        PLAIN,
        'granted line 1\nrights port agent x11 pty rc\ncommand \ncarry environment A="b\ncarry tunnel 0\n'
        "carry permitopen h:1\ncarry permitlisten 2\n",
    ),
]


def answers_plain_keys_by_options(asker):
    compare_lines(asker, K0, OPTION_ROWS)


IN_BERLIN = ["--zone", "CET-1CEST,M3.5.0,M10.5.0/3"]

# A local time that is there twice, and one that is not there: the last second before it is past, and the next one.
ZONE_ROWS = [
    ('expiry-time="202410270230"', replace(PLAIN, now="1729989000", more=IN_BERLIN), ALL_RIGHTS),
    ('expiry-time="202410270230"', replace(PLAIN, now="1729989001", more=IN_BERLIN), "denied N3\nreason 1 G6\n"),
    ('expiry-time="202403310230"', replace(PLAIN, now="1711848600", more=IN_BERLIN), ALL_RIGHTS),
    ('expiry-time="202403310230"', replace(PLAIN, now="1711848601", more=IN_BERLIN), "denied N3\nreason 1 G6\n"),
]


def reads_expiry_times_in_a_zone(asker):
    compare_lines(asker, K0, ZONE_ROWS)


# Options that may be left out, with texts that are none of their values, and the fault: the first of them is told, in
# the order of the options.
NO_VALUES = [
    (["--zone", ""], "fault value zone\n"),
    (["--zone", "EST5EDT"], "fault value zone\n"),
    (["--zone", "Europe/Berlin"], "fault value zone\n"),
    (["--zone", "local:UTC0"], "fault value zone\n"),
    (["--empty-principals", "none", "--zone", "UTC0 "], "fault value zone\n"),
    (["--rsa-minimum", "2k", "--empty-principals", "Never"], "fault value empty-principals\n"),
    (["--empty-principals", ""], "fault value empty-principals\n"),
    (["--rsa-minimum", "4294967296"], "fault value rsa-minimum\n"),
    (["--rsa-minimum", "+1"], "fault value rsa-minimum\n"),
]


def refuses_values_of_options_that_may_be_left_out(asker):
    for more, fault in NO_VALUES:
        asker.compare(words_of(replace(PLAIN, more=more)), "", "", fault)


AUTHORITY = "cert-authority"

# A certificate without principals is for all, or for none.
ANY = ["--empty-principals", "any"]
NEVER = ["--empty-principals", "never"]

# The options of the line of K1, the login, and the lines before the evidence.
CERTIFICATE_ROWS = [
    ("", CERTIFIED, "denied N3\nreason 1 G4\n"),
    (AUTHORITY, replace(CERTIFIED, now="99"), "denied N3\nreason 1 G10\n"),
    (AUTHORITY, replace(CERTIFIED, now="100"), NO_RIGHTS),
    (AUTHORITY, replace(CERTIFIED, now="199"), NO_RIGHTS),
    (AUTHORITY, replace(CERTIFIED, now="200"), "denied N3\nreason 1 G11\n"),
    (AUTHORITY, replace(CERTIFIED, offer=ENDLESS, now="18446744073709551615"), "denied N3\nreason 1 G11\n"),
    (AUTHORITY, replace(CERTIFIED, offer=HOST), "denied N3\nreason 1 G9\n"),
    (AUTHORITY, replace(CERTIFIED, offer=NO_PRINCIPALS), NO_RIGHTS),
    ('cert-authority,principals="ann"', replace(CERTIFIED, offer=NO_PRINCIPALS), "denied N3\nreason 1 G12\n"),
    (AUTHORITY, replace(CERTIFIED, offer=NO_PRINCIPALS, more=NEVER), "denied N3\nreason 1 G19\n"),
    (
        'cert-authority,principals="ann"',
        replace(CERTIFIED, offer=NO_PRINCIPALS, more=NEVER),
        "denied N3\nreason 1 G12\n",
    ),
    (AUTHORITY, replace(CERTIFIED, offer=NO_PRINCIPALS, more=ANY), NO_RIGHTS),
    (AUTHORITY, replace(CERTIFIED, more=NEVER), NO_RIGHTS),
    ('cert-authority,principals="bob,,ann"', CERTIFIED, NO_RIGHTS),
    ('cert-authority,principals="an,annn"', CERTIFIED, "denied N3\nreason 1 G12\n"),
]

# The options before the line with its signer's key, what is asked of a certificate with options, and the lines of the
# answer that stand before the evidence.
CERTIFICATE_OPTION_ROWS = [
    (AUTHORITY, replace(CERTIFIED, offer=UNKNOWN), "denied N3\nreason 1 G13 x@example.org\n"),
    (AUTHORITY, replace(CERTIFIED, offer=EXTENDED), NO_RIGHTS),
    (AUTHORITY, replace(CERTIFIED, offer=TWICE), "denied N3\nreason 1 G14\n"),
    (AUTHORITY, replace(CERTIFIED, offer=NO_COMMAND), "denied N3\nreason 1 G15\n"),
    (AUTHORITY, replace(CERTIFIED, offer=COMMAND_AND_MORE), "denied N3\nreason 1 G15\n"),
    (AUTHORITY, replace(CERTIFIED, offer=ADDRESS_AND_MORE), "denied N3\nreason 1 G15\n"),
    (AUTHORITY, replace(CERTIFIED, offer=VERIFIED_WITH_DATA), "denied N3\nreason 1 G15\n"),
    (AUTHORITY, replace(CERTIFIED, offer=NEGATED), "denied N3\nreason 1 G16\n"),
    (AUTHORITY, replace(CERTIFIED, offer=ELSEWHERE), "denied N3\nreason 1 G17\n"),
    (AUTHORITY, replace(CERTIFIED, offer=ELSEWHERE, address="10.255.0.1"), NO_RIGHTS),
    (
        'cert-authority,command="a \\"b\\" c"',
        replace(CERTIFIED, offer=FORCED),
        'granted line 1\nrights none\ncommand a "b" c\n',
    ),
    ('cert-authority,command="a b c"', replace(CERTIFIED, offer=FORCED), "denied N3\nreason 1 G18\n"),
    (AUTHORITY, replace(CERTIFIED, offer=FORCED), 'granted line 1\nrights none\ncommand a "b" c\n'),
    (AUTHORITY, replace(CERTIFIED, offer=VERIFIED), "denied N5\n"),
    (AUTHORITY, replace(CERTIFIED, offer=PERMITTED), "granted line 1\nrights x11 pty\n"),
    ("cert-authority,no-pty", replace(CERTIFIED, offer=PERMITTED), "granted line 1\nrights x11\n"),
    (AUTHORITY, replace(CERTIFIED, offer=BAD_SIGNER), "fault A5\n"),
    (AUTHORITY, replace(CERTIFIED, algorithm="ssh-ed25519"), "fault A3\n"),
    (AUTHORITY, replace(CERTIFIED, address="10.0.0.256"), "fault A6\n"),
]


def answers_certificates(asker):
    compare_lines(asker, K1, CERTIFICATE_ROWS)


def answers_options_of_certificates(asker):
    compare_lines(asker, K1, CERTIFICATE_OPTION_ROWS)


# What is vouched for, and the line before the evidence.
SIGNER_ROWS = [
    (f"{X0_SIGNER}\n{X0_LOGIN}\n", NO_RIGHTS),
    (X0_LOGIN, "denied N6 1\n"),
    (X0_SIGNER, "denied N6 0\n"),
]


def lists_what_a_signer_signed(asker):
    file = f"cert-authority ssh-ed25519 {K1}\n"
    for vouched, head in SIGNER_ROWS:
        wanted = f"{head}evidence 0 {X0_LOGIN}\nevidence 1 {X0_SIGNER}\n"
        asker.compare(words_of(CERTIFIED), file, vouched, wanted)


TESTS = (
    answers_ed25519_rows, holds_the_limit_of_a_line, lists_the_first_hundred_reasons, holds_the_limit_of_a_trust_file,
    refuses_offers, names_faults_in_their_order, tells_usage_faults, answers_plain_keys_by_options,
    reads_expiry_times_in_a_zone, refuses_values_of_options_that_may_be_left_out, answers_certificates,
    answers_options_of_certificates, lists_what_a_signer_signed,
)
