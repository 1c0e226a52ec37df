"""`host` on worked rows. What a row does not say is what PLAIN says. The hashed line was made by `ssh-keygen -H`."""
from dataclasses import dataclass, replace

from rows.host_certificates import ANY_HOST, BAD_SIGNER, FORCED, OTHER_HOST, SHA1_SIGNER, SHA256_SIGNER, X1
from rows.keys import K0, K1, RSA, RSA_SHA2_SIGNATURE, RSA_SHA512_SIGNATURE, RSA_SIGNATURE, S0
from rows.user_certificates import BAD_SIGNER_OF_RSA, X0

# What has to be vouched for: the host's signature over the exchange hash, and the signer's of X1.
K0_TRIPLE = (
    "0000000b7373682d65643235353139000000200000000000000000000000000000000000000000000000000000000000000000 01020304 "
    "0000000b7373682d6564323535313900000001aa"
)

X1_SIGNER = (
    "0000000b7373682d65643235353139000000200000000000000000000000000000000000000000000000000000000000000001 "
    "000000207373682d656432353531392d636572742d763031406f70656e7373682e636f6d0000000107000000200000000000000000000000"
    "0000000000000000000000000000000000000000000000000000000005000000020000000269640000000500000001680000000000000064"
    "00000000000000c8000000000000000000000000000000330000000b7373682d656432353531390000002000000000000000000000000000"
    "00000000000000000000000000000000000001 0000000b7373682d6564323535313900000001aa"
)

# The same of the RSA key, by SHA-256 and by SHA-512.
RSA_TRIPLES = (
    "000000077373682d72736100000003010001000000020080 01020304 0000000c7273612d736861322d32353600000001aa\n"
    "000000077373682d72736100000003010001000000020080 01020304 0000000c7273612d736861322d35313200000001aa\n"
)

# K0 without its last letter.
SHORT_K0 = "AAAAC3NzaC1lZDI1NTE5AAAAIAAAAAAAAAAAAAAAAAAAAAAAAAAAAAAAAAAAAAAAAAA"

# The name `[h]:2222`, hashed.
HASHED = "|1|VlQCaiW1+U7/co5nYlEPYWJvj74=|sGtCcOsAz7rsnFiMHHGUTaU2BAY="


@dataclass(frozen=True)
class Asked:
    """A host's key that is asked of a file."""

    offer: str
    signature: str
    host: str
    port: str
    now: str
    empty_principals: str
    rsa_minimum: str


PLAIN = Asked(offer=K0, signature=S0, host="h", port="22", now="150", empty_principals="any", rsa_minimum="0")
CERTIFIED = replace(PLAIN, offer=X1)


def words_of(asked):
    """The words that ask for it, the vouch file being standard input."""
    return [
        *("host", "--file", "f", "--offer", asked.offer, "--signature", asked.signature, "--hash", "01020304"),
        *("--host", asked.host, "--port", asked.port, "--now", asked.now, "--vouch", "-"),
        *("--empty-principals", asked.empty_principals, "--rsa-minimum", asked.rsa_minimum),
    ]


def compare_vouched(asker, asked, file, wanted):
    """Compares the lines before the evidence, where K0's signature, the signer's of X1 and the RSA key's are vouched
    for."""
    asker.compare_head(words_of(asked), file, f"{K0_TRIPLE}\n{X1_SIGNER}\n{RSA_TRIPLES}", wanted)


def compare_rows(asker, rows):
    for file, asked, wanted in rows:
        compare_vouched(asker, asked, file, wanted)


ONE = f"h ssh-ed25519 {K0}\n"
NEGATED = f"!h,* ssh-ed25519 {K0}\n"
FAR = f"[h]:2222 ssh-ed25519 {K0}\n"
HASHED_LINE = f"{HASHED} ssh-ed25519 {K0}\n"
UPPER_FAR = replace(PLAIN, host="H", port="2222")

# A file, a host's key, and the lines before the evidence.
KEY_ROWS = [
    ("", PLAIN, "denied N3\n"),
    (ONE, PLAIN, "granted line 1\n"),
    (ONE, replace(PLAIN, host="H"), "granted line 1\n"),
    (f"H ssh-ed25519 {K0}", PLAIN, "granted line 1\n"),
    (ONE, replace(PLAIN, port="022"), "granted line 1\n"),
    (ONE, replace(PLAIN, port="0"), "denied N3\n"),
    (f"g ssh-ed25519 {K0}\nh ssh-ed25519 {K1}\n", PLAIN, "denied N3\n"),
    (NEGATED, PLAIN, "denied N3\n"),
    (NEGATED, replace(PLAIN, host="g"), "granted line 1\n"),
    (FAR, PLAIN, "denied N3\n"),
    (FAR, replace(PLAIN, port="2222"), "granted line 1\n"),
    (f"[h]:22 ssh-ed25519 {K0}\n", PLAIN, "denied N3\n"),
    (HASHED_LINE, UPPER_FAR, "granted line 1\n"),
    (HASHED_LINE, PLAIN, "denied N3\n"),
    (f"@cert-authority h ssh-ed25519 {K0}\n", PLAIN, "denied N3\nreason 1 G3\n"),
    (f"h ssh-rsa {RSA}\n", replace(PLAIN, offer=RSA, signature=RSA_SHA2_SIGNATURE), "granted line 1\n"),
    (f"h ssh-rsa {RSA}\n", replace(PLAIN, offer=RSA, signature=RSA_SHA512_SIGNATURE), "granted line 1\n"),
    (f"@other h ssh-ed25519 {K0}\n", PLAIN, "denied N3\nreason 1 G1 L14\n"),
    (f"|1|x ssh-ed25519 {K0}\n", PLAIN, "denied N3\nreason 1 G1 L15\n"),
    (f"h,,g ssh-ed25519 {K0}\n", PLAIN, "denied N3\nreason 1 G1 L16\n"),
]


def answers_plain_keys(asker):
    compare_rows(asker, KEY_ROWS)


REVOKED = f"h ssh-ed25519 {K0}\n@revoked other ssh-ed25519 {K0}"

REVOCATION_ROWS = [
    (REVOKED, PLAIN, "denied N1 2\n"),
    (f"h ssh-ed25519 {K0}\n@revoked other ssh-ed25519 {SHORT_K0}*\n", PLAIN, "denied N2 2\n"),
    (f"h ssh-ed25519 {K0}\nother ssh-ed25519 {SHORT_K0}*\n", PLAIN, "granted line 1\n"),
    (f"@revoked x ssh-ed25519\nh ssh-ed25519 {K0}\n", PLAIN, "denied N2 1\n"),
    (f"@revoked x ssh-ed25519\n@revoked | frob {K0}\n@revoked y z {K0}", PLAIN, "denied N1 2\n"),
    (f"@revoked h ssh-ed25519 {K1}\nh ssh-ed25519 {K0}\n", PLAIN, "granted line 2\n"),
    (f"@cert-authority h ssh-ed25519 {K1}\n@revoked x ssh-ed25519 {K1}\n", CERTIFIED, "denied N1 2\n"),
    (f"@cert-authority h ssh-ed25519 {K1}\n@revoked x ssh-ed25519 {K0}\n", CERTIFIED, "denied N1 2\n"),
]


def names_the_line_that_revokes(asker):
    compare_rows(asker, REVOCATION_ROWS)


AUTHORITY = f"@cert-authority h ssh-ed25519 {K1}\n"

CERTIFICATE_ROWS = [
    (AUTHORITY, CERTIFIED, "granted line 1\n"),
    (f"@cert-authority [h]:2222 ssh-ed25519 {K1}\n", replace(UPPER_FAR, offer=X1), "granted line 1\n"),
    (f"h ssh-ed25519 {K1}\n", CERTIFIED, "denied N3\nreason 1 G4\n"),
    (AUTHORITY, replace(PLAIN, offer=X0), "denied N3\nreason 1 G9\n"),
    (AUTHORITY, replace(CERTIFIED, now="99"), "denied N3\nreason 1 G10\n"),
    (AUTHORITY, replace(CERTIFIED, now="200"), "denied N3\nreason 1 G11\n"),
    (AUTHORITY, replace(PLAIN, offer=OTHER_HOST), "denied N3\nreason 1 G12\n"),
    (AUTHORITY, replace(PLAIN, offer=ANY_HOST), "denied N6 1\n"),
    (AUTHORITY, replace(PLAIN, offer=ANY_HOST, empty_principals="never"), "denied N3\nreason 1 G19\n"),
    (AUTHORITY, replace(CERTIFIED, empty_principals="never"), "granted line 1\n"),
    (
        f"h ssh-rsa {RSA}\n",
        replace(PLAIN, offer=RSA, signature=RSA_SHA2_SIGNATURE, rsa_minimum="9"),
        "denied N3\nreason 1 G20\n",
    ),
    (
        f"h ssh-rsa {RSA}\n",
        replace(PLAIN, offer=RSA, signature=RSA_SHA2_SIGNATURE, rsa_minimum="8"),
        "granted line 1\n",
    ),
    (AUTHORITY, replace(PLAIN, offer=FORCED), "denied N3\nreason 1 G13 force-command\n"),
    (AUTHORITY, replace(PLAIN, offer=BAD_SIGNER), "fault A5\n"),
    (f"@cert-authority h ssh-rsa {RSA}\n", replace(PLAIN, offer=SHA1_SIGNER), "fault A5\n"),
    (f"@cert-authority h ssh-rsa {RSA}\n", replace(PLAIN, offer=SHA256_SIGNER), "denied N6 1\n"),
    (AUTHORITY, replace(PLAIN, offer=BAD_SIGNER, signature=RSA_SHA2_SIGNATURE), "fault A3\n"),
    (AUTHORITY, replace(PLAIN, offer=BAD_SIGNER_OF_RSA, signature=RSA_SIGNATURE), "fault A4\n"),
    (AUTHORITY, replace(PLAIN, offer=BAD_SIGNER_OF_RSA, signature=RSA_SHA2_SIGNATURE), "fault A5\n"),
]


def answers_certificates(asker):
    compare_rows(asker, CERTIFICATE_ROWS)


# A host's key, a file, what is vouched for, and the answer.
EVIDENCE_ROWS = [
    (PLAIN, REVOKED, "", f"denied N1 2\nevidence 0 {K0_TRIPLE}\n"),
    (
        CERTIFIED,
        AUTHORITY,
        f"{X1_SIGNER}\n{K0_TRIPLE}\n",
        f"granted line 1\nevidence 0 {K0_TRIPLE}\nevidence 1 {X1_SIGNER}\n",
    ),
    (CERTIFIED, AUTHORITY, K0_TRIPLE, f"denied N6 1\nevidence 0 {K0_TRIPLE}\nevidence 1 {X1_SIGNER}\n"),
    (CERTIFIED, AUTHORITY, X1_SIGNER, f"denied N6 0\nevidence 0 {K0_TRIPLE}\nevidence 1 {X1_SIGNER}\n"),
]


def lists_what_a_host_signed(asker):
    for asked, file, vouched, wanted in EVIDENCE_ROWS:
        asker.compare(words_of(asked), file, vouched, wanted)


def holds_the_limit_of_a_line(asker):
    entry = f"h ssh-ed25519 {K0} ".encode()
    for front, fill, length, wanted in (
        (entry, b"x", 65_536, "granted line 1\n"),
        (entry, b"x", 65_537, "denied N2 1\n"),
        (b"", b"\xff", 65_536, "denied N3\nreason 1 G1 L7\n"),
        (b"", b"\xff", 65_537, "denied N2 1\n"),
    ):
        compare_vouched(asker, PLAIN, front.ljust(length, fill), wanted)


def host_line(given):
    """The words of a host's key as a line, with the trust file, the offer, the signature, the exchange hash, the port,
    the moment and the vouch file filled in."""
    file, offer, signature, exchange, port, now, vouch = given
    return (
        f"host --file {file} --offer {offer} --signature {signature} --hash {exchange} --host h --port {port}"
        f" --now {now} --vouch {vouch}\n"
    )


# What is filled in, what follows the line, and the fault.
FAULTS = [
    (["f", "A", "x", "x", "x", "x", "g"], "", "fault value offer\n"),
    (["f", K0, "x", "x", "x", "x", "g"], "", "fault value signature\n"),
    (["f", K0, S0, "0", "x", "x", "g"], "", "fault value hash\n"),
    (["f", K0, S0, "-", "x", "x", "g"], "", "fault value port\n"),
    (["f", K0, S0, "-", "65536", "x", "g"], "", "fault value port\n"),
    (["f", K0, S0, "-", "+22", "x", "g"], "", "fault value port\n"),
    (["f", K0, S0, "-", "18446744073709551638", "x", "g"], "", "fault value port\n"),
    (["f", K0, S0, "-", "65535", "x", "g"], "", "fault value now\n"),
    (["g", K0, S0, "-", "22", "7", "v"], "", "fault file v\n"),
    (["g", K0, S0, "-", "22", "7", "-"], "x\n", "fault vouch 1\n"),
    (["g", K0, S0, "-", "22", "7", "-"], "", "fault A9\n"),
    (["g", K0, "00", "-", "22", "7", "-"], "", "fault A2 V1 0\n"),
    (["f", "", S0, "-", "22", "7", "-"], "", "fault usage\n"),
    (["f", "AAAA", S0, "-", "22", "7", "-"], "", "fault A1 K1 V1 0\n"),
    (["f", K0, "00", "-", "22", "7", "-"], "", "fault A2 V1 0\n"),
    (["f", "AAAA", "00", "-", "22", "7", "-"], "", "fault A1 K1 V1 0\n"),
    (["f", K0, RSA_SHA2_SIGNATURE, "-", "22", "7", "-"], "", "fault A3\n"),
    (["f", RSA, RSA_SIGNATURE, "-", "22", "7", "-"], "", "fault A4\n"),
]


def names_faults_in_their_order(asker):
    for given, rest, fault in FAULTS:
        asker.compare([], "", host_line(given) + rest, fault)
    for stdin in ("host\n", "host --file - --zone UTC0\n"):
        asker.compare([], "", stdin, "fault usage\n")


TESTS = (
    answers_plain_keys, names_the_line_that_revokes, answers_certificates, lists_what_a_host_signed,
    holds_the_limit_of_a_line, names_faults_in_their_order,
)
