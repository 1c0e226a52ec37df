"""File signatures: the printed answers of worked bodies, and of one that `ssh-keygen` made."""
from program import sshsig

# The field of the Ed25519 key of 32 zero bytes.
KEY = b"\0\0\x003\0\0\0\x0bssh-ed25519\0\0\0 \0\0\0\0\0\0\0\0\0\0\0\0\0\0\0\0\0\0\0\0\0\0\0\0\0\0\0\0\0\0\0\0"

# The field of an RSA key of 8 bits.
RSA_KEY = b"\0\0\0\x18\0\0\0\x07ssh-rsa\0\0\0\x03\x01\0\x01\0\0\0\x02\0\x80"
FILE = b"\0\0\0\x04file"
SHA256 = b"\0\0\0\x06sha256"

# The field of a signature of `ssh-ed25519`, whose bytes are `aa`.
SIGNATURE = b"\0\0\0\x14\0\0\0\x0bssh-ed25519\0\0\0\x01\xaa"

# The field of a signature of RSA with SHA-1, of no bytes.
SHA1_SIGNATURE = b"\0\0\0\x0f\0\0\0\x07ssh-rsa\0\0\0\0"

# The same with SHA-256 and with SHA-512, whose bytes are `aa`.
SHA256_SIGNATURE = b"\0\0\0\x15\0\0\0\x0crsa-sha2-256\0\0\0\x01\xaa"
SHA512_SIGNATURE = b"\0\0\0\x15\0\0\0\x0crsa-sha2-512\0\0\0\x01\xaa"

# The signature of the sample over `abc`, as a line of a vouch file.
TRIPLE = (
    "0000000b7373682d65643235353139000000200000000000000000000000000000000000000000000000000000000000000000 "
    "5353485349470000000466696c65000000000000000673686132353600000020ba7816bf8f01cfea414140de5dae2223b00361a396177a9c"
    "b410ff61f20015ad 0000000b7373682d6564323535313900000001aa"
)

# The same by the RSA key, with SHA-256 and with SHA-512.
SHA256_TRIPLE = (
    "000000077373682d72736100000003010001000000020080 "
    "5353485349470000000466696c65000000000000000673686132353600000020ba7816bf8f01cfea414140de5dae2223b00361a396177a9c"
    "b410ff61f20015ad 0000000c7273612d736861322d32353600000001aa"
)

SHA512_TRIPLE = (
    "000000077373682d72736100000003010001000000020080 "
    "5353485349470000000466696c65000000000000000673686132353600000020ba7816bf8f01cfea414140de5dae2223b00361a396177a9c"
    "b410ff61f20015ad 0000000c7273612d736861322d35313200000001aa"
)

# What `ssh-keygen -Y sign -n file` made of `abc`.
REAL_SSHSIG = (
    b"SSHSIG\0\0\0\x01\0\0\x003\0\0\0\x0bssh-ed25519\0\0\0 \xea2\xab,\xd8\xe1\x92#B)*\xf8x\xe71\xb7\x95\x99\xad\xb3t&"
    b"\xd5)|\xbd\xaa\0\xa5\xb5 7\0\0\0\x04file\0\0\0\0\0\0\0\x06sha512\0\0\0S\0\0\0\x0bssh-ed25519\0\0\0@x\xcb\x91"
    b"\x87\xb2\xd4\xf2\xa1P\xba\xce\xa9\x1e\tK iXtU\xe53Po`Vm\x96\xb1\x03)\xef\xc3=\t\xc2\x9c\xa1\x19\xf8\xc9\xd3\x84"
    b"\x11\xeb\xb5Kg/xz\xf1\x9dV6\x8ac\x0f\xcb\xae9\xf8\xc9\n"
)

# The key, the signed bytes with the SHA-512 of `abc`, and the signature, computed outside.
REAL_EVIDENCE = (
    "evidence 0 0000000b7373682d6564323535313900000020ea32ab2cd8e1922342292af878e731b79599adb37426d5297cbdaa00a5b5203"
    "7 5353485349470000000466696c65000000000000000673686135313200000040ddaf35a193617abacc417349ae20413112e6fa4e89a97e"
    "a20a9eeee64b55d39a2192992a274fc1a836ba3c23a3feebbd454d4423643ce80e2a9ac94fa54ca49f "
    "0000000b7373682d656432353531390000004078cb9187b2d4f2a150bacea91e094b2069587455e533506f60566d96b10329efc33d09c29c"
    "a119f8c9d38411ebb54b672f787af19d56368a630fcbae39f8c90a\n"
)


def body_of(version, key, namespace, hash_name, signature):
    """The body of a file signature: its version, and the fields of key, namespace, hash and signature."""
    return b"SSHSIG\0\0\0" + bytes([version]) + key + namespace + b"\0\0\0\0" + hash_name + signature


def compare_answer(asker, body, namespace, vouched, wanted):
    """Compares what is answered to a body and the message `abc` for a namespace, where this vouch file vouches."""
    asker.compare(sshsig("f", "-", "-", namespace), body, f"{vouched}\n\nabc", wanted)


# A signature for the namespace `file` with SHA-256, 111 bytes.
SAMPLE = (1, KEY, FILE, SHA256, SIGNATURE)

# The namespace, the vouch file, and the answer.
ANSWER_ROWS = [
    ("file", TRIPLE, f"vouched\nevidence 0 {TRIPLE}\n"),
    ("file", "#", f"denied N6 0\nevidence 0 {TRIPLE}\n"),
    ("git", TRIPLE, "denied namespace\n"),
    ("File", TRIPLE, "denied namespace\n"),
    ("file", "x", "fault vouch 1\n"),
]


def answers_a_file_signature(asker):
    for namespace, vouched, wanted in ANSWER_ROWS:
        compare_answer(asker, body_of(*SAMPLE), namespace, vouched, wanted)


# Bodies by the RSA key, and what has to be vouched for.
RSA_ROWS = [
    ((1, RSA_KEY, FILE, SHA256, SHA256_SIGNATURE), SHA256_TRIPLE),
    ((1, RSA_KEY, FILE, SHA256, SHA512_SIGNATURE), SHA512_TRIPLE),
]


def knows_the_signatures_of_rsa(asker):
    for body, triple in RSA_ROWS:
        compare_answer(asker, body_of(*body), "file", triple, f"vouched\nevidence 0 {triple}\n")


# A signature that is cut.
CUT = b"\0\0\0\x13\0\0\0\x0bssh-ed25519\0\0\0\x01"

# Bodies, and why they are refused.
REFUSED = [
    ((2, KEY, FILE, SHA256, SIGNATURE), "fault A11 B8\n"),
    ((1, KEY, b"\0\0\0\0", SHA256, SIGNATURE), "fault A11 B9\n"),
    ((1, KEY, FILE, b"\0\0\0\x04sha1", SIGNATURE), "fault A11 B10\n"),
    ((1, KEY, FILE, SHA256, CUT), "fault A11 B12 V1 106\n"),
    ((1, b"\0\0\0\x0b\0\0\0\x07ssh-dss", FILE, SHA256, SIGNATURE), "fault A11 B11 K3\n"),
    ((1, RSA_KEY, FILE, SHA256, SHA1_SIGNATURE), "fault A4\n"),
    ((1, RSA_KEY, FILE, SHA256, SIGNATURE), "fault A3\n"),
    ((1, RSA_KEY, b"\0\0\0\0", SHA256, SHA1_SIGNATURE), "fault A11 B9\n"),
    ((1, KEY, FILE, SHA256, SHA1_SIGNATURE), "fault A3\n"),
]


def refuses_bodies(asker):
    for body, fault in REFUSED:
        compare_answer(asker, body_of(*body), "file", TRIPLE, fault)


def answers_a_signature_of_ssh_keygen(asker):
    compare_answer(asker, REAL_SSHSIG, "file", "#", f"denied N6 0\n{REAL_EVIDENCE}")


def names_a_file_that_cannot_be_read(asker):
    for body, message in (("g", "f"), ("f", "g")):
        asker.compare(sshsig(body, message), "", "", "fault file g\n")


TESTS = (
    answers_a_file_signature, knows_the_signatures_of_rsa, refuses_bodies, answers_a_signature_of_ssh_keygen,
    names_a_file_that_cannot_be_read,
)
