#!/usr/bin/env python3
"""Asks the built program about worked keys, certificates, signatures and bodies that are cut to every shorter length,
have each length prefix raised to ffffffff, or are one byte past the limit. What it has to answer is computed here from
the rows of fields of RFC 4253, PROTOCOL.certkeys, PROTOCOL.key and PROTOCOL.sshsig: the first field that does not stand
whole in the bytes, by its code and the place where it begins.

usage: cut_vectors.py [PROGRAM]

The last line is 'N passed, M failed', of the answers; the status is 0 where nothing failed."""
import base64
import os
import pathlib
import subprocess
import sys
import tempfile

sys.dont_write_bytecode = True
import program
from program import FILES, Tally, login, show, sshsig

DEFAULT = pathlib.Path(program.CRATE) / "out" / "ssh_audit"
LONGEST = 262_144


class Field:
    """A field's bytes, the fault of one that is cut, by the place where it begins in the whole, and the field's own rows
    where it holds any: each a row and how its faults are told, by the place in the field's text."""

    def __init__(self, data, fault, *inner, prefixed=True):
        self.data, self.fault, self.inner, self.prefixed = data, fault, inner, prefixed


def string(text, fault, *inner):
    """A string of the SSH protocols (RFC 4251 section 5), whose text is bytes or a row."""
    text = text if isinstance(text, bytes) else blob(text)
    return Field(len(text).to_bytes(4, "big") + text, fault, *inner)


def plain(data, fault):
    """A field without a length before it: a number, or bytes that all begin with."""
    return Field(data, fault, prefixed=False)


def blob(row):
    return b"".join(field.data for field in row)


def told(code):
    """The fault V1 after this code, with its place."""
    return lambda place: f"{code}V1 {place}"


def placed(row, begin=0):
    """Each field with the place where it begins."""
    for field in row:
        yield begin, field
        begin += len(field.data)


def cuts(row):
    """Each shorter length, and the fault of the first field that does not stand whole in so many bytes."""
    for length in range(len(blob(row))):
        yield length, next(field.fault(begin) for begin, field in placed(row) if begin + len(field.data) > length)


def raised(row, begin=0, fault=None):
    """The place of each length prefix, also inside fields, and the fault where it is ffffffff. Inside a field that has a
    row of its own the places are told by that row."""
    for at, field in placed(row):
        if field.prefixed:
            yield begin + at, fault(at) if fault else field.fault(at)
        for inner, inner_fault in field.inner:
            yield from raised(inner, begin + at + 4, inner_fault)


# ---- the rows of fields


def key_row(last, code=""):
    """An Ed25519 key (RFC 8709 section 4)."""
    return [string(b"ssh-ed25519", told(f"{code}K1 ")), string(bytes(31) + last, told(f"{code}K1 "))]


def rsa_row():
    """An RSA key (RFC 4253 section 6.6)."""
    return [string(text, told("K1 ")) for text in (b"ssh-rsa", b"\1\0\1", b"\0\x80")]


def signature_row(algorithm=b"ssh-ed25519", flags=False):
    """A signature of one byte; a security key's has flags and a counter (PROTOCOL.u2f)."""
    row = [string(algorithm, told("")), string(b"\xaa", told(""))]
    return row + [plain(b"\1", told("")), plain(b"\0\0\0\7", told(""))] * flags


def certificate_row():
    """A user's certificate of an Ed25519 key (PROTOCOL.certkeys)."""
    outer = told("C1 ")
    name = [string(b"ann", lambda place: "C5 99")]
    signer, signature = key_row(b"\1"), signature_row()
    return [
        string(b"ssh-ed25519-cert-v01@openssh.com", outer),
        string(b"\7", outer),
        string(bytes(32), told("C2 K1 ")),
        plain((5).to_bytes(8, "big"), outer),
        plain((1).to_bytes(4, "big"), outer),
        string(b"id", outer),
        string(name, outer, (name, None)),
        plain((100).to_bytes(8, "big"), outer),
        plain((200).to_bytes(8, "big"), outer),
        *(string(b"", outer) for _ in ("critical options", "extensions", "reserved")),
        string(signer, outer, (signer, told("C3 K1 "))),
        string(signature, outer, (signature, told("C7 "))),
    ]


def section_row():
    """The private section of such a body; it begins at 98."""
    inside = lambda place: f"B12 V1 {place + 98}"
    return [
        *(plain((1).to_bytes(4, "big"), inside) for _ in range(2)),
        *(string(text, inside) for text in (b"ssh-ed25519", bytes(32), bytes(64), b"abc")),
        plain(b"\1\2", lambda place: "B5"),
    ]


def private_row(section):
    """An unencrypted private key (PROTOCOL.key)."""
    outer, public = told("B12 "), key_row(b"\0")
    return [
        plain(b"openssh-key-v1\0", lambda place: "B1"),
        *(string(text, outer) for text in (b"none", b"none", b"")),
        plain((1).to_bytes(4, "big"), outer),
        string(public, outer, (public, told("B11 K1 "))),
        string(section, outer, (section, None)),
    ]


def section_rows():
    """Bodies whose section is cut, and whose length says so: it is no multiple of eight, or a field does not stand whole.
    All fields but the padding stand from 134 on."""
    section = section_row()
    for length, fault in cuts(section[:-1]):
        part = [plain(blob(section)[:length], told(""))]
        yield f"a private section cut to {length}", body("private")(blob(private_row(part))), "B6" if length % 8 else fault


def sshsig_row():
    """A file signature's body (PROTOCOL.sshsig)."""
    outer = told("B12 ")
    public, signature = key_row(b"\0"), signature_row()
    return [
        plain(b"SSHSIG", lambda place: "B1"),
        plain((1).to_bytes(4, "big"), outer),
        string(public, outer, (public, told("B11 K1 "))),
        *(string(text, outer) for text in (b"file", b"", b"sha256")),
        string(signature, outer, (signature, lambda place: f"B12 V1 {place + 91}")),
    ]


# ---- how each is asked about


def offered(data):
    return login("keys", "vouched", offer=base64.b64encode(data).decode(), algorithm="ssh-rsa"), b""


def signed(data):
    return login("keys", "vouched", signature=data.hex() or "-"), b""


def line(name, kind):
    return lambda data: (show(kind, "-"), name + b" " + base64.b64encode(data) + b"\n")


def body(kind):
    return lambda data: (show(kind, "-"), data)


def file_signature(data):
    return sshsig("-", "message", "file vouched"), data


CERTIFICATE_NAME = b"ssh-ed25519-cert-v01@openssh.com"


def offered_certificate(length, fault):
    """An offer whose type name is cut off is a plain key's."""
    return "A1 K1 V1 0" if length < 4 + len(CERTIFICATE_NAME) else f"A1 {fault}"


def line_fault(code):
    """A line's fault; without any base64 it has no key."""
    return lambda length, fault: "L7" if length == 0 else code + fault


def after(code):
    return lambda length, fault: code + fault


def ways():
    """What is cut, how it is asked about, and what is told of its own fault."""
    yield "a key", key_row(b"\0"), offered, after("A1 ")
    yield "a key on a line", key_row(b"\0"), line(b"ssh-ed25519", "key"), line_fault("L11 ")
    yield "an RSA key", rsa_row(), offered, after("A1 ")
    yield "an RSA key on a line", rsa_row(), line(b"ssh-rsa", "key"), line_fault("L11 ")
    yield "a signature", signature_row(), signed, after("A2 ")
    yield "a security key's signature", signature_row(b"sk-ssh-ed25519@openssh.com", True), signed, after("A2 ")
    yield "a certificate", certificate_row(), offered, offered_certificate
    yield "a certificate on a line", certificate_row(), line(CERTIFICATE_NAME, "cert"), line_fault("")
    yield "a private key", private_row(section_row()), body("private"), after("")
    yield "a file signature", sshsig_row(), body("sshsig"), after("")
    yield "a file signature that is asked about", sshsig_row(), file_signature, after("A11 ")


def longer_rows():
    """One byte after each."""
    key, name = blob(key_row(b"\0")), b"ssh-ed25519"
    for what, data, ask, fault in (
        ("a key", key, offered, "A1 K1 V4 51"),
        ("a key on a line", key, line(name, "key"), "L11 K1 V4 51"),
        ("a signature", blob(signature_row()), signed, "A2 V4 20"),
        ("a certificate", blob(certificate_row()), offered, "A1 C1 V4 213"),
        ("a private key", blob(private_row(section_row())), body("private"), "B13"),
        ("a file signature", blob(sshsig_row()), body("sshsig"), "B13"),
    ):
        yield f"{what} and a byte", ask(data + b"\0"), fault


def long_rows():
    """Blobs of bytes ff at the limit and one byte past it."""
    for name, ask, at, past in (
        ("a key", line(b"ssh-ed25519", "key"), "L11 K1 V1 0", "L11 K8"),
        ("a certificate", line(CERTIFICATE_NAME, "cert"), "C1 V1 0", "C9"),
        ("a private key", body("private"), "B1", "B14"),
        ("a file signature", body("sshsig"), "B1", "B14"),
        ("a file signature that is asked about", file_signature, "A11 B1", "A11 B14"),
    ):
        yield f"{name} at the limit", ask(LONGEST * b"\xff"), at
        yield f"{name} past the limit", ask((LONGEST + 1) * b"\xff"), past


def rows():
    for name, row, ask, own in ways():
        whole = blob(row)
        for length, fault in cuts(row):
            yield f"{name} cut to {length}", ask(whole[:length]), own(length, fault)
        for place, fault in raised(row):
            data = whole[:place] + b"\xff" * 4 + whole[place + 4 :]
            yield f"{name} with a length of ffffffff at {place}", ask(data), own(place + 4, fault)
    yield from section_rows()
    yield from longer_rows()
    yield from long_rows()


def main():
    path, tally = os.path.abspath(sys.argv[1] if len(sys.argv) > 1 else DEFAULT), Tally()
    if not os.access(path, os.X_OK):
        print(f"{path} is not built: nothing was tried\n0 passed, 1 failed")
        return 1
    with tempfile.TemporaryDirectory() as folder:
        room = pathlib.Path(folder)
        for name, text in FILES.items():
            (room / name).write_text(text, encoding="utf-8")
        (room / "message").write_bytes(program.SIGNED_MESSAGE)
        for name, (asked, data), fault in rows():
            ran = subprocess.run([path, *asked], cwd=room, input=data, capture_output=True, timeout=program.SECONDS, check=False)
            tally.check(name, (ran.returncode, ran.stdout, ran.stderr), (2, f"fault {fault}\n".encode(), b""))
    print(f"{tally.passed} passed, {tally.failed} failed")
    return 1 if tally.failed else 0


if __name__ == "__main__":
    sys.exit(main())
