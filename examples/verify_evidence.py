#!/usr/bin/env python3
"""Verifies the signatures that an answer of ssh_audit rests on, with the openssl command.

usage: verify_evidence.py [ANSWER] [--vouch FILE]

ANSWER is what `ssh_audit login`, `host` or `sshsig` printed (standard input where it is left out). Each
`evidence` line is verified: Ed25519, RSA with SHA-2, ECDSA, and both kinds of security keys; of a
certificate its signer's signature too. The triples of those that are good are written to FILE (standard
output where it is left out): a vouch file. A line for each piece of evidence goes to standard error.

Needs openssl 3. The status is 0 where all evidence is good, 1 where some is not, and 2 where it cannot
be verified: an answer that cannot be read or lists no evidence, a FILE that cannot be written, no
openssl 3. Why stands on standard error, and no FILE is written then.
"""
import argparse
import hashlib
import os
import re
import shutil
import struct
import subprocess
import sys
import tempfile

sys.dont_write_bytecode = True
try:
    from asking import Refused, ended, read_once
except ImportError:
    print("verify_evidence.py: asking.py has to stand beside it", file=sys.stderr)
    sys.exit(2)

CURVES = {
    b"nistp256": (bytes.fromhex("06082a8648ce3d030107"), "sha256"),
    b"nistp384": (bytes.fromhex("06052b81040022"), "sha384"),
    b"nistp521": (bytes.fromhex("06052b81040023"), "sha512"),
}
RSA_HASHES = {b"rsa-sha2-256": "sha256", b"rsa-sha2-512": "sha512"}
EC_KEY = bytes.fromhex("06072a8648ce3d0201")
RSA_KEY = bytes.fromhex("06092a864886f70d0101010500")
ED25519_KEY = bytes.fromhex("302a300506032b6570032100")


class Fields:
    """The fields of a blob, from the left (RFC 4251 section 5)."""

    def __init__(self, data):
        self.data = data

    def take(self, size):
        if len(self.data) < size:
            raise ValueError("a field of the key or the signature is cut short")
        field, self.data = self.data[:size], self.data[size:]
        return field

    def string(self):
        return self.take(struct.unpack(">I", self.take(4))[0])

    def number(self):
        return int.from_bytes(self.string(), "big")


def der(tag, content):
    size = len(content)
    if size < 128:
        return bytes([tag, size]) + content
    digits = size.to_bytes((size.bit_length() + 7) // 8, "big")
    return bytes([tag, 128 | len(digits)]) + digits + content


def der_number(value):
    return der(0x02, value.to_bytes(value.bit_length() // 8 + 1, "big"))


def public_key(blob):
    """The type name, the key as SubjectPublicKeyInfo, the hash of ECDSA, and a security key's application."""
    fields = Fields(blob)
    kind = fields.string()
    if kind == b"ssh-rsa":
        exponent, modulus = fields.number(), fields.number()
        inner = der(0x30, der_number(modulus) + der_number(exponent))
        return kind, der(0x30, der(0x30, RSA_KEY) + der(0x03, b"\0" + inner)), None, None
    if kind in (b"ssh-ed25519", b"sk-ssh-ed25519@openssh.com"):
        key = ED25519_KEY + fields.string()
        return kind, key, None, fields.string() if kind.startswith(b"sk-") else None
    if kind.startswith((b"ecdsa-sha2-", b"sk-ecdsa-sha2-")):
        oid, digest = curve_of(fields.string())
        key = der(0x30, der(0x30, EC_KEY + oid) + der(0x03, b"\0" + fields.string()))
        return kind, key, digest, fields.string() if kind.startswith(b"sk-") else None
    raise ValueError("the key is of a type that this script does not know")


def curve_of(name):
    if name not in CURVES:
        raise ValueError("the key is on a curve that this script does not know")
    return CURVES[name]


def openssl(key, message, signature, digest):
    """Whether openssl takes the signature; Ed25519 has no digest."""
    with tempfile.TemporaryDirectory() as room:
        for name, data in (("key", key), ("message", message), ("signature", signature)):
            with open(os.path.join(room, name), "wb") as file:
                file.write(data)
        if digest is None:
            words = ["pkeyutl", "-verify", "-pubin", "-keyform", "DER", "-inkey", "key", "-rawin", "-in", "message", "-sigfile", "signature"]
        else:
            words = ["dgst", "-" + digest, "-keyform", "DER", "-verify", "key", "-signature", "signature", "message"]
        ran = subprocess.run(["openssl", *words], cwd=room, stdout=subprocess.DEVNULL, stderr=subprocess.DEVNULL, check=False)
        return ran.returncode == 0


def is_good(key_blob, message, signature_blob):
    kind, key, digest, application = public_key(key_blob)
    fields = Fields(signature_blob)
    algorithm, signature = fields.string(), fields.string()
    if application is not None:
        # a security key signs hashes, its flags and its counter (PROTOCOL.u2f)
        rest = fields.take(5)
        message = hashlib.sha256(application).digest() + rest + hashlib.sha256(message).digest()
    if fields.data:
        raise ValueError("there are bytes after the signature")
    if kind == b"ssh-rsa":
        digest = RSA_HASHES.get(algorithm)
    if algorithm not in (RSA_HASHES if kind == b"ssh-rsa" else (kind,)):
        raise ValueError("the signature's algorithm does not fit its key")
    if digest and kind != b"ssh-rsa":
        inner = Fields(signature)
        signature = der(0x30, der_number(inner.number()) + der_number(inner.number()))
    return openssl(key, message, signature, digest)


def evidence_of(path):
    """The evidence that an answer lists: its index, its three fields, and their bytes."""
    text = read_once(path).decode("utf-8", "replace")
    lines = [line for line in text.split("\n") if line.startswith("evidence ")]
    if not lines:
        raise Refused("the answer lists no evidence: " + (text.split("\n")[0][:80] or "it is empty"))
    for line in lines:
        words = line.rstrip("\r").split(" ")
        if len(words) != 5 or not all(re.fullmatch("-|([0-9a-f]{2})+", word) for word in words[2:]):
            raise Refused("a line of evidence has not its form, an index and three fields in hexadecimal: " + line[:80])
        yield words[1], words[2:], [b"" if word == "-" else bytes.fromhex(word) for word in words[2:]]


def needs_openssl():
    if shutil.which("openssl") is None:
        raise Refused("openssl is missing (Debian: openssl)")
    told = subprocess.run(["openssl", "version"], stdout=subprocess.PIPE, check=False).stdout.decode(errors="replace").split()
    if told[:1] != ["OpenSSL"] or int(told[1].split(".")[0]) < 3:
        raise Refused(f"openssl 3 is wanted, and this is {' '.join(told[:2])}")


def verdict_on(index, triple):
    """Whether this evidence is good, told on standard error too."""
    try:
        good, why = is_good(*triple), ""
    except (ValueError, struct.error) as error:
        good, why = False, f" ({error})"
    print(f"evidence {index}: {'good' if good else 'NOT GOOD'}{why}", file=sys.stderr)
    return good


def write(path, lines):
    try:
        with open(path, "w", encoding="ascii") as file:
            file.writelines(lines)
    except OSError as error:
        raise Refused(f"{path} cannot be written: {error.strerror}") from None


def main():
    parser = argparse.ArgumentParser(description="Verifies evidence.", epilog=__doc__, formatter_class=argparse.RawDescriptionHelpFormatter)
    parser.add_argument("answer", nargs="?", default="-")
    parser.add_argument("--vouch")
    asked = parser.parse_args()
    found = list(evidence_of(asked.answer))
    needs_openssl()
    good = [" ".join(words) + "\n" for index, words, triple in found if verdict_on(index, triple)]
    if asked.vouch is None:
        sys.stdout.writelines(good)
    else:
        write(asked.vouch, good)
    return 0 if len(good) == len(found) else 1


if __name__ == "__main__":
    sys.exit(ended(main))
