"""Writes the trust files that run.py measures: the same bytes on each machine and each day.

Every key is one that strict readers take: Ed25519 keys have 32 bytes, RSA moduli are odd and have 3072 bits, ECDSA
points lie on their curve. One line in fifty is empty or a comment. The last line of each file admits its key, LAST or
SIGNER; no other line does; no line holds ABSENT. KINDS says what the files are.
"""

import base64
import dataclasses
import hashlib
import hmac
import itertools
import typing

FILE_LIMIT = 67_108_864  # the most bytes that ssh_audit takes of a trust file
SIZES = {"1": 1, "1k": 1_000, "10k": 10_000, "100k": 100_000, "64MiB": None}

# The prime, the bytes of a coordinate, and the base point (FIPS 186-4 appendix D; a is -3 on each curve).
CURVES = {
    b"nistp256": (2**256 - 2**224 + 2**192 + 2**96 - 1, 32,
        0x6B17D1F2E12C4247F8BCE6E563A440F277037D812DEB33A0F4A13945D898C296,
        0x4FE342E2FE1A7F9B8EE7EB4A7C0F9E162BCE33576B315ECECBB6406837BF51F5),
    b"nistp384": (2**384 - 2**128 - 2**96 + 2**32 - 1, 48,
        0xAA87CA22BE8B05378EB1C71EF320AD746E1D3B628BA79B9859F741E082542A385502F25DBF55296C3A545E3872760AB7,
        0x3617DE4A96262C6F5D9E98BF9292DC29F8F41DBD289A147CE9DA3113B5F0B8C00A60B1CE1D7E819D7A431D7C90EA0E5F),
    b"nistp521": (2**521 - 1, 66,
        0xC6858E06B70404E9CD9E3ECB662395B4429C648139053FB521F828AF606B4D3DBAA14B5E77EFE75928FE1DC127A2FFA8DE3348B3C1856A429BF97E7E31C2E5BD66,
        0x11839296A789A3BC0045C8A5FB42C7D1BD998F54449579B446817AFBD17273E662C97EE72995EF42640C550B9013FAD0761353C7086A272C24088BE94769FD16650),
}  # fmt: skip


def string(data):
    """A string of the SSH protocols (RFC 4251 section 5)."""
    return len(data).to_bytes(4, "big") + data


def mpint(number):
    return string(number.to_bytes(number.bit_length() // 8 + 1, "big"))


def b64(data):
    return base64.b64encode(data).decode("ascii")


def multiples(curve, count):
    """The points G, 2G, 3G and so on, uncompressed (SEC 1 section 2.3.3)."""
    p, size, gx, gy = CURVES[curve]
    x, y = gx, gy
    for _ in range(count):
        yield b"\x04" + x.to_bytes(size, "big") + y.to_bytes(size, "big")
        rise, run = (y - gy, x - gx) if x != gx else (3 * x * x - 3, 2 * y)
        slope = rise * pow(run, -1, p) % p
        x = (slope * slope - x - gx) % p
        y = (slope * (gx - x) - gy) % p


POINTS = {curve: list(multiples(curve, 64)) for curve in CURVES}


class Draw:
    """Bytes and numbers that look random, drawn from a name by SHAKE-128."""

    def __init__(self, name):
        self.blocks = (hashlib.shake_128(f"{name} {i}".encode()).digest(1 << 20) for i in itertools.count())
        self.block, self.at = next(self.blocks), 0

    def bytes(self, count):
        if self.at + count > len(self.block):
            self.block, self.at = next(self.blocks), 0
        self.at += count
        return self.block[self.at - count : self.at]

    def below(self, bound):
        return int.from_bytes(self.bytes(4), "big") % bound


# ---- keys (RFC 4253 section 6.6, RFC 5656, RFC 8709, PROTOCOL.u2f): the fields after the type name


def rsa(draw):
    return mpint(65537) + mpint(int.from_bytes(draw.bytes(384), "big") | 1 << 3071 | 1)


def ed25519(draw):
    return string(draw.bytes(32))


def ecdsa(draw, curve):
    return string(curve) + string(POINTS[curve][draw.below(len(POINTS[curve]))])


APPLICATION = string(b"ssh:")
KEYS = [  # the type name, how many in a hundred keys of a mixed file, and the fields
    (b"ssh-ed25519", 66, ed25519),
    (b"ssh-rsa", 15, rsa),
    (b"ecdsa-sha2-nistp256", 10, lambda draw: ecdsa(draw, b"nistp256")),
    (b"ecdsa-sha2-nistp384", 3, lambda draw: ecdsa(draw, b"nistp384")),
    (b"ecdsa-sha2-nistp521", 2, lambda draw: ecdsa(draw, b"nistp521")),
    (b"sk-ssh-ed25519@openssh.com", 2, lambda draw: ed25519(draw) + APPLICATION),
    (b"sk-ecdsa-sha2-nistp256@openssh.com", 2, lambda draw: ecdsa(draw, b"nistp256") + APPLICATION),
]
LAST, ABSENT = (string(b"ssh-ed25519") + string(byte * 32) for byte in (b"\x11", b"\x22"))
ONE_KEY = [(b"ssh-ed25519", 1, lambda draw: string(b"\x11" * 32))]  # LAST, and no other


def type_of(key):
    return key[4 : 4 + int.from_bytes(key[:4], "big")]


# ---- certificates (PROTOCOL.certkeys)

# Made by ssh-keygen: a user's, for the principal ann, always valid, with permit-pty. Both keys are Ed25519's, so the
# public key is the string at byte 72, after the type and the nonce, and at the end stand the strings of the signer's
# key, 51 bytes, and of the signature, 83 bytes.
CERTIFICATE = base64.b64decode(
    "AAAAIHNzaC1lZDI1NTE5LWNlcnQtdjAxQG9wZW5zc2guY29tAAAAIDzw0PYj0+MTAW7CjCvKa3FnTyu0rZVshIZS5qqI2EffAAAAIHvaOjhgxWhW"
    "vox06TMrzbEAcYET6fbP0vDvEVfrLzxaAAAAAAAAAAAAAAABAAAABWJlbmNoAAAABwAAAANhbm4AAAAAAAAAAP//////////AAAAAAAAABIAAAAK"
    "cGVybWl0LXB0eQAAAAAAAAAAAAAAMwAAAAtzc2gtZWQyNTUxOQAAACCxef1v3nPNI4WASJorlGbO5eOz7WYlySmSW/MZnSJPXgAAAFMAAAALc3No"
    "LWVkMjU1MTkAAABAvlpudxc1Phf+aCNAmhtzbiR/Rer5IM/003qTKyNz2OCw1hQU78+26lvxJ5Wdo4hEH/xmr0l/UabcJas20iCpBw=="
)
CERTIFIED = string(b"ssh-ed25519") + CERTIFICATE[72:108]
SIGNER, SIGNATURE = CERTIFICATE[-138:-87], CERTIFICATE[-83:]


def issued_by(signer):
    """What the signer signs, and the certificate: for SIGNER the real one, else with its signature as a stand-in."""
    signed = CERTIFICATE[:-138] + signer
    return signed, signed + string(SIGNATURE)


# ---- what stands in front of the key: options, or the names of a host

CLIENT, ADDRESS = "a" * 63, "192.0.2.1"  # the host and the address of each login
HOST = "wanted.example.org"  # the name that is looked up
FROM_STARS = 'from="' + "*a" * 9 + '*b"'  # matches CLIENT up to its end, and then not
OPTIONS = [
    'from="10.{m}.0.0/16,*.dep{n}.example.org,!bad.dep{n}.example.org"',
    'from="192.0.2.{m}",no-agent-forwarding,no-X11-forwarding',
    'command="/usr/local/bin/backup --job {n} --to \\"store {m}\\"",restrict',
    "restrict,pty",
    'expiry-time="2{m:03}0215Z"',
    'restrict,command="/usr/bin/rsync --server --sender -logDtpr . /srv/data{n}/",from="2001:db8:{m:x}::/48"',
    'environment="TEAM=team{n}",permitopen="db{n}.example.org:5432"',
    "no-port-forwarding,no-X11-forwarding,no-agent-forwarding,no-pty",
]
NAMES = [
    *12 * ["node{n}.dep{m}.example.org,10.{m}.7.1"],
    *4 * ["node{n}.example.org"],
    *2 * ["[node{n}.example.org]:2222"],
    "*.zone{n}.example.org,!old.zone{n}.example.org",
    "node{n}.example.org,node{n},192.0.2.{m},2001:db8::{m:x}",
]
MARKERS = ["@revoked ", "@cert-authority ", *198 * [""]]


def nothing(draw):
    return ""


def one_of(templates):
    """A front that is drawn from the templates, each with numbers of its own."""

    def front(draw):
        number = draw.below(1_000_000)
        text = templates[draw.below(len(templates))].format(n=number, m=number % 256)
        return text and text + " "

    return front


def hashed(name, salt):
    return f"|1|{b64(salt)}|{b64(hmac.digest(salt, name.encode(), 'sha1'))} "


def hashed_name(draw):
    return hashed(f"node{draw.below(1_000_000)}.example.org", draw.bytes(20))


def marked(front):
    return lambda draw: MARKERS[draw.below(len(MARKERS))] + front(draw)


@dataclasses.dataclass(frozen=True)
class Kind:
    """A kind of files: how they are asked, a table of keys, and what stands in front of each and of the last."""

    asked: str  # login, authority (a login with a certificate) or host
    keys: list
    front: typing.Callable = nothing
    last_front: str = ""
    last: bytes = LAST


KINDS = {
    "ed25519": Kind("login", KEYS[:1]),
    "mixed": Kind("login", KEYS),
    "options": Kind("login", KEYS, one_of(OPTIONS + 2 * len(OPTIONS) * [""]), f'restrict,pty,from="{ADDRESS}" '),
    "stars": Kind("login", ONE_KEY, one_of([FROM_STARS]), f'from="{ADDRESS}" '),
    "authorities": Kind(
        "authority", KEYS, one_of(['cert-authority,principals="ann,job{n}"']), 'cert-authority,principals="ann" ', SIGNER
    ),
    "names": Kind("host", KEYS, marked(one_of(NAMES)), HOST + " "),
    "hashed": Kind("host", KEYS, marked(hashed_name), hashed(HOST, b"\x33" * 20)),
    "shared": Kind("host", ONE_KEY, hashed_name, hashed(HOST, b"\x33" * 20)),
}


# ---- files

FILLERS = [b"\n", b"   \n", b"#\n", b"# added by the provisioning job\n"]


FIRST_WORDS = [name for name, _, _ in KEYS] + [b"@revoked"]  # of lines that say enough without the rest


def line_of(front, key, comment):
    return f"{front}{type_of(key).decode()} {b64(key)} {comment}\n".encode()


def endless(kind):
    """Lines without end, each with its key, if it has one. A longer file begins as a shorter one does."""
    draw = Draw(f"lines of {kind}")
    front = KINDS[kind].front
    makers = [(name, fields) for name, share, fields in KINDS[kind].keys for _ in range(share)]
    while True:
        if draw.below(50) == 0:
            yield FILLERS[draw.below(len(FILLERS))], None
            continue
        name, fields = makers[draw.below(len(makers))]
        key = string(name) + fields(draw)
        yield line_of(front(draw), key, f"user{draw.below(1_000_000)}@host{draw.below(1_000)}.example.org"), key


def whole(kind, count):
    """The lines of a file of `count` lines, or with None of as many as fit in FILE_LIMIT bytes."""
    last_key = KINDS[kind].last
    last = line_of(KINDS[kind].last_front, last_key, "the-last-line")
    room = FILE_LIMIT - len(last)
    for line, key in itertools.islice(endless(kind), count and count - 1):
        room -= len(line)
        if room < 0:
            break
        yield line, key
    yield last, last_key


@dataclasses.dataclass
class TrustFile:
    kind: str
    size: str
    path: str
    lines: int = 0
    keys: int = 0
    bytes: int = 0
    sha256: str = ""
    firsts: dict = dataclasses.field(default_factory=dict)  # of FIRST_WORDS, the first line's key and number


def write(folder, kind, size):
    file = TrustFile(kind, size, f"{folder}/{kind}-{size}")
    digest = hashlib.sha256()
    with open(file.path, "wb") as out:
        for line, key in whole(kind, SIZES[size]):
            out.write(line)
            digest.update(line)
            file.lines += 1
            file.bytes += len(line)
            if key:
                file.keys += 1
                first_word = line.split(b" ", 1)[0]
                if first_word in FIRST_WORDS:
                    file.firsts.setdefault(first_word.decode(), (key, file.lines))
    file.sha256 = digest.hexdigest()
    return file
