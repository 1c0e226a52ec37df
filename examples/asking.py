"""What would_admit.py and would_trust.py share: a key and a trust file, each read once, and how the program is asked.

What cannot be asked is `Refused`: a sentence on standard error, and status 2."""
import base64
import os
import stat
import struct
import subprocess
import sys
import tempfile

HERE = os.path.dirname(os.path.abspath(__file__))
PROGRAM = os.environ.get("SSH_AUDIT", os.path.join(HERE, "..", "crates", "ssh_audit", "out", "ssh_audit"))
FILE_LIMIT = 67_108_864
CERTIFICATE = "-cert-v01@openssh.com"
# The files that were read.
READ = []

# How a file begins that holds a key in another form, and what to do with it.
OTHER_FORMS = (
    ("-----BEGIN PUBLIC KEY", "is a public key in PEM: `ssh-keygen -i -m PKCS8 -f FILE` prints the form that is wanted"),
    ("-----BEGIN RSA PUBLIC KEY", "is a public key in PEM: `ssh-keygen -i -m PEM -f FILE` prints the form that is wanted"),
    ("---- BEGIN SSH2 PUBLIC KEY", "is a public key in SSH2's form: `ssh-keygen -i -f FILE` prints the form that is wanted"),
    ("-----BEGIN SSH SIGNATURE", "is a signature and no key"),
    ("-----BEGIN", "is a private key, or another text in armour: hand in the public key, FILE.pub"),
    ("PuTTY-User-Key-File", "is a private key of PuTTY's: hand in the public key in OpenSSH's form"),
)

REASONS = {
    "G1": "it cannot be read",
    "G3": "it is an authority for certificates, and a plain key is offered",
    "G4": "it is not an authority for certificates",
    "G6": "its expiry time is past",
    "G7": "its from= list cannot be read, so it permits nobody",
    "G8": "its from= list does not permit this client",
    "G9": "the certificate is of the other kind: a user's for a host, or a host's for a user",
    "G10": "the certificate is not yet valid",
    "G11": "the certificate is no longer valid",
    "G12": "the certificate is for none of the principals that are asked for",
    "G13": "the certificate has a critical option that is not known:",
    "G14": "a critical option stands twice in the certificate",
    "G15": "the data of a critical option has not its form",
    "G16": "the certificate's source-address cannot be read",
    "G17": "the certificate's source-address does not permit this address",
    "G18": "the line and the certificate force different commands",
    "G19": "the certificate names no principal",
    "G20": "an RSA key has fewer bits than asked for",
}

LINES = {
    "L1": "it is longer than 65,536 bytes",
    "L2": "its options have not the form that sshd(8) gives",
    "L3": "an option is unknown",
    "L4": "an option has a value that it may not have, or lacks one",
    "L5": "an option stands twice that may stand once",
    "L6": "an expiry time is not a date or time of day",
    "L7": "the key is missing",
    "L8": "the type is not a key's",
    "L9": "ssh-dss is retired",
    "L10": "the base64 cannot be decoded",
    "L11": "the bytes are not a key",
    "L12": "the key is of another type than the line says",
    "L13": "the type is a certificate's",
    "L14": "its first field begins with @ and is not a marker",
    "L15": "its hashed name has not the form of one",
    "L16": "its list of host names has an empty item",
}

FAULTS = {
    "A1": "the bytes that are offered are not a key or a certificate",
    "A3": "the algorithm does not go with this key or certificate",
    "A4": "RSA with SHA-1 is not taken: ask for rsa-sha2-256 or rsa-sha2-512",
    "A5": "the certificate's own signature does not fit its signer's key, or is RSA with SHA-1",
    "A6": "--address is not an IPv4 or IPv6 address",
    "A7": "the trust file has more than 67,108,864 bytes",
    "A8": "the program got no memory",
    "A9": "the trust file cannot be read",
}

KEYS = {
    "K2": "its type is unknown",
    "K3": "ssh-dss is retired",
}


class Refused(Exception):
    """What cannot be asked, in a sentence."""


def ended(main):
    """The status of a script: main's own, or 2 with a sentence where something could not be asked. Never a traceback."""
    name = os.path.basename(sys.argv[0])
    try:
        status = main()
        sys.stdout.flush()
        return status
    except Refused as refused:
        said = str(refused)
    except Exception as error:  # pylint: disable=broad-except
        said = f"the script failed: {type(error).__name__}: {error}"
    try:
        sys.stdout.flush()
    except OSError:
        os.dup2(os.open(os.devnull, os.O_WRONLY), sys.stdout.fileno())
    print(f"{name}: {said}", file=sys.stderr)
    return 2


def read_once(path, most=FILE_LIMIT + 1):
    """The bytes of a file or a pipe, `-` for standard input; no more than the program would have to refuse."""
    try:
        with os.fdopen(os.dup(0), "rb") if path == "-" else open(path, "rb") as file:
            found = os.fstat(file.fileno())
            place = (found.st_dev, found.st_ino)
            if place in READ and (path == "-" or not stat.S_ISREG(found.st_mode)):
                raise Refused(f"{path} is both files, and it can be read once only")
            READ.append(place)
            return file.read(most)
    except (OSError, ValueError) as error:
        raise Refused(f"{path} cannot be read: {getattr(error, 'strerror', None) or error}") from None


class Offer:
    """A public key or a certificate, as ssh-keygen writes it: `text` its base64, `kind` its type."""

    def __init__(self, path):
        lines = [line.strip() for line in read_once(path).decode("utf-8", "replace").split("\n")]
        lines = [line for line in lines if line and not line.startswith("#")]
        for begin, told in OTHER_FORMS:
            if lines and lines[0].startswith(begin):
                raise Refused(f"{path} {told}")
        if len(lines) > 1:
            raise Refused(f"{path} holds {len(lines)} lines: hand in one key at a time")
        words = lines[0].split() if lines else []
        if len(words) < 2:
            raise Refused(f"{path} holds no public key")
        self.kind, self.text = words[0], words[1]
        if self.inner_kind() != self.kind:
            raise Refused(f"{path} holds no public key: a line of the key's type, its base64 and a comment is wanted")
        self.certified = self.kind.endswith(CERTIFICATE)

    def inner_kind(self):
        """The type inside the base64; none where there is none. The program judges all that follows it."""
        try:
            blob = base64.b64decode(self.text, validate=True)
            (size,) = struct.unpack(">I", blob[:4])
            return blob[4 : 4 + size].decode("ascii")
        except (ValueError, struct.error):
            return None

    def plain_kind(self):
        """The type of the key, or of the certified key."""
        plain = self.kind[: -len(CERTIFICATE)] if self.certified else self.kind
        return plain + "@openssh.com" if self.certified and plain.startswith("sk-") else plain


def string(data):
    return struct.pack(">I", len(data)) + data


def stand_in(algorithm):
    """A signature blob that stands for a real one. A security key's says: touched and verified."""
    blob = string(algorithm.encode()) + string(b"\0")
    if algorithm.startswith("sk-"):
        blob += b"\x05" + struct.pack(">I", 1)
    return blob.hex()


def run(words):
    """The program's status, 0 or 1, and the lines of its answer."""
    if not os.path.isfile(PROGRAM):
        raise Refused(f"the program {os.path.normpath(PROGRAM)} is not there: `rt run < stdin` in crates/ssh_audit builds it, or SSH_AUDIT names another one")
    try:
        ran = subprocess.run([PROGRAM, *words], stdin=subprocess.DEVNULL, stdout=subprocess.PIPE, check=False)
    except (OSError, ValueError) as error:
        raise Refused(f"{os.path.normpath(PROGRAM)} cannot be run: {error}") from None
    lines = ran.stdout.decode("ascii", "replace").split("\n")[:-1]
    if ran.returncode not in (0, 1) or not lines:
        raise Refused(fault(lines[0]) if lines and lines[0].startswith("fault ") else f"the program gave no answer (status {ran.returncode})")
    return ran.returncode, lines


def fault(line):
    """A fault of the program's, in words."""
    _, code, *rest = line.split(" ")
    if code == "usage":
        said = "the program cannot read the words that it was given"
    elif code == "value":
        said = f"--{rest[0]} has a value that cannot be read"
    else:
        said = FAULTS.get(code, "the program has a fault")
        if code == "A1" and rest:
            said += ": " + KEYS.get(rest[0], "they are damaged")
    return f"{said} ({line})"


def ask(subcommand, offer, trust, options):
    """The answer of `login` or `host` about this offer, its stand-in signatures being vouched for: its lines, with the
    reasons of the lines before the one that admits. The trust file is read once, and handed to the program both times."""
    content = read_once(trust)
    with tempfile.TemporaryDirectory() as room:
        copy = os.path.join(room, "trust")
        with open(copy, "wb") as file:
            file.write(content)
        words = [subcommand, "--file", copy, "--offer", offer.text]
        words += [word for name, value in options if value is not None for word in ("--" + name, value)]
        status, lines = run(words)
        if status == 1 and lines[0].startswith("denied N6 "):
            vouched = os.path.join(room, "vouched")
            with open(vouched, "w", encoding="ascii") as file:
                file.writelines(line.split(" ", 2)[2] + "\n" for line in lines if line.startswith("evidence "))
            _, granted = run([*words, "--vouch", vouched])
            lines = granted + [line for line in lines if line.startswith("reason ")]
    return lines


def wanted(offer):
    """What a line has to hold: the type and fingerprint of the key, or of the certificate's signer."""
    with tempfile.NamedTemporaryFile("w", suffix=".pub") as file:
        file.write(f"{offer.kind} {offer.text}\n")
        file.flush()
        _, lines = run(["show", "--kind", "cert" if offer.certified else "key", "--file", file.name])
    said = dict(line.split(" ", 1) for line in lines)
    return "the signer " + said["signer"] if offer.certified else said["type"] + " " + said["fingerprint"]


def say_denial(offer, refusal, code, said):
    print(f"{refusal}: {said} ({code})")
    if code == "N3":
        print("looked for " + wanted(offer))


def say_reasons(lines):
    """Why the lines before the one that admits do not, or all."""
    reasons = [line.split(" ", 3)[1:] for line in lines if line.startswith("reason ")]
    for number, code, *rest in reasons:
        text = REASONS.get(code, code)
        if code == "G1" and rest:
            text += ": " + LINES.get(rest[0].split(" ")[0], rest[0])
        elif rest:
            text += " " + rest[0]
        print(f"line {number}: {text} ({' '.join([code, *rest])})")
    return [number for number, code, *_ in reasons if code == "G1"]
