#!/usr/bin/env python3
"""Puts keys, certificates and signatures that ssh-keygen and openssl make through the built program, by the scripts of
examples/ and by the program's own commands. Needs ssh-keygen (Debian: openssh-client), openssl 3 and the built program, which may be given as an argument."""
import base64
import hashlib
import os
import pathlib
import re
import shutil
import struct
import subprocess
import sys
import tempfile

HERE = pathlib.Path(__file__).resolve().parent
EXAMPLES = HERE.parent / "examples"
PROGRAM = pathlib.Path(sys.argv[1] if len(sys.argv) > 1 else HERE.parent / "crates" / "ssh_audit" / "out" / "ssh_audit").resolve()
NOW = "1750000000"
NO_LINE = "not admitted: no line admits it (N3)"
passed = failed = 0


def check(name, found, wanted):
    global passed, failed
    if found == wanted:
        passed += 1
    else:
        failed += 1
        print(f"FAILED {name}\n  wanted {wanted!r}\n  found  {found!r}")


def run(room, *words, stdin=None):
    ran = started(room, words, stdin)
    return ran.returncode, ran.stdout


def started(room, words, stdin=None, **environment):
    settings = {**os.environ, "SSH_AUDIT": str(PROGRAM), **environment}
    given = {"stdin": subprocess.DEVNULL} if stdin is None else {"input": stdin}
    return subprocess.run([str(w) for w in words], cwd=room, stdout=subprocess.PIPE, stderr=subprocess.PIPE, env=settings, check=False, **given)


def made(room, *words):
    status, out = run(room, *words)
    if status:
        sys.exit(f"{words[0]} failed: {words}")
    return out


# What `admits` and `trusts` say, and what the scripts say, which ask `login` and `host`: the line or the cause, and the
# lines that were passed over, with their codes.
ANSWERS = (re.compile(r": (?:admits|trusts) by line (\d+)|: does not (?:admit|trust): (N\d)"), re.compile(r"^(?:admitted|trusted) by line (\d+)|\((N\d)\)$"))
PASSED = (re.compile(r"^    (\d+) ([A-Z]\d+(?: [A-Z]?\d+)*): "), re.compile(r"^line (\d+): .* \(([A-Z]\d+(?: [A-Z]?\d+)*)\)$"))


def told(way, lines):
    """The line or the cause of an answer, and the lines that were passed over."""
    first = ANSWERS[way].search(lines[0] if lines else "")
    return first and first.groups(), [found.groups() for found in map(PASSED[way].match, lines[1:]) if found]


def asked_twice(room, script, command, key, file, *options):
    """What the script answers. The program's own command has to answer the same, but that it has a status of its own where
    OpenSSH may let in what is denied here: the scripts ask `login` and `host`, which say nothing of OpenSSH."""
    status, out = run(room, EXAMPLES / script, key, file, *options)
    lines = out.decode().split("\n")[:-1]
    ended, said = run(room, PROGRAM, command, "--key", key, *options, file)
    ended = 1 if ended == 3 else ended
    check(f"{command} {key} {options}", (ended, *told(0, said.decode().split("\n")[:-1])), (status, *told(1, lines)))
    return status, lines


def would_admit(room, key, lines, user="ann", address="192.0.2.1", *more):
    (room / "authorized_keys").write_text("".join(line + "\n" for line in lines))
    return asked_twice(room, "would_admit.py", "admits", key, "authorized_keys", "--user", user, "--address", address, "--now", NOW, *more)


def would_trust(room, key, lines, name="h.example", *more):
    (room / "known_hosts").write_text("".join(line + "\n" for line in lines))
    return asked_twice(room, "would_trust.py", "trusts", key, "known_hosts", "--host", name, "--now", NOW, *more)


def fingerprint(room, name):
    """The type in the file and what ssh-keygen says of it."""
    return public(room, name).split()[0] + " " + made(room, "ssh-keygen", "-l", "-f", name).decode().split()[1]


def public(room, name):
    return (room / name).read_text().strip()


def string(data):
    return struct.pack(">I", len(data)) + data


def keygen_rows(room):
    """What ssh-keygen makes: each kind of key by a line, and certificates by an authority's."""
    made(room, "ssh-keygen", "-q", "-t", "ed25519", "-N", "", "-f", "authority", "-C", "ca")
    other = public(room, "authority.pub")
    for kind, size in (("ed25519", None), ("rsa", "2048"), ("ecdsa", "256"), ("ecdsa", "384"), ("ecdsa", "521")):
        name = kind + (size or "")
        made(room, "ssh-keygen", "-q", "-t", kind, *(["-b", size] if size else []), "-N", "", "-f", name, "-C", "ann@laptop")
        made(room, "ssh-keygen", "-q", "-s", "authority", "-I", name, "-n", "ann,bob", "-V", "20250101:20260101", "-O", "no-x11-forwarding", name + ".pub")
        key = public(room, name + ".pub")
        good = "admitted by line {}, if the client's signature is good"
        both = "admitted by line {}, if the client's and the signer's signatures are good"
        every = "rights: port agent x11 pty rc"
        check(name, would_admit(room, name + ".pub", ["# a comment", other, key]), (0, [good.format(3), every]))
        check(name + " options", would_admit(room, name + ".pub", ["restrict,pty,command=\"backup\" " + key]), (0, [good.format(1), "rights: pty; command: backup"]))
        sought, signer = "looked for " + fingerprint(room, name + ".pub"), "looked for the signer " + fingerprint(room, "authority.pub")
        check(name + " no line", would_admit(room, name + ".pub", [other]), (1, [NO_LINE, sought]))
        refused = "line 1: its from= list does not permit this client (G8)"
        check(name + " from", would_admit(room, name + ".pub", ["from=\"10.0.0.0/8\" " + key, key]), (0, [good.format(2), every, refused]))
        authority = "cert-authority " + other
        check(name + " certificate", would_admit(room, name + "-cert.pub", [authority]), (0, [both.format(1), "rights: port agent pty rc"]))
        wrong = "line 1: the certificate is for none of the principals that are asked for (G12)"
        check(name + " principal", would_admit(room, name + "-cert.pub", [authority], "eve"), (1, [NO_LINE, signer, wrong]))
        if kind == "rsa":
            size = int(made(room, "ssh-keygen", "-l", "-f", name + ".pub").split()[0])
            short = "line 1: an RSA key has fewer bits than asked for (G20)"
            check(name + " long enough", would_admit(room, name + ".pub", [key], "ann", "192.0.2.1", "--rsa-minimum", size), (0, [good.format(1), every]))
            check(name + " too short", would_admit(room, name + ".pub", [key], "ann", "192.0.2.1", "--rsa-minimum", size + 1), (1, [NO_LINE, sought, short]))
        plain = "line 1: it is not an authority for certificates (G4)"
        check(name + " no authority", would_admit(room, name + "-cert.pub", [other]), (1, [NO_LINE, signer, plain]))


def unnamed_rows(room):
    """A certificate without principals, which ssh-keygen makes where -n is left out: for all, or for none."""
    authority = "cert-authority " + public(room, "authority.pub")
    shutil.copy(room / "ed25519.pub", room / "unnamed.pub")
    made(room, "ssh-keygen", "-q", "-s", "authority", "-I", "unnamed", "-V", "20250101:20260101", "unnamed.pub")
    both = "admitted by line 1, if the client's and the signer's signatures are good"
    signer, unnamed = "looked for the signer " + fingerprint(room, "authority.pub"), "line 1: the certificate names no principal (G19)"
    check("no principals", would_admit(room, "unnamed-cert.pub", [authority]), (0, [both, "rights: port agent x11 pty rc"]))
    check("no principals, for none", would_admit(room, "unnamed-cert.pub", [authority], "ann", "192.0.2.1", "--empty-principals", "never"), (1, [NO_LINE, signer, unnamed]))


def openssl_key(room, name, kind):
    """A private key of openssl's, and its blob as a public key of SSH."""
    words = {"ed25519": ["-algorithm", "ed25519"], "rsa": ["-algorithm", "RSA", "-pkeyopt", "rsa_keygen_bits:2048"], "ecdsa": ["-algorithm", "EC", "-pkeyopt", "ec_paramgen_curve:P-256"]}[kind]
    made(room, "openssl", "genpkey", *words, "-out", name)
    der = made(room, "openssl", "pkey", "-in", name, "-pubout", "-outform", "DER")
    if kind == "ed25519":
        return string(b"ssh-ed25519") + string(der[-32:])
    if kind == "ecdsa":
        return string(b"ecdsa-sha2-nistp256") + string(b"nistp256") + string(der[-65:])
    (room / (name + ".pem")).write_bytes(made(room, "openssl", "pkey", "-in", name, "-pubout"))
    return base64.b64decode(made(room, "ssh-keygen", "-i", "-m", "PKCS8", "-f", name + ".pem").split()[1])


def sign(room, name, kind, message):
    (room / "message").write_bytes(message)
    if kind == "ed25519":
        return made(room, "openssl", "pkeyutl", "-sign", "-inkey", name, "-rawin", "-in", "message")
    signature = made(room, "openssl", "dgst", "-sha512" if kind == "rsa" else "-sha256", "-sign", name, "message")
    if kind == "rsa":
        return signature
    numbers, rest = [], signature[2:]
    for _ in range(2):
        size = rest[1]
        numbers.append(rest[2 : 2 + size])
        rest = rest[2 + size :]
    return b"".join(string(number) for number in numbers)


def login(room, offer, algorithm, signature, *more):
    words = ["login", "--file", "authorized_keys", "--offer", base64.b64encode(offer).decode(), "--signature", signature.hex()]
    words += ["--algorithm", algorithm, "--session", "0123456789abcdef", "--user", "ann", "--address", "192.0.2.1", "--now", NOW]
    status, out = run(room, PROGRAM, *words, *more)
    return status, out.decode().split("\n")[:-1]


def signed_rows(room):
    """Logins that are really signed: the evidence verifies, and vouched for it is granted; with a byte changed it is not."""
    for kind, security_key in (("ed25519", False), ("rsa", False), ("ecdsa", False), ("ed25519", True), ("ecdsa", True)):
        name = f"signer-{kind}-{security_key}"
        blob = openssl_key(room, name, kind)
        algorithm = {"ed25519": "ssh-ed25519", "rsa": "rsa-sha2-512", "ecdsa": "ecdsa-sha2-nistp256"}[kind]
        if security_key:
            algorithm = "sk-" + algorithm + "@openssh.com"
            blob = string(algorithm.encode()) + blob[4 + struct.unpack(">I", blob[:4])[0] :] + string(b"ssh:")
        line = ("ssh-rsa" if kind == "rsa" else algorithm) + " " + base64.b64encode(blob).decode()
        (room / "authorized_keys").write_text(line + "\n")
        flags = b"\x01" + struct.pack(">I", 7) if security_key else b""
        _, lines = login(room, blob, algorithm, string(algorithm.encode()) + string(b"\0") + flags)
        message = bytes.fromhex(lines[-1].split(" ")[3])
        if security_key:
            message = hashlib.sha256(b"ssh:").digest() + flags + hashlib.sha256(message).digest()
        good = string(algorithm.encode()) + string(sign(room, name, kind, message)) + flags
        for signature, wanted in ((good, (0, b"", "granted line 1")), (good[:-10] + bytes([good[-10] ^ 1]) + good[-9:], (1, b"", "denied N6 0"))):
            _, answer = login(room, blob, algorithm, signature)
            (room / "answer").write_text("".join(line + "\n" for line in answer))
            status, out = run(room, EXAMPLES / "verify_evidence.py", "answer", "--vouch", "vouched")
            _, vouched = login(room, blob, algorithm, signature, "--vouch", "vouched")
            check(f"{name} {wanted[2]}", (status, out, vouched[0]), wanted)


def certificate_rows(room):
    """The signer's signature of a certificate of ssh-keygen's is verified."""
    for kind, size in (("ed25519", None), ("rsa", "2048"), ("ecdsa", "384")):
        name = "authority-" + kind
        made(room, "ssh-keygen", "-q", "-t", kind, *(["-b", size] if size else []), "-N", "", "-f", name)
        blob = openssl_key(room, "holder-" + kind, "ed25519")
        (room / f"holder-{kind}.pub").write_text("ssh-ed25519 " + base64.b64encode(blob).decode() + "\n")
        made(room, "ssh-keygen", "-q", "-s", name, *(["-t", "rsa-sha2-512"] if kind == "rsa" else []), "-I", "id", "-n", "ann", f"holder-{kind}.pub")
        certificate = base64.b64decode(public(room, f"holder-{kind}-cert.pub").split()[1])
        (room / "authorized_keys").write_text("cert-authority " + public(room, name + ".pub") + "\n")
        algorithm = "ssh-ed25519-cert-v01@openssh.com"
        _, lines = login(room, certificate, algorithm, string(b"ssh-ed25519") + string(b"\0"))
        message = bytes.fromhex(next(line for line in lines if line.startswith("evidence 0 ")).split(" ")[3])
        signature = string(b"ssh-ed25519") + string(sign(room, "holder-" + kind, "ed25519", message))
        _, answer = login(room, certificate, algorithm, signature)
        status, vouched = run(room, EXAMPLES / "verify_evidence.py", stdin="".join(line + "\n" for line in answer).encode())
        (room / "vouched").write_bytes(vouched)
        _, granted = login(room, certificate, algorithm, signature, "--vouch", "vouched")
        check(name, (status, vouched.count(b"\n"), granted[0]), (0, 2, "granted line 1"))


def host_rows(room):
    """Hosts' keys of each kind and their certificates: trusted, revoked, hashed, by a port, unknown."""
    authority = public(room, "authority.pub")
    for name in ("ed25519", "rsa2048", "ecdsa256", "ecdsa384", "ecdsa521"):
        key, sought = public(room, name + ".pub"), "looked for " + fingerprint(room, name + ".pub")
        good, none = "trusted by line {}, if the host's signature is good", "not trusted: no line admits it (N3)"
        file = name + ".pub"
        check(name + " host", would_trust(room, file, ["# a comment", "g " + key, "H.example " + key]), (0, [good.format(3)]))
        check(name + " no host", would_trust(room, file, ["g " + key]), (1, [none, sought]))
        check(name + " port", would_trust(room, file, ["h.example " + key, "[h.example]:2222 " + key], "h.example", "--port", "2222"), (0, [good.format(2)]))
        revoked = "not trusted: line 2 revokes the key, or the certificate's signer (N1)"
        check(name + " revoked", would_trust(room, file, ["h.example " + key, "@revoked g " + key]), (1, [revoked]))
        broken = "not trusted: line 2 may revoke any key, and cannot be read (N2)"
        check(name + " broken revocation", would_trust(room, file, ["h.example " + key, "@revoked * " + key.split()[0]]), (1, [broken]))
        unread = "line 1: it cannot be read: its list of host names has an empty item (G1 L16)"
        check(name + " unreadable", would_trust(room, file, ["a,,h.example " + key, "h.example " + key]), (0, [good.format(2), unread]))
        (room / "hashed").write_text("h.example " + key + "\n")
        made(room, "ssh-keygen", "-q", "-H", "-f", "hashed")
        check(name + " hashed", would_trust(room, file, [public(room, "hashed")]), (0, [good.format(1)]))
        shutil.copy(room / file, room / "host.pub")
        made(room, "ssh-keygen", "-q", "-s", "authority", "-h", "-I", name, "-n", "h.example", "-V", "20250101:20260101", "host.pub")
        both = "trusted by line {}, if the host's and the signer's signatures are good"
        check(name + " host certificate", would_trust(room, "host-cert.pub", ["@cert-authority *.example " + authority]), (0, [both.format(1)]))
        signer = "looked for the signer " + fingerprint(room, "authority.pub")
        check(name + " other authority", would_trust(room, "host-cert.pub", ["@cert-authority *.example " + key]), (1, [none, signer]))
        user = "line 1: the certificate is of the other kind: a user's for a host, or a host's for a user (G9)"
        check(name + " user's certificate", would_trust(room, name + "-cert.pub", ["@cert-authority *.example " + authority]), (1, [none, signer, user]))


def refused(name, ran, wanted):
    """Status 2, nothing on standard output, and one line with this text on standard error."""
    told = ran.stderr.decode()
    check(name, (ran.returncode, ran.stdout, told.count("\n"), wanted in told, "Traceback" in told), (2, b"", 1, True, False))
    if wanted not in told:
        print(f"  told    {told!r}")


def asked_files(room):
    """Files that hold no key, or not one, and how each is refused."""
    key, other = public(room, "ed25519.pub"), public(room, "rsa2048.pub")
    made(room, "openssl", "genpkey", "-algorithm", "ed25519", "-out", "pem")
    yield "a missing file", "missing", None, "missing cannot be read: No such file"
    yield "a folder", ".", None, ". cannot be read: Is a directory"
    yield "a private key", "ed25519", None, "is a private key"
    yield "a private key in PEM", "pem", None, "is a private key"
    yield "a public key in PEM", "asked", made(room, "openssl", "pkey", "-in", "pem", "-pubout").decode(), "ssh-keygen -i -m PKCS8"
    yield "an SSH2 key", "asked", made(room, "ssh-keygen", "-e", "-f", "rsa2048.pub").decode(), "ssh-keygen -i -f"
    yield "no key", "asked", "", "holds no public key"
    yield "a comment", "asked", "# " + key + "\n", "holds no public key"
    yield "options before the key", "asked", "restrict " + key + "\n", "holds no public key"
    yield "a host's name before the key", "asked", "h " + key + "\n", "holds no public key"
    yield "a cut key", "asked", key.split()[0] + " " + key.split()[1][:-2] + "\n", "holds no public key"
    yield "another type", "asked", "ssh-rsa " + key.split()[1] + "\n", "holds no public key"
    yield "two keys", "asked", key + "\n" + other + "\n", "holds 2 lines: hand in one key at a time"
    yield "a short key", "asked", "ssh-ed25519 AAAAC3NzaC1lZDI1NTE5AAAAAA==\n", "they are damaged (fault A1 K7)"
    yield "a key with bytes after it", "asked", "ssh-ed25519 AAAAC3NzaC1lZDI1NTE5\n", "they are damaged (fault A1 K1 V1 15)"
    yield "a retired key", "asked", "ssh-dss AAAAB3NzaC1kc3M=\n", "ssh-dss is retired (fault A1 K3)"
    yield "an unknown type", "asked", "frob AAAABGZyb2I=\n", "its type is unknown (fault A1 K2)"


def edge_rows(room):
    """What cannot be asked has status 2 and a sentence, never a traceback or the status of a denial."""
    key, pipe = public(room, "ed25519.pub"), "/dev/stdin"
    admit = lambda file, trust, *more: [EXAMPLES / "would_admit.py", file, trust, "--user", "ann", "--address", "192.0.2.1", "--now", NOW, *more]
    trusts = lambda file, trust, *more: [EXAMPLES / "would_trust.py", file, trust, "--host", "h", "--now", NOW, *more]
    both = (("admit", admit, key + "\n", "admitted by line 1, if the client's signature is good\nrights: port agent x11 pty rc\n"), ("trust", trusts, f"h {key}\n", "trusted by line 1, if the host's signature is good\n"))
    for name, words, content, answer in both:
        (room / "trust").write_text(content)
        for file in (pipe, "-"):
            check(f"{name}: the file by {file}", run(room, *words("ed25519.pub", file), stdin=content.encode()), (0, answer.encode()))
            check(f"{name}: the key by {file}", run(room, *words(file, "trust"), stdin=(key + "\n").encode()), (0, answer.encode()))
            refused(f"{name}: both by {file}", started(room, words(file, file), (key + "\n").encode()), "it can be read once only")
        substitution = ["bash", "-c", '"$0" <(cat "$1") <(cat "$2") "${@:3}"', *words("ed25519.pub", "trust")]
        check(f"{name}: two pipes", run(room, *substitution), (0, answer.encode()))
        for told, file, text, wanted in asked_files(room):
            if text is not None:
                (room / "asked").write_text(text)
            refused(f"{name}: {told}", started(room, words(file, "trust")), wanted)
        refused(f"{name}: a missing trust file", started(room, words("ed25519.pub", "missing")), "missing cannot be read: No such file")
        refused(f"{name}: a folder as trust file", started(room, words("ed25519.pub", ".")), ". cannot be read: Is a directory")
        refused(f"{name}: a trust file without an end", started(room, words("ed25519.pub", "/dev/zero")), "more than 67,108,864 bytes (fault A7)")
        refused(f"{name}: a bad moment", started(room, words("ed25519.pub", "trust", "--now", "x")), "--now has a value that cannot be read (fault value now)")
        not_built = started(room, words("ed25519.pub", "trust"), SSH_AUDIT=str(room / "missing"))
        refused(f"{name}: no program", not_built, "is not there: `rt run < stdin` in crates/ssh_audit builds it")
        refused(f"{name}: no program but a text", started(room, words("ed25519.pub", "trust"), SSH_AUDIT=str(room / "trust")), "cannot be run")
        for program, wanted in (("true", "the program gave no answer (status 0)"), ("false", "the program gave no answer (status 1)")):
            refused(f"{name}: {program}", started(room, words("ed25519.pub", "trust"), SSH_AUDIT=shutil.which(program)), wanted)
        with open("/dev/full", "wb") as full:
            ran = subprocess.run([str(word) for word in words("ed25519.pub", "trust")], cwd=room, stdout=full, stderr=subprocess.PIPE, env={**os.environ, "SSH_AUDIT": str(PROGRAM)}, check=False)
        check(f"{name}: a full device", (ran.returncode, ran.stderr.count(b"\n"), b"Traceback" in ran.stderr), (2, 1, False))
    refused("a bad address", started(room, admit("ed25519.pub", "trust", "--address", "h")), "--address is not an IPv4 or IPv6 address (fault A6)")
    refused("a bad zone", started(room, admit("ed25519.pub", "trust", "--zone", "x")), "--zone has a value that cannot be read (fault value zone)")
    refused("another key's algorithm", started(room, admit("ed25519.pub", "trust", "--algorithm", "rsa-sha2-512")), "does not go with this key or certificate (fault A3)")
    refused("RSA with SHA-1", started(room, admit("rsa2048.pub", "trust", "--algorithm", "ssh-rsa")), "RSA with SHA-1 is not taken")
    refused("a bad port", started(room, trusts("ed25519.pub", "trust", "--port", "65536")), "--port has a value that cannot be read (fault value port)")
    sought = "looked for " + fingerprint(room, "ed25519.pub")
    unread = ["line 1: it cannot be read: its options have not the form that sshd(8) gives (G1 L2)", "sshd may read a line that cannot be read here: count it as access until it is mended"]
    check("an unreadable line", would_admit(room, "ed25519.pub", ["restrict,,pty " + key]), (1, [NO_LINE, sought, *unread]))
    verifying = "not admitted: the first line that admits it, or the certificate, wants a security key that verifies its user; sshd asks that of security keys alone (N5)"
    check("verify-required", would_admit(room, "ed25519.pub", ["verify-required " + key]), (1, [verifying]))


def evidence_edge_rows(room):
    """An answer that cannot be verified has status 2, and evidence that is not good status 1."""
    verify = lambda *words, **how: started(room, [EXAMPLES / "verify_evidence.py", *words], **how)
    blob = base64.b64decode(public(room, "ed25519.pub").split()[1])
    line = lambda key, message, signature: f"evidence 0 {key.hex() or '-'} {message.hex() or '-'} {signature.hex() or '-'}\n".encode()
    refused("a missing answer", verify("missing"), "missing cannot be read: No such file")
    refused("an empty answer", verify(stdin=b""), "the answer lists no evidence: it is empty")
    refused("a fault", verify(stdin=b"fault A9\n"), "the answer lists no evidence: fault A9")
    refused("no hexadecimal", verify(stdin=b"evidence 0 zz 00 00\n"), "has not its form")
    refused("two fields", verify(stdin=b"evidence 0 00 00\n"), "has not its form")
    refused("no ASCII", verify(stdin=b"evidence 0 \xff 00 00\n"), "has not its form")
    refused("no openssl", verify(stdin=line(blob, b"", b""), PATH=os.path.dirname(sys.executable)) if shutil.which("openssl", path=os.path.dirname(sys.executable)) is None else verify("missing"), "openssl is missing" if shutil.which("openssl", path=os.path.dirname(sys.executable)) is None else "missing cannot be read")
    for name, evidence, wanted in (
        ("no key", line(b"", b"", b""), "evidence 0: NOT GOOD (a field of the key or the signature is cut short)"),
        ("an unknown type", line(string(b"frob"), b"", b""), "evidence 0: NOT GOOD (the key is of a type that this script does not know)"),
        ("an unknown curve", line(string(b"ecdsa-sha2-frob") + string(b"frob") + string(b""), b"", b""), "evidence 0: NOT GOOD (the key is on a curve that this script does not know)"),
        ("another algorithm", line(blob, b"", string(b"ssh-rsa") + string(b"")), "evidence 0: NOT GOOD (the signature's algorithm does not fit its key)"),
        ("bytes after it", line(blob, b"", string(b"ssh-ed25519") + string(b"") + b"x"), "evidence 0: NOT GOOD (there are bytes after the signature)"),
        ("a stand-in", line(blob, b"", string(b"ssh-ed25519") + string(b"\0")), "evidence 0: NOT GOOD"),
    ):
        ran = verify(stdin=evidence)
        check(f"evidence: {name}", (ran.returncode, ran.stdout, ran.stderr.decode()), (1, b"", wanted + "\n"))
    ran = verify("--vouch", "missing/file", stdin=line(blob, b"", b""))
    check("a vouch file that cannot be written", (ran.returncode, b"missing/file cannot be written" in ran.stderr, b"Traceback" in ran.stderr), (2, True, False))


def main():
    for need in ("ssh-keygen", "openssl"):
        if shutil.which(need) is None:
            print(f"{need} is missing: nothing was tried\n0 passed, 1 failed")
            return 1
    if not PROGRAM.exists():
        print(f"{PROGRAM} is not built: nothing was tried\n0 passed, 1 failed")
        return 1
    with tempfile.TemporaryDirectory() as folder:
        room = pathlib.Path(folder)
        keygen_rows(room)
        unnamed_rows(room)
        signed_rows(room)
        certificate_rows(room)
        host_rows(room)
        edge_rows(room)
        evidence_edge_rows(room)
    print(f"{passed} passed, {failed} failed")
    return 1 if failed else 0


if __name__ == "__main__":
    sys.exit(main())
