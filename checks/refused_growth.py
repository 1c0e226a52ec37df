#!/usr/bin/env python3
"""Runs the program once for each growth of memory that it asks for, with that growth refused, alone and with all later
ones. Each run has to print the row's own answer, or `fault A8` with status 2; of a review `fault A8` may stand behind the
lines of the files at the front, in the place of all that follows. Needs gcc and the built program, which may
be given as an argument."""
import base64
import hashlib
import os
import pathlib
import re
import shutil
import subprocess
import sys
import tempfile

HERE = pathlib.Path(__file__).resolve().parent
CRATE = HERE.parent / "crates" / "ssh_audit"
PROGRAM = pathlib.Path(sys.argv[1] if len(sys.argv) > 1 else CRATE / "out" / "ssh_audit")
OUT_OF_MEMORY = (2, b"fault A8\n")
# The last line of a file under review, in both forms.
END = re.compile(rb"[ -~]*: (?:fault A\d|\d+ lines, )[ -~]*\n|\{\"file\":\"[ -~]*\",\"what\":\"end\",[ -~]*\n")
# A certificate of an unknown kind, with two principals, a critical option and an extension.
CERTIFICATE = (
    b"ssh-ed25519-cert-v01@openssh.com "
    b"AAAAIHNzaC1lZDI1NTE5LWNlcnQtdjAxQG9wZW5zc2guY29tAAAAAQcAAAAgAAAAAAAAAAAAAAAAAAAAAAAAAAAAAAAAAAAA"
    b"AAAAAAAAAAAAAAAABQAAAAMAAAACaWQAAAAPAAAAA2FubgAAAARhXGL/AAAAAAAAAAD//////////wAAACAAAAANZm9yY2Ut"
    b"Y29tbWFuZAAAAAsAAAAHYSAiYiIgYwAAABIAAAAKcGVybWl0LXB0eQAAAAAAAAAAAAAAMwAAAAtzc2gtZWQyNTUxOQAAACAA"
    b"AAAAAAAAAAAAAAAAAAAAAAAAAAAAAAAAAAAAAAAAAQAAABQAAAALc3NoLWVkMjU1MTkAAAABqg=="
)


def run(words, stdin, preload=None, index=0, later=False):
    environment = dict(os.environ)
    if preload is not None:
        environment["LD_PRELOAD"] = str(preload)
        environment["REFUSED"] = str(index)
        if later:
            environment["REFUSED_ON"] = "1"
    done = subprocess.run([str(PROGRAM), *words], input=stdin, capture_output=True, env=environment, check=False)
    return (done.returncode, done.stdout), b"refused" in done.stderr


# The same key's certificate for `ann`, by the key whose last byte is 1, valid from 100 to 200, with no options.
PLAIN_CERTIFICATE = (
    "AAAAIHNzaC1lZDI1NTE5LWNlcnQtdjAxQG9wZW5zc2guY29tAAAAAQcAAAAgAAAAAAAAAAAAAAAAAAAAAAAAAAAAAAAAAAAAAAAAAAAAAAAAAAAA"
    "BQAAAAEAAAACaWQAAAAHAAAAA2FubgAAAAAAAABkAAAAAAAAAMgAAAAAAAAAAAAAAAAAAAAzAAAAC3NzaC1lZDI1NTE5AAAAIAAAAAAAAAAAAAAA"
    "AAAAAAAAAAAAAAAAAAAAAAAAAAABAAAAFAAAAAtzc2gtZWQyNTUxOQAAAAGq"
)
SIGNER = b"ssh-ed25519 AAAAC3NzaC1lZDI1NTE5AAAAIAAAAAAAAAAAAAAAAAAAAAAAAAAAAAAAAAAAAAAAAAAB"

# The name `[h]:2222`, hashed by ssh-keygen.
HASHED = b"|1|VlQCaiW1+U7/co5nYlEPYWJvj74=|sGtCcOsAz7rsnFiMHHGUTaU2BAY="


def host_rows(login, key, triple):
    """The key of the stored run as a host's, over files that trust it, name it hashed, revoke it, and may revoke it."""
    words = ["host", "--file", "-", "--vouch", "-", "--hash", "01020304", "--host", "H", "--port", "2222", "--now", "150"]
    for option in ("--offer", "--signature"):
        words += [option, login[login.index(option) + 1]]
    vouched = b" ".join([triple[0], b"01020304", triple[2]])
    key = b" ".join(key.split(b" ")[:2])
    trusted = b"[h]:2222,g " + key
    for name, lines in (
        ("host", [b"x", b"h ssh-rsa AAAA", trusted]),
        ("hashed host", [HASHED + b" " + key]),
        ("revoked host", [trusted, b"@revoked x " + key]),
        ("unreadable revocation", [trusted, b"@revoked x"]),
        ("many hosts", [*100 * [b"# " + key], trusted]),
    ):
        yield name, words, b"\n".join([vouched, b"", *lines, b""])


def changed(words, **values):
    """The words with these values of options."""
    new = list(words)
    for option, value in values.items():
        new[new.index("--" + option) + 1] = value
    return new


def in_file(words, option, name):
    """The words with a text in the file of this name in the place of this option's own."""
    at = words.index("--" + option)
    return [*words[:at], f"--{option}-file", name, *words[at + 2 :]]


def all_vouched(words, line):
    """Standard input that vouches for all that this login is told to verify, over a file of this line."""
    (_, answer), _ = run(words, b"\n" + line)
    listed = [text.split(b" ", 2)[2] for text in answer.splitlines() if text.startswith(b"evidence ")]
    return b"\n".join([*listed, b"", line])


def login_rows(words, vouched, key):
    """Logins by certificates, in time and not, and with a forced command, the certificate made a user's; expiry times;
    files of more than one read, whose last line has no LF."""
    certified = changed(words, algorithm="ssh-ed25519-cert-v01@openssh.com", offer=PLAIN_CERTIFICATE)
    authority = b"cert-authority " + SIGNER
    yield "certificate", certified, all_vouched(certified, authority)
    yield "certificate that is not yet valid", changed(certified, now="99"), b"\n" + authority
    blob = base64.b64decode(CERTIFICATE.split(b" ")[1]).replace(b"\3\0\0\0\2id", b"\1\0\0\0\2id")
    forced = changed(certified, offer=base64.b64encode(blob).decode(), now="1700000000")
    for command in (b'a \\"b\\" c', b"a b c"):
        line = b'cert-authority,command="' + command + b'" ' + SIGNER
        yield f"forced command {command.decode()}", forced, all_vouched(forced, line)
    dated = b'expiry-time="20240229",from="192.0.2.0/24",environment="A=\\"b" ' + key
    for now in ("1709161200", "1709161201"):
        zoned = changed(words, now=now) + ["--zone", "CET-1CEST,M3.5.0,M10.5.0/3"]
        yield f"expiry time at {now}", zoned, vouched + b"\n\n" + dated
    many = b"\n".join(100 * [b"# " + key])
    for option in ("offer", "signature"):
        yield f"a missing file of the {option}", in_file(words, option, "missing"), vouched + b"\n\n" + key
    yield "an offer in a file", in_file(words, "offer", "-"), key
    yield "a long file", words, vouched + b"\n\n" + many + b"\n" + key
    yield "a long file without the key", words, b"\n" + many


def string(data):
    """A string of the SSH protocols (RFC 4251 section 5)."""
    return len(data).to_bytes(4, "big") + data


KEY = string(b"ssh-ed25519") + string(bytes(32))
SIGNATURE = string(b"ssh-ed25519") + string(b"\xaa")


def private_body():
    """An unencrypted private key with the comment `abc` (PROTOCOL.key)."""
    section = bytes([0, 0, 0, 1] * 2) + KEY + string(bytes(64)) + string(b"abc") + b"\x01\x02"
    return b"openssh-key-v1\0" + string(b"none") * 2 + string(b"") + bytes([0, 0, 0, 1]) + string(KEY) + string(section)


def body_rows():
    """A file signature of no bytes (PROTOCOL.sshsig), for its namespace and another one, vouched for and not; faults;
    and `show` of it and of a private body."""
    named = string(b"file") + string(b"") + string(b"sha256")
    body = b"SSHSIG" + bytes([0, 0, 0, 1]) + string(KEY) + named + string(SIGNATURE)
    signed = b"SSHSIG" + named + string(hashlib.sha256(b"").digest())
    vouched = " ".join(part.hex() for part in (KEY, signed, SIGNATURE)).encode()
    words = ["sshsig", "--body", "-", "--message", os.devnull, "--vouch", "-", "--namespace"]
    yield "vouched file signature", [*words, "file"], vouched + b"\n\n" + body
    yield "file signature that nobody vouches for", [*words, "file"], b"\n" + body
    yield "another namespace", [*words, "git"], b"\n" + body
    yield "cut file signature", [*words, "file"], b"\n" + body[:110]
    yield "show a file signature", ["show", "--kind", "sshsig", "--file", "-"], body
    yield "show a private key", ["show", "--kind", "private", "--file", "-"], private_body()


def rewrite_rows(key):
    """Files written anew, a long one too; a kind that is none; and the entries that are read alike."""
    words = ["rewrite", "--file", "-", "--kind"]
    yield "rewritten keys", [*words, "auth"], b" PTY,from=\"\\\"\"\t" + key + b" \r\n# x\nfrob"
    yield "rewritten hosts", [*words, "known"], b"h,g  " + key + b"\n@revoked  x\n"
    yield "a long file", [*words, "auth"], 300 * (b"  " + key + b"\n")
    yield "readable keys", ["readable", "--file", "-"], b"restrict,,pty " + key + b"\ntunnel=\"x\" " + key + b"\nPTY  " + key
    yield "no kind", [*words, "key"], key


def hash_rows(key):
    """Names hashed with two salts, with none, and with fewer than there are names; a file with nothing to hash."""
    line = b"h,g  " + key
    words = ["hash", "--file", "-", "--salts"]
    yield "no salts", [*words, os.devnull], line
    yield "nothing to hash", [*words, os.devnull], b"*.x  " + key + b" \r\n@revoked  x"
    with tempfile.NamedTemporaryFile() as salts:
        salts.write(bytes(range(40)))
        salts.flush()
        yield "hashed hosts", [*words, salts.name], b"@cert-authority " + line + b"\n# x"
        yield "too few salts", [*words, salts.name], 2 * (line + b"\n")


def mark_of(key):
    """The fingerprint of the key on a line."""
    return "SHA256:" + base64.b64encode(hashlib.sha256(base64.b64decode(key.split(b" ")[1])).digest()).decode().rstrip("=")


def key_rows(key):
    """A key and a certificate asked about over a trust file on standard input and one that is not there; a key's file that
    holds none; codes that are explained, one that is unknown, and `usage`."""
    with tempfile.TemporaryDirectory() as folder:
        plain, certified = pathlib.Path(folder) / "key", pathlib.Path(folder) / "certificate"
        plain.write_bytes(key)
        certified.write_bytes(b"ssh-ed25519-cert-v01@openssh.com " + PLAIN_CERTIFICATE.encode())
        words = ["admits", "--user", "ann", "--address", "192.0.2.1", "--now", "150", "--key"]
        yield "admits", [*words, str(plain), "-", "missing"], b'from="10.0.0.0/8" ' + key + b'\nrestrict,command="a" ' + key
        yield "admits by nothing", [*words, str(plain), "-"], b"ssh-dss AAAA\n"
        yield "admits a certificate", [*words, str(certified), "-"], b"cert-authority " + SIGNER
        yield "admits no key", [*words, "-", "missing"], b"ssh-rsa AAAA\n"
        yield "admits another address", [*changed(words, address="x"), str(plain), "-"], key
        marked = [*words[:-1], "--fingerprint", mark_of(key)]
        yield "admits a fingerprint", [*marked, "-", "missing"], b"no-ptty " + key + b"\n" + key
        yield "admits no key of a fingerprint", [*marked, "-"], b"ssh-dss AAAA\n"
        yield "admits no key of a fingerprint, as JSON", [*marked, "--form", "json", "-"], b"ssh-dss AAAA\n"
        words = ["trusts", "--host", "H", "--now", "150", "--key", str(plain)]
        yield "trusts", [*words, "-"], b"h " + key
        yield "trusts by a line that ssh may refuse", [*words, "-"], b"h,\0 " + key + b"\nh " + key
        yield "trusts at another port", [*words, "--port", "2222", "-"], b"h " + key + b"\n@revoked x " + key
    yield "explain", ["explain", "G8", "N3"], b""
    yield "explain all", ["explain"], b""
    yield "explain nothing", ["explain", "G2"], b""
    yield "explain usage", ["explain", "usage"], b""


def review_rows(key):
    """Reviews in both forms: entries with all that a record may tell, one shadowed, unreadable lines, a missing file; a long
    file; one key's records; findings that are all, none and no list; a list of names."""
    line = b'from="10.0.0.0/8",restrict,command="a \\"b\\"",permitopen="h:1",expiry-time="20240229" ' + key + b"\xff"
    authority = b'cert-authority,principals="ann," ' + SIGNER
    lines = b"\n".join([b"# c", line, key, b"no-touch-required,verify-required " + key, authority, b"no-ptty " + key, b"ssh-dss AAAA"])
    words = ["review", "--kind", "auth", "--now", "1800000000"]
    for form in ("text", "json"):
        formed = [*words, "--form", form]
        yield f"review as {form}", [*formed, "-", "missing", "-"], lines
        yield f"review as {form}, all findings", [*formed, "--findings", "all", "--zone", "CET-1", "-"], lines
        yield f"review as {form}, no findings", [*formed, "--findings", "none", "-"], lines
        yield f"a long review as {form}", [*formed, "-"], b"\n".join(40 * [b"restrict " + key])
    mark = "SHA256:" + base64.b64encode(hashlib.sha256(base64.b64decode(key.split(b" ")[1])).digest()).decode().rstrip("=")
    for value in (mark, "SHA256:", "missing"):
        yield f"review for {value}", [*words, "--key", value, "-"], lines
    yield "review of hosts for a key", ["review", "--kind", "known", "--now", "1", "--key", mark, "-"], b"h " + key + b"\n@revoked h " + key + b"\nh,, " + key
    yield "review with no list", [*words, "--findings", "F1,,F2", "-"], lines
    yield "review of a list of names", [*words, "missing", "--files-from", "-"], b"/dev/null\nnone\n"
    yield "review of a list that is none", [*words, "--files-from", "-"], b"missing\nno\tname"
    yield "review of hosts", ["review", "--kind", "known", "--now", "1", "-"], b"H,*.x " + key + b"\n@revoked h " + key + b"\n@revoked x\n" + HASHED + b" " + key


def rows():
    """The stored run, the same login over files and vouch files that give reasons, a denial and faults; `show`; `host`;
    `sshsig`; `rewrite`; `hash`; `admits`, `trusts` and `explain`; `review`."""
    stored = (CRATE / "stdin").read_bytes()
    words, vouched, rest = stored.split(b"\n", 2)
    key = next(line for line in rest.split(b"\n") if line.startswith(b"ssh-"))
    yield "stored run", [], stored
    yield "bad lines before", [], b"\n".join([words, vouched, b"", b"ssh-dss AAAA", b"no-pty " + key, b"ssh-rsa AAAA", key, b""])
    yield "no line", [], b"\n".join([words, vouched, b"", b"ssh-dss AAAA", b"ssh-ed25519 AAAA", b""])
    yield "nothing vouched", [], b"\n".join([words, b"", b"ssh-dss AAAA", key, b""])
    yield "bad vouch line", [], b"\n".join([words, b"zz", b"", key, b""])
    yield "bad words", [], b"login --file\n"
    yield "show", ["show", "--kind", "key", "--file", "-"], key + b"\n"
    yield "show a certificate", ["show", "--kind", "cert", "--file", "-"], CERTIFICATE + b"\n"
    yield "show a bad line", ["show", "--kind", "key", "--file", "-"], b"ssh-rsa AAAA\n"
    words = words.decode().split(" ")
    yield "words of the command line", words, stored.split(b"\n", 1)[1]
    yield from login_rows(words, vouched, key)
    yield from host_rows(words, key, vouched.split(b" "))
    yield from body_rows()
    yield from rewrite_rows(key)
    yield from hash_rows(key)
    yield from key_rows(key)
    yield from review_rows(key)


def without_memory(words, own):
    """What may be printed where memory is refused: of a review also after each of its files."""
    fronts, front = [b""], b""
    for line in own[1].splitlines(keepends=True) if words[:1] == ["review"] else ():
        front += line
        if END.fullmatch(line):
            fronts.append(front)
    return [(2, front + OUT_OF_MEMORY[1]) for front in fronts]


def check(preload, name, words, stdin):
    own, _ = run(words, stdin)
    cut = without_memory(words, own)
    growths = 0
    for later in (False, True):
        index = 1
        while True:
            answer, refused = run(words, stdin, preload, index, later)
            if answer != own and answer not in cut:
                print(f"{name}: growth {index} refused: {answer}, and not {own}")
                return False
            if not refused:
                break
            growths += 1
            index += 1
    print(f"{name}: status {own[0]}, {growths} runs with a growth refused")
    return True


def main():
    """The last line is 'N passed, M failed', of rows. What cannot run has failed."""
    if shutil.which("gcc") is None:
        print("gcc is missing: nothing was tried\n0 passed, 1 failed")
        return 1
    if not PROGRAM.exists():
        print(f"{PROGRAM} is not built: nothing was tried\n0 passed, 1 failed")
        return 1
    with tempfile.TemporaryDirectory() as folder:
        preload = pathlib.Path(folder) / "refuse_growth.so"
        subprocess.run(["gcc", "-O2", "-Wall", "-shared", "-fPIC", "-o", str(preload), str(HERE / "refuse_growth.c"), "-ldl"], check=True)
        results = [check(preload, *row) for row in rows()]
    print(f"{results.count(True)} passed, {results.count(False)} failed")
    return 0 if all(results) else 1


if __name__ == "__main__":
    sys.exit(main())
