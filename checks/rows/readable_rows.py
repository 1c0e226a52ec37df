"""`readable` on worked files: the entries that OpenSSH reads as they are read here, and on standard error what is left out;
or a fault."""
import base64

from program import HINT, readable
from rows.keys import K0, K1, RSA, SK, SK_NAME

KEY = f"ssh-ed25519 {K0}"


def sk(application):
    """An Ed25519 key of 32 zero bytes on a security key with this application."""
    blob = base64.b64decode(SK)[: -len(b"\0\0\0\4ssh:")] + len(application).to_bytes(4, "big") + application
    return f"{SK_NAME} {base64.b64encode(blob).decode()}"


# An RSA key of 1,024 bits, the fewest that OpenSSH takes.
RSA_1024 = "ssh-rsa " + base64.b64encode(
    b"".join(len(part).to_bytes(4, "big") + part for part in (b"ssh-rsa", b"\1\0\1", b"\0\x80" + 127 * b"\0"))
).decode()

# The line of a file, the new file, and what is told of the line.
LINE_ROWS = [
    ("", "", ()),
    ("# c", "", ()),
    (" \t", "", ()),
    (f"  Restrict,PTY  ssh-ed25519\t{K0}  me \r", f"restrict,pty {KEY} me\n", ()),
    (f'NO-X11-FORWARDING,command="a\\"b" {KEY}', f'no-X11-forwarding,command="a\\"b" {KEY}\n', ()),
    (f'from="10.0.0.0/8,!10.0.0.1",expiry-time="20300101Z" {KEY}', f'from="10.0.0.0/8,!10.0.0.1",expiry-time="20300101Z" {KEY}\n', ()),
    (f'cert-authority,principals="ann,bob" {KEY}', f'cert-authority,principals="ann,bob" {KEY}\n', ()),
    (f'permitopen="h:80",permitlisten="80",environment="A=b",tunnel="any" {KEY}', f'permitopen="h:80",permitlisten="80",environment="A=b",tunnel="any" {KEY}\n', ()),
    (RSA_1024, f"{RSA_1024}\n", ()),
    (sk(b"ssh:"), f"{sk(b'ssh:')}\n", ()),
    # what a policy finds fault with is read alike: an expiry time that is past, and a command that may still forward
    (f'expiry-time="20000101Z",command="a" {KEY}', f'expiry-time="20000101Z",command="a" {KEY}\n', ()),
    # lines that cannot be read
    (f"restrict,,pty {KEY}", "", ("F1 L2",)),
    (f"touch-required {KEY}", "", ("F1 L3",)),
    ("ssh-dss AAAA", "", ("F1 L9",)),
    ("#" + 65536 * "x", "", ("F1 L1",)),
    (f"{KEY[:-4]}", "", ("F1 L11 K1 V1 15",)),
    # lists that permit nobody, here or in OpenSSH too
    (f'from="" {KEY}', "", ("F7 from",)),
    (f'from="0/0" {KEY}', "", ("F7 from-here",)),
    (f'cert-authority,principals="" {KEY}', "", ("F7 principals",)),
    # what OpenSSH reads otherwise
    (f'principals="ann" {KEY}', "", ("F8 principals",)),
    (f'cert-authority,principals="ann,,bob" {KEY}', "", ("F8 empty-principal",)),
    (f"verify-required {KEY}", "", ("F8 verify-required",)),
    (f'expiry-time="20300101" {KEY}', "", ("F8 local-time",)),
    (f'from="*,!127.1" {KEY}', "", ("F8 short-address",)),
    # what it may refuse
    (f'permitopen="none" {KEY}', "", ("F22 permitopen",)),
    (f'permitlisten="x" {KEY}', "", ("F22 permitlisten",)),
    (f'environment="A-B=c" {KEY}', "", ("F22 environment",)),
    (f'tunnel="x" {KEY}', "", ("F22 tunnel",)),
    (f'command="a\0b" {KEY}', "", ("F22 nul",)),
    (f'from="{1023 * "x"}" {KEY}', "", ("F22 long-item",)),
    (f"ssh-rsa {RSA}", "", ("F22 rsa",)),
    # a key that it reads as another one, and one that it does not read
    (sk(b"ssh:\0"), "", ("application",)),
    (sk(b"ssh\0:"), "", ("application",)),
    # several reasons for one line
    (f'tunnel="x",verify-required,from="127.1",permitopen="none" {KEY}', "", ("F8 verify-required", "F8 short-address", "F22 permitopen", "F22 tunnel")),
]


def told(number, reasons):
    return "".join(f"ssh_audit: line {number} left out: {reason}\n" for reason in reasons)


def check(asker, file, wanted, reasons):
    asker.check(file[:200], asker.printed(readable("f"), file), (0, wanted.encode(), reasons.encode()))


def keeps_what_is_read_alike(asker):
    for line, wanted, reasons in LINE_ROWS:
        check(asker, line, wanted, told(1, reasons))


def keeps_the_order(asker):
    """All rows as one file; what is printed is printed of itself."""
    file = "".join(f"{line}\n" for line, _, _ in LINE_ROWS)
    wanted = "".join(new for _, new, _ in LINE_ROWS)
    reasons = "".join(told(number, reasons) for number, (_, _, reasons) in enumerate(LINE_ROWS, 1))
    check(asker, file, wanted, reasons)
    check(asker, wanted, wanted, "")


def reads_standard_input(asker):
    """Also as the file of the first line of standard input; then nobody is told what is left out."""
    file = f"restrict,,pty {KEY}\n{KEY}"
    asker.check("-", asker.printed(readable("-"), "", file), (0, f"{KEY}\n".encode(), told(1, ["F1 L2"]).encode()))
    asker.check("the first line", asker.printed([], "", f"readable --file -\n{file}"), (0, f"{KEY}\n".encode(), b""))


def names_faults(asker):
    asker.check("usage", asker.printed(["readable"], ""), (2, b"fault usage\n", HINT))
    asker.check("a file that is not there", asker.printed(readable("g"), ""), (2, b"fault A9\n", b""))


def lets_another_line_decide(asker):
    """A line that is left out, and a later one with its key."""
    file = f'restrict,permitopen="none" {KEY}\nno-pty {KEY}\nssh-ed25519 {K1}\n'
    check(asker, file, f"no-pty {KEY}\nssh-ed25519 {K1}\n", told(1, ["F22 permitopen"]))


TESTS = (keeps_what_is_read_alike, keeps_the_order, reads_standard_input, names_faults, lets_another_line_decide)
