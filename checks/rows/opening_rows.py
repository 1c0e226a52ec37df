"""Lines by which OpenSSH 9.2 may answer otherwise than `admits`: the rows were tried with its own deciding functions."""
from program import asked_by
from rows.host_certificates import X1
from rows.keys import K0, K1

KEY, OTHER = f"ssh-ed25519 {K0}", f"ssh-ed25519 {K1}"

# The moment 2026-11-27 17:30 in UTC.
NOW = "1795800600"

SOUGHT = "    looked for SHA256:kmYcvdi2GkPeWxB6XLjrZB8JHsy2Hm8luHMFp9GMvqk\n"
# The same of the certificate's signer.
SOUGHT_OTHER = "    looked for the certificate's signer SHA256:gOPgXFWkBoXrFVwpjf0SBo3P1kFs+IvH5q/vnQhNpFw\n"
NO_LINE = "f: does not admit: N3: no line admits the offer\n"
UNREAD = "    {} G1 L3: an option that sshd(8) does not list; or a first word that was meant as the type, and is not one"
# The same of a line without a key that can be told, of one with the key, and of one with the other.
LISTED, LISTED_WITH_KEY = UNREAD + "\n", UNREAD + "; it holds this key\n"
LISTED_WITH_OTHER = UNREAD + "; it holds SHA256:gOPgXFWkBoXrFVwpjf0SBo3P1kFs+IvH5q/vnQhNpFw\n"
# What is compared with a line's list of sources, and with its expiry time.
CLIENT = '; address "192.0.2.1"; host -\n'
ASKED = f"; now {NOW} 2026-11-27T17:30:00Z\n"
BAD_FROM = "    1 G7: the line's from= cannot be read, so it permits nobody; from {}" + CLIENT
OTHER_FROM = "    1 G8: the line's from= does not permit the client; from {}" + CLIENT
PAST = "    1 G6: an expiry-time of the line is past; expires {}" + ASKED
MAY = "    OpenSSH may let it in by line {}: {}\n"
FIRST = "    OpenSSH may let it in by line {} first: {}\n"
HOLDS, UNTOLD = "it holds this key, and cannot be read here", "no key can be told of it, and it cannot be read here"
SOURCES = "OpenSSH may read its from= list otherwise"
LATER = "in local time, which OpenSSH may read an hour later"
GRANTED = "f: admits by line {}, if the client's signature is good\n    rights {}\n"
ALL = "port agent x11 pty rc"
CUT = "    .. only the first 100 are listed, and there may be more\n"

# A file, the status, and what is told of it.
FILES = [
    (f"{OTHER}\n", 1, NO_LINE + SOUGHT),
    # A key that stands after the options, and one between quotes before it.
    (f'environment="A= {OTHER} ",touch-required {KEY}\n', 3, NO_LINE + SOUGHT + LISTED_WITH_KEY.format(1) + MAY.format(1, HOLDS)),
    (f'environment="A= {KEY} ",touch-required {OTHER}\n', 1, NO_LINE + SOUGHT + LISTED_WITH_OTHER.format(1)),
    ("hello\n", 3, NO_LINE + SOUGHT + LISTED.format(1) + MAY.format(1, UNTOLD)),
    (f"{OTHER}\nx {KEY}\n", 3, NO_LINE + SOUGHT + LISTED_WITH_KEY.format(2) + MAY.format(2, HOLDS)),
    # Lists of sources.
    (f'from="0/0" {KEY}\n', 3, NO_LINE + SOUGHT + BAD_FROM.format('"0/0"') + MAY.format(1, SOURCES)),
    (f'from="10.0.0.1/8" {KEY}\n', 1, NO_LINE + SOUGHT + BAD_FROM.format('"10.0.0.1/8"')),
    (f'from="127.1" {KEY}\n', 3, NO_LINE + SOUGHT + OTHER_FROM.format('"127.1"') + MAY.format(1, SOURCES)),
    (f'from="127.0.0.1" {KEY}\n', 1, NO_LINE + SOUGHT + OTHER_FROM.format('"127.0.0.1"')),
    # A long list is cut, and a quote in it has a backslash.
    (
        f'from="a\\"b,{300 * "c"}" {KEY}\n', 1,
        NO_LINE + SOUGHT + OTHER_FROM.format('"a\\"b,' + 252 * "c" + '"..'),
    ),
    # Expiry times: past by half an hour, by an hour and by more, in local time and in UTC.
    (f'expiry-time="202611271700" {KEY}\n', 3, NO_LINE + SOUGHT + PAST.format("1795798800 2026-11-27T17:00:00Z") + MAY.format(1, LATER)),
    (f'expiry-time="20261127163000" {KEY}\n', 3, NO_LINE + SOUGHT + PAST.format("1795797000 2026-11-27T16:30:00Z") + MAY.format(1, LATER)),
    (f'expiry-time="20261127162959" {KEY}\n', 1, NO_LINE + SOUGHT + PAST.format("1795796999 2026-11-27T16:29:59Z")),
    (f'expiry-time="202611271700Z" {KEY}\n', 1, NO_LINE + SOUGHT + PAST.format("1795798800 2026-11-27T17:00:00Z")),
    # A verified user.
    (
        f"verify-required {KEY}\n", 3,
        "f: does not admit: N5: verify-required of the line or the certificate, and the signature is not a security"
        " key's that verified the user\n"
        + MAY.format(1, "OpenSSH ignores verify-required of a key that is no security key"),
    ),
    # Where a line lets the key in: those before it, and none after it.
    (f"hello\n{KEY}\nx {KEY}\n", 0, GRANTED.format(2, ALL) + LISTED.format(1) + FIRST.format(1, UNTOLD)),
    # A line that OpenSSH refuses.
    (
        f'restrict,permitopen="none" {KEY}\n{KEY}\n', 0,
        GRANTED.format(1, "none") + "    carry permitopen none\n    OpenSSH may refuse line 1: permitopen\n"
        + f"    line 2 decides then\n        rights {ALL}\n",
    ),
    (
        f'principals="ann" {KEY}\n', 0,
        GRANTED.format(1, ALL) + "    OpenSSH may refuse line 1: principals\n    no other line admits it\n",
    ),
    # A hundred lines are listed.
    (
        5 * "#\n" + 101 * "hello\n", 3,
        NO_LINE + SOUGHT + "".join(LISTED.format(n) for n in range(6, 106)) + CUT
        + "".join(MAY.format(n, UNTOLD) for n in range(6, 106)) + "    .. and more\n",
    ),
]

NO_HOST_LINE = "f: does not trust: N3: no line admits the offer\n"
MAY_TRUST = "    ssh may trust it by line {}: {}\n"
UNREADABLE_REVOCATION = (
    "f: does not trust: N2 1: the first line that may revoke any key: it begins with @revoked and has no base64 that can"
    " be read, or it is longer than 65,536 bytes\n"
)
REVOKED = (
    "f: does not trust: N1 2: the first line that revokes the key, or the certificate's signer, whichever host it"
    " names\n"
)
LONG = 65_500 * "c"
EMPTY_NAME = "    1 G1 L16: of known_hosts: an item of the list of host names is empty; ! alone is an empty item"
OTHER_MARK = "SHA256:gOPgXFWkBoXrFVwpjf0SBo3P1kFs+IvH5q/vnQhNpFw"
# The key stands under names that are not those of the host.
ELSEWHERE = '    line {} has this key, but not for this host and port; names "{}"\n'
CHANGED = "    line {} names the host with another key of this type, " + OTHER_MARK + "\n"

# A known_hosts file, the port, the status, and what is told of it.
HOST_FILES = [
    (f"h {KEY}\n", 22, 0, "f: trusts by line 1, if the host's signature is good\n"),
    (f"h {OTHER}\n", 22, 1, NO_HOST_LINE + SOUGHT + CHANGED.format(1)),
    (f"g {OTHER}\n@cert-authority h {OTHER}\nh {OTHER}\nh {OTHER}\n", 22, 1, NO_HOST_LINE + SOUGHT + CHANGED.format(3)),
    (f"h {OTHER}\nh {KEY}\n", 22, 0, "f: trusts by line 2, if the host's signature is good\n"),
    (
        f"h,, {KEY}\n", 22, 3,
        NO_HOST_LINE + SOUGHT + EMPTY_NAME + "; it holds this key\n" + MAY_TRUST.format(1, HOLDS),
    ),
    (
        f"h,, {OTHER}\n", 22, 1,
        NO_HOST_LINE + SOUGHT + EMPTY_NAME + f"; it holds {OTHER_MARK}\n",
    ),
    # A line that is too long: an authority for ssh, or a revocation.
    (f"@cert-authority * {KEY} {LONG}\n", 22, 3, UNREADABLE_REVOCATION + MAY_TRUST.format(1, HOLDS)),
    (f"@revoked * {KEY} {LONG}\n", 22, 1, UNREADABLE_REVOCATION),
    # The name without the port.
    (f"h {KEY}\n", 2222, 3, NO_HOST_LINE + SOUGHT + ELSEWHERE.format(1, "h") + MAY_TRUST.format(1, "ssh tries the name without the port too")),
    (f"[h]:2222 {KEY}\n", 2222, 0, "f: trusts by line 1, if the host's signature is good\n"),
    (f"[h]:2223 {KEY}\n", 2222, 1, NO_HOST_LINE + SOUGHT + ELSEWHERE.format(1, "[h]:2223")),
    (f"# h\n[h]:2223 {OTHER}\ng,[h]:2* {KEY}\n[h]:2224 {KEY}\n", 22, 1, NO_HOST_LINE + SOUGHT + ELSEWHERE.format(3, "g,[h]:2*")),
    (f"h {OTHER}\n[h]:2223 {KEY}\n", 22, 1, NO_HOST_LINE + SOUGHT + CHANGED.format(1) + ELSEWHERE.format(2, "[h]:2223")),
]


def admits(*names):
    return ["admits", "--key", "-", "--user", "ann", "--address", "192.0.2.1", "--now", NOW, *names]


def tells_what_openssh_may_do(asker):
    for file, status, wanted in FILES:
        wanted += asked_by(admits("f"))
        asker.check(file[:100], asker.printed(admits("f"), file, KEY + "\n"), (status, wanted.encode(), b""))


def tells_what_ssh_may_do(asker):
    for file, port, status, wanted in HOST_FILES:
        words = ["trusts", "--key", "-", "--host", "h", "--port", str(port), "--now", NOW, "f"]
        wanted += asked_by(words)
        asker.check(f"{file[:100]} {port}", asker.printed(words, file, KEY + "\n"), (status, wanted.encode(), b""))


def falls_back_to_the_plain_key(asker):
    """A certificate of the key by the other one, where no authority is trusted."""
    words = ["trusts", "--key", "-", "--host", "h", "--now", "150", "f"]
    wanted = NO_HOST_LINE + SOUGHT_OTHER + MAY_TRUST.format(1, "ssh falls back to the plain key")
    certificate = f"ssh-ed25519-cert-v01@openssh.com {X1}\n"
    asker.check("a certificate", asker.printed(words, f"h {KEY}\n", certificate), (3, (wanted + asked_by(words)).encode(), b""))
    # and passes over a revocation of that key at once: one with a tab after its marker, and one for another host
    wanted = REVOKED + MAY_TRUST.format(1, "ssh may pass over the revocation of the key")
    for revocation in (f"@revoked\th {KEY}\n", f"@revoked g {KEY}\n"):
        file = f"h {KEY}\n{revocation}"
        asker.check(f"a certificate and {revocation[:12]}", asker.printed(words, file, certificate), (3, (wanted + asked_by(words)).encode(), b""))
    file = f"h {KEY}\n@revoked h {KEY}\n"
    asker.check("a certificate and a revocation", asker.printed(words, file, certificate), (1, (REVOKED + asked_by(words)).encode(), b""))


def sums_up_several_files(asker):
    """A fault before a grant, that before what is open, and that before a denial."""
    room = asker.program.room
    for name, file in (("denies", OTHER), ("opens", "hello"), ("grants", KEY)):
        (room / name).write_text(file + "\n")
    places = {"denies": 1, "opens": 3, "grants": 0, "missing": 2}
    order = ["denies", "opens", "grants", "missing"]
    for one in order:
        for other in order:
            status = places[max(one, other, key=order.index)]
            asker.check(f"{one} {other}", asker.printed(admits(one, other), "", KEY + "\n")[0], status)
    for name in ("denies", "opens", "grants"):
        (room / name).unlink()


TESTS = (tells_what_openssh_may_do, tells_what_ssh_may_do, falls_back_to_the_plain_key, sums_up_several_files)
