"""`show` on worked lines: what it prints letter by letter, and its faults."""
import base64

from program import show
from rows.keys import K0, RSA
from rows.user_certificates import X0

# What is shown of RSA.
SHOWN_RSA = "type ssh-rsa\nbits 8\nfingerprint SHA256:rnquyraIzG+fCkqlUZ0iMJ1WMPMWZWyrqgIEFhNSFSI\n"


def shown_x0(after, before):
    """What is shown of X0 with these times."""
    return (
        "type ssh-ed25519-cert-v01@openssh.com\nfingerprint SHA256:kmYcvdi2GkPeWxB6XLjrZB8JHsy2Hm8luHMFp9GMvqk\n"
        "signer ssh-ed25519 SHA256:gOPgXFWkBoXrFVwpjf0SBo3P1kFs+IvH5q/vnQhNpFw\nkind user\nserial 5\nid id\n"
        f"principal ann\nvalid-after {after}\nvalid-before {before}\nsignature ssh-ed25519\n"
    )


# The kind, a file, and what is shown of it; the fingerprints were computed outside.
SHOWN = [
    (
        "key",
        f"ssh-rsa {RSA} toy\n",
        f"{SHOWN_RSA}comment toy\n",
    ),
    (
        "key",
        b" \tssh-ed25519\t AAAAC3NzaC1lZDI1NTE5AAAAIAAAAAAAAAAAAAAAAAAAAAAAAAAAAAAAAAAAAAAAAAAA  me \\ \xc3 \t\r\r\nmo"
        b"re\n",
        "type ssh-ed25519\nfingerprint SHA256:kmYcvdi2GkPeWxB6XLjrZB8JHsy2Hm8luHMFp9GMvqk\ncomment me \\x5c \\xc3\n",
    ),
    (
        "key",
        f"ssh-ed25519 {K0} \t",
        "type ssh-ed25519\nfingerprint SHA256:kmYcvdi2GkPeWxB6XLjrZB8JHsy2Hm8luHMFp9GMvqk\n",
    ),
    (
        "cert",
        f"ssh-ed25519-cert-v01@openssh.com {X0} c\n",
        shown_x0("100 1970-01-01T00:01:40Z", "200 1970-01-01T00:03:20Z"),
    ),
    (
        "cert",
        "ssh-ed25519-cert-v01@openssh.com "
        "AAAAIHNzaC1lZDI1NTE5LWNlcnQtdjAxQG9wZW5zc2guY29tAAAAAQcAAAAgAAAAAAAAAAAAAAAAAAAAAAAAAAAAAAAAAAAAAAAAAAAAAAAAA"
        "AAABQAAAAMAAAACaWQAAAAPAAAAA2FubgAAAARhXGL/AAAAAAAAAAD//////////wAAACAAAAANZm9yY2UtY29tbWFuZAAAAAsAAAAHYSAiYi"
        "IgYwAAABIAAAAKcGVybWl0LXB0eQAAAAAAAAAAAAAAMwAAAAtzc2gtZWQyNTUxOQAAACAAAAAAAAAAAAAAAAAAAAAAAAAAAAAAAAAAAAAAAAA"
        "AAQAAABQAAAALc3NoLWVkMjU1MTkAAAABqg==\r\n",
        "type ssh-ed25519-cert-v01@openssh.com\nfingerprint SHA256:kmYcvdi2GkPeWxB6XLjrZB8JHsy2Hm8luHMFp9GMvqk\n"
        "signer ssh-ed25519 SHA256:gOPgXFWkBoXrFVwpjf0SBo3P1kFs+IvH5q/vnQhNpFw\nkind 3\nserial 5\nid id\n"
        "principal ann\nprincipal a\\x5cb\\xff\nvalid-after 0 1970-01-01T00:00:00Z\n"
        "valid-before 18446744073709551615 -\ncritical force-command 0000000761202262222063\nextension permit-pty -\n"
        "signature ssh-ed25519\n",
    ),
]


def shows_files(asker):
    for kind, file, wanted in SHOWN:
        asker.compare(show(kind, "f"), file, "", wanted)


# The kind, a line, and its fault.
FAULTS = [
    ("key", "", "fault L7\n"),
    ("key", f" \r\nssh-ed25519 {K0}", "fault L7\n"),
    ("key", "ssh-ed25519", "fault L7\n"),
    ("key", "frob", "fault L7\n"),
    ("key", f"frob {K0}", "fault L8\n"),
    ("key", "ssh-dss AAAA", "fault L9\n"),
    ("key", f"ssh-ed25519-cert-v01@openssh.com {K0}", "fault L13\n"),
    ("key", f"ssh-ed25519 {K0}*", "fault L10\n"),
    ("key", "ssh-ed25519 AAAA", "fault L11 K1 V1 0\n"),
    ("key", f"ssh-rsa {K0}", "fault L12\n"),
    ("cert", "\n", "fault L7\n"),
    ("cert", f"ssh-ed25519 {K0}", "fault L8\n"),
    ("cert", "ssh-dss AAAA", "fault L8\n"),
    ("cert", "ssh-ed25519-cert-v01@openssh.com AAA", "fault L10\n"),
    ("cert", f"ssh-rsa-cert-v01@openssh.com {X0}", "fault L12\n"),
    ("cert", "ssh-ed25519-cert-v01@openssh.com AAAAIHNzaC1lZDI1NTE5LWNlcnQtdjAxQG9wZW5zc2guY28=", "fault C1 V1 0\n"),
    (
        "cert",
        "ssh-ed25519-cert-v01@openssh.com "
        "AAAAIHNzaC1lZDI1NTE5LWNlcnQtdjAxQG9wZW5zc2guY29tAAAAAQcAAAAgAAAAAAAAAAAAAAAAAAAAAAAAAAAAAAAAAAAAAAAAAA==",
        "fault C2 K1 V1 41\n",
    ),
    (
        "cert",
        "ssh-ed25519-cert-v01@openssh.com "
        "AAAAIHNzaC1lZDI1NTE5LWNlcnQtdjAxQG9wZW5zc2guY29tAAAAAQcAAAAgAAAAAAAAAAAAAAAAAAAAAAAAAAAAAAAAAAAAAAAAAAAAAAAAA"
        "AAABQAAAAEAAAACaWQAAAAHAAAAA2FubgAAAAAAAABkAAAAAAAAAMgAAAAAAAAAAAAAAAAAAAAyAAAAC3NzaC1lZDI1NTE5AAAAIAAAAAAAAA"
        "AAAAAAAAAAAAAAAAAAAAAAAAAAAAAAAAAAAAAUAAAAC3NzaC1lZDI1NTE5AAAAAao=",
        "fault C3 K1 V1 15\n",
    ),
    (
        "cert",
        "ssh-ed25519-cert-v01@openssh.com "
        "AAAAIHNzaC1lZDI1NTE5LWNlcnQtdjAxQG9wZW5zc2guY29tAAAAAQcAAAAgAAAAAAAAAAAAAAAAAAAAAAAAAAAAAAAAAAAAAAAAAAAAAAAAA"
        "AAABQAAAAEAAAACaWQAAAAHAAAAA2FubgAAAAAAAABkAAAAAAAAAMgAAAAAAAAAAAAAAAAAAADVAAAAIHNzaC1lZDI1NTE5LWNlcnQtdjAxQG"
        "9wZW5zc2guY29tAAAAAQcAAAAgAAAAAAAAAAAAAAAAAAAAAAAAAAAAAAAAAAAAAAAAAAAAAAAAAAAABQAAAAEAAAACaWQAAAAHAAAAA2FubgA"
        "AAAAAAABkAAAAAAAAAMgAAAAAAAAAAAAAAAAAAAAzAAAAC3NzaC1lZDI1NTE5AAAAIAAAAAAAAAAAAAAAAAAAAAAAAAAAAAAAAAAAAAAAAAAB"
        "AAAAFAAAAAtzc2gtZWQyNTUxOQAAAAGqAAAAFAAAAAtzc2gtZWQyNTUxOQAAAAGq",
        "fault C4\n",
    ),
    (
        "cert",
        "ssh-ed25519-cert-v01@openssh.com "
        "AAAAIHNzaC1lZDI1NTE5LWNlcnQtdjAxQG9wZW5zc2guY29tAAAAAQcAAAAgAAAAAAAAAAAAAAAAAAAAAAAAAAAAAAAAAAAAAAAAAAAAAAAAA"
        "AAABQAAAAEAAAACaWQAAAAHAAAABGFubgAAAAAAAABkAAAAAAAAAMgAAAAAAAAAAAAAAAAAAAAzAAAAC3NzaC1lZDI1NTE5AAAAIAAAAAAAAA"
        "AAAAAAAAAAAAAAAAAAAAAAAAAAAAAAAAABAAAAFAAAAAtzc2gtZWQyNTUxOQAAAAGq",
        "fault C5 99\n",
    ),
    (
        "cert",
        "ssh-ed25519-cert-v01@openssh.com "
        "AAAAIHNzaC1lZDI1NTE5LWNlcnQtdjAxQG9wZW5zc2guY29tAAAAAQcAAAAgAAAAAAAAAAAAAAAAAAAAAAAAAAAAAAAAAAAAAAAAAAAAAAAAA"
        "AAABQAAAAEAAAACaWQAAAAHAAAAA2FubgAAAAAAAABkAAAAAAAAAMgAAAAEAAAAAQAAAAAAAAAAAAAAMwAAAAtzc2gtZWQyNTUxOQAAACAAAA"
        "AAAAAAAAAAAAAAAAAAAAAAAAAAAAAAAAAAAAAAAQAAABQAAAALc3NoLWVkMjU1MTkAAAABqg==",
        "fault C6 126\n",
    ),
    (
        "cert",
        "ssh-ed25519-cert-v01@openssh.com "
        "AAAAIHNzaC1lZDI1NTE5LWNlcnQtdjAxQG9wZW5zc2guY29tAAAAAQcAAAAgAAAAAAAAAAAAAAAAAAAAAAAAAAAAAAAAAAAAAAAAAAAAAAAAA"
        "AAABQAAAAEAAAACaWQAAAAHAAAAA2FubgAAAAAAAABkAAAAAAAAAMgAAAAAAAAAAAAAAAAAAAAzAAAAC3NzaC1lZDI1NTE5AAAAIAAAAAAAAA"
        "AAAAAAAAAAAAAAAAAAAAAAAAAAAAAAAAABAAAAEwAAAAtzc2gtZWQyNTUxOQAAAAE=",
        "fault C7 V1 15\n",
    ),
    ("cert", f"ssh-ed25519-cert-v01@openssh.com {K0}", "fault C8\n"),
]


def tells_faults(asker):
    for kind, file, fault in FAULTS:
        asker.compare(show(kind, "f"), file, "", fault)


def shows_a_long_line(asker):
    """A line longer than a trust file's may be."""
    text = 70_000 * "c"
    asker.compare(show("key", "f"), f"ssh-rsa {RSA} {text}", "", f"{SHOWN_RSA}comment {text}\n")


# Moments at both ends of the years that have a date.
MOMENTS = [
    (0, "1970-01-01T00:00:00Z"),
    (1_709_164_799, "2024-02-28T23:59:59Z"),
    (253_402_300_799, "9999-12-31T23:59:59Z"),
    (253_402_300_800, "-"),
    (18_446_744_073_709_551_615, "-"),
]


def dates_moments(asker):
    """X0 with each moment in the place of both of its times."""
    times = (100).to_bytes(8, "big") + (200).to_bytes(8, "big")
    for moment, date in MOMENTS:
        blob = base64.b64decode(X0).replace(times, 2 * moment.to_bytes(8, "big"))
        file = f"ssh-ed25519-cert-v01@openssh.com {base64.b64encode(blob).decode()}\n"
        time = f"{moment} {date}"
        asker.compare(show("cert", "f"), file, "", shown_x0(time, time))


TESTS = (shows_files, tells_faults, shows_a_long_line, dates_moments)
