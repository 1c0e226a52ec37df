"""Lines that cannot be read, one of each cause, and the reasons that are printed for them."""
from rows import host_rows, login_rows
from rows.keys import K0

# Lines of an authorized_keys file. Of two causes the first is told.
LOGIN_ROWS = [
    (f"pty,,restrict ssh-ed25519 {K0}", "reason 1 G1 L2\n"),
    (f"pty, ssh-ed25519 {K0}", "reason 2 G1 L2\n"),
    (f'command="a ssh-ed25519 {K0}', "reason 3 G1 L2\n"),
    (f'command="a\\" ssh-ed25519 {K0}', "reason 4 G1 L2\n"),
    (f"nosuch ssh-ed25519 {K0}", "reason 5 G1 L3\n"),
    (f'pty="x" ssh-ed25519 {K0}', "reason 6 G1 L4\n"),
    (f"command ssh-ed25519 {K0}", "reason 7 G1 L4\n"),
    (f'from="a",from="a" ssh-ed25519 {K0}', "reason 8 G1 L5\n"),
    (f'command="",COMMAND="" ssh-ed25519 {K0}', "reason 9 G1 L5\n"),
    (f'principals="a",principals="a" ssh-ed25519 {K0}', "reason 10 G1 L5\n"),
    (f'expiry-time="2024022924" ssh-ed25519 {K0}', "reason 11 G1 L6\n"),
    (f'expiry-time="202402292400Z" ssh-ed25519 {K0}', "reason 12 G1 L6\n"),
    ("ssh-ed25519", "reason 13 G1 L7\n"),
    ("pty", "reason 14 G1 L7\n"),
    (f"pty frob {K0}", "reason 15 G1 L8\n"),
    ("ssh-dss AAAA", "reason 16 G1 L9\n"),
    (f"ssh-ed25519 {K0}*", "reason 17 G1 L10\n"),
    ("ssh-ed25519 AAAABGZyb2I=", "reason 18 G1 L11 K2\n"),
    ("ssh-ed25519 AAAAB3NzaC1kc3M=", "reason 19 G1 L11 K3\n"),
    ("ssh-ed25519 AAAAIHNzaC1lZDI1NTE5LWNlcnQtdjAxQG9wZW5zc2guY29t", "reason 20 G1 L11 K4\n"),
    ("ecdsa-sha2-nistp256 AAAAE2VjZHNhLXNoYTItbmlzdHAyNTYAAAAIbmlzdHAzODQ=", "reason 21 G1 L11 K5\n"),
    ("ecdsa-sha2-nistp256 AAAAE2VjZHNhLXNoYTItbmlzdHAyNTYAAAAIbmlzdHAyNTYAAAABBA==", "reason 22 G1 L11 K6\n"),
    ("ssh-ed25519 AAAAC3NzaC1lZDI1NTE5AAAAHwAAAAAAAAAAAAAAAAAAAAAAAAAAAAAAAAAAAAAAAAA=", "reason 23 G1 L11 K7\n"),
    ("ssh-rsa AAAAB3NzaC1yc2EAAAADAQABAAAAAgAB", "reason 24 G1 L11 K1 V2 18\n"),
    ("ssh-rsa AAAAB3NzaC1yc2EAAAADAQABAAAAAYA=", "reason 25 G1 L11 K1 V3 18\n"),
    ("ssh-rsa AAAAB3NzaC1yc2EAAAAAAAAAAgCA", "reason 26 G1 L11 K1 V5 11\n"),
    ("ssh-ed25519 AAAA", "reason 27 G1 L11 K1 V1 0\n"),
    (
        "ssh-ed25519 AAAAC3NzaC1lZDI1NTE5AAAAIAAAAAAAAAAAAAAAAAAAAAAAAAAAAAAAAAAAAAAAAAAAAA==",
        "reason 28 G1 L11 K1 V4 51\n",
    ),
    (f"ssh-rsa {K0}", "reason 29 G1 L12\n"),
    (f"ssh-ed25519-cert-v01@openssh.com {K0}", "reason 30 G1 L13\n"),
    ("nosuch frob", "reason 31 G1 L3\n"),
    ('pty="x",nosuch frob AAAA', "reason 32 G1 L4\n"),
    ("pty,, frob AAAA", "reason 33 G1 L2\n"),
    ("frob AAAA*", "reason 34 G1 L3\n"),
    ("pty ssh-dss AAA", "reason 35 G1 L9\n"),
]

# Lines of a known_hosts file. Of two causes the first is told.
HOST_ROWS = [
    ("@other h", "reason 1 G1 L14\n"),
    (f"@other |1|x frob {K0}", "reason 2 G1 L14\n"),
    (f"@CERT-AUTHORITY h ssh-ed25519 {K0}", "reason 3 G1 L14\n"),
    ("h ssh-ed25519", "reason 4 G1 L7\n"),
    ("|1|x ssh-ed25519", "reason 5 G1 L7\n"),
    (f"|1|x frob {K0}", "reason 6 G1 L15\n"),
    (f"h,|1|x,,g frob {K0}", "reason 7 G1 L16\n"),
    (f"h,! ssh-ed25519 {K0}", "reason 8 G1 L16\n"),
    (f"h frob {K0}", "reason 9 G1 L8\n"),
    ("h ssh-dss AAAA", "reason 10 G1 L9\n"),
    ("h ssh-ed25519-cert-v01@openssh.com AAAA*", "reason 11 G1 L13\n"),
    (f"h ssh-ed25519 {K0}*", "reason 12 G1 L10\n"),
    ("h ssh-ed25519 AAAAC3NzaC1lZDI1NTE5AAAAHwAAAAAAAAAAAAAAAAAAAAAAAAAAAAAAAAAAAAAAAAA=", "reason 13 G1 L11 K7\n"),
    (f"h ssh-rsa {K0}", "reason 14 G1 L12\n"),
]


def file_of(rows):
    """The file of these lines, and what is answered before the evidence."""
    file = "".join(line + "\n" for line, _ in rows)
    return file, "denied N3\n" + "".join(reason for _, reason in rows)


def tells_why_lines_cannot_be_read(asker):
    login_rows.compare_vouched(asker, login_rows.PLAIN, *file_of(LOGIN_ROWS))
    host_rows.compare_vouched(asker, host_rows.PLAIN, *file_of(HOST_ROWS))


TESTS = (tells_why_lines_cannot_be_read,)
