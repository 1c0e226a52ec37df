"""`rewrite` on worked files: the new file's bytes and nothing else, or a fault."""
from program import rewrite
from rows.keys import K0

# The kind, the file, and the new one.
FILE_ROWS = [
    ("auth", "", ""),
    ("known", "", ""),
    ("auth", f"  PTY,Restrict  ssh-ed25519\t{K0}  me \r", f"pty,restrict ssh-ed25519 {K0} me\n"),
    (
        "auth",
        f'NO-X11-FORWARDING,command="a\\"" ssh-ed25519 {K0}\n',
        f'no-X11-forwarding,command="a\\"" ssh-ed25519 {K0}\n',
    ),
    ("auth", f"# x \r\n\n \t\nfrob  ssh-ed25519 {K0} \n", f"# x \r\n\n \t\nfrob  ssh-ed25519 {K0} \n"),
    ("known", f"h  ssh-ed25519  {K0}", f"h ssh-ed25519 {K0}\n"),
    ("known", f" @cert-authority\tH,*.g  ssh-ed25519 {K0} \r\n", f"@cert-authority H,*.g ssh-ed25519 {K0}\n"),
    ("known", f"@revoked  h ssh-ed25519 {K0}\n# c\r\nh,,g  x", f"@revoked  h ssh-ed25519 {K0}\n# c\r\nh,,g  x\n"),
]


def writes_files_anew(asker):
    """A new file is written anew as it is."""
    for kind, file, wanted in FILE_ROWS:
        asker.compare(rewrite(kind, "f"), file, "", wanted)
        asker.compare(rewrite(kind, "f"), asker.printed(rewrite(kind, "f"), file)[1], "", wanted)


def reads_standard_input(asker):
    asker.compare([], "", "rewrite --kind known --file -\n# a\n#\r", "# a\n#\r\n")


# The words, and the fault.
FAULTS = [
    (["rewrite", "--file", "f"], "fault usage\n"),
    (["rewrite", "--kind", "auth"], "fault usage\n"),
    (["rewrite", "--kind", "Auth", "--file", "g"], "fault value kind\n"),
    (["rewrite", "--kind", "key", "--file", "f"], "fault value kind\n"),
    (["rewrite", "--kind", "auth", "--file", "g"], "fault A9\n"),
]


def names_faults_in_their_order(asker):
    for words, fault in FAULTS:
        asker.compare(words, "#", "", fault)


TESTS = (writes_files_anew, reads_standard_input, names_faults_in_their_order)
