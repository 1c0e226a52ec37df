"""Tables of lines that `read_auth_line` and `read_known_line` read, and of files that `rewrite_auth`, `rewrite_known` and
`hash_known` write anew, as tests that refused_calls.py runs with each growth of memory refused in turn. A line that has
an entry never becomes unreadable, no revocation is lost, and nothing is handed back of a file that was written in part.
What is answered before the bytes of a key takes no memory: the name of its row begins with `free_`."""

KEY = "AAAAC3NzaC1lZDI1NTE5AAAAI" + "A" * 43

# Lines that have an entry, each with how many options it has, and its comment.
ENTRIES = [
    (f"ssh-ed25519 {KEY}", 0, ""),
    (f"ssh-ed25519 {KEY} me at home", 0, "me at home"),
    (f"restrict ssh-ed25519 {KEY} me", 1, "me"),
    (f'command="a \\"b\\" c" ssh-ed25519 {KEY}', 1, ""),
    (f'PTY,command="ls",from="10.0.0.0/8",environment="A=1",environment="B=2" ssh-ed25519 {KEY} x y ', 5, "x y"),
    (f'expiry-time="20240229Z",principals="ann,bob",no-pty,user-rc,no-X11-forwarding ssh-ed25519 {KEY} me', 5, "me"),
]

# Lines without one, each with its cause.
FAULTS = [
    (f"pty,,restrict ssh-ed25519 {KEY}", "OptionSyntax"),
    (f"pty,nosuch ssh-ed25519 {KEY}", "UnknownOption"),
    (f'command="ls",pty="x" ssh-ed25519 {KEY}', "OptionValue"),
    (f'from="a",pty,from="a" ssh-ed25519 {KEY}', "RepeatedOption"),
    (f'command="ls",expiry-time="20230229Z" ssh-ed25519 {KEY}', "ExpiryText"),
    ('command="ls"', "NoKey"),
    (f'command="ls" frob {KEY}', "KeyType"),
    ('command="ls" ssh-dss AAAA', "RetiredType"),
    (f'command="ls" ssh-ed25519-cert-v01@openssh.com {KEY}', "CertificateOnLine"),
    (f"pty ssh-ed25519 {KEY}*", "Base64"),
    ("pty ssh-ed25519 AAAA", "KeyBlob(_)"),
    (f"pty ssh-rsa {KEY}", "TypeMismatch"),
]

# Lines of known_hosts that have an entry, each with what is so of a view of it.
HASHED = "|1|2vVav4ZtrRlI9vZVi2rMTIUivYg=|REDDqWL/xrS5Nz1y/EZm6d7b1vw="
KNOWN_ENTRIES = [
    (f"h,!*.a ssh-ed25519 {KEY} me", 'entry.names().text() == b"h,!*.a".as_slice() && entry.comment() == b"me".as_slice()'),
    (f"@cert-authority * ssh-ed25519 {KEY}", 'entry.marker() == Marker::CertAuthority && entry.blob().len() == 51'),
    (f"{HASHED} ssh-ed25519 {KEY}", 'names_host(&entry.names(), b"example.org")'),
]

# Lines of known_hosts without one, each with its answer.
KNOWN = [
    (f"@revoked x ssh-ed25519 {KEY}", "Revoked(bytes) if bytes.as_slice().len() == 51"),
    (f"@revoked x ssh-ed25519 {KEY}*", "RevokedUnreadable"),
    ("@revoked x ssh-ed25519", "RevokedUnreadable"),
    (f"@other h ssh-ed25519 {KEY}", "Unreadable(LineCause::Marker)"),
    ("h ssh-ed25519", "Unreadable(LineCause::NoKey)"),
    (f"|1|x ssh-ed25519 {KEY}", "Unreadable(LineCause::HashedName)"),
    (f"h,,g ssh-ed25519 {KEY}", "Unreadable(LineCause::Names)"),
    ("h ssh-dss AAAA", "Unreadable(LineCause::RetiredType)"),
    ("h ssh-ed25519 AAAA", "Unreadable(LineCause::KeyBlob(_))"),
    (f"h ssh-rsa {KEY}", "Unreadable(LineCause::TypeMismatch)"),
    (" # h", "Comment"),
    (" ", "Blank"),
]

# Files, each with the call that writes it anew, and what it is written to.
FILES = [
    ("rewrite_auth", f"  PTY,Restrict  ssh-ed25519\t{KEY}  me \r", f"pty,restrict ssh-ed25519 {KEY} me\n"),
    ("rewrite_auth", f'NO-X11-FORWARDING,command="a\\"" ssh-ed25519 {KEY}', f'no-X11-forwarding,command="a\\"" ssh-ed25519 {KEY}\n'),
    ("rewrite_auth", "# a\r\nnosuch  x", "# a\r\nnosuch  x\n"),
    ("rewrite_known", f"h  ssh-ed25519  {KEY}", f"h ssh-ed25519 {KEY}\n"),
    ("rewrite_known", f"@revoked  h ssh-ed25519 {KEY}\n", f"@revoked  h ssh-ed25519 {KEY}\n"),
]

# Files, each with what is written where its names are hidden by the salts of bytes 01 and 02.
A_FIRST = "|1|AQEBAQEBAQEBAQEBAQEBAQEBAQE=|iAn0Cdcbw7KbaLXPluOAm015HYA="
B_SECOND = "|1|AgICAgICAgICAgICAgICAgICAgI=|7eKGHxN8qvDwgTeWkb1qlvlT9oI="
HIDDEN_FILES = [
    (f"A,b  ssh-ed25519 {KEY} c", f"{A_FIRST} ssh-ed25519 {KEY} c\n{B_SECOND} ssh-ed25519 {KEY} c\n"),
    (f"*.a  ssh-ed25519 {KEY}", f"*.a  ssh-ed25519 {KEY}\n"),
]
SALTS = "&[[1; 20], [2; 20]]"

HEAD = """use ssh_entries::{
    AuthLine, KeyBuffer, KnownLine, Marker, names_host, read_auth_line, read_known_line,
};
use ssh_options::LineCause;
use std::test::Fail;
"""

ROW = """
#[test]
fn %s_%d(rt: HostRuntime) -> Result<(), Fail> {
    let read = %s(rt.alloc(), %s)?;
    match &read {
        %s => Ok(()),
        _ => Err(Fail::new("another answer")),
    }
}
"""

ENTRY_ROW = """
#[test]
fn row_%d(rt: HostRuntime) -> Result<(), Fail> {
    let mut buffer = KeyBuffer::new(rt.alloc())?;
    let %s::Entry(entry) = %s(rt.alloc(), %s)? else {
        return Err(Fail::new("no entry"));
    };
    let entry = entry.view(&mut buffer);
    if %s {
        Ok(())
    } else {
        Err(Fail::new("another entry"))
    }
}
"""

FILES_HEAD = """use ssh_rewriting::{hash_known, rewrite_auth, rewrite_known};
use std::test::Fail;
"""

FILE_ROW = """
#[test]
fn row_%d(rt: HostRuntime) -> Result<(), Fail> {
    let new = %s(rt.alloc(), %s)?;
    if new.as_slice() == %s.as_slice() {
        Ok(())
    } else {
        Err(Fail::new("another file"))
    }
}
"""


def literal(text):
    escapes = {"\\": "\\\\", '"': '\\"', "\r": "\\r", "\n": "\\n", "\t": "\\t"}
    return 'b"' + "".join(escapes.get(char, char) for char in text) + '"'


# The faults that are found in a key's bytes, and so need memory.
OF_BYTES = ("Base64", "KeyBlob(_)", "TypeMismatch")


def line_tests():
    """A test for each line."""
    entries = [
        ("AuthLine", "read_auth_line", line, f"entry.options().count() == {options} && entry.comment() == {literal(comment)}.as_slice()")
        for line, options, comment in ENTRIES
    ]
    entries += [("KnownLine", "read_known_line", line, wanted) for line, wanted in KNOWN_ENTRIES]
    others = [
        ("row" if cause in OF_BYTES else "free_row", "read_auth_line", line, f"AuthLine::Unreadable(LineCause::{cause})")
        for line, cause in FAULTS
    ]
    others += [
        ("free_row" if answer in ("Comment", "Blank") else "row", "read_known_line", line, f"KnownLine::{answer}")
        for line, answer in KNOWN
    ]
    rows = [
        ENTRY_ROW % (number, kind, call, literal(line), wanted)
        for number, (kind, call, line, wanted) in enumerate(entries, 1)
    ]
    rows += [
        ROW % (name, number, call, literal(line), answer)
        for number, (name, call, line, answer) in enumerate(others, len(rows) + 1)
    ]
    return HEAD + "".join(rows)


def file_tests():
    """A test for each file."""
    files = [(call, literal(old), new) for call, old, new in FILES]
    files += [("hash_known", f"{literal(old)}, {SALTS}", new) for old, new in HIDDEN_FILES]
    rows = [FILE_ROW % (number, call, arguments, literal(new)) for number, (call, arguments, new) in enumerate(files, 1)]
    return FILES_HEAD + "".join(rows)
