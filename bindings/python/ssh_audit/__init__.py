"""Who gets in by OpenSSH's trust files, asked in the process: no file is read, no program is started, no thread is made.

What the library answers is proved; these modules are not, and are tested. Times are whole seconds since 1970-01-01 in UTC, and
keys, signatures and messages are blobs in bytes. Each call raises `Fault` where the program ends with `fault CODE`, and
`OutOfMemory` where the library was refused memory. Texts are spelled as the program spells them: printable ASCII, and `\\x`
with two digits for every other byte and for the backslash; `unescaped` gives the bytes.

Not Debian's ssh-audit, which scans servers.
"""

from ._decisions import Admission, Admissions, Denied, Granted, Reason, Signed, admits, decide_host, decide_login, host, login, trusts
from ._faults import Explanation, Fault, explain
from ._library import Answer, OutOfMemory, run
from ._reviews import FileEnd, Finding, Record, Total, review, unescaped

__all__ = [
    "Admission",
    "Admissions",
    "Answer",
    "Denied",
    "Explanation",
    "Fault",
    "FileEnd",
    "Finding",
    "Granted",
    "OutOfMemory",
    "Reason",
    "Record",
    "Signed",
    "Total",
    "admits",
    "decide_host",
    "decide_login",
    "explain",
    "host",
    "login",
    "review",
    "run",
    "trusts",
    "unescaped",
]
