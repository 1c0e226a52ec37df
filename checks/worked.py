#!/usr/bin/env python3
"""Asks the built program about worked rows: words, a file and a standard input, with what it has to print, letter by
letter, and its status. The answers were worked out by hand; keys, fingerprints and certificates were made outside.

usage: worked.py [PROGRAM]

PROGRAM is crates/ssh_audit/out/ssh_audit where it is left out. The rows stand in rows/: `login` in login_rows.py and
key_rows.py, `host` in host_rows.py, lines that cannot be read in cause_rows.py, long values in long_rows.py, `hash` in
hash_rows.py, `rewrite` in rewrite_rows.py, `readable` in readable_rows.py, `show` in show_rows.py and body_rows.py, `sshsig` in signature_rows.py,
`admits` and `trusts` in admission_rows.py, `admits --fingerprint` in fingerprint_rows.py, `review --key` in standing_rows.py. Most logins and hosts' keys are asked about again over the file that
`rewrite` makes of the row's. What `run` prints where a read or a write fails at one of its calls is tested in
crates/ssh_program_tests.

The last line is 'N passed, M failed', of what was compared; the status is 0 where nothing failed."""
import os
import pathlib
import sys
import tempfile

sys.dont_write_bytecode = True
from program import CRATE, Program, Tally
from rows import (
    admission_rows, body_rows, cause_rows, fingerprint_rows, hash_rows, host_rows, key_rows, login_rows, long_rows,
    opening_rows, readable_rows, rewrite_rows, show_rows, signature_rows, standing_rows,
)
from rows.asking import Asker

DEFAULT = CRATE / "out" / "ssh_audit"
MODULES = (
    login_rows, key_rows, host_rows, cause_rows, hash_rows, rewrite_rows, readable_rows, long_rows, admission_rows,
    fingerprint_rows, opening_rows, show_rows, body_rows, signature_rows, standing_rows,
)


def main():
    path, tally = os.path.abspath(sys.argv[1] if len(sys.argv) > 1 else DEFAULT), Tally()
    if not os.access(path, os.X_OK):
        print(f"{path} is not built: nothing was tried\n0 passed, 1 failed")
        return 1
    with tempfile.TemporaryDirectory() as folder:
        asker = Asker(Program(path, pathlib.Path(folder)), tally)
        for module in MODULES:
            for test in module.TESTS:
                asker.test = f"{module.__name__}, {test.__name__}"
                test(asker)
    print(f"{tally.passed} passed, {tally.failed} failed")
    return 1 if tally.failed else 0


if __name__ == "__main__":
    sys.exit(main())
