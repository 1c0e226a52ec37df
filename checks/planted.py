#!/usr/bin/env python3
"""Tries the wrong edits of checks/planted outside the gate: the prover has to refuse each. Of the
largest crates, where an edit takes the prover minutes and the first one a second proof of the crate, few or none stand in
must-fail/, where the gate tries them, and the others here. Of the small ones those are here by which nobody gets in or is hidden,
and no revocation is lost. Run it after a change of a contract of a crate that has edits here.

usage: planted.py [--list] [CRATE ..]

With no CRATE all are tried. It needs the kit's `rt`, and up to an hour for each crate: a copy of the repository gets the edits of
the crate in its must-fail/, and `rt must-fail` tries them. With --list it prints what it would try, and tries nothing; edits.py
sees whether each can be applied. The last line is 'DATE: N passed, M failed', of the edits: one has passed that was refused.
The status is 0 where nothing failed."""
import argparse
import datetime
import pathlib
import re
import shutil
import subprocess
import sys
import tempfile

sys.dont_write_bytecode = True
from edits import PLANTED, TOP

TOLD = re.compile(r"must-fail (\w+)/(\S+\.edit): (refused|NOT REFUSED|BAD EDIT|NOT TRIED)(.*)")


def edits_of(crate):
    return sorted((PLANTED / crate).glob("*.edit"))


def answers(crate, edits):
    """What `rt must-fail` says of each of these edits, by its name, and all that it said."""
    with tempfile.TemporaryDirectory() as folder:
        copy = pathlib.Path(folder) / "repository"
        shutil.copytree(TOP, copy, ignore=shutil.ignore_patterns("out", ".git"))
        tried = copy / "crates" / crate / "must-fail"
        shutil.rmtree(tried, ignore_errors=True)
        tried.mkdir()
        for edit in edits:
            shutil.copy(edit, tried)
        done = subprocess.run(["rt", "must-fail", crate], cwd=copy, capture_output=True, text=True, errors="replace", check=False)
    said = done.stdout + done.stderr
    return {edit: (word, rest) for name, edit, word, rest in TOLD.findall(said) if name == crate}, said


def tried(crate):
    """How many edits of a crate were refused, and how many were not."""
    edits = edits_of(crate)
    found, said = answers(crate, edits)
    wrong = [edit.name for edit in edits if found.get(edit.name, ("", ""))[0] != "refused"]
    for name in wrong:
        print(f"FAILED {crate}/{name}: {''.join(found.get(name, ('no answer', '')))}")
    if len(found) < len(edits):
        print(said)
    print(f"{crate}: {len(edits) - len(wrong)} refused, {len(wrong)} not refused", flush=True)
    return len(edits) - len(wrong), len(wrong)


def main():
    crates = sorted(folder.name for folder in PLANTED.iterdir() if edits_of(folder.name))
    parser = argparse.ArgumentParser(description="Tries the wrong edits of checks/planted.")
    parser.add_argument("crates", nargs="*", metavar="CRATE", help=f"some of {', '.join(crates)}")
    parser.add_argument("--list", action="store_true", help="print what would be tried, and try nothing")
    asked = parser.parse_args()
    for crate in asked.crates:
        if crate not in crates:
            parser.error(f"{crate} has no edits in {PLANTED.relative_to(TOP)}")
    chosen = asked.crates or crates
    if asked.list:
        for crate in chosen:
            print(f"{crate}: {len(edits_of(crate))} edits")
            for edit in edits_of(crate):
                print(f"    {edit.stem}")
        return 0
    counts = [tried(crate) for crate in chosen]
    passed, failed = (sum(column) for column in zip(*counts))
    print(f"{datetime.date.today()}: {passed} passed, {failed} failed")
    return 1 if failed or not passed else 0


if __name__ == "__main__":
    sys.exit(main())
