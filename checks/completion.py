#!/usr/bin/env python3
"""Sees that the completions packaging/ssh_audit.bash and packaging/_ssh_audit are what make_completion.py makes of the
sources, and that bash reads the one and zsh the other, where there is a zsh. packaging.py completes words by them. It runs
no program of this repository.

usage: completion.py

The last line is 'N passed, M failed'; the status is 0 where nothing failed."""
import shutil
import subprocess
import sys

sys.dont_write_bytecode = True
import make_completion
from program import Tally


def main():
    tally = Tally()
    for path, made, shell in ((make_completion.BASH, make_completion.bash(), "bash"), (make_completion.ZSH, make_completion.zsh(), "zsh")):
        name = path.relative_to(make_completion.TOP)
        tally.check(f"{name}: made by checks/make_completion.py (run that)", path.read_text() == made, True)
        if shutil.which(shell):
            read = subprocess.run([shell, "-n", path], stdin=subprocess.DEVNULL, stdout=subprocess.PIPE, stderr=subprocess.STDOUT, check=False)
            tally.check(f"{shell} -n {name}", (read.returncode, read.stdout), (0, b""))
    print(f"{tally.passed} passed, {tally.failed} failed")
    return 1 if tally.failed else 0


if __name__ == "__main__":
    sys.exit(main())
