"""Runs tests with each growth of memory refused in turn, in a copy of a repository. Needs the kit's `rt`."""
import concurrent.futures
import contextlib
import itertools
import os
import pathlib
import re
import shutil
import subprocess
import tempfile

# As many runs in a row without a refusal end the check of every growth.
QUIET_RUNS = 2

# The growths that are refused where not every one is: 0 stands for none. Most rows have fewer than four.
SOME = (0, 1, 2, 3, 4, 6, 9, 14, 21, 30, 80, 81)

# How many runs are made side by side: each compiles its crate anew, in about a gigabyte.
SIDE_BY_SIDE = max(1, min(3, (os.cpu_count() or 2) - 1))

# How a test tells out of memory: by the error of a call, or in words of its own.
TOLD = ("error: AllocError", "error: Memory", "out of memory")


# What no library is: the program, which refused_growth.py runs, and tests. ssh_memory is asked by library.py, in C.
NO_LIBRARIES = ("ssh_program", "ssh_program_tests", "ssh_audit", "ssh_memory")


def libraries_of(top):
    """The libraries of the repository, by crates.txt, and the zones of expiry times. No crate can stand on a static library."""
    names = [line.split(":")[0] for line in (top / "crates.txt").read_text().splitlines() if ":" in line and line[0] != "#"]
    return [name for name in names if name not in NO_LIBRARIES and not name.endswith(" staticlib")] + ["jiff"]


def answers(crate, index):
    """What each row answers where the growth of this index is refused: `ok`, or why its test failed."""
    # A row over a file at the limit of 64 MiB takes a slow machine more than the minute that rt gives.
    command = ["rt", "try", "--test", "--seconds", "600"] + (["--fail-alloc", str(index)] if index else [])
    done = subprocess.run(command, cwd=crate, capture_output=True, text=True, check=False)
    found = re.findall(r"^test (\w+::\w+) \.\.\. (ok|FAILED\n\s*.*)$", done.stdout, re.MULTILINE)
    return {row: answer.removeprefix("FAILED").strip() for row, answer in found}, done.stdout + done.stderr


def wrong_answer(row, answer, index):
    """Whether a row may not answer so. The rows of calls that take no memory are called `free_..`."""
    return answer != "ok" and (not index or answer not in TOLD or "::free_" in row)


def judged(index, found, printed, count):
    """Whether all rows answered as they may, where the growth of this index was refused. Says what they did."""
    if len(found) != count:
        print(f"growth {index} refused: {len(found)} of {count} rows answered\n{printed}")
        return False
    wrong = [row for row, answer in found.items() if wrong_answer(row, answer, index)]
    for row in wrong:
        print(f"{row}, growth {index} refused: {found[row]}")
    own = sum(answer == "ok" for answer in found.values())
    refused = f"growth {index} refused" if index else "no growth refused"
    print(f"{refused}: {own} of {count} rows give their own answer, {count - own - len(wrong)} tell out of memory", flush=True)
    return not wrong


def check(crate, count, every):
    """Refuses growths until no row has one: each row gives its own answer or tells out of memory, and each that is not
    free has told it at some growth. Every growth 1, 2, .. is refused, or some."""
    indices = itertools.count() if every else iter(SOME)
    wanted, quiet = set(), 0
    with concurrent.futures.ThreadPoolExecutor(SIDE_BY_SIDE) as pool:
        while quiet < QUIET_RUNS:
            turn = list(itertools.islice(indices, SIDE_BY_SIDE))
            if not turn:
                print("a row has more growths than are refused")
                return False
            for index, (found, printed) in zip(turn, pool.map(lambda index: answers(crate, index), turn)):
                if not judged(index, found, printed, count):
                    return False
                told = {row for row, answer in found.items() if answer != "ok"}
                wanted |= told
                quiet = quiet + 1 if index and not told else 0
    idle = sorted(row for row in found if "::free_" not in row and row not in wanted)
    print(f"rows that never wanted memory: {' '.join(idle) or 'none'}")
    return not idle


@contextlib.contextmanager
def crate_of_rows(top, libraries, modules):
    """The folder of a crate of these modules, over these libraries, in a copy of the repository."""
    with tempfile.TemporaryDirectory() as folder:
        copy = pathlib.Path(folder) / "repository"
        shutil.copytree(top, copy, ignore=shutil.ignore_patterns("out", ".git"))
        with open(copy / "crates.txt", "a", encoding="utf-8") as crates:
            crates.write(f"rows: {' '.join(libraries)}\n")
        source = copy / "crates" / "rows" / "src"
        source.mkdir(parents=True)
        declared = "".join(f"#[cfg(test)]\nmod {name};\n" for name in sorted(modules))
        (source / "lib.rt").write_text("#![tactic(auto)]\n\n" + declared, encoding="utf-8")
        for name, text in modules.items():
            (source / f"{name}.rt").write_text(text, encoding="utf-8")
        yield source.parent


def check_rows(top, libraries, modules, every):
    """The same with a crate of these modules. How many rows passed and failed: where one fails, the others are not tried
    to their end, and none has passed."""
    count = sum(text.count("#[test]") for text in modules.values())
    with crate_of_rows(top, libraries, modules) as crate:
        return (count, 0) if check(crate, count, every) else (0, count)
