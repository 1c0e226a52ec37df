#!/usr/bin/env python3
"""Runs the commands of README.md and docs/MANUAL.md as they stand, and compares what they print; and compares the
tables of options in docs/MANUAL.md with the rows in the code.

usage: documents.py [PROGRAM]

All blocks of a document run in one shell, from top to bottom, at the top of a folder with the repository's paths in it.
A block that is marked `sh` is run as a whole, and has to succeed; in one that is not marked each line is a command, and
each has to succeed. In one that is marked `console` each line that begins with `$ ` is a command, and the lines below it
are what it has to print (`..` at the end of a line: it was cut short there); its status may be 0 to 3. A line that ends
with a backslash goes on. When all have run, the shell has to be at the top again.

What would prove for an hour, or install into the system, is stood in for by stand_ins/: those work only in a folder where
the real ones would, and each has to be called that the document names. The environment is a bare one, as that of cron:
USER and LOGNAME are not set, and HOME is a made-up user's.

Needs bash, ssh-keygen, openssl 3, git, dpkg-deb and the built program. A table `| Option of `NAME` | ..` has a row for each option of that
subcommand in the order of the code, and its last cell says "needed" of exactly those that may not be left out. The last line is 'N passed, M failed';
the status is 0 where nothing failed."""
import os
import pathlib
import re
import subprocess
import sys
import tempfile

# Where TERM names a terminal the program says more on standard error.
os.environ.pop("TERM", None)
HERE = pathlib.Path(__file__).resolve().parent
TOP = HERE.parent
PROGRAM = pathlib.Path(sys.argv[1] if len(sys.argv) > 1 else TOP / "crates" / "ssh_audit" / "out" / "ssh_audit").resolve()
STAND_INS = HERE / "stand_ins"
# The documents, each with the stand-ins that its commands call. Where `rt run` is one, it leaves the program in its place.
DOCUMENTS = {"README.md": {"rt try", "rt run", ".ci/run", "sudo dpkg"}, "docs/MANUAL.md": set()}
BLOCK = re.compile(r"^```(\S*)\n(.*?)^```$", re.MULTILINE | re.DOTALL)
CODE = TOP / "crates" / "ssh_program" / "src"
TABLE = re.compile(r"^\| Option of `(\w+)` \|.*\n\|[-|]*\|\n((?:\|.*\n)*)", re.MULTILINE)
OPTION = re.compile(r"^\| `--([\w-]+)` \| .* \| (.*) \|$", re.MULTILINE)
# What standard error says beside an answer, which a document does not show.
BESIDE = re.compile(r"ssh_audit: (\w+: a file has a fault: |.*: there is no such file$)")
# Stands after each command's output, with its status.
MARK = "\x1e"


def joined(lines):
    """The commands of these lines: a line that ends with a backslash goes on in the next one."""
    return re.findall(r"(?:.*\\\n)*.+\n", lines)


def commands(text):
    """Each command and the lines that it has to print; none where it has to succeed, whatever it prints."""
    for kind, body in BLOCK.findall(text):
        if kind == "sh":
            yield body.rstrip("\n"), None
        elif kind == "":
            for command in joined(body):
                yield command.rstrip("\n"), None
        elif kind == "console":
            for piece in re.split(r"^\$ ", body, flags=re.MULTILINE)[1:]:
                command = joined(piece)[0]
                yield command.rstrip("\n"), piece[len(command) :].split("\n")[:-1]


def agrees(found, wanted):
    """Whether the lines are those of the document."""
    pairs = zip(found, wanted)
    return len(found) == len(wanted) and all(a.startswith(b[:-2]) if b.endswith("..") else a == b for a, b in pairs)


def repository(room, built):
    """A folder that has the documents' paths in it, with the program where it is built."""
    top = room / "repository"
    crate = top / "crates" / "ssh_audit"
    (crate / "out").mkdir(parents=True)
    (top / ".ci").mkdir()
    (top / ".ci" / "run").symlink_to(STAND_INS / "ci_run")
    # A folder of its own, for packages are left in it.
    (top / "packaging").mkdir()
    packaging = (str(path.relative_to(TOP)) for path in (TOP / "packaging").iterdir() if path.is_file())
    for path in (".git", "README.md", "crates.txt", "docs", "examples", "bench", *packaging, "crates/ssh_audit/stdin", "crates/ssh_audit/stdout", "crates/ssh_print"):
        (top / path).symlink_to(TOP / path)
    if built:
        (crate / "out" / "ssh_audit").symlink_to(PROGRAM)
    return top


def home(room):
    """The folder of a user who has a key, and whose authorized_keys file has it."""
    folder = room / "home" / ".ssh"
    folder.mkdir(parents=True)
    subprocess.run(["ssh-keygen", "-q", "-t", "ed25519", "-N", "", "-f", folder / "id_ed25519"], check=True)
    (folder / "authorized_keys").write_bytes((folder / "id_ed25519.pub").read_bytes())
    return folder.parent


def settings(room, top):
    """The environment that the commands run in."""
    kept = {name: value for name, value in os.environ.items() if name not in ("USER", "LOGNAME")}
    prefix = room / "prefix"
    path = f"{STAND_INS}:{prefix}/usr/bin:{os.environ['PATH']}"
    own = {"REPOSITORY": top, "PREFIX": prefix, "CALLED": room / "called", "SSH_AUDIT": PROGRAM}
    return {**kept, "TMPDIR": str(room), "HOME": str(home(room)), "PATH": path, **{name: str(value) for name, value in own.items()}}


def ran(document, found, room):
    """What each command prints and its status; and where the shell ends, and which stand-ins were called."""
    top = repository(room, "rt run" not in DOCUMENTS[document])
    script = "".join(f"{command}\nprintf '{MARK}%d{MARK}' $?\n" for command, _ in found) + "pwd -P\n"
    (room / "called").touch()
    end = subprocess.run(["bash", "-c", script], cwd=top, env=settings(room, top), stdin=subprocess.DEVNULL, stdout=subprocess.PIPE, stderr=subprocess.STDOUT, check=False)
    *parts, folder = end.stdout.decode(errors="replace").split(MARK)
    pairs = list(zip(parts[::2], parts[1::2])) + [("no end", "no status")] * len(found)
    called = set((room / "called").read_text().split("\n")[:-1])
    return pairs[: len(found)], folder == f"{top}\n", called


def tried(document, room):
    """How many commands of a document passed and failed; and the two things that have to hold of its whole."""
    found = list(commands((TOP / document).read_text()))
    pairs, at_top, called = ran(document, found, room)
    faults = []
    for (command, wanted), (printed, status) in zip(found, pairs):
        lines = [line for line in printed.split("\n")[:-1] if not BESIDE.match(line)]
        good = status == "0" if wanted is None else agrees(lines, wanted) and status in ("0", "1", "2", "3")
        if not good:
            faults.append(f"{command}\n  wanted {wanted}\n  found  {printed[:2000]!r}, status {status}")
    if not at_top:
        faults.append("the shell does not end at the top of the repository")
    if called != DOCUMENTS[document]:
        faults.append(f"called: {sorted(called)}, and not {sorted(DOCUMENTS[document])}")
    for fault in faults:
        print(f"FAILED {document}: {fault}")
    return len(found) + 2 - len(faults), len(faults)


def rows_of_code():
    """The options of each subcommand, in their order, each with whether it may be left out."""
    options = (CODE / "args.rt").read_text()
    subcommands = (CODE / "subcommand.rt").read_text()
    names = dict(re.findall(r'ArgName::(\w+) => "([\w-]+)",', options))
    lists = {name: re.findall(r"\(ArgName::(\w+), (\w+)\)", body) for name, body in re.findall(r"^const (\w+): \[OptionRow; \d+\] = \[(.*?)\];$", subcommands, re.MULTILINE | re.DOTALL)}
    places = dict(re.findall(r"Subcommand::(\w+) => &(\w+),", subcommands))
    spelled = dict(re.findall(r'Subcommand::(\w+) => "(\w+)",', subcommands))
    return {spelled[which]: [(names[option], needed == "Optional") for option, needed in lists[place]] for which, place in places.items()}


def rows_of_manual():
    """The same, of the tables in the manual."""
    tables = TABLE.findall((TOP / "docs" / "MANUAL.md").read_text())
    return {name: [(option, default != "needed") for option, default in OPTION.findall(body)] for name, body in tables}


def compared():
    """How many subcommands have the same options in the code and in the manual, and how many do not."""
    code, manual = rows_of_code(), rows_of_manual()
    wrong = [name for name in sorted({*code, *manual}) if not code.get(name) or code.get(name) != manual.get(name)]
    for name in wrong:
        print(f"FAILED docs/MANUAL.md: the options of {name}\n  code   {code.get(name)}\n  manual {manual.get(name)}")
    good = len({*code, *manual}) - len(wrong)
    return (good, len(wrong)) if code else (good, len(wrong) + 1)


def main():
    if not os.access(PROGRAM, os.X_OK):
        print(f"{PROGRAM} is not built: nothing was tried\n0 passed, 1 failed")
        return 1
    passed = failed = 0
    for document in DOCUMENTS:
        with tempfile.TemporaryDirectory() as folder:
            counts = tried(document, pathlib.Path(folder).resolve())
        passed, failed = passed + counts[0], failed + counts[1]
    counts = compared()
    passed, failed = passed + counts[0], failed + counts[1]
    print(f"{passed} passed, {failed} failed")
    return 1 if failed else 0


if __name__ == "__main__":
    sys.exit(main())
