#!/usr/bin/env python3
"""Makes the packages of the built program by packaging/build.py, twice, and compares the bytes; looks at what is in them;
installs the .deb into a folder of its own, where dpkg keeps its records too, so that the machine stays as it is; asks
`man`, the program and the completions of bash and zsh there; compiles a C program there by pkg-config, and runs it; and
removes it again.

usage: packaging.py [PROGRAM] [--library MADE]

PROGRAM is crates/ssh_audit/out/ssh_audit and MADE, what bindings/build.sh made, bindings/out where they are left out. Needs
dpkg-deb, git, bash, binutils and the built program. Without dpkg-deb it says so and tries nothing. Rows that need root (dpkg
into a folder), the library, pkg-config with gcc, `man` or zsh are skipped where it is missing, and counted in a line of their
own. Without the library the packages are made without it. The last line is 'N passed, M failed'; the status is 0 where nothing failed."""
import argparse
import hashlib
import os
import pathlib
import re
import shutil
import stat
import subprocess
import sys
import tempfile

sys.dont_write_bytecode = True
import completed_words
import make_completion
import program
from program import Tally

TOP = program.HERE.parent
BUILD = TOP / "packaging" / "build.py"
NAME = "ssh-trust-audit"
DOCUMENTS = f"usr/share/doc/{NAME}"
DEBIAN_PLACES = {
    "usr/bin/ssh_audit": "crates/ssh_audit/out/ssh_audit",
    "usr/share/bash-completion/completions/ssh_audit": "packaging/ssh_audit.bash",
    "usr/share/zsh/vendor-completions/_ssh_audit": "packaging/_ssh_audit",
    "usr/share/man/man1/ssh_audit.1.gz": "docs/ssh_audit.1",
}
LIBRARY_PLACES = {"usr/include/ssh_audit.h": "ssh_audit.h", "usr/lib/libssh_audit.a": "libssh_audit.a", "usr/lib/libssh_audit.so.0": "libssh_audit.so.0"}
PKG_CONFIG = "usr/lib/pkgconfig/ssh_audit.pc"
LINKS = {"usr/lib/libssh_audit.so": "libssh_audit.so.0"}
# A link to another file of the package: what checks and crates hold is in the repository alone.
LINK = re.compile(r"\]\((?!https?:|#|\.\./(?:checks|crates)/)([^)#]+)")
# Where one of these is missing, rows are skipped.
skipped = {}


def skip(what, count):
    skipped[what] = skipped.get(what, 0) + count


def ran(*command, **how):
    """The status, and all that is printed."""
    end = subprocess.run(command, stdin=subprocess.DEVNULL, stdout=subprocess.PIPE, stderr=subprocess.STDOUT, check=False, **how)
    return end.returncode, end.stdout.decode(errors="replace")


def bytes_of(folder):
    """Each file below a folder by its name there, with its bytes."""
    return {str(path.relative_to(folder)): path.read_bytes() for path in sorted(folder.rglob("*")) if path.is_file()}


def digests(files):
    """The same with digests, which are shorter to print."""
    return {name: hashlib.sha256(data).hexdigest() for name, data in files.items()}


# ---- what is made


def built(path, library, room, tally):
    """The folder of the packages; None where none are made. The second time all that should not matter is otherwise."""
    given = ("--library", library) if library else ()
    first, second = room / "first", room / "second"
    other = room / "other name"
    shutil.copyfile(path, other)
    other.chmod(0o700)
    status, printed = ran(sys.executable, BUILD, path, *given, "--out", first)
    tally.check("build.py", (status, printed.count("\n")), (0, 2))
    settings = {**os.environ, "TZ": "Asia/Tokyo", "LC_ALL": "C"}
    tally.check("build.py again", ran("sh", "-c", 'umask 077; exec "$@"', "", sys.executable, BUILD, other, *given, "--out", second, cwd=room, env=settings)[0], 0)
    if status:
        print(printed)
        return None
    tally.check("the same bytes again", digests(bytes_of(first)), digests(bytes_of(second)))
    tally.check("SHA256SUMS", ran("sha256sum", "--check", "--quiet", "SHA256SUMS", cwd=first), (0, ""))
    ran(sys.executable, BUILD, path, *given, "--out", first)
    tally.check("once more into the same folder", digests(bytes_of(first)), digests(bytes_of(second)))
    missing = ran(sys.executable, BUILD, room / "no such program", "--out", room / "third")
    tally.check("no program", (missing[0], (room / "third").exists()), (1, False))
    missing = ran(sys.executable, BUILD, path, "--library", room / "no such folder", "--out", room / "third")
    tally.check("no library", (missing[0], (room / "third").exists()), (1, False))
    tools = room / "tools"
    tools.mkdir()
    for name in ("git", "readelf", "gzip"):
        (tools / name).symlink_to(shutil.which(name))
    status, printed = ran(sys.executable, BUILD, path, *given, "--out", room / "third", env={"PATH": str(tools)})
    made = [file.name for file in room.glob("third/*.*")]
    tally.check("neither dpkg-deb nor rt", (status, printed.splitlines()[0], made), (0, "no dpkg-deb: no .deb is made", [file.name for file in first.glob("*.tar.gz")]))
    return first


def wanted_version():
    """The version by the commit, told in another way than build.py tells it."""
    settings = {**os.environ, "TZ": "UTC0"}
    words = ("git", "-C", TOP, "log", "-1", "--date=format-local:%Y%m%d.%H%M%S", "--abbrev=8", "--format=1.0.0+git%cd.%H")
    day, commit = ran(*words, env=settings)[1].strip().rsplit(".", 1)
    is_clean = ran("git", "-C", TOP, "diff", "--quiet", "HEAD")[0] == 0 and not ran("git", "-C", TOP, "ls-files", "--others", "--exclude-standard")[1]
    return f"{day}.{commit[:8]}" + ("" if is_clean else "+dirty"), commit


def wanted_glibc(path, library):
    """The last version of glibc that the symbols of the program and of the library name."""
    printed = [ran("objdump", "-T", file)[1] for file in (path, *([library / "libssh_audit.so.0"] if library else []))]
    found = re.findall(r"GLIBC_(\d+)\.(\d+)", "".join(printed))
    return max((int(major), int(minor)) for major, minor in found)


def control_rows(package, path, library, tally):
    """What the package says of itself."""
    version, commit = wanted_version()
    told = {name: ran("dpkg-deb", "-f", package, name)[1].strip() for name in ("Package", "Version", "Depends", "Description", "Architecture")}
    tally.check("the names of the files", sorted(file.name for file in package.parent.iterdir()), sorted(["SHA256SUMS", *(f"{NAME}_{version}_{told['Architecture']}.{end}" for end in ("deb", "tar.gz"))]))
    tally.check("package and version", (told["Package"], told["Version"]), (NAME, version))
    least = re.search(r"\blibc6 \(>= (\d+)\.(\d+)\)", told["Depends"])
    tally.check("the libc6 that it needs", least and tuple(map(int, least.groups())), wanted_glibc(path, library))
    named = re.search(r"wants glibc (\d+)\.(\d+) or later", (TOP / "docs" / "MANUAL.md").read_text())
    tally.check("the glibc that MANUAL names", named and tuple(map(int, named.groups())), wanted_glibc(path, None))
    tally.check("it is told from Debian's ssh-audit", "not Debian's ssh-audit" in told["Description"], True)
    tally.check("its commit", commit in told["Description"], True)
    tally.check("dpkg takes its version", ran("dpkg", "--compare-versions", version, "gt", "1.0.0")[0], 0)
    return version, commit


def wanted_files():
    """Each file of the package, and the file of the repository that it is."""
    kept = [TOP / "README.md", TOP / "bench" / "README.md", *(TOP / "docs").glob("*.md"), TOP / "docs" / "page.png", *(path for path in (TOP / "examples").iterdir() if path.is_file())]
    return {**DEBIAN_PLACES, **{f"{DOCUMENTS}/{path.relative_to(TOP)}": str(path.relative_to(TOP)) for path in kept}}


def files_listed(lines):
    """The lines that `dpkg-deb -c` prints of files and links, as mode, owner and name."""
    return sorted(((mode, owner, " ".join(name).removeprefix("./")) for mode, owner, _, _, _, *name in lines if not name[-1].endswith("/")), key=lambda line: line[2])


def content_rows(package, path, library, room, told, tally):
    """Each file with its mode and its owner, in both packages; and its bytes."""
    version, commit = told
    wanted = wanted_files()
    made = {name: library / file for name, file in LIBRARY_PLACES.items()} if library else {}
    made["usr/bin/ssh_audit"] = path
    runs = {"usr/bin/ssh_audit", *(name for name, file in wanted.items() if file.startswith("examples/") and os.access(TOP / file, os.X_OK))}
    files = sorted([*wanted, f"{DOCUMENTS}/VERSION", *([*LIBRARY_PLACES, PKG_CONFIG] if library else [])])
    links = [("lrwxrwxrwx", "root/root", f"{name} -> {to}") for name, to in LINKS.items()] if library else []
    lines = [line.split() for line in ran("dpkg-deb", "-c", package)[1].splitlines()]
    tally.check("folders of the .deb", {(mode, owner) for mode, owner, *_, name in lines if name.endswith("/")}, {("drwxr-xr-x", "root/root")})
    tally.check("files of the .deb", files_listed(lines), sorted([*links, *(("-rwxr-xr-x" if name in runs else "-rw-r--r--", "root/root", name) for name in files)], key=lambda line: line[2]))
    tree = room / "tree"
    ran("dpkg-deb", "-R", package, tree)
    tally.check("md5sums", (ran("md5sum", "--check", "--quiet", "DEBIAN/md5sums", cwd=tree), (tree / "DEBIAN" / "md5sums").read_text().count("\n")), ((0, ""), len(files)))
    for name, file in wanted.items():
        held = subprocess.run(["gzip", "-dc", tree / name], stdout=subprocess.PIPE, check=False).stdout if name.endswith(".gz") else (tree / name).read_bytes()
        tally.check(f"{name} is {file}", name in made or held == (TOP / file).read_bytes(), True)
    for name, file in made.items():
        tally.check(f"{name} is what was built", (tree / name).read_bytes() == file.read_bytes(), True)
    marks = [f"program sha256 {hashlib.sha256(path.read_bytes()).hexdigest()}"]
    marks += [f"library sha256 {hashlib.sha256((library / 'libssh_audit.so.0').read_bytes()).hexdigest()}"] if library else []
    said = (tree / DOCUMENTS / "VERSION").read_text()
    tally.check("VERSION", [line for line in (f"ssh_audit {version}", f"commit {commit}", *marks) if line not in said.splitlines()], [])
    tally.check("VERSION names the kit", bool(re.search(r"^kit \S+ logic \w+$", said, re.MULTILINE)), True)
    for document in sorted((tree / DOCUMENTS).rglob("*.md")):
        lost = [link for link in LINK.findall(document.read_text()) if not (document.parent / link).exists()]
        tally.check(f"links of {document.relative_to(tree / DOCUMENTS)}", lost, [])
    archive = next(package.parent.glob("*.tar.gz"))
    tally.check("no folder is an entry of the archive", [line for line in ran("tar", "-tvzf", archive)[1].splitlines() if line[0] not in "-l" or " root/root " not in line], [])
    prefix = room / "prefix"
    prefix.mkdir()
    tally.check("tar -x", ran("tar", "-xzf", archive, "-C", prefix, "--strip-components", "1"), (0, ""))
    placed = {name.replace("vendor-completions", "site-functions"): data for name, data in bytes_of(tree / "usr").items()}
    tally.check("the archive has the same files", digests(bytes_of(prefix)), digests(placed))
    tally.check("their modes", {name for name in placed if (prefix / name).stat().st_mode & stat.S_IXUSR}, {name.removeprefix("usr/") for name in runs})


# ---- as it is installed


def installed(package, path, library, room, tally):
    """The folder that the package is installed into, and what removes it: by dpkg where it is run by root, else unpacked."""
    root = room / "root"
    if os.geteuid() != 0:
        skip("root", 6)
        ran("dpkg-deb", "-x", package, root)
        return root, lambda: None
    records = root / "var" / "lib" / "dpkg"
    for name in ("info", "updates"):
        (records / name).mkdir(parents=True)
    settings = {**os.environ, "PATH": f"{os.environ['PATH']}:/usr/sbin:/sbin"}
    dpkg = lambda *words: ran("dpkg", f"--root={root}", f"--log={room / 'dpkg.log'}", "--path-include=/usr/*", *words, env=settings)
    major, minor = wanted_glibc(path, library)
    stanza = "Package: {}\nStatus: install ok installed\nArchitecture: {}\nVersion: {}\nMaintainer: none\nDescription: stands for the system's\n\n"
    machine = ran("dpkg-deb", "-f", package, "Architecture")[1].strip()
    others = "".join(stanza.format(name, machine, 1) for name in re.findall(r"[\w-]+(?=,|$)", ran("dpkg-deb", "-f", package, "Depends")[1].strip()))
    (records / "status").write_text(others + stanza.format("libc6", machine, f"{major}.{minor - 1}"))
    status, printed = dpkg("-i", package)
    tally.check("an older libc6 does not do", (status, "libc6" in printed), (1, True))
    (records / "status").write_text(others + stanza.format("libc6", machine, f"{major}.{minor}"))
    tally.check("dpkg -i", dpkg("-i", package)[0], 0)
    tally.check("dpkg -s", "Status: install ok installed" in dpkg("-s", NAME)[1], True)
    tally.check("dpkg -V", dpkg("-V", NAME), (0, ""))

    def removed():
        tally.check("dpkg -r", dpkg("-r", NAME)[0], 0)
        tally.check("nothing is left", [name for name in bytes_of(root) if not name.startswith("var/lib/dpkg")], [])

    return root, removed


def program_rows(root, room, tally):
    """The installed program, found by its name."""
    settings = {"PATH": f"{root / 'usr/bin'}:{os.environ['PATH']}"}
    (room / "keys").write_text(program.FILES["keys"])
    tally.check("show", ran("ssh_audit", *program.show("key", "keys"), cwd=room, env=settings), (0, program.SHOWN))
    status, printed = ran("ssh_audit", "review", "--kind", "auth", "--now", "1", "--zone", "UTC0", "keys", cwd=room, env=settings)
    tally.check("review", (status, printed.startswith("keys:1: key ssh-ed25519 SHA256:")), (0, True))


def library_rows(root, library, room, tally):
    """bindings/c/example.c, compiled by what pkg-config says of the installed library: with the shared library, and with the static
    one."""
    if not library:
        skip("the library", 3)
        return
    if not shutil.which("pkg-config") or not shutil.which("gcc"):
        skip("pkg-config with gcc", 3)
        return
    settings = {**os.environ, "PKG_CONFIG_PATH": str((root / PKG_CONFIG).parent), "LD_LIBRARY_PATH": str(root / "usr/lib")}
    tally.check("pkg-config --modversion", ran("pkg-config", "--modversion", "ssh_audit", env=settings), (0, f"{wanted_version()[0]}\n"))
    for kind, words in (("shared", "--cflags --libs"), ("static", "--static --cflags --libs")):
        flags = ran("pkg-config", *words.split(), "ssh_audit", env=settings)[1].split()
        # The linker takes the shared library where it finds both.
        flags = [flag if kind == "shared" or flag != "-lssh_audit" else "-l:libssh_audit.a" for flag in flags]
        told = ran("gcc", "-std=c99", "-Wall", "-Wextra", "-Werror", "-o", room / kind, TOP / "bindings" / "c" / "example.c", *flags)
        status, printed = ran(room / kind, env=settings) if told == (0, "") else told
        tally.check(f"a C program with the {kind} library", (status, printed.splitlines()[:1]), (0, ["kind 0 line 10, kind 1 code N6"]))


def page_rows(root, tally):
    """The manual page, by its file and by its name."""
    if not shutil.which("man"):
        skip("man", 2)
        return
    settings = {**os.environ, "MANWIDTH": "80", "LC_ALL": "C.UTF-8", "MANPATH": str(root / "usr/share/man")}
    for words in (["-l", root / "usr/share/man/man1/ssh_audit.1.gz"], ["ssh_audit"]):
        status, printed = ran("man", "--warnings", *words, env=settings)
        tally.check(f"man {words[0]}", (status, printed.startswith("SSH_AUDIT(1)")), (0, True))


def usage_of(root):
    """The options of each command, and the codes, as the installed program tells them."""
    _, printed = ran(root / "usr/bin/ssh_audit", "explain", "usage")
    options = {line.split()[1]: re.findall(r"--[\w-]+", line) for line in printed.splitlines() if line.startswith("ssh_audit ")}
    _, printed = ran(root / "usr/bin/ssh_audit", "explain")
    return options, [line.split(":")[0] for line in printed.splitlines()]


def bash_rows(root, room, tally):
    """What bash offers is what the program has: commands, options, codes, and words that it takes as values."""
    completion = root / "usr/share/bash-completion/completions/ssh_audit"
    offered = lambda *words: completed_words.in_bash(completion, ["ssh_audit", *words], os.environ, room)
    options, codes = usage_of(root)
    tally.check("bash: the commands", sorted(offered("")), sorted([*options, "--help"]))
    for command, rows in options.items():
        tally.check(f"bash: the options of {command}", sorted(offered(command, "--")), sorted([*rows, "--help"]))
        for option in rows:
            for word in offered(command, option, "=") if option not in ("--user", "--host") else ():
                # A code that makes the status 1 has to be reported.
                beside = ["--findings", "all"] if option == "--fail-on" else []
                said = ran(root / "usr/bin/ssh_audit", *given(command, rows, option, word), *beside, cwd=room)[1]
                tally.check(f"bash: {command} {option} {word}", f"fault value {option[2:]}\n" in said or "fault usage" in said, False)
    tally.check("bash: the codes", set(offered("explain", "")), {*codes, "usage"})
    for words, wanted in (
        (["rev"], ["review"]),
        (["review", "--kind", "=", "au"], ["auth"]),
        (["review", "--kind", "auth", "--k"], ["--key"]),
        (["review", "--", "--k"], []),
        (["review", "--now", ""], []),
        (["login", "--offer", "A", "--off"], []),
        (["review", "--findings", "F1,F2"], ["F1,F2", "F1,F20", "F1,F21", "F1,F22"]),
        (["review", "--findings", "F2,F22,F2"], ["F2,F22,F20", "F2,F22,F21"]),
        (["review", "--findings", "F1,n"], []),
        (["review", "--fail-on", "F1,F2"], ["F1,F2", "F1,F20", "F1,F21", "F1,F22"]),
        (["review", "--show", "f"], ["found"]),
        (["nothing", "--"], ["--help"]),
    ):
        tally.check(f"bash: {words}", offered(*words), wanted)


# A value of each option that a command wants beside the one that is tried.
GOOD = {
    **{"--kind": "auth", "--now": "1", "--offer": program.KEY, "--signature": "00", "--algorithm": "ssh-ed25519", "--session": "00", "--hash": "00"},
    **{"--user": "ann", "--address": "192.0.2.1", "--host": "h", "--port": "22"},
}


def given(command, rows, option, word):
    """A command line that gives this word to this option, and what the command wants beside it."""
    wanted = {name for name, may_go in make_completion.documents.rows_of_code()[command] if not may_go} | {"offer", "signature"}
    # `admits` wants a key or its fingerprint.
    wanted |= {"key"} if command == "admits" and option != "--fingerprint" else set()
    values = {name: GOOD.get(name, "keys") for name in rows if name[2:] in wanted}
    values[option] = word
    name = "web1\tann\tkeys" if option == "--labels" else "keys"
    operands = [name] if command in make_completion.make_manual_page.operands() else []
    return [command, *(part for pair in values.items() for part in pair), *operands]


def typed_rows(name, shell, tally, rows):
    """Keys that are typed, and the words that the command gets."""
    for keys, wanted in rows:
        words = shell.typed(keys)
        split = [part for word in words for part in (word.split("=", 1) if word.startswith("--") else [word])] if isinstance(words, list) else words
        tally.check(f"{name}: {keys!r}", split, wanted)
    shell.end()


TYPED = (
    ("ssh_audit rev\t", ["review"]),
    ("ssh_audit review --ki\tau\tauthor\t", ["review", "--kind", "auth", "authorized_keys"]),
    ("ssh_audit review --kind=kn\t", ["review", "--kind", "known"]),
    ("ssh_audit trusts --key id\t", ["trusts", "--key", "id of ann.pub"]),
    ("ssh_audit review --findings F22,F13\t", ["review", "--findings", "F22,F13"]),
    ("ssh_audit review --findings F22,no\t", ["review", "--findings", "F22,no"]),
    ("ssh_audit show --kind c\t--fi\t./author\t", ["show", "--kind", "cert", "--file", "./authorized_keys"]),
    ("ssh_audit admits --user roo\t", ["admits", "--user", "root"]),
    ("ssh_audit explain gr\tF22\t", ["explain", "granted", "F22"]),
    ("ssh_audit review -- id\t", ["review", "--", "id of ann.pub"]),
)


def typing_rows(root, room, tally):
    """Keys that are typed into a bash and into a zsh that know nothing but this completion."""
    desk = room / "desk"
    desk.mkdir()
    for name in ("authorized_keys", "id of ann.pub"):
        (desk / name).touch()
    share = root / "usr/share"
    shell = completed_words.Shell(["bash", "--norc", "--noprofile", "-i"], [f"source '{share}/bash-completion/completions/ssh_audit'"], os.environ, desk)
    typed_rows("bash", shell, tally, TYPED)
    if shutil.which("zsh"):
        begin = [f"fpath=('{share}/zsh/vendor-completions' $fpath)", "autoload -Uz compinit", "compinit -u -D"]
        typed_rows("zsh", completed_words.Shell(["zsh", "-f", "-i"], begin, os.environ, desk), tally, TYPED)
    else:
        skip("zsh", len(TYPED))


def main():
    parser = argparse.ArgumentParser(description="Tries the packages.")
    parser.add_argument("program", nargs="?", default=program.CRATE / "out" / "ssh_audit", type=pathlib.Path)
    parser.add_argument("--library", metavar="MADE", default=TOP / "bindings" / "out", type=pathlib.Path)
    asked = parser.parse_args()
    path, tally = asked.program.resolve(), Tally()
    library = asked.library.resolve() if (asked.library / "libssh_audit.a").is_file() else None
    if not shutil.which("dpkg-deb"):
        print("dpkg-deb is missing (Debian: dpkg): nothing was tried\n0 passed, 0 failed")
        return 0
    missing = [need for need in ("bash", "git", "readelf", "objdump", path) if shutil.which(need) is None]
    if missing:
        print(f"{', '.join(map(str, missing))} missing: nothing was tried\n0 passed, 1 failed")
        return 1
    if ran("git", "-C", TOP, "log", "-1")[0]:
        print("git does not know this folder: nothing was tried\n0 passed, 0 failed")
        return 0
    with tempfile.TemporaryDirectory() as folder:
        room = pathlib.Path(folder).resolve()
        room.chmod(0o755)
        made = built(path, library, room, tally)
        if made:
            package = next(made.glob("*.deb"))
            content_rows(package, path, library, room, control_rows(package, path, library, tally), tally)
            root, removed = installed(package, path, library, room, tally)
            program_rows(root, room, tally)
            library_rows(root, library, room, tally)
            page_rows(root, tally)
            bash_rows(root, room, tally)
            typing_rows(root, room, tally)
            removed()
    for need, count in skipped.items():
        print(f"{need} is missing: {count} rows were skipped")
    print(f"{tally.passed} passed, {tally.failed} failed")
    return 1 if tally.failed else 0


if __name__ == "__main__":
    sys.exit(main())
