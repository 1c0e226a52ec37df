#!/usr/bin/env python3
"""Makes packages of the built program: ssh-trust-audit_VERSION_ARCHITECTURE.deb, a .tar.gz of the same files below bin/ and
share/, and SHA256SUMS of both. They hold the program as it was built, its manual page, completions for bash and zsh, and the
documents.

usage: build.py [PROGRAM] [--library MADE] [--out FOLDER]

PROGRAM is crates/ssh_audit/out/ssh_audit and FOLDER packaging/out where they are left out; packages of earlier runs in
FOLDER go. With --library the packages have the library for C too, as bindings/build.sh made it in MADE: the header, the
static and the shared library, and a file for pkg-config. The version is that of `explain version`, the day and time of the commit in UTC and its hash, and `+dirty` where files of the
repository are not as committed; sources that git does not know have `unknown` there. share/doc/ssh-trust-audit/VERSION
has it with the commit, the kit (`rt version`; the one that README.md names where there is no `rt`), and the SHA-256 of the
program and of the shared library. The same commit, program and tools give the same bytes. It does not know which commit PROGRAM and MADE were built from:
run `rt run` and bindings/build.sh before.

Needs git, readelf and gzip; and dpkg-deb for the .deb: without it only the .tar.gz is made, which it says. The status is
0, or 1 where something is missing or the program needs a library that is not in LIBRARIES."""
import argparse
import hashlib
import io
import os
import pathlib
import re
import shutil
import subprocess
import sys
import tarfile
import tempfile
import time

TOP = pathlib.Path(__file__).absolute().parent.parent
# The version that `ssh_audit explain version` prints.
RELEASE = re.search(r'^ *"ssh_audit ([\d.]+)",$', (TOP / "crates/ssh_print/src/table.rt").read_text(), re.MULTILINE)[1]
NAME = "ssh-trust-audit"
MACHINES = {"Advanced Micro Devices X86-64": "amd64", "AArch64": "arm64"}
# The Debian package of each library that a program may be linked with.
LIBRARIES = {
    **dict.fromkeys(("libc.so.6", "libm.so.6", "libpthread.so.0", "libdl.so.2", "ld-linux-x86-64.so.2", "ld-linux-aarch64.so.1"), "libc6"),
    "libgcc_s.so.1": "libgcc-s1",
}
# The first glibc with a feature that is not named by its version (elf/dl-version.c of glibc).
FEATURES = {"GLIBC_ABI_DT_RELR": "2.36"}
NEEDED = re.compile(r"\(NEEDED\).*\[(.*)\]")
VERSION_NEEDED = re.compile(r"Name: (\w+?)_([\d.]+|ABI_\w+)\s")
KIT = re.compile(r"`rt version` has to answer `([^`]*)`")
CONTROL = """\
Package: ssh-trust-audit
Version: {version}
Architecture: {architecture}
Maintainer: {maintainer}
Installed-Size: {size}
{depends}Suggests: jq, openssh-client, openssl, python3
Section: admin
Priority: optional
Description: who gets in by authorized_keys, which hosts known_hosts trusts
 The program ssh_audit lists who gets in by OpenSSH's trust files and with
 which rights, and what has to be fixed in them. It says of one key by which
 line it gets in, or why not, line by line. It opens no connection.
 .
 It is not Debian's ssh-audit, which scans servers.
 .
 Commit {commit},
 kit {kit}.
"""
VERSION = """\
ssh_audit {version}
commit {commit}
of {date}
kit {kit}
{digests}
needs {needs}
"""
# For pkg-config: found from where the file stands, so that the packages may be unpacked anywhere.
PKG_CONFIG = """\
prefix=${{pcfiledir}}/../..
includedir=${{prefix}}/include
libdir=${{prefix}}/lib

Name: ssh_audit
Description: who gets in by OpenSSH's trust files
Version: {version}
Cflags: -I${{includedir}}
Libs: -L${{libdir}} -lssh_audit
Libs.private: -lm
"""
SHARED = "libssh_audit.so.0"


def told(*command):
    """What a command prints; the script ends where it fails."""
    try:
        return subprocess.run(command, cwd=TOP, stdin=subprocess.DEVNULL, stdout=subprocess.PIPE, check=True).stdout.decode().strip()
    except (OSError, subprocess.CalledProcessError) as error:
        sys.exit(f"build.py: {error}")


def kit():
    """The identity of the kit."""
    return told("rt", "version") if shutil.which("rt") else KIT.search((TOP / "README.md").read_text())[1]


def needs(built):
    """The Debian packages that built files need, each with the least version that has what they want, or none."""
    found, wanted = {}, []
    for path in map(str, built):
        for library in NEEDED.findall(told("readelf", "-dW", path)):
            if library not in LIBRARIES:
                sys.exit(f"build.py: {path} needs {library}, which is not in LIBRARIES")
            found[LIBRARIES[library]] = None
        wanted += [FEATURES.get(f"GLIBC_{version}", version) for name, version in VERSION_NEEDED.findall(told("readelf", "-VW", path)) if name == "GLIBC"]
    if "libc6" in found and wanted:
        found["libc6"] = max(wanted, key=lambda version: [int(part) for part in version.split(".")])
    return [f"{package} (>= {least})" if least else package for package, least in found.items()]


def last_commit():
    """Its hash, its seconds and its author; of sources that git does not know they are unknown, 0 and unknown."""
    ran = subprocess.run(["git", "log", "-1", "--format=%H%n%ct%n%an <%ae>"], cwd=TOP, stdin=subprocess.DEVNULL, stdout=subprocess.PIPE, stderr=subprocess.DEVNULL, check=False)
    return ran.stdout.decode().splitlines() if ran.returncode == 0 else ("unknown", "0", "unknown <unknown@localhost>")


def digest_lines(program, library):
    """A line for each file that was built."""
    built = {"program": program, **({"library": library / SHARED} if library else {})}
    return "\n".join(f"{name} sha256 {hashlib.sha256(path.read_bytes()).hexdigest()}" for name, path in built.items())


def facts(program, library):
    """What the control file, VERSION and the file for pkg-config say."""
    commit, seconds, maintainer = last_commit()
    moment = time.gmtime(int(seconds))
    dirty = "+dirty" if commit != "unknown" and told("git", "--no-optional-locks", "status", "--porcelain") else ""
    machine = re.search(r"Machine: +(.*)", told("readelf", "-hW", str(program)))[1]
    depends = ", ".join(needs([program, *([library / SHARED] if library else [])]))
    return {
        "version": f"{RELEASE}+git{time.strftime('%Y%m%d.%H%M%S', moment)}.{commit[:8]}{dirty}",
        "commit": commit,
        "date": time.strftime("%Y-%m-%dT%H:%M:%SZ", moment),
        "seconds": int(seconds),
        "maintainer": maintainer,
        "architecture": MACHINES[machine],
        "kit": kit(),
        "digests": digest_lines(program, library),
        "needs": depends or "no library",
        "depends": f"Depends: {depends}\n" if depends else "",
    }


def zipped(data):
    """By gzip and without a time, so that the same bytes give the same."""
    return subprocess.run(["gzip", "-9n"], input=data, stdout=subprocess.PIPE, check=True).stdout


def library_files(library, known):
    """The files of the library for C, in the same way. Programs are linked by the link, and started with what it leads to."""
    files = {f"lib/{name}": ((library / name).read_bytes(), False) for name in ("libssh_audit.a", SHARED)}
    return {
        **files,
        "include/ssh_audit.h": ((library / "ssh_audit.h").read_bytes(), False),
        "lib/libssh_audit.so": SHARED,
        "lib/pkgconfig/ssh_audit.pc": (PKG_CONFIG.format(**known).encode(), False),
    }


def contents(program, library, known):
    """Each file of the packages by its name below the prefix: its bytes, and whether it is run; or what it is a link to."""
    documents = f"share/doc/{NAME}"
    files = {
        "bin/ssh_audit": (program.read_bytes(), True),
        "share/man/man1/ssh_audit.1.gz": (zipped((TOP / "docs" / "ssh_audit.1").read_bytes()), False),
        "share/bash-completion/completions/ssh_audit": ((TOP / "packaging" / "ssh_audit.bash").read_bytes(), False),
        "share/zsh/site-functions/_ssh_audit": ((TOP / "packaging" / "_ssh_audit").read_bytes(), False),
        f"{documents}/VERSION": (VERSION.format(**known).encode(), False),
        **(library_files(library, known) if library else {}),
    }
    for path in (TOP / "README.md", TOP / "bench" / "README.md", *(TOP / "docs").glob("*.md"), TOP / "docs" / "page.png", *(path for path in (TOP / "examples").iterdir() if path.is_file())):
        files[f"{documents}/{path.relative_to(TOP)}"] = (path.read_bytes(), os.access(path, os.X_OK))
    return dict(sorted(files.items()))


def entry_of(name, file, known):
    """What an archive says of a file."""
    entry = tarfile.TarInfo(f"{NAME}-{known['version']}/{name}")
    entry.mtime, entry.uname, entry.gname = known["seconds"], "root", "root"
    if isinstance(file, str):
        entry.type, entry.linkname, entry.mode = tarfile.SYMTYPE, file, 0o777
    else:
        entry.size, entry.mode = len(file[0]), 0o755 if file[1] else 0o644
    return entry


def make_archive(files, known, path):
    """The files in a .tar.gz, below a folder of the package's name. No folder is an entry: none that is there changes."""
    with tempfile.TemporaryFile() as raw:
        with tarfile.open(fileobj=raw, mode="w", format=tarfile.GNU_FORMAT) as archive:
            for name, file in files.items():
                archive.addfile(entry_of(name, file, known), None if isinstance(file, str) else io.BytesIO(file[0]))
        raw.seek(0)
        path.write_bytes(zipped(raw.read()))


def write(path, file):
    path.parent.mkdir(parents=True, exist_ok=True)
    if isinstance(file, str):
        path.symlink_to(file)
    else:
        path.write_bytes(file[0])
        path.chmod(0o755 if file[1] else 0o644)


def make_package(files, known, path):
    """The files in a .deb, below /usr; zsh's completion where Debian's packages put theirs. A shared library has to be made known
    to the linker that starts programs."""
    with tempfile.TemporaryDirectory() as folder:
        room = pathlib.Path(folder)
        placed = {"usr/" + name.replace("site-functions", "vendor-completions"): file for name, file in files.items()}
        for name, file in placed.items():
            write(room / name, file)
        held = {name: file[0] for name, file in sorted(placed.items()) if not isinstance(file, str)}
        sums = "".join(f"{hashlib.md5(data).hexdigest()}  {name}\n" for name, data in held.items())
        size = sum((len(data) + 1023) // 1024 for data in held.values())
        write(room / "DEBIAN" / "md5sums", (sums.encode(), False))
        write(room / "DEBIAN" / "control", (CONTROL.format(size=size, **known).encode(), False))
        if f"usr/lib/{SHARED}" in placed:
            write(room / "DEBIAN" / "triggers", (b"activate-noawait ldconfig\n", False))
        for place, folders, names in os.walk(room):
            for name in folders:
                os.chmod(os.path.join(place, name), 0o755)
        room.chmod(0o755)
        for place in [*room.rglob("*"), room]:
            os.utime(place, (known["seconds"], known["seconds"]), follow_symlinks=False)
        # One thread: how many there are would show in the bytes.
        settings = {**os.environ, "SOURCE_DATE_EPOCH": str(known["seconds"]), "DPKG_DEB_THREADS_MAX": "1"}
        subprocess.run(["dpkg-deb", "--root-owner-group", "-Zxz", "--build", room, path], env=settings, stdout=subprocess.DEVNULL, check=True)


def main():
    parser = argparse.ArgumentParser(description="Makes packages of the built program.")
    parser.add_argument("program", nargs="?", default=TOP / "crates" / "ssh_audit" / "out" / "ssh_audit", type=pathlib.Path)
    parser.add_argument("--library", metavar="MADE", type=pathlib.Path)
    parser.add_argument("--out", metavar="FOLDER", default=TOP / "packaging" / "out", type=pathlib.Path)
    asked = parser.parse_args()
    if not os.access(asked.program, os.X_OK):
        sys.exit(f"build.py: {asked.program} is not built")
    if asked.library and not all((asked.library / name).is_file() for name in ("ssh_audit.h", "libssh_audit.a", SHARED)):
        sys.exit(f"build.py: no library in {asked.library}: run bindings/build.sh")
    library = asked.library and asked.library.absolute()
    known = facts(asked.program.absolute(), library)
    files = contents(asked.program, library, known)
    asked.out.mkdir(parents=True, exist_ok=True)
    for path in [*asked.out.glob(f"{NAME}_*"), asked.out / "SHA256SUMS"]:
        path.unlink(missing_ok=True)
    stem = asked.out / f"{NAME}_{known['version']}_{known['architecture']}"
    made = [pathlib.Path(f"{stem}.tar.gz")]
    make_archive(files, known, made[0])
    if shutil.which("dpkg-deb"):
        made.insert(0, pathlib.Path(f"{stem}.deb"))
        make_package(files, known, made[0])
    else:
        print("no dpkg-deb: no .deb is made")
    sums = "".join(f"{hashlib.sha256(path.read_bytes()).hexdigest()}  {path.name}\n" for path in made)
    (asked.out / "SHA256SUMS").write_text(sums)
    print(*made, sep="\n")


if __name__ == "__main__":
    main()
