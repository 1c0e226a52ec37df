#!/usr/bin/env python3
"""Runs the commands of docs/RECIPES.md on files that are made here, and compares what they print with what was worked out
by hand from those files.

usage: recipes.py [PROGRAM]

Each section of the page has one block marked `sh`; all of them run in one shell, in their order, in a folder with the files
of two quarters. The files of one machine are those of made-up accounts, by a configuration that the real sshd reads (which
wants /run/sshd: it is made where it is missing). The gate and the hook are tried on git repositories, and a real sshd is asked with the
page's own lines of sshd_config. Needs bash, jq, git, ssh, ssh-keygen, sshd, openssl 3 and the built program. What wants sqlite3, ansible-playbook or systemd-analyze is left out where
that is missing, which a line says. The last line is 'N passed, M failed'; the status is 0 where nothing failed."""
import collections
import hashlib
import json
import os
import pathlib
import re
import shutil
import subprocess
import sys
import tempfile
import urllib.parse

sys.dont_write_bytecode = True
import keys_in_git
import program
from openssh_servers import ACCOUNT, FROM_FILE, Server, Tools
from program import Tally, asked_at

HERE = pathlib.Path(__file__).resolve().parent
PAGE = HERE.parent / "docs" / "RECIPES.md"
EXAMPLES = HERE.parent / "examples"
# What a section needs that is not on every machine.
NEEDS = {"The same in SQLite": "sqlite3", "From many machines": "ansible-playbook"}
SECTION = re.compile(r"^## (.*)\n((?:(?!^## ).*\n)*)", re.MULTILINE)
BLOCK = re.compile(r"^```sh\n(.*?)^```$", re.MULTILINE | re.DOTALL)
MARK = "\x1e"
LIST = "The list of a quarter"
KEPT = "A line that cannot be read lets nobody in"
WEB, DB = "fleet/web1/ann/authorized_keys", "fleet/db1/root/authorized_keys2"
WEB_HOSTS, DB_HOSTS = "fleet/web1/ann/known_hosts", "fleet/db1/root/known_hosts2"
EVERY = keys_in_git.EVERY
NAMES = ("laptop", "backup", "build", "bob", "ca", "carol", "ci", "work", "old")
# 2026-02-02 and 2026-04-24, in UTC.
FIRST, SECOND = "1770000000", "1777000000"

# The lines of both quarters: {KEY} is the key of that name, its type in front and its comment behind.
QUARTERS = (
    {
        WEB: """# web1
{laptop}
from="10.0.0.0/8",restrict,command="/usr/bin/backup" {backup}
command="/usr/bin/deploy" {build}
restrict {laptop} again
{old}
expiry-time="20260101Z" {bob}
cert-authority {ca}
ssh-dss AAAA retired
""",
        DB: """from="10.0.0.0/8",restrict,command="/usr/bin/backup" {backup}
{work}
""",
    },
    {
        WEB: """# web1
{laptop}
from="10.0.0.0/8",restrict,command="/usr/bin/backup" {backup}
restrict,command="/usr/bin/deploy" {build}
expiry-time="20260510Z" {bob}
cert-authority {ca}
no-pty {carol}
""",
        DB: """restrict,command="/usr/bin/backup" {backup}
{ci}
{work}
""",
        # The keys of hosts: db was set up anew and web1 has the old key, git has one key of each of two types.
        WEB_HOSTS: """db,10.0.0.2 {laptop}
GIT.example.org {build}
*.lab,!x.lab {ca}
@cert-authority *.example.org {ca}
""",
        DB_HOSTS: """DB {backup}
10.0.0.2 {laptop}
git.example.org {old}
|1|F1E1KeoE/eEWhi10WpGv4OdiO6Y=|3988QV0VE8wmZL7suNrYQLITLCg= {work}
@revoked * {carol}
""",
    },
)
# What the second quarter's lines give, worked out from them: the file, the line, the key, and what stands there.
ACCESS = [
    (WEB, 2, "laptop", "key", EVERY, None, None),
    (WEB, 3, "backup", "key", "none", "/usr/bin/backup", "10.0.0.0/8"),
    (WEB, 4, "build", "key", "none", "/usr/bin/deploy", None),
    (WEB, 5, "bob", "key", EVERY, None, None),
    (WEB, 6, "ca", "authority", EVERY, None, None),
    (WEB, 7, "carol", "key", "port agent x11 rc", None, None),
    (DB, 1, "backup", "key", "none", "/usr/bin/backup", None),
    (DB, 2, "ci", "key", EVERY, None, None),
    (DB, 3, "work", "key", EVERY, None, None),
]
GONE = [
    (WEB, "key", "build", EVERY, 'command="/usr/bin/deploy"'),
    (WEB, "key", "old", EVERY, ""),
    (DB, "key", "backup", "none", 'from="10.0.0.0/8",restrict,command="/usr/bin/backup"'),
]
NEW = [
    (WEB, "key", "build", "none", 'restrict,command="/usr/bin/deploy"'),
    (WEB, "key", "bob", EVERY, 'expiry-time="20260510Z"'),
    (WEB, "key", "carol", "port agent x11 rc", "no-pty"),
    (DB, "key", "backup", "none", 'restrict,command="/usr/bin/backup"'),
    (DB, "key", "ci", EVERY, ""),
]
# The accounts of one machine, and what stands in their files: sshd reads all but the last two, and has no file for bob.
ACCOUNTS = """ann:x:1001:1001::{room}/home/ann:/bin/sh
bob:x:1002:1002::{room}/home/bob:/bin/sh
carol:x:1003:1003::{room}/home/carol & co:/bin/sh
dave:x:1004:1004::{room}/home/dave:/bin/sh
"""
MACHINE = {
    "home/ann/.ssh/authorized_keys": "laptop",
    "home/ann/.ssh/authorized_keys2": "backup",
    "home/carol & co/.keys/one": "ci",
    "home/carol & co/.keys/two": "work",
    "keys/carol-1003%h": "build",
    "home/carol & co/.ssh/authorized_keys": "old",
    "home/dave/none": "old",
}
SSHD_CONFIG = """HostKey {room}/host_key
TrustedUserCAKeys {room}/authorities
Match User carol
    AuthorizedKeysFile {room}/keys/%u-%U%%h %h/.keys/* {room}/keys/%u
    AuthorizedKeysCommand /usr/bin/keys %u none
    AuthorizedKeysCommandUser nobody
Match User dave
    AuthorizedKeysFile none
    TrustedUserCAKeys none
"""
# The findings of the first quarter in their order, each with its level at a code host.
SARIF = (("F9", "warning"), ("F4", "error"), ("F5", "warning"), ("F6", "note"), ("F1", "error"))
SIGNED = "evidence 0: good\nvouched\n{laptop}\n"
USED = ("laptop", "backup", "build", "work", "old")
# What is told of the login that sshd refused, by the key `backup` from outside the net of its line.
REFUSED = """{WEB}: does not admit: N3: no line admits the offer
    looked for {mark}
    3 G8: the line's from= does not permit the client; from "10.0.0.0/8"; address "192.0.2.7"; host -
{asked}
"""
COMMENTS = {name: f"{name}@example" for name in NAMES} | {"carol": "=carol@example", "work": "m\u00fcller"}
TOLD = {name: comment.replace("\u00fc", "\\xc3\\xbc") for name, comment in COMMENTS.items()}


def make_keys(room):
    """The line of each key, and its fingerprint as ssh-keygen prints it."""
    lines, marks = {}, {}
    for name in NAMES:
        kind = ["-t", "rsa", "-b", "1024"] if name == "old" else ["-t", "ed25519"]
        subprocess.run(["ssh-keygen", "-q", *kind, "-N", "", "-C", COMMENTS[name], "-f", name], cwd=room, check=True)
        lines[name] = (room / f"{name}.pub").read_text().strip()
        printed = subprocess.run(["ssh-keygen", "-lf", f"{name}.pub"], cwd=room, stdout=subprocess.PIPE, check=True).stdout
        marks[name] = printed.split()[1].decode()
    return lines, marks


def write_quarter(room, quarter, lines):
    for file, text in QUARTERS[quarter].items():
        (room / file).parent.mkdir(parents=True, exist_ok=True)
        (room / file).write_text(text.format(**lines))


def write_machine(room, lines):
    """The accounts and their files, and an sshd_config; `getent` prints these accounts."""
    for file, key in MACHINE.items():
        (room / file).parent.mkdir(parents=True, exist_ok=True)
        (room / file).write_text(lines[key] + "\n")
    (room / "accounts").write_text(ACCOUNTS.format(room=room))
    (room / "sshd_config").write_text(SSHD_CONFIG.format(room=room))
    subprocess.run(["ssh-keygen", "-q", "-t", "ed25519", "-N", "", "-f", "host_key"], cwd=room, check=True)
    (room / "bin" / "getent").write_text(f'#!/bin/sh\n[ "$*" = passwd ] && cat {room}/accounts\n')
    (room / "bin" / "getent").chmod(0o755)
    os.makedirs("/run/sshd", exist_ok=True)


def machine_settings(room):
    """The settings of that machine which may let in without a file."""
    return f"authorizedkeyscommand /usr/bin/keys %u none\nauthorizedkeyscommand none\ntrustedusercakeys {room}/authorities\ntrustedusercakeys none\n"


def machine_files(room):
    """The files that sshd reads on that machine."""
    return sorted((str(room / file) for file in [*MACHINE][:-2]), key=os.fsencode)


def machine_list(room, marks):
    """The list that is kept of that machine."""
    rows = [(file, "key", marks[key], EVERY, "", TOLD[key], "") for file in machine_files(room) for key in [MACHINE[os.path.relpath(file, room)]]]
    return "".join(sorted([*machine_settings(room).splitlines(True), *table(rows).splitlines(True)]))


def machine_zone():
    """The rule of this machine's time zone, which is asked by default: the last line of its file."""
    file = pathlib.Path("/etc/localtime")
    return file.read_bytes().decode(errors="replace").rstrip("\n").rpartition("\n")[2] if file.exists() else "UTC0"


def machine_review(room, marks):
    """What is printed of that machine: the settings, and the review of the files that sshd reads."""
    files, text = machine_files(room), machine_settings(room)
    for file in files:
        key = MACHINE[os.path.relpath(file, room)]
        mark = hashlib.sha256(pathlib.Path(file).read_bytes()).hexdigest()
        text += f"{file}:1: key ssh-ed25519 {marks[key]} {TOLD[key]}\n    rights {EVERY}\n"
        text += f"{file}: 1 lines, 1 key lines, 0 unreadable, 0 findings, sha256 {mark}\n"
    keys = {marks[MACHINE[os.path.relpath(file, room)]] for file in files}
    return text + f"total: {len(files)} files, 0 faults, {len(files)} lines, {len(files)} key lines, {len(keys)} distinct keys, 0 unreadable, 0 findings, {asked_at(SECOND, machine_zone())}\n"


def table(rows):
    """Rows of fields between tabs, sorted as bytes are."""
    return "".join(line + "\n" for line in sorted("\t".join(map(str, row)) for row in rows))


def changes(rows, marks):
    return table((file, what, marks[key], rights, options, TOLD[key]) for file, what, key, rights, options in rows)


def in_sqlite(marks):
    """What SQLite prints of both quarters."""
    told = lambda rows: "".join("\t".join(row) + "\n" for row in sorted((file, what, marks[key], rights, options, TOLD[key]) for file, what, key, rights, options in rows))
    counts = "".join(f"{code}\t1\t0\n" for code in ("F1", "F4", "F5", "F6", "F9"))
    text = f"not read:\ngone or changed:\n{told(GONE)}new or changed:\n{told(NEW)}"
    return f"{text}of nobody:\n{marks['ci']}\t{DB}\nfindings of both quarters:\n{counts}somebody|2\n"


def csv_cell(value):
    return "" if value is None else str(value) if isinstance(value, int) else '"' + value.replace('"', '""') + '"'


def csv(marks):
    """The table for a spreadsheet; one comment begins with a sign of formulas."""
    for file, line, key, what, rights, command, source in sorted(ACCESS, key=lambda row: row[0] == WEB):
        comment = ("'" if TOLD[key].startswith("=") else "") + TOLD[key]
        yield ",".join(map(csv_cell, (file, line, what, marks[key], rights, command, source, comment))) + "\n"


def wanted(room, marks):
    """What each section's block prints."""
    access = [(marks[key], file, line, what, rights, command or "any", source or "any", TOLD[key]) for file, line, key, what, rights, command, source in ACCESS]
    unused = {key for _, _, key, what, *_ in ACCESS if what == "key"} - set(USED)
    owners = collections.Counter((file.split("/")[2], file.split("/")[1]) for file, key in {(file, key) for file, _, key, *_ in ACCESS})
    counts = "".join(f"      1 {code}\n" for code in ("F1", "F4", "F5", "F6", "F9"))
    return {
        "Which files count": machine_review(room, marks),
        "What changed on one machine": f"gone or changed:\nnew or changed:\n{machine_list(room, marks)}",
        LIST: "2\n2\n",
        "Whose file it is": "".join(f"{count:7} {account}\t{host}\n" for (account, host), count in sorted(owners.items())),
        "From many machines": "",
        "Who has access": table(access) + marks["backup"] + "\n",
        "What changed since the last quarter": "gone or changed:\n" + changes(GONE, marks) + "new or changed:\n" + changes(NEW, marks),
        "The same in SQLite": in_sqlite(marks),
        "Where one key stands": "".join(f"{place}: key ssh-ed25519 {marks['backup']} {TOLD['backup']}\n" for place in (f"{DB}:1", f"{WEB}:3")),
        "Why a login was refused": REFUSED.format(WEB=WEB, mark=marks["backup"], asked=asked_at(SECOND, machine_zone())),
        "Keys that nobody used": table([marks[key]] for key in unused),
        "Orphans": f"{marks['ci']}\t{DB}\n",
        "Numbers for the report": f"q1\n{counts}q2\n",
        "What expires within 30 days": f"{WEB}:5 {marks['bob']} {TOLD['bob']}\n",
        "What hosts are known by": "db\tssh-ed25519\n",
        "For spreadsheets and code hosts": "".join(csv(marks)) + "".join(f"{code} {level}\n" for code, level in SARIF),
        KEPT: "",
        "A gate on a repository of keys": "",
        "A list that is signed": SIGNED.format(**marks),
        "A page for each team": "db1.html:3\nweb1.html:6\n" + SIGNED.format(**marks),
    }


def sections():
    return [(title, BLOCK.findall(body)) for title, body in SECTION.findall(PAGE.read_text())]


def run_blocks(room, blocks, settings):
    """What each block prints, and its status."""
    script = "".join(f"{block}printf '{MARK}%d{MARK}' $?\n" for block in blocks)
    ran = subprocess.run(["bash", "-c", script], cwd=room, env=settings, stdin=subprocess.DEVNULL, stdout=subprocess.PIPE, stderr=subprocess.STDOUT, check=False)
    parts = ran.stdout.decode(errors="replace").split(MARK)
    return list(zip(parts[::2], parts[1::2])) + [("no end", "none")] * len(blocks)


def recipe_rows(room, tally, settings, lines, marks):
    """The list of the first quarter is made by the page's own command; then all blocks run over the second quarter."""
    found, expected = sections(), wanted(room, marks)
    tally.check("each section has one block, and an expected text", [(title, len(blocks)) for title, blocks in found], [(title, 1) for title in expected])
    for title, need in NEEDS.items():
        if not shutil.which(need):
            print(f"{need} is missing: 1 rows were skipped ({title})")
    found = [section for section in found if shutil.which(NEEDS.get(section[0], "bash"))]
    blocks = [blocks[0] for _, blocks in found]
    write_quarter(room, 0, lines)
    run_blocks(room, [block for (title, _), block in zip(found, blocks) if title == LIST], {**settings, "NOW": FIRST})
    os.replace(room / "q2.json", room / "q1.json")
    write_quarter(room, 1, lines)
    log = "".join(f"Apr  1 00:00:00 web1 sshd[1]: Accepted publickey for ann from 10.0.0.1 port 1 ssh2: ED25519 {marks[key]}\n" for key in USED)
    refused = (("10.0.0.1", "bob"), ("192.0.2.7", "backup"))
    log += "".join(f"Apr  1 00:00:00 web1 sshd[1]: Failed publickey for ann from {address} port 1 ssh2: ED25519 {marks[key]}\n" for address, key in refused)
    (room / "auth.log").write_text(log)
    (room / "owners.tsv").write_text("".join(f"{marks[key]}\tsomebody\n" for key in NAMES if key != "ci"))
    for (title, _), (printed, status) in zip(found, run_blocks(room, blocks, {**settings, "NOW": SECOND})):
        tally.check(title, (printed, status), (expected.get(title), "0"))


def machine_rows(room, tally, settings, lines, marks):
    """One machine again: nothing changed, a key more, and a configuration that sshd refuses, which changes nothing kept."""
    refused = {**settings, "SSHD_CONFIG": "missing"}
    ran = subprocess.run([EXAMPLES / "trust_files.sh"], cwd=room, env=refused, stdout=subprocess.PIPE, stderr=subprocess.DEVNULL, check=False)
    tally.check("the files of a machine whose sshd does not answer", (ran.returncode != 0, ran.stdout), (True, b""))
    kept = lambda: (room / "kept" / "access.tsv").read_text()
    again = lambda given: review_machine(room, {**given, "NOW": SECOND})
    tally.check("one machine again", (again(settings), kept()), ((0, ""), machine_list(room, marks)))
    ann = room / "home/ann/.ssh/authorized_keys"
    with ann.open("a") as file:
        file.write(f"restrict {lines['ci']}\n")
    row = "\t".join((str(ann), "key", marks["ci"], "none", "restrict", TOLD["ci"], "")) + "\n"
    tally.check("one machine whose sshd does not answer", (again(refused)[0], kept()), (2, machine_list(room, marks)))
    tally.check("one machine with a key more", again(settings), (1, f"gone or changed:\nnew or changed:\n{row}"))
    tally.check("one machine with that key again", again(settings), (0, ""))
    (room / "home/ann/.ssh/authorized_keys2").unlink()
    (room / "home/ann/.ssh/authorized_keys2").mkdir()
    before = kept()
    tally.check("one machine with a file that cannot be read", (again(settings), kept()), ((2, ""), before))


def review_machine(room, settings):
    ran = subprocess.run([EXAMPLES / "review_machine.sh", "kept"], cwd=room, env=settings, stdin=subprocess.DEVNULL, stdout=subprocess.PIPE, stderr=subprocess.DEVNULL, check=False)
    return ran.returncode, ran.stdout.decode()


def unit_rows(room, tally):
    """systemd reads the two units. They are not run."""
    if not shutil.which("systemd-analyze"):
        print("systemd-analyze is missing: 1 rows were skipped (the units)")
        return
    names = ["ssh-audit-review.service", "ssh-audit-review.timer"]
    for name in names:
        # The script is not installed here.
        (room / name).write_text((EXAMPLES / name).read_text().replace("/usr/local/sbin/review_machine.sh", str(EXAMPLES / "review_machine.sh")))
    ran = subprocess.run(["systemd-analyze", "verify", "--man=no", *(room / name for name in names)], stdin=subprocess.DEVNULL, stdout=subprocess.PIPE, stderr=subprocess.STDOUT, check=False)
    tally.check("systemd-analyze verify", (ran.returncode, ran.stdout.decode()), (0, ""))


def gathered_rows(room, tally):
    """What Ansible brought of the one machine, as review prints it there, with the host before each file."""
    if not shutil.which("ansible-playbook"):
        return
    records = [json.loads(line) for line in (room / "all.json").read_text().splitlines()]
    files = machine_files(room)
    tally.check("what Ansible gathered", [record["file"] for record in records if record["what"] == "end"], [f"lists/web1.json:{file}" for file in files])
    tally.check("its total", [record["files"] for record in records if record["what"] == "total"], [len(files)])


def sarif_rows(room, tally):
    """The report for code hosts has a result for each finding of the list, at its line, and the digest of each file."""
    made = [json.loads(line) for line in (room / "q1.json").read_text().splitlines()]
    report = json.loads((room / "q1.sarif").read_text())
    run, name = report["runs"][0], lambda place: urllib.parse.unquote(place["uri"])
    at = lambda result: [place["physicalLocation"] for place in result["locations"]]
    told = [(one["ruleId"], name(place["artifactLocation"]), place["region"]["startLine"]) for one in run["results"] for place in at(one)]
    tally.check("a result for each finding", told, [(found["code"], one["file"], one["line"]) for one in made if "line" in one for found in one["findings"]])
    digests = [(name(one["location"]), one["hashes"]["sha-256"]) for one in run["artifacts"]]
    tally.check("the digest of each file", digests, [(one["file"], one["sha256"]) for one in made if one["what"] == "end"])
    rules = [rule["id"] for rule in run["tool"]["driver"]["rules"]]
    tally.check("rules, version and outcome", ({code for code, _, _ in told} - set(rules), report["version"], run["invocations"][0]["executionSuccessful"]), (set(), "2.1.0", True))


def login_rows(room, tally, path, lines):
    """sshd lets in by a line that cannot be read here; by the page's own lines of its configuration it does not, and the
    line that can be read lets in all the same."""
    command = (room / "keys.conf").read_text()
    for given, own in (("/usr/local/bin/ssh_audit", f"/usr/bin/env {path}"), ("/etc/ssh/keys/%u", "{room}/authorized_keys"), ("nobody", ACCOUNT)):
        tally.check(f"keys.conf names {given}", command.count(given), 1)
        command = command.replace(given, own)
    content = f"restrict,,pty {lines['laptop']}\nprincipals=\"x\" {lines['ci']}\n  Restrict,PTY {lines['backup']}\n".encode()
    for name, keys, wanted in (("by the file", FROM_FILE, (1, 3)), ("by readable", command, (None, 1))):
        server = Server(Tools("sshd", "ssh", "ssh-keygen"), room, f"sshd {name}".replace(" ", "-"), [room / "host_key"], keys=keys)
        try:
            found = [server.login(content, room / key) for key in ("laptop", "backup")]
        finally:
            server.stop()
        tally.check(f"logins {name}", tuple(login and login.line for login in found), wanted)
        tally.check(f"rights {name}", found[1] and found[1].rights, frozenset({"pty"}))


def main():
    path, tally = os.path.abspath(sys.argv[1] if len(sys.argv) > 1 else program.CRATE / "out" / "ssh_audit"), Tally()
    os.environ["PATH"] += ":/usr/sbin"
    missing = [need for need in ("bash", "jq", "git", "ssh", "ssh-keygen", "sshd", "openssl", path) if shutil.which(need) is None]
    if missing:
        print(f"{', '.join(missing)} missing: nothing was tried\n0 passed, 1 failed")
        return 1
    with tempfile.TemporaryDirectory() as folder:
        room = pathlib.Path(folder).resolve()
        (room / "bin").mkdir()
        (room / "bin" / "ssh_audit").symlink_to(path)
        settings = {**os.environ, "PATH": f"{room / 'bin'}:{os.environ['PATH']}", "TMPDIR": str(room)}
        settings.update({"SSHD_CONFIG": str(room / "sshd_config"), "EXAMPLES": str(EXAMPLES), "KEY": str(room / "laptop"), "EACH": "1", "INVENTORY": str(room / "hosts")})
        (room / "hosts").write_text("web1 ansible_connection=local ansible_become=false ansible_python_interpreter=auto_silent\n")
        lines, marks = make_keys(room)
        write_machine(room, lines)
        recipe_rows(room, tally, settings, lines, marks)
        machine_rows(room, tally, settings, lines, marks)
        login_rows(room, tally, path, lines)
        unit_rows(room, tally)
        gathered_rows(room, tally)
        sarif_rows(room, tally)
        row = lambda file, key, rights, options: "\t".join((file, "key", marks[key], rights, options, TOLD[key])) + "\n"
        keys_in_git.gate_rows(room, tally, {**settings, "NOW": SECOND}, lines, row)
        keys_in_git.hook_rows(room, tally, {**settings, "NOW": SECOND}, lines)
    print(f"{tally.passed} passed, {tally.failed} failed")
    return 1 if tally.failed else 0


if __name__ == "__main__":
    sys.exit(main())
