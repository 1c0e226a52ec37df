#!/usr/bin/env python3
"""Runs the built program and compares what goes to standard error: help, which word or value is wrong, and on a terminal what
a question was asked with that left something out. What goes to standard output is compared too, and so are questions with a
list of names and those with the names themselves.

usage: help.py [PROGRAM]

The last line is 'N passed, M failed'; the status is 0 where nothing failed."""
import os
import pathlib
import re
import subprocess
import sys
import tempfile
import time

HERE = pathlib.Path(__file__).resolve().parent
sys.dont_write_bytecode = True
PROGRAM = pathlib.Path(sys.argv[1] if len(sys.argv) > 1 else HERE.parent / "crates" / "ssh_audit" / "out" / "ssh_audit").resolve()
SUBCOMMANDS = HERE.parent / "crates" / "ssh_program" / "src"
USAGE = b"fault usage\n"
KEY = "ssh-ed25519 AAAAC3NzaC1lZDI1NTE5AAAAIAAAAAAAAAAAAAAAAAAAAAAAAAAAAAAAAAAAAAAAAAAA me\n"
LOGIN = "login --file f --offer A --signature 00 --algorithm ssh-ed25519 --session 00 --user ann --address 192.0.2.1 --now 1"
SEE_ALL = "see 'ssh_audit --help', or the manual page ssh_audit(1)\n"
SEE_ONE = "see 'ssh_audit COMMAND --help', or the manual page ssh_audit(1)\n"
SECOND, DATE = 1795913108, "2026-11-29T00:45:08Z"
ZONES = pathlib.Path("/usr/share/zoneinfo")

passed = failed = 0


def check(name, found, wanted):
    global passed, failed
    if found == wanted:
        passed += 1
    else:
        failed += 1
        print(f"FAILED {name}\n  wanted {wanted!r}\n  found  {found!r}"[:2000], flush=True)


def run(words, room, home=None, stdin=b""):
    """The status, what was printed, and what went to standard error."""
    given = {"PATH": os.environ["PATH"], **({"HOME": str(home)} if home else {})}
    ran = subprocess.run([PROGRAM, *words], cwd=room, env=given, input=stdin, capture_output=True, timeout=60, check=False)
    return ran.returncode, ran.stdout, ran.stderr.decode()


def run_on_terminal(words, room, home=None, terminal="xterm"):
    """The same with an environment that names a terminal."""
    given = {"PATH": os.environ["PATH"], "TERM": terminal, **({"HOME": str(home)} if home else {})}
    ran = subprocess.run([PROGRAM, *words], cwd=room, env=given, stdin=subprocess.DEVNULL, capture_output=True, timeout=60, check=False)
    return ran.returncode, ran.stdout, ran.stderr.decode()


def see(command):
    return f"see 'ssh_audit {command} --help'\n"


def usage_rows():
    """Command lines that ask for nothing, and what is said of them."""
    yield "", "ssh_audit: no command is given, and the first line of standard input has none\n" + SEE_ALL
    yield "logn --now 1", "ssh_audit: 'logn' is not a command\n" + SEE_ALL
    yield "--version", "ssh_audit: '--version' is not a command\n" + SEE_ALL
    yield LOGIN.replace(" --address 192.0.2.1", ""), "ssh_audit: login: --address is missing\n" + see("login")
    yield LOGIN + " --now 2", "ssh_audit: --now is given twice\n" + see("login")
    yield LOGIN.replace("--now 1", "--now=1 --now=2"), "ssh_audit: --now is given twice\n" + see("login")
    yield LOGIN + " --user", "ssh_audit: --user has no value\n" + see("login")
    yield LOGIN.replace("--user ann", "--user"), "ssh_audit: --user has no value\n" + see("login")
    yield LOGIN + " more", "ssh_audit: login: more is a word too many\n" + see("login")
    yield LOGIN.replace(" --offer A", ""), "ssh_audit: login: --offer or --offer-file is missing\n" + see("login")
    yield LOGIN + " --offer-file g", "ssh_audit: login: --offer and --offer-file are given, and one of them is wanted\n" + see("login")
    yield LOGIN.replace("--offer A", "--offer-file g").replace("--signature 00", ""), "ssh_audit: login: --signature or --signature-file is missing\n" + see("login")
    yield "review --foo 1 keys", "ssh_audit: review: --foo is not an option of review\n" + see("review")
    yield "review -x keys", "ssh_audit: review: -x is not an option of review\n" + see("review")
    yield "review --kind auth --now 1", "ssh_audit: review: no file is named\n" + see("review")
    yield "review --kind auth --now 1 --", "ssh_audit: review: no file is named\n" + see("review")
    yield "review --now 1 keys", "ssh_audit: review: --kind is missing\n" + see("review")
    yield "review --kind -- keys", "ssh_audit: --kind has no value\n" + see("review")
    yield "review --kind auth --now 1 --files-from a --files-from=b keys", "ssh_audit: --files-from is given twice\n" + see("review")
    yield "review --kind auth --now 1 keys --files-from", "ssh_audit: --files-from has no value\n" + see("review")
    yield "review --kind auth --files-from --now 1 keys", "ssh_audit: --files-from has no value\n" + see("review")
    yield "review --kind auth --now 1 --files-from listed --foo 1", "ssh_audit: review: --foo is not an option of review\n" + see("review")
    yield "review --now 1 --files-from listed", "ssh_audit: review: --kind is missing\n" + see("review")
    yield "trusts --files-from listed --key keys --host h --now 1", "ssh_audit: trusts: --files-from is not an option of trusts\n" + see("trusts")
    yield "readable", "ssh_audit: readable: --file is missing\n" + see("readable")
    yield "show --kind key", "ssh_audit: show: --file is missing\n" + see("show")
    yield "show --kind key --file f --port 1", "ssh_audit: show: --port is not an option of show\n" + see("show")
    yield "admits --user ann --now 1 keys", "ssh_audit: admits: --key or --fingerprint is missing\n" + see("admits")
    yield "admits --key k --fingerprint f --user ann --now 1 keys", "ssh_audit: admits: --key and --fingerprint are given, and one of them is wanted\n" + see("admits")
    yield "review --kind auth --now 1 --key k --fail-on F1 keys", "ssh_audit: review: --fail-on and --key are given, and one of them is wanted\n" + see("review")
    yield "review --kind auth --now 1 --zone UTC0 --fail-on F15 keys", "ssh_audit: review: --fail-on has a code that is not reported: name it in --findings too\n" + see("review")
    yield "review --kind auth --now 1 --key k --show all keys", "ssh_audit: review: --show and --key are given, and one of them is wanted\n" + see("review")
    yield "trusts --fingerprint f --host h --now 1 keys", "ssh_audit: trusts: --fingerprint is not an option of trusts\n" + see("trusts")
    yield "explain --all", "ssh_audit: explain: --all is not an option of explain\n" + see("explain")


def value_rows():
    """Values of the newer commands, and what they have to be."""
    for option, wanted in (
        ("now", "seconds since 1970-01-01 UTC"), ("zone", "a POSIX rule"), ("kind", "a format or kind"), ("rsa-minimum", "decimal digits"),
        ("findings", "all, none, or codes"), ("form", "text or json, and of review also line or html"), ("show", "all, found or totals"), ("fail-on", "all, none, or codes"),
    ):
        given = {"kind": "auth", "now": "1", "zone": "UTC0", option: "?"}
        words = [word for name, value in given.items() for word in (f"--{name}", value)]
        yield ["review", *words, "keys"], f"fault value {option}\n", f"ssh_audit: --{option} wants {wanted}"
    yield ["review", "--kind", "auth", "--now", "1", "--zone", "UTC0", "--key", "SHA256:x", "keys"], "fault value key\n", "ssh_audit: --key wants the name of a file, or a fingerprint"
    given = ["--key", "keys", "--zone", "UTC0", "--user", "ann", "--now", "1"]
    yield ["admits", *given, "--address", "?", "keys"], "fault A6\n", "ssh_audit: fault A6: "
    yield ["admits", "--fingerprint", "MD5:?", *given[2:], "--address", "192.0.2.1", "keys"], "fault value fingerprint\n", "ssh_audit: --fingerprint wants SHA256: and 43 characters"
    yield ["trusts", "--key", "keys", "--host", "h", "--now", "1", "--port", "x", "keys"], "fault value port\n", "ssh_audit: --port wants decimal digits"
    yield ["readable", "--file", "missing"], "fault A9\n", "ssh_audit: fault A9: "
    yield ["explain", "F99"], "fault value code\n", "ssh_audit: explain: a word is no code: "
    yield ["admits", *given, "--address", "192.0.2.1", "missing"], "missing: fault A9\n", "ssh_audit: admits: a file has a fault: "
    yield ["trusts", "--key", "missing", "--host", "h", "--now", "1", "keys"], "fault file missing\n", "ssh_audit: fault file: "


def why(words):
    """What is said of the file that these words name and that is not there."""
    return ["ssh_audit: missing: there is no such file\n"] if "missing" in words else []


def unread_rows(room):
    """Standard error says why each file could not be read, once and by its name, and standard output says A9 and why."""
    (room / "closed").write_text(KEY)
    (room / "closed").chmod(0)
    for name, wanted, listed in (
        ("none", "there is no such file", "not found"), (".", "it is a folder", "a folder"), ("keys/under", "it could not be read", "not readable"),
        ("a\nb", "there is no such file", "not found"), ("closed", "it may not be read", "no permission"),
    ):
        if name == "closed" and os.geteuid() == 0:
            continue
        shown = name.replace("\n", "\\x0a")
        status, printed, errors = run(["review", "--kind", "auth", "--now", "1", "--zone", "UTC0", "keys", name], room)
        check(f"why: {shown}", (status, f"{shown}: fault A9: {listed}\n" in printed.decode(), errors.splitlines()[1:]), (2, True, [f"ssh_audit: {shown}: {wanted}"]))
    status, _, errors = run(["review", "--kind", "auth", "--now", "1", "--zone", "UTC0", "none", "keys", ".", "none"], room)
    check("why: each in its turn", errors.splitlines()[1:], [f"ssh_audit: {told}" for told in ("none: there is no such file", ".: it is a folder", "none: there is no such file")])
    check("why: nothing of a file that is read", run(["review", "--kind", "auth", "--now", "1", "--zone", "UTC0", "keys"], room)[2], "")


# ---- a list of names

ASKED = ["review", "--kind", "auth", "--now", "1", "--zone", "UTC0"]
WANTS = "ssh_audit: --files-from wants a file of names, each ended by NUL or by a line end\n"


def list_rows():
    """The bytes of a list, and the names that it has."""
    yield b"keys\nother\n", ["keys", "other"]
    yield b"keys\nother", ["keys", "other"]
    yield b"keys\0other\0", ["keys", "other"]
    yield b"keys\0other", ["keys", "other"]
    yield b"a\nb\0keys\0", ["a\nb", "keys"]
    yield b"-x\n--now=5\n--\n--files-from\nkeys\n", ["-x", "--now=5", "--", "--files-from", "keys"]
    yield b"keys\nmissing\n.\nkeys\n", ["keys", "missing", ".", "keys"]
    yield " \u00e9 'q' \\\n./-\n".encode(), [" \u00e9 'q' \\", "./-"]
    yield b"keys\r\n", ["keys\r"]


def list_faults():
    """The bytes of a list that is none, and what is said of it."""
    yield b"", "it has no name"
    yield b"\n", "name 1 is empty"
    yield b"keys\n\nkeys\n", "name 2 is empty"
    yield b"keys\n\n", "name 2 is empty"
    yield b"keys\0\0", "name 2 is empty"
    yield b"keys\nkeys\tann\nkeys\n", "name 2 has a tab"
    yield b"keys\0-\0", "name 2 is -, and standard input is no name in a list"
    yield b"keys\n\xff\n", "it is not UTF-8"
    yield bytes(67_108_865), "it is longer than 67108864 bytes"


LABELS = ["--labels", "host,account"]


def labelled_faults():
    """The bytes of a list whose names are to have labels, and what is said of it."""
    yield b"keys\n", "name 1 has no host and account, each with a tab behind it"
    yield b"web\tann\tkeys\nweb\tkeys\n", "name 2 has no host and account, each with a tab behind it"
    yield b"web\tann\t\n", "name 1 is empty"
    yield b"web\tann\t-\n", "name 1 is -, and standard input is no name in a list"


def labels(room):
    """Names with host and account: the records are those of the file, and begin with both. The words say it as a list does."""
    (room / "a\tb").write_text(KEY)
    for name, host, account in (("keys", "web1", "ann"), ("keys", "", ""), ("missing", "web\\1", "\u00e9"), ("a\tb", "web1", "ann b")):
        word = f"{host}\t{account}\t{name}"
        shown = [part.encode().decode("latin1") for part in (account, host, name)]
        shown = ["".join(letter if " " <= letter < "\x7f" and letter != "\\" else f"\\x{ord(letter):02x}" for letter in part) for part in shown]
        for form, front, wanted in (("text", f"{shown[2]}:", f"{shown[0]}@{shown[1]}:{shown[2]}:"), ("json", f'{{"file":"{shown[2]}",'.replace("\\", "\\\\"), None)):
            if wanted is None:
                shown = [part.replace("\\", "\\\\") for part in shown]
                wanted = f'{front}"host":"{shown[1]}","account":"{shown[0]}",'
            status, plain, errors = run([*ASKED, "--form", form, "--", name], room)
            lines = [wanted + line[len(front):] if line.startswith(front) else line for line in plain.decode().split("\n")]
            (room / "listed").write_bytes(word.encode() + b"\n")
            for words in (["--files-from", "listed"], ["--", word]):
                found = run([*ASKED, *LABELS, "--form", form, *words], room)
                check(f"labels of {word!r} by {words[0]} as {form}", found, (status, "\n".join(lines).encode(), errors))
    for given, said in labelled_faults():
        (room / "listed").write_bytes(given)
        wanted = 2, b"fault value files-from\n", f"{WANTS}ssh_audit: listed: {said}\n"
        check(f"labels in a list of {given}", run([*ASKED, *LABELS, "--files-from", "listed"], room), wanted)
    for words in (["--labels", "account,host", "--", "web\tann\tkeys"], [*LABELS, "keys"], [*LABELS, "--", "web\tann\tkeys", "web\tkeys"]):
        check(f"labels: {words}", run([*ASKED, *words], room)[:2], (2, b"fault value labels\n"))


def lists(room):
    """A question with a list of names is answered as the one with these names, and one with a list that is none has a fault."""
    for name in ("other", "a\nb", "-x", "--now=5", " \u00e9 'q' \\"):
        (room / name).write_text(KEY)
    for given, names in list_rows():
        (room / "listed").write_bytes(given)
        for words, stdin in ((["--files-from", "listed"], b""), (["--files-from=listed"], b""), (["--files-from", "-"], given)):
            for form in ("text", "json"):
                found, wanted = run([*ASKED, *words, "--form", form], room, stdin=stdin), run([*ASKED, "--form", form, "--", *names], room)
                check(f"{given} by {words} as {form}", found, wanted)
        wanted = run([*ASKED, "--", "other", "keys", *names], room)
        check(f"{given} behind names", run([*ASKED, "other", "--files-from", "listed", "keys"], room), wanted)
        check(f"{given} where options end", run([*ASKED, "--files-from", "listed", "--", "other", "keys"], room), wanted)
        check(f"{given} for a key", run([*ASKED, "--files-from", "listed", "--key", "keys"], room), run([*ASKED, "--key", "keys", "--", *names], room))
    for given, said in list_faults():
        (room / "listed").write_bytes(given)
        wanted = 2, b"fault value files-from\n", f"{WANTS}ssh_audit: listed: {said}\n"
        check(f"a list of {given[:40]}", run([*ASKED, "--files-from", "listed", "keys"], room), wanted)
        check(f"a list of {given[:40]} as input", run([*ASKED, "--files-from", "-", "keys"], room, stdin=given), (*wanted[:2], wanted[2].replace(" listed:", " -:")))
    for name, said in (("missing", "there is no such file"), (".", "it is a folder"), ("a\\b\nc", "there is no such file")):
        shown = name.replace("\\", "\\x5c").replace("\n", "\\x0a")
        check(f"the list {shown!r}", run([*ASKED, f"--files-from={name}", "keys"], room), (2, b"fault value files-from\n", f"{WANTS}ssh_audit: {shown}: {said}\n"))
    for words in (["-"], ["--", "-"], ["--key", "-", "keys"], ["--key=-", "keys"]):
        wanted = 2, b"fault value files-from\n", f"{WANTS}ssh_audit: -: standard input can be read once only\n"
        check(f"two times standard input: {words}", run([*ASKED, "--files-from", "-", *words], room, stdin=b"keys\n"), wanted)
    (room / "listed").write_bytes(b"keys\n")
    check("a list and standard input", run([*ASKED, "--files-from", "listed", "-"], room, stdin=KEY.encode()), run([*ASKED, "-", "keys"], room, stdin=KEY.encode()))
    check("help beside a list", run(["review", "--files-from", "missing", "--help"], room), run(["review", "--help"], room))
    check("a word of standard input", run([], room, stdin=b"review --kind auth --now 1 --files-from listed keys\n")[:2], (2, USAGE))


def options_of(name):
    """The options of a subcommand in the source, and whether each has to be given."""
    source = (SUBCOMMANDS / "subcommand.rt").read_text()
    places = [re.search(rf"const {place}: \[OptionRow; \d+\] = \[(.*?)\];", source, re.DOTALL) for place in (f"TOLD_{name.upper()}", name.upper())]
    rows = next((found for found in places if found), None)
    words = dict(re.findall(r'ArgName::(\w+) => "([\w-]+)"', (SUBCOMMANDS / "args.rt").read_text()))
    return [(words[option], needed == "Required") for option, needed in re.findall(r"ArgName::(\w+), (\w+)", rows[1])] if rows else []


def help_rows(room):
    """Each command is in the list, and each option in its command's help."""
    _, listed, _ = run(["explain", "usage"], room)
    commands = [line.split(" ")[1] for line in listed.decode().splitlines() if line.startswith("ssh_audit ")]
    told = {run(words, room) for words in (["--help"], ["-h"], ["help"])}
    check("the ways to ask for the list", len(told), 1)
    status, printed, errors = told.pop()
    check("the list of the commands", (status, printed, errors.endswith(SEE_ONE)), (2, USAGE, True))
    for command in commands:
        check(f"{command} in the list", len(re.findall(rf"^  {command}: .+$", errors, re.MULTILINE)), 1)
        told = {run(words.split(" "), room) for words in (f"{command} --help", f"{command} -h", f"{command} --now 1 -h")}
        check(f"{command}: the ways to ask", len(told), 1)
        status, printed, text = told.pop()
        check(f"{command} --help", (status, printed, text.startswith(f"ssh_audit {command}: ")), (2, USAGE, True))
        for option, _ in options_of(command):
            check(f"{command} --{option}", len(re.findall(rf"--{option} [A-Z0-9]+", text)), 1)
        usage = next(line for line in listed.decode().splitlines() if line.startswith(f"ssh_audit {command}"))
        check(f"{command}: the words of the synopsis", re.findall(r"--[a-z-]+ [A-Z0-9]+", usage), re.findall(r"--[a-z-]+ [A-Z0-9]+", "\n".join(line for line in text.splitlines() if line.startswith("  "))))
        check(f"{command}: lines", all(len(line) < 121 for line in text.splitlines()), True)


# ---- questions that leave something out


def asked_with(errors):
    """What standard error says was added, without the time, which has to be that of the clock."""
    found = re.fullmatch(r"ssh_audit: asked with(.*)\n", errors)
    said = found[1] if found else errors
    clock = re.match(r" --now (\d+) \((\d{4}-\d\d-\d\dT\d\d:\d\d:\d\dZ)\)", said)
    if clock and abs(int(clock[1]) - time.time()) < 120 and clock[2] == time.strftime("%Y-%m-%dT%H:%M:%SZ", time.gmtime(int(clock[1]))):
        said = " NOW" + said[clock.end() :]
    return said


def local_zone():
    """The POSIX rule of this machine's zone, the last line of its file (RFC 9636 section 3.3); the empty text without one."""
    try:
        last = pathlib.Path("/etc/localtime").read_bytes().split(b"\n")[-2].decode()
    except (OSError, IndexError, UnicodeDecodeError):
        return ""
    return last


def default_rows(home):
    """Questions, and what is added to them. {zone} stands for the zone of this machine."""
    admits = "admits --key keys --user ann --address 192.0.2.1"
    for name in ("authorized_keys", "authorized_keys2", "ann.authorized_keys", "./authorized_keys"):
        yield f"review {name}", "{now}{zone} --kind auth"
    for name in ("known_hosts", "known_hosts2", "ssh_known_hosts", "db.known_hosts"):
        yield f"review {name}", "{now}{zone} --kind known"
    yield "review authorized_keys ./authorized_keys2", "{now}{zone} --kind auth"
    yield "review --files-from listed", "{now}{zone} --kind auth"
    yield "review --files-from listed known_hosts --kind known", "{now}{zone}"
    yield "review -- authorized_keys --now", "{now}{zone}"
    yield "review", f"{{now}}{{zone}} --kind auth {home}/.ssh/authorized_keys"
    yield "review --now=1", f"{{zone}} --kind auth {home}/.ssh/authorized_keys"
    yield "review --kind known --now 1", f"{{zone}} {home}/.ssh/known_hosts"
    yield "review --kind=known --now 1 --zone UTC0", f" {home}/.ssh/known_hosts"
    yield f"{admits} keys", "{now}{zone}"
    yield f"{admits} --now 1", f"{{zone}} {home}/.ssh/authorized_keys"
    yield "trusts --key keys --host h", f"{{now}} {home}/.ssh/known_hosts"
    yield "trusts --key keys --host h --now 1", f" {home}/.ssh/known_hosts"
    yield "trusts --key keys --host h --now 1 --", f" {home}/.ssh/known_hosts"
    yield "trusts --key keys --host [h]:2222", f"{{now}} {home}/.ssh/known_hosts"
    yield "review --kind auth --now 1 --zone UTC0 keys", ""
    yield "explain F1", ""
    yield "show --kind key --file keys", ""


def same_rows():
    """Words, and the words that have to give the same answer."""
    given = "review --kind auth --zone UTC0 --findings all keys"
    yield f"{given} --now {DATE}", f"{given} --now {SECOND}"
    yield f"{given} --now={DATE}", f"{given} --now={SECOND}"
    yield f"{given} --now 1970-01-01T00:00:00Z", f"{given} --now 0"
    for wrong in ("2026-11-29", "2026-11-29T00:45:08", "2026-11-29T00:45:08+00:00", "2026-02-30T00:00:00Z", "1969-12-31T23:59:59Z", "2026-11-29 00:45:08Z"):
        yield ["review", "--kind", "auth", "--zone", "UTC0", "--now", wrong, "keys"], "review --kind auth --zone UTC0 --now x keys"
    asked = "trusts --key keys --now 1 ports"
    for port, forms in (("2222", ("--host h:2222", "--host=h:2222", "--host [h]:2222", "--host=[h]:2222")), ("22", ("--host h:22", "--host [h]:22"))):
        for form in forms:
            yield f"{asked} {form}", f"{asked} --host h --port {port}"
    yield f"{asked} --host [::1]:2222", f"{asked} --host ::1 --port 2222"
    yield f"{asked} --host h:70000", f"{asked} --host h --port 70000"
    for uncut in ("::1", "2001:db8::1", "h:x", "h:", "[h]:", "[h]", ":22", "[]:22x"):
        yield f"{asked} --host {uncut}", f"{asked} --host {uncut} --port 22"
    yield f"{asked} --host h:2222 --port 22", f"{asked} --port 22 --host h:2222"
    if (ZONES / "Europe" / "Berlin").exists():
        dated = "review --kind auth --now 1 dated"
        yield f"{dated} --zone Europe/Berlin", f"{dated} --zone CET-1CEST,M3.5.0,M10.5.0/3"
        yield f"{dated} --zone=Europe/Berlin", f"{dated} --zone=CET-1CEST,M3.5.0,M10.5.0/3"
        yield f"{dated} --zone Europe", f"{dated} --zone x"
        yield f"{dated} --zone ../zoneinfo/Europe/Berlin", f"{dated} --zone x"
        yield f"{dated} --zone /usr/share/zoneinfo/Europe/Berlin", f"{dated} --zone x"


def defaults(room):
    """A question that leaves something out is answered as the one that gives it, and standard error says which that is."""
    home = room / "home"
    (home / ".ssh").mkdir(parents=True)
    for name in ("authorized_keys", "authorized_keys2", "ann.authorized_keys", ".ssh/authorized_keys"):
        (room / name if "/" not in name else home / name).write_text(KEY)
    for name in ("known_hosts", "known_hosts2", "ssh_known_hosts", "db.known_hosts", ".ssh/known_hosts"):
        (room / name if "/" not in name else home / name).write_text("h " + KEY)
    (room / "--now").write_text(KEY)
    (room / "listed").write_text("authorized_keys\n./authorized_keys2\n")
    (room / "ports").write_text("[h]:2222,[::1]:2222 " + KEY)
    (room / "dated").write_text('expiry-time="20240229" ' + KEY)
    rule = local_zone()
    for words, wanted in default_rows(home):
        status, printed, errors = run_on_terminal(words.split(), room, home)
        said = asked_with(errors) if wanted or errors.startswith("ssh_audit: asked") else ""
        check(f"{words}: nothing of it in a job", "asked with" in run(words.split(), room, home)[2], False)
        check(f"{words}: nothing of it without a real terminal", "asked with" in run_on_terminal(words.split(), room, home, "dumb")[2], False)
        zone = f" --zone {'local:' if words.startswith('review') else ''}{rule}" if rule else ""
        wanted = wanted.replace("{zone}", zone).replace("{now}", " NOW")
        if words.startswith("review -- authorized_keys"):
            check(words, (status, errors), (2, "ssh_audit: review: --kind is missing\n" + see("review")))
            continue
        check(words, said, wanted)
        if wanted and " NOW" not in wanted:
            name, *rest = words.split()
            check(f"{words}: the same with all given", run([name, *rest, *wanted.split()], room, home)[:2], (status, printed))
    for words, others in same_rows():
        words = words if isinstance(words, list) else words.split()
        check(" ".join(words), run(words, room)[:2], run(others.split(), room)[:2])
    for name, status in (("h:2222", 0), ("[::1]:2222", 0), ("h", 1), ("h:2222 --port 22", 1)):
        check(f"trusts {name}", run(f"trusts --key keys --now 1 ports --host {name}".split(), room)[0], status)
    check("no home", run(["review", "--kind", "auth"], room)[2], "ssh_audit: review: no file is named\n" + see("review"))


def main():
    with tempfile.TemporaryDirectory() as folder:
        room = pathlib.Path(folder)
        (room / "keys").write_text(KEY)
        (room / "listed").write_text("keys\n")
        for words, wanted in usage_rows():
            check(words, run(words.split(), room), (2, USAGE, wanted))
        check("no UTF-8", run(["review", b"\xff"], room), (2, USAGE, "ssh_audit: an argument is not UTF-8\n"))
        for words, printed, wanted in value_rows():
            status, found, errors = run(words, room)
            told = errors.splitlines(keepends=True)
            check(" ".join(words), (status, found.decode()[: len(printed)], errors[: len(wanted)], told[1:]), (2, printed, wanted, why(words)))
        unread_rows(room)
        lists(room)
        labels(room)
        help_rows(room)
        defaults(room)
    print(f"{passed} passed, {failed} failed")
    return 1 if failed else 0


if __name__ == "__main__":
    sys.exit(main())
