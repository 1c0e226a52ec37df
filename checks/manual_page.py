#!/usr/bin/env python3
"""Sees that the manual page docs/ssh_audit.1 is what make_manual_page.py makes. Compares it with the source: the options of
each command, in their order, with the rows of crates/ssh_program, and the codes with the table of crates/ssh_print; and
sees that `man` shows it without a warning, where there is a `man`. It runs no program of this repository.

usage: manual_page.py

Under COMMANDS each `.SS NAME` is a command, and each `.BI \\-\\-NAME ..` below it one of its options, whose text says "left
out" exactly where the option may be. The paragraph of the synopsis that begins with the command names the same options,
those that may be left out in brackets, and two of which one has to be given in parentheses. Under CODES each `.B CODE` stands above its sentence, which ends with a full stop
there. The last line is 'N passed, M failed'; the status is 0 where nothing failed."""
import itertools
import os
import re
import shutil
import subprocess
import sys

sys.dont_write_bytecode = True
import documents
import explained
import make_manual_page

PAGE = make_manual_page.PAGE
SECTION = re.compile(r"^\.SH (.*)$", re.MULTILINE)
COMMAND = re.compile(r"^\.SS (\w+)$", re.MULTILINE)
OPTION = re.compile(r'^\.BI --([\w-]+) ".*"\n((?:(?!\.).*\n?)*)', re.MULTILINE)
ASKED = re.compile(r"([\[(]|\| )?--([\w-]+) \w+")
CODE = re.compile(r"^\.B (\S+)\n(.*)\.$", re.MULTILINE)


def unescaped(text):
    """The page without comments, with the signs that are shown; changes of the font are gone."""
    text = re.sub(r'^\.\\".*\n', "", text, flags=re.MULTILINE)
    text = re.sub(r"\\f[BIR]|\\&", "", text)
    return text.replace("\\-", "-").replace("\\(aq", "'").replace("\\e", "\\")


def parts(pattern, text):
    """Each head that the pattern finds, with what follows it up to the next."""
    _, *found = pattern.split(text)
    return dict(zip(found[::2], found[1::2]))


def options_of_commands(text):
    """The options of each command, each with whether it may be left out."""
    return {name: [(option, "left out" in said) for option, said in OPTION.findall(body)] for name, body in parts(COMMAND, text).items()}


def options_of_synopsis(text):
    """The same, as the synopsis has them."""
    asked = {}
    for paragraph in text.split(".PP\n"):
        command = re.search(r"^ssh_audit (\w+)$", paragraph, re.MULTILINE)
        if command:
            asked[command.group(1)] = [(option, bool(bracket)) for bracket, option in ASKED.findall(paragraph)]
    return asked


def shown():
    """What is wrong with how `man` shows the page, if something is."""
    command = ["man", "--warnings", "-l", str(PAGE)]
    settings = {**os.environ, "MANWIDTH": "80", "LC_ALL": "C.UTF-8"}
    ran = subprocess.run(command, env=settings, stdin=subprocess.DEVNULL, stdout=subprocess.PIPE, stderr=subprocess.PIPE, check=False)
    if ran.returncode or b"SSH_AUDIT" not in ran.stdout:
        return f"man --warnings -l: status {ran.returncode}, {len(ran.stdout)} bytes: {ran.stderr.decode(errors='replace')}"
    return ran.stderr and f"man --warnings -l: {ran.stderr.decode(errors='replace')}"


def made():
    """What is wrong with the page as a whole, if something is."""
    return None if PAGE.read_text() == make_manual_page.made() else "the page is not what checks/make_manual_page.py makes: run that"


def options_compared(sections):
    """For each command and each place that has its options, what is wrong, or nothing."""
    wanted = documents.rows_of_code()
    for where, read in (("COMMANDS", options_of_commands), ("SYNOPSIS", options_of_synopsis)):
        found = read(sections[where])
        for name in sorted({*wanted, *found}):
            same = name in found and wanted.get(name, []) == found[name]
            yield None if same else f"{where}: the options of {name}\n  code {wanted.get(name)}\n  page {found.get(name)}"


def codes_compared(sections):
    """For each code, in the order of the source, what is wrong, or nothing."""
    table = [(code, sentence) for code, sentence, _ in explained.rows_of_source()]
    for row, found in itertools.zip_longest(table, CODE.findall(sections["CODES"])):
        yield None if row == found else f"CODES:\n  source {row}\n  page   {found}"


def main():
    sections = parts(SECTION, unescaped(PAGE.read_text()))
    answers = [made(), *options_compared(sections), *codes_compared(sections)]
    if shutil.which("man"):
        answers.append(shown() or None)
    faults = [answer for answer in answers if answer]
    for fault in faults:
        print(f"FAILED {fault}")
    print(f"{len(answers) - len(faults)} passed, {len(faults)} failed")
    return 1 if faults or not answers else 0


if __name__ == "__main__":
    sys.exit(main())
