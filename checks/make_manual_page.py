#!/usr/bin/env python3
"""Makes the manual page docs/ssh_audit.1 of its template docs/ssh_audit.1.in and of the sources. The template has the prose,
the order of the commands, and lines between two `@`, which stand for what is made:

    @synopsis COMMAND@   the command with its options, by the rows of crates/ssh_program/src
    @options COMMAND@    the text of each of its options, by the tables of docs/MANUAL.md, in the order of those rows
    @exit status@        the exit codes, by the table in docs/MANUAL.md and the list below it
    @codes@              each code with its sentence, by the tables of docs/CODES.md

usage: make_manual_page.py

It writes the page in its place. manual_page.py sees that the page is what is made here. It runs nothing."""
import pathlib
import re
import sys

sys.dont_write_bytecode = True
import documents
import explained

TOP = pathlib.Path(__file__).resolve().parent.parent
PAGE = TOP / "docs" / "ssh_audit.1"
TEMPLATE = TOP / "docs" / "ssh_audit.1.in"
MANUAL = TOP / "docs" / "MANUAL.md"
HELP = documents.CODE / "help.rt"
OPERANDS = {"admits": "NAME", "trusts": "NAME", "review": "NAME", "explain": "CODE"}
MADE = re.compile(r"^@([\w ]+)@$", re.MULTILINE)
ROW = re.compile(r"^\| `--([\w-]+)` \| (.*) \| (.*) \|$", re.MULTILINE)
ARM = re.compile(r"^ +((?:Subcommand::\w+(?: \| )?)+) => Some\((\w+)\),$", re.MULTILINE)
EXIT = re.compile(r"^\| Command \|(.*)\n\|[-|]*\|\n((?:\|.*\n)*)", re.MULTILINE)
ALWAYS = re.compile(r"^Of each command the status is 2 also where\n\n((?:(?:- |  ).*\n)+)", re.MULTILINE)
HEADING = re.compile(r"^## (.*)$", re.MULTILINE)


def shown(text):
    """A text without markup, as the page spells it."""
    text = text.replace("\\", "\\e").replace("-", "\\-")
    return "\\&" + text if text.startswith((".", "'")) else text


def rendered(cell):
    """A cell of a Markdown table as the page spells it: what stands between backticks is bold."""
    plain, *rest = explained.LINK.sub(r"\1", cell).replace("\\|", "|").split("`")
    return shown(plain) + "".join(f"\\fB{shown(part)}\\fR" if at % 2 == 0 else shown(part).removeprefix("\\&") for at, part in enumerate(rest))


def sentence(cell):
    """A cell of a table that begins a sentence."""
    return rendered(cell[0].upper() + cell[1:])


def of_options(function, form):
    """What a function of help.rt gives for each option, in this form."""
    names = dict(re.findall(r'ArgName::(\w+) => "([\w-]+)"', (documents.CODE / "args.rt").read_text()))
    body = HELP.read_text().split(f"fn {function}(", 1)[1].split("\n}\n", 1)[0]
    return names, {names[option]: given for option, given in re.findall(rf"ArgName::(\w+) => {form}", body)}


def values():
    """What stands for the value of each option, as `--help` and `explain usage` have it."""
    return of_options("value_word", r'b"(\w+)"')[1]


def keys():
    """The other way to give the key to a command, by the command."""
    commands = dict(re.findall(r'Subcommand::(\w+) => "(\w+)",', (documents.CODE / "subcommand.rt").read_text()))
    body = HELP.read_text().split("fn other_key(", 1)[1].split("\n}\n", 1)[0]
    return {commands[command]: option for command, option in re.findall(r"Subcommand::(\w+) => Some\(ArgName::(\w+)\)", body)}


def pairs(command):
    """Of two options of a command of which exactly one has to be given, the second by the first."""
    names, others = of_options("other_place", r"Some\(ArgName::(\w+)\)")
    found = {option: names[other] for option, other in others.items()}
    return {**found, "key": names[keys()[command]]} if command in keys() else found


def operands():
    """Whether each subcommand's operands may be left out; those without any are not in it."""
    text = (documents.CODE / "subcommand.rt").read_text()
    names = dict(re.findall(r'Subcommand::(\w+) => "(\w+)",', text))
    return {names[variant]: needed == "Optional" for arm, needed in ARM.findall(text) for variant in re.findall(r"::(\w+)", arm)}


def synopsis(command):
    """A command with its options and operands; those that may be left out are in brackets."""
    yield from (".PP", ".nh", ".ad l", f"\\fBssh_audit {command}\\fR")
    asked = {option: f"\\fB{shown('--' + option)}\\fR \\fI{word}\\fR" for option, word in values().items()}
    for option, may_go in documents.rows_of_code().get(command, []):
        if option in pairs(command):
            yield f"({asked[option]} | {asked[pairs(command)[option]]})"
        elif option not in pairs(command).values():
            yield f"[{asked[option]}]" if may_go else asked[option]
    if command in operands():
        operand = f"\\fI{OPERANDS[command]}\\fR ..."
        yield f"[{operand}]" if operands()[command] else operand
    yield from (".ad b", ".hy")


def without(default):
    """What is so where an option is left out, as the last cell of its row says it."""
    if default == "needed":
        return ""
    if default == "none":
        return " It may be left out."
    if default.startswith("else "):
        return f" It may be left out for {rendered(default.removeprefix('else '))}: just one of the two has to be given."
    return f" Where it is left out: {rendered(default)}."


def options(command):
    """Each option of a command with its text."""
    table = dict(documents.TABLE.findall(MANUAL.read_text()))[command]
    said = {option: sentence(value) + "." + without(default) for option, value, default in ROW.findall(table)}
    for option, _ in documents.rows_of_code().get(command, []):
        yield from (".TP", f'.BI {shown("--" + option)} " {values()[option]}"', said[option])
    if OPERANDS.get(command) == "NAME":
        yield from (".PP", "Each \\fINAME\\fR is a file; \\fB\\-\\fR is standard input.")


def exit_status():
    """Each exit code with what it says of each command, and what is 2 of every command."""
    text = MANUAL.read_text()
    head, body = EXIT.findall(text)[0]
    rows = [[cell.strip() for cell in row.strip("|").split("|")] for row in body.splitlines()]
    for place, status in enumerate(head.replace("|", " ").split(), 1):
        yield from (".TP", f".B {status}")
        said = [(row[0], row[place]) for row in rows if row[place]]
        for at, (commands, cell) in enumerate(said):
            yield f"{rendered(commands)}: {rendered(cell)}."
            if at + 1 < len(said):
                yield ".br"
    always = re.sub(r"\n(?:- |  )", " ", "\n" + ALWAYS.findall(text)[0]).strip()
    yield from (".PP", f"Of each command the status is 2 also where {rendered(always)}")


def codes():
    """Each code with its sentence, below the headings of docs/CODES.md."""
    _, *parts = HEADING.split(explained.PAGE.read_text())
    for heading, body in zip(parts[::2], parts[1::2]):
        yield f".SS {rendered(heading)}"
        for line in body.splitlines():
            if line.startswith("| `"):
                first, said, _ = (cell.strip() for cell in explained.CELL_END.split(line)[1:-1])
                yield from (".TP", f".B {explained.code(first)}", rendered(said) + ".")


def made():
    """The whole page."""
    makers = {"synopsis": synopsis, "options": options}

    def part(found):
        name, *command = found[1].split()
        lines = {"exit status": exit_status, "codes": codes}[found[1]]() if found[1] in ("exit status", "codes") else makers[name](*command)
        return "\n".join(lines)

    return MADE.sub(part, TEMPLATE.read_text())


if __name__ == "__main__":
    PAGE.write_text(made())
