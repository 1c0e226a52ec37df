#!/usr/bin/env python3
"""Makes the completions packaging/ssh_audit.bash and packaging/_ssh_audit (zsh) of the tables in the sources: the commands with
their sentences and options (crates/ssh_program/src), what stands for each value (help.rt), the functions that read a word of
a closed list (LISTS), the codes (crates/ssh_print/src/table.rt), and what docs/MANUAL.md says of each option.

usage: make_completion.py

It writes the two files in their places. completion.py sees that they are what is made here. It runs nothing."""
import itertools
import pathlib
import re
import sys

sys.dont_write_bytecode = True
import documents
import explained
import make_manual_page

TOP = pathlib.Path(__file__).resolve().parent.parent
CRATES = TOP / "crates"
BASH = TOP / "packaging" / "ssh_audit.bash"
ZSH = TOP / "packaging" / "_ssh_audit"
HELP = documents.CODE / "help.rt"
# Where the words are read that an option may have as its value: of a command, or of every command that has it.
FORMS = "ssh_program/src/decision_form.rt", "read_decision_form"
LISTS = {
    "show kind": [("ssh_print/src/showing.rt", "show_kind")],
    "rewrite kind": [("ssh_program/src/rewriting.rt", "rewrite_kind")],
    "review kind": [("ssh_program/src/review.rt", "read_kind")],
    "review form": [("ssh_program/src/review_form.rt", "read_form"), ("ssh_program/src/review_form.rt", "is_page")],
    "form": [FORMS],
    "show": [("ssh_program/src/review_show.rt", "read_show")],
    "labels": [("ssh_program/src/naming.rt", "read_naming")],
    "empty-principals": [("ssh_files/src/values.rt", "read_empty_principals")],
    "findings": [("ssh_findings/src/code.rt", "parse_codes")],
    "fail-on": [("ssh_findings/src/code.rt", "parse_codes")],
}
# Those whose words are codes of findings too, joined by commas.
CODES = {"findings", "fail-on"}
# The words of help for a value that has no closed list and names no file.
OPEN = {"BASE64", "HEX", "FINGERPRINT", "NAME", "ADDRESS", "SECONDS", "RULE", "BITS", "PORT", "TEXT"}
# What the machine knows of such a value.
KNOWN = {"user": "users", "host": "hosts"}
WORD = re.compile(r'\w+ == b?"([\w,-]+)"')
SENTENCE = re.compile(r'Subcommand::(\w+) =>\s*(?:\{\s*)?b"([^"]*)"')
FINDING = re.compile(r"F\d+")


def body(path, name):
    """The text of a function."""
    found = re.search(rf"^(?:pub(?:\(crate\))? )?fn {name}[(<].*?^}}$", path.read_text(), re.MULTILINE | re.DOTALL)
    if not found:
        sys.exit(f"make_completion.py: {path.relative_to(TOP)} has no function {name}")
    return found[0]


def rows():
    """The options of each command, in the order of help; of those that take none, no option."""
    found = documents.rows_of_code()
    return {command: [option for option, _ in found.get(command, [])] for command in commands()}


def options_by_variant():
    """The name of each option, by its variant in the source."""
    return dict(re.findall(r'ArgName::(\w+) => "([\w-]+)",', (documents.CODE / "args.rt").read_text()))


def value_words():
    """What stands for the value of each option in help."""
    names = options_by_variant()
    return {names[variant]: word for variant, word in re.findall(r'ArgName::(\w+) => b"(\w+)",', body(HELP, "value_word"))}


def alternatives(command):
    """The option of a command that may take the place of another one, for both."""
    return {a: b for pair in make_manual_page.pairs(command).items() for a, b in (pair, pair[::-1])}


def commands():
    """The commands in the order of help, each with its sentence."""
    names = dict(re.findall(r'Subcommand::(\w+) => "(\w+)",', (documents.CODE / "subcommand.rt").read_text()))
    return {names[variant]: sentence for variant, sentence in SENTENCE.findall(body(HELP, "command_sentence"))}


def codes():
    """The codes that `explain` takes, and the word for the synopsis."""
    return [*dict.fromkeys(["usage", *(code for code, *_ in explained.rows_of_source())])]


def words_of(place):
    """The words of a closed list; of the findings, their codes too."""
    found = []
    for path, name in LISTS[place]:
        words = WORD.findall(body(CRATES / path, name))
        if not words:
            sys.exit(f"make_completion.py: no words in {name} of crates/{path}")
        found += words
    return found + [code for code in codes() if place in CODES and FINDING.fullmatch(code)]


def value(command, option):
    """How the value of an option is completed, and its words if it has a closed list."""
    place = next((place for place in (f"{command} {option}", option) if place in LISTS), None)
    if place:
        return "codes" if place in CODES else "words", words_of(place)
    word = value_words()[option]
    if word == "FILE":
        return "files", []
    if word not in OPEN:
        sys.exit(f"make_completion.py: how is the value of --{option} completed, {word} in help?")
    return KNOWN.get(option, "nothing"), []


# ---- bash

BASH_TEXT = """\
# bash completion of ssh_audit, made by checks/make_completion.py of the sources: change those.
_ssh_audit() {
    local command=${COMP_WORDS[1]} word=${COMP_WORDS[COMP_CWORD]} option=${COMP_WORDS[COMP_CWORD - 1]}
    local options= operands= words= before= given= at
    COMPREPLY=()
    # `--kind=auth` comes as three words.
    if [[ $word == = ]]; then
        word=
    elif [[ $option == = ]]; then
        option=${COMP_WORDS[COMP_CWORD - 2]}
    fi
    # An option stands once, and so does one of two that give the same. After `--` come operands.
    for ((at = 2; at < COMP_CWORD; at++)); do
        case ${COMP_WORDS[at]} in
        --) given=-- ;;
@alternatives@
        --*) given+=" ${COMP_WORDS[at]} " ;;
        esac
        [[ $given != -- ]] || break
    done
    case $command in
@commands@
    esac
    [[ $given != -- ]] || option=
    if ((COMP_CWORD == 1)); then
        words='@names@ --help'
    elif [[ $option == --* && " $options " == *" $option "* ]]; then
        case "$command $option" in
@values@
        esac
    elif [[ $given != -- && ($word == -* || -z $operands) ]]; then
        for at in $options --help; do
            [[ $given == *" $at "* ]] || words+=" $at"
        done
    elif [[ $operands == codes ]]; then
        words='@codes@'
    else
        words=files
    fi
    case $words in
    files) compopt -o default ;;
    users) mapfile -t COMPREPLY < <(compgen -A user -- "$word") ;;
    hosts) mapfile -t COMPREPLY < <(compgen -A hostname -- "$word") ;;
    *) mapfile -t COMPREPLY < <(compgen -W "$words" -- "$word") ;;
    esac
} &&
    complete -F _ssh_audit ssh_audit
"""
BASH_CODES = """
            # Codes are joined by commas, and each is named once.
            compopt -o nospace
            if [[ $word == *,* ]]; then
                before=${{word%,*}},
            else
                words='{}'
            fi
            for at in {}; do
                [[ ,$before == *,$at,* ]] || words+=" $before$at"
            done
            ;;"""


def commands_of_options():
    """The commands that have each option."""
    having = {}
    for command, options in rows().items():
        for option in options:
            having.setdefault(option, []).append(command)
    return having


def alone_and_codes(words):
    """The words of a list of codes that stand alone, and the codes."""
    both = words.split()
    return tuple(" ".join(word for word in both if bool(FINDING.fullmatch(word)) == joined) for joined in (False, True))


def bash_values():
    """For each way to complete a value, the options that it is for."""
    ways = {}
    for option, having in commands_of_options().items():
        found = {command: value(command, option) for command in having}
        same = len({str(way) for way in found.values()}) == 1
        for command, (how, words) in {"": found[having[0]]}.items() if same else found.items():
            ways.setdefault((how, " ".join(words)), []).append(f"'{command} --{option}'" if command else f"*' --{option}'")
    for (how, words), places in ways.items():
        if how != "nothing":
            made = BASH_CODES.format(*alone_and_codes(words)) if how == "codes" else f" words='{words or how}' ;;"
            yield f"        {' | '.join(places)}){made}"


def bash_alternatives():
    """One of two options given excludes both."""
    done = set()
    for option, other in itertools.chain.from_iterable(alternatives(command).items() for command in commands()):
        if option not in done:
            done |= {option, other}
            yield f"        --{option} | --{other}) given+=' --{option} --{other} ' ;;"


def bash_commands():
    """The options of each command, and what its operands are."""
    for command, options in rows().items():
        parts = [f"options='{' '.join('--' + option for option in options)}'"] if options else []
        if command in make_manual_page.operands():
            parts.append("operands=" + ("codes" if make_manual_page.OPERANDS[command] == "CODE" else "files"))
        yield f"    {command}) {' '.join(parts)} ;;"


def bash():
    """The completion for bash."""
    made = {
        "alternatives": "\n".join(bash_alternatives()),
        "commands": "\n".join(bash_commands()),
        "values": "\n".join(bash_values()),
        "names": " ".join(commands()),
        "codes": " ".join(codes()),
    }
    return re.sub(r"@(\w+)@", lambda found: made[found[1]], BASH_TEXT)


# ---- zsh

ZSH_TEXT = """\
#compdef ssh_audit
# zsh completion of ssh_audit, made by checks/make_completion.py of the sources: change those.
local curcontext=$curcontext state line ret=1
local -a commands
local -a findings=(@findings@)
typeset -A opt_args
commands=(
@commands@
)
_arguments -C '(- *)--help[list the commands]' '1:command:->command' '*::argument:->argument' && ret=0
case $state in
command) _describe -t commands command commands && ret=0 ;;
argument)
    case $words[1] in
@options@
    esac
    ;;
esac
return ret
"""


# The words that stand alone and the codes exclude each other.
ZSH_ACTIONS = {"codes": '_values -s , codes "($findings none)all" "($findings all)none" "(all none)"${^findings}', "files": "_files", "users": "_users", "hosts": "_hosts", "nothing": " "}


def zsh_quoted(text):
    return "'" + text.replace("'", "'\\''") + "'"


def zsh_option(command, option, said):
    """The specification of an option, as zsh's _arguments takes it."""
    other = alternatives(command).get(option)
    excluded = f"(--{option} --{other})" if other else ""
    how, words = value(command, option)
    action = f"({' '.join(words)})" if how == "words" else ZSH_ACTIONS[how]
    told = re.sub(r"([\\\[\]])", r"\\\1", said)
    return zsh_quoted(f"{excluded}--{option}=[{told}]:{value_words()[option]}:{action}")


def zsh_options():
    """The options of each command, and its operands."""
    tables = dict(documents.TABLE.findall(make_manual_page.MANUAL.read_text()))
    for command, options in rows().items():
        said = {option: explained.plain(text) for option, text, _ in make_manual_page.ROW.findall(tables.get(command, ""))}
        parts = [zsh_option(command, option, said[option]) for option in options]
        parts.append("'(- *)--help[list the options]'")
        if command in make_manual_page.operands():
            parts.append(f"'*:code:({' '.join(codes())})'" if make_manual_page.OPERANDS[command] == "CODE" else "'*:file:_files'")
        yield f"    {command})\n        _arguments -S \\\n            " + " \\\n            ".join(parts) + " && ret=0\n        ;;"


def zsh():
    """The completion for zsh."""
    made = {
        "commands": "\n".join("    " + zsh_quoted(f"{command}:{sentence}") for command, sentence in commands().items()),
        "findings": alone_and_codes(" ".join(words_of("findings")))[1],
        "options": "\n".join(zsh_options()),
    }
    return re.sub(r"@(\w+)@", lambda found: made[found[1]], ZSH_TEXT)


if __name__ == "__main__":
    BASH.write_text(bash())
    ZSH.write_text(zsh())
