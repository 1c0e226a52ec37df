#!/usr/bin/env python3
"""Counts for each code of docs/CODES.md whether a text that is expected of the program prints it, and for each code of
such a text whether docs/CODES.md lists it. Texts are the string literals of crates/ssh_program_tests and of rows/, of the
checks beside this one, and the stored run's stdout; in them, the lines that begin as an answer or a fault does, and those
of a review's findings.
It runs nothing: that the program prints the texts is what the rows and checks say that hold them.

usage: codes.py

The last line is 'N passed, M failed'; the status is 0 where nothing failed."""
import ast
import pathlib
import re
import sys

HERE = pathlib.Path(__file__).resolve().parent
TOP = HERE.parent
CODES = TOP / "docs" / "CODES.md"
ROWS = [*(TOP / "crates" / "ssh_program_tests" / "src").glob("*.rt"), *(HERE / "rows").glob("*.rattle")]
CHECKS = [*HERE.glob("*.py"), *(HERE / "rows").glob("*.py")]
STORED = TOP / "crates" / "ssh_audit" / "stdout"
# A10 is what an audit answers that had a piece refused before. The program ends at the first refusal and never asks such
# an audit; the contracts of LoginAudit and HostAudit say when they answer it. `version` is a word for `explain` alone.
UNPRINTED = {"A10", "version"}
CODE = re.compile(r"[A-Z][0-9]+")
BEGINNINGS = {"granted", "rights", "command", "carry", "evidence", "denied", "reason", "vouched", "fault"}
# What a review finds of a line: four spaces, the code, its detail, a colon.
FINDING = re.compile(r" {4}(F[0-9]+)( [^:]*)?: ")
RUST_LITERAL = re.compile(r'"((?:[^"\\]|\\.)*)"', re.DOTALL)


def phrase(text):
    """What is printed letter by letter: the words of a cell up to the first that stands for another."""
    words = []
    for word in text.split():
        if not (word.islower() or CODE.fullmatch(word)):
            break
        words.append(word)
    return tuple(words)


def listed():
    """The first cells of the tables, each phrase once, in their order."""
    phrases = {}
    for line in CODES.read_text().splitlines():
        if line.startswith("| `"):
            first = line.split(" | ")[0]
            for text in re.findall(r"`([^`]*)`", first):
                if phrase(text):
                    phrases[phrase(text)] = None
    return list(phrases)


def rust_literals(path):
    """The texts between double quotes that stand in no comment. No other escape hides or makes a code."""
    code = re.sub(r"^\s*//.*$", "", path.read_text(), flags=re.MULTILINE)
    for literal in RUST_LITERAL.findall(code):
        yield literal.replace("\\n", "\n").replace('\\"', '"')


def python_literals(path):
    """Each text constant but the documentation, the parts of an f-string too."""
    nodes = list(ast.walk(ast.parse(path.read_text())))
    documentation = {id(node.value) for node in nodes if isinstance(node, ast.Expr)}
    for node in nodes:
        if isinstance(node, ast.Constant) and id(node) not in documentation:
            if isinstance(node.value, str):
                yield node.value
            elif isinstance(node.value, bytes):
                yield node.value.decode("latin-1")


def printed():
    """The lines that are expected, as words."""
    texts = [STORED.read_text()]
    for path in sorted(ROWS):
        texts.extend(rust_literals(path))
    for path in sorted(CHECKS):
        if path.name != "codes.py":
            texts.extend(python_literals(path))
    lines = set()
    for text in texts:
        for line in text.split("\n"):
            words = tuple(line.split())
            found = FINDING.match(line)
            if words and words[0] in BEGINNINGS:
                lines.add(words)
            elif found:
                lines.add(("finding", *found[0].replace(":", "").split()))
    return lines


def holds(line, words):
    return any(line[at : at + len(words)] == words for at in range(len(line) - len(words) + 1))


def main():
    passed = failed = 0
    lines = printed()
    codes = listed()
    for words in codes:
        name = " ".join(words)
        found = any(holds(line, words) for line in lines)
        if found == (name not in UNPRINTED):
            passed += 1
        else:
            failed += 1
            print(f"FAILED {name}: " + ("a text prints it, and it is one of UNPRINTED" if found else "no expected text prints it"))
    known = {word for words in codes for word in words}
    told = {word for line in lines if line[0] in ("denied", "reason", "fault", "finding") for word in line if CODE.fullmatch(word)}
    for word in sorted(told - known):
        failed += 1
        print(f"FAILED {word}: a text prints it, and docs/CODES.md does not list it")
    print(f"{passed} passed, {failed} failed")
    sys.exit(1 if failed or not passed else 0)


if __name__ == "__main__":
    main()
