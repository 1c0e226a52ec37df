#!/usr/bin/env python3
"""Counts what a reader has to read to know what a grant means: the definitions that the clause `means` of a login and of a
host's key comes to, with those that say which claim was read. Compares the counts, the files that they stand in and the
names of each file with docs/REVIEW.md, so that they cannot grow unseen; and each of their words has to be defined once in
all of specs/.

usage: closure.py [--list]

A definition is counted with its lines, without comments and blank lines; what the kit defines is not counted. By --list
the definitions of both are printed, file by file, as the last cell of the file's row in docs/REVIEW.md has them. The last
line is 'N passed, M failed'; the status is 0 where nothing failed."""
import collections
import pathlib
import re
import sys

TOP = pathlib.Path(__file__).resolve().parent.parent
REVIEW = TOP / "docs" / "REVIEW.md"
# What is asked about, and the definitions that say what the answer means.
ROOTS = {
    "login": (
        ("ssh_trust", "LoginDecision", "LoginMeans"),
        ("ssh_offers", "FirstRefusal", "IsLoginClaim"),
        ("ssh_offers", "Query", "login_of"),
    ),
    "host": (
        ("ssh_trust", "HostDecision", "HostMeans"),
        ("ssh_offers", "FirstRefusal", "IsHostClaim"),
        ("ssh_offers", "Query", "host_check_of"),
    ),
}
USE = re.compile(r"(?:pub )?use Rattle\.([\w.]+?)(?:\.\{(.*)\}| as (\w+))?$")
HEAD = re.compile(r"(?:(?:abbrev|unfoldable|pub|record|data) +)*([^\s:({]+) *[:({]")
NOT_A_HEAD = (" ", "--", "use ", "pub use ", "pub mod ", "mod ", "infix")
# Not a field, which stands after a dot.
WORD = re.compile(r"(?<![\w.])[A-Za-z_◌>=][\w◌>='-]*")
# The name of a record's field, where it is declared.
FIELD = re.compile(r"^ +pub [\w-]+ :")
ROW = re.compile(r"^\| `(ssh_\w+)/specs/(\w+)\.antt` \|.* \| ([^|]*) \|$", re.MULTILINE)
COUNT = re.compile(r"^\| (\w+) \| (\d+) \| (\d+) \| (\d+) \| (\d+) \|$", re.MULTILINE)


class Module:
    """A file of specs/: its definitions with their lines, and where each imported word comes from."""

    def __init__(self, text):
        self.definitions = {}
        self.imports = {}
        name = None
        for line in text.splitlines():
            use = USE.match(line)
            if use:
                self.bring(use)
            elif line.strip() and not line.strip().startswith("--"):
                head = None if line.startswith(NOT_A_HEAD) else HEAD.match(line)
                if head:
                    name = head.group(1)
                if name and not line.startswith(("pub mod ", "mod ")):
                    self.definitions.setdefault(name, []).append(line)

    def bring(self, use):
        place, words, other = use.groups()
        for word in (words or "").split(","):
            old, _, new = word.strip().partition(" as ")
            if old:
                self.imports[new or old] = (place, old)
        if other:
            self.imports[other] = (place, None)


def modules():
    found = {}
    for path in sorted(TOP.glob("crates/*/specs/*.antt")):
        found[path.parent.parent.name, path.stem] = Module(path.read_text())
    return found


def place_of(name, place, known):
    """The crate and the file of an imported word, if it is a definition of this repository."""
    parts = place.split(".")
    if len(parts) == 3 and parts[1] == "specs" and (parts[0], parts[2]) in known:
        if name in known[parts[0], parts[2]].definitions:
            return parts[0], parts[2], name
    return None


def closure(roots, known):
    """Every definition that these come to."""
    seen, left = set(), list(roots)
    while left:
        crate, file, name = found = left.pop()
        if found in seen:
            continue
        seen.add(found)
        module = known[crate, file]
        lines = (FIELD.sub("", line) for line in module.definitions[name])
        for word in set(WORD.findall(" ".join(lines))):
            if word in module.imports:
                place, old = module.imports[word]
                target = old and place_of(old, place, known)
                if target:
                    left.append(target)
            elif word in module.definitions:
                left.append((crate, file, word))
    return seen


def measure(found, known):
    """Definitions, lines, files, and those definitions that compute: their names begin with a small letter."""
    lines = sum(len(known[crate, file].definitions[name]) for crate, file, name in found)
    files = {(crate, file) for crate, file, _ in found}
    return len(found), lines, len(files), sum(name[0].islower() for _, _, name in found)


def said_twice(found, known):
    """The words of these definitions that another file of specs/ defines too, each with its files."""
    places = collections.defaultdict(list)
    for (crate, file), module in sorted(known.items()):
        for name in module.definitions:
            places[name].append(f"{crate}/specs/{file}.antt")
    return {name: places[name] for name in sorted({name for _, _, name in found}) if len(places[name]) > 1}


def listing(found):
    """The definitions of each file, as the last cell of its row has them."""
    by_file = collections.defaultdict(set)
    for crate, file, name in found:
        by_file[crate, file].add(name)
    return {place: ", ".join(f"`{name}`" for name in sorted(names)) for place, names in sorted(by_file.items())}


def main():
    known = modules()
    text = REVIEW.read_text() if REVIEW.exists() else ""
    told = {name: tuple(map(int, numbers)) for name, *numbers in COUNT.findall(text)}
    listed = {(crate, file): names for crate, file, names in ROW.findall(text)}
    passed = failed = 0
    words = set()
    for name, roots in ROOTS.items():
        found = closure(roots, known)
        words |= found
        counts = measure(found, known)
        print(f"{name}: {counts[0]} definitions, {counts[1]} lines, {counts[2]} files, {counts[3]} that compute")
        good = told.get(name) == counts
        passed, failed = passed + good, failed + (not good)
        if not good:
            print(f"FAILED docs/REVIEW.md says of {name}: {told.get(name)}")
    wanted = listing(words)
    for crate, file in sorted({*wanted, *listed}):
        names = wanted.get((crate, file))
        good = listed.get((crate, file)) == names
        passed, failed = passed + good, failed + (not good)
        if not good:
            print(f"FAILED docs/REVIEW.md counts of {crate}/specs/{file}.antt: {listed.get((crate, file))}\n  found {names}")
        if "--list" in sys.argv and names:
            print(f"{crate}/specs/{file}.antt: {names}")
    twice = said_twice(words, known)
    passed += len(words) - len(twice)
    for name, files in twice.items():
        failed += 1
        print(f"FAILED {name} is defined in {', '.join(files)}")
    print(f"{passed} passed, {failed} failed")
    return 1 if failed or not passed else 0


if __name__ == "__main__":
    sys.exit(main())
