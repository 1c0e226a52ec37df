"""Reviews: who is let in by trust files, and what has to be fixed in them."""

import json
import re
from dataclasses import dataclass
from typing import Any, Dict, Iterator, Mapping, Optional, Tuple, Union

from ._faults import lines
from ._library import run


@dataclass(frozen=True)
class Finding:
    """What is found of a line: a code, as `F2`, and its detail, as the number of another line."""

    code: str
    detail: Optional[str]


@dataclass(frozen=True)
class Record:
    """A line that is neither blank nor a comment. `kind` is `key`, `authority` or `unreadable`, and of known_hosts also `revoked`
    or `revocation-unreadable`; `key` is the fingerprint as `ssh-keygen -l` prints it. `source` is the line's `from=`. `lets_in`
    is False where the line lets nobody in. What the line has not, or its kind of file never has, is None."""

    file: str
    line: int
    kind: str
    type: Optional[str]
    bits: Optional[int]
    key: Optional[str]
    comment: Optional[str]
    options: Optional[str]
    rights: Optional[Tuple[str, ...]]
    command: Optional[str]
    source: Optional[str]
    principals: Optional[str]
    expires: Optional[int]
    names: Optional[str]
    shadowed_by: Optional[int]
    lets_in: Optional[bool]
    findings: Tuple[Finding, ...]


@dataclass(frozen=True)
class FileEnd:
    """The end of a file: its counts and the SHA-256 of its bytes in hexadecimal; or `fault`, as `A7`, and of `A9` `why`, as `not found`."""

    file: str
    lines: Optional[int]
    key_lines: Optional[int]
    unreadable: Optional[int]
    findings: Optional[int]
    sha256: Optional[str]
    fault: Optional[str]
    why: Optional[str]


@dataclass(frozen=True)
class Total:
    """How was asked, and the counts of all files. `faults_by_code` and `findings_by_code` have how often each code was told, and
    none that was not. `distinct_keys` counts a key that stands on several lines once, and is None past 65,536 keys. A review without
    its total was cut off."""

    program: str
    now: int
    zone: Optional[str]
    files: int
    faults: int
    faults_by_code: Dict[str, int]
    lines: int
    key_lines: int
    distinct_keys: Optional[int]
    unreadable: int
    findings: int
    findings_by_code: Dict[str, int]


_ESCAPE = re.compile(r"\\x([0-9a-f]{2})")


def unescaped(text: str) -> bytes:
    """The bytes that a printed text spells."""
    return _ESCAPE.sub(lambda found: chr(int(found[1], 16)), text).encode("latin-1")


def _rights(value: Optional[str]) -> Optional[Tuple[str, ...]]:
    if value is None:
        return None
    return () if value == "none" else tuple(value.split(" "))


def _record(told: Dict[str, Any], file: str) -> Record:
    return Record(
        file=file,
        line=told["line"],
        kind=told["what"],
        type=told.get("type"),
        bits=told.get("bits"),
        key=told.get("key"),
        comment=told.get("comment"),
        options=told.get("options"),
        rights=_rights(told.get("rights")),
        command=told.get("command"),
        source=told.get("source"),
        principals=told.get("principals"),
        expires=told.get("expires"),
        names=told.get("names"),
        shadowed_by=told.get("shadowed_by"),
        lets_in=told.get("lets_in"),
        findings=tuple(Finding(it["code"], it["detail"]) for it in told["findings"]),
    )


def _end(told: Dict[str, Any], file: str) -> FileEnd:
    counts = (told.get(name) for name in ("lines", "key_lines", "unreadable", "findings", "sha256", "fault", "why"))
    return FileEnd(file, *counts)


def _total(told: Dict[str, Any]) -> Total:
    return Total(*(told[name] for name in ("program", "now", "zone", "files", "faults", "faults_by_code", "lines", "key_lines", "distinct_keys", "unreadable", "findings", "findings_by_code")))


def review(
    files: Mapping[str, bytes],
    *,
    now: int,
    kind: str = "auth",
    zone: Optional[str] = None,
    findings: Optional[str] = None,
    rsa_minimum: int = 2048,
) -> Iterator[Union[Record, FileEnd, Total]]:
    """The records of authorized_keys files (`kind="auth"`) or known_hosts files (`kind="known"`), by their names, each file's followed
    by its end; then the total. `findings` is `all`, `none` or codes joined by commas; without it F1 to F14 and F22 are reported.
    `zone` is that of expiry times that name none; without it it is UTC, and these times have F8 `local-time`. `rsa_minimum` is how
    many bits an RSA key has to have. Raises Fault for a value; the fault of a file is in its end."""
    names = list(files)
    held = {str(number): files[name] for number, name in enumerate(names)}
    words = ["review", "--form=json", f"--kind={kind}", f"--now={now}", f"--rsa-minimum={rsa_minimum}"]
    words += [f"--zone={zone}"] if zone is not None else []
    words += [f"--findings={findings}"] if findings is not None else []
    told = lines(run([*words, *held], held))
    return _told(told, names)


def _told(told, names) -> Iterator[Union[Record, FileEnd, Total]]:
    for line in told:
        made = json.loads(line)
        if made["what"] == "total":
            yield _total(made)
        elif made["what"] == "end":
            yield _end(made, names[int(made["file"])])
        else:
            yield _record(made, names[int(made["file"])])
