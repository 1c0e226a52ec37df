"""Logins and hosts' keys: by their signatures (`login`, `host`), or by the key alone (`admits`, `trusts`)."""

import base64
import re
from dataclasses import dataclass
from typing import Dict, List, Mapping, Optional, Sequence, Tuple, Union

from ._faults import Fault, lines
from ._library import HostAsked, LoginAsked, OutOfMemory, Told, call_host, call_login, run, slices


@dataclass(frozen=True)
class Signed:
    """A signature that a decision rests on, the bytes that it is over, and the key that is said to have made it."""

    key: bytes
    message: bytes
    signature: bytes

    def line(self) -> bytes:
        """The line of a vouch file that vouches for it."""
        return b" ".join(part.hex().encode() or b"-" for part in (self.key, self.message, self.signature)) + b"\n"


@dataclass(frozen=True)
class Reason:
    """Why a line was passed over: its number, from 1, and a code, as `G8`; from `login` and `host` with what follows the code, as
    `G1 L8`."""

    line: int
    code: str


@dataclass(frozen=True)
class Granted:
    """Granted by this line, counted from 1. `rights` and `limits` (`command`, `carry`) are of a login; of two carried options
    `limits` has both, one after the other on lines of their own. `reasons` are those of lines before it: `login` and `host` list
    none. `evidence` is None where the call lists none."""

    line: int
    rights: Tuple[str, ...]
    limits: Dict[str, str]
    reasons: Tuple[Reason, ...]
    evidence: Optional[Tuple[Signed, ...]]


@dataclass(frozen=True)
class Denied:
    """Denied, for this cause: `N3`, `N6 0`. `reasons` are those of the first hundred lines that were passed over. `evidence` is None
    where the call lists none."""

    cause: str
    reasons: Tuple[Reason, ...]
    evidence: Optional[Tuple[Signed, ...]]


@dataclass(frozen=True)
class Admission:
    """What one file says of a key. `line` lets it in, if the signatures are good; else `cause` says why none does, or `fault`
    why the file has no answer. `rights` are those of that line; `details` are all lines that are printed of it."""

    file: str
    line: Optional[int]
    cause: Optional[str]
    fault: Optional[str]
    rights: Tuple[str, ...]
    details: Tuple[str, ...]


@dataclass(frozen=True)
class Admissions:
    """What several files say of a key. `status` is 0 where one lets it in, 1 where none does, 2 where one has a fault, and 3 where
    none does and OpenSSH may let it in."""

    status: int
    files: Tuple[Admission, ...]


def _options(**values: object) -> List[str]:
    """The options that have a value, in words."""
    return [f"--{name.replace('_', '-')}={value}" for name, value in values.items() if value is not None]


def _blob(data: bytes) -> str:
    return data.hex() or "-"


def _unhex(text: str) -> bytes:
    return b"" if text == "-" else bytes.fromhex(text)


def _rights(value: str) -> Tuple[str, ...]:
    return () if value == "none" else tuple(value.split(" "))


def _decision(told: Sequence[str]) -> Union[Granted, Denied]:
    """A decision, by the lines that are printed of it."""
    limits: Dict[str, str] = {}
    rights: Tuple[str, ...] = ()
    reasons, evidence = [], []
    for word, _, value in (line.partition(" ") for line in told[1:]):
        if word == "reason":
            number, _, code = value.partition(" ")
            reasons.append(Reason(int(number), code))
        elif word == "evidence":
            evidence.append(Signed(*map(_unhex, value.split(" ")[1:])))
        elif word == "rights":
            rights = _rights(value)
        else:
            limits[word] = limits[word] + "\n" + value if word in limits else value
    if told[0].startswith("granted line "):
        return Granted(int(told[0][len("granted line ") :]), rights, limits, tuple(reasons), tuple(evidence))
    return Denied(told[0][len("denied ") :], tuple(reasons), tuple(evidence))


def _decided(subcommand: str, trust: bytes, offer: bytes, signature: bytes, vouched: Sequence[Signed], options: List[str]) -> Union[Granted, Denied]:
    files = {"trust": trust, "offer": base64.b64encode(offer) + b"\n", "signature": _blob(signature).encode() + b"\n"}
    words = [subcommand, "--file=trust", "--offer-file=offer", "--signature-file=signature", *options]
    if vouched:
        files["vouched"] = b"".join(signed.line() for signed in vouched)
        words.append("--vouch=vouched")
    return _decision(lines(run(words, files)))


def login(
    trust: bytes,
    *,
    offer: bytes,
    signature: bytes,
    algorithm: str,
    session: bytes,
    user: str,
    address: str,
    now: int,
    host: Optional[str] = None,
    zone: str = "UTC0",
    empty_principals: str = "any",
    rsa_minimum: int = 0,
    vouched: Sequence[Signed] = (),
) -> Union[Granted, Denied]:
    """Whether the authorized_keys file `trust` (at most 64 MiB) admits a login by public key, where you vouch for these
    signatures. `offer` is the blob of a key or a certificate, `signature` that over the login bytes of RFC 4252, `session` and
    `user` have fewer than 2^32 bytes. `host` is the client's name, if it is known; `zone` is that of expiry times that name
    none; `empty_principals` says whether a certificate without principals is for `any` user or `never` for one; RSA keys of
    fewer than `rsa_minimum` bits are refused. Raises Fault: A1 to A7, and `value ..`."""
    options = _options(algorithm=algorithm, session=_blob(session), user=user, address=address, now=now, host=host)
    options += _options(zone=zone, empty_principals=empty_principals, rsa_minimum=rsa_minimum)
    return _decided("login", trust, offer, signature, vouched, options)


def host(
    trust: bytes,
    *,
    offer: bytes,
    signature: bytes,
    exchange_hash: bytes,
    host: str,
    now: int,
    port: int = 22,
    empty_principals: str = "any",
    rsa_minimum: int = 0,
    vouched: Sequence[Signed] = (),
) -> Union[Granted, Denied]:
    """Whether the known_hosts file `trust` (at most 64 MiB) trusts a host's key, where you vouch for these signatures. `signature`
    is that over the exchange hash of RFC 4253; `host` and `port` (0 to 65535) are what the client connects to. The others are as
    for `login`. Raises Fault: A1 to A5, A7, and `value ..`."""
    options = _options(hash=_blob(exchange_hash), host=host, port=port, now=now)
    options += _options(empty_principals=empty_principals, rsa_minimum=rsa_minimum)
    return _decided("host", trust, offer, signature, vouched, options)


_RIGHTS = (("port", "port"), ("agent", "agent"), ("x11", "x11"), ("pty", "pty"), ("user_rc", "rc"))
_CARRIED = ("environment", "permitlisten", "permitopen", "tunnel")


def _escaped(text: bytes) -> str:
    """The text as the program prints it."""
    return "".join(chr(byte) if 32 <= byte < 127 and byte != 92 else f"\\x{byte:02x}" for byte in text)


def _number(name: str, value: int, limit: int) -> int:
    """The number, if it is below the limit: C would take what is left of it."""
    if not 0 <= value < limit:
        raise Fault(f"value {name}")
    return value


def _is_never(empty_principals: str) -> bool:
    if empty_principals not in ("any", "never"):
        raise Fault("value empty-principals")
    return empty_principals == "never"


def _text(text: str) -> bytes:
    return text.encode("utf-8", "surrogateescape")


def _limits(told: Told) -> Dict[str, str]:
    limits = {} if told.command is None else {"command": _escaped(told.command)}
    if told.carried:
        limits["carry"] = "\n".join(f"{_CARRIED[name - 1]} {_escaped(text)}" for name, text in told.carried)
    return limits


def _told(told: Told) -> Union[Granted, Denied]:
    """A decision, by its numbers."""
    decision = told.decision
    if decision.kind == 2 and decision.code == 8:
        raise OutOfMemory("the library was refused memory")
    if decision.kind == 2:
        raise Fault(f"A{decision.code}")
    reasons = tuple(Reason(line, f"G{code}") for line, code in told.reasons)
    if decision.kind == 0:
        rights = tuple(word for name, word in _RIGHTS if getattr(told.rights, name, False))
        return Granted(decision.number, rights, _limits(told), reasons, None)
    cause = f"N{decision.code}"
    return Denied(f"{cause} {decision.number}" if cause in ("N1", "N2", "N6") else cause, reasons, None)


def _parts(vouched: Sequence[Signed]) -> List[Tuple[bytes, bytes, bytes]]:
    return [(signed.key, signed.message, signed.signature) for signed in vouched]


def decide_login(
    trust: bytes,
    *,
    offer: bytes,
    signature: bytes,
    algorithm: str,
    session: bytes,
    user: str,
    address: str,
    now: int,
    host: Optional[str] = None,
    empty_principals: str = "any",
    rsa_minimum: int = 0,
    vouched: Sequence[Signed] = (),
) -> Union[Granted, Denied]:
    """What `login` answers, without text between, in about a fifth of its time. It lists no evidence, and of a reason or a fault the first
    code alone; a grant has its reasons too. Expiry times that name no zone are in UTC."""
    blobs = slices(offer, signature, _text(algorithm), session, _text(user), _text(address), _text(host or ""))
    numbers = (_number("now", now, 1 << 64), _number("rsa-minimum", rsa_minimum, 1 << 32))
    asked = LoginAsked(*blobs, *numbers, host is not None, _is_never(empty_principals))
    return _told(call_login(trust, asked, _parts(vouched)))


def decide_host(
    trust: bytes,
    *,
    offer: bytes,
    signature: bytes,
    exchange_hash: bytes,
    host: str,
    now: int,
    port: int = 22,
    empty_principals: str = "any",
    rsa_minimum: int = 0,
    vouched: Sequence[Signed] = (),
) -> Union[Granted, Denied]:
    """What `host` answers, in the same way."""
    blobs = slices(offer, signature, exchange_hash, _text(host))
    numbers = (_number("now", now, 1 << 64), _number("rsa-minimum", rsa_minimum, 1 << 32), _number("port", port, 1 << 16))
    return _told(call_host(trust, HostAsked(*blobs, *numbers, _is_never(empty_principals)), _parts(vouched)))


_HEAD = re.compile(r"(\d+): (?:(?:admits|trusts) by line (\d+)|does not (?:admit|trust): (N\d+(?: \d+)?)|fault (.*))")


def _admissions(told: Sequence[str], status: int, names: Sequence[str]) -> Admissions:
    """What is told of each file, of which each has its number for a name. Details are indented."""
    made: List[Admission] = []
    for at, line in enumerate(told):
        head = _HEAD.match(line)
        if head is None:
            continue
        details = []
        for detail in told[at + 1 :]:
            if not detail.startswith("    "):
                break
            details.append(detail[4:])
        rights = next((_rights(it[len("rights ") :]) for it in details if it.startswith("rights ")), ())
        found = int(head[2]) if head[2] else None
        made.append(Admission(names[int(head[1])], found, head[3], head[4], rights, tuple(details)))
    return Admissions(status, tuple(made))


def _asked(subcommand: str, files: Mapping[str, bytes], key: bytes, options: List[str]) -> Admissions:
    names = list(files)
    held = {str(number): files[name] for number, name in enumerate(names)}
    answer = run([subcommand, "--key=key", *options, *held], {"key": key, **held})
    return _admissions(lines(answer), answer.status, names)


def admits(
    files: Mapping[str, bytes],
    *,
    key: bytes,
    user: str,
    address: str,
    now: int,
    host: Optional[str] = None,
    zone: str = "UTC0",
    empty_principals: str = "any",
    rsa_minimum: int = 0,
) -> Admissions:
    """Whether authorized_keys files, by their names, would let a key in if its signatures are good. `key` is the content of a `.pub`
    or `-cert.pub` file, of which the first line is read. The others are as for `login`. Raises Fault, of the key or of a value;
    the fault of a file is in its Admission."""
    options = _options(user=user, address=address, now=now, host=host, zone=zone, empty_principals=empty_principals, rsa_minimum=rsa_minimum)
    return _asked("admits", files, key, options)


def trusts(
    files: Mapping[str, bytes],
    *,
    key: bytes,
    host: str,
    now: int,
    port: int = 22,
    empty_principals: str = "any",
    rsa_minimum: int = 0,
) -> Admissions:
    """The same of known_hosts files and a host's key, for the name and the port that a client connects to."""
    return _asked("trusts", files, key, _options(host=host, port=port, now=now, empty_principals=empty_principals, rsa_minimum=rsa_minimum))
