"""The calls of the library, by ctypes: see ssh_audit.h. No pointer is NULL, and each thread has a buffer of its own."""

import ctypes
import os
import threading
from dataclasses import dataclass
from typing import Any, List, Mapping, NamedTuple, Optional, Sequence, Tuple

# What a text is given room for at first, and how much of it a thread keeps.
_ROOM = 1 << 16
_KEPT = 1 << 20
# The most reasons of a decision, and what its options and texts are given room for at first.
_REASONS = 100
_OPTIONS = 16
_TEXTS = 1 << 10


class _Bytes(ctypes.Structure):
    _fields_ = [("bytes", ctypes.c_char_p), ("length", ctypes.c_size_t)]


class _File(ctypes.Structure):
    _fields_ = [("name", _Bytes), ("bytes", _Bytes)]


class _Answer(ctypes.Structure):
    _fields_ = [("status", ctypes.c_uint8), ("length", ctypes.c_size_t)]


def _slices(*names: str) -> List[Tuple[str, Any]]:
    """The fields of slices of bytes, each a pointer and a length: to fill a structure at once is what takes the least time."""
    return [field for name in names for field in ((name, ctypes.c_char_p), (f"{name}_length", ctypes.c_size_t))]


class _Signed(ctypes.Structure):
    _fields_ = _slices("key", "message", "signature")


class LoginAsked(ctypes.Structure):
    """A login that is asked about: see ssh_audit.h."""

    _fields_ = [
        *_slices("offered", "signature", "algorithm", "session", "user", "address", "host"),
        ("now", ctypes.c_uint64),
        ("rsa_minimum", ctypes.c_uint32),
        ("has_host", ctypes.c_bool),
        ("empty_principals_never", ctypes.c_bool),
    ]


class HostAsked(ctypes.Structure):
    """A host's key that is asked about."""

    _fields_ = [
        *_slices("offered", "signature", "exchange_hash", "host"),
        ("now", ctypes.c_uint64),
        ("rsa_minimum", ctypes.c_uint32),
        ("port", ctypes.c_uint16),
        ("empty_principals_never", ctypes.c_bool),
    ]


class Decided(ctypes.Structure):
    """A decision or a fault in numbers."""

    _fields_ = [("kind", ctypes.c_uint8), ("code", ctypes.c_uint8), ("number", ctypes.c_uint64), ("reasons_length", ctypes.c_size_t)]


class Rights(ctypes.Structure):
    """What a login may do, in numbers."""

    _fields_ = [
        *((name, ctypes.c_bool) for name in ("port", "agent", "x11", "pty", "user_rc", "has_command")),
        *((name, ctypes.c_size_t) for name in ("command_length", "carried_length", "texts_length")),
    ]


class _LoginDecided(ctypes.Structure):
    _fields_ = [("decision", Decided), ("rights", Rights)]


class _Reason(ctypes.Structure):
    _fields_ = [("line", ctypes.c_uint64), ("code", ctypes.c_uint8)]


class _Carried(ctypes.Structure):
    _fields_ = [("name", ctypes.c_uint8), ("length", ctypes.c_size_t)]


def _call(name: str, result: Any, *parameters: Any) -> Any:
    """A call of the library, of which each list is a pointer and a length."""
    call = getattr(_library, name)
    call.restype = result
    call.argtypes = parameters
    return call


_library = ctypes.CDLL(os.path.join(os.path.dirname(__file__), "libssh_audit.so"))
_LIST = (ctypes.c_void_p, ctypes.c_size_t)
_GIVEN = (ctypes.c_char_p, ctypes.c_size_t)
_run = _call("ssh_audit_run", _Answer, *_LIST, *_LIST, *_GIVEN, *_LIST)
_login = _call("ssh_audit_login", _LoginDecided, *_GIVEN, ctypes.c_void_p, *_LIST, *_LIST, *_LIST, *_LIST)
_host = _call("ssh_audit_host", Decided, *_GIVEN, ctypes.c_void_p, *_LIST, *_LIST)
_own = threading.local()


class OutOfMemory(MemoryError):
    """The library was refused memory."""


@dataclass(frozen=True)
class Answer:
    """What the program prints, and the status that it ends with: 0 granted or done, 1 denied or something found, 2 a
    fault, 3 where OpenSSH may let in a key that no line lets in here."""

    status: int
    text: bytes


def _room(size: int) -> "ctypes.Array[ctypes.c_char]":
    kept = getattr(_own, "out", None)
    if kept is None or len(kept) < size:
        kept = ctypes.create_string_buffer(size)
        if size <= _KEPT:
            _own.out = kept
    return kept


def run(words: Sequence[str], files: Mapping[str, bytes] = {}, input: bytes = b"") -> Answer:
    """What `ssh_audit WORDS` prints over these files and this standard input. Nothing is added to the words: say the time, the
    files and the user. Raises OutOfMemory."""
    texts = [word.encode("utf-8", "surrogateescape") for word in words]
    named = [(name.encode("utf-8", "surrogateescape"), bytes(held)) for name, held in files.items()]
    given = bytes(input)
    word_list = (_Bytes * (len(texts) + 1))(*((text, len(text)) for text in texts), (b"", 0))
    file_list = (_File * (len(named) + 1))(*(((name, len(name)), (held, len(held))) for name, held in named), ((b"", 0), (b"", 0)))
    out = _room(_ROOM + 4 * (len(given) + sum(len(held) for _, held in named)))
    while True:
        told = _run(word_list, len(texts), file_list, len(named), given, len(given), out, len(out))
        if told.length <= len(out):
            break
        out = _room(told.length)
    text = ctypes.string_at(out, told.length)
    # Of a review it may stand behind the lines of files.
    if told.status == 2 and (b"\n" + text).endswith(b"\nfault A8\n"):
        raise OutOfMemory("the library was refused memory")
    return Answer(told.status, text)


def slices(*parts: bytes) -> List[Any]:
    """Bytes as the fields of a structure take them."""
    return [field for part in parts for field in (part, len(part))]


def _signed(vouched: Sequence[Tuple[bytes, bytes, bytes]]) -> "ctypes.Array[_Signed]":
    """The signatures as a list that is not empty."""
    return (_Signed * (len(vouched) + 1))(*(_Signed(*slices(*parts)) for parts in (*vouched, (b"", b"", b""))))


class _Buffers(threading.local):
    """What a typed call writes to, for each thread."""

    def __init__(self) -> None:
        self.reasons = (_Reason * _REASONS)()
        self.grow(_OPTIONS, _TEXTS)

    def grow(self, options: int, room: int) -> None:
        self.carried, self.texts = (_Carried * options)(), ctypes.create_string_buffer(room)


_buffers = _Buffers()


def _listed(count: int) -> List[Tuple[int, int]]:
    return [(reason.line, reason.code) for reason in _buffers.reasons[:count]] if count else []


class Told(NamedTuple):
    """A decision in numbers, with its reasons, each a line and a code, and of a login its rights: the command, and the options that
    are passed on, each a number and a text."""

    decision: Decided
    reasons: List[Tuple[int, int]]
    rights: Optional[Rights]
    command: Optional[bytes]
    carried: List[Tuple[int, bytes]]


def call_login(trust: bytes, asked: LoginAsked, vouched: Sequence[Tuple[bytes, bytes, bytes]]) -> Told:
    """ssh_audit_login, with room for all that is told."""
    signed, own = _signed(vouched), _buffers
    while True:
        buffers = (own.reasons, _REASONS, own.carried, len(own.carried), own.texts, len(own.texts))
        told = _login(trust, len(trust), ctypes.byref(asked), signed, len(vouched), *buffers)
        rights = told.rights
        if rights.carried_length <= len(own.carried) and rights.texts_length <= len(own.texts):
            break
        own.grow(max(len(own.carried), rights.carried_length), max(len(own.texts), rights.texts_length))
    texts = ctypes.string_at(own.texts, rights.texts_length)
    at, listed = rights.command_length, []
    for option in own.carried[: rights.carried_length]:
        listed.append((option.name, texts[at : at + option.length]))
        at += option.length
    command = texts[: rights.command_length] if rights.has_command else None
    return Told(told.decision, _listed(told.decision.reasons_length), rights, command, listed)


def call_host(trust: bytes, asked: HostAsked, vouched: Sequence[Tuple[bytes, bytes, bytes]]) -> Told:
    """ssh_audit_host, with room for all that is told."""
    decision = _host(trust, len(trust), ctypes.byref(asked), _signed(vouched), len(vouched), _buffers.reasons, _REASONS)
    return Told(decision, _listed(decision.reasons_length), None, None, [])
