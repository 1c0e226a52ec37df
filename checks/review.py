#!/usr/bin/env python3
"""Tries `review` from outside, on files that are made here.

usage: review.py [PROGRAM] [--seed N] [--files N]

Worked files, word for word, as text and as JSON; the table of each is the JSON told again. Random authorized_keys files of keys that ssh-keygen made, with options of
all kinds and damaged lines, reviewed at several times: every record is compared with what a model in this script expects
of the line; whoever `admits` lets in, gets in by a line that has a record, is not shadowed, not past its time, permits
somebody, and leaves the rights that were admitted; the lines that `admits` cannot read are those that the review calls
unreadable; each fingerprint that `ssh-keygen -lf` prints of the file is in a record; asked for by its fingerprint, each key has the records
that the whole review has of it; the forms tell the same, and the
JSON lines have their fields in order; what `--show` leaves out is left out of each form. No text of a file begins a cell as a formula. Then names, limits, faults, statuses and writers that fail. Random known_hosts files
are compared with a model of theirs in the same way, and with the hosts that `trusts` trusts by them.

The same seed gives the same files, but for the keys. Needs ssh-keygen (Debian: openssh-client) and the built program. The
last line is 'N passed, M failed'; the status is 0 where nothing failed."""
import argparse
import base64
import calendar
import dataclasses
import hashlib
import json
import os
import pathlib
import random
import re
import subprocess
import sys
import tempfile
import time

sys.dont_write_bytecode = True
import program
from program import FILE_LIMIT, HINT, WORST_FIRST, Program, Tally, asked_at, found_text, review

HERE = pathlib.Path(__file__).resolve().parent
DEFAULT = pathlib.Path(program.CRATE) / "out" / "ssh_audit"
RIGHTS = ("port", "agent", "x11", "pty", "rc")
AUTH_FIELDS = ["file", "line", "what", "type", "bits", "key", "comment", "options", "rights", "command", "source", "principals", "expires", "shadowed_by", "lets_in", "findings"]
KNOWN_FIELDS = ["file", "line", "what", "type", "bits", "key", "comment", "names", "findings"]
# The columns of a table: the fields with host and account, and a note.
COLUMNS = {kind: ["file", "host", "account", *fields[1:], "note"] for kind, fields in (("auth", AUTH_FIELDS), ("known", KNOWN_FIELDS))}
END_FIELDS = ["file", "what", "lines", "key_lines", "unreadable", "findings", "sha256", "fault", "why"]
TOTAL_FIELDS = ["what", "format", "program", "kind", "rsa_minimum", "told", "now", "at", "zone", "files", "faults", "faults_by_code", "lines", "key_lines", "distinct_keys", "unreadable", "findings", "findings_by_code"]
# The first moment of 2026 in UTC, which an expiry time of that day names.
NEW_YEAR = 1_767_225_600
FORWARDS = "    F9: its command is forced, but it may still forward: add restrict"
TIMES = (1_500_000_000, NEW_YEAR, NEW_YEAR + 1, 1_900_000_000)


def escaped(data):
    """How both forms spell bytes: printable ASCII but the backslash as it is."""
    return "".join(f"\\x{byte:02x}" if byte == 0x5C or not 0x20 <= byte <= 0x7E else chr(byte) for byte in data)


def fingerprint(blob):
    return "SHA256:" + base64.b64encode(hashlib.sha256(blob).digest()).decode().rstrip("=")


def string(data):
    return len(data).to_bytes(4, "big") + data


# ---- worked files

WORKED = r"""# web1, account ann
ssh-ed25519 AAAAC3NzaC1lZDI1NTE5AAAAINghVOyZqZSLpIpB+TTEGqwNY0SxEy+a09/Jm5UjcJme laptop@example
from="10.0.0.0/8",restrict,command="/usr/bin/backup \"full\"" ssh-ed25519 AAAAC3NzaC1lZDI1NTE5AAAAIOs+4KeQYLze5st0LQDq+9Tul4+5Y81KvrModw3rwuFw backup@example
command="/usr/bin/deploy" ecdsa-sha2-nistp256 AAAAE2VjZHNhLXNoYTItbmlzdHAyNTYAAAAIbmlzdHAyNTYAAABBBMwfMpGPWhniKmCf//uMovfl4p8/vyyeDqIvbKiQx2apWrFe2NJF0Zhlh5hMpwcjj244MjAG4nItewxIbsIgdXQ= build@example
restrict ssh-ed25519 AAAAC3NzaC1lZDI1NTE5AAAAINghVOyZqZSLpIpB+TTEGqwNY0SxEy+a09/Jm5UjcJme laptop again
ssh-rsa AAAAB3NzaC1yc2EAAAADAQABAAAAgQDDeDoPlpMJTdhoyn2GKdy/SlfPRghJyTNHYXAAL/ir7Is5LqD2z0AnQ/lwtfBJDJw/Kh5UBgTOsb9q/MULyeVCf6IA9BQbrw4QkEVK/voICtPmQQ2d2FrHwznnx+1sMZuejt0qHInJu21gq3m22oc8AKIgf0dygAkKxCfvb1BYJw== old@example
expiry-time="20260101Z" ssh-ed25519 AAAAC3NzaC1lZDI1NTE5AAAAIPB1hZwkzj4aSW7BQR0A8/TH5/zBdF5l1o7+pRsL4ujD bob@example
cert-authority ssh-ed25519 AAAAC3NzaC1lZDI1NTE5AAAAIC3Xa/F49aK2Sb6CWw3MilZJHaYld/vooMethYFu0kee ca@example
no-ptty ssh-ed25519 AAAAC3NzaC1lZDI1NTE5AAAAIBmMnDenviwjr5QGdkuZSXql1062iuZP2UqxpDvyR0wr carol@example
verify-required ssh-rsa AAAAB3NzaC1yc2EAAAADAQABAAABAQDd14UicjporAVi0QBP1bzIvqJPIlfWS+BjTmZ8+rLFWyX1O1lruOl/FhP/zKT91/bXSW7mI4q8LT/heO91fBMnVmCrnLVmXojE/poxLCswCaoLDU1+8dSbamPLI0Te3jyzUQhxD0zQs4k2ZUtjZq9JSDe/TWhjqV5uo2Gz2nvmmdVnrpYSdUFRq28chK0Gu+BhbsFwsXAhZ7zY+kJCVoHv1esUXeP4fHx1/PaBBoByO2+0yyAb8glZtqbxESGjrrEn3PU7n+kCIyzrAzdTQg3e714ptGihND9UbiIWMdNsqaBVB/YlXcB2xyo5MsokwSYsQVLh2i8c531Bi5hru2n3
"""

WORKED_TEXT = r"""web1/ann:2: key ssh-ed25519 SHA256:gXMk5B5PxTYWe+Q7kQzHGRTNDb0nrzC3BLT7EPMvKSg laptop@example
    rights port agent x11 pty rc
web1/ann:3: key ssh-ed25519 SHA256:HuPvXqxf+TUVK2iDHf0i9B8HYd2eAOw3Mu4FmYQ2sWE backup@example
    rights none
    command /usr/bin/backup "full"
    from 10.0.0.0/8
web1/ann:4: key ecdsa-sha2-nistp256 SHA256:nhLvnwTE6QRz1UfV65d6yv9hpeLkeOwkaw7Ql/YqjdM build@example
    rights port agent x11 pty rc
    command /usr/bin/deploy
    F9: its command is forced, but it may still forward: add restrict
web1/ann:5: key ssh-ed25519 SHA256:gXMk5B5PxTYWe+Q7kQzHGRTNDb0nrzC3BLT7EPMvKSg laptop again
    rights none
    F4 2: never decides: line 2 has the same key, lets it in first and gives more
web1/ann:6: key ssh-rsa 1024 SHA256:FM0qtkq6jK/AsMX000mmtkcGXYbwWv4bIewiR7lIzIo old@example
    rights port agent x11 pty rc
    F5 1024: an RSA key of 1024 bits is too short
web1/ann:7: key ssh-ed25519 SHA256:1rPJzXSzwEYMADix8ifDkUhTn8XNhynMzeXpmR90rzk bob@example
    rights port agent x11 pty rc
    expires 1767225600 2026-01-01T00:00:00Z
    F6: has expired
web1/ann:8: authority ssh-ed25519 SHA256:VySy8OgtRCL1Xyc8Pmw64Uan5/UBdBZUOemVHS+WeUo ca@example
    rights port agent x11 pty rc
web1/ann:9: unreadable ssh-ed25519 SHA256:nvuWTLJLbG342Ro/cJyRt1aPYE9mITXTARX8I/yh8QQ
    F1 L3: cannot be read here, and OpenSSH may read it: an option that sshd(8) does not list; or a first word that was meant as the type, and is not one
web1/ann:10: key ssh-rsa 2048 SHA256:Bfvk8D9yagody1EbQdzAz5byw0A51qzcCWURIjCLnN4
    rights port agent x11 pty rc
    verify-required
    F8 verify-required: OpenSSH lets this key in: it ignores verify-required of a key that is no security key
web1/ann: 10 lines, 8 key lines, 1 unreadable, 6 findings, sha256 a3b51c142bcda45a43c1dd1d736f45ea9554b013929818c32d1e1950dbd33041
web1/none: fault A9: not found
F1: 1, the line cannot be read here, and OpenSSH may read it; the L code follows
F4: 1, the line never decides: line K has the same key, lets it in first and gives more
F8: 1, OpenSSH reads the line otherwise: principals= without cert-authority, empty-principal in the list, verify-required of a key that is no security key, local-time of an expiry time without Z where no --zone is given, short-address in from= (127.1), tab after a marker, type of a revocation that is not its key's
F5: 1, an RSA key of B bits is too short: they are fewer than --rsa-minimum
F9: 1, the line's command is forced, but it may still forward: add restrict
F6: 1, the line has expired
total: 2 files, 1 faults, 10 lines, 8 key lines, 7 distinct keys, 1 unreadable, 6 findings, asked at 1770000000 2026-02-02T02:40:00Z, zone UTC0
"""

WORKED_JSON = r"""{"file":"web1/ann","line":2,"what":"key","type":"ssh-ed25519","bits":null,"key":"SHA256:gXMk5B5PxTYWe+Q7kQzHGRTNDb0nrzC3BLT7EPMvKSg","comment":"laptop@example","options":"","rights":"port agent x11 pty rc","command":null,"source":null,"principals":null,"expires":null,"shadowed_by":null,"lets_in":true,"findings":[]}
{"file":"web1/ann","line":3,"what":"key","type":"ssh-ed25519","bits":null,"key":"SHA256:HuPvXqxf+TUVK2iDHf0i9B8HYd2eAOw3Mu4FmYQ2sWE","comment":"backup@example","options":"from=\"10.0.0.0/8\",restrict,command=\"/usr/bin/backup \\x5c\"full\\x5c\"\"","rights":"none","command":"/usr/bin/backup \"full\"","source":"10.0.0.0/8","principals":null,"expires":null,"shadowed_by":null,"lets_in":true,"findings":[]}
{"file":"web1/ann","line":4,"what":"key","type":"ecdsa-sha2-nistp256","bits":null,"key":"SHA256:nhLvnwTE6QRz1UfV65d6yv9hpeLkeOwkaw7Ql/YqjdM","comment":"build@example","options":"command=\"/usr/bin/deploy\"","rights":"port agent x11 pty rc","command":"/usr/bin/deploy","source":null,"principals":null,"expires":null,"shadowed_by":null,"lets_in":true,"findings":[{"code":"F9","detail":""}]}
{"file":"web1/ann","line":5,"what":"key","type":"ssh-ed25519","bits":null,"key":"SHA256:gXMk5B5PxTYWe+Q7kQzHGRTNDb0nrzC3BLT7EPMvKSg","comment":"laptop again","options":"restrict","rights":"none","command":null,"source":null,"principals":null,"expires":null,"shadowed_by":2,"lets_in":false,"findings":[{"code":"F4","detail":"2"}]}
{"file":"web1/ann","line":6,"what":"key","type":"ssh-rsa","bits":1024,"key":"SHA256:FM0qtkq6jK/AsMX000mmtkcGXYbwWv4bIewiR7lIzIo","comment":"old@example","options":"","rights":"port agent x11 pty rc","command":null,"source":null,"principals":null,"expires":null,"shadowed_by":null,"lets_in":true,"findings":[{"code":"F5","detail":"1024"}]}
{"file":"web1/ann","line":7,"what":"key","type":"ssh-ed25519","bits":null,"key":"SHA256:1rPJzXSzwEYMADix8ifDkUhTn8XNhynMzeXpmR90rzk","comment":"bob@example","options":"expiry-time=\"20260101Z\"","rights":"port agent x11 pty rc","command":null,"source":null,"principals":null,"expires":1767225600,"shadowed_by":null,"lets_in":false,"findings":[{"code":"F6","detail":""}]}
{"file":"web1/ann","line":8,"what":"authority","type":"ssh-ed25519","bits":null,"key":"SHA256:VySy8OgtRCL1Xyc8Pmw64Uan5/UBdBZUOemVHS+WeUo","comment":"ca@example","options":"cert-authority","rights":"port agent x11 pty rc","command":null,"source":null,"principals":null,"expires":null,"shadowed_by":null,"lets_in":true,"findings":[]}
{"file":"web1/ann","line":9,"what":"unreadable","type":"ssh-ed25519","bits":null,"key":"SHA256:nvuWTLJLbG342Ro/cJyRt1aPYE9mITXTARX8I/yh8QQ","comment":null,"options":null,"rights":null,"command":null,"source":null,"principals":null,"expires":null,"shadowed_by":null,"lets_in":true,"findings":[{"code":"F1","detail":"L3"}]}
{"file":"web1/ann","line":10,"what":"key","type":"ssh-rsa","bits":2048,"key":"SHA256:Bfvk8D9yagody1EbQdzAz5byw0A51qzcCWURIjCLnN4","comment":"","options":"verify-required","rights":"port agent x11 pty rc","command":null,"source":null,"principals":null,"expires":null,"shadowed_by":null,"lets_in":true,"findings":[{"code":"F8","detail":"verify-required"}]}
{"file":"web1/ann","what":"end","lines":10,"key_lines":8,"unreadable":1,"findings":6,"sha256":"a3b51c142bcda45a43c1dd1d736f45ea9554b013929818c32d1e1950dbd33041","fault":null,"why":null}
{"file":"web1/none","what":"end","lines":0,"key_lines":0,"unreadable":0,"findings":0,"sha256":null,"fault":"A9","why":"not found"}
{"what":"total","format":2,"program":"ssh_audit 1.0.0","kind":"auth","rsa_minimum":2048,"told":["F1","F2","F3","F4","F5","F6","F7","F8","F9","F10","F11","F12","F13","F14","F22"],"now":1770000000,"at":"2026-02-02T02:40:00Z","zone":"UTC0","files":2,"faults":1,"faults_by_code":{"A9":1},"lines":10,"key_lines":8,"distinct_keys":7,"unreadable":1,"findings":6,"findings_by_code":{"F1":1,"F4":1,"F5":1,"F6":1,"F8":1,"F9":1}}
"""

# Bytes that are no text: UTF-8, an escape sequence that clears a screen, a byte ff and a CR.
ODD = b'command="a\\b \\"c\\" \xc3\xa4" ssh-ed25519 AAAAC3NzaC1lZDI1NTE5AAAAINghVOyZqZSLpIpB+TTEGqwNY0SxEy+a09/Jm5UjcJme m\xc3\xbcller\x1b[2J\xff \r\n'
ODD_TEXT = r"""odd:1: key ssh-ed25519 SHA256:gXMk5B5PxTYWe+Q7kQzHGRTNDb0nrzC3BLT7EPMvKSg m\xc3\xbcller\x1b[2J\xff
    rights port agent x11 pty rc
    command a\x5cb "c" \xc3\xa4
    F9: its command is forced, but it may still forward: add restrict
odd: 1 lines, 1 key lines, 0 unreadable, 1 findings, sha256 886bbc8ffa56bed5a1030ccd048549abedd0932d9d3863db4d887f07638f2910
F9: 1, the line's command is forced, but it may still forward: add restrict
total: 1 files, 0 faults, 1 lines, 1 key lines, 1 distinct keys, 0 unreadable, 1 findings, asked at 1770000000 2026-02-02T02:40:00Z, zone UTC0
"""
ODD_JSON = r"""{"file":"odd","line":1,"what":"key","type":"ssh-ed25519","bits":null,"key":"SHA256:gXMk5B5PxTYWe+Q7kQzHGRTNDb0nrzC3BLT7EPMvKSg","comment":"m\\xc3\\xbcller\\x1b[2J\\xff","options":"command=\"a\\x5cb \\x5c\"c\\x5c\" \\xc3\\xa4\"","rights":"port agent x11 pty rc","command":"a\\x5cb \"c\" \\xc3\\xa4","source":null,"principals":null,"expires":null,"shadowed_by":null,"lets_in":true,"findings":[{"code":"F9","detail":""}]}
{"file":"odd","what":"end","lines":1,"key_lines":1,"unreadable":0,"findings":1,"sha256":"886bbc8ffa56bed5a1030ccd048549abedd0932d9d3863db4d887f07638f2910","fault":null,"why":null}
{"what":"total","format":2,"program":"ssh_audit 1.0.0","kind":"auth","rsa_minimum":2048,"told":["F1","F2","F3","F4","F5","F6","F7","F8","F9","F10","F11","F12","F13","F14","F22"],"now":1770000000,"at":"2026-02-02T02:40:00Z","zone":"UTC0","files":1,"faults":0,"faults_by_code":{},"lines":1,"key_lines":1,"distinct_keys":1,"unreadable":0,"findings":1,"findings_by_code":{"F9":1}}
"""
POLICY = r"""web1/ann:2: key ssh-ed25519 SHA256:gXMk5B5PxTYWe+Q7kQzHGRTNDb0nrzC3BLT7EPMvKSg laptop@example
    rights port agent x11 pty rc
    F15: good from any address: no from=, or from="*"
    F16: any command may be run: no command=
    F17: good for ever: no expiry-time=
"""

HOSTS = r"""# the fleet
web1.example.org,192.0.2.10 ssh-ed25519 AAAAC3NzaC1lZDI1NTE5AAAAICbFWwdUICGNMpx3i8skrga86MeQIHeaAAWvuDE4cnt2
db1.example.org ssh-ed25519 AAAAC3NzaC1lZDI1NTE5AAAAIKrHRm2eZqLDNsLt4T1xCvoXGM1m1UWfMhpWYWemaEfr
db1.example.org ssh-ed25519 AAAAC3NzaC1lZDI1NTE5AAAAINghVOyZqZSLpIpB+TTEGqwNY0SxEy+a09/Jm5UjcJme
*.lab.example.org ssh-rsa AAAAB3NzaC1yc2EAAAADAQABAAABgQDQVph2Vg4wRfABDUoKGszWv7dLhJaBUJ5lfZIyKxFx3lzhE974FwTPLHkyWZhxhbiEzxD/NWv3TaSMw4YRf9UgYJe6junWolRXf04bLiTuVrYSP+9X/OZJsSOPhwbAqDew8PaBhPdmrzU5VUKRGBgH7uisnbUlA4x+nqTrnBTgwC2Aak4JQW6LDjXpTygl9iS9ubCE3ivCeuO4nmYZUJO+94uw22Tklk3/9B9kT2ttWYxuu35fnYpEjkeCwdp7XyGl6xkM2ykLWTUYU3nJZhXBZVRvEWGihKIGN2sxrcYzHbcQW08fX5N+wOsRfHljeZOGot97KAO0NNIIX/ADeonbDhguy9XkX5exmXOZSe5zNHqzcp7BuHFprVqbAs96McbIve0N9hHtHn+qVlNy6BlcyQ2YEYj8Z+x3Ch/NzF5Q5haUr8A9+bP3KYsUPBMwsvJlizam0a4p6sdRoNfUZT2w+mJU3TWimi5oRghoHmYzpMbHlk2G+5QXvAFV5fc4xh8=
@cert-authority * ssh-ed25519 AAAAC3NzaC1lZDI1NTE5AAAAIKfzwZ65QmIxeq3/IlWjPshipGXqlYDSCPhV54gn9UJo
@revoked * ssh-ed25519 AAAAC3NzaC1lZDI1NTE5AAAAIKrHRm2eZqLDNsLt4T1xCvoXGM1m1UWfMhpWYWemaEfr
@revoked * ssh-ed25519
web9.example.org, ssh-ed25519 AAAAC3NzaC1lZDI1NTE5AAAAICbFWwdUICGNMpx3i8skrga86MeQIHeaAAWvuDE4cnt2
[git.example.org]:2222 ssh-ed25519 AAAAC3NzaC1lZDI1NTE5AAAAICbFWwdUICGNMpx3i8skrga86MeQIHeaAAWvuDE4cnt2
"""
HOSTS_TEXT = r"""known:2: key ssh-ed25519 SHA256:K1O2eINbmb17fEiDcz4h4FqkT185rAHrxyBBdF4KQT8
    names web1.example.org,192.0.2.10
known:3: key ssh-ed25519 SHA256:JuhwEfWrsZjKfEIish58B33eZC/AoxsXRDYcAcjBP/Y
    names db1.example.org
known:4: key ssh-ed25519 SHA256:gXMk5B5PxTYWe+Q7kQzHGRTNDb0nrzC3BLT7EPMvKSg
    names db1.example.org
    F11 3: another key of this type for a name of line 3
known:5: key ssh-rsa 3072 SHA256:WWvqIBGfcehwggPf02VrrJSfTs7HADSzzKa2YkfEDwI
    names *.lab.example.org
    F13: one key for all hosts that a pattern names
known:6: authority ssh-ed25519 SHA256:IPnB7yWGYOrw+mTQ7yfGdqL54Mal31hsY/4zFi2oBpg
    names *
    F14: an authority for every host
known:7: revoked SHA256:JuhwEfWrsZjKfEIish58B33eZC/AoxsXRDYcAcjBP/Y
    names *
    in ssh it counts for these names alone
    F12 3: its key is both trusted and revoked: see line 3
known:8: revocation-unreadable
    F10: may revoke any key and cannot be read: here it denies every host, OpenSSH may pass over it
known:9: unreadable ssh-ed25519 SHA256:K1O2eINbmb17fEiDcz4h4FqkT185rAHrxyBBdF4KQT8
    F1 L16: cannot be read here, and OpenSSH may read it: of known_hosts: an item of the list of host names is empty; ! alone is an empty item
known:10: key ssh-ed25519 SHA256:K1O2eINbmb17fEiDcz4h4FqkT185rAHrxyBBdF4KQT8
    names [git.example.org]:2222
known: 10 lines, 6 key lines, 2 unreadable, 6 findings, sha256 256b6d0a7a61116a5090af644595ba7ab28f34ef7693844bf761f174a13ea6fa
F1: 1, the line cannot be read here, and OpenSSH may read it; the L code follows
F10: 1, the line may revoke any key and cannot be read: here it denies every host, OpenSSH may pass over it
F11: 1, another key of this type for a name of line K
F12: 1, the line's key is both trusted and revoked: see line K; spelling K: line K has another spelling of it
F14: 1, an authority for every host
F13: 1, one key for all hosts that a pattern names
total: 1 files, 0 faults, 10 lines, 6 key lines, 5 distinct keys, 2 unreadable, 6 findings, asked at 1770000000 2026-02-02T02:40:00Z, zone UTC0
"""
HOSTS_JSON = r"""{"file":"known","line":2,"what":"key","type":"ssh-ed25519","bits":null,"key":"SHA256:K1O2eINbmb17fEiDcz4h4FqkT185rAHrxyBBdF4KQT8","comment":"","names":"web1.example.org,192.0.2.10","findings":[]}
{"file":"known","line":3,"what":"key","type":"ssh-ed25519","bits":null,"key":"SHA256:JuhwEfWrsZjKfEIish58B33eZC/AoxsXRDYcAcjBP/Y","comment":"","names":"db1.example.org","findings":[]}
{"file":"known","line":4,"what":"key","type":"ssh-ed25519","bits":null,"key":"SHA256:gXMk5B5PxTYWe+Q7kQzHGRTNDb0nrzC3BLT7EPMvKSg","comment":"","names":"db1.example.org","findings":[{"code":"F11","detail":"3"}]}
{"file":"known","line":5,"what":"key","type":"ssh-rsa","bits":3072,"key":"SHA256:WWvqIBGfcehwggPf02VrrJSfTs7HADSzzKa2YkfEDwI","comment":"","names":"*.lab.example.org","findings":[{"code":"F13","detail":""}]}
{"file":"known","line":6,"what":"authority","type":"ssh-ed25519","bits":null,"key":"SHA256:IPnB7yWGYOrw+mTQ7yfGdqL54Mal31hsY/4zFi2oBpg","comment":"","names":"*","findings":[{"code":"F14","detail":""}]}
{"file":"known","line":7,"what":"revoked","type":null,"bits":null,"key":"SHA256:JuhwEfWrsZjKfEIish58B33eZC/AoxsXRDYcAcjBP/Y","comment":null,"names":"*","findings":[{"code":"F12","detail":"3"}]}
{"file":"known","line":8,"what":"revocation-unreadable","type":null,"bits":null,"key":null,"comment":null,"names":null,"findings":[{"code":"F10","detail":""}]}
{"file":"known","line":9,"what":"unreadable","type":"ssh-ed25519","bits":null,"key":"SHA256:K1O2eINbmb17fEiDcz4h4FqkT185rAHrxyBBdF4KQT8","comment":null,"names":null,"findings":[{"code":"F1","detail":"L16"}]}
{"file":"known","line":10,"what":"key","type":"ssh-ed25519","bits":null,"key":"SHA256:K1O2eINbmb17fEiDcz4h4FqkT185rAHrxyBBdF4KQT8","comment":"","names":"[git.example.org]:2222","findings":[]}
{"file":"known","what":"end","lines":10,"key_lines":6,"unreadable":2,"findings":6,"sha256":"256b6d0a7a61116a5090af644595ba7ab28f34ef7693844bf761f174a13ea6fa","fault":null,"why":null}
{"what":"total","format":2,"program":"ssh_audit 1.0.0","kind":"known","rsa_minimum":2048,"told":["F1","F2","F3","F4","F5","F6","F7","F8","F9","F10","F11","F12","F13","F14","F22"],"now":1770000000,"at":"2026-02-02T02:40:00Z","zone":"UTC0","files":1,"faults":0,"faults_by_code":{},"lines":10,"key_lines":6,"distinct_keys":5,"unreadable":2,"findings":6,"findings_by_code":{"F1":1,"F10":1,"F11":1,"F12":1,"F13":1,"F14":1}}
"""


def cell(value):
    """A value of JSON as a cell: no text begins with a byte for which a spreadsheet takes it for a formula or a quoted cell."""
    if isinstance(value, list):
        return "; ".join(f"{found['code']} {found['detail']}".rstrip() for found in value)
    if isinstance(value, str):
        return f"\\x{ord(value[0]):02x}{value[1:]}" if value[:1] in tuple('=+-@"') else value
    return "" if value is None else str(value).lower()


def row(made):
    """What an object has in a table: an end and the total tell in a note what the text says of them."""
    if is_record(made):
        return made
    said = end_lines(made | {"file": ""})[-1].removeprefix(": ")
    return {field: made[field] for field in ("file", "host", "account", "what") if field in made} | {"note": said}


def table(kind, objects):
    """The table of a review, made of its JSON."""
    lines = [COLUMNS[kind], *([cell(row(made).get(column)) for column in COLUMNS[kind]] for made in objects)]
    return "".join("\t".join(line) + "\n" for line in lines).encode()


def table_row(audit, tally, what, names, kind, stdin=b"", **asked):
    """The table of these files is their JSON told again, with the same status."""
    status, answer, _ = audit.run(review(*names, kind=kind, form="json", **asked), stdin)
    found = audit.run(review(*names, kind=kind, form="line", **asked), stdin)
    tally.check(f"{what}: the table", found, (status, table(kind, records_of(answer)[0]), b""))


# Comments and names that begin as a formula or a quoted cell begins, and what stands in their cells.
HOSTILE = [("=cmd|'/c calc'!A0", "\\x3dcmd|'/c calc'!A0"), ("+1", "\\x2b1"), ("-1", "\\x2d1"), ("@SUM(A1)", "\\x40SUM(A1)"), ('"a""b', '\\x22a""b'), ("a=+-@\"", 'a=+-@"'), ("a\tb", "a\\x09b"), ("\\=", "\\x5c=")]


def table_rows(audit, tally):
    """Tables of the worked files, of hostile texts, with labels, and of one key."""
    (audit.room / "known").write_text(HOSTS)
    now = 1_770_000_000
    for what, names, kind, asked in (
        ("worked", ["web1/ann", "web1/none"], "auth", {}), ("worked", ["odd"], "auth", {"findings": "all"}), ("worked hosts", ["known"], "known", {"findings": "all"}),
        ("one key", ["web1/ann", "odd"], "auth", {"key": "SHA256:gXMk5B5PxTYWe+Q7kQzHGRTNDb0nrzC3BLT7EPMvKSg"}),
        ("labels", ["=h\tann\tweb1/ann", "h\t@b\tweb1/none"], "auth", {"labels": "host,account"}),
    ):
        table_row(audit, tally, what, names, kind, now=now, **asked)
    for text, wanted in HOSTILE:
        content = f"ssh-ed25519 {program.KEY} {text}\n".encode()
        _, answer, _ = audit.run(review("-", kind="auth", form="line", now=now), content)
        record = answer.decode("ascii").split("\n")[1].split("\t")
        tally.check(f"table: the comment {text!r}", (len(record), record[COLUMNS["auth"].index("comment")]), (len(COLUMNS["auth"]), wanted))


def worked_rows(audit, tally):
    """The worked files, as text and as JSON."""
    (audit.room / "web1").mkdir()
    (audit.room / "web1" / "ann").write_text(WORKED)
    (audit.room / "odd").write_bytes(ODD)
    now, text, objects = 1_770_000_000, WORKED_TEXT, WORKED_JSON
    for name, asked, wanted, status in (
        ("a file and a missing one", review("web1/ann", "web1/none", now=now), text, 2),
        ("the same as JSON", review("web1/ann", "web1/none", now=now, form="json"), objects, 2),
        ("bytes that are no text", review("odd", now=now), ODD_TEXT, 1),
        ("the same as JSON", review("odd", now=now, form="json"), ODD_JSON, 1),
    ):
        tally.check(f"worked: {name}", audit.run(asked), (status, wanted.encode(), b""))
    status, answer, _ = audit.run(review("web1/ann", now=now, findings="all"))
    tally.check("worked: policy", (status, answer.decode()[: len(POLICY)]), (1, POLICY))


HERE_ALONE = "    F7 from-here: permits nobody here, but OpenSSH may read its from= list otherwise: count it as access"
SHORT_ADDRESS = "    F8 short-address: OpenSSH reads a short address in from= (127.1) as an address: count it as access"

# Options for which sshd refuses the line, or may, and the ground; and options that it takes.
REFUSED = [
    *((f'permitopen="{text}"', "permitopen") for text in ("none", "h", "h:0", "h:65536", "h:ssh", "h:", ":80", "::1:80", "h/80", "[::1]80", "h" * 1025 + ":80")),
    *((f'permitlisten="{text}"', "permitlisten") for text in ("none", "0", "65536", "h:", "h:0")),
    *((f'environment="{text}"', "environment") for text in ("AB", "A-B=c", "=c", "")),
    *((f'tunnel="{text}"', "tunnel") for text in ("x", "", "-1", "4294967296")),
    (",".join(['environment="A=b"'] * 1026), "environment"),
    ('command="a\0b"', "nul"), ('from="192.0.2.1,\0"', "nul"), ('environment="A=\0"', "nul"),
    (f'from="192.0.2.1,{"x" * 1023}"', "long-item"),
]
TAKEN = [
    *(f'permitopen="{text}"' for text in ("h:1", "h:65535", "h:*", "[::1]:80", "192.0.2.1:60000", "h" * 1024 + ":80")),
    *(f'permitlisten="{text}"' for text in ("80", "*", "h:80", "*:*", "[::1]:1", "65535")),
    *(f'environment="{text}"' for text in ("A=", "A_1=b=c", "a=b c")),
    ",".join(['environment="A=b"'] * 1025),
    *(f'tunnel="{text}"' for text in ("any", "0", "999999999")),
    f'from="192.0.2.1,{"x" * 1022}"',
]

# A code, lines of which {K} is an Ed25519 key and {R} an RSA key of 8 bits, and what is told of them by that code.
RSA = "ssh-rsa AAAAB3NzaC1yc2EAAAADAQABAAAAAgCA"
# a key, and another spelling of it: the type in its blob is ED25519
ONE = "ssh-ed25519 AAAAC3NzaC1lZDI1NTE5AAAAIAECAwQFBgcICQoLDA0ODxAREhMUFRYXGBkaGxwdHh8g"
RESPELLED = "ssh-ed25519 AAAAB0VEMjU1MTkAAAAgAQIDBAUGBwgJCgsMDQ4PEBESExQVFhcYGRobHB0eHyA="
FOUND_OF_KEYS = [
    ("F1", "{K}\nssh-dss AAAA\n", "    F1 L9: cannot be read here, and OpenSSH may read it: ssh-dss, which is retired"),
    ("F2", 'from="*" {K}\n{K}\n', "    F2 1: line 1 has the same key: where that line does not let it in, this one may"),
    ("F2", 'cert-authority {K}\ncert-authority,principals="a" {K}\n', "    F2 1: line 1 has the same key: where that line does not let it in, this one may"),
    ("F2", "{K}\n{K}\n", None),
    ("F2", "{K}\ncert-authority {K}\n", None),
    ("F3", "{K} a\n{K} b\n", "    F3 1: never decides: line 1 has the same key and lets it in first"),
    ("F3", "restrict {K}\n{K}\n", "    F3 1: never decides: line 1 has the same key and lets it in first"),
    ("F3", "restrict {K}\ncert-authority {K}\n", None),
    ("F4", "{K}\nrestrict {K}\n", "    F4 1: never decides: line 1 has the same key, lets it in first and gives more"),
    ("F4", '# c\n{K}\npermitopen="h:1" {K}\n', "    F4 2: never decides: line 2 has the same key, lets it in first and gives more"),
    ("F4", 'expiry-time="20300101Z" {K}\nrestrict {K}\n', None),
    ("F5", "{R}\n", "    F5 8: an RSA key of 8 bits is too short"),
    ("F3", 'permitopen="h:1" {K}\n{K}\n', "    F3 1: never decides: line 1 has the same key and lets it in first"),
    ("F3", 'permitopen="none" {K}\n{K}\n', None),
    ("F2", 'permitopen="none" {K}\n{K}\n', "    F2 1: line 1 has the same key: where that line does not let it in, this one may"),
    ("F2", 'principals="a" {K}\n{K}\n', "    F2 1: line 1 has the same key: where that line does not let it in, this one may"),
    ("F6", 'expiry-time="19700101000229Z" {K}\n', "    F6: has expired"),
    ("F6", 'expiry-time="19691231230229" {K}\n', "    F6: has expired"),
    ("F6", 'expiry-time="19700101000229" {K}\n', None),
    ("F6", 'expiry-time="19700101000230Z" {K}\n', None),
    ("F7", 'from="10.0.0.1/8" {K}\n', "    F7 from: lets nobody in: its from= list permits nobody"),
    ("F7", 'from="*,,10.0.0.1" {K}\n', "    F7 from: lets nobody in: its from= list permits nobody"),
    ("F7", 'from="0/0" {K}\n', HERE_ALONE),
    ("F7", 'from="10.0.0.0/08" {K}\n', HERE_ALONE),
    ("F7", 'from="10.0.0.0/8,a/b" {K}\n', HERE_ALONE),
    ("F7", 'from="a/b,10.0.0.1/8" {K}\n', "    F7 from: lets nobody in: its from= list permits nobody"),
    ("F7", 'cert-authority,principals="," {K}\n', "    F7 principals: lets nobody in: its principals= list permits nobody"),
    ("F8", 'principals="a" {K}\n', "    F8 principals: OpenSSH refuses this line: principals= stands without cert-authority"),
    ("F8", 'cert-authority,principals="a,,b" {K}\n', "    F8 empty-principal: OpenSSH reads principals= only up to its empty piece"),
    ("F8", "verify-required {K}\n", "    F8 verify-required: OpenSSH lets this key in: it ignores verify-required of a key that is no security key"),
    ("F8", 'expiry-time="20300101" {K}\n', "    F8 local-time: an expiry time without Z is in the zone of the server: give that as --zone"),
    ("F8", 'from="127.1" {K}\n', SHORT_ADDRESS),
    ("F8", 'from="!0x7f.1,*" {K}\n', SHORT_ADDRESS),
    ("F8", 'from="127.0.0.1,1.example" {K}\n', None),
    ("F8", 'from="127.1,10.0.0.1/8" {K}\n', None),
    ("F9", 'command="a" {K}\n', FORWARDS),
    ("F9", 'restrict,agent-forwarding,command="a" {K}\n', FORWARDS),
    ("F9", 'restrict,port-forwarding,no-port-forwarding,pty,command="a" {K}\n', None),
    ("F15", 'from="*" {K}\n', '    F15: good from any address: no from=, or from="*"'),
    ("F15", 'from="*,!10.0.0.1" {K}\n', None),
    ("F16", "{K}\n", "    F16: any command may be run: no command="),
    ("F17", "{K}\n", "    F17: good for ever: no expiry-time="),
    ("F18", "cert-authority {K}\n", "    F18: whoever it certifies for the user's name is let in: no principals="),
    ("F18", "{K}\n", None),
    ("F19", "{K}\n", "    F19: nothing says whose key this is: no comment"),
    ("F19", "{K} c\n", None),
    *(("F22", f"{options} {{K}}\n", f"    F22 {ground}: OpenSSH may refuse this line, and a later one then decides") for options, ground in REFUSED),
    *(("F22", f"{options} {{K}}\n", None) for options in TAKEN),
    ("F22", "{R}\n", "    F22 rsa: OpenSSH may refuse this line, and a later one then decides"),
]
HASHED_NAME = program.hashed_name("h.example", program.SALTS[:20])
TRUSTED_AND_REVOKED = "    F12 1: its key is both trusted and revoked: see line 1"
FOUND_OF_HOSTS = [
    ("F8", "@cert-authority\t*.a {K}\n", "    F8 tab: OpenSSH passes over this line: a tab follows its marker"),
    ("F8", "@revoked\t*.a {K}\n", "    F8 tab: ssh passes over this revocation: a tab follows its marker"),
    ("F8", "@revoked a ssh-rsa {K}\n".replace("{K}", program.KEY), "    F8 type: ssh passes over this revocation: its type word is not the type of its key"),
    ("F8", "@revoked a {K}\n", None),
    ("F11", "a,B {K}\nb {O}\n", "    F11 1: another key of this type for a name of line 1"),
    ("F11", "a {K}\na {K}\n", None),
    ("F12", "a {K}\n@revoked * {K}\n", "    F12 1: its key is both trusted and revoked: see line 1"),
    ("F12", "@revoked * {K}\na {K}\n", "    F12 1: its key is both trusted and revoked: see line 1"),
    ("F12", f"a {ONE}\n@revoked a {RESPELLED}\n", "    F12 spelling 1: this revocation has another spelling of the key on line 1: ssh refuses the key, and the rules here trust it"),
    ("F12", f"@revoked a {RESPELLED}\na {ONE}\n", "    F12 spelling 1: the revocation on line 1 has another spelling of this key: ssh refuses the key, and the rules here trust it"),
    ("F12", f"@revoked\ta {RESPELLED}\na {ONE}\n", None),
    ("F12", "@cert-authority * {K}\n@revoked * {K}\n", TRUSTED_AND_REVOKED),
    ("F12", "@revoked * {K}\n@cert-authority * {K}\n", TRUSTED_AND_REVOKED),
    ("F12", "@cert-authority *.a {K}\n@revoked b {K}\n", TRUSTED_AND_REVOKED),
    ("F12", f"{HASHED_NAME} {{K}}\n@revoked * {{K}}\n", TRUSTED_AND_REVOKED),
    ("F12", f"@revoked * {{K}}\n{HASHED_NAME} {{K}}\n", TRUSTED_AND_REVOKED),
    ("F12", f"@cert-authority {HASHED_NAME} {{K}}\n@revoked {HASHED_NAME} {{K}}\n", TRUSTED_AND_REVOKED),
    ("F12", "a {K}\n@revoked * {O}\n@cert-authority b {K}\n", None),
    ("F13", "!*.a,b {K}\n", None),
    ("F14", "@cert-authority *.a,** {K}\n", "    F14: an authority for every host"),
    ("F20", "a {K}\n", "    F20: its names are in clear"),
    ("F20", "@cert-authority *.a {K}\n", None),
    ("F21", "a {K}\nb {K}\n", "    F21 1: the same host key stands on line 1"),
    ("F1", f"@cert-authority * {ONE} " + 65536 * "x" + "\n", "    F1 L1: cannot be read here, and OpenSSH may read it: the line is longer than 65,536 bytes"),
    ("F22", "a\0b {K}\n", "    F22 nul: ssh may pass over this line: a NUL stands in its names, and ends the line for ssh"),
    ("F22", "a," + 1023 * "b" + " {K}\n", "    F22 long-item: ssh may pass over this line: a name of 1,023 bytes or more stands in its list, which then matches nothing"),
    ("F22", "a," + 1022 * "b" + " {K}\n", None),
    ("F22", "a {R}\n", "    F22 rsa: ssh may pass over this line: ssh reads no RSA key under 1,024 bits or over 16,384"),
]


def found_rows(audit, tally, kind, rows):
    """What is told by a code of lines that are there for it, and of lines that look like them and are not."""
    for code, text, wanted in rows:
        content = text.format(K=f"ssh-ed25519 {program.KEY}", O=f"ssh-ed25519 {program.OTHER_KEY}", R=RSA).encode()
        status, answer, _ = audit.run(review("-", kind=kind, findings=code), content)
        found = [line for line in answer.decode("ascii").split("\n") if line.startswith("    F")]
        tally.check(f"{code} of {text!r}", (status, found), (1, [wanted]) if wanted else (0, []))


# ---- keys


@dataclasses.dataclass(frozen=True)
class Key:
    """A public key: its type, its base64, its bits where it is RSA's, and the file that `admits` takes."""

    kind: str
    text: str
    bits: int | None
    file: str

    @property
    def blob(self):
        return base64.b64decode(self.text)

    @property
    def mark(self):
        return fingerprint(self.blob)


MADE = [("ed25519", None), ("ed25519", None), ("ecdsa", 256), ("ecdsa", 384), ("ecdsa", 521), ("rsa", 1024), ("rsa", 2048), ("rsa", 3072)]


def keygen(room, *words):
    return subprocess.run(["ssh-keygen", "-q", *words], cwd=room, stdout=subprocess.PIPE, stderr=subprocess.PIPE, check=True).stdout.decode()


def key_of(room, file, bits=None):
    kind, text = (room / file).read_text().split()[:2]
    return Key(kind, text, bits, file)


def make_keys(room):
    """Keys of each kind, a security key's among them, and an authority with two certificates; the files to ask by."""
    keys = []
    for number, (kind, bits) in enumerate(MADE):
        keygen(room, "-t", kind, *(["-b", str(bits)] if bits else []), "-N", "", "-C", "", "-f", f"key{number}")
        keys.append(key_of(room, f"key{number}.pub", bits if kind == "rsa" else None))
    keygen(room, "-t", "ed25519", "-N", "", "-C", "", "-f", "authority")
    keys.append(key_of(room, "authority.pub"))
    security = b"sk-ssh-ed25519@openssh.com"
    blob = string(security) + string(hashlib.sha256(b"a security key").digest()) + string(b"ssh:")
    (room / "security.pub").write_text(f"{security.decode()} {base64.b64encode(blob).decode()}\n")
    keys.append(key_of(room, "security.pub"))
    certified = []
    for number, names in ((0, "ann,bob"), (6, "eve")):
        keygen(room, "-s", "authority", "-I", "id", "-n", names, "-V", "20000101:20400101", "-O", "no-pty", f"key{number}.pub")
        certified.append(f"key{number}-cert.pub")
    return keys, [key.file for key in keys] + certified


# ---- lines, and what a review has to say of them


@dataclasses.dataclass
class Entry:
    """A line that can be read: its options as names and values in their order, its key and its comment."""

    options: list
    key: Key
    comment: bytes

    def first(self, name):
        return next((value for other, value in self.options if other == name), None)

    def has(self, name):
        return any(other == name for other, _ in self.options)

    @property
    def authority(self):
        return self.has("cert-authority")

    @property
    def rights(self):
        on = set(RIGHTS)
        names = {"port-forwarding": "port", "agent-forwarding": "agent", "X11-forwarding": "x11", "pty": "pty", "user-rc": "rc"}
        for name, _ in self.options:
            if name == "restrict":
                on = set()
            elif name in names:
                on.add(names[name])
            elif name.removeprefix("no-") in names:
                on.discard(names[name.removeprefix("no-")])
        return [word for word in RIGHTS if word in on]

    def until(self, shift):
        """The first moment of its expiry times; a clock of the zone is so many seconds ahead of UTC."""
        moments = [moment_of(value, shift) for name, value in self.options if name == "expiry-time"]
        return min(moments) if moments else None

    @property
    def grounds(self):
        """On which sshd may refuse the line."""
        found = [name for name, texts in GROUNDS.items() if any(other == name and value in texts for other, value in self.options)]
        small = self.key.bits is not None and self.key.bits < 1024
        return found + (["rsa"] if small else [])

    @property
    def free(self):
        limits = ("from", "expiry-time", *(("command", "principals") if self.authority else ()))
        plain = not self.authority and self.has("principals")
        return not any(map(self.has, limits)) and not self.grounds and not plain


def moment_of(text, shift):
    form = {8: "%Y%m%d", 12: "%Y%m%d%H%M", 14: "%Y%m%d%H%M%S"}[len(text.rstrip("Z"))]
    moment = calendar.timegm(time.strptime(text.rstrip("Z"), form))
    return moment if text.endswith("Z") else moment - shift


def is_same(one, other):
    return one.key.blob == other.key.blob and one.authority == other.authority


def is_narrower(new, old):
    """Whether a line limits its key where an earlier one does not."""
    lists = any(new.has(name) and not old.has(name) for name in ("permitopen", "permitlisten", "verify-required"))
    command = new.has("command") and new.first("command") != old.first("command")
    rights = set(old.rights) - set(new.rights)
    touch = old.has("no-touch-required") and not new.has("no-touch-required")
    return bool(new.has("from") or new.has("expiry-time") or command or rights or lists or touch)


# Lists that permit nobody: in OpenSSH too, and here alone.
REFUSED_SOURCES = ("10.0.0.1/8", "a,,b")
SOURCES_HERE = ("10.0.0.0/33", "0/0", "10.0.0.0/8,a/b")
BAD_SOURCES = REFUSED_SOURCES + SOURCES_HERE
SHORT_SOURCES = ("127.1", "*,!0x7f.1")

# The ground on which sshd refuses a line, of the values that are drawn.
GROUNDS = {"permitopen": ("none",), "permitlisten": ("h:",), "environment": ("AB",), "tunnel": ("x",)}


def pieces(text):
    return text.split(",")


def findings_of(number, entry, earlier, now, shift, minimum):
    """All that is found of an entry, and the line that lets its key in first. No zone is given where the shift is None."""
    same = [k for k, other in earlier if is_same(entry, other)]
    lists = entry.authority and entry.has("principals")
    shadow = None if lists else next((k for k, other in earlier if is_same(entry, other) and other.free), None)
    if shadow is not None:
        yield ("F4" if is_narrower(entry, dict(earlier)[shadow]) else "F3"), str(shadow)
    elif same:
        yield "F2", str(same[0])
    until, names = entry.until(shift or 0), pieces(entry.first("principals") or "")
    local = any(name == "expiry-time" and not value.endswith("Z") for name, value in entry.options)
    if entry.key.bits is not None and entry.key.bits < minimum:
        yield "F5", str(entry.key.bits)
    if until is not None and now - (3600 if local else 0) > until:
        yield "F6", ""
    if entry.first("from") in REFUSED_SOURCES:
        yield "F7", "from"
    if entry.first("from") in SOURCES_HERE:
        yield "F7", "from-here"
    if lists and not any(names):
        yield "F7", "principals"
    if not entry.authority and entry.has("principals"):
        yield "F8", "principals"
    if lists and any(names) and not all(names):
        yield "F8", "empty-principal"
    if not entry.authority and entry.has("verify-required") and not entry.key.kind.startswith("sk-"):
        yield "F8", "verify-required"
    if local and shift is None:
        yield "F8", "local-time"
    if entry.first("from") in SHORT_SOURCES:
        yield "F8", "short-address"
    if not entry.authority and entry.has("command") and {"port", "agent", "x11"} & set(entry.rights):
        yield "F9", ""
    sources = pieces(entry.first("from")) if entry.has("from") else ["*"]
    if not entry.authority and any(piece and not piece.strip("*") for piece in sources) and not any(piece.startswith("!") for piece in sources):
        yield "F15", ""
    if not entry.authority and not entry.has("command"):
        yield "F16", ""
    if not entry.authority and not entry.has("expiry-time"):
        yield "F17", ""
    if entry.authority and not entry.has("principals"):
        yield "F18", ""
    if not entry.comment:
        yield "F19", ""
    for ground in entry.grounds:
        yield "F22", ground


def shadow_of(entry, earlier):
    if entry.authority and entry.has("principals"):
        return None
    return next((k for k, other in earlier if is_same(entry, other) and other.free), None)


def told_value(entry, name):
    value = entry.first(name)
    return None if value is None else escaped(value.encode())


def quoted(value):
    return '"' + value.replace('"', '\\"') + '"'


def entry_record(file, number, entry, earlier, now, shift, minimum):
    """The record of an entry, as JSON has it."""
    options = ",".join(name if value is None else f"{name}={quoted(value)}" for name, value in entry.options)
    found = list(findings_of(number, entry, earlier, now, shift, minimum))
    idle = any(code in ("F3", "F4", "F6") or (code == "F7" and detail != "from-here") for code, detail in found)
    return {
        "file": file, "line": number, "what": "authority" if entry.authority else "key", "type": entry.key.kind, "bits": entry.key.bits,
        "key": entry.key.mark, "comment": escaped(entry.comment), "options": escaped(options.encode()),
        "rights": " ".join(entry.rights) or "none", "command": told_value(entry, "command"), "source": told_value(entry, "from"),
        "principals": told_value(entry, "principals"), "expires": entry.until(shift or 0), "shadowed_by": shadow_of(entry, earlier), "lets_in": not idle,
        "findings": [{"code": code, "detail": detail} for code, detail in found],
    }


def unreadable_record(file, number, code, held):
    """The record of a line that cannot be read, with the key that it holds all the same."""
    known = {"type": held.kind, "bits": held.bits, "key": held.mark} if held else {}
    return {field: None for field in AUTH_FIELDS} | {"file": file, "line": number, "what": "unreadable", "lets_in": True, "findings": [{"code": "F1", "detail": code}], **known}


FLAGS = [
    *("restrict", "pty", "no-pty", "port-forwarding", "no-port-forwarding", "agent-forwarding", "no-agent-forwarding"),
    *("X11-forwarding", "no-X11-forwarding", "user-rc", "no-user-rc", "no-touch-required", "verify-required"),
]
VALUES = {
    "command": ["backup", 'say "a, b"', "a\\b", "\xe4"],
    "from": ["10.0.0.0/8", "192.0.2.0/24,!192.0.2.7", "*", "**,10.1.2.3", "*.example.org", *BAD_SOURCES, *SHORT_SOURCES],
    "principals": ["ann", "ann,bob", "ann,", ",", "eve"],
    "expiry-time": ["20260101Z", "20260101", "202512312359Z", "20300101120000", "20300101120000Z"],
    "permitopen": ["localhost:80", "localhost:80", "none"], "permitlisten": ["8080", "8080", "h:"],
    "environment": ["A=b c", "A=b c", "AB"], "tunnel": ["0", "x"],
}
ONCE = ("command", "from", "principals")
COMMENTS = [b"", b"ann@laptop", b"m\xc3\xbcller \xff", b'a "quoted" \\ one', b"two  words", b"# no comment\x7f\x1b"]


def drawn_options(draw):
    """Options in a random order, and how they are spelled: some in other case."""
    options = [(draw.choice(FLAGS), None) for _ in range(draw.choice((0, 0, 0, 1, 1, 2, 4)))]
    for name in draw.sample(sorted(VALUES), draw.choice((0, 0, 0, 1, 1, 2, 3))):
        options += [(name, draw.choice(VALUES[name]))] * (1 if name in ONCE else draw.choice((1, 1, 2)))
    draw.shuffle(options)
    return options


def spelled(draw, entry):
    """A line of this entry, with blanks and cases as they come."""
    case = draw.choice((str, str, str.upper, str.lower))
    options = ",".join(case(name) if value is None else f"{case(name)}={quoted(value)}" for name, value in entry.options)
    blank = draw.choice((" ", " ", "\t", "  "))
    front = draw.choice(("", "", " ")) + (options + blank if options else "")
    line = f"{front}{entry.key.kind}{blank}{entry.key.text}".encode("utf-8")
    end = draw.choice((b"\n", b"\n", b" \n", b"\r\n"))
    return line + (b" " + entry.comment if entry.comment else b"") + end


DAMAGES = [  # the code, the line, and whether a key is held there all the same
    ("L2", "restrict,,pty {kind} {text} c", True),
    ("L2", 'command="a {kind} {text} c', False),
    ("L3", "no-ptty {kind} {text} c", True),
    ("L4", 'restrict="x" {kind} {text}', True),
    ("L4", "command {kind} {text}", True),
    ("L5", 'command="a",command="a" {kind} {text} c', True),
    ("L6", 'expiry-time="2026" {kind} {text}', True),
    ("L7", "{kind}", False),
    ("L9", "ssh-dss AAAAB3NzaC1kc3M= c", False),
    ("L10", "{kind} {cut} c", False),
    ("L12", "{other} {text} c", False),
    ("L13", "{kind}-cert-v01@openssh.com {text} c", False),
]


def damaged(draw, key):
    """A line that cannot be read: its code, its bytes, and the key that it holds all the same."""
    code, form, holds = draw.choice(DAMAGES)
    kind = "ssh-ed25519" if code == "L13" else key.kind
    other = "ssh-rsa" if key.kind != "ssh-rsa" else "ssh-ed25519"
    return code, form.format(kind=kind, text=key.text, cut=key.text[:-5], other=other).encode() + b"\n", key if holds else None


def drawn_file(draw, keys):
    """Its bytes; its entries by number; its unreadable lines by number, each with its code and the key it holds."""
    content, entries, unreadable = b"", [], {}
    few = draw.sample(keys, draw.choice((1, 2, 3, len(keys))))
    for number in range(1, draw.choice((2, 6, 12, 25))):
        what = draw.random()
        if what < 0.1:
            content += draw.choice((b"\n", b"# a comment\n", b"   \n", b"\t# x\n"))
        elif what < 0.25:
            code, line, held = damaged(draw, draw.choice(few))
            content, unreadable[number] = content + line, (code, held)
        else:
            options = drawn_options(draw)
            if draw.random() < 0.2:
                options.insert(draw.randint(0, len(options)), ("cert-authority", None))
            entry = Entry(options, draw.choice(few), draw.choice(COMMENTS))
            content += spelled(draw, entry)
            entries.append((number, entry))
    return content, entries, unreadable


# ---- what a review prints


def records_of(answer):
    """The records of each file by number, and the objects of ends and of the total, in their order."""
    lines = [json.loads(line, object_pairs_hook=list) for line in answer.decode("ascii").split("\n")[:-1]]
    objects = [{name: dict(value) if name.endswith("_by_code") else plain(value) for name, value in line} for line in lines]
    fields = [[name for name, _ in line] for line in lines]
    return objects, fields


def plain(value):
    """A value of the hook above: the findings are objects again; the codes of the total stay as they are."""
    return [one if isinstance(one, str) else dict(one) for one in value] if isinstance(value, list) else value


def wrong_fields(objects, fields, record_fields):
    for made, names in zip(objects, fields, strict=True):
        wanted = TOTAL_FIELDS if made["what"] == "total" else END_FIELDS if made["what"] == "end" else record_fields
        if names != wanted:
            yield made, names


def is_record(made):
    return "line" in made


def head_of(made):
    """The first line of a record in text, made of its JSON."""
    words = [made["what"], made["type"], made["bits"], made["key"], made["comment"] or None]
    return f"{made['file']}:{made['line']}: " + " ".join(str(word) for word in words if word is not None)


def text_lines(made):
    """The lines of a record in text, made of its JSON, without sentences; of three kinds of lines JSON has no field."""
    yield head_of(made)
    for field, word in (("rights", "rights"), ("command", "command"), ("source", "from"), ("principals", "principals"), ("names", "names")):
        if made.get(field) is not None:
            yield f"    {word} {made[field]}"
    if made.get("expires") is not None:
        moment = made["expires"]
        yield f"    expires {moment} " + time.strftime("%Y-%m-%dT%H:%M:%SZ", time.gmtime(moment))
    for found in made["findings"]:
        yield f"    {found['code']} {found['detail']}".rstrip()


def end_lines(made):
    """The end of a file, or how often each code was found and the total, made of their JSON; without sentences."""
    lines, rest = f"{made['lines']} lines, {made['key_lines']} key lines", f"{made['unreadable']} unreadable, {made['findings']} findings"
    counts = f"{lines}, {rest}"
    if made["what"] == "total":
        distinct = "more than 65536" if made["distinct_keys"] is None else made["distinct_keys"]
        counts = f"{lines}, {distinct} distinct keys, {rest}"
        found = [f"{code}: {made['findings_by_code'][code]}" for code in WORST_FIRST if code in made["findings_by_code"]]
        return [*found, f"total: {made['files']} files, {made['faults']} faults, {counts}, {asked_at(made['now'], made['zone'])}"]
    why = f": {made['why']}" if made["why"] else ""
    return [f"{made['file']}: fault {made['fault']}{why}" if made["fault"] else f"{made['file']}: {counts}, sha256 {made['sha256']}"]


LEFT_OUT = re.compile(r"    (carry .*|no-touch-required|verify-required|in ssh it counts for these names alone)")
FOUND = re.compile(r"(    F\d+(?: [^:]+)?): .*|(F\d+: \d+), .*")


def same_text(objects, text):
    """The lines of the text form that JSON does not give, and those that it gives and the text has not."""
    lines = [found[1] or found[2] if (found := FOUND.fullmatch(line)) else line for line in text.decode("ascii").split("\n")[:-1] if not LEFT_OUT.fullmatch(line)]
    wanted = [line for made in objects for line in (text_lines(made) if is_record(made) else end_lines(made))]
    return next(((a, b) for a, b in zip([*lines, None], [*wanted, None]) if a != b), None)


def counted(objects, contents):
    """Whether ends and the total count what stands before them; the wrong ones."""
    sums, here, number, codes, keys = {"files": 0, "faults": 0, "lines": 0, "key_lines": 0, "unreadable": 0, "findings": 0}, [], 0, [], set()
    for made in objects:
        if is_record(made):
            here.append(made)
            codes += [found["code"] for found in made["findings"]]
        elif made["what"] == "end":
            content = contents[made["file"]]
            wanted = {
                "lines": content.count(b"\n") + (content[-1:] not in (b"", b"\n")), "key_lines": sum(one["what"] in ("key", "authority") for one in here),
                "unreadable": sum(one["what"] in ("unreadable", "revocation-unreadable") for one in here), "findings": sum(len(one["findings"]) for one in here),
            }
            if wanted != {name: made[name] for name in wanted} or made["sha256"] != hashlib.sha256(content).hexdigest() or any(one["file"] != made["file"] for one in here):
                yield made, wanted
            sums["files"] += 1
            for name, count in wanted.items():
                sums[name] += count
            keys |= {one["key"] for one in here if one["what"] in ("key", "authority")}
            here = []
        else:
            number += 1
            by_code = [(code, codes.count(code)) for code in sorted(set(codes), key=lambda code: int(code[1:]))]
            sums["distinct_keys"] = len(keys) if len(keys) <= 65_536 else None
            if {name: made[name] for name in sums} != sums or made["format"] != 2 or list(made["findings_by_code"].items()) != by_code:
                yield made, sums, by_code
    if number != 1 or objects[-1]["what"] != "total":
        yield "the total", number


# ---- random files

ADMITS = re.compile(r"(.+): admits by line (\d+), if the .* good")
DENIES = re.compile(r"(.+): does not admit: (N\d)\b.*")
PASSED_OVER = re.compile(r"    (\d+) G1 ([^:]+): .*")
GIVEN = re.compile(r"    (rights|command|carry) .*")


def admissions(text):
    """Of each file: the line that lets the key in, or the cause; the lines that tell what it may; the lines that cannot
    be read, with their codes."""
    found = []
    for line in text.decode("ascii").split("\n")[:-1]:
        head = ADMITS.fullmatch(line) or DENIES.fullmatch(line)
        if head:
            found.append((head[1], head[2], [], {}))
        elif GIVEN.fullmatch(line):
            found[-1][2].append(line)
        elif gone := PASSED_OVER.fullmatch(line):
            found[-1][3][int(gone[1])] = gone[2]
    return found


def wrong_admission(answer, records, given, certified):
    """What is wrong with the record of the line by which a key got in, or with the unreadable ones before it."""
    file, said, told, unread = answer
    here = records[file]
    last = int(said) if said.isdigit() else len(here) + 10_000
    calls = {number: made["findings"][0]["detail"] for number, made in here.items() if made["what"] == "unreadable" and number < last}
    if (said.isdigit() or said == "N3") and len(calls) <= 50 and calls != unread:
        return "unreadable lines", calls, unread
    if not said.isdigit():
        return None
    made = here.get(last)
    if made is None or made["what"] not in ("key", "authority") or made["shadowed_by"] is not None:
        return "no line that lets in", made
    if {found["code"] for found in made["findings"]} & {"F1", "F3", "F4", "F6", "F7"}:
        return "a line that lets nobody in", made
    rights = told[0].removeprefix("    rights").split()
    if certified:
        return None if made["what"] == "authority" and set(rights) <= set(made["rights"].split()) else ("rights", made, told)
    listed = given[file, last]
    wanted = [line.replace("    rights none", "    rights") for line in listed]
    return None if made["what"] == "key" and [line.rstrip() for line in told] in (wanted, listed) else ("rights", listed, told)


def given_lines(text):
    """Of each record in the text form, the lines that tell what the key may."""
    found, place = {}, None
    for line in text.decode("ascii").split("\n"):
        if head := re.match(r"([^ ].*):(\d+): ", line):
            place = found[head[1], int(head[2])] = []
        elif GIVEN.fullmatch(line) and place is not None:
            place.append(line)
    return found


def listed_by_keygen(room, name):
    ran = subprocess.run(["ssh-keygen", "-l", "-f", name], cwd=room, stdout=subprocess.PIPE, stderr=subprocess.DEVNULL, check=False)
    return {line.split()[1].decode() for line in ran.stdout.splitlines() if line.count(b" ") > 1}


def by_file(objects):
    found = {}
    for made in objects:
        if is_record(made):
            found.setdefault(made["file"], {})[made["line"]] = made
        elif made["what"] == "end":
            found.setdefault(made["file"], {})
    return found


def reviewed(audit, tally, what, names, contents, record_fields, **asked):
    """Each form of a review of these files, after its own checks: the records, and the text."""
    objects, fields = records_of(audit.run(review(*names, form="json", findings="all", **asked))[1])
    status, text, errors = audit.run(review(*names, findings="all", **asked))
    told = any(made.get("findings") for made in objects)
    tally.check(f"{what}: status", (status, errors), (1 if told else 0, b""))
    tally.check(f"{what}: fields", list(wrong_fields(objects, fields, record_fields))[:1], [])
    tally.check(f"{what}: both forms", same_text(objects, text), None)
    table_row(audit, tally, what, names, "auth" if record_fields is AUTH_FIELDS else "known", findings="all", **{name: value for name, value in asked.items() if name != "kind"})
    tally.check(f"{what}: counts", list(counted(objects, contents))[:1], [])
    return objects, text


def standing_row(audit, tally, what, names, keys, objects, **asked):
    """By its fingerprint, each key has the records that the whole review has of it, and no others."""
    wrong, stood = [], 0
    for key in keys:
        status, answer, errors = audit.run(review(*names, form="json", findings="all", key=key.mark, **asked))
        found = [made for made in records_of(answer)[0] if is_record(made)]
        wanted = [made for made in objects if is_record(made) and made["key"] == key.mark]
        stood += len(wanted)
        if (status, found, errors) != (1 if wanted else 0, wanted, b""):
            wrong.append((key.mark, status, len(found), len(wanted)))
    tally.check(f"{what}: {stood} records, each by its key", (wrong[:1], stood > 0), ([], True))


def fingerprint_row(audit, tally, what, names, objects):
    """Whatever ssh-keygen lists of a file is in a record of it."""
    records, listed, missing = by_file(objects), 0, []
    for name in names:
        found = listed_by_keygen(audit.room, name)
        listed += len(found)
        missing += [(name, mark) for mark in found - {made["key"] for made in records[name].values()}]
    tally.check(f"{what}: of {listed} fingerprints of ssh-keygen, none is missing", missing[:1], [])


def model_row(tally, what, objects, files, now, shift=None, minimum=2048):
    """Each record is the one that the model expects."""
    wanted = []
    for name, (_, entries, unreadable) in files.items():
        records = {number: entry_record(name, number, entry, entries[:place], now, shift, minimum) for place, (number, entry) in enumerate(entries)}
        records |= {number: unreadable_record(name, number, *rest) for number, rest in unreadable.items()}
        wanted += [records[number] for number in sorted(records)]
    found = [made for made in objects if is_record(made)]
    wrong = next(((a, b) for a, b in zip([*found, None], [*wanted, None]) if a != b), None)
    tally.check(f"{what}: records as the model has them", wrong, None)


def admission_row(audit, tally, what, names, asking, records, given, now):
    """Whoever gets in, gets in by a line of the review."""
    wrong, grants = [], 0
    for key in asking:
        for address in ("192.0.2.1", "10.1.2.3"):
            words = ["admits", "--key", key, "--user", "ann", "--address", address, "--host", "h.example.org", "--now", str(now), *names]
            answers = admissions(audit.run(words)[1])
            if [answer[0] for answer in answers] != list(names):
                wrong.append((key, "not all files are answered"))
                continue
            grants += sum(answer[1].isdigit() for answer in answers)
            wrong += [(key, now, answer, bad) for answer in answers if (bad := wrong_admission(answer, records, given, "-cert" in key))]
    tally.check(f"{what}: {grants} admissions", (wrong[:1], grants > 0), ([], True))


def mutated(draw, content):
    data = bytearray(content)
    for _ in range(draw.randint(1, 6)):
        at = draw.randint(0, len(data))
        if draw.random() < 0.5:
            data[at : at + draw.choice((0, 1, 5))] = draw.choice((b"\n", b" ", b",", b'"', b"\\", b"\0", b"=", b"\r\n", b"\xff", b"#", b"restrict,"))
        else:
            del data[at : at + draw.choice((1, 2, 30))]
    return bytes(data)


def auth_rows(audit, tally, draw, count):
    """Random authorized_keys files, at several times; then the same files with bytes changed."""
    keys, asking = make_keys(audit.room)
    files = {f"r{number}": drawn_file(draw, keys) for number in range(count)}
    changed = {f"m{number}": (mutated(draw, files[f"r{number}"][0]), None, None) for number in range(count)}
    for name, (content, *_) in (files | changed).items():
        (audit.room / name).write_bytes(content)
    for made in (files, changed):
        contents = {name: content for name, (content, *_) in made.items()}
        for now in TIMES:
            what = f"{'files' if made is files else 'changed files'} at {now}"
            objects, text = reviewed(audit, tally, what, list(made), contents, AUTH_FIELDS, now=now)
            if made is files:
                model_row(tally, what, objects, files, now)
            if now in TIMES[1:3]:
                admission_row(audit, tally, what, list(made), asking, by_file(objects), given_lines(text), now)
        fingerprint_row(audit, tally, what, list(made), objects)
        standing_row(audit, tally, what, list(made), keys, objects, now=now)
    contents = {name: content for name, (content, *_) in files.items()}
    asked = {"now": NEW_YEAR - 3600, "zone": "CET-1", "rsa_minimum": 3073}
    objects, _ = reviewed(audit, tally, "another zone", list(files), contents, AUTH_FIELDS, **asked)
    model_row(tally, "another zone", objects, files, NEW_YEAR - 3600, shift=3600, minimum=3073)
    told_rows(audit, tally, list(files), objects, asked)
    fail_rows(audit, tally, "files", list(files), **asked)
    for name in list(files)[:8]:
        fail_rows(audit, tally, f"the file {name}", [name], **asked)
    for listed in (None, "none", "all", "F9"):
        shown_rows(audit, tally, f"findings {listed}", list(files), findings=listed, **asked)
    zone_row(audit, tally, list(files), objects, asked)


def told_rows(audit, tally, names, everything, asked):
    """A list of findings leaves out the others, and nothing else."""
    default = [*(f"F{number}" for number in range(1, 15)), "F22"]
    for listed, told in ((None, default), ("none", []), ("F9", ["F9"]), ("F19,F1,F4,F4", ["F1", "F4", "F19"]), (",".join(default), default), ("F21", [])):
        status, answer, _ = audit.run(review(*names, form="json", findings=listed, **asked))
        objects, _ = records_of(answer)
        wanted = [{**made, "findings": [found for found in made["findings"] if found["code"] in told]} for made in everything if is_record(made)]
        count = sum(len(made["findings"]) for made in wanted)
        tally.check(f"findings {listed}", ([made for made in objects if is_record(made)] == wanted, objects[-1]["findings"], status), (True, count, 1 if count else 0))


def is_found(made):
    """A record of a line with a finding, or that cannot be read."""
    return bool(made["findings"]) or made["what"] in ("unreadable", "revocation-unreadable")


def fail_rows(audit, tally, what, names, **asked):
    """The status is 1 where a finding with a code of `--fail-on` is reported, and nothing else depends on it."""
    objects, _ = records_of(audit.run(review(*names, form="json", findings="all", **asked))[1])
    told = {found["code"] for made in objects if is_record(made) for found in made["findings"]}
    whole = audit.run(review(*names, findings="all", **asked))[1]
    every = [f"F{number}" for number in range(1, 23)]
    for listed in ("all", "none", *every, ",".join(every[1::2]), ",".join(code for code in every if code not in told) or "none"):
        fails = bool(told) if listed == "all" else bool(told & set(listed.split(",")))
        tally.check(f"{what}: fails on {listed}", audit.run(review(*names, findings="all", fail_on=listed, **asked)), (int(fails), whole, b""))
    for code in sorted(told):
        listed = ",".join({*every} - {code})
        found = [audit.run(review(*names, findings=listed, fail_on=one, **asked))[0] for one in (listed, code)]
        tally.check(f"{what}: {code} is not reported", found, [int(told != {code}), 2])
    tally.check(f"{what}: fails, and a fault", audit.run(review(*names, "missing", findings="all", fail_on="all", **asked))[0], 2)


SHOWN = {
    "all": lambda made: True,
    "found": lambda made: not is_record(made) or is_found(made),
    "totals": lambda made: made["what"] == "total" or not is_record(made) and made["fault"] is not None,
}


def parts_of(text):
    """The text of each record, of each end, and of the total with the codes before it."""
    return re.findall(rb"(?:F\d+: \d+, .*\n)*[^ ].*\n(?:    .*\n)*", text)


def shown_rows(audit, tally, what, names, **asked):
    """`--show` leaves out records and ends, and nothing else: the counts and the status stay."""
    for form in ("text", "json", "line"):
        for given in (names, [*names, "missing"], ["missing"]):
            objects, _ = records_of(audit.run(review(*given, form="json", **asked))[1])
            status, whole, _ = audit.run(review(*given, form=form, **asked))
            parts = parts_of(whole) if form == "text" else whole.splitlines(keepends=True)
            header = parts.pop(0) if form == "line" else b""
            for show, keeps in SHOWN.items():
                wanted = header + b"".join(part for part, made in zip(parts, objects) if keeps(made))
                found = audit.run(review(*given, form=form, show=show, **asked))[:2]
                tally.check(f"{what}: {show} of {len(given)} files as {form}", (len(parts), found), (len(objects), (status, wanted)))


def zone_row(audit, tally, names, objects, asked):
    """Of the same zone that is this machine's, and was not given, the times without Z are told beside, and nothing else changes."""
    records = [made for made in objects if is_record(made)]
    made_here, _ = records_of(audit.run(review(*names, form="json", findings="all", **{**asked, "zone": f"local:{asked['zone']}"}))[1])
    here = [made for made in made_here if is_record(made)]
    more = [found for made in here for found in made["findings"] if found["detail"] == "local-time"]
    rest = [{**made, "findings": [found for found in made["findings"] if found["detail"] != "local-time"]} for made in here]
    tally.check(f"the zone of this machine: {len(more)} times without Z", (rest == records, bool(more), made_here[-1]["zone"]), (True, True, asked["zone"]))


# ---- names, limits, faults

KEY_LINE = f"ssh-ed25519 {program.KEY} me\n".encode()
KEY_MARK = "SHA256:kmYcvdi2GkPeWxB6XLjrZB8JHsy2Hm8luHMFp9GMvqk"


def key_text(name, number=1):
    return f"{name}:{number}: key ssh-ed25519 {KEY_MARK} me\n    rights port agent x11 pty rc\n"


def end_text(name, content, lines=1, keys=1, unreadable=0, findings=0):
    return f"{name}: {lines} lines, {keys} key lines, {unreadable} unreadable, {findings} findings, sha256 {hashlib.sha256(content).hexdigest()}\n"


def total_text(files, faults=0, lines=0, keys=0, unreadable=0, found=None):
    """How often these codes were found, and the total. All key lines have one key."""
    counts = f"{lines} lines, {keys} key lines, {min(keys, 1)} distinct keys, {unreadable} unreadable, {sum((found or {}).values())} findings"
    return found_text(found or {}) + f"total: {files} files, {faults} faults, {counts}, {asked_at()}\n"


ONE = key_text("key") + end_text("key", KEY_LINE)
EMPTY = end_text("empty", b"", 0, 0)


def name_rows(audit, tally):
    """Names of files: standard input twice, one that is missing, a folder, one with a line break, UTF-8, bytes that are
    none, one twice."""
    room = audit.room
    for name, content in (("key", KEY_LINE), ("empty", b""), ("a\nb", KEY_LINE), ("\u00e9\\", KEY_LINE)):
        (room / name).write_bytes(content)
    with open(os.fsencode(room) + b"/\xff", "wb") as other:
        other.write(KEY_LINE)
    for what, names, wanted, status, given in (
        ("a file", ["key"], ONE + total_text(1, 0, 1, 1), 0, b""),
        ("a file twice", ["key", "key"], 2 * ONE + total_text(2, 0, 2, 2), 0, b""),
        ("an empty file", ["empty"], EMPTY + total_text(1), 0, b""),
        ("standard input twice", ["-", "-"], key_text("-") + end_text("-", KEY_LINE) + end_text("-", b"", 0, 0) + total_text(2, 0, 1, 1), 0, KEY_LINE),
        ("no LF at the end", ["-"], key_text("-") + end_text("-", KEY_LINE[:-1]) + total_text(1, 0, 1, 1), 0, KEY_LINE[:-1]),
        ("a missing file first", ["missing", "key"], "missing: fault A9: not found\n" + ONE + total_text(2, 1, 1, 1), 2, b""),
        ("a missing file last", ["key", "missing"], ONE + "missing: fault A9: not found\n" + total_text(2, 1, 1, 1), 2, b""),
        ("a folder", [".", "key"], ".: fault A9: a folder\n" + ONE + total_text(2, 1, 1, 1), 2, b""),
        ("a file without an end", ["/dev/zero", "key"], "/dev/zero: fault A7\n" + ONE + total_text(2, 1, 1, 1), 2, b""),
        ("a line break in a name", ["a\nb"], key_text("a\\x0ab") + end_text("a\\x0ab", KEY_LINE) + total_text(1, 0, 1, 1), 0, b""),
        ("a missing name with a line break", ["c\nd: 9 lines"], "c\\x0ad: 9 lines: fault A9: not found\n" + total_text(1, 1), 2, b""),
        ("UTF-8 and a backslash in a name", ["\u00e9\\"], key_text("\\xc3\\xa9\\x5c") + end_text("\\xc3\\xa9\\x5c", KEY_LINE) + total_text(1, 0, 1, 1), 0, b""),
    ):
        tally.check(f"names: {what}", audit.run(review(*names), given), (status, wanted.encode(), b""))
    tally.check("names: bytes that are no UTF-8", audit.run(review(b"\xff")), (2, b"fault usage\n", HINT))
    _, answer, _ = audit.run(review("a\nb", "\u00e9\\", form="json"))
    objects, _ = records_of(answer)
    tally.check("names in JSON", [made["file"] for made in objects if is_record(made)], ["a\\x0ab", "\\xc3\\xa9\\x5c"])
    objects, _ = records_of(audit.run(review("missing", "key", "/dev/zero", ".", form="json"))[1])
    tally.check("faults by their codes", (objects[-1]["faults"], list(objects[-1]["faults_by_code"].items())), (3, [("A7", 1), ("A9", 2)]))


def many_rows(audit, tally):
    """A file of 101 findings: none is left out. Ten thousand keys of one file, all of them repeated."""
    content = 101 * b"ssh-dss AAAA\n"
    (audit.room / "many").write_bytes(content)
    status, answer, _ = audit.run(review("many"))
    text = answer.decode()
    wanted = end_text("many", content, 101, 0, 101, 101) + total_text(1, 0, 101, 0, 101, {"F1": 101})
    tally.check("101 findings", (status, text.count("\n    F1 L9: "), text[-len(wanted) :]), (1, 101, wanted))
    content = 10_000 * (b"restrict,pty " + KEY_LINE)
    (audit.room / "many").write_bytes(content)
    status, answer, _ = audit.run(review("many"))
    tally.check("10,000 lines of one key", (status, answer.count(b"\n    F3 1: "), answer.endswith(total_text(1, 0, 10_000, 10_000, 0, {"F3": 9_999}).encode())), (1, 9_999, True))


def size_rows(audit, tally):
    """A file at the limit, and one byte past it, of which nothing but the fault is told."""
    content = (KEY_LINE + (b"#" + b"x" * 998 + b"\n") * (FILE_LIMIT // 1000 + 1))[: FILE_LIMIT + 1]
    (audit.room / "large").write_bytes(content[:-1])
    lines = content[:-1].count(b"\n") + (content[-2:-1] != b"\n")
    wanted = key_text("large") + end_text("large", content[:-1], lines) + total_text(1, 0, lines, 1)
    tally.check(f"a file of {FILE_LIMIT} bytes", audit.run(review("large")), (0, wanted.encode(), b""))
    (audit.room / "large").write_bytes(content)
    wanted = "large: fault A7\n" + ONE + total_text(2, 1, 1, 1)
    tally.check(f"a file of {FILE_LIMIT + 1} bytes", audit.run(review("large", "key")), (2, wanted.encode(), b""))
    tally.check("the same in a pipe", audit.run(review("-", "key"), content), (2, wanted.replace("large", "-").encode(), b""))
    (audit.room / "large").unlink()


def fault_rows(audit, tally):
    """Values that cannot be read; of several, the first in the order of the options is told. Words that are none."""
    values = {
        "kind": ["", "auths", "AUTH", "key"], "now": ["", "-", "1.5", "18446744073709551616", "1 "], "zone": ["", "x", "Europe/Nowhere", "/usr/share/zoneinfo/Europe/Berlin", "Europe/../Europe/Berlin",
                 "local:", "local:x", "local:Europe/Berlin", "Local:UTC0"],
        "rsa-minimum": ["", "x", "4294967296"], "form": ["", "tsv", "JSON"], "show": ["", "ALL", "none", "found,totals", "total"],
        "key": ["SHA256:", "SHA256:x", "SHA256:" + 43 * "/"],
        "fail-on": ["", ",", "F1,,F2", "F1,", "F0", "F23", "f1", "all,F1", "NONE"],
        "findings": ["", ",", "F1,,F2", "F1,", ",F1", "F0", "F23", "F01", "f1", "F", "F1 ,F2", "all,F1", "none,none", "ALL"],
    }
    for option, wrong in values.items():
        for value in wrong:
            given = {option.replace("-", "_"): value}
            tally.check(f"--{option} {value!r}", audit.run(review("key", **given)), (2, f"fault value {option}\n".encode(), b""))
    order = ["kind", "now", "zone", "rsa-minimum", "findings", "form", "key"]
    for place, option in enumerate(order):
        given = {name.replace("-", "_"): "SHA256:x y" for name in order[place:]}
        tally.check(f"the first of several: {option}", audit.run(review("missing", **given)), (2, f"fault value {option}\n".encode(), b""))
    for what, words in (
        ("no kind", review("key", kind=None)), ("an option twice", review("key", now=1) + ["--now", "1"]),
        ("a code that is not reported", review("key", fail_on="F1,F15")), ("all of which some are not reported", review("key", fail_on="all")),
        ("a code where none is reported", review("key", findings="none", fail_on="F1")), ("a code and a key", review("key", fail_on="F1", key="key")),
        ("what is shown of one key", review("key", show="all", key="key")), ("an unknown option", review("key", soon=1)), ("a file by an option", review("key", file="key")), ("help", ["review", "--help"]),
    ):
        tally.check(f"usage: {what}", audit.run(words), (2, b"fault usage\n", HINT))
    for listed in ("all", "none", ",".join(f"F{number}" for number in range(22, 0, -1)), "F1,F1"):
        status = 1 if listed == "all" or "F15" in listed else 0
        tally.check(f"--findings {listed}", audit.run(review("key", findings=listed))[0], status)
    for asked in ({"rsa_minimum": 4294967295}, {"now": 18446744073709551615}, {"zone": "EST5EDT,M3.2.0,M11.1.0"}, {"zone": "local:UTC0"}):
        tally.check(f"a good value: {asked}", audit.run(review("key", **asked))[0], 0)


def writer_rows(audit, tally):
    """Writers that fail: the status is 2."""
    for name in ("key", "many"):
        with open("/dev/full", "wb") as full:
            tally.check(f"a full device: {name}", audit.status(review(name), full), (2, b""))
        write = program.closed_pipe()
        tally.check(f"a closed pipe: {name}", audit.status(review(name), write), (2, b""))
        os.close(write)


# ---- lines of known_hosts, and what a review has to say of them

ITEMS = ["h.example", "H.example", "g.example", "192.0.2.7", "[h.example]:2222", "*.example", "!h.example", "*", "2001:db8::7", "h?.example"]
HASHED = [program.hashed_name(name, program.SALTS[:20]) for name in ("h.example", "g.example")]
ODD_ITEMS = ["h\0.example", "x" * 1023, "x" * 1022]
BLANKS = (" ", " ", "  ", " \t", "\t")


@dataclasses.dataclass
class HostEntry:
    """A line that trusts a key: whether it marks an authority, what stands after the marker, its names, its key and its
    comment."""

    authority: bool
    blank: str
    names: str
    key: Key
    comment: bytes

    @property
    def items(self):
        """The names one by one, none where they are hashed."""
        return [] if self.names.startswith("|") else self.names.lower().split(",")

    @property
    def bytes(self):
        marker = f"@cert-authority{self.blank}" if self.authority else ""
        return f"{marker}{self.names} {self.key.kind} {self.key.text}".encode() + (b" " + self.comment if self.comment else b"")


@dataclasses.dataclass
class Revocation:
    """A line that revokes bytes: what stands after its marker, its names, its type word, the bytes, and the key that
    OpenSSH reads there, if it reads one."""

    blank: str
    names: str
    word: str
    blob: bytes
    read: Key | None

    @property
    def spelled(self):
        """The blob of the key that OpenSSH reads, where the bytes spell that key otherwise."""
        return self.read.blob if self.read and self.read.blob != self.blob and not self.blank.startswith("\t") else None

    @property
    def bytes(self):
        return f"@revoked{self.blank}{self.names} {self.word} {base64.b64encode(self.blob).decode()}".encode()


@dataclasses.dataclass
class UnreadHost:
    """A line that cannot be read: its bytes, its cause where it is told, whether it may revoke any key, and the key that
    OpenSSH reads there, if it reads one."""

    bytes: bytes
    cause: str | None
    unreadable_revocation: bool
    held: Key | None


def is_plain(item):
    return not item.startswith("!") and not {"*", "?"} & set(item)


def is_pattern(item):
    return not item.startswith("!") and not is_plain(item)


def first_of(earlier, kind, holds):
    """The number of the first earlier line of this kind for which this holds."""
    return next((number for number, line in earlier if isinstance(line, kind) and holds(line)), None)


def by_line(code, number, before=""):
    """What is told of another line, if there is one."""
    return [] if number is None else [(code, f"{before}{number}")]


def refusals_of(entry):
    """Why OpenSSH may pass over an entry."""
    bits = entry.key.bits
    grounds = {"nul": "\0" in entry.names, "long-item": any(len(item) > 1022 for item in entry.items), "rsa": bits is not None and bits < 1024}
    return [("F22", ground) for ground, holds in grounds.items() if holds]


def found_of_entry(entry, earlier, minimum):
    blob, plain = entry.key.blob, set(filter(is_plain, entry.items))
    other = lambda line: not line.authority and line.key.kind == entry.key.kind and line.key.blob != blob and bool(plain & set(line.items))
    found = [("F5", str(entry.key.bits))] if entry.key.bits is not None and entry.key.bits < minimum else []
    found += [("F8", "tab")] if entry.authority and entry.blank.startswith("\t") else []
    found += [] if entry.authority else by_line("F11", first_of(earlier, HostEntry, other))
    found += by_line("F12", first_of(earlier, Revocation, lambda line: line.blob == blob))
    found += by_line("F12", first_of(earlier, Revocation, lambda line: line.spelled == blob), "spelling ")
    found += [("F13", "")] if not entry.authority and any(map(is_pattern, entry.items)) else []
    found += [("F14", "")] if entry.authority and any(not item.strip("*") for item in entry.items) else []
    found += [("F20", "")] if not entry.authority and entry.items else []
    found += by_line("F21", first_of(earlier, HostEntry, lambda line: line.key.blob == blob and line.authority == entry.authority))
    return found + refusals_of(entry)


def found_of_revocation(line, earlier):
    other_type = line.read is None and not line.blob.startswith(string(line.word.encode()))
    found = [("F8", "tab")] if line.blank.startswith("\t") else []
    found += [("F8", "type")] if other_type else []
    found += by_line("F12", first_of(earlier, HostEntry, lambda entry: entry.key.blob == line.blob))
    return found + by_line("F12", first_of(earlier, HostEntry, lambda entry: entry.key.blob == line.spelled), "spelling ")


def host_record(file, number, line, earlier, minimum):
    """The record of a line of known_hosts, as JSON has it."""
    key, told = None, {}
    if isinstance(line, HostEntry):
        kind, key, found = ("authority" if line.authority else "key"), line.key, found_of_entry(line, earlier, minimum)
        told = {"comment": escaped(line.comment), "names": escaped(line.names.encode())}
    elif isinstance(line, Revocation):
        kind, found = "revoked", found_of_revocation(line, earlier)
        told = {"key": fingerprint(line.blob), "names": escaped(line.names.encode())}
    else:
        kind, key = ("revocation-unreadable" if line.unreadable_revocation else "unreadable"), line.held
        found = [("F1", line.cause)] * (line.cause is not None) + [("F10", "")] * line.unreadable_revocation
    told |= {"type": key.kind, "bits": key.bits, "key": key.mark} if key else {}
    findings = [{"code": code, "detail": detail} for code, detail in found]
    return {field: None for field in KNOWN_FIELDS} | {"file": file, "line": number, "what": kind, "findings": findings} | told


def host_model_row(tally, what, objects, files, minimum=2048):
    """Each record of known_hosts files is the one that the model expects."""
    wanted = []
    for name, (_, lines) in files.items():
        wanted += [host_record(name, number, line, lines[:place], minimum) for place, (number, line) in enumerate(lines)]
    found = [made for made in objects if is_record(made)]
    wrong = next(((a, b) for a, b in zip([*found, None], [*wanted, None]) if a != b), None)
    tally.check(f"{what}: records as the model has them", wrong, None)


HOST_DAMAGES = [  # the cause, whether the line may revoke any key, the line, and whether OpenSSH reads its key there
    ("L7", False, "{names} {kind}", False),
    ("L7", False, "@cert-authority {names} {kind}", False),
    ("L8", False, "{names} frob {text}", False),
    ("L9", False, "{names} ssh-dss AAAAB3NzaC1kc3M=", False),
    ("L10", False, "{names} {kind} {cut} c", False),
    ("L12", False, "{names} {other} {text} c", False),
    ("L13", False, "{names} {kind}-cert-v01@openssh.com {text}", False),
    ("L14", False, "@frob {names} {kind} {text}", True),
    ("L15", False, "|1|x|y {kind} {text}", True),
    ("L16", False, "{names}, {kind} {text}", True),
    ("L16", False, "@cert-authority\t!,{names} {kind} {text} c", True),
    (None, True, "@revoked", False),
    (None, True, "@revoked {names}", False),
    (None, True, "@revoked {names} {kind}", False),
    (None, True, "@revoked\t{names} {kind} {cut}", False),
    ("L1", True, "{names} {kind} {text} {long}", True),
    ("L1", True, "@revoked {names} {kind} {text} {long}", True),
    ("L1", True, "# {long}", False),
]


def damaged_host(draw, key):
    cause, unreadable_revocation, form, holds = draw.choice(HOST_DAMAGES)
    names, other = draw.choice(ITEMS), "ssh-rsa" if key.kind != "ssh-rsa" else "ssh-ed25519"
    line = form.format(names=names, kind=key.kind, text=key.text, cut=key.text[:-5], other=other, long=65_536 * "x")
    return UnreadHost(line.encode(), cause, unreadable_revocation, key if holds else None)


def drawn_names(draw):
    if draw.random() < 0.2:
        return draw.choice(HASHED)
    odd = draw.sample(ODD_ITEMS, 1) if draw.random() < 0.05 else []
    return ",".join(draw.sample(ITEMS, draw.choice((1, 1, 2, 3))) + odd)


def respelled(key):
    """A blob that OpenSSH reads as this key: of RSA with one byte 00 more, of Ed25519 by a short name of its type."""
    if key.kind == "ssh-ed25519":
        return string(b"ED25519") + key.blob[15:]
    exponent = key.blob[15 : 15 + int.from_bytes(key.blob[11:15], "big")]
    return string(b"ssh-rsa") + string(b"\0" + exponent) + key.blob[15 + len(exponent) :]


def drawn_revocation(draw, key):
    """A revocation of the key, of another spelling of it, of its bytes by a wrong type, or of bytes that are no key."""
    other = "ssh-rsa" if key.kind != "ssh-rsa" else "ssh-ed25519"
    said = [(key.kind, key.blob, key)] * 4 + [(other, key.blob, None), ("frob", b"\0\1\2\3", None), (key.kind, key.blob[:-1], None)]
    said += [(key.kind, respelled(key), key)] * 4 if key.kind in ("ssh-rsa", "ssh-ed25519") else []
    names = draw.choice(HASHED) if draw.random() < 0.2 else draw.choice(ITEMS)
    return Revocation(draw.choice(BLANKS), names, *draw.choice(said))


def drawn_hosts(draw, keys):
    """The bytes of a known_hosts file, and its lines by number, but for blank lines and comments."""
    content, lines, few = b"", [], draw.sample(keys, draw.choice((2, 4, len(keys))))
    for number in range(1, draw.choice((2, 6, 13))):
        what, key = draw.random(), draw.choice(few)
        if what < 0.08:
            content += draw.choice((b"# a comment", b"", b" \t# x", b"  "))
        else:
            if what < 0.2:
                line = damaged_host(draw, key)
            elif what < 0.35:
                line = drawn_revocation(draw, key)
            else:
                line = HostEntry(draw.random() < 0.2, draw.choice(BLANKS), drawn_names(draw), key, draw.choice(COMMENTS))
            content += draw.choice((b"", b"", b" ")) + line.bytes
            lines.append((number, line))
        content += draw.choice((b"\n", b"\n", b"\r\n"))
    return content, lines


# ---- known_hosts files

TRUSTS = re.compile(r"(.+): trusts by line (\d+), if the .* good")
MISTRUSTS = re.compile(r"(.+): does not trust: (N\d)(?: (\d+))?: .*")


def is_doubted(found):
    """A finding of a line that trusts no host here."""
    return found["code"] in ("F1", "F10") or found["code"] == "F12" and not found["detail"].startswith("spelling ")


def wrong_trust(line, records):
    """What is wrong with the record of the line by which a host is trusted, or that revokes its key."""
    if found := TRUSTS.fullmatch(line):
        here, made = records[found[1]], records[found[1]].get(int(found[2]))
        unreadable_revocation = [one for one in here.values() if one["what"] == "revocation-unreadable"]
        good = made is not None and made["what"] in ("key", "authority") and not unreadable_revocation and not any(map(is_doubted, made["findings"]))
        return None if good else (line, made, unreadable_revocation)
    if (found := MISTRUSTS.fullmatch(line)) and found[2] in ("N1", "N2"):
        made = records[found[1]].get(int(found[3]))
        return None if made and made["what"] == ("revoked" if found[2] == "N1" else "revocation-unreadable") else (line, made)
    return None


def known_rows(audit, tally, draw, count):
    """The worked file; random known_hosts files, and the hosts that are trusted by them."""
    (audit.room / "known").write_text(HOSTS)
    for form, wanted in (("text", HOSTS_TEXT), ("json", HOSTS_JSON)):
        tally.check(f"worked: known_hosts as {form}", audit.run(review("known", kind="known", now=1_770_000_000, form=form)), (1, wanted.encode(), b""))
    found_rows(audit, tally, "known", FOUND_OF_HOSTS)
    keys = [key_of(audit.room, f"key{number}.pub", bits if kind == "rsa" else None) for number, (kind, bits) in enumerate(MADE)]
    files = {f"h{number}": drawn_hosts(draw, [*keys, Key(*RSA.split(), 8, "")]) for number in range(count)}
    contents = {name: content for name, (content, _) in files.items()}
    for name, content in contents.items():
        (audit.room / name).write_bytes(content)
    objects, _ = reviewed(audit, tally, "known_hosts files", list(contents), contents, KNOWN_FIELDS, kind="known")
    host_model_row(tally, "known_hosts files", objects, files)
    objects, _ = reviewed(audit, tally, "known_hosts files by 3,073 bits", list(contents), contents, KNOWN_FIELDS, kind="known", rsa_minimum=3073)
    host_model_row(tally, "known_hosts files by 3,073 bits", objects, files, 3073)
    fingerprint_row(audit, tally, "known_hosts files", list(contents), objects)
    standing_row(audit, tally, "known_hosts files", list(contents), keys, objects, kind="known", rsa_minimum=3073)
    fail_rows(audit, tally, "known_hosts files", list(contents), kind="known")
    for listed in (None, "none", "all"):
        shown_rows(audit, tally, f"known_hosts files, findings {listed}", list(contents), kind="known", findings=listed)
    records, wrong, grants = by_file(objects), [], 0
    for key in keys:
        for host in ("h.example", "192.0.2.7", "g.example"):
            lines = audit.run(["trusts", "--key", key.file, "--host", host, "--now", "150", *contents])[1].decode("ascii").split("\n")
            grants += sum(TRUSTS.fullmatch(line) is not None for line in lines)
            wrong += [(key.file, host, bad) for line in lines if (bad := wrong_trust(line, records))]
    tally.check(f"known_hosts files: {grants} hosts trusted", (wrong[:1], grants > 0), ([], True))


def main():
    parser = argparse.ArgumentParser(description=__doc__, formatter_class=argparse.RawDescriptionHelpFormatter)
    parser.add_argument("program", nargs="?", default=str(DEFAULT))
    parser.add_argument("--seed", type=int, default=1)
    parser.add_argument("--files", type=int, default=200)
    args = parser.parse_args()
    path, tally = os.path.abspath(args.program), Tally()
    if not os.access(path, os.X_OK):
        print(f"{path} is not built: nothing was tried\n0 passed, 1 failed")
        return 1
    with tempfile.TemporaryDirectory() as folder:
        audit, draw = Program(path, pathlib.Path(folder)), random.Random(args.seed)
        worked_rows(audit, tally)
        table_rows(audit, tally)
        found_rows(audit, tally, "auth", FOUND_OF_KEYS)
        auth_rows(audit, tally, draw, args.files)
        for row in (name_rows, many_rows, size_rows, fault_rows, writer_rows):
            row(audit, tally)
        known_rows(audit, tally, draw, args.files)
    print(f"{tally.passed} passed, {tally.failed} failed")
    return 1 if tally.failed else 0


if __name__ == "__main__":
    sys.exit(main())
