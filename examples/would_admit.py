#!/usr/bin/env python3
"""Would this key or certificate be let in by this authorized_keys file?

usage: would_admit.py KEY.pub AUTHORIZED_KEYS --user NAME --address ADDRESS
                      [--host NAME] [--now SECONDS] [--zone RULE] [--algorithm NAME]

KEY.pub is what ssh-keygen writes: one public key, or a certificate (KEY-cert.pub). Each file may be a
pipe, and `-` is standard input. The question is asked of the program `ssh_audit`
(crates/ssh_audit/out/ssh_audit, or the one that SSH_AUDIT names) with a stand-in signature, which says
of a security key that it was touched and verified its user. So "admitted" means: admitted, if the
client's signature is good (and, for a certificate, its signer's). To judge real signatures, ask
`ssh_audit login` and verify its evidence with verify_evidence.py.

The status is 0 for admitted, 1 for not admitted, and 2 where it cannot be asked: a file that cannot be
read, no key or several keys in KEY.pub, a private key, a bad value, a program that is not built. Why
stands on standard error.
"""
import argparse
import sys
import time

sys.dont_write_bytecode = True
try:
    import asking
except ImportError:
    print("would_admit.py: asking.py has to stand beside it", file=sys.stderr)
    sys.exit(2)

CAUSES = {
    "N3": "no line admits it",
    "N4": "the first line that admits it wants a touch of the security key",
    "N5": "the first line that admits it, or the certificate, wants a security key that verifies its user; sshd asks that of security keys alone",
    "N6": "a signature is not vouched for",
}


def names_of(offer, asked):
    """The algorithm names of the login and of its signature, for this key or certificate."""
    plain = offer.plain_kind()
    if plain != "ssh-rsa":
        return asked or offer.kind, plain
    login = asked or ("rsa-sha2-512" + asking.CERTIFICATE if offer.certified else "rsa-sha2-512")
    return login, login[: -len(asking.CERTIFICATE)] if login.endswith(asking.CERTIFICATE) else login


def say_rights(lines):
    said = ["rights: " + line[len("rights ") :] for line in lines if line.startswith("rights ")]
    said += [line.replace("command ", "command: ", 1) for line in lines if line.startswith(("command ", "carry "))]
    print("; ".join(said))


def main():
    parser = argparse.ArgumentParser(description="Would this key be let in?", epilog=__doc__, formatter_class=argparse.RawDescriptionHelpFormatter)
    parser.add_argument("key")
    parser.add_argument("authorized_keys")
    parser.add_argument("--user", required=True)
    parser.add_argument("--address", required=True)
    parser.add_argument("--host")
    parser.add_argument("--now", default=str(int(time.time())))
    parser.add_argument("--zone")
    parser.add_argument("--algorithm")
    parser.add_argument("--empty-principals")
    parser.add_argument("--rsa-minimum")
    asked = parser.parse_args()
    offer = asking.Offer(asked.key)
    login, signature = names_of(offer, asked.algorithm)
    options = [("signature", asking.stand_in(signature)), ("algorithm", login), ("session", "00"), ("user", asked.user)]
    options += [("address", asked.address), ("now", asked.now), ("host", asked.host), ("zone", asked.zone)]
    options += [("empty-principals", asked.empty_principals), ("rsa-minimum", asked.rsa_minimum)]
    lines = asking.ask("login", offer, asked.authorized_keys, options)
    first, code, *_ = lines[0].split(" ")
    if first == "granted":
        good = "the client's and the signer's signatures are good" if offer.certified else "the client's signature is good"
        print(f"admitted by line {lines[0].split(' ')[2]}, if {good}")
        say_rights(lines)
    else:
        asking.say_denial(offer, "not admitted", code, CAUSES.get(code, code))
    if asking.say_reasons(lines) and first != "granted":
        print("sshd may read a line that cannot be read here: count it as access until it is mended")
    return 0 if first == "granted" else 1


if __name__ == "__main__":
    sys.exit(asking.ended(main))
