#!/usr/bin/env python3
"""Would a client with this known_hosts file trust this host's key or certificate? By which line, or which revokes it?

usage: would_trust.py KEY.pub KNOWN_HOSTS --host NAME [--port NUMBER] [--now SECONDS]

KEY.pub is the host's public key, or its certificate (a host has it as /etc/ssh/ssh_host_ed25519_key.pub;
of what ssh-keyscan prints, the host's name in front is to be cut off). NAME is what the client connects
to, and the port is 22 where it is left out. Each file may be a pipe, and `-` is standard input. The
question is asked of the program `ssh_audit` (crates/ssh_audit/out/ssh_audit, or the one that SSH_AUDIT
names) with a stand-in signature. So "trusted" means: trusted, if the host's signature is good (and, for
a certificate, its signer's). To judge real signatures, ask `ssh_audit host` and verify its evidence
with verify_evidence.py.

The status is 0 for trusted, 1 for not trusted, and 2 where it cannot be asked: a file that cannot be
read, no key or several keys in KEY.pub, a private key, a bad value, a program that is not built. Why
stands on standard error.
"""
import argparse
import sys
import time

sys.dont_write_bytecode = True
try:
    import asking
except ImportError:
    print("would_trust.py: asking.py has to stand beside it", file=sys.stderr)
    sys.exit(2)

CAUSES = {
    "N1": "line {} revokes the key, or the certificate's signer",
    "N2": "line {} may revoke any key, and cannot be read",
    "N3": "no line admits it",
    "N6": "a signature is not vouched for",
}


def main():
    parser = argparse.ArgumentParser(description="Would this host's key be trusted?", epilog=__doc__, formatter_class=argparse.RawDescriptionHelpFormatter)
    parser.add_argument("key")
    parser.add_argument("known_hosts")
    parser.add_argument("--host", required=True)
    parser.add_argument("--port", default="22")
    parser.add_argument("--now", default=str(int(time.time())))
    parser.add_argument("--empty-principals")
    parser.add_argument("--rsa-minimum")
    asked = parser.parse_args()
    offer = asking.Offer(asked.key)
    plain = offer.plain_kind()
    options = [("signature", asking.stand_in("rsa-sha2-512" if plain == "ssh-rsa" else plain)), ("hash", "00")]
    options += [("host", asked.host), ("port", asked.port), ("now", asked.now)]
    options += [("empty-principals", asked.empty_principals), ("rsa-minimum", asked.rsa_minimum)]
    lines = asking.ask("host", offer, asked.known_hosts, options)
    first, code, *rest = lines[0].split(" ")
    if first == "granted":
        good = "the host's and the signer's signatures are good" if offer.certified else "the host's signature is good"
        print(f"trusted by line {rest[0]}, if {good}")
    else:
        asking.say_denial(offer, "not trusted", code, CAUSES.get(code, code).format(*rest))
    asking.say_reasons(lines)
    return 0 if first == "granted" else 1


if __name__ == "__main__":
    sys.exit(asking.ended(main))
