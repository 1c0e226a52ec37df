"""Logins by RSA keys and by keys on security keys, plain and certified: which signature is good, and what a security
key has to show."""
from dataclasses import replace

from rows.keys import K1, RSA, RSA_SHA2_SIGNATURE, RSA_SHA512_SIGNATURE, RSA_SIGNATURE, SK, SK_NAME
from rows.login_rows import ALL_RIGHTS, CERTIFIED, NO_RIGHTS, PLAIN, compare_files, with_evidence, words_of
from rows.user_certificates import (
    RSA_CERTIFICATE, SHA1_SIGNER, SHA256_SIGNER, SHA512_SIGNER, SK_CERTIFICATE, SK_VERIFIED, TOUCH_FREE,
    TOUCH_FREE_WITH_DATA,
)

# What has to be vouched for where SK is offered: the key, and what was signed.
SK_SIGNED = (
    "0000001a736b2d7373682d65643235353139406f70656e7373682e636f6d0000002000000000000000000000000000000000000000000000"
    "00000000000000000000000000047373683a "
    "00000004010203043200000003616e6e0000000e7373682d636f6e6e656374696f6e000000097075626c69636b6579010000001a736b2d73"
    "73682d65643235353139406f70656e7373682e636f6d0000004a0000001a736b2d7373682d65643235353139406f70656e7373682e636f6d"
    "000000200000000000000000000000000000000000000000000000000000000000000000000000047373683a"
)

BY_SK = replace(PLAIN, offer=SK, algorithm=SK_NAME)
CERTIFIED_SK = replace(PLAIN, algorithm="sk-ssh-ed25519-cert-v01@openssh.com")


def touched(flags):
    """A signature by SK with these flags."""
    return f"0000001a736b2d7373682d65643235353139406f70656e7373682e636f6d00000001aa{flags}00000007"


def asks_for_a_touch(asker):
    for flags, head in (("00", "denied N4\n"), ("04", "denied N4\n"), ("01", ALL_RIGHTS)):
        triple = f"{SK_SIGNED} {touched(flags)}"
        words = words_of(replace(BY_SK, signature=touched(flags)))
        asker.compare(words, f"{SK_NAME} {SK}\n", triple, with_evidence(head, triple))


# Options of the line of SK and flags of its signature: 01 tells of a touch, 04 that the user was verified.
TOUCH_ROWS = [
    (f"{SK_NAME} {SK}\nno-touch-required {SK_NAME} {SK}", replace(BY_SK, signature=touched("00")), "denied N4\n"),
    (f"no-touch-required {SK_NAME} {SK}\n", replace(BY_SK, signature=touched("00")), ALL_RIGHTS),
    (f"agent-forwarding {SK_NAME} {SK}\n", replace(BY_SK, signature=touched("00")), "denied N4\n"),
    (f"verify-required {SK_NAME} {SK}\n", replace(BY_SK, signature=touched("00")), "denied N4\n"),
    (f"verify-required {SK_NAME} {SK}\n", replace(BY_SK, signature=touched("01")), "denied N5\n"),
    (f"verify-required {SK_NAME} {SK}\n", replace(BY_SK, signature=touched("03")), "denied N5\n"),
    (f"verify-required {SK_NAME} {SK}\n", replace(BY_SK, signature=touched("04")), "denied N4\n"),
    (f"verify-required {SK_NAME} {SK}\n", replace(BY_SK, signature=touched("05")), ALL_RIGHTS),
    (f"no-touch-required,verify-required {SK_NAME} {SK}\n", replace(BY_SK, signature=touched("00")), "denied N5\n"),
    (f"no-touch-required,verify-required {SK_NAME} {SK}\n", replace(BY_SK, signature=touched("04")), ALL_RIGHTS),
]

# The same where a certificate by K1 for SK is offered.
CERTIFIED_TOUCH_ROWS = [
    (
        f"cert-authority ssh-ed25519 {K1}\n",
        replace(CERTIFIED_SK, offer=SK_CERTIFICATE, signature=touched("01")),
        NO_RIGHTS,
    ),
    (
        f"cert-authority ssh-ed25519 {K1}\n",
        replace(CERTIFIED_SK, offer=SK_CERTIFICATE, signature=touched("00")),
        "denied N4\n",
    ),
    (
        f"cert-authority,no-touch-required ssh-ed25519 {K1}\n",
        replace(CERTIFIED_SK, offer=SK_CERTIFICATE, signature=touched("00")),
        "denied N4\n",
    ),
    (
        f"cert-authority ssh-ed25519 {K1}\n",
        replace(CERTIFIED_SK, offer=TOUCH_FREE, signature=touched("00")),
        "denied N4\n",
    ),
    (
        f"cert-authority,no-touch-required ssh-ed25519 {K1}\n",
        replace(CERTIFIED_SK, offer=TOUCH_FREE, signature=touched("00")),
        NO_RIGHTS,
    ),
    (
        f"cert-authority,no-touch-required ssh-ed25519 {K1}\n",
        replace(CERTIFIED_SK, offer=TOUCH_FREE_WITH_DATA, signature=touched("00")),
        "denied N4\n",
    ),
    (
        f"cert-authority ssh-ed25519 {K1}\n",
        replace(CERTIFIED_SK, offer=SK_VERIFIED, signature=touched("01")),
        "denied N5\n",
    ),
    (
        f"cert-authority ssh-ed25519 {K1}\n",
        replace(CERTIFIED_SK, offer=SK_VERIFIED, signature=touched("04")),
        "denied N4\n",
    ),
    (
        f"cert-authority ssh-ed25519 {K1}\n",
        replace(CERTIFIED_SK, offer=SK_VERIFIED, signature=touched("05")),
        NO_RIGHTS,
    ),
]


def asks_for_what_is_required(asker):
    compare_files(asker, TOUCH_ROWS)
    compare_files(asker, CERTIFIED_TOUCH_ROWS)


# How many bits an RSA key has to have: the key of these rows has 8.
AT_LEAST_8 = ["--rsa-minimum", "8"]
AT_LEAST_9 = ["--rsa-minimum", "9"]

# RSA keys that are offered, and such keys that signed the certificate.
RSA_ROWS = [
    (
        f"ssh-rsa {RSA}\n",
        replace(PLAIN, offer=RSA, algorithm="rsa-sha2-256", signature=RSA_SHA2_SIGNATURE, more=AT_LEAST_9),
        "denied N3\nreason 1 G20\n",
    ),
    (
        f"ssh-rsa {RSA}\n",
        replace(PLAIN, offer=RSA, algorithm="rsa-sha2-256", signature=RSA_SHA2_SIGNATURE, more=AT_LEAST_8),
        ALL_RIGHTS,
    ),
    (
        f"cert-authority ssh-ed25519 {K1}\n",
        replace(
            PLAIN, offer=RSA_CERTIFICATE, algorithm="rsa-sha2-256-cert-v01@openssh.com",
            signature=RSA_SHA2_SIGNATURE, more=AT_LEAST_9,
        ),
        "denied N3\nreason 1 G20\n",
    ),
    (
        f"cert-authority ssh-rsa {RSA}\n",
        replace(CERTIFIED, offer=SHA256_SIGNER, more=AT_LEAST_9),
        "denied N3\nreason 1 G20\n",
    ),
    (f"ssh-rsa {RSA}\n", replace(PLAIN, offer=RSA, algorithm="rsa-sha2-256", signature=RSA_SHA2_SIGNATURE), ALL_RIGHTS),
    (
        f"ssh-rsa {RSA}\n",
        replace(PLAIN, offer=RSA, algorithm="rsa-sha2-512", signature=RSA_SHA512_SIGNATURE),
        ALL_RIGHTS,
    ),
    (
        f"cert-authority ssh-ed25519 {K1}\n",
        replace(
            PLAIN, offer=RSA_CERTIFICATE, algorithm="rsa-sha2-256-cert-v01@openssh.com",
            signature=RSA_SHA2_SIGNATURE,
        ),
        NO_RIGHTS,
    ),
    (
        f"cert-authority ssh-ed25519 {K1}\n",
        replace(
            PLAIN, offer=RSA_CERTIFICATE, algorithm="rsa-sha2-512-cert-v01@openssh.com",
            signature=RSA_SHA512_SIGNATURE,
        ),
        NO_RIGHTS,
    ),
    (
        f"cert-authority ssh-ed25519 {K1}\n",
        replace(PLAIN, offer=RSA_CERTIFICATE, algorithm="ssh-rsa-cert-v01@openssh.com", signature=RSA_SIGNATURE),
        "fault A4\n",
    ),
    (f"cert-authority ssh-rsa {RSA}\n", replace(CERTIFIED, offer=SHA1_SIGNER), "fault A5\n"),
    (f"cert-authority ssh-rsa {RSA}\n", replace(CERTIFIED, offer=SHA256_SIGNER), NO_RIGHTS),
    (f"cert-authority ssh-rsa {RSA}\n", replace(CERTIFIED, offer=SHA512_SIGNER), NO_RIGHTS),
]


def knows_the_signatures_of_rsa(asker):
    compare_files(asker, RSA_ROWS)


TESTS = (asks_for_a_touch, asks_for_what_is_required, knows_the_signatures_of_rsa)
