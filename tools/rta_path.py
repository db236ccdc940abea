"""Attestations of AS numbers in octets, whose signers stand below a path of CAs: for tools/program runs and
bench/attestation.

They are signed as those of rta_compare.py are. Names are empty SEQUENCEs, and the moment is 1 June
2024, 00:00:00. Numbers are the first and the last of a range, or INHERIT. Key TOP is that of the CA
above the path, a trust anchor.
"""
import hashlib

import rta_compare as rta
from rta_compare import (
    ACCESS, ATTESTATION, ATTRIBUTE, LAST, MADE, NAME, RSA, SHA256, SHA256_WITH_RSA, SIGNED, SIGNED_DATA,
    URI, bits, extension, identifier, integer, octet_string, oid, sequence, signed, time, under, value)

TOP, INHERIT = 1, "inherit"
NULL, TRUE = bytes.fromhex("0500"), bytes.fromhex("0101FF")


def blocks(numbers):
    """A set of AS numbers."""
    if numbers == INHERIT:
        return NULL
    low, high = numbers
    return sequence(integer(low) if low == high else sequence(integer(low), integer(high)))


def accesses(name, methods):
    """An extension of accesses, all at one URI."""
    uri = value(0x86, URI.encode("ascii"))
    return extension(f"{ACCESS}01{name}", sequence(*(sequence(oid(f"{ACCESS}30{it}"), uri) for it in methods)))


def certificate(key, issuer, numbers, is_ca, trims=False):
    """A certificate of a key under that of its issuer; with `trims` by the policy of RFC 8360."""
    parts = extension("551D13", sequence(TRUE), True) if is_ca else b""
    parts += extension("551D0E", octet_string(identifier(key)))
    if key != issuer:
        parts += extension("551D23", sequence(value(0x80, identifier(issuer))))
    parts += extension("551D0F", bits(b"\6", 1) if is_ca else bits(b"\x80", 7), True)
    if key != issuer:
        point = under(0, under(0, value(0x86, URI.encode("ascii"))))
        parts += extension("551D1F", sequence(sequence(point))) + accesses("01", ["02"])
    if is_ca:
        parts += accesses("0B", ["05", "0A"])
    policy, claim = ("03", "1D") if trims else ("02", "08")
    parts += extension("551D20", sequence(sequence(oid(f"{ACCESS}0E{policy}"))), True)
    parts += extension(f"{ACCESS}01{claim}", sequence(under(0, blocks(numbers))), True)
    info = sequence(RSA, bits(rta.key_bits(key)))
    return signed(issuer, sequence(
        under(0, integer(2)), integer(1), SHA256_WITH_RSA, NAME,
        sequence(time(MADE), time(LAST)), NAME, info, under(3, sequence(parts))))


def revocation_list(key):
    """A list of the CA with this key that revokes nothing."""
    added = sequence(extension("551D23", sequence(value(0x80, identifier(key)))),
                     extension("551D14", integer(1)))
    return signed(key, sequence(integer(1), SHA256_WITH_RSA, NAME, time(MADE), time(LAST), under(0, added)))


def signer_info(key, content):
    """What a signer says of a content."""
    parts = ("03", ATTESTATION), ("05", time(SIGNED)), ("04", octet_string(hashlib.sha256(content).digest()))
    said = b"".join(sorted(sequence(oid(ATTRIBUTE + name), value(0x31, it)) for name, it in parts))
    return sequence(integer(3), value(0x80, identifier(key)), SHA256, under(0, said), RSA,
                    octet_string(rta.signature(key, value(0x31, said))))


def attestation(signers, numbers, certificates, lists):
    """An attestation of numbers by the signers with these keys, and what it carries."""
    keys = value(0x31, b"".join(octet_string(identifier(it)) for it in signers))
    content = sequence(keys, sequence(under(0, blocks(numbers))), SHA256, octet_string(bytes(32)))
    infos = b"".join(signer_info(it, content) for it in signers)
    data = sequence(
        integer(3), value(0x31, SHA256), sequence(ATTESTATION, under(0, octet_string(content))),
        under(0, *certificates), under(1, *lists), value(0x31, infos))
    return sequence(SIGNED_DATA, under(0, data))


def below(path, signers, attested, claimed, trims=False):
    """An attestation by signers with these keys, each below the CAs with these, each of which inherits
    from the next one, and the last from TOP."""
    made = [certificate(it, path[0], claimed, False, trims) for it in signers]
    made += [certificate(it, above, INHERIT, True, trims) for it, above in zip(path, [*path[1:], TOP])]
    return attestation(signers, attested, made, map(revocation_list, path))


def top(numbers):
    """The certificate of the CA above the path."""
    return certificate(TOP, TOP, numbers, True)
