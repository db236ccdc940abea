#!/usr/bin/env python3
"""Random attestations in octets, with what is to be answered for each.

    tools/rta_compare.py                    writes one row of each attestation
    tools/rta_compare.py --count N --seed N
    tools/rta_compare.py --tell             tells how many rows have each answer

The attestations and what the definitions say of them are those of tools/paths_compare.py, but for
what no octets can say: the identifier of a certificate is that of its key, and its inspection
decides. They are signed by the stand-in of rpki_basics: a signature is the SHA-256 of the key's
bits and the message, and the bits of key n are the eight octets of n.

A row has three parts, with `|` between them: the attestation in hexadecimal; the supplies with `,`
between them, `tal` or `ca`, `=`, and in hexadecimal the bits of a key or the certificate of a trust
anchor that is validated first; and the answer: `yes` or the text of the fault. Where the
identifiers of carried CAs are not distinct the answer is `may` (a yes would be right) or `no`. The
moment is 1 June 2024, 00:00:00.
"""
import argparse
import collections
import hashlib
import sys

import paths_compare as paths
from paths_compare import INHERIT, MISSING
from rsa_vectors import integer, value

MADE, LAST, EARLIER, SIGNED = "240101000000Z", "341231235959Z", "240531235959Z", "240601000000Z"
URI = "rsync://h/m"
OVERCLAIMED = {"as": "AS", "v4": "IPv4", "v6": "IPv6"}
TEXTS = {
    "nocrl": "missing CRL",
    "nokey": "public key not found in chain",
    "digest": "message digest mismatch",
    "nocert": "missing certificate",
    "keysleft": "unused subject keys",
    "crlsleft": "unused CRLs",
    "certsleft": "unused EE certificates",
    "unverified": "only invalid CA certificates found",
    "returns": "path returns",
    "revoked": "CA certificate has been revoked",
    "unused": "unused CA certificates",
    "inspection": "wrong basic constraints",
    "signature": "signature is not valid",
    "open": "RTA could not be validated",
    "numbers": "AS resources not fully covered",
    "addresses": "IP resources not fully covered",
}


# Values

def sequence(*parts):
    return value(0x30, b"".join(parts))


def under(number, *parts):
    return value(0xA0 + number, b"".join(parts))


def octet_string(octets):
    return value(4, octets)


def bits(octets, unused=0):
    return value(3, bytes([unused]) + octets)


def time(text):
    return value(0x17, text.encode("ascii"))


def oid(octets):
    return value(6, bytes.fromhex(octets))


SHA256 = sequence(oid("608648016503040201"))
RSA = sequence(oid("2A864886F70D010101"), bytes.fromhex("0500"))
SHA256_WITH_RSA = sequence(oid("2A864886F70D01010B"), bytes.fromhex("0500"))
SIGNED_DATA, ATTESTATION = oid("2A864886F70D010702"), oid("2A864886F70D0109100124")
ATTRIBUTE, ACCESS = "2A864886F70D0109", "2B0601050507"
NAME = sequence()


# Keys

def key_bits(key):
    return key.to_bytes(8, "big")


def identifier(key):
    return hashlib.sha1(key_bits(key)).digest()


def signature(key, message):
    return hashlib.sha256(key_bits(key) + message).digest()


def signed(key, message):
    """A certificate or a revocation list."""
    return sequence(message, SHA256_WITH_RSA, bits(signature(key, message)))


# Numbers: those of addresses are the first 32 bits

def ranges(numbers):
    """The ends of the ranges of a set."""
    ends = [n for n in sorted(numbers) if n - 1 not in numbers or n + 1 not in numbers]
    lows = [n for n in ends if n - 1 not in numbers]
    return zip(lows, [n for n in ends if n + 1 not in numbers])


def as_blocks(numbers):
    return sequence(*(integer(low) if low == high else sequence(integer(low), integer(high))
                      for low, high in ranges(numbers)))


def cut(n, filled):
    """The bits of an end of a range, without those at its end that are filled."""
    text = f"{n:032b}".rstrip(filled)
    unused = -len(text) % 8
    return bits(int(text + "0" * unused or "0", 2).to_bytes((len(text) + 7) // 8, "big"), unused)


def prefix(low, high):
    """The bits that both ends have in common, where the range is a prefix."""
    size = high - low + 1
    if size & size - 1 or low % size:
        return None
    length = 33 - size.bit_length()
    octets = low.to_bytes(4, "big")[:(length + 7) // 8]
    return bits(octets, -length % 8)


def ip_blocks(numbers):
    return sequence(*(prefix(low, high) or sequence(cut(low, "0"), cut(high, "1"))
                      for low, high in ranges(numbers)))


def claimed(claim, blocks):
    return bytes.fromhex("0500") if claim == INHERIT else blocks(claim)


def families(claims):
    """The families of addresses that are named."""
    return sequence(*(sequence(octet_string(bytes([0, number])), claimed(claim, ip_blocks))
                      for number, claim in zip((1, 2), claims[1:]) if claim != MISSING))


# Certificates, revocation lists and attestations

def extension(name, inside, critical=False):
    return sequence(oid(name), bytes.fromhex("0101FF") if critical else b"", octet_string(inside))


def name_of(uri):
    return value(0x86, uri.encode("ascii"))


def access(name, methods):
    listed = (sequence(oid(f"{ACCESS}30{method}"), name_of(URI)) for method in methods)
    return extension(f"{ACCESS}01{name}", sequence(*listed))


def authority(key):
    return extension("551D23", sequence(value(0x80, identifier(key))))


def places(is_anchor, is_ca):
    """Where the issuer and its list lie, and what a CA publishes."""
    point = sequence(under(0, under(0, name_of(URI))))
    above = b"" if is_anchor else extension("551D1F", sequence(point)) + access("01", ["02"])
    return above + (access("0B", ["05", "0A"]) if is_ca else b"")


def numbers_of(cert):
    """The policy, and the claims under the numbers that it asks for."""
    policy, ip, asn = ("03", "1C", "1D") if cert.trims else ("02", "07", "08")
    parts = extension("551D20", sequence(sequence(oid(f"{ACCESS}0E{policy}"))), True)
    if any(claim != MISSING for claim in cert.claims[1:]):
        parts += extension(f"{ACCESS}01{ip}", families(cert.claims), True)
    if cert.claims[0] != MISSING:
        inside = sequence(under(0, claimed(cert.claims[0], as_blocks)))
        parts += extension(f"{ACCESS}01{asn}", inside, True)
    return parts


def certificate(cert, is_ca):
    """A certificate; one that is not valid for itself has expired."""
    parts = extension("551D13", sequence(bytes.fromhex("0101FF")), True) if is_ca else b""
    parts += extension("551D0E", octet_string(identifier(cert.ski)))
    parts += authority(cert.aki) if cert.aki is not None else b""
    parts += extension("551D0F", bits(b"\x06", 1) if is_ca else bits(b"\x80", 7), True)
    parts += places(is_ca and paths.is_self_signed(cert), is_ca) + numbers_of(cert)
    last = LAST if cert.is_valid else EARLIER
    info = sequence(RSA, bits(key_bits(cert.key)))
    return signed(cert.signer, sequence(
        under(0, integer(2)), integer(cert.serial), SHA256_WITH_RSA, NAME,
        sequence(time(MADE), time(last)), NAME, info, under(3, sequence(parts))))


def revocation_list(crl):
    listed = (sequence(integer(serial), time(MADE)) for serial in sorted(crl.serials))
    listed = sequence(*listed) if crl.serials else b""
    added = sequence(authority(crl.aki), extension("551D14", integer(1)))
    return signed(crl.signer, sequence(
        integer(1), SHA256_WITH_RSA, NAME, time(MADE), time(LAST), listed, under(0, added)))


def content(a):
    """The content; a set that is empty is named all the same."""
    named = under(0, as_blocks(a.attested[0])), under(1, families(a.attested))
    keys = value(0x31, b"".join(octet_string(identifier(key)) for key in a.keys))
    return sequence(keys, sequence(*named), SHA256, octet_string(bytes(32)))


def signer_info(signer, octets):
    """What a signer says of a content, or of another one."""
    digest = hashlib.sha256(octets if signer.has_digest else b"another").digest()
    parts = ("03", ATTESTATION), ("05", time(SIGNED)), ("04", octet_string(digest))
    said = b"".join(sequence(oid(ATTRIBUTE + name), value(0x31, it)) for name, it in parts)
    return sequence(
        integer(3), value(0x80, identifier(signer.sid)), SHA256, under(0, said), RSA,
        octet_string(signature(signer.signer, value(0x31, said))))


def attestation(a):
    octets = content(a)
    certs = (certificate(cert, place is not None) for cert, place in paths.in_carried_order(a))
    infos = b"".join(signer_info(signer, octets) for signer in a.signers)
    crls = under(1, *map(revocation_list, a.crls)) if a.crls else b""
    data = sequence(
        integer(3), value(0x31, SHA256), sequence(ATTESTATION, under(0, octet_string(octets))),
        under(0, *certs), crls, value(0x31, infos))
    return sequence(SIGNED_DATA, under(0, data))


def supply_text(supply):
    if isinstance(supply, paths.Tal):
        return f"tal={key_bits(supply.key).hex()}"
    own = paths.Cert(0, supply.ski, None, supply.key, supply.key, 1, True, False, True, supply.sets)
    return f"ca={certificate(own, True).hex()}"


# What octets can say

def why_invalid(cert, is_ca):
    """The text of what is wrong with a certificate, or None."""
    if all(claim == MISSING for claim in cert.claims):
        return "no resources"
    if not is_ca and cert.aki is None:
        return "missing AKI"
    if is_ca and paths.is_self_signed(cert) and INHERIT in cert.claims:
        return "trust anchor inherits"
    return None if cert.is_valid else "certificate has expired"


def said_by(cert, is_ca):
    """A certificate as octets say it."""
    is_anchor = is_ca and paths.is_self_signed(cert)
    return cert._replace(key=cert.ski, is_anchor=is_anchor)


def fitted(a):
    """An attestation as octets say it; its sets are those that it earns, if they were before."""
    was_earned = a.attested == paths.earned(a)
    supplies = [it if isinstance(it, paths.Tal) else it._replace(key=it.ski) for it in a.supplies]
    a = a._replace(ees=[said_by(cert, False) for cert in a.ees],
                   cas=[said_by(cert, True) for cert in a.cas], supplies=supplies)
    return a._replace(attested=paths.earned(a)) if was_earned else a


def judged(a):
    """The same, in which a certificate is valid where nothing is wrong with it."""
    def of(certs, is_ca):
        return [cert._replace(is_valid=why_invalid(cert, is_ca) is None) for cert in certs]
    return a._replace(ees=of(a.ees, False), cas=of(a.cas, True))


def text_of(a, said):
    """The text of what the definitions say of an attestation."""
    if said == "invalid":
        wrong = (why_invalid(cert, place is not None)
                 for cert, place in paths.in_carried_order(a))
        return next(filter(None, wrong))
    word, _, family = said.partition(" ")
    if word in ("uncovered", "exceeds"):
        return f"overclaimed {OVERCLAIMED[family]} resources"
    return TEXTS.get(word, said)


def attestations(count, seed):
    for a, _ in paths.attestations(count, seed):
        a = fitted(a)
        yield a, text_of(a, paths.answer(judged(a)))


def tell(count, seed):
    counts = collections.Counter(said for _, said in attestations(count, seed))
    print("\n".join(f"{count:6} {said}" for said, count in sorted(counts.items())))


def main(given):
    if given.tell:
        tell(given.count, given.seed)
        return
    for a, said in attestations(given.count, given.seed):
        print("|".join((attestation(a).hex(), ",".join(map(supply_text, a.supplies)), said)))


if __name__ == "__main__":
    reader = argparse.ArgumentParser(
        description=__doc__, formatter_class=argparse.RawDescriptionHelpFormatter)
    reader.add_argument("--count", type=int, default=500)
    reader.add_argument("--seed", type=int, default=21)
    reader.add_argument("--tell", action="store_true")
    sys.exit(main(reader.parse_args()))
