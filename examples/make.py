#!/usr/bin/env python3
"""Makes the tree of examples: a trust anchor, a CA, and signed objects, with keys of 2048 bits.

    examples/make.py [FOLDER]       writes the tree into FOLDER, else beside this script

What is published lies where its URI says, below the name of its host; the certificate of the first
trust anchor also where rpki-client keeps it. NAME.verdicts tells which signatures are right on the
way from the trust anchor to the object NAME, a line each: the SHA-256 digests of the key's
SubjectPublicKeyInfo, of what was signed, and of the signature. Those of an attestation are of the
chain that is supplied, and then of the certificates, the revocation lists and the signers as they are
carried.

The primes of a key are drawn from its name, so each run makes the same octets. `openssl` tests each
key and makes each signature (tools/rsa_vectors.py), and is asked for each verdict again. Needs
`openssl` 3 and Python's standard library.
"""
import base64
import hashlib
import ipaddress
import pathlib
import sys
import textwrap

HERE = pathlib.Path(__file__).resolve().parent
sys.path.insert(0, str(HERE.parent / "tools"))
from rsa_vectors import Key, flipped, integer, says_yes, value  # noqa: E402

HOST = "rpki.example.net"
RSYNC = f"rsync://{HOST}"
NULL = bytes.fromhex("0500")
INHERIT = None

# Moments, as UTCTime and GeneralizedTime say them.
MADE, SIGNED, EXPIRED, NEXT, LAST = (
    "20260101000000Z", "20261101000000Z", "20260601000000Z", "20360101000000Z", "20400101000000Z",
)


def oid(text):
    """An OBJECT IDENTIFIER (X.690, section 8.19)."""
    first, second, *others = map(int, text.split("."))
    octets = b""
    for arc in (40 * first + second, *others):
        digits = [arc % 128]
        while arc := arc // 128:
            digits.insert(0, arc % 128 | 128)
        octets += bytes(digits)
    return value(6, octets)


SHA256 = oid("2.16.840.1.101.3.4.2.1")
RSA = value(0x30, oid("1.2.840.113549.1.1.1") + NULL)
SHA256_WITH_RSA = value(0x30, oid("1.2.840.113549.1.1.11") + NULL)
SIGNED_DATA = oid("1.2.840.113549.1.7.2")
CONTENT_TYPE, MESSAGE_DIGEST, SIGNING_TIME = (
    oid(f"1.2.840.113549.1.9.{last}") for last in (3, 4, 5)
)
ROA, MANIFEST, ATTESTATION, CHECKLIST, ASPA = (
    oid(f"1.2.840.113549.1.9.16.1.{last}") for last in (24, 26, 36, 48, 49)
)
POLICY = oid("1.3.6.1.5.5.7.14.2")
CA_ISSUERS, REPOSITORY, SIA_MANIFEST, SIA_OBJECT = (
    oid(f"1.3.6.1.5.5.7.48.{last}") for last in (2, 5, 10, 11)
)


def sequence(*parts):
    return value(0x30, b"".join(parts))


def under(number, *parts):
    """What stands under a context tag."""
    return value(0xA0 + number, b"".join(parts))


def bits(octets, unused=0):
    return value(3, bytes([unused]) + octets)


def octet_string(octets):
    return value(4, octets)


def ia5(text):
    return value(0x16, text.encode("ascii"))


def time(text):
    """A time of a certificate, until 2049 a UTCTime (RFC 5280, section 4.1.2.5)."""
    return value(0x17, text[2:].encode("ascii"))


def generalized(text):
    return value(0x18, text.encode("ascii"))


def prefix(text):
    """The bits of a prefix (RFC 3779, section 2.2.3.8)."""
    net = ipaddress.ip_network(text)
    length = (net.prefixlen + 7) // 8
    return bits(net.network_address.packed[:length], 8 * length - net.prefixlen)


def address_family(text):
    return octet_string(bytes([0, 1 if ipaddress.ip_network(text).version == 4 else 2]))


def by_family(prefixes, item):
    """The prefixes in a list for each family, IPv4 first."""
    families = {}
    for text in sorted(prefixes, key=lambda it: ipaddress.ip_network(it.split("-")[0]).version):
        net = text.split("-")[0]
        families.setdefault(address_family(net), []).append(item(text))
    return sequence(*(sequence(family, sequence(*items)) for family, items in families.items()))


def as_items(numbers):
    ends = (sequence(integer(first), integer(last)) if last > first else integer(first)
            for first, last in numbers)
    return sequence(*ends)


class Signer:
    """A key, its identifier and its octets as others see them."""

    def __init__(self, name):
        self.key = Key(f"examples {name}", 2048)
        self.info = sequence(RSA, bits(self.key.der))
        self.id = hashlib.sha1(self.key.der).digest()
        name = sequence(oid("2.5.4.3"), value(0x13, self.id.hex().upper().encode("ascii")))
        self.name = sequence(value(0x31, name))

    def sign(self, message):
        return self.key.sign(message)


class Verdicts:
    """The lines that say which signatures are right."""

    def __init__(self, before=None):
        self.lines = list(before.lines) if before else []

    def add(self, signer, message, signature):
        assert says_yes(signer.key.der, message, signature)
        digests = (hashlib.sha256(it).hexdigest() for it in (signer.info, message, signature))
        self.lines.append(" ".join(digests) + "\n")


def extension(number, is_critical, inside):
    critical = bytes.fromhex("0101FF") if is_critical else b""
    return sequence(oid(number), critical, octet_string(inside))


def places(number, uris):
    """An extension of access descriptions (RFC 5280, section 4.2.2)."""
    if not uris:
        return b""
    described = (sequence(method, value(0x86, uri.encode("ascii"))) for method, uri in uris)
    return extension(number, False, sequence(*described))


def numbers_of(prefixes, numbers):
    """The extensions of RFC 3779, both critical; INHERIT takes the issuer's."""
    parts = b""
    if prefixes is INHERIT:
        families = (sequence(octet_string(bytes([0, family])), NULL) for family in (1, 2))
        parts += extension("1.3.6.1.5.5.7.1.7", True, sequence(*families))
    elif prefixes:
        parts += extension("1.3.6.1.5.5.7.1.7", True, by_family(prefixes, prefix))
    if numbers is INHERIT or numbers:
        said = NULL if numbers is INHERIT else as_items(numbers)
        parts += extension("1.3.6.1.5.5.7.1.8", True, sequence(under(0, said)))
    return parts


class Claim:
    """Which numbers a certificate names."""

    def __init__(self, prefixes, numbers):
        self.prefixes, self.numbers = prefixes, numbers


class Authority:
    """A CA: its key, its certificate, and where it publishes."""

    def __init__(self, name, issuer, claim, uri):
        self.name, self.issuer, self.uri = name, issuer, uri
        self.signer = Signer(name)
        self.folder = f"{RSYNC}/{name}"
        self.crl = f"{self.folder}/{name}.crl"
        self.manifest = f"{self.folder}/{name}.mft"
        self.count = 0
        self.verdicts = Verdicts(issuer.verdicts if issuer else None)
        self.octets = certificate(issuer or self, self.signer, self.verdicts, True, claim, [
            (REPOSITORY, f"{self.folder}/"), (SIA_MANIFEST, self.manifest),
        ])

    def next_serial(self):
        self.count += 1
        return self.count

    def revoked(self, verdicts=None, serials=()):
        """Its revocation list (RFC 5280, section 5.1) of these serial numbers."""
        key = sequence(value(0x80, self.signer.id))
        number = extension("2.5.29.20", False, integer(1))
        added = sequence(extension("2.5.29.35", False, key), number)
        listed = sequence(*(sequence(integer(serial), time(SIGNED)) for serial in serials))
        message = sequence(
            integer(1), SHA256_WITH_RSA, self.signer.name, time(SIGNED), time(NEXT),
            listed if serials else b"", under(0, added),
        )
        signature = self.signer.sign(message)
        if verdicts:
            verdicts.add(self.signer, message, signature)
        return sequence(message, SHA256_WITH_RSA, bits(signature))


def key_extensions(issuer, subject, is_ca):
    """Who the subject and its issuer are, and what the key is for (RFC 6487, section 4.8)."""
    usage = bits(bytes([6]), 1) if is_ca else bits(bytes([128]), 7)
    parts = extension("2.5.29.14", False, octet_string(subject.id))
    if issuer.signer is not subject:
        parts += extension("2.5.29.35", False, sequence(value(0x80, issuer.signer.id)))
    if is_ca:
        parts = extension("2.5.29.19", True, sequence(bytes.fromhex("0101FF"))) + parts
    return parts + extension("2.5.29.15", True, usage)


def issuer_extensions(issuer, subject):
    """Where the issuer's certificate and its revocation list lie."""
    if issuer.signer is subject:
        return b""
    point = sequence(under(0, under(0, value(0x86, issuer.crl.encode("ascii")))))
    return extension("2.5.29.31", False, sequence(point)) + places(
        "1.3.6.1.5.5.7.1.1", [(CA_ISSUERS, issuer.uri)]
    )


def certificate(issuer, subject, verdicts, is_ca, claim, uris, last=LAST):
    """A certificate (RFC 5280, section 4.1) that the issuer has signed."""
    extensions = key_extensions(issuer, subject, is_ca) + issuer_extensions(issuer, subject)
    extensions += places("1.3.6.1.5.5.7.1.11", uris)
    extensions += extension("2.5.29.32", True, sequence(sequence(POLICY)))
    extensions += numbers_of(claim.prefixes, claim.numbers)
    message = sequence(
        under(0, integer(2)), integer(issuer.next_serial()), SHA256_WITH_RSA, issuer.signer.name,
        sequence(time(MADE), time(last)), subject.name, subject.info,
        under(3, sequence(extensions)),
    )
    signature = issuer.signer.sign(message)
    verdicts.add(issuer.signer, message, signature)
    return sequence(message, SHA256_WITH_RSA, bits(signature))


def attributes(kind, content, signed):
    """The contents of the signed attributes (RFC 6488, section 2.1.6.4), in ascending order."""
    parts = (
        (CONTENT_TYPE, kind),
        (SIGNING_TIME, time(signed)),
        (MESSAGE_DIGEST, octet_string(hashlib.sha256(content).digest())),
    )
    return b"".join(sorted(sequence(name, value(0x31, inside)) for name, inside in parts))


def signer_info(signer, verdicts, kind, content, signed, is_broken=False):
    """What a signer says of a content (RFC 5652, section 5.3)."""
    said = attributes(kind, content, signed)
    signature = signer.sign(value(0x31, said))
    verdicts.add(signer, value(0x31, said), signature)
    if is_broken:
        signature = flipped(signature, 100, 1)
    return sequence(
        integer(3), value(0x80, signer.id), sequence(SHA256), under(0, said), RSA,
        octet_string(signature),
    )


def signed_data(kind, content, certs, crls, infos):
    """A content that is signed (RFC 5652, sections 3 and 5.1)."""
    data = sequence(
        integer(3), value(0x31, sequence(SHA256)), sequence(kind, under(0, octet_string(content))),
        under(0, *certs), under(1, *crls) if crls else b"", value(0x31, b"".join(infos)),
    )
    return sequence(SIGNED_DATA, under(0, data))


class Made:
    """A signed object (RFC 6488) under a CA, with the key of a certificate of its own."""

    def __init__(
        self, name, issuer, kind, content, claim, last=LAST, signed=SIGNED, is_broken=False,
        is_published=True,
    ):
        self.name = name
        self.verdicts = Verdicts(issuer.verdicts)
        signer = Signer(name)
        uris = [(SIA_OBJECT, f"{issuer.folder}/{name}")] if is_published else []
        cert = certificate(issuer, signer, self.verdicts, False, claim, uris, last)
        info = signer_info(signer, self.verdicts, kind, content, signed, is_broken)
        self.octets = signed_data(kind, content, [cert], [], [info])


class Attested:
    """An attestation (draft-michaelson-rpki-rta) under a chain that is supplied.

    It carries CAs with their revocation lists, and its signers have a certificate under a CA each.
    The values of a SET OF are in the order of DER (X.690, section 11.6)."""

    def __init__(self, name, supplied, cas):
        self.name, self.supplied = name, supplied
        self.certs = [(ca.octets, ca.verdicts) for ca in cas]
        self.crls, self.infos, self.signers = [], [], []

    def add_signer(self, ca, claim):
        signer, verdicts = Signer(f"{self.name} {ca.name}"), Verdicts()
        self.signers.append(signer)
        self.certs.append((certificate(ca, signer, verdicts, False, claim, []), verdicts))

    def add_crl(self, ca, serials):
        verdicts = Verdicts()
        self.crls.append((ca.revoked(verdicts, serials), verdicts))

    def sign(self, numbers, prefixes, document, is_broken=False):
        """Each signer signs, the first of them with one bit changed where it is broken."""
        content = attested([it.id for it in self.signers], numbers, prefixes, document)
        for signer in self.signers:
            verdicts = Verdicts()
            broken = is_broken and signer is self.signers[0]
            info = signer_info(signer, verdicts, ATTESTATION, content, SIGNED, broken)
            self.infos.append((info, verdicts))
        carried = [sorted(it, key=lambda made: made[0])
                   for it in (self.certs, self.crls, self.infos)]
        lists = ([octets for octets, _ in it] for it in carried)
        self.octets = signed_data(ATTESTATION, content, *lists)
        self.verdicts = Verdicts(self.supplied)
        self.verdicts.lines += (verdicts.lines[-1] for it in carried for _, verdicts in it)


def roa(number, prefixes):
    """The content of a ROA (RFC 9582, section 4); `192.0.2.0/24-26` has a greatest length."""
    def item(text):
        net, _, most = text.partition("-")
        return sequence(prefix(net), integer(int(most)) if most else b"")
    return sequence(integer(number), by_family(prefixes, item))


def aspa(customer, providers):
    """The content of an ASPA (draft-ietf-sidrops-aspa-profile, section 3)."""
    listed = sequence(*map(integer, providers))
    return sequence(under(0, integer(1)), integer(customer), listed)


def checklist(numbers, prefixes, files):
    """The content of a signed checklist (RFC 9323, section 4)."""
    system = under(0, sequence(under(0, as_items(numbers))))
    named = sequence(system, under(1, by_family(prefixes, prefix)))
    listed = (sequence(ia5(name) if name else b"", octet_string(hashlib.sha256(octets).digest()))
              for name, octets in files)
    return sequence(named, sequence(SHA256), sequence(*listed))


def attested(keys, numbers, prefixes, document):
    """The content of an attestation (draft-michaelson-rpki-rta, section 4)."""
    named = sequence(under(0, as_items(numbers)), under(1, by_family(prefixes, prefix)))
    keys = value(0x31, b"".join(sorted(map(octet_string, keys))))
    digest = hashlib.sha256(document).digest()
    return sequence(keys, named, sequence(SHA256), octet_string(digest))


def manifest(files):
    """The content of a manifest (RFC 9286, section 4.2)."""
    listed = (sequence(ia5(name), bits(hashlib.sha256(octets).digest()))
              for name, octets in sorted(files.items()))
    return sequence(integer(1), generalized(SIGNED), generalized(NEXT), SHA256, sequence(*listed))


NET4, NET6 = "192.0.2.0/24", "2001:db8::/32"
NUMBER = [(64496, 64496)]
# What a second trust anchor has, a CA under it, and the holder of some numbers of the first one.
SECOND = Claim(["203.0.113.0/24", "3fff::/20"], [(65536, 65551)])
MEMBER = Claim(["203.0.113.0/24", "3fff::/24"], [(65536, 65543)])
HOLDER = Claim(["198.51.100.0/25", "2001:db8:100::/40"], [(64500, 64503)])


def objects(ca):
    """One object of each kind, and three that are refused."""
    both, content = Claim([NET4, NET6], []), roa(64496, [f"{NET4}-26", f"{NET6}-48"])
    yield Made("origin.roa", ca, ROA, content, both)
    yield Made("providers.asa", ca, ASPA, aspa(64496, [64497, 64511]), Claim([], NUMBER))
    others = ["203.0.113.0/24"]
    yield Made("overclaiming.roa", ca, ROA, roa(64496, others), Claim(others, []))
    yield Made("expired.roa", ca, ROA, content, both, last=EXPIRED, signed="20260501000000Z")
    yield Made("broken.roa", ca, ROA, content, both, is_broken=True)


def agreed(name, ca, cas, prefixes, revoked=(), is_broken=False):
    """An attestation of the numbers of a member and of a holder, who is a customer of the CA."""
    second, member, customer = cas
    made = Attested(name, ca.verdicts, cas)
    made.add_signer(member, Claim(INHERIT, INHERIT))
    made.add_signer(customer, HOLDER)
    made.add_crl(second, revoked)
    made.add_crl(member, ())
    made.add_crl(customer, ())
    numbers = HOLDER.numbers + MEMBER.numbers
    made.sign(numbers, prefixes, b"an agreement\n", is_broken)
    return made


def held(name, ca, customer):
    """An attestation of the numbers of a holder alone, under one chain."""
    made = Attested(name, ca.verdicts, [customer])
    made.add_signer(customer, HOLDER)
    made.add_crl(customer, ())
    made.sign(HOLDER.numbers, HOLDER.prefixes, b"a holding\n")
    return made


def attestations(ca, second):
    """Two attestations that are good, and three that are refused."""
    member = Authority("member", second, MEMBER, f"{second.folder}/member.cer")
    serial = second.count
    customer = Authority("customer", ca, Claim(INHERIT, INHERIT), f"{ca.folder}/customer.cer")
    cas, prefixes = (second, member, customer), HOLDER.prefixes + MEMBER.prefixes
    yield agreed("agreement.rta", ca, cas, prefixes)
    yield agreed("broken.rta", ca, cas, prefixes, is_broken=True)
    yield agreed("overclaiming.rta", ca, cas, [NET4, *prefixes])
    yield agreed("revoked.rta", ca, cas, prefixes, revoked=[serial])
    yield held("holding.rta", ca, customer)


def published(ca, files):
    """The manifest of a CA, which names its revocation list and these files."""
    files = {f"{ca.name}.crl": ca.revoked(), **files}
    made = Made(f"{ca.name}.mft", ca, MANIFEST, manifest(files), Claim(INHERIT, INHERIT))
    return {**files, made.name: made.octets}, made


def locator(anchor):
    """A trust anchor locator (RFC 8630, section 2.2)."""
    key = "\n".join(textwrap.wrap(base64.b64encode(anchor.signer.info).decode(), 64))
    return f"{anchor.uri}\n\n{key}\n".encode("ascii")


def tree():
    """Each file of the tree, by its path."""
    everything = Claim(["0.0.0.0/0", "::/0"], [(0, 2**32 - 1)])
    anchor = Authority("anchor", None, everything, f"{RSYNC}/anchor.cer")
    claim = Claim([NET4, "198.51.100.0/24", NET6], [(64496, 64511)])
    ca = Authority("authority", anchor, claim, f"{anchor.folder}/authority.cer")
    made = list(objects(ca))
    # That of the first of these objects, `origin.roa`.
    revoking = ca.revoked(serials=[1])
    files, listed = published(ca, {it.name: it.octets for it in made})
    above, _ = published(anchor, {"authority.cer": ca.octets})
    signed = checklist(NUMBER, [NET4], [("letter.txt", b"a letter\n"), (None, b"no name\n")])
    apart = Made("letter.sig", ca, CHECKLIST, signed, Claim([NET4], NUMBER), is_published=False)
    second = Authority("second", None, SECOND, f"{RSYNC}/second.cer")
    agreements = list(attestations(ca, second))
    for it in (anchor, second):
        yield f"{it.name}.tal", locator(it)
        yield f"{HOST}/{it.name}.cer", it.octets
    yield f"ta/{anchor.name}/{anchor.name}.cer", anchor.octets
    yield from ((f"{HOST}/anchor/{name}", octets) for name, octets in above.items())
    yield from ((f"{HOST}/authority/{name}", octets) for name, octets in files.items())
    yield from ((it.name, it.octets) for it in (apart, *agreements))
    yield "revoking.crl", revoking
    for it in (*made, listed, apart, *agreements):
        yield f"{it.name}.verdicts", "".join(it.verdicts.lines).encode("ascii")


def main(folder):
    for path, octets in tree():
        to = folder / path
        to.parent.mkdir(parents=True, exist_ok=True)
        to.write_bytes(octets)


if __name__ == "__main__":
    main(pathlib.Path(sys.argv[1]) if len(sys.argv) > 1 else HERE)
