"""Makes CAs and what they publish, with keys of 2048 bits: for tools/program trees and
bench/payloads.

The values in DER are those of examples/make.py. Signatures are made here, in place of a process of
`openssl` for each, and nothing asks whether they are right: a relying party does. The certificates
of all signed objects have one key, which no CA has.
"""
import functools
import hashlib
import importlib.util
import itertools
import pathlib
import sys

sys.dont_write_bytecode = True
TOP = pathlib.Path(__file__).resolve().parent.parent
_loading = importlib.util.spec_from_file_location("make", TOP / "examples" / "make.py")
make = importlib.util.module_from_spec(_loading)
_loading.loader.exec_module(make)
from rsa_vectors import public  # noqa: E402

HOST = make.HOST
MOMENT = "20270101000000Z"
# Moments around it, from long before to long after.
MADE, SIGNED, PAST, FUTURE, NEXT, LAST = (
    make.MADE, make.SIGNED, "20261201000000Z", "20270601000000Z", make.NEXT, make.LAST)
PLACES = "1.3.6.1.5.5.7.1.11"
# The extensions of RFC 3779, and those of RFC 8360 in their place; their policies (section 4.2.1).
TRIMMED = [tuple(map(make.oid, pair)) for pair in (
    ("1.3.6.1.5.5.7.1.7", "1.3.6.1.5.5.7.1.28"), ("1.3.6.1.5.5.7.1.8", "1.3.6.1.5.5.7.1.29"),
    ("1.3.6.1.5.5.7.14.2", "1.3.6.1.5.5.7.14.3"))]
EVERYTHING = make.Claim(["0.0.0.0/0", "::/0"], [(0, 2**32 - 1)])
INHERITED = make.Claim(make.INHERIT, make.INHERIT)


def named(identifier):
    """The name of a subject: the identifier of its key."""
    said = make.oid("2.5.4.3") + make.value(0x13, identifier.hex().upper().encode("ascii"))
    return make.sequence(make.value(0x31, make.sequence(said)))


class Quiet:
    """Takes each signature, and asks nobody whether it is right."""

    def add(self, *given):
        pass


class Signer(make.Signer):
    """A key, drawn from a name or given, that signs without a process."""

    def __init__(self, name, key=None):
        self.key = key or make.Key(f"examples {name}", 2048)
        self.info = make.sequence(make.RSA, make.bits(self.key.der))
        self.id = hashlib.sha1(self.key.der).digest()
        self.name = named(self.id)

    @functools.lru_cache(4096)
    def sign(self, message):
        key = self.key
        power = int.from_bytes(key.encoded(message), "big")
        of_p, of_q = (pow(power, key.d % (prime - 1), prime) for prime in (key.p, key.q))
        power = of_q + key.q * ((of_p - of_q) * pow(key.q, -1, key.p) % key.p)
        return power.to_bytes(key.len, "big")


@functools.cache
def signer(name):
    return Signer(name)


def of_primes(p, q):
    """The key of two primes."""
    key = make.Key.__new__(make.Key)
    key.p, key.q, key.n, key.e, key.len = p, q, p * q, 65537, 256
    key.d = pow(key.e, -1, (p - 1) * (q - 1))
    key.der = public(key.n, key.e)
    return Signer(None, key)


@functools.cache
def shared(number):
    """One of 112 keys that keep no secret: of two primes of eight others, so that none is looked for."""
    keys = [signer(name).key for name in ("top", "a", "b", "c", "of objects", "h", "x", "y")]
    pairs = [(one, other) for one, other in itertools.combinations(keys, 2)]
    one, other = pairs[number // 4]
    return of_primes((one.p, one.q)[number // 2 % 2], (other.p, other.q)[number % 2])


class Router:
    """A router's key, on the curve P-256 (RFC 8608): the curve's base point."""

    def __init__(self):
        point = bytes.fromhex(
            "046b17d1f2e12c4247f8bce6e563a440f277037d812deb33a0f4a13945d898c296"
            "4fe342e2fe1a7f9b8ee7eb4a7c0f9e162bce33576b315ececbb6406837bf51f5")
        kind = make.sequence(make.oid("1.2.840.10045.2.1"), make.oid("1.2.840.10045.3.1.7"))
        self.info = make.sequence(kind, make.bits(point))
        self.id = hashlib.sha1(point).digest()
        self.name = named(self.id)


def certificate(issuer, subject, claim, uris, *, is_ca=False, serial=None, trims=False, more=b"",
                last=LAST, by=None):
    """A certificate (RFC 6487, section 4) under a CA, or that of a trust anchor: with `trims` under
    the policy of RFC 8360, with `more` extensions, signed by another key where `by` has one."""
    said = make.key_extensions(issuer, subject, is_ca) + make.issuer_extensions(issuer, subject)
    said += make.places(PLACES, uris) + more
    numbers = make.extension("2.5.29.32", True, make.sequence(make.sequence(make.POLICY)))
    numbers += make.numbers_of(claim.prefixes, claim.numbers)
    for plain, other in TRIMMED if trims else ():
        numbers = numbers.replace(plain, other)
    message = make.sequence(
        make.under(0, make.integer(2)), make.integer(serial or issuer.next_serial()),
        make.SHA256_WITH_RSA, issuer.signer.name,
        make.sequence(make.time(MADE), make.time(last)), subject.name, subject.info,
        make.under(3, make.sequence(said + numbers)))
    signature = (by or issuer.signer).sign(message)
    return make.sequence(message, make.SHA256_WITH_RSA, make.bits(signature))


def crl(key, this, to, serials, by):
    """The revocation list of a key (RFC 6487, section 5), signed by it or by another one."""
    name = make.sequence(make.value(0x80, key.id))
    added = make.sequence(make.extension("2.5.29.35", False, name),
                          make.extension("2.5.29.20", False, make.integer(1)))
    since = make.time(SIGNED)
    listed = (make.sequence(make.integer(serial), since) for serial in serials)
    message = make.sequence(
        make.integer(1), make.SHA256_WITH_RSA, key.name, make.time(this), make.time(to),
        make.sequence(*listed) if serials else b"", make.under(0, added))
    return make.sequence(message, make.SHA256_WITH_RSA, make.bits(by.sign(message)))


def manifest(files, this, to):
    """The content of a manifest (RFC 9286, section 4.2) of names and octets, in their order."""
    listed = (make.sequence(make.ia5(name), make.bits(hashlib.sha256(octets).digest()))
              for name, octets in files)
    return make.sequence(make.integer(1), make.generalized(this), make.generalized(to),
                         make.SHA256, make.sequence(*listed))


class Ca:
    """A CA, what it publishes, and what is wrong with that.

    `files` are what its manifest lists beside the revocation list, which comes first; `serials` are
    those of their certificates, by name. The manifest's has the number 1000."""

    MANIFEST_SERIAL = 1000

    def __init__(self, name, claim, issuer=None, *, key=None, folder=None, manifest=None):
        self.name, self.claim, self.issuer = name, claim, issuer
        self.signer = key or signer(name)
        self.folder = folder or f"rsync://{HOST}/m/{name}/"
        self.manifest = manifest or f"{self.folder}{name}.mft"
        self.crl = f"{self.folder}{name}.crl"
        self.uri = f"{issuer.folder}{name}.cer" if issuer else f"rsync://{HOST}/ta/{name}.cer"
        self.count, self.files, self.serials, self.revoked = 0, {}, {}, []
        self.list_times = self.manifest_times = SIGNED, NEXT
        self.list_key, self.list_signer, self.lists_it = self.signer, self.signer, True
        self.listed_as = {}

    def next_serial(self):
        self.count += 1
        return self.count

    def uris(self):
        return [(make.REPOSITORY, self.folder), (make.SIA_MANIFEST, self.manifest)]

    def certificate(self, issuer=None, **more):
        """Its certificate under its own issuer, or under another one."""
        return certificate(issuer or self.issuer or self, self.signer, self.claim, self.uris(),
                           is_ca=True, **more)

    def add(self, name, octets):
        """Lists a file."""
        self.files[name] = octets
        self.serials[name] = self.count
        return f"{self.folder}{name}"

    def add_ca(self, child, **more):
        return self.add(f"{child.name}.cer", child.certificate(self, **more))

    def object(self, name, kind, content, claim, **more):
        """A signed object (RFC 6488)."""
        key = signer("of objects")
        cert = certificate(self, key, claim, [(make.SIA_OBJECT, f"{self.folder}{name}")], **more)
        info = make.signer_info(key, Quiet(), kind, content, SIGNED)
        return make.signed_data(kind, content, [cert], [], [info])

    def add_roa(self, name, number, prefixes, claim=None, **more):
        """A ROA (RFC 9582), whose certificate claims what it names, or something else."""
        claim = claim or make.Claim([text.split("-")[0] for text in prefixes], [])
        content = make.roa(number, prefixes)
        return self.add(name, self.object(name, make.ROA, content, claim, **more))

    def add_aspa(self, name, customer, providers, **more):
        claim = make.Claim([], [(customer, customer)])
        content = make.aspa(customer, providers)
        return self.add(name, self.object(name, make.ASPA, content, claim, **more))

    def revoke(self, *names):
        self.revoked += (self.serials[name] for name in names)

    def published(self):
        """Each file of its point, by its URI: the manifest lists all others."""
        own = crl(self.list_key, *self.list_times, self.revoked, self.list_signer)
        there = {self.crl: own}
        there |= {f"{self.folder}{name}": octets for name, octets in self.files.items()}
        files = [(f"{self.name}.crl", own)] if self.lists_it else []
        files += ((self.listed_as.get(name, name), octets) for name, octets in self.files.items())
        content = manifest(files, *self.manifest_times)
        name = self.manifest.rsplit("/", 1)[1]
        there[self.manifest] = self.object(name, make.MANIFEST, content, INHERITED,
                                           serial=self.MANIFEST_SERIAL)
        return there


def locator(uris, key):
    """A trust anchor locator (RFC 8630, section 2.2) of these URIs and a key."""
    class Anchor:
        uri, signer = "\n".join(uris), key
    return make.locator(Anchor)
