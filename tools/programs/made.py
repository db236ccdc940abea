"""Objects of examples/, as they are and with other contents: for the runs of both programs, tools/rows and
tools/fuzz."""
import hashlib
import ipaddress
import os
import pathlib

from crates import TOP
from example_files import ASPA, MANIFEST as LISTED, ROA, contents, inside, parts
from publication import make

EXAMPLES = f"{TOP}/examples"
PUBLISHED = f"{EXAMPLES}/rpki.example.net"
AUTHORITY = f"{PUBLISHED}/authority"
CHAIN = f"{PUBLISHED}/anchor.cer", f"{PUBLISHED}/anchor/authority.cer"
MANIFEST, AGREEMENT = f"{AUTHORITY}/authority.mft", f"{EXAMPLES}/agreement.rta"
BROKEN, EXPIRED = f"{AUTHORITY}/broken.roa", f"{AUTHORITY}/expired.roa"
OVERCLAIMING, OVERCLAIMED = f"{AUTHORITY}/overclaiming.roa", b"overclaimed IPv4 resources"
AUTHORITY_FILES = "authority.crl", "broken.roa", "expired.roa", "origin.roa", "overclaiming.roa", "providers.asa"
OPTIONS = "--relaxed", "--registered", "--wide"
SIGNING = b"signing 2026-11-01T00:00:00Z\n"
# Objects, each with its kind, the lines of its content, and the serial number and the key identifier of its signer's
# certificate, as `openssl` prints them.
ORIGIN_LINES = ROA.encode()
LETTER_LINES = (
    b"rsc\nas AS64496\nv4 192.0.2.0/24\n"
    b"named letter.txt 5c8437e345f639d9940ed7d853023f6d069e923d7ab43a092591b9dbdefe1aeb\n"
    b"unnamed aee7b480ff51d4c93c72c1fc60aac4ab0187e4a1447d79d226198cb9dd4b2d4d\n")
OBJECTS = (
    ("roa", f"{AUTHORITY}/origin.roa", ORIGIN_LINES, b"ee 1 D499B0BF9D1519CFF7E9C67B077CDAECD7CBCA67\n"),
    ("aspa", f"{AUTHORITY}/providers.asa", ASPA.encode(), b"ee 2 ACB452912B9B562E3E26A1A9B016182187C22E41\n"),
    ("manifest", MANIFEST, LISTED.encode(), b"ee 6 C1888A395EE37A39F79146694636294EE42B4CED\n"),
    ("rsc", f"{EXAMPLES}/letter.sig", LETTER_LINES, b"ee 7 1B95E79E269CA2092ABA65FB1D2FB3F9557D1C1A\n"),
)
ORIGIN = OBJECTS[0][1]
# The manifest of number 12 for a week.
MANIFEST_HEAD = b"manifest\nnumber c\nthis 2024-01-01T00:00:00Z\nnext 2024-01-08T00:00:00Z\n"


def octets_of(file):
    return pathlib.Path(os.fsdecode(file)).read_bytes()


def verdicts_of(file):
    """The list of verdicts of a file of examples/."""
    return f"{EXAMPLES}/{os.path.basename(file)}.verdicts"


def manifest_of(named):
    """The content of a manifest (RFC 9286, section 4.2) with these files, each a name and a hash."""
    files = (make.sequence(make.value(0x16, name), make.bits(it)) for name, it in named)
    times = make.generalized("20240101000000Z") + make.generalized("20240108000000Z")
    return make.sequence(make.integer(12), times, make.SHA256, make.sequence(*files))


def manifest(*names):
    """The same, each with the hash `hash`."""
    return manifest_of((name, b"hash") for name in names)


def manifest_shown(*names):
    return 0, MANIFEST_HEAD + b"".join(b"file " + name + b" 68617368\n" for name in names), b""


def with_content(octets, content, certs=lambda certs: certs):
    """An object with another content, and with what this makes of its certificates; and the digests of the messages
    that its signers signed, each with that of what they would have to sign."""
    kind, signed = inside(octets)
    fields = inside(contents(signed))
    content_type, old = inside(fields[2])
    was, now = hashlib.sha256(contents(contents(old))).digest(), hashlib.sha256(content).digest()
    said = {}
    for signer in inside(fields[-1]):
        message = b"\x31" + next(it for it in inside(signer) if it[0] == 0xA0)[1:]
        said[hashlib.sha256(message).hexdigest()] = hashlib.sha256(message.replace(was, now)).hexdigest()
    fields[2] = make.sequence(content_type, make.under(0, make.octet_string(content)))
    fields[3] = make.under(0, certs(contents(fields[3])))
    fields[-1] = fields[-1].replace(was, now)
    return make.sequence(kind, make.under(0, make.sequence(*fields))), said


def around(kind, content):
    """The object of examples/ of a kind, with another content."""
    files = {it: file for it, file, *_ in OBJECTS} | {"rta": AGREEMENT}
    return with_content(octets_of(files[kind]), content)[0]


def content_in(file):
    """The content of an object."""
    encapsulated = inside(contents(inside(octets_of(file))[1]))[2]
    return contents(contents(inside(encapsulated)[1]))


def made_long(file, content, **more):
    """The object of examples/ in a file with another content, and its list of verdicts."""
    octets, said = with_content(octets_of(file), content, **more)
    verdicts = octets_of(verdicts_of(file)).decode("ascii")
    for was, now in said.items():
        verdicts = verdicts.replace(was, now)
    return octets, verdicts.encode()


def long_roa(count):
    """The first of OBJECTS with this number of prefixes, each a /64 of 2001:db8::/32, in place of its own, its list of
    verdicts, and the lines of its content."""
    prefixes = [bytes.fromhex("20010DB8") + at.to_bytes(4, "big") for at in range(count)]
    addresses = make.sequence(*(make.sequence(make.bits(it)) for it in prefixes))
    content = make.sequence(make.integer(64496), make.sequence(make.sequence(make.octet_string(b"\0\2"), addresses)))
    lines = "".join(f"origin {ipaddress.IPv6Address(it + bytes(8))}/64\n" for it in prefixes)
    return *made_long(ORIGIN, content), f"roa\nas AS64496\n{lines}".encode()


def long_files(count):
    """The names and hashes of so many files, of which the last, `held`, has the octets `foobar`."""
    return [*((b"%d.cer" % at, b"hash") for at in range(count - 1)), (b"held.roa", hashlib.sha256(b"foobar").digest())]


def long_manifest(count):
    """The manifest of examples/ with this number of files, its list of verdicts, and the lines of its content."""
    files = long_files(count)
    lines = b"".join(b"file %s %s\n" % (name, it.hex().encode()) for name, it in files)
    return *made_long(MANIFEST, manifest_of(files)), MANIFEST_HEAD + lines


def long_attestation(count):
    """The attestation of examples/ with this number of AS numbers, no two of which adjoin, and its list of verdicts."""
    keys, _, *others = parts(contents(content_in(AGREEMENT)))
    numbers = make.sequence(*(make.integer(2 * at) for at in range(count)))
    return made_long(AGREEMENT, make.sequence(keys, make.sequence(make.under(0, numbers)), *others))


def attestation_of_many(count):
    """The attestation of examples/ with so many times the certificates that it carries, and its list of verdicts."""
    return made_long(AGREEMENT, content_in(AGREEMENT), certs=lambda certs: certs * count)
