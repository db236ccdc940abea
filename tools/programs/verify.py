"""Runs rpki_verify over the tree of examples/, and compares each answer with what its contract and its documents say.

    tools/program verify [--unproved | --in FOLDER]
    tools/program verify --client ..    with what `rpki-client -f` says of the same objects

Each exit status, and which of the two streams says what, of each command; the lists of good signatures beside those of
examples/; checks and shows of one file and of several, in lines and in JSON; what a folder has of the files of a
manifest or a checklist; payloads in each format, and after local exceptions (exceptions.py); the moment `now`
beside the same moment as a word; changed octets of a signature; a folder, a FIFO, a pipe and a device as the file;
each entry as soon as its file is done; names of files with spaces, long, not in ASCII; streams that are full or
closed; standard input in the place of each file, where it is a file, comes in pieces, is large, or can't be read; each
allocation refused in turn; the examples of the pages, by both programs, and the completion for bash (`tools/program
pages`); and files that are large or change while they are read, as of `tools/program runs`. Whatever is printed as
JSON is read again: it is UTF-8, no object has a name twice, and of a check or a show each file has one line
(json_members.py). What is said to words that ask for nothing is in rows/verify_usage.jsonl, and explain in
`tools/program explain`.

rpki-client has to be on the path, and to be of OpenBSD's portable release 8.2 or later. It judges one file without a
network where the tree lies below its cache and the certificate of the trust anchor at ta/NAME in it (`-n -d CACHE -t
TAL -f FILE`); it judges at the moment of the clock. providers.asa is not compared, since release 8.2 knows an older
form of ASPAs, and refuses it.

Prints a line for each run. Without a C compiler no allocation is refused. Needs `openssl` 3, which tests the keys of
what is made here.
"""
import datetime
import hashlib
import os
import re
import select
import shutil
import subprocess
import tempfile
import threading
import time

import example_files
import json_members
import publication
import verify_words
from commands import stop
from crates import TOP
from programs import exceptions as slurm, made, pages, running, strains, tree_rows
from programs.formats import WRITERS, as_csv, as_json, as_lines, compact
from programs.made import BROKEN, CHAIN, EXPIRED, ORIGIN, octets_of
from programs.running import OUT_OF_MEMORY
from programs.readers import of_lines
from programs.strains import MALFORMED, NO_ISSUER, refused
from programs.tree_rows import EXAMPLES, EXAMPLES_REFUSED

AGREEMENT = made.AGREEMENT
MOMENT = "20270101000000Z"
HOLDING = f"{made.EXAMPLES}/holding.rta"
# As `openssl` and `hashlib` have it.
HOLDING_LINES = b"""rta
key AC15A9E2F05691301C257BFEF6649F3AB7437791
as AS64500-AS64503
v4 198.51.100.0/25
v6 2001:db8:100::/40
digest b741afb9d0a049d038fd25548bdd5994720cabd116046ab09d813c6f1ea31257
"""
ANCHORS = f"tal={made.EXAMPLES}/second.tal", f"ca={':'.join(CHAIN)}"
OPTIONS = [*made.OPTIONS]
ATTESTATIONS = (
    ("agreement.rta", (0, b"""yes
rta
key 1A35C53323D25266354DB3F712B6E2D00DBDCF9C
key 22C1F88A54BF57519EC5DE1FBA3C46609A8E4E42
as AS64500-AS64503
as AS65536-AS65543
v4 198.51.100.0/25
v4 203.0.113.0/24
v6 2001:db8:100::/40
v6 3fff::/24
digest 27b1475ecc05bc4bbfc386c70f7bd74b99e7926da240c1e439a00700fdb4a9f2
""", b"")),
    ("broken.rta", refused(b"missing certificate")),
    ("overclaiming.rta", refused(b"IP resources not fully covered")),
    ("revoked.rta", refused(b"CA certificate has been revoked")),
)
# As `openssl x509 -text -serial` and `openssl crl -text -crlnumber` have it.
ISSUED = {
    "anchor.cer": b"""certificate
serial 01
valid-from 2026-01-01T00:00:00Z
valid-until 2040-01-01T00:00:00Z
key-id 1A3A434D3CB238F39188C4ED212421A717BB7C97
ca
ca-repository rsync://rpki.example.net/anchor/
rpki-manifest rsync://rpki.example.net/anchor/anchor.mft
as AS0-AS4294967295
ipv4 0.0.0.0/0
ipv6 ::/0
""",
    "anchor/authority.cer": b"""certificate
serial 02
valid-from 2026-01-01T00:00:00Z
valid-until 2040-01-01T00:00:00Z
key-id C78637259551E49913A293A978985D33FBECF9C1
authority-key-id 1A3A434D3CB238F39188C4ED212421A717BB7C97
ca
ca-repository rsync://rpki.example.net/authority/
rpki-manifest rsync://rpki.example.net/authority/authority.mft
ca-issuers rsync://rpki.example.net/anchor.cer
crl rsync://rpki.example.net/anchor/anchor.crl
as AS64496-AS64511
ipv4 192.0.2.0/24
ipv4 198.51.100.0/24
ipv6 2001:db8::/32
""",
    "anchor/anchor.crl": b"""crl
number 01
this-update 2026-11-01T00:00:00Z
next-update 2036-01-01T00:00:00Z
authority-key-id 1A3A434D3CB238F39188C4ED212421A717BB7C97
""",
    "authority/authority.crl": b"""crl
number 01
this-update 2026-11-01T00:00:00Z
next-update 2036-01-01T00:00:00Z
authority-key-id C78637259551E49913A293A978985D33FBECF9C1
""",
}
ANOTHER_KIND = 1, b"malformed: eContentType is not the one that is asked for\n", b""
# The digest of the file without a name that letter.sig lists.
NO_NAME = hashlib.sha256(b"no name\n").hexdigest().encode()
EARLY_END = 1, b"malformed: ends early\n", b""
# The keys of the trust anchor and of the CA of examples/, and the URIs of their certificates.
ANCHOR_KEY = "1A3A434D3CB238F39188C4ED212421A717BB7C97", "rsync://rpki.example.net/anchor.cer"
CA_KEY = "C78637259551E49913A293A978985D33FBECF9C1", "rsync://rpki.example.net/anchor/authority.cer"


def not_issued(issuer, file, other):
    """That the CA in a file, which has another key, did not issue it."""
    return verify_words.not_issued(*issuer[:2], file, other[0]).encode()


NOT_ISSUED = refused(not_issued(CA_KEY, CHAIN[0], ANCHOR_KEY))
REFUSED = ((BROKEN, b"signature is not valid"), (EXPIRED, b"certificate has expired"),
           (made.OVERCLAIMING, made.OVERCLAIMED + b": 203.0.113.0/24 is not in " + os.fsencode(CHAIN[1])))


def unreadable(name, why=b"no such file"):
    """What is said of a file that a question names, and that can't be read."""
    return 4, b"", b"cannot read " + name + (why and b": " + why) + b"\n"


class Verify(strains.Strained):
    """Runs of the program, which tells why a file can't be read, and prints JSON."""

    words, cut = [b"show", b"--kind", b"roa", b"--"], EARLY_END

    def __init__(self, programs, room):
        super().__init__(programs["rpki_verify"], room)
        self.programs, self.texts = programs, 0
        # How many prefixes, files or serial numbers a long object or list has.
        self.many = 1_000_000 if self.is_plain else 100_000
        self.octets, self.shown = octets_of(ORIGIN), (0, whole_lines(0), b"")
        self.write("content", self.octets)

    def unreadable(self, _name, why=b"no such file"):
        """What is said of a file that is to be shown or checked, and that can't be read."""
        return 4, b"cannot be read" + (why and b": " + why) + b"\n", b""

    def ran(self, words, **settings):
        """Runs the program. What it prints as JSON has to be that, and in lines where it is of files; and
        it says yes of all that is asked exactly where it ends with 0."""
        status, out, err = super().ran(words, **settings)
        if words[:1] and words[0] in (b"check", b"files", b"rta") and b"--help" not in words and status in (0, 1, 4):
            is_yes = says_yes(out)
            if is_yes != (status == 0):
                self.failed += 1
                print(f"{b' '.join(words)!r}: WRONG: the status {status} with {out[:200]!r}", flush=True)
        if {b"--json", b"json", b"rpki-client"} & {*words} and status in (0, 1) and out:
            read = json_members.value_of if b"payloads" in words else json_members.values_of
            self.texts += 1
            try:
                read(out)
            except ValueError as why:
                self.failed += 1
                print(f"JSON of {b' '.join(words)!r}: WRONG: {why}: {out[:200]!r}", flush=True)
        return status, out, err


def says_yes(out):
    """Whether a check, or what is compared with a folder, prints a yes and no no."""
    if out.startswith(b"{"):
        return all(it["valid"] for it in json_members.values_of(out))
    entries = [it for it in out.splitlines() if not it.startswith(b"  ")]
    return out.startswith(b"yes\n") or bool(entries) and all(it.endswith(b": yes") for it in entries)


def words_of(command, *operands, **values):
    return [os.fsencode(it) for it in verify_words.words(command, *operands, **values)]


def check_words(*files, chain=CHAIN, at=MOMENT, **values):
    return words_of("check", *files, chain=chain, at=at, **values)


def show_words(*files, **values):
    return words_of("show", *files, **values)


def files_words(file=made.MANIFEST, folder=made.AUTHORITY, chain=CHAIN, at=MOMENT, **values):
    return words_of("files", file, folder, chain=chain, at=at, **values)


def rta_words(file, *anchors, at=MOMENT):
    return words_of("rta", file, *(anchors or ANCHORS), at=at)


def list_words(file, chain=CHAIN, **values):
    return words_of("verdicts", file, chain=chain, **values)


def rta_list_words(file, *anchors):
    return words_of("verdicts", file, *(anchors or ANCHORS))


def entry(file, said):
    """What is said of one of several files."""
    return os.fsencode(file) + b": " + said[:-1].replace(b"\n", b"\n  ") + b"\n"


def named_refusal(file, cause):
    return 1, b"issuer refused: " + os.fsencode(file) + b": " + cause + b"\n", b""


def told():
    """The moment of the clock, as a word."""
    return datetime.datetime.now(datetime.timezone.utc).strftime("%Y%m%d%H%M%SZ")


def marked(moment):
    """A moment YYYYMMDDHHMMSSZ as RFC 3339 has it."""
    return re.sub(r"(....)(..)(..)(..)(..)(..)Z", r"\1-\2-\3T\4:\5:\6Z", moment)


def answers(here):
    """What checks say of one object, and of several, whatever is wrong with it."""
    every = []
    for kind, file, lines, _ in made.OBJECTS:
        name, yes, other = os.path.basename(file), (0, b"yes\n" + lines, b""), "aspa" if kind == "roa" else "roa"
        every.append((file, yes[1]))
        here.each(*((check_words(file, at=at), yes) for at in (MOMENT, marked(MOMENT), "now", None)))
        here.each((check_words(file, kind=kind), yes), (check_words("--", file), yes),
                  (check_words(file, options=OPTIONS), yes),
                  ([*check_words(file), b"--wide", b"--relaxed", b"--wide"], yes),
                  (check_words(file, kind=other), ANOTHER_KIND), (check_words(file, chain=CHAIN[:1]), NOT_ISSUED))
    for file, cause in REFUSED:
        here.each((check_words(file), refused(cause)))
        every.append((file, b"refused: " + cause + b"\n"))
    here.write("none.roa", b"")
    every += [every[0], ("none.roa", EARLY_END[1])]
    for some in (every[:4], every[:5], every[4:6], every):
        files, said = [file for file, _ in some], b"".join(entry(*it) for it in some)
        status = 0 if len(some) == 4 else 1
        here.each((check_words(*files), (status, said, b"")))
    some = [every[0], (CHAIN[0], b"malformed\n"), every[-1]]
    here.each((check_words(*(file for file, _ in some), kind="roa"), (1, b"".join(entry(*it) for it in some), b"")))


def held_by(here):
    """What folders have of the files that a manifest or a checklist lists."""
    held = b"".join(b"held " + os.fsencode(it) + b"\n" for it in made.AUTHORITY_FILES)
    letter = f"{made.EXAMPLES}/letter.sig"
    for folder, files in (("few", {"origin.roa": b"", "x.roa": b"", "authority.mft": b""}),
                          ("letters", {"letter.txt": b"a letter\n", "any": b"no name\n"}),
                          ("letter", {"letter.txt": b""}),
                          ("odd", {"\udcff": b"", "\udcfe.roa": b""})):
        os.mkdir(f"{here.room}/{folder}")
        for name, octets in files.items():
            here.write(f"{folder}/{name}", octets)
    missing = re.sub(rb"^held", b"missing", held, flags=re.M)
    lacking = missing.replace(b"missing origin", b"differs origin")
    no_texts = b"files not read, since their names are not UTF-8: 2\n"
    here.each((files_words(), (0, b"yes\nmanifest\n" + held, b"")),
              (files_words(at="now", options=OPTIONS), (0, b"yes\nmanifest\n" + held, b"")),
              (files_words(folder="odd"), (1, b"no\nmanifest\n" + missing + no_texts, b"")),
              (files_words(letter, "odd"),
               (1, b"no\nrsc\nmissing letter.txt\nmissing " + NO_NAME + b"\n" + no_texts, b"")),
              (files_words(folder="few"), (1, b"no\nmanifest\n" + lacking + b"unlisted x.roa\n", b"")),
              (files_words(options=["--json"]), in_json_line(made.MANIFEST, "manifest", True, held)),
              (files_words(folder="few", options=["--json"]),
               in_json_line(made.MANIFEST, "manifest", False, lacking + b"unlisted x.roa\n")),
              (files_words(letter, "letters"), (0, b"yes\nrsc\nheld letter.txt\nheld %s\n" % NO_NAME, b"")),
              (files_words(letter, "letter"), (1, b"no\nrsc\ndiffers letter.txt\nmissing %s\n" % NO_NAME, b"")),
              (files_words(folder="none"), (4, b"", b"no such folder: none\n")),
              (files_words("none.mft"), unreadable(b"none.mft")),
              (files_words(ORIGIN), (2, b"", b"no manifest and no checklist: " + os.fsencode(ORIGIN) + b"\n")),
              (files_words(chain=CHAIN[:1]), NOT_ISSUED),
              (files_words(chain=[ORIGIN]), named_refusal(ORIGIN, b"malformed")),
              (files_words(crl=ORIGIN), (2, b"", b"bad list " + os.fsencode(ORIGIN) + b"\n")))


def lists(here):
    """The list of the good signatures of each object, and of one that has a signature less."""
    files = [file for _, file, _, _ in made.OBJECTS] + [made.OVERCLAIMING, EXPIRED]
    for file in files:
        wanted = 0, octets_of(f"{made.EXAMPLES}/{os.path.basename(file)}.verdicts"), b""
        here.each(*((list_words(file, options=options), wanted) for options in ([], OPTIONS)))
    lines = octets_of(f"{made.EXAMPLES}/broken.roa.verdicts").splitlines(keepends=True)
    here.each((list_words(BROKEN), (0, b"".join(lines[:3]), b"")), (list_words(CHAIN[0]), MALFORMED),
              (list_words(ORIGIN, [ORIGIN]), NO_ISSUER), (list_words(ORIGIN, [*CHAIN, "none"]), unreadable(b"none")))


def attestations(here):
    """What is said of each attestation, and the list of its good signatures."""
    for name, wanted in ATTESTATIONS:
        file = f"{made.EXAMPLES}/{name}"
        here.each(*((rta_words(file, at=at), wanted) for at in (MOMENT, marked(MOMENT), "now", None)))
        there = octets_of(file)
        digests = {hashlib.sha256(there[at:at + 256]).hexdigest() for at in range(len(there))}
        lines = octets_of(f"{file}.verdicts").splitlines(keepends=True)
        good = lines[:2] + [it for it in lines[2:] if it.split()[2].decode() in digests]
        here.each((rta_list_words(file), (0, b"".join(good), b"")))
    under = f"ca={ORIGIN}"
    here.each(*((rta_words(AGREEMENT, anchor), refused(b"RTA could not be validated")) for anchor in ANCHORS))
    here.each((rta_words(AGREEMENT, under), named_refusal(ORIGIN, b"malformed")),
              (rta_words(AGREEMENT, f"tal={ORIGIN}"), no_locator(ORIGIN)),
              (rta_words(AGREEMENT, "tal=none"), unreadable(b"none")), (rta_list_words(ORIGIN), MALFORMED),
              (rta_list_words(AGREEMENT, under), NO_ISSUER))


def no_locator(file):
    """What is said where this is to be a locator."""
    return 2, b"", b"bad locator " + os.fsencode(file) + b"\n"


def revocation_lists(room):
    """Lists of both CAs: those that are published, which revoke nothing, and one of the trust anchor
    that revokes its CA."""
    key = publication.signer("anchor")
    with open(f"{room}/late.crl", "wb") as it:
        it.write(publication.crl(key, publication.SIGNED, publication.PAST, [2], key))
    return f"{made.PUBLISHED}/anchor/anchor.crl", f"{made.AUTHORITY}/authority.crl"


def keyless(room, authority):
    """The certificate of the CA whose subject key identifier has another type (2.5.29.127)."""
    with open(authority, "rb") as it:
        octets = it.read()
    with open(f"{room}/keyless.cer", "wb") as it:
        it.write(octets.replace(b"\x06\x03\x55\x1d\x0e", b"\x06\x03\x55\x1d\x7f"))


def given_words(*lists, files=(ORIGIN,), **values):
    return check_words(*files, crl=lists, **values)


def each_settings(here):
    """What locators, revocation lists and certificates do to a check."""
    yes = 0, b"yes\n" + made.ORIGIN_LINES, b""
    anchor, authority = CHAIN
    own, other = TALS
    empty, revoking = revocation_lists(here.room), f"{made.EXAMPLES}/revoking.crl"
    revoked = refused(b"revoked by " + os.fsencode(revoking))
    bad_list = 2, b"", b"bad list " + os.fsencode(ORIGIN) + b"\n"
    bad_locator = no_locator(ORIGIN)
    other_key = named_refusal(anchor, b"key is not that of " + os.fsencode(other))
    late = named_refusal(authority, b"revoked by late.crl")
    keyless(here.room, authority)
    here.each((given_words(tal=own), yes), (given_words(tal=other), other_key), (given_words(tal=ORIGIN), bad_locator),
              (given_words(ORIGIN, tal=ORIGIN), bad_locator), (given_words(ORIGIN, tal=other), bad_list),
              (given_words(*empty, tal=own), yes), (given_words(*empty, revoking), revoked),
              (given_words("late.crl", chain=CHAIN[:1]), NOT_ISSUED),
              (given_words(revoking, "late.crl", empty[1], files=(TALS[0],), chain=CHAIN[:1]),
               (0, b"yes\n" + TAL_LINES, f"no CA for list {revoking}\nno CA for list {empty[1]}\n".encode())),
              (given_words(revoking, "late.crl"), late), (given_words(*empty, ORIGIN, revoking), bad_list),
              (given_words(revoking, files=(BROKEN,)), refused(b"signature is not valid")),
              (given_words("none"), unreadable(b"none")), (given_words(tal="none"), unreadable(b"none")),
              (given_words(files=(ORIGIN, "none.mft")),
               (4, entry(ORIGIN, yes[1]) + entry("none.mft", here.unreadable("none.mft")[1]), b"")),
              (given_words("no.crl", files=("no.roa",), tal="no.tal"), unreadable(b"no.tal")),
              (given_words(chain=[anchor, ORIGIN]), named_refusal(ORIGIN, b"malformed")),
              (given_words(chain=[ORIGIN]), named_refusal(ORIGIN, b"malformed")),
              (given_words(chain=[anchor, "keyless.cer"]),
               named_refusal("keyless.cer", b"malformed: subjectKeyIdentifier is missing")),
              (given_words(chain=[*CHAIN, authority]),
               named_refusal(authority, not_issued(ANCHOR_KEY, authority, CA_KEY))),
              (given_words(at="2025-12-31T23:59:59Z"), named_refusal(anchor, b"certificate is not yet valid")),
              (given_words(at="20400101000001Z", tal=other), named_refusal(anchor, b"certificate has expired")),
              (given_words(files=(EXPIRED,), at="2026-05-01T00:00:00Z"), yes),
              (given_words(files=(authority,), chain=CHAIN[:1]), (0, b"yes\n" + ISSUED["anchor/authority.cer"], b"")),
              (given_words("late.crl", files=(authority,), chain=CHAIN[:1]), refused(b"revoked by late.crl")),
              (given_words(files=(authority,)), refused(not_issued(ANCHOR_KEY, authority, CA_KEY))),
              (given_words(files=("keyless.cer",)), (1, b"malformed: subjectKeyIdentifier is missing\n", b"")),
              (given_words(files=empty[1:]), (0, b"yes\ncrl\n", b"")),
              (given_words(files=empty[:1]), refused(b"authority key identifier is not the issuer's")),
              (given_words(files=("late.crl",), chain=CHAIN[:1]), refused(b"stale: nextUpdate 2026-12-01T00:00:00Z")),
              (given_words(files=empty[1:], at="20261031000000Z"),
               refused(b"not yet current: thisUpdate 2026-11-01T00:00:00Z")),
              (given_words(files=TALS[1:]), refused(b"the trust anchor has another key")),
              (given_words(files=(ORIGIN,), kind="tal"), MALFORMED))
    providers = made.OBJECTS[1]
    said = entry(ORIGIN, revoked[1]) + entry(providers[1], b"yes\n" + providers[2])
    here.each((given_words(revoking, files=(ORIGIN, providers[1])), (1, said, b"")))


def attestation_lists(room):
    """Lists of the CA: of the serial number of its customer, whose certificate the attestation
    carries, and of that of the holder, which the customer issued."""
    key = publication.signer("authority")
    for name, serial in (("customer", 8), ("holder", 5)):
        with open(f"{room}/{name}.crl", "wb") as it:
            it.write(publication.crl(key, publication.SIGNED, publication.PAST, [serial], key))


def each_attestations(here):
    """Attestations in checks: one chain anchors one of the two signers, or the only one."""
    yes = 0, b"yes\n" + HOLDING_LINES, b""
    here.each((check_words(HOLDING), yes))
    alone = refused(b"RTA could not be validated")
    for file, chain, cause in ((HOLDING, CHAIN[:1], alone), (AGREEMENT, CHAIN, alone),
                               (f"{made.EXAMPLES}/broken.rta", CHAIN, refused(b"missing certificate"))):
        here.each((check_words(file, chain=chain), cause))
    revoked = refused(b"revoked by customer.crl")
    attestation_lists(here.room)
    for lists, wanted in ((["holder.crl"], yes), (["holder.crl", "customer.crl", "customer.crl"], revoked)):
        here.each((given_words(*lists, files=(HOLDING,)), wanted))
    here.each((given_words("customer.crl", files=(HOLDING,), options=["--json"]),
               in_json_line(HOLDING, "rta", False, revoked[1].decode().strip())))


# Of each of made.OBJECTS what `openssl x509` prints of its signer's certificate: the serial number,
# the name of the signed object, the numbers.
SIGNERS = ((b"01", b"origin.roa", b"ipv4 192.0.2.0/24\nipv6 2001:db8::/32\n"),
           (b"02", b"providers.asa", b"as AS64496\n"),
           (b"06", b"authority.mft", b"as inherit\nipv4 inherit\nipv6 inherit\n"),
           (b"07", b"", b"as AS64496\nipv4 192.0.2.0/24\n"))


def signer_lines(at):
    """The line of the signer of one of them, and below it those of its certificate."""
    serial, name, numbers = SIGNERS[at]
    key = made.OBJECTS[at][3].split()[2] + b"\n"
    location = b"signed-object rsync://rpki.example.net/authority/%s\n" % name
    return (b"ee %s %scertificate\nserial %s\nvalid-from 2026-01-01T00:00:00Z\nvalid-until 2040-01-01T00:00:00Z\n"
            b"key-id %sauthority-key-id C78637259551E49913A293A978985D33FBECF9C1\nee\n%s"
            b"ca-issuers rsync://rpki.example.net/anchor/authority.cer\n"
            b"crl rsync://rpki.example.net/authority/authority.crl\n%s"
            % (serial, key, serial, key, location if name else b"", numbers))


def whole_lines(at):
    """What is shown of one of them."""
    return made.OBJECTS[at][2].replace(b"\nnumber 1\n", b"\nnumber 01\n") + made.SIGNING + signer_lines(at)


def each_shown(here):
    """What is shown of one file, and of several."""
    every = [(file, whole_lines(at), kind) for at, (kind, file, _, _) in enumerate(made.OBJECTS)]
    every += [(f"{made.PUBLISHED}/{name}", lines, "crl" if name.endswith(".crl") else "certificate")
              for name, lines in ISSUED.items()]
    every += [(TALS[0], TAL_LINES, "tal"), (HOLDING, example_files.WHOLE_RTA.encode(), "rta")]
    for file, lines, kind in every:
        yes = 0, lines, b""
        here.each((show_words(file), yes), (show_words(file, kind=kind, options=OPTIONS), yes),
                  ([*show_words(file), b"--wide"], yes))
    for at, (kind, file, _, _) in enumerate(made.OBJECTS):
        here.each((show_words(file, kind="aspa" if kind == "roa" else "roa"), ANOTHER_KIND))
    said = b"".join(entry(file, lines) for file, lines, _ in every)
    here.each((show_words(*(it[0] for it in every)), (0, said, b"")))
    said = entry(ORIGIN, every[0][1]) + entry(CHAIN[0], b"malformed\n")
    here.each((show_words(ORIGIN, CHAIN[0], kind="roa"), (1, said, b"")))
    for file, kind in ((CHAIN[0], "crl"), (f"{made.EXAMPLES}/revoking.crl", "certificate"), (ORIGIN, "certificate"),
                       (ORIGIN, "tal")):
        here.each((show_words(file, kind=kind), malformed(file)))
    said = entry(ORIGIN, every[0][1]) + entry("none.cer", here.unreadable(b"none.cer")[1])
    said += b"none.txt: skipped: unknown kind of file: give --kind KIND\n"
    here.each((show_words(ORIGIN, "none.cer", "none.txt"), (4, said, b"")))


def malformed(file):
    return 1, verify_words.malformed(octets_of(file)).encode() + b"\n", b""


# The files of examples/ with what is said of each in JSON.
FILES_IN_JSON = [(f"{made.EXAMPLES}/{name}", kind, said) for name, kind, said in example_files.OBJECTS]
MEMBERS = {file: said for file, _, said in FILES_IN_JSON}


def in_json(file, type, **said):
    """The line of a file that is shown, or checked."""
    return f"{compact({'file': file, 'type': type} | said)}\n".encode()


def in_json_line(file, kind, is_valid, said):
    """What is said in JSON of a file that is checked: these members, or this reason, or, where a folder
    is looked at, these lines."""
    if isinstance(said, bytes):
        said = {"lines": said.decode().splitlines()}
    return int(not is_valid), in_json(file, kind, valid=is_valid,
                                      **({"reason": said} if isinstance(said, str) else said)), b""


def each_json(here):
    """Files that are shown and checked as objects of JSON."""
    shown = [in_json(file, kind, **said) for file, kind, said in FILES_IN_JSON]
    for (file, _, _), line in zip(FILES_IN_JSON, shown):
        here.each((show_words(file, options=["--json"]), (0, line, b"")))
    files = [file for file, _, _ in FILES_IN_JSON]
    here.each(([*show_words(*files), b"--json"], (0, b"".join(shown), b"")))
    keyless(here.room, CHAIN[1])
    for file, kind, cause in (
        (CHAIN[0], "roa", "malformed"), ("keyless.cer", "certificate", "malformed: subjectKeyIdentifier is missing"),
        (ORIGIN, "aspa", ANOTHER_KIND[1].decode().strip()), ("none", "crl", "cannot be read: no such file"),
    ):
        here.each((show_words(file, kind=kind, options=["--json"]),
                   (4 if file == "none" else 1, in_json_line(file, kind, False, cause)[1], b"")))
    checked = [(file, in_json_line(file, kind, True, MEMBERS[file])) for kind, file, *_ in made.OBJECTS]
    checked += [(HOLDING, in_json_line(HOLDING, "rta", True, MEMBERS[HOLDING]))]
    checked += [(file, in_json_line(file, "roa", False, f"refused: {cause.decode()}")) for file, cause in REFUSED]
    here.each(*((check_words(file, options=["--json"]), wanted) for file, wanted in checked))
    lines = b"".join(line for _, (_, line, _) in checked)
    lines += in_json_line("none.mft", "manifest", False, "cannot be read: no such file")[1]
    lines += in_json_line("none.txt", "", False, "skipped: no kind that is checked")[1]
    here.each(([*check_words(*(file for file, _ in checked), "none.mft", "none.txt"), b"--json"], (4, lines, b"")),
              (check_words(CHAIN[0], kind="roa", options=["--json"]),
               in_json_line(CHAIN[0], "roa", False, "malformed")))
    cause = f"issuer refused: {CHAIN[0]}: certificate has expired"
    said = [in_json_line(file, kind, False, cause)[1] for file, kind in ((ORIGIN, "roa"), (HOLDING, "rta"))]
    here.each((check_words(ORIGIN, HOLDING, at="20410101000000Z", options=["--json"]), (1, b"".join(said), b"")))
    for name in ('a"b.roa', "a\\b.roa", "\u00e9\U0001f511.roa"):
        shutil.copy(ORIGIN, os.fsencode(f"{here.room}/{name}"))
        here.each((check_words(name, options=["--json"]), in_json_line(name, "roa", True, MEMBERS[ORIGIN])))


def standard_input(here):
    """A file in the place of which standard input is read, by the name `-`."""
    def asked(words, file):
        with open(file, "rb") as it:
            return here.ran(words, stdin=it)
    yes = 0, b"yes\n" + made.ORIGIN_LINES, b""
    here.judge("check, -- before -", asked(check_words("--", "-", kind="roa"), ORIGIN), yes)
    said = entry("-", yes[1]) + entry("-", EARLY_END[1])
    here.judge("check - twice: there is nothing left", asked(check_words("-", "-", kind="roa"), ORIGIN), (1, said, b""))
    here.judge("check - without its kind", asked(check_words("-"), ORIGIN),
               (1, b"skipped: no kind that is checked\n", b""))
    here.judge("check ./-, which is a file", asked(check_words("./-", kind="roa"), ORIGIN), here.unreadable(b"./-"))
    here.write("zeros", bytes(strains.LARGE))
    for words, file, said, of_zeros in words_of_input(here):
        name = f"{b' '.join(map(os.path.basename, words))!r}"
        here.judge(f"{name}, {os.path.basename(file)!r} as -", asked(words, file), said)
        here.judge(f"{name}, in pieces", in_pieces(here, words, octets_of(file)), said)
        no_input(here, name, words)
        here.small("zeros as -", strains.LARGE, words, of_zeros, given="zeros")


def words_of_input(here):
    """Words of each command in which a file is `-`, that file, what is said, and what is said where it is zeros."""
    no_list, bad_locator = (2, b"", b"bad list -\n"), no_locator("-")
    authority, own, located = ("-", CHAIN[1]), TALS[0], ("tal=-", ANCHORS[1])
    yes, held = (0, b"yes\n" + made.ORIGIN_LINES, b""), here.ran(files_words())
    listed, carried = ((0, octets_of(f"{it}.verdicts"), b"") for it in (f"{made.EXAMPLES}/origin.roa", AGREEMENT))
    granted, revoking, second = ATTESTATIONS[0][1], f"{made.EXAMPLES}/revoking.crl", f"{made.EXAMPLES}/second.tal"
    no_issuer = named_refusal("-", b"malformed")
    found = [
        (check_words("-", kind="roa"), ORIGIN, yes, MALFORMED),
        (check_words(ORIGIN, chain=authority), CHAIN[0], yes, no_issuer),
        (check_words(ORIGIN, tal="-"), own, yes, bad_locator),
        (check_words(ORIGIN, tal="-"), TALS[1], named_refusal(CHAIN[0], b"key is not that of -"), bad_locator),
        (given_words("-"), revoking, refused(b"revoked by -"), no_list),
        (files_words(chain=authority), CHAIN[0], held, no_issuer),
        (rta_words("-"), AGREEMENT, granted, MALFORMED),
        (rta_words(AGREEMENT, *located), second, granted, no_locator("-")),
        (list_words("-"), ORIGIN, listed, MALFORMED),
        (list_words(ORIGIN, authority), CHAIN[0], listed, NO_ISSUER),
        (rta_list_words("-"), AGREEMENT, carried, MALFORMED),
        (payloads_words("-", format="csv"), own, (0, printed(as_csv, "-"), NO_ROAS.replace(b", anchor)", b", -)")),
         bad_locator),
    ]
    kinds = [("certificate", CHAIN[1]), ("crl", revoking), ("tal", own), ("rta", AGREEMENT),
             *((kind, file) for kind, file, _, _ in made.OBJECTS)]
    return found + [(show_words("-", kind=kind), file, here.ran(show_words(file, kind=kind)), MALFORMED)
                    for kind, file in kinds]


def in_pieces(here, words, octets):
    """A run to which a pipe gives a few octets at a time."""
    read, into = os.pipe()

    def give():
        with open(into, "wb", buffering=0) as it:
            for at in range(0, len(octets), 97):
                it.write(octets[at:at + 97])
                time.sleep(0.001)

    giver = threading.Thread(target=give, daemon=True)
    giver.start()
    got = here.ran(words, stdin=read)
    giver.join()
    os.close(read)
    return got


def no_input(here, name, words):
    """Runs whose standard input can't be read, or has no end."""
    is_entry = words[0] in (b"check", b"show") and words[-1] == b"-"
    unread = here.unreadable if is_entry else unreadable
    here.judge(f"{name}, closed", here.ran(words, preexec_fn=running.closed(0)), unread(b"-", b""))
    folder = os.open(here.room, os.O_RDONLY)
    null = os.open(os.devnull, os.O_WRONLY)
    empty, into = os.pipe()
    os.set_blocking(empty, False)
    # Once nobody has the other end of a terminal open, it gives what there is, and then fails.
    terminal, other = os.openpty()
    os.write(other, b"some octets\n")
    os.close(other)
    for what, stream, why in (("a folder", folder, b"is a folder"), ("not for reading", null, b""),
                              ("a pipe that has nothing yet and does not wait", empty, b""),
                              ("a terminal that fails", terminal, b"")):
        here.judge(f"{name}, {what}", here.ran(words, stdin=stream), unread(b"-", why))
    for stream in (folder, null, empty, into, terminal):
        os.close(stream)
    if here.is_plain:
        with open("/dev/full", "rb") as full:
            got = here.ran(words, stdin=full, preexec_fn=running.limited(256 << 20))
            here.judge(f"{name}, /dev/full, which has no end", got, OUT_OF_MEMORY)


# What there is of payloads in examples/, and what is refused.
COPY = made.EXAMPLES
TALS = f"{COPY}/anchor.tal", f"{COPY}/second.tal"
TAL_LINES = b"tal\nuri rsync://rpki.example.net/anchor.cer\nkey 1A3A434D3CB238F39188C4ED212421A717BB7C97\n"
NO_ROAS = b"".join(f"refused {uri}: {cause} (under {under}, anchor)\n".encode()
                   for uri, cause, under in EXAMPLES_REFUSED)
NO_SECOND = b"refused second: manifest is not in the copy\n"
# The same where there is no memory to read the point of the CA.
UNREAD = [("rsync://rpki.example.net/anchor/anchor.mft", "not read: 1 CA, out of memory",
           "rsync://rpki.example.net/anchor/anchor.mft")]
NO_MEMORY = b"refused %s: %s (under %s, anchor)\n" % (*map(str.encode, UNREAD[0]),)
# The same where memory runs out in a run under a locator, but in no point below its trust anchor's.
NO_RUN = b"refused %s: out of memory\n"
# The same of a copy that is not there.
NO_ANCHOR = ("no such folder: {0}\n"
             "refused anchor: its certificate is not in the copy\n"
             "anchor: looked for {0}/rpki.example.net/anchor.cer and {0}/ta/anchor/anchor.cer\n").format
# The largest file, a manifest, and what is said where it is too large.
LARGEST = os.path.getsize(made.MANIFEST)
TOO_LARGE = (b"refused rsync://rpki.example.net/authority/authority.mft: manifest is too large"
             b" (under rsync://rpki.example.net/anchor/anchor.mft, anchor)\n")


def printed(write, name="anchor", said=EXAMPLES, refused=EXAMPLES_REFUSED, **more):
    """What is printed of this, found below the locator of a name."""
    return write([(name, said)] if name else [], {name: refused}, **more).encode()


def payloads_words(*tals, copy=COPY, at=MOMENT, **values):
    return words_of("payloads", copy, *(tals or TALS[:1]), at=at, **values)


def made_now(octets, before):
    """The payloads in JSON as they are found at a moment of the clock, from this one on."""
    made = int((re.search(rb'"generated":(\d+)', octets) or (b"", b"0"))[1])
    if not before <= made <= time.time():
        return b"made at another moment"
    return printed(as_json, moment=time.strftime("%Y%m%d%H%M%SZ", time.gmtime(made)))


def payloads(here):
    """The payloads of a copy. trees.py has further copies."""
    for options, write in WRITERS.items():
        status, out, err = here.ran(payloads_words(options=options))
        if "--long" in options:
            out = re.sub(rb" rsync://rpki\.example\.net/authority/(origin\.roa|providers\.asa)$", b"", out, flags=re.M)
        here.judge(f"payloads {options}", (status, out, err), (0, printed(write), NO_ROAS))
    for at in (marked(MOMENT), "now", None):
        before, got = int(time.time()), here.ran(payloads_words(at=at, format="json"))
        said = printed(as_json) if at == marked(MOMENT) else made_now(got[1], before)
        here.judge(f"payloads at {at}", got, (0, said, NO_ROAS))
    lines = printed(as_lines)
    here.each((payloads_words(*TALS), (1, lines, NO_SECOND + NO_ROAS)),
              (payloads_words(copy="none"), (1, b"", NO_ANCHOR("none").encode())),
              (payloads_words(copy="-"), (1, b"", NO_ANCHOR("-").encode())),
              (payloads_words(ORIGIN), no_locator(ORIGIN)), (payloads_words(TALS[0], "none"), unreadable(b"none")),
              (payloads_words(max_file="1"), (1, b"", b"refused anchor: its certificate is too large\n")),
              (payloads_words(max_file=str(LARGEST)), (0, lines, NO_ROAS)),
              (payloads_words(max_file=str(LARGEST - 1)), (0, b"", TOO_LARGE)),
              (payloads_words(max_file="20000000", limit="8589934592", options=["--wide", "-v"]), (0, lines, NO_ROAS)))


def laid(here, folder, tree):
    """Puts the copy and the locators of a tree into a folder."""
    here.lay({f"{folder}/copy/{path}": octets for path, octets in tree.written().items()})
    here.lay({f"{folder}/{name}": octets for name, octets in tree.tals.items()})


def several_locators(here):
    """What two trust anchors say, one under a name that CSV quotes and JSON escapes: each payload once,
    as long as it holds below the one where it holds longest; and a customer with its providers by both."""
    tree = tree_rows.Tree()
    name, later, sooner = 'two, "2"\\', "20370101000000Z", "20300101000000Z"
    other = publication.Ca("other", publication.EVERYTHING)
    under = publication.Ca("x", tree.a.claim, other)
    for file, number, prefix, last in (("longer", 65001, "10.1.0.0/16-24", later),
                                       ("shorter", 65001, "2001:db8:1::/48", sooner),
                                       ("own", 65003, "10.1.2.0/24", sooner)):
        under.add_roa(f"{file}.roa", number, [prefix], last=last)
    under.add_aspa("o.asa", 65001, [65011, 65012], last=sooner)
    under.add_aspa("p.asa", 65009, [65010], last=later)
    for ca in (other, under):
        ca.list_times = ca.manifest_times = publication.SIGNED, later
    other.add_ca(under)
    tree.cas += [other, under]
    tree.put(other.uri, other.certificate())
    tree.tals[f"{name}.tal"] = publication.locator([other.uri], other.signer)
    laid(here, "two", tree)
    origin, aspa = tree_rows.origin, tree_rows.aspa
    found = [("one", tree.found["one"]), (name, [
        origin(65001, "10.1.0.0/16", 24, later), origin(65001, "2001:db8:1::/48", None, sooner),
        origin(65003, "10.1.2.0/24", None, sooner),
        aspa(65001, 65011, 65012, until=sooner), aspa(65009, 65010, until=later)])]
    for order in (found, found[::-1]):
        tals = [f"two/{name}.tal" for name, _ in order]
        for options, write in WRITERS.items():
            status, out, err = here.ran(payloads_words(*tals, copy="two/copy", options=options))
            if "--long" in options:
                out = re.sub(rb" rsync://\S+$", b"", out, flags=re.M)
            here.judge(f"payloads under {tals} {options}", (status, out, err), (0, write(order, {}).encode(), b""))


def exceptions(here):
    """Payloads after local exceptions, by exceptions.py."""
    def ran(*texts):
        files = [f"{at}.json" for at in range(len(texts))]
        for file, text in zip(files, texts):
            here.write(file, text.encode())
        return here.ran(payloads_words(slurm=files))
    origins = of_lines(printed(as_lines))
    pairs = [(customer, it) for kind, customer, several, *_ in EXAMPLES if kind == "aspa" for it in several]
    one = slurm.made(filters=slurm.FILTERS[:1], assertions=slurm.ASSERTIONS)
    two = slurm.made(2, aspa_filters=[{"customerAsn": 64496}],
                                aspa_assertions=[{"customerAsn": 64500, "providerAsns": [64501, 64502]}])
    # What is found already, alone and with a provider more.
    again = slurm.made(2, assertions=[{"asn": 64496, "prefix": "192.0.2.0/24", "maxPrefixLength": 26}],
                                  aspa_assertions=[{"customerAsn": 64496, "providerAsns": [64497, 64498]}])
    for texts in ((one,), (two,), (one, two), (again,), *slurm.APART):
        left, pairs_left = slurm.after(origins, pairs, *texts)
        said = [("origin", *it, "") for it in left] + [("aspa", customer, (it,), "") for customer, it in pairs_left]
        here.judge(f"payloads after {texts}", ran(*texts), (0, printed(as_lines, said=said), NO_ROAS))
    for what, text in slurm.REFUSED.items():
        here.judge(f"payloads after {what}", (*ran(text)[:2], b""), (2, b"", b""))
    for texts in slurm.OVERLAPPING:
        here.judge(f"payloads after {texts}", (*ran(*texts)[:2], b""), (2, b"", b""))
    here.each((payloads_words(slurm="none"), unreadable(b"none")))


def moments(here):
    """A moment as a word, and that of the clock."""
    for file in (ORIGIN, EXPIRED):
        for _ in range(3):
            before = told()
            got = here.ran(check_words(file, at="now"))
            wanted = [here.ran(check_words(file, at=at)) for at in (before, told())]
            here.judge(f"check {file} now, as at {before}", got, *wanted)
    for moment, cause in (("20251231235959Z", b"certificate is not yet valid"),
                          ("20400101000001Z", b"certificate has expired")):
        for at in (moment, marked(moment)):
            for words in (check_words(ORIGIN, at=at), files_words(at=at)):
                here.each((words, named_refusal(CHAIN[0], cause)))


def signatures(here, room):
    """Each of some octets of the signature changed: the last 256 octets of an object."""
    octets, name = octets_of(ORIGIN), f"{room}/changed"
    for at in (1, 2, 128, 255, 256):
        changed = bytearray(octets)
        changed[-at] ^= 1
        with open(name, "wb") as it:
            it.write(changed)
        here.each((check_words(name, kind="roa"), refused(b"signature is not valid")))
    with open(name, "wb") as it:
        it.write(octets + b"more")
    yes = 0, b"yes\n" + made.ORIGIN_LINES, b""
    here.each((check_words(name, kind="roa"), yes))
    forged_certificate(here)


def forged_certificate(here):
    """A ROA whose certificate is signed by the key of another CA than its issuer."""
    tree = tree_rows.Tree()
    tree.a.add_roa("forged.roa", 65001, ["10.1.9.0/24"], by=publication.signer("b"))
    for name, it in (("top.cer", tree.top.certificate()), ("a.cer", tree.a.certificate()),
                     ("forged.roa", tree.a.files["forged.roa"]),
                     ("twice.roa", tree.a.files["forged.roa"][:-1] + b"\0")):
        here.write(name, it)
    for name in ("forged.roa", "twice.roa"):
        said = refused(b"signature is not valid: the key in a.cer did not sign its certificate")
        here.each((check_words(name, chain=("top.cer", "a.cer")), said))


def helps(here):
    """How each command is called, by the table of options; and what an unknown option of it gets: the
    usage of that command alone."""
    _, table, _ = here.ran([b"--options"])
    rows = [it.split("\t") for it in table.decode().splitlines()]
    for command, operands, bare, said in (it for it in rows if len(it) == 4):
        status, out, err = here.ran([command.encode(), b"--help"])
        usage, about, listed, rest = (*out.decode().split("\n\n"), "", "", "")[:4]
        options = [(it[1:3], it[4], it[5]) for it in rows if len(it) == 6 and it[0] == command]
        wanted = [f"  {' '.join(words):<18}{help}{f': {form}' * bool(form)}" for words, form, help in options]
        here.judge(f"{command} --help", (status, [about, *listed.split("\n"), rest[:5]], err),
                   (0, [said, *wanted, "After"], b""))
        parts = operands, bare, *(words[0] for words, *_ in options if words[0] != "--help")
        lacking = ", ".join(it for it in parts if it not in usage)
        here.judge(f"usage of {command}", (status, lacking, err), (0, "", b""))
        wanted = (f'rpki_verify: unknown option "--none": put -- before a file whose name begins with -\n{usage}\n'
                  f"rpki_verify {command} --help says more\n")
        here.each(([command.encode(), b"--none"], (2, b"", wanted.encode())))


def no_text(here):
    """Words that are no text (UTF-8)."""
    for words in ([b"\xff"], [b"show", b"\xff.roa"], check_words(b"\xff.roa"),
                  [*check_words(ORIGIN), b"--ca", b"\xff"]):
        here.each((words, (2, b"", b"rpki_verify: an argument is not UTF-8\n")))


def file_names(here):
    """Names of files, none of which has a line end."""
    names = [it for it in strains.NAMES if b"\n" not in it]
    os.mkdir(f"{here.room}/folder")
    here.file_names(names)
    os.rmdir(f"{here.room}/folder")
    for name in names:
        name = name[:251] + b".roa"
        path = os.path.join(os.fsencode(here.room), name)
        shutil.copy(ORIGIN, path)
        here.each((check_words("--", name), (0, b"yes\n" + made.ORIGIN_LINES, b"")))
        os.remove(path)
    for count in (256, 5_000):
        name = b"n" * (count - 4) + b".roa"
        here.each((check_words(name), here.unreadable(name, b"")))


def special(here):
    """A folder, and files that are none of the disk."""
    os.mkdir(f"{here.room}/folder")
    here.asks("a folder", b"folder", here.unreadable(b"folder", b"is a folder"))
    here.each((check_words("folder", kind="roa"), here.unreadable(b"folder", b"is a folder")),
              (check_words(ORIGIN, chain=[*CHAIN, "folder"]), unreadable(b"folder", b"is a folder")))
    here.special_files()


def each_when_done(here):
    """Checks and shows of two files, of which the second is a FIFO: the entry of the first is there before
    the FIFO is given, and the rest is as where it is a file."""
    path, octets = f"{here.room}/late.roa", octets_of(ORIGIN)
    for words in (check_words, show_words):
        for options in ((), ("--json",)):
            asked = words(ORIGIN, "late.roa", options=options)
            with open(path, "wb") as it:
                it.write(octets)
            whole = here.ran(asked)
            os.remove(path)
            first = whole[1][:re.search(rb"^late.roa|\n\{|\Z", whole[1], re.M).end()]
            first = first.removesuffix(b"late.roa").removesuffix(b"{")
            os.mkfifo(path)
            early, got = given_late(here, asked, len(first), path, octets)
            os.remove(path)
            here.judge(f"{asked[0].decode()} {options} before the FIFO is given", (0, early, b""), (0, first, b""))
            here.judge(f"{asked[0].decode()} {options} after it is given", got, whole)


def given_late(here, words, count, path, octets):
    """What a run prints before a FIFO is given these octets, which is to be so many, and then all of it; or
    only the former, where it is less or takes too long."""
    with subprocess.Popen([here.program, *words], cwd=here.room, stdin=subprocess.DEVNULL, stdout=subprocess.PIPE,
                          stderr=subprocess.PIPE) as run:
        early, until = b"", time.monotonic() + running.SLOWER * running.SECONDS
        while len(early) < count and select.select([run.stdout], [], [], max(0, until - time.monotonic()))[0]:
            part = os.read(run.stdout.fileno(), count - len(early))
            if not part:
                break
            early += part
        if len(early) < count:
            run.kill()
        else:
            with open(path, "wb") as it:
                it.write(octets)
        rest, err = run.communicate()
    return early, (run.returncode, early + rest, err)


EXPLAINED = words_of("explain", COPY, TALS[0], "rsync://rpki.example.net/authority/expired.roa", at=MOMENT)


def streams(here):
    """Streams that take nothing."""
    revoking = f"{made.EXAMPLES}/revoking.crl"
    for asked in ([b"--help"], [b"--version"], [b"--options"], [b"check", b"--help"], check_words(ORIGIN),
                  check_words(BROKEN),
                  check_words(ORIGIN, BROKEN), given_words("late.crl"), check_words("none.roa"),
                  check_words(CHAIN[0], "none"),
                  show_words(ORIGIN, CHAIN[0]), show_words(CHAIN[0]), show_words(revoking), show_words(TALS[0]),
                  show_words("none.roa"),
                  check_words(ORIGIN, options=["--json"]), check_words(BROKEN, ORIGIN, options=["--json"]),
                  show_words(ORIGIN, CHAIN[0], options=["--json"]), files_words(), files_words(options=["--json"]),
                  list_words(ORIGIN), rta_words(AGREEMENT), rta_list_words(AGREEMENT), EXPLAINED,
                  *(payloads_words(options=it) for it in WRITERS)):
        here.stream_takes_nothing("stdout", asked)
    for asked in ([b"none"], [], check_words(), check_words("a.roa", chain=["none"]), given_words(ORIGIN),
                  check_words(ORIGIN, tal=ORIGIN), files_words(folder="none"), files_words(ORIGIN), list_words("none"),
                  rta_words("none"), payloads_words(ORIGIN)):
        here.stream_takes_nothing("stderr", asked)
    # What is said of files is written on standard output first.
    for asked in (payloads_words(), given_words(revoking, files=(TALS[0],), chain=CHAIN[:1])):
        here.stream_takes_nothing("stderr", asked, wanted=(2, here.ran(asked)[1], b""))


def memory(here, preload):
    """Each allocation refused in turn. Entries before the one for which there is no memory are printed."""
    def in_turn(words, *entries):
        before = [(3, b"".join(entries[:at + 1]), b"out of memory\n") for at in range(len(entries))]
        here.refused_in_turn(preload, words, here.ran(words), *before)
    yes, revoking = b"yes\n" + made.ORIGIN_LINES, f"{made.EXAMPLES}/revoking.crl"
    for file in (ORIGIN, BROKEN, EXPIRED, made.OVERCLAIMING, HOLDING, made.MANIFEST, TALS[0]):
        in_turn(check_words(file))
    in_turn(check_words(ORIGIN, BROKEN, tal=TALS[0]), entry(ORIGIN, yes))
    in_turn(check_words(ORIGIN, BROKEN, HOLDING, options=["--json"]),
            *(here.ran(check_words(it, options=["--json"]))[1] for it in (ORIGIN, BROKEN)))
    in_turn(given_words(revoking), b"refused: revoked by " + os.fsencode(revoking) + b"\n")
    in_turn(given_words(revoking, files=(TALS[0],), chain=CHAIN[:1]), b"yes\n" + TAL_LINES)
    for words in (check_words(CHAIN[1], chain=CHAIN[:1]), check_words(f"{made.AUTHORITY}/authority.crl"),
                  given_words(ORIGIN),
                  given_words("late.crl", revoking), check_words(ORIGIN, tal=TALS[1]), check_words(ORIGIN, tal=ORIGIN),
                  check_words(ORIGIN, at="then"), check_words(ORIGIN, chain=["none"]), check_words("none.roa"),
                  [b"--help"],
                  [b"--options"], [b"show", b"--at", b"now"], [b"show", b"--help"], files_words(),
                  files_words(folder="few"),
                  files_words(f"{made.EXAMPLES}/letter.sig", "letters", options=["--json"]), list_words(ORIGIN),
                  EXPLAINED,
                  *(rta_words(f"{made.EXAMPLES}/{name}") for name, _ in ATTESTATIONS), rta_list_words(AGREEMENT)):
        in_turn(words)
    shown = [file for file, _, _ in FILES_IN_JSON]
    in_turn(show_words(*shown, options=["--json"]),
            *(here.ran(show_words(it, options=["--json"]))[1] for it in shown[:-1]))
    in_turn(show_words(CHAIN[0], ORIGIN), entry(CHAIN[0], ISSUED["anchor.cer"]))
    for options, write in WRITERS.items():
        if write in (as_lines, as_csv, as_json):
            said, unread = printed(write), printed(write, said=[], refused=UNREAD)
            here.refused_in_turn(preload, payloads_words(*TALS, options=options),
                                 (1, said, NO_SECOND + NO_ROAS), (1, unread, NO_SECOND + NO_MEMORY),
                                 (3, printed(write, None), NO_RUN % b"anchor" + NO_SECOND),
                                 (3, said, NO_RUN % b"second" + NO_ROAS))
    here.refused_in_turn(preload, payloads_words(copy="none"), (1, b"", NO_ANCHOR("none").encode()),
                         (3, b"", NO_RUN % b"anchor"))


def hostile(here):
    """What tools/program runs does with large and changing files."""
    here.changing_files()
    octets, _, lines = made.long_roa(here.cut_count)
    here.cut_while_read("a ROA after --kind", show_words("changing", kind="roa"), octets,
                        lines + made.SIGNING + signer_lines(0))
    here.hostile(hostile_words(here))
    here.long_attestations(rta_words("long.rta"), b"missing certificate")
    long_shown(here)
    long_list(here)
    good_roa(here)


def hostile_words(here):
    """Words in which the file `hostile` is none of what it is to be, each with what is said."""
    name, no_issuer = "hostile", named_refusal("hostile", b"malformed")
    os.symlink(name, f"{here.room}/hostile.mft")
    kinds = "roa", "manifest", "rta", "certificate", "crl", "tal"
    asked = [(command(name, kind=kind, options=options), MALFORMED) for command in (show_words, check_words)
             for kind in kinds for options in ((), OPTIONS)[:1 + (kind == "roa")]]
    for chain in ([name], [CHAIN[0], name], [*CHAIN, name]):
        under = f"ca={':'.join(chain)}"
        asked += [(check_words(ORIGIN, chain=chain), no_issuer), (files_words(chain=chain), no_issuer),
                  (rta_words(AGREEMENT, under), no_issuer), (rta_words(AGREEMENT, ANCHORS[0], under), no_issuer),
                  (list_words(ORIGIN, chain), NO_ISSUER), (rta_list_words(AGREEMENT, under), NO_ISSUER)]
    located = f"tal={name}", ANCHORS[1]
    return asked + [
        (check_words(name, name, kind="roa"), (1, b"hostile: malformed\n" * 2, b"")),
        (show_words(name, name, kind="roa"), (1, b"hostile: malformed\n" * 2, b"")),
        (files_words("hostile.mft"), MALFORMED), (rta_words(name), MALFORMED), (list_words(name), MALFORMED),
        (given_words(name), (2, b"", b"bad list hostile\n")), (check_words(ORIGIN, tal=name), no_locator(name)),
        (payloads_words(name), no_locator(name)),
        (rta_list_words(name), MALFORMED), (rta_words(AGREEMENT, *located), no_locator(name)),
        (rta_list_words(AGREEMENT, *located), (0, octets_of(f"{AGREEMENT}.verdicts"), b"")),
    ]


# How many times the file a run may need that says a long object in JSON, and one that says a list.
TIMES_OF_JSON, TIMES_OF_LIST = 112, 8


def long_shown(here):
    """A ROA and a manifest that are shown, and that are not well signed."""
    unsigned = b"signature is not valid"
    octets, lines = here.put_long("long.roa", *made.long_roa(here.many))
    prefixes = [it.split()[1] for it in lines.decode().splitlines()[2:]]
    vrps = [{"asn": "AS64496", "prefix": it, "maxLength": 64} for it in prefixes]
    long_file(here, octets, "long.roa", 0, lines, vrps=vrps)
    for words, wanted in ((check_words("long.roa"), refused(unsigned)),
                          (check_words("long.roa", options=["--json"]),
                           in_json_line("long.roa", "roa", False, f"refused: {unsigned.decode()}"))):
        here.small(f"{here.many} prefixes", len(octets), words, wanted)
    octets, lines = here.put_long("long.mft", *made.long_manifest(here.many))
    lines = lines.replace(b"number c\n", b"number 0C\n", 1)
    files = [{"filename": name.decode(), "hash": it.hex()} for name, it in made.long_files(here.many)]
    long_file(here, octets, "long.mft", 2, lines, manifest_number="0C",
              this_update="2024-01-01T00:00:00Z", next_update="2024-01-08T00:00:00Z",
              filesandhashes=files)
    here.small(f"{here.many} files", len(octets), files_words("long.mft"), refused(unsigned))


def long_file(here, octets, file, at, lines, **said):
    """What is shown of a long object, in lines and in JSON. `at` is where made.OBJECTS has that from
    which it was made."""
    here.small(f"{here.many} in all", len(octets), show_words(file), (0, lines + made.SIGNING + signer_lines(at), b""))
    _, kind, members = FILES_IN_JSON[at]
    here.small(f"{here.many} in all", len(octets), show_words(file, options=["--json"]),
               (0, in_json(file, kind, **members | said), b""), times=TIMES_OF_JSON)


def long_list(here):
    """A revocation list of the CA with very many serial numbers, of which the last is that of a ROA."""
    key = publication.signer("authority")
    serials = [*range(1_000, 1_000 + here.many - 1), 1]
    octets = publication.crl(key, publication.SIGNED, publication.NEXT, serials, key)
    here.write("long.crl", octets)
    texts = [json_members.whole_hex(f"{it:x}") for it in serials]
    lines = ISSUED["authority/authority.crl"] + "".join(f"revoked {it} 2026-11-01T00:00:00Z\n" for it in texts).encode()
    _, kind, members = next(it for it in FILES_IN_JSON if it[1] == "crl")
    said = members | {"revoked_certs": [{"serial": it, "date": "2026-11-01T00:00:00Z"} for it in texts]}
    _, providers, shown, _ = made.OBJECTS[1]
    for words, wanted, times in (
        (show_words("long.crl"), (0, lines, b""), TIMES_OF_LIST),
        (show_words("long.crl", options=["--json"]), (0, in_json("long.crl", kind, **said), b""), TIMES_OF_JSON),
        (check_words("long.crl"), (0, b"yes\ncrl\n", b""), running.TIMES),
        (given_words("long.crl"), refused(b"revoked by long.crl"), running.TIMES),
        (given_words("long.crl", files=(providers,)), (0, b"yes\n" + shown, b""), running.TIMES),
    ):
        here.small(f"{here.many} serial numbers", len(octets), words, wanted, times=times)


def good_roa(here):
    """A ROA of very many prefixes that is good, of a tree of tree_rows.py."""
    tree = tree_rows.Tree()
    tree_rows.of_prefixes(tree, here.many)
    octets = tree.a.files["o.roa"]
    for name, it in (("top.cer", tree.top.certificate()), ("a.cer", tree.a.certificate()), ("o.roa", octets)):
        here.write(name, it)
    prefixes = [it[2] for it in tree.found["one"] if it[0] == "origin" and it[2].endswith("/80")]
    lines = "".join(f"origin {prefix}\n" for prefix in prefixes).encode()
    lines = b"roa\nas AS65001\n" + lines
    [shown] = json_members.values_of(here.ran(show_words("o.roa", options=["--json"]))[1])
    for options, wanted, times in (([], (0, b"yes\n" + lines, b""), TIMES_OF_LIST),
                                   (["--json"], (0, in_json(**shown, valid=True), b""), TIMES_OF_JSON)):
        words = check_words("o.roa", chain=("top.cer", "a.cer"), options=options)
        here.small(f"{here.many} prefixes", len(octets), words, wanted, times=times)


def client(here, room):
    """Each object by both programs, at the moment of the clock: yes or no."""
    cache = f"{room}/cache"
    os.makedirs(f"{cache}/ta/anchor")
    shutil.copytree(made.PUBLISHED, f"{cache}/{os.path.basename(made.PUBLISHED)}")
    shutil.copy(CHAIN[0], f"{cache}/ta/anchor/anchor.cer")
    shutil.copy(f"{made.EXAMPLES}/letter.sig", cache)
    for folder, _, names in os.walk(room):
        os.chmod(folder, 0o755)
        for name in names:
            os.chmod(f"{folder}/{name}", 0o644)
    for file in (ORIGIN, made.MANIFEST, f"{made.EXAMPLES}/letter.sig", made.OVERCLAIMING, EXPIRED, BROKEN):
        asked = ["rpki-client", "-n", "-d", cache, "-t", f"{made.EXAMPLES}/anchor.tal", "-f", file]
        said = subprocess.run(asked, capture_output=True, check=False)
        theirs = b"Validation: OK" in said.stdout
        status, out, err = here.ran(check_words(file, at="now"))
        first = (out or err).split(b"\n")[0]
        here.judge(f"{os.path.basename(file)}: rpki-client {theirs}, rpki_verify {first!r}",
                   (status == 0, b"", b""), (theirs, b"", b""))


def main(words):
    reader = running.reader()
    reader.add_argument("--client", action="store_true")
    given = reader.parse_args(words)
    if given.client and not shutil.which("rpki-client"):
        stop("there is no rpki-client")
    with tempfile.TemporaryDirectory(prefix="verify-") as room:
        here = Verify(running.programs(given), room)
        if given.client:
            client(here, room)
            return here.end()
        preload = running.compiled(TOP / "tools/programs/refuse_growth.c", room)
        if not preload:
            print("no refused allocations: there is no C compiler")
        for part in (answers, held_by, lists, attestations, each_settings, each_attestations, each_shown, each_json,
                     standard_input,
                     payloads, several_locators, exceptions, moments, helps, no_text, file_names, special,
                     each_when_done, streams):
            part(here)
        pages.judge(here, here.programs)
        signatures(here, room)
        memory(here, preload)
        hostile(here)
    print(f"{here.texts} texts of JSON were read")
    return here.end()
