"""Runs rpki_objects, and compares what it does with what its contract and its documents say.

    tools/program runs [--unproved | --in FOLDER]

No contract says what the system's files, streams and arguments give or take, so this looks at them from outside:
    each exit status, and which of the two streams says what, of each command;
    memory that runs out: each allocation refused in turn, of each command (refuse_growth.c, with a C compiler as `cc`
    or $CC), and a limit of the address space;
    streams that are full, closed or read-only, and a pipe that nobody reads;
    a FIFO (opened once), a folder, /dev/stdin and /dev/full as the file;
    names with spaces, in UTF-8 and not, with a line end, with a dash in front, long, empty;
    30,000 arguments, and a program name that is no text;
    a file that grows, shrinks or loses its end while it is read;
    files of 100 MB, or as many as MB_OF_ZEROS says, in the place of each file that the words name, objects of 100,000
    and 1,000,000 prefixes, manifests of 1,000,000 files, attestations of 3,000,000 AS numbers and of 10,000
    certificates, and a list of 500,000 verdicts, under a limit of the stack and one of the address space that is in
    proportion to the file; how much memory each had at most is printed.

A program that rt try built does not start where the address space is limited, and has no allocations of the C
library: such limits and refusals are left out then, and a run may take longer. So are refusals without a C compiler.
"""
import hashlib
import itertools
import os
import resource
import tempfile

from crates import TOP
from programs import made, running
from programs.made import (
    AGREEMENT, AUTHORITY, AUTHORITY_FILES, BROKEN, EXPIRED, EXAMPLES, MANIFEST, OBJECTS, OPTIONS, ORIGIN, OVERCLAIMED,
    OVERCLAIMING, SIGNING, content_in, manifest, manifest_shown, octets_of, verdicts_of)
from programs.running import OUT_OF_MEMORY, limited
from programs.strains import MALFORMED, NAMES, NO_ISSUER, TIMES_OF_NUMBERS, Strained, refused
from publication import make

# The content of AS15562 with the providers AS2914, AS8283, AS51088 and AS206238 (draft-ietf-sidrops-aspa-profile-15).
CONTENT = bytes.fromhex("301DA003020101 02023CCA 3012 02020B62 0202205B 020300C790 020303259E")
SHOWN = 0, b"aspa\ncustomer AS15562\nprovider AS2914\nprovider AS8283\nprovider AS51088\nprovider AS206238\n", b""
# A trust anchor locator (RFC 8630, section 2.2) of a key with the bits `abc`, whose SHA-1 is that of FIPS 180-4.
TAL = b"# made\nhttps://a.example.com/1\nrsync://a.example.com/1/1\n\nMBUwDQYJKoZIhvcNAQEBBQAD\nBABhYmM=\n"
TAL_SHOWN = (0, b"tal\nuri https://a.example.com/1\nuri rsync://a.example.com/1/1\n"
             b"key A9993E364706816ABA3E25717850C26C9CD0D89D\n", b"")
# The ROA of AS64496 for 192.0.2.0/24 up to /26 (RFC 9582, section 4), and a checklist of it (RFC 9323, section 4), with
# a hash without a name.
ROA = bytes.fromhex("301A 020300FBF0 3013 3011 04020001 300B 3009 030400C00002 02011A")
ROA_SHOWN = 0, b"roa\nas AS64496\norigin 192.0.2.0/24-26\n", b""
RSC = bytes.fromhex("3026 300D A00B 3009 A007 3005 020300FBF0 300B 0609608648016503040201 3008 3006 040468617368")
RSC_SHOWN = 0, b"rsc\nas AS64496\nunnamed 68617368\n", b""
CONTENTS = {"roa": (ROA, ROA_SHOWN), "rsc": (RSC, RSC_SHOWN), "aspa": (CONTENT, SHOWN),
            "manifest": (manifest(b"file.cer"), manifest_shown(b"file.cer"))}
USAGE, BAD_VERDICTS = (2, b"", b"usage\n"), (2, b"", b"bad verdicts\n")
YES = 0, b"yes\n", b""
# What agreement.rta of examples/ carries.
CARRIED = b"certificates 5\ncrls 3\nsigners 2\n"
# Words that ask for nothing that there is.
OTHER_WORDS = """
    --help
    content
    content aspa
    content aspa content content
    content none content
    content tal locator
    content aspa none content
    CONTENT aspa content
    show tal
    show tal locator locator
    show none locator
    --wide --relaxed content aspa content
    --wide --registered content manifest content
    --relaxed --relaxed content roa content
    --strict content aspa content
    content --wide aspa content
    --relaxed
    content crl content
    --wide content crl content
    show crl content
    check aspa content 20240230000000Z content content
    rta content 20240101000000Z content tal:locator
"""


# ---- words

def unreadable(name):
    return 2, b"", b"cannot read " + os.fsencode(name) + b"\n"


def check_words(kind, file, moment="20270101000000Z", verdicts=None, others=()):
    """The words that ask whether an object of examples/ is good."""
    return ["check", kind, file, moment, verdicts or verdicts_of(file), *made.CHAIN, *others]


def rta_words(name, file=None, verdicts=None):
    """The words that ask whether an attestation of examples/, or that in a file, is granted."""
    return ["rta", file or f"{EXAMPLES}/{name}", "20270101000000Z", verdicts or verdicts_of(name),
            f"tal={EXAMPLES}/second.tal", f"ca={':'.join(made.CHAIN)}"]


def walk_words(*pairs, file=MANIFEST, verdicts=verdicts_of(MANIFEST), chain=made.CHAIN):
    """The words that ask which of these files the manifest of examples/, or another, holds."""
    return ["walk", file, "20270101000000Z", verdicts, *chain, "with", *pairs]


def pair(name, file):
    """A pair of a name and a file of the CA in examples/."""
    return f"{name}={AUTHORITY}/{file}"


HELD = pair("origin.roa", "origin.roa")


def many(count):
    """The content of AS1 with this number of providers, from AS2 on, and what is said of it."""
    providers, one = range(2, count + 2), make.integer(1)
    octets = make.sequence(make.under(0, one), one, make.sequence(*map(make.integer, providers)))
    return octets, (0, b"aspa\ncustomer AS1\n" + b"".join(b"provider AS%d\n" % it for it in providers), b"")


class Objects(Strained):
    """Runs of rpki_objects."""

    words, octets, shown, cut = ["content", "aspa"], CONTENT, SHOWN, MALFORMED

    def unreadable(self, name, why=b""):
        return unreadable(name)

    def tal(self, name, file, wanted):
        """A run that asks for the trust anchor locator in a file."""
        self.judge(name, self.ran(["show", "tal", file]), wanted)


# ---- what is said

def statuses(runs):
    """Each answer, by its status and its stream."""
    runs.asks("a content", "content", SHOWN)
    runs.asks("a content and more octets", "more", SHOWN)
    runs.asks("a content without its last octet", "cut", MALFORMED)
    runs.asks("an empty file", "empty", MALFORMED)
    for count, options in ((9_999, []), (10_000, []), (10_001, ["--wide"]), (16_380, ["--wide"])):
        octets, wanted = many(count)
        runs.write("many", octets)
        runs.each(([*options, "content", "aspa", "many"], wanted))
    for count, options in ((10_001, []), (16_381, ["--wide"])):
        runs.write("many", many(count)[0])
        runs.each(([*options, "content", "aspa", "many"], MALFORMED))
    for file in ("none", "folder", "content/x"):
        runs.asks(f"a file that can't be read: {file}", file, unreadable(file))
    runs.each(([], USAGE), (["", "content", "aspa", "content"], USAGE),
              *((line.split(), USAGE) for line in OTHER_WORDS.strip().split("\n")))
    if os.geteuid() == 0:
        print("a file without leave to read: not tried, since root may read each")
        return
    runs.write("locked", CONTENT)
    os.chmod(f"{runs.room}/locked", 0)
    runs.asks("a file without leave to read", "locked", unreadable("locked"))


def kinds(runs):
    """The contents of each kind, with each set of options."""
    names = [b"%d.cer" % at for at in range(1_000)]
    for at, (kind, (octets, wanted)) in enumerate(CONTENTS.items()):
        runs.write(kind, octets)
        for options in (it for count in range(4) for it in itertools.combinations(OPTIONS, count)):
            runs.each(([*options, "content", kind, kind], wanted))
        runs.each(*((["content", kind, file], MALFORMED) for file in [*CONTENTS][:at]),
                  (["content", kind, "none"], unreadable("none")), (["content", kind, "empty"], MALFORMED))
    for listed, registered in (([b"file.cer"] * 2, MALFORMED), ([b"file.abc"], MALFORMED), ([], manifest_shown()),
                               (names, manifest_shown(*names))):
        runs.write("manifest", manifest(*listed))
        runs.each((["content", "manifest", "manifest"], manifest_shown(*listed)),
                  (["--registered", "content", "manifest", "manifest"], registered))


def locators(runs):
    """Trust anchor locators."""
    runs.lay({"windows": TAL.replace(b"\n", b"\r\n"), "begun": TAL[:TAL.index(b"BABh")],
              "keyless": TAL[:TAL.index(b"\n\n") + 1]})
    runs.tal("a locator", "locator", TAL_SHOWN)
    runs.each(([*OPTIONS, "show", "tal", "locator"], TAL_SHOWN))
    runs.tal("a locator with line ends of two octets", "windows", TAL_SHOWN)
    for file in ("begun", "keyless", "content", "empty"):
        runs.tal(f"what is no locator: {file}", file, MALFORMED)
    runs.asks("a locator as a content", "locator", MALFORMED)
    for file in ("none", "folder"):
        runs.tal(f"a locator that can't be read: {file}", file, unreadable(file))
    runs.tal("a locator with an empty name", "", USAGE)


def objects(runs):
    """Signed objects."""
    for kind, file, lines, signer in OBJECTS:
        wanted, yes = (0, lines + SIGNING + signer, b""), (0, b"yes\n" + lines, b"")
        other, octets, listed = "aspa" if kind == "roa" else "roa", octets_of(file), verdicts_of(file)
        runs.each((["show", kind, file], wanted), ([*OPTIONS, "show", kind, file], wanted),
                  (["show", other, file], MALFORMED))
        for more in (b"\0", b"\xff" * 300):
            runs.write("object", octets + more)
            runs.each((["show", kind, "object"], wanted), (check_words(kind, "object", verdicts=listed), yes))
        runs.write("object", octets[:-1])
        runs.each((["show", kind, "object"], MALFORMED), (check_words(kind, file), yes),
                  (check_words(other, file), MALFORMED))
    causes = (BROKEN, b"signature is not valid"), (EXPIRED, b"certificate has expired"), (OVERCLAIMING, OVERCLAIMED)
    runs.each(*((check_words("roa", file), refused(cause)) for file, cause in causes))
    early = 1, b"issuer refused: certificate is not yet valid\n", b""
    runs.each((check_words("roa", ORIGIN, "20250101000000Z"), early),
              (check_words("roa", ORIGIN, "20270229000000Z"), USAGE),
              (check_words("roa", ORIGIN, verdicts=BROKEN), BAD_VERDICTS),
              (check_words("roa", ORIGIN, others=["none"]), unreadable("none")),
              (check_words("roa", ORIGIN, others=[BROKEN]), NO_ISSUER),
              (["show", "manifest", "none"], unreadable("none")), (["show", "rsc", "empty"], MALFORMED))


def names(runs):
    """Names of every kind."""
    runs.file_names((*NAMES, b"-"))
    runs.asks("an empty name", "", USAGE)
    runs.write(b"\xff", CONTENT)
    runs.asks("a name that is not UTF-8", b"\xff", USAGE)
    for name in (b"other", b"\xff", b""):
        runs.asks(f"the program name {name!r}", "content", SHOWN, called=name)
    runs.judge("30,000 arguments", runs.ran(["content", "aspa", *["content"] * 30_000]), USAGE)
    given = check_words("roa", ORIGIN, others=["content"] * 30_000 + ["none"])
    runs.judge("30,000 files, and one that is not there", runs.ran(given), unreadable("none"))


def walks(runs):
    """Which files a manifest holds."""
    every, other = [pair(it, it) for it in AUTHORITY_FILES], pair("origin.roa", "broken.roa")
    held = 0, b"yes\n" + b"".join(b"held %s\n" % it.encode() for it in AUTHORITY_FILES), b""
    one = 0, b"yes\nheld origin.roa\n", b""
    runs.each((walk_words(*every), held), (walk_words(*every[::-1]), held), (walk_words(), YES),
              (walk_words(HELD, other), one), (walk_words(other, HELD), YES), ([*OPTIONS, *walk_words(HELD)], one),
              (walk_words(HELD, chain=made.CHAIN[:1]), refused(b"not issued by this CA")),
              (walk_words(HELD, file=ORIGIN), MALFORMED), (walk_words(HELD, "a=none"), unreadable("none")),
              (walk_words()[:-1], USAGE), (walk_words("origin.roa"), USAGE), (walk_words("origin.roa="), USAGE),
              (walk_words(HELD, "with"), USAGE))


def streams(runs):
    """Standard output and standard error that take nothing."""
    def none_taken(stream, *asked, before=lambda: None):
        for words in asked:
            runs.stream_takes_nothing(stream, words, before)

    none_taken("stdout", ["content", "aspa", "content"], ["content", "aspa", "cut"], ["show", "tal", "locator"])
    none_taken("stderr", ["content", "aspa", "none"], ["--help"])
    for kind, file, *_ in OBJECTS:
        none_taken("stdout", ["show", kind, file], check_words(kind, file))
        none_taken("stderr", check_words(kind, file, verdicts=file))
    bare = {kind: octets for kind, (octets, _) in CONTENTS.items()} | {"rta": content_in(AGREEMENT)}
    runs.lay({f"bare.{kind}": octets for kind, octets in bare.items()})
    none_taken("stdout", check_words("roa", OVERCLAIMING), ["show", "rta", AGREEMENT], rta_words("agreement.rta"),
               rta_words("revoked.rta"), walk_words(HELD), walk_words(chain=made.CHAIN[:1]),
               *(["content", kind, f"bare.{kind}"] for kind in bare))
    none_taken("stderr", rta_words("agreement.rta", verdicts=AGREEMENT), walk_words(verdicts=AGREEMENT),
               walk_words("a=none"), rta_words("agreement.rta", file="none"), ["show", "rta", "none"])
    # Memory runs out, and standard error does not take that it did.
    if runs.is_plain:
        none_taken("stderr", ["content", "aspa", "large"], before=limited(48 << 20))
    # The other stream does not matter.
    with open("/dev/full", "wb") as full:
        runs.asks("standard error full, and not needed", "content", SHOWN, stderr=full)
        runs.asks("standard output full, and not needed", "none", unreadable("none"), stdout=full)
    runs.asks("standard error closed, and not needed", "content", SHOWN, preexec_fn=running.closed(2))
    runs.asks("standard output closed, and not needed", "none", unreadable("none"), preexec_fn=running.closed(1))


# ---- memory

def memory(runs, preload):
    """Each allocation refused in turn: the lines, or that memory ran out with nothing printed."""
    runs.lay({"manifest": manifest(b"a.cer", b"b.cer"), "bare.rta": content_in(AGREEMENT)})
    asked = [(["content", "aspa", "content"], SHOWN), (["content", "aspa", "none"], unreadable("none")),
             (["content", "aspa", "cut"], MALFORMED), (["show", "tal", "locator"], TAL_SHOWN),
             (["show", "tal", "keyless"], MALFORMED), (["content", "roa", "roa"], ROA_SHOWN),
             (["content", "rsc", "rsc"], RSC_SHOWN),
             (["--registered", "content", "manifest", "manifest"], manifest_shown(b"a.cer", b"b.cer"))]
    for kind, file, lines, signer in OBJECTS:
        asked += [(["show", kind, file], (0, lines + SIGNING + signer, b"")),
                  (check_words(kind, file), (0, b"yes\n" + lines, b""))]
    asked += [(check_words("roa", OVERCLAIMING), refused(OVERCLAIMED)),
              (walk_words(HELD, "b=content"), (0, b"yes\nheld origin.roa\n", b"")),
              (rta_words("revoked.rta"), refused(b"CA certificate has been revoked"))]
    granted = runs.ran(rta_words("agreement.rta"))
    runs.judge("an attestation is granted", (granted[0], granted[1][:8], granted[2]), (0, b"yes\nrta\n", b""))
    lines = granted[1].removeprefix(b"yes\n")
    attested = [(["content", "rta", "bare.rta"], (0, lines, b"")),
                (["show", "rta", AGREEMENT], (0, lines + CARRIED, b""))]
    runs.each(*attested)
    for words, wanted in [*asked, (rta_words("agreement.rta"), granted), *attested]:
        runs.refused_in_turn(preload, words, wanted)
    if runs.is_plain:
        runs.asks("64 MiB under a limit of 48 MiB", "large", OUT_OF_MEMORY, preexec_fn=limited(48 << 20))
    runs.asks("64 MiB that are no content", "large", MALFORMED)


def own_words(name, is_long=False):
    """The words of the commands that ask for signatures by a list of them: of a ROA, a manifest, a file that a manifest
    may have, and an attestation. Those of a long object have lists of theirs."""
    roa, mft, rta = (f"{name}.{it}" if is_long else name for it in ("roa", "mft", "rta"))
    given = {"verdicts": f"{mft}.verdicts"} if is_long else {}
    return (check_words("roa", roa, verdicts=f"{roa}.verdicts" if is_long else verdicts_of(ORIGIN)),
            walk_words("held.roa=held", file=mft, **given), walk_words(f"origin.roa={name}"),
            rta_words("agreement.rta", file=rta, verdicts=f"{rta}.verdicts" if is_long else None))


def hostile_words(file):
    """Words of each command in which this file is none of what it is to be, each with what is said."""
    check, walk, held, rta = own_words(file)
    shown = [["show", kind, file] for kind in ("roa", "rta", "tal")]
    asked = [(it, MALFORMED) for it in (*shown, ["content", "manifest", file], check, walk, rta)] + [(held, YES)]
    under = check_words("roa", ORIGIN, others=[file])
    lists = (check_words("roa", ORIGIN, verdicts=file), walk_words(verdicts=file),
             rta_words("agreement.rta", verdicts=file))
    return [([*options, *words], wanted) for options in ([], OPTIONS) for words, wanted in asked] + [
        (under, NO_ISSUER), ([*under[:5], file], NO_ISSUER), ([*rta[:-1], f"ca={file}"], NO_ISSUER),
        ([*rta[:4], f"tal={file}"], MALFORMED), *((words, BAD_VERDICTS) for words in lists)]


def long_objects(runs):
    """ROAs of 100,000 and of 1,000,000 prefixes, a manifest of 1,000,000 files, and attestations of 3,000,000 AS
    numbers and of many certificates, which are good but for their signatures: so says a list of verdicts."""
    check, walk, _, rta = own_words("long", True)
    runs.write("held", b"foobar")
    for count in (100_000, 1_000_000):
        octets, lines = runs.put_long("long.roa", *made.long_roa(count))
        for words, said in ((["show", "roa", "long.roa"], lines + SIGNING + OBJECTS[0][3]), (check, b"yes\n" + lines)):
            runs.small(f"{count} prefixes", len(octets), words, (0, said, b""))
    listed = [b"%d.cer" % at for at in range(1_000_000)]
    runs.write("long", manifest(*listed))
    octets, lines = runs.put_long("long.mft", *made.long_manifest(1_000_000))
    for words, wanted in ((["content", "manifest", "long"], manifest_shown(*listed)),
                          (["show", "manifest", "long.mft"], (0, lines + SIGNING + OBJECTS[2][3], b"")),
                          (walk, (0, b"yes\nheld held.roa\n", b""))):
        runs.small("1000000 files", len(octets), words, wanted)
    runs.long_attestations(rta, b"AS resources not fully covered")
    octets = b"".join(b"%064x %064x %064x\n" % (at, at, at) for at in range(500_000)) + octets_of(verdicts_of(ORIGIN))
    runs.write("long.verdicts", octets)
    runs.small("500000 verdicts", len(octets), check_words("roa", ORIGIN, verdicts="long.verdicts"),
               (0, b"yes\n" + OBJECTS[0][2], b""))


def long_path(runs):
    """An attestation whose path has 1,000 CAs, by a list of all signatures that it carries."""
    import rta_compare as rta
    import rta_path
    lines, sign, signer = [], rta.signature, 5000

    def recorded(key, message):
        info, signature = rta.sequence(rta.RSA, rta.bits(rta.key_bits(key))), sign(key, message)
        lines.append(" ".join(hashlib.sha256(it).hexdigest() for it in (info, message, signature)) + "\n")
        return signature

    rta.signature = recorded
    octets, supplied = rta_path.below(range(2, 1_002), [signer], (5, 9), (5, 20), trims=True), rta_path.top((1, 9))
    rta.signature = sign
    runs.lay({"path.rta": octets, "path.verdicts": "".join(lines).encode(), "path.cer": supplied})
    said = f"yes\nrta\nkey {rta.identifier(signer).hex().upper()}\nas AS5-AS9\ndigest {64 * '0'}\n"
    words = ["rta", "path.rta", "20240601000000Z", "path.verdicts", "ca=path.cer"]
    runs.small("a path of 1000 CAs", len(octets), words, (0, said.encode(), b""), times=TIMES_OF_NUMBERS)


def long_files_cut(runs):
    """A ROA and a manifest that are cut while they are read."""
    octets, _, lines = made.long_roa(runs.cut_count)
    runs.cut_while_read("a ROA", ["show", "roa", "changing"], octets, lines + SIGNING + OBJECTS[0][3])
    listed = [b"%d.cer" % at for at in range(runs.cut_count)]
    words, (_, lines, _) = ["content", "manifest", "changing"], manifest_shown(*listed)
    runs.cut_while_read("a manifest", words, manifest(*listed), lines)


def main(words):
    program = running.programs(running.reader().parse_args(words), "rpki_objects")["rpki_objects"]
    resource.setrlimit(resource.RLIMIT_CORE, (0, 0))
    with tempfile.TemporaryDirectory(prefix="runs-") as room:
        preload = running.compiled(TOP / "tools/programs/refuse_growth.c", room)
        runs = Objects(program, room)
        runs.lay({"content": CONTENT, "more": CONTENT + b"\xff\xff", "cut": CONTENT[:-1], "empty": b"", "locator": TAL,
                  "large": b"\x30" * (1 << 26)})
        os.mkdir(f"{room}/folder")
        if not runs.is_plain or not preload:
            print(f"no refused allocations{'' if runs.is_plain else ', and no limits of memory: rt try built it'}")
        for part in (statuses, kinds, objects, walks, locators, names, streams):
            part(runs)
        runs.special_files()
        runs.changing_files()
        long_files_cut(runs)
        memory(runs, preload)
        runs.hostile(hostile_words("hostile"))
        long_objects(runs)
        long_path(runs)
    return runs.end()
