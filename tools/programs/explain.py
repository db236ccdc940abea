"""What `rpki_verify explain` says of objects of made copies, and of those of examples/.

    tools/program explain [--unproved | --in FOLDER] [WORD ..]    those with one of the words in their names, or all

Each row has a name, a function that changes a `Tree` of tree_rows.py, and one that gives of it what is explained, the
status, and the lines. `cases` makes of them folders of files, words, and what both streams have to be. Prints a line
for each run that is not as wanted.
"""
import tempfile

from crates import TOP
from programs import running
from programs.tree_rows import (ENDED, FORGED, GONE, HASH, REVOKED, STALE, WIDE_IPV4, Tree, path_of, sets, times)
from publication import HOST, PAST, SIGNED, Ca, locator, make, shared
from verify_words import words as words_of

AT = "2027-01-01T00:00:00Z"
UNTIL = "2036-01-01T00:00:00Z"
NO_ISSUER = "names no issuer, and is not the trust anchor"


# ---- lines

def good(step, name):
    return f"{step} {name}: good"


def point(ca):
    return [good("manifest", ca.manifest), good("list of", ca.manifest)]


def anchor(at):
    return [good("anchor", f"{at}/tals/one.tal")]


def up(word, *cas):
    """The lines up from what is explained, by the certificates of these CAs, the lowest first."""
    names = [word, *(ca.uri for ca in cas)]
    return [f"issuer of {one}: {other}" for one, other in zip(names, names[1:])]


def down(top, *cas):
    """The lines down from the trust anchor to the certificate of the last of these CAs."""
    lines = []
    for above, ca in zip((top, *cas), cas):
        lines += [*point(above), good("entry", ca.uri), good("certificate", ca.uri)]
    return lines


def way(at, t, word, *cas):
    """Up from what is explained, and down to the point of its issuer; the highest CA comes last."""
    return anchor(at) + up(word, *cas) + down(t.top, *reversed(cas))


def yes(word, count, until=UNTIL):
    return f"yes: {word} gives {count} payload{'s' * (count != 1)} until {until}"


def no(word):
    return f"no: {word} gives nothing"


# ---- rows: what is explained, the status, and the lines, or the text of standard error

def nothing(t):
    pass


def is_good(name, count, ca="a", until=UNTIL):
    """An object of a CA gives so many payloads."""
    def row(at, t):
        cas = [t.a] if ca == "a" else [t.c, t.a]
        uri = f"{cas[0].folder}{name}"
        return uri, 0, [*way(at, t, uri, *cas), *point(cas[0]), good("entry", uri),
                        good("object", uri), yes(uri, count, until)]
    return row


def is_file(copied=False):
    """The same of a file of the copy, or of a copy of it elsewhere."""
    def row(at, t):
        word = f"{at}/elsewhere/o.roa" if copied else f"{at}/copy/{path_of(t.roa)}"
        return word, 0, [*way(at, t, word, t.a), *point(t.a), good("entry", t.roa), good("object", t.roa), yes(word, 2)]
    return row


def refused(name, cause, step="object"):
    """A file of the CA `a` is refused."""
    def row(at, t):
        uri = f"{t.a.folder}{name}"
        return uri, 1, [*way(at, t, uri, t.a), *point(t.a), good("entry", uri), f"{step} {uri}: {cause}", no(uri)]
    return row


def refused_above(name, cause):
    """The certificate of the CA `c` is refused, under which this ROA is."""
    def row(at, t):
        uri, ca = f"{t.c.folder}{name}", t.c.uri
        return uri, 1, [*anchor(at), *up(uri, t.c, t.a), *down(t.top, t.a), *point(t.a),
                        good("entry", ca), f"certificate {ca}: {cause}", no(uri)]
    return row


def of_point(*lines):
    """The point of `a` is refused, as these lines say after those up to its manifest."""
    def row(at, t):
        said = [it.format(manifest=t.a.manifest, folder=t.a.folder) for it in lines]
        return t.roa, 1, [*way(at, t, t.roa, t.a), *said, no(t.roa)]
    return row


def of_point_above(*lines):
    """The same, of a ROA of the CA `c`, which is below `a`."""
    def row(at, t):
        uri = f"{t.c.folder}o.roa"
        said = [it.format(manifest=t.a.manifest) for it in lines]
        return uri, 1, [*anchor(at), *up(uri, t.c, t.a), *down(t.top, t.a), *said, no(uri)]
    return row


def unlisted(t):
    t.put(f"{t.a.folder}u.roa", t.a.files["o.roa"])


def is_unlisted(at, t):
    uri = f"{t.a.folder}u.roa"
    return uri, 1, [*way(at, t, uri, t.a), *point(t.a), f"entry {uri}: is not listed, or names nothing", no(uri)]


def other_octets(t):
    """A ROA that `a` issued lies in the place of another one."""
    t.put(t.roa, Ca("a", t.a.claim, t.top).object(
        "o.roa", make.ROA, make.roa(65001, ["10.1.0.0/16"]), make.Claim(["10.1.0.0/16"], [])))


def elsewhere(octets):
    """A file that is not in the copy."""
    def change(t):
        t.elsewhere = {"o.roa": octets(t)}
    return change


def is_another(at, t):
    word = f"{at}/elsewhere/o.roa"
    return word, 1, [*way(at, t, word, t.a), *point(t.a), f"entry {t.roa}: the copy has another file", no(word)]


def other_tree(t):
    """An object under a trust anchor of which the locator is not asked."""
    t.other = Ca("other", t.top.claim)
    t.under = Ca("x", t.b.claim, t.other)
    t.under.add_roa("o.roa", 65002, ["10.2.0.0/16"])
    t.other.add_ca(t.under)
    t.cas += [t.other, t.under]
    t.put(t.other.uri, t.other.certificate())


def is_of_other(at, t):
    word = f"{t.under.folder}o.roa"
    return word, 1, [*anchor(at), *up(word, t.under, t.other), f"certificate {t.other.uri}: {NO_ISSUER}", no(word)]


def ends(at, t):
    path = path_of(t.a.uri)
    return t.roa, 1, [*anchor(at), *up(t.roa, t.a),
                      f"certificate {t.a.uri}: {GONE}, looked for {at}/copy/{path}", no(t.roa)]


def circle(t):
    """Two CAs that issued each other."""
    t.x = Ca("x", t.b.claim)
    t.y = Ca("y", t.b.claim, t.x)
    t.x.issuer, t.x.uri = t.y, f"{t.y.folder}x.cer"
    t.x.add_roa("o.roa", 65002, ["10.2.0.0/16"])
    t.x.add_ca(t.y)
    t.y.add_ca(t.x)
    t.cas += [t.x, t.y]


def is_circle(at, t):
    word = f"{t.x.folder}o.roa"
    return word, 1, [*anchor(at), *up(word, t.x, t.y, t.x), f"certificate {t.x.uri}: is above itself", no(word)]


def long_chain(t, count=101):
    """A chain of so many CAs, the first of which nobody issued."""
    t.chain = [Ca("z0", t.b.claim, key=shared(0))]
    for number in range(1, count + 1):
        t.chain.append(Ca(f"z{number}", t.b.claim, t.chain[-1], key=shared(number)))
    for ca in t.chain:
        t.put(ca.uri, ca.certificate())
    last = t.chain[-1]
    last.add_roa("o.roa", 65002, ["10.2.0.0/16"])
    t.put(f"{last.folder}o.roa", last.files["o.roa"])


def is_too_long(at, t):
    word = f"{t.chain[-1].folder}o.roa"
    return word, 1, [*anchor(at), *up(word, *t.chain[:0:-1]),
                     f"object {word}: more than 100 certificates are above it", no(word)]


def chain_of_100(t):
    """100 CAs, one below the other, under the trust anchor."""
    t.chain = [t.top]
    for number in range(100):
        t.chain.append(t.ca(f"z{number}", ["10.2.0.0/16"], issuer=t.chain[-1], key=shared(number)))
    t.chain[-1].add_roa("o.roa", 65002, ["10.2.0.0/16"])


def is_at_100(at, t):
    *_, last = t.chain
    word = f"{last.folder}o.roa"
    return word, 0, [*way(at, t, word, *t.chain[:0:-1]), *point(last), good("entry", word),
                     good("object", word), yes(word, 1)]


def is_ca(at, t):
    return t.a.uri, 0, [*anchor(at), *down(t.top, t.a), f"yes: {t.a.uri} is the certificate of a CA"]


def is_trust_anchor(at, t):
    return t.top.uri, 0, [*anchor(at), f"yes: {t.top.uri} is the certificate of the trust anchor"]


def is_manifest(at, t):
    word = t.a.manifest
    return word, 0, [*way(at, t, word, t.a), *point(t.a), f"yes: {word} is good, and all that it lists is there"]


def of_manifest(cause):
    def row(at, t):
        word = t.a.manifest
        return word, 1, [*way(at, t, word, t.a), *cause(t), no(word)]
    return row


def of_anchor(cause):
    return lambda at, t: (t.roa, 1, [f"anchor {at}/tals/one.tal: {cause}", no(t.roa)])


def another_kind(at, t):
    return t.a.crl, 1, [*anchor(at), f"object {t.a.crl}: no payloads come from a file of its kind", no(t.a.crl)]


def malformed(at, t):
    return t.roa, 1, [*anchor(at), f"object {t.roa}: malformed", no(t.roa)]


def unread(at, t):
    uri = f"{t.a.folder}none.roa"
    return uri, 4, f"cannot read {uri}: {GONE}, looked for {at}/copy/{path_of(uri)}\n"


def no_file(at, t):
    return f"{at}/none.roa", 4, f"cannot read {at}/none.roa: no such file\n"


def a_folder(at, t):
    return f"{at}/copy", 4, f"cannot read {at}/copy: is no regular file\n"


def no_locator(at, t):
    return t.roa, 2, f"bad locator {at}/tals/one.tal\n"


def missing_locator(at, t):
    return t.roa, 4, f"cannot read {at}/tals/one.tal: no such file\n"


BROKEN_POINT = good("manifest", "{manifest}")
ROWS = [
    ("a good ROA", nothing, is_good("o.roa", 2)),
    ("a good ASPA", nothing, is_good("o.asa", 2)),
    ("a good ROA of a CA below another one", nothing, is_good("o.roa", 1, "c")),
    ("a file of the copy", nothing, is_file()),
    ("a copy of it elsewhere", elsewhere(lambda t: t.a.files["o.roa"]), is_file(True)),
    ("another file elsewhere", elsewhere(lambda t: t.a.object(
        "o.roa", make.ROA, make.roa(65001, ["10.1.0.0/16"]), make.Claim(["10.1.0.0/16"], []))), is_another),
    ("an expired ROA", lambda t: t.a.add_roa("o.roa", 65001, ["10.1.0.0/16"], last=PAST), refused("o.roa", ENDED)),
    ("a revoked ROA", lambda t: t.a.revoke("o.roa"), refused("o.roa", REVOKED)),
    ("a ROA that another key signed",
     lambda t: t.a.add_roa("o.roa", 65001, ["10.1.0.0/16"], by=t.b.signer), refused("o.roa", FORGED)),
    ("an overclaiming ROA", lambda t: t.a.add_roa("o.roa", 65001, ["10.2.0.0/16"]), refused("o.roa", WIDE_IPV4)),
    ("a revoked CA", lambda t: t.a.revoke("c.cer"), refused_above("o.roa", REVOKED)),
    ("a ROA that is not listed", unlisted, is_unlisted),
    ("a ROA with another hash", other_octets, of_point(BROKEN_POINT, f"entry {{folder}}o.roa: {HASH}")),
    ("another file with another hash", lambda t: t.put(f"{t.a.folder}o.asa", b"other"),
     of_point(BROKEN_POINT, f"entry {{folder}}o.asa: {HASH}")),
    ("another file is missing", lambda t: t.lose(f"{t.a.folder}o.asa"),
     of_point(BROKEN_POINT, f"entry {{folder}}o.asa: {GONE}")),
    ("the list is missing", lambda t: t.lose(t.a.crl), of_point(BROKEN_POINT, f"entry {{folder}}a.crl: {GONE}")),
    ("a stale list", sets(list_times=times(SIGNED, PAST)),
     of_point(BROKEN_POINT, f"list of {{manifest}}: revocation list {STALE}")),
    ("a stale list of the CA above its issuer", sets(list_times=times(SIGNED, PAST)), of_point_above(
        BROKEN_POINT, f"list of {{manifest}}: revocation list {STALE}")),
    ("a missing manifest", lambda t: t.lose(t.a.manifest), of_point(f"manifest {{manifest}}: manifest {GONE}")),
    ("a stale manifest", sets(manifest_times=times(SIGNED, PAST)),
     of_point(f"manifest {{manifest}}: manifest {STALE}")),
    ("an object of another tree", other_tree, is_of_other),
    ("a certificate of an issuer that is missing", lambda t: t.lose(t.a.uri), ends),
    ("a circle", circle, is_circle),
    ("more than 100 certificates", long_chain, is_too_long),
    ("100 certificates", chain_of_100, is_at_100),
    ("the certificate of a CA", nothing, is_ca),
    ("the certificate of the trust anchor", nothing, is_trust_anchor),
    ("a manifest", nothing, is_manifest),
    ("a stale manifest itself", sets(manifest_times=times(SIGNED, PAST)),
     of_manifest(lambda t: [f"manifest {t.a.manifest}: manifest {STALE}"])),
    ("an expired trust anchor", lambda t: t.put(t.top.uri, t.top.certificate(last=PAST)),
     of_anchor(f"its certificate is refused: {ENDED}")),
    ("no trust anchor", lambda t: t.lose(t.top.uri), of_anchor(f"its certificate {GONE}")),
    ("the locator of another key",
     lambda t: t.tals.update({"one.tal": locator([t.top.uri], t.b.signer)}),
     of_anchor("no certificate with its key")),
    ("a revocation list", nothing, another_kind),
    ("a ROA of 0 octets", lambda t: t.put(t.roa, b""), malformed),
    ("a URI for which there is no file", nothing, unread),
    ("a file that is not there", nothing, no_file),
    ("a folder", nothing, a_folder),
    ("a locator that is none", lambda t: t.tals.update({"one.tal": b"\n"}), no_locator),
    ("a locator that is not there", lambda t: t.tals.clear(), missing_locator),
]


# ---- runs

def cases(at):
    """Of each row the name, the files below the folder `at` by their paths, the words, and the status
    and both streams that are wanted."""
    for number, (name, change, row) in enumerate(ROWS):
        room, tree = f"{at}/{number}", Tree()
        tree.elsewhere = {}
        change(tree)
        word, status, said = row(room, tree)
        files = {f"{room}/copy/{path}": octets for path, octets in tree.written().items()}
        files |= {f"{room}/tals/{it}": octets for it, octets in tree.tals.items()}
        files |= {f"{room}/elsewhere/{it}": octets for it, octets in tree.elsewhere.items()}
        words = words_of("explain", f"{room}/copy", f"{room}/tals/one.tal", word, at=AT)
        out, err = ("", said) if isinstance(said, str) else ("".join(f"{it}\n" for it in said), "")
        yield name, files, words, (status, out.encode(), err.encode())


EXPIRED = f"rsync://{HOST}/authority/expired.roa"
# Of examples/, where each program is run at the top of the repository.
EXAMPLE = words_of("explain", "examples", "examples/anchor.tal", EXPIRED, at=AT), (1, f"""\
anchor examples/anchor.tal: good
issuer of {EXPIRED}: rsync://{HOST}/anchor/authority.cer
manifest rsync://{HOST}/anchor/anchor.mft: good
list of rsync://{HOST}/anchor/anchor.mft: good
entry rsync://{HOST}/anchor/authority.cer: good
certificate rsync://{HOST}/anchor/authority.cer: good
manifest rsync://{HOST}/authority/authority.mft: good
list of rsync://{HOST}/authority/authority.mft: good
entry {EXPIRED}: good
object {EXPIRED}: certificate has expired
no: {EXPIRED} gives nothing
""".encode(), b"")


def main(words):
    reader = running.reader()
    reader.add_argument("words", nargs="*")
    given = reader.parse_args(words)
    with tempfile.TemporaryDirectory(prefix="explain-") as room:
        runs = running.Runs(running.programs(given, "rpki_verify")["rpki_verify"], room)
        runs.is_terse = True
        for name, files, words, wanted in [*cases(room), ("examples/", {}, *EXAMPLE)]:
            if not given.words or any(it in name for it in given.words):
                runs.lay(files)
                runs.judge(name, runs.ran(words, cwd=TOP), wanted)
    return runs.end()
