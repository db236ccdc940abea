"""Trees with one thing wrong each, hostile copies, and what `rpki_verify payloads` says of them.

Under the anchor `top` are the CAs `a` and `b`, and `c` is under `a`. The wrong thing is at `a`, or
at the certificate of `c`. What `b` says stays, whatever is wrong there. Where a name leads out of
the copy, or a URI to where nothing may be read, there is what a relying party would take: one that
follows it says more. Each row of `TREES` is a name and a function that changes a `Tree`; of
`HOSTILE` it has a size too, and the CA `h`, which the anchor lists before all others, is hostile.
"""
import copy
import hashlib
import os
import pathlib
import stat

from publication import (
    EVERYTHING, FUTURE, HOST, INHERITED, NEXT, PAST, SIGNED, Ca, Router, certificate, locator, make, shared,
    signer)

# Why a point is refused, and a file.
GONE, HASH, NO_FILE, LARGE_FILE, UNREAD = (
    "is not in the copy", "has another hash", "is no regular file", "is too large", "can't be read")
BAD, FORGED, REVOKED, ENDED, WIDE_IPV4, WIDE_AS, OF_ANOTHER = (
    "malformed", "signature is not valid", "certificate has been revoked", "certificate has expired",
    "overclaimed IPv4 resources", "overclaimed AS resources", "not issued by this CA")
STALE, EARLY = "is stale: nextUpdate 2026-12-01T00:00:00Z", "is not yet current: thisUpdate 2027-06-01T00:00:00Z"
NO_AS = "certificate of a ROA names AS numbers or inherits"
NO_FOLDER, NO_URI = "missing CA repository", "missing manifest URI"
# Why a locator has no run.
MISSING, OTHER_KEY, EXPIRED, MANY_URIS = (
    f"its certificate {GONE}", "no certificate with its key",
    f"its certificate is refused: {ENDED}", "more than 64 URIs")
# A file may have so many octets.
MOST = 20_000_000
ZEROS = bytes(min(int(os.environ.get("MB_OF_ZEROS", 100)) << 20, MOST))
# As many octets: SEQUENCEs of indefinite length in one another.
NESTED = b"\x30\x80" * (len(ZEROS) // 2)


def origin(number, prefix, most=None, until=NEXT):
    return "origin", number, prefix, most, until


def aspa(customer, *providers, until=NEXT):
    return "aspa", customer, providers, until


# What there is in examples/ below the first trust anchor, and what is refused there.
BELOW = f"rsync://{HOST}/authority"
EXAMPLES = [origin(64496, "192.0.2.0/24", 26), origin(64496, "2001:db8::/32", 48), aspa(64496, 64497, 64511)]
EXAMPLES_REFUSED = [(f"{BELOW}/{name}.roa", cause, f"{BELOW}/authority.mft") for name, cause in (
    ("broken", FORGED), ("expired", ENDED), ("overclaiming", WIDE_IPV4))]
# What the CAs say.
PROVIDERS = [aspa(65001, 65010, 65011)]
ORIGINS = [origin(65001, "10.1.0.0/16", 24), origin(65001, "2001:db8:1::/48")]
A, B, C = (PROVIDERS + ORIGINS, [origin(65002, "10.2.0.0/16")], [origin(65004, "10.1.4.0/24")])


class Tree:
    """A copy, locators, and what is to be said of them.

    `files` are octets by path below the copy, `lost` the paths of files that are made and not
    there, `devices` make what is no plain file. `found` has the payloads of each locator, or is
    None where `error` is all that is said, `again` those of further ones of the same names, and
    `refused` what is refused below a locator: a URI, the cause, and the manifest of the CA;
    `faults` are the locators without a run."""

    def __init__(self):
        self.top = Ca("top", EVERYTHING)
        self.a = Ca("a", make.Claim(["10.1.0.0/16", "2001:db8:1::/48"], [(65001, 65009)]), self.top)
        self.b = Ca("b", make.Claim(["10.2.0.0/16"], []), self.top)
        self.cas, self.files, self.lost, self.devices = [self.top, self.a, self.b], {}, [], {}
        self.add_c()
        self.a.add_aspa("o.asa", 65001, [65010, 65011])
        self.a.add_roa("o.roa", 65001, ["10.1.0.0/16-24", "2001:db8:1::/48"])
        self.b.add_roa("o.roa", 65002, ["10.2.0.0/16"])
        self.top.add_ca(self.a)
        self.top.add_ca(self.b)
        self.put(self.top.uri, self.top.certificate())
        self.tals = {"one.tal": locator([self.top.uri], self.top.signer)}
        self.found, self.faults, self.refused, self.status = {"one": A + C + B}, [], {}, 0
        self.copy, self.words, self.error, self.again = "copy", None, "", []
        self.roa = f"{self.a.folder}o.roa"

    def add_c(self, **places):
        self.c = Ca("c", make.Claim(["10.1.4.0/24"], []), self.a, **places)
        self.c.add_roa("o.roa", 65004, ["10.1.4.0/24-24"])
        self.a.add_ca(self.c)
        self.cas[3:] = [self.c]

    def ca(self, name, prefixes, numbers=(), issuer=None, **places):
        """A further CA, which its issuer lists."""
        ca = Ca(name, make.Claim(list(prefixes), list(numbers)), issuer or self.top, **places)
        self.cas.append(ca)
        ca.issuer.add_ca(ca)
        return ca

    def put(self, uri, octets):
        self.files[path_of(uri)] = octets

    def lose(self, uri):
        self.lost.append(path_of(uri))

    def says(self, payloads, *refused):
        """Of the one locator there are these payloads and refusals."""
        self.found, self.refused = {"one": payloads}, {"one": refused}

    def fails(self, text, name="one", status=1):
        """A locator has no run, which makes the status."""
        self.found.pop(name, None)
        self.faults.append((name, text))
        self.status = status
        return self

    def locators(self):
        return self.words or [f"tals/{it}" for it in self.tals]

    def written(self):
        """Each file of the copy, by its path."""
        there = {path_of(uri): it for ca in self.cas for uri, it in ca.published().items()}
        there |= self.files
        return {path: octets for path, octets in there.items() if path not in self.lost}


def path_of(uri):
    """Where a copy has the file of a URI."""
    return uri.split("//", 1)[1]


def sets(**fields):
    """Sets fields of the CA `a`."""
    return lambda t: vars(t.a).update({it: value(t) for it, value in fields.items()})


def of_point(name, cause, change):
    """The point of `a` is refused: what it says is gone, and what those below it say."""
    def row(t):
        change(t)
        t.says(B, (t.a.manifest, cause, t.top.manifest))
    return name, row


def of_file(name, file, cause, left, change):
    """A file of `a` is refused, and the rest stays."""
    def row(t):
        change(t)
        t.says(left, (f"{t.a.folder}{file}", cause, t.a.manifest))
    return name, row


def times(this, to):
    return lambda t: (this, to)


def listed(name, cause=f"manifest: {BAD}"):
    """The manifest of `a` lists its ROA under this name."""
    def change(t):
        t.a.listed_as["o.roa"] = name
        if name.endswith(".roa") and len(name) < 100:
            t.put(f"{t.a.folder}{name}", t.a.files["o.roa"])
    return of_point(f"a manifest lists {name[:20]!r}", cause, change)


def twice(name):
    """The manifest of `a` lists this name once more, with the octets of its ROA."""
    def change(t):
        t.a.add("again.roa", t.a.files["o.roa"])
        t.a.listed_as["again.roa"] = name
    return of_point(f"a manifest lists {name!r} twice", f"{name} is listed twice", change)


def twice_below(t):
    """The manifest of `c` lists a name twice; the URI of its folder is long."""
    t.add_c(folder=f"rsync://{HOST}/m/" + ("d" * 250 + "/") * 10)
    t.c.add("again.roa", t.c.files["o.roa"])
    t.c.listed_as["again.roa"] = "o.roa"
    t.says(A + B, (t.c.manifest, "o.roa is listed twice", t.a.manifest))


LONG = "a" * 4996 + ".roa"
POINTS = [
    of_point("a listed file is missing", f"o.roa {GONE}", lambda t: t.lose(t.roa)),
    of_point("a listed file has another hash", f"o.roa {HASH}", lambda t: t.put(t.roa, b"other")),
    of_point("the list is missing", f"a.crl {GONE}", lambda t: t.lose(t.a.crl)),
    of_point("no manifest", f"manifest {GONE}", lambda t: t.lose(t.a.manifest)),
    of_point("a stale manifest", f"manifest {STALE}", sets(manifest_times=times(SIGNED, PAST))),
    of_point("a manifest to come", f"manifest {EARLY}", sets(manifest_times=times(FUTURE, NEXT))),
    of_point("a manifest of another CA", f"manifest: {OF_ANOTHER}",
             lambda t: t.put(t.a.manifest, t.b.published()[t.b.manifest])),
    of_point("a manifest of 0 octets", f"manifest: {BAD}", lambda t: t.put(t.a.manifest, b"")),
    of_point("a manifest of zeros", f"manifest: {BAD}", lambda t: t.put(t.a.manifest, ZEROS)),
    of_point("a stale list", f"revocation list {STALE}", sets(list_times=times(SIGNED, PAST))),
    of_point("a list to come", f"revocation list {EARLY}", sets(list_times=times(FUTURE, NEXT))),
    of_point("a list that another key signed", f"revocation list: {FORGED}", sets(list_signer=lambda t: t.b.signer)),
    of_point("a list of another key", "revocation list: names another key",
             sets(list_signer=lambda t: t.b.signer, list_key=lambda t: t.b.signer)),
    of_point("a list that is not listed", "revocation list is not listed", sets(lists_it=lambda t: False)),
    of_point("a revoked certificate of the manifest", f"manifest: {REVOKED}",
             sets(revoked=lambda t: [t.a.MANIFEST_SERIAL])),
    listed("../x.roa"), listed(".."), listed("."), listed("a/b.roa"), listed("/etc/passwd"),
    listed("/x.roa"), listed(""), listed(LONG, f"{LONG} {UNREAD}"), twice("o.roa"), twice("a.crl"),
    ("a manifest below a long folder lists a name twice", twice_below),
]


def wide(t, **more):
    """`c` claims what `a` has not, and has a ROA of it."""
    t.c.claim = make.Claim(["10.1.4.0/24", "10.3.0.0/16"], [])
    t.a.add_ca(t.c, **more)
    return t.c.add_roa("p.roa", 65004, ["10.3.0.0/16"])


def router(t):
    use = make.extension("2.5.29.37", False, make.sequence(make.oid("1.3.6.1.5.5.7.3.30")))
    claim = make.Claim([], [(65001, 65001)])
    t.a.add("r.cer", certificate(t.a, Router(), claim, [], more=use))


def octets(what):
    return lambda t: t.a.files.update({"o.roa": what})


def with_roa(prefix="10.1.0.0/16", by=None, **more):
    """The ROA of `a` is another one."""
    return lambda t: t.a.add_roa("o.roa", 65001, [prefix], by=by and by(t), **more)


NO_ROAS = PROVIDERS + C + B
FILES = [
    of_file("a revoked child", "c.cer", REVOKED, A + B, lambda t: t.a.revoke("c.cer")),
    of_file("a revoked ROA", "o.roa", REVOKED, NO_ROAS, lambda t: t.a.revoke("o.roa")),
    of_file("a revoked ASPA", "o.asa", REVOKED, ORIGINS + C + B, lambda t: t.a.revoke("o.asa")),
    of_file("an expired ROA", "o.roa", ENDED, NO_ROAS, with_roa(last=PAST)),
    of_file("a ROA that another key signed", "o.roa", FORGED, NO_ROAS, with_roa(by=lambda t: t.b.signer)),
    of_file("an overclaiming ROA", "o.roa", WIDE_IPV4, NO_ROAS, with_roa("10.2.0.0/16")),
    of_file("a ROA whose certificate inherits", "o.roa", NO_AS, NO_ROAS, with_roa(claim=make.Claim(make.INHERIT, []))),
    of_file("a ROA whose certificate has AS numbers", "o.roa", NO_AS, NO_ROAS,
            with_roa(claim=make.Claim(["10.1.0.0/16"], [(65001, 65001)]))),
    of_file("an overclaiming child", "c.cer", WIDE_IPV4, A + B, wide),
    of_file("a certificate of a router", "r.cer", BAD, A + C + B, router),
    of_file("a ROA of 0 octets", "o.roa", BAD, NO_ROAS, octets(b"")),
    of_file("a ROA of zeros", "o.roa", BAD, NO_ROAS, octets(ZEROS)),
]


# ---- other shapes

def trimmed(t):
    t.says(A + C + B, (wide(t, trims=True), WIDE_IPV4, t.c.manifest))


def silent(t):
    """A certificate without basic constraints and files of other types say nothing; types are known
    in any case; octets after a manifest are left."""
    t.a.add("r.cer", certificate(t.a, signer("of objects"), t.c.claim, []))
    t.a.add("n.gbr", b"no contact")
    t.a.add("n.txt", b"")
    t.a.listed_as["o.roa"] = "o.ROA"
    t.put(f"{t.a.folder}o.ROA", t.a.files["o.roa"])
    t.put(t.a.manifest, t.a.published()[t.a.manifest] + b"more")


def certify(t, above, ca, claim, name, manifest=None, **more):
    """One CA lists a certificate with the key and the folder of another one, and its manifest or this one."""
    key = copy.copy(ca.signer)
    other = Ca(ca.name, claim, above, key=key, folder=ca.folder, manifest=manifest or ca.manifest)
    above.add(name, other.certificate(above, **more))


def ring(t):
    """`a` and `c` issued each other, and `a` itself, with fewer numbers: with these the objects of
    `a` claim too much."""
    certify(t, t.c, t.a, t.c.claim, "again.cer")
    certify(t, t.a, t.a, t.c.claim, "again.cer")
    t.says(A + C + B, (t.roa, WIDE_IPV4, t.a.manifest), (f"{t.a.folder}o.asa", WIDE_AS, t.a.manifest))


def two_parents(t):
    """`c` has a certificate by `b` too."""
    t.b.claim, t.b.files = t.a.claim, {}
    t.top.add_ca(t.b)
    t.b.add_ca(t.c)
    t.says(A + C)


def two_parents_that_trim(t):
    """`c` claims what `a` and `b` have together, and each of them lets it have its own."""
    t.c.claim = make.Claim(["10.1.4.0/24", "10.2.4.0/24"], [])
    t.c.add_roa("p.roa", 65004, ["10.2.4.0/24"])
    t.a.add_ca(t.c, trims=True)
    t.b.add_ca(t.c, trims=True)
    t.says(A + C + B + [origin(65004, "10.2.4.0/24")],
           *((f"{t.c.folder}{it}.roa", WIDE_IPV4, t.c.manifest) for it in "op"))


def joined(t):
    """What several objects say is said once, until the last moment at which one of them does. All
    providers of a customer hold until the first of their ends."""
    t.a.add_aspa("p.asa", 65001, [65010, 65012], last="20300101000000Z")
    t.a.add_roa("early.roa", 65001, ["10.1.0.0/16-24", "10.1.0.0/16-20"], last="20290101000000Z")
    t.says([*PROVIDERS, aspa(65001, 65010, 65012, until="20300101000000Z"), *ORIGINS, *C, *B,
            origin(65001, "10.1.0.0/16", 20, "20290101000000Z")])


def several_wrong(t):
    """Four ROAs of `a` are bad, that of `d` is missing, and the locator `other` has another key. The
    point of `b` ends with 2027, and a ROA of `a` with 2028. docs/COOKBOOK.md asks about this tree at
    the moment now, so what is expired ended on 2 November 2026."""
    t.a.add_roa("early.roa", 65001, ["10.1.128.0/17"], last="20290101000000Z")
    t.a.add_roa("expired.roa", 65001, ["10.1.0.0/16"], last="20261102000000Z")
    t.a.add_roa("forged.roa", 65001, ["10.1.0.0/16"], by=t.b.signer)
    t.a.add_roa("revoked.roa", 65003, ["10.1.0.0/20"])
    t.a.add_roa("wide.roa", 65001, ["10.1.0.0/16", "10.2.0.0/16"])
    t.a.revoke("revoked.roa")
    t.b.manifest_times = SIGNED, "20280101000000Z"
    d = t.ca("d", ["10.4.0.0/16"])
    t.lose(d.add_roa("o.roa", 65006, ["10.4.0.0/16"]))
    t.tals["other.tal"] = locator([t.top.uri], t.b.signer)
    bad = {"expired": ENDED, "forged": FORGED, "revoked": REVOKED, "wide": WIDE_IPV4}
    t.says(A + C + [origin(65002, "10.2.0.0/16", until="20280101000000Z"),
                    origin(65001, "10.1.128.0/17", until="20290101000000Z")],
           *((f"{t.a.folder}{it}.roa", cause, t.a.manifest) for it, cause in bad.items()),
           (d.manifest, f"o.roa {GONE}", t.top.manifest))
    t.fails(OTHER_KEY, "other")


def at(what, folder, manifest, cause):
    """`c` publishes there. Where its certificate names no URI that may be, it is refused itself."""
    def change(t):
        good = f"rsync://{HOST}/m/c"
        t.add_c(folder=f"{folder or good}/", manifest=f"{manifest or good}/c.mft")
        refused = f"{t.a.folder}c.cer" if cause in (NO_FOLDER, NO_URI) else t.c.manifest
        t.says(A + B, (refused, cause, t.a.manifest))
    return f"{what} {folder or manifest}", change


def deep(parts):
    """The files of `c` have names of so many parts: those of more than 64 are looked for nowhere."""
    def change(t):
        t.add_c(folder=f"rsync://{HOST}/m/{'d/' * (parts - 3)}")
        if parts > 64:
            t.says(A + B, (t.c.manifest, f"manifest {GONE}", t.a.manifest))
    return f"files whose names have {parts} parts", change


OUT, HERE = "rsync://../m/x", "rsync://./m/x"
NOWHERE = "rsync://h/m/../x", "rsync://h/../x", "rsync://h/m//x", "https://a/../x"
SHAPES = [
    ("nothing is wrong", lambda t: None),
    ("several things wrong", several_wrong),
    ("COPY/", lambda t: vars(t).update(copy="copy/")),
    ("./none/../COPY", lambda t: vars(t).update(copy="./none/../copy")),
    ("COPY from the root on", lambda t: vars(t).update(copy=None)),
    ("no COPY", lambda t: vars(t.fails(MISSING)).update(copy="none/copy", error="no such folder: none/copy\n")),
    ("what several objects say", joined),
    ("an overclaiming child under RFC 8360", trimmed),
    ("what says nothing", silent),
    ("two CAs that issued each other", ring),
    ("a CA under two parents", two_parents),
    ("a CA under two parents with other numbers", two_parents_that_trim),
    at("a folder", OUT, None, f"c.crl {GONE}"), at("a manifest", None, OUT, f"manifest {GONE}"),
    at("a point", OUT, OUT, f"manifest {GONE}"), at("a folder", HERE, None, f"c.crl {GONE}"),
    at("a point", HERE, HERE, f"manifest {GONE}"),
    *(at("a folder", uri, None, NO_FOLDER) for uri in NOWHERE),
    *(at("a manifest", None, uri, NO_URI) for uri in NOWHERE),
    deep(64), deep(65),
]


# ---- locators and anchors

def anchor_is(octets_of, text):
    def change(t):
        t.put(t.top.uri, octets_of(t))
        t.fails(text)
    return change


def one_of_two(t):
    t.tals["gone.tal"] = locator([f"rsync://{HOST}/ta/gone.cer"], t.b.signer)
    t.fails(MISSING, "gone")


def three_anchors(t):
    """The point of the second anchor is not there, and that of the third is stale."""
    for name in "gone", "stale":
        ca = Ca(name, EVERYTHING)
        ca.manifest_times = SIGNED, PAST
        t.put(ca.uri, ca.certificate())
        t.tals[f"{name}.tal"] = locator([ca.uri], ca.signer)
    t.cas.append(ca)
    t.fails(f"manifest {GONE}", "gone").fails(f"manifest {STALE}", "stale")


def one_twice(t):
    """The same anchor under a name that CSV quotes and JSON escapes, and a file that is refused."""
    t.a.add("n.roa", b"")
    refused = f"{t.a.folder}n.roa", BAD, t.a.manifest
    name = 'two, "2"\\'
    t.tals[f"{name}.tal"] = t.tals["one.tal"]
    t.says(A + C + B, refused)
    t.found[name], t.refused[name] = A + C + B, [refused]


def same_names(t):
    """Two locators of one name, in two folders: each has an answer of its own."""
    t.words = ["tals/one.tal", "tals/more/one.tal"]
    t.tals["more/one.tal"] = t.tals["one.tal"]
    t.again = [("one", A + C + B)]


def kept_at_ta(t):
    """The anchor at ta/NAME/FILE counts: that of the locator's own name."""
    t.files["ta/one/top.cer"] = t.top.certificate() + b"more"
    t.lose(t.top.uri)
    t.tals["two.tal"] = t.tals["one.tal"]
    t.fails(MISSING, "two")


def beside(octets_of):
    """The anchor is at ta/NAME/FILE, and another file at its URI."""
    def change(t):
        t.files["ta/one/top.cer"] = t.top.certificate()
        t.put(t.top.uri, octets_of(t))
    return change


def other_at_ta(t):
    """Another file is at ta/NAME/FILE: that at the URI is the anchor."""
    t.files["ta/one/top.cer"] = b"no anchor"


def several(*octets_of, text=None):
    """A locator with several URIs, one of them of HTTPS. HTTPS first, and else in their order, the
    first that has a good certificate with the locator's key decides."""
    def change(t):
        uris = [f"rsync://{HOST}/ta/1.cer", f"rsync://{HOST}/ta/2.cer", f"https://{HOST}/ta/0.cer"]
        t.tals["one.tal"] = locator(uris, t.top.signer)
        for uri, octets in zip([uris[2], *uris], [it and it(t) for it in octets_of]):
            if octets is not None:
                t.put(uri, octets)
        if text:
            t.fails(text)
    return change


def uris_of(count, text=None):
    """A locator with so many URIs, of which the last is that of the anchor."""
    def change(t):
        others = [f"rsync://{HOST}/ta/{at}.cer" for at in range(count - 1)]
        t.tals["one.tal"] = locator([*others, t.top.uri], t.top.signer)
        if text:
            t.fails(text)
    return f"a locator with {count} URIs", change


def good(t):
    return t.top.certificate()


def expired(t):
    return t.top.certificate(last=PAST)


def other(t):
    return Ca("other", EVERYTHING).certificate()


def located(uri, path, is_found=False):
    """The locator has this URI alone, and the anchor stands at this path."""
    def change(t):
        t.tals["one.tal"] = locator([uri], t.top.signer)
        t.files[path] = t.top.certificate()
        if not is_found:
            t.fails(MISSING)
    return f"a locator of {uri}, and an anchor at {path}", change


def named(file, name):
    """The locator is in a file of this name. No anchor is taken from where ta/NAME would lead."""
    def change(t):
        t.tals, t.found = {file: t.tals["one.tal"]}, {name: A + C + B}
        t.lose(t.top.uri)
        for path in ("top.cer", "ta/top.cer"):
            t.files[path] = t.top.certificate()
        t.fails(MISSING, name)
    return f"a locator {file!r}", change


def stops(word, octets):
    """A word that names no locator ends it all."""
    def change(t):
        t.tals["bad.tal"] = octets
        t.words, t.found, t.status, t.error = ["tals/one.tal", word], None, 2, f"bad locator {word}\n"
    return f"bad locator {word}, {len(octets)} octets", change


def unreadable(word, reason):
    """So does one that names no file that can be read."""
    def change(t):
        t.words, t.found, t.status = ["tals/one.tal", word], None, 4
        t.error = f"cannot read {word}: {reason}\n"
    return f"cannot read {word}", change


LOCATORS = [
    ("an anchor with another key", anchor_is(other, OTHER_KEY)),
    ("an expired anchor", anchor_is(expired, EXPIRED)),
    ("an anchor that is a ROA", anchor_is(lambda t: t.b.files["o.roa"], OTHER_KEY)),
    ("an anchor of 0 octets", anchor_is(lambda t: b"", OTHER_KEY)),
    ("an anchor of zeros", anchor_is(lambda t: ZEROS, OTHER_KEY)),
    ("anchors: none, none, good", several(None, None, good)),
    ("anchors: another key, good, expired", several(other, good, expired)),
    ("anchors: zeros, another key, good", several(lambda t: ZEROS, other, good)),
    ("anchors: expired, good, good", several(expired, good, good)),
    ("anchors: zeros, expired, another key", several(lambda t: ZEROS, expired, other, text=EXPIRED)),
    ("anchors: good, expired, expired", several(good, expired, expired)),
    ("anchors: other keys", several(other, other, other, text=OTHER_KEY)),
    ("two locators, one without an anchor", one_of_two),
    ("two anchors whose own points are refused", three_anchors),
    ("two locators of one anchor", one_twice),
    ("two locators of one name", same_names),
    ("an anchor at ta/NAME/FILE", kept_at_ta), ("another file at ta/NAME/FILE", other_at_ta),
    ("an anchor at ta/NAME/FILE, zeros at its URI", beside(lambda t: ZEROS)),
    ("an anchor at ta/NAME/FILE, another key at its URI", beside(other)),
    ("an anchor at ta/NAME/FILE, an expired one at its URI", beside(expired)),
    uris_of(64), uris_of(65, MANY_URIS),
    located("https://a/../x", "x"), located("https://../x", "../x"), located("https://a/..", "x"),
    located("https://a//x", "a/x"), located("https://a/", "x"), located("rsync://../x/y", "../x/y"),
    located("https://a/../x", "ta/one/x", True),
    named("...tal", ".."), named("..tal", "."), named(".tal", ""), named("one", "one"),
    unreadable("tals/..", "is a folder"), unreadable("tals/none.tal", "no such file"),
    stops("tals/bad.tal", b""), stops("tals/bad.tal", ZEROS),
]


# ---- files that are no plain files

def device(what, make_it, cause=NO_FILE, file="o.roa"):
    """A file of `a`, or its folder, is something else on the disk; the point is refused."""
    def change(t):
        uri = f"{t.a.folder}{file}".rstrip("/")
        for path in t.written():
            if f"{path}/".startswith(f"{path_of(uri)}/"):
                t.lost.append(path)
        t.devices[path_of(uri)] = make_it
        if cause:
            name = file if file.endswith((".roa", ".crl")) else "manifest"
            t.says(B, (t.a.manifest, f"{name} {cause}", t.top.manifest))
    return f"{what} in the place of {file or 'a folder'}", change


def link_out(where, octets):
    outside = where.split("/copy/")[0] + "/outside.roa"
    with open(outside, "wb") as it:
        it.write(octets)
    os.symlink(outside, where)


def link_in(where, octets):
    with open(f"{where}.there", "wb") as it:
        it.write(octets)
    os.symlink(os.path.basename(where) + ".there", where)


def over(where, _):
    with open(where, "wb") as it:
        it.truncate(MOST + 1)


def locked(where, octets):
    with open(where, "wb") as it:
        it.write(octets)
    os.chmod(where, 0)


def fifo(where, _):
    os.mkfifo(where)


def link_to(path):
    return lambda where, _: os.symlink(path, where)


def unix_socket(where, _):
    os.mknod(where, stat.S_IFSOCK | 0o600)


def sparse(where, _):
    """A file of 1 GB that takes no room."""
    with open(where, "wb") as it:
        it.truncate(1 << 30)


def anchor(what, make_it, cause=NO_FILE):
    """The certificate of the trust anchor is something else on the disk."""
    def change(t):
        t.lose(t.top.uri)
        t.devices[path_of(t.top.uri)] = make_it
        t.fails(f"its certificate {cause}")
    return f"{what} in the place of the anchor", change


DEVICES = [
    device("a pipe", fifo), device("a pipe", fifo, file="a.crl"), device("a pipe", fifo, file="a.mft"),
    device("a socket", unix_socket), device("a socket", unix_socket, file="a.mft"),
    device("a link to /dev/zero", link_to("/dev/zero")),
    device("a link to /dev/zero", link_to("/dev/zero"), file="a.mft"),
    device("a folder", lambda where, _: os.makedirs(where)),
    device("a folder", lambda where, _: os.makedirs(where), file="a.mft"),
    device("a link out of COPY", link_out), device("a link inside COPY", link_in),
    device("a link to itself", lambda where, _: os.symlink(where, where)),
    device("a link", link_to("../m"), file=""),
    device("a file", lambda where, _: pathlib.Path(where).write_bytes(b""), GONE, file=""),
    device("a file over the bound", over, LARGE_FILE),
    device("a file over the bound", over, LARGE_FILE, file="a.mft"),
    # (the superuser reads each file)
    device("a file that may not be read", locked, os.geteuid() and UNREAD),
    anchor("a pipe", fifo), anchor("a link", link_to("/dev/zero")), anchor("a file over the bound", over, LARGE_FILE),
]

TREES = SHAPES + POINTS + FILES + LOCATORS + DEVICES


# ---- hostile CAs

PLACE = "10.9.0.0/16"
LONG_FOLDER = f"rsync://{HOST}/m/" + f"{'h' * 249}/" * 14


def numbers(count):
    return [(65100 + 2 * at, 65100 + 2 * at) for at in range(count)]


def hostile(t, count=0, also=(), name="h", **places):
    """A CA that the anchor lists before all others, with so many AS numbers."""
    ca = t.ca(name, [PLACE, *also], numbers(count), **places)
    t.top.files = {f"{name}.cer": t.top.files.pop(f"{name}.cer"), **t.top.files}
    return ca


def below(t, above, name="x", count=0, key=None):
    """A CA below a hostile one, with a ROA, which is found too."""
    ca = t.ca(name, [PLACE], numbers(count), above, key=key)
    number = 65100 + len(t.cas)
    ca.add_roa("o.roa", number, [PLACE])
    t.found["one"] = [*t.found["one"], origin(number, PLACE)]
    return ca


def serials(count):
    """Serial numbers of no certificate that there is."""
    return range(1_000_000, 1_000_000 + count)


def again(ca, name, count):
    """A CA lists a file under so many names more."""
    for at in range(count):
        ca.add(f"{at}{name}", ca.files[name])


def addresses(family, items):
    """The addresses of a family, in a certificate or in a ROA."""
    return make.sequence(make.octet_string(bytes([0, family])), make.sequence(items))


def list_more(t, ca, count, is_last=False):
    """The manifest of a CA lists so many files that are not there, after its revocation list, or before it."""
    own, more = [f"{ca.name}.crl"] * ca.lists_it, [f"{at}.roa" for at in range(count)]
    list_names(t, ca, more + own if is_last else own + more)


def list_names(t, ca, names):
    """The manifest of a CA lists these names, each with the hash of the revocation list."""
    digest = hashlib.sha256(ca.published()[ca.crl]).digest()
    listed = make.sequence(*(make.sequence(make.ia5(it), make.bits(digest)) for it in names))
    times = make.generalized(SIGNED) + make.generalized(NEXT)
    content = make.sequence(make.integer(1), times, make.SHA256, listed)
    name = ca.manifest.rsplit("/", 1)[1]
    t.put(ca.manifest, ca.object(name, make.MANIFEST, content, INHERITED, serial=ca.MANIFEST_SERIAL))


def raw_roa(ca, number, prefixes, said):
    """A ROA of these addresses, in place of the one that there is. Its certificate has the prefixes."""
    content = make.sequence(make.integer(number), make.sequence(said))
    ca.add("o.roa", ca.object("o.roa", make.ROA, content, make.Claim(prefixes, [])))


def many_names(t, count):
    """Two manifests that list one certificate under so many names."""
    h = hostile(t)
    x = below(t, h)
    y = below(t, x, "y")
    again(h, "x.cer", count)
    again(x, "y.cer", count)


def two_keys(t, count):
    """Two keys that certify each other with all numbers but one, so many times: each set of numbers
    is a place of its own. (With fewer than all, a certificate of them all claims too much.)"""
    h = hostile(t, count)
    x = below(t, h, count=count)
    for above, ca in ((h, x), (x, h)):
        for at in range(count):
            fewer = [it for it in numbers(count) if it != numbers(count)[at]]
            certify(t, above, ca, make.Claim([PLACE], fewer), f"{ca.name}{at}.cer", trims=True)
    t.says(t.found["one"], (f"{h.folder}x.cer", WIDE_AS, h.manifest))


def one_roa(t, count):
    """A ROA of 2,000 prefixes, under so many names."""
    h, prefixes = hostile(t, also=["10.16.0.0/12"]), [f"10.{16 + (at >> 8)}.{at & 255}.0/24" for at in range(2000)]
    h.add_roa("o.roa", 65100, prefixes)
    again(h, "o.roa", count)
    t.says(A + C + B + [origin(65100, it) for it in prefixes])


def one_point(t, count, revoked=5_000):
    """A point with a large revocation list, certified so many times with other numbers."""
    h = hostile(t, count)
    x = below(t, h, count=count)
    x.revoked = serials(revoked)
    for at in range(count):
        certify(t, h, x, make.Claim([PLACE], numbers(at)), f"x{at}.cer")
    return h


def point_of_a_megabyte(t, count):
    """The same with a list of 1 MB."""
    one_point(t, count, 45_000)


def parents_that_trim(t, count):
    """A CA that claims what two others have together. Each of them certifies it so many times, with one
    number of each fewer, and lets it have its own: each set of numbers is a place of its own."""
    own = numbers(2 * count)
    h, halves = hostile(t, 2 * count), (own[:count], own[count:])
    p, q = (t.ca(name, [PLACE], half, h) for name, half in zip("pq", halves))
    x = Ca("x", make.Claim([PLACE], own), p)
    t.cas.append(x)
    x.add_roa("o.roa", 65100, [PLACE])
    customers = [half[0][0] for half in halves]
    for name, customer in zip("pq", customers):
        x.add_aspa(f"{name}.asa", customer, [65010])
    for above in (p, q):
        above.add_ca(x, trims=True)
        for at, lost in enumerate(zip(*halves)):
            fewer = [it for it in own if it not in lost]
            certify(t, above, x, make.Claim([PLACE], fewer), f"x{at}.cer", trims=True)
    t.says([*PROVIDERS, *(aspa(it, 65010) for it in customers), *ORIGINS, *C, *B, origin(65100, PLACE)],
           *((f"{x.folder}{it}.asa", WIDE_AS, x.manifest) for it in "pq"))


def no_files(t, count):
    """A pipe, a link to /dev/zero and a sparse file of 1 GB, each listed by a CA with so many manifests. A
    run that opened the first would wait, and one that read another would take all memory."""
    h, refused = hostile(t), []
    for at, (make_it, cause) in enumerate(((fifo, NO_FILE), (link_to("/dev/zero"), NO_FILE), (sparse, LARGE_FILE))):
        x = t.ca(f"h{at}", [PLACE], (), h, key=shared(at))
        uri = x.add_roa("o.roa", 65100, [PLACE])
        manifests = certify_again(t, h, x, count)
        t.lose(uri)
        t.devices[path_of(uri)] = make_it
        refused += ((it, f"o.roa {cause}", h.manifest) for it in manifests)
    t.says(A + C + B, *refused)


def one_key(t, count):
    """So many children with one key, each with a number of its own."""
    h = hostile(t, count)
    x = t.ca("x", [PLACE], (), h)
    for at in range(count):
        certify(t, h, x, make.Claim([], numbers(count)[at:at + 1]), f"x{at}.cer")
    return x


def one_key_of_zeros(t, count):
    """The same, and the manifest of them all is a file of zeros."""
    x = one_key(t, count)
    t.put(x.manifest, bytes(1_000_000))
    t.says(A + C + B, (x.manifest, f"manifest: {BAD}", f"rsync://{HOST}/m/h/h.mft"))


def shadow(t, _):
    """A certificate for the key and the folder of `b`, with other numbers."""
    h = hostile(t)
    certify(t, h, t.b, make.Claim([PLACE], []), "b.cer")
    t.says(A + C + B, (f"{t.b.folder}o.roa", WIDE_IPV4, t.b.manifest))


def held(t, count):
    """A certificate with the key, the folder and the numbers of `c` and an early end, after a point
    that is certified so many times."""
    h = one_point(t, count)
    h.claim = make.Claim([PLACE, "10.1.4.0/24"], numbers(count))
    t.top.files["h.cer"] = h.certificate()
    certify(t, h, t.c, t.c.claim, "c.cer", last="20280101000000Z")


def host_of_anchors(t, _):
    """A CA whose host is `ta`, with a certificate where that of the trust anchor may be kept."""
    h = hostile(t, folder="rsync://ta/one/")
    below(t, h)
    h.add("top.cer", h.files["x.cer"])


def beside_anchor(t):
    """A CA whose folder is that of the anchor's URI, and the anchor at ta/NAME/FILE alone."""
    h = hostile(t, folder=t.top.uri.rsplit("/", 1)[0] + "/")
    t.files["ta/one/top.cer"] = t.files.pop(path_of(t.top.uri))
    return h


def anchor_of_others(t, _):
    """At the URI of the anchor a CA has the certificate of a child."""
    h = beside_anchor(t)
    below(t, h)
    h.add("top.cer", h.files["x.cer"])


def anchor_of_its_key(t, _):
    """At the URI of the anchor a CA has the certificate of a child with the anchor's key."""
    h, manifest = beside_anchor(t), f"{t.top.folder}x.mft"
    certify(t, h, t.top, make.Claim([PLACE], []), "top.cer", manifest=manifest)
    t.says(A + C + B, (manifest, f"manifest {GONE}", h.manifest))


def siblings(t, count):
    """So many CAs before all others, each with a manifest of zeros."""
    refused = []
    for at in range(count):
        h = hostile(t, name=f"h{at}", key=shared(at))
        t.put(h.manifest, ZEROS)
        refused.append((h.manifest, f"manifest: {BAD}", t.top.manifest))
    t.says(A + C + B, *refused)


def long_list(t, count):
    """So many ROAs below a revocation list of 100 times as many numbers."""
    h = hostile(t)
    h.revoked = serials(100 * count)
    for at in range(count):
        h.add_roa(f"{at}.roa", 65100, [f"10.9.{at}.0/24"])
    t.says(A + C + B + [origin(65100, f"10.9.{at}.0/24") for at in range(count)])


def empty_files(t, count, **places):
    """So many ROAs of no octets."""
    h = hostile(t, **places)
    h.files |= {f"{at}.roa": b"" for at in range(count)}
    t.says(A + C + B, *((f"{h.folder}{at}.roa", BAD, h.manifest) for at in range(count)))


def circle(t, count):
    """So many CAs, each of which certifies the next, and the last one the first."""
    first = above = hostile(t)
    for at in range(1, count):
        above = below(t, above, f"h{at}", key=shared(at))
    certify(t, above, first, first.claim, "h.cer")


def long_chain(t, count):
    """A chain of so many CAs."""
    above = hostile(t)
    for at in range(1, count):
        above = below(t, above, f"h{at}", key=shared(at))


def split(t, count):
    """A CA below a hostile one. Of a few addresses that this one has it has so many blocks: each second /32."""
    h = hostile(t, also=["3000::/8"])
    x = below(t, h)
    items = b"".join(make.bits(b"\x30" + (2 * at).to_bytes(3, "big")) for at in range(count))
    both = make.sequence(addresses(1, make.prefix(PLACE)), addresses(2, items))
    x.claim = make.Claim([], [])
    h.files["x.cer"] = x.certificate(more=make.extension("1.3.6.1.5.5.7.1.7", True, both))
    return x


def copied_sets(t, count):
    """So many ROAs whose certificates inherit, of a CA with 250 times as many blocks. It takes time:
    for each of these certificates all blocks are copied."""
    x = split(t, 250 * count)
    x.add_roa("i.roa", 65100, [PLACE], make.Claim(make.INHERIT, []))
    again(x, "i.roa", count)
    t.says(t.found["one"], *((f"{x.folder}{it}", NO_AS, x.manifest) for it in x.files if "i." in it))


def held_sets(t, count):
    """So many CAs that inherit, of one with 1,000 times as many blocks. It takes memory: while they
    wait, each holds a copy of all blocks."""
    x = split(t, 1_000 * count)
    y = below(t, x, "y")
    y.claim = make.Claim(make.INHERIT, [])
    x.files["y.cer"] = y.certificate()
    again(x, "y.cer", count)


def held_files(t, count):
    """So many CAs below files with 10,000 times as many octets after the certificate, and as many with
    these in an extension. It takes memory: while they wait, each holds its file."""
    h, octets = hostile(t), bytes(10_000 * count)
    x = below(t, h)
    h.add("after.cer", x.certificate() + octets)
    h.add("inside.cer", x.certificate(more=make.extension("1.3.6.1.4.1.32473.1", False, octets)))
    again(h, "after.cer", count)
    again(h, "inside.cer", count)


def certify_again(t, above, ca, count):
    """A CA certifies one below it so many times more, each time with a manifest at a URI of its own, of
    the same octets. Returns the URIs of all of these manifests."""
    own, uris = ca.published()[ca.manifest], [f"{ca.folder}{at}.mft" for at in range(count)]
    for at, uri in enumerate(uris):
        certify(t, above, ca, ca.claim, f"{ca.name}{at}.cer", manifest=uri)
        t.put(uri, own)
    return [ca.manifest, *uris]


def foreign_attribute(t, count):
    """A ROA with a signed attribute that may not be there, and a megabyte after it, which a CA with so many
    manifests lists. It would take memory, if a refusal held the type of the attribute, and so the file."""
    h = hostile(t)
    x = t.ca("x", [PLACE], (), h)
    x.add_roa("o.roa", 65100, [PLACE])
    foreign = x.files["o.roa"].replace(make.SIGNING_TIME, make.oid("1.2.840.113549.1.9.6"))
    x.files["o.roa"] = foreign + bytes(1_000_000)
    manifests = certify_again(t, h, x, count)
    t.says(A + C + B, *((f"{x.folder}o.roa", BAD, it) for it in manifests))


def trimmed_claims(t, count):
    """A CA under the policy of RFC 8360 that claims 20,000 blocks and has one of them, which a CA with so
    many manifests lists. It takes memory: while it waits, each of its certificates holds all claims."""
    h = hostile(t)
    x = below(t, h)
    y = below(t, x, "y")
    items = b"".join(make.bits((2 * at + 1).to_bytes(2, "big")) for at in range(20_000))
    y.claim = make.Claim([], [])
    claims = make.extension("1.3.6.1.5.5.7.1.28", True, make.sequence(addresses(1, items)))
    x.files["y.cer"] = y.certificate(trims=True, more=claims)
    certify_again(t, h, x, count)


def one_prefix(t, count):
    """A ROA that says one prefix 1,000 times as often as it is listed. It takes memory: all that a
    point says is held until it is read, repeats included."""
    h = hostile(t)
    raw_roa(h, 65100, [PLACE], addresses(1, make.sequence(make.prefix(PLACE)) * (1_000 * count)))
    again(h, "o.roa", count)
    t.says(A + C + B + [origin(65100, PLACE)])


def many_prefixes(t, count):
    """The same with different prefixes, which are held for longer."""
    h = hostile(t, also=["2001:db8:1::/48"])
    raw_roa(h, 65100, ["2001:db8:1::/48"], addresses(2, prefixes_of(1_000 * count)))
    again(h, "o.roa", count)
    t.says(A + C + B + [origin(65100, f"{prefix_of(at)}/80") for at in range(1_000 * count)])


def long_refusals(t, count):
    """So many files that are not good, below a URI of 3,500 octets. It takes memory, and writes much:
    a refusal holds the URIs of the file and of the manifest, and has a line of both."""
    empty_files(t, count, folder=LONG_FOLDER)


def long_names(t, count):
    """A manifest of so many files that are not there, below such a URI. It takes memory and time: the
    names of all are held and compared before a file is looked for."""
    h = hostile(t, folder=LONG_FOLDER)
    list_more(t, h, count)
    t.says(A + C + B, (h.manifest, f"0.roa {GONE}", t.top.manifest))


def last_list(t, count):
    """The same, with the revocation list after all of them. It takes time: the list is looked for among the files."""
    h = hostile(t, folder=LONG_FOLDER)
    list_more(t, h, count, is_last=True)
    t.says(A + C + B, (h.manifest, f"0.roa {GONE}", t.top.manifest))


def no_list(t, count):
    """A manifest of so many files without the revocation list, which is named below a folder of 25 times
    as many octets. It takes time, as above, and all of it before the list is read."""
    h = hostile(t, folder=f"rsync://{HOST}/m/{'h' * (25 * count)}/", manifest=f"rsync://{HOST}/m/h.mft")
    h.lists_it = False
    t.lose(h.crl)
    list_more(t, h, count)
    t.says(A + C + B, (h.manifest, "revocation list is not listed", t.top.manifest))


def often_certified(t, count):
    """A CA that so many others certify, each with a number of its own, and all that certify it."""
    h = hostile(t, count)
    x, above = t.ca("x", [PLACE], (), h), [h]
    for number in numbers(count):
        y = t.ca(f"y{number[0]}", [], [number], h, key=shared(0))
        certify(t, y, x, make.Claim([], [number]), "x.cer")
        above.append(y)
    return x, above


def named_twice(t, count):
    """A manifest that lists one name twice, of 99,000 times as many octets as there are CAs that certify
    its own. It takes memory, and writes much: the refusal of each place names the file."""
    x, above = often_certified(t, count)
    name = "t" * (99_000 * count) + ".roa"
    list_names(t, x, [name, name])
    t.says(A + C + B, *((x.manifest, f"{name} is listed twice", it.manifest) for it in above))


def lost_list(t, count):
    """The same of a revocation list with such a name, which is not there."""
    x, above = often_certified(t, count)
    name = "l" * (99_000 * count) + ".crl"
    x.crl = f"{x.folder}{name}"
    t.lose(x.crl)
    list_names(t, x, [name])
    t.says(A + C + B, *((x.manifest, f"{name} {UNREAD}", it.manifest) for it in above))


def deep_folder(t, count):
    """So many files that are not good, below as many folders in one another as a name may have. It takes
    time: for each file the system is asked for each folder, and goes down to it from the first."""
    empty_files(t, count, folder=f"rsync://{HOST}/m/" + f"{'h' * 55}/" * 61)


def refused_below_many(t, count, add):
    """A certificate that another key signed, which a CA with so many manifests lists."""
    h = hostile(t)
    x = t.ca("x", [PLACE], (), h)
    y = Ca("y", make.Claim([PLACE], []), x)
    add(x, y)
    manifests = certify_again(t, h, x, count)
    t.says(A + C + B, *((f"{x.folder}y.cer", FORGED, it) for it in manifests))


def many_extensions(t, count):
    """A certificate of 100,000 extensions that nobody knows. It takes time: each is looked up among those
    before it, and twice, since a certificate that is refused is read again to see whose it is."""
    arcs = (bytes([0x2A, 0x81, 0x80 | at >> 14, 0x80 | at >> 7 & 127, at & 127]) for at in range(100_000))
    more = b"".join(make.sequence(make.value(6, it), make.octet_string(b"")) for it in arcs)
    refused_below_many(t, count, lambda x, y: x.add("y.cer", y.certificate(x, more=more, by=t.b.signer)))


def same_claims(t, count):
    """A certificate that claims one prefix 250,000 times. It takes time: all are sorted, and joined to one."""
    said = make.sequence(addresses(1, make.prefix(PLACE) * 250_000))
    more = make.extension("1.3.6.1.5.5.7.1.7", True, said)

    def add(x, y):
        y.claim = make.Claim([], [])
        x.add("y.cer", y.certificate(x, more=more, by=t.b.signer))
    refused_below_many(t, count, add)


def one_folder(t, count):
    """So many files of which nothing is said in one folder, of a CA with 20 manifests more."""
    h = hostile(t)
    x = t.ca("x", [PLACE], (), h)
    x.files |= {f"{at}.gbr": b"" for at in range(count)}
    certify_again(t, h, x, 20)
    t.says(A + C + B)


# So many MiB of memory a run may take, where the hostile part of a tree spends the whole limit on the
# work, as those of the larger trees may; a quarter of that with the others.
MOST_MEMORY = 1_536
# The least limit of a tree, where more than `--limit` is needed. So many siblings have equal shares of
# what their list of certificates leaves: with less a share is too small for what `a` and `c` say.
LEAST = {siblings: 4_000_000}
# With how many there are of what: of the proved program, of another one, and where more are measured.
HOSTILE = [
    ("two manifests that list one certificate many times", many_names, 1_001, 40),
    ("two keys that certify each other", two_keys, 8, 3),
    ("a ROA of 2,000 prefixes that is listed many times", one_roa, 1_000, 10),
    ("a point with a long list that is certified many times", one_point, 300, 8),
    ("a point with a list of 1 MB that is certified many times", point_of_a_megabyte, 300, 3),
    ("two parents that certify a child many times, each with its own numbers", parents_that_trim, 100, 3),
    ("a pipe, a link to /dev/zero and a sparse file of 1 GB, each listed many times", no_files, 100, 3),
    ("many children with one key", one_key, 1_000, 30),
    ("many children with one key, and a manifest of zeros", one_key_of_zeros, 300, 8),
    ("a certificate for the key of a victim", shadow, 1, 1),
    ("a certificate for the key of a victim, with its numbers", held, 300, 8),
    ("a host that is called as the folder of trust anchors", host_of_anchors, 1, 1),
    ("another certificate at the URI of the anchor", anchor_of_others, 1, 1),
    ("a certificate with the key of the anchor at its URI", anchor_of_its_key, 1, 1),
    ("siblings with manifests of zeros", siblings, 20, 9),
    ("ROAs below a long list", long_list, 200, 10),
    ("ROAs of no octets", empty_files, 10_000, 50),
    ("a circle of 2", circle, 2, 2),
    ("a circle of 50", circle, 50, 5),
    ("a chain of 100", long_chain, 100, 5),
    ("ROAs that inherit many blocks", copied_sets, 500, 10, 2_000),
    ("CAs that inherit many blocks", held_sets, 50, 5, 250),
    ("CAs with large files", held_files, 50, 3, 300),
    ("a CA that claims much more than it has, which many list", trimmed_claims, 100, 3, 8_000),
    ("a ROA with a foreign signed attribute, which many CAs list", foreign_attribute, 500, 3, 8_000),
    ("a ROA of one prefix that is listed many times", one_prefix, 35, 3, 120),
    ("a ROA of many prefixes that is listed many times", many_prefixes, 30, 3, 110),
    ("ROAs of no octets below a long URI", long_refusals, 5_000, 50, 70_000),
    ("ROAs of no octets in a deep folder", deep_folder, 100, 10, 1_000),
    ("a manifest of many files below a long URI", long_names, 4_000, 100, 60_000),
    ("a manifest of many files, and its list the last, below a long URI", last_list, 4_000, 100, 60_000),
    ("a manifest of many files without its list, below a long URI", no_list, 4_000, 100, 60_000),
    ("a manifest that lists a long name twice, of a CA that is certified many times", named_twice, 10, 3, 100),
    ("a revocation list with a long name, of a CA that is certified many times", lost_list, 10, 3, 100),
    ("a certificate of many extensions, which many CAs list", many_extensions, 20, 3, 200),
    ("a certificate that claims one prefix many times, which many CAs list", same_claims, 20, 3, 200),
    ("many files in one folder, which many CAs have", one_folder, 1_000, 20, 10_000),
]


# ---- large files

# So many prefixes of a ROA, files of a manifest and serial numbers of a list fit into a file; there are
# fewer where there are fewer zeros.
PREFIXES, FILES_LISTED, SERIALS = (it * len(ZEROS) // MOST for it in (1_000_000, 400_000, 900_000))


def prefix_of(at):
    """A /80 of what `a` has, without its length."""
    fourth, fifth = at >> 16, at & 0xFFFF
    return f"2001:db8:1:{fourth:x}:{fifth:x}::" if fifth else f"2001:db8:1:{fourth:x}::" if fourth else "2001:db8:1::"


def prefixes_of(count):
    """So many of these, as a ROA has them."""
    head, first = make.sequence(make.bits(bytes(10)))[:-10], bytes.fromhex("20010db80001")
    return b"".join(head + first + at.to_bytes(4, "big") for at in range(count))


def add_prefixes(ca, count):
    """Adds a ROA with very many prefixes. Returns what it says."""
    raw_roa(ca, 65001, ["2001:db8:1::/48"], addresses(2, prefixes_of(count)))
    return [origin(65001, f"{prefix_of(at)}/80") for at in range(count)]


def of_prefixes(t, count=PREFIXES):
    """The ROA of `a` has very many prefixes."""
    t.says(PROVIDERS + add_prefixes(t.a, count) + C + B)


def beside_prefixes(t, count):
    """A second locator, which goes first. Below its trust anchor, which is returned, a CA has a ROA
    with very many prefixes."""
    top = Ca("two", EVERYTHING)
    ca = Ca("x", make.Claim(["2001:db8:1::/48"], []), top)
    t.found = {"two": add_prefixes(ca, count), **t.found}
    top.add_ca(ca)
    t.cas += top, ca
    t.put(top.uri, top.certificate())
    t.tals["two.tal"] = locator([top.uri], top.signer)
    t.words = ["tals/two.tal", "tals/one.tal"]
    return top


def of_files(t):
    """The manifest of `a` lists very many files that are not there, after its revocation list."""
    list_more(t, t.a, FILES_LISTED)
    t.says(B, (t.a.manifest, f"0.roa {GONE}", t.top.manifest))


def of_serials(t):
    """The list of `a` has very many serial numbers, of no certificate that there is."""
    t.a.revoked = serials(SERIALS)


def each_is(what, it):
    """Each file of a copy, and its locator, is these octets."""
    return [
        of_point(f"a manifest of {what}", f"manifest: {BAD}", lambda t: t.put(t.a.manifest, it)),
        of_point(f"a list of {what}", f"revocation list: {BAD}", lambda t: (
            vars(t.a).update(lists_it=False), t.a.files.update({"a.crl": it}))),
        of_file(f"a ROA of {what}", "o.roa", BAD, NO_ROAS, octets(it)),
        of_file(f"an ASPA of {what}", "o.asa", BAD, ORIGINS + C + B, lambda t: t.a.files.update({"o.asa": it})),
        of_file(f"a certificate of {what}", "c.cer", BAD, A + B, lambda t: t.a.files.update({"c.cer": it})),
        (f"an anchor of {what}", anchor_is(lambda t: it, OTHER_KEY)),
        (f"a locator of {what}", stops("tals/bad.tal", it)[1]),
    ]


LARGE = [
    *each_is("zeros", ZEROS), *each_is("values in values", NESTED),
    ("anchors: zeros, another key, good", several(lambda t: ZEROS, other, good)),
    (f"a ROA of {PREFIXES} prefixes", of_prefixes),
    (f"a manifest of {FILES_LISTED} files", of_files),
    (f"a list of {SERIALS} serial numbers", of_serials),
]
# How many times the files of the copy a run may need, where that is more than in tools/program runs: each prefix of a
# ROA is a payload, and a line, or an object of JSON; each listed name is kept until all are known to be different.
TIMES = {of_prefixes: 48, of_files: 8}


# ---- a tree on disk, for docs/COOKBOOK.md

def make_tree(folder):
    """Makes copy/ and tals/ in a folder, with several things wrong."""
    tree = Tree()
    several_wrong(tree)
    files = {f"copy/{path}": octets for path, octets in tree.written().items()}
    for name, octets in (files | {f"tals/{name}": octets for name, octets in tree.tals.items()}).items():
        path = pathlib.Path(folder, name)
        path.parent.mkdir(parents=True, exist_ok=True)
        path.write_bytes(octets)
