#!/usr/bin/env python3
"""Writes a module of tests that cuts the answers of the program with signatures: a row of each
command for each answer that it has, over streams that fail at each of their calls in turn."""
import json
import pathlib
import sys

sys.dont_write_bytecode = True
TOP = pathlib.Path(__file__).resolve().parent.parent.parent
sys.path.append(str(TOP / "tools"))
import example_files as examples  # noqa: E402
from programs.formats import WRITERS, compact  # noqa: E402
from programs.tree_rows import EXAMPLES as FOUND, EXAMPLES_REFUSED  # noqa: E402
from verify_words import not_issued, words as words_of  # noqa: E402

HEAD = '''//! The answers of the program with signatures, over streams that fail at each of their calls.

use crate::given::is_cut;
use std::test::Fail;
'''
# A pass takes long, and so does what verifies signatures and says much: of its answers each of so
# many calls fails.
EACH, LONG = 29, 100
SIGNED = "check", "files", "rta", "verdicts"
FILES = {
    "anchor": "rpki.example.net/anchor.cer", "authority": "rpki.example.net/anchor/authority.cer",
    "roa": "rpki.example.net/authority/origin.roa", "agreement": "agreement.rta", "broken.rta": "broken.rta",
    "second": "second.tal", "first": "anchor.tal", "revoking": "revoking.crl", "list": "rpki.example.net/anchor/anchor.crl",
    "anchor.cer": "rpki.example.net/anchor.cer", "origin.roa": "rpki.example.net/authority/origin.roa",
    "broken.roa": "rpki.example.net/authority/broken.roa", "p.ASA": "rpki.example.net/authority/providers.asa",
    "m.mft": "rpki.example.net/authority/authority.mft", "d/origin.roa": "rpki.example.net/authority/origin.roa",
    "d/providers.asa": "rpki.example.net/authority/providers.asa", "d/broken.roa": "rpki.example.net/authority/origin.roa",
    "d/m.mft": "rpki.example.net/authority/origin.roa", "d/x": "letter.sig", "anchor.tal": "anchor.tal",
    "second.tal": "second.tal"}
CHAIN, ANCHORS = ("anchor", "authority"), ("tal=second", "ca=anchor:authority")
GOOD, EARLY = "20270101000000Z", "20250101000000Z"
ROA, ASPA = f"yes\n{examples.ROA}", f"yes\n{examples.ASPA}"
ROA_MEMBERS, = (said for _, kind, said in examples.OBJECTS if kind == "roa")
AGREEMENT = """yes
rta
key 1A35C53323D25266354DB3F712B6E2D00DBDCF9C
key 22C1F88A54BF57519EC5DE1FBA3C46609A8E4E42
as AS64500-AS64503
as AS65536-AS65543
v4 198.51.100.0/25
v4 203.0.113.0/24
v6 2001:db8:100::/40
v6 3fff::/24
digest 27b1475ecc05bc4bbfc386c70f7bd74b99e7926da240c1e439a00700fdb4a9f2
"""
# As `openssl x509 -text -serial` has them.
ORIGIN_CERTIFICATE = """certificate
serial 01
valid-from 2026-01-01T00:00:00Z
valid-until 2040-01-01T00:00:00Z
key-id D499B0BF9D1519CFF7E9C67B077CDAECD7CBCA67
authority-key-id C78637259551E49913A293A978985D33FBECF9C1
ee
signed-object rsync://rpki.example.net/authority/origin.roa
ca-issuers rsync://rpki.example.net/anchor/authority.cer
crl rsync://rpki.example.net/authority/authority.crl
ipv4 192.0.2.0/24
ipv6 2001:db8::/32
"""
AUTHORITY_CERTIFICATE = """certificate
serial 02
valid-from 2026-01-01T00:00:00Z
valid-until 2040-01-01T00:00:00Z
key-id C78637259551E49913A293A978985D33FBECF9C1
authority-key-id 1A3A434D3CB238F39188C4ED212421A717BB7C97
ca
ca-repository rsync://rpki.example.net/authority/
rpki-manifest rsync://rpki.example.net/authority/authority.mft
ca-issuers rsync://rpki.example.net/anchor.cer
crl rsync://rpki.example.net/anchor/anchor.crl
as AS64496-AS64511
ipv4 192.0.2.0/24
ipv4 198.51.100.0/24
ipv6 2001:db8::/32
"""
CRL = """crl
number 01
this-update 2026-11-01T00:00:00Z
next-update 2036-01-01T00:00:00Z
authority-key-id 1A3A434D3CB238F39188C4ED212421A717BB7C97
"""
LOCATOR = """tal
uri rsync://rpki.example.net/anchor.cer
key 1A3A434D3CB238F39188C4ED212421A717BB7C97
"""
MALFORMED, ISSUER_MALFORMED = "malformed\n", "issuer refused: malformed\n"
NOT_ISSUED = "refused: " + not_issued(
    "C78637259551E49913A293A978985D33FBECF9C1", "rsync://rpki.example.net/anchor/authority.cer", "anchor",
    "1A3A434D3CB238F39188C4ED212421A717BB7C97") + "\n"
BROKEN = "refused: signature is not valid\n"
NOT_YET = "issuer refused: anchor: certificate is not yet valid\n"
REVOKED, NO_KIND = "refused: revoked by revoking\n", "skipped: no kind that is checked\n"
UNREAD = "cannot be read: no such file\n"
# A status, and what is said on both streams.
LARGE, NONE = (3, "", "out of memory\n"), (4, "", "cannot read none: no such file\n")
NO_TIME = 2, "", "cannot read the clock\n"
# What the folder has of the files of the manifest.
STATES = "".join(f"{state} {name}\n" for state, name in (
    ("missing", "authority.crl"), ("differs", "broken.roa"), ("missing", "expired.roa"), ("held", "origin.roa"),
    ("missing", "overclaiming.roa"), ("held", "providers.asa"), ("unlisted", "x")))
OPTIONS = ["--relaxed", "--registered", "--wide"]


def check(*files, chain=CHAIN, at=GOOD, **values):
    return words_of("check", *files, chain=chain, at=at, **values)


def held(object="m.mft", folder="d", chain=CHAIN, at=GOOD, **values):
    return words_of("files", object, folder, chain=chain, at=at, **values)


def listed(file, *others, chain=CHAIN):
    return words_of("verdicts", file, chain=[*chain, *others])


def rta(file, *anchors, at=GOOD):
    return words_of("rta", file, *(anchors or ANCHORS), at=at)


def show(*files, **values):
    return words_of("show", *files, **values)


def entry(name, said):
    """What is said of one of several files."""
    return name + ": " + said[:-1].replace("\n", "\n  ") + "\n"


def in_json(file, type, said):
    """The line of a file that is checked: its members, or why it is not good."""
    said = said if isinstance(said, dict) else {"reason": said[:-1]}
    return compact({"file": file, "type": type, "valid": "reason" not in said} | said) + "\n"


def good_lines(name, *places):
    """The lines of the good signatures of a file, those at these places."""
    lines = (examples.TREE / f"{name}.verdicts").read_text("ascii").splitlines(keepends=True)
    return "".join(lines[at] for at in places or range(len(lines)))


def usage():
    """What is said of a check of nothing."""
    rows = (TOP / "rows" / "verify_usage.jsonl").read_text().splitlines()
    alone = next(it for it in map(json.loads, rows) if it["name"] == "check: the usage of the command alone")
    missing = "an operand is missing"
    return alone["stderr"].replace(missing, "missing --ta CER: the certificate of the trust anchor")


# Words, the status, and what is said on both streams. No clock tells the time.
MORE = [
    (["--version"], 0, "rpki_verify 0.1.0\n", ""),
    (["check"], 2, "", usage()),
    (words_of("explain", "copy", "anchor.tal", "rsync://rpki.example.net/authority/none.roa", at=GOOD), 4, "",
     "cannot read rsync://rpki.example.net/authority/none.roa: is not in the copy, "
     "looked for copy/rpki.example.net/authority/none.roa\n"),
    (check("list", kind="crl", chain=["anchor"]), 0, "yes\ncrl\n", ""),
    (check("origin.roa", chain=[*CHAIN, "roa"]), 1, "issuer refused: roa: malformed\n", ""),
    (check("origin.roa", at=None), *NO_TIME),
    (check("origin.roa", crl=["list", "revoking"]), 1, REVOKED, ""),
    (check("anchor", kind="roa"), 1, MALFORMED, ""),
    (check("roa"), 1, NO_KIND, ""),
    (check("none", kind="roa"), 4, UNREAD, ""),
    (check("large", kind="roa"), *LARGE),
    (check("origin.roa", "p.ASA"), 0, entry("origin.roa", ROA) + entry("p.ASA", ASPA), ""),
    (check("broken.roa", "p.ASA", "roa", "none.mft"), 4,
     entry("broken.roa", BROKEN) + entry("p.ASA", ASPA) + entry("roa", NO_KIND) + entry("none.mft", UNREAD), ""),
    (check("origin.roa", "broken.roa", "none.mft", "roa", options=["--json"]), 4,
     in_json("origin.roa", "roa", ROA_MEMBERS) + in_json("broken.roa", "roa", BROKEN)
     + in_json("none.mft", "manifest", UNREAD) + in_json("roa", "", NO_KIND), ""),
    (check("roa", "none", "large", kind="roa"), 3, entry("roa", ROA) + entry("none", UNREAD), LARGE[2]),
    (check("origin.roa", "p.ASA", at=EARLY, options=["--json"]), 1,
     in_json("origin.roa", "roa", NOT_YET) + in_json("p.ASA", "aspa", NOT_YET), ""),
    (check("origin.roa", tal="roa", crl="roa"), 2, "", "bad locator roa\n"),
    (check("origin.roa", tal="second", crl=["list", "roa"]), 2, "", "bad list roa\n"),
    (check("origin.roa", "p.ASA", crl="revoking"), 1, entry("origin.roa", REVOKED) + entry("p.ASA", ASPA), ""),
    (check("first", kind="tal", chain=["anchor"], crl=["revoking", "list", "revoking"]), 0,
     "yes\n" + LOCATOR, "no CA for list revoking\n" * 2),
    (check("origin.roa", tal="first", chain=["anchor", "none", "large"]), *NONE),
    (show("second", kind="tal"), 0, "tal\nuri rsync://rpki.example.net/second.cer\n"
     "key 34EB4F79DBFC177F2263A2F42E69DB6262D2C8BD\n", ""),
    (show("origin.roa"), 0, examples.ROA + "signing 2026-11-01T00:00:00Z\n"
     "ee 01 D499B0BF9D1519CFF7E9C67B077CDAECD7CBCA67\n" + ORIGIN_CERTIFICATE, ""),
    (show("authority", kind="certificate", options=OPTIONS), 0, AUTHORITY_CERTIFICATE, ""),
    (show("list", "anchor.cer", kind="crl"), 1, entry("list", CRL) + entry("anchor.cer", MALFORMED), ""),
    (show("first", "none", "large", kind="tal"), 3, entry("first", LOCATOR) + entry("none", UNREAD), LARGE[2]),
    (show("roa", kind="tal"), 1, MALFORMED, ""),
    (show("roa", "none.crl"), 4,
     "roa: skipped: unknown kind of file: give --kind KIND\n" + entry("none.crl", UNREAD), ""),
    (show("large", "none", kind="rta"), *LARGE),
    (held(), 1, "no\nmanifest\n" + STATES, ""),
    (held(options=["--json", *OPTIONS]), 1,
     compact({"file": "m.mft", "type": "manifest", "valid": False, "lines": STATES.splitlines()}) + "\n", ""),
    (held(at=None), *NO_TIME),
    (held(at=EARLY), 1, NOT_YET, ""),
    (held(chain=["anchor"]), 1, NOT_ISSUED, ""),
    (held("origin.roa"), 2, "", "no manifest and no checklist: origin.roa\n"),
    (held(folder="none"), 4, "", "no such folder: none\n"),
    (held("none"), *NONE),
    (held("large"), *LARGE),
    # The CA did not sign its own certificate, nor that of the trust anchor.
    (listed("roa", chain=CHAIN[::-1]), 0, good_lines("origin.roa", 3), ""),
    (listed("anchor"), 1, MALFORMED, ""),
    (listed("roa", "roa"), 1, ISSUER_MALFORMED, ""),
    (listed("roa", "none", "large"), *NONE),
    (listed("roa", "large", "none"), *LARGE),
    (words_of("verdicts", "agreement", *ANCHORS), 0, good_lines("agreement.rta"), ""),
    (rta("agreement"), 0, AGREEMENT, ""),
    (rta("broken.rta"), 1, "refused: missing certificate\n", ""),
    (rta("roa"), 1, MALFORMED, ""),
    (rta("agreement", "tal=roa"), 2, "", "bad locator roa\n"),
    (rta("agreement", *ANCHORS, "ca=anchor:roa"), 1, "issuer refused: roa: malformed\n", ""),
    (rta("agreement", at=None), *NO_TIME),
    (rta("none", "tal=second"), *NONE),
    (rta("none", "tal=large"), *LARGE),
]
# What stands in the copy, and what is reported of it.
PARTS = "rpki.example.net", "ta"
REFUSED = "".join(f"refused {uri}: {cause} (under {under}, anchor)\n" for uri, cause, under in EXAMPLES_REFUSED)
SECOND = "refused second: manifest is not in the copy\n"
ABSENT = "refused absent: its certificate is not in the copy\n"
LOOKED = "absent: looked for copy/a.example.com/1/1 and copy/ta/absent/1\n"


def payloads(*tals, **values):
    return words_of("payloads", "copy", *tals, at=GOOD, **values)


def printed(options, said=FOUND):
    return WRITERS[options]([("anchor", said)] if said else [], {"anchor": EXAMPLES_REFUSED})


# The same of the folder of examples/.
PAYLOADS = [
    *((payloads("anchor.tal", options=options), 0, printed(options), REFUSED) for options in WRITERS if "--long" not in options),
    (payloads("second.tal"), 1, "", SECOND),
    (payloads("absent.tal"), 1, "", ABSENT + LOOKED),
    (payloads("absent.tal", format="json"), 1, printed(("--format", "json"), []), ABSENT + LOOKED),
    (payloads("anchor.tal", "absent.tal", "second.tal"), 1, printed(()), ABSENT + SECOND + REFUSED + LOOKED),
    (payloads("anchor.tal", "bad.tal"), 2, "", "bad locator bad.tal\n"),
    (payloads("anchor.tal", "none"), *NONE),
    (payloads("anchor.tal", "large"), *LARGE),
]


def files():
    """The files of the store, and the copy of the repositories, by their names."""
    found = {name: (examples.TREE / path).read_bytes() for name, path in FILES.items()}
    found |= {"absent.tal": b"rsync://a.example.com/1/1\n\n" + found["second.tal"].split(b"\n\n", 1)[1], "bad.tal": b"bad"}
    copy = sorted(it for part in PARTS for it in (examples.TREE / part).rglob("*") if it.is_file())
    return found | {it.relative_to(examples.TREE).as_posix(): it.read_bytes() for it in copy}


def print_files():
    """The octets of the files, and a function that gives each by its name."""
    found = files()
    for number, octets in enumerate(found.values()):
        examples.table(f"file_{number}", octets)
    print(f"/// The files.\nfn files() -> [(&'static str, &'static [u8]); {len(found)}] {{\n    [")
    print("\n".join(f"        ({examples.text(name)}, &FILE_{number})," for number, name in enumerate(found)))
    print("    ]\n}\n")


def print_test(name, words, status, out, err, each=1):
    listed = ", ".join(map(examples.text, words))
    print(f"#[test]\nfn {name}(rt: HostRuntime) -> Result<(), Fail> {{")
    print(f"    let words: [&str; {len(words)}] = [{listed}];")
    print(f"    let said: (u8, &[u8], &[u8]) = ({status}, b{examples.text(out)}, b{examples.text(err)});")
    print(f"    is_cut(&rt, &words, &files(), said, {each})?;\n    Ok(())\n}}\n")


def main():
    print(HEAD)
    print_files()
    for number, (words, status, out, err) in enumerate(MORE):
        is_long = status < 2 and len(out) > LONG and words[0] in SIGNED
        print_test(f"cut_{number}", words, status, out, err, EACH if is_long else 1)
    for number, (words, status, out, err) in enumerate(PAYLOADS):
        print_test(f"payloads_{number}", words, status, out, err, EACH)


if __name__ == "__main__":
    main()
