#!/usr/bin/env python3
"""Writes a module of tests that checks files of examples/ under revocation lists of their CAs, which
are made here: which of them count, and which one is named. (tools/program verify has one of each sort.)"""
import pathlib
import sys

sys.dont_write_bytecode = True
sys.path.append(str(pathlib.Path(__file__).resolve().parent.parent.parent / "tools"))
import example_files as examples  # noqa: E402
import publication  # noqa: E402
from verify_words import not_issued, words as words_of  # noqa: E402

HEAD = '''//! Files of examples/ that are checked under revocation lists.

use crate::given::{Row, is_said};
use std::test::Fail;
'''
MOMENT = "20270101000000Z"
FILES = {"anchor": "rpki.example.net/anchor.cer", "authority": "rpki.example.net/anchor/authority.cer",
         "second": "rpki.example.net/second.cer", "anchor.crl": "rpki.example.net/anchor/anchor.crl",
         "authority.crl": "rpki.example.net/authority/authority.crl", "tal": "anchor.tal", "second.tal": "second.tal",
         "origin.roa": "rpki.example.net/authority/origin.roa", "holding.rta": "holding.rta"}
CHAIN = "anchor", "authority"
KEYLESS = "keyless: malformed: subjectKeyIdentifier is missing"
# The keys of the trust anchor and of the CA, with the URIs of their certificates, and that of another trust anchor.
TOP = "1A3A434D3CB238F39188C4ED212421A717BB7C97", "rsync://rpki.example.net/anchor.cer"
CA = "C78637259551E49913A293A978985D33FBECF9C1", "rsync://rpki.example.net/anchor/authority.cer"
OTHER = "34EB4F79DBFC177F2263A2F42E69DB6262D2C8BD"
NOT_ISSUED = f"refused: {not_issued(*CA, 'anchor', TOP[0])}\n"


def files():
    """The octets of each file, by its name."""
    found = {name: (examples.TREE / path).read_bytes() for name, path in FILES.items()}
    anchor, ca = map(publication.signer, CHAIN)
    made = publication.SIGNED, publication.NEXT

    # The CA has the serial number 2 under the trust anchor, the ROA 1 under the CA, and the CA of the
    # attestation 8, that of its holder 5 under the latter.
    def revoking(key, serials, times=made):
        return publication.crl(key, *times, serials, key)
    found["anchor2.crl"] = revoking(anchor, [1, 2])
    for name, serials in (("roa", [1]), ("aspa", [2]), ("all", range(1, 10)), ("holder", [5]), ("customer", [8])):
        found[f"{name}.crl"] = revoking(ca, serials)
    found["unsigned.crl"] = publication.crl(anchor, *made, [2], ca)
    found["stale.crl"] = revoking(anchor, [2], (publication.SIGNED, "20261102000000Z"))
    found["longer.crl"] = found["anchor2.crl"] + b"more"
    # The extension of the subject key identifier, under another type (2.5.29.127).
    found["keyless"] = found["authority"].replace(b"\x06\x03\x55\x1d\x0e", b"\x06\x03\x55\x1d\x7f")
    return found


def roa(said, *lists, err="", **given):
    return "origin.roa", said, err, {"crl": lists, **given}


def refused(cause, *lists, **given):
    return roa(f"issuer refused: {cause}\n", *lists, **given)


ROA, LATE, NO_CA = f"yes\n{examples.ROA}", "authority: revoked by anchor2.crl", "no CA for list "
HOLDING = "yes\n" + examples.WHOLE_RTA.partition("certificates")[0]
# A file, what is said on each stream, and what is given beside it.
ROWS = [
    # the first list that counts and has the serial number
    roa("refused: revoked by all.crl\n", "aspa.crl", "all.crl", "roa.crl"),
    roa(ROA, "aspa.crl", "authority.crl", "anchor.crl"),
    # lists of the trust anchor, and those that do not count
    refused(LATE, "roa.crl", "anchor2.crl", tal="tal"),
    refused("authority: revoked by longer.crl", "longer.crl", "anchor2.crl"),
    refused("authority: revoked by stale.crl", "authority.crl", "stale.crl"),
    refused(LATE, "unsigned.crl", "anchor.crl", "anchor2.crl", "stale.crl"),
    roa(ROA, "unsigned.crl", "anchor.crl", "aspa.crl", err=f"{NO_CA}unsigned.crl\n"),
    roa("refused: revoked by all.crl\n", "unsigned.crl", "all.crl", err=f"{NO_CA}unsigned.crl\n"),
    roa(NOT_ISSUED, "roa.crl", "anchor.crl", "all.crl", err=f"{NO_CA}roa.crl\n{NO_CA}all.crl\n", chain=["anchor"]),
    # certificates that make no issuer: the first is named
    refused("anchor: key is not that of second.tal", "anchor2.crl", tal="second.tal", chain=["anchor", "origin.roa"]),
    refused(KEYLESS, chain=["keyless", "origin.roa"]),
    refused("anchor: missing AKI", chain=["anchor", "anchor", "authority"]),
    refused(f"authority: {not_issued(*TOP, 'second', OTHER)}", chain=["second", "authority"]),
    # an attestation
    ("holding.rta", HOLDING, "", {"crl": ["holder.crl", "roa.crl", "authority.crl"]}),
    ("holding.rta", "refused: revoked by all.crl\n", "", {"crl": ["holder.crl", "all.crl", "customer.crl"]}),
    ("holding.rta", "refused: RTA could not be validated\n", f"{NO_CA}customer.crl\n", {"chain": ["anchor"], "crl": "customer.crl"}),
]


def main():
    print(HEAD)
    found = files()
    for name, octets in found.items():
        examples.table(name, octets)
    examples.files("files", found)
    for number, (name, out, err, given) in enumerate(ROWS):
        words = words_of("check", name, **{"chain": CHAIN, "at": MOMENT} | given)
        reads = sum(words.count(it) for it in ("--ta", "--ca", "--tal", "--crl")) + ("issuer refused" not in out)
        print(f"#[test]\nfn row_{number}(rt: HostRuntime) -> Result<(), Fail> {{")
        print(f"    let words: [&str; {len(words)}] = [{', '.join(map(examples.text, words))}];")
        print(f"    let row = Row {{ words: &words, status: {int(not out.startswith('yes'))},")
        print(f"        out: {examples.text(out)}, err: {examples.text(err)}, reads: {reads} }};")
        print("    let files = files();\n    is_said(&rt, &files, &row)?;\n    Ok(())\n}\n")


if __name__ == "__main__":
    main()
