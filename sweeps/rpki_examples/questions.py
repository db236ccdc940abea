#!/usr/bin/env python3
"""Writes a module of tests that look signatures of examples/ up among the good ones.

Which of them are good is told by the files NAME.verdicts there, for which `openssl` was asked."""
import hashlib
import pathlib
import sys

sys.dont_write_bytecode = True
sys.path.append(str(pathlib.Path(__file__).resolve().parent.parent.parent / "tools"))
import example_files as examples  # noqa: E402
from example_files import contents, inside  # noqa: E402

FILES = {
    "anchor": "rpki.example.net/anchor.cer",
    "authority": "rpki.example.net/anchor/authority.cer",
    "manifest": "rpki.example.net/authority/authority.mft",
    "roa": "rpki.example.net/authority/origin.roa",
    "aspa": "rpki.example.net/authority/providers.asa",
    "rsc": "letter.sig",
    "overclaiming": "rpki.example.net/authority/overclaiming.roa",
    "expired": "rpki.example.net/authority/expired.roa",
    "broken": "rpki.example.net/authority/broken.roa",
}
OCTETS = {name: (examples.TREE / path).read_bytes() for name, path in FILES.items()}
HEAD = '''//! Signatures of examples/, looked up among the good ones that a check asks about.

use bytes::Bytes;
use rpki_basics::{PublicKey, RpkiSignature, RpkiSignatureAlgorithm};
use rpki_examples::questions::is_listed_good;
use rpki_rsa::Rsa;
use rpki_verdicts::ListingError;
use std::alloc::{AllocError, Global};

/// What is answered, in a word.
#[derive(Clone, Copy, Debug, PartialEq, Eq)]
enum Finding {
    Yes,
    No,
    Certificate,
    Object,
}

/// The bits of a key, a message and a signature.
type Asked = (&'static [u8], &'static [u8], &'static [u8]);

/// What is said of a signature, where these are the object, the trust anchor and the chain.
fn said(
    alloc: Global,
    object: &[u8],
    anchor: &[u8],
    chain: &[&[u8]],
    asked: &Asked,
) -> Result<Finding, AllocError> {
    let mut certs = Vec::new(alloc);
    for cert in chain {
        certs.push(Bytes::copy_from_slice(alloc, cert)?)?;
    }
    let object = Bytes::copy_from_slice(alloc, object)?;
    let anchor = Bytes::copy_from_slice(alloc, anchor)?;
    let (key, message, signature) = asked;
    let key = PublicKey::from_bits(Bytes::from_static(key));
    let octets = Bytes::from_static(signature);
    let signature = RpkiSignature::new(RpkiSignatureAlgorithm::RsaSha256, octets);
    let found = is_listed_good(alloc, &object, &anchor, &certs, &Rsa, &key, message, &signature);
    Ok(match found {
        Ok(true) => Finding::Yes,
        Ok(false) => Finding::No,
        Err(ListingError::Certificate(_)) => Finding::Certificate,
        Err(ListingError::Object(_)) => Finding::Object,
    })
}
'''


def bits_of(value):
    """The bits of a BIT STRING of whole octets."""
    return contents(value)[1:]


def info_of(cert):
    """The SubjectPublicKeyInfo of a certificate."""
    return inside(inside(cert)[0])[6]


def key_of(cert):
    return bits_of(inside(info_of(cert))[1])


def in_cert(cert):
    """What is signed of a certificate, and its signature."""
    signed, _, signature = inside(cert)
    return signed, bits_of(signature)


def signer_of(name):
    """The certificate in an object, the message that it signs, and the signature."""
    certs, signers = examples.signed_data(OCTETS[name])[3:]
    signer = inside(inside(signers)[0])
    attributes = next(part for part in signer if part[0] == 0xA0)
    return contents(certs), b"\x31" + attributes[1:], contents(signer[-1])


ANCHOR, AUTHORITY = OCTETS["anchor"], OCTETS["authority"]
BOTH = "anchor", "authority"


def asked_of(name):
    """The signatures that a check of the object asks about, under the CA."""
    cert, message, signature = signer_of(name)
    return [(key_of(ANCHOR), *in_cert(ANCHOR)), (key_of(ANCHOR), *in_cert(AUTHORITY)),
            (key_of(AUTHORITY), *in_cert(cert)), (key_of(cert), message, signature)]


def said_of(name, asked):
    """What is said of a signature under the CA: whether the list of the object has its digests."""
    keys = {key_of(cert): info_of(cert) for cert in (ANCHOR, AUTHORITY, signer_of(name)[0])}
    key, message, signature = asked
    words = (hashlib.sha256(octets).hexdigest()
             for octets in (keys.get(key, b""), message, signature))
    path = examples.TREE / f"{pathlib.Path(FILES[name]).name}.verdicts"
    return "Yes" if " ".join(words) in path.read_text("ascii").splitlines() else "No"


def rows():
    """An object, the certificates, a signature, and what is said of it."""
    for name in ("roa", "aspa", "manifest", "rsc", "overclaiming", "expired", "broken"):
        for asked in asked_of(name):
            yield name, BOTH, asked, said_of(name, asked)
    one, other = asked_of("roa"), asked_of("aspa")
    # Each part alone that is of another object, where it is good, and all of them.
    for (key, message, signature), others in zip(one[2:], other[2:]):
        for asked in ((others[0], message, signature), (key, others[1], signature),
                      (key, message, others[2]), others):
            yield "roa", BOTH, asked, said_of("roa", asked)
    # The CA is left out, or comes first.
    for asked, said in zip(one, ("Yes", "No", "No", "Yes")):
        yield "roa", ("anchor",), asked, said
    for asked, said in zip(one, ("No", "No", "No", "Yes")):
        yield "roa", ("authority", "anchor"), asked, said
    yield "roa", BOTH, (b"", b"", b""), "No"
    yield "roa", ("roa", "authority"), one[0], "Certificate"
    yield "roa", ("anchor", "roa"), one[0], "Certificate"
    yield "anchor", ("anchor", "roa"), one[0], "Certificate"
    yield "anchor", BOTH, one[0], "Object"


def main():
    print(HEAD)
    for name, octets in OCTETS.items():
        examples.table(name, octets)
    named = {b"": "NOTHING"}
    print("static NOTHING: [u8; 0] = [];\n")
    for number, (name, chain, asked, said) in enumerate(rows()):
        for octets in asked:
            if octets not in named:
                named[octets] = f"PART_{len(named)}"
                examples.table(named[octets], octets)
        anchor, *others = (f"&{it.upper()}" for it in chain)
        parts_of = ", ".join(f"&{named[octets]}" for octets in asked)
        print(f"#[test]\nfn row_{number}(rt: HostRuntime) -> Result<(), AllocError> {{")
        print(f"    let chain: [&[u8]; {len(others)}] = [{', '.join(others)}];")
        print(f"    let asked: Asked = ({parts_of});")
        print(f"    let got = said(rt.alloc(), &{name.upper()}, {anchor}, &chain, &asked)?;")
        print(f"    assert_eq!(rt; got, Finding::{said});\n    Ok(())\n}}\n")


if __name__ == "__main__":
    main()
