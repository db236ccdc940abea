#!/usr/bin/env python3
"""Writes a module of tests in which the callers check the objects of examples/, with a list that
revokes some."""
import pathlib
import sys

sys.dont_write_bytecode = True
sys.path.append(str(pathlib.Path(__file__).resolve().parent.parent.parent / "tools"))
import example_files as examples  # noqa: E402
from octets import value  # noqa: E402

HEAD = '''//! The objects of examples/, as the callers check them.

use bytes::Bytes;
use rpki_basics::Time;
use rpki_certs::{Cert, ResourceCert};
use rpki_crls::Crl;
use rpki_der::Oid;
use rpki_examples::issuers::{key_of_issuer, roa_under_chain};
use rpki_examples::objects::{content_in, copy_of, number_of, signer_under};
use rpki_examples::received::{is_attested, is_in_manifest, roa_under};
use rpki_resources::AddressFamily;
use rpki_rsa::Rsa;
use rpki_signed::check::CheckError;
use rpki_sigobj::SignedObject;
use rpki_testing::{Fail, year};
use std::alloc::{AllocError, Global};

/// The CA of the tree, validated at this moment.
fn authority(alloc: Global, now: Time) -> Result<ResourceCert, Fail> {
    let anchor = Cert::decode(alloc, Bytes::from_static(&ANCHOR_CER))?;
    let anchor = anchor.validate_ta_at(alloc, true, &Rsa, now)?;
    let cert = Cert::decode(alloc, Bytes::from_static(&AUTHORITY_CER))?;
    Ok(cert.validate_ca_at(alloc, &anchor, true, &Rsa, now)?)
}

/// What is said to a ROA, as a text.
fn origin(
    alloc: Global,
    octets: &'static [u8],
    list: &'static [u8],
    at: u16,
) -> Result<String, Fail> {
    let now = year(at)?;
    let ca = authority(alloc, now)?;
    let list = Crl::decode(alloc, Bytes::from_static(list))?;
    let octets = Bytes::from_static(octets);
    Ok(match roa_under(alloc, octets, &ca, &list, &Rsa, now) {
        Ok((_, roa)) => {
            let system = roa.as_id();
            format!(in alloc; "{system}")?
        }
        Err(error) => format!(in alloc; "{error}")?,
    })
}

/// An answer, as a text.
fn said(alloc: Global, answer: Result<bool, CheckError>) -> Result<String, AllocError> {
    match answer {
        Ok(yes) => format!(in alloc; "{yes}"),
        Err(error) => format!(in alloc; "{error}"),
    }
}

/// Whether the manifest has a file with this name and these octets.
fn listed(
    alloc: Global,
    list: &'static [u8],
    name: &[u8],
    file: &[u8],
) -> Result<String, Fail> {
    let now = year(2027)?;
    let ca = authority(alloc, now)?;
    let list = Crl::decode(alloc, Bytes::from_static(list))?;
    let octets = Bytes::from_static(&MANIFEST);
    Ok(said(alloc, is_in_manifest(alloc, octets, &ca, &list, &Rsa, now, name, file))?)
}

/// Whether the checklist attests a document.
fn attested(alloc: Global, list: &'static [u8], document: &[u8]) -> Result<String, Fail> {
    let now = year(2027)?;
    let ca = authority(alloc, now)?;
    let list = Crl::decode(alloc, Bytes::from_static(list))?;
    let octets = Bytes::from_static(&LETTER);
    Ok(said(alloc, is_attested(alloc, octets, &ca, &list, &Rsa, now, document))?)
}

/// The certificates of a chain.
fn chain_of(alloc: Global, certs: &[&[u8]]) -> Result<Vec<Bytes>, Fail> {
    let mut chain = Vec::new(alloc);
    for cert in certs {
        if chain.push(Bytes::copy_from_slice(alloc, cert)?).is_err() {
            return Err(Fail::Memory);
        }
    }
    Ok(chain)
}

/// The identifier of the key of the issuer that these make under the trust anchor, or why they make
/// none.
fn key(alloc: Global, certs: &[&[u8]], at: u16) -> Result<String, Fail> {
    let now = year(at)?;
    let chain = chain_of(alloc, certs)?;
    Ok(match key_of_issuer(alloc, &Bytes::from_static(&ANCHOR_CER), &chain, &Rsa, now) {
        Ok(key) => format!(in alloc; "{key}")?,
        Err(error) => format!(in alloc; "{error}")?,
    })
}

/// What is said to a ROA under the issuer that these make, as a text.
fn under(alloc: Global, octets: &'static [u8], certs: &[&[u8]]) -> Result<String, Fail> {
    let now = year(2027)?;
    let chain = chain_of(alloc, certs)?;
    let list = Crl::decode(alloc, Bytes::from_static(&NONE))?;
    let octets = Bytes::from_static(octets);
    Ok(match roa_under_chain(alloc, octets, &Bytes::from_static(&ANCHOR_CER), &chain, &list, &Rsa, now) {
        Ok((_, roa)) => {
            let system = roa.as_id();
            format!(in alloc; "{system}")?
        }
        Err(error) => format!(in alloc; "{error}")?,
    })
}

/// The types of ROAs and of manifests.
static ROA: &[u8] = b"\\x2A\\x86\\x48\\x86\\xF7\\x0D\\x01\\x09\\x10\\x01\\x18";

static MFT: &[u8] = b"\\x2A\\x86\\x48\\x86\\xF7\\x0D\\x01\\x09\\x10\\x01\\x1A";

/// The content of the ROA, if it has this type, or why there is none.
fn content(alloc: Global, kind: &'static [u8]) -> Result<String, Fail> {
    let Some(kind) = Oid::from_bytes(Bytes::from_static(kind)) else {
        return Err(Fail::Refused);
    };
    Ok(match content_in(alloc, Bytes::from_static(&ORIGIN), &kind) {
        Ok(octets) => {
            let is_same = octets.as_slice() == &CONTENT[..];
            format!(in alloc; "{is_same}")?
        }
        Err(error) => format!(in alloc; "{error}")?,
    })
}

/// The number in an object, or why there is none.
fn number(alloc: Global, octets: &'static [u8]) -> Result<String, Fail> {
    let object = SignedObject::decode(alloc, Bytes::from_static(octets), true)?;
    Ok(match number_of(&object) {
        Ok(number) => format!(in alloc; "{number}")?,
        Err(error) => format!(in alloc; "{error}")?,
    })
}

/// Whether a copy of the ROA, which is read so, is the same, or why there is none.
fn copied(alloc: Global, strict: bool) -> Result<String, Fail> {
    let object = SignedObject::decode(alloc, Bytes::from_static(&ORIGIN), strict)?;
    Ok(match copy_of(&object) {
        Ok(octets) => {
            let is_same = octets.as_slice() == &ORIGIN[..];
            format!(in alloc; "{is_same}")?
        }
        Err(error) => format!(in alloc; "{error}")?,
    })
}

/// The addresses of the signer of an object, or why it has none.
fn signer(alloc: Global, octets: &'static [u8]) -> Result<String, Fail> {
    let now = year(2027)?;
    let ca = authority(alloc, now)?;
    let object = SignedObject::decode(alloc, Bytes::from_static(octets), true)?;
    let mut text = String::new(alloc);
    match signer_under(alloc, object, &ca, &Rsa, now) {
        Ok(cert) => {
            for block in cert.v4_resources().iter() {
                let shown = block.display(AddressFamily::Ipv4);
                text.push_str(&format!(in alloc; "{shown}")?)?;
            }
        }
        Err(error) => text.push_str(&format!(in alloc; "{error}")?)?,
    }
    Ok(text)
}
'''
FILES = {
    "ANCHOR_CER": "rpki.example.net/anchor.cer",
    "AUTHORITY_CER": "rpki.example.net/anchor/authority.cer",
    "NONE": "rpki.example.net/authority/authority.crl",
    "MANIFEST": "rpki.example.net/authority/authority.mft",
    "ORIGIN": "rpki.example.net/authority/origin.roa",
    "LETTER": "letter.sig",
    "OVERCLAIMING": "rpki.example.net/authority/overclaiming.roa",
    "EXPIRED": "rpki.example.net/authority/expired.roa",
    "BROKEN": "rpki.example.net/authority/broken.roa",
}
ROWS = (
    ("origin", "&ORIGIN, &NONE, 2027", "AS64496"),
    ("origin", "&ORIGIN, &OTHERS, 2027", "AS64496"),
    ("origin", "&ORIGIN, &THESE, 2027", "refused by the caller"),
    ("origin", "&OVERCLAIMING, &NONE, 2027", "overclaimed IPv4 resources"),
    ("origin", "&EXPIRED, &NONE, 2027", "certificate has expired"),
    ("origin", "&EXPIRED, &NONE, 2026", "AS64496"),
    ("origin", "&BROKEN, &THESE, 2027", "signature is not valid"),
    ("origin", "&MANIFEST, &NONE, 2027", "eContentType is not the one that is asked for"),
    ("listed", '&NONE, b"origin.roa", &ORIGIN', "true"),
    ("listed", '&NONE, b"origin.roa", &BROKEN', "false"),
    ("listed", '&NONE, b"other.roa", &ORIGIN', "false"),
    ("listed", '&THESE, b"origin.roa", &ORIGIN', "refused by the caller"),
    ("attested", "&NONE, &DOCUMENT", "true"),
    ("attested", "&NONE, &ORIGIN", "false"),
    ("attested", "&THESE, &DOCUMENT", "refused by the caller"),
    ("key", "&[], 2027", "1A3A434D3CB238F39188C4ED212421A717BB7C97"),
    ("key", "&[&AUTHORITY_CER], 2027", "C78637259551E49913A293A978985D33FBECF9C1"),
    ("key", "&[&AUTHORITY_CER], 2041", "certificate has expired"),
    ("key", "&[&ORIGIN], 2027", "malformed"),
    ("under", "&ORIGIN, &[&AUTHORITY_CER]", "AS64496"),
    ("under", "&BROKEN, &[&AUTHORITY_CER]", "signature is not valid"),
    ("under", "&OVERCLAIMING, &[&AUTHORITY_CER]", "overclaimed IPv4 resources"),
    ("under", "&ORIGIN, &[&ORIGIN]", "malformed"),
    ("content", "ROA", "true"),
    ("content", "MFT", "eContentType is not the one that is asked for"),
    ("number", "&NUMBERED", "5"),
    ("number", "&ORIGIN", "malformed"),
    ("copied", "true", "true"),
    ("copied", "false", "not in DER"),
    ("signer", "&ORIGIN", "192.0.2.0/24"),
    ("signer", "&BROKEN", "signature is not valid"),
    ("signer", "&OVERCLAIMING", "overclaimed IPv4 resources"),
)


def revoking(octets, numbers):
    """A revocation list that has these serial numbers too; its signature is the old one."""
    signed, *others = examples.inside(octets)
    fields = examples.inside(signed)
    entry = [value(0x30, value(2, bytes((it,))) + fields[3]) for it in numbers]
    fields.insert(5, value(0x30, b"".join(entry)))
    return value(0x30, value(0x30, b"".join(fields)) + b"".join(others))


def content_of(octets):
    """The octets of the content of a signed object."""
    content = examples.inside(examples.signed_data(octets)[2])[1]
    return examples.contents(examples.contents(content))


def main():
    print(HEAD)
    made = {name: (examples.TREE / path).read_bytes() for name, path in FILES.items()}
    content = content_of(made["ORIGIN"])
    made["CONTENT"] = content
    made["NUMBERED"] = made["ORIGIN"].replace(content, b"\x02\x01\x05" + content[3:])
    made["THESE"] = revoking(made["NONE"], (1, 5, 6, 7))
    made["OTHERS"] = revoking(made["NONE"], (2, 3))
    made["DOCUMENT"] = b"a letter\n"
    for name, octets in made.items():
        examples.table(name, octets)
    for number, (call, given, answer) in enumerate(ROWS):
        print(f'''#[test]
fn row_{number}(rt: HostRuntime) -> Result<(), Fail> {{
    let found = {call}(rt.alloc(), {given})?;
    assert_eq!(rt; found.as_str(), "{answer}");
    Ok(())
}}
''')


if __name__ == "__main__":
    main()
