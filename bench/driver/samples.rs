//! What the subjects read.

use crate::plain::aspas;
use crate::plain::contents::SHA_256;
use crate::plain::certs::SHA256_WITH_RSA;
use crate::plain::der::{integer, value};
use std::path::{Path, PathBuf};
use std::sync::Arc;

/// Where the certificates and the ROA of `examples/` are, and the keys that bench/run has made.
pub struct Given {
    pub examples: PathBuf,
    pub keys: PathBuf,
}

/// The first and the last numbers of blocks in no order.
#[derive(Default)]
pub struct Ends<N> {
    pub mins: Vec<N>,
    pub maxs: Vec<N>,
}

/// What is read: octets and what is needed beside them; or blocks of numbers, and of addresses with these numbers in
/// their upper bits.
#[derive(Default)]
pub struct Sample {
    parts: Vec<Vec<u8>>,
    numbers: Ends<u32>,
    addresses: Ends<u64>,
}

impl Sample {
    pub fn of(parts: Vec<Vec<u8>>) -> Sample {
        Sample { parts, ..Sample::default() }
    }

    pub fn octets(&self) -> &[u8] {
        &self.parts[0]
    }

    /// The octets, and what is needed beside them.
    pub fn parts<const N: usize>(&self) -> [&[u8]; N] {
        std::array::from_fn(|i| self.parts[i].as_slice())
    }

    pub fn all_parts(&self) -> Vec<Vec<u8>> {
        self.parts.clone()
    }

    /// A copy of the octets with a count of references.
    pub fn shared(&self) -> Arc<[u8]> {
        Arc::from(self.octets())
    }

    /// The same for bcder.
    #[cfg(bcder)]
    pub fn bytes(&self) -> bytes::Bytes {
        bytes::Bytes::copy_from_slice(self.octets())
    }

    pub fn numbers(&self) -> &Ends<u32> {
        &self.numbers
    }

    pub fn addresses(&self) -> &Ends<u64> {
        &self.addresses
    }
}

/// Makes a sample with so many entries.
pub type Maker = fn(&Given, u32) -> Sample;

fn one(octets: Vec<u8>) -> Sample {
    Sample::of(vec![octets])
}

fn read(path: &Path) -> Vec<u8> {
    std::fs::read(path).unwrap_or_else(|error| panic!("{}: {error}", path.display()))
}

/// A manifest of files whose names have 12 letters and digits before the dot, in an order that is not theirs.
pub fn manifest(_: &Given, count: u32) -> Sample {
    let files: Vec<Vec<u8>> = (0..count)
        .map(|i| {
            let name = format!("file{:08x}.roa", i.wrapping_mul(0x9E37_79B1));
            let hash: Vec<u8> = (0..33).map(|j| if j == 0 { 0 } else { (i + 7 * j) as u8 }).collect();
            value(0x30, &[&value(0x16, &[name.as_bytes()]), &value(0x03, &[&hash])])
        })
        .collect();
    let (this, next) = (value(0x18, &[b"20260701000000Z"]), value(0x18, &[b"20260702000000Z"]));
    let algorithm = value(0x06, &[&SHA_256]);
    one(value(0x30, &[&integer(17), &this, &next, &algorithm, &value(0x30, &[&files.concat()])]))
}

/// A checklist of files, each second one with a name, of AS64496, 192.0.2.0/24 and 2001:db8::/32.
pub fn checklist(_: &Given, count: u32) -> Sample {
    let files: Vec<Vec<u8>> = (0..count)
        .map(|i| {
            let name = if i % 2 == 0 { value(0x16, &[format!("file{i:08x}.txt").as_bytes()]) } else { Vec::new() };
            let hash: Vec<u8> = (0..32).map(|j| (i + 7 * j + 1) as u8).collect();
            value(0x30, &[&name, &value(0x04, &[&hash])])
        })
        .collect();
    let numbers = value(0x30, &[&value(0xA0, &[&value(0x30, &[&integer(64_496)])])]);
    let algorithm = value(0x30, &[&value(0x06, &[&SHA_256])]);
    one(value(0x30, &[&resources(&numbers), &algorithm, &value(0x30, &[&files.concat()])]))
}

/// These AS numbers, 192.0.2.0/24 and 2001:db8::/32, as resources that are named.
fn resources(numbers: &[u8]) -> Vec<u8> {
    let family = |number: u8, bits: &[u8]| {
        value(0x30, &[&value(0x04, &[&[0, number]]), &value(0x30, &[&value(0x03, &[&[0], bits])])])
    };
    let families = value(0x30, &[&family(1, &[192, 0, 2]), &family(2, &[0x20, 0x01, 0x0D, 0xB8])]);
    value(0x30, &[&value(0xA0, &[numbers]), &value(0xA1, &[&families])])
}

/// The content of an attestation by so many keys, whose identifiers ascend, of the same resources.
pub fn attestation(_: &Given, count: u32) -> Sample {
    let key = |i: u32| value(0x04, &[&(u32::MAX / count * i).to_be_bytes(), &[9; 16]]);
    let keys: Vec<Vec<u8>> = (0..count).map(key).collect();
    let numbers = value(0x30, &[&integer(64_496)]);
    let algorithm = value(0x30, &[&value(0x06, &[&SHA_256])]);
    let digest = value(0x04, &[&[9; 32]]);
    one(value(0x30, &[&value(0x31, &[&keys.concat()]), &resources(&numbers), &algorithm, &digest]))
}

/// A ROA of prefixes, half of them of 24 bits of IPv4 and half of 48 bits of IPv6, each second one with a maximum
/// length.
pub fn roa(_: &Given, count: u32) -> Sample {
    let family = |number: u8, addresses: Vec<Vec<u8>>| {
        value(0x30, &[&value(0x04, &[&[0, number]]), &value(0x30, &[&addresses.concat()])])
    };
    let address = |i: u32, octets: &[u8], max_length: u32| {
        let bits = value(0x03, &[&[0], octets]);
        let max_length = if i % 2 == 0 { integer(max_length) } else { Vec::new() };
        value(0x30, &[&bits, &max_length])
    };
    let v4 = (0..count / 2).map(|i| address(i, &(0x0A00_0000 + 256 * i).to_be_bytes()[..3], 28));
    let v6 = (0..count - count / 2).map(|i| address(i, &(0x2001_0DB8_0000 + u64::from(i)).to_be_bytes()[2..], 64));
    one(value(0x30, &[&integer(64_496), &value(0x30, &[&family(1, v4.collect()), &family(2, v6.collect())])]))
}

/// An ASPA of providers, each of which takes five octets.
pub fn aspa(_: &Given, count: u32) -> Sample {
    let providers = (0..count).map(|i| 60_000 + 35 * i).collect();
    one(aspas::write(&aspas::Content { customer: 59_999, providers }))
}

/// A revocation list of entries, each a number of four octets and a time.
pub fn crl(_: &Given, count: u32) -> Sample {
    let algorithm = value(0x30, &[&value(0x06, &[&SHA256_WITH_RSA]), &value(0x05, &[])]);
    let name = b"\x30\x0C\x31\x0A\x30\x08\x06\x03\x55\x04\x03\x13\x01\x69";
    let time = |text: &str| value(0x17, &[text.as_bytes()]);
    let entry = |i: u32| value(0x30, &[&integer(0x1000_0000 + 3 * i), &time("260630120000Z")]);
    let entries: Vec<Vec<u8>> = (0..count).map(entry).collect();
    let extension = |last, octets: &[u8]| value(0x30, &[b"\x06\x03\x55\x1D", &[last], &value(0x04, &[octets])]);
    let key = extension(35, &value(0x30, &[&value(0x80, &[&[9; 20]])]));
    let number = extension(20, &integer(17));
    let signed = value(
        0x30,
        &[
            &integer(1),
            &algorithm,
            name,
            &time("260701000000Z"),
            &time("260702000000Z"),
            &value(0x30, &[&entries.concat()]),
            &value(0xA0, &[&value(0x30, &[&key, &number])]),
        ],
    );
    one(value(0x30, &[&signed, &algorithm, &value(0x03, &[&[0], &[9; 256]])]))
}

/// The certificate of a CA and that of its trust anchor, with keys of 2048 bits.
pub fn certs(given: &Given, _: u32) -> Sample {
    let anchor = given.examples.join("anchor.cer");
    Sample::of(vec![read(&given.examples.join("anchor/authority.cer")), read(&anchor)])
}

/// A ROA of two prefixes, and the certificates of its CA and of the trust anchor.
pub fn signed_roa(given: &Given, _: u32) -> Sample {
    let files = ["authority/origin.roa", "anchor/authority.cer", "anchor.cer"];
    Sample::of(files.iter().map(|file| read(&given.examples.join(file))).collect())
}

/// The bits of a key of so many bits, a message and its signature by that key.
pub fn signature(given: &Given, bits: u32) -> Sample {
    let files = ["key", "message", "signature"];
    Sample::of(files.iter().map(|file| read(&given.keys.join(bits.to_string()).join(file))).collect())
}

/// The key in the certificate of a CA.
pub fn key(given: &Given, _: u32) -> Sample {
    let cert = read(&given.examples.join("anchor/authority.cer"));
    let begin = b"\x30\x0D\x06\x09\x2A\x86\x48\x86\xF7\x0D\x01\x01\x01\x05\x00\x03";
    let at = cert.windows(begin.len()).position(|it| it == begin).expect("a key") - 4;
    // (the contents have two octets for their length)
    let len = 4 + usize::from(u16::from_be_bytes([cert[at + 2], cert[at + 3]]));
    one(cert[at..at + len].to_vec())
}

pub fn utc_time(_: &Given, _: u32) -> Sample {
    one(b"\x17\x0D240229123456Z".to_vec())
}

pub fn generalized_time(_: &Given, _: u32) -> Sample {
    one(b"\x18\x0F20500131235959Z".to_vec())
}

/// So many blocks in no order, which cover a part of the numbers, so that some of them overlap or touch.
pub fn blocks(_: &Given, count: u32) -> Sample {
    let mut state = 0x9e37_79b9_7f4a_7c15u64;
    let mut next = || {
        state ^= state << 13;
        state ^= state >> 7;
        state ^= state << 17;
        (state >> 32) as u32
    };
    let room = u32::MAX / count;
    let mins: Vec<u32> = (0..count).map(|_| next()).collect();
    let maxs: Vec<u32> = mins.iter().map(|min| min.saturating_add(next() % room)).collect();
    let upper = |numbers: &[u32]| numbers.iter().map(|it| u64::from(*it) << 32).collect();
    let addresses = Ends { mins: upper(&mins), maxs: upper(&maxs) };
    Sample { numbers: Ends { mins, maxs }, addresses, ..Sample::default() }
}
