//! The work in plain Rust, written by hand for these formats, as subjects. All that the proved code tests is tested. The
//! octets are copied once, and in each round a reference to the copy is taken, from which all is borrowed.

pub mod aspas;
pub mod certs;
pub mod contents;
pub mod der;
pub mod sets;
pub mod values;

use crate::calls::MISSING;
use crate::samples::Sample;
use der::stamp;
use sets::Set;
use std::hint::black_box;
use std::sync::Arc;

/// 1 January 2027, as in the exports.
const NOW: [u64; 6] = [2027, 1, 1, 0, 0, 0];

/// That moment.
pub fn now() -> u64 {
    stamp(NOW)
}

/// The sum of what this says of the octets in so many rounds.
fn rounds_of(it: &Sample, rounds: u32, read: impl Fn(&[u8]) -> u64) -> u64 {
    let octets = it.shared();
    (0..rounds).fold(0, |sum: u64, _| {
        let shared = Arc::clone(&octets);
        sum.wrapping_add(read(black_box(&shared)))
    })
}

fn front(octets: &[u8]) -> u64 {
    octets.first().map_or(0, |octet| u64::from(*octet))
}

fn sum_of_manifest(octets: &[u8], is_strict: bool) -> u64 {
    let manifest = black_box(contents::manifest(octets, is_strict));
    manifest.map_or(0, |it| it.iter().map(|(name, hash)| name.len() as u64 + front(hash)).sum())
}

pub fn manifest(it: &Sample, rounds: u32) -> u64 {
    rounds_of(it, rounds, |octets| sum_of_manifest(octets, true))
}

pub fn any_manifest(it: &Sample, rounds: u32) -> u64 {
    rounds_of(it, rounds, |octets| sum_of_manifest(octets, false))
}

pub fn checklist(it: &Sample, rounds: u32) -> u64 {
    rounds_of(it, rounds, |octets| {
        let checklist = black_box(contents::checklist(octets));
        let of = |(name, hash): (Option<&[u8]>, &[u8])| name.map_or(1, |name| name.len() as u64) + front(hash);
        checklist.map_or(0, |it| it.iter().map(of).sum())
    })
}

pub fn attestation(it: &Sample, rounds: u32) -> u64 {
    rounds_of(it, rounds, |octets| {
        let attestation = black_box(contents::attestation(octets));
        attestation.map_or(0, |it| it.blocks() + it.subject_keys().map(|key| front(key)).sum::<u64>())
    })
}

pub fn roa(it: &Sample, rounds: u32) -> u64 {
    rounds_of(it, rounds, |octets| {
        let Some(roa) = black_box(contents::roa(octets)) else {
            return 0;
        };
        roa.iter().fold(0, |sum: u64, address| {
            sum.wrapping_add((address.addr >> 64) as u64).wrapping_add(u64::from(address.max_length()))
        })
    })
}

pub fn aspa(it: &Sample, rounds: u32) -> u64 {
    rounds_of(it, rounds, |octets| {
        let content = black_box(aspas::kept(octets));
        content.map_or(0, |it| it.iter().map(u64::from).sum())
    })
}

pub fn aspa_in_one_pass(it: &Sample, rounds: u32) -> u64 {
    rounds_of(it, rounds, |octets| aspas::walk(octets).unwrap_or(0))
}

pub fn write_aspa(it: &Sample, rounds: u32) -> u64 {
    let content = aspas::decode(it.octets()).expect("a content");
    (0..rounds).map(|_| black_box(aspas::write(black_box(&content))).len() as u64).sum()
}

pub fn cert(it: &Sample, rounds: u32) -> u64 {
    rounds_of(it, rounds, |octets| u64::from(black_box(certs::cert(octets)).is_some()))
}

/// How many blocks the sets of a certificate have, or 0 where it is not valid.
fn blocks_of(octets: &[u8], issuer: &certs::Cert, sets: &certs::Sets) -> u64 {
    let validated = certs::cert(octets).and_then(|cert| {
        let sets = certs::validate(&cert, issuer, sets, now())?;
        Some((cert, sets))
    });
    black_box(validated).map_or(0, |(_, sets)| sets.count())
}

/// The certificate of the trust anchor and its numbers.
pub fn anchor(octets: &[u8]) -> (certs::Cert<'_>, certs::Sets) {
    let issuer = certs::cert(octets).expect("a certificate");
    let sets = certs::anchor(&issuer, now()).expect("the one of a trust anchor");
    (issuer, sets)
}

pub fn validate(it: &Sample, rounds: u32) -> u64 {
    let [_, octets] = it.parts();
    let (issuer, sets) = anchor(octets);
    rounds_of(it, rounds, |octets| blocks_of(octets, &issuer, &sets))
}

/// A number as a serial number.
pub fn serial(number: u32) -> [u8; 20] {
    let mut serial = [0; 20];
    serial[16..].copy_from_slice(&number.to_be_bytes());
    serial
}

fn asks(crl: &certs::Crl) -> u64 {
    if crl.contains(black_box(&serial(MISSING))) { 1 } else { 1 << 32 }
}

pub fn crl(it: &Sample, rounds: u32) -> u64 {
    rounds_of(it, rounds, |octets| certs::crl(octets).map_or(0, |crl| asks(black_box(&crl))))
}

pub fn asked(it: &Sample, rounds: u32) -> u64 {
    let crl = certs::crl(it.octets()).expect("a revocation list");
    (0..rounds).map(|_| asks(black_box(&crl))).sum()
}

pub fn time(it: &Sample, rounds: u32) -> u64 {
    rounds_of(it, rounds, |octets| values::time(octets).unwrap_or(0))
}

pub fn key(it: &Sample, rounds: u32) -> u64 {
    rounds_of(it, rounds, |octets| {
        let key = black_box(values::key(octets));
        key.map_or(0, |key| u64::from(key.identifier[0]))
    })
}

fn as_set(mins: &[u32], maxs: &[u32]) -> Set<u32> {
    sets::build(mins, maxs, |it| it)
}

pub fn as_build(it: &Sample, rounds: u32) -> u64 {
    let ends = it.numbers();
    (0..rounds).map(|_| black_box(as_set(black_box(&ends.mins), &ends.maxs)).len() as u64).sum()
}

pub fn ip_build(it: &Sample, rounds: u32) -> u64 {
    let ends = it.addresses();
    let set = || sets::build(black_box(&ends.mins), &ends.maxs, |it| u128::from(it) << 64);
    (0..rounds).map(|_| black_box(set()).len() as u64).sum()
}

fn halves(it: &Sample) -> (Set<u32>, Set<u32>) {
    let ends = it.numbers();
    let half = ends.mins.len() / 2;
    (as_set(&ends.mins[..half], &ends.maxs[..half]), as_set(&ends.mins[half..], &ends.maxs[half..]))
}

pub fn union(it: &Sample, rounds: u32) -> u64 {
    let (x, y) = halves(it);
    (0..rounds).map(|_| black_box(sets::union(black_box(&x), &y)).len() as u64).sum()
}

pub fn intersection(it: &Sample, rounds: u32) -> u64 {
    let (x, y) = halves(it);
    let intersected = || {
        let mut set = black_box(&x).clone();
        set = sets::intersection(&set, &y);
        set
    };
    (0..rounds).map(|_| black_box(intersected()).len() as u64).sum()
}

pub fn contains(it: &Sample, rounds: u32) -> u64 {
    let (x, y) = halves(it);
    let all = sets::union(&x, &y);
    (0..rounds).map(|_| u64::from(sets::contains(black_box(&all), &y))).sum()
}

pub fn contains_block(it: &Sample, rounds: u32) -> u64 {
    let ends = it.numbers();
    let all = as_set(&ends.mins, &ends.maxs);
    let mut count = 0;
    for _ in 0..rounds {
        for (min, max) in black_box(&ends.mins).iter().zip(&ends.maxs) {
            count += u64::from(sets::contains_block(&all, (*min, max.saturating_add(max - min))));
        }
    }
    count
}
