//! The work through the calls of the crate bcder, on which the original stands, as subjects. The octets are copied once,
//! and in each round a reference to the copy is taken, of which the parts that are kept are references too.

mod aspas;
mod certs;
mod contents;

use crate::calls::MISSING;
use crate::plain::{self, serial};
use crate::samples::Sample;
use bytes::Bytes;
use std::hint::black_box;

fn rounds_of<E>(it: &Sample, rounds: u32, read: impl Fn(Bytes) -> Result<u64, E>) -> u64 {
    let octets = it.bytes();
    (0..rounds).fold(0, |sum: u64, _| sum.wrapping_add(read(black_box(octets.clone())).unwrap_or(0)))
}

pub fn manifest(it: &Sample, rounds: u32) -> u64 {
    rounds_of(it, rounds, contents::sum_of_registered)
}

pub fn any_manifest(it: &Sample, rounds: u32) -> u64 {
    rounds_of(it, rounds, contents::sum_of_manifest)
}

pub fn checklist(it: &Sample, rounds: u32) -> u64 {
    rounds_of(it, rounds, contents::sum_of_checklist)
}

pub fn attestation(it: &Sample, rounds: u32) -> u64 {
    rounds_of(it, rounds, contents::sum_of_attestation)
}

pub fn roa(it: &Sample, rounds: u32) -> u64 {
    rounds_of(it, rounds, contents::sum_of_roa)
}

pub fn aspa(it: &Sample, rounds: u32) -> u64 {
    rounds_of(it, rounds, aspas::sum_of_kept)
}

pub fn aspa_in_one_pass(it: &Sample, rounds: u32) -> u64 {
    rounds_of(it, rounds, aspas::sum_of)
}

pub fn cert(it: &Sample, rounds: u32) -> u64 {
    rounds_of(it, rounds, |octets| black_box(certs::cert(octets)).map(|_| 1))
}

pub fn validate(it: &Sample, rounds: u32) -> u64 {
    let [_, octets] = it.parts();
    let (issuer, sets) = plain::anchor(octets);
    rounds_of(it, rounds, |octets| Ok::<_, ()>(certs::blocks_of(octets, &issuer, &sets, plain::now())))
}

pub fn crl(it: &Sample, rounds: u32) -> u64 {
    let asks = |crl: &certs::Crl| if crl.contains(black_box(&serial(MISSING))) { 1 } else { 1 << 32 };
    rounds_of(it, rounds, |octets| certs::crl(octets).map(|crl| asks(black_box(&crl))))
}
