//! The same work through the crate bcder, with the tests that the formats ask: a content keeps the octets of its
//! entries, which are tested when it is read, and which are gone over a second time.

use super::certs::identifier;
use crate::plain::der::generalized_time;
use crate::plain::contents::{Address, Blocks, SHA_256, ends, is_file_name, is_portable, is_registered, joined};
use bcder::decode::{Constructed, Error, Source};
use bcder::{BitString, Captured, Ia5String, Mode, OctetString, Oid, Tag, Unsigned};
use bytes::Bytes;
use std::collections::BTreeSet;
use std::hint::black_box;

/// Refuses what is not so.
fn must<S: Source>(holds: bool) -> Result<(), S::Err> {
    if holds { Ok(()) } else { Err(Error::Malformed.into()) }
}

fn skip_version<S: Source>(cons: &mut Constructed<S>) -> Result<(), S::Err> {
    cons.take_opt_constructed_if(Tag::CTX_0, |cons| cons.skip_u8_if(0)).map(|_| ())
}

fn take_time<S: Source>(cons: &mut Constructed<S>) -> Result<u64, S::Err> {
    cons.take_primitive_if(Tag::GENERALIZED_TIME, |text| {
        generalized_time(&text.take_all()?).ok_or_else(|| Error::Malformed.into())
    })
}

/// An entry of a manifest: the name of a file and its hash.
fn take_opt_file<S: Source>(cons: &mut Constructed<S>) -> Result<Option<(Bytes, Bytes)>, S::Err> {
    cons.take_opt_sequence(|cons| {
        let name = Ia5String::take_from(cons)?.into_bytes();
        let hash = BitString::take_from(cons)?.octet_bytes();
        must::<S>(is_file_name(&name))?;
        Ok((name, hash))
    })
}

fn manifest(octets: Bytes) -> Result<(Unsigned, u64, u64, Captured), Error> {
    Mode::Der.decode(octets, |cons| {
        cons.take_sequence(|cons| {
            skip_version(cons)?;
            let number = Unsigned::take_from(cons)?;
            let (this_update, next_update) = (take_time(cons)?, take_time(cons)?);
            must::<Bytes>(this_update <= next_update && Oid::take_from(cons)?.as_ref() == SHA_256)?;
            let files = cons.take_sequence(|cons| {
                cons.capture(|cons| {
                    while take_opt_file(cons)?.is_some() {}
                    Ok(())
                })
            })?;
            Ok((number, this_update, next_update, files))
        })
    })
}

pub fn sum_of_manifest(octets: Bytes) -> Result<u64, Error> {
    let (_, _, _, files) = black_box(manifest(octets)?);
    sum_of_files(files)
}

/// The sum of the lengths of the names and of the octets in front of the hashes.
fn sum_of_files(files: Captured) -> Result<u64, Error> {
    files.decode(|cons| {
        let mut sum = 0;
        while let Some((name, hash)) = take_opt_file(cons)? {
            sum += name.len() as u64 + u64::from(hash[0]);
        }
        Ok(sum)
    })
}

/// The same where each name has to have a registered type, and none may come twice.
pub fn sum_of_registered(octets: Bytes) -> Result<u64, Error> {
    let (_, _, _, files) = black_box(manifest(octets)?);
    let mut seen = BTreeSet::new();
    files.clone().decode(|cons| {
        while let Some((name, _)) = take_opt_file(cons)? {
            must::<Bytes>(is_registered(&name) && seen.insert(name))?;
        }
        Ok(())
    })?;
    drop(seen);
    sum_of_files(files)
}

/// A number, or a range of them.
fn take_opt_as_block<S: Source>(cons: &mut Constructed<S>) -> Result<Option<(u128, u128)>, S::Err> {
    if let Some(number) = cons.take_opt_u32()? {
        return Ok(Some((number.into(), number.into())));
    }
    cons.take_opt_sequence(|cons| {
        let (low, high) = (cons.take_u32()?, cons.take_u32()?);
        must::<S>(low <= high)?;
        Ok((low.into(), high.into()))
    })
}

fn ends_of<S: Source>(bits: &BitString, most: u8) -> Result<(u128, u128), S::Err> {
    let octets = bits.octet_slice().unwrap_or_default();
    ends(octets, bits.unused(), most).ok_or_else(|| Error::Malformed.into())
}

/// The addresses that begin with some bits, or a range of addresses.
fn take_opt_ip_block<S: Source>(cons: &mut Constructed<S>, most: u8) -> Result<Option<(u128, u128)>, S::Err> {
    if let Some(bits) = cons.take_opt_value_if(Tag::BIT_STRING, BitString::from_content)? {
        return ends_of::<S>(&bits, most).map(Some);
    }
    cons.take_opt_sequence(|cons| {
        let (low, high) = (BitString::take_from(cons)?, BitString::take_from(cons)?);
        let (low, high) = (ends_of::<S>(&low, most)?.0, ends_of::<S>(&high, most)?.1);
        must::<S>(low <= high)?;
        Ok((low, high))
    })
}

fn take_as_blocks<S: Source>(cons: &mut Constructed<S>) -> Result<Blocks, S::Err> {
    cons.take_sequence(|cons| {
        let mut blocks = Blocks::new();
        while let Some(block) = take_opt_as_block(cons)? {
            blocks.push(block);
        }
        Ok(joined(blocks))
    })
}

fn take_chosen_as_blocks<S: Source>(cons: &mut Constructed<S>) -> Result<Blocks, S::Err> {
    cons.take_sequence(|cons| cons.take_constructed_if(Tag::CTX_0, take_as_blocks))
}

/// The addresses of each family, beside the AS numbers.
fn take_families<S: Source>(cons: &mut Constructed<S>, sets: &mut [Option<Blocks>; 3]) -> Result<(), S::Err> {
    cons.take_sequence(|cons| {
        while let Some(()) = cons.take_opt_sequence(|cons| {
            let (place, most) = match OctetString::take_from(cons)?.to_bytes()[..] {
                [0, 1] => (1, 32),
                [0, 2] => (2, 128),
                _ => return Err(Error::Malformed.into()),
            };
            let blocks = cons.take_sequence(|cons| {
                let mut blocks = Blocks::new();
                while let Some(block) = take_opt_ip_block(cons, most)? {
                    blocks.push(block);
                }
                Ok(joined(blocks))
            })?;
            must::<S>(sets[place].replace(blocks).is_none())
        })? {}
        Ok(())
    })
}

/// The AS numbers, as `take` takes them, and the addresses of both families that are named: at least one of the three
/// has to be.
fn take_resources<S: Source>(
    cons: &mut Constructed<S>,
    take: fn(&mut Constructed<S>) -> Result<Blocks, S::Err>,
) -> Result<[Option<Blocks>; 3], S::Err> {
    cons.take_sequence(|cons| {
        let mut sets = [None, None, None];
        sets[0] = cons.take_opt_constructed_if(Tag::CTX_0, take)?;
        cons.take_opt_constructed_if(Tag::CTX_1, |cons| take_families(cons, &mut sets))?;
        must::<S>(sets.iter().any(Option::is_some))?;
        Ok(sets)
    })
}

fn skip_digest_algorithm<S: Source>(cons: &mut Constructed<S>) -> Result<(), S::Err> {
    cons.take_sequence(|cons| {
        must::<S>(Oid::take_from(cons)?.as_ref() == SHA_256)?;
        cons.take_opt_null()
    })
}

/// An entry of a checklist: the name of a file, which may be missing, and its hash.
fn take_opt_listed<S: Source>(cons: &mut Constructed<S>) -> Result<Option<(Option<Bytes>, Bytes)>, S::Err> {
    cons.take_opt_sequence(|cons| {
        let name = cons.take_opt_value_if(Tag::IA5_STRING, Ia5String::from_content)?.map(Ia5String::into_bytes);
        let hash = OctetString::take_from(cons)?.into_bytes();
        must::<S>(name.as_ref().is_none_or(|name| is_portable(name)))?;
        Ok((name, hash))
    })
}

fn checklist(octets: Bytes) -> Result<([Option<Blocks>; 3], Captured), Error> {
    Mode::Der.decode(octets, |cons| {
        cons.take_sequence(|cons| {
            skip_version(cons)?;
            let sets = take_resources(cons, take_chosen_as_blocks)?;
            skip_digest_algorithm(cons)?;
            let files = cons.take_sequence(|cons| {
                cons.capture(|cons| {
                    while take_opt_listed(cons)?.is_some() {}
                    Ok(())
                })
            })?;
            Ok((sets, files))
        })
    })
}

/// The sum of the lengths of the names, or of 1 where there is none, and of the octets in front of the hashes.
pub fn sum_of_checklist(octets: Bytes) -> Result<u64, Error> {
    let (_, files) = black_box(checklist(octets)?);
    files.decode(|cons| {
        let mut sum = 0;
        while let Some((name, hash)) = take_opt_listed(cons)? {
            sum += name.map_or(1, |name| name.len() as u64) + u64::from(hash[0]);
        }
        Ok(sum)
    })
}

/// The identifier of a key.
fn take_opt_key<S: Source>(cons: &mut Constructed<S>) -> Result<Option<[u8; 20]>, S::Err> {
    cons.take_opt_primitive_if(Tag::OCTET_STRING, identifier)
}

fn attestation(octets: Bytes) -> Result<(Captured, [Option<Blocks>; 3], Bytes), Error> {
    Mode::Der.decode(octets, |cons| {
        cons.take_sequence(|cons| {
            skip_version(cons)?;
            let keys = cons.take_set(|cons| {
                cons.capture(|cons| {
                    while take_opt_key(cons)?.is_some() {}
                    Ok(())
                })
            })?;
            let sets = take_resources(cons, take_as_blocks)?;
            skip_digest_algorithm(cons)?;
            Ok((keys, sets, OctetString::take_from(cons)?.into_bytes()))
        })
    })
}

/// The sum of the octets in front of the identifiers of keys, and of how many blocks the sets have.
pub fn sum_of_attestation(octets: Bytes) -> Result<u64, Error> {
    let (keys, sets, _) = black_box(attestation(octets)?);
    let blocks = sets.iter().flatten().map(|set| set.len() as u64).sum();
    keys.decode(|cons| {
        let mut sum = blocks;
        while let Some(key) = take_opt_key(cons)? {
            sum += u64::from(key[0]);
        }
        Ok(sum)
    })
}

fn take_opt_address<S: Source>(cons: &mut Constructed<S>) -> Result<Option<Address>, S::Err> {
    cons.take_opt_sequence(|cons| {
        let bits = BitString::take_from(cons)?;
        let max_length = cons.take_opt_u8()?;
        let octets = bits.octet_slice().unwrap_or_default();
        Address::of(octets, bits.unused(), max_length).ok_or_else(|| Error::Malformed.into())
    })
}

/// The addresses of a family.
fn take_addresses<S: Source>(cons: &mut Constructed<S>, most: u8) -> Result<Captured, S::Err> {
    cons.take_sequence(|cons| {
        cons.capture(|cons| {
            while let Some(address) = take_opt_address(cons)? {
                must::<S>(address.is_of(most))?;
            }
            Ok(())
        })
    })
}

fn roa(octets: Bytes) -> Result<(u32, [Option<Captured>; 2]), Error> {
    Mode::Der.decode(octets, |cons| {
        cons.take_sequence(|cons| {
            skip_version(cons)?;
            let as_id = cons.take_u32()?;
            let mut families = [None, None];
            cons.take_sequence(|cons| {
                while let Some(()) = cons.take_opt_sequence(|cons| {
                    let (place, most) = match bcder::OctetString::take_from(cons)?.to_bytes()[..] {
                        [0, 1] => (0, 32),
                        [0, 2] => (1, 128),
                        _ => return Err(Error::Malformed),
                    };
                    must::<Bytes>(families[place].replace(take_addresses(cons, most)?).is_none())
                })? {}
                Ok(())
            })?;
            Ok((as_id, families))
        })
    })
}

/// The sum of the upper halves of the bits of the addresses and of their maximum lengths.
pub fn sum_of_roa(octets: Bytes) -> Result<u64, Error> {
    let (_, families) = black_box(roa(octets)?);
    let mut sum = 0u64;
    for addresses in families.into_iter().flatten() {
        addresses.decode(|cons| {
            while let Some(address) = take_opt_address(cons)? {
                sum = sum.wrapping_add((address.addr >> 64) as u64).wrapping_add(u64::from(address.max_length()));
            }
            Ok(())
        })?;
    }
    Ok(sum)
}
