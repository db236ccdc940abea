//! The same reading through the crate bcder, with the tests that the format asks.

use bcder::decode::{Constructed, Error, Source};
use bcder::{Captured, Mode, Tag};
use bytes::Bytes;
use std::hint::black_box;

/// Goes over the providers, tests all that the format asks, and calls `each` at each.
#[inline]
fn providers<S: Source>(
    cons: &mut Constructed<S>,
    customer: u32,
    mut each: impl FnMut(u32),
) -> Result<(), S::Err> {
    let mut count = 0;
    let mut last = None;
    while let Some(provider) = cons.take_opt_u32()? {
        let is_out_of_order = last.is_some_and(|last| last == 0 || provider <= last);
        if count == 10_000 || provider == customer || is_out_of_order {
            return Err(Error::Malformed.into());
        }
        each(provider);
        count += 1;
        last = Some(provider);
    }
    if count == 0 { Err(Error::Malformed.into()) } else { Ok(()) }
}

/// Reads the version and the customer.
#[inline]
fn customer<S: Source>(cons: &mut Constructed<S>) -> Result<u32, S::Err> {
    cons.take_constructed_if(Tag::CTX_0, |cons| cons.skip_u8_if(1))?;
    let customer = cons.take_u32()?;
    if customer == 0 { Err(Error::Malformed.into()) } else { Ok(customer) }
}

/// Reads a content, and calls `each` at each provider.
#[inline]
fn read(octets: Bytes, each: impl FnMut(u32)) -> Result<(), Error> {
    Mode::Der.decode(octets, |cons| {
        cons.take_sequence(|cons| {
            let customer = customer(cons)?;
            cons.take_sequence(|cons| providers(cons, customer, each))
        })
    })
}

/// Reads a content, of which the octets of the providers are kept.
fn kept(octets: Bytes) -> Result<(u32, Captured), Error> {
    Mode::Der.decode(octets, |cons| {
        cons.take_sequence(|cons| {
            let customer = customer(cons)?;
            let list = cons.take_sequence(|cons| cons.capture(|cons| providers(cons, customer, |_| {})))?;
            Ok((customer, list))
        })
    })
}

/// The sum of the providers, which are read a second time from the octets that were kept.
pub fn sum_of_kept(octets: Bytes) -> Result<u64, Error> {
    let (_, list) = black_box(kept(octets)?);
    list.decode(|cons| {
        let mut sum = 0;
        while let Some(provider) = cons.take_opt_u32()? {
            sum += u64::from(provider);
        }
        Ok(sum)
    })
}

/// The sum of the providers, none of which is kept.
pub fn sum_of(octets: Bytes) -> Result<u64, Error> {
    let mut sum = 0;
    read(octets, |provider| sum += u64::from(provider))?;
    Ok(sum)
}
