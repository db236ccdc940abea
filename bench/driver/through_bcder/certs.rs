//! The same work through the crate bcder, with the tests that the formats ask: the octets of names, of what is signed
//! and of signatures are kept, and the value of an extension is read by a reader of its own.

use crate::plain::der::{generalized_time, utc_time};
use crate::calls::sha1;
use crate::plain::certs::{self as plain, Claim, METHOD, PKIX, REFUSE, RSA, SHA256_WITH_RSA, STANDARD, Sets, TRIM, Usage};
use bcder::decode::{CaptureSource, Constructed, Error, LimitedSource, Primitive, Source};
use bcder::{BitString, Captured, Mode, OctetString, Oid, Tag, Unsigned};
use bytes::Bytes;
use std::hint::black_box;

/// A certificate. (Some of what it keeps, as the proved one does, is not asked for here.)
#[allow(dead_code)]
pub struct Cert {
    tbs: Tbs,
    signed: Captured,
    signature: Bytes,
    octets: Captured,
}

#[allow(dead_code)]
struct Tbs {
    serial: [u8; 20],
    issuer: Captured,
    not_before: u64,
    not_after: u64,
    subject: Captured,
    key: Bytes,
    key_identifier: [u8; 20],
    says: Says,
}

/// What the extensions say.
#[allow(dead_code)]
struct Says {
    subject_key: [u8; 20],
    authority_key: Option<[u8; 20]>,
    basic_ca: Option<bool>,
    usage: Usage,
    has_purposes: bool,
    crl: Option<Bytes>,
    ca_issuer: Option<Bytes>,
    access: Access,
    trims: bool,
    as_numbers: Claim<u32>,
    v4: Claim<u128>,
    v6: Claim<u128>,
}

#[derive(Default)]
#[allow(dead_code)]
struct Access {
    ca_repository: Option<Bytes>,
    rpki_manifest: Option<Bytes>,
    signed_object: Option<Bytes>,
    rpki_notify: Option<Bytes>,
}

/// Refuses what is not there.
fn there<S: Source, T>(value: Option<T>) -> Result<T, S::Err> {
    value.ok_or_else(|| Error::Malformed.into())
}

/// Refuses what is not so.
fn must<S: Source>(holds: bool) -> Result<(), S::Err> {
    there::<S, ()>(holds.then_some(()))
}

fn skip_algorithm<S: Source>(cons: &mut Constructed<S>, oid: &[u8]) -> Result<(), S::Err> {
    cons.take_sequence(|cons| {
        Oid(oid).skip_if(cons)?;
        cons.take_opt_null()
    })
}

fn take_name<S: Source>(cons: &mut Constructed<S>) -> Result<Captured, S::Err> {
    cons.capture(|cons| cons.take_sequence(|cons| cons.skip_all()))
}

fn time_of<S: Source>(text: &mut Primitive<S>, read: fn(&[u8]) -> Option<u64>) -> Result<u64, S::Err> {
    there::<S, u64>(read(&text.take_all()?))
}

fn take_time<S: Source>(cons: &mut Constructed<S>) -> Result<u64, S::Err> {
    match cons.take_opt_primitive_if(Tag::UTC_TIME, |text| time_of(text, utc_time))? {
        Some(time) => Ok(time),
        None => cons.take_primitive_if(Tag::GENERALIZED_TIME, |text| time_of(text, generalized_time)),
    }
}

fn take_serial<S: Source>(cons: &mut Constructed<S>) -> Result<[u8; 20], S::Err> {
    let number = Unsigned::take_from(cons)?;
    let digits = number.as_slice();
    let digits = digits.strip_prefix(&[0]).unwrap_or(digits);
    let start = there::<S, usize>(20usize.checked_sub(digits.len()))?;
    let mut serial = [0; 20];
    serial[start..].copy_from_slice(digits);
    Ok(serial)
}

/// The octets of a BIT STRING that uses all bits.
fn take_bits<S: Source>(cons: &mut Constructed<S>) -> Result<Bytes, S::Err> {
    let bits = BitString::take_from(cons)?;
    must::<S>(bits.unused() == 0)?;
    Ok(bits.octet_bytes())
}

/// What `read` takes, and its octets.
fn captured<S: Source, T>(
    cons: &mut Constructed<S>,
    read: impl FnOnce(&mut Constructed<CaptureSource<LimitedSource<S>>>) -> Result<T, S::Err>,
) -> Result<(T, Captured), S::Err> {
    let mut found = None;
    let octets = cons.capture(|cons| {
        found = Some(read(cons)?);
        Ok(())
    })?;
    Ok((there::<S, _>(found)?, octets))
}

/// What `read` takes of what is signed, its octets, and the signature.
fn take_signed<S: Source, T>(
    cons: &mut Constructed<S>,
    read: impl FnOnce(&mut Constructed<CaptureSource<LimitedSource<S>>>) -> Result<T, S::Err>,
) -> Result<(T, Captured, Bytes), S::Err> {
    let (value, signed) = captured(cons, read)?;
    skip_algorithm(cons, &SHA256_WITH_RSA)?;
    Ok((value, signed, take_bits(cons)?))
}

/// The certificate at the front.
#[inline(never)]
pub fn cert(octets: Bytes) -> Result<Cert, Error> {
    Mode::Der.decode(octets, |cons| {
        let ((tbs, signed, signature), octets) =
            captured(cons, |cons| cons.take_sequence(|cons| take_signed(cons, |cons| take_tbs(cons))))?;
        Ok(Cert { tbs, signed, signature, octets })
    })
}

fn take_tbs<S: Source>(cons: &mut Constructed<S>) -> Result<Tbs, S::Err> {
    cons.take_sequence(|cons| {
        cons.take_constructed_if(Tag::CTX_0, |cons| cons.skip_u8_if(2))?;
        let serial = take_serial(cons)?;
        skip_algorithm(cons, &SHA256_WITH_RSA)?;
        let issuer = take_name(cons)?;
        let (not_before, not_after) = cons.take_sequence(|cons| Ok((take_time(cons)?, take_time(cons)?)))?;
        let subject = take_name(cons)?;
        let key = cons.take_sequence(|cons| {
            skip_algorithm(cons, &RSA)?;
            take_bits(cons)
        })?;
        let key_identifier = sha1(&key);
        let found = cons.take_constructed_if(Tag::CTX_3, take_extensions)?;
        let says = found.says()?;
        Ok(Tbs { serial, issuer, not_before, not_after, subject, key, key_identifier, says })
    })
}

/// The values of the extensions that are known.
#[derive(Default)]
struct Found {
    subject_key: Option<Bytes>,
    usage: Option<Bytes>,
    basic: Option<Bytes>,
    crl: Option<Bytes>,
    policies: Option<Bytes>,
    authority_key: Option<Bytes>,
    purposes: Option<Bytes>,
    authority_access: Option<Bytes>,
    subject_access: Option<Bytes>,
    addresses: [Option<Bytes>; 2],
    as_numbers: [Option<Bytes>; 2],
}

impl Found {
    /// The place of the extension with this identifier, if it is known.
    fn place(&mut self, oid: &[u8]) -> Option<&mut Option<Bytes>> {
        let (last, front) = oid.split_last()?;
        match (front, last) {
            (front, 14) if front == STANDARD => Some(&mut self.subject_key),
            (front, 15) if front == STANDARD => Some(&mut self.usage),
            (front, 19) if front == STANDARD => Some(&mut self.basic),
            (front, 31) if front == STANDARD => Some(&mut self.crl),
            (front, 32) if front == STANDARD => Some(&mut self.policies),
            (front, 35) if front == STANDARD => Some(&mut self.authority_key),
            (front, 37) if front == STANDARD => Some(&mut self.purposes),
            (front, 1) if front == PKIX => Some(&mut self.authority_access),
            (front, 11) if front == PKIX => Some(&mut self.subject_access),
            (front, 7) if front == PKIX => Some(&mut self.addresses[0]),
            (front, 8) if front == PKIX => Some(&mut self.as_numbers[0]),
            (front, 28) if front == PKIX => Some(&mut self.addresses[1]),
            (front, 29) if front == PKIX => Some(&mut self.as_numbers[1]),
            _ => None,
        }
    }

    fn says(self) -> Result<Says, Error> {
        let (trims, as_numbers, (v4, v6)) = self.claims()?;
        Ok(Says {
            subject_key: value(there::<Bytes, _>(self.subject_key)?, |cons| {
                cons.take_primitive_if(Tag::OCTET_STRING, identifier)
            })?,
            authority_key: self.authority_key.map(authority_key).transpose()?,
            basic_ca: self.basic.map(basic_ca).transpose()?,
            usage: usage(there::<Bytes, _>(self.usage)?)?,
            has_purposes: self.purposes.map(purposes).transpose()?.is_some(),
            crl: self.crl.map(crl_point).transpose()?,
            ca_issuer: self.authority_access.map_or(Ok(None), ca_issuer)?,
            access: self.subject_access.map_or(Ok(Access::default()), subject_access)?,
            trims,
            as_numbers,
            v4,
            v6,
        })
    }

    /// Whether more is trimmed than refused, and what is claimed.
    fn claims(&self) -> Result<(bool, Claim<u32>, (Claim<u128>, Claim<u128>)), Error> {
        let trims = policy(there::<Bytes, _>(self.policies.clone())?)?;
        let (now, other) = (usize::from(trims), usize::from(!trims));
        must::<Bytes>(self.addresses[other].is_none() && self.as_numbers[other].is_none())?;
        let addresses = self.addresses[now].clone().map_or(Ok(Default::default()), addresses)?;
        let as_numbers = self.as_numbers[now].clone().map_or(Ok(Claim::Missing), as_numbers)?;
        Ok((trims, as_numbers, addresses))
    }
}

/// What is read of the value of an extension.
fn value<T>(octets: Bytes, read: impl FnOnce(&mut Constructed<Bytes>) -> Result<T, Error>) -> Result<T, Error> {
    Mode::Der.decode(octets, read)
}

/// An extension: its identifier, whether it is critical, and its value.
fn take_opt_extension<S: Source>(cons: &mut Constructed<S>) -> Result<Option<(Oid, bool, Bytes)>, S::Err> {
    cons.take_opt_sequence(|cons| {
        let oid = Oid::take_from(cons)?;
        let critical = cons.take_opt_bool()?.unwrap_or(false);
        Ok((oid, critical, OctetString::take_from(cons)?.into_bytes()))
    })
}

/// The extensions, none twice, and none that is critical and not known.
fn take_extensions<S: Source>(cons: &mut Constructed<S>) -> Result<Found, S::Err> {
    cons.take_sequence(|cons| {
        let mut found = Found::default();
        let mut others: Vec<Oid> = Vec::new();
        while let Some((oid, critical, value)) = take_opt_extension(cons)? {
            match found.place(oid.as_ref()) {
                Some(place) => must::<S>(place.replace(value).is_none())?,
                None => {
                    must::<S>(!critical && !others.contains(&oid))?;
                    others.push(oid);
                }
            }
        }
        Ok(found)
    })
}

/// The identifier of a key.
pub fn identifier<S: Source>(octets: &mut Primitive<S>) -> Result<[u8; 20], S::Err> {
    there::<S, _>(octets.take_all()?[..].try_into().ok())
}

fn authority_key(octets: Bytes) -> Result<[u8; 20], Error> {
    value(octets, |cons| cons.take_sequence(|cons| cons.take_primitive_if(Tag::CTX_0, identifier)))
}

fn basic_ca(octets: Bytes) -> Result<bool, Error> {
    value(octets, |cons| cons.take_sequence(|cons| Ok(cons.take_opt_bool()?.unwrap_or(false))))
}

fn usage(octets: Bytes) -> Result<Usage, Error> {
    value(octets, |cons| {
        let bits = BitString::take_from(cons)?;
        there::<Bytes, _>(plain::usage_of(bits.octet_slice().unwrap_or_default(), bits.unused()))
    })
}

fn purposes(octets: Bytes) -> Result<(), Error> {
    value(octets, |cons| {
        cons.take_sequence(|cons| {
            Oid::skip_in(cons)?;
            while Oid::skip_opt_in(cons)?.is_some() {}
            Ok(())
        })
    })
}

/// The text of the name in front, if it is a URI; none if nothing is left.
fn take_opt_uri<S: Source>(cons: &mut Constructed<S>) -> Result<Option<Option<Bytes>>, S::Err> {
    match cons.take_opt_primitive_if(Tag::CTX_6, |text| text.take_all())? {
        Some(text) => Ok(Some(Some(text))),
        None => Ok(cons.skip_one()?.map(|()| None)),
    }
}

fn crl_point(octets: Bytes) -> Result<Bytes, Error> {
    let read = |cons: &mut Constructed<Bytes>| {
        let mut first = None;
        while let Some(text) = take_opt_uri(cons)? {
            first = first.or(text.filter(|text| plain::is_rsync(text)));
        }
        there::<Bytes, _>(first)
    };
    value(octets, |cons| {
        cons.take_sequence(|cons| {
            cons.take_sequence(|cons| {
                cons.take_constructed_if(Tag::CTX_0, |cons| cons.take_constructed_if(Tag::CTX_0, read))
            })
        })
    })
}

/// Access descriptions: their methods and the texts of their URIs.
fn accesses(octets: Bytes, mut each: impl FnMut(u8, Bytes)) -> Result<(), Error> {
    let mut read = |cons: &mut Constructed<Bytes>| {
        let method = Oid::take_from(cons)?;
        let text = there::<Bytes, _>(take_opt_uri(cons)?)?;
        if let (Some((last, front)), Some(text)) = (method.as_ref().split_last(), text)
            && *front == METHOD
        {
            each(*last, text);
        }
        Ok(())
    };
    value(octets, |cons| {
        cons.take_sequence(|cons| {
            while cons.take_opt_sequence(&mut read)?.is_some() {}
            Ok(())
        })
    })
}

fn ca_issuer(octets: Bytes) -> Result<Option<Bytes>, Error> {
    let mut issuer = None;
    accesses(octets, |method, text| {
        if method == 2 && issuer.is_none() && plain::is_rsync(&text) {
            issuer = Some(text);
        }
    })?;
    Ok(issuer)
}

fn subject_access(octets: Bytes) -> Result<Access, Error> {
    let mut access = Access::default();
    accesses(octets, |method, text| {
        let place = match method {
            5 => &mut access.ca_repository,
            10 => &mut access.rpki_manifest,
            11 => &mut access.signed_object,
            13 => &mut access.rpki_notify,
            _ => return,
        };
        if place.is_none() && if method == 13 { plain::is_https(&text) } else { plain::is_rsync(&text) } {
            *place = Some(text);
        }
    })?;
    Ok(access)
}

fn policy(octets: Bytes) -> Result<bool, Error> {
    let oid = value(octets, |cons| {
        cons.take_sequence(|cons| {
            cons.take_sequence(|cons| {
                let oid = Oid::take_from(cons)?;
                cons.skip_all()?;
                Ok(oid)
            })
        })
    })?;
    must::<Bytes>(*oid.as_ref() == REFUSE || *oid.as_ref() == TRIM)?;
    Ok(*oid.as_ref() == TRIM)
}

/// The block of numbers in front, if there is one.
fn take_opt_numbers<S: Source>(cons: &mut Constructed<S>) -> Result<Option<(u32, u32)>, S::Err> {
    if let Some(ends) = cons.take_opt_sequence(|cons| Ok((cons.take_u32()?, cons.take_u32()?)))? {
        must::<S>(ends.0 <= ends.1)?;
        return Ok(Some(ends));
    }
    Ok(cons.take_opt_u32()?.map(|number| (number, number)))
}

fn as_numbers(octets: Bytes) -> Result<Claim<u32>, Error> {
    let read = |cons: &mut Constructed<Bytes>| {
        if cons.take_opt_primitive_if(Tag::NULL, |_| Ok(()))?.is_some() {
            return Ok(Claim::Inherit);
        }
        let mut blocks = Vec::new();
        cons.take_sequence(|cons| {
            while let Some(block) = take_opt_numbers(cons)? {
                blocks.push(block);
            }
            Ok(())
        })?;
        Ok(Claim::These(plain::canonical(blocks, |number| number.checked_add(1))))
    };
    value(octets, |cons| cons.take_sequence(|cons| cons.take_constructed_if(Tag::CTX_0, read)))
}

/// The first address that begins with these bits, and the last one.
fn ends<S: Source>(bits: BitString, most: usize) -> Result<(u128, u128), S::Err> {
    let octets = bits.octet_slice().unwrap_or_default();
    there::<S, _>(plain::ends_of(octets, bits.unused(), most))
}

fn take_opt_addresses<S: Source>(cons: &mut Constructed<S>, most: usize) -> Result<Option<(u128, u128)>, S::Err> {
    let range = cons.take_opt_sequence(|cons| Ok((BitString::take_from(cons)?, BitString::take_from(cons)?)))?;
    if let Some((first, last)) = range {
        let (min, max) = (ends::<S>(first, most)?.0, ends::<S>(last, most)?.1);
        must::<S>(min <= max)?;
        return Ok(Some((min, max)));
    }
    let bits = cons.take_opt_value_if(Tag::BIT_STRING, BitString::from_content)?;
    bits.map(|bits| ends::<S>(bits, most)).transpose()
}

fn take_ip_claim<S: Source>(cons: &mut Constructed<S>, most: usize) -> Result<Claim<u128>, S::Err> {
    if cons.take_opt_primitive_if(Tag::NULL, |_| Ok(()))?.is_some() {
        return Ok(Claim::Inherit);
    }
    let mut blocks = Vec::new();
    cons.take_sequence(|cons| {
        while let Some(block) = take_opt_addresses(cons, most)? {
            blocks.push(block);
        }
        Ok(())
    })?;
    Ok(Claim::These(plain::canonical(blocks, |number| number.checked_add(1))))
}

fn addresses(octets: Bytes) -> Result<(Claim<u128>, Claim<u128>), Error> {
    let (mut v4, mut v6) = (None, None);
    let mut read = |cons: &mut Constructed<Bytes>| {
        let (place, most) = match OctetString::take_from(cons)?.to_bytes()[..] {
            [0, 1] => (&mut v4, 32),
            [0, 2] => (&mut v6, 128),
            _ => return Err(Error::Malformed),
        };
        must::<Bytes>(place.replace(take_ip_claim(cons, most)?).is_none())
    };
    value(octets, |cons| {
        cons.take_sequence(|cons| {
            while cons.take_opt_sequence(&mut read)?.is_some() {}
            Ok(())
        })
    })?;
    Ok((v4.unwrap_or_default(), v6.unwrap_or_default()))
}

impl Cert {
    fn is_ca(&self) -> bool {
        let says = &self.tbs.says;
        let is_missing = says.as_numbers.is_missing() && says.v4.is_missing() && says.v6.is_missing();
        says.subject_key == self.tbs.key_identifier
            && !is_missing
            && says.basic_ca == Some(true)
            && says.usage == Usage::Ca
            && !says.has_purposes
            && says.access.ca_repository.is_some()
            && says.access.rpki_manifest.is_some()
            && says.access.signed_object.is_none()
    }

    /// The numbers of the certificate of a CA that this issuer has issued, if it is valid.
    #[inline(never)]
    fn validate(&self, issuer: &plain::Cert, sets: &Sets, now: u64) -> Option<Sets> {
        let (tbs, says) = (&self.tbs, &self.tbs.says);
        let is_issued = self.is_ca()
            && says.authority_key.as_ref() == Some(issuer.subject_key)
            && says.crl.is_some()
            && says.ca_issuer.is_some()
            && (tbs.not_before..=tbs.not_after).contains(&now);
        if !is_issued {
            return None;
        }
        let as_numbers = plain::validated(&says.as_numbers, &sets.as_numbers, says.trims)?;
        let v4 = plain::validated(&says.v4, &sets.v4, says.trims)?;
        let v6 = plain::validated(&says.v6, &sets.v6, says.trims)?;
        Some(Sets { as_numbers, v4, v6 })
    }
}

/// How many blocks the sets of a certificate have, or 0 where it is not valid.
pub fn blocks_of(octets: Bytes, issuer: &plain::Cert, sets: &Sets, now: u64) -> u64 {
    let validated = cert(octets).ok().and_then(|cert| {
        let sets = cert.validate(issuer, sets, now)?;
        Some((cert, sets))
    });
    match black_box(validated) {
        Some((_, sets)) => sets.count(),
        None => 0,
    }
}

/// A revocation list, of which the same holds.
#[allow(dead_code)]
pub struct Crl {
    list: List,
    signed: Captured,
    signature: Bytes,
    octets: Captured,
}

#[allow(dead_code)]
struct List {
    issuer: Captured,
    this_update: u64,
    next_update: u64,
    revoked: Vec<[u8; 20]>,
    authority_key: [u8; 20],
    number: [u8; 20],
}

/// The revocation list at the front.
#[inline(never)]
pub fn crl(octets: Bytes) -> Result<Crl, Error> {
    Mode::Der.decode(octets, |cons| {
        let ((list, signed, signature), octets) =
            captured(cons, |cons| cons.take_sequence(|cons| take_signed(cons, |cons| take_list(cons))))?;
        Ok(Crl { list, signed, signature, octets })
    })
}

/// The serial number of an entry.
fn take_opt_entry<S: Source>(cons: &mut Constructed<S>) -> Result<Option<[u8; 20]>, S::Err> {
    cons.take_opt_sequence(|cons| {
        let serial = take_serial(cons)?;
        take_time(cons)?;
        cons.take_opt_sequence(|cons| cons.skip_all())?;
        Ok(serial)
    })
}

fn take_list<S: Source>(cons: &mut Constructed<S>) -> Result<List, S::Err> {
    cons.take_sequence(|cons| {
        cons.skip_u8_if(1)?;
        skip_algorithm(cons, &SHA256_WITH_RSA)?;
        let issuer = take_name(cons)?;
        let (this_update, next_update) = (take_time(cons)?, take_time(cons)?);
        let mut revoked = Vec::new();
        cons.take_opt_sequence(|cons| {
            while let Some(serial) = take_opt_entry(cons)? {
                revoked.push(serial);
            }
            Ok(())
        })?;
        let (authority_key, number) = cons.take_constructed_if(Tag::CTX_0, take_crl_extensions)?;
        Ok(List { issuer, this_update, next_update, revoked, authority_key, number })
    })
}

fn take_crl_extensions<S: Source>(cons: &mut Constructed<S>) -> Result<([u8; 20], [u8; 20]), S::Err> {
    let (mut key, mut number) = (None, None);
    cons.take_sequence(|cons| {
        let mut others: Vec<Oid> = Vec::new();
        while let Some((oid, critical, value)) = take_opt_extension(cons)? {
            let place = match *oid.as_ref() {
                [0x55, 0x1D, 35] => &mut key,
                [0x55, 0x1D, 20] => &mut number,
                _ => {
                    must::<S>(!critical && !others.contains(&oid))?;
                    others.push(oid);
                    continue;
                }
            };
            must::<S>(place.replace(value).is_none())?;
        }
        Ok(())
    })?;
    let key = authority_key(there::<S, _>(key)?)?;
    Ok((key, value(there::<S, _>(number)?, take_serial)?))
}

impl Crl {
    #[inline(never)]
    pub fn contains(&self, serial: &[u8; 20]) -> bool {
        self.list.revoked.contains(serial)
    }
}
