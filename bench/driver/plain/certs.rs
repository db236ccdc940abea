//! Certificates and revocation lists in plain Rust, written by hand for these formats. All that the proved code tests
//! is tested. What is kept of the octets is borrowed from them.

use super::der::Reader;
use crate::calls::sha1;

pub const SHA256_WITH_RSA: [u8; 9] = [0x2A, 0x86, 0x48, 0x86, 0xF7, 0x0D, 0x01, 0x01, 0x0B];
pub const RSA: [u8; 9] = [0x2A, 0x86, 0x48, 0x86, 0xF7, 0x0D, 0x01, 0x01, 0x01];
pub const REFUSE: [u8; 8] = [0x2B, 0x06, 0x01, 0x05, 0x05, 0x07, 0x0E, 0x02];
pub const TRIM: [u8; 8] = [0x2B, 0x06, 0x01, 0x05, 0x05, 0x07, 0x0E, 0x03];

/// What stands before the last octet of the identifiers of standard extensions, of those of the PKIX working group, and
/// of methods of access.
pub const STANDARD: [u8; 2] = [0x55, 0x1D];
pub const PKIX: [u8; 7] = [0x2B, 0x06, 0x01, 0x05, 0x05, 0x07, 0x01];
pub const METHOD: [u8; 7] = [0x2B, 0x06, 0x01, 0x05, 0x05, 0x07, 0x30];

#[allow(dead_code)]
pub struct Key<'a> {
    pub bits: &'a [u8],
    identifier: [u8; 20],
}

/// What is claimed of a family: the first number and the last one of each block, in order and joined.
#[derive(Default)]
pub enum Claim<T> {
    #[default]
    Missing,
    Inherit,
    These(Vec<(T, T)>),
}

#[derive(PartialEq)]
pub enum Usage {
    Ca,
    Ee,
}

/// A certificate. (Some of what it keeps, as the proved one does, is not asked for here.)
#[allow(dead_code)]
pub struct Cert<'a> {
    serial: [u8; 20],
    issuer: &'a [u8],
    subject: &'a [u8],
    not_before: u64,
    not_after: u64,
    pub key: Key<'a>,
    pub subject_key: &'a [u8; 20],
    authority_key: Option<&'a [u8; 20]>,
    basic_ca: Option<bool>,
    usage: Usage,
    has_purposes: bool,
    crl: Option<&'a [u8]>,
    ca_issuer: Option<&'a [u8]>,
    subject_access: SubjectAccess<'a>,
    trims: bool,
    as_numbers: Claim<u32>,
    v4: Claim<u128>,
    v6: Claim<u128>,
    signed: &'a [u8],
    signature: &'a [u8],
    octets: &'a [u8],
}

#[derive(Default)]
struct SubjectAccess<'a> {
    ca_repository: Option<&'a [u8]>,
    rpki_manifest: Option<&'a [u8]>,
    signed_object: Option<&'a [u8]>,
    rpki_notify: Option<&'a [u8]>,
}

/// What `read` takes from the front, and its octets.
fn captured<'a, T>(
    reader: &mut Reader<'a>,
    read: impl FnOnce(&mut Reader<'a>) -> Option<T>,
) -> Option<(T, &'a [u8])> {
    let before = reader.0;
    let value = read(reader)?;
    Some((value, &before[..before.len() - reader.0.len()]))
}

fn algorithm(reader: &mut Reader, oid: &[u8]) -> Option<()> {
    let mut fields = reader.sequence()?;
    let read = fields.oid()?;
    fields.null()?;
    fields.close(())?;
    (read == oid).then_some(())
}

fn name<'a>(reader: &mut Reader<'a>) -> Option<&'a [u8]> {
    let (_, octets) = captured(reader, |reader| reader.sequence()?.skip_all())?;
    Some(octets)
}

fn key<'a>(reader: &mut Reader<'a>) -> Option<Key<'a>> {
    let mut fields = reader.sequence()?;
    algorithm(&mut fields, &RSA)?;
    let bits = fields.octets_in_bits()?;
    fields.close(Key { bits, identifier: sha1(bits) })
}

/// The certificate at the front.
#[inline(never)]
pub fn cert(octets: &[u8]) -> Option<Cert<'_>> {
    let (cert, octets) = captured(&mut Reader(octets), |reader| {
        let mut fields = reader.sequence()?;
        let (cert, signed) = captured(&mut fields, tbs)?;
        algorithm(&mut fields, &SHA256_WITH_RSA)?;
        let signature = fields.octets_in_bits()?;
        fields.close(Cert { signed, signature, ..cert })
    })?;
    Some(Cert { octets, ..cert })
}

fn tbs<'a>(reader: &mut Reader<'a>) -> Option<Cert<'a>> {
    let mut fields = reader.sequence()?;
    let mut version = fields.open(0xA0)?;
    if version.take(0x02)? != [2] || !version.is_empty() {
        return None;
    }
    let serial = fields.serial()?;
    algorithm(&mut fields, &SHA256_WITH_RSA)?;
    let issuer = name(&mut fields)?;
    let mut validity = fields.sequence()?;
    let (not_before, not_after) = (validity.time()?, validity.time()?);
    validity.close(())?;
    let subject = name(&mut fields)?;
    let key = key(&mut fields)?;
    let mut tagged = fields.open(0xA3)?;
    let list = tagged.sequence()?;
    tagged.close(())?;
    fields.close(())?;
    let found = extensions(list)?;
    let (trims, as_numbers, (v4, v6)) = claims(&found)?;
    Some(Cert {
        serial,
        issuer,
        subject,
        not_before,
        not_after,
        key,
        subject_key: Reader(found.subject_key?).take(0x04)?.try_into().ok()?,
        authority_key: found.authority_key.map_or(Some(None), |octets| authority_key(octets).map(Some))?,
        basic_ca: found.basic.map_or(Some(None), |octets| basic_ca(octets).map(Some))?,
        usage: usage(found.usage?)?,
        has_purposes: found.purposes.map_or(Some(false), |octets| purposes(octets).map(|()| true))?,
        crl: found.crl.map_or(Some(None), |octets| crl_point(octets).map(Some))?,
        ca_issuer: found.authority_access.map_or(Some(None), ca_issuer)?,
        subject_access: found.subject_access.map_or(Some(SubjectAccess::default()), subject_access)?,
        trims,
        as_numbers,
        v4,
        v6,
        signed: &[],
        signature: &[],
        octets: &[],
    })
}

/// The values of the extensions that are known.
#[derive(Default)]
struct Found<'a> {
    subject_key: Option<&'a [u8]>,
    usage: Option<&'a [u8]>,
    basic: Option<&'a [u8]>,
    crl: Option<&'a [u8]>,
    policies: Option<&'a [u8]>,
    authority_key: Option<&'a [u8]>,
    purposes: Option<&'a [u8]>,
    authority_access: Option<&'a [u8]>,
    subject_access: Option<&'a [u8]>,
    addresses: [Option<&'a [u8]>; 2],
    as_numbers: [Option<&'a [u8]>; 2],
}

impl<'a> Found<'a> {
    /// The place of the extension with this identifier, if it is known.
    fn place(&mut self, oid: &[u8]) -> Option<&mut Option<&'a [u8]>> {
        let (last, front) = oid.split_last()?;
        match (front, last) {
            (front, 14) if front == STANDARD => Some(&mut self.subject_key),
            (front, 15) if front == STANDARD => Some(&mut self.usage),
            (front, 19) if front == STANDARD => Some(&mut self.basic),
            (front, 31) if front == STANDARD => Some(&mut self.crl),
            (front, 32) if front == STANDARD => Some(&mut self.policies),
            (front, 35) if front == STANDARD => Some(&mut self.authority_key),
            (front, 37) if front == STANDARD => Some(&mut self.purposes),
            (front, 1) if front == PKIX => Some(&mut self.authority_access),
            (front, 11) if front == PKIX => Some(&mut self.subject_access),
            (front, 7) if front == PKIX => Some(&mut self.addresses[0]),
            (front, 8) if front == PKIX => Some(&mut self.as_numbers[0]),
            (front, 28) if front == PKIX => Some(&mut self.addresses[1]),
            (front, 29) if front == PKIX => Some(&mut self.as_numbers[1]),
            _ => None,
        }
    }
}

/// An extension: its identifier, whether it is critical, and its value.
fn extension<'a>(list: &mut Reader<'a>) -> Option<(&'a [u8], bool, &'a [u8])> {
    let mut fields = list.sequence()?;
    let (oid, critical, value) = (fields.oid()?, fields.flag()?, fields.take(0x04)?);
    fields.close((oid, critical, value))
}

/// The extensions, none twice, and none that is critical and not known.
fn extensions(mut list: Reader<'_>) -> Option<Found<'_>> {
    let mut found = Found::default();
    let mut others: Vec<&[u8]> = Vec::new();
    while !list.is_empty() {
        let (oid, critical, value) = extension(&mut list)?;
        match found.place(oid) {
            Some(place) => {
                if place.replace(value).is_some() {
                    return None;
                }
            }
            None => {
                if critical || others.contains(&oid) {
                    return None;
                }
                others.push(oid);
            }
        }
    }
    Some(found)
}

fn authority_key(octets: &[u8]) -> Option<&[u8; 20]> {
    let mut fields = Reader(octets).sequence()?;
    let identifier = fields.take(0x80)?;
    fields.close(identifier.try_into().ok()?)
}

fn basic_ca(octets: &[u8]) -> Option<bool> {
    let mut fields = Reader(octets).sequence()?;
    let is_ca = fields.flag()?;
    fields.close(is_ca)
}

fn usage(octets: &[u8]) -> Option<Usage> {
    let (octets, unused) = Reader(octets).bits()?;
    usage_of(octets, unused)
}

/// The usage that the octets of a BIT STRING say, of the last of which some bits are not used.
#[inline]
pub fn usage_of(octets: &[u8], unused: u8) -> Option<Usage> {
    let first = *octets.first()? & if octets.len() == 1 { 0xFF << unused } else { 0xFF };
    if first & 0x06 == 0x06 {
        Some(Usage::Ca)
    } else if first & 0x80 != 0 {
        Some(Usage::Ee)
    } else {
        None
    }
}

fn purposes(octets: &[u8]) -> Option<()> {
    let mut list = Reader(octets).sequence()?;
    list.oid()?;
    while !list.is_empty() {
        list.oid()?;
    }
    Some(())
}

/// The text of the name in front, if it is a URI.
fn uri<'a>(reader: &mut Reader<'a>) -> Option<Option<&'a [u8]>> {
    match reader.take_if(0x86)? {
        Some(text) => Some(Some(text)),
        None => reader.skip().map(|()| None),
    }
}

fn crl_point(octets: &[u8]) -> Option<&[u8]> {
    let mut points = Reader(octets).sequence()?;
    let mut point = points.sequence()?;
    let mut full = point.open(0xA0)?;
    let mut names = full.open(0xA0)?;
    if !points.is_empty() || !point.is_empty() || !full.is_empty() {
        return None;
    }
    let mut first = None;
    while !names.is_empty() {
        let text = uri(&mut names)?;
        first = first.or(text.filter(|text| is_rsync(text)));
    }
    first
}

/// Access descriptions: their methods and the texts of their URIs.
fn accesses<'a>(octets: &'a [u8], mut each: impl FnMut(u8, &'a [u8])) -> Option<()> {
    let mut list = Reader(octets).sequence()?;
    while !list.is_empty() {
        let mut fields = list.sequence()?;
        let method = fields.oid()?;
        let text = uri(&mut fields)?;
        fields.close(())?;
        if let (Some((last, front)), Some(text)) = (method.split_last(), text)
            && front == METHOD
        {
            each(*last, text);
        }
    }
    Some(())
}

fn ca_issuer(octets: &[u8]) -> Option<Option<&[u8]>> {
    let mut issuer = None;
    accesses(octets, |method, text| {
        if method == 2 && issuer.is_none() && is_rsync(text) {
            issuer = Some(text);
        }
    })?;
    Some(issuer)
}

fn subject_access(octets: &[u8]) -> Option<SubjectAccess<'_>> {
    let mut access = SubjectAccess::default();
    accesses(octets, |method, text| {
        let place = match method {
            5 => &mut access.ca_repository,
            10 => &mut access.rpki_manifest,
            11 => &mut access.signed_object,
            13 => &mut access.rpki_notify,
            _ => return,
        };
        if place.is_none() && if method == 13 { is_https(text) } else { is_rsync(text) } {
            *place = Some(text);
        }
    })?;
    Some(access)
}

/// What follows a scheme, in any letters, a colon and two slashes, where all octets are those of a URI.
fn after<'a>(scheme: &[u8], text: &'a [u8]) -> Option<&'a [u8]> {
    let is_of_uri = |octet: &u8| (0x21..=0x7E).contains(octet) && !b"\"#<>\\^`{|}".contains(octet);
    if !text.iter().all(is_of_uri) {
        return None;
    }
    let (front, rest) = text.split_at_checked(scheme.len())?;
    if front.eq_ignore_ascii_case(scheme) { rest.strip_prefix(b"://") } else { None }
}

fn is_dots(segment: &[u8]) -> bool {
    segment == b"." || segment == b".."
}

/// Whether a text is an rsync URI: an authority, a module and a path, whose segments are no dots, and none of which but
/// the last one of the path is empty.
pub fn is_rsync(text: &[u8]) -> bool {
    let Some(rest) = after(b"rsync", text) else {
        return false;
    };
    let mut segments = rest.split(|octet| *octet == b'/');
    let authority = segments.next().unwrap_or_default();
    let Some(module) = segments.next() else {
        return false;
    };
    if authority.is_empty() || module.is_empty() || is_dots(module) {
        return false;
    }
    let mut was_empty = false;
    for segment in segments {
        if was_empty || is_dots(segment) {
            return false;
        }
        was_empty = segment.is_empty();
    }
    true
}

pub fn is_https(text: &[u8]) -> bool {
    after(b"https", text).is_some_and(|rest| !rest.is_empty() && rest[0] != b'/')
}

/// Whether more is trimmed than refused, and what is claimed.
fn claims(found: &Found) -> Option<(bool, Claim<u32>, (Claim<u128>, Claim<u128>))> {
    let trims = policy(found.policies?)?;
    let (now, other) = (usize::from(trims), usize::from(!trims));
    if found.addresses[other].is_some() || found.as_numbers[other].is_some() {
        return None;
    }
    let addresses = found.addresses[now].map_or(Some(Default::default()), addresses)?;
    let as_numbers = found.as_numbers[now].map_or(Some(Claim::Missing), as_numbers)?;
    Some((trims, as_numbers, addresses))
}

fn policy(octets: &[u8]) -> Option<bool> {
    let mut policies = Reader(octets).sequence()?;
    let mut policy = policies.sequence()?;
    let oid = policy.oid()?;
    policy.skip_all()?;
    policies.close(())?;
    if oid == REFUSE {
        Some(false)
    } else if oid == TRIM {
        Some(true)
    } else {
        None
    }
}

/// The blocks in order, those joined that overlap or touch.
pub fn canonical<T: Copy + Ord>(mut blocks: Vec<(T, T)>, next: impl Fn(T) -> Option<T>) -> Vec<(T, T)> {
    blocks.sort_unstable_by_key(|block| block.0);
    blocks.dedup_by(|block, before| {
        let joins = next(before.1).is_none_or(|next| block.0 <= next);
        if joins {
            before.1 = before.1.max(block.1);
        }
        joins
    });
    blocks
}

fn as_numbers(octets: &[u8]) -> Option<Claim<u32>> {
    let mut fields = Reader(octets).sequence()?;
    let mut claim = fields.open(0xA0)?;
    fields.close(())?;
    if claim.null()? {
        return claim.close(Claim::Inherit);
    }
    let mut list = claim.sequence()?;
    let mut blocks = Vec::new();
    while !list.is_empty() {
        blocks.push(if list.is_next(0x30) {
            let mut ends = list.sequence()?;
            let (min, max) = (ends.unsigned()?, ends.unsigned()?);
            if min > max || !ends.is_empty() {
                return None;
            }
            (min, max)
        } else {
            let number = list.unsigned()?;
            (number, number)
        });
    }
    claim.close(Claim::These(canonical(blocks, |number| number.checked_add(1))))
}

/// The first address that begins with the bits in front, and the last one.
fn ends(reader: &mut Reader, most: usize) -> Option<(u128, u128)> {
    let (octets, unused) = reader.bits()?;
    ends_of(octets, unused, most)
}

/// The same of the octets of a BIT STRING, of the last of which some bits are not used.
#[inline]
pub fn ends_of(octets: &[u8], unused: u8, most: usize) -> Option<(u128, u128)> {
    let len = 8 * octets.len() - usize::from(unused);
    if len > most {
        return None;
    }
    let mut padded = [0; 16];
    padded[..octets.len()].copy_from_slice(octets);
    let host = u128::MAX.checked_shr(len as u32).unwrap_or(0);
    let min = u128::from_be_bytes(padded) & !host;
    Some((min, min | host))
}

fn ip_claim(fields: &mut Reader, most: usize) -> Option<Claim<u128>> {
    if fields.null()? {
        return Some(Claim::Inherit);
    }
    let mut list = fields.sequence()?;
    let mut blocks = Vec::new();
    while !list.is_empty() {
        blocks.push(if list.is_next(0x30) {
            let mut range = list.sequence()?;
            let ((min, _), (_, max)) = (ends(&mut range, most)?, ends(&mut range, most)?);
            if min > max || !range.is_empty() {
                return None;
            }
            (min, max)
        } else {
            ends(&mut list, most)?
        });
    }
    Some(Claim::These(canonical(blocks, |number| number.checked_add(1))))
}

fn addresses(octets: &[u8]) -> Option<(Claim<u128>, Claim<u128>)> {
    let mut list = Reader(octets).sequence()?;
    let (mut v4, mut v6) = (None, None);
    while !list.is_empty() {
        let mut fields = list.sequence()?;
        let (place, most) = match fields.take(0x04)? {
            [0, 1] => (&mut v4, 32),
            [0, 2] => (&mut v6, 128),
            _ => return None,
        };
        if place.replace(ip_claim(&mut fields, most)?).is_some() || !fields.is_empty() {
            return None;
        }
    }
    Some((v4.unwrap_or_default(), v6.unwrap_or_default()))
}

impl<T> Claim<T> {
    pub fn is_missing(&self) -> bool {
        matches!(self, Claim::Missing)
    }
}

/// The numbers of a certificate that was validated.
pub struct Sets {
    pub as_numbers: Vec<(u32, u32)>,
    pub v4: Vec<(u128, u128)>,
    pub v6: Vec<(u128, u128)>,
}

impl Sets {
    /// How many blocks they have.
    pub fn count(&self) -> u64 {
        (self.as_numbers.len() + self.v4.len() + self.v6.len()) as u64
    }
}

fn is_ca(cert: &Cert) -> bool {
    let places = &cert.subject_access;
    *cert.subject_key == cert.key.identifier
        && !(cert.as_numbers.is_missing() && cert.v4.is_missing() && cert.v6.is_missing())
        && cert.basic_ca == Some(true)
        && cert.usage == Usage::Ca
        && !cert.has_purposes
        && places.ca_repository.is_some()
        && places.rpki_manifest.is_some()
        && places.signed_object.is_none()
}

/// Whether a certificate is valid at a moment. Its signature is taken for good.
fn is_good(cert: &Cert, now: u64) -> bool {
    (cert.not_before..=cert.not_after).contains(&now)
}

/// The numbers of the certificate of a trust anchor, which inherits none, if it is valid.
pub fn anchor(cert: &Cert, now: u64) -> Option<Sets> {
    let states_itself = cert.authority_key.is_none_or(|authority| authority == cert.subject_key);
    let is_anchor = is_ca(cert) && states_itself && cert.crl.is_none() && cert.ca_issuer.is_none();
    if !is_anchor || !is_good(cert, now) {
        return None;
    }
    let (as_numbers, v4, v6) = (set(&cert.as_numbers)?, set(&cert.v4)?, set(&cert.v6)?);
    Some(Sets { as_numbers, v4, v6 })
}

fn set<T: Copy>(claim: &Claim<T>) -> Option<Vec<(T, T)>> {
    match claim {
        Claim::Missing => Some(Vec::new()),
        Claim::Inherit => None,
        Claim::These(blocks) => Some(blocks.clone()),
    }
}

/// The numbers of the certificate of a CA that this issuer has issued, if it is valid.
#[inline(never)]
pub fn validate(cert: &Cert, issuer: &Cert, sets: &Sets, now: u64) -> Option<Sets> {
    let is_issued = is_ca(cert)
        && cert.authority_key == Some(issuer.subject_key)
        && cert.crl.is_some()
        && cert.ca_issuer.is_some()
        && is_good(cert, now);
    if !is_issued {
        return None;
    }
    let as_numbers = validated(&cert.as_numbers, &sets.as_numbers, cert.trims)?;
    let v4 = validated(&cert.v4, &sets.v4, cert.trims)?;
    let v6 = validated(&cert.v6, &sets.v6, cert.trims)?;
    Some(Sets { as_numbers, v4, v6 })
}

/// The numbers that are claimed, if the issuer has them all, or those of them that the issuer has, where the rest is
/// trimmed.
pub fn validated<T: Copy + Ord>(claim: &Claim<T>, issuer: &[(T, T)], trims: bool) -> Option<Vec<(T, T)>> {
    match claim {
        Claim::Missing => Some(Vec::new()),
        Claim::Inherit => Some(issuer.to_vec()),
        Claim::These(blocks) if trims => Some(intersection(blocks, issuer)),
        Claim::These(blocks) => covers(issuer, blocks).then(|| blocks.clone()),
    }
}

fn covers<T: Copy + Ord>(outer: &[(T, T)], inner: &[(T, T)]) -> bool {
    let mut outer = outer.iter();
    let mut has = outer.next();
    inner.iter().all(|block| {
        while has.is_some_and(|has| has.1 < block.0) {
            has = outer.next();
        }
        has.is_some_and(|has| has.0 <= block.0 && block.1 <= has.1)
    })
}

fn intersection<T: Copy + Ord>(mut one: &[(T, T)], mut other: &[(T, T)]) -> Vec<(T, T)> {
    let mut both = Vec::new();
    while let ([a, ..], [b, ..]) = (one, other) {
        let (min, max) = (a.0.max(b.0), a.1.min(b.1));
        if min <= max {
            both.push((min, max));
        }
        if a.1 <= b.1 {
            one = &one[1..];
        } else {
            other = &other[1..];
        }
    }
    both
}

/// A revocation list, of which the same holds.
#[allow(dead_code)]
pub struct Crl<'a> {
    issuer: &'a [u8],
    this_update: u64,
    next_update: u64,
    revoked: Vec<[u8; 20]>,
    authority_key: &'a [u8; 20],
    number: [u8; 20],
    signed: &'a [u8],
    signature: &'a [u8],
    octets: &'a [u8],
}

/// The revocation list at the front.
#[inline(never)]
pub fn crl(octets: &[u8]) -> Option<Crl<'_>> {
    let (crl, octets) = captured(&mut Reader(octets), |reader| {
        let mut fields = reader.sequence()?;
        let (crl, signed) = captured(&mut fields, list)?;
        algorithm(&mut fields, &SHA256_WITH_RSA)?;
        let signature = fields.octets_in_bits()?;
        fields.close(Crl { signed, signature, ..crl })
    })?;
    Some(Crl { octets, ..crl })
}

fn list<'a>(reader: &mut Reader<'a>) -> Option<Crl<'a>> {
    let mut fields = reader.sequence()?;
    if fields.take(0x02)? != [1] {
        return None;
    }
    algorithm(&mut fields, &SHA256_WITH_RSA)?;
    let issuer = name(&mut fields)?;
    let (this_update, next_update) = (fields.time()?, fields.time()?);
    let mut revoked = Vec::new();
    if let Some(entries) = fields.take_if(0x30)? {
        let mut entries = Reader(entries);
        while !entries.is_empty() {
            revoked.push(entry(&mut entries)?);
        }
    }
    let mut tagged = fields.open(0xA0)?;
    let (authority_key, number) = crl_extensions(tagged.sequence()?)?;
    tagged.close(())?;
    fields.close(Crl {
        issuer,
        this_update,
        next_update,
        revoked,
        authority_key,
        number,
        signed: &[],
        signature: &[],
        octets: &[],
    })
}

/// The serial number of an entry.
#[inline]
fn entry(entries: &mut Reader) -> Option<[u8; 20]> {
    let mut fields = entries.sequence()?;
    let serial = fields.serial()?;
    fields.time()?;
    if let Some(extensions) = fields.take_if(0x30)? {
        Reader(extensions).skip_all()?;
    }
    fields.close(serial)
}

fn crl_extensions(mut list: Reader<'_>) -> Option<(&[u8; 20], [u8; 20])> {
    let (mut key, mut number) = (None, None);
    let mut others: Vec<&[u8]> = Vec::new();
    while !list.is_empty() {
        let (oid, critical, value) = extension(&mut list)?;
        let place = match oid {
            [0x55, 0x1D, 35] => &mut key,
            [0x55, 0x1D, 20] => &mut number,
            _ => {
                if critical || others.contains(&oid) {
                    return None;
                }
                others.push(oid);
                continue;
            }
        };
        if place.replace(value).is_some() {
            return None;
        }
    }
    Some((authority_key(key?)?, Reader(number?).serial()?))
}

impl Crl<'_> {
    #[inline(never)]
    pub fn contains(&self, serial: &[u8; 20]) -> bool {
        self.revoked.contains(serial)
    }
}
