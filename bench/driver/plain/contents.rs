//! Manifests, signed checklists, multi-signed attestations and route origin attestations in plain Rust, written by hand
//! for these formats. A content keeps the octets of its entries, all of which are tested when it is read, and an entry
//! is read from them when it is asked for.

use super::der::Reader;
use std::collections::BTreeSet;

/// SHA-256.
pub const SHA_256: [u8; 9] = [0x60, 0x86, 0x48, 0x01, 0x65, 0x03, 0x04, 0x02, 0x01];

/// The types of files that are registered.
const TYPES: [&[u8; 3]; 8] = [b"asa", b"cer", b"crl", b"gbr", b"mft", b"roa", b"sig", b"tak"];

/// A manifest. (Some of what it keeps, as the proved one does, is not asked for here.)
#[allow(dead_code)]
pub struct Manifest<'a> {
    number: [u8; 20],
    this_update: u64,
    next_update: u64,
    files: &'a [u8],
    count: usize,
}

/// An entry of a manifest: the name of a file and its hash.
#[inline]
fn file<'a>(list: &mut Reader<'a>) -> Option<(&'a [u8], &'a [u8])> {
    let mut fields = list.sequence()?;
    let name = fields.take(0x16)?;
    let (hash, _) = fields.bits()?;
    (fields.is_empty() && is_file_name(name)).then_some((name, hash))
}

/// Whether octets are letters, digits, `-` and `_`, a dot and three letters.
#[inline]
pub fn is_file_name(name: &[u8]) -> bool {
    let Some((stem, [dot, ending @ ..])) = name.split_last_chunk::<4>() else {
        return false;
    };
    let is_stem = |octet: &u8| octet.is_ascii_alphanumeric() || matches!(octet, b'-' | b'_');
    !stem.is_empty() && stem.iter().all(is_stem) && *dot == b'.' && ending.iter().all(u8::is_ascii_alphabetic)
}

#[inline]
pub fn is_registered(name: &[u8]) -> bool {
    name.last_chunk::<3>().is_some_and(|ending| TYPES.iter().any(|known| ending.eq_ignore_ascii_case(*known)))
}

/// The manifest at the front. `is_strict` asks that each name has a registered type, and that none comes twice.
#[inline(never)]
pub fn manifest(octets: &[u8], is_strict: bool) -> Option<Manifest<'_>> {
    let mut fields = Reader(octets).sequence()?;
    version(&mut fields)?;
    let number = fields.serial()?;
    let (this_update, next_update) = (fields.time()?, fields.time()?);
    if this_update > next_update || fields.oid()? != SHA_256 {
        return None;
    }
    let files = fields.take(0x30)?;
    fields.close(())?;
    let (mut list, mut count) = (Reader(files), 0);
    while !list.is_empty() {
        let (name, _) = file(&mut list)?;
        if is_strict && !is_registered(name) {
            return None;
        }
        count += 1;
    }
    let manifest = Manifest { number, this_update, next_update, files, count };
    (!is_strict || manifest.is_unrepeated()).then_some(manifest)
}

/// Goes past a version of 0, if there is one.
fn version(fields: &mut Reader) -> Option<()> {
    match fields.take_if(0xA0)? {
        None => Some(()),
        Some(version) => {
            let mut version = Reader(version);
            let number = version.take(0x02)?;
            version.close(())?;
            (number == [0]).then_some(())
        }
    }
}

impl<'a> Manifest<'a> {
    /// The names and hashes of the files.
    #[inline]
    pub fn iter(&self) -> impl Iterator<Item = (&'a [u8], &'a [u8])> {
        let mut list = Reader(self.files);
        std::iter::from_fn(move || file(&mut list))
    }

    fn is_unrepeated(&self) -> bool {
        let mut seen = BTreeSet::new();
        self.iter().all(|(name, _)| seen.insert(name))
    }
}

/// A route origin attestation, of which the same holds.
#[allow(dead_code)]
pub struct Roa<'a> {
    as_id: u32,
    v4: &'a [u8],
    v6: &'a [u8],
}

/// A prefix: the bits of its first address, which stand in the upper bits, its length, and the maximum length.
pub struct Address {
    pub addr: u128,
    pub len: u8,
    max_length: Option<u8>,
}

impl Address {
    pub fn max_length(&self) -> u8 {
        self.max_length.unwrap_or(self.len)
    }
}

impl Address {
    /// The address with these bits.
    #[inline]
    pub fn of(octets: &[u8], unused: u8, max_length: Option<u8>) -> Option<Address> {
        let mut padded = [0; 16];
        padded.get_mut(..octets.len())?.copy_from_slice(octets);
        let len = 8 * octets.len() as u8 - unused;
        let addr = u128::from_be_bytes(padded) & !u128::MAX.checked_shr(u32::from(len)).unwrap_or(0);
        Some(Address { addr, len, max_length })
    }

    /// Whether it is one of a family whose addresses have `most` bits.
    #[inline]
    pub fn is_of(&self, most: u8) -> bool {
        self.len <= most && (self.len..=most).contains(&self.max_length())
    }
}

/// An address of either family.
#[inline]
fn address(list: &mut Reader) -> Option<Address> {
    let mut fields = list.sequence()?;
    let (octets, unused) = fields.bits()?;
    let max_length = match fields.take_if(0x02)? {
        None => None,
        Some([number @ 0..=0x7F] | [0, number @ 0x80..=0xFF]) => Some(*number),
        Some(_) => return None,
    };
    fields.close(Address::of(octets, unused, max_length)?)
}

/// The attestation at the front.
#[inline(never)]
pub fn roa(octets: &[u8]) -> Option<Roa<'_>> {
    let mut fields = Reader(octets).sequence()?;
    version(&mut fields)?;
    let as_id = fields.unsigned()?;
    let mut families = fields.sequence()?;
    fields.close(())?;
    let (mut v4, mut v6) = (None, None);
    while !families.is_empty() {
        let mut fields = families.sequence()?;
        let (place, most) = match fields.take(0x04)? {
            [0, 1] => (&mut v4, 32),
            [0, 2] => (&mut v6, 128),
            _ => return None,
        };
        let addresses = fields.take(0x30)?;
        fields.close(())?;
        let mut list = Reader(addresses);
        while !list.is_empty() {
            if !address(&mut list)?.is_of(most) {
                return None;
            }
        }
        if place.replace(addresses).is_some() {
            return None;
        }
    }
    Some(Roa { as_id, v4: v4.unwrap_or_default(), v6: v6.unwrap_or_default() })
}

impl Roa<'_> {
    /// All addresses, those of IPv4 first.
    #[inline]
    pub fn iter(&self) -> impl Iterator<Item = Address> {
        let (mut v4, mut v6) = (Reader(self.v4), Reader(self.v6));
        std::iter::from_fn(move || address(&mut v4)).chain(std::iter::from_fn(move || address(&mut v6)))
    }
}

/// Blocks of numbers: the lowest and the highest of each.
pub type Blocks = Vec<(u128, u128)>;

/// A signed checklist, of which the same holds.
#[allow(dead_code)]
pub struct Checklist<'a> {
    as_resources: Blocks,
    v4_resources: Blocks,
    v6_resources: Blocks,
    files: &'a [u8],
}

/// An entry of a checklist: the name of a file, which may be missing, and its hash.
#[inline]
fn listed<'a>(list: &mut Reader<'a>) -> Option<(Option<&'a [u8]>, &'a [u8])> {
    let mut fields = list.sequence()?;
    let name = fields.take_if(0x16)?;
    let hash = fields.take(0x04)?;
    fields.close((name, hash)).filter(|_| name.is_none_or(is_portable))
}

/// Whether octets are letters, digits, dots, `-` and `_`.
#[inline]
pub fn is_portable(name: &[u8]) -> bool {
    name.iter().all(|octet| octet.is_ascii_alphanumeric() || matches!(octet, b'-' | b'_' | b'.'))
}

/// The checklist at the front.
#[inline(never)]
pub fn checklist(octets: &[u8]) -> Option<Checklist<'_>> {
    let mut fields = Reader(octets).sequence()?;
    version(&mut fields)?;
    let [as_resources, v4_resources, v6_resources] = resources(fields.sequence()?, chosen_as_blocks)?;
    digest_algorithm(&mut fields)?;
    let files = fields.take(0x30)?;
    fields.close(())?;
    let mut list = Reader(files);
    while !list.is_empty() {
        listed(&mut list)?;
    }
    Some(Checklist { as_resources, v4_resources, v6_resources, files })
}

impl<'a> Checklist<'a> {
    /// The names and hashes of the files.
    #[inline]
    pub fn iter(&self) -> impl Iterator<Item = (Option<&'a [u8]>, &'a [u8])> {
        let mut list = Reader(self.files);
        std::iter::from_fn(move || listed(&mut list))
    }
}

/// The content of a multi-signed attestation, of which the same holds.
#[allow(dead_code)]
pub struct Attestation<'a> {
    subject_keys: &'a [u8],
    as_resources: Blocks,
    v4_resources: Blocks,
    v6_resources: Blocks,
    message_digest: &'a [u8],
}

/// The identifier of a key.
#[inline]
fn identifier<'a>(list: &mut Reader<'a>) -> Option<&'a [u8; 20]> {
    list.take(0x04)?.try_into().ok()
}

/// The content at the front. Keys may come in any order and more than once, and there may be none.
#[inline(never)]
pub fn attestation(octets: &[u8]) -> Option<Attestation<'_>> {
    let mut fields = Reader(octets).sequence()?;
    version(&mut fields)?;
    let subject_keys = fields.take(0x31)?;
    let mut list = Reader(subject_keys);
    while !list.is_empty() {
        identifier(&mut list)?;
    }
    let [as_resources, v4_resources, v6_resources] = resources(fields.sequence()?, as_blocks)?;
    digest_algorithm(&mut fields)?;
    let message_digest = fields.take(0x04)?;
    fields.close(Attestation { subject_keys, as_resources, v4_resources, v6_resources, message_digest })
}

impl<'a> Attestation<'a> {
    /// The identifiers of the keys.
    #[inline]
    pub fn subject_keys(&self) -> impl Iterator<Item = &'a [u8; 20]> {
        let mut list = Reader(self.subject_keys);
        std::iter::from_fn(move || identifier(&mut list))
    }

    /// How many blocks its sets have.
    pub fn blocks(&self) -> u64 {
        (self.as_resources.len() + self.v4_resources.len() + self.v6_resources.len()) as u64
    }
}

/// Goes past the algorithm of digests, SHA-256, with or without a NULL.
fn digest_algorithm(fields: &mut Reader) -> Option<()> {
    let mut algorithm = fields.sequence()?;
    if algorithm.oid()? != SHA_256 {
        return None;
    }
    algorithm.null()?;
    algorithm.close(())
}

/// The AS numbers, as `read` takes them, and the addresses of both families that are named: at least one of the three
/// has to be.
fn resources(mut fields: Reader, read: fn(Reader) -> Option<Blocks>) -> Option<[Blocks; 3]> {
    let (numbers, families) = (fields.take_if(0xA0)?, fields.take_if(0xA1)?);
    fields.close(())?;
    let mut sets = [None, None, None];
    if let Some(numbers) = numbers {
        sets[0] = Some(read(Reader(numbers))?);
    }
    if let Some(families) = families {
        let mut outer = Reader(families);
        let mut families = outer.sequence()?;
        outer.close(())?;
        while !families.is_empty() {
            let mut fields = families.sequence()?;
            let (place, most) = match fields.take(0x04)? {
                [0, 1] => (1, 32),
                [0, 2] => (2, 128),
                _ => return None,
            };
            let blocks = ip_blocks(fields.sequence()?, most)?;
            fields.close(())?;
            if sets[place].replace(blocks).is_some() {
                return None;
            }
        }
    }
    sets.iter().any(Option::is_some).then(|| sets.map(Option::unwrap_or_default))
}

/// SEQUENCE { [0] { SEQUENCE OF numbers and ranges of them } }.
fn chosen_as_blocks(mut outer: Reader) -> Option<Blocks> {
    let mut fields = outer.sequence()?;
    outer.close(())?;
    let choice = fields.open(0xA0)?;
    fields.close(())?;
    as_blocks(choice)
}

/// SEQUENCE OF numbers and ranges of them.
fn as_blocks(mut outer: Reader) -> Option<Blocks> {
    let mut list = outer.sequence()?;
    outer.close(())?;
    let mut blocks = Blocks::new();
    while !list.is_empty() {
        let (low, high) = if list.is_next(0x30) {
            let mut range = list.sequence()?;
            let (low, high) = (range.unsigned()?, range.unsigned()?);
            range.close((low, high))?
        } else {
            let number = list.unsigned()?;
            (number, number)
        };
        if low > high {
            return None;
        }
        blocks.push((low.into(), high.into()));
    }
    Some(joined(blocks))
}

/// Prefixes and ranges of addresses of at most this number of bits.
fn ip_blocks(mut list: Reader, most: u8) -> Option<Blocks> {
    let mut blocks = Blocks::new();
    while !list.is_empty() {
        let (low, high) = if list.is_next(0x30) {
            let mut range = list.sequence()?;
            let (low, high) = (prefix(&mut range, most)?, prefix(&mut range, most)?);
            range.close((low.0, high.1))?
        } else {
            prefix(&mut list, most)?
        };
        if low > high {
            return None;
        }
        blocks.push((low, high));
    }
    Some(joined(blocks))
}

/// The lowest and the highest address that begin with the bits of a BIT STRING.
fn prefix(fields: &mut Reader, most: u8) -> Option<(u128, u128)> {
    let (octets, unused) = fields.bits()?;
    ends(octets, unused, most)
}

/// The lowest and the highest address that begin with these bits.
pub fn ends(octets: &[u8], unused: u8, most: u8) -> Option<(u128, u128)> {
    let address = Address::of(octets, unused, None).filter(|address| address.is_of(most))?;
    Some((address.addr, address.addr | u128::MAX.checked_shr(u32::from(address.len)).unwrap_or(0)))
}

/// The blocks in ascending order, with those that touch as one.
pub fn joined(mut blocks: Blocks) -> Blocks {
    blocks.sort_unstable();
    blocks.dedup_by(|(low, high), (_, before)| {
        let touches = *low <= before.saturating_add(1);
        *before = if touches { (*high).max(*before) } else { *before };
        touches
    });
    blocks
}
