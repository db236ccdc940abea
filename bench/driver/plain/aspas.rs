//! Contents of ASPAs in plain Rust, written by hand for this one format.

/// The contents of the value in front, which has this tag and a definite length in its shortest form, and what follows.
#[inline]
fn value(tag: u8, octets: &[u8]) -> Option<(&[u8], &[u8])> {
    let (&identifier, octets) = octets.split_first()?;
    if identifier != tag {
        return None;
    }
    let (&first, octets) = octets.split_first()?;
    let (length, octets) = if first < 0x80 {
        (first as usize, octets)
    } else {
        let (digits, octets) = octets.split_at_checked(first as usize & 0x7f)?;
        let least = match digits.len() {
            1 => 0x80,
            2 => 0x100,
            3 => 0x1_0000,
            4 => 0x100_0000,
            _ => return None,
        };
        let length = number(digits) as usize;
        if length < least {
            return None;
        }
        (length, octets)
    };
    octets.split_at_checked(length)
}

#[inline]
fn number(digits: &[u8]) -> u32 {
    digits.iter().fold(0, |n, digit| n << 8 | *digit as u32)
}

/// What the contents of an INTEGER say, from 0 to 2^32 - 1.
#[inline]
fn unsigned(contents: &[u8]) -> Option<u32> {
    match *contents {
        [] => None,
        [first, ..] if first >= 0x80 => None,
        [0, second, ..] if second < 0x80 => None,
        [0, ref digits @ ..] if digits.len() <= 4 => Some(number(digits)),
        ref digits if digits.len() <= 4 => Some(number(digits)),
        _ => None,
    }
}

/// The customer of the content in front, and the octets of its providers.
#[inline]
fn fields(octets: &[u8]) -> Option<(u32, &[u8])> {
    let (fields, _) = value(0x30, octets)?;
    let (version, fields) = value(0xa0, fields)?;
    let (version, after) = value(2, version)?;
    if version != [1] || !after.is_empty() {
        return None;
    }
    let (customer, fields) = value(2, fields)?;
    let customer = unsigned(customer)?;
    if customer == 0 {
        return None;
    }
    let (list, after) = value(0x30, fields)?;
    if !after.is_empty() {
        return None;
    }
    Some((customer, list))
}

/// The provider in front, and what follows it.
#[inline]
fn provider(list: &[u8]) -> Option<(u32, &[u8])> {
    let (provider, after) = value(2, list)?;
    Some((unsigned(provider)?, after))
}

/// Reads a content, tests all that the format asks, and calls `each` at each provider. Answers the customer and the
/// octets of the providers.
#[inline]
fn read(octets: &[u8], mut each: impl FnMut(u32)) -> Option<(u32, &[u8])> {
    let (customer, octets) = fields(octets)?;
    let mut list = octets;
    let mut count = 0;
    let mut last = None;
    while !list.is_empty() {
        let (provider, after) = provider(list)?;
        if count == 10_000 || provider == customer || last.is_some_and(|last| last == 0 || provider <= last) {
            return None;
        }
        each(provider);
        count += 1;
        last = Some(provider);
        list = after;
    }
    if count == 0 { None } else { Some((customer, octets)) }
}

/// A content in memory.
pub struct Content {
    pub customer: u32,
    pub providers: Vec<u32>,
}

/// Reads a content into memory.
#[inline(never)]
pub fn decode(octets: &[u8]) -> Option<Content> {
    let mut providers = Vec::new();
    let (customer, _) = read(octets, |provider| providers.push(provider))?;
    Some(Content { customer, providers })
}

/// Reads a content in one pass that keeps nothing, and answers the sum of the providers' numbers.
#[inline(never)]
pub fn walk(octets: &[u8]) -> Option<u64> {
    let mut sum = 0;
    read(octets, |provider| sum += provider as u64)?;
    Some(sum)
}

/// A content that keeps the octets of its providers. (The customer is not asked for here.)
#[allow(dead_code)]
pub struct Kept<'a> {
    customer: u32,
    providers: &'a [u8],
}

/// Reads a content, of which the octets of the providers are kept.
#[inline(never)]
pub fn kept(octets: &[u8]) -> Option<Kept<'_>> {
    let (customer, providers) = read(octets, |_| {})?;
    Some(Kept { customer, providers })
}

impl Kept<'_> {
    /// The providers, each of which is read again.
    #[inline]
    pub fn iter(&self) -> impl Iterator<Item = u32> {
        let mut list = self.providers;
        std::iter::from_fn(move || {
            let (provider, after) = provider(list)?;
            list = after;
            Some(provider)
        })
    }
}

/// How many octets the contents of an INTEGER of this number have.
#[inline]
fn unsigned_len(number: u32) -> usize {
    // a bit more than the number has, so that the first is 0
    (32 - number.leading_zeros() as usize) / 8 + 1
}

fn put_header(out: &mut Vec<u8>, tag: u8, length: usize) {
    out.push(tag);
    if length < 0x80 {
        out.push(length as u8);
    } else {
        let digits = (length as u32).to_be_bytes();
        let digits = &digits[length.leading_zeros() as usize / 8 - 4..];
        out.push(0x80 + digits.len() as u8);
        out.extend_from_slice(digits);
    }
}

fn header_len(length: usize) -> usize {
    if length < 0x80 { 2 } else { 2 + (71 - length.leading_zeros() as usize) / 8 }
}

#[inline]
fn put_unsigned(out: &mut Vec<u8>, number: u32) {
    let length = unsigned_len(number);
    out.push(2);
    out.push(length as u8);
    out.extend_from_slice(&(number as u64).to_be_bytes()[8 - length..]);
}

/// Writes a content into a vector of just its length.
#[inline(never)]
pub fn write(content: &Content) -> Vec<u8> {
    let list: usize = content.providers.iter().map(|it| 2 + unsigned_len(*it)).sum();
    let fields = 5 + 2 + unsigned_len(content.customer) + header_len(list) + list;
    let mut out = Vec::with_capacity(header_len(fields) + fields);
    put_header(&mut out, 0x30, fields);
    out.extend_from_slice(&[0xa0, 3, 2, 1, 1]);
    put_unsigned(&mut out, content.customer);
    put_header(&mut out, 0x30, list);
    for provider in &content.providers {
        put_unsigned(&mut out, *provider);
    }
    out
}
