//! The same work in plain Rust, written by hand: a time and a key in DER.

use crate::calls::sha1;

/// The contents of the value at the front, which has this tag, and what follows it.
fn value(tag: u8, octets: &[u8]) -> Option<(&[u8], &[u8])> {
    let (&first, rest) = octets.split_first()?;
    let (&len, rest) = rest.split_first()?;
    if first != tag {
        return None;
    }
    let (len, rest) = match len {
        0..=0x7F => (usize::from(len), rest),
        0x81..=0x84 => {
            let (digits, rest) = rest.split_at_checked(usize::from(len - 0x80))?;
            let n = digits.iter().fold(0, |n, digit| n * 256 + usize::from(*digit));
            if n < 0x80 || digits[0] == 0 {
                return None;
            }
            (n, rest)
        }
        _ => return None,
    };
    rest.split_at_checked(len)
}

fn pair(text: &[u8], at: usize) -> Option<u64> {
    let (a, b) = (text[at], text[at + 1]);
    let are_digits = a.is_ascii_digit() && b.is_ascii_digit();
    are_digits.then(|| u64::from(a - b'0') * 10 + u64::from(b - b'0'))
}

fn days_in_month(year: u64, month: u64) -> u64 {
    match month {
        4 | 6 | 9 | 11 => 30,
        2 if year % 4 == 0 && (year % 100 != 0 || year % 400 == 0) => 29,
        2 => 28,
        _ => 31,
    }
}

/// The number of the time at the front.
#[inline(never)]
pub fn time(octets: &[u8]) -> Option<u64> {
    let (year, text) = match octets.first()? {
        0x17 => {
            let (text, _) = value(0x17, octets)?;
            if text.len() != 13 {
                return None;
            }
            let year = pair(text, 0)?;
            (if year < 50 { 2000 + year } else { 1900 + year }, &text[2..])
        }
        _ => {
            let (text, _) = value(0x18, octets)?;
            if text.len() != 15 {
                return None;
            }
            (pair(text, 0)? * 100 + pair(text, 2)?, &text[4..])
        }
    };
    let (month, day, hour) = (pair(text, 0)?, pair(text, 2)?, pair(text, 4)?);
    let (minute, second) = (pair(text, 6)?, pair(text, 8)?);
    let is_real = (1..=12).contains(&month)
        && (1..=days_in_month(year, month)).contains(&day)
        && hour < 24
        && minute < 60
        && second < 60;
    let is_time = is_real && text[10] == b'Z';
    is_time.then(|| ((((year * 13 + month) * 32 + day) * 24 + hour) * 60 + minute) * 60 + second)
}

const RSA_ENCRYPTION: [u8; 9] = [0x2A, 0x86, 0x48, 0x86, 0xF7, 0x0D, 0x01, 0x01, 0x01];

/// The bits of a key, and the SHA-1 of them.
#[allow(dead_code)]
pub struct Key<'a> {
    pub bits: &'a [u8],
    pub identifier: [u8; 20],
}

/// The key at the front.
#[inline(never)]
pub fn key(octets: &[u8]) -> Option<Key<'_>> {
    let (fields, _) = value(0x30, octets)?;
    let (algorithm, rest) = value(0x30, fields)?;
    let (oid, null) = value(0x06, algorithm)?;
    let (bits, rest) = value(0x03, rest)?;
    let is_key = oid == RSA_ENCRYPTION
        && (null.is_empty() || null == [0x05, 0x00])
        && rest.is_empty()
        && bits.first() == Some(&0);
    is_key.then(|| Key { bits: &bits[1..], identifier: sha1(&bits[1..]) })
}
