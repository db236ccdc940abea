//! Values in DER, read and written in plain Rust by hand. No driver needs all of it.
#![allow(dead_code)]

/// How many values may be open, one in the other, where values are gone past.
const DEPTH: u32 = 32;

/// The octets that are left. A call answers `None` where they don't begin with what it asks for.
#[derive(Clone, Copy)]
pub struct Reader<'a>(pub &'a [u8]);

#[inline]
pub fn number(digits: &[u8]) -> u32 {
    digits.iter().fold(0, |n, digit| n << 8 | u32::from(*digit))
}

/// A length in its shortest form, and the contents that have it.
#[inline]
fn contents(octets: &[u8]) -> Option<(&[u8], &[u8])> {
    let (&first, octets) = octets.split_first()?;
    let (length, octets) = if first < 0x80 {
        (usize::from(first), octets)
    } else {
        let (digits, octets) = octets.split_at_checked(usize::from(first & 0x7f))?;
        let least = match digits.len() {
            1 => 0x80,
            2 => 0x100,
            3 => 0x1_0000,
            4 => 0x100_0000,
            _ => return None,
        };
        let length = number(digits) as usize;
        if length < least {
            return None;
        }
        (length, octets)
    };
    octets.split_at_checked(length)
}

impl<'a> Reader<'a> {
    /// The contents of the value in front, which has this tag.
    #[inline]
    pub fn take(&mut self, tag: u8) -> Option<&'a [u8]> {
        let (&first, rest) = self.0.split_first()?;
        if first != tag {
            return None;
        }
        let (contents, rest) = contents(rest)?;
        self.0 = rest;
        Some(contents)
    }

    #[inline]
    pub fn is_next(&self, tag: u8) -> bool {
        self.0.first() == Some(&tag)
    }

    /// The contents of the value in front, if it has this tag.
    #[inline]
    pub fn take_if(&mut self, tag: u8) -> Option<Option<&'a [u8]>> {
        if self.is_next(tag) { self.take(tag).map(Some) } else { Some(None) }
    }

    /// What stands in the value in front, which has this tag.
    #[inline]
    pub fn open(&mut self, tag: u8) -> Option<Reader<'a>> {
        self.take(tag).map(Reader)
    }

    #[inline]
    pub fn sequence(&mut self) -> Option<Reader<'a>> {
        self.open(0x30)
    }

    #[inline]
    pub fn is_empty(&self) -> bool {
        self.0.is_empty()
    }

    /// This, where nothing is left.
    #[inline]
    pub fn close<T>(&self, value: T) -> Option<T> {
        self.is_empty().then_some(value)
    }

    /// An INTEGER from 0 to 2^32 - 1.
    #[inline]
    pub fn unsigned(&mut self) -> Option<u32> {
        let digits = digits(self.take(0x02)?)?;
        (digits.len() <= 4).then(|| number(digits))
    }

    /// An INTEGER from 0 to 2^160 - 1.
    #[inline]
    pub fn serial(&mut self) -> Option<[u8; 20]> {
        let digits = digits(self.take(0x02)?)?;
        let mut serial = [0; 20];
        serial.get_mut(20usize.checked_sub(digits.len())?..)?.copy_from_slice(digits);
        Some(serial)
    }

    /// The contents of an OBJECT IDENTIFIER.
    #[inline]
    pub fn oid(&mut self) -> Option<&'a [u8]> {
        let oid = self.take(0x06)?;
        (*oid.last()? < 0x80).then_some(oid)
    }

    /// The octets of a BIT STRING, and how many bits of the last one are not used.
    #[inline]
    pub fn bits(&mut self) -> Option<(&'a [u8], u8)> {
        let (&unused, octets) = self.take(0x03)?.split_first()?;
        (unused < 8 && (unused == 0 || !octets.is_empty())).then_some((octets, unused))
    }

    /// The octets of a BIT STRING that uses all bits.
    #[inline]
    pub fn octets_in_bits(&mut self) -> Option<&'a [u8]> {
        let (&unused, octets) = self.take(0x03)?.split_first()?;
        (unused == 0).then_some(octets)
    }

    /// A BOOLEAN, and false where there is none.
    #[inline]
    pub fn flag(&mut self) -> Option<bool> {
        match self.take_if(0x01)? {
            None | Some([0x00]) => Some(false),
            Some([0xFF]) => Some(true),
            Some(_) => None,
        }
    }

    /// Whether a NULL stands in front, which is gone past.
    #[inline]
    pub fn null(&mut self) -> Option<bool> {
        match self.take_if(0x05)? {
            None => Some(false),
            Some(contents) => contents.is_empty().then_some(true),
        }
    }

    /// A number that stands for the UTCTime or the GeneralizedTime in front and grows with it.
    pub fn time(&mut self) -> Option<u64> {
        match self.take_if(0x17)? {
            Some(text) => utc_time(text),
            None => generalized_time(self.take(0x18)?),
        }
    }

    /// Goes past the value in front, and past those in it.
    pub fn skip(&mut self) -> Option<()> {
        self.skip_in(DEPTH)
    }

    fn skip_in(&mut self, depth: u32) -> Option<()> {
        let tag = *self.0.first()?;
        if depth == 0 || tag == 0 || tag % 32 == 31 {
            return None;
        }
        let mut inside = self.open(tag)?;
        if tag & 0x20 != 0 {
            while !inside.is_empty() {
                inside.skip_in(depth - 1)?;
            }
        }
        Some(())
    }

    /// Goes past all values.
    pub fn skip_all(&mut self) -> Option<()> {
        while !self.is_empty() {
            self.skip()?;
        }
        Some(())
    }
}

/// The digits of a number that is not negative, from the contents of an INTEGER in its shortest form.
#[inline]
fn digits(contents: &[u8]) -> Option<&[u8]> {
    match *contents {
        [] => None,
        [first, ..] if first >= 0x80 => None,
        [0, second, ..] if second < 0x80 => None,
        [0, ref digits @ ..] if !digits.is_empty() => Some(digits),
        ref digits => Some(digits),
    }
}

#[inline]
fn pair(text: &[u8], at: usize) -> Option<u64> {
    let (a, b) = (text[at], text[at + 1]);
    let are_digits = a.is_ascii_digit() && b.is_ascii_digit();
    are_digits.then(|| u64::from(a - b'0') * 10 + u64::from(b - b'0'))
}

fn days_in_month(year: u64, month: u64) -> u64 {
    match month {
        4 | 6 | 9 | 11 => 30,
        2 if year % 4 == 0 && (year % 100 != 0 || year % 400 == 0) => 29,
        2 => 28,
        _ => 31,
    }
}

/// The number of the moment that the contents of a UTCTime name.
pub fn utc_time(text: &[u8]) -> Option<u64> {
    if text.len() != 13 {
        return None;
    }
    let year = pair(text, 0)?;
    in_year(if year < 50 { 2000 + year } else { 1900 + year }, &text[2..])
}

/// The number of the moment that the contents of a GeneralizedTime name.
pub fn generalized_time(text: &[u8]) -> Option<u64> {
    if text.len() != 15 {
        return None;
    }
    in_year(pair(text, 0)? * 100 + pair(text, 2)?, &text[4..])
}

fn in_year(year: u64, text: &[u8]) -> Option<u64> {
    let (month, day, hour) = (pair(text, 0)?, pair(text, 2)?, pair(text, 4)?);
    let (minute, second) = (pair(text, 6)?, pair(text, 8)?);
    let is_real = (1..=12).contains(&month)
        && (1..=days_in_month(year, month)).contains(&day)
        && hour < 24
        && minute < 60
        && second < 60;
    (is_real && text[10] == b'Z').then(|| stamp([year, month, day, hour, minute, second]))
}

/// The number of a year, a month, a day, an hour, a minute and a second.
pub fn stamp([year, month, day, hour, minute, second]: [u64; 6]) -> u64 {
    ((((year * 13 + month) * 32 + day) * 24 + hour) * 60 + minute) * 60 + second
}

/// A value with this tag, whose contents are the parts.
pub fn value(tag: u8, parts: &[&[u8]]) -> Vec<u8> {
    let contents = parts.concat();
    let mut out = vec![tag];
    if contents.len() < 0x80 {
        out.push(contents.len() as u8);
    } else {
        let digits = contents.len().to_be_bytes();
        let digits = &digits[contents.len().leading_zeros() as usize / 8..];
        out.push(0x80 + digits.len() as u8);
        out.extend(digits);
    }
    out.extend(contents);
    out
}

/// An INTEGER of this number.
pub fn integer(number: u32) -> Vec<u8> {
    let digits = u64::from(number).to_be_bytes();
    // (a bit more than the number has, so that the first is 0)
    let length = (32 - number.leading_zeros() as usize) / 8 + 1;
    value(0x02, &[&digits[8 - length..]])
}
