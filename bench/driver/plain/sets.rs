//! The same work in plain Rust, written by hand: blocks are pairs of a first and a last number.

/// The first and the last number of each block.
pub type Set<T> = Vec<(T, T)>;

/// A number of a set, and the one after it, if there is one.
pub trait Number: Copy + Ord {
    fn after(self) -> Option<Self>;
}

impl Number for u32 {
    #[inline]
    fn after(self) -> Option<u32> {
        self.checked_add(1)
    }
}

impl Number for u128 {
    #[inline]
    fn after(self) -> Option<u128> {
        self.checked_add(1)
    }
}

/// Adds a block that begins nowhere before the others, and joins it to the last one where they touch.
#[inline]
fn add<T: Number>(out: &mut Vec<(T, T)>, block: (T, T)) {
    match out.last_mut() {
        Some(last) if last.1.after().is_none_or(|after| block.0 <= after) => last.1 = last.1.max(block.1),
        _ => out.push(block),
    }
}

/// The sorted, joined blocks with these first and last numbers, of which `number` makes those of the set.
#[inline(never)]
pub fn build<E: Copy, T: Number>(mins: &[E], maxs: &[E], number: impl Fn(E) -> T) -> Vec<(T, T)> {
    let mut blocks = Vec::new();
    for (min, max) in mins.iter().zip(maxs) {
        let (min, max) = (number(*min), number(*max));
        if min <= max {
            blocks.push((min, max));
        }
    }
    blocks.sort_unstable_by_key(|block| block.0);
    let mut out = Vec::new();
    for block in blocks {
        add(&mut out, block);
    }
    out
}

/// The numbers in one or both.
#[inline(never)]
pub fn union<T: Number>(mut x: &[(T, T)], mut y: &[(T, T)]) -> Vec<(T, T)> {
    let mut out = Vec::new();
    while let (Some(a), Some(b)) = (x.first(), y.first()) {
        if a.0 <= b.0 {
            add(&mut out, *a);
            x = &x[1..];
        } else {
            add(&mut out, *b);
            y = &y[1..];
        }
    }
    x.iter().chain(y).for_each(|block| add(&mut out, *block));
    out
}

/// The numbers in both.
#[inline(never)]
pub fn intersection<T: Number>(mut x: &[(T, T)], mut y: &[(T, T)]) -> Vec<(T, T)> {
    let mut out = Vec::new();
    while let (Some(a), Some(b)) = (x.first(), y.first()) {
        let block = (a.0.max(b.0), a.1.min(b.1));
        if block.0 <= block.1 {
            out.push(block);
        }
        if a.1 <= b.1 {
            x = &x[1..];
        } else {
            y = &y[1..];
        }
    }
    out
}

/// Whether each number of the second set is in the first.
#[inline(never)]
pub fn contains<T: Number>(mut x: &[(T, T)], y: &[(T, T)]) -> bool {
    y.iter().all(|b| {
        while let Some(a) = x.first() {
            if b.0 <= a.1 {
                return a.0 <= b.0 && b.1 <= a.1;
            }
            x = &x[1..];
        }
        false
    })
}

/// Whether each number of the block is in the set: a search for the first block that ends nowhere below its end.
#[inline(never)]
pub fn contains_block<T: Number>(x: &[(T, T)], block: (T, T)) -> bool {
    let i = x.partition_point(|a| a.1 < block.1);
    x.get(i).is_some_and(|a| a.0 <= block.0)
}
