#!/usr/bin/env python3
"""Writes a module of tests that compares the texts of addresses and prefixes with the 10,000 rows
of tools/addresses.py."""
import pathlib
import subprocess
import sys

TOP = pathlib.Path(__file__).resolve().parent.parent.parent
HEAD = '''//! Rows of texts, as Python has them.

use rpki_resources::{Addr, AddressFamily, Prefix};
use std::alloc::Global;
use std::test::Fail;

fn compare(alloc: Global, rows: &str) -> Result<(u32, u32), Fail> {
    let mut good = 0;
    let mut all = 0;
    for row in rows.split(';') {
        let mut words = row.split_whitespace();
        let family = match words.next() {
            Some("4") => AddressFamily::Ipv4,
            _ => AddressFamily::Ipv6,
        };
        let bits = match u128::from_str_radix(words.next().unwrap_or(""), 16) {
            Ok(bits) => bits,
            Err(_) => 0,
        };
        let len = match words.next().unwrap_or("").parse::<u8>() {
            Ok(len) => len,
            Err(_) => 0,
        };
        let want_prefix = words.next().unwrap_or("");
        let want = words.next().unwrap_or("");
        let addr = Addr::from_bits(bits).display(family);
        let text = format!(in alloc; "{addr}")?;
        all += 1;
        if len <= 128 {
            let prefix = Prefix::new(Addr::from_bits(bits), len).display(family);
            let prefix_text = format!(in alloc; "{prefix}")?;
            if text.as_str() == want && prefix_text.as_str() == want_prefix {
                good += 1;
            }
        }
    }
    Ok((good, all))
}
'''


def main():
    words = [sys.executable, TOP / "tools" / "addresses.py", "rows"]
    rows = subprocess.run(words, capture_output=True, text=True, check=True).stdout.splitlines()
    print(HEAD)
    for number, part in enumerate(rows[i:i + 500] for i in range(0, len(rows), 500)):
        print(f'''#[test]
fn rows_{number}(rt: HostRuntime) -> Result<(), Fail> {{
    assert_eq!(rt; compare(rt.alloc(), ROWS_{number})?, ({len(part)}, {len(part)}));
    Ok(())
}}

const ROWS_{number}: &str = "{';'.join(part)}";
''')


main()
