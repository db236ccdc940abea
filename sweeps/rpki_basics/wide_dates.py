#!/usr/bin/env python3
"""Writes a module of tests that compares 400 dates with those of Python's datetime.

The rows are those of tools/dates.py.
"""
import pathlib
import subprocess
import sys

TOP = pathlib.Path(__file__).resolve().parent.parent.parent
HEAD = '''//! Rows of texts, and of the moments that Python's datetime has for them.

use rpki_basics::Time;
use std::alloc::{AllocError, Global};

fn count(alloc: Global) -> Result<u32, AllocError> {
    let mut good = 0;
    for (text, want) in &ROWS {
        match Time::from_generalized(text.as_bytes()) {
            None if want.is_empty() => good += 1,
            Some(time) if format!(in alloc; "{time}")?.as_str() == *want => good += 1,
            _ => {}
        }
    }
    Ok(good)
}

#[test]
fn dates(rt: HostRuntime) -> Result<(), AllocError> {
    assert!(rt; count(rt.alloc())? == 400);
    Ok(())
}

'''


def main():
    words = [sys.executable, TOP / "tools" / "dates.py", "test"]
    rows = subprocess.run(words, capture_output=True, text=True, check=True)
    print(HEAD + rows.stdout, end="")


main()
