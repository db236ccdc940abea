#!/usr/bin/env python3
"""Writes a module of tests that compares what `grant` answers with the rows of
tools/paths_compare.py."""
import pathlib
import subprocess
import sys

TOP = pathlib.Path(__file__).resolve().parent.parent.parent
HEAD = '''//! Rows of attestations, with what Python says of the definitions.

use super::rows::compare;
use std::test::Fail;
'''


def main():
    compare = TOP / "tools" / "paths_compare.py"
    ran = subprocess.run([sys.executable, compare], stdout=subprocess.PIPE, text=True, check=True)
    rows = ran.stdout.splitlines()
    print(HEAD)
    for number, part in enumerate(rows[i:i + 500] for i in range(0, len(rows), 500)):
        print(f'''#[test]
fn rows_{number}(rt: HostRuntime) -> Result<(), Fail> {{
    assert_eq!(rt; compare(rt.alloc(), ROWS_{number})?, (0, {len(part)}));
    Ok(())
}}

const ROWS_{number}: &str = "{';'.join(part)}";
''')


main()
