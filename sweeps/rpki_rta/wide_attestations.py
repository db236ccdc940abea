#!/usr/bin/env python3
"""Writes a module of tests that compares what is answered of attestations with the rows of
tools/rta_compare.py."""
import base64
import pathlib
import sys

sys.path.insert(0, str(pathlib.Path(__file__).resolve().parent.parent.parent / "tools"))

import rta_compare as rta  # noqa: E402

COUNT, SEED, AT_ONCE = 500, 21, 50
HEAD = '''//! Random attestations in octets, with what another program says of the definitions.

use super::compared::compare;
use rpki_testing::Fail;
'''


def supplied(text):
    """A supply; a locator by its text."""
    kind, _, octets = text.partition("=")
    if kind == "ca":
        return text
    info = rta.sequence(rta.RSA, rta.bits(bytes.fromhex(octets)))
    text = f"{rta.URI}\n\n{base64.b64encode(info).decode('ascii')}\n"
    return f"tal={text.encode('ascii').hex()}"


def row(a, said):
    supplies = (supplied(rta.supply_text(it)) for it in a.supplies)
    return "|".join((rta.attestation(a).hex(), ",".join(supplies), said))


def main():
    rows = [row(a, said) for a, said in rta.attestations(COUNT, SEED)]
    print(HEAD)
    for number, part in enumerate(rows[i:i + AT_ONCE] for i in range(0, COUNT, AT_ONCE)):
        print(f'''#[test]
fn rows_{number}(rt: HostRuntime) -> Result<(), Fail> {{
    assert_eq!(rt; compare(rt.alloc(), ROWS_{number})?, (0, {len(part)}));
    Ok(())
}}

const ROWS_{number}: &str = "{';'.join(part)}";
''')


main()
