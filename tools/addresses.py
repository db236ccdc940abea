#!/usr/bin/env python3
"""Rows of addresses and of the texts that Python's ipaddress has for them.

    tools/addresses.py table          the 40 rows of the fixed table of tests, as Rust
    tools/addresses.py rows [COUNT]   COUNT rows (10,000 where none is given): family, bits in
                                      hexadecimal, prefix length, text of the prefix

A program that prints the same rows from its own texts is compared with `diff`. The addresses are
the same in each run. The texts are those of RFC 5952 with no dotted part: Python writes a mapped
address (::ffff:0:0/96) as groups too from 3.13 on, and here its groups are always used.
"""
import ipaddress
import random
import sys


def v6_text(bits):
    """The address in hexadecimal groups, also where it is a mapped one."""
    address = ipaddress.IPv6Address(bits)
    groups = address.exploded.split(":")
    return ipaddress.IPv6Address._string_from_ip_int(int("".join(groups), 16))


def v4_text(bits):
    return str(ipaddress.IPv4Address(bits >> 96))


EDGES = [
    "::", "::1", "1::", "2001:db8::", "2001:db8::1", "1:2:3:4:5:6:7:8", "1:0:3:4:5:6:7:8",
    "1:0:0:4:5:0:0:8", "0:0:3:4:5:6:0:0", "1:0:0:4:0:0:0:8", "1:0:0:0:5:0:0:8", "0:2:0:4:0:6:0:8",
    "::ffff:192.0.2.1", "::192.0.2.1", "fe80::", "ff02::1", "0:0:3:4:5:6:7:8", "1:2:3:4:5:6:0:0",
    "1:0:0:4:5:6:7:8", "0:1::", "ffff:ffff:ffff:ffff:ffff:ffff:ffff:ffff", "10:200:3000:a:b0:c00:d000:f",
]

EDGES_V4 = ["0.0.0.0", "255.255.255.255", "10.0.0.0", "192.0.2.1", "127.0.0.1", "1.2.3.4", "100.64.0.0", "203.0.113.255"]


def addresses(count, seed):
    """Pairs of a family and the 128 bits; an IPv4 address stands in the upper 32 of them."""
    source = random.Random(seed)
    rows = [(6, int(ipaddress.IPv6Address(text))) for text in EDGES]
    rows += [(4, int(ipaddress.IPv4Address(text)) << 96) for text in EDGES_V4]
    while len(rows) < count:
        if len(rows) % 4 == 0:
            rows.append((4, source.getrandbits(32) << 96))
            continue
        groups = [source.choice([0, 0, 0, source.getrandbits(4), source.getrandbits(16)]) for _ in range(8)]
        bits = 0
        for group in groups:
            bits = bits << 16 | group
        rows.append((6, bits))
    return rows[:count]


def text(family, bits):
    return v4_text(bits) if family == 4 else v6_text(bits)


def main():
    kind = sys.argv[1] if len(sys.argv) > 1 else "rows"
    if kind == "table":
        for family, bits in addresses(40, 5952):
            print(f'    (AddressFamily::Ipv{family}, 0x{bits:032x}, "{text(family, bits)}"),')
        return
    count = int(sys.argv[2]) if len(sys.argv) > 2 else 10_000
    for number, (family, bits) in enumerate(addresses(count, 5952)):
        most = 32 if family == 4 else 128
        length = number % (most + 1)
        kept = bits >> (128 - length) << (128 - length) if length else 0
        print(f"{family} {bits:032x} {length} {text(family, kept)}/{length} {text(family, bits)}")


main()
