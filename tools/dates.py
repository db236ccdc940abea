#!/usr/bin/env python3
"""Rows of texts YYYYMMDDHHMMSSZ and of the moments that Python's datetime has for them.

    tools/dates.py table          the 40 rows of the fixed table of tests, as Rust
    tools/dates.py rows [COUNT]   COUNT rows (400 where none is given): the text, and the moment as
                                  YYYY-MM-DDTHH:MM:SSZ, or nothing where there is no such moment
    tools/dates.py test [COUNT]   the same rows as the Rust of a test, for sweeps/rpki_basics

The rows are the same in each run. Python begins with the year 1, so no row has the year 0.
"""
import datetime
import random
import sys

EDGES = [
    "19000229000000Z", "20000229000000Z", "20230229000000Z", "20240229235959Z", "99991231235959Z",
    "19491231235959Z", "19500101000000Z", "20491231235959Z", "20500101000000Z", "20240101000000Z",
    "20240101240000Z", "20240101006000Z", "20240101000060Z", "20240001000000Z", "20241301000000Z",
    "20240100000000Z", "20240431000000Z", "00010101000000Z", "21000229120000Z", "24000229120000Z",
]


def moment(text):
    """The moment that a text names as YYYY-MM-DDTHH:MM:SSZ, or an empty text."""
    parts = [int(text[:4])] + [int(text[i : i + 2]) for i in range(4, 14, 2)]
    try:
        return datetime.datetime(*parts).strftime("%Y-%m-%dT%H:%M:%SZ").rjust(20, "0")
    except ValueError:
        return ""


def texts(count):
    source = random.Random(4)
    rows = list(EDGES)
    while len(rows) < count:
        month, day = source.randint(1, 12), source.randint(26, 31)
        rows.append("%04d%02d%02d%02d%02d%02dZ" % (
            source.randint(1, 9999), month, day,
            source.randint(0, 23), source.randint(0, 59), source.randint(0, 59)))
    return rows[:count]


def main():
    kind = sys.argv[1] if len(sys.argv) > 1 else "rows"
    count = int(sys.argv[2]) if len(sys.argv) > 2 else 40 if kind == "table" else 400
    rows = texts(count)
    if kind == "rows":
        for text in rows:
            print(text, moment(text))
        return
    print("static ROWS: [(&str, &str); %d] = [" % len(rows))
    for text in rows:
        print('    ("%s", "%s"),' % (text, moment(text)))
    print("];")


main()
