#!/usr/bin/env python3
"""Makes the rows of crates/rpki_values_tests/src/rsa: keys, messages and signatures.

    tools/rsa_vectors.py FOLDER      writes FOLDER/keys.rt, right.rt, numbers.rt, kinds.rt,
                                     encodings.rt, moduli.rt and others.rt

The primes of a key are drawn from SHA-256 of its name, so each run makes the same rows. `openssl`
tests each key, and makes each signature by `openssl dgst` or, of an encoded message that is wrong,
by `openssl pkeyutl` without padding, but for plain numbers in a signature's place and those of the
exponent 1 and of the even modulus. Of each row `openssl` is asked again whether the signature is
one: a yes has to be one there, and a no is a no there too, but for the rows marked OWN, whose key
or signature is refused by the rules of the RPKI alone. Needs `openssl` 3; the rows stand in the
repository, so nobody has to run this.
"""
import base64
import hashlib
import math
import pathlib
import subprocess
import sys
import tempfile
import textwrap

INFO = bytes.fromhex("3031300d060960864801650304020105000420")
BARE = bytes.fromhex("302f300b06096086480165030402010420")
OWN = True


def drawn(name):
    """Octets without an end, drawn from a name."""
    count = 0
    while True:
        yield from hashlib.sha256(f"{name} {count}".encode()).digest()
        count += 1


SMALL = [n for n in range(3, 4000, 2) if all(n % p for p in range(3, int(n**0.5) + 1, 2))]
PRODUCT = math.prod(SMALL)


def is_prime(n):
    if math.gcd(n, PRODUCT) > 1:
        return False
    odd, twos = n - 1, 0
    while odd % 2 == 0:
        odd, twos = odd // 2, twos + 1
    for base in (2, 3, 5, 7, 11, 13, 17, 19, 23, 29, 31, 37):
        x = pow(base, odd, n)
        if x in (1, n - 1):
            continue
        for _ in range(twos - 1):
            x = x * x % n
            if x == n - 1:
                break
        else:
            return False
    return True


def prime(name, bits, e):
    """The first prime after a number drawn from a name, with its two highest bits set."""
    octets = drawn(name)
    n = int.from_bytes(bytes(next(octets) for _ in range(bits // 8 + 1)), "big")
    n = n % 2**bits | 3 << bits - 2 | 1
    while n % e == 1 or not is_prime(n):
        n += 2
    return n


def value(tag, contents):
    """A value in DER."""
    n = len(contents)
    if n < 128:
        length = bytes([n])
    else:
        digits = n.to_bytes((n.bit_length() + 7) // 8, "big")
        length = bytes([128 + len(digits)]) + digits
    return bytes([tag]) + length + contents


def integer(n):
    return value(2, n.to_bytes(n.bit_length() // 8 + 1, "big"))


def public(n, e):
    """An RSAPublicKey (RFC 8017, appendix A.1.1)."""
    return value(0x30, integer(n) + integer(e))


def pem(word, der):
    text = base64.encodebytes(der).decode()
    return f"-----BEGIN {word}-----\n{text}-----END {word}-----\n"


class Key:
    def __init__(self, name, bits, e=65537):
        self.name, self.e = name, e
        self.p = prime(name + " p", (bits + 1) // 2, e)
        self.q = prime(name + " q", bits // 2, e)
        self.n = self.p * self.q
        assert self.n.bit_length() == bits
        self.len = (bits + 7) // 8
        self.der = public(self.n, e)
        self.d = pow(e, -1, (self.p - 1) * (self.q - 1))
        parts = [0, self.n, e, self.d, self.p, self.q, self.d % (self.p - 1), self.d % (self.q - 1)]
        parts.append(pow(self.q, -1, self.p))
        private = value(0x30, b"".join(map(integer, parts)))
        self.private = pem("RSA PRIVATE KEY", private)
        asked = openssl(["rsa", "-check", "-noout", "-in", "KEY"], {"KEY": self.private})
        assert b"RSA key ok" in asked.stdout + asked.stderr, asked

    def sign(self, message, digest="sha256", *options):
        """The signature of a message."""
        words = ["dgst", f"-{digest}", *options, "-sign", "KEY", "MESSAGE"]
        done = openssl(words, {"KEY": self.private, "MESSAGE": message})
        assert done.returncode == 0, done
        return done.stdout

    def raw(self, encoded):
        """The power of an encoded message."""
        words = ["pkeyutl", "-decrypt", "-inkey", "KEY", "-pkeyopt", "rsa_padding_mode:none"]
        done = openssl([*words, "-in", "ENCODED"], {"KEY": self.private, "ENCODED": encoded})
        assert done.returncode == 0 and len(done.stdout) == self.len, done
        return done.stdout

    def encoded(
        self, message, info=INFO, head=b"\0\1", fill=0xFF, mark=b"\0", digest=None, end=b""
    ):
        """The encoded message (RFC 8017, section 9.2), with the parts that are handed in."""
        digest = hashlib.sha256(message).digest() if digest is None else digest
        tail = mark + info + digest + end
        return head + bytes([fill]) * (self.len - len(head) - len(tail)) + tail


def openssl(words, files):
    """Runs openssl, with a file in place of each word that names one."""
    with tempfile.TemporaryDirectory() as folder:
        for name, text in files.items():
            data = text.encode() if isinstance(text, str) else text
            (pathlib.Path(folder) / name).write_bytes(data)
        words = [f"{folder}/{word}" if word in files else word for word in words]
        return subprocess.run(["openssl", *words], capture_output=True)


def says_yes(key, message, signature):
    """Whether openssl takes the signature."""
    files = {"KEY": pem("RSA PUBLIC KEY", key), "MESSAGE": message, "SIGNATURE": signature}
    words = ["pkeyutl", "-verify", "-pubin", "-inkey", "KEY", "-rawin", "-digest", "sha256"]
    done = openssl([*words, "-in", "MESSAGE", "-sigfile", "SIGNATURE"], files)
    return done.returncode == 0


def octets(n, length):
    return n.to_bytes(length, "big")


def flipped(data, at, bit):
    return data[:at] + bytes([data[at] ^ bit]) + data[at + 1:]


def sizes():
    """Keys of many sizes, and a signature of abc by each."""
    for bits in (2048, 2049, 2052, 2055, 2056, 2057, 2112, 3072, 3073, 4089, 4095, 4096):
        key = Key(f"KEY_{bits}", bits)
        yield key, (f"a modulus of {bits} bits", key.name, b"abc", key.sign(b"abc"))


def right_rows(key, other):
    """Messages of some lengths, and a signature that begins with a zero octet."""
    for length in (0, 1, 55, 56, 64, 200):
        message = bytes(range(length))
        yield f"a message of {length} octets", key.name, message, key.sign(message)
    yield "another key", other.name, b"abc", other.sign(b"abc")
    message, signature = zero_first(key)
    yield "a signature that begins with a zero octet", key.name, message, signature


def zero_first(key):
    """A message whose signature begins with a zero octet."""
    for count in range(10000):
        message = f"message {count}".encode()
        encoded = int.from_bytes(key.encoded(message), "big")
        if pow(encoded, key.d, key.n) < 2 ** (8 * key.len - 8):
            return message, key.sign(message)
    raise ValueError


def small_enough(key):
    """A message with a signature whose number and the modulus are below 2^2048 together."""
    for count in range(10000):
        message = f"message {count}".encode()
        s = int.from_bytes(key.encoded(message), "big")
        if pow(s, key.d, key.n) + key.n < 2 ** (8 * key.len):
            return message, key.sign(message)
    raise ValueError


def wrong_numbers(key, wide):
    """Signatures with another number, or with another number of octets."""
    s, n, length = key.sign(b"abc"), key.n, key.len
    message, small = small_enough(key)
    plus = octets(int.from_bytes(small, "big") + n, length)
    yield "n is added to the signature", key.name, message, plus
    wider = int.from_bytes(wide.sign(b"abc"), "big") + wide.n
    yield "n is added, of 2052 bits", wide.name, b"abc", octets(wider, wide.len)
    for word, number in (("n", n), ("zero", 0), ("one", 1), ("n - 1", n - 1), ("n + 1", n + 1)):
        yield f"the signature is {word}", key.name, b"abc", octets(number, length)
    yield "the signature is the highest number", key.name, b"abc", b"\xff" * length
    yield "the first bit is another", key.name, b"abc", flipped(s, 0, 0x80)
    yield "a bit in the middle is another", key.name, b"abc", flipped(s, 131, 0x10)
    yield "the last bit is another", key.name, b"abc", flipped(s, length - 1, 1)
    yield "a zero octet in front", key.name, b"abc", b"\0" + s
    yield "a zero octet at the end", key.name, b"abc", s + b"\0"
    yield "without the last octet", key.name, b"abc", s[:-1]
    yield "empty", key.name, b"abc", b""
    message, zero = zero_first(key)
    yield "without the zero octet in front", key.name, message, zero[1:]


def wrong_messages(key, other):
    """Other messages, keys and kinds of signatures."""
    s = key.sign(b"abc")
    for message in (b"abd", b"ab", b"abc\0", b""):
        yield f"the message is another of {len(message)} octets", key.name, message, s
    yield "by another key", other.name, b"abc", s
    for digest in ("sha1", "sha224", "sha512"):
        yield f"of {digest}", key.name, b"abc", key.sign(b"abc", digest)
    pss = ("-sigopt", "rsa_padding_mode:pss", "-sigopt", "rsa_pss_saltlen:0")
    yield "PSS", key.name, b"abc", key.sign(b"abc", "sha256", *pss)


def wrong_encodings(key):
    """Encoded messages that are not the one of RFC 8017."""
    digest = hashlib.sha256(b"abc").digest()
    half = key.len - 11 - len(INFO) - len(digest)
    rows = [
        ("digest alone", {"info": b""}),
        ("DigestInfo of SHA-384", {"info": INFO[:14] + b"\x02" + INFO[15:]}),
        ("DigestInfo without the NULL", {"info": BARE}),
        ("DigestInfo with a long length", {"info": b"\x30\x81" + INFO[1:]}),
        ("digest in a BIT STRING", {"info": INFO[:17] + b"\3\x20"}),
        ("digest of another message", {"digest": hashlib.sha256(b"abd").digest()}),
        ("digest without its last octet", {"digest": digest[:-1]}),
        ("an octet after the digest", {"end": b"\0"}),
        ("eight octets of padding, and others after the digest", {"end": b"\x5a" * half}),
        ("padding of another kind", {"head": b"\0\2"}),
        ("padding of zeros", {"head": b"\0\0", "fill": 0}),
        ("padding begins with another octet", {"head": b"\0\1\xfe"}),
        ("no zero after the padding", {"mark": b""}),
        ("two zeros after the padding", {"mark": b"\0\0"}),
        ("another octet after the padding", {"mark": b"\1"}),
    ]
    for why, parts in rows:
        encoded = key.encoded(b"abc", **parts)
        assert len(encoded) == key.len
        yield why, key.name, b"abc", key.raw(encoded)


def wrong_keys(key):
    """Keys of other sizes and exponents, and other octets for a key."""
    s, n, length = key.sign(b"abc"), key.n, key.len
    digits = octets(n, length)
    for bits in (1024, 2040, 2047, 4097, 4104):
        small = Key(f"of {bits} bits", bits)
        yield f"a modulus of {bits} bits", small.der, b"abc", small.sign(b"abc"), OWN
    for e in (3, 17, 65539):
        low = Key(f"of exponent {e}", 2048, e)
        yield f"the exponent {e}", low.der, b"abc", low.sign(b"abc"), OWN
    yield "the exponent 1", public(n, 1), b"abc", key.encoded(b"abc"), OWN
    p = prime("even", 2047, 65537)
    even = pow(int.from_bytes(key.encoded(b"abc"), "big"), pow(65537, -1, p - 1), 2 * p)
    assert pow(even, 65537, 2 * p) == int.from_bytes(key.encoded(b"abc"), "big") % (2 * p)
    yield "an even modulus", public(2 * p, 65537), b"abc", octets(even, length), OWN
    modulus, exponent = value(2, b"\0" + digits), value(2, b"\1\0\1")
    for why, der in (
        ("no key", b""),
        ("a zero octet too many", value(0x30, value(2, b"\0\0" + digits) + exponent)),
        ("a negative modulus", value(0x30, value(2, digits) + exponent)),
        ("a zero octet in the exponent", value(0x30, modulus + value(2, b"\0\1\0\1"))),
        ("a SET", value(0x31, modulus + exponent)),
        ("a modulus in an OCTET STRING", value(0x30, value(4, b"\0" + digits) + exponent)),
        ("a length in BER", b"\x30\x83\0" + key.der[2:]),
        ("without the exponent", value(0x30, modulus)),
        ("the exponent first", value(0x30, exponent + modulus)),
        ("a third number", value(0x30, modulus + exponent + integer(0))),
        ("an octet after the key", key.der + b"\0"),
        ("without the last octet", key.der[:-1]),
        ("the key in a SubjectPublicKeyInfo", info_of(key.der)),
    ):
        yield why, der, b"abc", s, OWN


def info_of(der):
    """A SubjectPublicKeyInfo (RFC 5280, section 4.1.2.7)."""
    algorithm = value(0x30, bytes.fromhex("06092a864886f70d0101010500"))
    return value(0x30, algorithm + value(3, b"\0" + der))


def literal(data, indent, begun=False):
    """A byte string over lines of at most 100 columns, the first of which may be begun already."""
    if all(octet in range(0x20, 0x7F) and chr(octet) not in '"\\' for octet in data):
        return f'b"{data.decode()}"'
    width = (97 - indent) // 4
    pieces = [data[i : i + width] for i in range(0, len(data), width)]
    lines = ["".join(f"\\x{octet:02X}" for octet in piece) for piece in pieces]
    return 'b"' + ("\\\n" + " " * indent).join([""] * begun + lines) + '"'


def table(name, doc, rows):
    lines = [f"/// {doc}", f"pub static {name}: [(&str, &[u8], &[u8], &[u8]); {len(rows)}] = ["]
    for why, key, message, signature in rows:
        key = key if isinstance(key, str) else literal(key, 8)
        parts = [f'"{why}"', key, literal(message, 8), literal(signature, 8)]
        line = f"    ({', '.join(parts)}),"
        if "\n" in line or len(line) > 100:
            line = "    (\n" + "".join(f"        {part},\n" for part in parts) + "    ),"
        lines.append(line)
    return "\n".join(lines) + "\n];\n"


def main():
    if len(sys.argv) != 2:
        sys.exit(__doc__)
    folder = pathlib.Path(sys.argv[1])
    made = list(sizes())
    keys = {key.name: key for key, _ in made}
    other = keys["OTHER_2048"] = Key("OTHER_2048", 2048)
    key, wide = keys["KEY_2048"], keys["KEY_2052"]
    bad = list(wrong_keys(key))
    right = [
        ("SIZES", "Moduli of many sizes", [row for _, row in made]),
        ("MESSAGES", "Messages of many lengths", list(right_rows(key, other))),
    ]
    wrong = {
        "numbers": ("Signatures of another number or length", list(wrong_numbers(key, wide))),
        "kinds": ("Signatures of other messages and kinds", list(wrong_messages(key, other))),
        "encodings": ("Other encoded messages", list(wrong_encodings(key))),
        "moduli": ("Keys of another modulus or exponent", bad[:10]),
        "others": ("Octets that are no key", bad[10:]),
    }
    wrong = {word: (word.upper(), doc, rows) for word, (doc, rows) in wrong.items()}
    for tables, verdict in ((right, True), (wrong.values(), False)):
        for _, _, rows in tables:
            for row in rows:
                ask(keys, row, verdict)
    write_keys(folder, keys)
    write(folder / "right.rt", "Rows that are a signature", right)
    for word, of_word in wrong.items():
        write(folder / f"{word}.rt", "Rows that are no signature", [of_word])
    print(*(f"{name} {len(rows)}" for name, _, rows in [*right, *wrong.values()]))


def ask(keys, row, verdict):
    """Asks openssl for the verdict of a row, which may be a yes where the rule is our own."""
    why, key, message, signature, *own = row
    der = keys[key].der if key in keys else key
    assert says_yes(der, message, signature) == verdict or own, why


def write_keys(folder, keys):
    text = "//! Keys of many sizes, which `tools/rsa_vectors.py` made.\n"
    for name, key in keys.items():
        text += f"\npub const {name}: &[u8] = {literal(key.der, 4, True)};\n"
    (folder / "keys.rt").write_text(text)


def write(path, doc, tables):
    """Writes tables of rows: what is tried, a key, a message and a signature."""
    names = {row[1] for _, _, rows in tables for row in rows}
    names = sorted(name for name in names if isinstance(name, str))
    text = f"//! {doc}, made by `openssl` (`tools/rsa_vectors.py`).\n"
    if names:
        text += "\n" + use_line(names)
    for name, why, rows in tables:
        text += "\n" + table(name, why + ".", [row[:4] for row in rows])
    path.write_text(text)


def use_line(names):
    if len(names) == 1:
        return f"use super::keys::{names[0]};\n"
    line = f"use super::keys::{{{', '.join(names)}}};\n"
    if len(line) <= 101:
        return line
    lines = textwrap.wrap(", ".join(names) + ",", 96)
    return "use super::keys::{\n" + "".join(f"    {line}\n" for line in lines) + "};\n"


if __name__ == "__main__":
    main()
