"""Octets as the cases of rows/ write them (rows/README.md)."""
import hashlib
import pathlib
import re

NAMES = pathlib.Path(__file__).resolve().parent.parent / "rows" / "names.txt"
TOKEN = re.compile(
    r"\s*(?:(?P<text>'[^']*')|(?P<tag>[0-9a-f]{2})\{|(?P<octet>[0-9a-f]{2})|(?P<end>\})"
    r"|(?P<word>[A-Z]\w*)(?:\((?P<number>\d+)\))?(?P<open>\{)?)")
RSA_ENCRYPTION, SHA256_WITH_RSA = (bytes.fromhex(it) for it in (
    "300d06092a864886f70d0101010500", "300d06092a864886f70d01010b0500"))


def value(tag, contents):
    """A value of DER, with the shortest length."""
    size = len(contents)
    octets = size.to_bytes((size.bit_length() + 7) // 8, "big")
    length = bytes([size]) if size < 128 else bytes([128 + len(octets)]) + octets
    return bytes([tag]) + length + contents


def bits(number):
    return number.to_bytes(8, "big")


def key(number):
    """The SubjectPublicKeyInfo of a key."""
    return value(0x30, RSA_ENCRYPTION + value(0x03, b"\0" + bits(number)))


def identifier(number):
    return hashlib.sha1(bits(number)).digest()


def name(number):
    """The Name whose only attribute is a common name, the identifier of a key in hexadecimal."""
    common = value(0x13, identifier(number).hex().upper().encode())
    return value(0x30, value(0x31, value(0x30, bytes.fromhex("0603550403") + common)))


def named():
    """The words of rows/names.txt, and what they stand for."""
    lines = NAMES.read_text().split("\n")
    return dict(line.split(" = ", 1) for line in lines if line and not line.startswith("#"))


class Octets:
    """The octets of the files of one case, and what was signed in them."""

    NAMED = named()

    def __init__(self):
        self.signed, self.message, self.content = [], b"", b""

    def signature(self, number):
        """What stands for a key's signature of the message before."""
        made = hashlib.sha256(bits(number) + self.message).digest()
        self.signed.append((key(number), self.message, made))
        return made

    def verdicts(self):
        """A line for each signature so far, with the digests by which it is looked up."""
        digests = ([hashlib.sha256(it).hexdigest() for it in them] for them in self.signed)
        return [" ".join(it) + "\n" for it in digests]

    def of(self, text):
        octets, at = self.items(text, 0)
        if at != len(text):
            raise ValueError(f"no octets: {text[at:at + 20]!r}")
        return octets

    def items(self, text, at):
        """The octets up to the end of a value, and where that stands."""
        found = []
        while match := TOKEN.match(text, at):
            at = match.end()
            if match["end"]:
                break
            inside = b""
            if match["tag"] or match["open"]:
                inside, at = self.items(text, at)
            found.append(self.item(match, inside))
        return b"".join(found), at

    def item(self, match, inside):
        if match["text"]:
            return match["text"][1:-1].encode("ascii")
        if match["octet"]:
            return bytes.fromhex(match["octet"])
        if match["tag"]:
            return value(int(match["tag"], 16), inside)
        word, number = match["word"], int(match["number"] or 0)
        if word in self.NAMED:
            return self.of(self.NAMED[word].replace("#", str(number)))
        return self.around(word, number, inside) if match["open"] else self.computed(word, number)

    def around(self, word, number, inside):
        """A value that the word says more of than its tag, or the first octets of values."""
        if word == "First":
            return inside[:number]
        if word == "Content":
            self.content = inside
            return value(0x04, inside)
        self.message = value(0x31 if word == "Attributes" else 0x30, inside)
        if word == "Signed":
            signature = value(0x03, b"\0" + self.signature(number))
            return value(0x30, self.message + SHA256_WITH_RSA + signature)
        return {"Message": self.message, "Attributes": value(0xA0, inside)}[word]

    def computed(self, word, number):
        makers = {"Key": key, "KeyIdentifier": identifier, "Name": name,
                  "Signature": self.signature,
                  "Digest": lambda _: hashlib.sha256(self.content).digest(),
                  "Verdict": lambda _: self.verdicts()[number - 1].encode(),
                  "Verdicts": lambda _: "".join(self.verdicts()).encode()}
        return makers[word](number)
