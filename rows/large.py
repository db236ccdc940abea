"""The cases that are too large to be read, or too many, each made by a rule, in the notation of
README.md."""
import json
import pathlib

ASPA = "30{a0{020101} %s 30{%s}}"
CA = ("BasicConstraints SubjectKey(%d) AuthorityKey(%d) UsageOfCa CrlPoints IssuerAccess"
      " AccessOfCa %s")
EE = "SubjectKey(%d) AuthorityKey(%d) UsageOfEe CrlPoints IssuerAccess AccessOfObject %s"
CERTIFICATE = ("Signed(%d){Version3 %s Sha256WithRsa Name(%d) Year2024 Name(%d) Key(%d)"
               " a3{30{%s}}}")
ANCHOR = ("Signed(1){Version3 020101 Sha256WithRsa Name(1) Year2024 Name(1) Key(1) a3{30{"
          "BasicConstraints SubjectKey(1) UsageOfCa AccessOfCa PolicyRefuse"
          " 30{AsNumbers 04{%s}}}}}")
LIST = ("Signed(%d){020101 Sha256WithRsa Name(%d) Start2024 End2024"
        " a0{30{AuthorityKey(%d) CrlNumber1}}}")
CONTENT = "30{31{04{KeyIdentifier(%d)}} %s Sha256 ZeroDigest}"
ATTESTATION = ("30{SignedData a0{30{020103 31{Sha256} 30{AttestationType a0{Content{%s}}}"
               " a0{%s} a1{%s} 31{AttestationSigner(%d)}}}}")
LOCATOR = "'rsync://a.example.com/1/1\n\nMBowDQYJKoZIhvcNAQEBBQADCQAAAAAAAAAD5w==\n'"
# What a certificate says of AS numbers, and under which policy.
TRIMMED, REFUSED = "PolicyTrim 30{AsNumbersV2 04{%s}}", "PolicyRefuse 30{AsNumbers 04{%s}}"
INHERITED = "30{a0{0500}}"
# A case of objects.jsonl.
SHOWN = "attestation that is shown: all lists"


def integer(number):
    return "02{%s}" % number.to_bytes(number.bit_length() // 8 + 1, "big").hex()


def block(first, last):
    """The AS numbers from first to last, as a certificate or an attestation has them."""
    return "30{a0{30{30{%s %s}}}}" % (integer(first), integer(last))


def aspa(customer, first, last):
    """An ASPA whose providers are all numbers from first to last."""
    return ASPA % (integer(customer), " ".join(integer(it) for it in range(first, last + 1)))


def aspas():
    for options, count, is_good in (
        ([], 9_999, True), ([], 10_000, True), ([], 10_001, False), ([], 16_379, False),
        ([], 16_380, False), ([], 16_381, False), (["--wide"], 10_000, True),
        (["--wide"], 10_001, True), (["--wide"], 16_379, True), (["--wide"], 16_380, True),
        (["--wide"], 16_381, False),
    ):
        lines = "".join(f"provider AS{it}\n" for it in range(2, count + 2))
        yield {"name": " ".join([f"ASPA of {count:,} providers", *options]),
               "words": [*options, "content", "aspa", "f"],
               "files": {"f": aspa(1, 2, count + 1)}, "status": 0 if is_good else 1,
               "stdout": f"aspa\ncustomer AS1\n{lines}" if is_good else "malformed\n"}
    yield {"name": "ASPA of 10,001 providers with its customer", "words": ["content", "aspa", "f"],
           "files": {"f": aspa(5, 1, 10_001)}, "status": 1, "stdout": "malformed\n"}


def certificate(serial, issuer, subject, sort, claims):
    extensions = sort % (subject, issuer, claims)
    return CERTIFICATE % (issuer, integer(serial), issuer, subject, subject, extensions)


def in_both_orders(name, content, certificates, issuers, signer, **others):
    """An attestation, and the same with what it carries in the other order."""
    lists = [LIST % (it, it, it) for it in issuers]
    for order, step in (("", 1), (", in the other order", -1)):
        carried = " ".join(certificates[::step]), " ".join(lists[::step])
        octets = ATTESTATION % (content, *carried, signer)
        files = {**others["files"], "obj": octets, "v": "Verdicts"}
        yield {"name": name + order, **others, "files": files}


def path():
    """A path of 1,000 CAs: each certificate inherits from the one above, up to the trust anchor."""
    certificates = [certificate(101, 1001, 5000, EE, TRIMMED % block(5, 20))]
    certificates += [certificate(101 + it, it, it + 1, CA, TRIMMED % INHERITED)
                     for it in range(1, 1001)]
    return in_both_orders(
        "a path of 1,000 CAs", CONTENT % (5000, block(5, 9)), certificates, range(2, 1002), 5000,
        words=["rta", "obj", "20240601120000Z", "v", "ca=ta"], files={"ta": ANCHOR % block(1, 9)},
        status=0, stdout="yes\nrta\nkey DBF3B8C809CE5AC33F555E0AD6AD902991E071A2\nas AS5-AS9\n"
               f"digest {'00' * 32}\n")


def circle():
    """50 CAs, each of which signed the one before, and the first the last one."""
    certificates = [certificate(101, 1, 200, EE, REFUSED % block(1, 5))]
    certificates += [certificate(101 + it, it % 50 + 1, it, CA, REFUSED % block(1, 9))
                     for it in range(1, 51)]
    return in_both_orders(
        "50 CAs in a circle", CONTENT % (200, block(1, 5)), certificates, range(1, 51), 200,
        words=["rta", "obj", "20240601120000Z", "v", "tal=tal"], files={"tal": LOCATOR}, status=1,
        stdout="refused: path returns\n")


def cuts():
    """The object of a case, cut after each of its first octets, and then at some places."""
    lines = pathlib.Path(__file__).with_name("objects.jsonl").open(encoding="utf-8")
    whole = next(it for it in map(json.loads, lines) if it["name"] == SHOWN)
    for length in (*range(60), *range(60, 1516, 97)):
        yield {"name": f"{SHOWN}, cut after {length:,} octets", "words": whole["words"],
               "files": {"f": "First(%d){%s}" % (length, whole["files"]["f"])},
               "status": 1, "stdout": "malformed\n"}


def cases():
    return [*aspas(), *path(), *circle(), *cuts()]
