"""The files of examples/, what the programs say of them, and how a sweep that a script writes has them.

Serial numbers, key identifiers, moments and URIs are those that `openssl` prints.
"""
import hashlib
import pathlib
import textwrap

TREE = pathlib.Path(__file__).resolve().parent.parent / "examples"
HOST = "rsync://rpki.example.net"


# ---- what is said of them

def signer(serial, ski, sia, **claims):
    """The members of the certificate of a signer, which claims these numbers."""
    said = {"cert_serial": serial, "valid_since": "2026-01-01T00:00:00Z",
            "valid_until": "2040-01-01T00:00:00Z", "ski": ski,
            "aki": "C78637259551E49913A293A978985D33FBECF9C1"}
    if sia:
        said["sia"] = f"{HOST}/authority/{sia}"
    said["aia"] = f"{HOST}/anchor/authority.cer"
    said["crl"] = f"{HOST}/authority/authority.crl"
    return said | {f"cert_{name}": it for name, it in claims.items()}


def certificate(serial, ski, aki, folder, manifest, above, asns, ipv4, ipv6):
    """The members of the certificate of a CA."""
    said = {"cert_serial": serial, "valid_since": "2026-01-01T00:00:00Z",
            "valid_until": "2040-01-01T00:00:00Z", "ski": ski}
    if aki:
        said["aki"] = aki
    said |= {"carepository": f"{HOST}/{folder}/", "manifest": f"{HOST}/{folder}/{manifest}"}
    if above:
        issuer = above.rpartition("/")[2]
        said |= {"aia": f"{HOST}/{above}.cer", "crl": f"{HOST}/{issuer}/{issuer}.crl"}
    return said | {"ca": True, "asns": asns, "ipv4": ipv4, "ipv6": ipv6}


def end_entity(serial, ski, aki, issuer, above, asns, ipv4, ipv6):
    """The members of a certificate that an attestation carries for a signer."""
    return {"cert_serial": serial, "valid_since": "2026-01-01T00:00:00Z",
            "valid_until": "2040-01-01T00:00:00Z", "ski": ski, "aki": aki,
            "aia": f"{HOST}/{above}/{issuer}.cer", "crl": f"{HOST}/{issuer}/{issuer}.crl",
            "ca": False, "asns": asns, "ipv4": ipv4, "ipv6": ipv6}


def revocations(key):
    """The members of a list of the CA with this key that revokes nothing."""
    return {"crl_serial": "01", "valid_since": MOMENT, "valid_until": "2036-01-01T00:00:00Z",
            "aki": key, "revoked_certs": []}


HASHES = [
    ("authority.crl", "b9b47c5f72fc845d3d575aa81b0aa9377d4ac5792f6a5cd5641e0abe86a211f7"),
    ("broken.roa", "a8e43973fb1f5ad65ad6e2b41ba2ca2e5d96032a9b90a054d60f5ab15b5de724"),
    ("expired.roa", "da50cfc2475a4660658d3cea6bb38db5546f9e0e34af392fbc1ba36ad5ff3384"),
    ("origin.roa", "08037c93987acfc144a1abe39e32d3ed0815b5226709643eac2e5f3b18d8e230"),
    ("overclaiming.roa", "4e703e9f396ec9ce3bb6a47992bfadf5903564880b95c3a714de0e88797bbff3"),
    ("providers.asa", "33cf45a3f25377272a51416da262879035349e1bb2e2a4ad1eaf6c521ceeae84"),
]
MOMENT = "2026-11-01T00:00:00Z"
SIGNED = {"signing_time": MOMENT}
ANCHOR_KEY = "1A3A434D3CB238F39188C4ED212421A717BB7C97"
AUTHORITY_KEY = "C78637259551E49913A293A978985D33FBECF9C1"
MANIFEST_KEY = "C1888A395EE37A39F79146694636294EE42B4CED"
INHERITED = {"asns": ["inherit"], "ipv4": ["inherit"], "ipv6": ["inherit"]}
AUTHORITY = f"{HOST}/authority/"
# What the attestations carry: the CAs, the end entities that signed, and the lists of the CAs.
CUSTOMER_KEY, SECOND_KEY, MEMBER_KEY = (
    "58D72BAF86D30DE78AEBFE31BD6F53CAEF7D2AF6", "34EB4F79DBFC177F2263A2F42E69DB6262D2C8BD",
    "DED8149EE8EF64F66DAEC0F303D2FFE101F35C7D")
CUSTOMER = certificate("08", CUSTOMER_KEY, AUTHORITY_KEY, "customer", "customer.mft",
                       "anchor/authority", **INHERITED)
HOLDING_DIGEST = hashlib.sha256(b"a holding\n").hexdigest()
HELD = ["AS64500-AS64503"], ["198.51.100.0/25"], ["2001:db8:100::/40"]
INHERITING = ["inherit"], ["inherit"], ["inherit"]
HOLDER = end_entity("05", "AC15A9E2F05691301C257BFEF6649F3AB7437791", CUSTOMER_KEY,
                    "customer", "authority", *HELD)
AGREED = [
    certificate("01", SECOND_KEY, None, "second", "second.mft", None,
                ["AS65536-AS65551"], ["203.0.113.0/24"], ["3fff::/20"]),
    end_entity("01", "22C1F88A54BF57519EC5DE1FBA3C46609A8E4E42", MEMBER_KEY,
               "member", "second", *INHERITING),
    end_entity("01", "1A35C53323D25266354DB3F712B6E2D00DBDCF9C", CUSTOMER_KEY,
               "customer", "authority", *HELD),
    CUSTOMER,
    certificate("02", MEMBER_KEY, SECOND_KEY, "member", "member.mft", "second",
                ["AS65536-AS65543"], ["203.0.113.0/24"], ["3fff::/24"]),
]
# Files, the word of their kind, and what is said of each in JSON.
OBJECTS = [
    ("rpki.example.net/authority/origin.roa", "roa",
     {"vrps": [{"asn": "AS64496", "prefix": "192.0.2.0/24", "maxLength": 26},
               {"asn": "AS64496", "prefix": "2001:db8::/32", "maxLength": 48}]} | SIGNED
     | signer("01", "D499B0BF9D1519CFF7E9C67B077CDAECD7CBCA67", "origin.roa",
              ipv4=["192.0.2.0/24"], ipv6=["2001:db8::/32"])),
    ("rpki.example.net/authority/providers.asa", "aspa",
     {"customer": "AS64496", "providers": ["AS64497", "AS64511"]} | SIGNED
     | signer("02", "ACB452912B9B562E3E26A1A9B016182187C22E41", "providers.asa",
              asns=["AS64496"])),
    ("rpki.example.net/authority/authority.mft", "manifest",
     {"manifest_number": "01", "this_update": MOMENT, "next_update": "2036-01-01T00:00:00Z",
      "filesandhashes": [{"filename": name, "hash": it} for name, it in HASHES]} | SIGNED
     | signer("06", MANIFEST_KEY, "authority.mft", **INHERITED)),
    ("letter.sig", "rsc",
     {"asns": ["AS64496"], "ipv4": ["192.0.2.0/24"], "ipv6": [],
      "filenamesandhashes": [
          {"filename": "letter.txt",
           "hash_digest": "5c8437e345f639d9940ed7d853023f6d069e923d7ab43a092591b9dbdefe1aeb"},
          {"hash_digest":
           "aee7b480ff51d4c93c72c1fc60aac4ab0187e4a1447d79d226198cb9dd4b2d4d"}]}
     | SIGNED | signer("07", "1B95E79E269CA2092ABA65FB1D2FB3F9557D1C1A", None,
                       asns=["AS64496"], ipv4=["192.0.2.0/24"])),
    ("holding.rta", "rta",
     {"keys": ["AC15A9E2F05691301C257BFEF6649F3AB7437791"], "asns": ["AS64500-AS64503"],
      "ipv4": ["198.51.100.0/25"], "ipv6": ["2001:db8:100::/40"],
      "digest": HOLDING_DIGEST, "certificates": [HOLDER, CUSTOMER],
      "crls": [revocations(CUSTOMER_KEY)], "signers": 1}),
    ("agreement.rta", "rta",
     {"keys": ["1A35C53323D25266354DB3F712B6E2D00DBDCF9C",
               "22C1F88A54BF57519EC5DE1FBA3C46609A8E4E42"],
      "asns": ["AS64500-AS64503", "AS65536-AS65543"],
      "ipv4": ["198.51.100.0/25", "203.0.113.0/24"], "ipv6": ["2001:db8:100::/40", "3fff::/24"],
      "digest": "27b1475ecc05bc4bbfc386c70f7bd74b99e7926da240c1e439a00700fdb4a9f2",
      "certificates": AGREED, "crls": [*map(revocations, (SECOND_KEY, CUSTOMER_KEY, MEMBER_KEY))],
      "signers": 2}),
    ("rpki.example.net/anchor.cer", "certificate",
     certificate("01", ANCHOR_KEY, None, "anchor", "anchor.mft", None,
                 ["AS0-AS4294967295"], ["0.0.0.0/0"], ["::/0"])),
    ("rpki.example.net/anchor/authority.cer", "certificate",
     certificate("02", AUTHORITY_KEY, ANCHOR_KEY, "authority", "authority.mft", "anchor",
                 ["AS64496-AS64511"], ["192.0.2.0/24", "198.51.100.0/24"], ["2001:db8::/32"])),
    ("rpki.example.net/authority/authority.crl", "crl",
     {"crl_serial": "01", "valid_since": MOMENT, "valid_until": "2036-01-01T00:00:00Z",
      "aki": AUTHORITY_KEY, "revoked_certs": []}),
    ("anchor.tal", "tal",
     {"trust_anchor_locations": [f"{HOST}/anchor.cer"], "ski": ANCHOR_KEY}),
]
# What is said of the content of an object, in lines.
ROA = "roa\nas AS64496\norigin 192.0.2.0/24-26\norigin 2001:db8::/32-48\n"
ASPA = "aspa\ncustomer AS64496\nprovider AS64497\nprovider AS64511\n"
MANIFEST = (f"manifest\nnumber 1\nthis {MOMENT}\nnext 2036-01-01T00:00:00Z\n"
            + "".join(f"file {name} {it}\n" for name, it in HASHES))
# And of a whole attestation.
WHOLE_RTA = ("rta\nkey AC15A9E2F05691301C257BFEF6649F3AB7437791\nas AS64500-AS64503\n"
             "v4 198.51.100.0/25\nv6 2001:db8:100::/40\n"
             f"digest {HOLDING_DIGEST}\n"
             "certificates 2\ncrls 1\nsigners 1\n"
             "certificate\nserial 05\nvalid-from 2026-01-01T00:00:00Z\n"
             "valid-until 2040-01-01T00:00:00Z\nkey-id AC15A9E2F05691301C257BFEF6649F3AB7437791\n"
             f"authority-key-id {CUSTOMER_KEY}\nee\nca-issuers {AUTHORITY}customer.cer\n"
             f"crl {HOST}/customer/customer.crl\nas AS64500-AS64503\n"
             "ipv4 198.51.100.0/25\nipv6 2001:db8:100::/40\n"
             "certificate\nserial 08\nvalid-from 2026-01-01T00:00:00Z\n"
             f"valid-until 2040-01-01T00:00:00Z\nkey-id {CUSTOMER_KEY}\n"
             f"authority-key-id {AUTHORITY_KEY}\nca\nca-repository {HOST}/customer/\n"
             f"rpki-manifest {HOST}/customer/customer.mft\nca-issuers {HOST}/anchor/authority.cer\n"
             f"crl {AUTHORITY}authority.crl\nas inherit\nipv4 inherit\nipv6 inherit\n"
             f"crl\nnumber 01\nthis-update {MOMENT}\nnext-update 2036-01-01T00:00:00Z\n"
             f"authority-key-id {CUSTOMER_KEY}\n")


# ---- the values in them

def parts(octets):
    """The values of DER in these octets, one after the other."""
    found = []
    while octets:
        size, head = octets[1], 2
        if size & 0x80:
            head = 2 + (size & 0x7F)
            size = int.from_bytes(octets[2:head], "big")
        found.append(octets[:head + size])
        octets = octets[head + size:]
    return found


def contents(value):
    """What stands in a value of DER."""
    return value[2 + (value[1] & 0x7F if value[1] & 0x80 else 0):]


def inside(value):
    """The values in a value of DER."""
    return parts(contents(value))


def signed_data(octets):
    """The values in the SignedData of an object: its content is the third, its certificate the fourth."""
    return inside(contents(inside(octets)[1]))


# ---- a module of tests with them

def text(of):
    """A text, as the code of a test has it."""
    escaped = of.replace("\\", "\\\\").replace('"', '\\"').replace("\n", "\\n").replace("\t", "\\t")
    return f'"{escaped}"'


def static(name):
    """What a file is called in the code."""
    return name.upper().replace(".", "_").replace("/", "_")


def table(name, octets):
    """Prints the octets of a file as a static of its name."""
    print(f"static {static(name)}: [u8; {len(octets)}] = [")
    print(textwrap.fill(", ".join(f"0x{it:02X}" for it in octets), 100))
    print("];\n")


def files(name, found):
    """Prints a function of this name that returns these files, each with its name."""
    print(f"/// The files.\nfn {name}() -> [(&'static str, &'static [u8]); {len(found)}] {{\n    [")
    for it in found:
        print(f"        ({text(it)}, &{static(it)}),")
    print("    ]\n}\n")
