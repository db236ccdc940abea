"""What lines of JSON say, and what the lines of the programs come to in JSON: for tools/fuzz,
tools/rows and tools/program verify.

`values_of` is stricter than Python's json module: a text is in UTF-8, no object has a name twice, at
any depth (RFC 8259, sections 4 and 8.1), and what has to be one line is one. `members_of` makes the
members that `show --json` prints of the lines that `show` prints.
Lines say a little less: not whether a claim of numbers is absent or empty, so an empty one is left
out (`without_empty`).
"""
import json

# The lines of a certificate and its members, in their order.
FACTS = {
    "serial": "cert_serial", "valid-from": "valid_since", "valid-until": "valid_until", "key-id": "ski",
    "authority-key-id": "aki", "ca-repository": "carepository", "rpki-manifest": "manifest", "rpki-notify": "notify_url",
    "signed-object": "sia", "ca-issuers": "aia", "crl": "crl",
}
CLAIMS = {"as": "asns", "ipv4": "ipv4", "ipv6": "ipv6"}
# Those of contents that name numbers.
NUMBERS = {"as": "asns", "v4": "ipv4", "v6": "ipv6"}


def distinct(pairs):
    """The object of these members, whose names have to be distinct."""
    said = dict(pairs)
    if len(said) < len(pairs):
        raise ValueError(f"a name twice among {[name for name, _ in pairs]}")
    return said


def no_number(word):
    raise ValueError(f"{word} is no number")


def value_of(octets):
    """The value that a text of JSON says."""
    return json.loads(octets.decode("utf-8"), object_pairs_hook=distinct, parse_constant=no_number)


def values_of(octets):
    """The value that each line says; no line has a control character, and each has an end."""
    *lines, rest = octets.split(b"\n")
    if rest or any(octet < 0x20 for line in lines for octet in line):
        raise ValueError("not in lines")
    return [value_of(line) for line in lines]


def after(lines, word):
    """What follows this word in each line that it begins."""
    return [text for first, _, text in (line.partition(" ") for line in lines) if first == word]


def whole_hex(digits):
    """Hexadecimal in upper case, with two digits for each octet."""
    return digits.upper() if len(digits) % 2 == 0 else f"0{digits.upper()}"


def in_octets(lines):
    """The lines of `show FILE` where these are those of `show KIND FILE`: the number of a manifest and
    the serial number of a signer have two digits for each octet."""
    cut = [(line, *line.split(" ", 2)) for line in lines]
    return [" ".join((its[0], whole_hex(its[1]), *its[2:])) if its[0] in ("number", "ee") and its[1:] else line
            for line, *its in cut]


def roa(lines):
    [asn] = after(lines, "as")
    cut = [it.partition("-") for it in after(lines, "origin")]
    return {"vrps": [{"asn": asn, "prefix": prefix, "maxLength": int(most or prefix.partition("/")[2])}
                     for prefix, _, most in cut]}


def aspa(lines):
    [customer] = after(lines, "customer")
    return {"customer": customer, "providers": after(lines, "provider")}


def manifest(lines):
    [number], [this], [until] = (after(lines, word) for word in ("number", "this", "next"))
    files = [it.rsplit(" ", 1) for it in after(lines, "file")]
    return {"manifest_number": whole_hex(number), "this_update": this, "next_update": until,
            "filesandhashes": [{"filename": name, "hash": it} for name, it in files]}


def rsc(lines):
    files = []
    for word, _, text in (line.partition(" ") for line in lines):
        if word == "named":
            name, it = text.rsplit(" ", 1)
            files.append({"filename": name, "hash_digest": it})
        elif word == "unnamed":
            files.append({"hash_digest": text})
    return {**{name: after(lines, word) for word, name in NUMBERS.items()}, "filenamesandhashes": files}


def rta(lines):
    """An attestation, whose lines end with those of each certificate and of each list that it carries."""
    starts = [at for at, line in enumerate(lines) if line in ("certificate", "crl")]
    carried = [lines[at:end] for at, end in zip(starts, [*starts[1:], len(lines)])]
    own = lines[:starts[0]] if starts else lines
    [digest] = after(own, "digest")
    numbers = {name: after(own, word) for word, name in NUMBERS.items()}
    said = {"keys": after(own, "key"), **numbers, "digest": digest}
    for signers in after(own, "signers"):
        said["certificates"] = [certificate(it[1:]) for it in carried if it[0] == "certificate"]
        said["crls"] = [crl(it[1:]) for it in carried if it[0] == "crl"]
        said["signers"] = int(signers)
    return said


def crl(lines):
    words = {"number": "crl_serial", "this-update": "valid_since", "next-update": "valid_until", "authority-key-id": "aki"}
    revoked = [it.split(" ") for it in after(lines, "revoked")]
    return {**{name: it for word, name in words.items() for it in after(lines, word)},
            "revoked_certs": [{"serial": serial, "date": date} for serial, date in revoked]}


def tal(lines):
    [key] = after(lines, "key")
    return {"trust_anchor_locations": after(lines, "uri"), "ski": key}


def facts(lines):
    return {name: it for word, name in FACTS.items() for it in after(lines, word)}


def claims(lines, begin=""):
    """The numbers that a certificate claims, under names that begin so."""
    said = {f"{begin}{name}": after(lines, word) for word, name in CLAIMS.items()}
    return {name: it for name, it in said.items() if it}


def certificate(lines):
    return {**facts(lines), "ca": "ca" in lines, **claims(lines)}


KINDS = {"roa": roa, "aspa": aspa, "manifest": manifest, "rsc": rsc, "rta": rta, "certificate": certificate, "crl": crl, "tal": tal}


def members_of(lines):
    """The members of what these lines say, the first of which is the word of a kind."""
    signing = next((at for at, line in enumerate(lines) if line.startswith("signing ")), None)
    if signing is None:
        return KINDS[lines[0]](lines[1:])
    [time], signer = after(lines[signing:], "signing"), lines[lines.index("certificate"):]
    return {**KINDS[lines[0]](lines[1:signing]), "signing_time": time, **facts(signer), **claims(signer, "cert_")}


def without(said, begin):
    """Members without the claims of a certificate that are empty, under names that begin so."""
    names = {f"{begin}{name}" for name in CLAIMS.values()}
    return {name: it for name, it in said.items() if name not in names or it != []}


def without_empty(said):
    """An object of a file without the claims of its certificate, or of those it carries, that are empty."""
    said = without(said, "" if said.get("type") == "certificate" else "cert_")
    return {name: [without(each, "") for each in it] if name == "certificates" else it for name, it in said.items()}
