"""Local exceptions (RFC 8416) over origins and providers: for verify.py and readers.py.

`after` is an implementation of its own: what is left of origins `(AS, prefix, maximum length)` and of
providers `(customer, provider)`, and what is added. REFUSED has texts that are refused whole, each
with why; APART and OVERLAPPING have pairs of files that may be used together, and that may not.
"""
import ipaddress
import json

EMPTY = {"slurmVersion": 1, "validationOutputFilters": {"prefixFilters": [], "bgpsecFilters": []},
         "locallyAddedAssertions": {"prefixAssertions": [], "bgpsecAssertions": []}}


def made(version=1, filters=(), assertions=(), aspa_filters=None, aspa_assertions=None, **others):
    """The text of a file."""
    value = json.loads(json.dumps(EMPTY)) | {"slurmVersion": version} | others
    value["validationOutputFilters"]["prefixFilters"] = list(filters)
    value["locallyAddedAssertions"]["prefixAssertions"] = list(assertions)
    if aspa_filters is not None:
        value["validationOutputFilters"]["aspaFilters"] = aspa_filters
    if aspa_assertions is not None:
        value["locallyAddedAssertions"]["aspaAssertions"] = aspa_assertions
    return json.dumps(value)


def covers(outer, inner):
    """Whether a prefix is within another one, or that one (section 3.3.1)."""
    outer, inner = ipaddress.ip_network(outer), ipaddress.ip_network(inner)
    return outer.version == inner.version and inner.subnet_of(outer)


def drops(one, asn, prefix):
    """Whether a filter removes an origin: each of what it gives matches."""
    return ("prefix" not in one or covers(one["prefix"], prefix)) and one.get("asn", asn) == asn


def after(origins, providers, *texts):
    """The origins and the providers after the exceptions of these files."""
    origins, providers = set(origins), set(providers)
    values = [json.loads(text) for text in texts]
    for value in values:
        filters = value["validationOutputFilters"]
        origins = {it for it in origins if not any(drops(one, *it[:2]) for one in filters["prefixFilters"])}
        customers = {one["customerAsn"] for one in filters.get("aspaFilters", ())}
        providers = {it for it in providers if it[0] not in customers}
    for value in values:
        assertions = value["locallyAddedAssertions"]
        for one in assertions["prefixAssertions"]:
            longest = one.get("maxPrefixLength", int(one["prefix"].split("/")[1]))
            origins.add((one["asn"], one["prefix"], longest))
        for one in assertions.get("aspaAssertions", ()):
            providers |= {(one["customerAsn"], provider) for provider in one["providerAsns"]}
    return origins, providers


# Those of RFC 8416, section 3.5, but for the router keys.
FILTERS = [{"prefix": "192.0.2.0/24", "comment": "All VRPs encompassed by prefix"}, {"asn": 64496},
           {"prefix": "198.51.100.0/24", "asn": 64497}]
ASSERTIONS = [{"asn": 64496, "prefix": "198.51.100.0/24", "comment": "My other important route"},
              {"asn": 64496, "prefix": "2001:db8::/32", "maxPrefixLength": 48}]

REFUSED = {
    "no JSON": "{",
    "another value": "[]",
    "another version": made(3),
    "ASPAs in version 1": made(1, aspa_filters=[{"customerAsn": 64496}]),
    "an unknown member": made(origin="here"),
    "an unknown member of a filter": made(filters=[{"asn": 64496, "as": 64496}]),
    "a list is left out": json.dumps(EMPTY | {"validationOutputFilters": {"prefixFilters": []}}),
    "a filter of nothing": made(filters=[{"comment": "all"}]),
    "no prefix": made(filters=[{"prefix": "192.0.2.0"}]),
    "an address after its length": made(filters=[{"prefix": "192.0.2.1/24"}]),
    "a length of IPv6": made(filters=[{"prefix": "192.0.2.0/33"}]),
    "a length with a sign": made(filters=[{"prefix": "192.0.2.0/+24"}]),
    "a shorter maximum length": made(assertions=[{"asn": 1, "prefix": "192.0.2.0/24", "maxPrefixLength": 23}]),
    "a longer one than of IPv4": made(assertions=[{"asn": 1, "prefix": "192.0.2.0/24", "maxPrefixLength": 33}]),
    "an AS as a text": made(filters=[{"asn": "AS64496"}]),
    "an AS of five octets": made(filters=[{"asn": 2 ** 32}]),
    "a customer without providers": made(2, aspa_assertions=[{"customerAsn": 64496, "providerAsns": []}]),
    "lists in one another": "[" * 100_000,
    "a version in lists": made().replace('"slurmVersion": 1', f'"slurmVersion": {"[" * 1_000}1{"]" * 1_000}'),
    "a member twice": made(filters=[{"asn": 64496}]).replace('"asn": 64496', '"asn": 64496, "asn": 64497'),
}
APART = [(made(filters=[{"prefix": "192.0.2.0/25"}]), made(filters=[{"prefix": "192.0.2.128/25"}])),
         (made(filters=[{"asn": 64496}]), made(filters=[{"asn": 64496}])),
         (made(filters=[{"prefix": "::/0"}]), made(assertions=[{"asn": 1, "prefix": "192.0.2.0/24"}]))]
OVERLAPPING = [(made(filters=[{"prefix": "192.0.2.0/24"}]), made(assertions=[{"asn": 1, "prefix": "192.0.2.128/25"}])),
               (made(assertions=[{"asn": 1, "prefix": "192.0.2.0/24"}]),
                made(assertions=[{"asn": 2, "prefix": "0.0.0.0/0"}])),
               (made(2, aspa_filters=[{"customerAsn": 64496}]),
                made(2, aspa_assertions=[{"customerAsn": 64496, "providerAsns": [64497]}]))]
