#!/usr/bin/env python3
"""Random attestations with what the definitions of rpki_paths say of them, computed on lists.

    tools/paths_compare.py                 writes one row of each attestation, for tools/test sweep rpki_paths
    tools/paths_compare.py --count N --seed N
    tools/paths_compare.py --tell          tells how many rows have each answer, and what occurs in them

Nothing here is taken from the code: pairings are all permutations that meet their definition, a path
is any list of certificates that meets its own, and all of these are made; sets are sets of numbers.
Where identifiers are distinct a row has the one answer that is right: `yes` where the attestation is
granted, else the first thing that fails, in the order in which it is asked. Where they are not, it
says only whether a yes would be right: `may` or `no`.

A row has eight parts, with `|` between them; the items of a part have `,` between them, and the words
of an item a blank:

    subject keys             identifier
    signers                  identifier, the key that verifies it, D or N (its digest is the content's or not)
    end-entity certificates  subject and authority key identifiers (- for none), key, the key that verifies
    and CAs                  it, serial number, V or X (valid or not), R or T (Refuse or Trim), A or N (passes
                             the inspection of a trust anchor or not), claims of AS numbers, IPv4 and IPv6
    CRLs                     identifier, the key that verifies it, serial numbers
    supplies                 T and a key, or C, an identifier, a key, and three sets
    attested                 three sets
    the answer

The certificates are carried in turn: the first of an end entity, the first of a CA, the second of an
end entity, and so on. A claim is M (missing), I (inherited) or a set: E (empty) or ranges, as 1.3+5.9.
"""
import argparse
import collections
import itertools
import random
import sys

FAMILIES = ("as", "v4", "v6")
MISSING, INHERIT = "M", "I"
TOP = 0  # the identifier and the key of the CA that is supplied most often
Cert = collections.namedtuple(
    "Cert", "place ski aki key signer serial is_valid trims is_anchor claims")
Crl = collections.namedtuple("Crl", "aki signer serials")
Signer = collections.namedtuple("Signer", "sid signer has_digest")
Tal = collections.namedtuple("Tal", "key")
Ca = collections.namedtuple("Ca", "ski key sets")
Attestation = collections.namedtuple("Attestation", "keys signers ees cas crls supplies attested")


# Pairings

def pairings(related, xs, ys):
    """The orders of ys in which each is related to the x of its place."""
    if len(xs) != len(ys):
        return []
    return [order for order in itertools.permutations(ys) if all(map(related, xs, order))]


def has_key(signer, key):
    return signer.sid == key


def is_verified_by(signer, ee):
    return signer.sid == ee.ski and signer.signer == ee.key


def has_crl(ca, crl):
    return ca.ski == crl.aki and crl.signer == ca.key


def why_unpaired(related, xs, ys):
    """The first x that has no partner of its own beside those of the x before it, or `left`."""
    for i in range(len(xs)):
        if not any(all(map(related, xs, some)) for some in itertools.permutations(ys, i + 1)):
            return str(i)
    return "left" if len(ys) > len(xs) else None


# Paths, head first

def is_self_signed(cert):
    return cert.aki is None or cert.aki == cert.ski


def is_issued_by(cert, ca, crl_of):
    return (not is_self_signed(cert) and cert.aki == ca.ski and cert.signer == ca.key
            and cert.serial not in crl_of[ca.place].serials)


def chains_of(ee, cas, crl_of):
    """All chains up from a certificate, on which none stands twice."""
    found = [(ee,)]
    for chain in found:
        found += [(ca, *chain) for ca in cas if is_issued_by(chain[0], ca, crl_of) and ca not in chain]
    return found


def ends_at_top(chain, cas):
    return is_self_signed(chain[0]) or all(chain[0].aki != ca.ski for ca in cas)


def explicit(chain, family):
    """The explicit sets of a family along a chain: a family that is missing is the empty set."""
    claims = [cert.claims[family] for cert in chain]
    return [frozenset() if claim == MISSING else claim for claim in claims if claim != INHERIT]


def is_covered(chain, family, claim):
    """Whether a claim above a chain covers the nearest explicit set of it, where it has to."""
    sets = explicit(chain, family)
    above = frozenset() if claim == MISSING else claim
    return chain[0].trims or not sets or above == INHERIT or sets[0] <= above


def uncovered(chain, claims):
    """The first family in which these claims do not cover a chain, or None."""
    return next((f for f, family in enumerate(FAMILIES) if not is_covered(chain, f, claims[f])), None)


def is_link_covered(chain):
    return all(uncovered(chain[i + 1:], chain[i].claims) is None for i in range(len(chain) - 1))


def paths_of(ee, cas, crl_of):
    """All paths of a certificate whose links are covered."""
    return [chain for chain in chains_of(ee, cas, crl_of)
            if ends_at_top(chain, cas) and is_link_covered(chain)]


# Anchors

def fits(head, supply):
    if isinstance(supply, Tal):
        return is_self_signed(head) and head.key == supply.key
    return not is_self_signed(head) and head.aki == supply.ski and head.signer == supply.key


def takes(path, supply):
    if isinstance(supply, Tal):
        return path[0].is_anchor and path[0].signer == path[0].key
    return uncovered(path, supply.sets) is None


def first_fit(path, supplies):
    """The place of the first supply that fits the head, or None."""
    return next((i for i, supply in enumerate(supplies) if fits(path[0], supply)), None)


def is_anchored(path, supplies):
    place = first_fit(path, supplies)
    return place is not None and takes(path, supplies[place])


def path_set(path, supply, family):
    """The numbers that all explicit sets have, or None where there is no such set."""
    sets = explicit(path, family) + ([] if isinstance(supply, Tal) else [supply.sets[family]])
    return frozenset.intersection(*sets) if sets else None


def union(paths, supplies, family):
    """The numbers that some path stands for, or None where one has no explicit set."""
    sets = [path_set(path, supplies[first_fit(path, supplies)], family) for path in paths]
    return None if None in sets else frozenset().union(*sets)


# Attestations

def are_used(cas, paths):
    return {ca.place for ca in cas} == {cert.place for path in paths for cert in path[:-1]}


def is_distinct(a):
    return (len({ca.ski for ca in a.cas}) == len(a.cas)
            and all(e.key == d.key for e in a.ees for d in a.ees if e.ski == d.ski))


def by_place(cas, crls):
    return {ca.place: crl for ca, crl in zip(cas, crls)}


def is_earned(a, paths):
    return (all(is_anchored(path, a.supplies) for path in paths)
            and all(union(paths, a.supplies, f) == a.attested[f] for f in range(3)))


def is_granted(a):
    """Whether all is valid and paired, and some choice of paths uses all CAs and earns the sets."""
    if not (all(cert.is_valid for cert in a.ees + a.cas)
            and pairings(has_key, a.signers, a.keys)
            and all(signer.has_digest for signer in a.signers)
            and pairings(is_verified_by, a.signers, a.ees)):
        return False
    return any(
        are_used(a.cas, paths) and is_earned(a, paths)
        for crls in set(pairings(has_crl, a.cas, a.crls))
        for paths in itertools.product(*(paths_of(ee, a.cas, by_place(a.cas, crls)) for ee in a.ees)))


def why_no_path(ee, cas, crl_of):
    """What keeps the longest covered chain from going on, where identifiers are distinct."""
    chain = max(filter(is_link_covered, chains_of(ee, cas, crl_of)), key=len)
    head = chain[0]
    ca, = (ca for ca in cas if ca.ski == head.aki)
    if head.signer != ca.key:
        return "unverified"
    if ca in chain:
        return "returns"
    if head.serial in crl_of[ca.place].serials:
        return "revoked"
    return f"uncovered {FAMILIES[uncovered(chain, ca.claims)]}"


def why_not_taken(path, supply):
    if isinstance(supply, Ca):
        return f"exceeds {FAMILIES[uncovered(path, supply.sets)]}"
    return "signature" if path[0].is_anchor else "inspection"


def in_carried_order(a):
    """The certificates, those of end entities and of CAs in turn, each with its place among the CAs."""
    for ee, ca in itertools.zip_longest(a.ees, enumerate(a.cas)):
        yield from () if ee is None else ((ee, None),)
        yield from () if ca is None else ((ca[1], ca[0]),)


def failing(a):
    """What fails, in the order in which it is asked, where identifiers are distinct: certificate by
    certificate, signer by signer, then what is left over."""
    crl, key, ee = (why_unpaired(*of) for of in (
        (has_crl, a.cas, a.crls), (has_key, a.signers, a.keys), (is_verified_by, a.signers, a.ees)))
    for cert, place in in_carried_order(a):
        if not cert.is_valid:
            yield "invalid"
        if place is not None and crl == str(place):
            yield "nocrl"
    for place, signer in enumerate(a.signers):
        if key == str(place):
            yield "nokey"
        if not signer.has_digest:
            yield "digest"
        if ee == str(place):
            yield "nocert"
    for name, why in (("keys", key), ("crls", crl), ("certs", ee)):
        if why == "left":
            yield f"{name}left"


def why_unwalked(a, paths):
    """The first certificate that has no path, or the first CA on none; else the paths are added."""
    crls, = set(pairings(has_crl, a.cas, a.crls))
    crl_of = by_place(a.cas, crls)
    places = pairings(lambda s, i: is_verified_by(s, a.ees[i]), a.signers, range(len(a.ees)))
    for place in min(places):
        found = paths_of(a.ees[place], a.cas, crl_of)
        if not found:
            return why_no_path(a.ees[place], a.cas, crl_of)
        paths += found
    unused = [i for i, ca in enumerate(a.cas) if all(ca not in path for path in paths)]
    return f"unused {unused[0]}" if unused else None


def why_unearned(a, paths):
    """The first supply and path that do not go together, a path without one, or other numbers."""
    firsts = [(first_fit(path, a.supplies), i) for i, path in enumerate(paths)]
    declined = [(s, i) for s, i in firsts if s is not None and not takes(paths[i], a.supplies[s])]
    if declined:
        place, i = min(declined)
        return why_not_taken(paths[i], a.supplies[place])
    if any(place is None for place, _ in firsts):
        return "open"
    return "numbers" if union(paths, a.supplies, 0) != a.attested[0] else "addresses"


def failures(a):
    """The checks that fail, in the order in which they are asked, where identifiers are distinct."""
    found = list(dict.fromkeys(failing(a)))
    if not set(found) - {"invalid"} and why_unwalked(a, []):
        found.append("walks")
    return found


def answer(a):
    granted = is_granted(a)
    if not is_distinct(a):
        return "may" if granted else "no"
    if granted:
        return "yes"
    paths = []
    return next(failing(a), None) or why_unwalked(a, paths) or why_unearned(a, paths)


# Random ones: a good attestation, and then what spoils some

def some_set(numbers, wide):
    """One to three ranges, which often are all numbers from 1 to 12 where the set is to be wide."""
    if numbers.random() < (0.6 if wide else 0.1):
        return frozenset(range(1, 13))
    if numbers.random() < 0.04:
        return frozenset()
    found = set()
    for _ in range(numbers.choice((1, 1, 2, 2, 3))):
        first = numbers.randrange(1, 13)
        found |= set(range(first, min(13, first + numbers.choice((1, 2, 3, 6)))))
    return frozenset(found)


def some_claim(numbers, wide):
    kind = numbers.random()
    if kind < 0.35:
        return INHERIT
    return MISSING if kind < (0.37 if wide else 0.45) else some_set(numbers, wide)


def some_sets(numbers):
    return tuple(some_set(numbers, True) for _ in FAMILIES)


def issued(numbers, place, ski, key, issuer, wide):
    """A certificate of a key under an issuer's identifier and key."""
    return Cert(place, ski, issuer[0], key, issuer[1], numbers.randrange(1, 40), True, numbers.random() < 0.6,
                False, tuple(some_claim(numbers, wide) for _ in FAMILIES))


def some_cas(numbers, count):
    """CAs, each under a later one, under one that is supplied, or self-signed."""
    alike = numbers.random() < 0.15
    skis = [numbers.choice((11, 12)) if alike else 11 + i for i in range(count)]
    keys = [ski + (100 if alike and numbers.random() < 0.5 else 0) for ski in skis]
    cas = []
    for i in range(count):
        later = [(skis[j], keys[j]) for j in range(i + 1, count)]
        issuer = numbers.choice(later) if later and numbers.random() < 0.8 else (TOP, TOP)
        ca = issued(numbers, i + 1, skis[i], keys[i], issuer, True)
        if issuer[0] == TOP and numbers.random() < 0.3:
            own = numbers.choice((None, skis[i]))
            sets = [claim if claim != INHERIT or numbers.random() < 0.1 else some_set(numbers, True)
                    for claim in ca.claims]
            ca = ca._replace(aki=own, signer=keys[i], is_anchor=True, claims=tuple(sets))
        cas.append(ca)
    return cas


def some_ees(numbers, cas):
    """End-entity certificates, the first of them under the CAs that issued nothing."""
    idle = [ca for ca in cas if all(ca.ski != c.aki or c is ca for c in cas)]
    count = len(idle) + numbers.choice((0, 0, 1, 2)) or numbers.choice((0, 1, 1, 1))
    ees = []
    for i in range(count):
        issuers = [(ca.ski, ca.key) for ca in (idle[i:i + 1] if i < len(idle) else cas)]
        ski = numbers.randrange(1, i + 1) if i and numbers.random() < 0.15 else i + 1
        key = ski + (100 if numbers.random() < 0.02 else 0)
        ees.append(issued(numbers, 0, ski, key, numbers.choice(issuers or [(TOP, TOP)]), False))
    return ees


def some_supplies(numbers, cas):
    """What the heads need, often with more that fits, or that is meant for none."""
    roots = [Tal(ca.key) for ca in cas if is_self_signed(ca)]
    more = [Ca(TOP, TOP, some_sets(numbers)), Ca(TOP, 100, some_sets(numbers)), Ca(9, TOP, some_sets(numbers)),
            Tal(99), Tal(TOP), *roots]
    supplies = roots + [Ca(TOP, TOP, some_sets(numbers))]
    supplies += numbers.sample(more, numbers.choice((0, 0, 1, 2)))
    numbers.shuffle(supplies)
    return supplies


def earned(a):
    """The sets that an attestation would have to name, as far as its paths are anchored."""
    crls = next(iter(pairings(has_crl, a.cas, a.crls)), None)
    found = [] if crls is None else [path for ee in a.ees for path in paths_of(ee, a.cas, by_place(a.cas, crls))]
    found = [path for path in found if is_anchored(path, a.supplies)]
    return tuple(union(found, a.supplies, f) or frozenset() for f in range(3))


def replaced(numbers, items, change):
    """The items, one of them changed, where there is one."""
    items = list(items)
    if items:
        i = numbers.randrange(len(items))
        items[i] = change(items[i])
    return items


def spoil_certs(numbers, a):
    """One certificate that another key verifies, that is not valid, that claims other numbers or returns."""
    where = numbers.choice(("ees", "cas"))
    changes = {
        "invalid": lambda c: c._replace(is_valid=False),
        "signer": lambda c: c._replace(signer=numbers.choice((TOP, 55, 11, 12))),
        "issuer": lambda c: c._replace(aki=numbers.choice((None, c.ski, 11, 12, 56))),
        "claims": lambda c: c._replace(claims=tuple(some_claim(numbers, False) for _ in FAMILIES)),
        "refuse": lambda c: c._replace(trims=False),
        "key": lambda c: c._replace(key=c.key + 100),
    }
    change = changes[numbers.choice(list(changes))]
    return a._replace(**{where: replaced(numbers, getattr(a, where), change)})


def spoil_roots(numbers, a):
    """No self-signed CA passes the inspection of a trust anchor, or the key of none verifies it."""
    change = numbers.choice(({"is_anchor": False}, {"signer": 55}))
    return a._replace(cas=[ca._replace(**change) if is_self_signed(ca) else ca for ca in a.cas])


def return_to_below(numbers, a):
    """The last CA is issued by one below it."""
    if not a.cas:
        return a
    below = numbers.choice(a.cas)
    return a._replace(cas=a.cas[:-1] + [a.cas[-1]._replace(aki=below.ski, signer=below.key)])


def revoke(numbers, a):
    """A CRL lists the serial number of a carried certificate."""
    serial = numbers.choice([cert.serial for cert in a.ees + a.cas] or [1])
    return a._replace(crls=replaced(numbers, a.crls, lambda l: l._replace(serials=l.serials | {serial})))


def revoke_issued(numbers, a):
    """The CRL of an issuer lists what it issued."""
    by = [(cert.serial, ca.ski) for cert in a.ees + a.cas for ca in a.cas if cert.aki == ca.ski]
    serial, ski = numbers.choice(by or [(1, 0)])
    return a._replace(crls=[l._replace(serials=l.serials | {serial}) if l.aki == ski else l for l in a.crls])


def spoil_list(numbers, a):
    """One item of a list too few, too many, or another one."""
    where = numbers.choice(("keys", "signers", "ees", "cas", "crls", "supplies"))
    items = list(getattr(a, where))
    kind = numbers.random()
    if items and kind < 0.4:
        items.remove(numbers.choice(items))
    elif items and kind < 0.7 and where != "cas":
        items.insert(numbers.randrange(len(items) + 1), numbers.choice(items))
    elif where == "crls":
        items = replaced(numbers, items, lambda l: l._replace(signer=numbers.choice((11, 12, 55))))
    elif where == "signers":
        items = replaced(numbers, items, lambda s: s._replace(has_digest=False))
    elif where == "keys":
        items = replaced(numbers, items, lambda k: numbers.randrange(1, 5))
    return a._replace(**{where: items})


def other_signer(numbers, a):
    signers = replaced(numbers, a.signers, lambda s: s._replace(
        signer=numbers.randrange(1, 5), has_digest=numbers.random() < 0.8))
    return a._replace(signers=signers)


def idle_ca(numbers, a):
    """A CA more that issued nothing, with its CRL."""
    ca = issued(numbers, 77, 77, 77, (TOP, TOP), True)
    cas, at = list(a.cas), numbers.randrange(len(a.cas) + 1)
    cas.insert(at, ca)
    return a._replace(cas=cas, crls=a.crls + [Crl(77, 77, frozenset())])


SPOILERS = (spoil_certs, spoil_certs, spoil_roots, return_to_below, revoke, revoke_issued, spoil_list, spoil_list,
            other_signer, idle_ca)


def some_attestation(numbers):
    cas = some_cas(numbers, numbers.choice((0, 1, 2, 2, 3, 3, 4)))
    ees = some_ees(numbers, cas)
    # a serial number is listed by a CA that did not issue it, or by none
    crls = [Crl(ca.ski, ca.key, frozenset(n for n in numbers.sample(range(1, 40), 3) if all(
        c.serial != n or c.aki != ca.ski for c in ees + cas))) for ca in cas]
    signers = [Signer(ee.ski, ee.key, True) for ee in ees]
    keys = [ee.ski for ee in ees]
    for items in (crls, signers, keys):
        numbers.shuffle(items)
    a = Attestation(keys, signers, ees, cas, crls, some_supplies(numbers, cas), (frozenset(),) * 3)
    for _ in range(numbers.choices(range(4), (40, 35, 15, 10))[0]):
        a = numbers.choice(SPOILERS)(numbers, a)
    if max(map(len, (a.ees, a.cas, a.signers, a.keys, a.crls))) > 6 or len(a.cas) > 5 or len(a.ees) > 5:
        return some_attestation(numbers)
    a = a._replace(attested=earned(a))
    if numbers.random() < 0.07:
        a = a._replace(attested=tuple(replaced(numbers, a.attested, lambda s: s ^ {numbers.randrange(1, 13)})))
    return a


# Rows

def set_text(found):
    """A set by its ranges."""
    runs = []
    for n in sorted(found):
        if runs and runs[-1][1] == n - 1:
            runs[-1][1] = n
        else:
            runs.append([n, n])
    return "+".join(f"{first}.{last}" for first, last in runs) or "E"


def claims_text(claims):
    return " ".join(claim if claim in (MISSING, INHERIT) else set_text(claim) for claim in claims)


def cert_text(c):
    aki = "-" if c.aki is None else c.aki
    return (f"{c.ski} {aki} {c.key} {c.signer} {c.serial} {'XV'[c.is_valid]} {'RT'[c.trims]}"
            f" {'NA'[c.is_anchor]} {claims_text(c.claims)}")


def crl_text(crl):
    return " ".join(map(str, (crl.aki, crl.signer, *sorted(crl.serials))))


def supply_text(s):
    return f"T {s.key}" if isinstance(s, Tal) else f"C {s.ski} {s.key} {claims_text(s.sets)}"


def row(a, said):
    parts = (map(str, a.keys), (f"{s.sid} {s.signer} {'ND'[s.has_digest]}" for s in a.signers),
             map(cert_text, a.ees), map(cert_text, a.cas), map(crl_text, a.crls), map(supply_text, a.supplies),
             map(set_text, a.attested), [said])
    return "|".join(",".join(part) for part in parts)


def attestations(count, seed):
    numbers = random.Random(seed)
    for _ in range(count):
        a = some_attestation(numbers)
        yield a, answer(a)


def occurs(a):
    """What occurs in an attestation, of that which the definitions name."""
    certs = a.ees + a.cas
    yield f"{len(a.signers)} signers"
    yield f"{len(a.cas)} CAs"
    for f, family in enumerate(FAMILIES):
        claims = [cert.claims[f] for cert in certs]
        yield from (f"{family} is missing",) * (MISSING in claims)
        yield from (f"{family} is inherited",) * (INHERIT in claims)
        yield from (f"{family} has several ranges",) * any("+" in set_text(c) for c in claims if c not in ("M", "I"))
    crls = set(pairings(has_crl, a.cas, a.crls))
    paths = {path for some in crls for ee in a.ees for path in paths_of(ee, a.cas, by_place(a.cas, some))}
    takers = [[takes(path, s) for s in a.supplies if fits(path[0], s)] for path in paths]
    seen = {
        "distinct identifiers": is_distinct(a),
        "end-entity certificates of one key": len({ee.key for ee in a.ees}) < len(a.ees),
        "CAs of one identifier": len({ca.ski for ca in a.cas}) < len(a.cas),
        "CRLs in another order than the CAs": bool(crls) and list(next(iter(crls))) != a.crls,
        "several pairings of CRLs": len(crls) > 1,
        "a self-signed head": any(is_self_signed(path[0]) for path in paths),
        "several supplies that fit and take one path": any(sum(some) > 1 for some in takers),
        "a first that fits does not take, and a later one does": any(
            some and not some[0] and any(some) for some in takers),
    }
    yield from (what for what, holds in seen.items() if holds)
    if is_distinct(a):
        yield from (f"{one} and {other} fail" for one, other in itertools.combinations(failures(a), 2))


def tell(count, seed):
    answers, seen = collections.Counter(), collections.Counter()
    for a, said in attestations(count, seed):
        answers[said] += 1
        seen.update(occurs(a))
    for counts in (answers, seen):
        print("\n".join(f"{count:6} {what}" for what, count in sorted(counts.items())), end="\n\n")


def main(given):
    if given.tell:
        tell(given.count, given.seed)
        return
    for a, said in attestations(given.count, given.seed):
        print(row(a, said))


if __name__ == "__main__":
    reader = argparse.ArgumentParser(description=__doc__, formatter_class=argparse.RawDescriptionHelpFormatter)
    reader.add_argument("--count", type=int, default=10000)
    reader.add_argument("--seed", type=int, default=21)
    reader.add_argument("--tell", action="store_true")
    sys.exit(main(reader.parse_args()))
