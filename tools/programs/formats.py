"""What `rpki_verify payloads` prints in each format: for trees.py and verify.py.

`found` has pairs of the name of a locator and the payloads below it, as tree_rows.py has
them: each payload is one row, whatever locators it is below. `refused` has by name what is refused
there: a URI, the cause, and the manifest of the CA.
"""
import calendar
import csv
import io
import itertools
import json
import socket
import time

from publication import MOMENT


def seconds_of(moment):
    return calendar.timegm(time.strptime(moment, "%Y%m%d%H%M%SZ"))


def shown(moment):
    """A moment as RFC 3339 has it."""
    return time.strftime("%Y-%m-%dT%H:%M:%SZ", time.gmtime(seconds_of(moment)))


# ---- rows

def origins(found):
    """The origins that were found, each once, with the locator under which it holds longest, the first
    of several, and until when; in the order of routers: by prefix, then by maximum length and AS."""
    held = {}
    for name, payloads in found:
        for kind, number, prefix, *rest in payloads:
            if kind == "origin":
                (most, until), (address, _, length) = rest, prefix.partition("/")
                family = socket.AF_INET6 if ":" in address else socket.AF_INET
                key = family, socket.inet_pton(family, address), int(length), most or int(length), number, prefix
                keep_longest(held, key, name, until)
    return [(name, number, prefix, length, most, until)
            for (_, _, length, most, number, prefix), (until, name) in sorted(held.items())]


def providers(found):
    """The same of providers, each with its customer."""
    held = {}
    for name, payloads in found:
        for kind, number, *rest in payloads:
            if kind == "aspa":
                several, until = rest
                for it in several:
                    keep_longest(held, (number, it), name, until)
    return [(name, *pair, until) for pair, (until, name) in sorted(held.items())]


def keep_longest(held, key, name, until):
    """Keeps what holds longest, and the first of those that hold as long."""
    if key not in held or held[key][0] < until:
        held[key] = until, name


def customers(found):
    """Each customer with all its providers, the locator of the first, and the first of their ends."""
    for customer, rows in itertools.groupby(providers(found), lambda row: row[1]):
        names, _, several, ends = zip(*rows)
        yield names[0], customer, several, min(ends)


def refusals(refused, name):
    """What is refused below the locator of a name, each line once, in their order."""
    return sorted({*refused.get(name, ())}, key=lambda it: "{}: {} (under {})".format(*it).encode())


# ---- formats

def ranged(prefix, length, most):
    return prefix if most == length else f"{prefix}-{most}"


def as_lines(found, *_):
    rows = [f"origin AS{number} {ranged(*block)}\n" for _, number, *block, _ in origins(found)]
    rows += [f"aspa AS{customer} {' '.join(f'AS{it}' for it in several)}\n"
             for _, customer, several, _ in customers(found)]
    return "".join(rows)


def as_long(found, *_):
    """The same with until when each holds, but for the objects that say it."""
    rows = [f"origin AS{number} {ranged(*block)} until {shown(until)}\n" for _, number, *block, until in origins(found)]
    rows += [f"aspa AS{customer} AS{it} until {shown(until)}\n" for _, customer, it, until in providers(found)]
    return "".join(rows)


def as_csv(found, *_):
    text = io.StringIO()
    rows = csv.writer(text, lineterminator="\n")
    rows.writerow(["ASN", "IP Prefix", "Max Length", "Trust Anchor", "Expires"])
    rows.writerows((f"AS{number}", prefix, most, name, seconds_of(until))
                   for name, number, prefix, _, most, until in origins(found))
    return text.getvalue()


def compact(value):
    return json.dumps(value, ensure_ascii=False, separators=(",", ":"), sort_keys=True)


def document(**members):
    """An object of JSON, with each item of its lists on a line, and its members in order."""
    texts = (f'"{name}":[' + ",".join(f"\n{compact(it)}" for it in value) + "\n]" if isinstance(value, list)
             else f'"{name}":\n{compact(value)}' for name, value in sorted(members.items()))
    return "{" + ",\n".join(texts) + "}\n"


def metadata(found, refused, moment):
    counts = [{"name": name, "origins": len(origins([(name, it)])), "providers": len(providers([(name, it)])),
               "refused": len(refusals(refused, name))} for name, it in found]
    return {"buildtime": shown(moment), "generated": seconds_of(moment), "generatedTime": shown(moment),
            "locators": counts}


def roas(found, number_of):
    return [{"asn": number_of(number), "expires": seconds_of(until), "maxLength": most, "prefix": prefix, "ta": name}
            for name, number, prefix, _, most, until in origins(found)]


def as_json(found, refused, moment=MOMENT):
    aspas = [{"customer": f"AS{customer}", "expires": seconds_of(until), "providers": [f"AS{it}" for it in several],
              "ta": name}
             for name, customer, several, until in customers(found)]
    said = [{"ca": under, "reason": cause, "ta": name, "uri": uri}
            for name, _ in found for uri, cause, under in refusals(refused, name)]
    return document(aspas=aspas, metadata=metadata(found, refused, moment), refused=said,
                    roas=roas(found, "AS{}".format))


def as_client(found, refused, moment=MOMENT):
    aspas = [{"customer_asid": customer, "expires": seconds_of(until), "providers": several}
             for _, customer, several, until in customers(found)]
    return document(aspas=aspas, metadata=metadata(found, refused, moment), roas=roas(found, int))


def as_bird(found, *_):
    def table(number, is_in):
        routes = (f"\troute {prefix} max {most} as {asn};\n"
                  for _, asn, prefix, _, most, _ in origins(found) if is_in(prefix))
        return (f"roa{number} table ROAS{number};\n\nprotocol static origins{number} {{\n"
                f"\troa{number} {{ table ROAS{number}; }};\n" + "".join(routes) + "}\n")
    return table(4, lambda it: ":" not in it) + "\n" + table(6, lambda it: ":" in it)


def as_openbgpd(found, *_):
    roas = [f"\t{prefix}{f' maxlen {most}' * (most != length)} source-as {number} expires {seconds_of(until)}\n"
            for _, number, prefix, length, most, until in origins(found)]
    aspas = [f"\tcustomer-as {customer} expires {seconds_of(until)} provider-as {{ {' '.join(map(str, several))} }}\n"
             for _, customer, several, until in customers(found)]
    return f"roa-set {{\n{''.join(roas)}}}\n" + (f"aspa-set {{\n{''.join(aspas)}}}\n" if aspas else "")


# The options of each format, and what is printed by it.
WRITERS = {(): as_lines, ("--long",): as_long, ("--format", "csv"): as_csv, ("--format", "json"): as_json,
           ("--format", "rpki-client"): as_client, ("--format", "bird"): as_bird, ("--format", "openbgpd"): as_openbgpd}
