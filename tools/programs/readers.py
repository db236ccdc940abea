"""Loads what `rpki_verify payloads` prints in each format by a reader of it, and compares the origins and the ASPAs.

    tools/program readers [--unproved | --in FOLDER]

A tree of tree_rows.py is asked for at the moment of the clock, under two locators of one key, with and without local
exceptions (exceptions.py).

    lines, csv, json, rpki-client     read by Python; lines with --long too
    json, rpki-client                 served by StayRTR, and asked for by `rtrclient` of rtr-tools
    bird                              `bird -p`, and a running BIRD 2 that is asked by `birdc`
    openbgpd                          `bgpd -n -v`, which prints what it read

ASPAs are compared where Python reads lines or JSON, and where `bgpd` reads them. OpenBGPD before 7.8 knows no
`aspa-set`: there, what stands from it on is cut off before, and its ASPAs are LEFT OUT.

Prints a line for each reader that has other payloads or refuses a text, and for each that is not there (LEFT OUT).
Needs `openssl` 3, which tests the keys.
"""
import csv
import io
import json
import re
import shutil
import socket
import subprocess
import tempfile
import time

from programs import exceptions, running
from programs.tree_rows import Tree
from verify_words import words

COLUMNS = ["ASN", "IP Prefix", "Max Length", "Trust Anchor", "Expires"]
BIRD = "router id 192.0.2.1;\nprotocol device {}\n"
OPENBGPD = "AS 64496\nrouter-id 192.0.2.1\n"


def ran(*words):
    """What a command prints, which has to end well."""
    done = subprocess.run(words, capture_output=True, text=True, check=False)
    if done.returncode:
        raise ValueError(f"{words}: {done.stderr or done.stdout}")
    return done.stdout


def origin(asn, prefix, longest):
    """An origin, where a maximum length that is left out is that of the prefix."""
    return int(str(asn).removeprefix("AS")), prefix, int(longest or prefix.split("/")[1])


def pair(customer, provider):
    """A customer and one of its providers."""
    return tuple(int(str(it).removeprefix("AS")) for it in (customer, provider))


def aspas_of_lines(octets):
    """The pairs of plain lines, with or without `--long`."""
    said = re.findall(r"^aspa (AS\d+)((?: AS\d+)+)(?: (?:until|asserted)\b.*)?$", octets.decode(), re.M)
    return sorted(pair(customer, it) for customer, several in said for it in several.split())


def aspas_of_json(octets):
    """Those of Python's json, in either form."""
    return sorted(pair(it.get("customer", it.get("customer_asid")), provider)
                  for it in json.loads(octets)["aspas"] for provider in it["providers"])


def aspas_of_openbgpd(octets):
    """Those that `bgpd -n -v` prints again."""
    said = re.findall(r"^\tcustomer-as (\d+)[^{]*\{([^}]*)\}", printed_by_openbgpd(octets.decode()), re.M)
    return sorted(pair(customer, it) for customer, several in said for it in re.findall(r"\d+", several))


def of_lines(octets):
    """Those of plain lines, with or without `--long`."""
    said = re.findall(r"^origin AS(\d+) (\S+?/\d+)(?:-(\d+))?(?: .*)?$", octets.decode(), re.M)
    return sorted(origin(*it) for it in said)


def of_csv(octets):
    """Those of Python's csv."""
    header, *rows = csv.reader(io.StringIO(octets.decode(), newline=""))
    if header != COLUMNS:
        raise ValueError(f"other columns: {header}")
    return sorted(origin(*row[:3]) for row in rows)


def of_json(octets):
    """Those of Python's json, in either form."""
    return sorted(origin(it["asn"], it["prefix"], it["maxLength"]) for it in json.loads(octets)["roas"])


def of_bird(octets):
    """Those of a BIRD 2 that runs with the tables."""
    with tempfile.TemporaryDirectory() as room:
        with open(f"{room}/bird.conf", "wb") as it:
            it.write(BIRD.encode() + octets)
        ran("bird", "-p", "-c", f"{room}/bird.conf")
        with subprocess.Popen(["bird", "-f", "-c", f"{room}/bird.conf", "-s", f"{room}/ctl"],
                              stderr=subprocess.DEVNULL) as server:
            try:
                tables = {name: bird_table(f"{room}/ctl", name) for name in ("ROAS4", "ROAS6")}
            finally:
                server.terminate()
    for name, rows in tables.items():
        if any((":" in prefix) != (name == "ROAS6") for _, prefix, _ in rows):
            raise ValueError(f"a route of another family in {name}")
    return sorted(tables["ROAS4"] + tables["ROAS6"])


def bird_table(control, name):
    """The routes of a table, once BIRD answers."""
    for _ in range(50):
        asked = subprocess.run(["birdc", "-s", control, "show", "route", "table", name],
                               capture_output=True, text=True, check=False)
        if asked.returncode == 0:
            break
        time.sleep(0.1)
    else:
        raise ValueError(f"birdc: {asked.stderr}")
    said = re.findall(r"^(\S+/\d+)-(\d+) +AS(\d+) ", asked.stdout, re.M)
    return [origin(asn, prefix, longest) for prefix, longest, asn in said]


def of_router(octets):
    """Those that a router has from StayRTR, which takes no option about the content of its file."""
    with socket.create_server(("127.0.0.1", 0)) as free:
        host, port = map(str, free.getsockname())
    with tempfile.NamedTemporaryFile() as it:
        it.write(octets)
        it.flush()
        with subprocess.Popen(["stayrtr", "-cache", it.name, "-bind", f"{host}:{port}", "-metrics.addr", "127.0.0.1:0"],
                              stdout=subprocess.DEVNULL, stderr=subprocess.DEVNULL) as server:
            try:
                said = asked_of_router(host, port)
            finally:
                server.terminate()
    # `rtrclient` prints the numbers of ASes with a sign.
    return sorted(origin(int(asn) % 2 ** 32, f"{address}/{length}", most) for address, length, most, asn in
                  re.findall(r"^(\S+), (\d+), (\d+), (-?\d+)$", said, re.M))


def asked_of_router(host, port):
    """What `rtrclient` prints, once there is a server."""
    for _ in range(50):
        with socket.socket() as it:
            if it.connect_ex((host, int(port))) == 0:
                return ran("timeout", "20", "rtrclient", "-e", "-t", "csv", "tcp", host, port)
        time.sleep(0.1)
    raise ValueError("stayrtr serves nothing")


def of_openbgpd(octets):
    """Those that `bgpd -n -v` prints again."""
    text = octets.decode()
    if not knows_aspas():
        text = text.split("aspa-set")[0]
    said = printed_by_openbgpd(text)
    rows = re.findall(r"^\t(\S+/\d+)(?: maxlen (\d+))? source-as (\d+)", said, re.M)
    return sorted(origin(asn, prefix, longest) for prefix, longest, asn in rows)


def printed_by_openbgpd(text):
    """What `bgpd -n -v` prints of a configuration with this."""
    with tempfile.NamedTemporaryFile("w", suffix=".conf") as it:
        it.write(OPENBGPD + text)
        it.flush()
        return ran("bgpd", "-n", "-v", "-f", it.name)


def knows_aspas():
    """Whether this OpenBGPD is of release 7.8 or later, as it says it."""
    done = subprocess.run(["bgpd", "-V"], capture_output=True, text=True, check=False)
    return not re.match(r"OpenBGPD 7\.[0-7]\b", done.stdout + done.stderr)


# The readers of each format, and the programs that they need.
READERS = {
    "lines": [(of_lines,)], "--long": [(of_lines,)], "csv": [(of_csv,)],
    "json": [(of_json,), (of_router, "stayrtr", "rtrclient")],
    "rpki-client": [(of_json,), (of_router, "stayrtr", "rtrclient")], "bird": [(of_bird, "bird", "birdc")],
    "openbgpd": [(of_openbgpd, "bgpd")]}
ASPA_READERS = {
    "lines": [(aspas_of_lines,)], "--long": [(aspas_of_lines,)], "json": [(aspas_of_json,)],
    "rpki-client": [(aspas_of_json,)],
    "openbgpd": [(aspas_of_openbgpd, "bgpd")]}


def judge(runs, printed, wanted, readers):
    """Judges what each reader of these texts, `{format: octets}`, has."""
    for name, octets in printed.items():
        for reader, *needed in readers.get(name, ()):
            lacking = [it for it in needed if not shutil.which(it)]
            if lacking:
                print(f"{name}: LEFT OUT, as there is no {lacking[0]}")
            elif reader is aspas_of_openbgpd and not knows_aspas():
                print(f"{name}: LEFT OUT the ASPAs, which OpenBGPD knows since 7.8")
            else:
                try:
                    got = reader(octets)
                except (ValueError, KeyError) as error:
                    got = f"refused: {error}"
                runs.judge(f"{name}: {reader.__name__}", got, wanted)


def tree():
    """A tree with the least and the greatest numbers and lengths, and its origins and pairs."""
    made = Tree()
    for file, number, prefixes in (("least.roa", 0, ["10.1.2.0/24-32", "10.1.255.255/32"]),
                                   ("most.roa", 4294967295, ["2001:db8:1::/64-128"])):
        made.a.add_roa(file, number, prefixes)
        for prefix, _, most in (it.partition("-") for it in prefixes):
            made.found["one"].append(("origin", number, prefix, int(most or prefix.split("/")[1]), ""))
    origins = [origin(*it[1:4]) for it in made.found["one"] if it[0] == "origin"]
    return made, origins, [pair(it[1], provider) for it in made.found["one"] if it[0] == "aspa" for provider in it[2]]


def main(words):
    program = running.programs(running.reader().parse_args(words), "rpki_verify")["rpki_verify"]
    made, origins, pairs = tree()
    text = exceptions.made(filters=[{"asn": 65002}], assertions=exceptions.ASSERTIONS)
    with tempfile.TemporaryDirectory(prefix="readers-") as room:
        runs = running.Runs(program, room)
        runs.is_terse = True
        runs.lay({f"copy/{path}": octets for path, octets in made.written().items()})
        runs.lay({"one.tal": made.tals["one.tal"], "again.tal": made.tals["one.tal"], "exceptions.json": text.encode()})
        for slurm in None, "exceptions.json":
            left, pairs_left = map(sorted, exceptions.after(origins, pairs, *[text] * bool(slurm)))
            printed = {it: runs.ran(asked(it, slurm))[1] for it in READERS}
            judge(runs, printed, left, READERS)
            judge(runs, printed, pairs_left, ASPA_READERS)
    return runs.end()


def asked(form, slurm):
    """The words that ask for a format, or with an option."""
    given = {"options": [form]} if form.startswith("-") else {"format": form}
    return words("payloads", "copy", "one.tal", "again.tal", slurm=slurm, **given)
