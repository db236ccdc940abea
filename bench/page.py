"""Writes docs/BENCHMARKS.md and its picture from what bench/run measured.

What is written stands between the lines `<!-- bench/run: NAME -->` and `<!-- bench/run: end -->`.
Each goal that was missed has to have a cause in bench/README.md, by the words that name it here.
"""
import re
import statistics
import typing

import chart

# The works whose entries are counted: what they are, and what an entry is.
READ = {
    "roa": ("reading a ROA and going over it", "prefixes"),
    "manifest": ("reading a manifest of registered names, none twice, and going over it", "files"),
    "any-manifest": ("reading a manifest of any names and going over it", "files"),
    "checklist": ("reading a checklist and going over it", "files"),
    "attestation": ("reading an attestation and going over it", "signers' keys"),
    "aspa": ("reading an ASPA and going over it", "providers"),
    "aspa-in-one-pass": ("reading an ASPA, beside code that keeps nothing", "providers"),
    "write-aspa": ("writing an ASPA", "providers"),
    "crl": ("reading a revocation list and asking it once", "entries"),
    "asked": ("asking a revocation list", "entries"),
}
SINGLE = {
    "cert": "reading a certificate",
    "validate": "reading and validating a certificate, its signature apart",
    "key": "reading a key",
    "utc-time": "reading a UTCTime",
    "generalized-time": "reading a GeneralizedTime",
}
SETS = {
    "as-build": "building a set of AS numbers",
    "ip-build": "building a set of addresses",
    "union": "the union of two sets",
    "intersection": "the intersection of two sets",
    "contains": "whether a set has another",
    "contains-block": "whether a set has a block",
}
# What is wanted at most, of the time and of the instructions of plain Rust.
WANTED = {
    "roa": 1.5, "manifest": 1.2, "any-manifest": 1.2, "checklist": 1.2, "attestation": 1.6,
    "aspa": 1.3, "aspa-in-one-pass": 1.5, "write-aspa": 1.5, "crl": 1.6, "asked": 1.5,
    "cert": 1.4, "validate": 1.3, "key": 1.5, "utc-time": 1.5, "generalized-time": 1.5,
    **dict.fromkeys(SETS, 1.3),
}
OF_OPENSSL, OF_VERDICTS, OF_CLIENT = 2, 1.1, 1
# Of building a set of ten times the blocks, and of an entry's instructions among more entries.
OF_TENTH, OF_FEWER = 13, 1.05
# Who does the work.
BY = "library", "plain", "bcder"
# How much of a processor other work may take, while times are rough no more than they always are.
ROUGH = 0.25
# How many sound measurements the driver wants.
LEAST = 3
# The bits of keys.
BITS = 2048, 3072, 4096
# Which numbers of entries the summary and README take.
FEW, TYPICAL, MOST = 10, 1000, 100_000
# How far apart the least and the greatest of some numbers are, so that both are told.
APART = 1.05


class Spread(typing.NamedTuple):
    """The middle one of some numbers, the least and the greatest."""

    middle: float
    least: float
    most: float

    def is_wide(self):
        return self.most > APART * self.least


def spread(numbers):
    found = [it for it in numbers if it is not None]
    return Spread(statistics.median(found), min(found), max(found)) if found else None


def middle(found):
    return found and found.middle


class Results:
    """What was measured, by names: times, and counts that other work does not change."""

    def __init__(self, found):
        self.times, self.counted = found.get("times", {}), found.get("counts", {})
        self.of, self.runs = {}, {}
        for part in self.times, self.counted:
            for it in part.get("libraries", ()):
                self.of.setdefault((it["work"], it["by"], it["count"]), {}).update(it)
            for it in part.get("runs", ()):
                self.runs.setdefault((it["subject"], it["blocks"], it["prefixes"]), {}).update(it)
        self.signed = [nanoseconds(it) for it in self.times.get("signed", ())]

    def counts(self, work):
        return sorted({count for name, _, count in self.of if name == work})

    def value(self, work, by, count, what="processor"):
        return self.of.get((work, by, count), {}).get(what)

    def factor(self, work, count, what, by="plain"):
        return divided(self.value(work, "library", count, what), self.value(work, by, count, what))

    def grown(self, work, count, fewer, what):
        """The cost for so many entries, divided by that for fewer."""
        return divided(*(self.value(work, "library", it, what) for it in (count, fewer)))

    def of_signed(self, name):
        """Nanoseconds of what was measured several times beside openssl."""
        return spread(it.get(name) for it in self.signed)

    def factor_of_signed(self, one, other, times=1):
        """By how much one of these takes longer than another so many times."""
        return spread(divided(divided(it.get(one), it.get(other)), times) for it in self.signed)

    def run(self, subject, blocks, prefixes, what):
        return self.runs.get((subject, blocks, prefixes), {}).get(what)

    def factor_of_run(self, blocks, prefixes, what):
        return divided(self.run("rpki_verify", blocks, prefixes, what),
                       self.run("rpki-client", blocks, prefixes, what))

    def is_rough(self):
        """Whether other work may have disturbed the times."""
        return self.times["others"] > ROUGH


# What was measured beside openssl, by its name and its bits.
CHECK, MANY = ("check-roa", 1), ("many", 1)


def nanoseconds(it):
    """What was measured once beside openssl, by name."""
    found = {(row["work"], row["count"]): row["processor"] for row in it["libraries"]}
    found |= {("openssl", int(bits)): each and each * 1e3 for bits, each in it["openssl"].items()}
    return {**found, MANY: it["many"] and it["many"] * 1e6}


def twice(number):
    return number and 2 * number


def divided(one, other):
    return None if one is None or not other else one / other


def said(number, form):
    return "" if number is None else format(number, form)


def factor(number):
    return said(number, ".2f")


def time(nanoseconds):
    return "" if nanoseconds is None else chart.unit(nanoseconds * 1e-9)


def spread_of(found, form):
    """The middle one of a spread, and how far apart the others are, where that is much."""
    if not found:
        return ""
    apart = f" ({form(found.least)} to {form(found.most)})" if found.is_wide() else ""
    return form(found.middle) + apart


def table(head, rows):
    lines = ["| " + " | ".join(map(str, line)) + " |" for line in (head, *rows)]
    return "\n".join([lines[0], "|---" * len(head) + "|", *lines[1:]])


# ---- the parts of the page

def machine(it):
    if not it.times:
        return "No times were measured."
    about, others = it.times["machine"], it.times["others"]
    rows = it.times["libraries"] + [row for one in it.times["signed"] for row in one["libraries"]]
    more = statistics.median(row["clock"] / row["processor"] for row in rows)
    sound, dropped = (sum(row[what] for row in rows) for what in ("sound", "dropped"))
    few = sorted({f"`{row['work']}` of {row['count']:,} by {row['by']}" for row in rows
                  if row["sound"] < LEAST})
    client = f", `rpki-client` {about['client']}" if about["client"] else ""
    text = (f"Measured on {about['date']} on {about['processors']} processors "
            f"({about['processor']}), with `rustc` {about['rust']}, OpenSSL {about['openssl']}"
            f"{client}. Times of libraries are those of the processor; by the clock the middle one "
            f"was {100 * (more - 1):.1f} % more. Of 1,000 measurements "
            f"{1000 * dropped / (sound + dropped):.1f} were not sound and were dropped.")
    if few:
        text += f" **Too few measurements were sound of {', '.join(few)}.**"
    taken = f"other work took {others:.2f} of the {about['processors']} processors meanwhile"
    if it.is_rough():
        text += f" **Times are rough, those by the clock above all: {taken}.**"
    else:
        text += f" Beside that, {taken}."
    if it.times["few"]:
        text += " **There were few measurements of each.**"
    if not it.counted:
        text += " The memory of the libraries and instructions were not measured."
    elif not it.counted["runs"]:
        text += " Instructions were not counted."
    return text


class Compared(typing.NamedTuple):
    """What is compared with what, of which size, the factors, and what is wanted at most; how far
    apart the factors in time are where there are several; and the factors of few entries."""

    what: str
    size: str
    peer: str
    times: float | None
    counted: float | None
    wanted: float | None
    spread: Spread | None = None
    of_few: tuple = ()

    def by(self):
        """The factor that tells its place: that in instructions where no time was measured."""
        return self.counted if self.times is None else self.times

    def goal(self):
        """What became of the goal."""
        if not self.wanted or self.by() is None:
            return ""
        missed = [name for name, number in (("time", self.times), ("instructions", self.counted))
                  if number is not None and number > self.wanted]
        is_whole = len(missed) == sum(it is not None for it in (self.times, self.counted))
        return "met" if not missed else "missed" + ("" if is_whole else f" in {missed[0]}")

    def cells(self):
        times = spread_of(self.spread, factor) if self.spread else factor(self.times)
        return [self.what, self.size, self.peer, times, factor(self.counted),
                said(self.wanted, "g"), self.goal(), ", ".join(map(factor, self.of_few))]


def compared(it):
    """All that is compared."""
    yield from compared_programs(it)
    yield from compared_checks(it)
    for work, (what, entries) in READ.items():
        yield beside_plain(it, work, what, TYPICAL, f"{TYPICAL:,} {entries}")
    for work, what in SINGLE.items():
        yield beside_plain(it, work, what, 1, "")
    for work, what in SETS.items():
        yield beside_plain(it, work, what, TYPICAL, f"{TYPICAL:,} blocks")


def beside_plain(it, work, what, count, size):
    times, counted = (it.factor(work, count, kind) for kind in ("processor", "instructions"))
    of_few = [it.factor(work, FEW, kind) for kind in ("processor", "instructions")]
    return Compared(what, size, "plain Rust", times, counted, WANTED[work],
                    of_few=tuple(number for number in of_few if number))


def compared_programs(it):
    for blocks in 2, 1000:
        for prefixes in 10, MOST:
            size = f"{prefixes:,} prefixes, its certificate has {blocks:,} blocks"
            yield Compared("`rpki_verify check` of a ROA", size, "`rpki-client -f`",
                           it.factor_of_run(blocks, prefixes, "processor"),
                           it.factor_of_run(blocks, prefixes, "instructions"), OF_CLIENT)


def compared_checks(it):
    for bits in BITS:
        found = it.factor_of_signed(("verdict", bits), ("openssl", bits))
        yield Compared("a verdict on a signature", f"{bits} bits", "`openssl`",
                       middle(found), None, OF_OPENSSL, found)
    what, verdict = "checking a ROA, its CA at hand", ("verdict", 2048)
    found = it.factor_of_signed(CHECK, verdict, 2)
    ours = it.value("check-roa", "library", 1, "instructions")
    yield Compared(what, "2 prefixes", "its two verdicts", middle(found), of_verdicts(it, ours),
                   OF_VERDICTS, found)
    found = it.factor_of_signed(CHECK, ("openssl", 2048), 2)
    yield Compared(what, "2 prefixes", "the same two by `openssl`", middle(found), None, None,
                   found)
    found = it.factor_of_signed(MANY, verdict, 2)
    yield Compared("checking each further ROA in one run of `rpki_verify check`", "2 prefixes",
                   "its two verdicts", middle(found), of_verdicts(it, it.counted.get("many")),
                   OF_VERDICTS, found)


def of_verdicts(it, instructions):
    """The factor of these instructions to those of two verdicts."""
    return divided(instructions, twice(it.value("verdict", "library", 2048, "instructions")))


def compared_growth(it):
    """What more entries cost: of lists an entry, of sets all blocks."""
    for work, (what, entries) in READ.items():
        counts = it.counts(work)
        # (beside code that keeps nothing, this project does the same)
        if work != "aspa-in-one-pass" and TYPICAL in counts and counts[-1] > TYPICAL:
            times, counted = (
                divided(it.grown(work, counts[-1], TYPICAL, kind), counts[-1] / TYPICAL)
                for kind in ("processor", "instructions"))
            yield Grown(what, f"{TYPICAL:,} to {counts[-1]:,} {entries}", times, counted,
                        "an entry", OF_FEWER, False)
    for work in "as-build", "ip-build":
        counts = [count for count in it.counts(work) if count >= 10_000]
        for fewer, count in zip(counts, counts[1:]):
            yield Grown(SETS[work], f"{fewer:,} to {count:,} blocks",
                        it.grown(work, count, fewer, "processor"),
                        it.grown(work, count, fewer, "instructions"), "the whole", OF_TENTH, True)


class Grown(typing.NamedTuple):
    """What grows, from which size to which, the factors of its cost, of what that is the cost, and
    what is wanted at most, of the instructions alone or of the time too."""

    what: str
    size: str
    times: float | None
    counted: float | None
    cost: str
    wanted: float
    is_timed: bool

    def goal(self):
        return Compared(self.what, self.size, self.cost, self.times if self.is_timed else None,
                        self.counted, self.wanted).goal()

    def named(self):
        """The words for it among the causes."""
        return f"growth: {self.what}"


def sorted_by(it, is_slower):
    """What is compared and takes longer, or does not, the slowest first."""
    rows = sorted((row for row in compared(it) if row.by() is not None), key=Compared.by,
                  reverse=True)
    head = ["what", "of", "beside", "factor in time", "factor in instructions", "wanted", "goal",
            f"both of {FEW} entries"]
    return table(head, [row.cells() for row in rows if (row.by() > 1.05) == is_slower])


def grown(it):
    head = ["what", "from", "of", "factor in time", "factor in instructions", "wanted", "goal"]
    return table(head, [
        [row.what, row.size, row.cost, factor(row.times), factor(row.counted),
         f"{row.wanted:g}" + ("" if row.is_timed else " in instructions"), row.goal()]
        for row in compared_growth(it)])


def programs(it):
    head = ["blocks", "prefixes", "", "by the clock, ms", "of the processor, ms", "memory, KiB",
            "instructions"]
    rows = []
    for blocks, prefixes in sorted({key[1:] for key in it.runs}):
        first = [f"{blocks:,}", f"{prefixes:,}"]
        for subject in "rpki_verify", "rpki-client":
            of = [it.run(subject, blocks, prefixes, what)
                  for what in ("clock", "processor", "memory", "instructions")]
            rows.append([*first, f"`{subject}`", said(of[0], ".2f"), said(of[1], ".2f"),
                         said(of[2], ",.0f"), said(of[3], ",.0f")])
            first = ["", ""]
        of = [it.factor_of_run(blocks, prefixes, what)
              for what in ("clock", "processor", "memory", "instructions")]
        rows.append([*first, "factor", *map(factor, of)])
    return table(head, rows)


def growth(it):
    head = ["what", "entries", "this project", "plain Rust", "`bcder`", "factor to plain Rust",
            "that in instructions", "factor to `bcder`", "that in instructions", "instructions"]
    rows = []
    for work, (what, entries) in READ.items():
        for count in it.counts(work):
            each = [divided(it.value(work, by, count), count) for by in BY]
            of = [it.factor(work, count, number, by) for by in ("plain", "bcder")
                  for number in ("processor", "instructions")]
            counted = divided(it.value(work, "library", count, "instructions"), count)
            rows.append([what, f"{count:,} {entries}", *(said(one, ".1f") for one in each),
                         *map(factor, of), said(counted, ",.0f")])
            what = ""
    return table(head, rows)


def memory(it):
    head = ["what", "entries", "this project", "plain Rust", "`bcder`"]
    rows = []
    for work, (what, entries) in READ.items():
        for most in it.counts(work)[-1:]:
            found = [it.value(work, by, most, "memory") for by in BY]
            rows.append([what, f"{most:,} {entries}", *(said(one, ",.0f") for one in found)])
    return table(head, rows)


def single(it):
    head = ["what", "this project", "plain Rust", "`bcder`", "factor to plain Rust",
            "that in instructions", "factor to `bcder`", "instructions"]
    return table(head, [
        [what, *(time(it.value(work, by, 1)) for by in BY),
         factor(it.factor(work, 1, "processor")), factor(it.factor(work, 1, "instructions")),
         factor(it.factor(work, 1, "processor", "bcder")),
         said(it.value(work, "library", 1, "instructions"), ",.0f")]
        for work, what in SINGLE.items()])


def signatures(it):
    rows = []
    for bits in BITS:
        ours, theirs = ("verdict", bits), ("openssl", bits)
        rows.append([f"a verdict, {bits} bits", spread_of(it.of_signed(ours), time),
                     spread_of(it.of_signed(theirs), time),
                     spread_of(it.factor_of_signed(ours, theirs), factor),
                     said(it.value("verdict", "library", bits, "instructions"), ",.0f")])
    theirs = it.of_signed(("openssl", 2048))
    two = theirs and f"{time(twice(theirs.middle))} (the verdicts)"
    rows.append(["a check of a ROA of two prefixes with two verdicts, 2048 bits",
                 spread_of(it.of_signed(CHECK), time), two or "",
                 spread_of(it.factor_of_signed(CHECK, ("openssl", 2048), 2), factor),
                 said(it.value("check-roa", "library", 1, "instructions"), ",.0f")])
    return table(["what", "this project", "`openssl`", "factor", "instructions"], rows)


def sets(it):
    head = ["what", "blocks", "this project", "plain Rust", "factor", "that in instructions"]
    rows = []
    for work, what in SETS.items():
        for count in it.counts(work):
            each = [divided(it.value(work, by, count), count) for by in ("library", "plain")]
            rows.append([what, f"{count:,}", *(said(one, ".1f") for one in each),
                         factor(it.factor(work, count, "processor")),
                         factor(it.factor(work, count, "instructions"))])
            what = ""
    return table(head, rows)


PANELS = (("roa", "Reading a ROA", "prefixes"), ("manifest", "Reading a manifest", "files"),
          ("checklist", "Reading a checklist", "files"),
          ("attestation", "Reading an attestation", "signers' keys"),
          ("crl", "Reading a revocation list", "revoked numbers"),
          ("aspa", "Reading an ASPA", "providers"))


def picture(it):
    panels = []
    for work, title, entries in PANELS:
        lines = []
        for by in BY:
            line = [(count, it.value(work, by, count) * 1e-9) for count in it.counts(work)
                    if it.value(work, by, count)]
            lines += [(by, False, line)] * bool(line)
        panels.append((title, entries, lines))
    lines = []
    for style, subject in ("library", "rpki_verify"), ("rpki-client", "rpki-client"):
        for blocks in 2, 1000:
            line = [(prefixes, run["processor"] * 1e-3)
                    for (name, held, prefixes), run in sorted(it.runs.items())
                    if (name, held) == (subject, blocks)]
            lines += [(style, blocks == 1000, line)] * bool(line)
    if lines:
        panels.append(("Checking a ROA by a program", "prefixes", lines))
    return chart.picture("Processor time against entries", panels)


# ---- causes

def first_cells(text, heading):
    """What stands in the first cells of the table below a heading, parted by semicolons."""
    below = text.partition(f"\n## {heading}\n")[2].partition("\n## ")[0]
    cells = re.findall(r"^\| (.*?) \|", below, re.M)
    return {goal for cell in cells for goal in cell.split("; ")}


def unexplained(it, text):
    """Goals that were missed and have no cause, and goals with a cause that were not missed."""
    goals = [(row.what, row.goal()) for row in compared(it)]
    goals += [(row.named(), row.goal()) for row in compared_growth(it)]
    missed = {what for what, goal in goals if goal.startswith("missed")}
    named = first_cells(text, "Goals that were missed")
    for goal in sorted(missed - named):
        yield f"was missed, and has no cause: {goal}"
    for goal in sorted(named & {what for what, _ in goals} - missed):
        yield f"has a cause, and was not missed: {goal}"


# ---- writing

def filled(text, parts):
    """The text with these parts between their marks."""
    for name, part in parts.items():
        marks = re.compile(rf"(<!-- bench/run: {name} -->\n).*?(<!-- bench/run: end -->)", re.S)
        if not marks.search(text):
            raise SystemExit(f"bench: there is no mark of {name}")
        text = marks.sub(lambda found: f"{found[1]}\n{part}\n\n{found[2]}", text)
    return text


def write(top, found, writes):
    it = Results(found)
    parts = {
        "machine": machine(it), "slower": sorted_by(it, True), "faster": sorted_by(it, False),
        "programs": programs(it), "growth": growth(it), "memory": memory(it),
        "grown": grown(it), "single": single(it), "signatures": signatures(it), "sets": sets(it),
    }
    if writes:
        page = top / "docs/BENCHMARKS.md"
        page.write_text(filled(page.read_text(), parts))
        (top / "docs/benchmarks.svg").write_text(picture(it))
        print("bench: wrote docs/BENCHMARKS.md docs/benchmarks.svg")
    else:
        for name, part in parts.items():
            print(f"\n{name}\n\n{part}")
    wrong = list(unexplained(it, (top / "bench/README.md").read_text()))
    for line in wrong:
        print(f"bench: bench/README.md: {line}")
    return 1 if wrong else 0
