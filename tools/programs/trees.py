"""Runs `rpki_verify payloads` over trees with one thing wrong each and over hostile copies.

    tools/program trees [--unproved | --in FOLDER] [WORD ..]    those with one of the words in their names, or all
    tools/program trees --large ..             those of them with large files
    tools/program trees --measure ..           the hostile ones, some of them also larger, as a table
    tools/program trees --limit OCTETS ..      the hostile ones with this limit on the work
    tools/program trees --make FOLDER          makes copy/ and tals/ in FOLDER, with several things wrong

The trees are those of tree_rows.py, each made in a temporary folder, and that of examples/. Each is asked for in each
format, a hostile one as JSON alone, and both streams and the exit status are compared, octet by octet, with what is
written there; of `--long` the objects are those of files that are there. Where there is `strace`, each file that a run
opens has to be a locator, or one below COPY by a name without a segment that is empty, . or .., or one that `--help`
opens too (the loader's); and nothing is opened that is no regular file, or has more octets than may be read. A program
that rt try built runs without a limit of the address space, and for longer; the hostile copies are smaller for it,
unless the limit is more than 10,000,000.

A copy is also read while its files change: what is said has to be that of one of the states in which each of them was.

Under a limit, and of a larger copy, it is not known what is left unread. So each payload that is printed has to be one
of those without a limit, and each of the CAs beside the hostile one among them; and so of what is refused, but for
what was not read. The table has the size of a copy, the work that is counted, the seconds of the processor and the MiB
of memory that a run takes, and what the hostile CA does to those beside it: `nothing` where their payloads are found.
The work is the least limit, to a hundredth, at which all is read, readings that are cut included. No run of a hostile
copy may take more memory than tree_rows.py says.

Copies with large files are asked for with a stack of 256 KiB and an address space of 16 MiB and four times the files
of the copy, or more where a ROA or a manifest is long, and how much memory the run had at most is printed: once, in
plain lines, but of a long ROA in each format. They have 20 MB, the most that a file may have, or as many as
MB_OF_ZEROS says, of zeros or of values in values, or 1,000,000 prefixes, 400,000 files or 900,000 serial numbers, or
as many fewer. In one copy a long ROA is cut while it is read.

Prints a line for each run that is not as wanted. Needs `openssl` 3, which tests the keys.
"""
import itertools
import math
import os
import pathlib
import re
import resource
import shutil
import stat
import tempfile
import threading
import time

from crates import TOP
from programs import running, strains
from programs.formats import WRITERS, as_json, as_lines, refusals
from programs.tree_rows import (
    A, B, BAD, C, EXAMPLES, EXAMPLES_REFUSED, GONE, HASH, HOSTILE, LARGE, LEAST, MOST, MOST_MEMORY, TIMES, TREES, ZEROS,
    Tree, beside_prefixes, make_tree, of_prefixes, path_of)
from publication import HOST, MOMENT
from verify_words import words as words_of

OPENED = re.compile(rb'open(?:at)?\((?:AT_FDCWD, |\d+, )?"((?:[^"\\]|\\.)*)"')
# What is said of a locator of whose certificate the copy has no file; `tools/program verify` compares it.
LOOKED_FOR = re.compile(rb"^.*: looked for .* and .*\n", re.M)
OBJECT = re.compile(rb" (rsync://\S+)$", re.M)
# The limit on the work, if none is given.
MOST_WORK = 8_589_934_592
# So long a run may take, of which the work is looked for.
SHORT = 60
UNREAD = re.compile(r"refused rsync://\S+: not read: \d+ CAs?, limit reached \(under rsync://\S+, one\)")


# ---- what is asked, and what is to be said

def asked(*locators, copy="copy", at=MOMENT, options=(), **values):
    return words_of("payloads", copy, *locators, at=at, options=options, **values)


def wanted(tree, write=as_lines):
    """The status and the octets of both streams."""
    if tree.found is None:
        return tree.status, b"", tree.error.encode()
    found = [*tree.found.items(), *tree.again]
    said = [tree.error, *(f"refused {name}: {text}\n" for name, text in tree.faults)]
    for name, _ in found:
        for uri, cause, under in refusals(tree.refused, name):
            said.append(f"refused {uri}: {cause} (under {under}, {name})\n")
    return tree.status, write(found, tree.refused).encode(), "".join(said).encode()


# ---- runs

class Trees(strains.Strained):
    """Runs over copies, each in a folder of its own."""

    is_terse = True

    def __init__(self, program, room):
        super().__init__(program, room)
        self.trace, self.opened = f"{room}/trace", []
        self.ran(["--help"])
        self.loader = {*self.opened}

    def ran(self, words, limit=None, **settings):
        """The status and both streams of a run; notes the names of the files that it opened, where they can be seen."""
        prefix = ["strace", "-f", "-s", "9999", "-e", "trace=openat,open", "-o", self.trace]
        is_traced = shutil.which("strace") and not limit
        status, out, err = super().ran(words, prefix=prefix * bool(is_traced), preexec_fn=limit, **settings)
        text = pathlib.Path(self.trace).read_bytes() if is_traced else b""
        self.opened = [it.decode("unicode_escape") for it in OPENED.findall(text)]
        return status, out, LOOKED_FOR.sub(b"", err)

    def laid(self, tree):
        """Makes a tree in a folder of its own, in which the next runs are; the folder goes with what this returns."""
        folder = tempfile.TemporaryDirectory(prefix="trees-")
        self.room = folder.name
        self.lay({os.path.normpath(f"copy/{path}"): octets for path, octets in tree.written().items()})
        for path, make in tree.devices.items():
            os.makedirs(os.path.dirname(f"{self.room}/copy/{path}"), exist_ok=True)
            make(f"{self.room}/copy/{path}", tree.a.files["o.roa"])
        self.lay({f"tals/{name}": octets for name, octets in tree.tals.items()})
        os.makedirs(f"{self.room}/none", exist_ok=True)
        return folder

    def write(self, name, octets):
        """Writes a file in the folder; one of zeros takes no room."""
        super().write(name, b"" if octets is ZEROS else octets)
        if octets is ZEROS:
            os.truncate(f"{self.room}/{name}", len(octets))

    def sizes(self, below=""):
        return [it.stat().st_size for it in pathlib.Path(self.room, below).rglob("*") if it.is_file()]

    def outside(self, copy, locators):
        """The names of opened files that lead out of the copy."""
        for name in self.opened:
            inside = name.removeprefix(f"{copy}/") if name.startswith(f"{copy}/") else ".."
            is_known = name.rstrip("/") == copy or name in locators or name in self.loader
            if {"", ".", ".."} & {*inside.split("/")} and not is_known:
                yield name

    def without_objects(self, name, tree, got):
        """What a run says without the objects, each of which has to be there."""
        objects = {path_of(it.decode()) for it in OBJECT.findall(got[1])}
        self.judge(f"{name}: objects that are not there", objects - {*tree.written(), *tree.devices}, set())
        return got[0], OBJECT.sub(b"", got[1]), got[2]

    def run(self, name, change):
        """Runs of a tree, one for each format."""
        tree = Tree()
        change(tree)
        with self.laid(tree) as room:
            copy, locators = tree.copy or f"{room}/copy", tree.locators()
            shut = {f"{copy}/{it}" for it in tree.devices if not is_to_read(f"{room}/copy/{it}")}
            for options, write in WRITERS.items():
                got = self.ran(asked(*locators, copy=copy, options=options))
                outside, shut_in = [*self.outside(copy, locators)], shut & {*self.opened}
                if "--long" in options:
                    got = self.without_objects(name, tree, got)
                self.judge(" ".join([name, *options]), got, wanted(tree, write))
                self.judge(f"{name}: files outside COPY", outside, [])
                self.judge(f"{name}: what is no file to read", shut_in, set())


def is_to_read(path):
    """Whether a file is a regular one, and not too large."""
    there = os.lstat(path)
    return stat.S_ISREG(there.st_mode) and there.st_size <= MOST


# ---- other runs

def examples(runs):
    """The tree of examples/, which has nothing of the second anchor's point."""
    tree = Tree()
    tree.found, tree.refused = {"anchor": EXAMPLES}, {"anchor": EXAMPLES_REFUSED}
    tree.fails(f"manifest {GONE}", "second")
    for options, write in WRITERS.items():
        if "--long" not in options:
            words = asked("examples/anchor.tal", "examples/second.tal", copy="examples", options=options)
            runs.judge(f"examples/ {options}", runs.ran(words, cwd=TOP), wanted(tree, write))


def other_runs(runs):
    """The moment of the clock, a copy without a name, little memory, and a copy that changes."""
    tree, little = Tree(), running.limited(24 << 20)
    with runs.laid(tree):
        starts = runs.ran(["--help"], limit=little)[0] == 0
        for at in "now", None:
            runs.judge(f"at {at}", runs.ran(asked("tals/one.tal", at=at)), wanted(tree))
        status, out, _ = runs.ran(asked("tals/one.tal", copy=""))
        runs.judge("an empty COPY", (status, out, {*runs.opened} - runs.loader), (2, b"", set()))
        if starts:
            memory(runs, tree, little)
        changing(runs, tree)
    if starts:
        more_and_more_memory(runs)
    else:
        print("no runs with little memory: `--help` fails there too")
    progress(runs)


def progress(runs):
    """A copy of a few more than 1,000 files: each thousand that is looked for is told. A point that is begun again is
    looked for again."""
    tree, refused = Tree(), []
    for name in "pq":
        ca = tree.ca(name, ["10.9.0.0/16"])
        ca.files |= {f"{at}.roa": b"" for at in range(550)}
        refused += ((f"{ca.folder}{at}.roa", BAD, ca.manifest) for at in range(550))
    tree.says(A + C + B, *refused)
    with runs.laid(tree):
        got = runs.ran(asked("tals/one.tal", options=["-v"]))
    thousands = max(len(re.findall(rb"rpki_verify: looked for \d+ files\n", got[2])), 1)
    told = b"".join(b"rpki_verify: looked for %d000 files\n" % it for it in range(1, thousands + 1))
    status, out, err = wanted(tree)
    runs.judge("-v", got, (status, out, told + err))


def memory(runs, tree, little):
    """A file for which the memory does not suffice: the trust anchor's ends the run under its locator, and another one
    its point."""
    refused = Tree()
    refused.says(A + C, (refused.top.manifest, "not read: 1 CA, out of memory", refused.top.manifest))
    for path, want in ((f"{HOST}/ta/top.cer", (3, b"", b"refused one: out of memory\n")),
                       (f"{HOST}/m/b/b.mft", wanted(refused)), (f"{HOST}/m/b/o.roa", wanted(refused))):
        runs.write(f"copy/{path}", bytes(MOST))
        got = runs.ran(asked("tals/one.tal"), limit=little)
        runs.judge(f"{path} of {MOST} octets in 24 MB", got, want)
        runs.write(f"copy/{path}", tree.written()[path])


def more_and_more_memory(runs):
    """Below one locator a CA with very many prefixes: with little memory its point is left unread, and with more of it
    the run under that locator ends, in which they are put together. What is below another locator is printed, unless
    even that lacks memory."""
    tree = Tree()
    top = beside_prefixes(tree, 200_000)
    with runs.laid(tree):
        whole = wanted(tree)
        tree.found["two"], tree.refused["two"] = [], [(top.manifest, "not read: 1 CA, out of memory", top.manifest)]
        choices, seen = [whole, wanted(tree), wanted(tree.fails("out of memory", "two", 3))], set()
        for most in range(24, 256):
            got = runs.ran(asked(*tree.words), limit=running.limited(most << 20))
            runs.judge(f"many prefixes in {most} MiB", got, *choices, running.OUT_OF_MEMORY)
            seen.add(got)
            if got == whole:
                break
    runs.judge("many prefixes, in more and more memory: there are all answers", {*choices} - seen, set())


def states(tree):
    """A few files of a tree, each with its octets, and what is said where it has others, or is not there: whose
    payloads are gone then, and what is refused."""
    a, b, c = tree.a, tree.b, tree.c
    points = (f"{a.folder}o.roa", A + C, a, "o.roa", HASH), (f"{c.folder}o.roa", C, c, "o.roa", HASH), \
        (b.manifest, B, b, "manifest", None)
    for uri, payloads, ca, what, cause in points:
        other = f"{what} {cause}" if cause else f"{what}: {BAD}"
        yield uri, payloads, [None, *((ca.manifest, it, ca.issuer.manifest) for it in (other, f"{what} {GONE}"))]


def answers(files):
    """What may be said of a copy whose files are in some state each."""
    for refused in itertools.product(*(it[2] for it in files)):
        state, gone = Tree(), [it for (_, lost, _), why in zip(files, refused) if why for it in lost]
        below = refused[0] is None
        state.says([it for it in A + C + B if it not in gone],
                   *(it for at, it in enumerate(refused) if it and (below or at != 1)))
        yield wanted(state)


def changing(runs, tree):
    """Runs while files are replaced, removed and made again: what is said is that of some state of each of them."""
    files, there, stop = [*states(tree)], tree.written(), threading.Event()
    choices, seen, folder = {*answers(files)}, set(), f"{runs.room}/copy"

    def change():
        for at in itertools.takewhile(lambda _: not stop.is_set(), itertools.count()):
            for step, (uri, _, _) in enumerate(files):
                path = f"{folder}/{path_of(uri)}"
                octets = (there[path_of(uri)], b"other", None)[(at + step) // (step + 1) % 3]
                if octets is None:
                    pathlib.Path(path).unlink(missing_ok=True)
                    continue
                pathlib.Path(f"{path}.new").write_bytes(octets)
                os.replace(f"{path}.new", path)

    changer = threading.Thread(target=change, daemon=True)
    changer.start()
    for _ in range(200 if runs.is_plain else 10):
        got = runs.ran(asked("tals/one.tal"), limit=running.narrow)
        seen.add(got)
        runs.judge("a copy that changes", got, *choices)
    stop.set()
    changer.join()
    print(f"a copy that changes: {len(seen)} answers of {len(choices)}", flush=True)


# ---- hostile copies

def hostile(runs, chosen, limit, is_table):
    """Copies in which one CA is hostile: what the others say is found."""
    if is_table:
        print("| tree | files | octets | work | seconds | memory | to its neighbours |\n" + "|---" * 7 + "|")
    few = not runs.is_plain and limit <= 10_000_000
    for name, change, many, fewer, *larger in HOSTILE:
        if is_chosen(name, chosen):
            hostile_tree(runs, name, change, fewer if few else many, limit, is_table)
            for count in larger if is_table and runs.is_plain and not limit else []:
                hostile_tree(runs, name, change, count, limit, is_table, True)


def hostile_tree(runs, name, change, count, limit, is_table, is_larger=False):
    """A copy in which one CA is hostile, of this size. A larger one may be cut."""
    tree, is_cut = Tree(), limit or is_larger
    change(tree, count)
    with runs.laid(tree):
        sizes = runs.sizes("copy")
        least = max(limit, LEAST.get(change, 0)) if limit else None
        words = asked("tals/one.tal", limit=least and str(least), format=None if is_cut else "json")
        got, seconds, most = runs.measured(words)
        want = wanted(tree, as_lines if is_cut else as_json)
        is_found = has_neighbours(got, want) if is_cut else got == want
        work = work_of(runs, is_cut, want, got, seconds) if is_table and not limit else ""
    runs.judge(name, got, got if is_found else want)
    if runs.is_plain:
        bound = MOST_MEMORY if is_larger else MOST_MEMORY // 4
        runs.judge(f"{name}: {most} MiB of memory, at most {bound}", most <= bound, True)
    if is_table:
        print(f"| {name}{', larger' * is_larger} | {len(sizes):,} | {sum(sizes):,} | {work} | {seconds:.2f} |"
              f" {most} | {'nothing' if is_found else 'THEY ARE LOST'} |", flush=True)


def work_of(runs, is_cut, want, got, seconds):
    """The least limit at which a run says all, as a cell of the table; a dash where that is not looked for."""
    if any(UNREAD.fullmatch(it) for it in got[2].decode().splitlines()):
        return "the limit"
    low, high = 1, MOST_WORK
    if got != want or seconds > SHORT:
        return "–"
    while 100 * (high - low) > high:
        middle = math.isqrt(low * high)
        words = asked("tals/one.tal", limit=str(middle), format=None if is_cut else "json")
        low, high = (low, middle) if runs.measured(words)[0] == want else (middle, high)
    return f"{high:,}"


def has_neighbours(got, whole):
    """Whether a run says of a hostile copy a part of what it says without a limit, and all that the CAs beside the
    hostile one say."""
    (lines, refused), (most, others) = ([it.decode().splitlines() for it in each[1:]] for each in (got, whole))
    beside = as_lines([("one", A + C + B)]).splitlines()
    return (got[0] == 0 and {*beside} <= {*lines} <= {*most}
            and all(UNREAD.fullmatch(it) for it in {*refused} - {*others}))


# ---- large files

def large(runs, chosen):
    """Copies with large files, under a small stack and with memory in proportion to the files."""
    for name, change in LARGE:
        if not is_chosen(name, chosen):
            continue
        tree = Tree()
        change(tree)
        with runs.laid(tree):
            size = sum(runs.sizes())
            bound = running.limited(running.LEAST + TIMES.get(change, running.TIMES) * size)
            for options, write in WRITERS.items():
                if options and (change is not of_prefixes or "--long" in options):
                    continue
                words = asked(*tree.locators(), options=options)
                got = runs.ran(words, limit=running.both(running.narrow, bound) if runs.is_plain else running.narrow)
                runs.judge(f"{name} {options}, large", got, wanted(tree, write))
                print(f"{name} {' '.join(options)}, {size} octets in all{runs.peak(words, size)}", flush=True)


def cut_while_read(runs):
    """A ROA of many prefixes that is cut at a moment of a run, up to when a run would have ended that refuses it: all
    that it says is told, or its point is refused."""
    tree, refused, words = Tree(), Tree(), asked("tals/one.tal")
    of_prefixes(tree, runs.cut_count)
    refused.says(B, (tree.a.manifest, f"o.roa {HASH}", tree.top.manifest))
    whole, cut = wanted(tree), wanted(refused)
    with runs.laid(tree):
        file, octets = f"copy/{HOST}/m/a/o.roa", tree.a.files["o.roa"]
        runs.write(file, octets[:-1])
        before = time.monotonic()
        runs.judge("a ROA without its last octet", runs.ran(words), cut)
        got = runs.cut_at_moments(file, octets, words, time.monotonic() - before)
    for it in got:
        runs.judge("a ROA that is cut while it is read", it, whole, cut)
    print(f"a ROA that is cut while it is read, whole {got.count(whole)} of {len(got)} times", flush=True)


def is_chosen(name, words):
    return not words or any(it in name for it in words)


def run_all(runs, given):
    """The runs that are asked for."""
    is_all = not (given.large or given.measure or given.limit)
    for name, change in TREES if is_all else []:
        if is_chosen(name, given.words):
            runs.run(name, change)
    if is_all and not given.words:
        examples(runs)
        other_runs(runs)
    if not given.large:
        hostile(runs, given.words, given.limit, given.measure)
    if given.large or is_all:
        large(runs, given.words)
        if not given.words:
            cut_while_read(runs)


def main(words):
    reader = running.reader()
    reader.add_argument("--large", action="store_true")
    reader.add_argument("--measure", action="store_true")
    reader.add_argument("--limit", type=int, default=0)
    reader.add_argument("--make")
    reader.add_argument("words", nargs="*")
    given = reader.parse_args(words)
    if given.make:
        make_tree(given.make)
        return 0
    resource.setrlimit(resource.RLIMIT_CORE, (0, 0))
    if not shutil.which("strace"):
        print("no strace, so nobody looks which files are opened")
    with tempfile.TemporaryDirectory(prefix="trees-") as room:
        runs = Trees(running.programs(given, "rpki_verify")["rpki_verify"], room)
        run_all(runs, given)
    return runs.end()
