"""Refuses each allocation of a test in turn, and looks at what the test answers.

    tools/test growth [--seconds N] [CRATE ..]         the tests of these crates, or of all, and then a table
    tools/test growth [--seconds N] CRATE TEST ..      these tests of a crate

The tests of CRATE are those that `tools/test sweep` finds, with those of sweeps/CRATE/growth.rattle and of each other
file of sweeps/CRATE whose head names this tool. Nothing is proved: `rt try` builds them, with each access of memory
tested (AddressSanitizer), and a program that refuses one allocation, whose number stands in its code; the tool takes
that program while it runs. TEST is a test's whole name, as `der::growth::one_of_each`, or its end, as `one_of_each`.
A C compiler has to be there as `cc` (or $CC).

A test is run once, and at each of its allocations a process of its own goes on with that one refused, and no other
(tools/testing/each_growth.c). Such a process
    passes (status 0): the answer was right, or did not need that memory;
    ends at a `?` on an error of memory (status 101): the test handed it on;
    does anything else, as to stop at an assertion or by a signal, or to end at a `?` on another error: a wrong
    answer, which is shown.
So a test for this hands want of memory on by `?`, and asserts everything else. A test that takes any error for a
refusal, or asserts an Ok, is not written for it.

Two sorts of tests say by their names what has to become of the refused allocations, and are wrong where something
else does, where they make none, and where they are left out:
    .._no_memory: what is asked takes no memory. Each refused allocation has to be one of the making before, which
        hands it on; or, where the making can do without some, the last has to be one, or reading_takes_memory beside
        it, which makes the same and asks nothing, has to make as many;
    refused_.._changes_nothing (or _anchors_not_all, or _keeps_..), the_same_.._succeeds (or _signs): a call that is
        refused changes nothing, or is made again. At least one refused allocation has to get past the making, to that
        call, so that the test passes all the same.

Prints a line for each test; one that takes more than an hour, or than the seconds that are given, is left out. The
table has of each crate how many allocations were refused, how often the answer was that memory ran out, how often it
was as if nothing had been refused, and how often another one.
"""
import argparse
import ast
import collections
import contextlib
import errno
import os
import pathlib
import re
import resource
import signal
import subprocess
import tempfile
import time
from concurrent.futures import ThreadPoolExecutor

import crates
from commands import stop
from programs.running import compiled
from testing import sweep
from unproved import ROOM

# How long a run may take, and, unless that is told, how long one may from each of whose allocations another process
# goes on.
SECONDS, SECONDS_OF_EACH = 300, 3600
# A test that makes more allocations is left out where each takes a run: that would take hours.
MOST = 10_000
# The names of tests that ask without memory, of what such a test may be compared with, and of tests in which a call is
# refused.
ASKS = re.compile(r"_no_memory$")
MAKES = "reading_takes_memory"
REFUSES_A_CALL = re.compile(
    r"(refused_\w+_(changes?_nothing|anchors_not_all|keeps_\w+)|the_same_\w+_(succeeds|signs))$")
# How the errors that stand for want of memory are written by `Debug`.
OF_MEMORY = re.compile(r"^[Ee]rror: .*(Alloc|Memory|Reserve)", re.MULTILINE)
# The allocation that rt try is asked to refuse, which no test reaches: its number is found again in the program.
MARK = 1234567891
# cmp $MARK, %rax; jne over; xor %eax, %eax: what stands in front of a refused allocation.
REFUSES = re.compile(re.escape(b"\x48\x3d" + MARK.to_bytes(4, "little")) + rb"\x75.\x31\xc0", re.DOTALL)
# What each_growth.c takes in the place of the comparison: a trap, and nothing after it.
TRAP = b"\xcc" + 5 * b"\x90"

# Of a test: how many allocations were refused, how often the answer was want of memory, how often it was as if nothing
# had been refused, how often another one, and the line to print.
Swept = collections.namedtuple("Swept", "refused memory unchanged others line")
# Of a test with ample memory: its status, what it said and the number of its allocations; and of each of these the
# status and what was said where it was refused, or None where the test is left out, which `said` has the cause of.
Answers = collections.namedtuple("Answers", "status said count each")


class Program:
    """The program that rt try builds of tests: with a trap at each allocation, or with the number of the refused one
    changed in its code."""

    def __init__(self, program, seconds, room):
        self.path, self.seconds, self.room = program, seconds, room
        self.code = pathlib.Path(program).read_bytes()
        self.places = [it.start() for it in REFUSES.finditer(self.code)]
        # (a program that allocates nothing has none, and then its number nowhere)
        if not self.places and MARK.to_bytes(4, "little") in self.code:
            stop("no refused allocation is found in the program that rt try builds: this kit makes it otherwise")
        source = pathlib.Path(__file__).with_name("each_growth.c")
        self.preload = compiled(source, room) or stop("there is no C compiler")
        self.trapped = self.changed({0: TRAP})

    def changed(self, octets):
        """Writes the program with other octets so far from each place at which an allocation may be refused."""
        code = bytearray(self.code)
        for place in self.places:
            for at, it in octets.items():
                code[place + at:place + at + len(it)] = it
        made, path = tempfile.mkstemp(dir=self.room)
        with os.fdopen(made, "wb") as it:
            it.write(code)
        os.chmod(path, 0o755)
        return path

    @staticmethod
    def run(path, test, seconds=SECONDS, **settings):
        """Runs a test and returns its status (negative: a signal) and what it said."""
        with tempfile.TemporaryDirectory() as room:
            try:
                ran = subprocess.run([path, test], env=os.environ | ROOM | settings, cwd=room, stdin=subprocess.DEVNULL,
                                     stdout=subprocess.PIPE, stderr=subprocess.PIPE, errors="replace", timeout=seconds)
            except subprocess.TimeoutExpired:
                return None, f"it had not ended after {seconds} seconds"
        return ran.returncode, ran.stderr

    def refuse(self, test, at, ends=False):
        """Runs a test with this allocation refused, or, where it ends there, by a signal at it."""
        path = self.changed({2: at.to_bytes(4, "little")} | ({8: b"\x0f\x0b"} if ends else {}))
        try:
            while True:
                try:
                    return self.run(path, test)
                except OSError as error:
                    # (a process that another thread starts has the copy open for a moment)
                    if error.errno != errno.ETXTBSY:
                        raise
                    time.sleep(0.01)
        finally:
            os.remove(path)

    def count(self, test):
        """Runs a test with ample memory: returns its status, what it said and the number of its allocations, the last
        at which it can be ended."""
        status, said = self.refuse(test, MARK)
        if status != 0 or not self.places:
            return status, said, 0
        low, high = 0, 1
        while self.refuse(test, high, ends=True)[0] != 0:
            low, high = high, 2 * high
        while high - low > 1:
            middle = (low + high) // 2
            low, high = (middle, high) if self.refuse(test, middle, ends=True)[0] != 0 else (low, middle)
        return status, said, low

    def by_runs(self, test):
        """Runs a test once to count its allocations, and then with each of them refused."""
        status, said, count = self.count(test)
        if status != 0 or count > MOST:
            return Answers(status, said if status else f"it makes {count} growths", count, None)
        with ThreadPoolExecutor(os.cpu_count()) as pool:
            return Answers(status, said, count, [*pool.map(lambda at: self.refuse(test, at), range(1, count + 1))])

    def answers(self, test):
        """Runs a test once, from each allocation of which a process of its own goes on."""
        with tempfile.TemporaryDirectory(dir=self.room) as room:
            settings = {"EACH_TO": f"{room}/each", "EACH_AT_ONCE": str(os.cpu_count()), "LD_PRELOAD": self.preload}
            status, said = self.run(self.trapped, test, self.seconds, **settings)
            each = each_in(f"{room}/each")
        if status is None:
            return Answers(0, said, len(each), None)
        if status != 0 or sorted(each) != [*range(1, len(each) + 1)]:
            # (one that reads a file does so from where another process has read to)
            return self.by_runs(test)
        # (what is wrong is looked at again, in a run of its own)
        again = (self.refuse(test, at) if is_wrong(*each[at]) else each[at] for at in sorted(each))
        return Answers(0, said, len(each), [*again])


def each_in(path):
    """Of a file that each_growth.c wrote, the status of each process and what it said."""
    found = {}
    with open(path, "rb") as it:
        while line := it.readline():
            at, status, length = map(int, line.split())
            found[at] = os.waitstatus_to_exitcode(status), it.read(length).decode(errors="replace")
    return found


# ---- what is said of a test

def is_handed_on(status, said):
    """Whether a test ended since it handed on that memory ran out."""
    return status == 101 and bool(OF_MEMORY.search(said))


def is_wrong(status, said):
    return status != 0 and not is_handed_on(status, said)


def judged(program, test, tests, count, ends):
    """Whether what a test's name says of refused allocations is so, by whether it ended at each of them, and a word on
    it."""
    asks, past, beside = ASKS.search(test), ends.count(False), f"{test.rpartition('::')[0]}::{MAKES}"
    if not asks and not REFUSES_A_CALL.search(test):
        return True, ""
    if not ends:
        return False, "it makes no allocation"
    if not past:
        return bool(asks), "none got past the making" + ("" if asks else ": no call that it is about was refused")
    if not asks:
        return True, f"{past} got past the making"
    if ends[-1]:
        return True, "the last is one of the making"
    if beside in tests and program.count(beside)[2] == count:
        return True, f"as many as {MAKES} makes"
    return False, "what is asked takes memory"


def swept(program, test, tests):
    """Refuses each allocation of one test of these in turn."""
    status, said, count, each = program.answers(test)
    if status != 0:
        why = f"it does not pass with ample memory (status {status}): {' '.join(said.split())}"
        return Swept(0, 0, 0, 1, f"{test}: WRONG: {why}")
    if each is None:
        is_named = bool(ASKS.search(test) or REFUSES_A_CALL.search(test))
        return Swept(0, 0, 0, int(is_named), f"{test}: {'WRONG: ' * is_named}left out, since {said}")
    ends = [is_handed_on(*it) for it in each]
    wrong = [told_of(at, count, *it) for at, it in enumerate(each, 1) if is_wrong(*it)]
    memory = ends.count(True)
    unchanged = count - memory - len(wrong)
    if wrong:
        return Swept(count, memory, unchanged, len(wrong), f"{test}: WRONG {len(wrong)} times, the first {wrong[0]}")
    is_so, word = judged(program, test, tests, count, ends)
    right = f"all answers right{word and f' ({word})'}" if is_so else f"WRONG: {word}"
    line = f"{test}: {count} growths refused, {memory} handed on, {right}"
    return Swept(count, memory, unchanged, int(not is_so), line)


def told_of(at, count, status, said):
    """Says what a wrong answer was."""
    is_slow = status is None or -status in (signal.SIGALRM, signal.SIGXCPU)
    end = "too slow" if is_slow else f"status {status}" if status >= 0 else f"stopped by signal {-status}"
    return f"where growth {at} of {count} is refused ({end}): {' '.join(said.split())}"


# ---- the tests of a crate

def hands_on(path):
    """Whether a sweep hands want of memory on: growth, and one whose head, or that of the script that writes it, says
    so."""
    text = path.read_text()
    head = ast.get_docstring(ast.parse(text)) if path.suffix == ".py" else "".join(re.findall(r"^//!.*", text, re.M))
    return path.name == "growth.rattle" or "`tools/test growth`" in (head or "")


def sweeps_of(crate):
    return {name: path for name, path in sweep.sweeps_of(crate).items() if hands_on(path)}


def built(folder, room):
    """Has rt try build a crate's tests, takes the program while it runs, and returns where it lies."""
    taken, held = f"{room}/taken", f"{room}/held"
    os.makedirs(f"{room}/try")
    # (the program is wanted, not what it says: a test may be ended there after a second)
    words = ["rt", "try", "--test", "--seconds", "1", "--fail-alloc", str(MARK)]
    with open(f"{room}/said", "w+", errors="replace") as said:
        trying = subprocess.Popen(words, cwd=folder, stdin=subprocess.DEVNULL, stdout=said, stderr=said,
                                  env={**os.environ, "TMPDIR": f"{room}/try"})
        while trying.poll() is None:
            for path in programs_below(f"{room}/try"):
                with contextlib.suppress(OSError):
                    # (a second name of the file keeps it, written to its end, when rt try removes its own)
                    if not os.path.isfile(taken) or not os.path.samefile(path, taken):
                        os.link(path, held)
                        os.replace(held, taken)
            time.sleep(0.01)
        # (a test that does not pass with ample memory is told by the run of its own)
        if not os.path.isfile(taken):
            said.seek(0)
            print("\n".join(said.read().split("\n")[-20:]), flush=True)
            stop("rt try did not build the tests")
    os.chmod(taken, 0o755)
    return taken


def programs_below(folder):
    """Where rt try may have put its program (this is asked often)."""
    with contextlib.suppress(OSError):
        parts = [part for it in os.scandir(folder) if it.is_dir() for part in os.scandir(it)]
        return [f"{it.path}/program" for it in parts if it.is_dir()]
    return []


def of_crate(crate, names, seconds):
    """Tries the tests of a crate with these names, or all, prints a line for each, and returns what was found of
    each."""
    found = []
    with tempfile.TemporaryDirectory() as room, tempfile.TemporaryDirectory() as copy:
        program = Program(built(sweep.made(crate, sweeps_of(crate), copy), room), seconds, room)
        listed = subprocess.run([program.path, "--list"], stdout=subprocess.PIPE, text=True).stdout
        tests = re.findall(r"^(\S+): test$", listed, re.MULTILINE)
        for test in chosen(crate, names, tests):
            found.append(swept(program, test, tests))
            print(found[-1].line, flush=True)
    return found


def chosen(crate, names, tests):
    """The tests with these names, or all."""
    found = []
    for name in names:
        fitting = [it for it in tests if it == name] or [it for it in tests if it.endswith(f"::{name}")]
        if len(fitting) != 1:
            stop(f"{crate} has {len(fitting)} tests named {name}; it has: {' '.join(tests)}")
        found += fitting
    return found or tests


def row_of(crate, found):
    """The row of a crate, of whose tests this was found, or that they were not run."""
    if found is None:
        return f"| `{crate}` | not run | | | | |"
    sums = map(sum, zip((0, 0, 0, 0), *(it[:4] for it in found)))
    return f"| `{crate}` | {' | '.join(map(str, (len(found), *sums)))} |"


def main(words):
    resource.setrlimit(resource.RLIMIT_CORE, (0, 0))
    reader = argparse.ArgumentParser(add_help=False)
    reader.add_argument("--seconds", type=int, default=SECONDS_OF_EACH)
    reader.add_argument("words", nargs="*")
    given, known = reader.parse_args(words), crates.uses()
    named, names = ([it for it in given.words if (it in known) == is_crate] for is_crate in (True, False))
    if names and len(named) != 1:
        stop(f"{names[0]} is no crate, and no test of one")
    every = [it for it in known if sweep.tests_of(it)[1] or sweeps_of(it)]
    found = {}
    for crate in named or every:
        print(f"{crate}:", flush=True)
        try:
            found[crate] = of_crate(crate, names, given.seconds)
        except SystemExit as end:
            # (what is wrong with one is no fault of the others)
            if end.code != 2:
                raise
    if not names:
        print("\n| crate | tests | allocations refused | out of memory | as if nothing were refused | others |")
        print("|---|---|---|---|---|---|")
        print("\n".join(row_of(crate, found.get(crate)) for crate in named or every))
    if len(found) < len(named or every):
        return 2
    return int(any(it.others for tests in found.values() for it in tests))
