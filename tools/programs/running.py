"""Runs of a built program, which are judged and counted: for the other modules here."""
import argparse
import os
import pathlib
import re
import resource
import shutil
import signal
import subprocess
import sys
import tempfile

from commands import stop
from unproved import PROGRAMS, ROOM, TOP, Unbuilt, program_of

# How long a run may take, and how many times longer one of a program that rt try built.
SECONDS, SLOWER = 60, 10
# The stack of a run on a large file, and its memory: this, and that many times the file.
STACK, LEAST, TIMES = 256 << 10, 16 << 20, 4
OUT_OF_MEMORY = 3, b"", b"out of memory\n"
# Runs the words after it, with its streams into two files, and tells how it ended, how many seconds of the processor it
# took, and how many KiB of memory it had at most. (It has some 13 MiB itself, which are counted where that is more.)
MEASURE = """
import resource, subprocess, sys
with open(sys.argv[1], "wb") as out, open(sys.argv[2], "wb") as err:
    status = subprocess.run(sys.argv[3:], stdout=out, stderr=err).returncode
used = resource.getrusage(resource.RUSAGE_CHILDREN)
print(status, used.ru_utime + used.ru_stime, used.ru_maxrss)
"""


# ---- the programs

def reader():
    """Reads the words of a subcommand: which programs it runs."""
    made = argparse.ArgumentParser(add_help=False)
    made.add_argument("--unproved", action="store_true")
    made.add_argument("--in", dest="folder")
    return made


def programs(given, *names):
    """Where these programs lie, or both."""
    found = {}
    for name in names or PROGRAMS:
        try:
            path = program_of(name) if given.unproved else f"{given.folder or TOP / f'crates/{name}/out'}/{name}"
        except (OSError, Unbuilt) as fault:
            stop(fault)
        found[name] = os.path.abspath(path)
        if not os.path.isfile(path):
            stop(f"there is no program {path}; `rt run` in crates/{name} makes it")
    return found


# ---- what is done before a program begins

def closed(number):
    """What closes a stream."""
    return lambda: os.close(number)


def both(first, second):
    return lambda: (first(), second())


def limited(octets):
    """What limits the memory."""
    return lambda: resource.setrlimit(resource.RLIMIT_AS, (octets, octets))


def narrow():
    """Limits the stack."""
    resource.setrlimit(resource.RLIMIT_STACK, (STACK, STACK))


def starts_limited(program):
    """Whether a program starts where its address space is limited. One that rt try built does not: it keeps much of
    that, to test each access of memory."""
    free, bound = (subprocess.run([program, "--help"], capture_output=True, preexec_fn=it).returncode
                   for it in (None, limited(48 << 20)))
    return free == bound


def compiled(source, room):
    """Compiles a file of C that is loaded before a program's libraries; None where there is no compiler."""
    compiler, made = shutil.which(os.environ.get("CC") or "cc"), f"{room}/{source.stem}.so"
    words = [compiler, "-O2", "-shared", "-fPIC", "-o", made, source]
    return made if compiler and subprocess.run(words).returncode == 0 else None


# ---- runs

class Count:
    """What was as wanted and what was not. One that is terse prints the latter alone."""

    is_terse = False

    def __init__(self):
        self.passed = self.failed = 0

    def judge(self, name, got, *wanted):
        """Prints a line for what is got, which has to be one of those wanted."""
        if got in wanted:
            self.passed += 1
            print(f"{name}: as wanted\n" if not self.is_terse else "", end="", flush=True)
            return
        self.failed += 1
        choices = " or ".join(f"{it!s:.2000}" for it in wanted)
        print(f"{name}: WRONG\n  got    {got!s:.2000}\n  wanted {choices}", flush=True)

    def end(self):
        """Prints the last line, and returns the status."""
        print(f"{self.passed} passed, {self.failed} failed")
        return 1 if self.failed else 0


class Runs(Count):
    """Runs of a program in a folder."""

    def __init__(self, program, room):
        super().__init__()
        self.program, self.room, self.env = program, room, {**os.environ, **ROOM}
        self.is_plain = starts_limited(program)
        self.seconds = SECONDS if self.is_plain else SLOWER * SECONDS

    def write(self, name, octets):
        """Writes a file in the folder."""
        path = os.path.join(os.fsencode(self.room), os.fsencode(name))
        os.makedirs(os.path.dirname(path), exist_ok=True)
        pathlib.Path(os.fsdecode(path)).write_bytes(octets)

    def lay(self, files):
        for name, octets in files.items():
            self.write(name, octets)

    def ran(self, words, *, prefix=(), called=None, seconds=None, **settings):
        """Runs the program. Returns its status (negative: a signal; None: too slow) and what its streams took."""
        given = {"cwd": self.room, "env": self.env, "stdin": subprocess.DEVNULL, "stdout": subprocess.PIPE,
                 "stderr": subprocess.PIPE, "executable": None if prefix else self.program} | settings
        argv = [*prefix, self.program if called is None else called, *words]
        with subprocess.Popen(argv, start_new_session=True, **given) as process:
            try:
                out, err = process.communicate(timeout=seconds or self.seconds)
                status = process.returncode
            except subprocess.TimeoutExpired:
                os.killpg(process.pid, signal.SIGKILL)
                out, err = process.communicate()
                status = None
            except BaseException:
                os.killpg(process.pid, signal.SIGKILL)
                raise
        return status, out or b"", err or b""

    def measured(self, words, **settings):
        """The same, and the seconds of the processor and the MiB of memory that it took."""
        with tempfile.TemporaryDirectory() as folder:
            streams = f"{folder}/out", f"{folder}/err"
            prefix = [sys.executable, "-I", "-S", "-c", MEASURE, *streams]
            status, told, _ = Runs.ran(self, words, prefix=prefix, seconds=2 * self.seconds, **settings)
            if status is None:
                return (None, b"", b""), 2.0 * self.seconds, 0
            status, seconds, most = told.split()
            return (int(status), *(pathlib.Path(it).read_bytes() for it in streams)), float(seconds), int(most) >> 10

    def peak(self, words, size, **settings):
        """How much memory a run on large files has at most, and how many times the files that is."""
        if size < 10_000_000 or not self.is_plain:
            return ""
        *_, most = self.measured(words, **settings)
        return f", {most} MiB at most, {(most << 20) / size:.1f} times the file"

    def small(self, name, size, words, *wanted, times=TIMES, given=os.devnull):
        """A run on a file of this size that has a small stack, and memory in proportion to the file. The file that is
        given is its standard input."""
        before = both(narrow, limited(LEAST + times * size)) if self.is_plain else narrow
        with open(os.path.join(self.room, given), "rb") as it:
            got = self.ran(words, stdin=it, preexec_fn=before)
            it.seek(0)
            peak = self.peak(words, size, stdin=it)
        self.judge(f"{name}, {size} octets, {said(words)}{peak}", got, *wanted)

    def refused_in_turn(self, preload, words, wanted, *others):
        """Runs the program once for each allocation that it makes, with that one refused (refuse_growth.c): each
        of the other answers that it may have is seen."""
        if not self.is_plain or not preload:
            return
        settings = self.env | {"LD_PRELOAD": preload}
        status, _, err = self.ran(words, env=settings | {"FAIL_COUNT": "1"})
        found = re.search(rb"^growths (\d+)$", err, re.MULTILINE)
        if not found:
            self.judge(f"allocations are counted, {said(words)}", (status, err), (0, b"growths N"))
            return
        count, refused, seen = int(found[1]), 0, set()
        for at in range(1, count + 1):
            got = self.ran(words, env=settings | {"FAIL_AT": str(at)})
            refused += got == OUT_OF_MEMORY
            seen.add(got)
            if got not in (wanted, OUT_OF_MEMORY, *others):
                self.judge(f"allocation {at} of {count} refused, {said(words)}", got, wanted, OUT_OF_MEMORY, *others)
        name = f"{count} allocations refused in turn, {said(words)}: out of memory {refused} times"
        self.judge(name, refused > 0, True)
        if others:
            self.judge(f"each answer is seen, {said(words)}", {*others} - seen, set())


def said(words):
    """Words, with files by the last part of their names."""
    return repr(b" ".join(os.path.basename(os.fsencode(it)) for it in words))
