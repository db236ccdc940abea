"""Runs that strain a program: names, streams, files that are none of the disk, that change, or that are large."""
import os
import subprocess
import threading
import time

from programs import made, running
from programs.running import OUT_OF_MEMORY, closed, limited, said

# A stream that is closed or full, or a pipe that nobody reads: nothing is said of it, and the status is 2.
CUT = 2, b"", b""
MALFORMED, NO_ISSUER = (1, b"malformed\n", b""), (1, b"issuer refused: malformed\n", b"")
# The octets of a large file of zeros or of values in values.
LARGE = int(os.environ.get("MB_OF_ZEROS", 100)) * 1_000_000
# An AS number of few octets takes more memory than other files of the same size.
TIMES_OF_NUMBERS = 8
# Names of files, of a word each; the last has as many octets as a name may have.
NAMES = (b"a b", "\u00e9\u4e2d".encode(), b"line\nend", b"--relaxed", b"a\\b", b"%s%n", b"*", b"long" * 60, b"n" * 255)
# What stands in an object in BER before its content (RFC 6488, section 2), each value that holds others with an
# indefinite length (X.690, section 8.1.3.6): the content may be in pieces.
IN_PIECES = bytes.fromhex("3080 06092A864886F70D010702 A080 3080 020103"
                          "310D 300B 0609608648016503040201 3080 060B2A864886F70D0109100118 A080")
# How often a file is cut while it is read.
CUTS = 12


def refused(cause):
    return 1, b"refused: " + cause + b"\n", b""


class Strained(running.Runs):
    """Such runs. `words` show a file, `octets` are those of one, and `shown` and `cut` what is said of it and of a part
    of it."""

    words = octets = shown = cut = None

    def __init__(self, program, room):
        super().__init__(program, room)
        # How many prefixes or files an object has that is cut while it is read.
        self.cut_count = 1_000_000 if self.is_plain else 50_000

    def unreadable(self, name, why=b"no such file"):
        """What is said of a file that can't be read, by a program that may tell why."""
        raise NotImplementedError

    def each(self, *rows):
        """Runs, each with its words and what is wanted."""
        for words, wanted in rows:
            self.judge(said(words), self.ran(words), wanted)

    def asks(self, name, file, wanted, **settings):
        """A run that shows a file."""
        self.judge(name, self.ran([*self.words, file], **settings), wanted)

    def file_names(self, names):
        """Files of these names, and one whose name is too long."""
        for name in names:
            self.asks(f"name {name[:20]!r}, not there", name, self.unreadable(name))
            self.write(name, self.octets)
            self.asks(f"name {name[:20]!r}", name, self.shown)
            os.remove(os.path.join(os.fsencode(self.room), name))
        for count in (256, 5_000):
            self.asks(f"a name of {count} octets", b"n" * count, self.unreadable(b"n" * count, b""))
        self.asks("an absolute name", os.fsencode(os.path.abspath(f"{self.room}/content")), self.shown)
        self.asks("a name through the folder above", b"folder/../content", self.shown)

    def special_files(self):
        """Files that are none of the disk."""
        self.asks("/dev/null", b"/dev/null", self.cut)
        if self.is_plain:
            self.asks("/dev/full, which has no end", b"/dev/full", OUT_OF_MEMORY, preexec_fn=limited(256 << 20))
        with open(f"{self.room}/content", "rb") as it:
            self.asks("/dev/stdin", b"/dev/stdin", self.shown, stdin=it)
        self.asks("/dev/stdin, closed", b"/dev/stdin", self.unreadable(b"/dev/stdin"), preexec_fn=closed(0))
        read, into = os.pipe()
        os.write(into, self.octets)
        os.close(into)
        self.asks("a pipe as /dev/stdin", b"/dev/stdin", self.shown, stdin=read)
        os.close(read)
        unread = self.unreadable(b"none")
        self.asks("a pipe as standard input, which is not read", b"none", unread, stdin=subprocess.PIPE)
        self.fifo()

    def fifo(self):
        """A FIFO that is given once: to open it again would wait for ever."""
        path = f"{self.room}/fifo"
        os.mkfifo(path)

        def give():
            with open(path, "wb") as it:
                it.write(self.octets)

        threading.Thread(target=give, daemon=True).start()
        self.asks("a FIFO, opened once", b"fifo", self.shown, seconds=5)

    def stream_takes_nothing(self, stream, words, before=lambda: None, wanted=CUT):
        """Runs that have something to say on a stream that is full, read-only, closed or not read, and that end so.
        `before` is called first in each."""
        name, number = f"{stream}, {said(words)}", ("stdin", "stdout", "stderr").index(stream)

        def judge(what, preexec_fn=before, **settings):
            self.judge(f"{name}: {what}", self.ran(words, preexec_fn=preexec_fn, **settings), wanted)

        with open("/dev/full", "wb") as full, open("/dev/null", "rb") as null:
            judge("full", **{stream: full})
            judge("read-only", **{stream: null})
        judge("closed", running.both(before, closed(number)))
        read, pipe = os.pipe()
        os.close(read)
        # (Python ignores SIGPIPE, and takes that back for what it starts unless told not to)
        judge("a pipe that nobody reads, SIGPIPE ignored", restore_signals=False, **{stream: pipe})
        judge("a pipe that nobody reads", **{stream: pipe})
        os.close(pipe)

    def changing_files(self):
        """A file that grows, and one that shrinks, while it is read."""
        large, path = self.octets + bytes(50_000_000), f"{self.room}/changing"

        def grow(ended):
            with open(path, "ab") as it:
                for _ in range(200):
                    if ended.wait(0.001):
                        return
                    it.write(bytes(1 << 20))

        def shrink(ended):
            for size in range(50_000_000, 0, -1_000_000):
                if ended.wait(0.001):
                    return
                os.truncate(path, size)

        for name, change in (("grows", grow), ("shrinks", shrink)):
            for _ in range(5):
                self.write("changing", large)
                ended = threading.Event()
                changer = threading.Thread(target=change, args=[ended])
                changer.start()
                self.asks(f"a file that {name} while it is read", b"changing", self.shown)
                ended.set()
                changer.join()
        for size, wanted in ((0, self.cut), (len(self.octets) - 1, self.cut), (len(self.octets), self.shown)):
            self.write("changing", large[:size])
            self.asks(f"a file that was cut to {size} octets", b"changing", wanted)

    def cut_while_read(self, what, words, octets, lines):
        """An object that fills its file, `changing`, which is cut at a moment of a run: as soon as it begins, or later,
        up to when a run would have ended that reads as much. All of it is shown, or nothing."""
        self.write("changing", octets[:-1])
        before = time.monotonic()
        self.judge(f"{what} without its last octet", self.ran(words), self.cut)
        got = self.cut_at_moments("changing", octets, words, time.monotonic() - before)
        whole = 0, lines, b""
        wrong = [it for it in got if it not in (whole, self.cut)]
        name = f"{what} of {len(octets)} octets that is cut while it is read"
        self.judge(f"{name}, whole {got.count(whole)} of {CUTS} times", (wrong or [whole])[0], whole)

    def cut_at_moments(self, file, octets, words, taken, **settings):
        """What runs say of a file whose last octet is cut off at moments of a run that takes so long."""
        got = []
        for at in range(CUTS):
            self.write(file, octets)
            cutter = threading.Timer(taken * at / (CUTS - 1), os.truncate, [f"{self.room}/{file}", len(octets) - 1])
            cutter.start()
            got.append(self.ran(words, **settings))
            cutter.join()
        return got

    def hostile(self, asked):
        """Large files named `hostile`, under a small stack and with memory in proportion to the file, each asked for by
        these words, with what is said."""
        files = (("zeros", bytes(LARGE)), ("sequences in sequences", b"\x30\x80" * (LARGE // 2)),
                 ("pieces in pieces", IN_PIECES + b"\x24\x80" * (LARGE // 2)),
                 ("pieces", IN_PIECES + b"\x24\x80" + b"\x04\x01\x30" * (LARGE // 3)))
        self.write("held", b"foobar")
        for name, octets in files:
            self.write("hostile", octets)
            for words, wanted in asked:
                self.small(name, len(octets), words, wanted)

    def put_long(self, name, octets, verdicts, *others):
        """Writes a long object and its list of verdicts, and returns it with what else is told of it."""
        self.lay({name: octets, f"{name}.verdicts": verdicts})
        return octets, *others

    def long_attestations(self, words, cause):
        """Attestations of many AS numbers, which are refused for this, and of many certificates."""
        octets, *_ = self.put_long("long.rta", *made.long_attestation(3_000_000))
        self.small("3000000 AS numbers", len(octets), words, refused(cause), times=TIMES_OF_NUMBERS)
        octets, *_ = self.put_long("long.rta", *made.attestation_of_many(2_000))
        self.small("10000 certificates", len(octets), words, refused(b"missing CRL"))
