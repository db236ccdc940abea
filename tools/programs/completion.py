"""Holds the completion for bash, and the manual page of rpki_verify, to the table of options of the program.

    tools/program completion [--unproved | --in FOLDER]    compares docs/rpki_verify.1 with what the program
                                     says: SYNOPSIS, and the words of OPTIONS; and tries share/completion.bash
                                     in a bash of its own: types words, asks for all completions of the last
                                     one, and compares the words that the command then has
    tools/program completion --write ..    writes that SYNOPSIS
    tools/program completion --check       without a program: that the calls of rpki_objects in the
                                     completion are those of SYNOPSIS in docs/rpki_objects.1

The table is what `rpki_verify --options` prints, from which it makes its usage texts too; the completion
asks it for the table. tools/pages runs `--check`, `tools/program pages` the first.

Prints what is wrong, or how much was compared.
"""
import os
import pathlib
import pty
import re
import select
import shlex
import subprocess
import tempfile
import textwrap
import time

from commands import stop
from programs import running
from unproved import ROOM, TOP

COMPLETION = TOP / "share" / "completion.bash"
MANUAL = TOP / "docs" / "rpki_verify.1"
SECONDS = 20
# What lies in the folder where words are typed.
FILES = "anchor.tal", "below/second.cer", "copy/file", "object.roa", "rta-file", "two words.roa"
# What is typed, and the words that the command has then; * is M-*, which types all completions of the last word. A
# moment of the clock stands as MOMENT.
ROWS = """
rpki_verify *                             | --help --version check explain files payloads rta show verdicts
rpki_verify p*                            | payloads
rpki_verify check *                       | check --ta anchor.tal below copy object.roa rta-file two words.roa
rpki_verify check --*                     | check --at --ca --crl --help --json --kind --registered --relaxed --ta --tal --wide
rpki_verify check --ta a*                 | check --ta anchor.tal
rpki_verify check --ta=a*                 | check --ta=anchor.tal
rpki_verify check o*                      | check object.roa
rpki_verify check object.roa *            | check object.roa --ta anchor.tal below copy object.roa rta-file two words.roa
rpki_verify check object.roa --t*         | check object.roa --ta --tal
rpki_verify check f --ta a --t*           | check f --ta a --tal
rpki_verify check f --ta=a --t*           | check f --ta=a --tal
rpki_verify check f --ta a --ca b --c*    | check f --ta a --ca b --ca --crl
rpki_verify check f --ta a --ca be*       | check f --ta a --ca below
rpki_verify check f --ta a --at *         | check f --ta a --at now
rpki_verify check --at now --ta a --a*    | check --at now --ta a --a
rpki_verify check --kind *                | check --kind aspa certificate crl manifest roa rsc rta tal
rpki_verify check --kind=cr*              | check --kind=crl
rpki_verify check --kind roa o*           | check --kind roa object.roa
rpki_verify check --ta a f tw*            | check --ta a f two words.roa
rpki_verify check --ta a -- --*           | check --ta a -- --
rpki_verify files --ta a o*               | files --ta a object.roa
rpki_verify files --ta a object.roa *     | files --ta a object.roa below copy
rpki_verify show --*                      | show --help --json --kind --registered --relaxed --wide
rpki_verify show object.roa tw*           | show object.roa two words.roa
rpki_verify rta *                         | rta anchor.tal below copy object.roa rta-file two words.roa
rpki_verify rta rta-file t*               | rta rta-file tal=
rpki_verify rta rta-file tal=a*           | rta rta-file tal=anchor.tal
rpki_verify rta f tal=a ca=b:below/*      | rta f tal=a ca=b:below/second.cer
rpki_verify verdicts --ta a o*            | verdicts --ta a object.roa
rpki_verify verdicts --ta a f *           | verdicts --ta a f
rpki_verify verdicts rta-file *           | verdicts rta-file --ta ca= tal=
rpki_verify payloads *                    | payloads below copy
rpki_verify payloads --format *           | payloads --format bird csv json lines openbgpd rpki-client
rpki_verify payloads --format=b*          | payloads --format=bird
rpki_verify payloads --limit *            | payloads --limit
rpki_verify payloads --slurm a*           | payloads --slurm anchor.tal
rpki_verify payloads -v copy --l*         | payloads -v copy --limit --long
rpki_verify payloads copy a*              | payloads copy anchor.tal
rpki_verify payloads copy a a*            | payloads copy a anchor.tal
rpki_verify explain c*                    | explain copy
rpki_verify explain copy a*               | explain copy anchor.tal
rpki_verify explain copy a tw*            | explain copy a two words.roa
rpki_verify explain copy a f *            | explain copy a f
rpki_verify other *                       | other
rpki_objects *                            | --registered --relaxed --wide check content rta show walk
rpki_objects --registered --*             | --registered --wide
rpki_objects --wide --*                   | --wide --
rpki_objects --wide che*                  | --wide check
rpki_objects check *                      | check aspa manifest roa rsc
rpki_objects content *                    | content aspa manifest roa rsc rta
rpki_objects show *                       | show aspa manifest roa rsc rta tal
rpki_objects check roa o*                 | check roa object.roa
rpki_objects check roa tw*                | check roa two words.roa
rpki_objects check roa none*              | check roa none
rpki_objects check roa object.roa *       | check roa object.roa MOMENT
rpki_objects check roa object.roa 2 a*    | check roa object.roa 2 anchor.tal
rpki_objects check roa two\\ words.roa 2 be* | check roa two words.roa 2 below
rpki_objects walk object.roa 2 tw*        | walk object.roa 2 two words.roa
rpki_objects walk object.roa 2 l t w*     | walk object.roa 2 l t with
rpki_objects walk f 2 l ta with a=ob*     | walk f 2 l ta with a=object.roa
rpki_objects walk f 2 l ta with a=b c=ob* | walk f 2 l ta with a=b c=object.roa
rpki_objects rta f 2 an*                  | rta f 2 anchor.tal
rpki_objects rta f 2 an *                 | rta f 2 an ca= tal=
rpki_objects rta f 2 an tal=a ca=b:below/* | rta f 2 an tal=a ca=b:below/second.cer
"""


def said(*words):
    """What a program prints."""
    return subprocess.run(words, capture_output=True, env=os.environ | ROOM, text=True, check=True).stdout


# ---- in a bash

class Shell:
    """An interactive bash in a folder, where each program is a function that prints its words, and rpki_verify its
    table too."""

    def __init__(self, folder, table):
        self.pid, self.terminal = pty.fork()
        if self.pid == 0:
            os.chdir(folder)
            room = {"PATH": os.environ["PATH"], "TERM": "dumb", "PS1": "", "LC_ALL": "C", "INPUTRC": "/dev/null"}
            os.execvpe("bash", ["bash", "--norc", "--noprofile", "-i"], room)
        shows = "{ printf '<''<'; printf '%s\\t' \"$@\"; printf '>''>'; }"
        tells = f"[[ $1 == --options ]] && cat {shlex.quote(table)}"
        self.type("stty -echo; bind 'set bell-style none'\n")
        self.type("bind 'set completion-query-items 0'\n")
        self.type(f"rpki_objects() {shows}\n")
        self.type(f"rpki_verify() {{ {tells} || {shows}; }}\n")
        self.type(f"source {shlex.quote(str(COMPLETION))} && rpki_objects ready\n")
        self.told()

    def type(self, text):
        os.write(self.terminal, text.encode())

    def told(self):
        """The words that the next call prints."""
        said, end = b"", time.monotonic() + SECONDS
        while time.monotonic() < end:
            if select.select([self.terminal], [], [], 0.1)[0]:
                said += os.read(self.terminal, 1 << 16)
            found = re.search(rb"<<(.*?)\t>>", said, re.S)
            if found:
                return found[1].decode().split("\t")
        stop(f"bash says nothing but {said!r}")

    def end(self):
        self.type("exit\n")
        os.waitpid(self.pid, 0)


def wrong_in_bash(program):
    """What is wrong in a bash."""
    with tempfile.TemporaryDirectory(prefix="completion-") as room:
        folder, table = pathlib.Path(room, "folder"), pathlib.Path(room, "table")
        table.write_text(said(program, "--options"))
        for name in FILES:
            (folder / name).parent.mkdir(parents=True, exist_ok=True)
            (folder / name).touch()
        shell = Shell(folder, str(table))
        for typed, wanted in (map(str.strip, line.split("|")) for line in ROWS.strip().split("\n")):
            shell.type(typed.replace("*", "\x1b*") + "\n")
            got = re.sub(r"\b\d{14}Z", "MOMENT", " ".join(shell.told()))
            if got != wanted:
                yield f"{typed!r} is completed to {got!r}, and not to {wanted!r}"
        shell.end()


# ---- the manual pages

def calls_in(text):
    """The calls in front of a usage text, each in one line."""
    lines = re.match(r"usage: (?:rpki_verify.*\n(?: {8,}\S.*\n)*(?: {7}\b)?)+", text)[0]
    return [" ".join(call.split()) for call in re.split(r"^(?:usage:| {7}\b)", lines, flags=re.M)[1:]]


def synopsis_of(program):
    """The calls of each command, and those without one, as SYNOPSIS: what is typed in bold, the rest in italics."""
    named = [it.split("\t")[0] for it in said(program, "--options").splitlines() if it.count("\t") == 3]
    calls = [call for it in named for call in calls_in(said(program, it, "--help"))]
    calls += calls_in(said(program, "--help"))[1:]
    made = []
    for call in calls:
        text = call.partition(" ")[2]
        text = re.sub(r" (?=\.\.|[^[]*\])", r"\\~", text)
        text = re.sub(r"[A-Z]+", r"\\fI\g<0>\\fR", text)
        text = re.sub(r"(^|[ [])(-{0,2}[a-z][a-z-]*)", r"\1\\fB\2\\fR", text)
        lines = textwrap.wrap(text.replace("-", "\\-"), 100, break_on_hyphens=False)
        made.append("\n".join([".B rpki_verify", *lines]))
    return "\n.br\n".join(made) + "\n"


def cut(page):
    """A manual page: what stands before the lines of SYNOPSIS, these lines, and the rest."""
    return re.split(r"(?<=^\.SH SYNOPSIS\n)(.*?)(?=^\.SH )", page, maxsplit=1, flags=re.M | re.S)


def wrong_in_manual(program):
    """What is wrong in the manual page of rpki_verify."""
    _, lines, after = cut(MANUAL.read_text())
    if lines != synopsis_of(program):
        yield f"{MANUAL.relative_to(TOP)}: SYNOPSIS is stale: run tools/program completion --write"
    rows = [row.split("\t") for row in said(program, "--options").splitlines()]
    table = {" ".join(row[1:3]).strip() for row in rows if len(row) > 4}
    section = re.search(r"^\.SH OPTIONS\n(.*?)^\.SH ", after, re.M | re.S)[1]
    heads = [it.replace("\\-", "-").partition(" ")[2] for it in re.findall(r"^\.TP\n(.*)", section, re.M)]
    for word in sorted(table ^ {"".join(shlex.split(head)).partition(",")[0] for head in heads}):
        yield f"{MANUAL.relative_to(TOP)}: OPTIONS and the table differ: {word}"


def wrong_calls():
    """Where the completion and the manual page of rpki_objects differ."""
    mine = re.search(r"^_rpki_objects_calls='([^']*)'$", COMPLETION.read_text(), re.M)[1].split("\n")
    _, part, _ = cut((TOP / "docs" / "rpki_objects.1").read_text())
    part, theirs = re.sub(r"\\f.|\\&", "", part).replace("\\-", "-"), []
    for call in part.split("\n.br\n"):
        words = []
        for line in call.strip().split("\n"):
            request, rest = re.fullmatch(r"(\.[BIR]+ )?(.*)", line).groups()
            between = "" if re.fullmatch(r"\.[BIR]{2} ", request or "") else " "
            words.append(between.join(shlex.split(rest)))
        theirs.append(" ".join(words).removeprefix("rpki_objects "))
    for call in sorted({*mine} ^ {*theirs}):
        yield f"share/completion.bash and docs/rpki_objects.1 differ: rpki_objects {call}"


def faults(program=None):
    """What is wrong, beside this program or without one."""
    if subprocess.run(["bash", "-n", COMPLETION]).returncode:
        return ["share/completion.bash is none"]
    return [*wrong_in_manual(program), *wrong_in_bash(program)] if program else [*wrong_calls()]


def main(words):
    reader = running.reader()
    reader.add_argument("--check", action="store_true")
    reader.add_argument("--write", action="store_true")
    given = reader.parse_args(words)
    program = None if given.check else running.programs(given, "rpki_verify")["rpki_verify"]
    if given.write:
        before, _, after = cut(MANUAL.read_text())
        MANUAL.write_text(before + synopsis_of(program) + after)
        return 0
    found, count = faults(program), len(ROWS.strip().split("\n"))
    right = (f"The manual page has the words of the table; {count} lines are completed rightly." if program
             else "The completion has the calls of rpki_objects.")
    print("\n".join(found or [right]))
    return 1 if found else 0
