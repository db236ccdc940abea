"""Runs the commands that the pages show, and compares what they print with what stands there.

    tools/program pages [--unproved | --in FOLDER]

The pages are docs/COOKBOOK.md, the manual pages docs/rpki_verify.1 and docs/rpki_objects.1, and, with
--unproved, README.md. In a listing of theirs a line that begins with `$ ` is a command, together with the
next line where it ends in a backslash; the lines up to the next command are what it prints, on either
stream. A line that begins with `# ` says what the next command is for. The commands of a page run one after
the other in one bash, which begins at the top of the repository. `tools/program completion` follows.

Prints a line for each command. Needs `openssl` 3.
"""
import os
import re
import subprocess
import tempfile

from programs import completion, running
from unproved import ROOM, TOP

PAGES = "docs/COOKBOOK.md", "docs/rpki_verify.1", "docs/rpki_objects.1"
SECONDS = 120
END = "\x1e"


def listings(page):
    """The listings of a page."""
    text = (TOP / page).read_text()
    if not page.endswith(".1"):
        return re.findall(r"^```\w*\n(.*?)^```$", text, re.M | re.S)
    return [re.sub(r"\\-", "-", it).replace("\\e", "\\") for it in re.findall(r"^\.nf\n(.*?)^\.fi$", text, re.M | re.S)]


def commands(page):
    """The commands of a page, each with what it prints."""
    for listing in listings(page):
        for part in re.split(r"^\$ ", re.sub(r"^# .*\n", "", listing, flags=re.M), flags=re.M)[1:]:
            command = re.match(r"(.*\\\n)*.*\n", part)[0]
            yield command, part[len(command):]


def printed(shown, programs):
    """What each of these commands prints, one after the other in one bash."""
    script = "".join(f"{{ {command}}} 2>&1; printf '{END}'\n" for command in shown)
    with tempfile.TemporaryDirectory(prefix="pages-") as room:
        os.mkdir(f"{room}/bin")
        for name, path in programs.items():
            os.symlink(path, f"{room}/bin/{name}")
        given = {**os.environ, **ROOM, "PATH": f"{room}/bin:{os.environ['PATH']}", "LC_ALL": "C", "TMPDIR": room}
        ran = subprocess.run(["bash", "-c", script], cwd=TOP, env=given, stdin=subprocess.DEVNULL, timeout=SECONDS,
                             stdout=subprocess.PIPE, stderr=subprocess.STDOUT, text=True, errors="replace")
    return ran.stdout.split(END)


def judge(count, programs, pages=PAGES):
    """Judges each command of the pages, and the completion."""
    for page in pages:
        shown = [*commands(page)]
        got = printed([it for it, _ in shown], programs) + [""] * len(shown)
        for (command, wanted), text in zip(shown, got):
            count.judge(f"{page}: {' '.join(command.split())}", text, wanted)
    count.judge("completion", completion.faults(programs["rpki_verify"]), [])


def main(words):
    given = running.reader().parse_args(words)
    count = running.Count()
    judge(count, running.programs(given), (*PAGES, "README.md") if given.unproved else PAGES)
    return count.end()
