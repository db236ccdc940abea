"""Runs the tools that docs/ROBUSTNESS.md names at its top, one after the other, and tells of each whether all that it
tried was right.

    tools/test hostile [--unproved] [NAME ..]    each of them, or those of these names

`sweep` and `growth` are of tools/test, and prove nothing in any case; `runs`, `verify`, `explain`, `readers` and
`trees` of tools/program, and `limited` its `trees` with --limit; `fuzz` and `fuzz-signed` are tools/fuzz, the latter
with --signed, where the keys of examples/ sign again what was changed. The programs are those that `rt run` leaves in
crates/rpki_objects/out and crates/rpki_verify/out; with --unproved those of tools/try: limits of memory and refused
allocations are left out then, and it takes much longer.

What NAME says, on both streams, goes to out/hostile/NAME.txt. Prints a line for each: whether it was right, the
seconds, the last line, and the file. All of it takes some hours, of which growth has the most.
"""
import argparse
import os
import subprocess
import time

from commands import stop
from crates import TOP

COMMANDS = {
    "sweep": "test sweep",
    "growth": "test growth",
    "runs": "program runs",
    "verify": "program verify",
    "explain": "program explain",
    "readers": "program readers",
    "trees": "program trees",
    "limited": "program trees --limit 1000000",
    "fuzz": "fuzz 1",
    "fuzz-signed": "fuzz 1 --signed",
}
# Large files are smaller under a program that tests each access.
FEWER = {"MB_OF_ZEROS": "1"}


def ran(name, is_unproved):
    """Runs a tool, prints a line for it, and returns its status."""
    tool, *words = COMMANDS[name].split()
    words += ["--unproved"] * (is_unproved and tool != "test")
    file, start = TOP / f"out/hostile/{name}.txt", time.monotonic()
    env = os.environ | (FEWER if is_unproved else {})
    file.parent.mkdir(parents=True, exist_ok=True)
    with open(file, "w+", encoding="utf-8", errors="replace") as told:
        status = subprocess.run([TOP / "tools" / tool, *words], cwd=TOP, env=env, stdin=subprocess.DEVNULL, stdout=told,
                                stderr=subprocess.STDOUT).returncode
    *_, last = ["", *(it for it in file.read_text(errors="replace").splitlines() if it.strip())]
    how = {0: "right", 2: "NOT RUN"}.get(status, "WRONG")
    print(f"{name}: {how}, {time.monotonic() - start:.0f} s: {last} ({file})", flush=True)
    return status


def main(words):
    reader = argparse.ArgumentParser(add_help=False)
    reader.add_argument("--unproved", action="store_true")
    reader.add_argument("names", nargs="*")
    given = reader.parse_args(words)
    others = [it for it in given.names if it not in COMMANDS]
    if others:
        stop(f"{others[0]} is none of {', '.join(COMMANDS)}")
    statuses = [ran(name, given.unproved) for name in given.names or COMMANDS]
    return 2 if 2 in statuses else int(any(statuses))
