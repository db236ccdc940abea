"""Runs the sweeps of sweeps/: rows that are cut and followed, long input, and very many blocks.

    tools/test sweep [--seconds N] [CRATE ..]    the sweeps of these crates, as rpki_der; with none, of all; each
                                                 test may take so long, or else 60 seconds

They are no part of the gate: nothing is proved, and `rt try --test` runs them. They stand on the code of the gate's
tests. Those of rpki_NAME are the module NAME of the one crate of tests that has a file src/NAME.rt: that module is
copied, and each file src/OTHER.rt that it or a sweep names as `crate::OTHER`. The files sweeps/rpki_NAME/SWEEP.rattle
are put beside its files, and what sweeps/rpki_NAME/SWEEP.py prints is one more; those of a folder
sweeps/rpki_NAME/PART beside the files of its module PART. The tests of the gate run with them. Where no crate of
tests has such a module, the sweeps are a crate of their own, rpki_NAME_tests. The crates that the code names are
those that it stands on, those of sweeps/crates among them: sweeps/crates/uses.txt has their lines, and their files
.rattle are copied as .rt and .antt. (Want of memory is swept by `tools/test growth`.)

The sweeps of rpki_verify end with a minute of `tools/fuzz --unproved`, with a new seed each time: rt try builds both
programs for it. It prints each case that is wrong, with its octets; once mended, that is a row: a file as a case of
rows/, anything else in the tests of the crate that was at fault.
"""
import argparse
import pathlib
import re
import shutil
import subprocess
import sys
import tempfile

import crates
from commands import stop

TOP = crates.TOP
SWEEPS = TOP / "sweeps"
HEAD = "#![tactic(auto)]\n"
# The crate after whose sweeps both programs are run on changed files.
FUZZED = "rpki_verify"


def tests_of(crate):
    """The crate of tests that has those of a crate, and the module that they are there; where there is none, the name
    of a crate of their own and no module."""
    module = crate.removeprefix("rpki_")
    for file in TOP.glob(f"crates/*_tests/src/{module}.rt"):
        return file.parts[-3], module
    return f"{crate}_tests", ""


def sweeps_of(crate):
    """The sweeps of a crate: each file, by its name without its ending below the folder that they are in."""
    found = sorted(it for it in (SWEEPS / crate).rglob("*") if it.is_file())
    return {str(it.relative_to(SWEEPS / crate).with_suffix("")): it for it in found}


def write(path, text, mode="w"):
    path.parent.mkdir(parents=True, exist_ok=True)
    with open(path, mode, encoding="utf-8") as it:
        it.write(text)


def add_gate_tests(tests, module, room):
    """Copies the module of a crate of tests, or, where there is none, all of the crate that there is."""
    source = TOP / "crates" / tests
    named = f"src/{module}", f"specs/{module.capitalize()}", f"proofs/{module}"
    parts = [f"{it}{end}" for it in named for end in ("", ".rt", ".antt")] if module else crates.PARTS
    for path in (it for it in [*(source / it for it in parts), *source.glob("proofs/*.antt")] if it.exists()):
        to = room / path.relative_to(source)
        to.parent.mkdir(parents=True, exist_ok=True)
        shutil.copytree(path, to, dirs_exist_ok=True) if path.is_dir() else shutil.copyfile(path, to)
    if module:
        write(room / "src/lib.rt", f"{HEAD}\n#[cfg(test)]\nmod {module};\n")
        if (room / f"specs/{module.capitalize()}.antt").is_file():
            write(room / "specs/Lib.antt", f"pub mod {module.capitalize()}\n")
    elif not source.is_dir():
        write(room / "src/lib.rt", HEAD)


def add_sweeps(module, files, room):
    """Puts sweeps beside the files of a module."""
    for name, path in files.items():
        text = path.read_text() if path.suffix == ".rattle" else subprocess.run(
            [sys.executable, path], stdout=subprocess.PIPE, check=True, text=True).stdout
        write(room / "src" / module / f"{name}.rt", text)
        above, _, last = f"{module}/{name}".strip("/").rpartition("/")
        write(room / f"src/{above or 'lib'}.rt", f"\n{'' if above else '#[cfg(test)]'}\nmod {last};\n", "a")


def text_of(folder):
    """What the files of a folder say, one after the other."""
    return "\n".join(it.read_text() for it in folder.rglob("*.*") if it.is_file())


def made(crate, files, room):
    """Makes the crate of the tests of a crate and of some sweeps in a folder, beside those below it, and returns it."""
    tests, module = tests_of(crate)
    folder = pathlib.Path(room, "crates", tests)
    add_gate_tests(tests, module, folder)
    add_sweeps(module, files, folder)
    if module:
        # (crate::proofs is none of them)
        for name in sorted({*re.findall(r"\bcrate::(\w+)", text_of(folder / "src"))} - {module}):
            if (TOP / f"crates/{tests}/src/{name}.rt").is_file():
                shutil.copyfile(TOP / f"crates/{tests}/src/{name}.rt", folder / f"src/{name}.rt")
                write(folder / "src/lib.rt", f"\n#[cfg(test)]\nmod {name};\n", "a")
    uses, text = crates.uses("sweeps/crates/uses.txt"), text_of(folder)
    known = sorted({*uses, *(name for words in uses.values() for name in words)} - {tests})
    uses[tests] = [name for name in known if re.search(rf"\b{name}::|\bRattle\.{name}\.", text)]
    crates.copy(crates.below(tests, uses), uses, room, made=tests)
    return folder


def run(folder, seconds):
    """Runs the tests, and returns what was said of each: whether it passed, and its lines."""
    ran = subprocess.run(["rt", "try", "--test", "--seconds", str(seconds)], cwd=folder, stdin=subprocess.DEVNULL,
                         stdout=subprocess.PIPE, stderr=subprocess.STDOUT, errors="replace")
    found, last = {}, None
    for line in ran.stdout.split("\n"):
        head = re.match(r"test (\S+) \.\.\. (\S+)$", line)
        if head:
            last = head[1]
            found[last] = (head[2] == "ok", [])
        elif last and line.startswith("    "):
            found[last][1].append(line.strip())
    if not found:
        print(ran.stdout[-4000:])
        stop("the tests were not run")
    return found


def fuzzed():
    """Runs both programs on changed files for a minute, says how it went, and returns whether all was right."""
    ran = subprocess.run([TOP / "tools/fuzz", "1", "--unproved"], stdin=subprocess.DEVNULL, stdout=subprocess.PIPE,
                         stderr=subprocess.STDOUT, errors="replace")
    lines = ran.stdout.rstrip("\n").split("\n")
    wrong = [line for line in lines if line.startswith("WRONG")]
    told = f"{lines[0]}, {lines[-1]}" if ran.returncode < 2 else ran.stdout[-4000:]
    print("\n".join([*wrong, f"rpki_verify tools/fuzz: {'WRONG' if ran.returncode else 'ok'}: {told}"]), flush=True)
    return ran.returncode == 0


def main(words):
    reader = argparse.ArgumentParser(add_help=False)
    reader.add_argument("--seconds", type=int, default=60)
    reader.add_argument("words", nargs="*")
    given, well = reader.parse_args(words), True
    for crate in given.words or sorted(it.name for it in SWEEPS.iterdir() if it.name != "crates"):
        files = sweeps_of(crate)
        if not files and not (TOP / "crates" / tests_of(crate)[0]).is_dir():
            stop(f"there is no folder sweeps/{crate}, and no crate of tests has a module of {crate}")
        with tempfile.TemporaryDirectory(prefix="sweep-") as room:
            for test, (passed, lines) in run(made(crate, files, room), given.seconds).items():
                well = well and passed
                print(f"{crate} {test}: {'ok' if passed else 'WRONG: ' + ' '.join(lines)}", flush=True)
        if crate == FUZZED:
            well = fuzzed() and well
    return 0 if well else 1
