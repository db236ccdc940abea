"""Checks what a change is near to, for daily work; the gate is .ci/run.

    tools/test near [BASE]

Runs `rt check`, lowest first, in each crate whose src/, specs/ or proofs/ differ from BASE, which is `main` where
nothing is said, and in those that use such a crate themselves; in a crate of tests `rt try --test`, since all of its
code is tests. Then it runs tools/pages. Files that git does not know yet count as changed. Crates further above,
edits and stored runs are left to the gate. A crate above one that fails is not checked.

Prints a line for each crate, and what a check said where it failed.
"""
import graphlib
import subprocess
import time

import crates

TOP = crates.TOP


def git(*words):
    return subprocess.run(["git", *words], cwd=TOP, check=True, stdout=subprocess.PIPE, text=True).stdout


def changed(base):
    """The crates whose sources differ from those of a commit."""
    files = git("diff", "--name-only", base, "--", "crates")
    files += git("ls-files", "--others", "--exclude-standard", "--", "crates")
    parts = [file.split("/") for file in files.split("\n")]
    return {it[1] for it in parts if len(it) > 3 and it[2] in crates.PARTS}


def passes(crate):
    """Checks a crate, and returns whether it passed."""
    words = ["rt", "try", "--test"] if crate.endswith("_tests") else ["rt", "check"]
    start = time.monotonic()
    ran = subprocess.run(words, cwd=TOP / "crates" / crate, stdin=subprocess.DEVNULL, stdout=subprocess.PIPE,
                         stderr=subprocess.STDOUT, errors="replace")
    well = ran.returncode == 0
    print(f"{crate}: {'ok' if well else 'FAILED'}, {time.monotonic() - start:.0f} s", flush=True)
    if not well:
        print("\n".join(f"    {line}" for line in ran.stdout.strip().split("\n")[-20:]), flush=True)
    return well


def main(words):
    named = crates.uses()
    uses = {crate: {*words} & {*named} for crate, words in named.items()}
    differ, failed = changed(*words or ["main"]), set()
    for crate in graphlib.TopologicalSorter(uses).static_order():
        is_near = crate in differ or differ & uses[crate]
        if failed & uses[crate] or is_near and not passes(crate):
            failed.add(crate)
    pages = subprocess.run([TOP / "tools/pages"]).returncode
    return 1 if failed or pages else 0
