"""A command with subcommands: for tools/program and tools/test.

Each subcommand is a module of a folder. Its docstring is its help; its `main` takes its words and returns the status.
"""
import importlib
import os
import re
import sys

from unproved import run


def stop(why):
    """Ends a subcommand that can't be run."""
    print(f"{os.path.basename(sys.argv[0])} {sys.argv[1]}: {why}", file=sys.stderr)
    sys.exit(2)


def start(folder, doc):
    """Runs the subcommand that the words name, which is one of those that the help of the command lists."""
    name, *words = sys.argv[1:] or [""]
    if name not in re.findall(r"^    tools/\w+ (\w+)", doc, re.M):
        print(doc, end="")
        sys.exit(0 if name in ("-h", "--help") else 2)
    module = importlib.import_module(f"{folder}.{name}")
    if {"-h", "--help"} & {*words}:
        print(module.__doc__, end="")
        sys.exit(0)
    run(lambda _: module.main(words))
