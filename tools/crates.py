"""The crates of the repository, and copies of them: for tools/unproved.py, tools/pages and tools/testing."""
import pathlib
import shutil

TOP = pathlib.Path(__file__).resolve().parent.parent
PARTS = ("src", "specs", "proofs")


def uses(*files):
    """What each crate of crates.txt, and of further files with such lines, names behind its colon."""
    texts = [(TOP / it).read_text() for it in ("crates.txt", *files)]
    lines = [line.partition("#")[0].partition(":") for text in texts for line in text.split("\n")]
    return {head.split()[0]: tail.split() for head, colon, tail in lines if colon}


def below(name, named):
    """A crate, and all those of the repository that it stands on."""
    found, left = [], [name]
    while left:
        name = left.pop()
        if name in named and name not in found:
            found.append(name)
            left += named[name]
    return found


def copy(names, named, room, made=None):
    """Copies these crates into a folder, with their lines of crates.txt, but for one that is made there. (One of
    sweeps/crates has files .rattle.)"""
    room = pathlib.Path(room)
    shutil.copyfile(TOP / "HANDLES", room / "HANDLES")
    (room / "crates.txt").write_text("".join(f"{it}: {' '.join(named[it])}\n" for it in names))
    for name, part in ((name, part) for name in names if name != made for part in PARTS):
        for folder in (TOP / "crates" / name, TOP / "sweeps/crates" / name):
            for path in (it for it in (folder / part).rglob("*") if it.is_file()):
                to = room / "crates" / name / path.relative_to(folder)
                if path.suffix == ".rattle":
                    to = to.with_suffix(".rt" if part == "src" else ".antt")
                to.parent.mkdir(parents=True, exist_ok=True)
                shutil.copy2(path, to)
