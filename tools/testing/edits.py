"""Tries the edits of crates/NAME/edits/ on a copy: the prover has to refuse each.

    tools/test edits [-v] [--jobs N] [--changed] [WORD ..]    those that a word names; with none, all
    tools/test edits [-v] [--jobs N] --named [CRATE ..]       the classic wrong bodies, those of the table of
                                                              docs/PLANTS.md, which may be of must-fail/
    tools/test edits --applies [WORD ..]                      only whether each can be applied, in a second

A word is CRATE, CRATE/src/PATH.rt for those of a source file or of a folder of them, or CRATE/EDIT for one, as
rpki_der/true_as_01. An edit turns the meaning of a function, so that a contract has to refuse it. The edits of
src/read/header.rt stand in edits/read/header.edits, each as its name, a colon and what it turns, and then what is
taken out and what is put in its place:

    length_84_is_refused: four length octets are refused
    - *b > 132 {
    + *b > 131 {

Lines that begin with `- ` are taken out together, and those with `+ ` that follow them are put in; a lone `+` puts in
nothing. What is taken out stands exactly once in the file, as the pairs before it left it. A line
`file: src/other.rt` has the pairs below it change that file, and a line `## src/other.rt` those of all edits below
it. Any other line that begins with `#` is a comment. (The few edits that `rt ci` tries stand in must-fail/, in its
own form.)

The crate and those below it are copied into a temporary folder, together with what earlier checks kept in out/, so
`rt check` in the crate first makes this quick. The crate is checked there without any edit; then edits are applied,
checked and undone: first those of different functions together, where a goal that fails in its function refuses an
edit, and then by itself each that was not refused so. --jobs N works on N copies at a time. -v shows what was said
of an edit that is not refused. --changed leaves out those that were refused before over the same source file, specs/
and proofs/ of the crate (out/edits.txt of the crate); a whole run is the judge.

Prints a line for each edit:
    refused: CRATE/EDIT: the first goal or line that failed
    PROVED: CRATE/EDIT                the contract is too weak: no prover stopped it
    bad edit: CRATE/EDIT: WHY         it cannot be applied, read or compiled
and the counts. The status is 0 where all were refused, 1 where one was not, and 2 where a crate is not proved
without an edit, so that nothing can be said.
"""
import argparse
import collections
import contextlib
import hashlib
import os
import pathlib
import queue
import re
import shutil
import subprocess
import tempfile
import threading

import crates
from commands import stop

TOP = crates.TOP
LINE = re.compile(r"(?:note: )?(?:\./)?(\S+?):(\d+):\d+: ")
# What a proof file or a text is told of where it names what an edit took away.
UNNAMED = r"has no field|is not in scope|has no `|not admitted"
UNREAD = re.compile(r"is not in scope|has no field|is no name|operand is missing|expected the end|cannot continue")
# Pairs are (file, text that is taken out, text that is put in).
Edit = collections.namedtuple("Edit", "name why pairs")


class Bad(Exception):
    """Why an edit can't be applied."""


# ---- edits that are read

def of_file(path, source):
    """The edits of a file, whose pairs change `source` where no line says otherwise."""
    found, file, pair = [], source, None
    for line in path.read_text().split("\n"):
        head = re.fullmatch(r"([a-z0-9_]+): (\S.*)", line)
        if line.startswith("- ") and found:
            if not pair or pair[2]:
                pair = file, [], []
                found[-1][2].append(pair)
            pair[1].append(line[2:])
        elif pair and (line.startswith("+ ") or line == "+"):
            pair[2].append(line[2:])
        elif line.startswith("## "):
            source, pair = line[3:].strip(), None
        elif line.startswith("file: "):
            file, pair = line[6:].strip(), None
        elif head:
            file, pair = source, None
            found.append((head[1], head[2], []))
        elif line.strip() and not line.startswith("#"):
            stop(f"{path}: no name, text, file or comment: {line}")
        else:
            pair = None
    if not all(new for *_, pairs in found for *_, new in pairs):
        stop(f"{path}: a text is taken out with nothing put in")
    return [Edit(name, why, tuple((file, "\n".join(old), "\n".join(new)) for file, old, new in pairs))
            for name, why, pairs in found]


def of_one(path):
    """An edit in the form of must-fail/."""
    said, pairs = {"file": "", "old": ""}, []
    for word, text in re.findall(r"^(file|old|new): ?(.*)$", path.read_text(), re.M):
        said[word] = text
        if word == "new":
            pairs.append((said["file"].strip(), said["old"], text))
    return Edit(path.stem, path.stem.replace("_", " "), tuple(pairs))


def edits_of(crate, *parts):
    """The edits of a crate, of edits/ or of other parts too."""
    found = []
    for folder in (TOP / "crates" / crate / it for it in ("edits", *parts)):
        for path in sorted(folder.rglob("*.edit*")):
            inner = path.relative_to(folder).with_suffix(".rt")
            found += of_file(path, f"src/{inner}") if path.suffix == ".edits" else [of_one(path)]
    twice = [name for name, count in collections.Counter(it.name for it in found).items() if count > 1]
    if twice:
        stop(f"{crate}: the name {twice[0]} stands twice")
    return found


def named():
    """The edits in the table of docs/PLANTS.md, by crate."""
    found, row = {}, r"^\| .* \| `(\w+)` \| .* \| (?:must-fail|edits) `(\w+)`.* \|$"
    for crate, name in re.findall(row, (TOP / "docs/PLANTS.md").read_text(), re.M):
        of_it = {it.name: it for it in edits_of(crate, "must-fail")}
        if name not in of_it:
            stop(f"docs/PLANTS.md names an edit that {crate} does not have: {name}")
        found.setdefault(crate, {})[of_it[name]] = None
    return found


def chosen(words, known):
    """The edits that words name, by crate."""
    found = {}
    for word in words or [it for it in known if (TOP / "crates" / it / "edits").is_dir()]:
        crate, _, name = word.rstrip("/").partition("/")
        if crate not in known:
            stop(f"crates.txt has no crate {crate}")
        fitting = [it for it in edits_of(crate) if name in ("", it.name)
                   or any(f"{file}/".startswith(f"{name}/") for file, *_ in it.pairs)]
        if name and not fitting:
            stop(f"crates/{crate}/edits has no edit {name}, and none of such a file")
        found.setdefault(crate, {}).update(dict.fromkeys(fitting))
    return found


# ---- a copy, and what is said of it

def linked(source, target):
    """Links a file of out/, which no check changes in place, or copies it where a link cannot be made."""
    try:
        os.link(source, target)
    except OSError:
        shutil.copy2(source, target)


def copied(crate, room):
    """Copies what a check of the crate reads, with what earlier checks kept, and returns the crate's folder there."""
    known = crates.uses()
    names = crates.below(crate, known)
    crates.copy(names, known, room)
    for part in (f"crates/{name}/out/{it}" for name in names for it in ("incremental", "rlib")):
        if (TOP / part).is_dir():
            shutil.copytree(TOP / part, f"{room}/{part}", copy_function=linked)
    return pathlib.Path(room, "crates", crate)


def edited(edit, folder):
    """The texts of the files that an edit changes, by their path in the crate."""
    texts = {}
    for file, old, new in edit.pairs:
        if os.path.normpath(file) != file or file.split("/")[0] not in crates.PARTS or not (folder / file).is_file():
            raise Bad(f"there is no file {file} of src/, specs/ or proofs/")
        text = texts.get(file) or (folder / file).read_text()
        count = text.count(old) if old else 0
        if count != 1:
            raise Bad(f"what is taken out stands in {file} {count} times, and not once: {old.strip()}")
        texts[file] = text.replace(old, new)
    if not texts:
        raise Bad("nothing is taken out")
    return texts


def check(folder, texts):
    """Checks a crate with these texts in place of its own, and puts its own back. Returns the status and the lines."""
    before = {path: (folder / path).read_text() for path in texts}
    try:
        for path, text in texts.items():
            (folder / path).write_text(text)
        ran = subprocess.run(["rt", "check", "--jobs", "1"], cwd=folder, stdin=subprocess.DEVNULL,
                             stdout=subprocess.PIPE, stderr=subprocess.STDOUT, errors="replace")
        return ran.returncode, ran.stdout.rstrip("\n").split("\n")
    finally:
        for path, text in before.items():
            (folder / path).write_text(text)


def unread(line, texts):
    """Whether a line says that a text of src/, specs/ or an edited file could not be read: nothing is proved then."""
    at = re.match(r"(?:\./)?(\S+?):\d+:\d+: error: (?:(`[^`]*`): )?(.*)", line)
    if not at or at[1] not in texts and not at[1].startswith(("src/", "specs/")):
        return False
    return not at[2] or bool(UNREAD.search(re.sub(r"`[^`]*`", "", at[3])))


def judged(folder, edit):
    """Tries an edit. Returns `refused`, `PROVED` or `bad edit`, what to say beside it, and all that was said."""
    try:
        texts = edited(edit, folder)
    except Bad as why:
        return "bad edit", str(why), []
    status, lines = check(folder, texts)
    if status == 0:
        return "PROVED", "", lines
    # (a line FILE:LINE:COLUMN: note: is a remark on a proof that stands)
    told = [it for it in lines if LINE.match(it) and ": note: " not in it]
    wrong = [it for it in lines if unread(it, texts)]
    if wrong:
        return "bad edit", f"the prover cannot read it: {wrong[0]}", lines
    if status != 1 or not any(it.startswith("logic=not-proved") for it in lines):
        # (what does not compile has a line of the kind FILE:LINE:COLUMN: error[NAME])
        uncompiled = [f"it does not compile: {it}" for it in told if ": error[" in it]
        return "bad edit", [*uncompiled, f"no verdict: {lines[-1]}"][0], lines
    goals = [it for it in told if not re.match(rf"(?:\./)?proofs/.*({UNNAMED})", it)]
    if told and not goals:
        return "refused", f"only since a proof file names what the edit took away, which says little: {told[0]}", lines
    functions = [it for it in lines if re.match(r"fn \S+: no proof", it)]
    return "refused", (goals + functions + [lines[-1]])[0].removeprefix("note: "), lines


# ---- several edits at once: the proof of a function rests on the contracts of others and not on their bodies, so a
# goal that fails in a function is refused for the edit of that function

def function_at(text, at):
    """The function that a place of a source file is in: its name, the type whose it is, its first line, attributes and
    comments counted in, and the line after it; or None outside all functions."""
    heads = list(re.finditer(r"^( *)(?:pub(?:\([a-z]+\))? |const |final )*fn (\w+)", text[:at], re.MULTILINE))
    if not heads:
        return None
    head, depth = heads[-1], len(heads[-1][1])
    end = re.compile(rf"^ {{{depth}}}\}}", re.MULTILINE).search(text, head.start())
    if not end or end.end() < at:
        return None
    above = re.search(rf"(?:^ {{{depth}}}(?://|#\[).*\n)*\Z", text[:head.start()], re.MULTILINE)
    owners = re.findall(r"^(?:impl(?:<.*?>)? (?:.* for )?|trait |pub trait )(\w+)", text[:head.start()], re.MULTILINE)
    owner = owners[-1] if depth and owners else ""
    return head[2], owner, text.count("\n", 0, above.start()) + 1, text.count("\n", 0, end.start()) + 2


def in_groups(folder, edits):
    """Puts edits of different functions together: each group has an edit for each function, or is one edit."""
    groups, alone = [], []
    for edit in edits:
        file, old, _ = edit.pairs[0]
        text = (folder / file).read_text() if (folder / file).is_file() else ""
        at = text.find(old) if len(edit.pairs) == 1 and text.count(old) == 1 else -1
        place = function_at(text, at) if at >= 0 else None
        if not place or function_at(text, at + len(old.rstrip())) != place:
            alone.append({None: edit})
            continue
        group = next((it for it in groups if len(it) < 24 and (file, place) not in it), None)
        if group is None:
            groups.append(group := {})
        group[file, place] = edit
    return groups + alone


def put_together(folder, group):
    """The texts of the files with all edits of a group, and the function of each edit there; None where one has
    none."""
    texts, places = {}, {}
    for file in {file for file, _ in group}:
        text = (folder / file).read_text()
        found = sorted((text.find(edit.pairs[0][1]), edit) for (at, _), edit in group.items() if at == file)
        moved, starts = 0, {}
        for at, edit in found:
            _, old, new = edit.pairs[0]
            starts[edit] = at + moved
            text = text[:at + moved] + new + text[at + moved + len(old):]
            moved += len(new) - len(old)
        texts[file] = text
        places |= {edit: (file, function_at(text, at)) for edit, at in starts.items()}
    return (texts, places) if all(place for _, place in places.values()) else None


def is_told_of(path, line, file, place):
    """Whether a line of a source or proof file belongs to a function of a source file."""
    name, owner, first, after = place
    if path == file:
        return first <= line < after
    inner = file.removeprefix("src/").removesuffix(".rt")
    module = [] if inner == "lib" else inner.split("/")
    return path.startswith("/".join(["proofs", *module, *([owner] if owner else []), name]) + "/")


def judged_together(folder, group):
    """Tries edits of different functions at once. Returns those that are refused, each with the goal that failed in its
    function: none where the texts do not compile together, so that nothing can be said."""
    made = put_together(folder, group)
    if not made:
        return {}
    texts, places = made
    _, lines = check(folder, texts)
    refused = {}
    if not any(it.startswith("logic=") for it in lines) or any(unread(it, texts) for it in lines):
        return refused
    for line in lines:
        at = LINE.match(line)
        # (a proof file that names what an edit took away says little: such an edit is tried by itself)
        if not at or line[at.end():].startswith(("note: ", "warning: ")) or re.search(UNNAMED, line):
            continue
        for edit, (file, place) in places.items():
            if is_told_of(at[1], int(at[2]), file, place):
                refused.setdefault(edit, line.removeprefix("note: "))
    return refused


def tried(folder, group, tell):
    """Tries a group, tells each verdict, and returns the groups that are left to be tried."""
    if len(group) == 1:
        [edit] = group.values()
        tell(edit, *judged(folder, edit))
        return []
    refused = judged_together(folder, group)
    for edit, why in refused.items():
        tell(edit, "refused", why, [])
    # (of a function that calls one which is refused nothing is said: it is tried again without that one)
    rest = [it for it in group.items() if it[1] not in refused]
    if len(rest) < 3:
        return [{place: edit} for place, edit in rest]
    return [dict(rest)] if refused else [dict(rest[::2]), dict(rest[1::2])]


def try_all(crate, edits, jobs, tell):
    """Tries edits of a crate on as many copies as there are jobs, and tells each verdict as it comes."""
    left, unproved, lock = queue.Queue(), [], threading.Lock()
    for it in in_groups(TOP / "crates" / crate, edits):
        left.put(it)

    def tell_one(*said):
        with lock:
            tell(*said)

    def work():
        with tempfile.TemporaryDirectory(prefix="edits-") as room:
            folder = copied(crate, room)
            status, lines = check(folder, {})
            if status != 0:
                unproved.append(lines)
            with contextlib.suppress(queue.Empty):
                while not unproved:
                    for more in tried(folder, left.get_nowait(), tell_one):
                        left.put(more)

    workers = [threading.Thread(target=work) for _ in range(min(jobs, left.qsize()))]
    for it in workers:
        it.start()
    for it in workers:
        it.join()
    if unproved:
        print("\n".join(unproved[0][-12:]))
        stop(f"{crate} is not proved without an edit, so its edits say nothing")


# ---- what is asked for

class Record:
    """The edits of a crate that were refused before, each by what the verdict was made over."""

    def __init__(self, crate):
        self.folder = TOP / "crates" / crate
        self.path = self.folder / "out/edits.txt"
        self.held = set(self.path.read_text().split()) if self.path.is_file() else set()
        files = [it for part in ("specs", "proofs") for it in sorted((self.folder / part).rglob("*")) if it.is_file()]
        self.ground = hashlib.sha256(b"".join(f"{it}\n".encode() + it.read_bytes() for it in files))

    def key(self, edit):
        made = self.ground.copy()
        files = [self.folder / it for it in sorted({it for it, *_ in edit.pairs})]
        made.update(repr(edit.pairs).encode() + b"".join(it.read_bytes() for it in files if it.is_file()))
        return made.hexdigest()

    def keep(self):
        self.path.parent.mkdir(exist_ok=True)
        self.path.write_text("".join(f"{it}\n" for it in sorted(self.held)))


def of_crate(crate, edits, given, counts):
    """Tries the edits of a crate, and prints a line for each."""
    record = Record(crate)
    if given.changed:
        before = len(edits)
        edits = [it for it in edits if record.key(it) not in record.held]
        print(f"{crate}: {before - len(edits)} were refused before, {len(edits)} are tried", flush=True)

    def tell(edit, verdict, why, lines):
        counts[verdict] += 1
        if verdict == "refused":
            record.held.add(record.key(edit))
        print(f"{verdict}: {crate}/{edit.name}" + (f": {why[:200]}" if why else ""), flush=True)
        if given.v and verdict != "refused":
            print("    " + "\n    ".join(lines[-40:]), flush=True)

    try:
        try_all(crate, edits, given.jobs, tell)
    finally:
        record.keep()


def applies(found):
    """Prints each edit that can't be applied, and how many there are, and returns the status."""
    bad = 0
    for crate, edit in ((crate, it) for crate, edits in found.items() for it in edits):
        try:
            edited(edit, TOP / "crates" / crate)
        except Bad as why:
            bad += 1
            print(f"bad edit: {crate}/{edit.name}: {why}")
    print(f"{sum(map(len, found.values()))} edits, of which {bad} can't be applied")
    return 1 if bad else 0


def main(words):
    reader = argparse.ArgumentParser(add_help=False)
    for flag in ("-v", "--applies", "--changed", "--named"):
        reader.add_argument(flag, action="store_true")
    reader.add_argument("--jobs", type=int, default=1)
    reader.add_argument("words", nargs="*")
    given = reader.parse_args(words)
    if given.named:
        found = {crate: edits for crate, edits in named().items() if not given.words or crate in given.words}
    else:
        found = chosen(given.words, crates.uses())
    if given.applies:
        return applies(found)
    counts = {"refused": 0, "PROVED": 0, "bad edit": 0}
    for crate, edits in found.items():
        of_crate(crate, [*edits], given, counts)
    print(f"{counts['refused']} refused, {counts['PROVED']} proved, {counts['bad edit']} bad")
    return 1 if counts["PROVED"] + counts["bad edit"] else 0
