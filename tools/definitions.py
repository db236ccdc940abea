"""Reads the definitions in crates/*/specs, for tools/specification."""
import pathlib
import re

TOP = pathlib.Path(__file__).resolve().parent.parent

# A definition, at the margin or two columns in, within `mutual`.
DEFINITION = re.compile(
    r"(?:abbrev |unfoldable |opaque )?(?:pub )?(record |data )?"
    r"([^\s:(){}]+)((?: +[({][^=]*[)}])?) *:(?: |$)"
)
FIELD = re.compile(r"(?:pub )?([^\s:(){}]+) *:(?: |$)")


class Definition:
    """A definition of a file of specs/: its name, its arguments, its comment, what the part of the
    file is about in which it stands, and its lines without their comments."""

    def __init__(self, name, comment, part):
        self.name = name
        self.comment = comment
        self.part = part
        self.lines = []
        self.equations = []
        self.binders = []
        self.parts = []
        self.members = ""

    def add_equation(self, bare):
        """Notes how an equation of the definition names its arguments."""
        row = patterns(bare)
        if row and row[0] == self.name:
            self.equations.append(row[1:])

    def arguments(self, constructors):
        """The names of the arguments. One that no equation names is `_`; where there is such a one,
        and the comment speaks of none of the others by its name, none is shown."""
        if self.members or not self.equations:
            return self.binders
        named = [
            next((p for p in column if is_variable(p, column) and p not in constructors), "_")
            for column in zip(*self.equations)
        ]
        spoken = set(re.findall(r"[\w']+", self.comment)) & set(named) - {"a"}
        return named if "_" not in named or spoken else []

    def told(self, constructors):
        names = self.arguments(constructors)
        told = [f"`{name}`: {sentence(comment, names)}" for name, comment in self.parts if comment]
        return " ".join([sentence(self.comment, names)] + told if self.comment else told)


def joined(lines):
    """The lines, those of a head of a record or of a data type put together."""
    head = ""
    for line in lines:
        head = f"{head} {line.strip()}" if head else line
        begins = re.match(r" *(?:pub )?(?:record|data) ", head)
        if begins and not re.search(r"\bwhere$", head) and line.strip():
            continue
        yield head
        head = ""


def sentence(text, names=()):
    """A phrase of a comment, as a sentence. Names keep their small letters."""
    if not text:
        return ""
    first = re.match(r"[\w'-]*", text).group()
    if first.isalpha() and first not in names and not is_name(first):
        text = text[0].upper() + text[1:]
    return text if text[-1] in ".:?" or text.endswith(".)") else text + "."


def is_name(word):
    """Whether a word is a name that keeps its letters, as `rsaEncryption` or the variable `p`."""
    return bool(re.search(r".[A-Z]", word)) or (len(word) == 1 and word != "a")


class File:
    """A file of specs/: what it is about, its definitions in their order, its submodules, and what
    its `use` lines bring in."""

    def __init__(self, path, module):
        self.path, self.module = path, module
        self.about, self.definitions, self.modules = "", [], []
        self.part = ""
        text = path.read_text()
        self.used, self.alias = uses(text)
        self.read(text.split("\n"))

    def read(self, lines):
        comment, current, block = [], None, ""
        for line in joined(lines):
            bare = line.strip()
            margin = len(line) - len(line.lstrip())
            if bare.startswith("-- ---- "):
                self.part = bare.removeprefix("-- ---- ")
                continue
            if bare.startswith("-- ") or bare == "--":
                comment.append(bare[3:])
                continue
            if not bare:
                if comment and not self.definitions and not self.about:
                    self.about = " ".join(comment)
                comment = []
                continue
            if bare.startswith("infix"):
                continue
            words = " ".join(comment)
            comment = []
            if bare.startswith(("use ", "pub use ")):
                self.about = self.about or words
            elif match := re.match(r"(?:pub )?mod (\S+)$", bare):
                self.about = self.about or words
                self.modules.append(match.group(1))
            elif bare in ("mutual", "abbrev mutual"):
                block = "mutual"
            elif margin == 0 or (margin == 2 and block == "mutual"):
                block = block if margin else ""
                current = self.take(bare, words) or current
                if current:
                    current.lines.append(bare)
            elif margin and current:
                current.lines.append(line[2:] if block else line)
                if current.members and (match := FIELD.match(bare)):
                    current.parts.append((match.group(1), words))

    def take(self, bare, words):
        """A definition that begins in this line, or one of its equations."""
        match = DEFINITION.match(bare)
        if match and not bare.startswith(("unfolding", "syntax")):
            made = Definition(match.group(2), words, self.part)
            made.members = (match.group(1) or "").strip()
            if made.members:
                made.binders = binders(match.group(3))
            self.definitions.append(made)
            return made
        if self.definitions and not self.definitions[-1].members:
            self.definitions[-1].add_equation(bare)
        return None


def uses(text):
    """What `use` lines bring in: for each name its path and its name there, and the path of each
    name of a module."""
    used, alias = {}, {}
    for path, names in re.findall(r"^(?:pub )?use Rattle\.([\w.+]+)\.\{([^}]*)\}", text, re.M):
        for name in names.split(","):
            there, _, here = name.strip().partition(" as ")
            used[here.strip() or there] = (path.split("."), there)
    for path, name in re.findall(r"^use Rattle\.([\w.]+) as (\w+)", text, re.M):
        alias[name] = path.split(".")
    return used, alias


def binders(text):
    """The names in `(octets : List ℕ) (a b : ℕ)`; those in braces are not written at a use."""
    return [name for group in re.findall(r"\(([^:()]*):", text) for name in group.split()]


def patterns(equation):
    """What stands for each argument at the left of an equation: `octets`, `(x ∷ xs)`."""
    left = equation.split(" = ")[0]
    if left == equation and not equation.endswith(" ="):
        return None
    found, depth = [], 0
    for word in left.removesuffix(" =").split():
        if depth:
            found[-1] += " " + word
        else:
            found.append(word)
        depth += sum(word.count(c) for c in "({") - sum(word.count(c) for c in ")}")
    # A number is named where it is one more than another.
    found = [re.sub(r"^\(suc (\w+)\)$", r"\1", pattern) for pattern in found]
    return [pattern for pattern in found if not pattern.startswith("{")]


def is_variable(pattern, column):
    """Whether a pattern is a name for any value: no constructor, no number. A word with a capital
    is one where each equation has it in this column."""
    same = all(other == pattern for other in column)
    name = r"[a-z_][\w']*|[A-Z]\w*" if same else r"[a-z_][\w']*|[A-Z]"
    return bool(re.fullmatch(name, pattern)) and pattern not in ("zero", "tt", "_")


def crates():
    """The crates that the repository lists, in the order of crates.txt."""
    lines = (TOP / "crates.txt").read_text().split("\n")
    return [line.split(":")[0].split()[0] for line in lines if line.strip() and line[0] != "#"]


def files_of(crate):
    """The files of a crate's specs/, in the order in which their folders name them."""
    root = TOP / "crates" / crate / "specs"

    def walk(path, module):
        file = File(path, module)
        found = [file] if file.definitions else []
        folder = path.parent if path == root / "Lib.antt" else path.with_suffix("")
        for name in file.modules:
            if (folder / f"{name}.antt").is_file():
                found += walk(folder / f"{name}.antt", module + [name])
        return found

    return walk(root / "Lib.antt", []) if (root / "Lib.antt").is_file() else []
