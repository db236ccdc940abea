"""Finds public calls of the libraries that may answer want of memory and that the gate never makes,
as far as a script can see it, for tools/rules.

Such a call passes its proof and its edits with a body that always gives up, too. The gate makes
what stands in a function of a test crate (crates/*_tests), or in `main` of a program, which its
stored runs and the cases of rows/ reach, and what stands in a function that is made. Calls are found
by their names, TYPE::NAME and Self::NAME in the type; a free function where it is named, in its
crate, in a file that imports it or behind its module; and `.NAME(` in each type with such a method
that the file of the call names, in the only one, and in each `impl` of a trait.
"""
import collections
import functools
import re

import drops

# Crates whose calls nobody has to make: callers, and what tests use.
CALLERS = ("rpki_examples", "rpki_testing")
CALL = re.compile(r"(?:\b(?P<type>[A-Z]\w*)(?:::)?(?:<[^;()]*?>)?::|\b(?P<module>[a-z]\w*)::"
                  r"|(?P<dot>\.))?\b(?P<name>[a-z_]\w*)\b(?!\s*:(?!:))")
TYPE = re.compile(r"\b[A-Z]\w*\b")


class Function:
    """A function of a crate, and the names in it."""

    def __init__(self, crate, path, text, found):
        self.crate, self.path, self.name = crate, path, found.name
        self.gives = set(TYPE.findall(found.gives))
        self.subject = (TYPE.search(found.subject or "") or [None])[0]
        self.body, lines = "\n".join(found.body), text.split("\n")[found.first - 1::-1]
        self.head = next(it for it in lines if re.search(rf"\bfn {self.name}\b", it))
        self.is_of_trait = " for " in next((it for it in lines if it.startswith("impl")), "")

    def shown(self):
        return f"{self.crate}: {f'{self.subject}::' if self.subject else ''}{self.name}"


class Sources:
    """The sources of the crates, and how names in them lead from one function to others."""

    def __init__(self, top):
        self.texts, self.functions, self.aliases = {}, [], {}
        self.given = collections.defaultdict(set)
        for path in sorted(top.glob("crates/*/src/**/*.rt")):
            crate = path.relative_to(top / "crates").parts[0]
            text = self.texts[path] = re.sub(r"//.*", "", path.read_text())
            self.functions += [Function(crate, path, text, it) for it in drops.functions(path)]
            self.given[crate] |= self.words_of(r"^pub use ([^;]*);", text)
            self.aliases.update(re.findall(r"^pub type (\w+)[^=]*= (?:\w+::)*(\w+)", text, re.M))
        self.named, self.types = collections.defaultdict(list), {}
        for function in self.functions:
            self.named[function.name].append(function)
        for path, text in self.texts.items():
            names = set(TYPE.findall(text))
            self.types[path] = names | {self.aliases[it] for it in names if it in self.aliases}
        self.used = {path: self.words_of(r"^(?:pub )?use ([^;]*);", text)
                     for path, text in self.texts.items()}

    def words_of(self, pattern, text):
        return set(re.findall(r"\w+|\*", " ".join(re.findall(pattern, text, re.M))))

    @functools.lru_cache(None)
    def made_by(self, caller):
        """The functions that a function calls, by their names."""
        return set(self.calls_of(caller))

    def calls_of(self, caller):
        for match in CALL.finditer(caller.body):
            among = self.named.get(match["name"], ())
            named, module = match["type"], match["module"]
            owner = caller.subject if named == "Self" else self.aliases.get(named, named)
            methods = [it for it in among if it.subject]
            owners = {it.subject for it in methods}
            if owner in owners:
                yield from (it for it in methods if it.subject == owner)
            elif named or match["dot"]:
                yield from (it for it in methods if it.is_of_trait or len(owners) == 1
                            or it.subject in self.types[caller.path])
            else:
                yield from (it for it in among if not it.subject and (
                    it.crate == caller.crate or it.name in self.used[caller.path]
                    or module in (it.crate, *it.path.with_suffix("").parts)))

    def made_from(self, first, below):
        """What these functions make in the crates below, each with the one that leads there."""
        found = {it: it for it in first}
        left = list(first)
        while left:
            caller = left.pop()
            for it in self.made_by(caller):
                if it.crate in below and it not in found:
                    found[it] = found[caller]
                    left.append(it)
        return found

    def is_public(self, function):
        """Whether other crates can call a function: its modules are public, or it or its type is
        given out."""
        if not re.match(r" *pub (?:const |final )*fn ", function.head):
            return False
        src = next(it for it in function.path.parents if it.name == "src")
        parts = function.path.relative_to(src).with_suffix("").parts
        above = (src.joinpath(*parts[:at]).with_suffix(".rt") for at in range(1, len(parts)))
        is_out = parts == ("lib",) or all(
            re.search(rf"^pub mod {it};", self.texts.get(file, ""), re.M)
            for file, it in zip([src / "lib.rt", *above], parts))
        return is_out or {function.subject or function.name, "*"} & self.given[function.crate]

    def wants(self):
        """The types of errors that can be want of memory: AllocError, and what has it or one."""
        body = r"(?:\{(.*?)^\}|\((.*?)\);)"
        declared = re.compile(r"^pub (?:enum|struct) (\w+)[^;({]*" + body, re.M | re.S)
        bodies = collections.defaultdict(str)
        for text in self.texts.values():
            for name, fields, members in declared.findall(text):
                bodies[name] += fields + members
        found, more = set(), {"AllocError"}
        while more:
            found |= more
            more = {name for name, body in bodies.items() if name not in found
                    and re.search(r"(Error|Fault|Unread|Words)$|^Not?[A-Z]", name)
                    and (re.search(r"^ *Memory\b", body, re.M) or found & set(TYPE.findall(body)))}
        return found


def below(top):
    """Each crate of crates.txt, with those that it stands on."""
    found = {}
    for line in (top / "crates.txt").read_text().split("\n"):
        name, _, words = line.partition("#")[0].partition(":")
        found[" ".join(name.split()[:1])] = set().union(*({it} | found.get(it, set()) for it in words.split()))
    return found


def made(top):
    """Each public call that may answer want of memory, with the function of the gate from which it
    is made, or None."""
    sources, makers = Sources(top), {}
    for crate, others in below(top).items():
        own = [it for it in sources.functions if it.crate == crate]
        if (top / "crates" / crate / "src/main.rt").is_file():
            first = [it for it in own if it.name == "main"]
        else:
            first = [it for it in own if crate.endswith("_tests") or it.path.name == "tests.rt"]
        if first:
            for it, maker in sources.made_from(first, others | {crate}).items():
                if it not in makers or makers[it].name == "main":
                    makers[it] = maker
    libraries = {it.parent.parent.name for it in top.glob("crates/*/src/lib.rt")} - {*CALLERS}
    wants = sources.wants()
    for it in sources.functions:
        if it.gives & wants and it.crate in libraries and sources.is_public(it):
            yield it, makers.get(it)
