"""Reads the clauses of public functions in crates/*/src, for tools/specification.

A public clause is an `ensures` or a `requires` of a public function, of a function of a trait or of
an implementation of a trait, or a ghost member of a trait or of an implementation. What its names
stand for is found by the `ghost use` lines of its file.
"""
import re

from definitions import TOP

WORD = re.compile(r"[^\s(){}\[\],;λ]+")


def blanked(text):
    """The source without its comments, strings and characters; each place stays where it was."""
    pattern = re.compile(
        r"//[^\n]*|\"(?:[^\"\\]|\\.)*\"|'(?:[^'\\\n]|\\[^\n]+?)'(?![\w])", re.S
    )
    return pattern.sub(lambda m: re.sub(r"[^\n]", " ", m.group()), text)


def closing(text, start):
    """Where the bracket that opens at `start` is closed."""
    pairs, depth = {"{": "}", "(": ")", "[": "]"}, 0
    opening = text[start]
    for place in range(start, len(text)):
        if text[place] == opening:
            depth += 1
        elif text[place] == pairs[opening]:
            depth -= 1
            if depth == 0:
                return place
    return len(text)


def imports(text):
    """What the file's `ghost use` lines bring in: for a name its crate, its module, and the name
    there; for the name of a module, with a dot, the first two."""
    found = {}
    for path, names in re.findall(r"ghost use Rattle\.([\w.+]+)\.\{([^}]*)\}", text):
        parts = path.split(".")
        if len(parts) > 2 and parts[1] == "specs" and parts[2] != "declared":
            for name in names.split(","):
                there, _, here = name.strip().partition(" as ")
                if there:
                    found[here.strip() or there] = (parts[0], tuple(parts[2:]), there)
    for crate, module, name in re.findall(r"ghost use Rattle\.(\w+)\.specs\.([\w.]+) as (\w+);", text):
        found[f"{name}."] = (crate, tuple(module.split(".")))
    return found


def blocks(text):
    """The `impl` and `trait` blocks: begin, end, type, whether it is a trait's, its head."""
    found = []
    for match in re.finditer(r"^(pub(?:\([^)]*\))? )?(impl|trait)\b([^{;]*)\{", text, re.M):
        head = re.sub(r"\bwhere\b.*", "", match.group(3), flags=re.S)
        if match.group(2) == "trait":
            # Its name alone: what stands after it are parameters and bounds.
            head = re.match(r"\s*\w+", head).group()
        head = re.sub(r"^\s*<[^{]*?>\s+", " ", head)
        of_trait = match.group(2) == "trait" or " for " in head
        subject = head.split(" for ")[-1].strip()
        end = closing(text, match.end() - 1)
        shown = " for ".join(re.sub(r"\s+", " ", part.strip()) for part in head.split(" for "))
        found.append((match.end(), end, subject, of_trait, shown))
    return found


def clauses_after(text, place):
    """The texts of the clauses after a function's signature, up to its body or its semicolon."""
    found = []
    clause = re.compile(r"\s*(ensures|requires|decreases|reads|may)\*?(?:\s+(\w+))?\s*\{")
    # The signature ends at the first clause, at the body, or at the semicolon, outside of its
    # brackets: `[u8; 20]` has a semicolon too.
    head = re.compile(r"\b(?:ensures|requires|decreases)\b\*?|[{;(\[]")
    match = head.search(text, place)
    while match and match.group() in "([":
        match = head.search(text, closing(text, match.start()) + 1)
    if not match or match.group() in "{;":
        return found
    place = match.start()
    while match := clause.match(text, place):
        end = closing(text, match.end() - 1)
        if match.group(1) in ("ensures", "requires"):
            found.append((match.group(2) or match.group(1), text[match.end() : end]))
        place = end + 1
    return found


def public_clauses(path, public):
    """What the public items of a source file say: name of the item, name and text of the clause."""
    text = blanked(path.read_text())
    places = blocks(text)
    found = []
    for match in re.finditer(r"^( *)(pub(?:\([^)]*\))? )?(?:const |final )*fn (\w+)", text, re.M):
        around = [b for b in places if b[0] <= match.start() < b[1]]
        if around:
            _, _, subject, of_trait, _ = around[-1]
            if not public(path, base(subject), True) or not (of_trait or match.group(2) == "pub "):
                continue
            name = f"{short(subject)}::{match.group(3)}"
        elif match.group(2) == "pub " and public(path, match.group(3), False):
            name = match.group(3)
        else:
            continue
        for clause, said in clauses_after(text, match.end()):
            found.append((name, clause, said))
    for begin, end, subject, of_trait, shown in places:
        if not of_trait or not public(path, base(subject), True):
            continue
        for match in re.finditer(r"\bghost (?!use\b)(\w+)\b", text[begin:end]):
            last = ending(text, begin + match.end())
            found.append((shown_impl(shown), match.group(1), text[begin + match.end() : last]))
    return found


def short(subject):
    """A type as it is named in the page: without its lifetimes."""
    return re.sub(r"<\s*>", "", re.sub(r"'\w+,?\s*", "", subject)).strip()


def shown_impl(shown):
    """The head of an `impl` as it is named in the page."""
    return " for ".join(short(part) for part in shown.split(" for "))


def ending(text, place):
    """Where the item that goes on at `place` ends: at its semicolon."""
    while place < len(text) and text[place] != ";":
        place = closing(text, place) + 1 if text[place] in "{([" else place + 1
    return place


def base(subject):
    """The name of a type alone: `Blocks` of `Blocks<Asn>`, `Sink` of `&mut W`'s trait."""
    match = re.search(r"[A-Z]\w*", subject)
    return match.group() if match else subject


def module_of(path):
    """The module of a source file, below its crate."""
    parts = path.with_suffix("").parts
    inner = parts[len(parts) - parts[::-1].index("src") :]
    return () if inner in (("lib",), ("main",)) else inner


def public_names(crate):
    """Tells whether another crate can name an item of a source file. Of a program all count."""
    root = TOP / "crates" / crate / "src"
    texts = {module_of(path): blanked(path.read_text()) for path in root.rglob("*.rt")}
    if not (root / "lib.rt").is_file():
        return lambda path, name, is_type: True
    modules, names = set(), set()
    declared = {
        name
        for text in texts.values()
        for name in re.findall(r"^ *(?:pub(?:\([^)]*\))? )?(?:struct|enum|trait) (\w+)", text, re.M)
    }

    def walk(module):
        modules.add(module)
        text = texts[module]
        for used in re.findall(r"^pub use ([^;]*);", text, re.M):
            names.update(re.findall(r"(\w+)(?= as |[,}\s]|$)", used))
        names.update(re.findall(r"^pub (?:struct|enum|trait) (\w+)", text, re.M))
        for meant in re.findall(r"^pub type [^=]*= ([^;]*);", text, re.M):
            names.update(re.findall(r"\w+", meant))
        for inner in re.findall(r"^pub mod (\w+);", text, re.M):
            if module + (inner,) in texts:
                walk(module + (inner,))

    walk(())

    def public(path, name, is_type):
        if is_type:
            return name in names or name not in declared
        return name in names or module_of(path) in modules

    return public


def sources(crate):
    """The source files of a crate, without its tests, each before the files below it."""
    root = TOP / "crates" / crate / "src"
    found = sorted(root.rglob("*.rt"), key=module_of)
    return [path for path in found if module_of(path)[:1] != ("tests",)]


def meant(text, names, known):
    """The definitions that the words of a clause name, in their order."""
    found = []
    for word in WORD.findall(text):
        first, _, rest = word.partition(".")
        keys = [names.get(name) for name in (first, f"◌{first}◌")]
        if f"{first}." in names:
            keys.append((*names[f"{first}."], rest.split(".")[0]))
        found += [key for key in keys if key in known]
    return list(dict.fromkeys(found))


def citations(crate, known):
    """For each file and each public item of a crate, in order, what its clauses cite."""
    found = {}
    public = public_names(crate)
    for path in sources(crate):
        names = imports(path.read_text())
        module = "/".join(module_of(path)) or path.stem
        for item, _, said in public_clauses(path, public):
            row = found.setdefault(module, {}).setdefault(item, [])
            row += [key for key in meant(said, names, known) if key not in row]
    return found


class Missing(Exception):
    """What the page quotes, and the sources don't have."""


def source_of(crate, module):
    """The source file of a module."""
    return TOP / "crates" / crate / "src" / f"{module}.rt"


def clause_places(text, item, name):
    """Where the clause with this name begins and ends, of a function or of an `impl`."""
    bare = blanked(text)
    if " for " in item:
        heads = ((begin, end, shown_impl(shown)) for begin, end, _, _, shown in blocks(bare))
        found = next((head for head in heads if head[2].startswith(item)), None)
        member = found and re.compile(rf"\bghost {name}\b").search(bare, *found[:2])
        if member:
            return member.start(), ending(bare, member.end()) + 1
    elif function := re.search(rf"\bfn {item}\b", bare):
        word = name if name in ("ensures", "requires") else rf"(?:ensures|requires) {name}"
        clause = re.compile(rf"\b{word} {{|^{{", re.M).search(bare, function.end())
        if clause and clause[0] != "{":
            return clause.start(), closing(bare, clause.end() - 1) + 1
    raise Missing(f"there is no clause {name} of {item}")


def clauses_of(crate, module, item, names):
    """The texts of clauses, as they stand; `-- ..` is between two that do not follow each other."""
    text, found, last = source_of(crate, module).read_text(), "", None
    for name in names:
        try:
            begin, end = clause_places(text, item, name)
        except Missing as missing:
            raise Missing(f"tools/from_the_top.py: {missing}, in {module} of {crate}") from None
        margin = begin - text.rindex("\n", 0, begin) - 1
        if last is not None:
            found += "\n" if last <= begin and not text[last:begin].strip() else "\n-- ..\n"
        found += re.sub(rf"^ {{{margin}}}", "", text[begin:end], flags=re.M)
        last = end
    return found


def cited_in(known, crate, module, item, names):
    """What the clauses with these names cite: what they say, before what they suppose."""
    text = source_of(crate, module).read_text()
    here, found = imports(text), []
    for name in names:
        *supposed, says = clauses_of(crate, module, item, [name]).split("→")
        found += meant(" ".join([says, *supposed]), here, known)
    return list(dict.fromkeys(found))
