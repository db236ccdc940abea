"""Puts together two files of the repository, two rows of its tables, or two lines of crates.txt, for tools/merge_crates."""
import re

# What stands at the head of a file: what it says of itself, attributes, and the names of others.
DOC = re.compile(r"\A(?:(?://!|--).*\n)+(?=\n|#!|use |(?:pub )?mod |\Z)")
FLAG = re.compile(r"^#!\[.*\]\n", re.M)
MOD = re.compile(r"^((?:#\[[^\]]*\]\n)*)(pub )?mod (\w+);?\n", re.M)
USE = re.compile(r"^(pub |ghost |)use ([^;{\n]*?)(\{[^}]*\})?( as \w+)?;?\n", re.M)
# What is defined at the margin of code, and of definitions and proofs.
RUST = re.compile(r"^(?:(?:pub(?:\(\w+\))?|const|final|unsafe) )*(?:fn|struct|enum|trait|static|const|type) (\w+)", re.M)
ANTT = re.compile(r"^(?:(?:abbrev|unfoldable|opaque|pub|record|data) )*(?!syntax|infix|module|unfolding|--)"
                  r"([^\s:(){}]+)(?=.*:(?: |$))", re.M)


def leaves(use):
    """The names that a `use` line brings in, each with its path."""
    paths = re.findall(r"[^\s,{}][^,\n}]*", use[3]) if use[3] else [use[4] or ""]
    return [(re.split(r" as |::|\.", use[2] + it)[-1], use[2] + it) for it in paths]


def uses(texts, defined, is_code):
    """The `use` lines of files that are joined, others and those for contracts; without what the files define themselves."""
    known, lines = {}, ["", ""]
    for use in (it for text in texts for it in USE.finditer(text)):
        is_ghost, kept = not is_code or use[1] == "ghost ", []
        for name, path in leaves(use):
            there, is_ours = known.get((is_ghost, name)), path.startswith("crate::")
            if there and there != path and name != "_" and not (is_ours and there.startswith("crate::")):
                raise ValueError(f"{name} is {there} and {path}")
            if not there and not (is_ours and name in defined):
                kept.append(path.removeprefix(use[2]))
            known[is_ghost, name] = path
        some = f"{use[1]}use {use[2]}{{{', '.join(kept)}}}{';' * is_code}\n" if kept else ""
        lines[is_ghost] += use[0] if len(kept) == len(leaves(use)) else some
    return lines


def joined(ours, theirs, path):
    """A file with what stands in another one behind it; a ValueError says which name means two things in them."""
    if path.endswith((".edits", ".md")):
        source = re.sub(r".*/edits/(.*)\.edits", r"\n## src/\1.rt", path) if path.endswith(".edits") else ""
        return f"{ours.rstrip()}\n{source}\n{theirs}"
    is_code, texts = path.endswith(".rt"), (ours, theirs)
    heads = [(DOC.match(text) or [""])[0] for text in texts]
    bodies = [MOD.sub("", USE.sub("", FLAG.sub("", text[len(head):]))).strip("\n") for head, text in zip(heads, texts)]
    defined = [set((RUST if is_code else ANTT).findall(it)) for it in bodies]
    if twice := defined[0] & defined[1]:
        raise ValueError(f"both define {', '.join(sorted(twice))}")
    mods = {it[3]: it for text in texts for it in MOD.finditer(text)}
    public = {it[3] for text in texts for it in MOD.finditer(text) if it[2]}
    mods = [f"{mods[it][1]}{'pub ' * (it in public)}mod {it}{';' * is_code}\n" for it in (sorted(mods) if is_code else mods)]
    if heads[1] and bodies[1] and not is_code:
        bodies[1] = f"{heads[1]}\n{bodies[1]}"
    head = "//!\n".join(filter(None, heads)) if is_code else heads[0]
    flags = "".join(dict.fromkeys(FLAG.findall(ours + theirs))) + "\n" * is_code
    plain, ghost = uses(texts, defined[0] | defined[1], is_code)
    return head + flags + "\n".join(filter(None, ["".join(mods), ghost, plain, *(it and f"{it}\n" for it in bodies)]))


def in_one_row(text, old, new):
    """The rows of two crates in each table of a page as one: numbers are added, words put behind each other."""
    def table(it):
        rows = [re.search(rf"^\| `{crate}` \|(.*)\|\n", it[0], re.M) for crate in (new, old)]
        pairs = [(a.strip(), b.strip()) for a, b in zip(*(row[1].split("|") for row in rows))] if all(rows) else []
        if not pairs or len(pairs) > 1 and not all((a + b).isdigit() or not a + b for a, b in pairs):
            return it[0]
        if len(pairs) == 1:
            (a, b), = pairs
            both = f"{a}{',' if a[-1] == b[0] == '`' else ';'} {b}"
        else:
            both = " | ".join(str(int(a or 0) + int(b or 0)) if a + b else "" for a, b in pairs)
        return it[0].replace(rows[1][0], "").replace(rows[0][0], f"| `{new}` | {both} |\n")
    return re.sub(r"^(?:\|.*\n)+", table, text, flags=re.M)


def in_order(text, old, new, is_whole, named):
    """crates.txt after a move, each crate after those that it stands on. `is_whole` tells whether all of the crate `old` goes
    into `new`; `named` is a text that names what `new` needs of what the other uses."""
    lines = [(line, *line.partition("#")[0].partition(":")) for line in text.strip("\n").split("\n")]
    rows = {head.split()[0]: (head, words.split()) for _, head, colon, words in lines if colon}
    if old in rows and new in rows:
        rows[new][1].extend(it for it in rows[old][1] if re.search(rf"\b{it}(::|\.)", named))
    if is_whole:
        here = {new if it == old and new not in rows else it: row for it, row in rows.items() if it != old or new not in rows}
        rows = {it: (head.replace(old, new) if it == new else head, [new if word == old else word for word in words])
                for it, (head, words) in here.items()}
    else:
        rows = {it: (head, words + [new] * (old in words)) for it, (head, words) in rows.items()}
    done = {}
    while len(done) < len(rows):
        ready = next((it for it in rows if it not in done and all(word in done or word not in rows or word == it
                                                                  for word in rows[it][1])), None)
        if not ready:
            raise ValueError("a crate would stand on itself: one of " + ", ".join(sorted(rows.keys() - done.keys())))
        done[ready] = f"{rows[ready][0]}: {' '.join(word for word in dict.fromkeys(rows[ready][1]) if word != ready)}".rstrip()
    return "".join(f"{line}\n" for line in [*(line for line, _, colon, _ in lines if not colon), *done.values()])
