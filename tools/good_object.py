"""Makes docs/GOOD-OBJECT.md, for tools/specification: what a good object of each kind is.

The prose and the ASN.1 stand in docs/GOOD-OBJECT.in. A line of its own there is replaced:

    {{forms CRATE NAME=DIGEST ..}}   rows of the files whose definitions say what the ASN.1 above
                                     says; a DIGEST is that of a definition's text, and another one
                                     is refused, so that who changes a form looks at the ASN.1 too
    {{texts CRATE NAME ..}}          rows of the texts that stand in src/faults.rt of the crate
    {{checks common}}                the checks that the kinds share, in their order
    {{checks KIND}}                  the checks of a kind (an `ObjectKind`), in their order; one row
                                     stands for those that the kinds share
    {{checks CRATE:NAME}}            those of a definition that lists checks
    {{faults FAULT=CRATE:NAME ..}}   rows of these faults of a verification, each with the definition
                                     of what has to hold

The order of the checks is what the definitions say: lists are followed from name to name. What is
printed is the text that rpki_faults/specs/Text has for the fault, and what it means the docstring
of the fault. The section is that of the comment nearest to the check. Each text of a `faults.rt`
has to stand on the page, and each `ObjectKind`.
"""
import hashlib
import re

# The crates whose texts may be printed of an object.
TEXTS = ["rpki_basics", "rpki_resources", "rpki_attributes", "rpki_extensions", "rpki_crls", "rpki_sigobj"]
TEXTS += ["rpki_files", "rpki_routes", "rpki_tagged"]
# How names are shortened in what has to hold.
SHORT = [("o.object.signed", "signed"), ("o.content", "content"), ("valid.sets", "sets")]
SHORT += [("signed.cert", "cert"), ("issuer.cert.certificate", "issuer.cert")]
SHORT += [(".tbs.extensions.key.", "."), (".tbs.extensions.locations.subject.", ".")]
SHORT += [(".tbs.extensions.locations.", "."), (".tbs.extensions.", "."), (".tbs", "")]
ROOT = ("rpki_sigobj", "Signed/Process")
OWN = "project's own"
DEFINITION = re.compile(
    r"(?:(?:abbrev|unfoldable|opaque) )?(?:pub )?(record |data )?([^\s:(){}]+)"
    r"(?: +[({][^=]*)? *:(?: |$)"
)


# A section, or several, of a standard that is not named there.
PLAIN = re.compile(r"(sections? )?(\d[\d.]*(?:(?: and | to |, )\d[\d.]*)*(?:, point [\w.]+)?)")
# What is printed, and when, where the caller refuses.
CALLER = "what the caller says"
# The section that has the checks which the kinds share.
COMMON = "[the object and its certificate](#the-checks-of-the-object-and-its-certificate)"
# When a claim is too much, by what has to hold: whose claim is compared with whose.
OVERCLAIMED = {
    "IsAllowed": "The policy is the one that refuses, and the certificate claims numbers of this family "
    "that its issuer does not have",
    "IsLinkCovered": "The policy of a certificate below a CA is the one that refuses, the CA does not "
    "inherit this family, and the nearest explicit set at or below the certificate does not lie in what "
    "the CA claims, which is nothing where it does not name the family",
    "Takes": "The policy of the head is the one that refuses, and the nearest explicit set of this "
    "family at or below the head does not lie in that of the CA",
}
# Texts that a reader could take for a misprint.
ODD = {"EE certificate is contains IP resources": "so worded in the original"}
ASKED = "The caller, who is asked once, refuses the certificate; the programs ask nobody"


class Failure(Exception):
    """What the definitions, or the template, have in a form that is not understood here."""


class Named:
    """A definition: its file, comment and text, and its equations, as patterns and right sides."""

    def __init__(self, file, name, comment):
        self.file, self.name, self.comment = file, name, comment
        self.lines, self.equations = [], []

    def close(self):
        """Takes the lines apart into equations: each begins with the name at the margin."""
        parts, place = [], None
        for line in self.lines[1:]:
            if line and line[0] != " " and not line.startswith("--"):
                parts.append([])
            if parts and not line.strip().startswith("--"):
                parts[-1].append(line.strip())
        for part in parts:
            left, equals, right = " ".join(part).partition(" =")
            if equals and " as_faults_of " not in left and " unless " not in left:
                self.equations.append((words(left)[1:], right.strip()))

    def digest(self):
        text = re.sub(r"\s+", " ", " ".join(self.lines))
        return hashlib.sha256(text.encode()).hexdigest()[:8]

    def link(self):
        return f"[`{self.name}`](../crates/{self.file.crate}/specs/{self.file.module}.antt)"

    def field(self, name):
        """What stands for the field of a record."""
        text = self.equations[0][1] + " }"
        found = re.search(rf"\b{name} = (.*?);(?= \w+ = | }})", text)
        if not found:
            raise Failure(f"{self.name} has no {name}")
        return found[1]


class File:
    """A file of specs/: its definitions, what its `use` lines bring in, its standard."""

    def __init__(self, crate, module, text):
        self.crate, self.module = crate, module
        self.named, self.used, self.alias = {}, {}, {}
        about = re.match(r"((?:-- .*\n)*)", text)[1].replace("\n-- ", " ")
        those = r"sections? (?:are those|is that) of ((?:RFC|draft)[\w-]*(?: \d+)?)"
        found = re.search(those, about)
        self.standard = found[1] if found else None
        for path, names in re.findall(r"^use Rattle\.([\w.]+)\.\{([^}]*)\}", text, re.M):
            for name in names.split(","):
                self.used[name.strip()] = path
        for path, name in re.findall(r"^use Rattle\.([\w.]+) as (\w+)", text, re.M):
            self.alias[name] = path
        comment, current = [], None
        for line in text.split("\n"):
            match = None if line.startswith(("use ", "pub use ", "--")) else DEFINITION.match(line)
            if match:
                current = self.named[match[2]] = Named(self, match[2], " ".join(comment))
            if not line or line.startswith("-- "):
                current = None
            comment = comment + [line[3:]] if line.startswith("-- ") else []
            if current:
                current.lines.append(line)
        for made in self.named.values():
            made.close()


def words(text):
    """The words of a term at its top level; what is in brackets is one word."""
    found, depth = [], 0
    for word in re.findall(r"\S+", text):
        if depth:
            found[-1] += " " + word
        else:
            found.append(word)
        depth += sum(word.count(c) for c in "({") - sum(word.count(c) for c in ")}")
    return found


def bare(text):
    """The term without brackets round all of it."""
    text = text.strip()
    while text.startswith("(") and len(words(text)) == 1:
        text = text[1:-1].strip()
    return text


def split(text, mark):
    """The two sides of the first such mark at the top level, if there is one."""
    found = words(text)
    if mark not in found:
        return None
    at = found.index(mark)
    return " ".join(found[:at]), " ".join(found[at + 1 :])


def put(text, values):
    """The term with these values for its variables."""
    def one(match):
        value = bare(values.get(match[0], match[0]))
        return f"({value})" if " " in value else value

    return re.sub(r"(?<![\w.'])[\w']+(?![\w'])", one, text)


class Row:
    """A check: its fault, what has to hold, the definition that lists it, and whether it is one of
    the kind's own."""

    own = False

    def __init__(self, fault, holds, listed, alone, each):
        self.fault, self.holds, self.listed = fault, holds, listed
        self.alone, self.each = alone, each


class Specs:
    """The definitions of all crates."""

    def __init__(self, top, crates):
        self.top, self.files, self.docs = top, {}, {}
        for crate in crates:
            root = top / "crates" / crate / "specs"
            for path in sorted(root.rglob("*.antt")):
                module = str(path.relative_to(root).with_suffix(""))
                self.files[crate, module] = File(crate, module, path.read_text())
        for name in "inspection", "verification":
            text = (top / f"crates/rpki_faults/src/{name}.rt").read_text()
            variant = re.compile(r"((?:^    /// .*\n)+)^    (\w+)(?:\(\w+\))?,$", re.M)
            for lines, fault in variant.findall(text):
                self.docs[fault] = " ".join(re.findall(r"/// (.*)", lines))

    def find(self, file, name):
        """The definition that a name in a file stands for, or None."""
        if name in file.named:
            return file.named[name]
        path = file.used.get(name, "").split(".")
        if len(path) > 2 and path[1] == "specs" and (path[0], "/".join(path[2:])) in self.files:
            return self.files[path[0], "/".join(path[2:])].named.get(name)
        return None

    def named(self, crate, name, digest=None):
        """The only definition of a crate with this name; of several, that with a text of this digest."""
        files = [file for (c, _), file in self.files.items() if c == crate]
        found = [file.named[name] for file in files if name in file.named]
        if len(found) > 1:
            found = [made for made in found if made.digest() == digest]
        if len(found) != 1:
            raise Failure(f"docs/GOOD-OBJECT.in: {crate} has {len(found)} definitions {name}")
        return found[0]

    def kinds(self):
        """Each definition of a kind of objects, by its name."""
        return {
            made.name: made
            for file in self.files.values()
            for made in file.named.values()
            if re.search(r": ObjectKind \w+$", made.lines[0])
        }

    # --- Lists of checks

    def rows(self, term, file, values, listed, above=(), each=False):
        """The checks in a term that lists them."""
        term = bare(put(term, values))
        if term in ("[]", ""):
            return []
        marks = [word for word in words(term) if word in ("∷", "++")]
        if marks:
            first, others = split(term, marks[0])
            found = self.rows(first, file, {}, listed, above, each)
            return found + self.rows(others, file, {}, listed, above, each)
        if sides := split(term, "unless"):
            alone = sum(right.count(" unless ") for _, right in listed.equations) == 1
            fault = self.fault(sides[0], file)
            return [Row(fault, bare(sides[1]), listed, alone, each)]
        if sides := split(term, "as_faults_of"):
            return self.rows(sides[1], file, {}, listed, above, each)
        return self.follow(term, file, above, each)

    def follow(self, term, file, above, each):
        """The checks of the definition at the head of a term, under its arguments."""
        head, *given = words(term)
        if head.startswith("kind."):
            kind = self.kind
            taken, body = re.match(r"λ ([^.]*)\. (.*)$", kind.field(head[5:])).groups()
            values = dict(zip(taken.split(), given))
            found = self.rows(body, kind.file, values, kind, above, each)
            for row in found:
                row.own = True
            return found
        made = self.find(file, head)
        if not made or not made.equations:
            raise Failure(f"{file.crate}/{file.module}: {head} is no list of checks")
        if made in above:
            return []
        given = [self.kind.field(g[5:]) if g.startswith("kind.is_") else g for g in given]
        found = []
        for patterns, right in made.equations:
            values = fitting(patterns, given)
            if values is not None:
                walks = any(f" {made.name} " in f" {r} " for _, r in made.equations)
                found += self.rows(right, made.file, values, made, (*above, made), each or walks)
        return found

    def fault(self, term, file):
        """The fault that a term names: the type, the constructor and its argument."""
        head, *given = words(bare(term))
        if head in ("Inspection", "Verification"):
            return self.fault(given[0], file)
        before, _, name = head.rpartition(".")
        path = file.alias.get(before) if before else file.used.get(name, "")
        if path and ".TheVariants" in path:
            return path.split(".")[-2], name, given
        made = self.find(file, head)
        if made:
            return self.fault(made.equations[0][1], made.file)
        return None

    # --- What is printed

    def text(self, fault):
        """The text of a fault, as its definition has it."""
        kind, name, given = fault
        file = self.files["rpki_faults", "Text/" + kind.removesuffix("Error")]
        made = file.named[kind.removesuffix("Error").lower() + "_text"]
        for (pattern,), right in made.equations:
            head, *taken = words(bare(pattern))
            if head.split(".")[-1] != name:
                continue
            if all(p == g or p[0].islower() for p, g in zip(taken, given)):
                return self.shown(right, file)
        raise Failure(f"{made.name} has no text of {name} {' '.join(given)}")

    def shown(self, term, file):
        """A text: its codes, and what stands for values in angle brackets."""
        term = bare(term)
        if sides := split(term, "++"):
            return self.shown(sides[0], file) + self.shown(sides[1], file)
        if match := re.fullmatch(r'codes "(.*)"', term):
            return match[1]
        head, *given = words(term)
        made = self.find(file, head)
        if made and made.file.module.startswith("Text/"):
            return self.shown(made.equations[0][1], made.file)
        return given[-1].split(".")[-1].upper()

    def standard(self, row):
        """The sections of the comment nearest to a check, or that the rule is the project's own."""
        near = []
        first = words(row.holds)[0] if words(row.holds) else ""
        made = self.find(row.listed.file, first)
        if made and made.file.crate == row.listed.file.crate:
            near.append((made.comment, made.file.standard))
        if row.alone:
            near.append((row.listed.comment, row.listed.file.standard))
        if row.fault:
            near.append((self.docs.get(row.fault[1], ""), None))
        near.append((row.listed.comment, row.listed.file.standard))
        for comment, standard in near:
            if found := sections(comment, standard):
                return found
            if OWN in comment:
                return "this project's own"
        raise Failure(f"{row.listed.name}: no comment of it cites a standard")


def fitting(patterns, given):
    """The values of the variables where the arguments fit the patterns; None where they don't."""
    values = {}
    for pattern, value in zip(patterns, given):
        if pattern in ("true", "false"):
            if value in ("true", "false") and value != pattern:
                return None
        elif re.fullmatch(r"[a-z_][\w']*", pattern):
            values[pattern] = value
    return values


def sections(comment, standard):
    """The sections that a comment cites in brackets, each with its standard, but for those in
    sentences that tell a rule of this project's own."""
    found, last = [], standard
    comment = " ".join(s for s in re.split(r"(?<=[.:])\s+(?=[A-Z])", comment) if OWN not in s)
    for cited in re.findall(r"\(([^()]*\d[^()]*)\)", comment):
        for part in cited.split(";"):
            part = part.strip()
            plain = PLAIN.fullmatch(part)
            if match := re.match(r"RFC \d+", part):
                last = match[0]
            # With the word it is a section of the standard that was named last.
            of = last if plain and plain[1] else standard
            whole = re.fullmatch(r"((?:RFC \d+|draft-\S+|X\.690)), sections? (.*)", part)
            if plain and of:
                pair = of, plain[2]
            elif whole:
                pair = whole.groups()
            else:
                continue
            if pair not in found:
                found.append(pair)
    together = {}
    for of, section in found:
        together.setdefault(of, []).append(section)
    return "; ".join(
        f"{of}, section{'s' if len(them) > 1 or re.search(' and | to |, [0-9]', them[0]) else ''} "
        + ", ".join(them)
        for of, them in together.items()
    )


def meant(specs, fault, holds):
    """When a check fails, by its fault and by the name of what has to hold."""
    return OVERCLAIMED[holds] if fault == "Overclaimed" else phrase(specs.docs[fault])


def phrase(text):
    """A docstring without the sections that it cites."""
    text = re.sub(r" \([^()]*(?:RFC|draft|X\.690)[^()]*\)", "", text)
    return text.split(". ")[0].rstrip(".").replace("|", "\\|")


def formula(text):
    """What has to hold, with names shortened as the page says."""
    text = re.sub(r" \(λ \(?n(?: : ℕ\))?\. n\)", "", text)
    text = re.sub(r"λ \((\w) : [^)]*\)\.", r"λ \1.", text)
    for long, short in SHORT:
        text = text.replace(long, short)
    return text.replace("|", "\\|")


def held(specs, row):
    """What has to hold, with a link to its definition, and the definition that lists the check."""
    if row.fault is None:
        return row.listed.link()
    shown = f"`{formula(row.holds)}`"
    if made := specs.find(row.listed.file, (words(row.holds) or [""])[0]):
        shown = f"[{shown}](../crates/{made.file.crate}/specs/{made.file.module}.antt)"
    return f"{shown}, listed by {row.listed.link()}"


def told(specs, row, rows):
    """When the check fails. Where the same fault is listed again, its list says of what it is."""
    if row.fault is None:
        return ASKED
    where = meant(specs, row.fault[1], (words(row.holds) or [""])[0])
    if sum(other.fault == row.fault for other in rows) > 1 and row.alone and not row.each:
        comment = phrase(row.listed.comment)
        where += ": " + comment[0].lower() + comment[1:]
    return where + "; each is looked at, in their order" * row.each


def cells(specs, row, rows):
    """What is shown of a check: what is printed, when, the standard, and what has to hold."""
    printed = CALLER
    if row.fault:
        text = specs.text(row.fault)
        printed = f"`{text}`" + (f" ({ODD[text]})" if text in ODD else "")
    return [printed, told(specs, row, rows), specs.standard(row), held(specs, row)]


def table_of(numbered):
    """The table of checks, of pairs of their numbers and their cells."""
    lines = ["| | printed | when | standard | has to hold |", "|---|---|---|---|---|"]
    return lines + ["| " + " | ".join([number, *shown]) + " |" for number, shown in numbered]


def rows_of(specs, name):
    """The checks of a kind, in their order."""
    specs.kind = specs.kinds()[name]
    file = specs.files[ROOT]
    whole = " ".join(line.strip() for line in file.named["IsProcessed"].lines)
    order = re.search(r"first : AnswersFirst (\(.*?\)) \(λ", whole)
    # What a check hands to it, as the definition of what a check answers has it.
    answer = specs.named("rpki_signed", "Checks").equations[0][1]
    handed = re.search(r"AnswersAsked (\(before.*?\)) \(IsValidated.*?(\(kind\.held .*?\))", answer)
    if not order or not handed:
        raise Failure("IsProcessed or Checks does not say in which order checks are made")
    term = order[1].replace("held", bare(handed[2]))
    return specs.rows(term, file, {"before": handed[1]}, file.named["IsProcessed"])


def parted(specs, name):
    """The checks of a kind, as cells: those before the ones that the kinds share, these, and those
    after them."""
    rows = rows_of(specs, name)
    shown = [cells(specs, row, rows) for row in rows]
    shared = [at for at, row in enumerate(rows) if not row.own]
    first, end = shared[0], shared[-1] + 1
    if len(shared) != end - first:
        raise Failure(f"{name} has checks of its own among those that the kinds share")
    return shown[:first], shown[first:end], shown[end:]


def common(specs):
    """The checks that the kinds share, as cells; and for each kind, which of them it has."""
    middles = {name: parted(specs, name)[1] for name in specs.kinds()}
    longest = max(middles.values(), key=len)
    has = {}
    for name, middle in middles.items():
        has[name] = [at for at, shown in enumerate(longest, 1) if shown in middle]
        if [longest[at - 1] for at in has[name]] != middle:
            raise Failure(f"{name} has other checks of the object than the other kinds")
    return longest, has


def common_table(specs):
    """The table of the checks that the kinds share."""
    longest, has = common(specs)
    published = {k for k, made in specs.kinds().items() if made.field("is_published") == "true"}
    numbered = []
    for at, (printed, *others) in enumerate(longest, 1):
        of = {name for name, them in has.items() if at in them}
        if of != set(has):
            if of != published:
                raise Failure(f"{printed} is a check of some kinds, but not of the published ones")
            printed += " (published objects only)"
        numbered.append((str(at), [printed, *others]))
    return table_of(numbered)


def span(first, last):
    return str(first) if first == last else f"{first} to {last}"


def spans(numbers):
    """Ascending numbers in words: `1 to 12 and 14 to 22`."""
    found = []
    for number in numbers:
        if found and found[-1][1] == number - 1:
            found[-1][1] = number
        else:
            found.append([number, number])
    return " and ".join(span(*ends) for ends in found)


def kind_table(specs, name):
    """The table of the checks of a kind, where one row stands for those that the kinds share."""
    before, middle, after = parted(specs, name)
    first, last = len(before) + 1, len(before) + len(middle)
    shared = f"checks {spans(common(specs)[1][name])} of {COMMON}"
    if not before + after:
        return [f"- {shared}, and no others."]
    numbered = [(str(at), shown) for at, shown in enumerate(before, 1)]
    numbered.append((span(first, last), [shared, "", "", ""]))
    numbered += [(str(at), shown) for at, shown in enumerate(after, last + 1)]
    return table_of(numbered)


def checks(specs, name):
    """The table of the checks of a kind, of those that the kinds share, or of a definition."""
    if name == "common":
        return common_table(specs)
    if name in specs.kinds():
        return kind_table(specs, name)
    crate, name = name.split(":")
    made = specs.named(crate, name)
    rows = specs.rows(made.equations[0][1], made.file, {}, made, (made,))
    return table_of([(str(at), cells(specs, row, rows)) for at, row in enumerate(rows, 1)])


def texts(top, crate, names):
    """Rows of texts of a crate."""
    source = (top / "crates" / crate / "src" / "faults.rt").read_text()
    found = re.findall(r"((?:^/// .*\n)+)pub const (\w+): &str =\s+\"([^\"]*)\";", source, re.M)
    known = {name: (" ".join(re.findall(r"/// (.*)", doc)), text) for doc, name, text in found}
    rows = []
    for name in names:
        if name not in known:
            raise Failure(f"docs/GOOD-OBJECT.in: {crate} has no text {name}")
        doc, text = known[name]
        named = list(dict.fromkeys(re.findall(r"RFC \d+", doc)))
        named = named or ["this project's own"] * (OWN in doc)
        standard = sections(doc, None) or ", ".join(named)
        rows.append(f"| `{text}` | {standard} |")
    return rows, set(known)


def linked(specs, given):
    """Rows of the files whose definitions say what the ASN.1 above says."""
    crate, *names = given
    cited = {}
    for word in names:
        name, _, digest = word.partition("=")
        made = specs.named(crate, name, digest)
        if made.digest() != digest:
            raise Failure(
                f"docs/GOOD-OBJECT.in: {name} of {crate} has another text than when the ASN.1 was "
                f"written: see whether that is right, and write {name}={made.digest()}"
            )
        # What a comment calls the profile, the page names.
        of = "of the profile" in made.comment
        found = "" if of else sections(made.comment, made.file.standard)
        shown = f"`{name}` ({found})" if found else f"`{name}`"
        cited.setdefault(made.file.module, []).append(shown)
    return [
        f"| [`{crate}`: `{module}`](../crates/{crate}/specs/{module}.antt) | {', '.join(them)} |"
        for module, them in cited.items()
    ]


def faults(specs, given):
    """Rows of faults of a verification, each with the definition of what has to hold."""
    rows = []
    for word in given:
        (name, *of), (crate, made) = (part.split(mark) for part, mark in zip(word.split("="), ".:"))
        text = specs.text(("VerificationError", name, of))
        rows.append(f"| `{text}` | {meant(specs, name, made)} | {specs.named(crate, made).link()} |")
    return rows


def page(top, crates):
    """The text of the page."""
    specs = Specs(top, crates)
    lines, kinds, said = [], set(), {crate: set() for crate in TEXTS}
    there = {crate: texts(top, crate, [])[1] for crate in TEXTS}
    for line in (top / "docs" / "GOOD-OBJECT.in").read_text().split("\n"):
        match = re.fullmatch(r"\{\{(\w+) (.*)\}\}", line)
        if not match:
            lines.append(line)
            continue
        what, given = match[1], match[2].split()
        if what == "forms":
            lines += linked(specs, given)
        elif what == "texts":
            crate, *names = given
            lines += texts(top, crate, names)[0]
            said[crate] |= set(names)
        elif what == "checks":
            kinds.add(given[0])
            lines += checks(specs, given[0])
        elif what == "faults":
            lines += faults(specs, given)
        else:
            raise Failure(f"docs/GOOD-OBJECT.in: {what} is no word of it")
    missing = [f"{c}: {n}" for c in TEXTS for n in sorted(there[c] - said[c])]
    missing += sorted({"common", *specs.kinds()} - kinds)
    missing += [text for text in ODD if f"| `{text}` (" not in "\n".join(lines)]
    if missing:
        raise Failure("docs/GOOD-OBJECT.in does not have " + ", ".join(missing))
    return "\n".join(lines)
