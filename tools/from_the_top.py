"""Makes the text of docs/SPECIFICATION.md, for tools/specification: the main promises, as the sources
have them, and each definition that they rest on, from the top down.

A definition has one place: in the section of its subject, or in a later one where only definitions
of later sections cite it, and there after the first that cites it. One that a single other cites,
and that is short, stands in the place of that other. A definition is cited where the page shows its
name: in an equation or in the type of a field.
"""
import heapq
import re

from clauses import Missing, clauses_of
from definitions import TOP, sentence

HEAD = """\
# Specification

What a yes of the programs means, and what a printed payload means: first the promises, as the
sources have them, and then each definition that they rest on, from the top down to the octets. A
definition has one place, after the first that cites it: its name, a sentence with the section of the
standard, its text, and after → the names in it and the types of its arguments that have a place of
their own; short ones that it alone cites stand below it. Each function of `crates/*/src` is proved to
keep its clauses, which `.ci/run` proves again from nothing ([PROVED.md](PROVED.md) says what is
proved, what is only tested, and what is trusted: the toolchain, RSA and SHA-256, and what is handed
in); everything holds unless memory runs out. That a definition says what its standard says is left to
you, with the standard beside this page; where this project is stricter or laxer, the sentence says
that it is this project's own rule, and [DECISIONS.md](DECISIONS.md) has all of these.
`tools/specification` makes the page from the comments in `crates/NAME/specs`; change them there.

## How it is written

- Octets are a list of numbers, `List ℕ`. A *form* relates octets to what they say; a *front* of octets
  is what they begin with, whatever follows. Names that end in `_text` are what is printed.
- `P × Q` is both, `P ⊎ Q` one of them, `P → Q` that Q follows, `¬ P` and `P → ⊥` that P does not hold,
  `Unit {0}` what always holds, `⊥` what never does. `(x : A) × P` says that there is an x, and
  `(x : A) → P` that it holds of each. `Type 0` is the type of propositions.
- `a ≡ b` says that they are equal, `a ≢ b` that they are not; `==`, `&&`, `||`, `not`, `nat_lt` and
  `nat_le` compute `true` or `false`, and `IsTrue` says that it is `true`.
- `[]` is the list without entries, `x ∷ xs` the one that begins with x, `a ++ b` one after the other;
  `All P xs` says that P holds of each entry, `Any P xs` of one, `AllZip P xs ys` of each two at one
  place, and `Contains xs x` that x is one. `map`, `flat_map`, `filter`, `take`, `drop`, `zip`, `length`
  and `concat` are what they are elsewhere. `codes "abc"` are the octets of a text.
- `Some x` and `None` are an option, `Ok x` and `Err e` a result, `(a, b)` a pair with `.0` and `.1`;
  `IfOk r P` says that, if r is `Ok x`, P holds of x, `OnOk` that P holds then, `IfErr` and `IfSome` the
  like. `λ x. e` is a function.
- A *record* is what its fields are, which stand in lines: `name : type` of something that there is,
  or `name : what holds`. A field is read as `r.name`; `record { name = value; }` is one.
- `x.now` is what a value of the code is at a call, `x.old` and `x.new` before and after it.
  `C.is_signed` is which signatures the caller's cryptography calls good, and `C.digest_of` how it
  digests; `R.finds` and `F.finds` are what reads of a copy may find; `FnOnceReturnsAt F.FnOnce check_crl`
  is what the caller's `check_crl` may answer.
- `suc n` is n + 1, `decimal n` a number as a text, `sha256` and `sha1` are the digests of FIPS 180-4.
  These and other names without a link are those of the standard library, or of `sha2`, `sha1`, `hex`,
  `base64` and `jiff`; the `use` lines of a file say of which.

[GOOD-OBJECT.md](GOOD-OBJECT.md) has the checks of each kind of object as tables, with the text of each
fault.
"""

# The promises: the heading, what is said of it, and the clauses, each with its crate, its source
# file, the function or the `impl`, and its names.
PROMISES = [
    (
        "A yes of `rpki_verify check`",
        "Where a run has the status 0, the certificates make an issuer, and under it each file begins "
        "with a good object of its kind that no list revokes, or with the certificate of a CA, or with a "
        "current list of the issuer, or is a locator of the trust anchor. What is found of a signed object "
        "or an attestation decides whether it is good. Signatures are those of RFC 8017.",
        [
            ("rpki_program", "verify/laws", "a_check_is_a_yes_of_each", ["ensures"]),
            ("rpki_program", "verify/run", "command", ["ensures"]),
            ("rpki_validation", "laws", "what_is_found_decides", ["roas", "aspas", "manifests", "checklists", "attestations"]),
            ("rpki_rsa", "laws", "verdicts", ["ensures"]),
        ],
    ),
    (
        "A yes of `rpki_verify files`",
        "Where the status is 0, the manifest or the checklist is good, and the folder has each file that it "
        "lists; where it is 1, one of these does not hold, or the certificates make no issuer.",
        [("rpki_program", "verify/files", "files", ["ensures"])],
    ),
    (
        "A yes of `rpki_objects check`",
        "The same, by a list of good signatures that the caller hands in.",
        [("rpki_command", "laws", "checks_are_right", ["yes", "no"])],
    ),
    (
        "A yes of `rta`",
        "Where a run of `rpki_verify rta` has the status 0, the anchors are made, and the file begins "
        "with an attestation that is granted under them; `rpki_objects rta` says the same by a list of "
        "good signatures (`HoldsByList`).",
        [
            ("rpki_program", "verify/rta", "rta", ["ensures"]),
            ("rpki_command", "laws", "attestations_are_right", ["yes", "no"]),
        ],
    ),
    (
        "A payload of `rpki_verify payloads`",
        "What a run finds is said below a trust anchor of its locator; a payload is said there by a "
        "good object in a good publication point to which a chain of valid, unrevoked certificates "
        "leads. Over a copy that finds one thing for each URI, each payload that is published so is "
        "found, but for those below a place that was left unread, and each such place is refused. "
        "Until a payload expires, it is published so. What is printed is the report of the runs under "
        "the locators, after local exceptions.",
        [
            ("rpki_relying_party", "laws", "payloads_are_said", ["ensures"]),
            ("rpki_relying_party", "laws", "publications_are_found", ["ensures"]),
            ("rpki_relying_party", "laws", "unread_places_are_refused", ["ensures"]),
            ("rpki_relying_party", "laws", "payloads_hold", ["ensures"]),
            ("rpki_relying_party", "locator", "run_under", ["sound", "complete", "refused", "reads"]),
            ("rpki_payloads", "report", "report_payloads", ["ensures"]),
            ("rpki_payloads", "laws", "exceptions_are_applied", ["origins", "providers"]),
        ],
    ),
    (
        "A yes of the calls of the library",
        "What `check::manifest`, `roa`, `aspa`, `rsc` and `rta` of `rpki_signed` promise, from octets "
        "to the yes. The first four also name the first check that fails, as here `check::roa`.",
        [
            ("rpki_signed", "laws", "yes_is_exact", ["manifests", "roas", "aspas", "checklists", "attestations"]),
            ("rpki_signed", "check", "roa", ["requires", "first", "exact"]),
        ],
    ),
]

# The sections: the heading, and the crates, or the files, that it is about.
SUBJECTS = [
    ("A yes and a no", ["rpki_validation", "rpki_program", "rpki_command", "rpki_signed", "rpki_show/Kinds", "rpki_show/Options"]),
    ("Signed objects", ["rpki_sigobj", "rpki_faults", "rpki_attributes"]),
    ("Certificates", ["rpki_certs", "rpki_extensions"]),
    ("Revocation lists", ["rpki_crls"]),
    ("Manifests", ["rpki_files/Manifest", "rpki_files/Name", "rpki_lists"]),
    ("ROAs", ["rpki_routes/Roa"]),
    ("ASPAs", ["rpki_routes/Aspa"]),
    ("Checklists", ["rpki_files/Checklist"]),
    ("Attestations", ["rpki_multi", "rpki_tagged", "rpki_rta", "rpki_paths"]),
    ("Locators", ["rpki_tal"]),
    ("The pass over a local copy", ["rpki_relying_party", "rpki_payloads"]),
    ("Numbers that certificates have", ["rpki_resources"]),
    ("Signatures", ["rpki_rsa", "rpki_verdicts"]),
    ("Names, keys, times and algorithms", ["rpki_basics"]),
    ("DER", ["rpki_der"]),
    (
        "Runs of the programs",
        ["rpki_cli", "rpki_command/Command"]
        + [f"rpki_command/Yes/{name}" for name in ("check_order", "in_order", "in_order_with", "FilesOfCheck")],
    ),
    (
        "What is printed",
        ["rpki_show", "rpki_faults/Text", "rpki_der/Text", "rpki_resources/Text", "rpki_cli/Answer"]
        + ["rpki_payloads/Texts", "rpki_payloads/Formats", "rpki_payloads/Seconds", "rpki_payloads/Found"]
        + ["rpki_relying_party/Texts", "rpki_relying_party/Names"],
    ),
]
# The definitions whose texts are not on the page, but in their files: what each command does with
# its words, what words ask for, and the formats of payloads.
ENDS = {"objects_program", "objects_language", "AskFor", "payloads_in"}
# From this section on a definition stands in no place of an earlier one.
LAST = len(SUBJECTS) - 2
OTHERS = """\
The clauses of other public calls and laws, as those that read, write, build and sign, cite {} more
definitions, and these cite others. They stand, with their comments, in these files; the page CALLING.md
of a crate says which call is for what."""
# Crates whose calls nobody else makes.
INNER = re.compile(r"rpki_examples|rpki_\w*tests|rpki_testing")
# How long a definition may be that stands in the place of the one that cites it, and how long all
# of these together.
LINE, LINES = 250, 700
# How long a definition is that stands in one line with its sentence.
SHORT = 280
# How many variants or fields of a type of the code are shown, and how many definitions may have an
# argument of a type and each a link to it.
FEW = 12

WORD = re.compile(r"[^\s(){}\[\],;λ]+")
# The standard of the sections that a file names, and a section, or several, without one.
STANDARD = re.compile(r"(RFC \d+|X\.690|draft-[\w-]+)")
THOSE = re.compile(r"sections?(?: named)? (?:are those|is that) of " + STANDARD.pattern)
PLAIN = re.compile(r"(?:sections? )?(\d[\d.]*(?:(?: and | to |, )\d[\d.]*)*(?:, point [\w.]+)?)")
# What may be a name in a comment: in backticks, or with a capital inside.
NAME = re.compile(r"`([^`\s]+)`|(?<![\w/`.-])([A-Z][a-z]\w*[A-Z]\w*)(?![\w/`-])")


class Place:
    """What has a place on the page: a definition, or a type of the code."""

    def __init__(self, key, file, about, link):
        self.key, self.file, self.about, self.link = key, file, about, link
        self.name = key[2]
        self.head, self.told, self.parts = self.name, "", []
        self.cites, self.types, self.citers, self.inner = [], [], [], []
        self.section, self.anchor, self.host = None, "", None

    def all_cites(self):
        """What its text cites, and then what the types of its arguments do."""
        return self.cites + self.types

    def size(self):
        return len(self.told) + sum(len(text) + len(comment) for text, comment in self.parts)


class Page:
    """The definitions of all crates, and those that have a place."""

    def __init__(self, files):
        self.files = {(crate, tuple(f.module)): f for crate, them in files.items() for f in them}
        self.crate_of = {id(f): crate for crate, them in files.items() for f in them}
        self.made = {
            (*at, made.name): (file, made) for at, file in self.files.items() for made in file.definitions
        }
        self.data_of = {
            (*key[:2], name): key
            for key, (_, made) in self.made.items()
            if made.members == "data"
            for name, _ in made.parts
        }
        self.constructors = {name for _, _, name in self.data_of}
        self.places, self.types, self.first = {}, {}, {}

    # --- names ---

    def meant(self, path, there):
        """The key of what a path of a `use` line and a name in it stand for, or None."""
        if path[1:2] != ["specs"]:
            return None
        if path[2:3] == ["declared"]:
            inner = [part for part in path[3:] if part != "TheVariants"]
            return self.declared(path[0], inner[:-1], inner[-1])
        key = (path[0], tuple(path[2:]), there)
        return key if key in self.made else self.data_of.get(key)

    def declared(self, crate, module, name):
        """The key of a type of the code, or None."""
        key = (crate, ("declared", *module), name)
        if key not in self.types:
            self.types[key] = type_of(crate, module, name)
        return key if self.types[key] else None

    def resolved(self, file, word):
        """The key of what a word in a file stands for, or None."""
        at = (self.crate_of[id(file)], tuple(file.module))
        for name in (word, f"◌{word}◌"):
            if (*at, name) in self.made or (*at, name) in self.data_of:
                return self.data_of.get((*at, name), (*at, name))
            if name in file.used:
                return self.meant(*file.used[name])
        first, dot, rest = word.partition(".")
        if not dot or not first:
            return None
        if first in file.alias:
            return self.meant(file.alias[first], rest.split(".")[0])
        return self.resolved(file, first)

    def linked(self, place, text):
        """The text, in which each name leads to its place, and the keys of these."""
        seen = set()

        def link(match):
            key = self.resolved(place.file, match[1] or match[2]) if place.file else None
            if not key or key == place.key:
                return match[0]
            seen.add(key)
            return self.link(key, match[1] or match[2])

        # (a lone backtick is one of a text)
        return NAME.sub(link, text).replace(" ` ", " \\` "), seen

    def link(self, key, name=None):
        """A link to the place of a name, or to its file."""
        name = name or bare(key[2])
        if key in self.places:
            return f"[`{name}`](#{self.places[key].anchor})"
        return f"[`{name}`]({link_of(key)})"

    def is_told(self, place, key):
        """Whether a place has a link to a type of its arguments: where few have it, and the first."""
        having = [citer for citer in self.places[key].citers if key in citer.types]
        return len(having) <= FEW or self.first.setdefault(key, place) is place

    # --- what has a place ---

    def take(self, key):
        """The place of a key, with all that it cites."""
        if key in self.places:
            return
        if key in self.types:
            self.places[key] = self.type_place(key)
            return
        self.places[key] = place = self.definition_place(key)
        for cited in place.all_cites():
            self.take(cited)

    def type_place(self, key):
        told, shown = self.types[key]
        place = Place(key, None, "", link_of(key))
        place.told, place.parts = sentence(told), [(shown, "")] if shown else []
        return place

    def definition_place(self, key):
        file, made = self.made[key]
        place = Place(key, file, file.about, link_of(key))
        names = made.arguments(self.constructors)
        place.told = sentence(with_standard(made.comment or made.part, file.about), names)
        comments = dict(made.parts)
        head, body = pieces(made)
        for part in body:
            field = re.match(r"([^\s:(){}]+) *:(?: |$)", part) if made.members else None
            comment = with_standard(comments.get(field[1], "") if field else "", file.about)
            place.parts.append((part, sentence(comment, names)))
        if made.members:
            place.head = " ".join([made.name, *made.binders])
        if made.name in ENDS:
            return place
        for part in body:
            variables = bound(part)
            words = WORD.findall(part)[1 if made.members else 0 :]
            self.add_cited(place, place.cites, (word for word in words if word not in variables))
        self.add_cited(place, place.types, WORD.findall(head))
        return place

    def add_cited(self, place, cites, words):
        """Notes what the words cite."""
        for word in words:
            cited = self.resolved(place.file, word.strip("."))
            if cited and cited != place.key and cited not in place.cites + place.types:
                cites.append(cited)


def bound(part):
    """The variables of an equation, or of the type of a field, that begin with a small letter."""
    left, equals, _ = part.partition(" =")
    words = re.findall(r"[({]([^(){}:]*) :", part) + re.findall(r"λ ([^.()]*)\.", part)
    words += [word for word in left.split()[1:] if equals]
    return {name for name in re.findall(r"[^\s(){}]+", " ".join(words)) if name[0].islower() and "." not in name}


def bare(name):
    """A name without the marks of an operator."""
    return name.strip("◌")


def link_of(key):
    """Where a definition, or a type of the code, is written."""
    crate, module, _ = key
    if module[:1] == ("declared",):
        return f"../crates/{crate}/src/{'/'.join(module[1:]) or 'lib'}.rt"
    return f"../crates/{crate}/specs/{'/'.join(module) or 'Lib'}.antt"


def type_of(crate, module, name):
    """What the docstring of a type of the code says, and its variants or its public fields."""
    path = TOP / "crates" / crate / "src" / f"{'/'.join(module) or 'lib'}.rt"
    if not path.is_file():
        return None
    head = rf"((?:^/// ?.*\n)*)(?:^#\[.*\n)*^pub (enum|struct) {name}\b[^{{;]*([{{;])"
    found = re.search(head, path.read_text(), re.M)
    if not found:
        return None
    told = " ".join(re.findall(r"/// ?(.*)", found[1]))
    if found[3] == ";":
        return told, ""
    body = path.read_text()[found.end() :].split("\n}")[0]
    rows = [row.strip().rstrip(",") for row in body.split("\n")]
    if found[2] == "enum":
        rows = [row for row in rows if re.match(r"[A-Z]\w*(\(.*\))?$", row)]
        return told, " | ".join(rows) if len(rows) <= FEW else ""
    rows = [row.removeprefix("pub ") for row in rows if re.match(r"pub \w+: ", row)]
    return told, ", ".join(rows) if len(rows) <= FEW else ""


def pieces(made):
    """A definition: its head, with its types, and its equations, or the fields of a record."""
    lines = made.lines
    if made.members:
        first, margin = 1, 2
    else:
        # (an equation with a type in it is taken for the head of another definition)
        known = 0 if re.search(r" =( |$)", lines[0]) else 1
        first = next((at for at in range(known, len(lines)) if lines[at][:1] != " "), len(lines))
        margin = 0
    found = []
    for line in lines[first:]:
        if len(line) - len(line.lstrip()) <= margin and line.strip()[0] != "}":
            found.append(line.strip().removeprefix("pub "))
        elif found:
            found[-1] += " " + line.strip()
    return " ".join(line.strip() for line in lines[:first]), found


def with_standard(comment, about):
    """A comment, whose brackets name the standard of each section: that of the file, if no other."""
    named = THOSE.search(about) or STANDARD.search(about)
    if not named:
        return comment

    def whole(match):
        first, *others = match[1].split(";")
        plain = PLAIN.fullmatch(first.strip())
        if not plain:
            return match[0]
        many = "s" if re.search(r" and | to |, \d", plain[1]) else ""
        first = f"{named[1]}, section{many} {plain[1]}"
        return "(" + ";".join([first, *others]) + ")"

    return re.sub(r"\(([^()]*)\)", whole, comment)


# --- the order ---


def subject(key):
    """The number of the section that a definition is about, by the longest name that fits. A type
    of the code is about none: it stands where it is cited first."""
    crate, module, name = key
    if module[:1] == ("declared",):
        return 0
    path = "/".join((crate, *module, bare(name)))
    fitting = [
        (len(of), number)
        for number, (_, them) in enumerate(SUBJECTS)
        for of in them
        if (path + "/").startswith(of + "/")
    ]
    if not fitting:
        raise Missing(f"tools/from_the_top.py: no section is about {path}")
    return max(fitting)[1]


def set_sections(page, roots):
    """Gives each place the section of its subject, or a later one: that of the first that cites it."""
    queue = []
    for root in roots:
        heapq.heappush(queue, (subject(root), len(queue), root))
    count = len(queue)
    while queue:
        section, _, key = heapq.heappop(queue)
        place = page.places[key]
        if place.section is not None:
            continue
        place.section = section
        for cited in place.all_cites():
            count += 1
            heapq.heappush(queue, (max(section, subject(cited)), count, cited))


def set_hosts(page, roots):
    """Puts short definitions that a single other cites in the place of that one."""
    for place in page.places.values():
        for cited in place.all_cites():
            page.places[cited].citers.append(place)
    for place in page.places.values():
        alone = len(place.citers) == 1 and place.key not in roots
        if alone and place.size() <= LINE and len(place.parts) <= 2 and fits(place, place.citers[0]):
            place.host = place.citers[0]
    # Who is long itself keeps its place, and so does one in a circle.
    for place in page.places.values():
        seen = [place]
        while seen[-1].host and seen[-1].host not in seen:
            seen.append(seen[-1].host)
        if seen[-1].host:
            seen[-1].host = None
    for place in page.places.values():
        for cited in place.all_cites():
            inner = page.places[cited]
            if inner.host is place:
                if sum(other.size() for other in hosted(place)) + inner.size() > LINES:
                    inner.host = None
                else:
                    place.inner.append(inner)


def fits(place, host):
    """Whether a place may be in another one: in its section or before the last ones, and, if the
    section of a standard may be named without it, in its file."""
    alike = place.key[:2] == host.key[:2] or not re.search(r"\d", re.sub(r"\([^()]*\)", "", place.told))
    return alike and (place.section == host.section or place.section < LAST)


def hosted(place):
    """All that stand in a place, each before those that it cites."""
    return [one for inner in place.inner for one in (inner, *hosted(inner))]


def in_order(page, roots):
    """For each section its groups: a file, and the places in it."""
    order = {key: number for number, key in enumerate(roots)}
    sections = []
    for number in range(len(SUBJECTS)):
        left = {key for key, place in page.places.items() if place.section == number and not place.host}
        groups = []
        while left:
            group = next_group(page, left, order)
            groups.append(group)
            for place in group:
                left.discard(place.key)
                for one in (place, *hosted(place)):
                    for cited in one.all_cites():
                        order.setdefault(top(page.places[cited]).key, len(order))
        sections.append(groups)
    return sections


def top(place):
    """The place in which one stands."""
    while place.host:
        place = place.host
    return place


def group_of(place):
    """The file whose group a place is in. A type of the code is in none."""
    return place.key[:2] if place.file else None


def next_group(page, left, order):
    """The next group of a section: of a file all whose places are cited by now, or by each other, if
    there is one; of all such files that which is cited first."""
    ready = sorted((key for key in left if key in order), key=order.get)
    best = None
    for key in ready:
        group = reached(page, page.places[key], left, order)
        missing = sum(1 for other in left if other[:2] == key[:2] and page.places[other] not in group)
        if best is None or missing < best[0]:
            best = (missing, group)
        if missing == 0:
            break
    return best[1]


def reached(page, first, left, order):
    """The places of a file that are cited by now or by each other, in the order in which they are."""
    of_file = group_of(first)
    ready = sorted((key for key in left if key in order), key=order.get)
    queue = [page.places[key] for key in ready if group_of(page.places[key]) == of_file]
    if of_file is None:
        queue = [first]
    at = 0
    while at < len(queue):
        for one in (queue[at], *hosted(queue[at])):
            for cited in one.all_cites():
                place = top(page.places[cited])
                near = place.file is None or group_of(place) == of_file
                if place.key in left and near and place not in queue:
                    queue.append(place)
        at += 1
    return queue


# --- the text ---


def set_anchors(page):
    """Gives each place a name for links to it."""
    taken = {}
    for place in page.places.values():
        name = re.sub(r"[^\w-]", "", bare(place.name)).lower()
        taken.setdefault(name, []).append(place)
    for name, them in taken.items():
        for place in them:
            crate, module, _ = place.key
            long = "-".join([crate.removeprefix("rpki_"), *(module[-1:]), bare(place.name)])
            place.anchor = name if len(them) == 1 else re.sub(r"[^\w-]", "", long).lower()
    anchors = [place.anchor for place in page.places.values()]
    for place in page.places.values():
        if anchors.count(place.anchor) > 1:
            place.anchor += "-" + ("type" if not place.file else "word" if place.name[0].islower() else "name")


def code(text):
    return f"`` {text} ``" if "`" in text else f"`{text}`"


def body(page, place):
    """What is shown of a place below its name: its text, and links to the names in it."""
    rows = [code(text) + (f" {page.linked(place, comment)[0]}" if comment else "") for text, comment in place.parts]
    _, seen = page.linked(place, place.told + " ".join(comment for _, comment in place.parts))
    inner = {one.key for one in place.inner}
    linked = place.cites + [key for key in place.types if page.is_told(place, key)]
    links = [page.link(key) for key in linked if key not in seen and key not in inner]
    if place.name in ENDS:
        rows = [f"Its text is in [its file]({place.link})."]
    arrow = ["→ " + ", ".join(links)] if links else []
    return rows, arrow


def shown(page, place, group):
    """The lines of a place."""
    name = "  - " + named(page, place, group)
    rows, arrow = body(page, place)
    if place.size() <= SHORT and len(rows) < 2:
        lines = [" ".join([name, *rows, *arrow])]
    else:
        lines = [name + "<br>", "    " + "<br>".join(rows) + (" " + arrow[0] if arrow else "")]
    inner = hosted(place)
    if inner:
        lines[-1] += "<br>"
        lines.append("    where " + "<br>".join(within(page, one, group) for one in inner))
    return lines


def within(page, place, group):
    """A definition that stands in the place of another."""
    rows, arrow = body(page, place)
    return " ".join([named(page, place, group), *rows, *arrow])


def named(page, place, group):
    """The name of a place, its file, if that is not the one of its group, and its sentence."""
    told, _ = page.linked(place, place.told)
    apart = "" if place.key[:2] == group else f" ([file]({place.link}))"
    return f'<a id="{place.anchor}"></a>**`{bare(place.head)}`**{apart} {told}'.rstrip()


def section_lines(page, heading, groups):
    """A section: for each group its file, and the places in it."""
    lines = [f"## {heading}", ""]
    for group in groups:
        file = next((place for place in group if place.file), group[0])
        crate, module = file.key[:2]
        about = re.sub("  +", " ", file.about)
        label = f"{crate}: {'/'.join(part for part in module if part != 'declared') or 'Lib'}"
        lines.append(f"- {sentence(about)} [{label}]({file.link})" if about else f"- [{label}]({file.link})")
        for place in group:
            lines += shown(page, place, file.key[:2])
    return lines + [""]


def contents():
    """Links to the sections."""
    headings = ["The promises", *(heading for heading, _ in SUBJECTS), "What other calls promise"]
    links = (f"[{it}](#{re.sub('[^a-z -]', '', it.lower()).replace(' ', '-')})" for it in headings)
    return f"Sections: {', '.join(links)}."


def promise_lines(page, heading, told, clauses):
    """A promise: what is said of it, and its clauses as they stand."""
    lines = [f"### {heading}", "", told, ""]
    for (crate, module, item, names), cited in clauses:
        path = f"../crates/{crate}/src/{module}.rt"
        text = clauses_of(crate, module, item, names)
        lines += [f"[`{item}` of `{crate}`]({path}):", "", "```", *text.split("\n"), "```", ""]
        lines += ["→ " + ", ".join(page.link(key) for key in cited), ""]
    return lines


def other_lines(page, all_cited):
    """What the clauses of other public calls cite, a line for each crate."""
    others = {}
    for of_crate in all_cited.values():
        for key in (key for items in of_crate.values() for keys in items.values() for key in keys):
            if key not in page.places and not INNER.fullmatch(key[0]):
                others.setdefault(key[0], {}).setdefault(key[:2], {})[key] = None
    count = sum(len(them) for by_file in others.values() for them in by_file.values())
    lines = ["## What other calls promise", "", OTHERS.format(count), ""]
    for crate in (crate for crate in all_cited if crate in others):
        files = [
            f"[{'/'.join(key[1])}]({link_of((*key, ''))}): " + ", ".join(f"`{bare(k[2])}`" for k in them)
            for key, them in others[crate].items()
        ]
        lines.append(f"- `{crate}`: {'; '.join(files)}.")
    return lines


def page(files, all_cited, cited_in):
    """The page and its text. `cited_in` says what the names in a clause of a source file stand for."""
    whole = Page(files)
    promised = [
        (heading, told, [(clause, cited_in(*clause)) for clause in clauses])
        for heading, told, clauses in PROMISES
    ]
    roots = list(dict.fromkeys(key for _, _, them in promised for _, keys in them for key in keys))
    for key in roots:
        whole.take(key)
    for name in ENDS - {place.name for place in whole.places.values()}:
        raise Missing(f"tools/from_the_top.py: nothing on the page is called {name}")
    set_sections(whole, roots)
    set_hosts(whole, set(roots))
    set_anchors(whole)
    lines = [*HEAD.split("\n"), contents(), "", "## The promises", ""]
    for heading, told, clauses in promised:
        lines += promise_lines(whole, heading, told, clauses)
    for (heading, _), groups in zip(SUBJECTS, in_order(whole, roots)):
        lines += section_lines(whole, heading, groups)
    lines += other_lines(whole, all_cited)
    return whole, "\n".join(lines).rstrip("\n") + "\n"
