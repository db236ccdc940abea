"""Finds large values that a function lets go in silence, as far as a script can see it.

A certificate, a list, an object or a content that a function holds at a `?`, a `return` or its end,
and neither hands on nor drops, is taken apart in the proof of that function, field by field
(docs/GATE.md). `places` yields such functions, for tools/rules.

What is read is the text as `rt fmt` lays it out: a block ends at the first line that is indented
less. Which names hold a large value is read off the parameters and the declared results of the
functions that are called, looked up by their names; where candidates disagree nothing is said.
Values in struct literals, in patterns and of a type parameter are not seen.
"""
import collections
import re

# The large types that are held by value: not behind a reference, and not in a Vec or a Box.
LARGE = """Cert ResourceCert Crl SignedObject SignedData Contents Tbs Extensions Locations Signed
    SignerInfo SignedAttrs ManifestContent ResourceSignedChecklist RouteOriginAttestation
    AsProviderAttestation""".split()
HELD = re.compile(rf"(?<![&\w])(?<!mut )(?<!Vec<)(?<!Box<)(?<!'\w )\b({'|'.join(LARGE)})\b(?!::)")
CALL = re.compile(r"(?:(\w+)(?:::<[^()]*?>)?::)?(\w+)(?:::<[^()]*?>)?\(|[()\[\]{}]")


# Tests whose answer borrows from the value: the prover can't follow an answer that is held over the
# drop, so the value goes at the `?` of the call.
LENT = {("rpki_certificates_tests/src/rta/asked.rt", "asked_in_all")}


class Function:
    """A function: its file, the line of its body, its name, the type of its `impl`, what it takes
    and gives, whether it takes `self` by value, and the lines of its body."""

    def __init__(self, path, first, name, subject, head, body):
        self.path, self.first, self.name, self.subject, self.body = path, first, name, subject, body
        signature = re.split(r" (?:ensures|requires|where) ", head)[0].removesuffix(" {")
        self.takes, gives = arguments(signature[signature.index(f"fn {name}") + 3 + len(name):])
        self.gives = re.sub(r"\bSelf\b", subject, gives)
        self.by_value = bool(re.match(r"\( ?(mut )?self\b", self.takes))


def arguments(signature):
    """The arguments, in their parentheses, and the result; type parameters are gone past."""
    depth, start = 0, 0
    for at, letter in enumerate(signature):
        if letter == "(" and depth == 0:
            start = at
        depth += letter in "(<"
        depth -= letter == ")" or letter == ">" and signature[at - 1] != "-"
        if letter == ")" and depth == 0:
            return signature[start:at + 1], signature[at + 1:].removeprefix(" -> ")
    return signature, ""


def opening_of(lines, number, indent):
    """The line on which the body of a function begins, or None where it has none. A clause may have
    lines that end in `;`, in a record."""
    depth = 0
    for at in range(number, len(lines)):
        text = lines[at]
        if text == indent + "{" or re.match(rf"{indent}\).*\{{$", text) or at == number and text.endswith("{"):
            return at
        depth += text.count("{") - text.count("}")
        if depth == 0 and text.endswith((";", "{}")):
            return None
    return None


def functions(path):
    """The functions of a file that have a body."""
    lines = [re.sub(r'\s*//.*|"(?:[^"\\]|\\.)*"', "", line) for line in path.read_text().split("\n")]
    subject = ""
    for number, line in enumerate(lines):
        if match := re.match(r"impl\b(?:<.*?>(?= \w))? ?([^{}]*?) ?\{?$", line):
            subject = match[1].split(" for ")[-1]
        elif line == "}" or re.match(r"\S.*\{\}$", line):
            subject = ""
        match = re.match(r"( *)(?:pub(?:\([^)]*\))? )?(?:final |const )*fn (\w+)", line)
        opening = opening_of(lines, number, match[1]) if match else None
        if opening is None:
            continue
        closing = next(at for at in range(opening, len(lines)) if lines[at] == match[1] + "}")
        head = " ".join(text.strip() for text in lines[number:opening + 1])
        yield Function(path, opening + 1, match[2], subject, head, lines[opening + 1:closing])


def outer_call(text):
    """The last call that stands inside of no other."""
    depth, found = 0, None
    for match in CALL.finditer(text):
        if match[0] in ")]}":
            depth -= 1
        else:
            if depth == 0 and match[2]:
                found = match
            depth += 1
    return found


def parts(given):
    """The types of the parts of the tuple that a Result or an Option has, or its type."""
    inner = re.sub(r"^(?:Result|Option)<(.*)>$", r"\1", given.strip())
    match = re.match(r"\((.*?)\)(?:,|$)", inner)
    return match[1].split(", ") if match else [inner.split(", ")[0] if given.startswith("Result") else inner]


class Calls:
    """All functions by their names, and those that use up what they are called on."""

    def __init__(self, everything):
        self.named = collections.defaultdict(list)
        for function in everything:
            self.named[function.name].append(function)
        self.using_up = {it.name for it in everything if it.by_value} - {"iter", "map"}

    def large(self, function, text):
        """Which parts are large of what an expression in a function gives: one truth for each."""
        call = outer_call(text)
        if not call or call[2] == "clone":
            return []
        among = self.named[call[2]]
        if call[1] and call[1][0].isupper():
            owner = function.subject if call[1] == "Self" else call[1]
            among = [it for it in among if re.match(rf"{re.escape(owner)}\b", it.subject)]
        elif not text[:call.start()].endswith("."):
            among = [it for it in among if it.path == function.path] or among
        kinds = {tuple(bool(HELD.search(part)) for part in parts(it.gives)) for it in among}
        return list(kinds.pop()) if len(kinds) == 1 else []

    def moves(self, name, text):
        """Whether a text uses a name by value."""
        for match in re.finditer(rf"(?<![\w.]){name}\b", text):
            before, after = text[:match.start()], text[match.end():].lstrip()
            if re.search(r"(?:&|&mut |\*|let |let mut )$", before) or re.match(r":[^:]|=[^=>]", after):
                continue
            method = re.match(r"\.(\w+)\(", after)
            # (a part that is taken out: what is left can't be judged)
            part = re.match(r"\.\w+[;,)]", after) and name == "self" and before.endswith(" = ")
            if not after.startswith(".") or part or method and method[1] in self.using_up:
                return True
        return False


def names_in(pattern):
    return re.findall(r"\b[a-z_]\w*", pattern.replace("mut ", ""))


def bound(calls, function):
    """The names that hold a large value, each with the line after which it does."""
    held = []
    if function.by_value and HELD.match(function.subject):
        held.append(("self", -1))
    for name, given in re.findall(r"\b([a-z_]\w*): ([^,)]+)", function.takes):
        if HELD.match(given):
            held.append((name, -1))
    for number, line in enumerate(function.body):
        if match := re.match(r" *let (?:mut )?(\w+) = (\w+);$", line):
            if match[2] in {name for name, _ in held}:
                held.append((match[1], number))
        elif match := re.match(r" *let (?:mut )?([^=]+?)(?:: [^=]+)? = (.*)$", line):
            if not match[2].startswith(("match ", "if ")):
                end = next(at for at in range(number, len(function.body)) if function.body[at].endswith(";"))
                text = match[2] + "".join(it.strip() for it in function.body[number + 1:end + 1])
                large = calls.large(function, text)
                held += [(name, end) for name, is_large in zip(names_in(match[1]), large) if is_large]
        if match := re.match(r"( *).*\bmatch (.*) \{$", line):
            large = calls.large(function, match[2])
            for at in range(number + 1, len(function.body)):
                if function.body[at].startswith(match[1] + "}"):
                    break
                arm = re.match(match[1] + r"    (?:Ok|Some)\((.*?)\) =>", function.body[at])
                held += [(name, at) for name, is_large in zip(names_in(arm[1]) if arm else [], large) if is_large]
    return held


def overwritten(calls, name, lines):
    """The line at which a name gets another value while it holds one, if there is one."""
    for at, line in enumerate(lines):
        if re.search(rf"(?:^|=> |\{{ ){name} = ", line.strip()):
            return None if any(calls.moves(name, it) for it in lines[:at]) else at
    return None


def arms_of(body, number, indent):
    """The arms of the `match` on a line, each from its first line to the next one's, and its end."""
    end = next(at for at in range(number + 1, len(body)) if body[at].startswith(indent + "}"))
    arms = [at for at in range(number + 1, end) if re.match(indent + r"    \S.*=>", body[at])]
    return list(zip(arms, arms[1:] + [end])), end


def in_arms(calls, name, body, arms):
    """What the arms of a `match` do with a name: where one lets it go, and whether it is used up."""
    going_on, alarms = [], []
    for first, last in arms:
        lines = body[first:last]
        text = "\n".join(lines)
        at = overwritten(calls, name, lines)
        if "unreachable!" in text:
            continue
        if at is not None:
            alarms.append((first + at, "where it gets another value"))
        elif re.search(r"\breturn\b", text):
            if not calls.moves(name, text):
                alarms.append((first, "in an arm that returns"))
        else:
            going_on.append((first, calls.moves(name, text)))
    is_used_up = any(moved for _, moved in going_on)
    if is_used_up:
        alarms += [(first, "in an arm, where another one uses it up") for first, moved in going_on if not moved]
    return alarms, is_used_up


def silent(calls, function, name, at):
    """The lines on which the value of a name, bound at a line, is let go without a word."""
    body, indent, number = function.body, 0, at + 1
    if at >= 0:
        indent = len(body[at]) - len(body[at].lstrip())
        if arm := re.match(r" *(?:Ok|Some)\(.*?\) => ?(.*)$", body[at]):
            if calls.moves(name, arm[1]):
                return
            if not arm[1].endswith(("{", "(")):
                yield at, "at the end of its arm"
                return
            indent += 4
    while number < len(body):
        line = body[number]
        if line and len(line) - len(line.lstrip()) < indent:
            break
        # (a call of a method may stand on the next line)
        follows = line.strip().endswith(name) and number + 1 < len(body)
        if calls.moves(name, line + (body[number + 1].strip() if follows else "")):
            return
        if overwritten(calls, name, [line]) is not None:
            yield number, "where it gets another value"
        if re.search(r"\?[;.,)]|\?$", line):
            yield number, "at a `?`"
        if re.search(r"\breturn\b", line):
            yield number, "at a `return`"
        if match := re.match(r"( *).*\bmatch .* \{$", line):
            arms, number = arms_of(body, number, match[1])
            alarms, is_used_up = in_arms(calls, name, body, arms)
            yield from alarms
            if is_used_up:
                return
        number += 1
    yield number - 1, "at its end"


def places(top):
    """Each place in the sources where a large value is let go in silence."""
    everything = [it for path in sorted(top.glob("crates/*/src/**/*.rt")) for it in functions(path)]
    calls = Calls(everything)
    for function in everything:
        if (str(function.path.relative_to(top / "crates")), function.name) in LENT:
            continue
        for name, at in bound(calls, function):
            for number, where in silent(calls, function, name, at):
                place = f"{function.path.relative_to(top)}, line {function.first + number + 1}"
                yield f"{place}: `{function.name}` lets `{name}` go {where} without `drop`"
