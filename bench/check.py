"""Measures `rpki_verify check` of a ROA beside `rpki-client -f` on the same ROAs, for bench/run, and
`rpki_verify check` of many ROAs in one run.

The ROAs have 10 to 100,000 prefixes, and their signers' certificates 2 or 1,000 blocks. All are
below one CA and one trust anchor, laid out as rpki-client wants its cache. bench/README.md says
more.
"""
import importlib.util
import ipaddress
import itertools
import os
import pathlib
import re
import shutil
import subprocess
import sys

TOP = pathlib.Path(__file__).resolve().parent.parent
loading = importlib.util.spec_from_file_location("make", TOP / "examples/make.py")
make = importlib.util.module_from_spec(loading)
loading.loader.exec_module(make)
sys.path.append(str(TOP / "tools"))
import verify_words  # noqa: E402

PROGRAMS = ("rpki_verify",)
PATH = f"{os.environ['PATH']}:/usr/sbin"
BLOCKS, PREFIXES = (2, 1000), (10, 1000, 100_000)
MOMENT = "20270101000000Z"
# How many ROAs of `examples/` are checked in one run beside the first.
MORE = 100


def blocks(count):
    """Half of them of IPv4 and half of IPv6, no two of which touch."""
    if count == 2:
        return [ipaddress.ip_network("10.0.0.0/8"), ipaddress.ip_network(make.NET6)]
    pairs = ((ipaddress.IPv4Network((0x0A000000 + (2 * at << 12), 20)),
              ipaddress.IPv6Network(((0x20010DB8 << 96) + (2 * at << 80), 48)))
             for at in range(count // 2))
    return list(itertools.chain.from_iterable(pairs))


def prefixes(held, count):
    """A /27 of IPv4 or a /64 of IPv6 each, from the blocks in turn, and of each second one of a
    block a maximum length."""
    for at in range(count):
        net, number = held[at % len(held)], at // len(held)
        length = 27 if net.version == 4 else 64
        first = int(net.network_address) + (number << net.max_prefixlen - length)
        most = f"-{length + 1}" if number % 2 else ""
        yield f"{type(net)((first, length))}{most}"


class Object:
    """A ROA in the cache."""

    def __init__(self, folder, held, count):
        self.blocks, self.count = held, count
        self.name = f"{held}-{count}.roa"
        self.cache, self.tal = folder / "cache", folder / "anchor.tal"
        self.host = self.cache / make.HOST
        self.file = self.host / "authority" / self.name

    def words(self, subject):
        """The words that ask a subject whether the object is good."""
        if subject == "rpki-client":
            return list(map(str, ["-n", "-d", self.cache, "-t", self.tal, "-f", self.file]))
        return check_words(self.host, self.file)


def check_words(host, *files):
    """The words that ask `rpki_verify` for files under the CA of a folder."""
    chain = host / "anchor.cer", host / "anchor/authority.cer"
    return verify_words.words("check", *files, chain=chain, at=MOMENT)


def words_of_many(more):
    """The words that ask `rpki_verify` for a ROA of two prefixes, and again so many more times."""
    host = TOP / "examples" / make.HOST
    return check_words(host, *[host / "authority/origin.roa"] * (1 + more))


def objects(folder):
    """The ROAs, which are made unless they are there."""
    found = [Object(folder, held, count) for held in BLOCKS for count in PREFIXES]
    if not (folder / "made").is_file():
        shutil.rmtree(folder, ignore_errors=True)
        make_all(folder, found)
        # (rpki-client, begun as root, reads as a user of its own)
        for path in (folder, *folder.rglob("*")):
            path.chmod(path.stat().st_mode | (0o555 if path.is_dir() else 0o444))
        (folder / "made").touch()
    return found


def make_all(folder, found):
    everything = make.Claim(["0.0.0.0/0", "::/0"], [(0, 2**32 - 1)])
    anchor = make.Authority("anchor", None, everything, f"{make.RSYNC}/anchor.cer")
    claim = make.Claim(["10.0.0.0/8", make.NET6], make.NUMBER)
    ca = make.Authority("authority", anchor, claim, f"{anchor.folder}/authority.cer")
    host = found[0].host
    write(found[0].tal, make.locator(anchor))
    write(host / "anchor.cer", anchor.octets)
    write(found[0].cache / "ta/anchor/anchor.cer", anchor.octets)
    write(host / "anchor/anchor.crl", anchor.revoked())
    write(host / "anchor/authority.cer", ca.octets)
    write(host / "authority/authority.crl", ca.revoked())
    for it in found:
        held = blocks(it.blocks)
        content = make.roa(64496, list(prefixes(held, it.count)))
        said = make.Claim(list(map(str, held)), [])
        write(it.file, make.Made(it.name, ca, make.ROA, content, said).octets)


def write(path, octets):
    path.parent.mkdir(parents=True, exist_ok=True)
    path.write_bytes(octets)


def programs():
    """The programs that are there, by the names of the subjects."""
    found = {name: TOP / "crates" / name / "out" / name for name in PROGRAMS}
    found = {name: str(path) for name, path in found.items() if path.is_file()}
    found["rpki-client"] = shutil.which("rpki-client", path=PATH)
    for name in (*PROGRAMS, "rpki-client"):
        if not found.get(name):
            print(f"bench: no {name}: measured without it")
    return {name: path for name, path in found.items() if path}


def shown(subject, path, it):
    """The prefixes with their maximum lengths that a subject shows with its yes, sorted."""
    done = subprocess.run([path, *it.words(subject)], capture_output=True, text=True)
    if subject == "rpki-client":
        said_yes = "\nValidation: OK\n" in done.stdout
        found = re.findall(r"^ *\d+: (\S+) maxlen: (\d+)$", done.stdout, re.M)
    else:
        said_yes = done.stdout.startswith("yes\n")
        found = re.findall(r"^origin ([^\s-]+)(?:-(\d+))?$", done.stdout, re.M)
    if done.returncode or not said_yes:
        text = done.stdout if len(done.stdout) < 2000 else done.stdout[-500:]
        sys.exit(f"bench: {subject} says no of {it.file}: {text}{done.stderr}")
    nets = ((ipaddress.ip_network(net), most) for net, most in found)
    return sorted((net.version, net, int(most or net.prefixlen)) for net, most in nets)


def compare(subjects, it):
    """Stops if subjects do not show the same of an object."""
    answers = [shown(subject, path, it) for subject, path in subjects.items()]
    if any(answer != answers[0] or len(answer) != it.count for answer in answers):
        sys.exit(f"bench: the subjects show other prefixes of {it.file}")


def took(launcher, path, words):
    """Milliseconds by the clock and of the processor, and the KiB of the largest process, of a run
    that the launcher begins: a process of this script would count for its own size."""
    done = subprocess.run([launcher, "run", path, *words], stdout=subprocess.PIPE,
                          stderr=subprocess.PIPE, text=True)
    status, *measured = done.stdout.split() or [done.stderr]
    if status != "0":
        sys.exit(f"bench: {path} ended with {status}")
    return [float(it) for it in measured]


def quartile(numbers):
    """The number that a quarter of these are below."""
    return sorted(numbers)[(len(numbers) - 1) // 4]


def times(launcher, subjects, found, tries):
    """The measurements of each subject and object, which are taken in turn: a quarter of those of
    each kind are below what is answered."""
    runs = {}
    for it in found:
        compare(subjects, it)
    for _ in range(tries):
        for it in found:
            for subject, path in subjects.items():
                now = took(launcher, path, it.words(subject))
                runs.setdefault((subject, it.name), []).append(now)
    by_name = {it.name: it for it in found}
    kinds = "clock", "processor", "memory"
    return [{**named(subject, by_name[name]), **dict(zip(kinds, map(quartile, zip(*each))))}
            for (subject, name), each in runs.items()]


def named(subject, it):
    """What a run is known by."""
    return {"subject": subject, "blocks": it.blocks, "prefixes": it.count}


def of_each(one, all_of_them):
    """What each further ROA takes of a run."""
    return (all_of_them - one) / MORE


def time_of_many(launcher, subjects, tries):
    """Milliseconds of the processor for each further ROA of a run."""
    path = subjects.get("rpki_verify")
    if not path:
        return None
    runs = [[took(launcher, path, words_of_many(more))[1] for more in (0, MORE)]
            for _ in range(tries)]
    return of_each(*map(quartile, zip(*runs)))


def counted(path, words):
    """The instructions of a run, of all processes that it begins."""
    words = ["valgrind", "--tool=callgrind", "--callgrind-out-file=/dev/null", path, *words]
    done = subprocess.run(words, capture_output=True, text=True)
    return sum(map(int, re.findall(r"Collected : (\d+)", done.stderr)))


def instructions_of_many(subjects, in_turn):
    """The instructions for each further ROA of a run."""
    path = subjects.get("rpki_verify")
    if not path:
        return None
    return of_each(*in_turn(lambda more: counted(path, words_of_many(more)), (0, MORE)))


def instructions(subjects, found, in_turn, few):
    """The instructions of a run of each subject and object, of all processes that it begins."""
    asked = [(subject, it) for subject in subjects for it in found if not few or it.count < 1000]

    def of(pair):
        subject, it = pair
        return counted(subjects[subject], it.words(subject))

    return [{**named(subject, it), "instructions": count}
            for (subject, it), count in zip(asked, in_turn(of, asked))]
