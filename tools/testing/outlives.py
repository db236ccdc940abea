"""Shows that what goes over a content can't outlive it: such code does not compile.

    tools/test outlives

Makes a crate in a temporary folder, beside copies of the crates that it stands on, with two
functions for each iterator over the contents of rpki_files and rpki_routes: one that keeps its
content until the iterator's last call, and one that drops it before. `rt try --test` builds it,
which proves nothing. The first ones have to build by themselves; of the others the compiler has to
refuse each, where the content is dropped, since it is borrowed.

Prints a line for each.
"""
import pathlib
import re
import subprocess
import tempfile

import crates
from commands import stop

CRATE = "outlives"
USES = ["rpki_files", "rpki_routes", "rpki_basics"]
HEAD = """\
#![tactic(auto)]

use rpki_basics::Rsync;
use rpki_files::{ManifestContent, ResourceSignedChecklist};
use rpki_routes::{AsProviderAttestation, RouteOriginAttestation};
use std::alloc::Global;

"""
# The iterator, its content, what is handed in besides, what is called, and what must live.
ITERATORS = [
    ("FileListIter", "ManifestContent", "", "content.iter()", "content"),
    ("ManifestUriIter", "ManifestContent", ", alloc: Global, base: Rsync", "content.iter_uris(alloc, &base)",
     "content"),
    ("ManifestUriIter", "ManifestContent", ", alloc: Global, base: Rsync", "content.iter_uris(alloc, &base)", "base"),
    ("CheckListIter", "ResourceSignedChecklist", "", "content.iter()", "content"),
    ("ProviderAsIter", "AsProviderAttestation", "", "content.provider_as_set().iter()", "content"),
    ("RoaIpAddressIter", "RouteOriginAttestation", "", "content.v4_addrs().iter()", "content"),
    ("RoaAddrIter", "RouteOriginAttestation", "", "content.iter()", "content"),
    ("RoaOriginIter", "RouteOriginAttestation", "", "content.iter_origins()", "content"),
]
TEST = """\
#[test]
fn it_builds(rt: HostRuntime) {
    assert!(rt; true);
}
"""


def function(place, lives):
    """The function of an iterator: it counts one item, and what must live is dropped after that or before."""
    _, content, given, call, owner = ITERATORS[place]
    walk, drop = "    let found = items.next().is_some();\n", f"    drop({owner});\n"
    return (f"pub fn of_{place}_{'lives' if lives else 'dropped'}(content: {content}{given}) -> bool {{\n"
            f"    let mut items = {call};\n{walk + drop if lives else drop + walk}    found\n}}\n\n")


def made(room):
    """Makes the crate's folder, beside those that it stands on."""
    uses = crates.uses() | {CRATE: USES}
    crates.copy(crates.below(CRATE, uses), uses, room, made=CRATE)
    folder = pathlib.Path(room, "crates", CRATE)
    (folder / "src").mkdir(parents=True)
    return folder


def built(folder, code):
    """Builds the crate with this code, and returns whether it was built and what was said."""
    (folder / "src/lib.rt").write_text(HEAD + code + TEST)
    ran = subprocess.run(["rt", "try", "--test"], cwd=folder, stdin=subprocess.DEVNULL, stdout=subprocess.PIPE,
                         stderr=subprocess.STDOUT, errors="replace")
    return ran.returncode == 0, ran.stdout


def main(_):
    with tempfile.TemporaryDirectory(prefix="outlives-") as room:
        folder = made(room)
        lives = "".join(function(place, True) for place in range(len(ITERATORS)))
        well, said = built(folder, lives)
        if not well:
            print(said[-4000:])
            stop("the functions that keep their contents are not built")
        print("each iterator within the life of its content: built", flush=True)
        code = lives + "".join(function(place, False) for place in range(len(ITERATORS)))
        lines = (HEAD + code).split("\n")
        well, said = built(folder, code)
        if well:
            stop("the functions that drop them before are built")
        wrong = 0
        for place, (name, *_, owner) in enumerate(ITERATORS):
            head = next(at for at, line in enumerate(lines) if f" of_{place}_dropped(" in line)
            at = lines.index(f"    drop({owner});", head) + 1
            refused = re.search(rf"src/lib\.rt:{at}:\d+: error\[borrow-\w+\]: ([^\n]*?)(?:: note|\n)", said)
            wrong += not refused
            print(f"{name} that outlives its {owner}: {f'refused: {refused[1]}' if refused else 'NOT REFUSED'}")
        if wrong:
            print(said[-4000:])
    return 1 if wrong else 0

