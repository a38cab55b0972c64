#!/usr/bin/env python3
"""Wrong definitions that the theorems must refuse.

A must-fail edit of a crate re-proves that crate alone, and the definitions stand in another crate than the theorems about them. So each edit here is
applied to a copy of the crates that its theorem stands on, proofs adapted as one would who believed in it, and the copy must be refused where the
edit says. The cases that the definitions' own crate shows by computation are left out of the copy: they would refuse most edits first. The copy
stands outside the repository, so that nothing that is built here is touched.

An edit: comments with `#`; `refused: CRATE NAME`, the first theorem that must be refused; then `file:`, and `old:` and `new:` lines, one line each. `old:` occurs
once; `every:` instead of `old:` replaces all occurrences. `\\n` in a `new:` line is a line break.
"""
import pathlib
import re
import shutil
import subprocess
import sys
import tempfile

HERE = pathlib.Path(__file__).resolve().parent
ROOT = HERE.parent.parent
EDITS = sorted(HERE.glob("*.edit"))
# what the definitions' own crate shows by computation
LEFT_OUT = ["Cases", "Notes", "Learners"]


def needed():
    """The crates whose theorems are to refuse an edit, and all that these stand on, each with its line of crates.txt."""
    uses = {line.split(":")[0]: line for line in (ROOT / "crates.txt").read_text().splitlines() if ":" in line and line[0] != "#"}
    more = {re.search(r"^refused: (\w+)", edit.read_text(), re.M)[1] for edit in EDITS}
    found = {}
    while more:
        crate = more.pop()
        found[crate] = uses[crate]
        more |= set(uses[crate].split(":")[1].split()) - set(found)
    return found


CRATES = needed()
# lowest first, as they are listed
LISTED = [line.split(":")[0] for line in (ROOT / "crates.txt").read_text().splitlines() if ":" in line and line[0] != "#"]


def lay_out(tree):
    """A fresh copy of the crates' texts. What an earlier check kept beside them stays, so that only what changed is checked again."""
    for crate in CRATES:
        for part in "src", "specs", "proofs":
            shutil.rmtree(tree / "crates" / crate / part, ignore_errors=True)
            if (ROOT / "crates" / crate / part).exists():
                shutil.copytree(ROOT / "crates" / crate / part, tree / "crates" / crate / part)
    (tree / "crates.txt").write_text("\n".join(CRATES.values()) + "\n")
    for name in LEFT_OUT:
        specs = tree / "crates" / "model" / "specs"
        (specs / f"{name}.antt").unlink()
        lib = (specs / "Lib.antt").read_text()
        (specs / "Lib.antt").write_text(lib.replace(f"pub mod {name}\n", ""))


def apply(edit, tree):
    """Applies an edit to the copy and returns the crate and the theorem that must refuse it."""
    refused, path, old, every = None, None, None, False
    for line in edit.read_text().splitlines():
        key, _, value = line.partition(": ")
        if key == "refused":
            refused = value.split()
        elif key == "file":
            path = tree / "crates" / value
        elif key in ("old", "every"):
            old, every = value, key == "every"
        elif key == "new":
            text = path.read_text()
            count = text.count(old)
            if count == 0 or (count > 1 and not every):
                sys.exit(f"{edit.name}: `{old}` stands {count} times in {path.name}")
            path.write_text(text.replace(old, value.replace("\\n", "\n")))
    return refused


def prove(tree, crates):
    """Proves the crates and those that they stand on, lowest first, up to the first that isn't: that one, or none, and what the check said."""
    todo, order = list(crates), []
    while todo:
        crate = todo.pop()
        order.append(crate)
        todo += CRATES[crate].split(":")[1].split()
    for crate in [it for it in LISTED if it in order]:
        done = subprocess.run(["rt", "check"], cwd=tree / "crates" / crate, capture_output=True, text=True)
        if done.returncode != 0:
            return crate, done.stdout + done.stderr
    return None, ""


def refusals(log):
    """The theorems that have an error of their own, in order."""
    return re.findall(r"^\./\S+: error: `([^`]+)`(?!: `[^`]+` was not admitted)", log, re.M)


def try_all(tree):
    lay_out(tree)
    crate, log = prove(tree, CRATES)
    if crate:
        sys.exit("the definitions as they are must be proved:\n" + log[-2000:])
    for edit in EDITS:
        lay_out(tree)
        wanted, name = apply(edit, tree)
        crate, log = prove(tree, [wanted])
        found = refusals(log)
        if not crate or not found:
            sys.exit(f"wrong definition {edit.stem}: NOT REFUSED")
        if (wanted, name) != (crate, found[0]):
            sys.exit(f"wrong definition {edit.stem}: refused by {crate} {found[0]}, not by {wanted} {name}")
        print(f"wrong definition {edit.stem}: refused by {crate} `{name}`", flush=True)


with tempfile.TemporaryDirectory() as folder:
    try_all(pathlib.Path(folder))
