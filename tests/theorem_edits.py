#!/usr/bin/env python3
"""Which theorem refuses a wrong definition.

A must-fail edit of the toolchain reaches one crate only, so crates/grammar/must-fail tries wrong definitions against the
computed facts beside them. This command tries all of them against the theorems: it takes the computed facts away and checks
crates/theory over the edited definitions. Prints, for each edit, the first statement refused. An edit of something that no
theorem is about stands below with the reason, and must pass.

    python3 tests/theorem_edits.py [NAME..]        (all edits by default; some 15 s each)
"""
import pathlib, re, shutil, subprocess, sys, tempfile

ROOT = pathlib.Path(__file__).resolve().parent.parent
EDITS = ROOT / "crates/grammar/must-fail"
COMPUTED = ("PaperTheorem", "StageExamples")
NOT_OF_THE_THEORY = {
    "children_of_201": "a number of the standard limits; the theorems are for all limits that agree",
    "nesting_of_33": "a number of the standard limits; the theorems are for all limits that agree",
    "a_bit_set_for_small_letters": "which names are equal; the theorems ask only that it is an equivalence",
}


def pairs_of(edit):
    """(file, old, new) for each replacement, as `rt must-fail` reads them."""
    file = old = None
    for line in (EDITS / f"{edit}.edit").read_text().splitlines():
        key, _, rest = line.partition(":")
        rest = rest.removeprefix(" ")
        if key == "file":
            file = rest
        elif key == "old":
            old = rest
        elif key == "new":
            yield file, old, rest


def copy_with(edit, copy):
    """A repository of grammar, edited and without computed facts, and of theory without what stands on these."""
    for crate in ("grammar", "theory"):
        shutil.copytree(ROOT / "crates" / crate, copy / "crates" / crate, ignore=shutil.ignore_patterns("must-fail", "out"))
    shutil.rmtree(copy / "crates/grammar/proofs")
    for file in (copy / "crates/theory/proofs").rglob("*.antt"):
        if file.stem in COMPUTED:
            file.unlink()
        else:
            file.write_text(re.sub(rf"^pub mod ({'|'.join(COMPUTED)})\n", "", file.read_text(), flags=re.M))
    (copy / "crates.txt").write_text("grammar: thiserror\ntheory: grammar\n")
    for file, old, new in pairs_of(edit):
        spec = copy / "crates/grammar" / file
        text = spec.read_text()
        assert text.count(old) == 1, f"{edit}: its old text is not once in {file}"
        spec.write_text(text.replace(old, new))


def try_edit(edit):
    with tempfile.TemporaryDirectory() as made:
        copy = pathlib.Path(made)
        copy_with(edit, copy)
        run = None
        for crate in ("grammar", "theory"):
            if run is None or run.returncode == 0:
                run = subprocess.run(["rt", "check"], cwd=copy / "crates" / crate, capture_output=True, text=True)
                checked = crate
    reason = NOT_OF_THE_THEORY.get(edit)
    if run.returncode == 0:
        return bool(reason), f"not of the theory: {reason}" if reason else "NOT REFUSED"
    first = re.search(r"^\./(\S+?):\d+:\d+: error: `([^`]+)`", run.stdout + run.stderr, flags=re.M)
    if not first or checked != "theory":
        return False, f"refused outside the theory: {checked}, " + (first.group(1) if first else "?")
    listed = ", though it is listed as not of the theory" if reason else ""
    return not reason, f"refused at `{first.group(2)}` of theory/{first.group(1)}" + listed


def main():
    failed = 0
    for edit in sys.argv[1:] or sorted(file.stem for file in EDITS.glob("*.edit")):
        good, said = try_edit(edit)
        failed += not good
        print(f"{edit}: {said}", flush=True)
    sys.exit(1 if failed else 0)


main()
