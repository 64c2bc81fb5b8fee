#!/usr/bin/env python3
"""The written meaning against the second validator: cases of every call, computed by the checker itself.

Takes cases with small inputs and enough working words (so not refusals 1 and 2) from the second validator's generator, at the three
sizes, under document 01's classes and others, with each name in one spelling and with one in several, with runs of neighbours in their
documents and without, with text marks and without, with document files and with XML text, writes each as an equation between grammar's
definition of the call, over the limits of the size and the classes, and the second validator's answer, and has the checker compute them,
in a copy of crates/grammar. Not part of the gate.

    python3 tests/definitions_agree.py [--seed N] [--most BYTES] [--each N]
"""
import argparse, pathlib, random, shutil, subprocess, sys, tempfile

ROOT = pathlib.Path(__file__).resolve().parent.parent
sys.path.insert(0, str(ROOT / "tests/second_validator"))
sys.dont_write_bytecode = True
import generate  # noqa: E402
import reference  # noqa: E402

REFUSALS = dict(enumerate("""WorkTooShort InputTooLong FieldPastEnd BadField BadName Repeated TooMany OutOfRange BadContent NestedTooDeep
BadTree BytesAfterEnd NoDocument ResultTooLarge OutputTooShort""".split(), 1))
REFUSALS.update({16: "BadText", 17: "BadEndTag", 18: "BadClasses"})
HEAD = """use Prim.Native.Nat.{ℕ}
use mathlib.Core.Bool.{true, false}
use mathlib.Core.List.{List, [], ◌∷◌}
use mathlib.Core.Path.{◌≡◌, refl}
use lib.ListN.{replicate}
use Rattle.grammar.specs.Limits.{small, standard, large}
use Rattle.grammar.specs.Names.{ascii_classes}
use Rattle.grammar.specs.Kinds.{local, single_type}
use Rattle.std.specs.Prelude.{Ok, Err}
use Rattle.grammar.specs.Calls.{table_reads, document_reads, label_name, table_lets_in, table_is_of_kind}
use Rattle.grammar.specs.Calls.{table_pages, document_sample, widened}
use Rattle.grammar.specs.declared.Source.TheVariants.{Table as a_table, Document as a_document}
use Rattle.grammar.specs.declared.Format.TheVariants.{DocumentFile, XmlText}
use Rattle.grammar.specs.Answers.{number_after}
use Rattle.grammar.specs.declared.Refusal.TheVariants.{%s}

smallWork : List ℕ
smallWork = replicate 12288 0

standardWork : List ℕ
standardWork = replicate 16384 0

largeWork : List ℕ
largeWork = replicate 32768 0
""" % ", ".join(REFUSALS.values())
LIMITS = ("small", "standard", "large")
DECISIONS = {4: ("table_lets_in", ""), 5: ("table_is_of_kind", "local "), 6: ("table_is_of_kind", "single_type ")}
WIDENINGS = {8: "local a_table", 9: "local (a_document {})", 10: "single_type a_table", 11: "single_type (a_document {})"}


def numbers(values):
    return "(" + " ∷ ".join([str(v) for v in values] + ["[]"]) + ")"


def cases(folder):
    """Each case of a case file with its refusal and value."""
    lines = (folder / "expected.txt").read_text().split("\n")
    for case, line in zip(generate.cases_in((folder / "cases.bin").read_bytes()), lines):
        _, refusal, value = (int(n) for n in line.split()[:3])
        yield case, refusal, value


def equation(case, refusal, value):
    """The definition that the equation computes, and the equation."""
    call, a, b, lent = case.call, numbers(case.first), numbers(case.second), f"(replicate {case.out_len} 0)"
    limits = LIMITS[case.size]
    classes = "ascii_classes" if case.classes == reference.ASCII else numbers(case.classes)
    fixed, work = f"{limits} {classes}", f"{limits}Work"
    text = "XmlText" if generate.is_text(case) else "DocumentFile"
    refused = f"Err {REFUSALS.get(refusal)}"
    if call == 1:
        return "table_reads", f"number_after (table_reads {fixed} {a} {work}) ≡ {refusal}"
    if call == 2:
        return "document_reads", f"number_after (document_reads {fixed} {text} {a} {work}) ≡ {refusal}"
    if call == 3:
        given = f"Ok (record {{ from = {value // 65536}; size = {value % 65536} }})"
        return "label_name", f"label_name {fixed} {a} {case.label} {work} ≡ {refused if refusal else given}"
    if call in DECISIONS:
        name, kind = DECISIONS[call]
        inputs = f"{a} {text} {b}" if call == 4 else kind + a
        return name, f"{name} {fixed} {inputs} {work} ≡ {refused if refusal else 'Ok ' + ('true' if value else 'false')}"
    told = refused if refusal else "Ok " + numbers(generate.answer_of(case).written)
    if call == generate.PAGES:
        return "table_pages", f"table_pages {fixed} {a} {lent} {work} ≡ {told}"
    if call == 7:
        return "document_sample", f"document_sample {fixed} {text} {a} {lent} {work} ≡ {told}"
    return "widened", f"widened {fixed} {WIDENINGS[call].format(text)} {a} {b} {lent} {work} ≡ {told}"


def chosen(folder, most, each, seed):
    """Up to `each` small cases of each call, size, sort of classes, sort of spelling, with and without a run, with and without a mark, of
    each format and refusal, ten times as many that were not refused."""
    sorts = {}
    for case, refusal, value in cases(folder):
        enough = case.size in generate.SIZES and case.work_len >= generate.limits_of(case).words
        if enough and len(case.first) + len(case.second) <= most:
            own = case.classes != reference.ASCII
            inputs = generate.as_file(case)[-2:]
            twice, marks = generate.in_two_spellings(*inputs), generate.has_marks(*inputs)
            runs = refusal == 0 and generate.samples_a_run(case)
            sort = case.call, case.size, own, twice, runs, marks, generate.is_text(case), refusal
            sorts.setdefault(sort, []).append((case, refusal, value))
    pick = random.Random(seed)
    for (*_, refusal), found in sorted(sorts.items()):
        pick.shuffle(found)
        yield from found[: each * (1 if refusal else 10)]


def main():
    parser = argparse.ArgumentParser(description=__doc__.split("\n")[0])
    parser.add_argument("--seed", type=int, default=1)
    parser.add_argument("--most", type=int, default=400)
    parser.add_argument("--each", type=int, default=3)
    args = parser.parse_args()
    with tempfile.TemporaryDirectory() as made:
        copy = pathlib.Path(made)
        program = ROOT / "tests/second_validator/generate.py"
        subprocess.run([sys.executable, program, "--write", copy, "--seed", str(args.seed)], check=True, stdout=subprocess.DEVNULL)
        shutil.copytree(ROOT / "crates/grammar", copy / "crates/grammar", ignore=shutil.ignore_patterns("must-fail", "proofs", "out"))
        (copy / "crates.txt").write_text("grammar: thiserror\n")
        proofs = copy / "crates/grammar/proofs"
        proofs.mkdir()
        texts, count = [], 0
        for case in chosen(copy, args.most, args.each, args.seed):
            name, statement = equation(*case)
            limits = LIMITS[case[0].size]
            opened = f"{name} {limits} ascii_classes {limits}Work number_after"
            texts.append(f"case{count} : {statement}\nunfolding {opened}\ncase{count} = refl\n")
            count += 1
        files = [texts[i : i + 60] for i in range(0, count, 60)]
        for number, file in enumerate(files):
            (proofs / f"Cases{number}.antt").write_text(HEAD + "\n" + "\n".join(file))
        (proofs / "Lib.antt").write_text("".join(f"pub mod Cases{n}\n" for n in range(len(files))))
        run = subprocess.run(["rt", "check"], cwd=copy / "crates/grammar", capture_output=True, text=True)
        refused = [line for line in (run.stdout + run.stderr).split("\n") if " error:" in line]
        unfinished = [line for line in refused if "stopped at the step limit" in line]
        wrong = [line for line in refused if line not in unfinished]
        print("\n".join(line[:300] for line in wrong))
        print(f"{count - len(unfinished)} cases computed by the definitions, {len(wrong)} differ from the second validator; "
              f"{len(unfinished)} more are too long for the checker's step limit")
        sys.exit(bool(wrong) or (run.returncode != 0 and not unfinished))


main()
