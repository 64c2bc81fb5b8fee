#!/usr/bin/env python3
"""Membership and widening, measured: the proved program crates/vectors (its out/vectors, made by `rt run`) on growing
inputs. Not part of the gate; a test never looks at time.

Prints, for each input, the time of one call less that of a call on the smallest inputs at the same size (the program fills and sums the
lent words for each case), side by side in one run: first at the standard size, then at the large one, with a document of 2,048 nodes and
tables of 128 rules. For membership also the product of children and content bytes that bounds the work, and the
time for each unit of it: growth is linear where the last column does not rise. For widening, each table by itself, to either kind,
also how many times the time of the size before it is: each size is twice the one before.

    python3 tests/benchmark.py [--seconds S | --instructions] [--program FILE]
"""
import argparse, itertools, pathlib, re, resource, subprocess, sys, tempfile

ROOT = pathlib.Path(__file__).resolve().parent.parent
LETS_IN, LOCAL, SINGLE_TYPE = 4, 8, 10
OUTPUT = 32768
ASCII_CLASSES = 0xFFFFFFFF
STANDARD, LARGE = 1, 2
WORDS = {STANDARD: 16384, LARGE: 32768}


def field(tag, value):
    return bytes([tag]) + len(value).to_bytes(2, "big") + bytes(value)


def table(names, starts, rules):
    """The rules end in 1 where they are for text."""
    parts = [field(0x10, name.encode()) for name in names] + [field(0x11, [k]) for k in starts]
    parts += [field(0x12 + sum(text), [k, label] + content) for k, label, content, *text in rules]
    return b"".join(parts + [field(0x1F, [])])


def node(name, *children, text=0):
    """The fields of a tree, parent before children; text is 1 where the root holds some."""
    return field(0x30 + 2 * text, [len(children)] + list(name.encode())) + b"".join(children)


def document(root):
    return root + field(0x3F, [])


def flat(cards, text=0):
    """Cards with a name and a door; text is 1 where each name holds some."""
    rules = [(0, 0, [5, 2, 1]), (1, 1, [3, 2, 2, 2, 7, 2, 3]), (2, 2, [1], text), (3, 3, [1])]
    card = node("card", node("name", text=text), node("door"))
    return table(["list", "card", "name", "door"], [0], rules), document(node("list", *[card] * cards)), cards * 3 + cards * 2 * 7


def lists(count):
    """So many lists of 170 cards each, with names; four of them are 2,045 nodes."""
    rules = [(0, 0, [5, 2, 1]), (1, 1, [5, 2, 2]), (2, 2, [3, 2, 2, 3, 7, 2, 4]), (3, 3, [1]), (4, 4, [1])]
    card = node("card", node("name"), node("door"))
    made = node("site", *[node("list", *[card] * 170)] * count)
    return table(["site", "list", "card", "name", "door"], [0], rules), document(made), count * (3 + 170 * 3 + 170 * 2 * 7)


def deep(chains, levels):
    chain = b""
    for level in range(levels - 1):
        chain = node("group", *([chain] if chain else []))
    count = chains * (levels - 1)
    return table(["group"], [0], [(0, 0, [5, 2, 0])]), document(node("group", *[chain] * chains)), count * 3


def stars(children, nesting=32):
    content = [5] * (nesting - 1) + [2, 1]
    rules = [(0, 0, content), (1, 1, [1])]
    return table(["list", "card"], [0], rules), document(node("list", *[node("card")] * children)), children * len(content)


def full(children, count=64):
    """As many rules, all but one with the root's label and a content of some 500 bytes each for 64 rules, 240 for 128."""
    operands = 31744 // count // 2 - 1
    content = [4, operands] + [2, 1] * (operands - 1) + [2, 2]
    rules = [(0, 0, [5] + content)] * (count - 1) + [(1, 1, [1])]
    name_table = table(["list", "card"], [0], rules)
    return name_table, document(node("list", *[node("card")] * children)), children * (count - 1) * (len(content) + 1)


def choice(operands):
    """A choice of any number of operands, by choices of as many as a count can say."""
    if len(operands) <= 255:
        return [4, len(operands)] + sum(operands, [])
    return [4, 2] + choice(operands[:-255]) + choice(operands[-255:])


def leaves(kind, names):
    return [(kind, label, [1]) for label in names]


def full_rules(count, operands=245):
    """Each rule a type and a label of its own, with a content of so many operands that names all types."""
    rules = [(k, k, choice([[2, (k + i) % count] for i in range(operands)] + [[1]])) for k in range(count)]
    return table([f"n{k}" for k in range(count)], [0], rules)


def full_pairs(count):
    """Each type with two labels, so that a type in a content stands for two pairs; each content names all types, in sequences."""
    row = lambda k: [7, 3, 16] + sum(([2, (k + i) % (count // 2)] for i in range(16)), [])
    rules = [(k // 2, k % 8, [4, 6] + sum((row(k + i) for i in range(6)), [])) for k in range(count)]
    return table([f"n{k}" for k in range(8)], [0], rules)


def many_labels(count):
    """One type of so many labels, named as often as a content can."""
    rules = [(0, 0, choice([[2, 0]] * 245 + [[1]]))] + leaves(0, range(1, count))
    return table([f"n{k}" for k in range(count)], [0], rules)


def deep_contents(count):
    """All types starts, with contents that nest 30 deep, an operator of two operands at each level."""
    rules = [(k, k % 8, [3, 2, 7, 2, k] * 15 + [4, 2, 2, k // 2] * 14 + [1]) for k in range(count)]
    return table([f"n{k}" for k in range(8)], range(count), rules)


def many_sets(count):
    """Types of one label, each naming all later ones: as many sets as types."""
    later = lambda k: choice([[2, i] for i in range(k + 1, count)] * (240 // count) + [[1], [5, 1]])
    return table(["a"], [0], [(k, 0, later(k)) for k in range(count - 1)] + leaves(count - 1, [0]))


def equal_operands(count, named_in_all=430):
    """Types of one label in many sets, whose contents name, after many other operands, a type of many labels as
    often as they can. Each time each of its labels is looked for among the operands kept."""
    others = [list(marks) + [1] for n in (1, 2, 3, 4, 5) for marks in itertools.product([5, 6, 7], repeat=n)][:170]
    named = lambda k: [[2, 0]] + [[2, i] for i in range(k + 1, count)]
    last = max(count, 63)
    first = (0, 0, choice(others + [[2, last]]))
    rules = [first] + [(k, 0, choice(named(k) + [[2, last]] * (named_in_all - count))) for k in range(1, count)]
    return table([f"n{k}" for k in range(33)], [1], rules + leaves(last, range(1, 33)))


def case(size, call, first, second):
    """A case as tests/second_validator/README.md lays it down; the document is a document file."""
    number = lambda n: n.to_bytes(4, "big")
    part = lambda b: number(len(b)) + b
    lent = number(ASCII_CLASSES) + number(WORDS[size]) + number(0) + number(0 if call == LETS_IN else OUTPUT)
    label, document_file = number(0), number(0)
    return bytes([call]) + number(size) + lent + label + document_file + part(first) + part(second)


def seconds(program, one, repeats):
    with tempfile.TemporaryFile() as cases:
        cases.write(one * repeats + bytes([0]))
        cases.seek(0)
        before = resource.getrusage(resource.RUSAGE_CHILDREN).ru_utime
        run = subprocess.run([program], stdin=cases, capture_output=True, check=True)
        spent = resource.getrusage(resource.RUSAGE_CHILDREN).ru_utime - before
    answers = {" ".join(line.split()[1:3]) for line in run.stdout.decode().split("\n") if line}
    return spent / repeats, answers


def measured(program, one, least_seconds):
    """Seconds a call, over as many calls as take at least so long, so that the clock's tick does not tell."""
    repeats = 1
    while True:
        spent, answers = seconds(program, one, repeats)
        if spent * repeats >= least_seconds:
            return spent, answers
        repeats = min(10 * repeats, max(2 * repeats, int(1.2 * least_seconds / max(spent, 1e-5))))


def instructions(program, one):
    """Instructions of one call, by valgrind: the same in every run, whatever else the machine does."""
    with tempfile.TemporaryFile() as cases:
        cases.write(one + bytes([0]))
        cases.seek(0)
        tool = ["valgrind", "--tool=callgrind", "--callgrind-out-file=/dev/null", program]
        run = subprocess.run(tool, stdin=cases, capture_output=True, text=True, check=True)
    answers = {" ".join(line.split()[1:3]) for line in run.stdout.split("\n") if line}
    return int(re.search(r"Collected : (\d+)", run.stderr).group(1)), answers


MEMBERSHIP = [
    ("flat list, cards:", STANDARD, flat, (50, 100, 200)),
    ("flat list, names with text, cards:", STANDARD, lambda n: flat(n, 1), (50, 100, 200)),
    ("64 levels, chains:", STANDARD, lambda n: deep(n, 64), (4, 8, 16)),
    ("stars nested 32 deep, children:", STANDARD, stars, (50, 100, 200)),
    ("64 rules, full contents, children:", STANDARD, full, (50, 100, 200)),
    ("large: lists of 170 cards:", LARGE, lists, (1, 2, 4)),
    ("large: 64 levels, chains:", LARGE, lambda n: deep(n, 64), (8, 16, 32)),
    ("large: 128 rules, full, children:", LARGE, lambda n: full(n, 128), (50, 100, 200)),
]

WIDENING = [
    ("full contents, rules:", STANDARD, full_rules, (16, 32, 64)),
    ("two labels a type, rules:", STANDARD, full_pairs, (16, 32, 64)),
    ("labels of one type:", STANDARD, many_labels, (16, 32, 64)),
    ("contents nested 30 deep, rules:", STANDARD, deep_contents, (16, 32, 64)),
    ("one label, types:", STANDARD, many_sets, (16, 32, 64)),
    ("equal operands, types:", STANDARD, equal_operands, (8, 16, 32)),
    ("large: full contents, rules:", LARGE, lambda n: full_rules(n, 110), (32, 64, 128)),
    ("large: two labels a type, rules:", LARGE, full_pairs, (32, 64, 128)),
    ("large: labels of one type:", LARGE, many_labels, (32, 64, 128)),
    ("large: nested 30 deep, rules:", LARGE, deep_contents, (32, 64, 128)),
    ("large: one label, types:", LARGE, many_sets, (32, 64, 128)),
    ("large: equal operands, types:", LARGE, lambda n: equal_operands(n, 220), (16, 32, 64)),
]


def membership(measure, counted):
    least = {size: measure(case(size, LETS_IN, *flat(0)[:2]))[0] for size in WORDS}
    scale, call, unit = (1, "a call", "a unit") if counted else (1e3, "ms a call", "ns a unit")
    print(f"{'membership':36} {'answer':>8} {call:>13} {'children x bytes':>17} {unit:>10}")
    for name, size, make, counts in MEMBERSHIP:
        for count in counts:
            first, second, units = make(count)
            spent, answers = measure(case(size, LETS_IN, first, second))
            spent = max(spent - least[size], 0)
            each = spent * (1 if counted else 1e9) / units
            print(f"{name + ' ' + str(count):36} {'/'.join(sorted(answers)):>8} {spent * scale:13.3f} {units:17} {each:10.1f}")


def widening(measure, counted):
    scale, call = (1, "a call") if counted else (1e3, "ms a call")
    print(f"\n{'widening of a table by itself':36} {'bytes':>6} {'kind':>12} {'answer':>8} {call:>13} {'times':>7}")
    for name, size, make, counts in WIDENING:
        for kind, number in (("local", LOCAL), ("single-type", SINGLE_TYPE)):
            least, _ = measure(case(size, number, field(0x1F, []), field(0x1F, [])))
            before = None
            for count in counts:
                made = make(count)
                spent, answers = measure(case(size, number, made, made))
                spent = max(spent - least, 0)
                times = f"{spent / before:7.1f}" if before else ""
                before = spent
                told = f"{len(made):6} {kind:>12} {'/'.join(sorted(answers)):>8}"
                print(f"{name + ' ' + str(count):36} {told} {spent * scale:13.3f} {times:>7}")


def main():
    parser = argparse.ArgumentParser(description=__doc__.split("\n")[0])
    parser.add_argument("--seconds", type=float, default=2.0, help="least time spent on each input")
    parser.add_argument("--instructions", action="store_true", help="count instructions (valgrind) in place of time")
    parser.add_argument("--program", type=pathlib.Path, default=ROOT / "crates/vectors/out/vectors")
    args = parser.parse_args()
    if not args.program.exists():
        sys.exit("build it first: cd crates/vectors && rt run </dev/null")
    measure = lambda one: instructions(args.program, one) if args.instructions else measured(args.program, one, args.seconds)
    membership(measure, args.instructions)
    widening(measure, args.instructions)


if __name__ == "__main__":
    main()
