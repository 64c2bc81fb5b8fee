"""Tests of the second validator itself.

    python3 selftest.py [--rounds N]

The paper's P1 to P8, its edges and the lister's example; the edges of the three sizes, those of the classes, those of letter case, those
of runs, those of text marks and those of XML text, numbered by hand; that XML text is read as expat reads it, and gives the answers of a
document file of the same nodes; the edges of printed pages by what is written by hand, that the lister's lines come back from pages, and
that no table has longer ones than those that are stored; that a larger set gives the same answer wherever a smaller one gives one, and so
do classes with more letters; that inputs with letters in the other case give the same answers, with every name written in its first
spelling; that marks change no answer but letting in and, of what is written, no byte but the tags of rules; that widening by a document is
widening by its sample, that both let it in, and that one more member of a run changes neither; that names of other letters, under classes
that say so, give the answers of the names that they stand for; reading against bytes written; letting in against a listing of all derived
documents; a sample's documents against what a run and a mark stand for, on all small trees; and widening against brute force on small
tables, without marks and with: the result is of its kind, lets in what it must, and is least.
"""

import argparse
import itertools
import os
import sys
from functools import lru_cache

sys.dont_write_bytecode = True
sys.path.insert(0, os.path.dirname(os.path.abspath(__file__)))
import by_expat  # noqa: E402
import generate as gen  # noqa: E402
import reference as ref  # noqa: E402
from generate import EMPTY, TEXT, E, Numbers, any_of, choice, doc, name_of, seq, t, table, text, tree  # noqa: E402

L = ref.STANDARD        # "document 01's cases keep the second"
C = ref.ASCII           # and "the old classes"
W = L.words
FILE, XML = ref.DOCUMENT_FILE, ref.XML_TEXT


# The calls with a document, here mostly of a document file.

def document_reads(limits, classes, document, work_len, format_=FILE):
    return ref.document_reads(limits, classes, format_, document, work_len)


def lets_in(limits, classes, a_table, document, work_len, format_=FILE):
    return ref.lets_in(limits, classes, a_table, format_, document, work_len)


def sample(limits, classes, document, out_len, work_len, format_=FILE):
    return ref.sample(limits, classes, format_, document, out_len, work_len)


def local_by_document(limits, classes, old, document, out_len, work_len, format_=FILE):
    return ref.widen_local_by_document(limits, classes, old, format_, document, out_len, work_len)


def single_type_by_document(limits, classes, old, document, out_len, work_len, format_=FILE):
    return ref.widen_single_type_by_document(limits, classes, old, format_, document, out_len, work_len)


FORMS = {'local': (ref.widen_local_by_table, local_by_document, ref.is_local),
         'single-type': (ref.widen_single_type_by_table, single_type_by_document, ref.is_single_type)}
done = [0]


def check(fact, *about):
    done[0] += 1
    if not fact:
        raise AssertionError(about)


@lru_cache(maxsize=None)
def made_cases():
    """All made cases, once."""
    made = gen.Cases()
    gen.made_cases(made)
    return made.all


# ---------------------------------------------------------------- the paper's cases

def paper():
    p1, p2 = gen.P1, gen.P2
    check(len(p1) == 17 and ref.table_reads(L, C, p1, W) == (0, 1, b''), 'P1')
    check(lets_in(L, C, p1, p2, W) == (0, 1, b''), 'P2')
    check(ref.table_reads(L, C, b'', W) == (3, 0, b''), 'P3')
    check(document_reads(L, C, b'', W) == (3, 0, b''), 'P3')
    check(ref.table_reads(L, C, E, W) == (0, 1, b''), 'a table of the end field alone is valid')
    for by_table, _, _ in FORMS.values():
        check(by_table(L, C, E, E, 100, W) == (13, 0, b''), 'P4')
    local = ref.widen_local_by_table(L, C, gen.P5, E, 500, W).written
    single = ref.widen_single_type_by_table(L, C, gen.P5, E, 500, W).written
    check(lets_in(L, C, local, gen.P5_CROSSED, W).value == 1, 'P5 local')
    check(lets_in(L, C, single, gen.P5_CROSSED, W) == (0, 0, b''), 'P5 single-type')
    check(lets_in(L, C, single, gen.P5_STRAIGHT, W).value == 1, 'P5 single-type')
    p6 = table([0], [(0, 'group', choice(seq(t(0), t(0)), t(1))), (1, 'card', EMPTY)])
    check(ref.widen_local_by_table(L, C, gen.P6, E, 500, W) == (0, len(p6), p6), 'P6')
    p7 = table([0], [(0, 'list', t(1)), (1, 'door', t(2)), (2, 'code', EMPTY)])
    p8 = table([0], [(0, 'list', choice(t(1), t(2))), (1, 'door', EMPTY), (2, 'lift', EMPTY)])
    for by_table, _, _ in FORMS.values():
        check(by_table(L, C, gen.P7, E, 500, W) == (0, len(p7), p7), 'P7')
        check(by_table(L, C, gen.P8, E, 500, W) == (0, len(p8), p8), 'P8')
    text = (b'local\nstart t0\nt0 list (t1*|t1)\nt1 card ((t2,t3?)|(t2,t4))\n'
            b't2 name ()\nt3 door ()\nt4 zone ()\n')
    check(ref.listing(gen.LISTER_TABLE, gen.LISTER_DOC) == text, 'lister')
    check(ref.listing(b'', gen.LISTER_DOC) == b'refused 3\n', 'lister')
    check(ref.content_text((ref.TYPE, 127)) == 't127')
    # "64 rules pass, 65 give 7; a name of 64 bytes gives 4; nesting 32 passes, 33 gives 10; 200
    # children pass, 201 give 11."
    rules = [gen.rule(0, 0, EMPTY)] * 65
    for count, refusal in ((64, 0), (65, 7)):
        check(ref.table_reads(L, C, gen.label('a') + b''.join(rules[:count]) + E, W).refusal == refusal)
    for length, refusal in ((63, 0), (64, 4)):
        check(ref.table_reads(L, C, gen.label('a' * length) + E, W).refusal == refusal)
        check(document_reads(L, C, doc('a' * length), W).refusal == refusal)
    for depth, refusal in ((32, 0), (33, 10)):
        check(ref.table_reads(L, C, gen.one_rule(gen.deep(depth)), W).refusal == refusal)
    for children, refusal in ((200, 0), (201, 11)):
        check(document_reads(L, C, gen.document(gen.wide_doc(children)), W).refusal == refusal)
    for numbered, read in ((gen.refused_tables(), ref.table_reads),
                           (gen.refused_documents(), document_reads)):
        for refusal, inputs in numbered.items():
            for data in inputs:
                check(read(L, C, data, W).refusal == refusal, refusal, data)
                check(read(L, C, data, W - 1).refusal == 1)


# ---------------------------------------------------------------- all derived documents, listed

# Trees here are pairs of a head, its name in small letters, and a tuple of trees.

def derived_documents(read, most, fewer_marks=True):
    """All trees of at most `most` nodes that the table lets in, listed by building them up: no
    matching of children is tried here. Or else only with text wherever there may be some; all others
    are these with fewer marks."""
    trees = {}        # (type, nodes) -> set of trees

    def forests(content, nodes, known):
        """The lists of trees, `nodes` nodes together, derived by the words of the content."""
        key = (content, nodes)
        if key not in known:
            known[key] = set()       # for a word of no types under 05 and 06, see below
            known[key] = listed(content, nodes, known)
        return known[key]

    def joined(first, second, nodes, known, least=0):
        """Forests of `first` followed by forests that `second(n)` lists."""
        found = set()
        for before in range(least, nodes + 1):
            for left in forests(first, before, known):
                for right in second(nodes - before):
                    found.add(left + right)
        return found

    def listed(content, nodes, known):
        operator = content[0]
        if operator == ref.NONE:
            return set()
        if operator == ref.EMPTY:
            return {()} if nodes == 0 else set()
        if operator == ref.TYPE:
            return {(one,) for one in trees.get((content[1], nodes), ())}
        if operator == ref.CHOICE:
            return set().union(*(forests(operand, nodes, known) for operand in content[1]))
        if operator == ref.OPTIONAL:
            return forests(content[1], nodes, known) | ({()} if nodes == 0 else set())
        if operator == ref.SEQUENCE:
            def rest(number):
                if number == len(content[1]):
                    return lambda left: {()} if left == 0 else set()
                return lambda left: joined(content[1][number], rest(number + 1), left, known)
            return rest(0)(nodes)
        # 05 and 06: a word of no types may be left out of a joining, unless it is the only one.
        any_number = (ref.ANY, content[1])
        if nodes == 0:
            return {()} if operator == ref.ANY or forests(content[1], 0, known) else set()
        return joined(content[1], lambda left: forests(any_number, left, known), nodes, known, 1)

    for nodes in range(1, most + 1):
        known = {}
        for rule in read.rules:
            name = ref.folded(read.labels[rule.label]).decode('ascii')
            heads = ([name + TEXT] if rule.text else []) + ([name] if fewer_marks or not rule.text else [])
            made = {(head, forest) for head in heads for forest in forests(rule.content, nodes - 1, known)}
            trees.setdefault((rule.type, nodes), set()).update(made)
    return {one for start in read.starts for nodes in range(1, most + 1)
            for one in trees.get((start, nodes), ())}


ALL_TREES = {}


def all_trees(names, nodes):
    """All trees of exactly `nodes` nodes over the names, or heads."""
    key = (names, nodes)
    if key not in ALL_TREES:
        ALL_TREES[key] = [(name, forest) for name in names for forest in all_forests(names, nodes - 1)]
    return ALL_TREES[key]


def all_forests(names, nodes):
    if nodes == 0:
        return [()]
    return [(first,) + rest for here in range(1, nodes + 1) for first in all_trees(names, here)
            for rest in all_forests(names, nodes - here)]


def trees_up_to(names, most):
    return [one for nodes in range(1, most + 1) for one in all_trees(names, nodes)]


def with_text(names):
    """The heads of the names, without text and with."""
    return tuple(name + mark for mark in ('', TEXT) for name in names)


def as_node(a_tree):
    head, children = a_tree
    return ref.Node(name_of(head).encode('ascii'), [as_node(child) for child in children], gen.holds_text(head))


def membership(rounds):
    """Letting in agrees with the listing, on every small tree."""
    for number in range(rounds):
        numbers = Numbers(500 + number)
        make = gen.rich_table if number % 2 else gen.random_table
        names = ('a', 'b', 'c')[:2 + number % 2]
        limits = ref.SETS[number % 3]
        made = gen.respelled(numbers, make(numbers, list(names), 5, limits))
        marked = gen.with_other_marks(numbers, made, numbers.of((30, 60, 100)))
        for data, heads, most in ((made, names, 8 - len(names)), (marked, with_text(names), 6 - len(names))):
            read = ref.read_table(limits, C, data)
            listed = derived_documents(read, most)
            for a_tree in trees_up_to(heads, most):
                check(ref.table_lets_in(read, as_node(a_tree)) == (a_tree in listed), read, a_tree)
    # Random contents over two leaves, against every word of at most five.
    words = [word for length in range(6) for word in itertools.product('ab', repeat=length)]
    for number in range(rounds * 4):
        numbers = Numbers(80000 + number)
        content = gen.random_content(numbers, [1, 2, 3], 3)
        read = ref.read_table(L, C, table([0], [(0, 'r', content), (1, 'a', EMPTY), (2, 'b', EMPTY)]))
        listed = derived_documents(read, 6)
        for word in words:
            a_tree = ('r', tuple((name, ()) for name in word))
            check(ref.table_lets_in(read, as_node(a_tree)) == (a_tree in listed), read, a_tree)


# ---------------------------------------------------------------- kinds and leastness

def pieces(a_tree, kind, above=()):
    """What a table of the kind cannot tell apart: at each node its name (local) or the path of
    names to it (single-type), with the names of its children, and apart from these that it holds
    text."""
    path = above + (name_of(a_tree[0]),)
    here = path if kind == 'single-type' else path[-1:]
    yield ('node', here, tuple(name_of(child[0]) for child in a_tree[1]))
    if gen.holds_text(a_tree[0]):
        yield ('text', here)
    for child in a_tree[1]:
        yield from pieces(child, kind, path)


def seen_pieces(trees, kind):
    found = {('root', name_of(a_tree[0])) for a_tree in trees}
    for a_tree in trees:
        found.update(pieces(a_tree, kind))
    return found


def made_of(a_tree, found, kind):
    return ('root', name_of(a_tree[0])) in found and all(piece in found for piece in pieces(a_tree, kind))


def rival_tables(kind):
    """Small tables of the kind over the names a and b, with the small trees each lets in."""
    if kind == 'local':
        contents = [EMPTY, t(0), t(1), gen.NONE, any_of(t(0)), any_of(t(1)), gen.optional(t(0)),
                    gen.optional(t(1)), choice(t(0), t(1)), seq(t(0), t(1)), any_of(choice(t(0), t(1))),
                    seq(t(1), t(1)), gen.some_of(t(1)), choice(EMPTY, seq(t(1), t(0)))]
        made = [table(starts, [(0, 'a', first), (1, 'b', second)])
                for starts in ([0], [1], [0, 1]) for first in contents for second in contents]
    else:
        made = []
        numbers = Numbers(4242)
        contents = [EMPTY, gen.NONE]
        for one in range(4):
            contents += [t(one), any_of(t(one)), gen.optional(t(one)), gen.some_of(t(one))]
        for one, two in itertools.product((0, 2), (1, 3)):
            contents += [choice(t(one), t(two)), seq(t(one), t(two)), seq(t(two), t(one)),
                         any_of(choice(t(one), t(two)))]
        while len(made) < 700:          # types 0 and 2 have name a, types 1 and 3 name b
            rules = [(k, 'ab'[k % 2], numbers.of(contents)) for k in range(4)]
            one = table(numbers.of(([0], [1], [0, 1], [0, 3])), rules, ['a', 'b'])
            if ref.is_single_type(L, C, one, W).value:
                made.append(one)
        # Every local table with distinct types is single-type too.
        made += rival_tables('local')[::7]
    for one in made:
        check(FORMS[kind][2](L, C, one, W) == (0, 1, b''), kind, one)
    return made


def marked_rivals(kind):
    """The same with rules of both tags: of a share of the tables each mixture, of the others one."""
    numbers, made = Numbers(4343), []
    for place, one in enumerate(rival_tables(kind)):
        parts = gen.fields_of(one)
        rules = [number for number, part in enumerate(parts) if part[0] == 0x12]
        for marked in itertools.product((0, 1), repeat=len(rules)):
            if len(rules) > 2 and not numbers.chance(15) or len(rules) == 2 and place % 3:
                continue
            tags = {number: bytes([0x12 + mark]) for number, mark in zip(rules, marked)}
            made.append(b''.join(tags.get(number, part[:1]) + part[1:] for number, part in enumerate(parts)))
    for one in made:
        check(FORMS[kind][2](L, C, one, W) == (0, 1, b''), kind, one)
    return made


def leastness(rounds, marks):
    """With marks the trees are of one node less: there are twice as many heads."""
    names = ('a', 'b')
    most = 4 if marks else 5
    small = trees_up_to(with_text(names) if marks else names, 4)
    rivals = {kind: [(one, derived_documents(ref.read_table(L, C, one), most))
                     for one in (marked_rivals if marks else rival_tables)(kind)] for kind in FORMS}
    what = 'marked ' if marks else ''
    counts = {what + count: 0 for count in ('widenings', 'whole', 'rivals compared')}
    for number in range(rounds):
        numbers = Numbers((9500 if marks else 9000) + number)
        limits = ref.SETS[number // 6 % 3]

        def made(make):
            a_table = gen.respelled(numbers, make(numbers, list(names), 4, limits))
            return gen.with_other_marks(numbers, a_table, numbers.of((0, 25, 50, 75))) if marks else a_table

        make = (gen.random_table, gen.rich_table)
        old = made(make[number % 2])
        old_trees = derived_documents(ref.read_table(limits, C, old), most + 1)
        one = numbers.of(small)
        if number % 3:
            addition = through = made(make[number // 2 % 2])
        else:                           # a document, "added through its sample"
            addition = gen.respelled(numbers, gen.document(one))
            through = sample(limits, C, addition, 33000, limits.words).written
        added = derived_documents(ref.read_table(limits, C, through), most + 1)
        check(number % 3 or one in added, one)
        for kind, (by_table, by_document, is_kind) in FORMS.items():
            answer = (by_table if number % 3 else by_document)(limits, C, old, addition, 33000, limits.words)
            if answer.refusal:
                check(answer.refusal == 13 and not old_trees and not added, kind, old, addition)
                continue
            counts[what + 'widenings'] += 1
            result = ref.read_table(limits, C, answer.written)
            # "Being of the kind, letting in the old and the added, and being least are one claim"; "The widened
            # table is then least over the old table's documents and all those of the sample table".
            check(is_kind(limits, C, answer.written, limits.words) == (0, 1, b''), kind, old, addition)
            let_in = derived_documents(result, most + 1)
            must = old_trees | added
            check(must <= let_in, kind, old, addition)
            check(ref.table_bytes(result) == answer.written)
            # Least: every piece of a small document of the result is seen in what must be let in.
            found = seen_pieces(must, kind)
            narrow = {one for one in let_in if gen.node_count(one) <= 4}
            whole = all(made_of(one, found, kind) for one in narrow)
            if whole:
                counts[what + 'whole'] += 1
            else:
                # The documents that show a piece may be larger; try again with more nodes.
                for nodes in (9, 11, 13):
                    wider = set().union(*(derived_documents(ref.read_table(limits, C, data), nodes, False) for data in (old, through)))
                    found = seen_pieces(wider, kind)
                    whole = all(made_of(one, found, kind) for one in narrow)
                    if whole:
                        break
                check(whole, kind, old, addition)
                continue
            # And what is made of seen pieces is let in: the result is no more than a closure.
            for one in small:
                if made_of(one, found, kind):
                    check(one in let_in, kind, old, addition, one)
            # Rivals that let in all of it up to the bound let in the result's small documents.
            must = {one for one in must if gen.node_count(one) <= most}
            found = seen_pieces(must, kind)
            narrow = {one for one in narrow if made_of(one, found, kind)}
            for rival, rival_trees in rivals[kind]:
                if must <= rival_trees:
                    counts[what + 'rivals compared'] += 1
                    check(narrow <= rival_trees, kind, old, addition, rival)
    return counts


# ---------------------------------------------------------------- the three sizes

BY_A_LIMIT = (1, 7, 8, 9, 11, 14)       # "Refusals 1, 7, 8, 9, 11 and 14 [...] read the chosen limits."
# The three sets, and others between them that Card 13 asks for too.
GROWING = (ref.Limits(0, 0, 0, 32768), ref.Limits(1, 1, 1, 32768), ref.SMALL, ref.Limits(37, 300, 20, 32768),
           ref.STANDARD, ref.Limits(127, 2047, 64, 32768), ref.LARGE)


def sizes_by_hand():
    for call, first, second, label, refusals in gen.edges():
        for size in gen.SIZES:
            case = gen.Case(call, size, C, gen.MOST_WORK, 0, gen.MOST_OUTPUT, label, FILE, first, second)
            check(gen.answer_of(case).refusal == refusals[size], call, size, first.hex(), second.hex())
    for call in gen.CALLS:
        for size, work, refusal in gen.WORD_EDGES:
            case = gen.Case(call, size, C, work, 7, 400, 0, FILE, *gen.good_inputs(call))
            check(gen.answer_of(case).refusal == refusal, call, size, work)
    for size in gen.NO_SIZES:
        for call, first, refusal in gen.NO_SIZE_EDGES:
            case = gen.Case(call, size, C, W, 7, gen.MOST_OUTPUT, 0, FILE, first, b'')
            check(gen.answer_of(case).refusal == refusal, call, size, first.hex())


def larger_sets_agree():
    """Wherever a set gives an answer that is no refusal by a limit, a larger one gives it too; and where the classes read an
    input's names, classes with more letters give the same answer."""
    questions = {(case.call, case.label, case.classes, case.format, case.first, case.second): case for case in made_cases()}
    for case in questions.values():
        room = gen.MOST_OUTPUT if case.call in gen.WRITING else 0
        answers = [gen.answer_under(limits, case._replace(work_len=limits.words, out_len=room)) for limits in GROWING]
        for smaller, larger in zip(answers, answers[1:]):
            check(smaller.refusal in BY_A_LIMIT or smaller == larger, case)
        if answers[-1].refusal not in (5, 18):
            case = case._replace(size=gen.LARGE, classes=gen.ALL_LETTERS, work_len=ref.LARGE.words, out_len=room)
            check(gen.answer_of(case) == answers[-1], case)


# ---------------------------------------------------------------- the classes

def classes_by_hand():
    letters = b'ABCDEFGHIJKLMNOPQRSTUVWXYZ_abcdefghijklmnopqrstuvwxyz'
    check([byte for byte in range(256) if C[byte] == 2] == list(letters))
    check([byte for byte in range(256) if C[byte] == 1] == list(b'-.0123456789'))
    check(ref.loads(C) and len(gen.IN_NO_NAME) == 45 and len(gen.MAY_BE_IN_NAMES) == 211)
    check(not any(ref.loads(classes) for classes in gen.BAD_CLASSES))
    check(all(ref.loads(classes) for classes in gen.LOADED))
    made = gen.Cases()
    for refusal, call, first, second, options in gen.class_edges():
        made.add(call, first, second, **options)
        case = made.all[-1]
        answer = gen.answer_of(case)
        check(answer.refusal == refusal, refusal, answer.refusal, call, first.hex(), second.hex(), options)
        if refusal == 18:       # no value, the output untouched, as many words zero as the size needs
            words = {gen.SMALL: 12288, gen.LARGE: 32768}.get(case.size, 16384)
            output, work = gen.OUTPUT_FILL[:case.out_len], [case.work_fill] * case.work_len
            check(answer.value == 0 and ref.output_after(answer, output) == output)
            check(ref.work_after(gen.limits_of(case), answer, work) == [0] * words + work[words:])
    for call in gen.CALLS:
        check({18, 1, 0, 5} <= {gen.answer_of(case).refusal for case in made.all if case.call == call})


def own_names_by_hand():
    own, (one, two, three) = gen.OWN, gen.OWN_NAMES
    for number, name in enumerate((one, two, three)):
        offset, length = divmod(ref.label_name(L, own, gen.OWN_TABLE, number, W).value, 65536)
        check(gen.OWN_TABLE[offset:offset + length] == name.encode('latin-1'))
    check(lets_in(L, own, gen.OWN_TABLE, gen.OWN_DOC, W) == (0, 1, b''))
    for a_tree, value in ((tree(one), 1), (tree(one, tree(three)), 1), (tree(one, tree(three, tree(two)), tree(two)), 1),
                          (tree(two), 0), (tree(one, tree(three, tree(three))), 0), (tree(one, tree(three[::-1])), 0),
                          (tree(one[:-1]), 0), (tree('a'), 0)):
        check(lets_in(L, own, gen.OWN_TABLE, gen.document(a_tree), W) == (0, value, b''), a_tree)
    sampled = table([0], [(0, one, seq(t(1), t(3))), (1, three, t(2)), (2, two, EMPTY), (3, two, EMPTY)])
    check(sample(L, own, gen.OWN_DOC, 500, W) == (0, len(sampled), sampled))
    wider = table([0, 2], [(0, one, any_of(choice(t(1), t(2)))), (1, two, EMPTY),
                           (2, three, choice(gen.optional(t(1)), any_of(t(3)))), (3, '\xe9#', EMPTY)])
    check(ref.widen_local_by_table(L, own, gen.OWN_TABLE, gen.OWN_OTHER, 500, W) == (0, len(wider), wider))
    # No bit of a byte above 7F is left out of account.
    check(lets_in(L, own, gen.P1, doc('\xe1'), W) == (0, 0, b''))
    wider = table([0, 1], [(0, 'a', EMPTY), (1, '\xe1', EMPTY)])
    for _, by_document, _ in FORMS.values():
        check(by_document(L, own, gen.P1, doc('\xe1'), 500, W) == (0, len(wider), wider))


def renamed_alike(rounds):
    """ASCII's names in small letters, spelled in other bytes that are no capitals, of the classes that theirs have, give the same answers
    in that spelling."""
    small = [name for name in gen.POOL if name == name.lower()]
    for number in range(rounds):
        numbers = Numbers(47000 + number)
        left = [byte for byte in gen.MAY_BE_IN_NAMES if not 0x41 <= byte <= 0x5A]
        spelled = {chr(byte): chr(left.pop(numbers.below(len(left)))) for byte in range(256) if C[byte]}
        classes = bytearray(256)
        for byte, other in spelled.items():
            classes[ord(other)] = C[ord(byte)]

        def respelled(name):
            return ''.join(spelled[byte] for byte in name.decode('latin-1')).encode('latin-1')

        pool = [respelled(name.encode('latin-1')).decode('latin-1') for name in small]
        answers = []
        for lent, names in ((C, small), (bytes(classes), pool)):
            same = Numbers(48000 + number)
            old, addition = gen.perhaps_marked(same, gen.random_table(same, names)), gen.perhaps_marked(same, gen.rich_table(same, names))
            a_document = gen.random_document(same, old, names)
            answers.append([lets_in(L, lent, old, a_document, W), ref.label_name(L, lent, old, 1, W),
                            ref.is_local(L, lent, old, W), ref.is_single_type(L, lent, old, W),
                            sample(L, lent, a_document, 33000, W)]
                           + [by_table(L, lent, old, addition, 33000, W) for by_table, _, _ in FORMS.values()]
                           + [by_document(L, lent, old, a_document, 33000, W) for _, by_document, _ in FORMS.values()])
        for ours, theirs in zip(*answers):
            check(ours[:2] == theirs[:2], number)
            if ours.written:
                read = ref.read_table(L, C, ours.written)
                read = read._replace(labels=[respelled(name) for name in read.labels])
                check(ref.table_bytes(read) == theirs.written, number)


# ---------------------------------------------------------------- letter case

def spellings_by_hand():
    # These 26 pairs, of all pairs of bytes.
    pairs = [(one, other) for one in range(256) for other in range(one + 1, 256)
             if ref.folded(bytes([one])) == ref.folded(bytes([other]))]
    check(pairs == list(zip(b'ABCDEFGHIJKLMNOPQRSTUVWXYZ', b'abcdefghijklmnopqrstuvwxyz')))
    check(pairs == gen.LETTER_PAIRS and len(gen.BIT_PAIRS) == 95 and len(gen.NO_LETTERS) == 69)
    check(all({one, other} <= set(gen.MAY_BE_IN_NAMES) and other == one ^ 0x20 for one, other in gen.BIT_PAIRS))
    made = gen.Cases()
    for told, call, first, second, options in gen.spelling_edges():
        made.add(call, first, second, **options)
        answer = gen.answer_of(made.all[-1])
        check(answer == told, told, answer, call, first.hex(), second.hex(), options)
    for call in set(gen.CALLS) - {gen.DOCUMENT_READS, gen.SAMPLE}:
        check(6 in {gen.answer_of(case).refusal for case in made.all if case.call == call}, call)
    # An addition spelled as the old table gives the same bytes, and so does the sample that a document is added through.
    for old, addition, *_ in gen.spelled_widenings():
        first = {ref.folded(name): name for name in reversed(gen.names_in(old) + gen.names_in(addition))}
        as_old = gen.spelled(lambda name: first[ref.folded(name)], addition)
        for by_table, by_document, _ in FORMS.values():
            by = by_document if addition[0] in (0x30, 0x32) else by_table
            check(by(L, C, old, addition, 500, W) == by(L, C, old, as_old, 500, W), old, addition)
    text = (b'local\nstart t0\nt0 list (t1*|t1)\nt1 card ((t2,t3?)|(t2,t4))\n'
            b't2 name ()\nt3 door ()\nt4 ZONE ()\n')
    check(ref.listing(gen.LISTER_TABLE, gen.in_capitals(gen.LISTER_DOC)) == text, 'lister')
    check(ref.listing(gen.label('card') + gen.label('CARD') + E, gen.LISTER_DOC) == b'refused 6\n', 'lister')


def respelled_alike():
    """Over all made cases: letters in the other case, of the same class, change no verdict and no refusal, and of a written table only
    the spelling of its names, which is the first one met: the old table's, or else that of the addition's first label or node. Pages have
    the letters of their table."""
    for number, case in enumerate(made_cases()):
        if len(case.classes) != 256:
            continue
        numbers, answer = Numbers(52000 + number), gen.answer_of(case)
        both = gen.with_names(case, gen.other_letters(numbers, case.classes))
        for other in {case._replace(second=both.second), both}:
            found = gen.answer_of(other)
            check(found[:2] == answer[:2], case, other)
            if case.call == gen.PAGES:
                check(found.written.lower() == answer.written.lower(), case, other)
                check(not found.written or lines_on(found.written) == lister_lines(gen.limits_of(other), other.classes, other.first), other)
                continue
            check(gen.in_small_letters(found.written) == gen.in_small_letters(answer.written), case, other)
            met = {}
            for name in gen.names_of_case(other):
                met.setdefault(name.lower(), name)
            check(all(met[name.lower()] == name for name in gen.names_in(found.written)), case, other)


# ---------------------------------------------------------------- runs of neighbours

def runs_by_hand():
    made = gen.Cases()
    for told, call, first, second, options in gen.run_edges():
        made.add(call, first, second, **options)
        answer = gen.answer_of(made.all[-1])
        check(answer == told, told, answer, call, first.hex(), second.hex(), options)
    # In bytes: a list of two cards, and of nine; a card alone, and beside another.
    head = bytes.fromhex('100004 6C697374 100004 63617264 110001 00')
    tail = bytes.fromhex('120003 010101 1F0000')
    for count, rule in ((1, '120004 00000201'), (2, '120005 0000060201'), (9, '120005 0000060201'), (200, '120005 0000060201')):
        sampled = head + bytes.fromhex(rule) + tail
        check(sample(L, C, gen.list_of(count), 500, W) == (0, len(sampled), sampled), count)
    # The second byte of a sequence is the number of its operands.
    for word, count, length in (('aab', 2, 7), ('a' * 199 + 'b', 2, 7), ('ab' * 99 + 'aa', 199, 401), ('ab' * 100, 200, 402),
                                ('aabb' * 50, 100, 302), ('aabaa', 3, 10)):
        content = sample(L, C, gen.document(gen.row(word)), 2000, W).written.split(gen.start(0))[1][5:]
        check(content[:2] == bytes([3, count]) and content[length:length + 3] == b'\x12\x00\x03', word)
    text = (b'local\nstart t0\nt0 list (t1*|t1+)\nt1 card ((t2,t3?)|(t2,t4)|(t2,t4+)|t2)\n'
            b't2 name ()\nt3 door ()\nt4 zone ()\n')
    check(text in [ref.listing(old, a_document) for old, a_document, *_ in gen.run_widenings()], 'lister')
    check(ref.listing(E, gen.list_of(9)) == b'local\nstart t0\nt0 list t1+\nt1 card ()\n', 'lister')


def runs_in(a_tree, above=()):
    """Where children are that have a neighbour of their name: the numbers of children on the way to each."""
    number = 0
    for group in gen.neighbours(a_tree):
        for child in group:
            if len(group) > 1:
                yield above + (number,)
            yield from runs_in(child, above + (number,))
            number += 1


def with_one_more(a_tree, way):
    """The tree with the child that the way leads to a second time, after itself."""
    (name, children), number = a_tree, way[0]
    if len(way) > 1:
        return (name, children[:number] + [with_one_more(children[number], way[1:])] + children[number + 1:])
    return (name, children[:number + 1] + children[number:])


def added_through_samples():
    """Over all made cases of a sample or of a widening by a document that give a table: it lets in the document; the widening by the
    sample has the same bytes; and so has the answer with one more member of a run."""
    counts = {'through samples': 0, 'longer runs': 0}
    for turn, case in enumerate(made_cases()):
        data, answer = gen.document_of(case), gen.answer_of(case)
        if case.call != gen.SAMPLE and case.call not in gen.BY_DOCUMENT or answer.refusal:
            continue
        limits, classes, words = gen.limits_of(case), case.classes, case.work_len
        sampled = sample(limits, classes, data, gen.MOST_OUTPUT, words, case.format)
        check(sampled.refusal == 0 and ref.is_single_type(limits, classes, sampled.written, words) == (0, 1, b''), case)
        for a_table in {sampled.written, answer.written}:
            check(lets_in(limits, classes, a_table, data, words, case.format) == (0, 1, b''), case)
        if case.call in gen.BY_DOCUMENT:
            by_table = gen.BY_TABLE[gen.BY_DOCUMENT.index(case.call)]
            check(gen.answer_of(case._replace(call=by_table, second=sampled.written)) == answer, case)
            counts['through samples'] += 1
        numbers, a_tree = Numbers(53000, turn), gen.tree_in(case)
        ways = list(runs_in(a_tree))
        check(bool(ways) == gen.samples_a_run(case), case)
        for way in {numbers.of(ways) for _ in range(3)} if ways else ():
            longer = (gen.xml if gen.is_text(case) else gen.document)(with_one_more(a_tree, way))
            found = gen.answer_of(gen.with_document(case, longer, case.format))
            check(found == answer or found.refusal in (2, 11), case, way)
            counts['longer runs'] += found == answer
    return counts


def words_in(a_tree, above=()):
    """Paths with their children in groups, a name and a number each."""
    path = above + (name_of(a_tree[0]),)
    yield path, tuple((name_of(group[0][0]), len(group)) for group in gen.neighbours(a_tree))
    for child in a_tree[1]:
        yield from words_in(child, path)


def texts_in(a_tree, above=()):
    """The paths with text."""
    path = above + (name_of(a_tree[0]),)
    here = {path} if gen.holds_text(a_tree[0]) else set()
    return here.union(*(texts_in(child, path) for child in a_tree[1]))


def small_samples(heads, most, share):
    """A sample lets in just the trees whose children, at each path, are those of a node of the document there: in the same order, each
    that stands alone there alone here too, each run there one or more here; and with text only at paths where the document has some."""
    def like(here, there):
        return len(here) == len(there) and all(one[0] == other[0] and (other[1] > 1 or one[1] == 1) for one, other in zip(here, there))

    trees = [(one, list(words_in(one)), texts_in(one)) for one in trees_up_to(heads, most)]
    for number, (one, seen, texts) in enumerate(trees):
        if gen.node_count(one) == most and number % share:
            continue
        sampled = ref.read_table(L, C, sample(L, C, gen.document(one), 500, W).written)
        listed = derived_documents(sampled, most)
        for other, asked, held in trees:
            fits = held <= texts and all(any(path == there and like(groups, others) for there, others in seen) for path, groups in asked)
            check(fits == (other in listed), one, other)


# ---------------------------------------------------------------- text marks

def text_by_hand():
    made = gen.Cases()
    for told, call, first, second, options in gen.text_edges():
        made.add(call, first, second, **options)
        answer = gen.answer_of(made.all[-1])
        check(answer == told, told, answer, call, first.hex(), second.hex(), options)
    for call in gen.CALLS:
        check({0, 4} <= {gen.answer_of(case).refusal for case in made.all if case.call == call}, call)
    # In bytes: P1's rule for text, and P2's node with it.
    marked, held = bytes.fromhex('10000161 110001 00 130003000001 1F0000'), bytes.fromhex('3200020061 3F0000')
    check(marked == gen.with_all_marks(gen.P1) and held == gen.with_all_marks(gen.P2))
    for a_table, a_document, value in ((gen.P1, gen.P2, 1), (gen.P1, held, 0), (marked, gen.P2, 1), (marked, held, 1)):
        check(lets_in(L, C, a_table, a_document, W) == (0, value, b''), a_table, a_document)
    check(sample(L, C, held, 100, W) == (0, 17, marked) and sample(L, C, gen.P2, 100, W) == (0, 17, gen.P1))
    for by_table, by_document, _ in FORMS.values():
        for old, addition in ((gen.P1, marked), (marked, gen.P1), (marked, marked), (marked, E), (E, marked)):
            check(by_table(L, C, old, addition, 100, W) == (0, 17, marked), old, addition)
        for old, addition in ((gen.P1, held), (marked, gen.P2), (marked, held), (E, held)):
            check(by_document(L, C, old, addition, 100, W) == (0, 17, marked), old, addition)
        check(by_document(L, C, gen.P1, gen.P2, 100, W) == (0, 17, gen.P1))
    lister_with_marks()


def lister_with_marks():
    """# directly after the content."""
    text_ = (b'local\nstart t0\nt0 list (t1*|t1)\nt1 card ((t2,t3?)|(t2,t4))\n'
             b't2 name ()#\nt3 door ()\nt4 zone ()#\n')
    a_document = doc('list', tree('card', text('name'), text('zone')))
    check(ref.listing(gen.LISTER_TABLE, a_document) == text_ and ref.listing(gen.NAME_TEXT, a_document) == text_, 'lister')
    check(ref.listing(gen.NAME_TEXT, gen.LISTER_DOC) == text_.replace(b'zone ()#', b'zone ()'), 'lister')
    contents = b'local\nstart t0\nt0 list (t1*|t1)#\nt1 card ((t2,t3?)|(t2,t4))#\nt2 name ()#\nt3 door ()#\nt4 zone ()\n'
    check(ref.listing(gen.with_all_marks(gen.LISTER_TABLE), gen.LISTER_DOC) == contents, 'lister')
    check(ref.listing(E, gen.document(text('a', text('b')))) == b'local\nstart t0\nt0 a t1#\nt1 b ()#\n', 'lister')
    for operator, told in ((any_of(t(0)), b'(t0*|())#'), (gen.some_of(t(0)), b'(t0+|())#'), (gen.optional(t(0)), b'(t0?|())#')):
        old = table([0], [(0, 'a', operator), (0, 'a', EMPTY, TEXT)])
        check(ref.listing(old, doc('a')) == b'local\nstart t0\nt0 a ' + told + b'\n', 'lister')
    foreign = gen.with_tags(gen.LISTER_TABLE, lambda tag: 0x32 if tag == 0x12 else tag)
    check(ref.listing(foreign, a_document) == b'refused 4\n', 'lister')


def marks_seen_by_letting_in_alone():
    """Over all made cases, with other marks: the same refusal; of what is written the same bytes but for the tags of rules; the same value
    but for letting in, which more marks in the table never make a no, and more in the document never a yes. With all of them it is as
    with none, and so is what is written, all its rules for text. XML text has no marks: no mark of the table changes its verdict. (Pages
    show the marks: see below.)"""
    for turn, case in enumerate(made_cases()):
        if case.call == gen.PAGES:
            continue
        numbers, plain = Numbers(54000, turn), gen.answer_of(with_marks(case, gen.without_marks))
        marked = with_marks(case, lambda data: gen.with_other_marks(numbers, data, 50))
        every, own, answer = gen.answer_of(with_marks(case, gen.with_all_marks)), gen.answer_of(case), gen.answer_of(marked)
        check(gen.is_text(case) or every == plain._replace(written=gen.with_all_marks(plain.written)), case)
        for found in (own, answer, every):
            check(found.refusal == plain.refusal and gen.without_marks(found.written) == plain.written, case)
            check(found.value == plain.value or case.call == gen.LETS_IN and not gen.is_text(case) and found.value < plain.value, case)
        if case.call == gen.LETS_IN and not gen.is_text(case):
            first, second = marked.first, marked.second
            for more in (marked._replace(first=gen.with_all_marks(first)), marked._replace(second=gen.without_marks(second))):
                check(answer.value <= gen.answer_of(more).value, case)
            for less in (marked._replace(first=gen.without_marks(first)), marked._replace(second=gen.with_all_marks(second))):
                check(answer.value >= gen.answer_of(less).value, case)


def with_marks(case, changed):
    return gen.changed_inputs(case, changed, lambda text_: text_)


# ---------------------------------------------------------------- XML text

def xml_by_hand():
    made = gen.Cases()
    for told, call, first, second, options in gen.xml_edges():
        made.add(call, first, second, **options)
        answer = gen.answer_of(made.all[-1])
        check(answer == told, told, answer, call, first.hex(), second.hex(), options)
    texts = [case for case in made.all if gen.is_text(case)]
    for call in gen.WITH_DOCUMENT:
        check({0, 1, 2, 5, 11, 16, 17, 18} <= {gen.answer_of(case).refusal for case in texts if case.call == call}, call)
    for case in texts:          # "both take the place of 3, 4 and 12"
        check(not document_reads(L, C, gen.document_of(case), W, XML).refusal in (3, 4, 12), case)
    for data, a_tree in gen.xml_trees():
        root = ref.read_xml_text(L, C, data)
        check(gen.tree_of(root) == a_tree and not gen.has_marks(gen.document(gen.tree_of(root))), data)
        check(gen.tree_of(root) == gen.tree_of(ref.read_document(L, C, gen.document(a_tree))), data)
    for byte in range(256):
        for data, refusal in gen.texts_with_byte(byte):
            check(document_reads(L, C, data, W, XML).refusal == refusal, data, refusal)
    # In bytes: P2 as text, and the lister's document.
    for data in (b'<a/>', b'<a></a>', b' <a\t>\r\n</a > '):
        check(lets_in(L, C, gen.P1, data, W, XML) == (0, 1, b'') and sample(L, C, data, 100, W, XML) == (0, 17, gen.P1), data)
        for _, by_document, _ in FORMS.values():
            check(by_document(L, C, gen.P1, data, 100, W, XML) == by_document(L, C, E, data, 100, W, XML) == (0, 17, gen.P1), data)
    listed = b'<list><card><name/><zone/></card></list>'
    check(local_by_document(L, C, gen.LISTER_TABLE, listed, 500, W, XML)
          == local_by_document(L, C, gen.LISTER_TABLE, gen.LISTER_DOC, 500, W) != local_by_document(L, C, E, listed, 500, W, XML))
    check(ref.listing(gen.LISTER_TABLE, listed) == b'refused 3\n', 'lister')        # it keeps document files
    for number in gen.NO_FORMATS:
        check(document_reads(L, C, gen.P2, W, number) == (0, 1, b'') and document_reads(L, C, b'<a/>', W, number).refusal == 3, number)


def agrees_with_expat(limits, classes, data):
    """Our tree, or our refusal, is one that expat's reading leaves."""
    found = by_expat.read(data)
    try:
        ours, refusal = gen.tree_of(ref.read_xml_text(limits, classes, data)), 0
    except ref.Refused as fault:
        ours, refusal = None, fault.number
    return refusal in by_expat.refusals(limits, classes, data, found) and ours == (None if refusal else found.tree)


def xml_against_expat():
    """All short texts, and all short rows of tags, white space and others; the texts of the made cases; and documents of these as texts,
    whole and damaged."""
    counts = {'texts by expat': 0, 'well-formed': 0}

    def asked(limits, classes, data):
        check(agrees_with_expat(limits, classes, data), data)
        counts['texts by expat'] += 1
        counts['well-formed'] += by_expat.read(data).tree is not None

    for data in itertools.chain(by_expat.short_texts(), by_expat.rows_of_tags()):
        asked(L, C, data)
    for turn, case in enumerate(made_cases()):
        if gen.is_text(case) and case.classes == C:
            asked(gen.limits_of(case), C, gen.document_of(case))
        elif turn % 5 == 0 and gen.tree_in(case):
            numbers = Numbers(55000, turn)
            data = gen.xml_in_some_way(numbers, gen.tree_in(case))
            asked(gen.limits_of(case), C, data)
            asked(gen.limits_of(case), C, gen.damaged_text(numbers, data))
    return counts


def xml_as_files():
    """Over all made cases with a document that reads: a document file and XML text of its nodes, in whatever way, give the same answers,
    written bytes included."""
    counts = {'texts as files': 0}
    for turn, case in enumerate(made_cases()):
        a_tree = gen.tree_in(case)
        if a_tree is None or any(byte in b' \t\r\n/>' for name in gen.names_in(gen.document(a_tree)) for byte in name):
            continue        # such a name (5) is none in a text
        file = gen.without_marks(gen.document(a_tree))
        answer = gen.answer_of(gen.with_document(case, file, FILE))
        for data in (gen.xml(a_tree), gen.xml_in_some_way(Numbers(56000, turn), a_tree)):
            if max(len(data), len(file)) <= 32768:
                check(gen.answer_of(gen.with_document(case, data, XML)) == answer, case, data)
                counts['texts as files'] += 1
    return counts


# ---------------------------------------------------------------- printed pages

def lines_on(pages):
    """The lister's lines, from the pages alone: "Joining the columns' texts, less padding, with a space gives the lister's text for that
    rule." Its first row is one with a t in column 1, for later ones have a digit there or nothing."""
    rules = []
    for row in pages.split(b'\n')[:-1]:
        if row[:1] == b't':
            rules.append([b'', b'', b''])
        for number, piece in enumerate((row[0:3], row[4:27], row[28:72])):
            if piece != b' ' * len(piece):
                rules[-1][number] += piece
    return [b' '.join(text_.rstrip(b' ') for text_ in texts) for texts in rules]


def lister_lines(limits, classes, data):
    """The lister's lines for the rules of a table that reads."""
    read = ref.read_table(limits, classes, data)
    return [b't%d ' % rule.type + read.labels[rule.label] + b' ' + ref.content_text(rule.content).encode('ascii') + b'#' * rule.text
            for rule in read.rules]


def pages_of(data, limits=ref.LARGE, classes=C):
    return ref.pages(limits, classes, data, gen.MOST_OUTPUT, limits.words)


def pages_by_hand():
    made = gen.Cases()
    for told, call, first, second, options in gen.page_edges():
        made.add(call, first, second, **options)
        answer = gen.answer_of(made.all[-1])
        check(call == gen.PAGES and answer == told, told, answer, first.hex(), options)
    # 13 and 14 are never given, 11 is of documents, 16 and 17 of XML text.
    check({gen.answer_of(case).refusal for case in made.all} == {*range(13), 15, 18} - {11})
    # In bytes: a page of one rule, and one whose three texts go on.
    blank, line = b' ' * 72, b'\n'
    page = b't0  a                       ()                                          \n' + (blank + line) * 59
    check(pages_of(gen.P1) == (0, 4380, page))
    page = (b't12 abcdefghijklmnopqrstuvw (t0,t1,t2,t3,t4,t5,t6,t7,t8,t9,t0,t1,t2,t3)*\n'
            b'7   x                       #                                           \n' + (blank + line) * 58)
    a_table = table([], [(127, gen.NAME_23 + 'x', any_of(gen.in_order(14)), TEXT)])
    check(pages_of(a_table) == (0, 4380, page))
    check(pages_of(E) == (0, 0, b'') and ref.pages(L, C, E, 0, W) == (0, 0, b''))
    for size, a_table, rows, length in gen.LARGEST:
        limits = ref.SETS[size]
        found = ref.pages(limits, C, a_table, length, limits.words)
        check(len(a_table) <= 32768 and found.value == length == len(found.written), size)
        taken = [row for row in found.written.split(line) if row.strip()]
        check(len(taken) == rows and found.written == line.join(taken) + (line + blank) * (length // 73 - rows) + line, size)
        check(ref.pages(limits, C, a_table, length - 1, limits.words) == (15, 0, b''), size)
    check(gen.LARGEST[-1][3] == ref.MOST_PAGES <= gen.MOST_OUTPUT)
    # The printing program.
    check(ref.print_out(gen.P1) == pages_of(gen.P1).written and ref.print_out(E) == b'', 'printing')
    for data, refusal in ((b'', 3), (gen.flat_table(65), 7), (gen.label('\xe9') + E, 5), (gen.P1 + b'\x00', 12)):
        check(ref.print_out(data) == b'refused %d\n' % refusal, 'printing')
    check(ref.print_out(gen.LARGEST[1][1]) == pages_of(gen.LARGEST[1][1], L).written, 'printing')


def pages_of_all_tables():
    """Over the tables of a share of all made cases and of random ones that read, at their own size: whole pages of rows of 72, the
    lister's lines from them, columns 4 and 28 empty; what has no rule changes nothing, nor does a larger size; each rule has the same
    rows, whatever comes before it; marks put # at the ends of contents."""
    counts = {'tables printed': 0, 'pages': 0}
    cases = made_cases()[::7] + [case for case in made_cases() if case.call == gen.PAGES] + random_pages(2, 300)
    asked = {(gen.limits_of(case), case.classes, data) for case in cases if ref.loads(case.classes)
             for data in ((case.first,) if case.call not in gen.BY_TABLE else (case.first, case.second))}
    for limits, classes, data in sorted(asked):
        answer = pages_of(data, limits, classes)
        reads = ref.table_reads(limits, classes, data, limits.words)
        check(answer.refusal == reads.refusal, data)
        if reads.refusal:
            continue
        read, written = ref.read_table(limits, classes, data), answer.written
        counts['tables printed'] += 1
        counts['pages'] += len(written) // 4380
        check(len(written) % 4380 == 0 and bool(written) == bool(read.rules) and len(written) <= ref.MOST_PAGES, data)
        rows = [written[at:at + 73] for at in range(0, len(written), 73)]
        check(all(row[72:] == b'\n' and b'\n' not in row[:72] and row[3:4] == row[27:28] == b' ' for row in rows), data)
        check(lines_on(written) == lister_lines(limits, classes, data), data)
        taken = [row for row in rows if row.strip(b' \n')]
        check(rows == taken + [b' ' * 72 + b'\n'] * (len(rows) - len(taken)) and len(rows) - len(taken) < 60, data)
        check(limits == ref.LARGE or pages_of(data, ref.LARGE, classes) == answer, data)
        # Other starts, and none of the labels without a rule.
        for starts in ([], [limits.rules - 1, 0]):
            found = pages_of(ref.table_bytes(read._replace(starts=starts)), limits, classes)
            check(found == answer or len(starts) > len(read.starts) and found.refusal == 2, data)
        used = {rule.label for rule in read.rules}
        if len(used) < len(read.labels):
            left = ref.with_used_labels(read)
            if [rule.type for rule in left.rules] == [rule.type for rule in read.rules]:
                check(pages_of(ref.table_bytes(left), limits, classes).written == written, data)
        # Rule by rule, each on paper of its own.
        alone = [pages_of(ref.table_bytes(read._replace(rules=[rule])), limits, classes).written for rule in read.rules]
        pieces = [[page[at:at + 73] for at in range(0, len(page), 73) if page[at:at + 72].strip(b' ')] for page in alone]
        check([row for piece in pieces for row in piece] == taken, data)
        for rule, piece in zip(read.rules, pieces):
            lengths = len('t%d' % rule.type), len(read.labels[rule.label]), len(ref.content_text(rule.content)) + rule.text
            check(len(piece) == max(-(-length // width) for length, width in zip(lengths, (3, 23, 44))), data)
        # With all marks and with none: the same lines but for #.
        with_all, with_none = (lines_on(pages_of(marked, limits, classes).written)
                               for marked in (gen.with_all_marks(data), gen.without_marks(data)))
        check([line + b'#' for line in with_none] == with_all, data)
        check(all(line in pair for line, *pair in zip(lines_on(written), with_all, with_none)), data)
    return counts


def random_pages(seed, count):
    made = gen.Cases()
    for turn in range(count):
        gen.random_pages(made, Numbers(seed, turn, gen.PAGES_CHOICE))
    return made.all


def longest_pages():
    """The most rows that a table of a size has, by trying all lengths of its contents. The most characters of a content of so many bytes
    have empties, of three characters a byte with their comma, in sequences of up to 255; a type, with its comma, has two bytes and four
    characters, or five at the large size, and makes a further sequence needless at times; nothing else has more than one a byte."""
    for limits, (_, _, rows, length) in zip(ref.SETS, gen.LARGEST):
        type_length = len('t%d' % (limits.rules - 1))
        least = {}      # rows -> the least bytes of a content, its # beside it
        for sequences, types, empties in itertools.product(range(6), range(6), range(1020)):
            leaves, size = empties + types, empties + 2 * types + 2 * sequences
            if size <= 1024 and (sequences < leaves <= 254 * sequences + 1):
                here = -(-(3 * empties + (type_length + 1) * types + 2 * sequences - 1 + 1) // 44)
                least[here] = min(least.get(here, 1024), size)
        check(max(least) == 70 and least[70] == 1018)
        most = 0
        for name in (1, 24, 47):        # one name for all rules, of the least length that has one, two or three rows
            room = 32768 - 3 - 3 - name
            of_one = {}                 # rows of a rule -> its least bytes
            for here, size in least.items():
                taken = max(here, -(-name // 23), -(-type_length // 3))
                of_one[taken] = min(of_one.get(taken, room), 5 + size)
            cost, rules = [of_one.get(taken, room + 1) if taken else 0 for taken in range(71)], 1
            while rules < limits.rules:         # of twice as many rules: each number of rows in two parts
                parts = [cost[max(0, taken - len(cost) + 1):taken + 1] for taken in range(2 * len(cost) - 1)]
                cost = [min(map(sum, zip(part, reversed(part)))) for part in parts]
                while cost[-1] > room:
                    cost.pop()
                rules *= 2
            most = max(most, len(cost) - 1)
        check(rows <= most and -(-most // 60) * 60 * 73 == length, limits, most)


# ---------------------------------------------------------------- other facts

def numbers_by_hand():
    """The same on every machine, and nothing in common next to each other."""
    first = [Numbers(*seed).next() for seed in ((1,), (1, 0), (2**40, 7))]
    check(first == [0x5E41AB087439611E, 0xB18A02F46D8D86C3, 0xBA138EB04E162B1F], 'numbers')
    rows = []
    for seed in [(number,) for number in range(50)] + [(1, number) for number in range(50)] + [(number, 1) for number in range(2, 50)]:
        numbers = Numbers(*seed)
        rows.append([numbers.next() for _ in range(200)])
    check(len({number for row in rows for number in row}) == 200 * len(rows), 'numbers')


def other_facts(rounds):
    for number in range(rounds):
        numbers = Numbers(31000 + number)
        limits = ref.SETS[number // 2 % 3]
        words = limits.words
        old = gen.perhaps_marked(numbers, (gen.rich_table if number % 2 else gen.random_table)(numbers, limits=limits))
        addition = (gen.random_table if number % 2 else gen.rich_table)(numbers, limits=limits)
        addition = gen.respelled(numbers, gen.perhaps_marked(numbers, addition))
        if gen.has_a_name_twice(old):
            check(ref.table_reads(limits, C, old, words).refusal == 6)
            continue
        check(ref.table_bytes(ref.read_table(limits, C, old)) == old)
        for by_table, by_document, is_kind in FORMS.values():
            answer = by_table(limits, C, old, addition, 33000, words)
            if answer.refusal:
                check(answer.refusal in (13, 14) or gen.has_a_name_twice(addition) and answer.refusal == 6)
                continue
            check(is_kind(limits, C, answer.written, words).value == 1)
            # Widening a result by E changes no document; here it even changes no byte, since the
            # numbering of a result is the one a second widening gives.
            again = by_table(limits, C, answer.written, E, 33000, words)
            check(again.written == answer.written, old, addition)
            a_document = gen.respelled(numbers, gen.random_document(numbers, old))
            answer = by_document(limits, C, old, a_document, 33000, words)
            check(answer.refusal in (11, 14) or lets_in(limits, C, answer.written, a_document, words).value == 1)
            a_sample = sample(limits, C, a_document, 33000, words)
            if not a_sample.refusal:
                check(lets_in(limits, C, a_sample.written, a_document, words).value == 1)
                check(ref.is_single_type(limits, C, a_sample.written, words).value == 1)
                check(by_table(limits, C, old, a_sample.written, 33000, words) == answer)
                check(ref.widen_single_type_by_table(limits, C, a_sample.written, E, 33000, words).refusal == 0)
    # The case file reads back.
    cases = gen.all_cases(3, 30)
    data = b''.join(gen.case_bytes(case) for case in cases) + b'\x00'
    check(list(gen.cases_in(data)) == cases)
    # The lent slices afterwards, in full and by checksum.
    for case in cases[::97]:
        answer = gen.answer_of(case)
        work = ref.work_after(gen.limits_of(case), answer, [case.work_fill] * case.work_len)
        check(len(work) == case.work_len)
        check(gen.checksum(work) == gen.work_checksum(case, answer))


def main():
    parser = argparse.ArgumentParser()
    parser.add_argument('--rounds', type=int, default=150)
    rounds = parser.parse_args().rounds
    paper()
    sizes_by_hand()
    classes_by_hand()
    own_names_by_hand()
    spellings_by_hand()
    respelled_alike()
    runs_by_hand()
    text_by_hand()
    marks_seen_by_letting_in_alone()
    xml_by_hand()
    counts = xml_against_expat()
    counts.update(xml_as_files())
    pages_by_hand()
    counts.update(pages_of_all_tables())
    longest_pages()
    counts.update(added_through_samples())
    small_samples(('a', 'b'), 5, 7)
    small_samples(with_text(('a', 'b')), 4, 5)
    numbers_by_hand()
    larger_sets_agree()
    membership(max(1, rounds // 5))
    for marks in (False, True):
        counts.update(leastness(rounds, marks))
    other_facts(rounds)
    renamed_alike(rounds)
    print('%d facts hold; %s' % (done[0], ', '.join('%s %d' % pair for pair in counts.items())))


if __name__ == '__main__':
    main()
