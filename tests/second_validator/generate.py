"""Cases for the calls of document 01, at the three sizes of Card 13, under the classes of Card 4, with
names in several spellings (Card 8), with runs of neighbours in documents (Card 5), with text marks
(Card 7) and with documents as XML text (Card 2), and for tables on printed pages (Card 1), with the
answers of reference.py.

    python3 generate.py --write DIR [--seed N] [--count M]    writes DIR/cases.bin, DIR/expected.txt
    python3 generate.py --check DIR [--seed N] [--count M]    recomputes both and compares
    python3 generate.py --counts    [--seed N] [--count M]    cases per call and per refusal
    python3 generate.py --answer FILE                         the expected lines of any case file
        with all four: --calls 1,2,3                          cases of these calls only
        with --write and --check, in place of DIR: --cases FILE --expected FILE
    python3 generate.py --listings DIR                        lister cases: DIR/NN/old.tbl, new.doc,
                                                              expected.txt (a file may be missing)

The made cases come first and are always the same; `--count` random cases follow, settled by
`--seed`, then a further one of pages for each 18 of these.  The same seed and count give the same files with every Python 3.

cases.bin, front to back; all numbers unsigned, high byte first:

    repeated for each case
        1 byte   call, 1 to 12 (below)
        4 bytes  size: 0 small, 1 standard, 2 large; any other number counts as 1
        4 bytes  C, the number of classes lent, then so many bytes; C = FFFFFFFF stands for the 256
                 classes of document 01 (reference.ASCII), and no bytes follow
        4 bytes  W, the length of the working slice in words
        4 bytes  F, the word that fills the working slice before the call
        4 bytes  O, the length of the output slice in bytes (0 for calls without one)
        4 bytes  the caller's label number (0 for calls without one)
        4 bytes  the document's format: 0 a document file, 1 XML text; any other number counts as 0
                 (0 for calls without a document)
        4 bytes  length of the first input, then its bytes
        4 bytes  length of the second input, then its bytes (length 0 for calls without one)
    1 byte   0: no more cases

    call 1 table_reads(table)                     7 sample(document)
         2 document_reads(document)               8 widen_local_by_table(old, addition)
         3 label_name(table, label)               9 widen_local_by_document(old, document)
         4 lets_in(table, document)              10 widen_single_type_by_table(old, addition)
         5 is_local(table)                       11 widen_single_type_by_document(old, document)
         6 is_single_type(table)                 12 pages(table)

Before the call word i of the working slice is F, and byte i of the output is (165 + 7 * i) mod 256.

expected.txt has one line a case, five decimal numbers with one space between, then a line feed:

    call refusal value outsum worksum

refusal is 0 for none.  value is 1 for yes and for readable, 0 for no, the length of a table or of
pages written, offset * 65,536 + length of a name (the offset within the table's bytes), 0 with a refusal.
outsum is the checksum of the whole output slice after the call; for call 3 it is that of the bytes
of the part that came back.  worksum is the checksum of the whole working slice after the call.

Checksum: h = 17; for each byte or word x in order, h = (h * 31 + x) mod 2^32.

No input is longer than MOST_INPUT bytes, no output than MOST_OUTPUT, no working slice than
MOST_WORK words, and no more than MOST_CLASSES classes are lent.
"""

import argparse
import itertools
import os
import re
import sys
from collections import Counter, namedtuple
from functools import lru_cache, partial

sys.dont_write_bytecode = True
sys.path.insert(0, os.path.dirname(os.path.abspath(__file__)))
import reference as ref  # noqa: E402

MOST_INPUT, MOST_OUTPUT, MOST_WORK, MOST_CLASSES = 65600, 190000, 32900, 300
MOST_FOR_TABLES = 33000         # the longest output that is lent for a table; pages may be longer
DEFAULT_SEED, DEFAULT_COUNT = 1, 1800

SMALL, STANDARD, LARGE = SIZES = range(3)
TABLE_READS, DOCUMENT_READS, LABEL_NAME, LETS_IN, IS_LOCAL, IS_SINGLE_TYPE, SAMPLE = range(1, 8)
LOCAL_BY_TABLE, LOCAL_BY_DOCUMENT, SINGLE_BY_TABLE, SINGLE_BY_DOCUMENT, PAGES = range(8, 13)
CALL_NAMES = {1: 'table_reads', 2: 'document_reads', 3: 'label_name', 4: 'lets_in', 5: 'is_local',
              6: 'is_single_type', 7: 'sample', 8: 'widen_local_by_table',
              9: 'widen_local_by_document', 10: 'widen_single_type_by_table',
              11: 'widen_single_type_by_document', 12: 'pages'}
CALLS = tuple(call for call in CALL_NAMES if call != PAGES)     # those of all groups of cases but that of pages
WRITING_TABLES = (SAMPLE, LOCAL_BY_TABLE, LOCAL_BY_DOCUMENT, SINGLE_BY_TABLE, SINGLE_BY_DOCUMENT)
WRITING = (*WRITING_TABLES, PAGES)
BY_TABLE = (LOCAL_BY_TABLE, SINGLE_BY_TABLE)
BY_DOCUMENT = (LOCAL_BY_DOCUMENT, SINGLE_BY_DOCUMENT)
DOCUMENT_FIRST = (DOCUMENT_READS, SAMPLE)       # the document is their only input; it is the second one of others
WITH_DOCUMENT = (*DOCUMENT_FIRST, LETS_IN, *BY_DOCUMENT)
REFUSALS = (*range(19),)        # 0 for none

Case = namedtuple('Case', 'call size classes work_len work_fill out_len label format first second')
ASCII_CLASSES = 2**32 - 1       # in place of a number of classes


# ---------------------------------------------------------------- answers

def limits_of(case):
    return ref.limits_of(case.size)


def answer_of(case):
    return answer_under(limits_of(case), case)


def answer_under(limits, case):
    """The answer under any set of limits, whatever the case's size."""
    lent = [case.out_len, case.work_len] if case.call in WRITING else [case.work_len]
    inputs = [case.first]
    if case.call == LABEL_NAME:
        inputs.append(case.label)
    elif case.call in DOCUMENT_FIRST:
        inputs.insert(0, case.format)
    elif case.call in WITH_DOCUMENT:
        inputs += [case.format, case.second]
    elif case.call in BY_TABLE:
        inputs.append(case.second)
    return getattr(ref, CALL_NAMES[case.call])(limits, case.classes, *inputs, *lent)


def checksum(items, h=17):
    for item in items:
        h = (h * 31 + item) % 2**32
    return h


OUTPUT_FILL = bytes((165 + 7 * i) % 256 for i in range(MOST_OUTPUT))


@lru_cache(maxsize=None)
def run_checksum(word, times, h=17):
    """The checksum of one word so many times."""
    return checksum([word] * times, h)


def work_checksum(case, answer):
    """checksum(ref.work_after(...)), run by run."""
    if answer.refusal == 1:
        return run_checksum(case.work_fill, case.work_len)
    words = limits_of(case).words
    return run_checksum(case.work_fill, case.work_len - words, run_checksum(0, words))


def expected_line(case):
    answer = answer_of(case)
    if case.call == LABEL_NAME:
        offset, length = divmod(answer.value, 65536)
        output = case.first[offset:offset + length]
    else:
        output = ref.output_after(answer, OUTPUT_FILL[:case.out_len])
    return '%d %d %d %d %d\n' % (case.call, answer.refusal, answer.value, checksum(output),
                                 work_checksum(case, answer))


def case_bytes(case):
    def number(value):
        return value.to_bytes(4, 'big')

    def slice_(data):
        return number(len(data)) + data

    classes = number(ASCII_CLASSES) if case.classes == ref.ASCII else slice_(case.classes)
    return (bytes([case.call]) + number(case.size) + classes + number(case.work_len) + number(case.work_fill)
            + number(case.out_len) + number(case.label) + number(case.format) + slice_(case.first) + slice_(case.second))


def cases_in(data):
    """The cases of a case file, read front to back."""
    at = 0

    def number(count=4):
        nonlocal at
        at += count
        return int.from_bytes(data[at - count:at], 'big')

    def part(length):
        nonlocal at
        at += length
        return data[at - length:at]

    while True:
        call = number(1)
        if call == 0:
            assert at == len(data)
            return
        size, count = number(), number()
        classes = ref.ASCII if count == ASCII_CLASSES else part(count)
        lent_and_label = [number() for _ in range(4)]
        yield Case(call, size, classes, *lent_and_label, number(), part(number()), part(number()))


# ---------------------------------------------------------------- a generator of numbers

STEP = 0x9E3779B97F4A7C15


def mixed(z):
    """A number below 2^64 whose bits all depend on all those of z."""
    z = (z ^ (z >> 30)) * 0xBF58476D1CE4E5B9 % 2**64
    z = (z ^ (z >> 27)) * 0x94D049BB133111EB % 2**64
    return z ^ (z >> 31)


class Numbers:
    """Fixed pseudo-random numbers (splitmix64), so that no library changes the cases. A seed is one number or several, such as a run's
    own and a turn; mixed, it is a place in the long row of all states, so that seeds next to each other have nothing in common."""

    def __init__(self, *seed):
        self.state = 0
        for number in seed:
            self.state = mixed((self.state + number + STEP) % 2**64)

    def next(self):
        self.state = (self.state + STEP) % 2**64
        return mixed(self.state)

    def below(self, bound):
        return self.next() % bound

    def between(self, low, high):
        return low + self.below(high - low + 1)

    def of(self, items):
        return items[self.below(len(items))]

    def chance(self, percent):
        return self.below(100) < percent


# ---------------------------------------------------------------- building bytes

def field(tag, value):
    return bytes([tag, len(value) // 256, len(value) % 256]) + value


def label(name):
    return field(0x10, name.encode('latin-1') if isinstance(name, str) else name)


def start(type_):
    return field(0x11, bytes([type_]))


def rule(type_, label_, content, text=False):
    return field(0x13 if text else 0x12, bytes([type_, label_]) + content)


END = field(0x1F, b'')
DOC_END = field(0x3F, b'')
E = END

NONE, EMPTY = b'\x00', b'\x01'


def t(type_):
    return bytes([2, type_])


def seq(*operands):
    return bytes([3, len(operands)]) + b''.join(operands)


def choice(*operands):
    return bytes([4, len(operands)]) + b''.join(operands)


def any_of(operand, times=1):
    return b'\x05' * times + operand


def some_of(operand):
    return b'\x06' + operand


def optional(operand):
    return b'\x07' + operand


# The mark of a rule with tag 13, and of a node with tag 32, after its name: no byte is this character.
TEXT = '\u2020'


def table(starts, rules, names=()):
    """A table of rules (type, name, content) or (type, name, content, TEXT); labels are `names`, then others as they appear."""
    labels = list(names)
    for _, name, *_ in rules:
        if name not in labels:
            labels.append(name)
    return (b''.join(label(name) for name in labels) + b''.join(start(s) for s in starts)
            + b''.join(rule(ty, labels.index(name), content, *text) for ty, name, content, *text in rules) + END)


# The head of a node is its name, with TEXT after it where the node holds text.

def holds_text(head):
    return isinstance(head, str) and head.endswith(TEXT)


def name_of(head):
    return head[:-len(TEXT)] if holds_text(head) else head


def node_field(children, head):
    name = name_of(head)
    return field(0x32 if holds_text(head) else 0x30, bytes([children]) + (name.encode('latin-1') if isinstance(name, str) else name))


# Trees are pairs of a head and a list of trees.

def tree(head, *children):
    return (head, list(children))


def text(name, *children):
    """A tree whose root holds text."""
    return tree(name + TEXT, *children)


def nodes(a_tree):
    head, children = a_tree
    return node_field(len(children), head) + b''.join(nodes(child) for child in children)


def document(a_tree):
    return nodes(a_tree) + DOC_END


def doc(name, *children):
    return document(tree(name, *children))


def chain(length, name='a'):
    """One node on each of `length` levels."""
    made = tree(name)
    for _ in range(length - 1):
        made = tree(name, made)
    return made


def names_and_rest(data):
    """The parts of an input in order, as far as its fields go: (True, a name), (False, what stands between)."""
    at = 0
    while at + 3 <= len(data):
        end = at + 3 + data[at + 1] * 256 + data[at + 2]
        begin = {0x10: at + 3, 0x30: at + 4, 0x32: at + 4}.get(data[at], end)
        if begin < end <= len(data):
            yield False, data[at:begin]
            yield True, data[begin:end]
        else:
            yield False, data[at:end]
        at = end
    yield False, data[at:]


def names_in(data):
    """The names of an input, front to back."""
    return [part for is_name, part in names_and_rest(data) if is_name]


def spelled(spell, data):
    """The input with `spell(name)` in place of each name, which is as long."""
    return b''.join(spell(part) if is_name else part for is_name, part in names_and_rest(data))


def in_capitals(data):
    return spelled(bytes.upper, data)


def in_small_letters(data):
    return spelled(bytes.lower, data)


# ---------------------------------------------------------------- the list of cases

FILLS = (0xFFFFFFFF, 0x00000001, 0x80000000, 0xDEADBEEF, 0x00010001, 0x00000000)

# Words lent beyond those that a size needs. Small calls are lent, at times, what the larger ones need.
BEYOND = (0, 0, 0, 1, 0, 7, 0, 0, 100)
BEYOND_SMALL = (0, 0, 0, 1, 0, 4096, 0, 0, 20480)


class Cases:
    """The cases so far.  Working slices and fills change from case to case, by turns."""

    def __init__(self, first_turn=0):
        self.all = []
        self.first_turn = first_turn

    def add(self, call, first, second=b'', label=0, out=None, work=None, fill=None, size=STANDARD, classes=ref.ASCII,
            format=ref.DOCUMENT_FILE):
        """`out`: None for a few bytes more than the result, 'exact', 'short' by one, or a length;
        only calls that write have an output."""
        turn = self.first_turn + len(self.all)
        if work is None:
            beyond = BEYOND_SMALL if size == SMALL else BEYOND
            work = ref.limits_of(size).words + beyond[turn % len(beyond)]
        if fill is None:
            fill = FILLS[turn % len(FILLS)]
        case = Case(call, size, classes, work, fill, MOST_OUTPUT, label, format, first, second)
        if call not in WRITING:
            case = case._replace(out_len=0)
        elif isinstance(out, int):
            case = case._replace(out_len=out)
        else:
            length = len(answer_of(case).written)
            if out == 'exact':
                case = case._replace(out_len=length)
            elif out == 'short':
                case = case._replace(out_len=max(0, length - 1))
            else:
                case = case._replace(out_len=min(length + 5 + turn % 40, MOST_OUTPUT))
        self.all.append(case)

    def widen(self, old, addition, **options):
        """By a table, to both kinds."""
        for call in BY_TABLE:
            self.add(call, old, addition, **options)

    def widen_doc(self, old, a_document, **options):
        """By a document, to both kinds."""
        for call in BY_DOCUMENT:
            self.add(call, old, a_document, **options)

    def kinds(self, a_table, **options):
        for call in (IS_LOCAL, IS_SINGLE_TYPE):
            self.add(call, a_table, **options)

    def result_questions(self, old, addition, documents):
        """Widens, asks the results for their kinds and for documents, and widens them by E."""
        for call in BY_TABLE:
            self.add(call, old, addition, out='exact')
            result = answer_of(self.all[-1]).written
            if result:
                self.kinds(result)
                self.add(call, result, E)
                for a_document in documents:
                    self.add(LETS_IN, result, a_document)


# ---------------------------------------------------------------- the paper's cases

P1 = bytes.fromhex('10000161 110001 00 120003000001 1F0000')
P2 = bytes.fromhex('3000020061 3F0000')
P5 = table([0], [(0, 'block', seq(t(1), t(2))), (1, 'floor', t(3)), (2, 'lift', t(4)),
                 (3, 'door', t(5)), (4, 'door', t(6)), (5, 'time', EMPTY), (6, 'code', EMPTY)])
P6 = table([0], [(0, 'group', seq(t(1), t(1))), (1, 'group', t(2)), (2, 'card', EMPTY)])
P7 = table([0], [(0, 'list', choice(seq(t(1), t(2)), t(3))), (1, 'door', t(4)), (2, 'card', t(2)),
                 (3, 'door', t(5)), (4, 'time', EMPTY), (5, 'code', EMPTY)])
P8 = table([0], [(0, 'list', t(1)), (1, 'door', EMPTY), (1, 'lift', EMPTY)])
P5_CROSSED = doc('block', tree('floor', tree('door', tree('code'))),
                 tree('lift', tree('door', tree('time'))))
P5_STRAIGHT = doc('block', tree('floor', tree('door', tree('time'))),
                  tree('lift', tree('door', tree('code'))))
LISTER_TABLE = table([0], [(0, 'list', any_of(t(1))), (1, 'card', seq(t(2), optional(t(3)))),
                           (2, 'name', EMPTY), (3, 'door', EMPTY)])
LISTER_DOC = doc('list', tree('card', tree('name'), tree('zone')))


def paper_cases(cases):
    cases.add(TABLE_READS, P1)
    cases.add(LETS_IN, P1, P2)
    cases.add(TABLE_READS, b'')
    cases.add(DOCUMENT_READS, b'')
    cases.widen(E, E)
    for paper_table, documents in (
            (P1, [P2]),
            (P5, [P5_CROSSED, P5_STRAIGHT]),
            (P6, [doc('group', tree('group', tree('card')), tree('group', tree('card'))),
                  doc('group', tree('group', tree('group', tree('card')),
                                    tree('group', tree('card'))), tree('group', tree('card'))),
                  doc('group', tree('card')), doc('card')]),
            (P7, [doc('list', tree('door', tree('code'))), doc('list', tree('door', tree('time')))]),
            (P8, [doc('list', tree('door')), doc('list', tree('lift')), doc('list')]),
            (LISTER_TABLE, [LISTER_DOC, doc('list')])):
        cases.add(TABLE_READS, paper_table)
        cases.kinds(paper_table)
        for a_document in documents:
            cases.add(LETS_IN, paper_table, a_document)
            cases.add(SAMPLE, a_document)
            cases.widen_doc(paper_table, a_document)
            cases.widen_doc(E, a_document)
        cases.result_questions(paper_table, E, documents)
        cases.result_questions(E, paper_table, documents)
        cases.result_questions(paper_table, paper_table, documents)
    paper_tables = (P1, P5, P6, P7, P8, LISTER_TABLE)
    for first in paper_tables:
        for second in paper_tables:
            if first != second:
                cases.widen(first, second)
    cases.widen_doc(P5, P5_CROSSED, out='exact')
    cases.widen_doc(P5, P5_CROSSED, out='short')


# ---------------------------------------------------------------- inputs that are turned back

GOOD_TABLE = table([0], [(0, 'list', any_of(t(1))), (1, 'card', EMPTY)])
GOOD_DOC = doc('list', tree('card'), tree('card'))
HEAD = label('list') + label('card')      # two labels


def deep(depth, operand=EMPTY):
    """A content that nests `depth` deep."""
    return any_of(operand, depth - 1)


def one_rule(content):
    return HEAD + start(0) + rule(0, 0, content) + END


def names_of(count, length=2):
    return [('n%0*d' % (length - 1, i)) for i in range(count)]


def flat_table(count):
    """`count` labels, starts and rules."""
    return (b''.join(label(name) for name in names_of(count, 3)) +
            b''.join(start(i) for i in range(count)) +
            b''.join(rule(i, i, EMPTY) for i in range(count)) + END)


def refused_tables():
    """Small tables that reading turns back, by refusal; some with two faults, for their order."""
    labels65 = b''.join(label(name) for name in names_of(65, 3))
    labels64 = b''.join(label(name) for name in names_of(64, 3))
    starts64 = b''.join(start(i) for i in range(64))
    rules64 = b''.join(rule(i, 0, EMPTY) for i in range(64))
    return {
        3: [
            b'', GOOD_TABLE[:-1], GOOD_TABLE[:-2], GOOD_TABLE[:-3], GOOD_TABLE[:1], GOOD_TABLE[:2],
            GOOD_TABLE[:3], GOOD_TABLE[:5], HEAD, HEAD + start(0), b'\x1f', b'\x1f\x00',
            b'\x1f\x00\x01',                                  # end field with a value that is missing
            b'\x99\x00\x01',                                  # foreign and past the end: 3
            b'\x10\xff\xff' + b'a' * 70, HEAD + b'\x11\x00\x02\x00', HEAD + b'\x12\x04\x03\x00\x00\x01',
        ],
        4: [
            b'\x99\x00\x00' + END, b'\x14\x00\x03\x00\x00\x01' + END, b'\x00\x00\x00' + END,
            GOOD_DOC, b'\x0f\x00\x01a' + END, b'\x1e\x00\x00' + END, b'\x20\x00\x00',
            start(0) + label('a') + END, HEAD + rule(0, 0, EMPTY) + start(0) + END,
            HEAD + rule(0, 0, EMPTY) + label('b') + END, start(0) + b'\x10\x00\x00' + END,
            b'\x10\x00\x00' + END, b'\x10\x00\x00' + label('!') + END, label('a' * 64) + END,
            label('a' * 64 + '!') + END,
            b'\x11\x00\x00' + END, b'\x11\x00\x02\x00\x00' + END,
            HEAD + b'\x12\x00\x00' + END, HEAD + b'\x12\x00\x01\x00' + END,
            HEAD + b'\x12\x00\x02\x00\x00' + END,
            HEAD + b'\x12\x00\x02\xff\xff' + END,             # no content, type above 63: 4
            HEAD + rule(0, 0, EMPTY * 1025) + END, b'\x1f\x00\x01a', b'\x1f\x00\x01a' + b'zz',
            b'\x1f\x01\x00' + b'a' * 256, b'\x30\x00\x02\x00\x61' + END,
        ],
        5: [
            label('1a') + END, label('-a') + END, label('.a') + END, label('a b') + END,
            label('a\xe9') + END, label('a:b') + END, label('a\x00') + END,
            label('a') + label('?') + END,
            labels64 + label('9') + END,                      # 65th with a bad name: 5
        ],
        6: [
            label('a') + label('a') + END, label('a') + label('b') + label('a') + END,
            labels64 + label('n00') + END,                    # 65th and repeated: 6
            start(0) + start(0) + END, start(5) + start(7) + start(5) + END,
            starts64 + start(63) + END,
        ],
        7: [
            labels65 + END, starts64 + start(64) + END, HEAD + rules64 + rule(0, 0, EMPTY) + END,
            HEAD + rules64 + rule(64, 9, b'\x09') + END,      # 65th rule with 8 and 9: 7
            labels65 + label('n00') + END,
        ],
        8: [
            start(64) + END, start(255) + END, start(64) + start(64) + END,
            HEAD + rule(64, 0, EMPTY) + END, HEAD + rule(255, 0, EMPTY) + END,
            HEAD + rule(0, 2, EMPTY) + END, HEAD + rule(0, 255, EMPTY) + END, rule(0, 0, EMPTY) + END,
            HEAD + rule(0, 2, b'\x08') + END,                 # label and content: 8
            HEAD + rule(64, 2, deep(33)) + END,
        ],
        9: [
            one_rule(b'\x08'), one_rule(b'\xff'), one_rule(b'\x02'), one_rule(b'\x02\x40'),
            one_rule(b'\x02\xff'), one_rule(EMPTY + EMPTY), one_rule(NONE + NONE), one_rule(t(0) + t(1)),
            one_rule(b'\x03'), one_rule(b'\x04'), one_rule(b'\x03\x00'), one_rule(b'\x04\x00'),
            one_rule(b'\x03\x01\x01'), one_rule(b'\x04\x01\x01'), one_rule(b'\x03\x02\x01'),
            one_rule(b'\x04\x02\x01'), one_rule(b'\x03\x02\x01\x01\x01'), one_rule(b'\x05'),
            one_rule(b'\x06'), one_rule(b'\x07'), one_rule(b'\x05\x01\x01'),
            one_rule(b'\x04\xff' + EMPTY * 254),
            one_rule(b'\x05\x08'), one_rule(seq(t(0), b'\x09')), one_rule(choice(t(0), t(64))),
            one_rule(deep(40) + EMPTY), one_rule(deep(33, b'\x08')), one_rule(deep(40)[:-1]),
            one_rule(seq(deep(33), t(64))),                   # 10 inside, 9 after it: 9
            one_rule(deep(1024)[:-1]),
        ],
        10: [
            one_rule(deep(33)), one_rule(deep(33, t(0))), one_rule(seq(deep(32), EMPTY)),
            one_rule(choice(EMPTY, deep(32, t(1)))), one_rule(deep(1024)), one_rule(b'\x06' * 32 + EMPTY),
            one_rule(b'\x07' * 32 + NONE), HEAD + rule(0, 0, deep(33)) + rule(64, 0, EMPTY) + END,
        ],
        12: [
            GOOD_TABLE + b'\x00', GOOD_TABLE + END, GOOD_TABLE + GOOD_TABLE, END + b'\xff',
            END + END, END + label('a'),
        ],
    }


def refused_documents():
    """Small documents that reading turns back, by refusal."""
    return {
        3: [
            b'', GOOD_DOC[:-1], GOOD_DOC[:-2], GOOD_DOC[:-3], GOOD_DOC[:1], GOOD_DOC[:2], GOOD_DOC[:3],
            GOOD_DOC[:6], b'\x3f\x00\x05', b'\x31\x00\x05a', node_field(0, 'a'), node_field(1, 'a'),
            b'\x30\x00\x40\x00' + b'a' * 62,
        ],
        4: [
            b'\x31\x00\x02\x00a' + DOC_END, b'\x33\x00\x02\x00a' + DOC_END, GOOD_TABLE, E,
            b'\x30\x00\x01\x00' + DOC_END, b'\x30\x00\x00' + DOC_END, node_field(0, 'a' * 64) + DOC_END,
            node_field(0, 'a' * 64 + '!') + DOC_END, b'\x3f\x00\x01a', node_field(1, 'a') + b'\x3f\x00\x01a',
            node_field(0, 'a') + b'\x3f\x00\x01a' + b'zz', node_field(0, 'a') + b'\x3e\x00\x00',
            node_field(0, 'a') + b'\x1f\x00\x00', node_field(0, 'a') + label('b') + DOC_END,
        ],
        5: [
            doc('1'), doc('-'), doc('a b'), doc('a\xff'), doc('list', tree('_'), tree('?')),
            node_field(201, '!') + DOC_END,                   # bad name with 201 children: 5
            node_field(0, 'a') + node_field(0, '!') + DOC_END,  # after a complete tree: 5
            document(chain(64)).replace(b'\x30\x00\x02\x00a', b'\x30\x00\x02\x01a' + b'\x30\x00\x02\x00!'),
        ],
        11: [
            DOC_END, DOC_END + b'\x00', node_field(1, 'a') + DOC_END,
            node_field(2, 'a') + node_field(0, 'b') + DOC_END, node_field(1, 'a') + DOC_END + b'\x00',
            node_field(0, 'a') + node_field(0, 'b') + DOC_END,
            node_field(1, 'a') + node_field(0, 'b') + node_field(0, 'c') + DOC_END,
            node_field(201, 'a') + DOC_END, node_field(255, 'a') + DOC_END,
            node_field(201, 'a') + b'\x99', doc('a', *[tree('b')] * 201), document(chain(65)),
            document(chain(64, 'x'))[:-3].replace(b'\x30\x00\x02\x00x', b'\x30\x00\x02\x01x') + DOC_END,
            node_field(1, 'a') + node_field(201, 'b') + DOC_END,
        ],
        12: [
            GOOD_DOC + b'\x00', GOOD_DOC + DOC_END, GOOD_DOC + GOOD_DOC, GOOD_DOC + b'\x30',
        ],
    }


def good_inputs(call):
    """Inputs that no call turns back."""
    first = GOOD_DOC if call in (DOCUMENT_READS, SAMPLE) else GOOD_TABLE
    return first, GOOD_DOC if call in (LETS_IN,) + BY_DOCUMENT else GOOD_TABLE if call in BY_TABLE else b''


def refusal_cases(cases):
    for number, faulty in enumerate(sum(refused_tables().values(), [])):
        cases.add(TABLE_READS, faulty)
        # The other calls in turn, the faulty table first or second.
        others = [
            lambda: cases.add(LABEL_NAME, faulty, label=number % 3),
            lambda: cases.add(LETS_IN, faulty, GOOD_DOC),
            lambda: cases.add(IS_LOCAL, faulty),
            lambda: cases.add(IS_SINGLE_TYPE, faulty),
            lambda: cases.add(LOCAL_BY_TABLE, faulty, GOOD_TABLE),
            lambda: cases.add(LOCAL_BY_TABLE, GOOD_TABLE, faulty),
            lambda: cases.add(LOCAL_BY_DOCUMENT, faulty, GOOD_DOC),
            lambda: cases.add(SINGLE_BY_TABLE, faulty, GOOD_TABLE),
            lambda: cases.add(SINGLE_BY_TABLE, GOOD_TABLE, faulty),
            lambda: cases.add(SINGLE_BY_DOCUMENT, faulty, GOOD_DOC),
        ]
        for turn in range(3):
            others[(number * 3 + turn) % len(others)]()
    for number, faulty in enumerate(sum(refused_documents().values(), [])):
        cases.add(DOCUMENT_READS, faulty)
        cases.add(SAMPLE, faulty, out=number % 50)
        cases.add(LETS_IN, GOOD_TABLE, faulty)
        cases.add(BY_DOCUMENT[number % 2], GOOD_TABLE, faulty, out=number % 50)

    # One small input for each refusal by reading, through every call and every place for it.
    one_of_each = {3: GOOD_TABLE[:-1], 4: start(0) + label('a') + END, 5: label('1') + END,
                   6: start(3) + start(3) + END, 7: flat_table(64)[:-3] + rule(0, 0, EMPTY) + END,
                   8: start(99) + END, 9: one_rule(b'\x08'), 10: one_rule(deep(33)),
                   12: GOOD_TABLE + b'\x00'}
    for faulty in one_of_each.values():
        for call in (TABLE_READS, LABEL_NAME, IS_LOCAL, IS_SINGLE_TYPE):
            cases.add(call, faulty, label=1)
        for call in (LETS_IN,) + BY_DOCUMENT:
            cases.add(call, faulty, GOOD_DOC)
        for call in BY_TABLE:
            cases.add(call, faulty, GOOD_TABLE)
            cases.add(call, GOOD_TABLE, faulty)
    for faulty in (GOOD_DOC[:-1], b'\x31\x00\x00', doc('1'), DOC_END, GOOD_DOC + b'\x00'):
        for call in (DOCUMENT_READS, SAMPLE):
            cases.add(call, faulty)
        for call in (LETS_IN,) + BY_DOCUMENT:
            cases.add(call, GOOD_TABLE, faulty)

    # The old table comes first, whatever is wrong with the addition.
    for first in one_of_each.values():
        for second in (b'', label('1') + END, END + b'\x00'):
            cases.add(BY_TABLE[len(cases.all) % 2], first, second)
        for second in (b'', doc('1'), DOC_END, GOOD_DOC + b'\x00'):
            cases.add(((LETS_IN,) + BY_DOCUMENT)[len(cases.all) % 3], first, second)

    # 1, with good inputs, with bad ones, and with a short output.
    for call in CALLS:
        first, second = good_inputs(call)
        for work in (0, 1, 16383):
            cases.add(call, first, second, work=work, out=100)
        cases.add(call, b'', b'', work=16383, out=0)
        cases.add(call, first, second, work=16384, fill=0xFFFFFFFF)
        cases.add(call, first, second, work=16384, fill=0)
        cases.add(call, first, second, work=16385, fill=0xFFFFFFFF)
        cases.add(call, first, second, work=16500, fill=0xFFFFFFFF, out=0)
        if call in WRITING:
            for out in ('exact', 'short', 0, 1, 2, 1000):
                cases.add(call, first, second, out=out)

    # 8 for a caller's label number, after the table.
    for number in (0, 1, 2, 3, 63, 64, 255, 256, 257, 65535, 65536, 2**31, 2**32 - 1):
        cases.add(LABEL_NAME, GOOD_TABLE, label=number)
        cases.add(LABEL_NAME, E, label=number)
        cases.add(LABEL_NAME, GOOD_TABLE + b'\x00', label=number)
    for number in range(65):
        cases.add(LABEL_NAME, flat_table(64), label=number)
    long_names = [c * n for c, n in zip('abcdefgh', (1, 63, 2, 62, 31, 63, 1, 5))]
    for number in range(9):
        cases.add(LABEL_NAME, table([], [], long_names), label=number)


# ---------------------------------------------------------------- the edges of reading

def byte_cases(cases):
    """Every byte as the first and as a later byte of a name, in tables and documents."""
    for byte in range(256):
        first, later = bytes([byte]), b'a' + bytes([byte])
        if byte % 2:
            cases.add(TABLE_READS, label(first) + END)
            cases.add(DOCUMENT_READS, node_field(0, later) + DOC_END)
        else:
            cases.add(DOCUMENT_READS, node_field(0, first) + DOC_END)
            cases.add(TABLE_READS, label(later) + END)
    for operator in list(range(0, 20)) + [0x20, 0x40, 0x7F, 0x80, 0xFE, 0xFF]:
        for operands in (b'', EMPTY, t(1), b'\x02' + EMPTY + EMPTY):
            cases.add(TABLE_READS, one_rule(bytes([operator]) + operands))
    for tag in range(0, 256, 5):
        cases.add(TABLE_READS, HEAD + bytes([tag, 0, 1, 0]) + END)
        cases.add(DOCUMENT_READS, bytes([tag, 0, 2, 0]) + b'a' + DOC_END)


def wide_doc(children):
    return tree('list', *[tree('card')] * children)


def alternating_doc(children):
    """No two neighbours of one name."""
    return tree('list', *[tree(('card', 'zone')[i % 2]) for i in range(children)])


def big_doc(count):
    """Exactly `count` nodes (1,000 to 1,025): a root, 200 cards, and fours or fives below."""
    below = count - 201
    cards = []
    for number in range(200):
        here = below // 200 + (1 if number < below % 200 else 0)
        cards.append(tree('card', *[tree('name')] * here))
    return tree('list', *cards)


def crowd(count, names=('a',)):
    """Exactly `count` nodes, 200 children a node as long as there are nodes left; names in turn, parents first."""
    made = [tree(names[i % len(names)]) for i in range(count)]
    for number in range(1, count):
        made[(number - 1) // 200][1].append(made[number])
    return made[0]


def many_sequences(groups, distinct, children=4):
    """So many groups at one path, with so many distinct sequences in turn, at most 108; each begins with one of 108 fours without a run
    and goes on as it ends."""
    fours = [word for word in itertools.product('wxyz', repeat=4) if all(one != two for one, two in zip(word, word[1:]))]
    words = [(word + word[2:] * children)[:children] for word in fours[:distinct]]
    return tree('r', *[tree('g', *[tree(name) for name in words[i % distinct]]) for i in range(groups)])


CARDS = table([0], [(0, 'list', any_of(t(1))), (1, 'card', any_of(t(2))), (2, 'name', EMPTY)])
CHAIN = table([0], [(0, 'a', optional(t(0)))])


def padded_document(length):
    """A document of exactly `length` bytes: 600 nodes, names as long as needed."""
    count = 600
    spare = length - 3 - 4 * count          # bytes of all names together
    sizes = [spare // count + (1 if i < spare % count else 0) for i in range(count)]
    names = ['b' * size for size in sizes]
    groups = [tree(names[1 + 6 * i], *[tree(name) for name in names[2 + 6 * i:7 + 6 * i]])
              for i in range(99)]
    rest = [tree(name) for name in names[595:]]
    return document(tree(names[0], *(groups + rest)))


def padded_table(length, count=64):
    """A table of exactly `length` bytes (30,000 to 32,800) that widening by E only copies: `count`
    labels, one rule each, all types reached from the start 0 in their order."""
    names, last = names_of(count, 3), count - 1
    contents = [choice(*[t(i) for i in range(1, count)])] + [EMPTY] * last
    # The last rule stays empty.
    fixed = sum(3 + len(name) for name in names) + 4 + count * 5 + len(contents[0]) + 1 + 3
    spare = length - fixed
    for i in range(1, last):
        room = spare // (last - i)
        spare -= room
        types = min((room - 2) // 2, 200)
        marks = room - 2 - 2 * types
        contents[i] = seq(*[any_of(t(last)) if k < marks else t(last) for k in range(types)])
    made = table([0], [(i, names[i], contents[i]) for i in range(count)])
    assert len(made) == length, (len(made), length)
    return made


def edge_cases(cases):
    # 64 and 65 labels, starts and rules; each alone.
    for count in (63, 64, 65):
        cases.add(TABLE_READS, b''.join(label(n) for n in names_of(count, 3)) + END)
        cases.add(TABLE_READS, b''.join(start(i) for i in range(count)) + END)
        cases.add(TABLE_READS, HEAD + b''.join(rule(i % 64, i % 2, EMPTY) for i in range(count)) + END)
    cases.kinds(flat_table(64))
    cases.widen(flat_table(64), E)
    cases.widen(flat_table(64), flat_table(64))
    # Names of 1, 63 and 64 bytes, contents of 1, 1,024 and 1,025 bytes.
    for length in (1, 2, 62, 63, 64):
        cases.add(TABLE_READS, label('n' * length) + END)
        cases.add(DOCUMENT_READS, doc('n' * length))
        cases.add(SAMPLE, doc('n' * length))
        cases.widen_doc(E, doc('n' * length))
    content_1024 = seq(*([t(0)] * 250 + [seq(*[t(1)] * 255), any_of(t(1), 6), EMPTY]))
    content_1024 = b'\x05' * (1024 - len(content_1024)) + content_1024
    assert len(content_1024) == 1024
    for content in (content_1024, content_1024 + b'\x00', b'\x05' + content_1024):
        cases.add(TABLE_READS, one_rule(content))
    # Nesting 32 and 33 by each operator.
    for depth in (31, 32, 33):
        for operator in (b'\x05', b'\x06', b'\x07', b'\x03\x02\x01', b'\x04\x02\x02\x01'):
            content = operator * (depth - 1) + t(1)
            a_table = table([0], [(0, 'list', content), (1, 'card', EMPTY)])
            cases.add(TABLE_READS, a_table)
            cases.add(LETS_IN, a_table, doc('list', tree('card')))
            cases.add(LETS_IN, a_table, doc('list'))
            cases.widen(a_table, E)
    # Sequences and choices of 2 and of 255.
    for count in (2, 3, 199, 200, 254, 255):
        a_table = table([0], [(0, 'list', seq(*[optional(t(1))] * count)), (1, 'card', EMPTY)])
        cases.add(LETS_IN, a_table, document(wide_doc(min(count, 200))))
        if count < 200:
            cases.add(LETS_IN, a_table, document(wide_doc(count + 1)))
        a_table = table([0], [(0, 'list', choice(*[t(1)] * count)), (1, 'card', EMPTY)])
        cases.widen(a_table, E)
    # Children, levels, nodes.
    for children in (0, 1, 199, 200, 201):
        a_document = document(wide_doc(children))
        cases.add(DOCUMENT_READS, a_document)
        cases.add(LETS_IN, GOOD_TABLE, a_document)
        cases.add(SAMPLE, a_document)
        cases.add(SAMPLE, document(alternating_doc(children)))
    for many in (wide_doc, alternating_doc):
        cases.widen_doc(GOOD_TABLE, document(many(200)))
        cases.widen_doc(GOOD_TABLE, document(many(201)))
    for levels in (1, 63, 64, 65):
        a_document = document(chain(levels))
        cases.add(DOCUMENT_READS, a_document)
        cases.add(LETS_IN, CHAIN, a_document)
        cases.add(SAMPLE, a_document)
        cases.widen_doc(CHAIN, a_document)
        cases.widen_doc(E, a_document)
    deep_list = document(tree('a', *[chain(63)] * 16))     # 1,009 nodes on 64 levels
    cases.add(LETS_IN, table([0], [(0, 'a', any_of(t(0)))]), deep_list)
    cases.add(LETS_IN, CHAIN, deep_list)
    cases.add(SAMPLE, deep_list)
    for count in (1023, 1024, 1025):
        a_document = document(big_doc(count))
        cases.add(DOCUMENT_READS, a_document)
        cases.add(LETS_IN, CARDS, a_document)
        cases.add(SAMPLE, a_document)
    # Many sequences at one path: 102 of them have 1,022 bytes, 103 are too many.
    for groups, distinct in ((200, 102), (200, 103), (102, 102)):
        a_document = document(many_sequences(groups, distinct))
        cases.add(SAMPLE, a_document)
        cases.widen_doc(CARDS, a_document)
    cases.add(SAMPLE, document(crowd(1024, ('a', 'b'))))
    cases.widen_doc(CROWDS, document(crowd(1024, ('a', 'b'))))
    cases.add(LOCAL_BY_DOCUMENT, CARDS, document(big_doc(1024)))
    cases.add(SINGLE_BY_DOCUMENT, CARDS, document(big_doc(1025)))
    cases.add(LETS_IN, LISTER_TABLE, document(big_doc(1024)))
    # Lengths of 32,768 and 32,769 bytes.
    full, over = padded_table(32768), padded_table(32769)
    cases.add(TABLE_READS, full)
    cases.add(TABLE_READS, over)
    cases.add(IS_SINGLE_TYPE, full)
    cases.add(IS_SINGLE_TYPE, over)
    cases.add(IS_LOCAL, over)
    cases.add(LABEL_NAME, full, label=63)
    cases.add(LABEL_NAME, over, label=99)
    cases.add(LOCAL_BY_TABLE, E, over)
    cases.add(LOCAL_BY_TABLE, b'', over)
    cases.add(SINGLE_BY_TABLE, over, b'')
    cases.add(LETS_IN, full, doc('n00', tree('n63')))
    full_doc, over_doc = padded_document(32768), padded_document(32769)
    cases.add(DOCUMENT_READS, full_doc)
    cases.add(DOCUMENT_READS, over_doc)
    cases.add(SAMPLE, full_doc)
    cases.add(LETS_IN, E, over_doc)
    cases.add(SAMPLE, over_doc)
    cases.add(LOCAL_BY_DOCUMENT, over, GOOD_DOC)
    cases.add(SINGLE_BY_DOCUMENT, E, over_doc)
    cases.add(LOCAL_BY_DOCUMENT, E + b'\x00', over_doc)
    cases.add(TABLE_READS, E + b'\x00' * 32765)          # 12
    cases.add(TABLE_READS, E + b'\x00' * 65536)          # 2, though 65,539 mod 65,536 is 3


# ---------------------------------------------------------------- the limits of 14

def leaves(count):
    """Rules 1 to `count` of empty leaves; 'n01' names type 1."""
    return [(i, 'n%02d' % i, EMPTY) for i in range(1, count + 1)]


def operands(count):
    """`count` different small operands over types 1 to 63, fewest bytes first; 256 at most."""
    made = [EMPTY, any_of(EMPTY), some_of(EMPTY), optional(EMPTY)]
    made += [t(i) for i in range(1, 64)]
    made += [any_of(t(i)) for i in range(1, 64)]
    made += [some_of(t(i)) for i in range(1, 64)]
    made += [optional(t(i)) for i in range(1, 64)]
    return made[:count]


def automaton(more):
    """Single-type sets as of a word automaton: an a, then `more` further letters to the end."""
    states = [(0, 'a', choice(t(0), t(1))), (0, 'b', t(0))]
    for state in range(1, more + 1):
        following = EMPTY if state == more else t(state + 1)
        states += [(state, 'a', following), (state, 'b', following)]
    return table([0], states)


def limit_cases(cases):
    # 64 and 65 types.
    for count in (62, 63):
        old = table([0], [(0, 'n00', choice(*[t(i) for i in range(1, count + 1)]))] + leaves(count))
        cases.widen(old, table([9], [(9, 'extra', EMPTY)]), out='exact')
        cases.widen_doc(old, doc('extra'))
        cases.widen(old, E)
        cases.add(LOCAL_BY_TABLE, old, table([9], [(9, 'extra', EMPTY)]), out=0)
    for count in (63, 64):     # the sample: a root and `count` children
        a_document = doc('root', *[tree('c%02d' % i) for i in range(count)])
        cases.add(SAMPLE, a_document, out='exact')
        cases.add(SAMPLE, a_document, out=0)
        cases.widen_doc(E, a_document)
        cases.widen_doc(P1, a_document)
        cases.widen_doc(P1, doc('a', *[tree('c%02d' % i) for i in range(count)]))
    for groups in (21, 22):    # 1 + 3 * groups paths with few names: 64 and 67
        a_document = doc('r', *[tree('g%d' % i, tree('x'), tree('y')) for i in range(groups)])
        cases.add(SAMPLE, a_document)
        cases.widen_doc(E, a_document)
        cases.widen_doc(P8, a_document)
    for more in (1, 2, 3, 4, 5, 6, 7, 20):
        cases.widen(automaton(more), E)
        letters = 'abbaabab' + 'a' + 'b' * more
        made = tree(letters[-1])
        for letter in reversed(letters[:-1]):
            made = tree(letter, made)
        cases.add(LETS_IN, automaton(more), document(made))
        cases.widen_doc(automaton(more), document(made))
    # Unfruitful types do not count.
    old = table([0], [(0, 'n00', choice(*[t(i) for i in range(1, 64)]))] + leaves(62)
                + [(63, 'n63', t(63))])
    cases.widen(old, table([9], [(9, 'extra', EMPTY)]))
    # A content of 1,024 and 1,025 bytes.
    for spare in (0, 1):
        old = table([0], [(0, 'r', seq(*[t(1)] * 255)), (1, 'c', EMPTY)])
        more = [t(1)] * 254 if spare == 0 else [t(1)] * 252 + [any_of(t(1)), any_of(EMPTY)]
        addition = table([0], [(0, 'r', seq(*more)), (1, 'c', EMPTY)])
        cases.widen(old, addition, out='exact')
        marked = [any_of(t(1))] * (108 + spare) + [t(1)] * (147 - spare)
        old = table([0], [(0, 'r', seq(*marked)), (1, 'c', EMPTY)])
        cases.widen_doc(old, doc('r', *[tree('c'), tree('d')] * 100))
        # Normalising alone lengthens a content: t1 has two labels.
        count = (1024 - 2 - spare) // 6
        body = [t(1)] * count
        rest = 1024 + spare - 2 - 6 * count
        body += [any_of(EMPTY, rest - 1)] if rest > 0 else []
        old = table([0], [(0, 'r', seq(*body)), (1, 'c', EMPTY), (1, 'd', EMPTY)])
        cases.widen(old, E)
    # The sample's content of 1,024, 1,025 and 1,026 bytes; each group is a node of one path.
    for empty, last in ((0, 5), (1, 5), (0, 6)):
        groups = [tree('g', *[tree(name) for name in pair * 50]) for pair in ('xy', 'yx', 'xz', 'zx', 'yz')]
        groups += [tree('g', *[tree(name) for name in 'xyxyxy'[:last]])] + [tree('g')] * empty + groups[:1]
        a_document = doc('r', *groups)
        cases.add(SAMPLE, a_document)
        cases.widen_doc(E, a_document)
        cases.widen_doc(P1, a_document, out=0)
    # Nesting 32 and 33, by merging and by normalising.
    for depth in (30, 31, 32):
        old = table([0], [(0, 'r', deep(depth, t(1))), (1, 'c', EMPTY)])
        cases.widen(old, table([0], [(0, 'r', EMPTY)]), out='exact')
        cases.widen(old, table([0], [(0, 'r', deep(depth, t(1))), (1, 'c', EMPTY)]))
        cases.widen_doc(old, doc('r', tree('c'), tree('c')))
        cases.widen_doc(old, doc('r', tree('d')))
        two = table([0], [(0, 'r', deep(depth, t(1))), (1, 'c', EMPTY), (1, 'd', EMPTY)])
        cases.widen(two, E)
        cases.widen(two, E, out=0)
        nested = EMPTY
        for _ in range(depth - 1):
            nested = choice(nested, any_of(t(1)) if depth < 32 else t(1))
        cases.widen(table([0], [(0, 'r', nested), (1, 'c', EMPTY)]), E)
    # Choices of 255 and 256.
    for count in (255, 256):
        made = operands(256)
        root = choice(choice(*made[:100]), choice(*made[100:count]))
        old = table([0], [(0, 'n00', root)] + leaves(63))
        cases.widen(old, E, out='exact')
        inner = table([0], [(0, 'n00', any_of(root))] + leaves(63))
        cases.widen(inner, E)
        old = table([0], [(0, 'n00', choice(*made[:128]))] + leaves(63))
        addition = table([0], [(0, 'n00', choice(*made[128:count]))] + leaves(63))
        cases.widen(old, addition)
        old = table([0], [(0, 'n00', choice(choice(*made[1:100]), choice(*made[100:count])))] + leaves(63))
        cases.widen_doc(old, doc('n00'))
        cases.widen_doc(old, doc('n00', tree('n05')))       # byte-equal to an operand
    # 32,768 and 32,769 bytes in all.
    cases.widen(padded_table(32768), E, out='exact')
    cases.add(LOCAL_BY_TABLE, padded_table(32768), E, out='short')
    cases.add(SINGLE_BY_TABLE, E, padded_table(32768), out=MOST_FOR_TABLES)
    for length in (32766, 32767):       # n00 gets one more operand of 2 bytes
        cases.widen(padded_table(length), table([0], [(0, 'n00', any_of(EMPTY))]), out='exact')
    for length in (32764, 32765):       # n63 gets a choice: 4 bytes more
        cases.add(LOCAL_BY_TABLE, padded_table(length),
                  table([0], [(0, 'n00', t(1)), (1, 'n63', any_of(EMPTY))]), out='exact')
    for length in (32767, 32768):       # n00 gets one more operand of 1 byte
        cases.widen_doc(padded_table(length), doc('n00'), out='exact')


# ---------------------------------------------------------------- meaning and kinds

def meaning_cases(cases):
    leaf = [(1, 'a', EMPTY), (2, 'b', EMPTY)]
    a, b = tree('a'), tree('b')
    words = ([], [a], [b], [a, a], [a, b], [b, a], [b, b], [a, b, a], [a, a, b], [a] * 5,
             [a, b] * 3, [tree('c')], [a, tree('a', a)])
    contents = [NONE, EMPTY, t(1), seq(t(1), t(2)), choice(t(1), t(2)), any_of(t(1)), some_of(t(1)),
                optional(t(1)), any_of(NONE), some_of(NONE), optional(NONE), any_of(EMPTY),
                some_of(EMPTY), optional(EMPTY), seq(t(1), NONE), choice(t(1), NONE), t(9),
                any_of(seq(t(1), t(2))), some_of(choice(t(1), t(2))), optional(seq(t(1), t(2), t(1))),
                seq(any_of(t(1)), any_of(t(1)), t(2)), any_of(any_of(choice(t(1), t(2)))),
                some_of(optional(t(1))), seq(optional(t(1)), t(1), optional(t(2))),
                choice(seq(t(1), t(1)), seq(t(1), t(2)), EMPTY), any_of(choice(t(1), seq(t(1), t(1)))),
                seq(any_of(t(9)), t(1)), choice(t(9), seq(t(9), t(1)), t(2)), some_of(choice(t(9), t(1)))]
    for number, content in enumerate(contents):
        a_table = table([0], [(0, 'r', content)] + leaf)
        for turn, word in enumerate(words):
            if (number + turn) % 3 == 0 or turn < 3:
                cases.add(LETS_IN, a_table, document(('r', word)))
        cases.widen(a_table, E)
        cases.widen_doc(a_table, document(('r', words[number % len(words)])))
        if number:
            cases.widen(a_table, table([0], [(0, 'r', contents[number - 1])] + leaf))
    # Several ways to derive: types of one label, rules of one pair, several starts.
    ambiguous = table([0, 1], [(0, 'r', seq(any_of(choice(t(2), t(3))), t(2))), (1, 'r', any_of(t(3))),
                               (2, 'a', EMPTY), (2, 'a', t(2)), (3, 'a', t(3)), (3, 'a', EMPTY)])
    for a_tree in (tree('r'), tree('r', a), tree('r', a, a, a), tree('r', tree('a', a), a),
                   tree('r', tree('a', b)), tree('a'), tree('q'), tree('r', tree('a', a, a))):
        cases.add(LETS_IN, ambiguous, document(a_tree))
        cases.widen_doc(ambiguous, document(a_tree))
    cases.kinds(ambiguous)
    cases.widen(ambiguous, E)
    # Long runs that a careless search takes too long for.
    many = [tree('a')] * 60
    for content in (any_of(any_of(any_of(t(1)))), any_of(choice(t(1), seq(t(1), t(1)), t(1))),
                    seq(*[optional(t(1))] * 60), some_of(some_of(optional(some_of(t(1)))))):
        a_table = table([0], [(0, 'r', content), (1, 'a', EMPTY), (2, 'b', EMPTY)])
        cases.add(LETS_IN, a_table, document(('r', many)))
        cases.add(LETS_IN, a_table, document(('r', many + [b])))
        cases.add(LETS_IN, a_table, document(('r', many + [a])))
    # 13: no start, starts without rules, only unfruitful starts; and additions that change it.
    fruitless = [E, start(0) + END, table([], [(0, 'a', EMPTY)]), table([0], [(0, 'a', t(0))]),
                 table([0], [(0, 'a', NONE)]), table([0], [(0, 'a', t(1)), (1, 'b', t(0))]),
                 table([5], [(0, 'a', EMPTY)]), table([0], [(0, 'a', some_of(t(7)))]),
                 table([0], [(0, 'a', seq(t(1), NONE)), (1, 'b', EMPTY)]), label('a') + END,
                 table([0], [(0, 'a', choice(t(0), t(1), NONE)), (1, 'b', some_of(t(0)))])]
    for number, first in enumerate(fruitless):
        for second in (fruitless[(number + 3) % len(fruitless)], E, P1, P8):
            cases.widen(first, second)
        cases.add(BY_TABLE[number % 2], first, E, out=0)
        cases.widen_doc(first, GOOD_DOC)
        cases.kinds(first)
        cases.add(LETS_IN, first, P2)
    # The addition's types are its own, also where the numbers are the old ones.
    cases.widen(table([0], [(0, 'a', t(1))]), table([1], [(1, 'b', EMPTY)]))
    cases.widen(table([0], [(0, 'a', optional(t(1)))]), table([1], [(1, 'b', EMPTY)]))
    cases.widen(table([63], [(63, 'a', any_of(t(0))), (0, 'b', EMPTY)]),
                table([0], [(0, 'a', any_of(t(63))), (63, 'b', t(0))]))
    # Order of labels, unused labels, names in another order.
    cases.widen(table([0], [(0, 'b', seq(t(1), t(2))), (1, 'a', EMPTY), (2, 'c', EMPTY)],
                      ['x', 'c', 'y', 'a']),
                table([3], [(3, 'z', seq(t(1), t(2))), (2, 'y', EMPTY), (1, 'b', EMPTY)],
                      ['w', 'c', 'z', 'b']))
    # Rules of one pair apart from each other: contents join at the first.
    cases.widen(table([0], [(0, 'a', t(1)), (1, 'b', EMPTY), (2, 'a', seq(t(1), t(1))), (0, 'a', EMPTY),
                            (1, 'b', t(2)), (1, 'b', t(0))]), E)
    # Kinds.
    for a_table in (
            E, GOOD_TABLE, P1, P5, P6, P7, P8, flat_table(10),
            table([0], [(0, 'a', EMPTY), (0, 'a', EMPTY)]), table([0], [(0, 'a', EMPTY), (0, 'b', EMPTY)]),
            table([0], [(0, 'a', EMPTY), (1, 'a', EMPTY)]), table([0, 1], [(0, 'a', EMPTY), (1, 'a', EMPTY)]),
            table([0], [(0, 'a', t(1)), (1, 'a', EMPTY)]), table([0], [(0, 'a', t(0)), (1, 'a', EMPTY)]),
            table([0], [(0, 'r', seq(t(1), t(2))), (1, 'a', EMPTY), (2, 'a', EMPTY)]),
            table([0], [(0, 'r', seq(t(1), t(1))), (1, 'a', EMPTY), (2, 'a', EMPTY)]),
            table([0], [(0, 'r', any_of(choice(t(1), optional(t(2))))), (1, 'b', EMPTY), (1, 'a', EMPTY),
                        (2, 'c', EMPTY), (2, 'a', EMPTY)]),
            table([0], [(0, 'r', choice(t(1), seq(NONE, t(2)))), (1, 'a', EMPTY), (2, 'a', t(2))]),
            table([0], [(0, 'r', t(1)), (0, 's', t(2)), (1, 'a', EMPTY), (2, 'a', EMPTY)]),
            table([0], [(0, 'r', t(1)), (5, 's', seq(t(2), t(1))), (1, 'a', EMPTY), (2, 'a', EMPTY)]),
            table([3, 1], [(1, 'a', EMPTY), (2, 'a', EMPTY), (3, 'b', EMPTY)]),
            table([3, 2], [(1, 'a', EMPTY), (2, 'a', EMPTY), (3, 'a', EMPTY)]),
            table([], [(0, 'a', seq(t(1), t(2))), (1, 'b', t(9)), (2, 'b', t(9))])):
        cases.kinds(a_table)
        cases.widen(a_table, E)
    # Samples: order of paths, labels and child sequences.
    for a_tree in (
            tree('r', tree('a', tree('x')), b, tree('a', tree('y'), tree('x')), tree('a')),
            tree('a', tree('b', tree('a', tree('b'))), tree('b'), tree('b', tree('a'))),
            tree('r', tree('g', b, a), tree('g', a, b), tree('g', b, a), tree('g'), tree('g', a)),
            tree('r', tree('p', tree('q', a)), tree('s', tree('q', b)), tree('p', tree('q'))),
            chain(10), tree('_', tree('A.b-c'), tree('a'), tree('A'))):
        cases.add(SAMPLE, document(a_tree), out='exact')
        cases.widen_doc(E, document(a_tree))
        cases.widen_doc(P5, document(a_tree))
        sampled = ref.sample(ref.STANDARD, ref.ASCII, ref.DOCUMENT_FILE, document(a_tree), MOST_OUTPUT, ref.STANDARD.words)
        cases.add(LETS_IN, sampled.written, document(a_tree))


# ---------------------------------------------------------------- wide tables

def chained(count, name='a'):
    """`count` types of one label, each with the next below it."""
    return table([0], [(i, name, optional(t(i + 1)) if i + 1 < count else EMPTY) for i in range(count)])


def many_labels(type_, count):
    """One type with `count` labels, all of them leaves."""
    return [(type_, 'm%02d' % i, EMPTY) for i in range(count)]


def crossed(modulus, step, count=64):
    """`count` rules over `modulus` labels; each content leads to a later type and back to an earlier one."""
    def content(i):
        return choice(seq(t((i + step) % count), optional(t((i + 2) % count))), any_of(t(i // 2)), EMPTY)
    return table([0, 1], [(i, 'x%02d' % (i % modulus), content(i)) for i in range(count)])


def gone_cases(cases):
    """Contents over a limit that reducing takes away, so that nothing is over it in the result."""
    made = operands(256)
    wide = any_of(choice(choice(*made[:100]), choice(*made[100:])))
    heavy = seq(*[t(1)] * 250)                        # 26 labels: 13,502 bytes in the result
    steep = deep(29, t(1))                            # two labels: one deeper in the result
    for body, leaf in ((wide, leaves(63)), (heavy, many_labels(1, 26)), (steep, many_labels(1, 2))):
        for gone in (seq(body, NONE), some_of(NONE), seq(some_of(NONE), body), optional(seq(body, NONE)),
                     any_of(seq(NONE, body)), seq(body, t(0))):
            cases.widen(table([0], [(0, 'r', choice(gone, any_of(EMPTY)))] + leaf), E)
        cases.widen(table([0], [(0, 'r', EMPTY), (0, 's', seq(body, NONE))] + leaf[:62]), E)
        body = any_of(body, 3)
        unreached = table([0], [(0, 'r', t(1)), (63, 'r', body)] + leaf[:62])
        cases.widen(unreached, E)
        cases.widen_doc(unreached, doc('r'))
        cases.widen(E, table([0], [(0, 'r', body)] + leaf))
    # The same operand many times, or the same content twice, is kept once.
    for count in (2, 30, 62):
        leaf = many_labels(1, count)
        for content in (choice(*[t(1)] * 255), choice(*[any_of(t(1))] * 255), choice(*[any_of(t(1)), t(1)] * 127),
                        any_of(choice(t(1), choice(t(1), optional(EMPTY), t(1)), optional(EMPTY))),
                        some_of(choice(*[seq(t(1), EMPTY)] * 100)), seq(any_of(t(1)), t(1), optional(t(1)))):
            cases.widen(table([0], [(0, 'r', content)] + leaf), E)
    for length in (1022, 1023, 1024):
        content = seq(*[any_of(t(1), 2)] * 254 + [any_of(t(1), length - 1020)])
        old = table([0], [(0, 'r', content), (1, 'c', EMPTY)])
        other = table([7], [(7, 'r', content.replace(t(1), t(9))), (9, 'c', EMPTY)])
        cases.widen(old, old)
        cases.widen(old, other)
        cases.widen_doc(old, doc('r', tree('c')))


def wide_cases(cases):
    gone_cases(cases)
    # 1,024 and 1,025 bytes by the labels of a type.
    for count in (3, 5, 9, 31, 60):
        each = 2 + 2 * count
        for length in (1024, 1025):
            spare = (length - 2) % each
            body = [t(1)] * ((length - 2) // each - (0 if spare > 1 else 1))
            spare = length - 2 - each * len(body)
            body += [seq(*[EMPTY] * (spare - 2))] if 3 < spare else [any_of(EMPTY, spare - 1)]
            cases.widen(table([0], [(0, 'r', seq(*body))] + many_labels(1, count)), E, out='exact')
    # 64 and 65 sets; to local there are two types.
    for count in (62, 63, 64):
        cases.widen(chained(count), table([0], [(0, 'b', EMPTY)]), out='exact')
        cases.widen(table([0], [(0, 'b', EMPTY)]), chained(count))
        cases.widen(chained(count), chained(65 - count))
        cases.widen(chained(count), chained(count))
        cases.widen_doc(chained(count), document(chain(count)))
        cases.widen_doc(chained(count), document(tree('b', chain(5))))
    # 128 labels, of which few are used; the same names in another order.
    few = [(0, 'n63', any_of(t(1))), (1, 'n00', EMPTY), (1, 'n31', optional(t(0)))]
    cases.widen(table([0], few, names_of(64, 3)), table([0], [(0, 'k63', t(1)), (1, 'k00', EMPTY)],
                                                         ['k%02d' % i for i in range(64)]))
    cases.widen(table([0], few, names_of(64, 3)), table([0], few, names_of(64, 3)[::-1]))
    cases.widen(table([0], few, names_of(64, 3)), table([0], few, ['a' * 63] + names_of(62, 3)[::-1] + ['n63']))
    cases.widen(table([0], [(0, 'n' * 63, t(1)), (1, 'n' * 62, EMPTY)]), table([0], [(0, 'n' * 62 + 'm', EMPTY)]))
    # 128 rules.
    for modulus in (1, 2, 3, 5, 8, 16, 32, 64):
        cases.widen(crossed(modulus, 1), crossed(modulus, 7))
        cases.widen(crossed(modulus, 3), crossed(max(1, modulus // 2), 5))
        cases.widen(crossed(modulus, 1), E)
    # An input that is too long, in each place.
    over = padded_table(32769)
    for call in BY_TABLE:
        cases.add(call, over, E)
        cases.add(call, E, over)
        cases.add(call, E + b'\x00', over)
    for call in BY_DOCUMENT:
        cases.add(call, over, GOOD_DOC)
        cases.add(call, GOOD_TABLE, padded_document(32769))
    for number in range(120):
        numbers = Numbers(510000 + number)
        first, second = wide_table(numbers), wide_table(numbers)
        cases.add(BY_TABLE[number % 2], first, second)
        cases.add(BY_TABLE[(number + 1) % 2], second, E)
        cases.add(BY_DOCUMENT[number % 2], first, random_document(numbers, first, WIDE_POOL))


# ---------------------------------------------------------------- the edges of the three sizes

# An edge is an input with the refusals at the small, the standard and the large size, 0 for none.
# They are numbered by hand; selftest.py holds the second validator to them.

def table_edges():
    def labels(count, *more):
        return b''.join(label(name) for name in names_of(count, 4) + list(more)) + END

    def starts(count, *more):
        return b''.join(start(type_) for type_ in list(range(count)) + list(more)) + END

    def rules(count, more=b''):
        return HEAD + b''.join(rule(i % 16, i % 2, EMPTY) for i in range(count)) + more + END

    return [
        (labels(16), 0, 0, 0), (labels(17), 7, 0, 0), (labels(64), 7, 0, 0), (labels(65), 7, 7, 0),
        (labels(128), 7, 7, 0), (labels(129), 7, 7, 7),
        (labels(16, 'n000'), 6, 6, 6), (labels(64, 'n063'), 7, 6, 6), (labels(128, 'n127'), 7, 7, 6),
        (labels(16, '9'), 5, 5, 5), (labels(64, '9'), 7, 5, 5), (labels(128, '9'), 7, 7, 5),
        # One start too many is 6 or 7, never 8.
        (starts(16), 0, 0, 0), (starts(17), 7, 0, 0), (starts(64), 7, 0, 0), (starts(65), 7, 7, 0),
        (starts(128), 7, 7, 0), (starts(129), 7, 7, 7),
        (starts(16, 0), 6, 6, 6), (starts(16, 15), 6, 6, 6), (starts(16, 255), 7, 8, 8),
        (starts(64, 63), 7, 6, 6), (starts(64, 255), 7, 7, 8), (starts(128, 127), 7, 7, 6),
        (starts(128, 255), 7, 7, 7), (starts(15, 16), 8, 0, 0), (starts(63, 64), 7, 8, 0),
        (starts(127, 128), 7, 7, 8), (starts(15, 16, 16), 8, 6, 6), (starts(15, 200, 200), 8, 8, 8),
        (starts(0, *range(15, -1, -1)), 0, 0, 0), (starts(0, *range(127, -1, -1)), 8, 8, 0),
        (rules(16), 0, 0, 0), (rules(17), 7, 0, 0), (rules(64), 7, 0, 0), (rules(65), 7, 7, 0),
        (rules(128), 7, 7, 0), (rules(129), 7, 7, 7),
        (rules(16, rule(16, 9, b'\x09')), 7, 8, 8), (rules(16, rule(16, 0, b'\x09')), 7, 9, 9),
        (rules(64, rule(64, 1, t(64))), 7, 7, 0), (rules(64, rule(0, 0, deep(33))), 7, 7, 10),
        (rules(128, rule(128, 9, b'\x09')), 7, 7, 7),
        # Types in starts, in rules and in contents.
        (starts(0, 15), 0, 0, 0), (starts(0, 16), 8, 0, 0), (starts(0, 63), 8, 0, 0),
        (starts(0, 64), 8, 8, 0), (starts(0, 127), 8, 8, 0), (starts(0, 128), 8, 8, 8),
        (rules(0, rule(15, 0, EMPTY)), 0, 0, 0), (rules(0, rule(16, 0, EMPTY)), 8, 0, 0),
        (rules(0, rule(63, 0, EMPTY)), 8, 0, 0), (rules(0, rule(64, 0, EMPTY)), 8, 8, 0),
        (rules(0, rule(127, 0, EMPTY)), 8, 8, 0), (rules(0, rule(128, 0, EMPTY)), 8, 8, 8),
        (one_rule(t(15)), 0, 0, 0), (one_rule(t(16)), 9, 0, 0), (one_rule(t(63)), 9, 0, 0),
        (one_rule(t(64)), 9, 9, 0), (one_rule(t(127)), 9, 9, 0), (one_rule(t(128)), 9, 9, 9),
        (one_rule(seq(t(15), any_of(t(16)))), 9, 0, 0), (one_rule(choice(t(63), some_of(t(64)))), 9, 9, 0),
        (one_rule(optional(choice(t(127), t(128)))), 9, 9, 9),
        (one_rule(seq(deep(33), t(16))), 9, 10, 10), (one_rule(seq(deep(33), t(64))), 9, 9, 10),
        # 8 of a rule before 9 of its content; a label is among those of its table, whatever the size.
        (rules(0, rule(16, 0, t(16))), 8, 0, 0), (rules(0, rule(63, 1, t(127))), 8, 9, 0),
        (rules(0, rule(127, 0, t(128))), 8, 8, 9), (rules(0, rule(0, 2, t(16))), 8, 8, 8),
        (flat_table(16), 0, 0, 0), (flat_table(64), 7, 0, 0), (flat_table(128), 7, 7, 0),
        (flat_table(128)[:-3] + rule(0, 128, EMPTY) + END, 7, 7, 7),
        (flat_table(127)[:-3] + rule(0, 127, EMPTY) + END, 7, 7, 8),
    ]


def name_edges():
    """With a caller's label number."""
    return [(flat_table(16), 15, 0, 0, 0), (flat_table(16), 16, 8, 8, 8), (flat_table(17), 16, 7, 0, 0),
            (flat_table(64), 63, 7, 0, 0), (flat_table(64), 64, 7, 8, 8), (flat_table(65), 64, 7, 7, 0),
            (flat_table(128), 64, 7, 7, 0), (flat_table(128), 127, 7, 7, 0), (flat_table(128), 128, 7, 7, 8),
            (flat_table(128), 255, 7, 7, 8), (flat_table(128), 256 + 127, 7, 7, 8),
            (flat_table(128), 2**32 - 1, 7, 7, 8), (flat_table(129), 0, 7, 7, 7)]


def document_edges():
    open_levels = node_field(1, 'a') * 16
    return [
        (document(crowd(256)), 0, 0, 0), (document(crowd(257)), 11, 0, 0), (document(crowd(1024)), 11, 0, 0),
        (document(crowd(1025)), 11, 11, 0), (document(crowd(2048)), 11, 11, 0), (document(crowd(2049)), 11, 11, 11),
        (document(chain(16)), 0, 0, 0), (document(chain(17)), 11, 0, 0), (document(chain(64)), 11, 0, 0),
        (document(chain(65)), 11, 11, 11),
        (document(tree('a', *[chain(15)] * 17)), 0, 0, 0),               # 256 nodes on 16 levels
        (document(tree('a', *[chain(15)] * 17 + [tree('b')])), 11, 0, 0),
        (document(tree('a', *[chain(63)] * 32)), 11, 11, 0),             # 2,017 nodes on 64 levels
        (document(wide_doc(200)), 0, 0, 0), (document(wide_doc(201)), 11, 11, 11),
        # 5 before 11, and what is 11 at every size.
        (open_levels + node_field(0, '!') + DOC_END, 5, 5, 5), (open_levels + DOC_END, 11, 11, 11),
        (nodes(crowd(256)) + node_field(0, '!') + DOC_END, 5, 5, 5),
        (nodes(crowd(256)) + node_field(0, 'a') + DOC_END, 11, 11, 11),
        (document(crowd(256)) + b'\x00', 12, 12, 12), (document(crowd(257)) + b'\x00', 11, 12, 12),
    ]


def sample_edges():
    """As a sample, and added to E."""
    def root(count):
        return doc('root', *[tree('c%02d' % i) for i in range(count)])

    def groups(count):            # 1 + 3 * count paths with few names
        return doc('r', *[tree('g%d' % i, tree('x'), tree('y')) for i in range(count)])

    def two_chains(length, more):  # 1 + 2 * length + more paths
        return doc('r', chain(length, 'a'), chain(length, 'b'), *[tree('c%d' % i) for i in range(more)])

    return [(root(15), 0, 0, 0), (root(16), 14, 0, 0), (root(63), 14, 0, 0), (root(64), 14, 14, 0),
            (root(127), 14, 14, 0), (root(128), 14, 14, 14),
            (groups(5), 0, 0, 0), (groups(6), 14, 0, 0), (groups(21), 14, 0, 0), (groups(22), 14, 14, 0),
            (groups(42), 14, 14, 0), (groups(43), 14, 14, 14),
            (two_chains(7, 1), 0, 0, 0), (two_chains(7, 2), 14, 0, 0), (two_chains(31, 1), 11, 0, 0),
            (two_chains(31, 2), 11, 14, 0), (two_chains(63, 1), 11, 14, 0), (two_chains(63, 2), 11, 14, 14)]


def star(count, prefix='s'):
    """A root and `count` leaves: as many rules, labels and types, and one more."""
    return table([0], [(0, prefix, choice(*[t(i) for i in range(1, count + 1)]))]
                 + [(i, '%s%d' % (prefix, i), EMPTY) for i in range(1, count + 1)])


def labelled(count, prefix):
    """One type with `count` labels."""
    return table([0], [(0, '%s%d' % (prefix, i), EMPTY) for i in range(count)])


def fruitless(count):
    return table([0], [(i, 'f%d' % i, t((i + 1) % count)) for i in range(count)])


def some_used(prefix, count=128):
    """`count` labels, of which three are used."""
    names = ['%s%d' % (prefix, i) for i in range(count)]
    return table([0], [(0, names[-1], any_of(t(1))), (1, names[0], EMPTY), (1, names[count // 2], optional(t(0)))], names)


def everywhere(count):
    """`count` types of one label, all of them starts: one set of all."""
    return table(range(count), [(i, 'a', optional(t((i + 1) % count))) for i in range(count)])


EXTRA = table([0], [(0, 'extra', EMPTY)])


def union_edges():
    """Two tables, to either kind."""
    return [
        (star(14), EXTRA, 0, 0, 0), (star(15), EXTRA, 14, 0, 0), (star(16), EXTRA, 7, 0, 0),
        (star(62), EXTRA, 7, 0, 0), (star(63), EXTRA, 7, 14, 0), (star(64), EXTRA, 7, 7, 0),
        (star(126), EXTRA, 7, 7, 0), (star(127), EXTRA, 7, 7, 14), (star(128), EXTRA, 7, 7, 7),
        (EXTRA, star(127), 7, 7, 14), (E, star(127), 7, 7, 0), (star(15), star(16), 7, 0, 0),
        (star(7), star(7, 'u'), 0, 0, 0), (star(7), star(8, 'u'), 14, 0, 0), (star(31), star(31, 'u'), 7, 0, 0),
        (star(31), star(32, 'u'), 7, 14, 0), (star(63), star(63, 'u'), 7, 14, 0), (star(63), star(64, 'u'), 7, 7, 14),
        # Twice 16, 64 and 128 labels: of other names, of the same ones, and with few of them used.
        (star(15), star(15, 'u'), 14, 0, 0), (star(63), star(63), 7, 0, 0), (star(127), star(127, 'u'), 7, 7, 14),
        (star(15), star(15), 0, 0, 0), (star(127), star(127), 7, 7, 0),
        (some_used('s', 16), some_used('u', 16), 0, 0, 0), (some_used('s'), some_used('u'), 7, 7, 0),
        (some_used('s'), star(127, 's'), 7, 7, 14), (star(120), some_used('u'), 7, 7, 0),
        (labelled(8, 'm'), labelled(8, 'k'), 0, 0, 0), (labelled(8, 'm'), labelled(9, 'k'), 14, 0, 0),
        (labelled(64, 'm'), labelled(64, 'k'), 7, 14, 0), (labelled(64, 'm'), labelled(65, 'k'), 7, 7, 14),
        (labelled(128, 'm'), labelled(128, 'k'), 7, 7, 14), (labelled(128, 'm'), labelled(128, 'm'), 7, 7, 0),
        (everywhere(16), everywhere(16), 0, 0, 0), (everywhere(128), everywhere(128), 7, 7, 0),
        (everywhere(128), everywhere(129), 7, 7, 7),
        (fruitless(16), fruitless(16), 13, 13, 13), (fruitless(128), fruitless(128), 7, 7, 13),
        (fruitless(128), star(127), 7, 7, 0),
    ]


def chain_edges():
    """Two tables whose sets of types are many and whose labels are few; refusals of local, then of single-type."""
    other = table([0], [(0, 'b', EMPTY)])
    return [
        (chained(15), other, (0, 0, 0), (0, 0, 0)), (chained(16), other, (0, 0, 0), (14, 0, 0)),
        # The content of type 15 names 16 (9) before there is a 17th rule; likewise with 63 and 64.
        (chained(17), other, (9, 0, 0), (9, 0, 0)), (chained(63), other, (9, 0, 0), (9, 0, 0)),
        (chained(64), other, (9, 0, 0), (9, 14, 0)), (chained(127), other, (9, 9, 0), (9, 9, 0)),
        (chained(128), other, (9, 9, 0), (9, 9, 14)), (other, chained(128), (9, 9, 0), (9, 9, 14)),
        (chained(128), chained(128), (9, 9, 0), (9, 9, 0)), (chained(127), chained(128), (9, 9, 0), (9, 9, 0)),
        (chained(128), chained(128, 'b'), (9, 9, 0), (9, 9, 14)), (chained(64), chained(64, 'b'), (9, 0, 0), (9, 14, 0)),
        (chained(8), chained(8, 'b'), (0, 0, 0), (0, 0, 0)), (chained(8), chained(9, 'b'), (0, 0, 0), (14, 0, 0)),
    ]


def edges():
    """(call, first input, second, label number, refusals by size) of all edges."""
    for data, *refusals in table_edges():
        yield TABLE_READS, data, b'', 0, refusals
    for data, number, *refusals in name_edges():
        yield LABEL_NAME, data, b'', number, refusals
    for data, *refusals in document_edges():
        yield DOCUMENT_READS, data, b'', 0, refusals
    for data, *refusals in sample_edges():
        yield SAMPLE, data, b'', 0, refusals
        for call in BY_DOCUMENT:
            yield call, E, data, 0, refusals
    for old, addition, *refusals in union_edges():
        for call in BY_TABLE:
            yield call, old, addition, 0, refusals
    for old, *refusals in ((star(14), 0, 0, 0), (star(15), 14, 0, 0), (star(62), 7, 0, 0), (star(63), 7, 14, 0),
                           (star(126), 7, 7, 0), (star(127), 7, 7, 14)):
        for call in BY_DOCUMENT:
            yield call, old, doc('extra'), 0, refusals
    for old, addition, *both in chain_edges():
        for call, refusals in zip(BY_TABLE, both):
            yield call, old, addition, 0, refusals


# A size's number, the words lent, and whether that is 1.
WORD_EDGES = [(SMALL, 12287, 1), (SMALL, 12288, 0), (SMALL, 12289, 0), (SMALL, 16384, 0), (SMALL, 32768, 0),
              (STANDARD, 12288, 1), (STANDARD, 16383, 1), (STANDARD, 16384, 0), (STANDARD, 32768, 0),
              (LARGE, 16384, 1), (LARGE, 32767, 1), (LARGE, 32768, 0), (LARGE, MOST_WORK, 0),
              (3, 16383, 1), (3, 16384, 0), (2**32 - 1, 16383, 1), (2**32 - 1, 16384, 0), (2**32 - 1, MOST_WORK, 0)]

# Numbers that are no size; low bytes that would be one are among them. Each counts as the standard size.
NO_SIZES = (3, 256, 258, 2**16, 2**31, 2**32 - 1)
NO_SIZE_EDGES = [(TABLE_READS, flat_table(17), 0), (TABLE_READS, flat_table(64), 0), (TABLE_READS, flat_table(65), 7),
                 (DOCUMENT_READS, document(chain(17)), 0), (DOCUMENT_READS, document(crowd(257)), 0),
                 (SAMPLE, doc('r', *[tree('c%d' % i) for i in range(64)]), 14)]


CROWDS = table([0], [(0, 'a', any_of(t(0)))])


def other_calls(cases, call, data, size, turns):
    """An input of a reading call given to other calls, those of some turns."""
    if call == DOCUMENT_READS:
        calls = [(SAMPLE, data, b''), (LETS_IN, CROWDS, data)] + [(by, E, data) for by in BY_DOCUMENT]
    else:
        calls = [(other, data, b'') for other in (IS_LOCAL, IS_SINGLE_TYPE, LABEL_NAME)]
        calls += [(other, data, GOOD_DOC) for other in (LETS_IN,) + BY_DOCUMENT]
        calls += [(by, data, GOOD_TABLE) for by in BY_TABLE] + [(by, GOOD_TABLE, data) for by in BY_TABLE]
    for turn in turns:
        cases.add(*calls[turn % len(calls)], size=size)


def beside_the_edge(refusals):
    """The largest size that refuses and the smallest that does not, where there are such."""
    return ([size for size in SIZES if refusals[size]][-1:]
            + [size for size in SIZES if not refusals[size]][:1])


def edge_cases_of_sizes(cases):
    for number, (call, first, second, label_, refusals) in enumerate(edges()):
        short = len(first) + len(second) < 1000
        for size in SIZES if short else beside_the_edge(refusals):
            cases.add(call, first, second, label=label_, size=size, out='exact')
        if call in (TABLE_READS, DOCUMENT_READS):
            for size in beside_the_edge(refusals):
                other_calls(cases, call, first, size, range(3 * number, 3 * number + (3 if short else 1)))
    for call in CALLS:
        for turn, (size, work, _) in enumerate(WORD_EDGES):
            cases.add(call, *good_inputs(call), size=size, work=work, fill=FILLS[turn % 5], out=400)
    for size in NO_SIZES:
        for call, first, _ in NO_SIZE_EDGES:
            cases.add(call, first, size=size)


# ---------------------------------------------------------------- large and small inputs

def membership_and_kinds_of_sizes(cases):
    """128 types, types of 64 and more, 256 and 2,048 nodes."""
    far = table([127], [(127, 'a', any_of(t(64))), (64, 'b', optional(t(127))), (100, 'a', t(99)), (96, 'b', EMPTY)])
    near = table([64, 0], [(64, 'a', any_of(t(0))), (0, 'b', optional(t(64))), (32, 'a', t(95)), (95, 'b', t(127))])
    for a_table in (far, near):
        for a_tree in (tree('a'), tree('b'), tree('a', tree('b')), tree('a', tree('b'), tree('b', tree('a', tree('b')))),
                       tree('a', tree('a')), tree('a', tree('b', tree('b')))):
            cases.add(LETS_IN, a_table, document(a_tree), size=LARGE)
        cases.kinds(a_table, size=LARGE)
        cases.widen(a_table, E, size=LARGE)
        cases.widen(E, a_table, size=LARGE)
        cases.widen_doc(a_table, doc('a', tree('b'), tree('c')), size=LARGE)
    cases.widen(far, near, size=LARGE)
    cases.widen(near, far, size=LARGE)
    # A row of 127 leaves, and any number of them.
    names = ['l%d' % i for i in range(1, 128)]
    leaf = [(i, names[i - 1], EMPTY) for i in range(1, 128)]
    row = table([0], [(0, 'row', seq(*[t(i) for i in range(1, 128)]))] + leaf)
    free = table([0], [(0, 'row', any_of(choice(*[t(i) for i in range(1, 128)])))] + leaf)
    turned = names[:63] + [names[64], names[63]] + names[65:]
    for order in (names, turned, names[:-1], names + names[-1:], names[::-1]):
        a_document = doc('row', *[tree(name) for name in order])
        cases.add(LETS_IN, row, a_document, size=LARGE)
        cases.add(LETS_IN, free, a_document, size=LARGE)
    # Every type of one name, each of another depth; 2,048 nodes of it.
    ladder = table([0], [(i, 'a', any_of(t(i + 1)) if i < 127 else EMPTY) for i in range(128)])
    round_ = table([127], [(i, 'a', any_of(t((i + 1) % 128))) for i in range(128)])
    for a_table in (ladder, round_, table([5], [(127, 'a', any_of(t(127))), (5, 'a', some_of(t(127)))])):
        cases.add(LETS_IN, a_table, document(crowd(2048)), size=LARGE)
        cases.add(LETS_IN, a_table, document(chain(64)), size=LARGE)
    for size, count, levels in ((SMALL, 256, 16), (LARGE, 2048, 64)):
        cases.add(LETS_IN, CHAIN, document(crowd(count)), size=size)
        cases.add(LETS_IN, CROWDS, document(crowd(count)), size=size)
        cases.add(LETS_IN, CHAIN, document(chain(levels)), size=size)
    # Kinds: types of one label, both above 63, or one.
    for one, two in ((64, 127), (0, 64), (31, 95), (126, 127)):
        leaf = [(one, 'a', EMPTY), (two, 'a', EMPTY)]
        for a_table in (table([one, two], leaf), table([one], leaf), table([1], [(1, 'r', seq(t(one), t(two)))] + leaf),
                        table([1], [(1, 'r', seq(t(one), t(one)))] + leaf), table([two], [(one, 'a', EMPTY), (two, 'b', EMPTY)])):
            cases.kinds(a_table, size=LARGE)


def large_samples(cases):
    """2,048 nodes and up to 128 paths."""
    def rows(more):
        """200 nodes of 63 names below the root, leaves below them: 127 paths, and two for each `more`."""
        below = 2048 - 201 - more
        kinds = [tree('k%d' % (i % 63), *[tree('x')] * (below // (200 - more) + (i < below % (200 - more))))
                 for i in range(200 - more)]
        return document(tree('r', *kinds, *[tree('z%d' % i, tree('x')) for i in range(more)]))

    for more in (0, 1):          # 127 and 129 paths
        cases.add(SAMPLE, rows(more), size=LARGE, out='exact')
    cases.add(LOCAL_BY_DOCUMENT, CARDS, rows(0), size=LARGE)
    cases.add(SINGLE_BY_DOCUMENT, star(3), rows(0), size=LARGE)
    for distinct in (51, 52):    # 1,022 bytes, and too many
        cases.add(SAMPLE, document(many_sequences(200, distinct, 9)), size=LARGE, out='exact')
        cases.widen_doc(CARDS, document(many_sequences(200, distinct, 9)), size=LARGE)
    cases.add(SAMPLE, document(many_sequences(51, 51, 4)), size=SMALL)
    for size, count in ((SMALL, 256), (LARGE, 2048)):
        cases.add(SAMPLE, document(crowd(count, ('a', 'b'))), size=size)
        cases.widen_doc(CROWDS, document(crowd(count, ('a', 'b'))), size=size)
    cards = document(crowd(2048, ['l'] + ['c'] * 200 + ['n'] * 1847))
    a_table = table([100], [(100, 'l', any_of(t(64))), (64, 'c', any_of(t(31))), (31, 'n', EMPTY)])
    cases.add(LETS_IN, a_table, cards, size=LARGE)
    cases.add(SAMPLE, cards, size=LARGE)
    cases.widen_doc(a_table, cards, size=LARGE)


def needing(count, prefix, last):
    """Each type needs the next, so that each round makes one more fruitful; `last` is the last one's content."""
    return table([0], [(i, '%s%d' % (prefix, i % 40), t(i + 1) if i + 1 < count else last) for i in range(count)])


def unions_of_sizes(cases):
    for size in (SMALL, LARGE):
        most = ref.limits_of(size).rules
        for modulus, other in ((1, 1), (3, 1), (16, 16), (20, 10), (most, most), (most, most // 2)):
            cases.widen(crossed(modulus, 1, most), crossed(other, 7, most), size=size)
        cases.widen(crossed(5, 1, most), E, size=size)
        cases.kinds(crossed(5, 1, most), size=size)
        cases.widen(needing(most, 'p', EMPTY), needing(most, 'p', any_of(EMPTY)), size=size)
        cases.widen(needing(most, 'p', EMPTY), needing(most - 1, 'q', NONE), size=size)
        cases.widen(needing(most - 1, 'p', NONE), needing(most, 'q', EMPTY), size=size)
        # The same names in another order, and unused ones between.
        cases.widen(some_used('s', most), table([0], [(0, 's0', EMPTY)], ['s%d' % i for i in range(most - 1, -1, -1)]), size=size)
        for number in range(14):
            numbers = Numbers(610000 + 100 * size + number)
            limits = ref.limits_of(size)
            first, second = wide_table(numbers, limits), wide_table(numbers, limits)
            cases.add(BY_TABLE[number % 2], first, second, size=size)
            cases.add(BY_DOCUMENT[number % 2], first, random_document(numbers, first, WIDE_POOL), size=size)
    for more in (2, 3, 4):
        cases.widen(automaton(more), E, size=SMALL)
    for more in (5, 6, 7):
        cases.widen(automaton(more), E, size=LARGE)
    # Types of one name, each naming all later ones; a type of many labels named again and again.
    stairs = [(i, 'a', optional(choice(*[t(j) for j in range(i + 1, 128)]))) for i in range(126)]
    stairs = table([0], stairs + [(126, 'a', t(127)), (127, 'a', EMPTY)])
    cases.widen(stairs, E, size=LARGE)
    for count in (62, 126, 127):
        again = table([0], [(0, 'r', choice(t(1), any_of(t(1)), seq(t(1), t(1)), t(1)))] + many_labels(1, count))
        cases.widen(again, E, size=LARGE)
        cases.widen(again, table([9], [(9, 'r', some_of(t(100)))] + many_labels(100, count)), size=LARGE)


def full_tables_of_sizes(cases):
    """The longest table of the small size, and tables of 32,768 bytes with 128 rules."""
    content = seq(seq(*[t(15)] * 255), seq(optional(t(0)), *[t(15)] * 251, optional(t(14))))
    assert len(content) == 1024
    rules = [(i, 'n' * 61 + '%02d' % i, content) for i in range(16)]
    cases.add(TABLE_READS, table(range(16), rules), size=SMALL)
    cases.add(LOCAL_BY_TABLE, E, table(range(16), rules[:15] + [(15, rules[15][1], EMPTY)]), size=SMALL, out='exact')
    full = padded_table(32768, 128)
    cases.add(LOCAL_BY_TABLE, full, E, size=LARGE, out='exact')
    cases.add(SINGLE_BY_DOCUMENT, full, doc('n00'), size=LARGE)                                # 32,769 bytes
    names = ['b' * (12 - (i < 3)) for i in range(2048)]
    cases.add(DOCUMENT_READS, document(crowd(2048, names)), size=LARGE)                        # 32,768 bytes


def size_cases(cases):
    edge_cases_of_sizes(cases)
    membership_and_kinds_of_sizes(cases)
    large_samples(cases)
    unions_of_sizes(cases)
    full_tables_of_sizes(cases)


# ---------------------------------------------------------------- the classes

# An edge of the classes is the refusal, numbered by hand, 0 for none, then the call, its two inputs,
# and what else `Cases.add` is told; selftest.py holds the second validator to the numbers.

# Bytes 00 to 20, and ( ) | , * + ? ! < > / =, must be of class 0.
IN_NO_NAME = (*range(0x21), 0x28, 0x29, 0x7C, 0x2C, 0x2A, 0x2B, 0x3F, 0x21, 0x3C, 0x3E, 0x2F, 0x3D)
MAY_BE_IN_NAMES = tuple(byte for byte in range(256) if byte not in IN_NO_NAME)


def with_class(class_, some, classes=ref.ASCII):
    """The classes with some bytes in another class."""
    made = bytearray(classes)
    for byte in some:
        made[byte] = class_
    return bytes(made)


# # " & and 7F to FF are letters too; names of all these bytes.
OWN = with_class(2, b'#"&' + bytes(range(0x7F, 0x100)))
OWN_NAMES = [bytes(range(0x7F, 0xBE)).decode('latin-1'), bytes(range(0xBE, 0xFD)).decode('latin-1'), '\xff\xfe\xfd#"&']
ALL_LETTERS = with_class(2, MAY_BE_IN_NAMES)


def one_letter(letter, later=b''):
    """One letter alone, and some bytes that may come later."""
    return with_class(2, [letter], with_class(1, later, bytes(256)))


# None of these load.
BAD_CLASSES = [
    b'', b'\x02', ref.ASCII[:128], ref.ASCII[:255], ref.ASCII[1:], OWN[:255], ref.ASCII + b'\x00', ref.ASCII + b'\x02',
    OWN + b'\x01', ref.ASCII + ref.ASCII[:44],                                              # another length
    with_class(3, b'a'), with_class(3, [0x00]), with_class(3, [0xFF]), with_class(3, b'#', OWN), with_class(4, b'b'),
    with_class(0x12, b'c'), with_class(0x82, [0x80]), with_class(255, b'a'), with_class(255, [0x20]),
    with_class(255, [0xFF]), bytes([255] * 256),                                            # another class
    bytes(256), with_class(1, range(0x41, 0x7B)), with_class(1, MAY_BE_IN_NAMES),           # no class 2
]

# These do.
LOADED = [OWN, ALL_LETTERS, one_letter(0x22), one_letter(0x23), one_letter(0x7F), one_letter(0xFF), one_letter(0x5F, b'-'),
          one_letter(0x80, MAY_BE_IN_NAMES)]


def named_inputs(call, name):
    """Inputs of a call with this one name in each."""
    a_table, a_document = table([0], [(0, name, any_of(t(0)))]), doc(name, tree(name))
    first = a_document if call in (DOCUMENT_READS, SAMPLE) else a_table
    return first, a_document if call in (LETS_IN,) + BY_DOCUMENT else a_table if call in BY_TABLE else b''


def in_turn(number):
    """Some call, each in its turn."""
    return CALLS[number % len(CALLS)]


def loading_edges():
    """Each rule of the classes."""
    for call in CALLS:
        for classes in BAD_CLASSES:
            yield 18, call, *good_inputs(call), dict(classes=classes)
        for classes in (ref.ASCII, OWN, ALL_LETTERS):
            yield 0, call, *good_inputs(call), dict(classes=classes)
        for classes in LOADED:
            letter = bytes([classes.index(2)])
            yield 0, call, *named_inputs(call, letter), dict(classes=classes)
    for number, byte in enumerate(IN_NO_NAME):
        for class_ in (1, 2):
            call = in_turn(number + class_)
            yield 18, call, *good_inputs(call), dict(classes=with_class(class_, [byte], (ref.ASCII, OWN)[number % 2]))
    yield 18, TABLE_READS, GOOD_TABLE, b'', dict(classes=with_class(2, range(256)))
    yield 18, TABLE_READS, GOOD_TABLE, b'', dict(classes=with_class(1, IN_NO_NAME, OWN))


def byte_class_edges():
    """Every byte that may be in names as a letter, as one that is not first, and as one that is in no name."""
    for number, byte in enumerate(MAY_BE_IN_NAMES):
        before = b'y' if byte == 0x7A else b'z'
        for turn, (class_, name, refusal) in enumerate((
                (2, bytes([byte]), 0), (1, before + bytes([byte]), 0), (1, bytes([byte]), 5), (0, before + bytes([byte]), 5))):
            call = in_turn(number + 4 * turn)
            yield refusal, call, *named_inputs(call, name), dict(classes=with_class(class_, [byte]))


def lent_edges():
    """18 comes after 1 and before everything else, at every size; the words are cleared, the output is not touched."""
    over = bytes(ref.INPUT_BYTES + 1)
    for call in CALLS:
        good, bad = good_inputs(call), BAD_CLASSES[2 * call % len(BAD_CLASSES)]
        for size, words in ((SMALL, 12288), (STANDARD, 16384), (LARGE, 32768), (3, 16384)):
            for classes in (bad, BAD_CLASSES[call]):
                yield 1, call, *good, dict(classes=classes, size=size, work=words - 1, fill=0xFFFFFFFF, out=200)
                yield 18, call, *good, dict(classes=classes, size=size, work=words, fill=0xFFFFFFFF, out=200)
            yield 18, call, *good, dict(classes=bad, size=size, work=words + 132, fill=0xDEADBEEF, out=0)
        yield 1, call, *good, dict(classes=bad, work=0, out=10)
        yield 18, call, *good, dict(classes=bad, work=MOST_WORK, size=SMALL, fill=7, out=MOST_FOR_TABLES)
        yield 18, call, over, good[1], dict(classes=bad, out=9)                         # 2
        if call in (LETS_IN, LOCAL_BY_TABLE, SINGLE_BY_DOCUMENT):
            yield 18, call, good[0], over, dict(classes=bad, out=9)
            yield 18, call, good[0], b'', dict(classes=bad)
        for faulty in (b'', b'\x99\x00\x00', label('?') + END, END + b'\x00', doc('?'), GOOD_DOC + b'\x00'):
            yield 18, call, faulty, good[1], dict(classes=bad)                          # 3, 4, 5, 12
        yield 18, call, *named_inputs(call, '\xe9'), dict(classes=bad)
    yield 1, TABLE_READS, over, b'', dict(classes=BAD_CLASSES[0], work=16383)
    yield 18, LABEL_NAME, GOOD_TABLE, b'', dict(classes=BAD_CLASSES[3], label=2)           # 8
    yield 8, LABEL_NAME, GOOD_TABLE, b'', dict(classes=OWN, label=2)
    yield 18, TABLE_READS, one_rule(deep(33)), b'', dict(classes=BAD_CLASSES[6])           # 10
    yield 18, DOCUMENT_READS, DOC_END, b'', dict(classes=BAD_CLASSES[0])                   # 11
    for call in BY_TABLE:
        yield 18, call, E, E, dict(classes=BAD_CLASSES[4])                                 # 13
        yield 13, call, E, E, dict(classes=OWN)
        yield 18, call, star(63), EXTRA, dict(classes=BAD_CLASSES[10], out=0)              # 14
        yield 14, call, star(63), EXTRA, dict(classes=OWN, out=0)
    for call in WRITING_TABLES:
        yield 18, call, *good_inputs(call), dict(classes=BAD_CLASSES[20], out=0)           # 15
        yield 15, call, *good_inputs(call), dict(classes=OWN, out=0)


OWN_TABLE = table([0], [(0, OWN_NAMES[0], any_of(choice(t(1), t(2)))), (1, OWN_NAMES[1], EMPTY), (2, OWN_NAMES[2], optional(t(1)))])
OWN_DOC = doc(OWN_NAMES[0], tree(OWN_NAMES[2], tree(OWN_NAMES[1])), tree(OWN_NAMES[1]))
OWN_OTHER = table([5], [(5, OWN_NAMES[2], any_of(t(6))), (6, '\xe9#', EMPTY)])


def own_name_edges():
    """Names of other letters than ASCII's through every call; under ASCII's classes they are no names."""
    inputs = [(TABLE_READS, OWN_TABLE, b''), (DOCUMENT_READS, OWN_DOC, b''), (IS_LOCAL, OWN_TABLE, b''),
              (IS_SINGLE_TYPE, OWN_TABLE, b''), (SAMPLE, OWN_DOC, b''), (LETS_IN, OWN_TABLE, OWN_DOC)]
    inputs += [(call, *pair) for call in BY_TABLE for pair in ((OWN_TABLE, E), (E, OWN_TABLE), (OWN_TABLE, OWN_OTHER),
                                                               (OWN_OTHER, OWN_TABLE), (GOOD_TABLE, OWN_OTHER))]
    inputs += [(call, a_table, OWN_DOC) for call in BY_DOCUMENT for a_table in (OWN_TABLE, OWN_OTHER, E, P5)]
    for number, (call, first, second) in enumerate(inputs):
        for refusal, classes in ((0, OWN), (0, ALL_LETTERS), (5, ref.ASCII), (5, with_class(1, [0x7F, 0xFF], OWN)),
                                 (5, with_class(0, [0xFD], OWN))):
            yield refusal, call, first, second, dict(classes=classes, size=SIZES[number % 3], out='exact')
    for number, refusal in ((0, 0), (1, 0), (2, 0), (3, 8), (255, 8)):
        yield refusal, LABEL_NAME, OWN_TABLE, b'', dict(classes=OWN, label=number)
        yield 5, LABEL_NAME, OWN_TABLE, b'', dict(label=number)
    # Each of these bytes is a name, 66 labels to a table.
    letters = [chr(byte) for byte in b'#"&' + bytes(range(0x7F, 0x100))]
    for part in (letters[:66], letters[66:]):
        a_table = table([0], [(0, part[0], any_of(choice(*[t(i) for i in range(1, 66)])))]
                        + [(i, part[i], EMPTY) for i in range(1, 66)])
        a_document = doc(part[0], *[tree(name) for name in part[:0:-1]])
        for refusal, classes in ((0, OWN), (5, ref.ASCII)):
            lent = dict(classes=classes, size=LARGE)
            yield refusal, TABLE_READS, a_table, b'', lent
            yield refusal, LETS_IN, a_table, a_document, lent
            yield refusal, SAMPLE, a_document, b'', lent
            yield refusal, LOCAL_BY_TABLE, a_table, E, lent
            yield refusal, SINGLE_BY_DOCUMENT, E, a_document, lent
        for number in range(66):
            yield 0, LABEL_NAME, a_table, b'', dict(classes=OWN, size=LARGE, label=number)
    # All eight bits of a byte tell these names apart, and so does the last byte of 63.
    for one, other in (('a', '\xe1'), ('A', '\xc1'), ('\xe9', '\xc9'), ('#', '\xa3'), ('\x7f', '\xff'), ('_', '\xdf'),
                       ('x' + '\x80' * 62, 'x' + '\x80' * 61 + '\x81'), ('\xff' * 63, '\xff' * 62)):
        two = table([0], [(0, one, optional(t(1))), (1, other, EMPTY)])
        lent = dict(classes=OWN)
        yield 0, TABLE_READS, two, b'', lent
        yield 6, TABLE_READS, label(one) + label(other) + label(one) + END, b'', lent
        yield 0, LABEL_NAME, two, b'', dict(classes=OWN, label=1)
        for a_tree in (tree(one, tree(other)), tree(one), tree(one, tree(one)), tree(other), tree(other, tree(one))):
            yield 0, LETS_IN, two, document(a_tree), lent
            yield 0, SAMPLE, document(a_tree), b'', lent
        yield 0, IS_LOCAL, two, b'', lent
        yield 0, IS_SINGLE_TYPE, two, b'', lent
        for call in BY_TABLE:
            yield 0, call, two, table([0], [(0, other, any_of(t(0)))]), lent
        for call in BY_DOCUMENT:
            yield 0, call, two, doc(other, tree(one, tree(other))), lent


def name_rule_edges():
    """The name rule reads the lent classes, in both inputs, and in its place among the refusals."""
    no_a, late_a, digits = with_class(0, b'a'), with_class(1, b'a'), with_class(2, b'0123456789-.')
    late = with_class(1, range(0x80, 0x100))
    names = [
        (no_a, 'list', 0), (no_a, 'card', 5), (no_a, 'a', 5), (no_a, 'A', 0), (late_a, 'card', 0), (late_a, 'a', 5),
        (late_a, 'ab', 5), (late_a, 'ba', 0), (late_a, 'aa', 5), (late_a, 'Aa', 0),
        (digits, '1', 0), (digits, '1a', 0), (digits, '-', 0), (digits, '.9', 0), (ref.ASCII, '1', 5), (ref.ASCII, '1a', 5),
        (late, '\x80', 5), (late, '\xff\xfe', 5), (late, 'a\x80', 0), (late, 'a' + '\xff' * 62, 0), (late, '1\x80', 5),
        (late, '\x80a', 5), (late, 'a\x7f', 5), (one_letter(0xFF), '\xff' * 63, 0), (one_letter(0xFF), '\xff\xfe', 5),
        (one_letter(0xFF), 'a', 5), (one_letter(0x61, b'\xff'), 'a\xff', 0), (one_letter(0x61, b'\xff'), '\xffa', 5),
        (one_letter(0x61, b'\xff'), 'ab', 5), (OWN, 'a b', 5), (OWN, 'a\x00', 5), (OWN, 'a\x1f', 5), (OWN, 'a=', 5),
        (ALL_LETTERS, '1-.:;@[]{}~^', 0), (ALL_LETTERS, 'a b', 5), (ALL_LETTERS, ' ', 5), (ALL_LETTERS, '<a>', 5),
        (ALL_LETTERS, 'a/', 5), (ALL_LETTERS, 'a!', 5), (ALL_LETTERS, 'a,b', 5),
    ]
    for number, (classes, name, refusal) in enumerate(names):
        for call in (TABLE_READS, DOCUMENT_READS, in_turn(number + 2), in_turn(number + 7)):
            yield refusal, call, *named_inputs(call, name), dict(classes=classes)
    # In one input or in both, and beside another fault; the first input comes first.
    for call in (LETS_IN,) + BY_TABLE + BY_DOCUMENT:
        (good, good_too), (bad, bad_too) = named_inputs(call, 'list'), named_inputs(call, 'card')
        for refusal, first, second in (
                (0, good, good_too), (5, bad, good_too), (5, good, bad_too), (5, bad, bad_too), (5, bad, b''), (3, good, b''),
                (3, good[:-1], bad_too), (12, good + b'\x00', bad_too), (5, good, bad_too + b'\x00')):
            yield refusal, call, first, second, dict(classes=no_a)
    # 4 before 5, 5 before 6, 7 and 11, under lent classes.
    labels64 = b''.join(label(name) for name in names_of(64, 3))
    for refusal, classes, data in (
            (4, OWN, label('\xe9' * 64) + END), (5, ref.ASCII, label('\xe9' * 63) + END), (0, OWN, label('\xe9' * 63) + END),
            (6, OWN, label('\xe9') + label('\xe9') + END), (5, with_class(1, [0xE9]), label('\xe9') + label('\xe9') + END),
            (5, ref.ASCII, labels64 + label('9') + END), (7, digits, labels64 + label('9') + END),
            (5, with_class(0, b'n'), labels64 + label('9') + END), (6, digits, labels64 + label('n63') + END),
            (5, with_class(0, b'6'), labels64 + label('9') + END)):
        yield refusal, TABLE_READS, data, b'', dict(classes=classes)
        yield refusal, IS_LOCAL, data, b'', dict(classes=classes)
        yield refusal or 13, SINGLE_BY_TABLE, E, data, dict(classes=classes)               # there is no start
    for refusal, classes, data in (
            (5, ref.ASCII, node_field(201, '\xe9') + DOC_END), (11, OWN, node_field(201, '\xe9') + DOC_END),
            (4, OWN, doc('\xe9' * 64)), (5, OWN, node_field(0, '\xe9') + node_field(0, '?') + DOC_END),
            (11, OWN, node_field(0, '\xe9') + node_field(0, '#') + DOC_END),
            (5, with_class(1, [0xE9]), node_field(1, 'a') + node_field(0, '\xe9') + DOC_END)):
        for call in (DOCUMENT_READS, SAMPLE):
            yield refusal, call, data, b'', dict(classes=classes)
        for call in (LETS_IN,) + BY_DOCUMENT:
            yield refusal, call, GOOD_TABLE, data, dict(classes=classes)


def class_edges():
    yield from loading_edges()
    yield from byte_class_edges()
    yield from lent_edges()
    yield from own_name_edges()
    yield from name_rule_edges()


def class_cases(cases):
    for _, call, first, second, options in class_edges():
        cases.add(call, first, second, **options)
    # Results of a widening under other classes, asked under these.
    for call, second in ((LOCAL_BY_TABLE, OWN_OTHER), (SINGLE_BY_TABLE, OWN_OTHER), (LOCAL_BY_DOCUMENT, OWN_DOC),
                         (SINGLE_BY_DOCUMENT, OWN_DOC)):
        for old in (OWN_TABLE, OWN_OTHER, P5):
            cases.add(call, old, second, classes=OWN, out='exact')
            result = answer_of(cases.all[-1]).written
            cases.kinds(result, classes=OWN)
            cases.widen(result, E, classes=OWN)
            for a_document in (OWN_DOC, doc(OWN_NAMES[2], tree('\xe9#')), doc(OWN_NAMES[2]), P5_STRAIGHT, P5_CROSSED):
                cases.add(LETS_IN, result, a_document, classes=OWN)
            for number in range(4):
                cases.add(LABEL_NAME, result, label=number, classes=OWN)


# ---------------------------------------------------------------- letter case

# An edge of letter case is the answer, written by hand, then the call, its two inputs, and what else `Cases.add` is told;
# selftest.py holds the second validator to the answers.

YES, NO = ref.Answer(0, 1, b''), ref.Answer(0, 0, b'')
READS = YES


def refused(number):
    return ref.Answer(number, 0, b'')


def gives(a_table):
    return ref.Answer(0, len(a_table), a_table)


def name_at(offset, length):
    return ref.Answer(0, offset * 65536 + length, b'')


def two_labels(one, other):
    return label(one) + label(other) + start(0) + rule(0, 0, optional(t(1))) + rule(1, 1, EMPTY) + END


# Bytes that differ in the bit by which A differs from a, where both may be in names. | may not, so \ is in none of them.
BIT_PAIRS = [(byte, byte + 0x20) for byte in (*range(0x40, 0x60), *range(0x80, 0xA0), *range(0xC0, 0xE0)) if byte != 0x5C]
LETTER_PAIRS = [(byte, byte + 0x20) for byte in range(0x41, 0x5B)]
NO_LETTERS = [pair for pair in BIT_PAIRS if pair not in LETTER_PAIRS]

# Two names, and whether they are one.
TWO_NAMES = [
    ('card', 'CARD', True), ('Card', 'cARD', True), ('CARD', 'card', True), ('a', 'A', True), ('Z', 'z', True), ('m', 'M', True),
    ('abcdefghijklmnopqrstuvwxyz', 'ABCDEFGHIJKLMNOPQRSTUVWXYZ', True), ('zYxWvUtSrQ', 'ZyXwVuTsRq', True),
    ('x-1', 'X-1', True), ('a_.', 'A_.', True), ('_a', '_A', True), ('n' * 63, 'N' * 63, True), ('n' * 62, 'N' * 62, True),
    ('a' + 'x' * 62, 'A' + 'x' * 62, True), ('x' * 31 + 'a' + 'x' * 31, 'x' * 31 + 'A' + 'x' * 31, True),
    ('x' * 62 + 'A', 'x' * 62 + 'a', True), ('aB' * 31 + 'c', 'Ab' * 31 + 'C', True),
    ('card', 'CARDS', False), ('CARD', 'car', False), ('a', 'AA', False), ('n' * 63, 'N' * 62, False), ('a', 'B', False),
    ('x' * 62 + 'a', 'X' * 62 + 'b', False), ('b' + 'x' * 62, 'A' + 'x' * 62, False),
    ('x' * 31 + 'a' + 'x' * 31, 'X' * 31 + 'Q' + 'X' * 31, False),
    ('card1', 'CARD2', False), ('a-b', 'A.B', False), ('_', 'A', False), ('draC', 'CARD', False), ('Card', 'DARC', False),
]


def repeated_edges():
    """6, for labels."""
    for number, (one, other, same) in enumerate(TWO_NAMES):
        answer = refused(6) if same else READS
        yield answer, TABLE_READS, two_labels(one, other), b'', dict(size=SIZES[number % 3])
        yield answer, TABLE_READS, label('q') + label(other) + label('r') + label(one) + END, b'', dict(size=SIZES[(number + 1) % 3])
    pair = label('card') + label('CARD')
    for data in (pair + start(0) + start(0) + rule(0, 9, EMPTY) + END, label('CARD') + label('list') + label('Card')):
        for call in (TABLE_READS, LABEL_NAME, IS_LOCAL, IS_SINGLE_TYPE):
            yield refused(6), call, data, b'', {}
        for call in (LETS_IN,) + BY_DOCUMENT:
            yield refused(6), call, data, GOOD_DOC, {}
        for call in BY_TABLE:
            yield refused(6), call, data, GOOD_TABLE, {}
            yield refused(6), call, GOOD_TABLE, data, {}
    # 6 before 7 and 8; a field past the end is 3, one of 64 bytes 4.
    for count, *refusals in ((16, 6, 6, 6), (64, 7, 6, 6), (128, 7, 7, 6)):
        for again in ('N000', 'N%03d' % (count - 1)):
            data = b''.join(label(name) for name in names_of(count, 4) + [again]) + END
            for size in SIZES:
                yield refused(refusals[size]), TABLE_READS, data, b'', dict(size=size)
    yield refused(6), LABEL_NAME, pair + END, b'', dict(label=9)
    yield refused(3), TABLE_READS, label('card') + label('CARD')[:-1], b'', {}
    yield refused(4), TABLE_READS, label('a' * 63) + label('A' * 64) + END, b'', {}
    yield refused(6), LOCAL_BY_TABLE, pair + END, b'', {}
    yield refused(3), LOCAL_BY_TABLE, b'', pair + END, {}
    # Starts are numbers: type 41 is not type 61.
    yield READS, TABLE_READS, start(0x41) + start(0x61) + END, b'', dict(size=LARGE)


def bit_edges():
    """The 26 letters and no other bytes."""
    for number, pair in enumerate(BIT_PAIRS):
        one, other = [bytes([byte]) for byte in (pair if number % 2 else pair[::-1])]
        same = 0x41 <= pair[0] <= 0x5A
        lent = dict(classes=ALL_LETTERS, size=SIZES[number % 3])
        yield refused(6) if same else READS, TABLE_READS, two_labels(one, other), b'', lent
        yield YES if same else NO, LETS_IN, table([0], [(0, one, EMPTY)]), doc(other), lent
    # All letters, and all others, below one root.
    names = [chr(byte) for pair in LETTER_PAIRS for byte in pair]
    for classes in (ref.ASCII, ALL_LETTERS):
        told = table([0], [(0, '_', seq(*[some_of(t(1 + i)) for i in range(26)]))] + [(1 + i, chr(0x41 + i), EMPTY) for i in range(26)])
        yield gives(told), SAMPLE, doc('_', *[tree(name) for name in names]), b'', dict(classes=classes)
        told = table([0], [(0, 'a', seq(*[t(1 + i % 26) for i in range(52)]))] + [(1 + i, chr(0x61 + i), EMPTY) for i in range(26)])
        yield gives(told), SAMPLE, doc('a', *[tree(name) for name in names[1::2] + names[::2]]), b'', dict(classes=classes)
    for part in (NO_LETTERS[:37], NO_LETTERS[37:]):
        names = [chr(byte) for pair in part for byte in pair]
        told = table([0], [(0, 'a', seq(*[t(1 + i) for i in range(len(names))]))] + [(1 + i, name, EMPTY) for i, name in enumerate(names)])
        below, lent = [tree(name) for name in names], dict(classes=ALL_LETTERS, size=LARGE, out='exact')
        yield gives(told), SAMPLE, doc('a', *below), b'', lent
        yield READS, TABLE_READS, told, b'', lent
        yield YES, LETS_IN, told, doc('A', *below), lent
        yield NO, LETS_IN, told, doc('A', *below[:-2], *below[:-3:-1]), lent
        for call in BY_DOCUMENT:
            yield gives(told), call, E, doc('a', *below), lent
        for call in BY_TABLE:
            yield gives(told), call, told, in_capitals(told), lent


def rule_on_bytes_edges():
    """The name rule is on bytes, under the lent classes: 5 before 6."""
    no_small, no_capital, late_small = with_class(0, b'a'), with_class(0, b'A'), with_class(1, b'a')
    for number, (classes, one, other, refusal) in enumerate((
            (no_small, 'A', 'a', 5), (no_small, 'a', 'A', 5), (no_small, 'A', 'A', 6), (no_small, 'b', 'B', 6), (no_small, 'bA', 'BA', 6),
            (no_small, 'bA', 'ba', 5), (no_capital, 'a', 'A', 5), (no_capital, 'A', 'a', 5), (no_capital, 'a', 'a', 6),
            (no_capital, 'card', 'CARD', 5), (no_capital, 'card', 'CaRD', 6), (late_small, 'A', 'a', 5), (late_small, 'a', 'A', 5),
            (late_small, 'Aa', 'AA', 6), (late_small, 'Aa', 'aA', 5), (one_letter(0x41, b'a'), 'AA', 'Aa', 6),
            (one_letter(0x41, b'a'), 'AA', 'aA', 5), (one_letter(0x61), 'a', 'A', 5), (OWN, 'card', 'CARD', 6),
            (ALL_LETTERS, 'card', 'CARD', 6), (ALL_LETTERS, '1a:', '1A:', 6), (ALL_LETTERS, 'a@', 'A`', 0), (OWN, 'A\xe9', 'a\xc9', 0),
            (OWN, 'A\xe9', 'a\xe9', 6))):
        lent = dict(classes=classes)
        yield refused(refusal) if refusal else READS, TABLE_READS, two_labels(one, other), b'', lent
        yield refused(refusal) if refusal else NO, LETS_IN, two_labels(one, other), doc(other), lent
        if refusal == 5:
            for call in (DOCUMENT_READS, SAMPLE):
                yield refused(5), call, doc(one, tree(other)), b'', lent
            yield refused(5), BY_TABLE[number % 2], table([0], [(0, one, EMPTY)]), table([0], [(0, other, EMPTY)]), lent
            yield refused(5), BY_DOCUMENT[number % 2], table([0], [(0, one, EMPTY)]), doc(other), lent
        elif refusal == 6:
            yield READS, DOCUMENT_READS, doc(one, tree(other)), b'', lent
            yield YES, LETS_IN, table([0], [(0, one, EMPTY)]), doc(other), lent


def spelled_membership_edges():
    for one, other, same in TWO_NAMES:
        yield YES if same else NO, LETS_IN, table([0], [(0, one, any_of(t(0)))]), doc(other), {}
        yield YES if same else NO, LETS_IN, table([0], [(0, other, any_of(t(0)))]), doc(other, tree(one), tree(other)), {}
    mixed = doc('LIST', tree('Card', tree('NAME'), tree('dOOR')), tree('card', tree('name')), tree('CARD', tree('naMe'), tree('DooR')))
    for a_table in (LISTER_TABLE, in_capitals(LISTER_TABLE), spelled(bytes.title, LISTER_TABLE)):
        for size in SIZES:
            yield YES, LETS_IN, a_table, mixed, dict(size=size)
        for answer, a_document in (
                (YES, in_capitals(mixed)), (YES, in_small_letters(mixed)), (YES, doc('liST')), (NO, doc('LISTS')), (NO, doc('LIS')),
                (NO, doc('LIST', tree('CARD', tree('DOOR')))), (NO, doc('LIST', tree('CARD', tree('DOOR'), tree('NAME')))),
                (NO, doc('LIST', tree('CARD', tree('NAME'), tree('ZONE')))), (NO, doc('CARD')), (NO, doc('list', tree('LIST')))):
            yield answer, LETS_IN, a_table, a_document, {}
    for answer, a_document in ((YES, P5_STRAIGHT), (NO, P5_CROSSED)):
        yield answer, LETS_IN, P5, in_capitals(a_document), {}
        yield answer, LETS_IN, in_capitals(P5), a_document, {}
    yield YES, LETS_IN, P1, doc('A'), {}
    yield YES, LETS_IN, CHAIN, document(tree('A', tree('a', tree('a', tree('A'))))), {}


def spelled_samples():
    """Documents with their samples: one path, one label and one type for names that differ in case, and the first spelling."""
    return [
        (doc('list', tree('card'), tree('CARD')), table([0], [(0, 'list', some_of(t(1))), (1, 'card', EMPTY)])),
        (doc('list', tree('card', tree('x')), tree('CARD', tree('X'), tree('x'))),
         table([0], [(0, 'list', some_of(t(1))), (1, 'card', choice(t(2), some_of(t(2)))), (2, 'x', EMPTY)])),
        # The first spelling over all paths, and two paths with one label.
        (doc('list', tree('A', tree('card')), tree('Card')),
         table([0], [(0, 'list', seq(t(1), t(3))), (1, 'A', t(2)), (2, 'card', EMPTY), (3, 'card', EMPTY)])),
        (doc('list', tree('Card'), tree('A', tree('card'))),
         table([0], [(0, 'list', seq(t(1), t(2))), (1, 'Card', EMPTY), (2, 'A', t(3)), (3, 'Card', EMPTY)])),
        (doc('LIST', tree('list')), table([0], [(0, 'LIST', t(1)), (1, 'LIST', EMPTY)])),
        (doc('list', tree('LIST', tree('List'))), table([0], [(0, 'list', t(1)), (1, 'list', t(2)), (2, 'list', EMPTY)])),
        # Child sequences that differ in case are one.
        (doc('r', tree('g', tree('a'), tree('b')), tree('G', tree('A'), tree('B')), tree('g', tree('B'), tree('a')),
             tree('G', tree('b'), tree('A'))),
         table([0], [(0, 'r', some_of(t(1))), (1, 'g', choice(seq(t(2), t(3)), seq(t(3), t(2)))), (2, 'a', EMPTY), (3, 'b', EMPTY)])),
        (doc('r', tree('g', tree('X')), tree('G', tree('x')), tree('g', tree('x'))),
         table([0], [(0, 'r', some_of(t(1))), (1, 'g', t(2)), (2, 'X', EMPTY)])),
        (doc('R', tree('p', tree('Q', tree('a'))), tree('s', tree('q', tree('b'))), tree('P', tree('q'))),
         table([0], [(0, 'R', seq(t(1), t(4), t(1))), (1, 'p', t(2)), (2, 'Q', choice(t(3), EMPTY)), (3, 'a', EMPTY), (4, 's', t(5)),
                     (5, 'Q', t(6)), (6, 'b', EMPTY)], ['R', 'p', 'Q', 'a', 's', 'b'])),
        (doc('n' * 63, tree('N' * 63), tree('N' * 62)),
         table([0], [(0, 'n' * 63, seq(t(1), t(2))), (1, 'n' * 63, EMPTY), (2, 'N' * 62, EMPTY)])),
    ]


def spelled_sample_edges():
    for number, (a_document, told) in enumerate(spelled_samples()):
        yield gives(told), SAMPLE, a_document, b'', dict(size=SIZES[number % 3], out='exact')
        yield YES, LETS_IN, told, a_document, {}
        yield YES, LETS_IN, in_capitals(told), in_small_letters(a_document), {}
    # As many paths as the size takes, and one more.
    for size, most in ((SMALL, 16), (STANDARD, 64), (LARGE, 128)):
        names = ['c%03d' % i for i in range(most - 1)]
        every, leaf = [t(1 + i) for i in range(most - 1)], [(1 + i, name, EMPTY) for i, name in enumerate(names)]
        for more, sequence in (('C000', every + [t(1)]), ('C%03d' % (most - 2), every[:-1] + [some_of(every[-1])]),
                               ('C%03d' % (most - 1), None)):
            answer = gives(table([0], [(0, 'C', seq(*sequence))] + leaf)) if sequence else refused(14)
            a_document = doc('C', *[tree(name) for name in names + [more]])
            yield answer, SAMPLE, a_document, b'', dict(size=size)
            for call in BY_DOCUMENT:
                yield answer, call, E, a_document, dict(size=size)


def spelled_widenings():
    """An old table, an addition, and the result, or the two results to local and to single-type."""
    list_of_cards = table([0], [(0, 'list', choice(any_of(t(1)), t(1))), (1, 'card', EMPTY)])
    both = table([0], [(0, 'list', choice(EMPTY, t(1))), (1, 'card', EMPTY)])
    return [
        # The old table's spelling stays.
        (GOOD_TABLE, table([3], [(3, 'LIST', t(4)), (4, 'CARD', EMPTY)]), list_of_cards),
        (GOOD_TABLE, doc('LIST', tree('Card')), list_of_cards),
        (in_capitals(GOOD_TABLE), doc('list', tree('card')), in_capitals(list_of_cards)),
        (spelled(bytes.title, GOOD_TABLE), table([0], [(0, 'lIST', t(4)), (4, 'cARD', EMPTY)]), spelled(bytes.title, list_of_cards)),
        # Also that of a label without a rule, of one whose rules are unfruitful, and of one whose rules are not reached.
        (table([0], [(0, 'list', EMPTY)], ['card', 'list', 'Zone']), table([0], [(0, 'LIST', t(1)), (1, 'CARD', t(2)), (2, 'ZONE', EMPTY)]),
         table([1], [(0, 'card', t(2)), (1, 'list', choice(EMPTY, t(0))), (2, 'Zone', EMPTY)]),
         table([0], [(0, 'list', choice(EMPTY, t(1))), (1, 'card', t(2)), (2, 'Zone', EMPTY)], ['card', 'list', 'Zone'])),
        (table([], [], ['Card', 'lisT']), doc('list', tree('card'), tree('CARD')),
         table([1], [(0, 'Card', EMPTY), (1, 'lisT', some_of(t(0)))]),
         table([0], [(0, 'lisT', some_of(t(1))), (1, 'Card', EMPTY)], ['Card', 'lisT'])),
        (table([0], [(0, 'list', choice(EMPTY, t(1))), (1, 'card', t(1))]), doc('LIST', tree('CARD')), both),
        (table([0], [(0, 'list', choice(EMPTY, t(1))), (1, 'card', t(1))]), table([0], [(0, 'LIST', t(1)), (1, 'CARD', EMPTY)]), both),
        (table([0], [(0, 'list', EMPTY), (1, 'card', EMPTY)]), doc('LIST', tree('cARD')), both),
        (table([0], [(0, 'list', EMPTY), (1, 'card', EMPTY)]), table([0], [(0, 'LIST', t(1)), (1, 'CARD', EMPTY)]), both),
        (table([0], [(0, 'list', EMPTY), (1, 'card', EMPTY)]), table([0], [(0, 'LIST', EMPTY), (1, 'CARD', EMPTY)]),
         table([0], [(0, 'list', EMPTY)])),
        # Names that the old table does not have are spelled as they first come, whichever the spellings that follow.
        (P1, doc('A', tree('ZONE'), tree('zone'), tree('Zone')),
         table([0], [(0, 'a', choice(EMPTY, some_of(t(1)))), (1, 'ZONE', EMPTY)])),
        (P1, doc('A', tree('zone', tree('CARD')), tree('card')),
         table([0], [(0, 'a', choice(EMPTY, seq(t(1), t(2)))), (1, 'zone', t(2)), (2, 'CARD', EMPTY)]),
         table([0], [(0, 'a', choice(EMPTY, seq(t(1), t(2)))), (1, 'zone', t(3)), (2, 'CARD', EMPTY), (3, 'CARD', EMPTY)],
               ['a', 'zone', 'CARD'])),
        (E, doc('LIST', tree('CARD'), tree('card')), table([0], [(0, 'LIST', some_of(t(1))), (1, 'CARD', EMPTY)])),
        (E, doc('List', tree('LIST')), table([0], [(0, 'List', choice(t(0), EMPTY))]), table([0], [(0, 'List', t(1)), (1, 'List', EMPTY)])),
        (E, in_capitals(GOOD_TABLE), in_capitals(GOOD_TABLE)), (in_capitals(GOOD_TABLE), E, in_capitals(GOOD_TABLE)),
        # Labels stand in the order of the old ones, then of the new.
        (table([0], [(0, 'b', t(1)), (1, 'A', EMPTY)]), table([0], [(0, 'a', t(1)), (1, 'C', t(2)), (2, 'B', EMPTY)]),
         table([0, 1], [(0, 'b', choice(t(1), EMPTY)), (1, 'A', choice(EMPTY, t(2))), (2, 'C', t(0))]),
         table([0, 1], [(0, 'b', t(2)), (1, 'A', t(3)), (2, 'A', EMPTY), (3, 'C', t(4)), (4, 'b', EMPTY)], ['b', 'A', 'C'])),
    ]


def spelled_widening_edges():
    for number, (old, addition, *results) in enumerate(spelled_widenings()):
        by_document = addition[0] == 0x30
        for call, result in zip(BY_DOCUMENT if by_document else BY_TABLE, results if len(results) == 2 else results * 2):
            yield gives(result), call, old, addition, dict(size=SIZES[number % 3], out='exact')
            if number % 5 == 0:
                yield refused(15), call, old, addition, dict(out='short')
            if by_document:
                yield YES, LETS_IN, result, addition, {}
                yield YES, LETS_IN, result, in_small_letters(addition), {}
    # Bytes that are no letters are two names.
    for one, other in (('@', '`'), ('[', '{'), (']', '}'), ('^', '~'), ('_', '\x7f'), ('\xc0', '\xe0'), ('\xde', '\xfe'), ('\x9a', '\xba')):
        two = table([0, 1], [(0, one, EMPTY), (1, other, EMPTY)])
        for call in BY_TABLE:
            yield gives(two), call, table([0], [(0, one, EMPTY)]), table([0], [(0, other, EMPTY)]), dict(classes=ALL_LETTERS)
        for call in BY_DOCUMENT:
            yield gives(two), call, table([0], [(0, one, EMPTY)]), doc(other), dict(classes=ALL_LETTERS)
        yield gives(table([0], [(0, one, t(1)), (1, other, EMPTY)])), SAMPLE, doc(one, tree(other)), b'', dict(classes=ALL_LETTERS)
    # As many types as the size takes: none is added where the name is an old one.
    for size, count in ((SMALL, 15), (STANDARD, 63), (LARGE, 127)):
        wider = table([0], [(0, 's', choice(*[t(i) for i in range(1, count + 1)], EMPTY))]
                      + [(i, 's%d' % i, EMPTY) for i in range(1, count + 1)])
        for call in BY_DOCUMENT:
            yield gives(wider), call, star(count), doc('S'), dict(size=size)
            yield refused(14), call, star(count), doc('T'), dict(size=size)
        for call in BY_TABLE:
            yield gives(star(count)), call, star(count), in_capitals(star(count)), dict(size=size)
            yield gives(in_capitals(star(count))), call, in_capitals(star(count)), star(count), dict(size=size)


def spelled_look_up_edges():
    """A name asked for by its number comes back as its own table spells it."""
    for names in (('card', 'LIST', 'Zone'), ('CARD', 'list', 'zONE')):
        a_table = table([], [], names)
        for number, answer in enumerate((name_at(3, 4), name_at(10, 4), name_at(17, 4), refused(8))):
            yield answer, LABEL_NAME, a_table, b'', dict(label=number)


def spelling_edges():
    yield from repeated_edges()
    yield from bit_edges()
    yield from rule_on_bytes_edges()
    yield from spelled_membership_edges()
    yield from spelled_sample_edges()
    yield from spelled_widening_edges()
    yield from spelled_look_up_edges()


def spelling_cases(cases):
    for _, call, first, second, options in spelling_edges():
        cases.add(call, first, second, **options)
    # The paper's tables, the addition in capitals; the results asked for their kinds, names and documents.
    for number, (paper_table, a_document) in enumerate((
            (P5, P5_CROSSED), (P6, doc('group', tree('group', tree('card')))), (P7, doc('list', tree('door', tree('time')))),
            (P8, doc('list')), (LISTER_TABLE, LISTER_DOC))):
        for call in BY_TABLE + BY_DOCUMENT:
            cases.add(call, paper_table, in_capitals(paper_table if call in BY_TABLE else a_document), out='exact')
            result = answer_of(cases.all[-1]).written
            cases.kinds(result)
            cases.add(BY_TABLE[number % 2], result, in_capitals(result))
            cases.add(LETS_IN, result, a_document)
            cases.add(LETS_IN, in_capitals(result), a_document)
            cases.add(LABEL_NAME, result, label=number % 4)


# ---------------------------------------------------------------- runs of neighbours

# An edge of runs is as one of letter case: the answer, written by hand, then the call, its two inputs, and what else `Cases.add` is told;
# selftest.py holds the second validator to the answers.

def row(word, name='r'):
    """A tree of a node and its leaves, a letter each."""
    return tree(name, *[tree(letter) for letter in word])


def above_leaves(content, heads, root='r'):
    """A rule of that content over leaves of these names, types 1 and on; rules 13 for heads with text."""
    return table([0], [(0, name_of(root), content, holds_text(root))]
                 + [(1 + i, name_of(head), EMPTY, holds_text(head)) for i, head in enumerate(heads)])


A, B, C = t(1), t(2), t(3)
AS, BS, CS = some_of(A), some_of(B), some_of(C)


def run_words():
    """Leaves below one node, and the content of their sample; the letters stand in the order of first sight."""
    return [
        # No run, and a run that is all.
        ('', EMPTY), ('a', A), ('ab', seq(A, B)), ('aa', AS), ('aaa', AS), ('a' * 9, AS), ('a' * 10, AS), ('a' * 199, AS), ('a' * 200, AS),
        # First, last, between.
        ('aab', seq(AS, B)), ('aaab', seq(AS, B)), ('abb', seq(A, BS)), ('abbb', seq(A, BS)), ('abbc', seq(A, BS, C)),
        ('abbbbc', seq(A, BS, C)), ('aabc', seq(AS, B, C)), ('abcc', seq(A, B, CS)), ('a' * 199 + 'b', seq(AS, B)),
        ('a' + 'b' * 199, seq(A, BS)), ('a' + 'b' * 198 + 'c', seq(A, BS, C)),
        # Two runs, and three.
        ('aabb', seq(AS, BS)), ('aaabb', seq(AS, BS)), ('aabbb', seq(AS, BS)), ('aabcc', seq(AS, B, CS)), ('aabbcc', seq(AS, BS, CS)),
        ('a' * 100 + 'b' * 100, seq(AS, BS)), ('a' * 2 + 'b' * 198, seq(AS, BS)),
        # Only neighbours make a run.
        ('aba', seq(A, B, A)), ('abab', seq(A, B, A, B)), ('aaba', seq(AS, B, A)), ('abaa', seq(A, B, AS)), ('aabaa', seq(AS, B, AS)),
        ('aabab', seq(AS, B, A, B)), ('aabaab', seq(AS, B, AS, B)), ('abba', seq(A, BS, A)), ('abbaabba', seq(A, BS, AS, BS, A)),
        ('abcabc', seq(A, B, C, A, B, C)), ('a' * 99 + 'b' + 'a' * 100, seq(AS, B, AS)),
        # A count byte of 2, 3, 127, 128, 199 and 200: it counts what stands after it, not the children.
        ('ab' * 63 + 'a', seq(*[A, B] * 63, A)), ('ab' * 64, seq(*[A, B] * 64)), ('ab' * 63 + 'aa', seq(*[A, B] * 63, AS)),
        ('ab' * 99 + 'a', seq(*[A, B] * 99, A)), ('ab' * 100, seq(*[A, B] * 100)), ('ab' * 99 + 'aa', seq(*[A, B] * 99, AS)),
        ('aa' + 'ba' * 99, seq(AS, *[B, A] * 99)), ('ab' * 49 + 'aab' + 'ab' * 49 + 'a', seq(*[A, B] * 49, AS, B, *[A, B] * 49, A)),
        ('aabb' * 50, seq(*[AS, BS] * 50)), ('aab' * 66 + 'aa', seq(*[AS, B] * 66, AS)), ('a' * 100 + 'ba' * 50, seq(AS, *[B, A] * 50)),
        ('abc' * 66 + 'cc', seq(*[A, B, C] * 65, A, B, CS)),
    ]


def first_seen(word):
    return ''.join(dict.fromkeys(word))


def run_samples():
    """Documents with their samples."""
    x, y = tree('x'), tree('y')

    def groups(*words):
        """A run of groups, each with leaves."""
        return doc('r', *[row(word, 'g') for word in words])

    def of_groups(content, names='x'):
        return table([0], [(0, 'r', some_of(t(1))), (1, 'g', content)] + [(2 + i, name, EMPTY) for i, name in enumerate(names)])

    return [
        # A run's members may differ in letter case; the first spelling is kept.
        (document(row('aA')), above_leaves(AS, 'a')), (document(row('Aa')), above_leaves(AS, 'A')),
        (document(row('AaaAB')), above_leaves(seq(AS, B), 'AB')), (document(row('aBAbB')), above_leaves(seq(A, B, A, BS), 'aB')),
        (document(row('abABba')), above_leaves(seq(A, B, A, BS, A), 'ab')),
        (doc('LIST', tree('Card'), tree('CARD'), tree('card'), tree('Name')), above_leaves(seq(AS, B), ['Card', 'Name'], 'LIST')),
        (doc('r', tree('n' * 63), tree('N' * 63), tree('n' * 62)), above_leaves(seq(AS, B), ['n' * 63, 'n' * 62])),
        # Names that are not equal make none.
        (doc('r', tree('a'), tree('aa'), tree('aaa')), above_leaves(seq(A, B, C), ['a', 'aa', 'aaa'])),
        (doc('r', tree('aa'), tree('a')), above_leaves(seq(A, B), ['aa', 'a'])),
        (doc('r', tree('n' * 62 + 'a'), tree('n' * 62 + 'b')), above_leaves(seq(A, B), ['n' * 62 + 'a', 'n' * 62 + 'b'])),
        # Its members may differ below.
        (doc('r', tree('a', x), tree('a', y)), table([0], [(0, 'r', AS), (1, 'a', choice(t(2), t(3))), (2, 'x', EMPTY), (3, 'y', EMPTY)])),
        (doc('r', tree('a'), tree('a', x)), table([0], [(0, 'r', AS), (1, 'a', choice(EMPTY, t(2))), (2, 'x', EMPTY)])),
        (doc('r', tree('a', x), tree('A')), table([0], [(0, 'r', AS), (1, 'a', choice(t(2), EMPTY)), (2, 'x', EMPTY)])),
        (doc('r', tree('a', tree('x', y, y)), tree('a', x, y), tree('a', y, x, x)),
         table([0], [(0, 'r', AS), (1, 'a', choice(t(2), seq(t(2), t(4)), seq(t(4), some_of(t(2))))),
                     (2, 'x', choice(some_of(t(3)), EMPTY)), (3, 'y', EMPTY), (4, 'y', EMPTY)])),
        # Sequences are told apart with their runs: xx and xxx are one, x and xx are two.
        (groups('xx', 'xxx'), of_groups(some_of(t(2)))), (groups('xxx', 'xx'), of_groups(some_of(t(2)))),
        (groups('x', 'xx'), of_groups(choice(t(2), some_of(t(2))))), (groups('xx', 'x'), of_groups(choice(some_of(t(2)), t(2)))),
        (groups('x', 'xx', 'xxx', 'x'), of_groups(choice(t(2), some_of(t(2))))),
        (groups('xxx', 'x', 'xx', ''), of_groups(choice(some_of(t(2)), t(2), EMPTY))),
        (groups('', 'xx', '', 'xxx'), of_groups(choice(EMPTY, some_of(t(2))))),
        (groups('xX', 'Xxx', 'X'), of_groups(choice(some_of(t(2)), t(2)))),
        (groups('xxy', 'xxxy'), of_groups(seq(some_of(t(2)), t(3)), 'xy')),
        (groups('xxy', 'xy', 'xxxy', 'xyy'), of_groups(choice(seq(some_of(t(2)), t(3)), seq(t(2), t(3)), seq(t(2), some_of(t(3)))), 'xy')),
        (groups('xyx', 'xxyxx', 'xyyx', 'xxxyxxx', 'xyx'),
         of_groups(choice(seq(t(2), t(3), t(2)), seq(some_of(t(2)), t(3), some_of(t(2))), seq(t(2), some_of(t(3)), t(2))), 'xy')),
        (groups('xyxy', 'xxyy', 'xy'), of_groups(choice(seq(*[t(2), t(3)] * 2), seq(some_of(t(2)), some_of(t(3))), seq(t(2), t(3))), 'xy')),
        (groups('x' * 200, 'x' * 199, 'xx'), of_groups(some_of(t(2)))),
        (groups('xy' * 99 + 'x', 'xy' * 99 + 'xx'),
         of_groups(choice(seq(*[t(2), t(3)] * 99, t(2)), seq(*[t(2), t(3)] * 99, some_of(t(2)))), 'xy')),
        # Of documents with many children that differ in their runs alone few sequences are left.
        (groups(*['x' * (99 - i) + 'y' + 'x' * i for i in (0, 1, 2, 98, 97)], 'xxxxx'),
         of_groups(choice(seq(some_of(t(2)), t(3)), seq(some_of(t(2)), t(3), t(2)), seq(some_of(t(2)), t(3), some_of(t(2))),
                          seq(t(2), t(3), some_of(t(2))), some_of(t(2))), 'xy')),
        # Runs on several paths, of one name on two, and one below the other.
        (doc('r', tree('p', x, x), tree('s', x, x, x), tree('p', x)),
         table([0], [(0, 'r', seq(t(1), t(3), t(1))), (1, 'p', choice(some_of(t(2)), t(2))), (2, 'x', EMPTY), (3, 's', some_of(t(4))),
                     (4, 'x', EMPTY)])),
        (doc('r', tree('b'), tree('a', x), tree('a', y, y), tree('b'), tree('b')),
         table([0], [(0, 'r', seq(t(1), some_of(t(2)), some_of(t(1)))), (1, 'b', EMPTY), (2, 'a', choice(t(3), some_of(t(4)))),
                     (3, 'x', EMPTY), (4, 'y', EMPTY)])),
        (doc('a', tree('a'), tree('A', tree('a'), tree('a', tree('a')))),
         table([0], [(0, 'a', some_of(t(1))), (1, 'a', choice(EMPTY, some_of(t(2)))), (2, 'a', choice(EMPTY, t(3))), (3, 'a', EMPTY)])),
        (doc('a', tree('a', tree('b')), tree('b'), tree('a', tree('b'), tree('b'))),
         table([0], [(0, 'a', seq(t(1), t(3), t(1))), (1, 'a', choice(t(2), some_of(t(2)))), (2, 'b', EMPTY), (3, 'b', EMPTY)])),
    ]


def run_sample_edges():
    for number, (word, content) in enumerate(run_words()):
        told = above_leaves(content, first_seen(word))
        for size in SIZES if len(word) < 10 else (SIZES[number % 3],):
            yield gives(told), SAMPLE, document(row(word)), b'', dict(size=size, out='exact')
        yield gives(told), BY_DOCUMENT[number % 2], E, document(row(word)), dict(size=SIZES[number % 3])
        yield YES, LETS_IN, told, document(row(word)), {}
    for number, (a_document, told) in enumerate(run_samples()):
        yield gives(told), SAMPLE, a_document, b'', dict(size=SIZES[number % 3] if len(a_document) < 1000 else LARGE, out='exact')
        yield YES, LETS_IN, told, a_document, {}
        if number % 4 == 0:
            yield refused(15), SAMPLE, a_document, b'', dict(out='short', size=LARGE)
    # 201 children are too many, whatever their sample would be.
    for word in ('a' * 201, 'ab' * 100 + 'a', 'ab' * 100 + 'b', 'a' * 200 + 'b'):
        for size in SIZES:
            yield refused(11), SAMPLE, document(row(word)), b'', dict(size=size)
        for call in BY_DOCUMENT:
            yield refused(11), call, GOOD_TABLE, document(row(word)), {}
    # Bytes that differ as A and a do and are no letters are two names.
    for one, other in (('@', '`'), ('[', '{'), ('_', '\x7f'), ('\xc9', '\xe9')):
        told = above_leaves(seq(A, B, AS), [one, other])
        yield gives(told), SAMPLE, document(row([one, other, one, one])), b'', dict(classes=ALL_LETTERS)
    # The first and the last type of a size in a run, and all of them, or as many as there can be.
    for size, most in ((SMALL, 16), (STANDARD, 64), (LARGE, 128)):
        names, every = ['c%03d' % i for i in range(most - 1)], [t(1 + i) for i in range(most - 1)]
        few = min(most - 1, 100)
        for word, items, used in (
                (names[:1] + names, [AS] + every[1:], names), (names + names[-1:], every[:-1] + [some_of(every[-1])], names),
                ([name for name in names[:few] for _ in range(2)], [some_of(one) for one in every[:few]], names[:few])):
            yield gives(above_leaves(seq(*items), used)), SAMPLE, document(row(word)), b'', dict(size=size)
        yield refused(14), SAMPLE, document(row(names + ['d', 'd'])), b'', dict(size=size)


def run_limit_edges():
    """14 is on the sample with its runs."""
    x, y, z = t(2), t(3), t(4)
    xs, ys, zs = some_of(x), some_of(y), some_of(z)
    leaf = [(2, 'x', EMPTY), (3, 'y', EMPTY), (4, 'z', EMPTY)]
    # These five, in a choice, have 1,012 bytes.
    words = [pair * 50 for pair in ('xy', 'yx', 'xz', 'zx', 'yz')]
    contents = [seq(*pair * 50) for pair in ([x, y], [y, x], [x, z], [z, x], [y, z])]
    for more, last in (
            # 1,024 bytes.
            (['xyxyx'], [seq(x, y, x, y, x)]), (['xxyxyy'], [seq(xs, y, x, ys)]), (['xxyyxy'], [seq(xs, ys, x, y)]),
            (['x' * 90 + 'yx' + 'y' * 108], [seq(xs, y, x, ys)]), (['xxyxyy', 'xxxyxyyy'], [seq(xs, y, x, ys)]),
            (['xyxy', 'x'], [seq(x, y, x, y), x]), (['x', 'xx', 'yy', 'y', 'z'], [x, xs, ys, y, z]),
            # Fewer.
            (['xxyxz'], [seq(xs, y, x, z)]), (['xx', 'xxx', 'yy', 'zz', 'xxxx'], [xs, ys, zs]),
            # 1,025, and the last one 1,026.
            (['xyxyx', ''], None), (['xyxyxx'], None), (['xyxyxxx'], None), (['xxyyxxy'], None), (['xxyxyy', ''], None),
            (['x', 'xx', 'yy', 'y', 'z', ''], None), (['xyxyxy'], None)):
        a_document = doc('r', *[row(word, 'g') for word in words + more])
        told = gives(table([0], [(0, 'r', some_of(t(1))), (1, 'g', choice(*contents, *last))] + leaf)) if last else refused(14)
        yield told, SAMPLE, a_document, b'', dict(out=2000)
        yield told, BY_DOCUMENT[len(more) % 2], E, a_document, dict(out=2000)
        if last is None:
            yield refused(14), BY_DOCUMENT[len(more[0]) % 2], P1, a_document, dict(out=0)
    # The result's content has 514 bytes, one for each marked type of the old table, and those of the sample's.
    for marks, word, items in (
            (110, 'ab' * 99 + 'a', [A, B] * 99 + [A]), (111, 'ab' * 99 + 'a', None), (108, 'ab' * 100, [A, B] * 100),
            (109, 'ab' * 100, None), (109, 'ab' * 99 + 'aa', [A, B] * 99 + [AS]), (110, 'ab' * 99 + 'aa', None),
            (255, 'a' * 199 + 'b', [AS, B])):
        old = seq(*[any_of(A)] * marks, *[A] * (255 - marks))
        told = gives(above_leaves(choice(old, seq(*items)), 'ab')) if items else refused(14)
        for call in BY_DOCUMENT:
            yield told, call, above_leaves(old, 'a'), document(row(word)), dict(out='exact')


def cards(content):
    return above_leaves(content, ['card'], 'list')


def list_of(count):
    return document(wide_doc(count))


def run_widenings():
    """An old table, a document, its sample, and the result, or the two results to local and to single-type."""
    nine, one = (list_of(9), cards(AS)), (list_of(1), cards(A))
    x, door, time, code = tree('x'), 'door', tree('time'), tree('code')
    return [
        (E, *nine, cards(AS)), (cards(any_of(A)), *nine, cards(choice(any_of(A), AS))), (cards(AS), *nine, cards(AS)),
        (cards(seq(A, A)), *nine, cards(choice(seq(A, A), AS))), (cards(A), *nine, cards(choice(A, AS))),
        (cards(optional(A)), *nine, cards(choice(optional(A), AS))), (cards(EMPTY), *nine, cards(choice(EMPTY, AS))),
        (cards(choice(A, AS)), *nine, cards(choice(A, AS))), (cards(seq(*[A] * 9)), *nine, cards(choice(seq(*[A] * 9), AS))),
        (E, *one, cards(A)), (cards(any_of(A)), *one, cards(choice(any_of(A), A))), (cards(AS), *one, cards(choice(AS, A))),
        (cards(seq(A, A)), *one, cards(choice(seq(A, A), A))), (cards(A), *one, cards(A)),
        (cards(choice(EMPTY, A, seq(A, A))), list_of(2), cards(AS), cards(choice(EMPTY, A, seq(A, A), AS))),
        (cards(any_of(A)), list_of(200), cards(AS), cards(choice(any_of(A), AS))),
        # The old table's spelling, over a run of two spellings.
        (GOOD_TABLE, doc('LIST', tree('CARD'), tree('Card')), table([0], [(0, 'LIST', AS), (1, 'CARD', EMPTY)]),
         cards(choice(any_of(A), AS))),
        # An old type without a document, and one that is not reached.
        (table([0], [(0, 'list', choice(EMPTY, t(1))), (1, 'card', t(1))]), list_of(3), cards(AS), cards(choice(EMPTY, AS))),
        (table([0], [(0, 'list', EMPTY), (1, 'card', EMPTY), (1, 'zone', EMPTY)]), list_of(3), cards(AS), cards(choice(EMPTY, AS))),
        (LISTER_TABLE, doc('list', tree('card', tree('name'), tree('zone')), tree('card', tree('name'), tree('zone'), tree('zone')),
                           tree('card', tree('name'))),
         table([0], [(0, 'list', AS), (1, 'card', choice(seq(t(2), t(3)), seq(t(2), some_of(t(3))), t(2))), (2, 'name', EMPTY),
                     (3, 'zone', EMPTY)]),
         table([0], [(0, 'list', choice(any_of(A), AS)),
                     (1, 'card', choice(seq(t(2), optional(t(3))), seq(t(2), t(4)), seq(t(2), some_of(t(4))), t(2))), (2, 'name', EMPTY),
                     (3, 'door', EMPTY), (4, 'zone', EMPTY)])),
        # One name on two paths: one type to local, two to single-type.
        (P5, doc('block', tree('floor', tree(door, time), tree(door, time)), tree('lift', tree(door, code, code))),
         table([0], [(0, 'block', seq(t(1), t(4))), (1, 'floor', some_of(t(2))), (2, door, t(3)), (3, 'time', EMPTY), (4, 'lift', t(5)),
                     (5, door, some_of(t(6))), (6, 'code', EMPTY)]),
         table([0], [(0, 'block', seq(t(1), t(2))), (1, 'floor', choice(t(3), some_of(t(3)))), (2, 'lift', t(3)),
                     (3, door, choice(t(4), t(5), some_of(t(5)))), (4, 'time', EMPTY), (5, 'code', EMPTY)]),
         table([0], [(0, 'block', seq(t(1), t(2))), (1, 'floor', choice(t(3), some_of(t(3)))), (2, 'lift', t(4)), (3, door, t(5)),
                     (4, door, choice(t(6), some_of(t(6)))), (5, 'time', EMPTY), (6, 'code', EMPTY)])),
        (P6, doc('group', tree('group', tree('card'), tree('card')), tree('group', tree('card'))),
         table([0], [(0, 'group', some_of(t(1))), (1, 'group', choice(some_of(t(2)), t(2))), (2, 'card', EMPTY)]),
         table([0], [(0, 'group', choice(seq(t(0), t(0)), t(1), some_of(t(0)), some_of(t(1)))), (1, 'card', EMPTY)]),
         table([0], [(0, 'group', choice(seq(t(1), t(1)), some_of(t(1)))), (1, 'group', choice(t(2), some_of(t(2)))), (2, 'card', EMPTY)])),
        (E, doc('r', tree('p', x, x), tree('s', x)),
         table([0], [(0, 'r', seq(t(1), t(3))), (1, 'p', some_of(t(2))), (2, 'x', EMPTY), (3, 's', t(4)), (4, 'x', EMPTY)]),
         table([0], [(0, 'r', seq(t(1), t(3))), (1, 'p', some_of(t(2))), (2, 'x', EMPTY), (3, 's', t(2))]),
         table([0], [(0, 'r', seq(t(1), t(2))), (1, 'p', some_of(t(3))), (2, 's', t(4)), (3, 'x', EMPTY), (4, 'x', EMPTY)],
               ['r', 'p', 'x', 's'])),
        (E, doc('a', tree('a'), tree('a', tree('a'), tree('a'))),
         table([0], [(0, 'a', some_of(t(1))), (1, 'a', choice(EMPTY, some_of(t(2)))), (2, 'a', EMPTY)]),
         table([0], [(0, 'a', choice(some_of(t(0)), EMPTY))]),
         table([0], [(0, 'a', some_of(t(1))), (1, 'a', choice(EMPTY, some_of(t(2)))), (2, 'a', EMPTY)])),
    ]


def run_widening_edges():
    for number, (old, a_document, sampled, *results) in enumerate(run_widenings()):
        for by_document, by_table, result in zip(BY_DOCUMENT, BY_TABLE, results if len(results) == 2 else results * 2):
            for size in SIZES if number < 5 else (SIZES[number % 3],):
                yield gives(result), by_document, old, a_document, dict(size=size, out='exact')
            yield gives(result), by_table, old, sampled, dict(size=SIZES[number % 3])
            yield gives(result), by_document, result, a_document, {}                                # nothing is added twice
            yield YES, LETS_IN, result, a_document, {}
        yield gives(sampled), SAMPLE, a_document, b'', dict(size=SIZES[number % 3])
        yield YES, LETS_IN, sampled, a_document, {}


def run_membership_edges():
    """A list of nine lets in ten, and one of one stays one."""
    for count in (0, 1, 2, 8, 9, 10, 11, 199, 200):
        some, only = YES if count else NO, YES if count == 1 else NO
        for answer, content in ((some, AS), (only, A), (YES, choice(any_of(A), AS)), (some, choice(seq(A, A), AS)), (some, choice(A, AS)),
                                (YES, choice(EMPTY, AS)), (YES if count in (1, 2) else NO, choice(seq(A, A), A))):
            yield answer, LETS_IN, cards(content), list_of(count), dict(size=SIZES[count % 3])
    for answer, word in ((YES, 'aab'), (YES, 'ab'), (YES, 'aaaaaab'), (YES, 'aAaB'), (YES, 'a' * 199 + 'b'), (NO, ''), (NO, 'b'),
                         (NO, 'aa'), (NO, 'abb'), (NO, 'aba')):
        yield answer, LETS_IN, above_leaves(seq(AS, B), 'ab'), document(row(word)), {}
    for answer, word in ((YES, 'aba'), (NO, 'aaba'), (NO, 'abaa'), (NO, 'abba'), (NO, 'ab')):
        yield answer, LETS_IN, above_leaves(seq(A, B, A), 'ab'), document(row(word)), {}
    for answer, word in ((YES, 'aba'), (YES, 'aaba'), (YES, 'abaa'), (YES, 'aaabaaa'), (NO, 'abba'), (NO, 'aab'), (NO, 'baa'),
                         (NO, 'ababa')):
        yield answer, LETS_IN, above_leaves(seq(AS, B, AS), 'ab'), document(row(word)), {}


def run_edges():
    yield from run_sample_edges()
    yield from run_limit_edges()
    yield from run_widening_edges()
    yield from run_membership_edges()


def run_cases(cases):
    for _, call, first, second, options in run_edges():
        cases.add(call, first, second, **options)
    # The results asked for their kinds, and widened by other lists.
    for number, (old, a_document, _, *results) in enumerate(run_widenings()):
        for result in results:
            cases.kinds(result, size=SIZES[number % 3])
            cases.add(BY_TABLE[number % 2], result, E)
            cases.add(BY_DOCUMENT[number % 2], result, list_of(number % 4))
    for paper_table in (P5, P6, P7, P8, LISTER_TABLE):
        for a_document in (list_of(9), doc('list', *[tree('door')] * 3, tree('lift')), doc('group', *[tree('group', tree('card'))] * 3)):
            cases.widen_doc(paper_table, a_document)


# ---------------------------------------------------------------- text marks

# An edge of text marks is as one of letter case: the answer, written by hand, then the call, its two inputs, and what else `Cases.add` is
# told; selftest.py holds the second validator to the answers.

OTHER_TAG = {0x12: 0x13, 0x13: 0x12, 0x30: 0x32, 0x32: 0x30}


def with_tags(data, tag_of):
    """The input with `tag_of(tag)` in place of each field's tag, as far as its fields go."""
    made, at = bytearray(data), 0
    while at + 3 <= len(data):
        made[at] = tag_of(data[at])
        at += 3 + data[at + 1] * 256 + data[at + 2]
    return bytes(made)


def with_all_marks(data):
    """Rules 13 for all rules, nodes 32 for all nodes."""
    return with_tags(data, lambda tag: OTHER_TAG[tag] if tag in (0x12, 0x30) else tag)


def without_marks(data):
    return with_tags(data, lambda tag: OTHER_TAG[tag] if tag in (0x13, 0x32) else tag)


def with_other_marks(numbers, data, share):
    """The input with the other tag for a share of its rules and nodes, in percent."""
    return with_tags(data, lambda tag: OTHER_TAG[tag] if tag in OTHER_TAG and numbers.chance(share) else tag)


def has_marks(*inputs):
    """Is there a rule 13 or a node 32?"""
    return any(part[0] in (0x13, 0x32) for data in inputs for part in fields_of(data))


text_rule = partial(rule, text=True)


def some_rules(count, *more, marked=lambda i: i % 2):
    """So many rules, by default every other one a rule 13, and more fields."""
    return HEAD + b''.join(rule(i % 16, i % 2, EMPTY, marked(i)) for i in range(count)) + b''.join(more) + END


def every_rule(_):
    return True


def no_rule(_):
    return False


def text_rule_fields():
    """Tables with rules 13, and what reading gives at the small, the standard and the large size."""
    one, other = text_rule(0, 0, EMPTY), rule(1, 1, EMPTY)
    return [
        # Any mixture of the two.
        (HEAD + one + END, 0, 0, 0), (HEAD + one + other + END, 0, 0, 0), (HEAD + other + one + END, 0, 0, 0),
        (HEAD + one + other + one + other + END, 0, 0, 0), (HEAD + start(0) + other + one + one + other + END, 0, 0, 0),
        (HEAD + start(0) + one + rule(0, 0, EMPTY) + END, 0, 0, 0),
        # Out of order.
        (HEAD + one + start(0) + END, 4, 4, 4), (HEAD + one + label('b') + END, 4, 4, 4), (HEAD + one + other + start(0) + END, 4, 4, 4),
        (HEAD + other + one + label('b') + END, 4, 4, 4), (HEAD + start(0) + one + start(1) + END, 4, 4, 4),
        (HEAD + one + END + one, 12, 12, 12), (one + END, 8, 8, 8), (one + HEAD + END, 8, 8, 8),
        # Lengths: 3 is the least, 1,026 the most.
        (HEAD + b'\x13\x00\x00' + END, 4, 4, 4), (HEAD + b'\x13\x00\x01\x00' + END, 4, 4, 4),
        (HEAD + b'\x13\x00\x02\x00\x00' + END, 4, 4, 4), (HEAD + b'\x13\x00\x02\xff\xff' + END, 4, 4, 4),
        (HEAD + text_rule(0, 0, EMPTY * 1025) + END, 4, 4, 4),
        (HEAD + text_rule(99, 99, EMPTY * 1025) + END, 4, 4, 4), (HEAD + text_rule(0, 0, EMPTY * 1024) + END, 9, 9, 9),
        (HEAD + text_rule(0, 0, seq(*[seq(*[t(1)] * 102)] * 4, *[EMPTY] * 198)) + END, 0, 0, 0),
        (HEAD + text_rule(0, 0, seq(*[seq(*[t(1)] * 102)] * 4, *[EMPTY] * 199)) + END, 4, 4, 4),
        # Past the end.
        (HEAD + b'\x13', 3, 3, 3), (HEAD + b'\x13\x00', 3, 3, 3), (HEAD + one[:-1], 3, 3, 3), (HEAD + one, 3, 3, 3),
        (HEAD + b'\x13\x04\x03\x00\x00\x01', 3, 3, 3), (HEAD + b'\x13\xff\xff' + one, 3, 3, 3),
        # 7 counts the rules of both tags.
        (some_rules(16), 0, 0, 0), (some_rules(16, marked=every_rule), 0, 0, 0), (some_rules(17), 7, 0, 0), (some_rules(15, one), 0, 0, 0),
        (some_rules(16, one, marked=no_rule), 7, 0, 0), (some_rules(16, other, marked=every_rule), 7, 0, 0), (some_rules(63, one), 7, 0, 0),
        (some_rules(64, one, marked=no_rule), 7, 7, 0), (some_rules(64, other, marked=every_rule), 7, 7, 0), (some_rules(128), 7, 7, 0),
        (some_rules(128, one, marked=no_rule), 7, 7, 7), (some_rules(128, other, marked=every_rule), 7, 7, 7),
    ]


def text_rule_values():
    """Rules 13 after so many others, with the same three refusals: 7, 8, 9, 10 in this order."""
    return [
        (16, text_rule(16, 9, b'\x09'), 7, 8, 8), (64, text_rule(64, 9, b'\x09'), 7, 7, 8), (128, text_rule(128, 9, b'\x09'), 7, 7, 7),
        (0, text_rule(15, 0, t(15)), 0, 0, 0), (0, text_rule(16, 0, EMPTY), 8, 0, 0), (0, text_rule(63, 0, EMPTY), 8, 0, 0),
        (0, text_rule(64, 0, EMPTY), 8, 8, 0), (0, text_rule(127, 1, t(127)), 8, 8, 0), (0, text_rule(128, 0, EMPTY), 8, 8, 8),
        (0, text_rule(0, 2, EMPTY), 8, 8, 8), (0, text_rule(0, 2, b'\x08'), 8, 8, 8), (0, text_rule(255, 255, deep(33)), 8, 8, 8),
        (0, text_rule(0, 0, t(16)), 9, 0, 0), (0, text_rule(0, 0, t(64)), 9, 9, 0), (0, text_rule(0, 0, t(128)), 9, 9, 9),
        (0, text_rule(0, 0, b'\x08'), 9, 9, 9), (0, text_rule(0, 0, EMPTY + EMPTY), 9, 9, 9),
        (0, text_rule(0, 0, seq(deep(33), b'\x08')), 9, 9, 9), (0, text_rule(0, 0, deep(32)), 0, 0, 0),
        (0, text_rule(0, 0, deep(33)), 10, 10, 10), (0, text_rule(0, 0, deep(33)) + b'\x99\x00\x00', 10, 10, 10),
    ]


def text_node_fields():
    """Documents with nodes 32, and the same three refusals."""
    one, below = node_field(0, 'a' + TEXT), node_field(1, 'a' + TEXT)
    return [
        (one + DOC_END, 0, 0, 0), (below + node_field(0, 'b') + DOC_END, 0, 0, 0), (node_field(1, 'b') + one + DOC_END, 0, 0, 0),
        (below + one + DOC_END, 0, 0, 0), (node_field(3, 'r') + one + node_field(0, 'a') + one + DOC_END, 0, 0, 0),
        # Lengths: 2 is the least, 64 the most.
        (b'\x32\x00\x00' + DOC_END, 4, 4, 4), (b'\x32\x00\x01\x00' + DOC_END, 4, 4, 4), (b'\x32\x00\x02\x00a' + DOC_END, 0, 0, 0),
        (node_field(0, 'a' * 63 + TEXT) + DOC_END, 0, 0, 0), (node_field(0, 'a' * 64 + TEXT) + DOC_END, 4, 4, 4),
        (node_field(201, '!' * 64 + TEXT) + DOC_END, 4, 4, 4),
        # Past the end.
        (one, 3, 3, 3), (one[:-1], 3, 3, 3), (b'\x32', 3, 3, 3), (b'\x32\x00', 3, 3, 3), (b'\x32\x00\x40\x00' + b'a' * 62, 3, 3, 3),
        # 5 before 11.
        (node_field(0, '1' + TEXT) + DOC_END, 5, 5, 5), (node_field(201, '!' + TEXT) + DOC_END, 5, 5, 5),
        (one + node_field(0, '!' + TEXT) + DOC_END, 5, 5, 5), (one + one + DOC_END, 11, 11, 11), (below + DOC_END, 11, 11, 11),
        (one + node_field(0, 'a') + DOC_END, 11, 11, 11), (node_field(0, 'a') + one + DOC_END, 11, 11, 11),
        (node_field(201, 'a' + TEXT) + DOC_END, 11, 11, 11),
        (below + one + one + DOC_END, 11, 11, 11), (node_field(200, 'r' + TEXT) + one * 200 + DOC_END, 0, 0, 0),
        (node_field(201, 'r' + TEXT) + one * 201 + DOC_END, 11, 11, 11),
        # Nodes of both tags are counted, and levels.
        (document(crowd(256, ('a', 'a' + TEXT))), 0, 0, 0), (document(crowd(257, ('a' + TEXT, 'a'))), 11, 0, 0),
        (document(crowd(1024, ('a' + TEXT, 'b', 'a'))), 11, 0, 0), (document(crowd(1025, ('a' + TEXT,))), 11, 11, 0),
        (document(crowd(2048, ('a', 'a' + TEXT))), 11, 11, 0), (document(crowd(2049, ('a', 'a' + TEXT))), 11, 11, 11),
        (below * 15 + one + DOC_END, 0, 0, 0), (below * 16 + one + DOC_END, 11, 0, 0), (below * 63 + one + DOC_END, 11, 0, 0),
        (below * 64 + one + DOC_END, 11, 11, 11), (document(chain(63, 'b'))[:-8] + node_field(1, 'b') + one + DOC_END, 11, 0, 0),
        (one + DOC_END + b'\x00', 12, 12, 12), (one + DOC_END + one, 12, 12, 12),
    ]


def foreign_tag_edges():
    """4: no other tag is one, and each stays in its file; past the end it is 3."""
    for number, tag in enumerate((0x02, 0x03, 0x0F, 0x14, 0x1E, 0x22, 0x23, 0x30, 0x31, 0x32, 0x33, 0x3F, 0x52, 0x53, 0x92, 0x93, 0xB2)):
        yield refused(4), TABLE_READS, HEAD + field(tag, b'\x00\x00\x01') + END, b'', dict(size=SIZES[number % 3])
    for number, tag in enumerate((0x02, 0x10, 0x12, 0x13, 0x1F, 0x22, 0x2F, 0x31, 0x33, 0x34, 0x3E, 0x70, 0x72, 0xB0, 0xB2, 0xF2)):
        yield refused(4), DOCUMENT_READS, field(tag, b'\x00a') + DOC_END, b'', dict(size=SIZES[number % 3])
    yield refused(3), TABLE_READS, HEAD + field(0x32, b'\x00\x00\x01')[:-1], b'', {}
    yield refused(3), DOCUMENT_READS, field(0x13, b'\x00a')[:-1], b'', {}
    a_table, a_document = HEAD + start(0) + field(0x32, b'\x00\x00\x01') + END, node_field(1, 'a') + field(0x13, b'\x00a') + DOC_END
    for call in (TABLE_READS, LABEL_NAME, IS_LOCAL, IS_SINGLE_TYPE):
        yield refused(4), call, a_table, b'', {}
    for call in (DOCUMENT_READS, SAMPLE):
        yield refused(4), call, a_document, b'', {}
    for call in (LETS_IN,) + BY_DOCUMENT:
        yield refused(4), call, a_table, a_document, {}
        yield refused(4), call, GOOD_TABLE, a_document, {}
    for call in BY_TABLE:
        yield refused(4), call, a_table, GOOD_TABLE, {}
        yield refused(4), call, GOOD_TABLE, a_table, {}


def sizes_to_ask(refusals):
    """All where they differ, else one."""
    return SIZES if len(set(refusals)) > 1 else SIZES[refusals[0] % 3:][:1]


def text_reading_edges():
    yield from foreign_tag_edges()
    for data, *refusals in text_rule_fields() + [(some_rules(count, more), *refusals) for count, more, *refusals in text_rule_values()]:
        for size in sizes_to_ask(refusals):
            yield refused(refusals[size]) if refusals[size] else READS, TABLE_READS, data, b'', dict(size=size)
    for number, (data, *refusals) in enumerate(text_node_fields()):
        for size in sizes_to_ask(refusals) if len(data) < 1000 else beside_the_edge(refusals):
            yield refused(refusals[size]) if refusals[size] else READS, DOCUMENT_READS, data, b'', dict(size=size)
        if refusals[STANDARD]:
            yield refused(refusals[STANDARD]), SAMPLE, data, b'', {}
            yield refused(refusals[STANDARD]), ((LETS_IN,) + BY_DOCUMENT)[number % 3], GOOD_TABLE, data, {}
    # What turns back rules 12 and nodes 30 turns back rules 13 and nodes 32.
    for read, numbered in ((TABLE_READS, refused_tables()), (DOCUMENT_READS, refused_documents())):
        for refusal, inputs in numbered.items():
            for data in inputs:
                if with_all_marks(data) != data:
                    yield refused(refusal), read, with_all_marks(data), b'', {}
    for number, (_, more, _, refusal, _) in enumerate(text_rule_values()):
        if refusal:
            data = some_rules(0, more) if refusal != 7 else some_rules(64, more)
            call = (LABEL_NAME, LETS_IN, *BY_TABLE, IS_LOCAL, *BY_DOCUMENT, IS_SINGLE_TYPE)[number % 8]
            yield refused(refusal), call, data, good_inputs(call)[1], {}
            yield refused(refusal), BY_TABLE[number % 2], GOOD_TABLE, data, {}


AT, BT, NAME = 'a' + TEXT, 'b' + TEXT, 'name' + TEXT

# Only a name holds text here; then only what is no name.
NAME_TEXT = table([0], [(0, 'list', any_of(t(1))), (1, 'card', seq(t(2), optional(t(3)))), (2, 'name', EMPTY, TEXT), (3, 'door', EMPTY)])
OTHER_TEXT = table([0], [(0, 'list', any_of(t(1)), TEXT), (1, 'card', seq(t(2), optional(t(3))), TEXT), (2, 'name', EMPTY),
                         (3, 'door', EMPTY, TEXT)])


def marked_cards(card, *leaves):
    """A list with one card of these heads."""
    return tree('list', tree(card, *[tree(leaf) for leaf in leaves]))


def text_in_cards():
    """Two tables, each with documents that it lets in and others that it does not."""
    two = [tree('card', tree('name')), tree('card', text('name'))]
    return [
        (NAME_TEXT, [marked_cards('card', NAME), marked_cards('card', 'name'), marked_cards('card', NAME, 'door'), tree('list'),
                     tree('list', *two), tree('list', *two[::-1]), tree('LIST', tree('Card', text('NAME')), tree('CARD', tree('Name')))],
         [marked_cards('card', NAME, 'door' + TEXT), marked_cards('card' + TEXT, NAME), text('list', two[0]), text('list'), text('name'),
          marked_cards('card', 'door' + TEXT), marked_cards('card', 'zone' + TEXT), marked_cards('card', 'names' + TEXT),
          tree('list', two[0], text('card', tree('name'))), tree('LIST', text('CARD', tree('name')))]),
        (OTHER_TEXT, [tree('list', two[0]), text('list', text('card', tree('name'), text('door'))), text('list', two[0]), text('list'),
                      marked_cards('card' + TEXT, 'name'), marked_cards('card', 'name', 'door' + TEXT)],
         [marked_cards('card', NAME), text('list', text('card', text('name'), text('door'))), tree('list', *two)]),
    ]


def text_in_pairs():
    """The same: rules of one pair, of one type, of one label."""
    a, b, x, y, at, bt = tree('a'), tree('b'), tree('x'), tree('y'), text('a'), text('b')
    ax, ay, ax_text, ay_text = tree('a', x), tree('a', y), text('a', x), text('a', y)
    leaf = [(8, 'x', EMPTY), (9, 'y', EMPTY)]
    return [
        (table([0], [(0, 'a', t(8)), (0, 'a', t(9), TEXT)] + leaf), [ax, ay, ay_text], [ax_text, at, a]),
        (table([0], [(0, 'a', t(9), TEXT), (0, 'a', t(8))] + leaf), [ax, ay, ay_text], [ax_text, text('a', y, y), text('a', text('y'))]),
        (table([0], [(0, 'a', EMPTY, TEXT), (0, 'b', EMPTY)]), [a, at, b], [bt]),
        (table([0], [(0, 'a', EMPTY), (0, 'b', EMPTY, TEXT)]), [a, b, bt], [at]),
        (table([0], [(0, 'a', EMPTY), (0, 'a', EMPTY, TEXT)]), [a, at], [bt]),
        (table([0], [(0, 'a', EMPTY, TEXT), (0, 'a', EMPTY)]), [a, at], [bt]),
        (table([0], [(0, 'r', choice(A, B)), (1, 'a', t(8)), (2, 'a', t(9), TEXT)] + leaf),
         [tree('r', ax), tree('r', ay), tree('r', ay_text)], [tree('r', ax_text), text('r', ax)]),
        (table([0], [(0, 'r', seq(A, B)), (1, 'a', EMPTY), (2, 'a', EMPTY, TEXT)]), [tree('r', a, a), tree('r', a, at)],
         [tree('r', at, a), tree('r', at, at), text('r', a, at)]),
        (table([0, 1], [(0, 'a', t(8)), (1, 'a', t(9), TEXT)] + leaf), [ax, ay, ay_text], [ax_text, text('a', text('x'))]),
        (table([1], [(0, 'a', EMPTY, TEXT), (1, 'a', EMPTY)]), [a], [at]),
        (table([0], [(0, 'a', EMPTY, TEXT), (1, 'a', EMPTY)]), [a, at], [bt]),
        # Leaves alone.
        (table([0], [(0, 'a', any_of(t(0))), (0, 'a', EMPTY, TEXT)]), [at, a, tree('a', at, tree('a', at))],
         [text('a', a), tree('a', text('a', a))]),
    ]


def text_membership():
    """The same, of all sorts."""
    a, b, at, bt = tree('a'), tree('b'), text('a'), text('b')
    one_of_three = [tree('r', at, a, a), tree('r', a, at, a), tree('r', a, a, at), tree('r', at)]
    one_of_200 = [('r', [a] * number + [at] + [a] * (199 - number)) for number in (0, 100, 199)]
    return [
        (table([0], [(0, 'a', EMPTY)]), [a, tree('A')], [at, text('A'), bt, b]),
        (table([0], [(0, 'a', EMPTY, TEXT)]), [a, at, text('A'), tree('A')], [b, bt, text('a', a), text('a', at)]),
        *text_in_cards(), *text_in_pairs(),
        (above_leaves(any_of(A), ['a']), [tree('r', a, a, a)], one_of_three + one_of_200),
        (above_leaves(any_of(A), [AT]), [tree('r', a, a, a)] + one_of_three + one_of_200, [text('r', at), tree('r', at, bt)]),
        (above_leaves(any_of(A), ['a'], 'r' + TEXT), [tree('r', a), text('r', a, a), text('r')], [tree('r', at), text('r', at)]),
        # No word, and one of no types.
        (table([0], [(0, 'a', NONE, TEXT)]), [], [a, at]), (table([0], [(0, 'a', any_of(NONE), TEXT)]), [a, at], [bt]),
        (table([0], [(0, 'a', optional(NONE), TEXT), (0, 'a', t(0))]), [a, at, tree('a', at), tree('a', a)], [text('a', at), text('a', a)]),
    ]


def text_membership_edges():
    for number, (a_table, let_in, turned_back) in enumerate(text_membership()):
        for answer, trees in ((YES, let_in), (NO, turned_back)):
            for turn, a_tree in enumerate(trees):
                for size in SIZES if number < 2 else (SIZES[(number + turn) % 3],):
                    yield answer, LETS_IN, a_table, document(a_tree), dict(size=size)
    # As many levels and nodes as there may be, the last of them with text.
    for answer, mark in ((YES, TEXT), (NO, '')):
        last = document(chain(63))[:-8] + node_field(1, 'a') + node_field(0, 'a' + TEXT) + DOC_END
        yield answer, LETS_IN, table([0], [(0, 'a', optional(t(0)), mark)]), last, {}
        for size, count in ((SMALL, 256), (STANDARD, 1024), (LARGE, 2048)):
            heads = ['a'] * (count - 1) + [AT]
            yield answer, LETS_IN, table([0], [(0, 'a', any_of(t(0)), mark)]), document(crowd(count, heads)), dict(size=size)
    # One rule of as many as there may be.
    for size, most in ((SMALL, 16), (STANDARD, 64), (LARGE, 128)):
        for place in (1, most // 2, most - 1):
            told = marked_star(most - 1, place)
            for number in (1, most // 2, most - 1):
                yield YES if number == place else NO, LETS_IN, told, doc('s', text('s%d' % number)), dict(size=size)
            rules = [(0, 'a', EMPTY, TEXT if i == place else '') for i in range(most)]
            yield YES, LETS_IN, table([0], rules), document(text('a')), dict(size=size)
        yield NO, LETS_IN, table([0], [(0, 'a', EMPTY)] * most), document(text('a')), dict(size=size)
    far = table([127], [(127, 'a', any_of(t(64))), (64, 'b', EMPTY, TEXT)])
    for answer, a_tree in ((YES, tree('a', text('b'))), (NO, text('a', tree('b')))):
        yield answer, LETS_IN, far, document(a_tree), dict(size=LARGE)
    # Under other classes, in which # is a letter too.
    own = table([0], [(0, '\xe9#', any_of(t(1)), TEXT), (1, '#', EMPTY)])
    for answer, a_tree in ((YES, text('\xe9#', tree('#'))), (NO, tree('\xe9#', text('#')))):
        yield answer, LETS_IN, own, document(a_tree), dict(classes=OWN)


def marked_star(count, *places):
    """As `star`, with rules 13 at some places, the root's at 0."""
    return table([0], [(0, 's', choice(*[t(i) for i in range(1, count + 1)]), TEXT if 0 in places else '')]
                 + [(i, 's%d' % i, EMPTY, TEXT if i in places else '') for i in range(1, count + 1)])


def text_kind_edges():
    """A table, and whether it is local and single-type."""
    leaf = [(1, 'a', EMPTY), (2, 'a', EMPTY, TEXT)]
    for number, (local, single, a_table) in enumerate((
            (YES, YES, table([0], [(0, 'a', EMPTY, TEXT)])), (NO, NO, table([0], [(0, 'a', EMPTY), (0, 'a', EMPTY, TEXT)])),
            (NO, NO, table([0], [(0, 'a', EMPTY, TEXT), (0, 'a', EMPTY)])), (NO, NO, table([0], [(0, 'a', EMPTY, TEXT)] * 2)),
            (NO, NO, table([0], [(0, 'a', t(1)), (1, 'b', EMPTY), (0, 'a', NONE, TEXT)])),
            (YES, YES, table([0], [(0, 'a', EMPTY, TEXT), (0, 'b', EMPTY)])),
            (NO, YES, table([0], [(0, 'a', EMPTY, TEXT), (1, 'a', EMPTY)])),
            (NO, NO, table([0, 1], [(0, 'a', EMPTY, TEXT), (1, 'a', EMPTY)])),
            (NO, NO, table([0], [(0, 'r', seq(t(1), t(2)))] + leaf)),
            (NO, YES, table([0], [(0, 'r', seq(t(1), t(1)))] + leaf)), (NO, NO, table([0], [(0, 'r', choice(t(2), t(1)), TEXT)] + leaf)),
            (NO, YES, table([0], [(0, 'r', seq(t(3), t(4))), (3, 'p', t(1)), (4, 'q', t(2), TEXT)] + leaf)),
            (YES, YES, NAME_TEXT), (YES, YES, OTHER_TEXT), (NO, YES, with_all_marks(P5)), (NO, YES, with_all_marks(P6)),
            (NO, NO, with_all_marks(P7)), (YES, YES, with_all_marks(P8)), (YES, YES, marked_star(15, 3, 4)))):
        yield local, IS_LOCAL, a_table, b'', dict(size=SIZES[number % 3])
        yield single, IS_SINGLE_TYPE, a_table, b'', dict(size=SIZES[number % 3])
    for number, answer in enumerate((name_at(3, 4), name_at(10, 4), name_at(17, 4), name_at(24, 4), refused(8))):
        yield answer, LABEL_NAME, NAME_TEXT, b'', dict(label=number)


def text_samples():
    """Documents with their samples."""
    a, b, at, bt = tree('a'), tree('b'), text('a'), text('b')
    return [
        (text('a'), table([0], [(0, 'a', EMPTY, TEXT)])), (text('r', a), above_leaves(A, 'a', 'r' + TEXT)),
        (tree('r', at), above_leaves(A, [AT])), (text('r', at), above_leaves(A, [AT], 'r' + TEXT)),
        (text('r', a, bt), above_leaves(seq(A, B), ['a', BT], 'r' + TEXT)), (tree('r', at, b), above_leaves(seq(A, B), [AT, 'b'])),
        # A run, whichever of its members.
        *[(tree('r', *word), above_leaves(AS, [AT])) for word in (
            [at, a, a], [a, at, a], [a, a, at], [at, at], [at, a], [a, at], [a] * 199 + [at], [a] * 100 + [at] + [a] * 99)],
        (tree('r', a, at, b), above_leaves(seq(AS, B), [AT, 'b'])), (tree('r', a, b, bt), above_leaves(seq(A, BS), ['a', BT])),
        (tree('r', b, at, a, bt), above_leaves(seq(A, BS, A), [BT, AT])),
        # Several nodes of a path that are no neighbours.
        (tree('r', at, b, a), above_leaves(seq(A, B, A), [AT, 'b'])), (tree('r', a, b, at), above_leaves(seq(A, B, A), [AT, 'b'])),
        (tree('r', a, bt, a), above_leaves(seq(A, B, A), ['a', BT])),
        (tree('r', a, b, at, b, a), above_leaves(seq(A, B, A, B, A), [AT, 'b'])),
        # Another spelling.
        (tree('r', a, text('A')), above_leaves(AS, [AT])), (tree('r', text('A'), a), above_leaves(AS, ['A' + TEXT])),
        (tree('r', a, b, text('A')), above_leaves(seq(A, B, A), [AT, 'b'])),
        (tree('r', tree('A'), at, tree('A')), above_leaves(AS, ['A' + TEXT])),
        (tree('R', tree('P', tree('x')), tree('p', text('X'))), table([0], [(0, 'R', AS), (1, 'P', t(2)), (2, 'x', EMPTY, TEXT)])),
        *text_samples_below()]


def text_samples_below():
    """Documents of two levels or more below the root."""
    x, xt = tree('x'), text('x')

    def of_groups(content, group, leaf):
        return table([0], [(0, 'r', some_of(t(1))), (1, 'g', content, group), (2, 'x', EMPTY, leaf)])

    return [
        # Sequences are told apart by names alone.
        (tree('r', tree('g', x), tree('g', xt)), of_groups(t(2), '', TEXT)),
        (tree('r', tree('g', xt), text('g', x)), of_groups(t(2), TEXT, TEXT)),
        (tree('r', text('g', x), tree('g', x)), of_groups(t(2), TEXT, '')),
        (tree('r', text('g'), tree('g', x)), of_groups(choice(EMPTY, t(2)), TEXT, '')),
        (tree('r', tree('g', x), text('g')), of_groups(choice(t(2), EMPTY), TEXT, '')),
        (tree('r', tree('g', x, xt), tree('g', xt, x, x)), of_groups(some_of(t(2)), '', TEXT)),
        (tree('r', tree('g', xt), tree('g', x, x), tree('g', x)), of_groups(choice(t(2), some_of(t(2))), '', TEXT)),
        # One name on two paths.
        (tree('r', tree('p', xt), tree('q', x)),
         table([0], [(0, 'r', seq(t(1), t(3))), (1, 'p', t(2)), (2, 'x', EMPTY, TEXT), (3, 'q', t(4)), (4, 'x', EMPTY)])),
        (tree('r', tree('p', x), text('q', xt)),
         table([0], [(0, 'r', seq(t(1), t(3))), (1, 'p', t(2)), (2, 'x', EMPTY), (3, 'q', t(4), TEXT), (4, 'x', EMPTY, TEXT)])),
        (text('a', tree('a')), table([0], [(0, 'a', t(1), TEXT), (1, 'a', EMPTY)])),
        (tree('a', text('a')), table([0], [(0, 'a', t(1)), (1, 'a', EMPTY, TEXT)])),
        (tree('a', tree('a', text('a')), tree('a')),
         table([0], [(0, 'a', some_of(t(1))), (1, 'a', choice(t(2), EMPTY)), (2, 'a', EMPTY, TEXT)])),
    ]


def text_sample_edges():
    for number, (a_tree, told) in enumerate(text_samples()):
        a_document = document(a_tree)
        for size in SIZES if number < 6 else (SIZES[number % 3],):
            yield gives(told), SAMPLE, a_document, b'', dict(size=size, out='exact')
        yield YES, LETS_IN, told, a_document, {}
        if number % 2:
            yield YES, LETS_IN, told, without_marks(a_document), {}
        else:
            yield NO, LETS_IN, without_marks(told), a_document, {}
        if number % 6 == 0:
            yield refused(15), SAMPLE, a_document, b'', dict(out='short')
    # As many paths as the size takes, the last with text, and one more.
    for size, most in ((SMALL, 16), (STANDARD, 64), (LARGE, 128)):
        heads = ['c%03d' % i for i in range(most - 2)] + ['d' + TEXT]
        told = above_leaves(seq(*[t(1 + i) for i in range(most - 1)]), heads)
        yield gives(told), SAMPLE, document(row(heads)), b'', dict(size=size, out='exact')
        run = above_leaves(seq(*[t(1 + i) for i in range(most - 2)], some_of(t(most - 1))), heads)
        yield gives(run), SAMPLE, document(row(heads[:-1] + ['d', 'D' + TEXT, 'd'])), b'', dict(size=size)
        for call in (SAMPLE,) + BY_DOCUMENT:
            inputs = (document(row(heads + ['e' + TEXT])), b'')
            yield refused(14), call, *(inputs if call == SAMPLE else (E, inputs[0])), dict(size=size)


def joined_pairs():
    """The contents of a rule 12 and of a rule 13 of one pair, over leaves x and y; the result's content and the leaves that it names. Type
    8 has no document, type 9 no rule."""
    x, y = t(1), t(2)
    empty = [any_of(NONE), optional(NONE), any_of(t(9)), optional(t(8)), optional(seq(x, NONE)), choice(NONE, EMPTY), any_of(some_of(NONE)),
             optional(some_of(t(8))), choice(t(8), any_of(t(9)))]
    return [(x, part, choice(x, EMPTY), 'x') for part in empty] + [(EMPTY, part, EMPTY, '') for part in empty] + [
        (x, y, choice(x, y), 'xy'), (EMPTY, x, choice(EMPTY, x), 'x'), (x, choice(seq(x, t(9)), y), choice(x, y), 'xy'),
        (x, seq(any_of(NONE), y), choice(x, seq(EMPTY, y)), 'xy'), (EMPTY, choice(NONE, optional(y)), choice(EMPTY, optional(t(1))), 'y'),
        (any_of(x), optional(any_of(x)), choice(any_of(x), optional(any_of(x))), 'x'),
        # Equal operands are dropped.
        (x, x, x, 'x'), (EMPTY, EMPTY, EMPTY, ''), (choice(x, y), choice(y, x), choice(x, y), 'xy'), (choice(x, y), y, choice(x, y), 'xy'),
        (x, choice(x, NONE), x, 'x'), (some_of(x), some_of(x), some_of(x), 'x'), (x, choice(t(8), x), x, 'x')]


def contents_without_words():
    """Contents over the same types that reduce to none."""
    x, y = t(1), t(2)
    return [NONE, t(9), t(8), seq(x, NONE), seq(NONE, y), some_of(NONE), seq(x, t(9)), seq(t(8), x), some_of(t(9)), choice(NONE, NONE),
            choice(t(9), seq(NONE, x)), seq(some_of(t(8)), any_of(x)), some_of(seq(y, t(8))), choice(t(8), some_of(choice(NONE, t(9))))]


def joined_edges():
    """The mark of a pair's rule."""
    leaf = [(1, 'x', EMPTY), (2, 'y', EMPTY), (8, 'z', t(8))]
    for number, (plain, own, content, names) in enumerate(joined_pairs()):
        told, call = gives(above_leaves(content, names, 'r' + TEXT)), BY_TABLE[number % 2]
        for by in BY_TABLE:
            yield told, by, table([0], [(0, 'r', plain), (0, 'r', own, TEXT)] + leaf), E, dict(size=SIZES[number % 3], out='exact')
        yield told, call, table([0], [(0, 'r', plain, TEXT), (0, 'r', own)] + leaf), E, {}
        if number % 2:
            apart = [(5, 'r', plain)] + leaf[:1] + [(5, 'r', own, TEXT)] + leaf[1:]
            yield told, call, E, table([5], apart, ['r', 'x', 'y', 'z']), {}
        else:               # in two tables they are two pairs, of which the same holds
            yield told, call, table([0], [(0, 'r', plain)] + leaf), table([0], [(0, 'r', own, TEXT)] + leaf), dict(size=SIZES[number % 3])
    for number, own in enumerate(contents_without_words()):
        gone, call = (0, 'r', own, TEXT), BY_TABLE[number % 2]
        for mark in ('', TEXT):             # the other rule's mark alone counts
            told, plain = gives(above_leaves(A, 'x', 'r' + mark)), (0, 'r', A, mark)
            for by in BY_TABLE:
                yield told, by, table([0], [plain, gone] + leaf), E, dict(size=SIZES[number % 3], out='exact')
            yield told, call, E, table([0], [gone, plain] + leaf), {}
            yield told, call, table([0], [plain] + leaf), table([0], [gone] + leaf), {}
        yield refused(13), call, table([0], [gone] + leaf), E, {}
        yield NO, LETS_IN, table([0], [(0, 'r', A), gone] + leaf), document(text('r', tree('x'))), {}


def later_round_widenings():
    """A rule 13 whose content has a word only once later rounds have made its types fruitful, or its own."""
    r, x, y, z = (0, 'r', t(1), TEXT), (1, 'x', t(2)), (2, 'y', t(3)), (3, 'z', EMPTY)
    plain, names = (0, 'r', EMPTY), ['r', 'x', 'y', 'z']
    return [
        (table([0], [r, plain, x, y, z]), E, table([0], [(0, 'r', choice(t(1), EMPTY), TEXT), x, y, z])),
        (table([0], [plain, r, x, y, z]), E, table([0], [(0, 'r', choice(EMPTY, t(1)), TEXT), x, y, z])),
        (table([0], [z, y, x, r, plain], names), E, table([0], [(0, 'r', choice(t(1), EMPTY), TEXT), x, y, z])),
        (E, table([0], [z, plain, y, r, x], names), table([0], [(0, 'r', choice(EMPTY, t(1)), TEXT), x, y, z])),
        (table([0], [(0, 'a', EMPTY), (0, 'a', t(0), TEXT)]), E, table([0], [(0, 'a', choice(EMPTY, t(0)), TEXT)])),
        (table([0], [(0, 'a', t(0), TEXT), (0, 'a', EMPTY)]), E, table([0], [(0, 'a', choice(t(0), EMPTY), TEXT)])),
        (table([0], [(0, 'a', some_of(t(0)), TEXT), (0, 'a', EMPTY)]), E, table([0], [(0, 'a', choice(some_of(t(0)), EMPTY), TEXT)])),
        # Two pairs of one type: the fruitful one is enough.
        (table([0], [plain, r, (1, 'x', t(9)), (1, 'y', EMPTY)]), E, table([0], [(0, 'r', choice(EMPTY, t(1)), TEXT), (1, 'y', EMPTY)])),
        (table([0], [(0, 'r', t(1)), (1, 'x', t(9), TEXT), (1, 'y', EMPTY)]), E, table([0], [(0, 'r', t(1)), (1, 'y', EMPTY)])),
        (table([0], [(0, 'r', t(1)), (1, 'x', t(1), TEXT), (1, 'y', EMPTY)]), E,
         table([0], [(0, 'r', choice(t(1), t(2))), (1, 'x', choice(t(1), t(2)), TEXT), (2, 'y', EMPTY)])),
        # The addition's types are its own: type 1 is none of the other table's.
        (table([0], [plain, (1, 'x', EMPTY)]), table([0], [r]), table([0], [plain])),
        (table([0], [plain, r]), table([1], [(1, 'x', EMPTY)]), table([0, 1], [plain, (1, 'x', EMPTY)])),
        (table([0], [plain, r]), table([0], [(0, 'r', t(1)), (1, 'x', EMPTY)]), above_leaves(choice(EMPTY, A), 'x')),
    ]


def unreached_widenings():
    """Two types of label a, of which one is not behind the result, or both are."""
    one, other, told = (1, 'a', EMPTY), (2, 'a', EMPTY, TEXT), table([0], [(0, 'r', A), (1, 'a', EMPTY)])
    made = []
    for root in (A, choice(A, seq(B, NONE)), choice(seq(NONE, B), A), choice(A, seq(B, t(9))), choice(A, some_of(seq(B, NONE))),
                 choice(A, seq(A, some_of(NONE), B))):
        made.append((table([0], [(0, 'r', root), one, other]), E, told))
        made.append((table([0], [(0, 'r', root), other[:3], one + (TEXT,)]), E, above_leaves(A, [AT])))
    made.append((table([0], [(0, 'r', A), other, one]), E, told))
    for root in (choice(A, any_of(seq(B, NONE))), choice(A, optional(seq(t(9), B)))):
        made.append((table([0], [(0, 'r', root), one, other]), E, above_leaves(choice(A, EMPTY), 'a')))
    return made + [
        # Through a type without a document, or through one that is not reached; without a document itself.
        (table([0], [(0, 'r', choice(A, C)), one, other, (3, 'b', seq(B, C))]), E, told),
        (table([0], [(0, 'r', A), one, other, (3, 'b', B)]), E, told),
        (table([0], [(0, 'r', choice(A, B)), one, (2, 'a', B, TEXT)]), E, told),
        (table([0], [(0, 'r', choice(A, B)), one, (2, 'a', seq(A, NONE), TEXT), (2, 'b', EMPTY)]), E,
         table([0], [(0, 'r', choice(A, B)), (1, 'a', EMPTY), (2, 'b', EMPTY)])),
        (table([0], [(0, 'r', A), one, (1, 'b', t(9), TEXT)]), E, told),
        (table([0], [(0, 'r', A), one]), table([], [(0, 'a', EMPTY, TEXT)]), told),
        (table([], [(0, 'a', EMPTY, TEXT)]), table([0], [(0, 'r', A), one]), table([1], [(0, 'a', EMPTY), (1, 'r', t(0))]),
         table([0], [(0, 'r', A), one], ['a', 'r'])),
        (P7.replace(rule(1, 1, t(4)), text_rule(1, 1, t(4))).replace(rule(4, 3, EMPTY), text_rule(4, 3, EMPTY)), E,
         table([0], [(0, 'list', A), (1, 'door', B), (2, 'code', EMPTY)])),
        (P7.replace(rule(3, 1, t(5)), text_rule(3, 1, t(5))), E, table([0], [(0, 'list', A), (1, 'door', B, TEXT), (2, 'code', EMPTY)])),
        # Both are behind it.
        (table([0], [(0, 'r', choice(A, B)), one, other]), E, above_leaves(A, [AT])),
        (table([0], [(0, 'r', choice(A, any_of(B))), one, other]), E, above_leaves(choice(A, any_of(A)), [AT])),
        (table([0], [(0, 'r', choice(A, seq(B, any_of(NONE)))), one, other]), E, above_leaves(choice(A, seq(A, EMPTY)), [AT])),
    ]


def text_kinds_of_widenings():
    """Where local and single-type differ, and sets with one member for text."""
    block, floor, lift, time, code = (0, 'block', seq(A, B)), (1, 'floor', C), (2, 'lift', t(4)), (5, 'time', EMPTY), (6, 'code', EMPTY)
    local_block = [block, floor, (2, 'lift', C)]
    two = [(1, 'p', C), (2, 'q', seq(C, t(4)))]
    made = [
        # P5, one door for text.
        (table([0], [block, floor, lift, (3, 'door', t(5)), (4, 'door', t(6), TEXT), time, code]), E,
         table([0], local_block + [(3, 'door', choice(t(4), t(5)), TEXT), (4, 'time', EMPTY), (5, 'code', EMPTY)]),
         table([0], [block, floor, lift, (3, 'door', t(5)), (4, 'door', t(6), TEXT), time, code])),
        (P5, document(tree('block', tree('floor', text('door', tree('time'))), tree('lift', tree('door', text('code'))))),
         table([0], local_block + [(3, 'door', choice(t(4), t(5)), TEXT), (4, 'time', EMPTY), (5, 'code', EMPTY, TEXT)]),
         table([0], [block, floor, lift, (3, 'door', t(5), TEXT), (4, 'door', t(6)), time, (6, 'code', EMPTY, TEXT)])),
        # P6, the outer group, or the inner.
        (table([0], [(0, 'group', seq(A, A)), (1, 'group', B, TEXT), (2, 'card', EMPTY)]), E,
         table([0], [(0, 'group', choice(seq(t(0), t(0)), A), TEXT), (1, 'card', EMPTY)]),
         table([0], [(0, 'group', seq(A, A)), (1, 'group', B, TEXT), (2, 'card', EMPTY)])),
        (table([0], [(0, 'group', seq(A, A), TEXT), (1, 'group', B), (2, 'card', EMPTY)]), E,
         table([0], [(0, 'group', choice(seq(t(0), t(0)), A), TEXT), (1, 'card', EMPTY)]),
         table([0], [(0, 'group', seq(A, A), TEXT), (1, 'group', B), (2, 'card', EMPTY)])),
        # P8, one of two labels.
        (table([0], [(0, 'list', A), (1, 'door', EMPTY, TEXT), (1, 'lift', EMPTY)]), E,
         table([0], [(0, 'list', choice(A, B)), (1, 'door', EMPTY, TEXT), (2, 'lift', EMPTY)])),
        # A set of one type, and a set of it and another.
        (table([0], [(0, 'r', seq(A, B))] + two + [(3, 'a', EMPTY), (4, 'a', EMPTY, TEXT)]), E,
         table([0], [(0, 'r', seq(A, B)), (1, 'p', C), (2, 'q', seq(C, C)), (3, 'a', EMPTY, TEXT)]),
         table([0], [(0, 'r', seq(A, B)), (1, 'p', C), (2, 'q', seq(t(4), t(4))), (3, 'a', EMPTY), (4, 'a', EMPTY, TEXT)])),
        (table([0], [(0, 'r', seq(A, B))] + two + [(3, 'a', EMPTY, TEXT), (4, 'a', EMPTY)]), E,
         table([0], [(0, 'r', seq(A, B)), (1, 'p', C), (2, 'q', seq(C, C)), (3, 'a', EMPTY, TEXT)]),
         table([0], [(0, 'r', seq(A, B)), (1, 'p', C), (2, 'q', seq(t(4), t(4))), (3, 'a', EMPTY, TEXT), (4, 'a', EMPTY, TEXT)])),
        # Starts of one label.
        (table([0, 1], [(0, 'a', B), (1, 'a', C, TEXT), (2, 'x', EMPTY), (3, 'y', EMPTY)]), E,
         table([0], [(0, 'a', choice(A, B), TEXT), (1, 'x', EMPTY), (2, 'y', EMPTY)])),
        (table([0, 1], [(0, 'a', B, TEXT), (1, 'b', C), (2, 'x', EMPTY), (3, 'y', EMPTY, TEXT)]), E,
         table([0, 1], [(0, 'a', B, TEXT), (1, 'b', C), (2, 'x', EMPTY), (3, 'y', EMPTY, TEXT)])),
        # Labels that are not used, and the order of labels.
        (table([0], [(0, 'b', A), (1, 'a', EMPTY, TEXT)], ['x', 'a', 'y', 'b']), E, table([1], [(0, 'a', EMPTY, TEXT), (1, 'b', t(0))]),
         table([0], [(0, 'b', A), (1, 'a', EMPTY, TEXT)], ['a', 'b'])),
        (E, doc('r', tree('p', text('x')), tree('q', tree('x'))),
         table([0], [(0, 'r', seq(A, C)), (1, 'p', B), (2, 'x', EMPTY, TEXT), (3, 'q', B)]),
         table([0], [(0, 'r', seq(A, B)), (1, 'p', C), (2, 'q', t(4)), (3, 'x', EMPTY, TEXT), (4, 'x', EMPTY)], ['r', 'p', 'x', 'q'])),
        (E, document(text('a', tree('a'))), table([0], [(0, 'a', choice(t(0), EMPTY), TEXT)]),
         table([0], [(0, 'a', A, TEXT), (1, 'a', EMPTY)])),
        (E, doc('a', text('a')), table([0], [(0, 'a', choice(t(0), EMPTY), TEXT)]), table([0], [(0, 'a', A), (1, 'a', EMPTY, TEXT)])),
    ]
    for place in (1, 2, 3):         # three members
        leaf = [(i, 'a', EMPTY, TEXT if i == place else '') for i in (1, 2, 3)]
        made.append((table([0], [(0, 'r', seq(A, B, C))] + leaf), E, above_leaves(seq(A, A, A), [AT])))
    for place in (0, 4, 9):         # a path of one label
        chained_marks = [(i, 'a', optional(t(i + 1)) if i < 9 else EMPTY, TEXT if i == place else '') for i in range(10)]
        made.append((table([0], chained_marks), E, table([0], [(0, 'a', choice(optional(t(0)), EMPTY), TEXT)]), table([0], chained_marks)))
    return made


def added_marks():
    """Marks of the old table, of the addition, or of both."""
    made = []
    list_of_cards = [(0, 'list', choice(any_of(A), A))]
    for old, new in (('', TEXT), (TEXT, ''), (TEXT, TEXT)):
        wider = table([0], list_of_cards + [(1, 'card', EMPTY, TEXT)])
        before = table([0], [(0, 'list', any_of(A)), (1, 'card', EMPTY, old)])
        made.append((before, table([3], [(3, 'list', t(4)), (4, 'card', EMPTY, new)]), wider))
        made.append((before, doc('list', tree('card' + new)), wider))
        made.append((before, doc('LIST', tree('CARD' + new)), wider))
        made.append((in_capitals(before), doc('list', tree('card' + new)), in_capitals(wider)))
        # The same content again is dropped, its mark stays.
        made.append((table([0], [(0, 'a', EMPTY, old)]), table([0], [(0, 'a', EMPTY, new)]), table([0], [(0, 'a', EMPTY, TEXT)])))
        made.append((table([0], [(0, 'a', EMPTY, old)]), doc('A' + new), table([0], [(0, 'a', EMPTY, TEXT)])))
        made.append((table([0], [(0, 'A', EMPTY, old)]), table([7], [(7, 'a', EMPTY, new)]), table([0], [(0, 'A', EMPTY, TEXT)])))
        made.append((cards(AS), document(tree('list' + new, tree('card'), tree('card' + old), tree('CARD'))),
                     above_leaves(AS, ['card' + old], 'list' + new)))
        # Other labels have none.
        apart = table([0, 1], [(0, 'a', EMPTY, old), (1, 'b', EMPTY, new)])
        made.append((table([0], [(0, 'a', EMPTY, old)]), table([0], [(0, 'b', EMPTY, new)]), apart))
    return made + [
        (E, doc('list', tree('card'), text('card'), tree('CARD')), cards(AS).replace(rule(1, 1, EMPTY), text_rule(1, 1, EMPTY))),
        (E, NAME_TEXT, NAME_TEXT), (NAME_TEXT, E, NAME_TEXT), (OTHER_TEXT, E, OTHER_TEXT), (NAME_TEXT, NAME_TEXT, NAME_TEXT),
        (NAME_TEXT, LISTER_TABLE, NAME_TEXT), (LISTER_TABLE, NAME_TEXT, NAME_TEXT), (NAME_TEXT, OTHER_TEXT, with_all_marks(NAME_TEXT)),
        (OTHER_TEXT, NAME_TEXT, with_all_marks(NAME_TEXT)), (LISTER_TABLE, with_all_marks(LISTER_TABLE), with_all_marks(LISTER_TABLE)),
        (NAME_TEXT, doc('list', tree('card', text('name'), text('zone'))), LISTED_TEXT),
        (LISTER_TABLE, doc('list', tree('card', text('name'), text('zone'))), LISTED_TEXT),
        (table([0], [(0, 'a', any_of(NONE), TEXT)]), E, table([0], [(0, 'a', EMPTY, TEXT)])),
        (table([0], [(0, 'a', optional(t(7)), TEXT)]), E, table([0], [(0, 'a', EMPTY, TEXT)])),
    ]


LISTED_TEXT = table([0], [(0, 'list', choice(any_of(A), A)), (1, 'card', choice(seq(B, optional(C)), seq(B, t(4)))),
                          (2, 'name', EMPTY, TEXT), (3, 'door', EMPTY), (4, 'zone', EMPTY, TEXT)])


def text_widenings():
    """An old table, an addition, and the result, or the two results to local and to single-type."""
    return later_round_widenings() + unreached_widenings() + text_kinds_of_widenings() + added_marks()


def text_widening_edges():
    for number, (old, addition, *results) in enumerate(text_widenings()):
        by_document = addition[0] in (0x30, 0x32)
        for call, result in zip(BY_DOCUMENT if by_document else BY_TABLE, results if len(results) == 2 else results * 2):
            yield gives(result), call, old, addition, dict(size=SIZES[number % 3], out='exact')
            if number % 7 == 0:
                yield refused(15), call, old, addition, dict(out='short')
            if by_document:
                yield YES, LETS_IN, result, addition, {}
                yield YES, LETS_IN, result, without_marks(addition), {}
            if len(results) == 2:           # a result of a kind is its own widening
                yield gives(result), BY_TABLE[BY_DOCUMENT.index(call)] if by_document else call, result, E, {}
    # The joined rule lets in text above the other's content, in both kinds.
    joined = table([0], [(0, 'r', choice(A, B), TEXT), (1, 'x', EMPTY), (2, 'y', EMPTY)])
    for a_tree in (text('r', tree('x')), text('r', tree('y')), tree('r', tree('x'))):
        yield YES, LETS_IN, joined, document(a_tree), {}
    # To single-type a door for text on one path stays apart.
    local, single = text_kinds_of_widenings()[0][2:]
    for below_floor, below_lift, both, one in (('', '', YES, YES), ('', TEXT, YES, YES), (TEXT, '', YES, NO), (TEXT, TEXT, YES, NO)):
        doors = tree('door' + below_floor, tree('time')), tree('door' + below_lift, tree('code'))
        a_document = doc('block', tree('floor', doors[0]), tree('lift', doors[1]))
        yield both, LETS_IN, local, a_document, {}
        yield one, LETS_IN, single, a_document, {}
    # 13 sees no mark.
    for old in (table([0], [(0, 'a', NONE, TEXT)]), table([0], [(0, 'a', t(0), TEXT)]), table([], [(0, 'a', EMPTY, TEXT)]),
                with_all_marks(fruitless(16)), table([0], [(0, 'a', some_of(t(1)), TEXT), (1, 'b', t(0))])):
        for call in BY_TABLE:
            yield refused(13), call, old, E, {}
            yield refused(13), call, E, old, dict(out=0)


def one_in_many_edges():
    """One rule 13 of as many rules as there may be, in the old table and in the addition."""
    for size, most in ((SMALL, 16), (STANDARD, 64), (LARGE, 128)):
        for place in (0, most // 2, most - 1):
            marks = [TEXT if i == place else '' for i in range(most)]
            pair = table([0], [(0, 'a', EMPTY, mark) for mark in marks])
            types = table(range(most), [(i, 'a', EMPTY, mark) for i, mark in enumerate(marks)])
            gone = table([0], [(0, 'a', NONE, mark) if mark else (0, 'a', EMPTY) for mark in marks])
            call = BY_TABLE[place % 2]
            for old, addition in ((pair, E), (E, pair), (types, E), (E, types), (types, without_marks(pair))):
                yield gives(table([0], [(0, 'a', EMPTY, TEXT)])), call, old, addition, dict(size=size)
            for old, addition in ((gone, E), (E, gone), (gone, gone)):
                yield gives(table([0], [(0, 'a', EMPTY)])), call, old, addition, dict(size=size)
            told = marked_star(most - 1, place)
            yield gives(told), BY_TABLE[(place + 1) % 2], told, E, dict(size=size, out='exact')
            yield gives(told), call, star(most - 1), told, dict(size=size, out='exact')


def text_limit_edges():
    """14 sees no mark: a rule 13 is as long as a rule 12."""
    for size, most in ((SMALL, 16), (STANDARD, 64), (LARGE, 128)):
        old, extra = with_all_marks(star(most - 2)), with_all_marks(EXTRA)
        leaf = ['s%d' % i for i in range(1, most - 1)]
        local = table([0, most - 1], [(0, 's', choice(*[t(i) for i in range(1, most - 1)]))]
                      + [(1 + i, name, EMPTY) for i, name in enumerate(leaf)] + [(most - 1, 'extra', EMPTY)])
        single = table([0, 1], [(0, 's', choice(*[t(i) for i in range(2, most)])), (1, 'extra', EMPTY)]
                       + [(2 + i, name, EMPTY) for i, name in enumerate(leaf)], ['s'] + leaf + ['extra'])
        for by_table, by_document, result in zip(BY_TABLE, BY_DOCUMENT, (local, single)):
            yield gives(with_all_marks(result)), by_table, old, extra, dict(size=size, out='exact')
            yield gives(with_all_marks(result)), by_document, old, document(text('extra')), dict(size=size, out='exact')
            yield refused(14), by_table, with_all_marks(star(most - 1)), extra, dict(size=size)
            yield refused(14), by_document, with_all_marks(star(most - 1)), document(text('extra')), dict(size=size, out=0)
    # A content of 1,024 and of 1,025 bytes; what reduces to none is not counted.
    long, short, over = seq(*[A] * 255), seq(*[A] * 254), seq(*[A] * 252, any_of(A), any_of(EMPTY))
    leaf = [(1, 'c', EMPTY)]
    for old, new in (('', TEXT), (TEXT, '')):
        told = gives(table([0], [(0, 'r', choice(long, short), TEXT)] + leaf))
        for call in BY_TABLE:
            yield told, call, table([0], [(0, 'r', long, old)] + leaf), table([0], [(0, 'r', short, new)] + leaf), dict(out='exact')
            yield refused(14), call, table([0], [(0, 'r', long, old)] + leaf), table([0], [(0, 'r', over, new)] + leaf), {}
            yield told, call, table([0], [(0, 'r', long, old), (0, 'r', short, new)] + leaf), E, {}
            yield refused(14), call, table([0], [(0, 'r', long, old), (0, 'r', over, new)] + leaf), E, dict(out=0)
            gone = table([0], [(0, 'r', long, old), (0, 'r', seq(over, NONE), new), (0, 'r', short)] + leaf)
            yield gives(table([0], [(0, 'r', choice(long, short), old)] + leaf)), call, gone, E, {}
    # 32,768 bytes in all.
    full = with_all_marks(padded_table(32768))
    yield gives(full), LOCAL_BY_TABLE, full, E, dict(out='exact')
    yield gives(full), SINGLE_BY_TABLE, E, full, dict(out=MOST_FOR_TABLES)
    yield refused(15), LOCAL_BY_TABLE, full, E, dict(out='short')
    root = choice(*[t(i) for i in range(1, 64)])
    near = padded_table(32767)
    wider = near.replace(rule(0, 0, root), text_rule(0, 0, choice(*[t(i) for i in range(1, 64)], EMPTY)))
    yield gives(wider), LOCAL_BY_DOCUMENT, near, document(text('n00')), dict(out='exact')
    yield refused(14), SINGLE_BY_DOCUMENT, full, document(text('n00')), {}
    yield refused(2), TABLE_READS, with_all_marks(padded_table(32769)), b'', {}
    yield READS, DOCUMENT_READS, with_all_marks(padded_document(32768)), b'', {}
    yield refused(2), DOCUMENT_READS, with_all_marks(padded_document(32769)), b'', {}


def text_edges():
    yield from text_reading_edges()
    yield from text_membership_edges()
    yield from text_kind_edges()
    yield from text_sample_edges()
    yield from joined_edges()
    yield from text_widening_edges()
    yield from one_in_many_edges()
    yield from text_limit_edges()


def with_mark_at(data, number):
    """The input with the other tag for the rule or node of this number."""
    parts = fields_of(data)
    at = [place for place, part in enumerate(parts) if part[0] in OTHER_TAG][number]
    parts[at] = bytes([OTHER_TAG[parts[at][0]]]) + parts[at][1:]
    return b''.join(parts)


def text_cases(cases):
    for _, call, first, second, options in text_edges():
        cases.add(call, first, second, **options)
    # The paper's tables and documents with each rule and each node for text in turn; the results asked for documents.
    for paper_table, a_document in (
            (P1, P2), (P5, P5_CROSSED), (P6, doc('group', tree('group', tree('card')), tree('group', tree('card')))),
            (P7, doc('list', tree('door', tree('time')))), (P8, doc('list', tree('lift'))), (LISTER_TABLE, LISTER_DOC)):
        rules, below = (sum(part[0] in OTHER_TAG for part in fields_of(data)) for data in (paper_table, a_document))
        for place in range(rules):
            marked = with_mark_at(paper_table, place)
            cases.widen(marked, E, out='exact')
            result = answer_of(cases.all[-1]).written
            cases.add(LETS_IN, result, with_mark_at(a_document, place % below))
            cases.add(BY_TABLE[place % 2], paper_table, marked)
            cases.add(BY_DOCUMENT[place % 2], marked, a_document)
        for place in range(below):
            marked = with_mark_at(a_document, place)
            cases.add(SAMPLE, marked)
            cases.widen_doc(paper_table, marked)
            cases.add(LETS_IN, with_mark_at(paper_table, place % rules), marked)
    for number in range(20):
        numbers = Numbers(710000 + number)
        first, second = (with_other_marks(numbers, wide_table(numbers), 50) for _ in range(2))
        cases.add(BY_TABLE[number % 2], first, second)
        cases.add(BY_DOCUMENT[number % 2], first, random_document(numbers, first, WIDE_POOL))


# ---------------------------------------------------------------- XML text

# An edge of XML text is as one of letter case: the answer, written by hand, then the call, its two inputs, and what else `Cases.add` is
# told; selftest.py holds the second validator to the answers.

SPACES = (b'\x20', b'\x09', b'\x0D', b'\x0A')


def name_bytes(head):
    """The name of a head as bytes; of a text mark there is no trace in XML text."""
    name = name_of(head)
    return name.encode('latin-1') if isinstance(name, str) else name


def xml(a_tree):
    """The tree as XML text, nothing between the tags."""
    name, inner = name_bytes(a_tree[0]), b''.join(xml(child) for child in a_tree[1])
    return b'<' + name + b'>' + inner + b'</' + name + b'>' if inner else b'<' + name + b'/>'


def xml_in_some_way(numbers, a_tree):
    """The tree as XML text with white space where it may be; a leaf as one tag or two."""
    outside, inside, two_tags = numbers.of((0, 20, 60)), numbers.of((0, 0, 10, 50)), numbers.of((0, 20, 100))

    def space(share):
        return b''.join(numbers.of(SPACES) for _ in range(numbers.between(1, 3))) if share and numbers.chance(share) else b''

    def written(one):
        name = name_bytes(one[0])
        if not one[1] and not numbers.chance(two_tags):
            return space(outside) + b'<' + name + space(inside) + b'/>'
        below = b''.join(written(child) for child in one[1])
        return space(outside) + b'<' + name + space(inside) + b'>' + below + space(outside) + b'</' + name + space(inside) + b'>'

    return written(a_tree) + space(outside)


# What may be found in XML and in files that are none.
TELLING_PIECES = (b'<', b'>', b'/', b'</', b'/>', b' ', b'\n', b'\x0b', b'\x00', b'!', b'a', b'A', b'0', b'=', b'"', b'&', b'\xc3\xa9',
                  b'<a>', b'</a>', b'<a/>', b'<a b="c"/>', b'<!--x-->', b'<?x?>', b'&lt;', b']]>', b'<>', b'</>', b'\xef\xbb\xbf')


def damaged_text(numbers, data):
    """XML text with one or two faults, few of which are none."""
    for _ in range(1 + numbers.below(2)):
        action, at = numbers.below(9), numbers.below(len(data) + 1)
        if action == 0:
            data = data[:at]
        elif action < 4:
            data = data[:at] + numbers.of(TELLING_PIECES) + data[at + numbers.below(2):]
        elif action == 4:
            data = data[:at] + data[at + 1:]
        elif action == 5:
            data = data[:at] + data[at:at + 1].translate(OTHER_CASE) + data[at + 1:]
        else:
            parts = re.findall(b'<[^>]*>|[^<]+|<', data)
            if len(parts) > 1:
                i, j = numbers.below(len(parts)), numbers.below(len(parts))
                if action == 6:
                    parts[i], parts[j] = parts[j], parts[i]
                elif action == 7:
                    parts.insert(j, parts[i])
                else:
                    parts.pop(i)
                data = b''.join(parts)
    return data


def spelled_text(spell, data):
    """XML text that reads, with `spell(name)` in place of each name, the same in both tags of an element."""
    unclosed = []

    def tag(found):
        begin, name, rest = found.groups()
        name = unclosed.pop() if begin == b'</' else spell(name)
        if begin == b'<' and not rest.endswith(b'/>'):
            unclosed.append(name)
        return begin + name + rest

    return re.sub(rb'(</?)([^ \t\r\n/>]*)([ \t\r\n]*/?>)', tag, data)


def exactly(a_tree):
    """A table that lets in this tree alone, up to letter case: a type for each node."""
    rules, spellings = [], {}

    def visit(one):
        number, name = len(rules), name_of(one[0])
        rules.append(None)
        below = [t(visit(child)) for child in one[1]]
        content = seq(*below) if len(below) > 1 else below[0] if below else EMPTY
        rules[number] = (number, spellings.setdefault(ref.folded(name_bytes(name)), name), content)
        return number

    visit(a_tree)
    return table([0], rules)


def inputs_for(call, data, a_table=GOOD_TABLE):
    """The two inputs of a call with this document."""
    return (data, b'') if call in DOCUMENT_FIRST else (a_table, data)


def told_of(refusal):
    return refused(refusal) if refusal else READS


def as_text(**options):
    return dict(options, format=ref.XML_TEXT)


# The texts of our readings, with their refusals.
XML_EXAMPLES = [
    (b'<!-- x -->', 16), (b'<!--x-->', 5), (b'<a b="c">', 16), (b'<>', 5), (b'< a>', 16), (b'< />', 5), (b'</>', 17), (b'</a/>', 16),
    (b'<a / >', 16), (b'<a/', 16), (b'<a<b>', 5), (b'<?xml?>', 5), (b'<a>x<b/></a>', 16), (b'', 11),
]


def xml_refusals():
    """Short texts that reading turns back at every size, by refusal; many with several faults, for their order."""
    long, longer = b'a' * 63, b'a' * 64
    return {
        16: [
            # Outside tags: anything but white space.
            b'x', b'x<a/>', b'<a/>x', b'<a>x</a>', b'<a><b/>x</a>', b'<a>/</a>', b'<a>></a>', b'>', b'/', b'/>', b'<a/>/', b'<a/>>',
            b'<a>>', b'<a>&amp;</a>', b'&lt;a/>', b'<a>]]></a>', b'\xef\xbb\xbf<a/>', b'\xfe\xff\x00<\x00a', b'\x00<a/>', b'<a/>\x00',
            b'<a/>\x1a', b'\x0b<a/>', b'\x0c<a/>', b'<a/>\x85', b'<a>\xa0</a>', b'<a/>=', b'=', b'<a>"</a>', b'<a>&#32;</a>', b'\x1c<a/>',
            b'<a/>!',
            # Text that stops inside a tag.
            b'<', b'</', b'<a', b'<a ', b'<a\n', b'<a/', b'<a /', b'<a></', b'<a></a', b'<a></a ', b'<a><', b'<a/><', b'<a/><b', b'<a/></',
            b'<!', b'<?xml', b'<!-- ', b'<' + long, b'<' + longer, b'</a', b'</b ', b'<1', b'<1/', b'</1', b'<a/></a', b'<<', b'<a<',
            b'< ', b'</ ',
            # Something after the name that ends no tag.
            b'< a/>', b'<\na/>', b'<a b>', b'<a b/>', b'<a b="c"/>', b"<a b='c'/>", b'<a b = "c"/>', b'<a =>', b'<a ">', b'<a <b/>',
            b'<a </a>', b'<a !>', b'<a \x0b>', b'<a \x00/>', b'<a \xa0/>', b'<a/b>', b'<a/b/>', b'<a/ >', b'<a/ />', b'<a /b>', b'<a//>',
            b'<a/\n>', b'<a /\t>', b'<a/<b/>', b'<a></a/>', b'<a></a />', b'<a></a/ >', b'<a></a b>', b'<a></ a>', b'<a></ a >',
            b'<a></a <', b'<//>', b'<//a>', b'< / >', b'< //>', b'</ />', b'</ a>', b'</a b>', b'</a b="c">', b'<a/></a/>', b'</<a/>',
            # Declarations, comments, instructions, sections, where white space is in them.
            b'<?xml version="1.0"?><a/>', b'<?xml ?><a/>', b'<!DOCTYPE a><a/>', b'<a><!-- x --></a>', b'<a><![CDATA[ x ]]></a>',
            b'<a><?p x?></a>', b'<!-- --><a/>', b'<a/><!-- -->', b'<a xmlns="u"/>', b'<\x00a\x00/\x00>\x00', b'<!ELEMENT a ANY>',
            # Before 17, 5 and 11 in one tag, and before a fault in a later one.
            b'<a></b x>', b'<a></b/>', b'</b x>', b'<a></A x>', b'<1 x>', b'<1 x/>', b'<a/><1 x>', b'<a/><b x>', b'<a/><b/ >', b'<!x y/>',
            b'<a>x</b>', b'<a>x<1/></a>', b'<a/>x<b/>', b'<a/>x</b>', b'x</a>', b'x<1/>', b'<a>x', b'<' + longer + b' x>',
        ],
        17: [
            b'</a>', b' </a>', b'</a><a/>', b'</ >', b'</\r\n>', b'</1>', b'</!>', b'</<>', b'</' + longer + b'>', b'<a></b>',
            b'<a></b></a>', b'<a></ab>', b'<ab></a>', b'<aa></a>', b'<a></aa>', b'<a><b></a></b>', b'<a><b></a>', b'<a><b/></b>',
            b'<a></a></a>', b'<a/></a>', b'<a/> </a >', b'<a/></b>', b'<a></>', b'<a></ >', b'<a><b></b></b>', b'<a><b/><c></b></c></a>',
            b'<a></a\x0b>', b'<a></<a>', b'<a><b></b\x00></a>', b'<' + long + b'></' + longer + b'>',
            # By bytes, whatever the names are equal to.
            b'<a></A>', b'<A></a>', b'<card></CARD>', b'<CARD></card>', b'<Card></card>', b'<list><card></Card></list>', b'<a><A></a></A>',
            # Before 5 and 11 in one tag, and before a fault in a later one.
            b'<a/></1>', b'<a/></' + longer + b'>', b'<a></b>x', b'<a></b><1/>', b'</a>x', b'</a><1/>', b'<a/></a>x', b'<a/></a><b/>',
            b'<a></b><',
        ],
        5: [
            b'< >', b'<\t>', b'<\n/>', b'<a><></a>', b'<a>< /></a>', b'<><a/>', b'<1/>', b'<1>', b'<-a/>', b'<.a/>', b'<9></9>',
            b'<a><-/></a>', b'<a!/>', b'<a=>', b'<a="x">', b'<a"/>', b"<a'/>", b'<a:b/>', b'<a&b/>', b'<a#/>', b'<\xc3\xa9/>', b'<a\xe9/>',
            b'<a\x00/>', b'<a\x0b/>', b'<a\x0c/>', b'<a\x85/>', b'<\xa0/>', b'<a\x1f/>', b'<a\x7f/>', b'<a\xff/>', b'<a<b/>', b'<<a/>',
            b'<<a>', b'<a><<b/></a>', b'<a<b></a<b>', b'<&>', b'<!---->', b'<a/><?x?>', b'<!DOCTYPE>', b'<a><![CDATA[x]]></a>',
            b'<a><!--x--></a>', b'<![>', b'<' + longer + b'/>', b'<' + longer + b'></' + longer + b'>', b'<a><' + longer + b' /></a>',
            b'<' + b'a' * 300 + b'>', b'<' + long + b'!/>', b'<' + long[1:] + b'!/>',
            # Before 11 in one tag, and before a fault in a later one.
            b'<a/><1/>', b'<a/><>', b'<a></a><!--x-->', b'<1>x', b'<1></2>', b'<a><1/>', b'<1/><2/>', b'<a><1>x</2>', b'<1/>x', b'<1><',
        ],
        11: [
            # No element, elements open.
            b' ', b'\n', b'\t\r\n ', b' ' * 100, b'<a>', b'<a> ', b'<a><b>', b'<a><b/>', b'<a><b></b>', b'<a><b></b>\n', b'<a><a></a>',
            b'<a ><b /><c >', b'<a><a><a></a></a>', b'<' + long + b'>',
            # A second root, and before a fault in a later tag.
            b'<a/><b/>', b'<a/><a/>', b'<a/><b>', b'<a></a><b></b>', b'<a/> <b/>', b'<a></a>\n<a/>', b'<a/><b/>x', b'<a/><b></c>',
            b'<a/><b><1/>', b'<a/><b/><', b'<a/><b></b', b'<a/><b/></b>',
        ],
    }


def xml_trees():
    """Texts that read, and their trees."""
    a, b, ab, list_ = tree('a'), tree('b'), tree('a', tree('b')), tree('list', tree('card'), tree('card'))
    long = 'n' * 63
    return [
        (b'<a/>', a), (b'<a></a>', a), (b'<a />', a), (b'<a\t/>', a), (b'<a\r/>', a), (b'<a\n/>', a), (b'<a \t\r\n />', a),
        (b'<a ></a>', a), (b'<a></a >', a), (b'<a\n>\n</a\n>', a), (b' <a/>', a), (b'<a/> ', a), (b'\t\r\n <a/>\n\r\t ', a),
        (b'<a> </a>', a), (b'<a>\r\n</a>', a), (b'<_/>', tree('_')), (b'<a-1._/>', tree('a-1._')), (b'<Z></Z>', tree('Z')),
        (b'<' + long.encode() + b'/>', tree(long)), (b'<' + long.encode() + b' >\n</' + long.encode() + b' >', tree(long)),
        (b'<a><b/></a>', ab), (b'<a><b></b></a>', ab), (b'<a > <b /> </a >', ab), (b'<a>\n\t<b>\n\t</b>\n</a>\n', ab),
        (b'<a><b/><b/></a>', tree('a', b, b)), (b'<a><b></b><b/></a>', tree('a', b, b)), (b'<a><b><b/></b></a>', tree('a', tree('b', b))),
        (b'<a><b/><c/><b/></a>', tree('a', b, tree('c'), b)), (b'<a><a><a></a></a><a/></a>', tree('a', tree('a', a), a)),
        (b'<a><b><c/></b><d/></a>', tree('a', tree('b', tree('c')), tree('d'))),
        (b'<a><b/><c><d/></c></a>', tree('a', b, tree('c', tree('d')))), (b'<list><card/><card/></list>', list_),
        (b'<list>\n  <card></card>\n  <card/>\n</list>\n', list_),
        (b'<LIST><card/><Card></Card></LIST>', tree('LIST', tree('card'), tree('Card'))),
        (b'<a><A></A><a></a></a>', tree('a', tree('A'), a)), (b'<aA></aA>', tree('aA')),
        (b'<list><card><name/><zone/></card></list>', tree('list', tree('card', tree('name'), tree('zone')))),
        (b'<list>\r\n\t<card >\r\n\t\t<name />\r\n\t\t<zone></zone >\r\n\t</card>\r\n</list>',
         tree('list', tree('card', tree('name'), tree('zone')))),
    ]


def xml_reading_edges():
    for number, (data, refusal) in enumerate(XML_EXAMPLES):
        for call in WITH_DOCUMENT:
            yield refused(refusal), call, *inputs_for(call, data), as_text(size=SIZES[number % 3])
    for refusal, texts in xml_refusals().items():
        for number, data in enumerate(texts):
            yield refused(refusal), DOCUMENT_READS, data, b'', as_text(size=SIZES[number % 3])
            if number % 5 == 0:
                call = WITH_DOCUMENT[1 + number // 5 % 4]
                yield refused(refusal), call, *inputs_for(call, data), as_text(size=SIZES[number % 3])
    for number, (data, a_tree) in enumerate(xml_trees()):
        yield READS, DOCUMENT_READS, data, b'', as_text(size=SIZES[number % 3])
        yield YES, LETS_IN, exactly(a_tree), data, as_text(size=SIZES[number % 3])
        if number % 4 == 0:
            yield NO, LETS_IN, exactly(tree('a', a_tree)), data, as_text()
    # Every prefix: inside a tag, with elements open, and whole.
    parts = (b' ', b'<list >', b'\n\t', b'<card/>', b'<Card\r>', b'<x />', b'</Card >', b' ', b'</list>', b'\n ')
    data, inside = b''.join(parts), [part[:1] == b'<' and cut > 0 for part in parts for cut in range(len(part))]
    for place, in_a_tag in enumerate(inside):
        refusal = 16 if in_a_tag else 0 if place >= len(data) - 2 else 11
        yield told_of(refusal), DOCUMENT_READS, data[:place], b'', as_text(size=SIZES[place % 3])
    yield READS, DOCUMENT_READS, data, b'', as_text()


def texts_with_byte(byte):
    """A byte at four places outside tags, and at five in a tag: behind a name, first in it, later in it; with what reading gives under
    document 01's classes. Most bytes fare alike; < > / and white space are told apart."""
    one = bytes([byte])
    space, first, later = one in SPACES, ref.ASCII[byte] == 2, ref.ASCII[byte] > 0

    def by_byte(otherwise, at_space, **told):
        names = {b'<': 'less', b'>': 'more', b'/': 'slash'}
        return at_space if space else told.get(names.get(one), otherwise)

    outside = [(one + b'<a/>', by_byte(16, 0, less=5)), (b'<a>' + one + b'</a>', by_byte(16, 0)), (b'<a/>' + one, by_byte(16, 0)),
               (b'<a><b/>' + one + b'<c/></a>', by_byte(16, 0, less=5))]
    inside = [(b'<a ' + one + b'></a>', by_byte(16, 0, slash=17)), (b'<a></a ' + one + b'>', by_byte(16, 0)),
              (b'<a ' + one + b'/>', by_byte(16, 0)), (b'<' + one + b'a/>', by_byte(0 if first else 5, 16, slash=16)),
              (b'<a' + one + b'/>', by_byte(0 if later else 5, 0, more=16, slash=16))]
    return outside + inside


def xml_byte_edges():
    """Every byte at a place in turn; < > / and white space at every place."""
    for byte in range(256):
        texts = texts_with_byte(byte)
        for data, refusal in texts if bytes([byte]) in (*SPACES, b'<', b'>', b'/') else texts[byte % 9:][:1]:
            yield told_of(refusal), DOCUMENT_READS, data, b'', as_text(size=SIZES[byte % 3])


def opened(count, inner=b'', name=b'a'):
    """So many elements, each in the one before, and what is in the last."""
    return (b'<' + name + b'>') * count + inner + (b'</' + name + b'>') * count


def children(count, last=b'', name=b'list', child=b'<card/>'):
    return b'<' + name + b'>' + child * count + last + b'</' + name + b'>'


def xml_limit_edges():
    """Texts and what reading gives at the small, the standard and the large size."""
    long, longer = b'n' * 63, b'n' * 64
    every_size = (children(200), children(201), b'<' + long + b'/>', b'<' + longer + b'/>', b'<a/>' + b' ' * 32764, b'<a/>' + b' ' * 32765)
    edges_ = [
        # Nodes.
        (xml(crowd(256)), 0, 0, 0), (xml(crowd(257)), 11, 0, 0), (xml(crowd(1024)), 11, 0, 0), (xml(crowd(1025)), 11, 11, 0),
        (xml(crowd(2048)), 11, 11, 0), (xml(crowd(2049)), 11, 11, 11),
        # Levels, with the last one as one tag, as two, and with what is wrong below it.
        (xml(chain(16)), 0, 0, 0), (xml(chain(17)), 11, 0, 0), (xml(chain(64)), 11, 0, 0), (xml(chain(65)), 11, 11, 11),
        (opened(16), 0, 0, 0), (opened(17), 11, 0, 0), (opened(64), 11, 0, 0), (opened(65), 11, 11, 11), (opened(16, b'\n'), 0, 0, 0),
        (opened(64, b' '), 11, 0, 0), (opened(15, b'<b/><b></b><b/>'), 0, 0, 0), (opened(63, b'<b/>' * 200), 11, 0, 0),
        (opened(16, b'<b/>'), 11, 0, 0), (opened(16, b'<1/>'), 5, 5, 5), (opened(16, b'</b>'), 17, 17, 17),
        (opened(16, b'<b'), 16, 16, 16), (opened(16, b'x'), 16, 16, 16), (opened(64, b'<1/>'), 11, 5, 5),
        (opened(64, b'</b>'), 11, 17, 17), (opened(64, b'<b x>'), 11, 16, 16), (opened(64, b'x'), 11, 16, 16),
        (opened(64, b'<b/>'), 11, 11, 11), (b'<a>' * 16, 11, 11, 11), (b'<a>' * 65 + b'x', 11, 11, 11), (b'<a>' * 64 + b'<1>', 11, 5, 5),
        # Up and down again: levels are counted, not tags.
        (b'<r>' + opened(15) * 15 + b'</r>', 0, 0, 0), (b'<r>' + opened(16) + b'</r>', 11, 0, 0),
        (b'<r>' + (opened(15) + b'<b/>') * 15 + b'</r>', 0, 0, 0), (b'<r>' + opened(63) * 32 + b'</r>', 11, 11, 0),
        # Children: it is the tag of the 201st, whatever came with the parent's and whatever comes later.
        (children(200), 0, 0, 0), (children(201), 11, 11, 11), (children(199, b'<card></card>'), 0, 0, 0),
        (children(200, b'<card>'), 11, 11, 11), (children(200, b' '), 0, 0, 0), (children(200, b'x'), 16, 16, 16),
        (children(200, b'x<card/>'), 16, 16, 16), (children(200, b'</card>'), 17, 17, 17), (children(200, b'<1/>'), 5, 5, 5),
        (children(200, b'<card x/>'), 16, 16, 16), (children(200, b'<card/>x'), 11, 11, 11), (children(200, b'<card/><1/>'), 11, 11, 11),
        (children(100, b'x' + b'<card/>' * 101), 16, 16, 16), (children(200) + b'<a/>', 11, 11, 11), (children(200) + b' ', 0, 0, 0),
        (children(200)[:-1], 16, 16, 16), (children(200)[:-7], 11, 11, 11), (b'<r>' + children(200) + b'<b/>' * 54 + b'</r>', 0, 0, 0),
        (b'<r>' + children(200) + b'<b/>' * 55 + b'</r>', 11, 0, 0), (b'<r>' + children(200) * 2 + children(201) + b'</r>', 11, 11, 11),
        (b'<r>' + b'<b/>' * 199 + children(5) + b'</r>', 0, 0, 0), (b'<r>' + b'<b/>' * 200 + children(5) + b'</r>', 11, 11, 11),
        (children(200, child=b'<card></card>'), 0, 0, 0),
        # The node too many before what is wrong later, and after what is wrong in its own tag.
        (xml(crowd(257)) + b'x', 11, 16, 16), (xml(crowd(1025)) + b'</a>', 11, 11, 17), (xml(crowd(256)) + b'<1/>', 5, 5, 5),
        (xml(crowd(256)) + b'<a/>', 11, 11, 11), (xml(crowd(256))[:-4] + b'<1/></a>', 5, 5, 5), (xml(crowd(256))[:-4] + b'<a', 16, 16, 16),
        # Names.
        (b'<' + long + b'/>', 0, 0, 0), (b'<' + longer + b'/>', 5, 5, 5), (b'<a><' + long + b'></' + long + b'></a>', 0, 0, 0),
        (b'<' + long + b'></' + longer + b'>', 17, 17, 17), (b'<' + longer + b'></' + longer + b'>', 5, 5, 5), (b'<' + longer, 16, 16, 16),
        (b'<' + long + b'></' + long[1:] + b'>', 17, 17, 17), (b'<' + long + b'></' + long[1:] + b'm>', 17, 17, 17),
        (b'<' + b'n' * 319 + b'/>', 5, 5, 5), (b'<' + b'n' * 20000 + b'/>', 5, 5, 5),
        # The length of the text itself, wherever it comes from.
        (b'<a/>' + b' ' * 32764, 0, 0, 0), (b'<a/>' + b' ' * 32765, 2, 2, 2), (b'\n' * 32764 + b'<a/>', 0, 0, 0),
        (b'\n' * 32765 + b'<a/>', 2, 2, 2), (b'<a' + b'\t' * 32764 + b'/>', 0, 0, 0), (b'<a' + b'\t' * 32765 + b'/>', 2, 2, 2),
        (b'<a></a' + b'\r' * 32761 + b'>', 0, 0, 0), (b'<a>' + b' ' * 32761 + b'</a>', 0, 0, 0), (b' ' * 32768, 11, 11, 11),
        (b' ' * 32769, 2, 2, 2), (b'x' * 32769, 2, 2, 2), (b' ' * 32767 + b'x', 16, 16, 16), (b' ' * 32767 + b'<', 16, 16, 16),
        (b'<' + b'a' * 32767, 16, 16, 16), (b'<' + b'a' * 32766 + b'>', 5, 5, 5), (b'</' + b'a' * 32765 + b'>', 17, 17, 17),
        (b'<a/>' + b' ' * 65532, 2, 2, 2), (b'<a/>' + b' ' * 65536, 2, 2, 2), (b'<1/>' + b' ' * 32765, 2, 2, 2),
    ]
    for number, (data, *refusals) in enumerate(edges_):
        alike = len(set(refusals)) == 1 and data not in every_size
        for size in SIZES[number % 3:][:1] if alike else SIZES if len(data) < 1000 or data in every_size else beside_the_edge(refusals):
            yield told_of(refusals[size]), DOCUMENT_READS, data, b'', as_text(size=size)
        if refusals[STANDARD] and len(data) < 3000 or number % 6 == 0:
            call = WITH_DOCUMENT[1 + number % 4]
            if refusals[LARGE]:
                yield refused(refusals[LARGE]), call, *inputs_for(call, data), as_text(size=LARGE)
            elif refusals[SMALL]:
                yield refused(refusals[SMALL]), call, *inputs_for(call, data), as_text(size=SMALL)


def many_leaves(groups, count, length):
    """A root with so many groups of so many leaves, all leaves of one name of this length."""
    return tree('r', *[tree('g', *[tree('b' * length)] * count)] * groups)


def long_file_edges():
    """Texts within the limit whose document files would be beyond it: a file has a byte more for each leaf. (At the small size the nodes
    are too few.) With names a byte longer the text is beyond it too."""
    for size, groups, length, refusal in ((LARGE, 10, 13, 0), (LARGE, 10, 14, 2), (STANDARD, 5, 29, 0), (STANDARD, 5, 30, 2)):
        a_tree = many_leaves(groups, 200, length)
        data, leaf = xml(a_tree), 'b' * length
        file = document(a_tree)
        assert (len(data) > ref.INPUT_BYTES) == (refusal == 2) and len(file) > ref.INPUT_BYTES
        sampled = table([0], [(0, 'r', some_of(t(1))), (1, 'g', some_of(t(2))), (2, leaf, EMPTY)])
        other = table([0], [(0, 'r', any_of(t(1))), (1, 'g', EMPTY), (2, leaf, EMPTY)])
        wider = table([0], [(0, 'r', choice(any_of(t(1)), some_of(t(1)))), (1, 'g', choice(EMPTY, some_of(t(2)))), (2, leaf, EMPTY)])
        asked = [(READS, DOCUMENT_READS, data, b''), (YES, LETS_IN, sampled, data), (NO, LETS_IN, other, data)]
        asked += [(gives(sampled), SAMPLE, data, b'')] + [(gives(wider), call, other, data) for call in BY_DOCUMENT]
        for told, call, first, second in asked[:2] if refusal else asked:
            yield refused(refusal) if refusal else told, call, first, second, as_text(size=size)
        yield refused(2), DOCUMENT_READS, file, b'', dict(size=size)
        spaces = data + b' ' * (ref.INPUT_BYTES - len(data))
        if not refusal:
            yield gives(sampled), SAMPLE, spaces, b'', as_text(size=size, out='exact')
            yield refused(2), SAMPLE, spaces + b' ', b'', as_text(size=size)


def xml_class_edges():
    """The name rule of the lent classes; a byte that is a letter is still none outside a tag."""
    late = with_class(1, range(0x80, 0x100))
    one, two, three = (name.encode('latin-1') for name in OWN_NAMES)
    for number, (classes, data, refusal) in enumerate((
            (OWN, b'<\xc3\xa9/>', 0), (OWN, b'<\xc3\xa9></\xc3\xa9>', 0), (OWN, b'<\xc3\xa9></\xc3\xa8>', 17), (OWN, b'<a&b/>', 0),
            (OWN, b'<"#"/>', 0), (OWN, b'<a b="c"/>', 16), (OWN, b'<a "b"/>', 16), (OWN, b'<a="c"/>', 5), (OWN, b'\xef\xbb\xbf<a/>', 16),
            (OWN, b'<a>\xc3\xa9</a>', 16), (OWN, b'<a>&amp;</a>', 16), (OWN, b'<a/>#', 16), (OWN, b'<a\xa0/>', 0),
            (OWN, b'<a\x85></a\x85>', 0), (OWN, b'<a \xa0/>', 16), (OWN, b'\x85<a/>', 16), (OWN, b'<\xff\xfe/>', 0),
            (OWN, b'<' + one + b'><' + three + b'/></' + one + b'>', 0), (OWN, b'<' + one + b'></' + two + b'>', 17),
            (OWN, b'<\xe1></a>', 17), (OWN, b'<\xe9></\xc9>', 17), (OWN, b'<' + b'\xff' * 63 + b'/>', 0),
            (OWN, b'<' + b'\xff' * 64 + b'/>', 5), (OWN, b'<!/>', 5), (OWN, b'<!--x-->', 5), (OWN, b'<?x?>', 5), (OWN, b'<1/>', 5),
            (late, b'<\xe9/>', 5), (late, b'<a\xe9/>', 0), (late, b'<a\xe9></a\xe9 >', 0), (late, b'<\xe9 x/>', 16),
            (late, b'</\xe9>', 17), (ALL_LETTERS, b'<1:2/>', 0), (ALL_LETTERS, b'<a;b/>', 0), (ALL_LETTERS, b'<[x]></[x]>', 0),
            (ALL_LETTERS, b"<'/>", 0), (ALL_LETTERS, b'<-->', 11), (ALL_LETTERS, b'<a<b/>', 5), (ALL_LETTERS, b'<![CDATA[x]]>', 5),
            (ALL_LETTERS, b'<a=b/>', 5), (ALL_LETTERS, b'<a,b/>', 5), (ALL_LETTERS, b'<a\x00/>', 5), (ALL_LETTERS, b'<a\x0b/>', 5),
            (ALL_LETTERS, b'<@></`>', 17), (ALL_LETTERS, b'<a>;</a>', 16), (one_letter(0xFF), b'<\xff/>', 0),
            (one_letter(0xFF), b'<a/>', 5), (one_letter(0xFF), b'</a>', 17), (one_letter(0xFF), b'<a', 16),
            (with_class(0, b'A'), b'<a></A>', 17), (with_class(0, b'A'), b'<A></A>', 5), (with_class(1, b'a'), b'<a/>', 5),
            (with_class(1, b'a'), b'<ba/>', 0))):
        told = told_of(refusal)
        yield told, DOCUMENT_READS, data, b'', as_text(classes=classes, size=SIZES[number % 3])
        if told != READS and number % 3 == 0:
            call = WITH_DOCUMENT[1 + number // 3 % 4]
            yield told, call, *inputs_for(call, data, E), as_text(classes=classes)
    own = xml(tree_of(ref.read_document(ref.LARGE, OWN, OWN_DOC)))
    sampled = table([0], [(0, OWN_NAMES[0], seq(t(1), t(3))), (1, OWN_NAMES[2], t(2)), (2, OWN_NAMES[1], EMPTY), (3, OWN_NAMES[1], EMPTY)])
    for number, call in enumerate(WITH_DOCUMENT):
        told = {DOCUMENT_READS: READS, SAMPLE: gives(sampled), LETS_IN: YES}.get(call)
        if told:
            yield told, call, *inputs_for(call, own, OWN_TABLE), as_text(classes=OWN, out='exact')
        yield refused(5), call, *inputs_for(call, own), as_text()
        for classes, work, refusal in ((BAD_CLASSES[number], None, 18), (BAD_CLASSES[number], 16383, 1), (OWN, 16383, 1)):
            faulty = (b'x' * 32769, b'x', b'</a>', b'<1/>', b'')[number]
            yield refused(refusal), call, *inputs_for(call, faulty), as_text(classes=classes, work=work, out=50)


def xml_order_edges():
    """After the old table, before 13, 14 and 15; 2, then the first tag at fault."""
    pieces = ((b'x', 16), (b'</q>', 17), (b'<1/>', 5))
    for (one, refusal), (other, _) in itertools.product(pieces, repeat=2):
        yield refused(refusal), DOCUMENT_READS, b'<a>' + one + other + b'</a>', b'', as_text()
        yield refused(refusal), DOCUMENT_READS, b'<a/>' + one + other, b'', as_text()
    for one, _ in pieces:
        yield refused(11), DOCUMENT_READS, b'<a/><b/>' + one, b'', as_text()
    for number, (refusal, faulty) in enumerate((
            (3, b''), (3, GOOD_TABLE[:-1]), (4, GOOD_DOC), (5, label('1') + END), (6, start(3) + start(3) + END),
            (8, start(99) + END), (9, one_rule(b'\x08')), (10, one_rule(deep(33))), (12, GOOD_TABLE + b'\x00'), (2, bytes(32769)))):
        for call in (LETS_IN, BY_DOCUMENT[number % 2]):
            yield refused(refusal), call, faulty, (b'x', b'</a>', b'<1/>', b'')[number % 4], as_text()
    for data, refusal in ((b'x', 16), (b'</a>', 17), (b'<1/>', 5), (b'', 11), (b' ' * 32769, 2)):
        for call in BY_DOCUMENT:
            yield refused(refusal), call, E, data, as_text(out=0)
        yield refused(refusal), SAMPLE, data, b'', as_text(out=0)
    seventeen = xml(tree('r', *[tree('c%02d' % i) for i in range(16)]))
    for call in (SAMPLE,) + BY_DOCUMENT:
        yield refused(14), call, *inputs_for(call, seventeen, P1), as_text(size=SMALL, out=0)
        yield refused(16), call, *inputs_for(call, seventeen + b'x', P1), as_text(size=SMALL, out=0)
        yield refused(15), call, *inputs_for(call, b'<list><card/></list>'), as_text(out='short')
        yield refused(15), call, *inputs_for(call, b'<list><card/></list>'), as_text(out=0)


# Numbers that are no format; low bytes that would be one are among them. Each counts as 0.
NO_FORMATS = (2, 3, 255, 256, 257, 2**16 + 1, 2**31, 2**31 + 1, 2**32 - 1)


def format_edges():
    """The format alone says what the bytes are."""
    for number in (0,) + NO_FORMATS:
        for told, call, first, second in ((READS, DOCUMENT_READS, GOOD_DOC, b''), (YES, LETS_IN, GOOD_TABLE, GOOD_DOC),
                                          (refused(3), DOCUMENT_READS, b'<a/>', b''), (refused(3), LETS_IN, GOOD_TABLE, b'')):
            yield told, call, first, second, dict(format=number)
        call = ((SAMPLE,) + BY_DOCUMENT)[number % 3]
        told = {SAMPLE: cards(AS)}.get(call, cards(choice(any_of(A), AS)))
        yield gives(told), call, *inputs_for(call, GOOD_DOC), dict(format=number)
        yield refused(3), call, *inputs_for(call, b'<list><card/></list>'), dict(format=number)
    for call in WITH_DOCUMENT:
        for data, refusal in ((GOOD_DOC, 16), (P2, 16)):
            yield refused(refusal), call, *inputs_for(call, data), as_text()
        for data, refusal in ((b'<list><card/></list>', 3), (b' ' * 9000 + b'<a/>', 4)):
            yield refused(refusal), call, *inputs_for(call, data), {}
    for data, text_, file in ((DOC_END, 16, 11), (GOOD_TABLE, 16, 4), (E, 16, 4), (b'', 11, 3), (b'<a/>', 0, 3), (b' <a/>', 0, 3),
                              (b'</>', 17, 3)):
        yield told_of(text_), DOCUMENT_READS, data, b'', as_text()
        yield refused(file), DOCUMENT_READS, data, b'', {}


def plain_trees(data):
    """The tree of a document file without text marks; none for others."""
    try:
        return [tree_of(ref.read_document(ref.LARGE, ANY_BYTES, data))] if data and not has_marks(data) else []
    except ref.Refused:
        return []


def xml_result_edges():
    """Samples and widenings of Cards 5 and 8, whose answers stand there by hand, from text in place of files."""
    ways = [xml, partial(xml_in_some_way, Numbers(720000))]
    for number, (data, told) in enumerate(spelled_samples() + run_samples()):
        for a_tree in plain_trees(data):
            written = ways[number % 2](a_tree)
            yield gives(told), SAMPLE, written, b'', as_text(size=SIZES[number % 3] if len(written) < 1000 else LARGE, out='exact')
            if number % 2:
                yield YES, LETS_IN, told, written, as_text()
    for number, (word, content) in enumerate(run_words()):
        if number % 3 == 0:
            told, written = gives(above_leaves(content, first_seen(word))), ways[number // 3 % 2](row(word))
            yield told, SAMPLE, written, b'', as_text(size=SIZES[number % 3])
    widenings = [(old, data, results) for old, data, *results in spelled_widenings()]
    widenings += [(old, data, results) for old, data, _, *results in run_widenings()]
    for number, (old, data, results) in enumerate(widenings):
        for a_tree in plain_trees(data):
            written = ways[number % 2](a_tree)
            for call, result in zip(BY_DOCUMENT, results if len(results) == 2 else results * 2):
                yield gives(result), call, old, written, as_text(size=SIZES[number % 3], out='exact')
            yield YES, LETS_IN, results[0], written, as_text()
    # Text holds no mark: a rule 12 takes each node, and a rule 13 too; what is written has the old table's marks alone.
    lister = xml(tree('list', tree('card', tree('name'), tree('zone'))))
    for a_table in (LISTER_TABLE, NAME_TEXT, OTHER_TEXT, with_all_marks(LISTER_TABLE)):
        yield NO, LETS_IN, a_table, lister, as_text()
        yield YES, LETS_IN, a_table, lister.replace(b'zone', b'door'), as_text()
    listed = table([0], [(0, 'list', choice(any_of(A), A)), (1, 'card', choice(seq(B, optional(C)), seq(B, t(4)))),
                         (2, 'name', EMPTY, TEXT), (3, 'door', EMPTY), (4, 'zone', EMPTY)])
    yield gives(listed), LOCAL_BY_DOCUMENT, NAME_TEXT, lister, as_text()
    yield gives(P1), SAMPLE, b'<a/>', b'', as_text()
    yield gives(with_all_marks(P1)), SINGLE_BY_DOCUMENT, with_all_marks(P1), b'<a/>', as_text()
    # The paper's, as texts.
    for told, a_table, data in ((YES, P1, P2), (NO, P5, P5_CROSSED), (YES, P5, P5_STRAIGHT), (NO, LISTER_TABLE, LISTER_DOC)):
        for size in SIZES:
            yield told, LETS_IN, a_table, xml(plain_trees(data)[0]), as_text(size=size)
    # Lent words: just those of the size are cleared, also after 16 and 17, and none by 1.
    for call in WITH_DOCUMENT:
        for data, refusal in ((b'<list/>x', 16), (b'<list></card>', 17), (b'<list><card/><card/></list>', 0)):
            told = refused(refusal) if refusal else {DOCUMENT_READS: READS, LETS_IN: YES, SAMPLE: gives(cards(AS))}.get(
                call, gives(cards(choice(any_of(A), AS))))
            for size, words in ((SMALL, 12288), (STANDARD, 16384), (LARGE, 32768), (3, 16384)):
                if (size + call + refusal) % 2 == 0:
                    yield told, call, *inputs_for(call, data), as_text(size=size, work=words + 13 * (size % 2), fill=0xFFFFFFFF, out=300)
        yield refused(1), call, *inputs_for(call, b'<list/>x'), as_text(work=16383, fill=7, out=20)


def xml_edges():
    yield from xml_reading_edges()
    yield from xml_byte_edges()
    yield from xml_limit_edges()
    yield from long_file_edges()
    yield from xml_class_edges()
    yield from xml_order_edges()
    yield from format_edges()
    yield from xml_result_edges()


def xml_cases(cases):
    for _, call, first, second, options in xml_edges():
        cases.add(call, first, second, **options)


# ---------------------------------------------------------------- printed pages

# An edge of printed pages is as one of letter case: the answer, written by hand, then the call, its two inputs, and what else `Cases.add`
# is told; selftest.py holds the second validator to the answers.

def prints(*rows):
    """The answer with pages of these rows, written out by hand: here they are only padded, and the last page is filled."""
    assert all(len(row) <= 72 for row in rows)
    rows += ('',) * (-len(rows) % 60)
    pages = ''.join(row.ljust(72) + '\n' for row in rows).encode('latin-1')
    return ref.Answer(0, len(pages), pages)


NO_PAGE = ref.Answer(0, 0, b'')
NAME_23, NAME_46 = 'abcdefghijklmnopqrstuvw', 'abcdefghijklmnopqrstuvwxyz0123456789-ABCDEFGHI'
NAME_63 = 'abcdefghijklmnopqrstuvwxyz0123456789-ABCDEFGHIJKLMNOPQRSTUVWXYZ'


def in_order(count, first=0):
    """A sequence of so many types, 0 to 9 again and again; its text has three characters for each, and one more."""
    return seq(*[t(i % 10) for i in range(first, first + count)])


def paper_pages():
    """The tables of document 01."""
    return [
        (P1, 't0  a                       ()'),
        (P5,
         't0  block                   (t1,t2)',
         't1  floor                   t3',
         't2  lift                    t4',
         't3  door                    t5',
         't4  door                    t6',
         't5  time                    ()',
         't6  code                    ()'),
        (P6,
         't0  group                   (t1,t1)',
         't1  group                   t2',
         't2  card                    ()'),
        (P7,
         't0  list                    ((t1,t2)|t3)',
         't1  door                    t4',
         't2  card                    t2',
         't3  door                    t5',
         't4  time                    ()',
         't5  code                    ()'),
        (P8,
         't0  list                    t1',
         't1  door                    ()',
         't1  lift                    ()'),
        (LISTER_TABLE,
         't0  list                    t1*',
         't1  card                    (t2,t3?)',
         't2  name                    ()',
         't3  door                    ()'),
        (NAME_TEXT,
         't0  list                    t1*',
         't1  card                    (t2,t3?)',
         't2  name                    ()#',
         't3  door                    ()'),
        (OTHER_TEXT,
         't0  list                    t1*#',
         't1  card                    (t2,t3?)#',
         't2  name                    ()',
         't3  door                    ()#'),
    ]


def pages_as_read():
    """Rules in file order, as they are: nothing is reduced, joined, tidied or sorted, and starts have no row."""
    return [
        # Types descend, and leap.
        (table([3, 0], [(15, 'a', EMPTY), (7, 'b', t(15)), (3, 'c', t(7)), (0, 'd', t(3))]),
         't15 a                       ()',
         't7  b                       t15',
         't3  c                       t7',
         't0  d                       t3'),
        (table([9], [(9, 'z', t(10)), (10, 'y', t(9)), (1, 'x', EMPTY), (10, 'y', EMPTY), (0, 'x', EMPTY)]),
         't9  z                       t10',
         't10 y                       t9',
         't1  x                       ()',
         't10 y                       ()',
         't0  x                       ()'),
        # The order of labels is not that of rules, and a label may have no rule.
        (table([0], [(0, 'c', EMPTY), (1, 'a', EMPTY), (2, 'b', EMPTY)], ['unused', 'a', 'b', 'c']),
         't0  c                       ()',
         't1  a                       ()',
         't2  b                       ()'),
        # One rule three times, and with both tags.
        (table([0], [(0, 'a', t(0))] * 3),
         't0  a                       t0',
         't0  a                       t0',
         't0  a                       t0'),
        (table([0], [(0, 'a', EMPTY), (0, 'a', EMPTY, TEXT), (0, 'a', EMPTY), (1, 'a', EMPTY, TEXT)]),
         't0  a                       ()',
         't0  a                       ()#',
         't0  a                       ()',
         't1  a                       ()#'),
        # Unfruitful, unreached, without a start, and a type that has no rule.
        (table([], [(0, 'list', seq(t(1), t(9))), (1, 'card', t(1)), (2, 'door', NONE), (3, 'lift', EMPTY, TEXT)]),
         't0  list                    (t1,t9)',
         't1  card                    t1',
         't2  door                    !',
         't3  lift                    ()#'),
        # None, and every operator upon every other.
        (table([0], [(0, 'a', NONE), (1, 'a', any_of(NONE)), (2, 'a', some_of(NONE)), (3, 'a', optional(NONE)), (4, 'a', NONE, TEXT),
                     (5, 'a', seq(NONE, EMPTY)), (6, 'a', choice(NONE, NONE)), (7, 'a', choice(EMPTY, NONE, t(0)), TEXT)]),
         't0  a                       !',
         't1  a                       !*',
         't2  a                       !+',
         't3  a                       !?',
         't4  a                       !#',
         't5  a                       (!,())',
         't6  a                       (!|!)',
         't7  a                       (()|!|t0)#'),
        (table([0], [(0, 'r', seq(any_of(seq(t(1), t(2))), some_of(choice(t(1), t(2))))), (1, 'a', choice(choice(t(1), t(1)), t(1))),
                     (2, 'b', any_of(some_of(optional(t(3))))), (3, 'c', optional(some_of(any_of(EMPTY)))),
                     (4, 'd', seq(seq(seq(EMPTY, EMPTY), EMPTY), choice(EMPTY, seq(t(15), NONE)))),
                     (5, 'e', some_of(seq(any_of(EMPTY), t(1))))]),
         't0  r                       ((t1,t2)*,(t1|t2)+)',
         't1  a                       ((t1|t1)|t1)',
         't2  b                       t3?+*',
         't3  c                       ()*+?',
         't4  d                       ((((),()),()),(()|(t15,!)))',
         't5  e                       (()*,t1)+'),
        # 32 deep.
        (one_rule(deep(32)), 't0  list                    ()*******************************'),
        (one_rule(b'\x07' * 31 + t(10)), 't0  list                    t10???????????????????????????????'),
        (one_rule(b'\x03\x02\x01' * 31 + EMPTY),
         't0  list                    ((),((),((),((),((),((),((),((),((),((),((),',
         '                            ((),((),((),((),((),((),((),((),((),((),((),',
         '                            ((),((),((),((),((),((),((),((),((),()))))))',
         '                            )))))))))))))))))))))))))'),
        # Names spelled as in the table, one spelling a name.
        (table([0], [(0, 'CARD', t(1)), (1, 'List', t(2)), (2, 'dOOR', t(0)), (0, 'CARD', EMPTY), (1, 'List', EMPTY)]),
         't0  CARD                    t1',
         't1  List                    t2',
         't2  dOOR                    t0',
         't0  CARD                    ()',
         't1  List                    ()'),
        (table([0], [(0, '_', EMPTY), (1, 'T1', EMPTY), (2, 't2', t(2)), (3, 'a.b-c_9', EMPTY), (4, 'start', EMPTY), (5, 'local', EMPTY)]),
         't0  _                       ()',
         't1  T1                      ()',
         't2  t2                      t2',
         't3  a.b-c_9                 ()',
         't4  start                   ()',
         't5  local                   ()'),
    ]


def pages_with_long_names():
    """A name of the column's width takes no further row, one of a byte more does."""
    return [
        (table([0], [(0, NAME_23[:-1], EMPTY)]),
         't0  abcdefghijklmnopqrstuv  ()'),
        (table([0], [(0, NAME_23, EMPTY)]),
         't0  abcdefghijklmnopqrstuvw ()'),
        (table([0], [(0, NAME_23 + 'x', EMPTY)]),
         't0  abcdefghijklmnopqrstuvw ()',
         '    x'),
        (table([0], [(0, NAME_46[:-1], EMPTY)]),
         't0  abcdefghijklmnopqrstuvw ()',
         '    xyz0123456789-ABCDEFGH'),
        (table([0], [(0, NAME_46, EMPTY)]),
         't0  abcdefghijklmnopqrstuvw ()',
         '    xyz0123456789-ABCDEFGHI'),
        (table([0], [(0, NAME_46 + 'J', EMPTY)]),
         't0  abcdefghijklmnopqrstuvw ()',
         '    xyz0123456789-ABCDEFGHI',
         '    J'),
        (table([0], [(0, NAME_63[:-1], EMPTY)]),
         't0  abcdefghijklmnopqrstuvw ()',
         '    xyz0123456789-ABCDEFGHI',
         '    JKLMNOPQRSTUVWXY'),
        (table([0], [(0, NAME_63, EMPTY)]),
         't0  abcdefghijklmnopqrstuvw ()',
         '    xyz0123456789-ABCDEFGHI',
         '    JKLMNOPQRSTUVWXYZ'),
        # One below the other, with rules of one row before, between and after.
        (table([0], [(0, 'a', t(1)), (1, NAME_63, t(2), TEXT), (2, 'b', t(3)), (10, NAME_23, NONE), (11, NAME_46, EMPTY, TEXT),
                     (3, 'c', EMPTY)]),
         't0  a                       t1',
         't1  abcdefghijklmnopqrstuvw t2#',
         '    xyz0123456789-ABCDEFGHI',
         '    JKLMNOPQRSTUVWXYZ',
         't2  b                       t3',
         't10 abcdefghijklmnopqrstuvw !',
         't11 abcdefghijklmnopqrstuvw ()#',
         '    xyz0123456789-ABCDEFGHI',
         't3  c                       ()'),
        # A name whose later rows look like types.
        (table([0], [(0, 't1' * 12, t(1)), (1, 't' * 47, t(1))]),
         't0  t1t1t1t1t1t1t1t1t1t1t1t t1',
         '    1',
         't1  ttttttttttttttttttttttt t1',
         '    ttttttttttttttttttttttt',
         '    t'),
    ]


def pages_with_long_contents():
    """A content of 43, 44, 45, 87, 88, 89 characters, with # and without; its # may stand alone."""
    return [
        (table([0], [(0, 'a', in_order(14))]),
         't0  a                       (t0,t1,t2,t3,t4,t5,t6,t7,t8,t9,t0,t1,t2,t3)'),
        (table([0], [(0, 'a', in_order(14), TEXT)]),
         't0  a                       (t0,t1,t2,t3,t4,t5,t6,t7,t8,t9,t0,t1,t2,t3)#'),
        (table([0], [(0, 'a', any_of(in_order(14)))]),
         't0  a                       (t0,t1,t2,t3,t4,t5,t6,t7,t8,t9,t0,t1,t2,t3)*'),
        (table([0], [(0, 'a', any_of(in_order(14)), TEXT)]),
         't0  a                       (t0,t1,t2,t3,t4,t5,t6,t7,t8,t9,t0,t1,t2,t3)*',
         '                            #'),
        (table([0], [(0, 'a', optional(any_of(in_order(14))))]),
         't0  a                       (t0,t1,t2,t3,t4,t5,t6,t7,t8,t9,t0,t1,t2,t3)*',
         '                            ?'),
        (table([0], [(0, 'a', optional(any_of(in_order(14))), TEXT)]),
         't0  a                       (t0,t1,t2,t3,t4,t5,t6,t7,t8,t9,t0,t1,t2,t3)*',
         '                            ?#'),
        (table([0], [(0, 'a', seq(t(10), t(11), *[t(i) for i in range(2, 10)], t(0), t(1), t(2)))]),         # 42
         't0  a                       (t10,t11,t2,t3,t4,t5,t6,t7,t8,t9,t0,t1,t2)'),
        (table([0], [(0, 'a', in_order(15))]),                                                              # 46
         't0  a                       (t0,t1,t2,t3,t4,t5,t6,t7,t8,t9,t0,t1,t2,t3,t',
         '                            4)'),
        (table([0], [(0, 'a', any_of(seq(*[t(i) for i in range(5, 10)], t(12), *[t(i) for i in range(8)], choice(t(13), EMPTY), t(3), t(4),
                                         t(5), t(6), t(7), t(8), t(9), t(10), t(15))))]),
         't0  a                       (t5,t6,t7,t8,t9,t12,t0,t1,t2,t3,t4,t5,t6,t7,',
         '                            (t13|()),t3,t4,t5,t6,t7,t8,t9,t10,t15)*'),
        (table([0], [(0, 'a', in_order(29))]),
         't0  a                       (t0,t1,t2,t3,t4,t5,t6,t7,t8,t9,t0,t1,t2,t3,t',
         '                            4,t5,t6,t7,t8,t9,t0,t1,t2,t3,t4,t5,t6,t7,t8)'),
        (table([0], [(0, 'a', in_order(29), TEXT)]),
         't0  a                       (t0,t1,t2,t3,t4,t5,t6,t7,t8,t9,t0,t1,t2,t3,t',
         '                            4,t5,t6,t7,t8,t9,t0,t1,t2,t3,t4,t5,t6,t7,t8)',
         '                            #'),
        (table([0], [(0, 'a', some_of(in_order(29)))]),
         't0  a                       (t0,t1,t2,t3,t4,t5,t6,t7,t8,t9,t0,t1,t2,t3,t',
         '                            4,t5,t6,t7,t8,t9,t0,t1,t2,t3,t4,t5,t6,t7,t8)',
         '                            +'),
        # 175 and 176.
        (table([0], [(0, 'a', in_order(58))]),
         't0  a                       (t0,t1,t2,t3,t4,t5,t6,t7,t8,t9,t0,t1,t2,t3,t',
         '                            4,t5,t6,t7,t8,t9,t0,t1,t2,t3,t4,t5,t6,t7,t8,',
         '                            t9,t0,t1,t2,t3,t4,t5,t6,t7,t8,t9,t0,t1,t2,t3',
         '                            ,t4,t5,t6,t7,t8,t9,t0,t1,t2,t3,t4,t5,t6,t7)'),
        (table([0], [(0, 'a', in_order(58), TEXT), (1, 'b', EMPTY)]),
         't0  a                       (t0,t1,t2,t3,t4,t5,t6,t7,t8,t9,t0,t1,t2,t3,t',
         '                            4,t5,t6,t7,t8,t9,t0,t1,t2,t3,t4,t5,t6,t7,t8,',
         '                            t9,t0,t1,t2,t3,t4,t5,t6,t7,t8,t9,t0,t1,t2,t3',
         '                            ,t4,t5,t6,t7,t8,t9,t0,t1,t2,t3,t4,t5,t6,t7)#',
         't1  b                       ()'),
        # Name and content of several rows, the one longer and the other; a rule takes the rows of its longest text.
        (table([0], [(0, NAME_46, any_of(in_order(14)), TEXT), (1, NAME_63, optional(any_of(in_order(14)))),
                     (2, NAME_23 + 'x', in_order(29), TEXT), (3, 'a', EMPTY)]),
         't0  abcdefghijklmnopqrstuvw (t0,t1,t2,t3,t4,t5,t6,t7,t8,t9,t0,t1,t2,t3)*',
         '    xyz0123456789-ABCDEFGHI #',
         't1  abcdefghijklmnopqrstuvw (t0,t1,t2,t3,t4,t5,t6,t7,t8,t9,t0,t1,t2,t3)*',
         '    xyz0123456789-ABCDEFGHI ?',
         '    JKLMNOPQRSTUVWXYZ',
         't2  abcdefghijklmnopqrstuvw (t0,t1,t2,t3,t4,t5,t6,t7,t8,t9,t0,t1,t2,t3,t',
         '    x                       4,t5,t6,t7,t8,t9,t0,t1,t2,t3,t4,t5,t6,t7,t8)',
         '                            #',
         't3  a                       ()'),
        # Rows that are full to the last column, in all three.
        (table([0], [(10, NAME_46, in_order(29)), (15, NAME_46, in_order(29))]),
         't10 abcdefghijklmnopqrstuvw (t0,t1,t2,t3,t4,t5,t6,t7,t8,t9,t0,t1,t2,t3,t',
         '    xyz0123456789-ABCDEFGHI 4,t5,t6,t7,t8,t9,t0,t1,t2,t3,t4,t5,t6,t7,t8)',
         't15 abcdefghijklmnopqrstuvw (t0,t1,t2,t3,t4,t5,t6,t7,t8,t9,t0,t1,t2,t3,t',
         '    xyz0123456789-ABCDEFGHI 4,t5,t6,t7,t8,t9,t0,t1,t2,t3,t4,t5,t6,t7,t8)'),
    ]


FOUR_ROWS = ('(t0,t1,t2,t3,t4,t5,t6,t7,t8,t9,t0,t1,t2,t3,t',
             '4,t5,t6,t7,t8,t9,t0,t1,t2,t3,t4,t5,t6,t7,t8,',
             't9,t0,t1,t2,t3,t4,t5,t6,t7,t8,t9,t0,t1,t2,t3',
             ',t4,t5,t6,t7,t8,t9,t0,t1,t2,t3,t4,t5,t6,t7)#')
FOUR_ROWS_OF_A = ('t1  a                       ' + FOUR_ROWS[0], *('                            ' + row for row in FOUR_ROWS[1:]))


def full_pages_of_a_few_rules():
    """59, 60 and 61 rows of at most 16 rules, and rules that break over a page's end after each of their rows."""
    fours, one, two = [(1, 'a', in_order(58), TEXT)] * 15, (2, 'b', EMPTY), (2, 'b', any_of(in_order(14)), TEXT)
    row_of_one = 't2  b                       ()'
    rows_of_two = ('t2  b                       (t0,t1,t2,t3,t4,t5,t6,t7,t8,t9,t0,t1,t2,t3)*', '                            #')
    return [
        (table([0], fours), *FOUR_ROWS_OF_A * 15),
        (table([0], fours + [one]), *FOUR_ROWS_OF_A * 15, row_of_one),
        (table([0], [one] + fours), row_of_one, *FOUR_ROWS_OF_A * 15),
        (table([0], fours[:7] + [one] + fours[7:]), *FOUR_ROWS_OF_A * 7, row_of_one, *FOUR_ROWS_OF_A * 8),
        (table([0], [two] + fours), *rows_of_two, *FOUR_ROWS_OF_A * 15),
        (table([0], fours[:14] + [two]), *FOUR_ROWS_OF_A * 14, *rows_of_two),
        (table([0], [(3, NAME_63, NONE)] + fours),
         't3  abcdefghijklmnopqrstuvw !', '    xyz0123456789-ABCDEFGHI', '    JKLMNOPQRSTUVWXYZ', *FOUR_ROWS_OF_A * 15),
        (table([0], fours[:14] + [(3, NAME_63, NONE), one]), *FOUR_ROWS_OF_A * 14,
         't3  abcdefghijklmnopqrstuvw !', '    xyz0123456789-ABCDEFGHI', '    JKLMNOPQRSTUVWXYZ', row_of_one),
        (table([0], fours[:14] + [(3, NAME_63, NONE), two]), *FOUR_ROWS_OF_A * 14,
         't3  abcdefghijklmnopqrstuvw !', '    xyz0123456789-ABCDEFGHI', '    JKLMNOPQRSTUVWXYZ', *rows_of_two),
    ]


def full_pages_of_many_rules():
    """From the standard size on: pages filled by rules of one row, of two and of three, and types of two digits."""
    def ones(count):
        return [(63, 'a', EMPTY)] * count

    a, doubled = 't63 a                       ()', ('t62 abcdefghijklmnopqrstuvw t63', '    x')
    tripled = ('t61 abcdefghijklmnopqrstuvw t62#', '    xyz0123456789-ABCDEFGHI', '    JKLMNOPQRSTUVWXYZ')
    two, three = (62, NAME_23 + 'x', t(63)), (61, NAME_63, t(62), TEXT)
    return [
        (table([0], ones(59)), *[a] * 59), (table([0], ones(60)), *[a] * 60), (table([0], ones(61)), *[a] * 61),
        (table([0], ones(64)), *[a] * 64),
        (table([0], [two] * 60), *doubled * 60), (table([0], [two] * 60 + ones(1)), *doubled * 60, a),
        (table([0], ones(1) + [two] * 60), a, *doubled * 60), (table([0], [two] * 59 + ones(1)), *doubled * 59, a),
        (table([0], [three] * 40), *tripled * 40), (table([0], ones(1) + [three] * 60), a, *tripled * 60),
        (table([0], ones(2) + [three] * 40), a, a, *tripled * 40),
        (table([0], ones(59) + [three]), *[a] * 59, *tripled), (table([0], ones(58) + [three]), *[a] * 58, *tripled),
        (table([0], ones(57) + [three] + ones(1)), *[a] * 57, *tripled, a),
        (table([0], ones(59) + [two] + ones(1)), *[a] * 59, *doubled, a),
        (table([0], [(i, 'a', t(63 - i)) for i in (63, 62, 17, 16, 10, 9, 0)]),
         't63 a                       t0', 't62 a                       t1', 't17 a                       t46',
         't16 a                       t47', 't10 a                       t53', 't9  a                       t54',
         't0  a                       t63'),
    ]


def pages_of_the_large_size():
    """Types of three digits go on; 120 and 121 rules."""
    a, b = 't99 a                       t127', ('t10 b                       t99', '0')
    return [
        (table([127], [(127, 'a', EMPTY)]),
         't12 a                       ()',
         '7'),
        (table([0], [(99, 'a', t(100)), (100, 'b', t(127)), (9, 'c', t(64)), (64, 'd', t(9)), (110, 'e', t(119), TEXT), (127, 'f', t(0))]),
         't99 a                       t100',
         't10 b                       t127',
         '0',
         't9  c                       t64',
         't64 d                       t9',
         't11 e                       t119#',
         '0',
         't12 f                       t0',
         '7'),
        # With names and contents of one, two and three rows.
        (table([0], [(127, NAME_23, any_of(in_order(14)), TEXT), (126, NAME_23 + 'x', in_order(14)), (125, NAME_63, EMPTY),
                     (124, 'a', in_order(29), TEXT)]),
         't12 abcdefghijklmnopqrstuvw (t0,t1,t2,t3,t4,t5,t6,t7,t8,t9,t0,t1,t2,t3)*',
         '7                           #',
         't12 abcdefghijklmnopqrstuvw (t0,t1,t2,t3,t4,t5,t6,t7,t8,t9,t0,t1,t2,t3)',
         '6   x',
         't12 abcdefghijklmnopqrstuvw ()',
         '5   xyz0123456789-ABCDEFGHI',
         '    JKLMNOPQRSTUVWXYZ',
         't12 a                       (t0,t1,t2,t3,t4,t5,t6,t7,t8,t9,t0,t1,t2,t3,t',
         '4                           4,t5,t6,t7,t8,t9,t0,t1,t2,t3,t4,t5,t6,t7,t8)',
         '                            #'),
        (table([0], [(100, 'a', seq(t(100), t(101), t(102), t(103), t(104), t(105), t(106), t(127), EMPTY))]),
         't10 a                       (t100,t101,t102,t103,t104,t105,t106,t127,())',
         '0'),
        (table([0], [(99, 'a', seq(t(100), t(101), t(102), t(103), t(104), t(105), t(106), t(107), t(108)))]),
         't99 a                       (t100,t101,t102,t103,t104,t105,t106,t107,t10',
         '                            8)'),
        (table([0], [(99, 'a', t(127))] * 120), *[a] * 120), (table([0], [(99, 'a', t(127))] * 121), *[a] * 121),
        (table([0], [(99, 'a', t(127))] * 60), *[a] * 60), (table([0], [(99, 'a', t(127))] * 61), *[a] * 61),
        (table([0], [(100, 'b', t(99))] * 60), *b * 60), (table([0], [(99, 'a', t(127))] + [(100, 'b', t(99))] * 60), a, *b * 60),
        (table([0], [(99, 'a', t(127))] * 59 + [(100, 'b', t(99))]), *[a] * 59, *b),
        (table([0], [(99, 'a', t(127))] * 128), *[a] * 128), (table([0], [(100, 'b', t(99))] * 128), *b * 128),
    ]


def pages_of_own_names():
    """With the classes under which the names are names: a column is a byte, whatever the byte."""
    return [
        (OWN, OWN_TABLE,
         't0  \x7f\x80\x81\x82\x83\x84\x85\x86\x87\x88\x89\x8a\x8b\x8c\x8d\x8e\x8f\x90\x91\x92\x93\x94\x95 (t1|t2)*',
         '    \x96\x97\x98\x99\x9a\x9b\x9c\x9d\x9e\x9f\xa0\xa1\xa2\xa3\xa4\xa5\xa6\xa7\xa8\xa9\xaa\xab\xac',
         '    \xad\xae\xaf\xb0\xb1\xb2\xb3\xb4\xb5\xb6\xb7\xb8\xb9\xba\xbb\xbc\xbd',
         't1  \xbe\xbf\xc0\xc1\xc2\xc3\xc4\xc5\xc6\xc7\xc8\xc9\xca\xcb\xcc\xcd\xce\xcf\xd0\xd1\xd2\xd3\xd4 ()',
         '    \xd5\xd6\xd7\xd8\xd9\xda\xdb\xdc\xdd\xde\xdf\xe0\xe1\xe2\xe3\xe4\xe5\xe6\xe7\xe8\xe9\xea\xeb',
         '    \xec\xed\xee\xef\xf0\xf1\xf2\xf3\xf4\xf5\xf6\xf7\xf8\xf9\xfa\xfb\xfc',
         't2  \xff\xfe\xfd#"&                  t1?'),
        (OWN, OWN_OTHER,
         't5  \xff\xfe\xfd#"&                  t6*',
         't6  \xe9#                      ()'),
        # 23 and 24 letters of two bytes each, and one cut between its bytes.
        (OWN, table([0], [(0, '\xc3\xa9' * 11 + 'a', EMPTY), (1, '\xc3\xa9' * 12, EMPTY, TEXT)]),
         't0  \xc3\xa9\xc3\xa9\xc3\xa9\xc3\xa9\xc3\xa9\xc3\xa9\xc3\xa9\xc3\xa9\xc3\xa9\xc3\xa9\xc3\xa9a ()',
         't1  \xc3\xa9\xc3\xa9\xc3\xa9\xc3\xa9\xc3\xa9\xc3\xa9\xc3\xa9\xc3\xa9\xc3\xa9\xc3\xa9\xc3\xa9\xc3 ()#',
         '    \xa9'),
        # Bytes that elsewhere are white space, at the ends of names and of rows.
        (OWN, table([0], [(0, '\xa0', EMPTY), (1, '\x85\xa0', EMPTY, TEXT), (2, 'a' * 22 + '\xa0' * 2 + 'a', EMPTY)]),
         't0  \xa0                       ()',
         't1  \x85\xa0                      ()#',
         't2  aaaaaaaaaaaaaaaaaaaaaa\xa0 ()',
         '    \xa0a'),
        (OWN, table([0], [(0, '#', EMPTY), (1, '##', EMPTY, TEXT), (2, '\xff' * 63, NONE), (3, '&', EMPTY)]),
         't0  #                       ()',
         't1  ##                      ()#',
         't2  \xff\xff\xff\xff\xff\xff\xff\xff\xff\xff\xff\xff\xff\xff\xff\xff\xff\xff\xff\xff\xff\xff\xff !',
         '    \xff\xff\xff\xff\xff\xff\xff\xff\xff\xff\xff\xff\xff\xff\xff\xff\xff\xff\xff\xff\xff\xff\xff',
         '    \xff\xff\xff\xff\xff\xff\xff\xff\xff\xff\xff\xff\xff\xff\xff\xff\xff',
         't3  &                       ()'),
        (ALL_LETTERS, table([0], [(0, '1-.:;@[]{}~^', EMPTY), (1, '0', t(0)), (2, '$%&\'"`\\', t(1)), (3, 'T', t(2))]),
         't0  1-.:;@[]{}~^            ()',
         't1  0                       t0',
         't2  $%&\'"`\\                 t1',
         't3  T                       t2'),
        # Letters that are one name in a to z alone, spelled as they come.
        (OWN, table([0], [(0, '\xe9', EMPTY), (1, '\xc9', EMPTY), (2, 'E\xe9', EMPTY)]),
         't0  \xe9                       ()',
         't1  \xc9                       ()',
         't2  E\xe9                      ()'),
    ]


def printed_edges():
    """Each table at one or two of the sizes at which it reads, with an output of just the length of its pages, and longer ones; a byte
    less is 15."""
    all_sizes = (paper_pages() + pages_as_read() + pages_with_long_names() + pages_with_long_contents() + full_pages_of_a_few_rules())
    own = [(OWN, a_table, *rows) for a_table, *rows in pages_of_the_large_size()[:3]]
    for number, (sizes, (classes, a_table, *rows)) in enumerate(
            [(SIZES, (ref.ASCII, *told)) for told in all_sizes]
            + [((STANDARD, LARGE), (ref.ASCII, *told)) for told in full_pages_of_many_rules()]
            + [((LARGE,), (ref.ASCII, *told)) for told in pages_of_the_large_size()]
            + [((LARGE,), told) for told in own] + [(SIZES, told) for told in pages_of_own_names()]):
        told = prints(*rows)
        for turn in range(min(2, len(sizes))):
            size = sizes[(number + turn) % len(sizes)]
            out = ('exact', None, told.value + 73, told.value + 4380, told.value + 1)[(number + turn) % 5]
            yield told, PAGES, a_table, b'', dict(size=size, classes=classes, out=out)
        yield refused(15), PAGES, a_table, b'', dict(size=sizes[(number + 2) % len(sizes)], classes=classes, out='short')


def no_page_edges():
    """No rules print no page, answered also with no room."""
    labels = b''.join(label(name) for name in ('a', NAME_23, NAME_63))
    for size in SIZES:
        for number, data in enumerate((E, labels + E, start(0) + E, start(15) + start(0) + E, labels + start(1) + E)):
            for out in (0, (1, 72, 73, 4380, 10000)[number]):
                yield NO_PAGE, PAGES, data, b'', dict(size=size, out=out)
        count = ref.limits_of(size).rules
        full = b''.join(label(name) for name in names_of(count, 4)) + b''.join(start(i) for i in range(count)) + E
        yield NO_PAGE, PAGES, full, b'', dict(size=size, out=0)
    yield NO_PAGE, PAGES, label('\xe9') + E, b'', dict(classes=OWN, out=0)
    yield refused(5), PAGES, label('\xe9') + E, b'', dict(out=0)
    yield NO_PAGE, PAGES, E, b'', dict(out=0, size=SMALL, work=12288, fill=0xFFFFFFFF)
    yield refused(1), PAGES, E, b'', dict(out=0, size=SMALL, work=12287, fill=0xFFFFFFFF)


GOOD_PAGE = prints('t0  list                    t1*',
                   't1  card                    ()')


def lent_page_edges():
    """Outputs about the length of the pages, words about those of each size, classes that do not load; the order of these."""
    one, two = GOOD_PAGE, prints(*['t63 a                       ()'] * 61)
    assert one.value == 4380 and two.value == 8760
    sixty_one = table([0], [(63, 'a', EMPTY)] * 61)
    for a_table, told, lengths in ((GOOD_TABLE, one, (4380, 4381, 4453, 8760, MOST_OUTPUT)),
                                   (sixty_one, two, (8760, 8761, 33000, MOST_OUTPUT))):
        for out in lengths:
            yield told, PAGES, a_table, b'', dict(out=out)
    for a_table, lengths in ((GOOD_TABLE, (0, 1, 2, 31, 72, 73, 145, 146, 147, 4307, 4378, 4379)),
                             (sixty_one, (0, 4379, 4380, 4453, 8687, 8759))):
        for out in lengths:
            yield refused(15), PAGES, a_table, b'', dict(out=out)
    for turn, (size, work, refusal) in enumerate(WORD_EDGES):
        told = refused(1) if refusal else one
        yield told, PAGES, GOOD_TABLE, b'', dict(size=size, work=work, fill=FILLS[turn % 5], out=5000)
        yield refused(1 if refusal else 15), PAGES, GOOD_TABLE, b'', dict(size=size, work=work, fill=FILLS[(turn + 1) % 5], out=4379)
    for work in (0, 1, 16383):
        yield refused(1), PAGES, GOOD_TABLE, b'', dict(work=work, out=5000)
        yield refused(1), PAGES, b'', b'', dict(work=work, out=0)
        yield refused(1), PAGES, GOOD_TABLE, b'', dict(work=work, out=0, classes=BAD_CLASSES[work % 7])
    for number, classes in enumerate(BAD_CLASSES):
        yield refused(18), PAGES, GOOD_TABLE, b'', dict(classes=classes, size=SIZES[number % 3], out=(5000, 4380, 0)[number % 3])
    for number, faulty in enumerate((bytes(32769), b'', b'\x99\x00\x00', label('?') + END, one_rule(b'\x08'), END + b'\x00')):
        yield refused(18), PAGES, faulty, b'', dict(classes=BAD_CLASSES[3 * number], out=number)
    for classes in (OWN, ALL_LETTERS):
        yield one, PAGES, GOOD_TABLE, b'', dict(classes=classes)
    yield refused(5), PAGES, GOOD_TABLE, b'', dict(classes=with_class(0, b'a'))
    yield refused(5), PAGES, GOOD_TABLE, b'', dict(classes=with_class(1, b'l'), out=0)
    yield refused(5), PAGES, OWN_TABLE, b'', dict(out=8000)
    yield refused(15), PAGES, OWN_TABLE, b'', dict(classes=OWN, out=4379)
    for size in NO_SIZES:       # each counts as the standard size
        yield two, PAGES, sixty_one, b'', dict(size=size, out='exact')
        yield refused(7), PAGES, flat_table(65), b'', dict(size=size)
        yield refused(8), PAGES, HEAD + rule(64, 0, EMPTY) + END, b'', dict(size=size, out=5000)
        yield refused(1), PAGES, sixty_one, b'', dict(size=size, work=16383, out=9000)


def refused_page_edges():
    """Tables that reading turns back, with room and with none: 15 comes after all of these."""
    for refusal, tables in refused_tables().items():
        for number, faulty in enumerate(tables):
            yield refused(refusal), PAGES, faulty, b'', dict(out=(0, 4380, 100, 9000)[number % 4])
    for faulty, size in ((padded_table(32769), STANDARD), (bytes(32769), SMALL), (E + bytes(32766), LARGE)):
        yield refused(2), PAGES, faulty, b'', dict(size=size, out=0)
    yield refused(12), PAGES, E + bytes(32765), b'', dict(out=0)
    for number, (data, *refusals) in enumerate(table_edges() + text_rule_fields()):
        for size in beside_the_edge(refusals):
            if refusals[size]:
                yield refused(refusals[size]), PAGES, data, b'', dict(size=size, out=(5000, 0)[number % 2])
    # A table that reads at a larger size, and its pages there.
    seventeen = some_rules(17, marked=no_rule)
    rows = ['t%-2d %s                    ()' % (i % 16, ('list', 'card')[i % 2]) for i in range(17)]
    for size in SIZES:
        yield prints(*rows) if size else refused(7), PAGES, seventeen, b'', dict(size=size)


def empties(count):
    """Sequences of so many empties in all: of up to 255, the last of which is the next sequence, where there are more."""
    if count <= 255:
        return seq(*[EMPTY] * count)
    return seq(*[EMPTY] * 254, empties(count - 254))


def with_most_rows(full, middle, short):
    """A table whose pages are the largest of its size: 1,010 empties have 3,037 characters and 70 rows with their #, and a byte less gives
    69; one content has what is left; each other rule has the three rows of its name."""
    contents = [empties(1010)] * full + [empties(count) for count in middle] + [EMPTY] * short
    return label('n' * 63) + b''.join(rule(0, 0, content, text=True) for content in contents) + END


# The size, the table, its rows, and the length of its pages, counted by hand.
LARGEST = [
    (SMALL, with_most_rows(16, [], 0), 16 * 70, 19 * 4380),
    (STANDARD, with_most_rows(31, [781], 32), 31 * 70 + 54 + 32 * 3, 39 * 4380),
    (LARGE, with_most_rows(31, [401], 96), 31 * 70 + 28 + 96 * 3, 42 * 4380),
]


def page_edges():
    yield from printed_edges()
    yield from no_page_edges()
    yield from lent_page_edges()
    yield from refused_page_edges()


def page_cases(cases):
    for _, call, first, second, options in page_edges():
        cases.add(call, first, second, **options)
    for size, a_table, _, length in LARGEST:
        for out in (length, length - 1):
            cases.add(PAGES, a_table, size=size, out=out)
    cases.add(PAGES, LARGEST[0][1], size=LARGE, out=MOST_OUTPUT)
    # Full tables, and every length of a name and of a content about the widths.
    cases.add(PAGES, padded_table(32768), out='exact')
    for size in SIZES:
        cases.add(PAGES, flat_table(ref.limits_of(size).rules), size=size, out='exact')
    for length in (1, 2, *range(20, 27), *range(44, 50), 61, 62, 63):
        a_table = table([0], [(0, 'n' * length, any_of(t(1))), (1, 'b', EMPTY)])
        cases.add(PAGES, a_table, size=SIZES[length % 3], out=('exact', 'short', None, 'exact')[length % 4])
    for length in (*range(2, 34), *range(252, 262), *range(505, 515)):
        a_table = table([0], [(0, 'a', empties(length), TEXT), (1, 'b', EMPTY)])
        cases.add(PAGES, a_table, size=SIZES[length % 3], out=('exact', None)[length % 2])


# ---------------------------------------------------------------- random cases

POOL = ['a', 'b', 'c', 'd', 'list', 'card', 'x-1', 'A']


def random_content(numbers, types, depth):
    roll = numbers.below(100)
    if depth == 0 or roll < 35:
        return t(numbers.of(types)) if numbers.chance(80) else EMPTY if numbers.chance(85) else NONE
    if roll < 55:
        return seq(*[random_content(numbers, types, depth - 1) for _ in range(numbers.between(2, 3))])
    if roll < 75:
        return choice(*[random_content(numbers, types, depth - 1) for _ in range(numbers.between(2, 4))])
    return bytes([5 + numbers.below(3)]) + random_content(numbers, types, depth - 1)


def random_table(numbers, pool=POOL, largest=8, limits=ref.STANDARD):
    """Recursive and ambiguous tables, some types without rules, some rules of one pair."""
    count = numbers.between(1, largest)
    names = [numbers.of(pool) for _ in range(numbers.between(1, 5))]
    names = list(dict.fromkeys(names))
    if numbers.chance(30):
        types = list(range(numbers.between(1, 6)))
    else:
        types = list(dict.fromkeys(numbers.below(limits.rules) for _ in range(numbers.between(1, 6))))
    rules = []
    for _ in range(count):
        content = EMPTY if numbers.chance(35) else random_content(numbers, types, numbers.below(4))
        rules.append((numbers.of(types), numbers.of(names), content))
    starts = list(dict.fromkeys(numbers.of(types) for _ in range(numbers.of((0, 1, 1, 1, 2, 3)))))
    return table(starts, rules, names)


def rich_table(numbers, pool=POOL, largest=9, limits=ref.STANDARD):
    """A table whose types mostly name later ones, so that most are fruitful and reached, with
    few names, so that many share one."""
    count = numbers.between(2, largest)
    names = pool[:numbers.between(2, 4)]
    rules = []
    for type_ in range(count):
        for _ in range(numbers.of((1, 1, 1, 2, 3))):
            later = list(range(type_ + 1, count)) or [type_]
            types = [numbers.of(later) for _ in range(3)]
            if numbers.chance(25):
                types.append(numbers.below(count + 1))
            content = random_content(numbers, types, numbers.between(1, 3))
            if type_ >= count - 2 and numbers.chance(80):
                content = EMPTY
            rules.append((type_, numbers.of(names), content))
    if numbers.chance(30):      # a type that is reached only beside an unfruitful one
        dead, lost = count, count + 1
        at = numbers.below(len(rules))
        type_, name, content = rules[at]
        rules[at] = (type_, name, choice(content, seq(t(lost), t(dead))))
        rules.append((dead, numbers.of(names), numbers.of((t(dead), some_of(t(dead))))))
        rules.append((lost, numbers.of(names), random_content(numbers, list(range(count)), 2)))
    if numbers.chance(30):      # rules in another order
        for _ in range(len(rules)):
            rules.append(rules.pop(numbers.below(len(rules))))
    return table([0] if numbers.chance(70) else [1, 0], rules[:limits.rules], names)


WIDE_POOL = ['w%d' % i for i in range(12)]


def wide_table(numbers, limits=ref.STANDARD):
    """Types with many labels each and contents that repeat them, so that results come near the limits."""
    types = list(range(numbers.between(2, max(2, limits.rules // 10))))
    names = WIDE_POOL[:numbers.between(2, 12)]
    rules = [(type_, name, EMPTY if numbers.chance(40) else random_content(numbers, types, numbers.between(1, 5)))
             for type_ in types for name in names if numbers.chance(70)]
    return table([0] if numbers.chance(70) else [1, 0], rules[:limits.rules], names)


def fruitful_order(a_table):
    """The fruitful types, numbered so that each derives some document through lower ones."""
    known = {}
    changed = True
    while changed:
        changed = False
        for a_rule in a_table.rules:
            if a_rule.type not in known and ref.has_word_over(a_rule.content, known):
                known[a_rule.type] = len(known)
                changed = True
    return known


def random_word(numbers, content, known, below):
    """Some word of the content over the types in `known`, low ones once `below` is used up."""
    operator = content[0]
    if operator == ref.TYPE:
        return [content[1]]
    if operator == ref.SEQUENCE:
        return [x for operand in content[1] for x in random_word(numbers, operand, known, below)]
    if operator == ref.CHOICE:
        usable = [operand for operand in content[1] if ref.has_word_over(operand, known)]
        return random_word(numbers, numbers.of(usable), known, below)
    if operator in (ref.ANY, ref.SOME, ref.OPTIONAL):
        least = 1 if operator == ref.SOME else 0
        most = least + (0 if below <= 0 or not ref.has_word_over(content[1], known) else
                        1 if operator == ref.OPTIONAL else numbers.below(4))
        return [x for _ in range(numbers.between(least, most))
                for x in random_word(numbers, content[1], known, below)]
    return []


def derived_tree(numbers, a_table, budget=40):
    """A tree that the table lets in (None if there is none)."""
    known = fruitful_order(a_table)
    starts = [s for s in a_table.starts if s in known]
    if not starts:
        return None
    left = [budget]

    def derive(type_, level):
        left[0] -= 1
        room = left[0] > 0 and level < 12
        allowed = known if room else {k: v for k, v in known.items() if v < known[type_]}
        rules = [r for r in a_table.rules
                 if r.type == type_ and ref.has_word_over(r.content, allowed)]
        a_rule = numbers.of(rules)
        word = random_word(numbers, a_rule.content, allowed, 1 if room else 0)
        mark = TEXT if a_rule.text and numbers.chance(60) else ''
        return (a_table.labels[a_rule.label].decode('latin-1') + mark, [derive(x, level + 1) for x in word])

    return derive(numbers.of(starts), 1)


def random_tree(numbers, pool, budget=10):
    children = []
    count = numbers.below(4) if budget > 1 else 0
    for _ in range(count):
        children.append(random_tree(numbers, pool, (budget - 1) // max(1, count)))
    return (numbers.of(pool), children)


def changed_tree(numbers, a_tree, pool):
    """The tree with one node renamed, dropped, doubled or inserted."""
    flat = []

    def collect(node):
        flat.append(node)
        for child in node[1]:
            collect(child)

    def copy(node):
        return [node[0], [copy(child) for child in node[1]]]

    made = copy(a_tree)
    collect(made)
    node = numbers.of(flat)
    action = numbers.below(4)
    if action == 0:
        node[0] = numbers.of(pool)
    elif action == 1 and node[1]:
        node[1].pop(numbers.below(len(node[1])))
    elif action == 2 and node[1]:
        node[1].insert(numbers.below(len(node[1]) + 1), numbers.of(node[1]))
    else:
        node[1].insert(numbers.below(len(node[1]) + 1), [numbers.of(pool), []])
    return made


def with_more_neighbours(numbers, a_tree):
    """The tree with some children followed by others of their name: copies, leaves, or with less below them."""
    children = []
    for child in a_tree[1]:
        child = with_more_neighbours(numbers, child)
        children.append(child)
        if numbers.chance(30):
            for _ in range(numbers.of((1, 1, 1, 2, 2, 3, 8))):
                children.append((child[0], numbers.of((child[1], child[1], child[1][1:], []))))
    return (a_tree[0], children)


def neighbours(a_tree):
    """The children of a node in groups: runs of one name, and children that stand alone."""
    return [list(group) for _, group in itertools.groupby(a_tree[1], lambda child: ref.folded(name_of(child[0]).encode('latin-1')))]


def with_other_runs(numbers, a_tree):
    """The tree with some of its runs longer or shorter, seldom so short that one child stands alone."""
    children = []
    for group in neighbours(a_tree):
        group = [with_other_runs(numbers, child) for child in group]
        if len(group) > 1 and numbers.chance(60):
            group = [numbers.of(group) for _ in range(numbers.between(1 if numbers.chance(15) else 2, len(group) + 2))]
        children += group
    return (a_tree[0], children)


def has_a_run(a_tree):
    return any(len(group) > 1 or any(has_a_run(child) for child in group) for group in neighbours(a_tree))


def tree_of(node):
    return (node.name.decode('latin-1') + TEXT * node.text, [tree_of(child) for child in node.children])


def place_of_document(case):
    """Which input is the document; None for calls without one."""
    return 'first' if case.call in DOCUMENT_FIRST else 'second' if case.call in WITH_DOCUMENT else None


def document_of(case):
    return getattr(case, place_of_document(case)) if case.call in WITH_DOCUMENT else None


def with_document(case, data, format_):
    """The case with another document."""
    return case._replace(format=format_, **{place_of_document(case): data})


def is_text(case):
    """Is its document XML text?"""
    return case.call in WITH_DOCUMENT and case.format == ref.XML_TEXT


def tree_in(case):
    """The tree of its document, where that reads at the large size, whatever the bytes of its names; else None."""
    try:
        return tree_of(ref.read_either(ref.LARGE, ANY_BYTES, case.format, document_of(case))) if case.call in WITH_DOCUMENT else None
    except ref.Refused:
        return None


def as_file(case):
    """The case with a document file of any length in place of XML text, to look into; of no bytes where the text does not read."""
    if not is_text(case):
        return case
    a_tree = tree_in(case)
    return with_document(case, document(a_tree) if a_tree else b'', ref.DOCUMENT_FILE)


def changed_inputs(case, change, change_text, places=('first', 'second')):
    """The case with `change(input)` for these inputs; for XML text that reads `change_text(text)`, and none for one that does not."""
    for place in places:
        data = getattr(case, place)
        if not is_text(case) or place != place_of_document(case):
            case = case._replace(**{place: change(data)})
        elif tree_in(case):
            case = case._replace(**{place: change_text(data)})
    return case


def with_names(case, spell, places=('first', 'second')):
    """The case with `spell(name)` in place of each name of these inputs."""
    return changed_inputs(case, partial(spelled, spell), partial(spelled_text, spell), places)


def names_of_case(case):
    """The names of its inputs, front to back."""
    case = as_file(case)
    return names_in(case.first) + names_in(case.second)


def samples_a_run(case):
    """Is a run of neighbours part of a sample that the call makes?"""
    a_tree = tree_in(case) if case.call == SAMPLE or case.call in BY_DOCUMENT else None
    return a_tree is not None and has_a_run(a_tree)


def node_count(a_tree):
    return 1 + sum(node_count(child) for child in a_tree[1])


def usable(a_tree):
    """Small enough for the case file."""
    return a_tree is not None and node_count(a_tree) <= 150


ANY_BYTES = bytes([2] * 256)       # no classes to lend; under them a table reads whatever its names are, if no two are one


def has_a_name_twice(a_table_bytes):
    """Then it is turned back by 6."""
    names = [ref.folded(name) for name in names_in(a_table_bytes)]
    return len(names) != len(set(names))


# The same letter in the other case, for all letters.
OTHER_CASE = bytes.maketrans(b'ABCDEFGHIJKLMNOPQRSTUVWXYZabcdefghijklmnopqrstuvwxyz',
                             b'abcdefghijklmnopqrstuvwxyzABCDEFGHIJKLMNOPQRSTUVWXYZ')


def other_letters(numbers, classes, share=50):
    """Names with a share of their letters, in percent, in the other case, where both spellings are of one class."""
    def spell(name):
        return bytes(OTHER_CASE[byte] if byte != OTHER_CASE[byte] and classes[byte] == classes[OTHER_CASE[byte]]
                     and numbers.chance(share) else byte for byte in name)
    return spell


def with_other_letters(numbers, data, classes, share=50):
    """The input with a share of its letters in the other case."""
    return spelled(other_letters(numbers, classes, share), data)


def respelled(numbers, data, classes=ref.ASCII):
    """The input, at times with letters in the other case; seldom also those that are of another class so."""
    if numbers.chance(50):
        return data
    alike = ANY_BYTES if len(classes) != 256 or numbers.chance(6) else classes
    return with_other_letters(numbers, data, alike, numbers.of((20, 50, 50, 100)))


def in_two_spellings(first, second=b''):
    """Do inputs have a name in two spellings?"""
    names = set(names_in(first) + names_in(second))
    return len(names) != len({ref.folded(name) for name in names})


def random_document(numbers, a_table_bytes, pool=POOL):
    """Derived from the table, or derived and changed, or free."""
    a_tree = None
    if not numbers.chance(15) and not has_a_name_twice(a_table_bytes):
        a_tree = derived_tree(numbers, ref.read_table(ref.LARGE, ANY_BYTES, a_table_bytes))
    free = not usable(a_tree)
    if free:
        a_tree = random_tree(numbers, pool)
    elif numbers.chance(45):
        a_tree = changed_tree(numbers, a_tree, pool)
    return perhaps_with_text(numbers, document(perhaps_with_runs(numbers, a_tree, 30)), 50 if free else 12)


def perhaps_with_text(numbers, a_document, share):
    """In a share of the cases, in percent, the document with the other tag for some of its nodes."""
    return with_other_marks(numbers, a_document, numbers.of((5, 20, 50, 100))) if numbers.chance(share) else a_document


def perhaps_with_runs(numbers, a_tree, share):
    """In a share of the cases, in percent, the tree with more neighbours of one name."""
    more = with_more_neighbours(numbers, a_tree) if numbers.chance(share) else a_tree
    return more if usable(more) and most_children(more) <= ref.CHILDREN else a_tree


def most_children(a_tree):
    """The most children of a node."""
    return max([len(a_tree[1])] + [most_children(child) for child in a_tree[1]])


def fields_of(data):
    """The fields of bytes that may be damaged, as far as they go."""
    found, at = [], 0
    while at + 3 <= len(data):
        length = data[at + 1] * 256 + data[at + 2]
        found.append(data[at:at + 3 + length])
        at += 3 + length
    return found


# Operators, types about the limits, and tags.
TELLING_BYTES = (0, 1, 2, 3, 4, 5, 6, 7, 8, 15, 16, 63, 64, 127, 128, 255)
TELLING_TAGS = (0x10, 0x11, 0x12, 0x13, 0x14, 0x1F, 0x30, 0x31, 0x32, 0x33, 0x3F)


def damaged(numbers, data):
    """The bytes with one or two faults."""
    for _ in range(1 + numbers.below(2)):
        action = numbers.below(10)
        at = numbers.below(len(data)) if data else 0
        if action == 0:
            data = data[:at]
        elif action == 1:
            data = data[:at] + bytes([numbers.below(256)]) + data[at + 1:]
        elif action == 2:
            data = data[:at] + bytes([numbers.of(TELLING_BYTES)]) + data[at + 1:]
        elif action == 3:
            data = data[:at] + data[at + 1:]
        elif action == 4:
            data = data[:at] + bytes([numbers.below(256)]) + data[at:]
        elif action == 5:
            data = data + bytes([numbers.below(64)] * numbers.between(1, 4))
        else:
            parts = fields_of(data)
            if len(parts) > 1:
                i, j = numbers.below(len(parts)), numbers.below(len(parts))
                if action == 6:
                    parts[i], parts[j] = parts[j], parts[i]
                elif action == 7:
                    parts.insert(j, parts[i])
                elif action == 8:
                    parts.pop(i)
                else:
                    parts[i] = bytes([numbers.of(TELLING_TAGS)]) + parts[i][1:]
                data = b''.join(parts)
    return data


SELDOM = {SMALL: 14, STANDARD: 24, LARGE: 60}      # the most types of a random table, where it may have many


def random_size(numbers):
    return numbers.of((SMALL, STANDARD, STANDARD, LARGE))


def random_limits(numbers, size):
    """The limits that tables are made for: those of the size, at times those of the next."""
    return ref.limits_of(size if numbers.chance(92) else min(size + 1, LARGE))


def some_table(numbers, size, limits, pool=POOL):
    """A random table of either sort; at times a large one."""
    make, most = (rich_table, 9) if numbers.chance(45) else (random_table, 8)
    return perhaps_marked(numbers, make(numbers, pool, SELDOM[size] if numbers.chance(10) else most, limits))


def perhaps_marked(numbers, a_table):
    """The table, at times with rules 13 for some of its rules."""
    return with_other_marks(numbers, a_table, numbers.of((15, 40, 60, 85, 100))) if numbers.chance(55) else a_table


# How many of the bytes that may be in names are letters, and how many stand later only, in percent.
SHARES = ((1, 0), (2, 2), (5, 50), (10, 10), (30, 30), (60, 0), (100, 0))


def random_classes(numbers):
    """Classes that load."""
    letters, later = numbers.of(SHARES)
    classes = bytearray(256)
    for byte in MAY_BE_IN_NAMES:
        roll = numbers.below(100)
        classes[byte] = 2 if roll < letters else 1 if roll < letters + later else 0
    classes[numbers.of(MAY_BE_IN_NAMES)] = 2
    if numbers.chance(50):      # capitals as their small letters, and some of them in names
        some = numbers.between(0x61, 0x7A)
        classes[some] = 2
        for byte in range(0x41, 0x5B):
            classes[byte] = classes[byte + 0x20]
    return bytes(classes)


def random_pool(numbers, classes):
    """As many names under the classes as POOL has; some differ from another in one byte, at times in the bit by which A differs from a;
    few differ in letter case alone."""
    first = [byte for byte in range(256) if classes[byte] == 2]
    later = [byte for byte in range(256) if classes[byte] != 0]
    pool = []
    while len(pool) < len(POOL):
        length = numbers.between(1, 3 if numbers.chance(85) else 63)
        name = [numbers.of(first)] + [numbers.of(later) for _ in range(length - 1)]
        if pool and numbers.chance(30):
            at, name = numbers.below(2), [ord(letter) for letter in numbers.of(pool)]
            name[-at] = numbers.of(later if at and len(name) > 1 else first)
        elif pool and numbers.chance(20):
            name = [ord(letter) for letter in numbers.of(pool)]
            at = numbers.below(len(name))
            if classes[name[at]] == classes[name[at] ^ 0x20]:
                name[at] ^= 0x20
        name = bytes(name).decode('latin-1')
        if name not in pool and (numbers.chance(20) or name.lower() not in [other.lower() for other in pool]):
            pool.append(name)
    return pool


def unloadable(numbers, classes):
    """The classes with a fault."""
    action = numbers.below(6)
    if action == 0:
        return classes[:numbers.below(256)]
    if action == 1:
        return classes + bytes(numbers.below(3) for _ in range(numbers.between(1, MOST_CLASSES - 256)))
    if action == 2:
        return with_class(numbers.between(3, 255), [numbers.below(256)], classes)
    if action == 3:
        return bytes(min(class_, 1) for class_ in classes)
    return with_class(numbers.between(1, 2), [numbers.of(IN_NO_NAME)], classes)


def random_lent(numbers):
    """Classes to lend, and names: in half of the cases document 01's, at times classes that do not load."""
    classes, pool = ref.ASCII, POOL
    if numbers.chance(50):
        classes = random_classes(numbers)
        pool = random_pool(numbers, classes)
        if numbers.chance(12):      # a byte of a name is no letter now, or in no name
            classes = with_class(numbers.below(2), [ord(numbers.of(numbers.of(pool)))], classes)
    return unloadable(numbers, classes) if numbers.chance(4) else classes, pool


def random_case(cases, numbers):
    """One random case, or a few that belong together, at a random size and under random classes; some documents as XML text."""
    before, format_numbers = len(cases.all), Numbers(numbers.state, XML_CHOICE)
    random_files(cases, numbers)
    cases.all[before:] = [perhaps_as_text(format_numbers, case) for case in cases.all[before:]]


def random_files(cases, numbers):
    """The same with document files alone."""
    size = random_size(numbers)
    limits = random_limits(numbers, size)
    classes, pool = random_lent(numbers)
    respell = partial(respelled, numbers, classes=classes)
    first = respell(some_table(numbers, size, limits, pool))
    add = partial(cases.add, size=size, classes=classes)
    roll = numbers.below(100)
    if roll < 8:
        add(numbers.of((TABLE_READS, LABEL_NAME, IS_LOCAL, IS_SINGLE_TYPE)), damaged(numbers, first),
            label=numbers.below(4))
    elif roll < 14:
        a_document = damaged(numbers, respell(random_document(numbers, first, pool)))
        call = numbers.of((DOCUMENT_READS, SAMPLE, LETS_IN, LOCAL_BY_DOCUMENT, SINGLE_BY_DOCUMENT))
        if call in (DOCUMENT_READS, SAMPLE):
            add(call, a_document)
        else:
            add(call, first, a_document)
    elif roll < 19:
        second = respell(perhaps_marked(numbers, random_table(numbers, pool, limits=limits)))
        pair = (damaged(numbers, first), second) if numbers.chance(40) else (first, damaged(numbers, second))
        add(numbers.of(BY_TABLE), *pair)
    elif roll < 45:
        add(LETS_IN, first, respell(random_document(numbers, first, pool)))
    elif roll < 50:
        a_tree = random_tree(numbers, pool[:3], numbers.between(1, 60))
        a_document = respell(perhaps_with_text(numbers, document(perhaps_with_runs(numbers, a_tree, 60)), 50))
        add(SAMPLE, a_document, out=numbers.of((None, None, 'exact', 'short')))
    elif roll < 55:
        add(numbers.of((TABLE_READS, IS_LOCAL, IS_SINGLE_TYPE)), first)
    elif roll < 57:
        add(LABEL_NAME, first, label=numbers.below(5))
    else:
        random_widening(add, numbers, roll < 82, first, limits, pool, respell)
        random_question(add, numbers, cases.all[-1], first, limits, pool, respell)


XML_CHOICE = 2      # numbers of their own, so that all else of a case is as it is without


def perhaps_as_text(numbers, case):
    """Where the document reads, at times as XML text, which at times is damaged; seldom the same bytes in another format."""
    if case.call not in WITH_DOCUMENT:
        return case
    if numbers.chance(4):
        return case._replace(format=numbers.of((1, 1, 2, 257, 2**32 - 1)))
    a_tree = tree_in(case)
    if a_tree is None or numbers.chance(60):
        return case
    data = xml_in_some_way(numbers, a_tree)
    return with_document(case, damaged_text(numbers, data) if numbers.chance(30) else data, ref.XML_TEXT)


def random_widening(add, numbers, by_table, first, limits, pool, respell):
    out = numbers.of((None,) * 12 + ('exact', 'exact', 'short', 0))
    to_kind = numbers.below(2)
    if by_table:
        make = rich_table if numbers.chance(45) else random_table if numbers.chance(80) else None
        addition = respell(perhaps_marked(numbers, make(numbers, pool, limits=limits))) if make else E
        add(BY_TABLE[to_kind], first, addition, out=out)
    else:
        add(BY_DOCUMENT[to_kind], first, respell(random_document(numbers, first, pool)), out=out)


def random_question(add, numbers, case, first, limits, pool, respell):
    """At times a question to the result of a widening."""
    result = answer_of(case).written
    if not result or len(result) >= 1500 or not numbers.chance(60):
        return
    follow = numbers.below(5)
    if case.call in BY_DOCUMENT and numbers.chance(40):
        added = tree_of(ref.read_document(ref.LARGE, ANY_BYTES, case.second))
        add(LETS_IN, result, respell(perhaps_with_text(numbers, document(with_other_runs(numbers, added)), 20)))
    elif follow == 0:
        add(numbers.of((IS_LOCAL, IS_SINGLE_TYPE)), result)
    elif follow == 1:
        add(LETS_IN, result, respell(random_document(numbers, result, pool)))
    elif follow == 2:
        add(LETS_IN, result, respell(random_document(numbers, first, pool)))
    elif follow == 3:
        add(BY_TABLE[numbers.below(2)], result, respell(perhaps_marked(numbers, random_table(numbers, pool, limits=limits))))
    else:
        add(BY_DOCUMENT[numbers.below(2)], result, respell(random_document(numbers, first, pool)))


def longer_names(numbers, pool):
    """The names, some of them again and again up to a length of their own."""
    return [(name * 63)[:numbers.between(len(name), 63)] if numbers.chance(60) else name for name in pool]


def with_longer_contents(numbers, a_table):
    """The table with some contents as sequences of themselves, many times."""
    parts = fields_of(a_table)
    for place, part in enumerate(parts):
        times = min(numbers.of((2, 10, 40, 255)), 1022 // max(1, len(part) - 5))
        if part[0] in (0x12, 0x13) and times > 1 and numbers.chance(50):
            parts[place] = field(part[0], part[3:5] + seq(*[part[5:]] * times))
    return b''.join(parts)


def random_pages(cases, numbers):
    """One random case of pages: at times of a table with long names and long contents, at times of a damaged one."""
    size = random_size(numbers)
    classes, pool = random_lent(numbers)
    if numbers.chance(50):
        pool = longer_names(numbers, pool)
    make, most = numbers.of((rich_table, random_table)), SELDOM[size] if numbers.chance(40) else 8
    a_table = perhaps_marked(numbers, respelled(numbers, make(numbers, pool, most, random_limits(numbers, size)), classes))
    if numbers.chance(70):
        a_table = with_longer_contents(numbers, a_table)
    if numbers.chance(15):
        a_table = damaged(numbers, a_table)
    cases.add(PAGES, a_table, size=size, classes=classes, out=numbers.of((None, None, None, 'exact', 'exact', 'short', 0)))


def made_before_pages(cases):
    paper_cases(cases)
    refusal_cases(cases)
    byte_cases(cases)
    edge_cases(cases)
    limit_cases(cases)
    meaning_cases(cases)
    wide_cases(cases)
    size_cases(cases)
    class_cases(cases)
    spelling_cases(cases)
    run_cases(cases)
    text_cases(cases)
    xml_cases(cases)


def made_cases(cases):
    made_before_pages(cases)
    page_cases(cases)


PAGES_CHOICE = 3    # numbers of their own, as those of XML text
OTHERS_TO_PAGES = 18


def all_cases(seed, count):
    cases = Cases()
    made_before_pages(cases)
    drawn, printed = Cases(len(cases.all)), Cases()     # the cases of pages change no turn of the others
    page_cases(cases)
    turn = 0
    while len(drawn.all) < count:
        random_case(drawn, Numbers(seed, turn))
        turn += 1
    for turn in range(count // OTHERS_TO_PAGES):
        random_pages(printed, Numbers(seed, turn, PAGES_CHOICE))
    return cases.all + drawn.all[:count] + printed.all


def files(seed, count, calls):
    """cases.bin and expected.txt, and the cases; of the cases only those of the calls asked for."""
    cases = [case for case in all_cases(seed, count) if case.call in calls]
    for case in cases:
        assert max(len(case.first), len(case.second)) <= MOST_INPUT
        assert case.out_len <= MOST_OUTPUT and case.work_len <= MOST_WORK and len(case.classes) <= MOST_CLASSES
    binary = b''.join(case_bytes(case) for case in cases) + b'\x00'
    expected = ''.join(expected_line(case) for case in cases).encode('ascii')
    return binary, expected, cases


# ---------------------------------------------------------------- the lister's cases

def lister_cases():
    """Pairs of old.tbl and new.doc; None for a file that is missing."""
    pairs = [(LISTER_TABLE, LISTER_DOC), (None, LISTER_DOC), (LISTER_TABLE, None), (None, None),
             (P5, P5_CROSSED), (P6, doc('group')), (P7, doc('list', tree('card'))), (P8, doc('list')),
             (E, LISTER_DOC), (LISTER_TABLE + b'\x00', LISTER_DOC), (LISTER_TABLE, LISTER_DOC[:-1]),
             (table([0], [(0, 'r', seq(any_of(seq(t(1), t(2))), some_of(choice(t(1), t(2))),
                                       optional(any_of(t(1))), EMPTY, some_of(optional(EMPTY)))),
                          (1, 'a', any_of(t(9))), (2, 'b', EMPTY)]), doc('s', tree('a'))),
             (P1, doc('a', *[tree('c%02d' % i) for i in range(64)])),
             (padded_table(32768), doc('n00')), (padded_table(32767), doc('n00')),
             (padded_table(32769), doc('n00')), (P1, document(chain(65))),
             (LISTER_TABLE, in_capitals(LISTER_DOC)), (in_capitals(LISTER_TABLE), LISTER_DOC),
             (label('card') + label('CARD') + END, LISTER_DOC), (E, list_of(9)), (LISTER_TABLE, list_of(200))]
    pairs += [(old, a_document) for old, a_document, *_ in run_widenings()[-5:]]
    pairs += [(old, addition) for old, addition, *_ in text_widenings() if addition[0] in (0x30, 0x32)]
    several = [(0, 'r', seq(any_of(A), some_of(B), optional(A)), TEXT), (1, 'a', choice(A, EMPTY), TEXT), (2, 'b', EMPTY, TEXT)]
    pairs += [(with_all_marks(LISTER_TABLE), LISTER_DOC), (OTHER_TEXT, LISTER_DOC), (P1, doc('a', text('b'))),
              (table([0], several), document(text('r'))), (with_tags(LISTER_TABLE, lambda tag: 0x32 if tag == 0x12 else tag), LISTER_DOC),
              (LISTER_TABLE, with_tags(LISTER_DOC, lambda tag: 0x13 if tag == 0x30 else tag))]
    for number in range(20):
        numbers = Numbers(77000 + number)
        old = random_table(numbers)
        pairs.append((old, random_document(numbers, old)))
    return pairs


def write_listings(directory):
    for number, (old, a_document) in enumerate(lister_cases()):
        place = os.path.join(directory, '%02d' % number)
        os.makedirs(place, exist_ok=True)
        for name, data in (('old.tbl', old), ('new.doc', a_document),
                           ('expected.txt', ref.listing(old or b'', a_document or b''))):
            if data is not None:
                with open(os.path.join(place, name), 'wb') as file:
                    file.write(data)


# ---------------------------------------------------------------- commands

def print_counts(cases, expected):
    per_call, per_refusal, both = Counter(), Counter(), Counter()
    for line in expected.decode('ascii').splitlines():
        call, refusal = (int(word) for word in line.split()[:2])
        per_call[call] += 1
        per_refusal[refusal] += 1
        both[call, refusal] += 1
    print('cases %d' % len(cases))
    print('per refusal: ' + '  '.join('%d: %d' % pair for pair in sorted(per_refusal.items())))
    print('%-30s %5s   ' % ('call', 'all') + ' '.join('%4d' % refusal for refusal in REFUSALS))
    for call in CALL_NAMES:
        print('%2d %-27s %5d   ' % (call, CALL_NAMES[call], per_call[call])
              + ' '.join('%4s' % (both[call, refusal] or '.') for refusal in REFUSALS))


def first_difference(data, stored):
    """Prints the first line in which the expected lines differ."""
    lines, others = data.split(b'\n'), stored.split(b'\n')
    for number in range(max(len(lines), len(others))):
        pair = [some[number].decode('latin-1') if number < len(some) else 'no line'
                for some in (lines, others)]
        if pair[0] != pair[1]:
            print('case %d: recomputed %s, stored %s' % (number, *pair))
            return


def write_files(pairs):
    for path, data in pairs:
        os.makedirs(os.path.dirname(os.path.abspath(path)), exist_ok=True)
        with open(path, 'wb') as file:
            file.write(data)


def check_files(pairs):
    """0 if every file holds its bytes, else 1."""
    status = 0
    for path, data in pairs:
        stored = ref.file_or_nothing(path)
        if stored != data:
            print('%s differs' % path)
            if data is pairs[1][1]:
                first_difference(data, stored)
            status = 1
    return status


def calls_named(text):
    calls = tuple(int(word) for word in text.split(','))
    if not set(calls) <= set(CALL_NAMES):
        raise ValueError
    return calls


def places(options, directory):
    """Where the case file and the expected lines are."""
    return (options.cases or os.path.join(directory, 'cases.bin'),
            options.expected or os.path.join(directory, 'expected.txt'))


def main():
    parser = argparse.ArgumentParser(description='Cases for the second validator.')
    parser.add_argument('--write', metavar='DIR', nargs='?', const='')
    parser.add_argument('--check', metavar='DIR', nargs='?', const='')
    parser.add_argument('--counts', action='store_true')
    parser.add_argument('--answer', metavar='FILE')
    parser.add_argument('--listings', metavar='DIR')
    parser.add_argument('--cases', metavar='FILE')
    parser.add_argument('--expected', metavar='FILE')
    parser.add_argument('--calls', metavar='N,N..', type=calls_named, default=tuple(CALL_NAMES))
    parser.add_argument('--seed', type=int, default=DEFAULT_SEED)
    parser.add_argument('--count', type=int, default=DEFAULT_COUNT)
    options = parser.parse_args()
    if '' in (options.write, options.check) and not (options.cases and options.expected):
        parser.error('a directory, or --cases and --expected')
    if options.listings:
        write_listings(options.listings)
    if options.answer:
        for case in cases_in(ref.file_or_nothing(options.answer)):
            if case.call in options.calls:
                sys.stdout.write(expected_line(case))
    if options.write is None and options.check is None and not options.counts:
        if not (options.listings or options.answer):
            parser.error('nothing asked for')
        return 0
    binary, expected, cases = files(options.seed, options.count, options.calls)
    if options.counts:
        print_counts(cases, expected)
    status = 0
    if options.write is not None:
        write_files(list(zip(places(options, options.write), (binary, expected))))
    if options.check is not None:
        status = check_files(list(zip(places(options, options.check), (binary, expected))))
    if status == 0:
        print('%d cases, %d bytes' % (len(cases), len(binary)))
    return status


if __name__ == '__main__':
    sys.exit(main())
