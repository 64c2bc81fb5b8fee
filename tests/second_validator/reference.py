"""The second validator: every public call, written from document 01 and Cards 1, 2, 4, 5, 7, 8 and 13 alone.

Plain search, for reading next to the papers: derivations are tried directly, every step of a
widening is made as a table, and refusals come in the paper's order.  Sentences of the papers
stand in quotes; where document 01 has a number of the second set, the chosen set's own is read,
where it has the fixed classes of bytes, those lent with the call, where it has names equal, they
are so up to letter case, where it has child sequences of a sample, their runs are made first, rules
and nodes have their text marks, and a document comes as a document file or as XML text.  Python 3,
standard library only.

    python3 reference.py list DIR      the text that the lister prints in DIR (old.tbl, new.doc)
    python3 reference.py pages DIR     the pages that the printing program prints in DIR (old.tbl)
"""

import os
import re
import sys
from collections import namedtuple
from functools import partial
from itertools import groupby

sys.setrecursionlimit(20000)  # contents may nest 1,023 deep before refusal 10 is given

# ---------------------------------------------------------------- numbers of the paper

INPUT_BYTES = 32768     # refusal 2, and 14 for the sample and the result
NAME_BYTES = 63
CONTENT_BYTES = 1024
NESTING = 32
COUNT = 255             # operands of a choice
CHILDREN = 200

# "Rules, nodes, levels and working words become a set of limits: 16, 256, 16, 12,288; or 64, 1,024,
# 64, 16,384; or 128, 2,048, 64, 32,768. Label, start and type limits equal the rule limit, and type
# numbers run below it."
Limits = namedtuple('Limits', 'rules nodes levels words')
SMALL = Limits(16, 256, 16, 12288)
STANDARD = Limits(64, 1024, 64, 16384)
LARGE = Limits(128, 2048, 64, 32768)
SETS = (SMALL, STANDARD, LARGE)


def limits_of(size):
    """The set that a size's number picks: 0 small, 1 standard, 2 large; any other counts as 1."""
    return SETS[size] if size in (0, 1, 2) else STANDARD


# The format of a document, told before it: a document file, or XML text in its place (Card 2). No other
# number is one: it counts as 0. The bytes are not asked.
DOCUMENT_FILE, XML_TEXT = 0, 1

LABEL, START, RULE, TABLE_END = 0x10, 0x11, 0x12, 0x1F
NODE, DOCUMENT_END = 0x30, 0x3F

# "A rule may have tag 13 instead of 12: its nodes may hold text. A node may have tag 32 instead of
# 30: it does hold text." Each tag belongs to its own file; in the other it is foreign.
TEXT_RULE, TEXT_NODE = 0x13, 0x32


class Refused(Exception):
    """A refusal with the paper's number."""

    def __init__(self, number):
        super().__init__(number)
        self.number = number


# ---------------------------------------------------------------- data

# A content is a tuple whose first entry is the operator:
#   (NONE,)  (EMPTY,)  (TYPE, t)  (SEQUENCE, operands)  (CHOICE, operands)
#   (ANY, operand)  (SOME, operand)  (OPTIONAL, operand)
NONE, EMPTY, TYPE, SEQUENCE, CHOICE, ANY, SOME, OPTIONAL = range(8)

# labels: list of names; starts: list of types; rules: list of Rule, in order;
# places: where each label's name begins in the table's bytes (None for made tables).
# text: whether the rule has tag 13.
Table = namedtuple('Table', 'labels starts rules places')
Rule = namedtuple('Rule', 'type label content text')


class Node:
    """A named node with its children in order; `text` where it has tag 32."""

    def __init__(self, name, children=(), text=False):
        self.name = name
        self.children = list(children)
        self.text = text


# ---------------------------------------------------------------- classes of bytes

# "A table of 256 byte classes holds this rule (0 never, 1 not first, 2 anywhere)."
NEVER, NOT_FIRST, ANYWHERE = range(3)

# The old classes: "ASCII letters and digits, hyphen, period, underscore; the first is a letter or
# underscore."
LETTERS = b'ABCDEFGHIJKLMNOPQRSTUVWXYZabcdefghijklmnopqrstuvwxyz'
DIGITS = b'0123456789'
ASCII = bytes(ANYWHERE if byte in LETTERS + b'_' else NOT_FIRST if byte in DIGITS + b'-.' else NEVER
              for byte in range(256))

# "Bytes 00 to 20 (hexadecimal), and ( ) | , * + ? ! < > / =, must be 0."
FORBIDDEN = bytes(range(0x00, 0x20 + 1)) + b'()|,*+?!<>/='


def loads(classes):
    """18 where not: "a class table of another length or breaking a rule above".  The rules: "Each
    class must be 0, 1 or 2. At least one is 2.", and the bytes that must be 0."""
    return (len(classes) == 256
            and all(class_ in (NEVER, NOT_FIRST, ANYWHERE) for class_ in classes)
            and any(class_ == ANYWHERE for class_ in classes)
            and all(classes[byte] == NEVER for byte in FORBIDDEN))


def is_name(classes, value):
    """The first byte may stand anywhere, and no byte is one that never may."""
    return classes[value[0]] == ANYWHERE and all(classes[byte] != NEVER for byte in value)


# ---------------------------------------------------------------- letter case

# The 26 letters; "All other bytes compare as before."
TO_SMALL = bytes.maketrans(b'ABCDEFGHIJKLMNOPQRSTUVWXYZ', b'abcdefghijklmnopqrstuvwxyz')


def folded(name):
    """"Names are to be equal when they agree after A to Z become a to z." No name is written so:
    "the first spelling met is kept." """
    return name.translate(TO_SMALL)


def label_called(labels, name):
    """The number of the label of that name, in whatever spelling; None where there is none."""
    for number, label in enumerate(labels):
        if folded(label) == folded(name):
            return number
    return None


# ---------------------------------------------------------------- reading


def field_at(data, at):
    """The field that begins at `at`: tag, value, place of the next field.

    3: "A field runs past the input's end, or the input stops before an end field." """
    if at + 3 > len(data):
        raise Refused(3)
    tag, length = data[at], data[at + 1] * 256 + data[at + 2]
    if at + 3 + length > len(data):
        raise Refused(3)
    return tag, data[at + 3:at + 3 + length], at + 3 + length


def read_content(limits, data):
    """9: "A content is not exactly one expression, or names a type above 63." """
    content, after = expression_at(limits, data, 0)
    if after != len(data):
        raise Refused(9)
    return content


def expression_at(limits, data, at):
    """The expression that begins at `at`, and the place after it; 9 if there is none."""
    if at >= len(data):
        raise Refused(9)
    operator = data[at]
    if operator in (NONE, EMPTY):
        return (operator,), at + 1
    if operator == TYPE:
        if at + 1 >= len(data) or data[at + 1] >= limits.rules:
            raise Refused(9)
        return (TYPE, data[at + 1]), at + 2
    if operator in (SEQUENCE, CHOICE):
        # "each with a count byte of 2 to 255, then the operands"
        if at + 1 >= len(data) or data[at + 1] < 2:
            raise Refused(9)
        operands = []
        after = at + 2
        for _ in range(data[at + 1]):
            operand, after = expression_at(limits, data, after)
            operands.append(operand)
        return (operator, tuple(operands)), after
    if operator in (ANY, SOME, OPTIONAL):
        operand, after = expression_at(limits, data, at + 1)
        return (operator, operand), after
    raise Refused(9)


def operands_of(content):
    """The operands of an operator, in order; none for 00, 01 and 02."""
    if content[0] in (SEQUENCE, CHOICE):
        return content[1]
    if content[0] in (ANY, SOME, OPTIONAL):
        return (content[1],)
    return ()


def nesting(content):
    """"00, 01 and 02 count 1, another operator 1 more than its deepest operand." """
    deepest = 0
    for operand in operands_of(content):
        depth = nesting(operand)
        if depth > deepest:
            deepest = depth
    return 1 + deepest


# The parts of a table: "in this order: labels, starts, rules, end". Rules of either tag are one part,
# in any mixture. Then the shortest and the longest value of a field there.
PART = {LABEL: 1, START: 2, RULE: 3, TEXT_RULE: 3, TABLE_END: 4}
LENGTHS = {1: (1, NAME_BYTES), 2: (1, 1), 3: (2 + 1, 2 + CONTENT_BYTES), 4: (0, 0)}


def read_table(limits, classes, data):
    """A table from its bytes, or Refused."""
    if len(data) > INPUT_BYTES:                 # "2 opens each input"
        raise Refused(2)
    labels, places, starts, rules = [], [], [], []
    at, last_part = 0, PART[LABEL]
    while True:
        tag, value, after = field_at(data, at)  # 3
        # 4: "A tag is foreign to this file or out of order, or its length is not one stated above."
        if tag not in PART or PART[tag] < last_part:
            raise Refused(4)
        last_part = PART[tag]
        shortest, longest = LENGTHS[last_part]
        if not shortest <= len(value) <= longest:
            raise Refused(4)
        if tag == LABEL:
            if not is_name(classes, value):     # 5: "A name breaks the name rule."
                raise Refused(5)
            # 6: "A label name ... repeats an earlier one"; "This reaches repeated labels (6)"
            if label_called(labels, value) is not None:
                raise Refused(6)
            if len(labels) == limits.rules:     # 7: "It is the 65th label, start or rule."
                raise Refused(7)
            labels.append(value)
            places.append(at + 3)
        elif tag == START:
            if value[0] in starts:              # 6: "... or a start type repeats an earlier one"
                raise Refused(6)
            if len(starts) == limits.rules:     # 7
                raise Refused(7)
            if value[0] >= limits.rules:        # 8: "A start or rule type is above 63"
                raise Refused(8)
            starts.append(value[0])
        elif tag in (RULE, TEXT_RULE):
            if len(rules) == limits.rules:      # 7
                raise Refused(7)
            # 8: "... or a rule's ... label number is not among the labels."
            if value[0] >= limits.rules or value[1] >= len(labels):
                raise Refused(8)
            content = read_content(limits, value[2:])    # 9
            if nesting(content) > NESTING:      # 10: "A content nests more than 32 deep."
                raise Refused(10)
            rules.append(Rule(value[0], value[1], content, tag == TEXT_RULE))
        else:
            if after != len(data):              # 12: "Bytes follow the end field."
                raise Refused(12)
            return Table(labels, starts, rules, places)
        at = after


def read_document(limits, classes, data):
    """The root of a document file from its bytes, or Refused."""
    if len(data) > INPUT_BYTES:                 # "2 opens each input"
        raise Refused(2)
    root, nodes = None, 0
    unfilled = []    # nodes still waiting for children, from the root down: [node, how many]
    at = 0
    while True:
        tag, value, after = field_at(data, at)  # 3
        if tag not in (NODE, TEXT_NODE, DOCUMENT_END):     # 4
            raise Refused(4)
        if not (len(value) == 0 if tag == DOCUMENT_END else 2 <= len(value) <= 1 + NAME_BYTES):
            raise Refused(4)
        complete = root is not None and not unfilled
        if tag == DOCUMENT_END:
            if not complete:                    # 11: "the end comes before the tree is complete"
                raise Refused(11)
            if after != len(data):              # 12
                raise Refused(12)
            return root
        children, name = value[0], value[1:]
        if not is_name(classes, name):          # 5
            raise Refused(5)
        # 11: "A node is the 1,025th, has over 200 children, lies below level 64
        # or follows a complete tree"
        level = len(unfilled) + 1
        if nodes == limits.nodes or children > CHILDREN or level > limits.levels or complete:
            raise Refused(11)
        node = Node(name, text=tag == TEXT_NODE)
        nodes += 1
        if unfilled:
            unfilled[-1][0].children.append(node)
            unfilled[-1][1] -= 1
        else:
            root = node
        unfilled.append([node, children])
        while unfilled and unfilled[-1][1] == 0:
            unfilled.pop()
        at = after


# "Read, in place of a document file, start tags, end tags, empty-element tags and white space around
# them, as XML 1.0 writes them". XML 1.0's white space; "A name ends at white space, / or >", and after
# it a tag may have white space. /> has none inside, and an end tag no second /.
SPACE = rb'[\x20\x09\x0D\x0A]*'
NAME_UP_TO_ITS_END = rb'([^\x20\x09\x0D\x0A/>]*)'
WHITE_SPACE = re.compile(SPACE)
END_TAG = re.compile(b'</' + NAME_UP_TO_ITS_END + SPACE + b'>')
START_TAG = re.compile(b'<' + NAME_UP_TO_ITS_END + SPACE + b'(/?)>')     # or, with /, an empty-element tag


def read_xml_text(limits, classes, data):
    """The root of a document from its XML text, or Refused: "limits, name rule and 11 hold as there, at
    the first tag at fault". Each tag is tried whole, 16 and 17 "before 5"; 3, 4 and 12 are never given.
    No element has a text mark: "XML text still has no marks." """
    if len(data) > INPUT_BYTES:                 # "2 opens each input", by the text's own length
        raise Refused(2)
    root, nodes = None, 0
    unclosed = []    # the elements still open, from the root down
    at = WHITE_SPACE.match(data).end()
    while at < len(data):
        closing = data.startswith(b'</', at)
        tag = (END_TAG if closing else START_TAG).match(data, at)
        # 16: "a byte outside names that the subset does not allow, or text that stops inside a tag"
        if tag is None:
            raise Refused(16)
        name = tag.group(1)
        if closing:
            # 17: "an end tag not naming the innermost open element, or with none"; "XML end tags still
            # match by bytes."
            if not unclosed or unclosed[-1].name != name:
                raise Refused(17)
            unclosed.pop()
        else:
            # 5: the name rule; "one of no bytes or over 63 is 5"
            if not 1 <= len(name) <= NAME_BYTES or not is_name(classes, name):
                raise Refused(5)
            # 11: a node too many, a child too many ("for over 200 children that is the 201st child's"),
            # a level too deep, or a second root
            complete = root is not None and not unclosed
            children = len(unclosed[-1].children) if unclosed else 0
            if nodes == limits.nodes or children == CHILDREN or len(unclosed) == limits.levels or complete:
                raise Refused(11)
            node = Node(name)
            nodes += 1
            if unclosed:
                unclosed[-1].children.append(node)
            else:
                root = node
            if tag.group(2) != b'/':
                unclosed.append(node)
        at = WHITE_SPACE.match(data, tag.end()).end()
    # 11: "Text that ends with elements open, or with no element, is 11."
    if root is None or unclosed:
        raise Refused(11)
    return root


def read_either(limits, classes, format_, data):
    """A document's root from a document file or from XML text, as the format says."""
    return (read_xml_text if format_ == XML_TEXT else read_document)(limits, classes, data)


# ---------------------------------------------------------------- meaning

def table_lets_in(table, root):
    """"A table lets in a document if a start type derives its root." "A document is read up to
    letter case wherever letting in is spoken of." """
    known = {}
    names = [folded(label) for label in table.labels]

    def derives(type_, node):
        """"A type derives a node if one of its rules has the node's name and the children, in
        order, are derived by the types of some word of the content." "Derivation requires rule 13
        for a node 32"; a node 30 takes either rule."""
        question = (type_, id(node))
        if question not in known:
            known[question] = False
            name = folded(node.name)
            for rule in table.rules:
                if (rule.type == type_ and names[rule.label] == name and (rule.text or not node.text)
                        and some_word_fits(rule.content, node.children)):
                    known[question] = True
                    break
        return known[question]

    def some_word_fits(content, children):
        """Is there a word of the content, as long as the children, whose types derive them?"""
        found = {}

        def ends(part, begin):
            """All `end` such that some word of `part` derives children[begin:end]."""
            question = (id(part), begin)
            if question not in found:
                found[question] = tried(part, begin)
            return found[question]

        def tried(part, begin):
            operator = part[0]
            if operator == NONE:            # "None has no word"
                return set()
            if operator == EMPTY:           # "empty only the word of no types"
                return {begin}
            if operator == TYPE:            # "a type only the word of that one type"
                if begin < len(children) and derives(part[1], children[begin]):
                    return {begin + 1}
                return set()
            if operator == SEQUENCE:        # "one word of each operand, joined in order"
                places = {begin}
                for operand in part[1]:
                    following = set()
                    for place in places:
                        following |= ends(operand, place)
                    places = following
                return places
            if operator == CHOICE:          # "the words of all its operands"
                places = set()
                for operand in part[1]:
                    places |= ends(operand, begin)
                return places
            if operator == OPTIONAL:        # "its operand's words and the word of no types"
                return {begin} | ends(part[1], begin)
            # 05: "every joining of zero or more words of its operand, 06 every joining of at
            # least one"
            places = {begin} if operator == ANY else set(ends(part[1], begin))
            waiting = list(places)
            while waiting:
                for place in ends(part[1], waiting.pop()):
                    if place not in places:
                        places.add(place)
                        waiting.append(place)
            return places

        return len(children) in ends(content, 0)

    return any(derives(start, root) for start in table.starts)


def types_in(content):
    """The types a content names, left to right, with repetitions."""
    if content[0] == TYPE:
        return [content[1]]
    found = []
    for operand in operands_of(content):
        found.extend(types_in(operand))
    return found


def table_is_local(table):
    """"Local: no two rules have one label." "Kinds are unchanged": a rule 12 and a rule 13 are two
    rules."""
    labels = [rule.label for rule in table.rules]
    return len(labels) == len(set(labels))


def table_is_single_type(table):
    """"Single-type: no two rules share both type and label, and neither among the starts nor
    within any one content do two different types have rules with one label." """
    pairs = [(rule.type, rule.label) for rule in table.rules]
    if len(pairs) != len(set(pairs)):
        return False

    def compete(first, second):
        return first != second and any((second, label) in pairs
                                       for type_, label in pairs if type_ == first)

    groups = [table.starts] + [types_in(rule.content) for rule in table.rules]
    for group in groups:
        group = sorted(set(group))
        if any(compete(first, second) for first in group for second in group):
            return False
    return True


# ---------------------------------------------------------------- sample

def choice_of(contents):
    """The choice of one content or more; one content needs no choice."""
    if len(contents) == 1:
        return contents[0]
    return (CHOICE, tuple(contents))


def with_runs(types):
    """The content of a node whose children have these types. "In a sample, a run of two or more
    neighbouring children of one name becomes one or more of that type; a run that is the whole
    sequence stands alone." Children of one node have one type where they have one name. "[...] no
    child is empty, one child is the type itself"."""
    items = []
    for type_, neighbours in groupby(types):
        alone = len(list(neighbours)) == 1
        items.append((TYPE, type_) if alone else (SOME, (TYPE, type_)))
    if not items:
        return (EMPTY,)
    return items[0] if len(items) == 1 else (SEQUENCE, tuple(items))


def sample_table(root):
    """"One type for each distinct path of names from the root, numbered by first visit, root 0
    and only start. Labels by first visit, rules by type." A label is spelled as its first node in
    the file, on whichever path that is: "the first spelling met is kept." """
    types = {}        # path of folded names -> type, by first visit
    labels = {}       # folded name -> its first spelling, by first visit
    visited = []      # (path, node) in the order of the file

    def visit(above, node):
        name = folded(node.name)
        path = above + (name,)
        if path not in types:
            types[path] = len(types)
        if name not in labels:
            labels[name] = node.name
        visited.append((path, node))
        for child in node.children:
            visit(path, child)

    visit((), root)
    label_numbers = {name: number for number, name in enumerate(labels)}
    rules = []
    for path, type_ in types.items():
        # "Its content is the choice of the distinct child sequences seen at that path, by first
        # sight [...] one sequence needs no choice." "Distinct sequences are told apart after this",
        # that is with their runs. "a sample path with any node 32 gets 13."
        seen, text = [], False
        for other, node in visited:
            if other == path:
                content = with_runs([types[path + (folded(child.name),)] for child in node.children])
                if content not in seen:
                    seen.append(content)
                text = text or node.text
        rules.append(Rule(type_, label_numbers[path[-1]], choice_of(seen), text))
    return Table(list(labels.values()), [0], rules, None)


# ---------------------------------------------------------------- widening, step by step

def replaced(content, replacement):
    """The content with `replacement(t)`, a content, in the place of each type t."""
    if content[0] == TYPE:
        return replacement(content[1])
    if content[0] in (SEQUENCE, CHOICE):
        return (content[0], tuple(replaced(operand, replacement) for operand in content[1]))
    if content[0] in (ANY, SOME, OPTIONAL):
        return (content[0], replaced(content[1], replacement))
    return content


def unite(limits, old, addition):
    """"Labels are the old ones, then the addition's new names. The addition's types are made
    distinct from the old. Rules keep their order, old first." A name that the old table has is
    spelled as there, whether or not a rule of the old table has it. """
    labels = list(old.labels)
    for name in addition.labels:
        if label_called(labels, name) is None:
            labels.append(name)

    def distinct(type_):      # types of a table that was read are below the limit
        return type_ + limits.rules

    starts = old.starts + [distinct(start) for start in addition.starts]
    rules = list(old.rules)
    for rule in addition.rules:
        rules.append(Rule(distinct(rule.type), label_called(labels, addition.labels[rule.label]),
                          replaced(rule.content, lambda t: (TYPE, distinct(t))), rule.text))
    return Table(labels, starts, rules, None)


def normalise(table):
    """"Each pair of type and label becomes one type, ordered by its first rule; contents of the
    same pair join by choice. A type in a content becomes the choice of its pairs, or none; the
    pairs of a start type are all starts." The contents come first: which of them reduce to none is
    seen over all pairs, and then "A rule 13 behind a result type makes its rule 13 if its own
    content, reduced, is not none; normalising does likewise." """
    pairs = []
    for rule in table.rules:
        if (rule.type, rule.label) not in pairs:
            pairs.append((rule.type, rule.label))

    pairs_of = {}
    for number, (type_, _) in enumerate(pairs):
        pairs_of.setdefault(type_, []).append(number)

    def choice_of_pairs(type_):
        if type_ not in pairs_of:
            return (NONE,)
        return choice_of([(TYPE, number) for number in pairs_of[type_]])

    behind = []       # for each pair its rules, each with its own content in pairs
    for pair in pairs:
        behind.append([rule._replace(content=replaced(rule.content, choice_of_pairs))
                       for rule in table.rules if (rule.type, rule.label) == pair])
    rules = []
    for number, (_, label) in enumerate(pairs):
        rules.append(Rule(number, label, choice_of([rule.content for rule in behind[number]]), False))
    fruitful = fruitful_types(Table(table.labels, [], rules, None))
    for number in range(len(pairs)):
        text = any(rule.text and reduced(rule.content, fruitful) != (NONE,) for rule in behind[number])
        rules[number] = rules[number]._replace(text=text)
    starts = []
    for start in table.starts:
        starts.extend(pairs_of.get(start, []))
    return Table(table.labels, starts, rules, None)


def has_word_over(content, types):
    """Has the content a word whose types all lie among `types`?"""
    operator = content[0]
    if operator == NONE:
        return False
    if operator == TYPE:
        return content[1] in types
    if operator == SEQUENCE:
        return all(has_word_over(operand, types) for operand in content[1])
    if operator == CHOICE:
        return any(has_word_over(operand, types) for operand in content[1])
    if operator == SOME:
        return has_word_over(content[1], types)
    return True     # 01, 05 and 07 have the word of no types


def fruitful_types(table):
    """"A type is fruitful if it derives some document; rounds are made until one adds nothing." """
    fruitful = set()
    while True:
        added = {rule.type for rule in table.rules
                 if rule.type not in fruitful and has_word_over(rule.content, fruitful)}
        if not added:
            return fruitful
        fruitful |= added


def without_none(content):
    """"A sequence holding none is none; a choice drops it, and is none with nothing left; any
    number of none, and optional none, are empty; one or more of none is none." """
    operator = content[0]
    if operator in (SEQUENCE, CHOICE):
        operands = tuple(without_none(operand) for operand in content[1])
        if operator == SEQUENCE:
            return (NONE,) if (NONE,) in operands else (SEQUENCE, operands)
        operands = tuple(operand for operand in operands if operand != (NONE,))
        return (CHOICE, operands) if operands else (NONE,)
    if operator in (ANY, SOME, OPTIONAL):
        operand = without_none(content[1])
        if operand == (NONE,):
            return (NONE,) if operator == SOME else (EMPTY,)
        return (operator, operand)
    return content


def reduced(content, fruitful):
    """"Unfruitful types become none", and what follows from it for the content."""
    def none_if_unfruitful(type_):
        return (TYPE, type_) if type_ in fruitful else (NONE,)

    return without_none(replaced(content, none_if_unfruitful))


def reduce_table(table):
    """"Unfruitful types become none; their rules and starts go. [...] After that, types not
    reached from a start through the remaining contents are dropped." A rule that stays keeps its
    mark."""
    fruitful = fruitful_types(table)
    rules = [rule._replace(content=reduced(rule.content, fruitful))
             for rule in table.rules if rule.type in fruitful]
    starts = [start for start in table.starts if start in fruitful]

    reached, waiting = set(starts), list(starts)
    while waiting:
        type_ = waiting.pop()
        for rule in rules:
            if rule.type == type_:
                for named in types_in(rule.content):
                    if named not in reached:
                        reached.add(named)
                        waiting.append(named)
    rules = [rule for rule in rules if rule.type in reached]
    return Table(table.labels, starts, rules, None)


def to_local(table):
    """"One type for each label left, numbered in label order; its content is the choice of all
    contents of that label, in rule order, each type, starts too, replaced by its label's type." The
    rules behind it are those that reducing left; their contents are not none."""
    left = sorted({rule.label for rule in table.rules})
    type_of_label = {label: number for number, label in enumerate(left)}
    new_type = {rule.type: type_of_label[rule.label] for rule in table.rules}
    rules = []
    for label in left:
        behind = [rule for rule in table.rules if rule.label == label]
        contents = [replaced(rule.content, lambda t: (TYPE, new_type[t])) for rule in behind]
        rules.append(Rule(type_of_label[label], label, choice_of(contents), any(rule.text for rule in behind)))
    starts = sorted({new_type[start] for start in table.starts})
    return Table(table.labels, starts, rules, None)


def to_single_type(limits, table):
    """"A result type is a set of types of one label." """
    label_of = {rule.type: rule.label for rule in table.rules}
    sets = []     # the result types, by number

    # "Start sets, one a label, come first in label order."
    for label in sorted({label_of[start] for start in table.starts}):
        sets.append(frozenset(start for start in table.starts if label_of[start] == label))
    starts = list(range(len(sets)))

    rules = []
    while len(rules) < len(sets):     # "lowest set first"
        number = len(rules)
        members = sets[number]
        # "A set's content is the choice of its members' contents in rule order."
        behind = [rule for rule in table.rules if rule.type in members]
        content = choice_of([rule.content for rule in behind])
        # "Within that, types of one label form one set and are replaced by it. New sets are
        # numbered as met, left to right"
        groups = {}                   # label -> its types within the content, labels as met
        for type_ in types_in(content):
            groups.setdefault(label_of[type_], set()).add(type_)
        set_of_label = {}
        for label, group in groups.items():
            if group not in sets:
                sets.append(frozenset(group))
            set_of_label[label] = sets.index(group)

        def replacement(type_):
            return (TYPE, set_of_label[label_of[type_]])

        label = label_of[next(iter(members))]
        rules.append(Rule(number, label, replaced(content, replacement), any(rule.text for rule in behind)))
        if len(sets) > limits.rules:  # 14 whatever follows; there may be very many sets
            raise Refused(14)
    return Table(table.labels, starts, rules, None)


def tidy(content):
    """"Tidy, innermost first. A choice takes in the operands of its choices, drops operands
    byte-equal to earlier ones, and one operand left stands alone." """
    operator = content[0]
    if operator == SEQUENCE:
        return (SEQUENCE, tuple(tidy(operand) for operand in content[1]))
    if operator in (ANY, SOME, OPTIONAL):
        return (operator, tidy(content[1]))
    if operator == CHOICE:
        taken_in = []
        for operand in content[1]:
            operand = tidy(operand)
            if operand[0] == CHOICE:
                taken_in.extend(operand[1])
            else:
                taken_in.append(operand)
        kept, seen = [], set()
        for operand in taken_in:
            if operand not in seen:
                seen.add(operand)
                kept.append(operand)
        return choice_of(kept)
    return content


def tidy_table(table):
    rules = [rule._replace(content=tidy(rule.content)) for rule in table.rules]
    return Table(table.labels, table.starts, rules, None)


def with_used_labels(table):
    """"The result's labels are those used, in label order; starts and rules ascend by type." """
    used = sorted({rule.label for rule in table.rules})
    rules = [rule._replace(label=used.index(rule.label))
             for rule in sorted(table.rules, key=lambda rule: rule.type)]
    return Table([table.labels[label] for label in used], sorted(table.starts), rules, None)


# ---------------------------------------------------------------- writing

def content_length(content):
    """The bytes of a content, also of one that no file may hold."""
    length = {NONE: 1, EMPTY: 1, TYPE: 2, SEQUENCE: 2, CHOICE: 2, ANY: 1, SOME: 1, OPTIONAL: 1}
    total = length[content[0]]
    for operand in operands_of(content):
        total += content_length(operand)
    return total


def largest_choice(content):
    largest = len(content[1]) if content[0] == CHOICE else 0
    for operand in operands_of(content):
        largest = max(largest, largest_choice(operand))
    return largest


def within_limits(limits, table):
    """14: "over 64 types, a content over 1,024 bytes, a nesting over 32, a choice over 255 or over
    32,768 bytes in all." """
    total = 3
    for name in table.labels:
        total += 3 + len(name)
    total += 4 * len(table.starts)
    for rule in table.rules:
        total += 5 + content_length(rule.content)
    return (len(table.rules) <= limits.rules    # samples and results have one rule a type
            and all(content_length(rule.content) <= CONTENT_BYTES for rule in table.rules)
            and all(nesting(rule.content) <= NESTING for rule in table.rules)
            and all(largest_choice(rule.content) <= COUNT for rule in table.rules)
            and total <= INPUT_BYTES)


def content_bytes(content):
    operator = content[0]
    if operator == TYPE:
        return bytes([TYPE, content[1]])
    begin = bytes([operator])
    if operator in (SEQUENCE, CHOICE):
        begin += bytes([len(content[1])])
    return begin + b''.join(content_bytes(operand) for operand in operands_of(content))


def field_bytes(tag, value):
    return bytes([tag, len(value) // 256, len(value) % 256]) + value


def table_bytes(table):
    """"Table, in this order: labels, starts, rules, end" """
    fields = [field_bytes(LABEL, name) for name in table.labels]
    fields += [field_bytes(START, bytes([start])) for start in table.starts]
    fields += [field_bytes(TEXT_RULE if rule.text else RULE,
                           bytes([rule.type, rule.label]) + content_bytes(rule.content))
               for rule in table.rules]
    return b''.join(fields) + field_bytes(TABLE_END, b'')


# ---------------------------------------------------------------- the calls

# refusal: the paper's number, 0 for none.  value: 1 yes or readable, 0 no, the length of a table or
# of pages written, or offset * 65,536 + length of a name; 0 with a refusal.  written: the bytes that stand
# at the beginning of the output afterwards.
Answer = namedtuple('Answer', 'refusal value written')


def try_lent(limits, classes, work_len):
    """What is tried before any input."""
    if work_len < limits.words:        # 1: "The working slice has fewer than 16,384 words."
        raise Refused(1)
    if not loads(classes):             # 18, "after 1"
        raise Refused(18)


def answered(limits, classes, work_len, question):
    """The answer of a call that writes nothing."""
    try:
        try_lent(limits, classes, work_len)
        return Answer(0, int(question()), b'')
    except Refused as refusal:
        return Answer(refusal.number, 0, b'')


def answered_in_bytes(limits, classes, work_len, out_len, made):
    """The answer of a call that writes a table or pages.  "The number comes with length 0 and an untouched
    output." """
    try:
        try_lent(limits, classes, work_len)
        written = made()
        if out_len < len(written):     # 15: "The lent output is shorter than the result."
            raise Refused(15)
        return Answer(0, len(written), written)
    except Refused as refusal:
        return Answer(refusal.number, 0, b'')


def table_reads(limits, classes, table, work_len):
    return answered(limits, classes, work_len, lambda: read_table(limits, classes, table) is not None)


def document_reads(limits, classes, format_, document, work_len):
    return answered(limits, classes, work_len, lambda: read_either(limits, classes, format_, document) is not None)


def label_name(limits, classes, table, label, work_len):
    """"A name asked for by its label number comes back as that part of the table's own bytes", so
    as that table spells it."""
    def question():
        read = read_table(limits, classes, table)
        if label >= len(read.labels):  # "A caller's label number is tried after its table."
            raise Refused(8)
        return read.places[label] * 65536 + len(read.labels[label])
    return answered(limits, classes, work_len, question)


def lets_in(limits, classes, table, format_, document, work_len):
    def question():
        read = read_table(limits, classes, table)
        root = read_either(limits, classes, format_, document)
        return table_lets_in(read, root)
    return answered(limits, classes, work_len, question)


def is_local(limits, classes, table, work_len):
    return answered(limits, classes, work_len, lambda: table_is_local(read_table(limits, classes, table)))


def is_single_type(limits, classes, table, work_len):
    return answered(limits, classes, work_len, lambda: table_is_single_type(read_table(limits, classes, table)))


def sample_within_limits(limits, root):
    made = sample_table(root)
    if not within_limits(limits, made):        # "14 first for the sample"
        raise Refused(14)
    return made


def sample(limits, classes, format_, document, out_len, work_len):
    def made():
        return table_bytes(sample_within_limits(limits, read_either(limits, classes, format_, document)))
    return answered_in_bytes(limits, classes, work_len, out_len, made)


def widened(limits, old, addition, form):
    """The result table of a widening, or Refused by 13 or 14."""
    reduced = reduce_table(normalise(unite(limits, old, addition)))
    if not reduced.starts:             # 13: "The united tables derive no document."
        raise Refused(13)
    result = with_used_labels(tidy_table(form(reduced)))
    if not within_limits(limits, result):      # 14, "then for the result"
        raise Refused(14)
    return result


def widen_by_table(limits, classes, old, addition, form, out_len, work_len):
    def made():
        # "Inputs are read one after the other, the old table first"
        first = read_table(limits, classes, old)
        second = read_table(limits, classes, addition)
        return table_bytes(widened(limits, first, second, form))
    return answered_in_bytes(limits, classes, work_len, out_len, made)


def widen_by_document(limits, classes, old, format_, document, form, out_len, work_len):
    """"A document is added through its sample." The result is then "least over the old table's
    documents and all those of the sample table"."""
    def made():
        first = read_table(limits, classes, old)
        root = read_either(limits, classes, format_, document)
        return table_bytes(widened(limits, first, sample_within_limits(limits, root), form))
    return answered_in_bytes(limits, classes, work_len, out_len, made)


def widen_local_by_table(limits, classes, old, addition, out_len, work_len):
    return widen_by_table(limits, classes, old, addition, to_local, out_len, work_len)


def widen_local_by_document(limits, classes, old, format_, document, out_len, work_len):
    return widen_by_document(limits, classes, old, format_, document, to_local, out_len, work_len)


def widen_single_type_by_table(limits, classes, old, addition, out_len, work_len):
    return widen_by_table(limits, classes, old, addition, partial(to_single_type, limits), out_len, work_len)


def widen_single_type_by_document(limits, classes, old, format_, document, out_len, work_len):
    return widen_by_document(limits, classes, old, format_, document, partial(to_single_type, limits), out_len, work_len)


def pages(limits, classes, table, out_len, work_len):
    """The table as read: nothing is united, reduced or sorted, so that there is no 13 and no 14."""
    return answered_in_bytes(limits, classes, work_len, out_len, lambda: printed(read_table(limits, classes, table)))


# ---------------------------------------------------------------- the lent slices afterwards

def output_after(answer, output):
    """"Output bytes past a result stay as they came"; a refusal leaves all of it untouched."""
    return answer.written + output[len(answer.written):]


def work_after(limits, answer, work):
    """"Its first 16,384 words are zero after every call but refusal 1, which changes none; words
    beyond are never changed." """
    if answer.refusal == 1:
        return list(work)
    return [0] * limits.words + list(work[limits.words:])


# ---------------------------------------------------------------- the lister

def content_text(content):
    """"(,) is sequence, (|) choice, () empty, ! none, suffixes *, +, ? operators 05, 06, 07." """
    operator = content[0]
    if operator == NONE:
        return '!'
    if operator == EMPTY:
        return '()'
    if operator == TYPE:
        return 't%d' % content[1]
    if operator in (SEQUENCE, CHOICE):
        between = ',' if operator == SEQUENCE else '|'
        return '(' + between.join(content_text(operand) for operand in content[1]) + ')'
    return content_text(content[1]) + {ANY: '*', SOME: '+', OPTIONAL: '?'}[operator]


def texts_of(table, rule):
    """Type, name and content of a rule; "The lister puts # after such a rule's content." """
    mark = '#' if rule.text else ''
    return (b't%d' % rule.type, table.labels[rule.label], (content_text(rule.content) + mark).encode('ascii'))


def listing(old, document):
    """The lister's text for the bytes of old.tbl and new.doc; it keeps the second set, "the old
    classes, which the lister uses", and document files."""
    answer = widen_local_by_document(STANDARD, ASCII, old, DOCUMENT_FILE, document, INPUT_BYTES, STANDARD.words)
    if answer.refusal:
        return b'refused %d\n' % answer.refusal
    table = read_table(STANDARD, ASCII, answer.written)
    lines = [b'local']
    for start in table.starts:
        lines.append(b'start t%d' % start)
    for rule in table.rules:
        lines.append(b' '.join(texts_of(table, rule)))
    return b''.join(line + b'\n' for line in lines)


# ---------------------------------------------------------------- printed pages

# "Print it 72 columns wide, 60 lines a page: type in columns 1 to 3, name in 5 to 27, content in 29 to
# 72." A column is a byte. The first and the last column of each text:
WIDTH, LINES = 72, 60
PLACES = ((1, 3), (5, 27), (29, 72))

# "Rows, in rule order, are padded to 72 with spaces and end in a line feed; blank rows, padded too, fill
# the last page"
BLANK_PAGE = (b' ' * WIDTH + b'\n') * LINES


def printed(table):
    """The pages of a table: blank ones, another as soon as a row is needed, into which every byte is put
    at its row and column; "no rules print no page". """
    paper = bytearray()
    free = 0        # the first row that no rule has taken; rows are counted from 0, columns from 1
    for rule in table.rules:
        first_row = free
        for (first, last), text in zip(PLACES, texts_of(table, rule)):
            row, column = first_row, first
            for byte in text:
                # "A longer text goes on, each line filled first, to further lines of its own column"
                if column > last:
                    row, column = row + 1, first
                while len(paper) <= row * (WIDTH + 1):
                    paper += BLANK_PAGE
                paper[row * (WIDTH + 1) + column - 1] = byte
                column += 1
            # "a rule takes as many rows as its longest text"
            free = max(free, row + 1)
    return bytes(paper)


# The longest pages that a table has at the large size; those of the standard size have 170,820 bytes, of
# the small one 83,220 (selftest.py).
MOST_PAGES = 183960


def print_out(old):
    """The printing program's text for the bytes of old.tbl, at the lister's size and under its classes, with
    its line for a refusal."""
    answer = pages(STANDARD, ASCII, old, MOST_PAGES, STANDARD.words)
    return b'refused %d\n' % answer.refusal if answer.refusal else answer.written


def file_or_nothing(path):
    """"a file that cannot be read counts as no bytes." """
    try:
        with open(path, 'rb') as file:
            return file.read()
    except OSError:
        return b''


if __name__ == '__main__':
    if len(sys.argv) != 3 or sys.argv[1] not in ('list', 'pages'):
        sys.exit(__doc__)
    old_table, new_document = (file_or_nothing(os.path.join(sys.argv[2], name)) for name in ('old.tbl', 'new.doc'))
    sys.stdout.buffer.write(listing(old_table, new_document) if sys.argv[1] == 'list' else print_out(old_table))
