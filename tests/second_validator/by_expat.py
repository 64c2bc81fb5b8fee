"""XML text as expat reads it (xml.parsers.expat, an XML 1.0 parser in C): a witness for the tags, the tree and the end of a text.

    read(data)                                  Reading(tree, tags_only, error); each byte above 7F is the character of its number
    refusals(limits, classes, data, reading)    what that leaves of reading the text, as refusals, 0 for none; names by the classes are
                                                taken to be names of XML
    short_texts(), rows_of_tags()               all of them
"""

import itertools
from collections import namedtuple
from xml.parsers import expat

import reference as ref

# tree: pairs of a name and a list of trees, None where the text is not well-formed. tags_only: nothing was met but tags and white space,
# up to the fault if there is one. error: expat's number of the fault, 0 for none.
Reading = namedtuple('Reading', 'tree tags_only error')

STOPS_IN_A_TAG = expat.errors.codes[expat.errors.XML_ERROR_UNCLOSED_TOKEN]
STOPS_TOO_SOON = expat.errors.codes[expat.errors.XML_ERROR_NO_ELEMENTS]
OTHER_END_TAG = expat.errors.codes[expat.errors.XML_ERROR_TAG_MISMATCH]

# Whatever encoding it is told, expat takes a mark of byte order first, and a byte 00 for a part of UTF-16.
BYTE_ORDER = (b'\xef\xbb\xbf', b'\xfe\xff', b'\xff\xfe')


def read(data):
    # A reference may stand for white space.
    above, others = [('', [])], [b'&' in data or b'\x00' in data or data.startswith(BYTE_ORDER)]

    def start(name, attributes):
        others[0] |= bool(attributes)
        above[-1][1].append((name, []))
        above.append(above[-1][1][-1])

    def end(_):
        above.pop()

    def characters(some):
        others[0] |= bool(some.strip(' \t\r\n'))

    def other(*_):
        others[0] = True

    parser = expat.ParserCreate('iso-8859-1')
    parser.StartElementHandler, parser.EndElementHandler, parser.CharacterDataHandler = start, end, characters
    parser.CommentHandler = parser.ProcessingInstructionHandler = parser.StartCdataSectionHandler = other
    parser.StartDoctypeDeclHandler = parser.XmlDeclHandler = other
    root = above[0]
    try:
        parser.Parse(data, True)
    except expat.ExpatError as fault:
        return Reading(None, not others[0], fault.code)
    return Reading(root[1][0], not others[0], 0)


def preorder(a_tree, level=1, place=1):
    """The name of each node, its level and its place among the children of its parent."""
    yield a_tree[0].encode('latin-1'), level, place
    for number, child in enumerate(a_tree[1], 1):
        yield from preorder(child, level + 1, number)


def first_fault(limits, classes, a_tree):
    """What the first node at fault gives: 5, or 11 for a node, a level or a child too many; 0 for none."""
    for number, (name, level, place) in enumerate(preorder(a_tree), 1):
        if len(name) > 63 or not ref.is_name(classes, name):
            return 5
        if number > limits.nodes or level > limits.levels or place > 200:
            return 11
    return 0


def refusals(limits, classes, data, reading):
    if len(data) > 32768:
        return (2,)
    if not reading.tags_only:
        return 5, 11, 16, 17
    if reading.tree is not None:        # only names and limits can be in the way
        return (first_fault(limits, classes, reading.tree),)
    # An end that comes too soon, another end tag, or anything else; before it a name, or a limit.
    by_error = {STOPS_IN_A_TAG: (16,), OTHER_END_TAG: (17,), STOPS_TOO_SOON: ()}
    return 5, 11, *by_error.get(reading.error, (16, 17))


def short_texts():
    """All texts of at most five of these bytes."""
    for length in range(6):
        for some in itertools.product(b'<>/a !', repeat=length):
            yield bytes(some)


PIECES = (b'<a>', b'</a>', b'<A >', b'</A\n>', b'<b/>', b' ', b'x', b'<a b="c"/>', b'<!--x-->', b'<')


def rows_of_tags():
    """All rows of at most five of these pieces."""
    for length in range(6):
        for some in itertools.product(PIECES, repeat=length):
            yield b''.join(some)
