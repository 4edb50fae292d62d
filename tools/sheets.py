"""A model of sheets in plain Python: opening, the two leaf lists, and a builder.

It is written from the rules in docs/FORMAT.md and docs/FAULTS.md, not from the
output of any program, so that it can judge one. It is meant to be read, not to
be fast.

    open_sheet(data)      bytes -> Sheet, or the Fault that they are refused with
    listed_leaves(sheet)  the leaves that the sections `leaves` and `parts` tell
    flat_leaves(sheet)    the leaves that the section `elements` tells
    answer(line)          the answer line to a request line
    pack(...)             tables -> bytes, with every number of the header and of
                          the records open to damage
"""

import re
import struct
from collections import namedtuple

# ---------------------------------------------------------------- the layout

HEADER = 50          # bytes: form number 2, then count 2 and offset 4 for each section
MAX_LENGTH = 65_536  # bytes of a whole sheet
FORM = 1
MAX_NAME = 255
MAX_DEPTH = 32

Section = namedtuple("Section", "name width limit")

# In the order of the header. The first is section 1; 0 stands for the header.
SECTIONS = [
    Section("names", 1, 16_384),
    Section("types", 12, 2_048),
    Section("roots", 2, 256),
    Section("leaves", 6, 1_024),
    Section("parts", 4, 2_048),
    Section("elements", 6, 1_024),
    Section("nodes", 24, 512),
    Section("expressions", 2, 64),
]
NUMBER = {s.name: i for i, s in enumerate(SECTIONS, 1)}

# The records. A name is two fields, its start and its length in `names`.
TypeRecord = namedtuple("TypeRecord", "kind nullable detail children span start length",
                        defaults=(1, 0, 0, 0, 1, 0, 0))
RootRecord = namedtuple("RootRecord", "place", defaults=(0,))
LeafRecord = namedtuple("LeafRecord", "root first parts", defaults=(0, 0, 0))
PartRecord = namedtuple("PartRecord", "start length", defaults=(0, 0))
ElementRecord = namedtuple("ElementRecord", "children start length", defaults=(0, 0, 0))
NodeRecord = namedtuple("NodeRecord",
                        "kind literal children span start length index type_place spare value",
                        defaults=(1, 0, 0, 1, 0, 0, 0, 0, 0, 0))
ExpressionRecord = namedtuple("ExpressionRecord", "place", defaults=(0,))

# How the fields of a record lie in its bytes: little-endian, no gaps.
# B is one byte, H two, I four, q eight with a sign.
SHAPE = {
    "types": (TypeRecord, "<BBHHHHH"),
    "roots": (RootRecord, "<H"),
    "leaves": (LeafRecord, "<HHH"),
    "parts": (PartRecord, "<HH"),
    "elements": (ElementRecord, "<HHH"),
    "nodes": (NodeRecord, "<BBHHHHHHHq"),
    "expressions": (ExpressionRecord, "<H"),
}
for _section in SECTIONS[1:]:
    assert struct.calcsize(SHAPE[_section.name][1]) == _section.width

# Type kinds
LEAF, STRUCT, LIST, LARGE_LIST, LIST_VIEW, LARGE_LIST_VIEW, FIXED_SIZE_LIST, MAP = range(1, 9)
# Leaf codes (the detail of a leaf)
BOOLEAN, INTEGER, TEXT = 1, 2, 3
# Node kinds
(COLUMN, LITERAL, GET_FIELD, CAST, IS_NULL, IS_NOT_NULL,
 INPUT_FILE_NAME, FILE_ROW_INDEX, SCALAR_FUNCTION, OTHER_OPERATOR) = range(1, 11)
# Literal kinds
NULL_LITERAL, TEXT_LITERAL, INTEGER_LITERAL = 0, 1, 2

Fault = namedtuple("Fault", "number place")


def fault(number, section=None, record=0):
    """A fault of opening. Its place is section x 65,536 + record; the header is section 0."""
    return Fault(number, (NUMBER[section] if section else 0) * 65_536 + record)


class Sheet:
    """An opened sheet: the bytes of `names`, and one list of records for each other section."""

    def __init__(self, tables):
        self.names = tables["names"]
        self.types = tables["types"]
        self.roots = tables["roots"]
        self.leaves = tables["leaves"]
        self.parts = tables["parts"]
        self.elements = tables["elements"]
        self.nodes = tables["nodes"]
        self.expressions = tables["expressions"]

    def name(self, record):
        """The bytes of a record's name."""
        return self.names[record.start:record.start + record.length]


# ---------------------------------------------------------------- opening

def open_sheet(data):
    """The Sheet that stands in these bytes, or the Fault that they are refused with."""
    # The whole: length and form number.
    if not HEADER <= len(data) <= MAX_LENGTH:
        return fault(1)
    if struct.unpack_from("<H", data, 0)[0] != FORM:
        return fault(1)

    # The extents, section by section.
    header = [struct.unpack_from("<HI", data, 2 + 6 * k) for k in range(len(SECTIONS))]
    for section, (count, offset) in zip(SECTIONS, header):
        if count > 0:  # the offset of an empty section is not read
            if offset < HEADER or offset + count * section.width > len(data):
                return fault(1, section.name)

    # The counts, section by section.
    for section, (count, _) in zip(SECTIONS, header):
        if count > section.limit:
            return fault(2, section.name)

    # The records, section by section. Every byte is a good record of `names`.
    tables = {}
    for section, (count, offset) in zip(SECTIONS, header):
        if count == 0:
            offset = 0
        block = data[offset:offset + count * section.width]
        if section.name == "names":
            tables["names"] = block
        else:
            record, shape = SHAPE[section.name]
            tables[section.name] = [record(*row) for row in struct.iter_unpack(shape, block)]
    sheet = Sheet(tables)
    for name, first_bad in (("types", bad_type), ("roots", bad_root), ("leaves", bad_leaf),
                            ("parts", bad_part), ("elements", bad_element),
                            ("nodes", bad_node), ("expressions", bad_expression)):
        record = first_bad(sheet)
        if record is not None:
            return fault(3, name, record)
    return sheet


# Each bad_... below gives the number of the first bad record in its section, or None.

def name_is_good(sheet, record):
    return record.length <= MAX_NAME and record.start + record.length <= len(sheet.names)


def children_fill(records, i):
    """Do the children of record i fill its span?

    The span counts the record itself, so it is at least 1, and it ends inside the
    section. The first child stands right behind the record, each further one where
    the span of the child before it ends. All children start inside the span, and
    the last one ends where the span ends.
    """
    end = i + records[i].span
    if records[i].span == 0 or end > len(records):
        return False
    child = i + 1
    for _ in range(records[i].children):
        if child >= end:
            return False
        child += records[child].span
    return child == end


def depth(records, i):
    """How many records stand around record i, itself counted. All before i are good."""
    return 1 + sum(1 for j in range(i) if i < j + records[j].span)


def bad_type(sheet):
    for i, t in enumerate(sheet.types):
        good = (LEAF <= t.kind <= MAP
                and t.nullable <= 1
                and name_is_good(sheet, t)
                and children_fill(sheet.types, i)
                and depth(sheet.types, i) <= MAX_DEPTH)
        if good and t.kind == LEAF:
            good = t.children == 0
        if good and LIST <= t.kind <= MAP:
            good = t.children == 1
        if good and t.kind == MAP:
            entries = sheet.types[i + 1]
            good = entries.kind == STRUCT and entries.children == 2
        if not good:
            return i
    return None


def bad_root(sheet):
    for i, root in enumerate(sheet.roots):
        if root.place >= len(sheet.types):
            return i
    return None


def bad_leaf(sheet):
    for i, leaf in enumerate(sheet.leaves):
        if leaf.root >= len(sheet.roots):
            return i
        if i > 0 and leaf.root < sheet.leaves[i - 1].root:
            return i
        if leaf.parts > 0 and leaf.first + leaf.parts > len(sheet.parts):
            return i
    return None


def bad_part(sheet):
    for i, part in enumerate(sheet.parts):
        if not name_is_good(sheet, part):
            return i
    return None


def bad_element(sheet):
    elements = sheet.elements
    if not elements:
        return None
    # Where does the tree of element 0 end? `open_children` counts the elements that
    # are still to come.
    open_children = 1
    end = 0
    while open_children > 0:
        if end == len(elements):
            return 0                       # the tree is not whole
        open_children += elements[end].children - 1
        end += 1
    if end < len(elements):
        return end                         # an element stands behind the tree
    for i, (level, element) in enumerate(zip(element_depths(elements), elements)):
        if level > MAX_DEPTH:
            return i
        if i > 0 and not name_is_good(sheet, element):  # element 0 has no name
            return i
    return None


def element_depths(elements):
    """The depth of every element of one whole tree, the top being 1."""
    depths = []
    to_come = [1]  # children still to come, one number for each open level
    for element in elements:
        while to_come[-1] == 0:
            to_come.pop()
        to_come[-1] -= 1
        depths.append(len(to_come))
        to_come.append(element.children)
    return depths


def bad_node(sheet):
    for i, n in enumerate(sheet.nodes):
        good = (COLUMN <= n.kind <= OTHER_OPERATOR
                and children_fill(sheet.nodes, i)
                and depth(sheet.nodes, i) <= MAX_DEPTH)
        if good:
            if n.kind in (COLUMN, LITERAL):
                good = n.children == 0
            elif n.kind in (CAST, IS_NULL, IS_NOT_NULL):
                good = n.children == 1
            else:
                good = n.children <= 8
        if good and n.kind == LITERAL:
            good = n.literal <= INTEGER_LITERAL
        if good and (n.kind in (COLUMN, SCALAR_FUNCTION, OTHER_OPERATOR)
                     or n.kind == LITERAL and n.literal == TEXT_LITERAL):
            good = name_is_good(sheet, n)
        if good and n.kind in (GET_FIELD, CAST):
            good = n.type_place < len(sheet.types)
        if not good:
            return i
    return None


def bad_expression(sheet):
    for i, expression in enumerate(sheet.expressions):
        if expression.place >= len(sheet.nodes):
            return i
    return None


# ---------------------------------------------------------------- the leaf lists

# A leaf is (root, parts): the number of its root, and its parts as byte strings.

def listed_leaves(sheet):
    """The leaves as the sections `leaves` and `parts` write them down."""
    return [(leaf.root, [sheet.name(part) for part in
                         (sheet.parts[leaf.first:leaf.first + leaf.parts] if leaf.parts else [])])
            for leaf in sheet.leaves]


def flat_leaves(sheet):
    """The leaves of the flattened schema in `elements`.

    The first element is the schema itself and has no name. Its children are the
    roots, numbered from 0. Every other element without children is a leaf; its
    parts are the names from its root down to itself.
    """
    leaves = []
    path = []
    root = -1
    for i, (level, element) in enumerate(zip(element_depths(sheet.elements), sheet.elements)):
        if i == 0:
            continue
        if level == 2:
            root += 1
        path = path[:level - 2] + [sheet.name(element)]
        if element.children == 0:
            leaves.append((root, path))
    return leaves


# ---------------------------------------------------------------- request lines

# Between two words stands exactly one space, and none before or behind. A byte string
# is lower-case hexadecimal digits, two to a byte, or `-` if it has no byte.
#
#   open SHEET          ->  opened                 or  fault NUMBER PLACE
#   leaves DIR SHEET    ->  leaves LEAF LEAF ..    or  fault NUMBER PLACE
#
# DIR is `listed` or `flat`. A LEAF is the number of its root, a colon, and a byte
# string for each part with dots between; without any leaf the answer is `leaves -`.
# Requests whose calls are still to come are answered `not yet`, all other lines
# `bad request`.

BYTES = re.compile(r"-|([0-9a-f][0-9a-f])+")
LATER = ("plan", "filter", "cut", "answer")


def to_hex(data):
    return data.hex() or "-"


def from_hex(word):
    """The bytes that a word stands for, or None if it stands for none."""
    if not BYTES.fullmatch(word):
        return None
    return b"" if word == "-" else bytes.fromhex(word)


def leaf_word(leaf):
    root, parts = leaf
    return f"{root}:" + ".".join(to_hex(part) for part in parts)


def answer(line):
    words = line.split(" ")
    if words[0] in LATER:
        return "not yet"
    if words[0] == "open" and len(words) == 2:
        data = from_hex(words[1])
    elif words[0] == "leaves" and len(words) == 3 and words[1] in ("listed", "flat"):
        data = from_hex(words[2])
    else:
        return "bad request"
    if data is None:
        return "bad request"
    sheet = open_sheet(data)
    if isinstance(sheet, Fault):
        return f"fault {sheet.number} {sheet.place}"
    if words[0] == "open":
        return "opened"
    leaves = listed_leaves(sheet) if words[1] == "listed" else flat_leaves(sheet)
    return "leaves " + (" ".join(map(leaf_word, leaves)) or "-")


# ---------------------------------------------------------------- building sheets

def pack(names=b"", types=(), roots=(), leaves=(), parts=(), elements=(), nodes=(),
         expressions=(), form=FORM, counts=(), offsets=(), order=None, tail=b"", length=None):
    """The bytes of a sheet with these tables, each a list of records.

    Roots and expressions may be given as plain numbers, the others as tuples.
    The sections lie behind the header one after the other, in the header's order
    or in `order` (a list of section names; those not named come first). What the
    header says is free: `counts` and `offsets` are dicts from section name to the
    number that stands there instead of the true one. `tail` is put behind the last
    section; `length` cuts the whole off there or fills it up with zeros.
    """
    given = {"types": types, "roots": roots, "leaves": leaves, "parts": parts,
             "elements": elements, "nodes": nodes, "expressions": expressions}
    blocks = {"names": bytes(names)}
    true_counts = {"names": len(names)}
    for name, rows in given.items():
        record, shape = SHAPE[name]
        blocks[name] = b"".join(
            struct.pack(shape, *(record(row) if isinstance(row, int) else record(*row)))
            for row in rows)
        true_counts[name] = len(rows)

    order = list(order or [])
    order = [s.name for s in SECTIONS if s.name not in order] + order
    true_offsets = {}
    body = b""
    for name in order:
        true_offsets[name] = HEADER + len(body)
        body += blocks[name]

    counts, offsets = dict(counts), dict(offsets)
    header = struct.pack("<H", form)
    for section in SECTIONS:
        header += struct.pack("<HI", counts.get(section.name, true_counts[section.name]),
                              offsets.get(section.name, true_offsets[section.name]))
    data = header + body + tail
    if length is not None:
        data = data[:length] + bytes(max(0, length - len(data)))
    return data


class Names:
    """Collects names and tells where each one starts; equal names are kept once."""

    def __init__(self):
        self.text = b""
        self.starts = {}

    def add(self, name):
        """(start, length) of a name."""
        name = name.encode() if isinstance(name, str) else name
        if name not in self.starts:
            self.starts[name] = len(self.text) if name else 0
            self.text += name
        return self.starts[name], len(name)


def tree(record, *children):
    """The rows of a record and its children, each of them rows already, in preorder.

    The record's children and span are set to what stands below it.
    """
    below = [row for child in children for row in child]
    return [record._replace(children=len(children), span=1 + len(below))] + below
