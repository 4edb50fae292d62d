"""Writes crates/batch/stdin (request lines) and crates/batch/stdout (their answers).

    python3 tools/make_vectors.py          writes both files
    python3 tools/make_vectors.py --list   prints line number, title and answer of
                                           every line made here, and writes nothing

In this order:

1. tools/vectors/open.* and tools/vectors/leaves.*: requests and answers that were
   given with the rules, made by a model of the rules that is independent of this
   repository. The model in sheets.py must give the same answers.
2. Cases designed by hand. Each has the answer written next to it, from the rules;
   the model must give the same.
3. Every byte of one small sheet raised and lowered by one, and the sheet cut off at
   every length. Here the answers are the model's.
4. Lines that are no request, and requests that are still to come.

Any disagreement ends the script with an error before a file is written.
"""

import os
import sys

import make_sample
import sheets
from sheets import (NodeRecord, NUMBER, SECTIONS, TypeRecord, Names, pack, to_hex, tree)
from sheets import (LEAF, STRUCT, LIST, LARGE_LIST, LIST_VIEW, LARGE_LIST_VIEW,
                    FIXED_SIZE_LIST, MAP)
from sheets import (COLUMN, LITERAL, GET_FIELD, CAST, IS_NULL, IS_NOT_NULL, INPUT_FILE_NAME,
                    FILE_ROW_INDEX, SCALAR_FUNCTION, OTHER_OPERATOR)

HERE = os.path.dirname(os.path.abspath(__file__))
BATCH = os.path.join(HERE, "..", "crates", "batch")

LINES = []  # (title, request, answer)


def given(kind):
    """Takes over the lines that were given with the rules."""
    def read(end):
        with open(os.path.join(HERE, "vectors", f"{kind}.{end}")) as file:
            return file.read().splitlines()
    requests, answers = read("requests"), read("answers")
    assert len(requests) == len(answers)
    for i, (request, answer) in enumerate(zip(requests, answers), 1):
        model = sheets.answer(request)
        assert model == answer, f"{kind} line {i}: given {answer!r}, model {model!r}"
        LINES.append((f"given {kind} {i}", request, answer))


def line(title, request, answer):
    """One request with the answer written by hand."""
    model = sheets.answer(request)
    assert model == answer, f"{title}: by hand {answer!r}, model {model!r}"
    LINES.append((title, request, answer))


# ---- answers by hand

OPENED = "opened"


def F(number, section=None, record=0):
    """`fault` with its number and place; no section stands for the header."""
    return f"fault {number} {(NUMBER[section] if section else 0) * 65536 + record}"


def case(title, data, answer):
    line(title, "open " + to_hex(data), answer)


def leaves(title, data, listed=None, flat=None):
    if listed is not None:
        line(title + ", listed", "leaves listed " + to_hex(data), listed)
    if flat is not None:
        line(title + ", flat", "leaves flat " + to_hex(data), flat)


# ---- records in few words

def T(kind=LEAF, **fields):
    return TypeRecord(kind, **fields)


def N(kind=COLUMN, **fields):
    return NodeRecord(kind, **fields)


INT = [T(LEAF, detail=2)]


def many(count):
    return [INT] * count


def chain(top, bottom, length):
    """Rows of a tree that goes straight down: length - 1 tops around one bottom."""
    rows = bottom
    for _ in range(length - 1):
        rows = tree(top, rows)
    assert len(rows) == length
    return rows


# A sheet with records in every section. Its damage is what most cases are about.
GOOD = dict(
    names=b"abc",
    types=[T(LEAF, nullable=1, detail=2, length=1),
           *tree(T(STRUCT, start=1, length=1), [T(LEAF, detail=3, start=2, length=1)])],
    roots=[0, 1],
    leaves=[(0, 0, 1), (1, 1, 2)],
    parts=[(0, 1), (1, 1), (2, 1)],
    elements=[(2, 0, 0), (0, 0, 1), (1, 1, 1), (0, 2, 1)],
    nodes=[*tree(N(GET_FIELD, type_place=2),
                 [N(COLUMN, start=1, length=1, index=1)],
                 [N(LITERAL, literal=1, start=2, length=1)])],
    expressions=[0, 1],
)


def good(**changes):
    return pack(**{**GOOD, **changes})


def changed(section, record, **fields):
    """GOOD with fields of one record changed."""
    rows = [sheets.SHAPE[section][0](*((row,) if isinstance(row, int) else row))
            for row in GOOD[section]]
    rows[record] = rows[record]._replace(**fields)
    return good(**{section: rows})


# ---------------------------------------------------------------- length and form number

def whole_sheets():
    bare = pack()
    assert len(bare) == 50
    case("no byte at all", b"", F(1))
    case("one byte", bare[:1], F(1))
    case("the form number alone", bare[:2], F(1))
    case("49 bytes", bare[:49], F(1))
    case("50 bytes, all sections empty", bare, OPENED)
    case("51 bytes, all sections empty", bare + b"\0", OPENED)
    case("50 bytes of 0", bytes(50), F(1))
    case("50 bytes of 255", b"\xff" * 50, F(1))
    case("49 bytes of another form", pack(form=2)[:49], F(1))
    for form in (0, 2, 3, 255, 256, 257, 65535):
        case(f"form number {form}", pack(form=form), F(1))
        case(f"form number {form}, else good", good(form=form), F(1))
    case("form number 2, and the extent of names is bad",
         good(form=2, offsets={"names": 0}), F(1))
    case("good", good(), OPENED)
    case("good, with bytes behind the sections", good(tail=b"\xff\xff\xff"), OPENED)
    case("65,536 bytes", good(length=65536), OPENED)
    case("65,537 bytes", good(length=65537), F(1))
    case("65,536 bytes, names reach the end: 65,486 of them",
         pack(counts={"names": 65486}, length=65536), F(2, "names"))
    leaves("good", good(), "leaves 0:61 1:62.63", "leaves 0:61 1:62.63")
    leaves("nothing", pack(), "leaves -", "leaves -")


# ---------------------------------------------------------------- extents

WIDTH = {s.name: s.width for s in SECTIONS}


def extents():
    """For every section: where it may start and where it must end."""
    for name in WIDTH:
        first = [n for n in WIDTH if n != name]
        lead = good(order=first)   # this section lies first, at byte 50
        last = good(order=[name])  # this section lies last
        size = len(last)
        count = len(GOOD[name])
        start = size - count * WIDTH[name]
        case(f"{name} starts at byte 50", lead, OPENED)
        case(f"{name} ends at the last byte", last, OPENED)
        case(f"{name} ends one past the last byte: a byte is missing", last[:-1], F(1, name))
        case(f"{name} ends one past the last byte: it starts one later",
             good(order=[name], offsets={name: start + 1}), F(1, name))
        case(f"{name} ends one past the last byte: it counts one more",
             good(order=[name], counts={name: count + 1}), F(1, name))
        case(f"{name} counts 65,535", good(counts={name: 65535}), F(1, name))
        case(f"{name} counts 32,768", good(counts={name: 32768}), F(1, name))
        for offset in (0, 1, 2, 49):
            case(f"{name} starts at byte {offset}", good(offsets={name: offset}), F(1, name))
        case(f"{name} starts where the sheet ends", good(offsets={name: size}), F(1, name))
        case(f"{name} starts one behind the end", good(offsets={name: size + 1}), F(1, name))
        for offset in (65535, 65536, 65536 + start, 2**31, 2**32 - count * WIDTH[name], 2**32 - 1):
            case(f"{name} starts at byte {offset}",
                 good(order=[name], offsets={name: offset}), F(1, name))

    for offset in (0, 1, 49, 50, 51, 65536, 2**31, 2**32 - 1):
        case(f"all sections empty, all offsets {offset}",
             pack(offsets={name: offset for name in WIDTH}), OPENED)
    # One section empty, its offset wild, the others as good as can be without it.
    nameless = dict(names=b"", types=[T(), *tree(T(STRUCT), [T()])], parts=[(0, 0)] * 3,
                    elements=[(2, 0, 0), (0, 0, 0), (1, 0, 0), (0, 0, 0)],
                    nodes=tree(N(GET_FIELD, type_place=2), [N()], [N(LITERAL, literal=1)]))
    without = {
        "names": nameless,
        "types": dict(types=[], roots=[], leaves=[], nodes=[N()], expressions=[0]),
        "roots": dict(roots=[], leaves=[]),
        "leaves": dict(leaves=[]),
        "parts": dict(parts=[], leaves=[(0, 0, 0), (1, 0, 0)]),
        "elements": dict(elements=[]),
        "nodes": dict(nodes=[], expressions=[]),
        "expressions": dict(expressions=[]),
    }
    for name, changes in without.items():
        for offset in (0, 49, 2**32 - 1):
            case(f"{name} empty, its offset {offset}",
                 good(**changes, offsets={name: offset}), OPENED)
    leaves("names empty", good(**nameless), "leaves 0:- 1:-.-", "leaves 0:- 1:-.-")
    leaves("roots empty", good(**without["roots"]), "leaves -", "leaves 0:61 1:62.63")
    leaves("parts empty", good(**without["parts"]), "leaves 0: 1:", "leaves 0:61 1:62.63")
    leaves("elements empty", good(**without["elements"]), "leaves 0:61 1:62.63", "leaves -")


# ---------------------------------------------------------------- counts

def counts():
    """Every count at its limit and one above."""
    one = dict(types=[T()], roots=[0])
    at = {
        "names": lambda n: pack(names=b"n" * n),
        "types": lambda n: pack(types=[T()] * n),
        "roots": lambda n: pack(types=[T()], roots=[0] * n),
        "leaves": lambda n: pack(**one, leaves=[(0, 0, 0)] * n),
        "parts": lambda n: pack(parts=[(0, 0)] * n),
        "elements": lambda n: pack(elements=[(n - 1, 0, 0)] + [(0, 0, 0)] * (n - 1)),
        "nodes": lambda n: pack(nodes=[N()] * n),
        "expressions": lambda n: pack(nodes=[N()], expressions=[0] * n),
    }
    for section in SECTIONS:
        make = at[section.name]
        case(f"{section.name}: {section.limit}", make(section.limit), OPENED)
        case(f"{section.name}: {section.limit + 1}", make(section.limit + 1), F(2, section.name))

    # All eight at their limits. Together they are longer than a sheet can be, so
    # names lie over the types.
    full = dict(types=[T()] * 2048, roots=[2047] * 256, leaves=[(255, 0, 2048)] * 1024,
                parts=[(16383, 1)] * 2048,
                elements=[(1023, 0, 0)] + [(0, 16384, 0)] * 1023,
                nodes=[N(GET_FIELD, type_place=2047)] * 512, expressions=[511] * 64)
    case("all sections at their limits, names over types",
         pack(**full, counts={"names": 16384}, offsets={"names": 50}), OPENED)

    # Sections that share the same zero bytes, so that large counts fit in few bytes.
    zeros = dict(length=50 + 600, offsets={"roots": 62, "expressions": 62, "parts": 62})
    case("257 roots and 65 expressions over the same bytes",
         pack(types=[T()], nodes=[], counts={"roots": 257, "expressions": 65}, **zeros),
         F(2, "roots"))
    case("256 roots and 65 expressions over the same bytes",
         pack(types=[T()], nodes=[], counts={"roots": 256, "expressions": 65}, **zeros),
         F(2, "expressions"))
    case("256 roots and 64 expressions over the same bytes, but no node",
         pack(types=[T()], nodes=[], counts={"roots": 256, "expressions": 64}, **zeros),
         F(3, "expressions"))


# ---------------------------------------------------------------- names

def names():
    """A name is at most 255 long and ends inside the section, wherever it is used."""
    # title, bytes in names, start, length, is it good?
    tried = [
        ("255 bytes long, all there is", 255, 0, 255, True),
        ("255 bytes long, up to the end", 300, 45, 255, True),
        ("255 bytes long, one past the end", 300, 46, 255, False),
        ("256 bytes long, all there is", 256, 0, 256, False),
        ("256 bytes long, amid longer names", 300, 3, 256, False),
        ("257 bytes long, amid longer names", 300, 3, 257, False),
        ("65,535 bytes long", 300, 0, 65535, False),
        ("the last byte", 4, 3, 1, True),
        ("one past the end", 4, 4, 1, False),
        ("two bytes, one past the end", 4, 3, 2, False),
        ("longer than names by one", 4, 0, 5, False),
        ("all of names", 4, 0, 4, True),
        ("empty, at the end", 4, 4, 0, True),
        ("empty, one behind the end", 4, 5, 0, False),
        ("empty, far behind the end", 4, 65535, 0, False),
        ("start and length together pass 16 bits", 4, 65535, 1, False),
        ("start and length together pass 16 bits, and would come back in", 4, 65535, 3, False),
        ("start and length both wild", 4, 65535, 65535, False),
        ("empty, no names", 0, 0, 0, True),
        ("one byte, no names", 0, 0, 1, False),
    ]
    for title, count, start, length, is_good in tried:
        at = dict(start=start, length=length)
        text = bytes(97 + i % 26 for i in range(count))
        where = [
            ("types", 0, dict(types=[T(LEAF, **at)])),
            ("parts", 0, dict(parts=[(start, length)])),
            ("elements", 1, dict(elements=[(1, 0, 0), (0, start, length)])),
            ("nodes", 0, dict(nodes=[N(COLUMN, **at)])),
            ("nodes", 0, dict(nodes=[N(LITERAL, literal=1, **at)])),
            ("nodes", 0, dict(nodes=[N(SCALAR_FUNCTION, **at)])),
            ("nodes", 0, dict(nodes=[N(OTHER_OPERATOR, **at)])),
        ]
        for section, record, tables in where:
            what = section if section != "nodes" else f"nodes of kind {tables['nodes'][0].kind}"
            case(f"{what}, name {title}", pack(names=text, **tables),
                 OPENED if is_good else F(3, section, record))
        # Where a name is not used it may be anything.
        unused = [("element 0", dict(elements=[(0, start, length)])),
                  ("null literal", dict(nodes=[N(LITERAL, literal=0, **at)])),
                  ("integer literal", dict(nodes=[N(LITERAL, literal=2, **at)])),
                  ("get_field", dict(types=[T()], nodes=[N(GET_FIELD, **at)])),
                  ("cast", dict(types=[T()], nodes=tree(N(CAST, **at), [N()]))),
                  ("is null", dict(nodes=tree(N(IS_NULL, **at), [N()]))),
                  ("is not null", dict(nodes=tree(N(IS_NOT_NULL, **at), [N()]))),
                  ("input file name", dict(nodes=[N(INPUT_FILE_NAME, **at)])),
                  ("file row index", dict(nodes=[N(FILE_ROW_INDEX, **at)]))]
        if not is_good and count <= 4:
            for what, tables in unused:
                case(f"{what}, name unused: {title}", pack(names=text, **tables), OPENED)
    # A bad name behind good ones is told at its own record.
    case("second type has the bad name",
         pack(names=b"a", types=[T(length=1), T(start=1, length=1)]), F(3, "types", 1))
    case("an inner type has the bad name",
         pack(names=b"a", types=tree(T(STRUCT), [T(length=1)], [T(length=2)])), F(3, "types", 2))
    case("third part has the bad name, no leaf uses it",
         pack(names=b"a", parts=[(0, 1), (1, 0), (1, 1), (0, 9)]), F(3, "parts", 2))
    case("a text literal inside has the bad name",
         pack(names=b"a", types=[T()],
              nodes=tree(N(GET_FIELD), [N(length=1)], [N(LITERAL, literal=1, length=2)])),
         F(3, "nodes", 2))
    case("the function itself has the bad name, told before its child's",
         pack(names=b"a", nodes=tree(N(SCALAR_FUNCTION, length=2), [N(length=2)])),
         F(3, "nodes", 0))


# ---------------------------------------------------------------- types

def types():
    def t(title, rows, answer):
        case("types: " + title, pack(names=b"abcd", types=rows), answer)

    bad = lambda record=0: F(3, "types", record)

    for kind in (0, 9, 10, 128, 255):
        t(f"kind {kind}", [T(kind)], bad())
        t(f"kind {kind} with a child", tree(T(kind), INT), bad())
        t(f"second record of kind {kind}", [T(), T(kind)], bad(1))
        t(f"child of kind {kind}", tree(T(STRUCT), INT, [T(kind)]), bad(2))
    for nullable, answer in ((0, OPENED), (1, OPENED), (2, bad()), (3, bad()), (255, bad())):
        for kind, below in ((LEAF, []), (STRUCT, []), (LIST, [INT]),
                            (MAP, [tree(T(STRUCT), INT, INT)])):
            t(f"kind {kind}, nullable {nullable}", tree(T(kind, nullable=nullable), *below), answer)
    t("child nullable 2", tree(T(LIST), [T(nullable=2)]), bad(1))

    # Detail may be any number in every kind.
    for detail in (0, 1, 2, 3, 4, 5, 256, 32768, 65535):
        t(f"leaf of detail {detail}", [T(LEAF, detail=detail)], OPENED)
    for kind in range(STRUCT, FIXED_SIZE_LIST + 1):
        t(f"kind {kind}, detail 65,535", tree(T(kind, detail=65535), INT), OPENED)
    t("kind 8, detail 65,535",
      tree(T(MAP, detail=65535), tree(T(STRUCT, detail=65535), INT, INT)), OPENED)
    t("kind 7, detail 0", tree(T(FIXED_SIZE_LIST, detail=0), INT), OPENED)

    # How many children a kind has.
    for n in (1, 2):
        t(f"leaf with {n} children", tree(T(LEAF), *many(n)), bad())
    for n in (0, 1, 2, 3, 8, 9, 40):
        t(f"Struct with {n} children", tree(T(STRUCT), *many(n)), OPENED)
    for kind in range(LIST, FIXED_SIZE_LIST + 1):
        t(f"kind {kind} with no child", [T(kind)], bad())
        t(f"kind {kind} with one child", tree(T(kind), INT), OPENED)
        t(f"kind {kind} with two children", tree(T(kind), INT, INT), bad())
        t(f"kind {kind} with a Struct", tree(T(kind), tree(T(STRUCT), INT, INT)), OPENED)
        t(f"kind {kind} with an empty Struct", tree(T(kind), [T(STRUCT)]), OPENED)
        t(f"kind {kind} of kind {kind}", tree(T(kind), tree(T(kind), INT)), OPENED)
        t(f"kind {kind} of kind {kind} with no child", tree(T(kind), [T(kind)]), bad(1))
    entries = tree(T(STRUCT), INT, INT)
    t("Map with no child", [T(MAP)], bad())
    t("Map with two children", tree(T(MAP), entries, INT), bad())
    t("Map with two entries Structs", tree(T(MAP), entries, entries), bad())
    t("Map of a Struct of two", tree(T(MAP), entries), OPENED)
    t("Map of a nullable Struct of two", tree(T(MAP), tree(T(STRUCT, nullable=1), INT, INT)), OPENED)
    t("Map of a Struct of two Structs", tree(T(MAP), tree(T(STRUCT), entries, entries)), OPENED)
    t("Map of a leaf", tree(T(MAP), INT), bad())
    t("Map of a List of a Struct of two", tree(T(MAP), tree(T(LIST), entries)), bad())
    t("Map of a Map", tree(T(MAP), tree(T(MAP), entries)), bad())
    for n in (0, 1, 3):
        t(f"Map of a Struct of {n}", tree(T(MAP), tree(T(STRUCT), *many(n))), bad())
    t("Map inside a Struct, of a leaf", tree(T(STRUCT), INT, tree(T(MAP), INT)), bad(2))
    t("Map of a List that says it has two children",
      [T(MAP, children=1, span=4), T(LIST, children=2, span=3), *INT, *INT], bad())
    t("Map of a Struct that says two and has one",
      [T(MAP, children=1, span=3), T(STRUCT, children=2, span=2), *INT], bad(1))
    t("Map of a Struct that says two and has three",
      [T(MAP, children=1, span=5), T(STRUCT, children=2, span=4), *INT, *INT, *INT], bad(1))
    t("Map at the end of the section, its span one past", [T(MAP, children=1, span=2)], bad())

    spans("types", lambda children, span: T(STRUCT, children=children, span=span),
          lambda span: T(LEAF, span=span), lambda rows: pack(types=rows))

    # Depth.
    for what, top in (("Structs", T(STRUCT)), ("Lists", T(LIST)), ("LargeLists", T(LARGE_LIST)),
                      ("ListViews", T(LIST_VIEW)), ("LargeListViews", T(LARGE_LIST_VIEW)),
                      ("FixedSizeLists", T(FIXED_SIZE_LIST))):
        t(f"{what} 32 deep", chain(top, INT, 32), OPENED)
        t(f"{what} 33 deep", chain(top, INT, 33), bad(32))
    t("Structs 40 deep", chain(T(STRUCT), INT, 40), bad(32))
    t("empty Struct at depth 33", chain(T(STRUCT), [T(STRUCT)], 33), bad(32))
    t("two trees 32 deep", chain(T(LIST), INT, 32) * 2, OPENED)
    t("second tree 33 deep", chain(T(LIST), INT, 32) + chain(T(LIST), INT, 33), bad(64))
    t("many at depth 32", deep(T(STRUCT), tree(T(STRUCT), INT, INT, INT), 30), OPENED)
    t("third child at depth 33",
      deep(T(STRUCT), tree(T(STRUCT), INT, INT, tree(T(LIST), INT)), 30), bad(34))
    t("Map whose entries' fields are at depth 32", deep(T(LIST), tree(T(MAP), entries), 29), OPENED)
    t("Map whose entries' fields are at depth 33", deep(T(LIST), tree(T(MAP), entries), 30), bad(32))
    t("depth 33, and an earlier kind is bad",
      chain(T(STRUCT), INT, 33)[:20] + [T(9, children=1, span=13)] + chain(T(STRUCT), INT, 33)[21:],
      bad(20))
    t("depth 33, and that record's kind is bad too", chain(T(STRUCT), [T(0)], 33), bad(32))


def deep(top, rows, around):
    """`rows` with so many tops around them."""
    for _ in range(around):
        rows = tree(top, rows)
    return rows


def spans(section, group, leaf, make):
    """Spans and children of any preorder section.

    group(children, span) is a record that may have children, leaf(span) one that
    has none.
    """
    def s(title, rows, record):
        case(f"{section}: {title}", make(rows), OPENED if record is None else F(3, section, record))

    one = leaf(1)
    s("span 0 without children", [leaf(0)], 0)
    s("span 0 of a group without children", [group(0, 0)], 0)
    s("span 1 without children", [leaf(1)], None)
    s("span 2 without children, a record behind", [leaf(2), one], 0)
    s("span 2 without children, past the section", [leaf(2)], 0)
    s("span 65,535 without children", [leaf(65535)], 0)
    s("second record's span 0", [one, leaf(0)], 1)
    s("second record's span past the section", [one, leaf(2), ], 1)
    s("third of four has span 2", [one, one, leaf(2), one], 2)

    s("two children, as it should be", [group(2, 3), one, one], None)
    s("children one low", [group(1, 3), one, one], 0)
    s("children 0", [group(0, 3), one, one], 0)
    s("children one high", [group(3, 3), one, one], 0)
    s("children 65,535", [group(65535, 3), one, one], 0)
    s("span one low", [group(2, 2), one, one], 0)
    s("span 1", [group(2, 1), one, one], 0)
    s("span 0", [group(2, 0), one, one], 0)
    s("span one high, past the section", [group(2, 4), one, one], 0)
    s("span one high, inside the section", [group(2, 4), one, one, one], 0)
    s("span and children one high, inside the section", [group(3, 4), one, one, one], None)
    s("span and children one high, past the section", [group(3, 4), one, one], 0)
    s("span and children one low, a record left over", [group(1, 2), one, one], None)
    s("span 65,535", [group(2, 65535), one, one], 0)
    s("span wild and children wild", [group(65535, 65535), one, one], 0)

    s("one child, span 1, the child's span 0", [group(1, 1), leaf(0)], 0)
    s("one child, the child's span 0", [group(1, 2), leaf(0)], 0)
    s("two children, the first one's span 0", [group(2, 3), leaf(0), one], 0)
    s("two children, the last one's span 0", [group(2, 3), one, leaf(0)], 0)
    s("two children of span 0, span 1", [group(2, 1), leaf(0), leaf(0)], 0)
    s("the child reaches past the span, inside the section", [group(1, 2), leaf(2), one], 0)
    s("the child reaches past the section", [group(1, 2), leaf(2)], 0)
    s("the child's span 65,535", [group(1, 2), leaf(65535)], 0)
    s("two children, the first one's span covers both: one too many",
      [group(2, 3), leaf(2), one], 0)
    s("one child, whose span covers two records and who has none",
      [group(1, 3), leaf(2), one], 1)
    s("one child, whose span covers two records and who says 0 children",
      [group(1, 3), group(0, 2), one], 1)
    s("one child, whose span is right and who says 2 children",
      [group(1, 3), group(2, 2), one], 1)
    s("groups in groups", [group(2, 6), group(1, 3), group(1, 2), one, group(1, 2), one], None)
    s("groups in groups, one inner span one low",
      [group(2, 6), group(1, 2), group(1, 2), one, group(1, 2), one], 0)
    # The first group's span ends inside the second one; the top's two steps still
    # end right (1 + 4, 5 + 1), so the group itself is told.
    s("groups in groups, one inner span takes in the head of the next",
      [group(2, 6), group(1, 4), group(1, 2), one, group(1, 2), one], 1)
    s("groups in groups, one inner span takes in half the next",
      [group(2, 6), group(1, 5), group(1, 2), one, group(1, 2), one], 0)
    s("groups in groups, the innermost span past its parent",
      [group(2, 6), group(1, 3), group(1, 3), one, group(1, 2), one], 1)
    s("groups in groups, the innermost children one high",
      [group(2, 6), group(1, 3), group(2, 2), one, group(1, 2), one], 2)
    s("the second tree is bad", [group(1, 2), one, group(1, 3), one], 2)
    s("the second tree borrows from a third", [group(1, 2), one, group(1, 3), one, one], 2)


# ---------------------------------------------------------------- roots, leaves, parts

def roots():
    def r(title, rows, answer, count=3):
        case("roots: " + title, pack(types=many_types(count), roots=rows), answer)

    bad = lambda record=0: F(3, "roots", record)
    r("the last type", [2], OPENED)
    r("type place equal to the number of types", [3], bad())
    r("type place one above the number of types", [4], bad())
    r("type place 65,535", [65535], bad())
    r("no types", [0], bad(), count=0)
    r("the first type, then one too far", [0, 3], bad(1))
    r("one too far, then the first type", [3, 0], bad())
    r("three good, then two bad", [0, 1, 2, 9, 3], bad(3))
    r("one type twice", [1, 1], OPENED)
    r("falling", [2, 1, 0], OPENED)
    r("the last of 300", [299], OPENED, count=300)
    r("one past the last of 300", [300], bad(), count=300)
    case("roots: a type inside another", pack(types=tree(T(STRUCT), INT), roots=[1, 0]), OPENED)


def many_types(count):
    return [T()] * count


def leaf_records():
    def lf(title, rows, answer, roots=3, parts=4):
        case("leaves: " + title,
             pack(names=b"abcd", types=[T()], roots=[0] * roots, leaves=rows,
                  parts=[(i, 1) for i in range(parts)]), answer)

    bad = lambda record=0: F(3, "leaves", record)
    lf("the last root", [(2, 0, 1)], OPENED)
    lf("root equal to the number of roots", [(3, 0, 1)], bad())
    lf("root 65,535", [(65535, 0, 1)], bad())
    lf("no roots", [(0, 0, 0)], bad(), roots=0)
    lf("root equal to the number of roots, no parts", [(3, 0, 0)], bad())
    lf("second leaf's root equal to the number of roots", [(2, 0, 1), (3, 0, 1)], bad(1))
    lf("roots stand still", [(1, 0, 1), (1, 1, 1)], OPENED)
    lf("roots rise by two", [(0, 0, 1), (2, 1, 1)], OPENED)
    lf("roots fall by one", [(1, 0, 1), (0, 1, 1)], bad(1))
    lf("roots fall by two", [(2, 0, 1), (0, 1, 1)], bad(1))
    lf("roots rise, then fall", [(0, 0, 1), (2, 0, 1), (1, 0, 1)], bad(2))
    lf("roots fall, then rise", [(1, 0, 1), (0, 0, 1), (2, 0, 1)], bad(1))
    lf("roots fall twice", [(2, 0, 1), (1, 0, 1), (0, 0, 1)], bad(1))
    lf("roots fall where the leaf has no parts", [(1, 0, 0), (0, 0, 0)], bad(1))
    lf("all parts", [(0, 0, 4)], OPENED)
    lf("one part more than there are", [(0, 0, 5)], bad())
    lf("the last part", [(0, 3, 1)], OPENED)
    lf("two parts, one past the last", [(0, 3, 2)], bad())
    lf("one part, first part equal to the number of parts", [(0, 4, 1)], bad())
    lf("one part, first part one above", [(0, 5, 1)], bad())
    lf("one part, first part 65,535", [(0, 65535, 1)], bad())
    lf("65,535 parts", [(0, 0, 65535)], bad())
    lf("first part and parts together pass 16 bits", [(0, 2, 65534)], bad())
    lf("first part and parts together pass 16 bits, and would come back in",
       [(0, 65535, 3)], bad())
    lf("first part and parts both 65,535", [(0, 65535, 65535)], bad())
    lf("0 parts, first part 0", [(0, 0, 0)], OPENED)
    lf("0 parts, first part equal to the number of parts", [(0, 4, 0)], OPENED)
    lf("0 parts, first part one above", [(0, 5, 0)], OPENED)
    lf("0 parts, first part 65,535", [(0, 65535, 0)], OPENED)
    lf("0 parts, first part 65,535, no parts at all", [(0, 65535, 0)], OPENED, parts=0)
    lf("one part, no parts at all", [(0, 0, 1)], bad(), parts=0)
    lf("second leaf's parts one past the last", [(0, 0, 4), (0, 1, 4)], bad(1))
    lf("two leaves share parts", [(0, 0, 3), (0, 1, 3)], OPENED)
    lf("root and parts both bad in the second leaf", [(1, 0, 1), (0, 9, 9)], bad(1))
    shared = pack(names=b"abcd", types=[T()], roots=[0] * 3,
                  leaves=[(0, 1, 3), (0, 65535, 0), (2, 0, 1), (2, 3, 1), (2, 0, 4)],
                  parts=[(0, 1), (1, 2), (4, 0), (0, 4)])
    leaves("leaves share parts, one has none", shared,
           listed="leaves 0:6263.-.61626364 0: 2:61 2:61626364 2:61.6263.-.61626364",
           flat="leaves -")


# ---------------------------------------------------------------- elements

def element_records():
    A, B, C, D = (0, 1), (1, 1), (2, 1), (3, 1)  # four names of one byte

    def make(rows):
        return pack(names=b"abcd", elements=rows)

    def e(title, rows, answer, flat=None):
        case("elements: " + title, make(rows), answer)
        if flat is not None:
            leaves("elements: " + title, make(rows), listed="leaves -", flat=flat)

    bad = lambda record=0: F(3, "elements", record)
    e("the top alone", [(0, 0, 0)], OPENED, flat="leaves -")
    e("one leaf", [(1, 0, 0), (0, *A)], OPENED, flat="leaves 0:61")
    e("three leaves", [(3, 0, 0), (0, *A), (0, *B), (0, *C)], OPENED,
      flat="leaves 0:61 1:62 2:63")
    e("a leaf in a group, then a leaf", [(2, 0, 0), (1, *A), (0, *B), (0, *C)], OPENED,
      flat="leaves 0:61.62 1:63")
    e("groups in groups", [(2, 0, 0), (2, *A), (1, *B), (0, *C), (0, *D), (1, *D), (0, *A)], OPENED,
      flat="leaves 0:61.62.63 0:61.64 1:64.61")
    e("names of length 0 and 4", [(1, 0, 0), (1, 0, 4), (0, 4, 0)], OPENED,
      flat="leaves 0:61626364.-")
    e("one name everywhere", [(1, *A), (2, *A), (0, *A), (0, *A)], OPENED,
      flat="leaves 0:61.61 0:61.61")
    e("the top's name is wild", [(1, 65535, 65535), (0, *A)], OPENED, flat="leaves 0:61")
    e("the top alone, its name wild", [(0, 65535, 65535)], OPENED, flat="leaves -")

    e("short: the top alone with one child", [(1, 0, 0)], bad())
    e("short: one of two children", [(2, 0, 0), (0, *A)], bad())
    e("short: an inner child missing", [(1, 0, 0), (1, *A)], bad())
    e("short: the last of an inner group missing", [(1, 0, 0), (2, *A), (0, *B)], bad())
    e("short: a child of the top missing behind a group",
      [(3, 0, 0), (1, *A), (0, *B), (0, *C)], bad())
    e("short: children 65,535", [(65535, 0, 0), (0, *A)], bad())
    e("short: an inner children 65,535", [(1, 0, 0), (65535, *A), (0, *B)], bad())
    e("short: many children 65,535", [(65535, *A)] * 4, bad())
    e("long: one behind the top", [(0, 0, 0), (0, *A)], bad(1))
    e("long: a group behind the top", [(0, 0, 0), (1, *A), (0, *B)], bad(1))
    e("long: one behind", [(1, 0, 0), (0, *A), (0, *B)], bad(2))
    e("long: two behind", [(1, 0, 0), (0, *A), (0, *B), (0, *C)], bad(2))
    e("long: one behind an inner group", [(1, 0, 0), (1, *A), (0, *B), (0, *C)], bad(3))
    e("long: what is behind is short itself", [(1, 0, 0), (0, *A), (9, *B)], bad(2))

    e("bad name at element 1", [(1, 0, 0), (0, 4, 1)], bad(1))
    e("bad name at element 2", [(2, 0, 0), (0, *A), (0, 0, 5)], bad(2))
    e("bad name of a group", [(1, 0, 0), (1, 0, 5), (0, *A)], bad(1))
    e("bad names at elements 2 and 3", [(3, 0, 0), (0, *A), (0, 5, 0), (0, 5, 0)], bad(2))
    e("bad name and short", [(2, 0, 0), (0, 4, 1)], bad())
    e("bad name and long", [(1, 0, 0), (0, 4, 1), (0, *A)], bad(2))
    e("bad name behind the tree", [(1, 0, 0), (0, *A), (0, 4, 1)], bad(2))

    def line_down(length, name=A):
        return [(1, *name)] * (length - 1) + [(0, *name)]

    e("depth 32", line_down(32), OPENED, flat="leaves 0:" + ".".join(["61"] * 31))
    e("depth 33", line_down(33), bad(32))
    e("depth 40", line_down(40), bad(32))
    e("depth 33 in the second root",
      [(2, 0, 0), (0, *A)] + [(1, *A)] * 31 + [(0, *A)], bad(33))
    e("two roots of depth 32", [(2, 0, 0)] + line_down(31) * 2, OPENED)
    e("depth 33 and short", [(1, *A)] * 33, bad())
    e("depth 33 and long", line_down(33) + [(0, *A)], bad(33))
    e("bad name before depth 33", line_down(5)[:4] + [(1, 9, 9)] + line_down(33)[5:], bad(4))
    e("bad name behind depth 33",
      [(2, 0, 0)] + [(1, *A)] * 31 + [(0, *A), (0, 9, 9)], bad(32))
    e("many at depth 32", [(1, *A)] * 30 + [(3, *A), (0, *A), (0, *B), (0, *C)], OPENED)
    e("the fourth at depth 32 has a child",
      [(1, *A)] * 30 + [(4, *A), (0, *A), (0, *B), (0, *C), (1, *D), (0, *A)], bad(35))
    # A flattened schema may have other roots than the sheet has.
    leaves("elements: more roots than the sheet",
           pack(names=b"abcd", types=[T()], roots=[0], elements=[(2, 0, 0), (0, *C), (0, *D)]),
           listed="leaves -", flat="leaves 0:63 1:64")


# ---------------------------------------------------------------- nodes

WILD_NAME = dict(start=65535, length=65535)


def node_records():
    leaf = [N()]

    def n(title, rows, answer, types=1):
        case("nodes: " + title, pack(names=b"abcd", types=many_types(types), nodes=rows), answer)

    bad = lambda record=0: F(3, "nodes", record)
    for kind in (0, 11, 12, 128, 255):
        n(f"kind {kind}", [N(kind)], bad())
        n(f"kind {kind} with a child", tree(N(kind), leaf), bad())
        n(f"second record of kind {kind}", [N(), N(kind)], bad(1))
        n(f"child of kind {kind}", tree(N(IS_NULL), [N(kind)]), bad(1))

    # How many children a kind has.
    for kind in (COLUMN, LITERAL):
        n(f"kind {kind}, no child", [N(kind)], OPENED)
        for children in (1, 2):
            n(f"kind {kind}, {children} children", tree(N(kind), *[leaf] * children), bad())
    for kind in (CAST, IS_NULL, IS_NOT_NULL):
        for children, answer in ((0, bad()), (1, OPENED), (2, bad()), (3, bad())):
            n(f"kind {kind}, {children} children", tree(N(kind), *[leaf] * children), answer)
    for kind in (GET_FIELD, INPUT_FILE_NAME, FILE_ROW_INDEX, SCALAR_FUNCTION, OTHER_OPERATOR):
        for children, answer in ((0, OPENED), (1, OPENED), (2, OPENED), (7, OPENED), (8, OPENED),
                                 (9, bad()), (10, bad())):
            n(f"kind {kind}, {children} children", tree(N(kind), *[leaf] * children), answer)
        n(f"kind {kind}, 9 children, inside another", tree(N(IS_NULL), tree(N(kind), *[leaf] * 9)),
          bad(1))
    n("kind 3 of nine records, but two children",
      tree(N(GET_FIELD), tree(N(SCALAR_FUNCTION), *[leaf] * 7), leaf), OPENED)

    # Literal kinds.
    for literal, answer in ((0, OPENED), (1, OPENED), (2, OPENED), (3, bad()), (4, bad()),
                            (255, bad())):
        n(f"literal kind {literal}", [N(LITERAL, literal=literal)], answer)
        n(f"literal kind {literal}, as a child",
          tree(N(GET_FIELD), leaf, [N(LITERAL, literal=literal)]),
          OPENED if answer == OPENED else bad(2))
    for value in (0, 1, -1, 2**63 - 1, -2**63):
        n(f"integer literal {value}", [N(LITERAL, literal=2, value=value)], OPENED)

    # Type places.
    for kind, below in ((GET_FIELD, []), (GET_FIELD, [leaf]), (CAST, [leaf])):
        for place, count, answer in ((0, 1, OPENED), (2, 3, OPENED), (1, 1, bad()), (3, 3, bad()),
                                     (4, 3, bad()), (65535, 3, bad()), (0, 0, bad())):
            n(f"kind {kind}, {len(below)} children, type place {place} of {count} types",
              tree(N(kind, type_place=place), *below), answer, types=count)
    n("type place bad in an inner cast",
      tree(N(IS_NULL), tree(N(CAST, type_place=1), leaf)), bad(1))

    # Fields that a kind does not use.
    for kind, below in ((COLUMN, []), (GET_FIELD, [leaf]), (CAST, [leaf]), (IS_NULL, [leaf]),
                        (IS_NOT_NULL, [leaf]), (INPUT_FILE_NAME, []), (FILE_ROW_INDEX, [leaf]),
                        (SCALAR_FUNCTION, [leaf]), (OTHER_OPERATOR, [])):
        n(f"kind {kind}, literal kind 3", tree(N(kind, literal=3), *below), OPENED)
        n(f"kind {kind}, literal kind 255", tree(N(kind, literal=255), *below), OPENED)
        n(f"kind {kind}, literal kind 1 and a good name",
          tree(N(kind, literal=1, length=4), *below), OPENED)
    for kind, below in ((COLUMN, []), (LITERAL, []), (IS_NULL, [leaf]), (IS_NOT_NULL, [leaf]),
                        (INPUT_FILE_NAME, []), (FILE_ROW_INDEX, []), (SCALAR_FUNCTION, []),
                        (OTHER_OPERATOR, [leaf])):
        n(f"kind {kind}, type place 65,535", tree(N(kind, type_place=65535), *below), OPENED)
        n(f"kind {kind}, type place 0 and no types", tree(N(kind), *below), OPENED, types=0)
    for kind, below in ((COLUMN, []), (LITERAL, []), (GET_FIELD, []), (CAST, [leaf]),
                        (IS_NULL, [leaf]), (IS_NOT_NULL, [leaf]), (INPUT_FILE_NAME, []),
                        (FILE_ROW_INDEX, []), (SCALAR_FUNCTION, []), (OTHER_OPERATOR, [])):
        n(f"kind {kind}, index, spare and value wild",
          tree(N(kind, index=65535, spare=65535, value=-1), *below), OPENED)
    n("null literal, all that it does not use wild",
      [N(LITERAL, literal=0, index=65535, type_place=65535, spare=65535, value=-1, **WILD_NAME)],
      OPENED)
    n("integer literal, all that it does not use wild",
      [N(LITERAL, literal=2, index=65535, type_place=65535, spare=65535, value=-1, **WILD_NAME)],
      OPENED)
    n("text literal, all that it does not use wild",
      [N(LITERAL, literal=1, index=65535, type_place=65535, spare=65535, value=-1, length=4)],
      OPENED)
    n("text literal, the same and a wild name",
      [N(LITERAL, literal=1, index=65535, type_place=65535, spare=65535, value=-1, **WILD_NAME)],
      bad())
    n("is null, all that it does not use wild",
      tree(N(IS_NULL, literal=255, index=65535, type_place=65535, spare=65535, value=-1,
             **WILD_NAME), leaf), OPENED)
    n("file row index, all that it does not use wild",
      [N(FILE_ROW_INDEX, literal=255, index=65535, type_place=65535, spare=65535, value=-1,
         **WILD_NAME)], OPENED)
    n("get_field, all that it does not use wild",
      [N(GET_FIELD, literal=255, index=65535, spare=65535, value=-1, **WILD_NAME)], OPENED)
    n("cast, all that it does not use wild",
      tree(N(CAST, literal=255, index=65535, spare=65535, value=-1, **WILD_NAME), leaf), OPENED)
    n("function, all that it does not use wild",
      [N(SCALAR_FUNCTION, literal=255, index=65535, type_place=65535, spare=65535, value=-1,
         length=4)], OPENED)
    n("column of index 65,535", [N(COLUMN, index=65535)], OPENED)

    spans("nodes", lambda children, span: N(SCALAR_FUNCTION, children=children, span=span),
          lambda span: N(COLUMN, span=span), lambda rows: pack(nodes=rows))

    # Depth.
    for what, top in (("is null", N(IS_NULL)), ("casts", N(CAST)), ("functions", N(SCALAR_FUNCTION)),
                      ("get_field", N(GET_FIELD)), ("input file names", N(INPUT_FILE_NAME))):
        n(f"{what} 32 deep", chain(top, leaf, 32), OPENED)
        n(f"{what} 33 deep", chain(top, leaf, 33), bad(32))
    n("40 deep", chain(N(OTHER_OPERATOR), leaf, 40), bad(32))
    n("two trees 32 deep", chain(N(IS_NULL), leaf, 32) * 2, OPENED)
    n("second tree 33 deep", chain(N(IS_NULL), leaf, 32) + chain(N(IS_NULL), leaf, 33), bad(64))
    n("eight at depth 32", deep(N(IS_NULL), tree(N(OTHER_OPERATOR), *[leaf] * 8), 30), OPENED)
    n("eight at depth 33", deep(N(IS_NULL), tree(N(OTHER_OPERATOR), *[leaf] * 8), 31), bad(32))
    n("the last of three at depth 33",
      deep(N(IS_NULL), tree(N(OTHER_OPERATOR), leaf, leaf, tree(N(IS_NULL), leaf)), 30), bad(34))


# ---------------------------------------------------------------- expressions

def expression_records():
    def x(title, rows, answer, nodes=3):
        case("expressions: " + title, pack(nodes=[N()] * nodes, expressions=rows), answer)

    bad = lambda record=0: F(3, "expressions", record)
    x("the last node", [2], OPENED)
    x("node place equal to the number of nodes", [3], bad())
    x("node place one above", [4], bad())
    x("node place 65,535", [65535], bad())
    x("no nodes", [0], bad(), nodes=0)
    x("a good one, then one too far", [2, 3], bad(1))
    x("one too far, then a good one", [3, 2], bad())
    x("three good, then two bad", [0, 1, 2, 3, 65535], bad(3))
    x("one node twice", [1, 1], OPENED)
    x("falling", [2, 1, 0], OPENED)
    x("the last of 300", [299], OPENED, nodes=300)
    x("one past the last of 300", [300], bad(), nodes=300)
    case("expressions: a node inside another",
         pack(nodes=tree(N(IS_NULL), [N()]), expressions=[1, 0]), OPENED)


# ---------------------------------------------------------------- one field of the good sheet

def fields():
    """Every field of every section in a sheet that is good otherwise."""
    def c(section, record, answer, **change):
        case(f"good but for {section} {record}: {change}", changed(section, record, **change),
             OPENED if answer is None else F(3, section, answer))

    c("types", 0, 0, kind=0)
    c("types", 0, None, kind=2)             # an empty Struct
    c("types", 0, 0, kind=3)
    c("types", 1, None, kind=3)             # a List of the leaf
    c("types", 1, 1, kind=8)
    c("types", 1, 1, kind=1)
    c("types", 2, 2, nullable=2)
    c("types", 2, None, detail=999)
    c("types", 0, 0, children=1)
    c("types", 1, 1, children=0)
    c("types", 1, 1, children=2)
    c("types", 0, 0, span=0)
    c("types", 0, 0, span=2)
    c("types", 0, 0, span=3)
    c("types", 1, 1, span=1)
    c("types", 1, 1, span=3)
    c("types", 2, 1, span=0)                # told at the parent, whose span it does not fill
    c("types", 2, 1, span=2)
    c("types", 2, 2, start=3)
    c("types", 2, 2, length=2)
    c("types", 1, None, length=2)
    c("types", 2, None, length=0)
    c("roots", 0, 0, place=3)
    c("roots", 1, 1, place=3)
    c("roots", 1, None, place=2)
    c("leaves", 0, None, root=1)
    c("leaves", 0, 0, root=2)
    c("leaves", 1, None, root=0)
    c("leaves", 1, 1, root=2)
    c("leaves", 0, None, first=2)
    c("leaves", 0, 0, first=3)
    c("leaves", 1, 1, first=2)
    c("leaves", 1, None, first=0)
    c("leaves", 1, 1, parts=3)
    c("leaves", 1, None, parts=0)
    c("leaves", 0, None, parts=3)
    c("leaves", 0, 0, parts=4)
    c("parts", 2, 2, start=3)
    c("parts", 2, 2, length=2)
    c("parts", 0, None, length=3)
    c("parts", 0, 0, length=4)
    c("elements", 0, 2, children=1)         # the tree ends before element 2
    c("elements", 0, 0, children=3)
    c("elements", 0, 1, children=0)
    c("elements", 1, 0, children=1)         # the tree is not whole
    c("elements", 2, 3, children=0)
    c("elements", 2, 0, children=2)
    c("elements", 0, None, start=9)
    c("elements", 0, None, length=999)
    c("elements", 1, 1, start=3)
    c("elements", 3, 3, length=2)
    c("nodes", 0, 0, kind=0)
    c("nodes", 0, 0, kind=1)
    c("nodes", 0, 0, kind=4)                # a cast of two
    c("nodes", 0, None, kind=9)
    c("nodes", 1, None, kind=2)
    c("nodes", 1, 1, kind=5)                # `is null` of none
    c("nodes", 2, 2, literal=3)
    c("nodes", 2, None, literal=2)
    c("nodes", 1, None, literal=3)
    c("nodes", 0, 0, children=1)
    c("nodes", 0, 0, children=3)
    c("nodes", 1, 1, children=1)
    c("nodes", 0, 0, span=2)
    c("nodes", 0, 0, span=4)
    c("nodes", 1, 0, span=2)
    c("nodes", 2, 0, span=0)
    c("nodes", 1, 1, start=3)
    c("nodes", 2, 2, length=2)
    c("nodes", 0, None, start=999)
    c("nodes", 0, None, length=999)
    c("nodes", 1, None, index=999)
    c("nodes", 0, 0, type_place=3)
    c("nodes", 1, None, type_place=3)
    c("nodes", 2, None, spare=999)
    c("nodes", 2, None, value=-1)
    c("expressions", 0, None, place=2)
    c("expressions", 0, 0, place=3)
    c("expressions", 1, 1, place=3)


# ---------------------------------------------------------------- order of the faults

def order():
    bad_rows = {
        "types": dict(types=[T(9)] * 3),
        "roots": dict(roots=[9, 1]),
        "leaves": dict(leaves=[(9, 0, 1), (1, 1, 2)]),
        "parts": dict(parts=[(0, 9), (1, 1), (2, 1)]),
        "elements": dict(elements=[(9, 0, 0)]),
        "nodes": dict(nodes=[N(11)] * 2),
        "expressions": dict(expressions=[9, 0]),
    }
    # From one section on, all first records are bad; the earliest section is told.
    tables = [s.name for s in SECTIONS[1:]]
    for i, name in enumerate(tables):
        changes = {}
        for later in tables[i:]:
            changes.update(bad_rows[later])
        case(f"order: bad records from {name} on", good(**changes), F(3, name))

    # From one section on, all extents are bad; the earliest is told. The same for
    # two sections far apart, and for a bad extent beside bad records.
    every = [s.name for s in SECTIONS]
    everything_bad = {k: v for rows in bad_rows.values() for k, v in rows.items()}
    for i, name in enumerate(every):
        case(f"order: bad extents from {name} on",
             good(offsets={later: 0 for later in every[i:]}), F(1, name))
        case(f"order: bad extent of {name}, and bad records everywhere",
             good(**everything_bad, offsets={name: 2**32 - 1}), F(1, name))
    case("order: bad extent of expressions, 257 roots",
         good(counts={"roots": 257}, offsets={"roots": 50, "expressions": 49}, tail=bytes(600)),
         F(1, "expressions"))
    case("order: bad extent of names, 257 roots",
         good(counts={"roots": 257}, offsets={"roots": 50, "names": 49}, tail=bytes(600)),
         F(1, "names"))
    case("order: 257 roots, bad records everywhere",
         good(**everything_bad, counts={"roots": 257}, offsets={"roots": 50}, tail=bytes(600)),
         F(2, "roots"))
    case("order: 65 expressions, bad records everywhere",
         good(**everything_bad, counts={"expressions": 65}, offsets={"expressions": 50},
              tail=bytes(200)), F(2, "expressions"))
    case("order: 257 roots and 65 expressions",
         good(counts={"roots": 257, "expressions": 65}, offsets={"roots": 50, "expressions": 50},
              tail=bytes(600)), F(2, "roots"))
    case("order: 257 roots that do not fit are an extent's fault",
         good(counts={"roots": 257}), F(1, "roots"))
    case("order: 65 expressions that do not fit are an extent's fault",
         pack(nodes=[N()], expressions=[0] * 64, counts={"expressions": 65}), F(1, "expressions"))
    case("order: 16,385 names that do not fit are an extent's fault",
         good(counts={"names": 16385}), F(1, "names"))

    # In one section the first bad record is told, whatever is wrong with it.
    case("order: a bad name, then a bad kind",
         pack(types=[T(), T(length=1), T(0)]), F(3, "types", 1))
    case("order: a bad kind, then a bad name",
         pack(types=[T(), T(0), T(length=1)]), F(3, "types", 1))
    case("order: a bad span, then a bad name",
         pack(types=[T(), T(STRUCT, children=1, span=1), T(length=1)]), F(3, "types", 1))
    case("order: a bad child, then a bad parent",
         pack(types=[*tree(T(STRUCT), [T(0)]), *tree(T(9), INT)]), F(3, "types", 1))
    case("order: a bad parent before its bad child",
         pack(types=tree(T(LEAF), [T(0)])), F(3, "types"))
    case("order: a node's bad type place, then a bad kind",
         pack(nodes=[N(), N(GET_FIELD), N(0)]), F(3, "nodes", 1))
    case("order: a bad type that no root names", good(types=GOOD["types"] + [T(9)]),
         F(3, "types", 3))
    case("order: a bad node that no expression names", good(nodes=GOOD["nodes"] + [N(0)]),
         F(3, "nodes", 3))


# ---------------------------------------------------------------- overlapping sections

def overlaps():
    row = dict(types=[T(LEAF)])  # its bytes: 1 0 0 0 0 0 1 0 0 0 0 0
    case("overlap: names over the type records",
         pack(**row, counts={"names": 12}, offsets={"names": 50}), OPENED)
    case("overlap: roots over the type record, all name type 0 or 1",
         pack(**row, counts={"roots": 6}, offsets={"roots": 50}), F(3, "roots"))
    case("overlap: roots over the type record's middle",
         pack(**row, counts={"roots": 2}, offsets={"roots": 52}), OPENED)
    case("overlap: expressions and roots over the same bytes",
         pack(types=[T()], nodes=[N()], roots=[0, 0], counts={"expressions": 2},
              offsets={"expressions": 62}), OPENED)
    case("overlap: parts over the leaves",
         pack(types=[T()], roots=[0], leaves=[(0, 0, 0)] * 2, counts={"parts": 3},
              offsets={"parts": 64}), OPENED)
    case("overlap: types one byte into the section of names",
         pack(names=b"\xff" + bytes([1, 1, 9, 9, 0, 0, 1, 0, 0, 0, 13, 0]), counts={"types": 1},
              offsets={"types": 51}), OPENED)
    case("overlap: the same one byte later",
         pack(names=b"\xff" + bytes([1, 1, 9, 9, 0, 0, 1, 0, 0, 0, 13, 0]), counts={"types": 1},
              offsets={"types": 52}), F(1, "types"))
    case("overlap: nodes over types",
         pack(types=[T(LEAF), T(LEAF)], counts={"nodes": 1}, offsets={"nodes": 50}), F(3, "nodes"))
    both = bytes([1, 1, 0, 0, 1, 0, 0, 0, 0, 0, 0, 0, 1, 0, 0, 0, 0, 0, 0, 0, 0, 0, 0, 0])
    case("overlap: a node's bytes as two types: the first has span 0",
         pack(counts={"types": 2, "nodes": 1}, offsets={"types": 50, "nodes": 50}, tail=both),
         F(3, "types"))
    text = pack(names=b"a\0\1\0b", counts={"parts": 1}, offsets={"parts": 51},
                types=[T()], roots=[0], leaves=[(0, 0, 1)])
    # the part's bytes are 0 1 0 98: start 256, length 25,088
    case("overlap: a part over names, a bad name", text, F(3, "parts"))
    text = pack(names=b"a\2\0\1\0b", counts={"parts": 1}, offsets={"parts": 51},
                types=[T()], roots=[0], leaves=[(0, 0, 1)])
    case("overlap: a part over names, a good name", text, OPENED)
    leaves("overlap: a part over names, a good name", text, listed="leaves 0:00", flat="leaves -")
    mixed = pack(types=[T()], roots=[0], counts={"leaves": 2, "elements": 2},
                 offsets={"leaves": 64, "elements": 64}, tail=bytes([0, 0, 9, 9, 0, 0] * 2))
    # as leaves: root 0, no parts, twice; as elements: a top without children, then one more
    case("overlap: leaves and elements over the same bytes", mixed, F(3, "elements", 1))
    mixed = pack(types=[T()], roots=[0, 0], counts={"leaves": 1, "elements": 2},
                 offsets={"leaves": 66, "elements": 66}, tail=bytes([1, 0, 9, 9, 0, 0] + [0] * 6))
    # as leaf: root 1, no parts; as elements: a top of one child without a name
    leaves("overlap: leaves and elements over the same bytes, both good", mixed,
           listed="leaves 1:", flat="leaves 0:-")


# ---------------------------------------------------------------- requests for leaves

def leaf_requests():
    leaves("does not open: length", b"", F(1), F(1))
    leaves("does not open: form number", good(form=2), F(1), F(1))
    leaves("does not open: extent", good(offsets={"nodes": 49}), F(1, "nodes"), F(1, "nodes"))
    leaves("does not open: a part", changed("parts", 1, length=9), F(3, "parts", 1),
           F(3, "parts", 1))
    leaves("does not open: an expression", changed("expressions", 1, place=3),
           F(3, "expressions", 1), F(3, "expressions", 1))

    # A small file in both directories, a list and a map in it.
    names = Names()
    spell = lambda *words: [names.add(word) for word in words]
    paths = [(0, ["id"]), (1, ["m", "key_value", "key"]), (1, ["m", "key_value", "value"]),
             (2, ["l", "list", "element", "x"]), (2, ["l", "list", "element", "y"])]
    rows, parts = [], []
    for root, path in paths:
        rows.append((root, len(parts), len(path)))
        parts += spell(*path)
    named = lambda children, word: (children, *names.add(word))
    elements = [(3, 0, 0), named(0, "id"),
                named(1, "m"), named(2, "key_value"), named(0, "key"), named(0, "value"),
                named(1, "l"), named(1, "list"), named(2, "element"), named(0, "x"), named(0, "y")]
    data = pack(names=names.text, types=[T()], roots=[0] * 3, leaves=rows, parts=parts,
                elements=elements)
    by_hand = ("leaves 0:6964 1:6d.6b65795f76616c7565.6b6579 1:6d.6b65795f76616c7565.76616c7565"
               " 2:6c.6c697374.656c656d656e74.78 2:6c.6c697374.656c656d656e74.79")
    leaves("a map and a list", data, by_hand, by_hand)
    bytes_as_names = pack(names=bytes([0, 10, 32, 46, 255]), types=[T()], roots=[0],
                          leaves=[(0, 0, 5)], parts=[(i, 1) for i in range(5)],
                          elements=[(1, 0, 0), (1, 0, 2), (1, 2, 2), (0, 4, 1)])
    leaves("names are bytes", bytes_as_names, "leaves 0:00.0a.20.2e.ff", "leaves 0:000a.202e.ff")


def the_sample():
    """The sample sheet that the program carries."""
    data, _ = make_sample.sample()
    by_hand = ("leaves 0:6964 1:6c6567.7078.626964 1:6c6567.7078.61736b 1:6c6567.717479"
               " 2:66696c6c73.6c697374.656c656d656e74.6669726d"
               " 2:66696c6c73.6c697374.656c656d656e74.6c6f74"
               " 2:66696c6c73.6c697374.656c656d656e74.746167")
    case("the sample", data, OPENED)
    leaves("the sample", data, by_hand, by_hand)
    case("the sample, its last byte missing", data[:-1], F(1, "expressions"))


# ---------------------------------------------------------------- one byte at a time

def sweep():
    """Every byte of a small sheet one up and one down, and every shorter sheet.

    The answers are the model's. What opens is asked for its leaves, so that the
    answer shows what was read.
    """
    data = good(names=b"abcd")
    def ask(title, changed_data):
        sheet = sheets.open_sheet(changed_data)
        if isinstance(sheet, sheets.Fault):
            requests = ["open "]
        else:
            requests = ["leaves listed ", "leaves flat "]
        for word in requests:
            request = word + to_hex(changed_data)
            LINES.append((title, request, sheets.answer(request)))
    for i in range(len(data)):
        for step in (1, 255):
            ask(f"byte {i} plus {step}",
                data[:i] + bytes([(data[i] + step) % 256]) + data[i + 1:])
    for length in range(len(data)):
        ask(f"cut off at {length}", data[:length])


# ---------------------------------------------------------------- lines that are no request

def bad_requests():
    h = to_hex(pack())
    assert h == h.lower()
    no = "bad request"
    for request in [
            "", " ", "  ", "-", "hello", "bad request", "not yet", "opened", "opens " + h, "Open " + h,
            "OPEN " + h, "ope " + h, "openleaves " + h, h,
            "open", "open ", "open  ", " open " + h, "open  " + h, "open " + h + " ",
            "open " + h + "  ", "open " + h + " -", "open " + h + " " + h, "open - -",
            "open\t" + h, "open " + h + "\t",
            "open 0", "open " + h[:-1], "open " + h + "0", "open g0", "open 0g", "open " + h + "zz",
            "open 0x00", "open --", "open -00", "open 00-", "open " + h[:50] + "-" + h[50:],
            "open " + h[:50] + " " + h[50:], "open +1", "open 0A", "open A0", "open " + h + "FF",
            "open " + h + "fF", "open " + h + "Ff", "open " + h.replace("00", "0G", 1),
            "open listed " + h, "open flat " + h,
            "leaves", "leaves ", "leaves listed", "leaves listed ", "leaves flat", "leaves flat ",
            "leaves -", "leaves " + h, "leaves " + h + " listed", "leaves  listed " + h,
            "leaves listed  " + h, "leaves listed " + h + " ", "leaves listed " + h + " 0",
            "leaves flat " + h + " " + h, "leaves flat - -", " leaves flat " + h,
            "leaves Listed " + h, "leaves FLAT " + h, "leaves list " + h, "leaves flattened " + h,
            "leaves listed flat " + h, "leaves listed,flat " + h, "leaves - " + h,
            "leaves listed " + h[:-1], "leaves flat " + h[:-1], "leaves listed zz",
            "leaves flat " + h + "FF", "Leaves listed " + h, "leaf listed " + h,
            "plans listed " + h + " 0", "Plan listed " + h + " 0", " plan listed " + h + " 0",
            "filters flat " + h + " 0", "cuts", "answers", "replay " + h]:
        line(f"no request: {request[:40]}", request, no)
    line("the shortest that is a request", "open -", F(1))
    line("one byte is a request", "open 00", F(1))
    line("letters are digits", "open abcdef", F(1))
    line("empty sheet", "leaves listed -", F(1))
    line("empty sheet", "leaves flat -", F(1))

    # Requests that are still to come: whatever stands behind their first word.
    g = to_hex(good())
    for request in ["plan listed " + g + " 0", "plan flat " + g + " 0,1 2 3", "plan listed " + g + " -",
                    "filter listed " + g + " 0", "filter flat " + g + " 1 2 3",
                    "cut listed " + g + " 0 -", "cut flat " + g + " 0,1 " + "00" * 20 + " 1",
                    "answer market " + g + " 0 - 0 0 0", "answer logic " + g + " 1 - -1 7 16",
                    "plan", "filter", "cut", "answer", "plan ", "cut  -", "plan listed zz 0"]:
        line(f"later: {request[:40]}", request, "not yet")


# ----------------------------------------------------------------

def main():
    given("open")
    given("leaves")
    for group in (whole_sheets, extents, counts, names, types, roots, leaf_records, element_records,
                  node_records, expression_records, fields, order, overlaps, leaf_requests,
                  the_sample, sweep, bad_requests):
        group()
    if "--list" in sys.argv[1:]:
        for i, (title, request, answer) in enumerate(LINES, 1):
            if not title.startswith("given "):
                print(f"{i}: {request.split(' ')[0]}: {title}: {answer[:60]}")
        return
    for request in (request for _, request, _ in LINES):
        assert "\n" not in request and "\r" not in request
    with open(os.path.join(BATCH, "stdin"), "w", newline="\n") as file:
        file.writelines(request + "\n" for _, request, _ in LINES)
    with open(os.path.join(BATCH, "stdout"), "w", newline="\n") as file:
        file.writelines(answer + "\n" for _, _, answer in LINES)
    print(f"{len(LINES)} lines, {sum(len(r) + 1 for _, r, _ in LINES)} bytes of requests")


if __name__ == "__main__":
    main()
