"""Writes the sample sheet, crates/pogbaye/data/sample.sheet.

    python3 tools/make_sample.py          writes the file
    python3 tools/make_sample.py --show   prints what is in it, and writes nothing

The file that the sheet describes has three roots and seven leaves:

    id      integer                                                    leaf 0
    leg     Struct { px Struct { bid, ask }, qty }, all integers       leaves 1 2 3
    fills   List of element Struct { firm text, lot integer, tag text} leaves 4 5 6

Its leaves stand in the sheet twice: as paths (leaves, parts) and as a flattened
Parquet schema (elements). Both give the same list.

The expressions belong to eleven cases, in this order. The leaves are those that a
plan made from the case's expressions reads.

    case  expressions  what                                          leaves
     1    none         nothing is asked for                          none
     2    0 1          columns fills, id                             0 4 5 6
     3    2            get_field(leg, px, ask), an integer           2
     4    3            get_field(leg, qty), an integer               3
     5    4            get_field(leg, px), a Struct                  1 2 3
                       (as a filter it is kept back)
     6    5            get_field(leg), said to be an integer         1 2 3
     7    6            leg cast to Struct { qty }                    3
     8    7            fills cast to List of Struct { lot }          5
     9    8 9          fills cast to { lot }, and to { tag }         4 5 6
    10    10           fills cast to { side }, which is not there    4 5 6
    11    11           fills is null, as a filter: pushed down       4 5 6

Expression 12 is a column whose index, 3, is past the last root. A draw of it alone is
refused with fault 6; the column of index 2, expression 0, is drawn.
"""

import os
import sys

import sheets
from sheets import NodeRecord, TypeRecord, Names, pack, tree
from sheets import (INTEGER, TEXT, LEAF, STRUCT, LIST, COLUMN, LITERAL, TEXT_LITERAL, GET_FIELD,
                    CAST, IS_NULL)

HERE = os.path.dirname(os.path.abspath(__file__))
TARGET = os.path.join(HERE, "..", "crates", "pogbaye", "data", "sample.sheet")

NAMES = Names()


def at(name):
    start, length = NAMES.add(name)
    return dict(start=start, length=length)


# ---- types: the three roots, then the targets of the casts

def leaf(name, code, nullable=1):
    return [TypeRecord(LEAF, nullable=nullable, detail=code, **at(name))]


def struct(name, *fields, nullable=1):
    return tree(TypeRecord(STRUCT, nullable=nullable, **at(name)), *fields)


def list_of(name, item, nullable=1):
    return tree(TypeRecord(LIST, nullable=nullable, **at(name)), item)


TYPES = []


def add_type(rows):
    """Puts a type behind those that are there and gives its place."""
    TYPES.extend(rows)
    return len(TYPES) - len(rows)


ID = add_type(leaf("id", INTEGER, nullable=0))
LEG = add_type(struct("leg",
                      struct("px", leaf("bid", INTEGER), leaf("ask", INTEGER)),
                      leaf("qty", INTEGER)))
PX, BID, ASK, QTY = LEG + 1, LEG + 2, LEG + 3, LEG + 4
FILLS = add_type(list_of("fills", struct("element", leaf("firm", TEXT), leaf("lot", INTEGER),
                                         leaf("tag", TEXT))))
ROOTS = [ID, LEG, FILLS]

TO_QTY = add_type(struct("leg", leaf("qty", INTEGER)))
TO_LOT = add_type(list_of("fills", struct("element", leaf("lot", INTEGER))))
TO_TAG = add_type(list_of("fills", struct("element", leaf("tag", TEXT))))
TO_SIDE = add_type(list_of("fills", struct("element", leaf("side", TEXT))))

# ---- the leaves, as paths and as a flattened schema

PATHS = [
    (0, "id"),
    (1, "leg.px.bid"),
    (1, "leg.px.ask"),
    (1, "leg.qty"),
    (2, "fills.list.element.firm"),
    (2, "fills.list.element.lot"),
    (2, "fills.list.element.tag"),
]
LEAVES, PARTS = [], []
for _root, _path in PATHS:
    _names = _path.split(".")
    LEAVES.append((_root, len(PARTS), len(_names)))
    PARTS += [NAMES.add(name) for name in _names]

ELEMENTS = [
    (3, 0, 0),
    (0, *NAMES.add("id")),
    (2, *NAMES.add("leg")),
    (2, *NAMES.add("px")),
    (0, *NAMES.add("bid")),
    (0, *NAMES.add("ask")),
    (0, *NAMES.add("qty")),
    (1, *NAMES.add("fills")),
    (1, *NAMES.add("list")),
    (3, *NAMES.add("element")),
    (0, *NAMES.add("firm")),
    (0, *NAMES.add("lot")),
    (0, *NAMES.add("tag")),
]

# ---- nodes and expressions

NODES, EXPRESSIONS = [], []


def add_expression(rows):
    EXPRESSIONS.append(len(NODES))
    NODES.extend(rows)


def column(name, index):
    return [NodeRecord(COLUMN, index=index, **at(name))]


def text(word):
    return [NodeRecord(LITERAL, literal=TEXT_LITERAL, **at(word))]


def get_field(gives, *children):
    return tree(NodeRecord(GET_FIELD, type_place=gives), *children)


def cast(target, child):
    return tree(NodeRecord(CAST, type_place=target), child)


def leg():
    return column("leg", 1)


def fills():
    return column("fills", 2)


add_expression(fills())                                       # 0, case 2
add_expression(column("id", 0))                               # 1, case 2
add_expression(get_field(ASK, leg(), text("px"), text("ask")))  # 2, case 3
add_expression(get_field(QTY, leg(), text("qty")))            # 3, case 4
add_expression(get_field(PX, leg(), text("px")))              # 4, case 5
add_expression(get_field(ID, leg()))                          # 5, case 6
add_expression(cast(TO_QTY, leg()))                           # 6, case 7
add_expression(cast(TO_LOT, fills()))                         # 7, case 8
add_expression(cast(TO_LOT, fills()))                         # 8, case 9
add_expression(cast(TO_TAG, fills()))                         # 9, case 9
add_expression(cast(TO_SIDE, fills()))                        # 10, case 10
add_expression(tree(NodeRecord(IS_NULL), fills()))            # 11, case 11
add_expression(column("fills", 3))                            # 12, index past the roots


def sample():
    data = pack(names=NAMES.text, types=TYPES, roots=ROOTS, leaves=LEAVES, parts=PARTS,
                elements=ELEMENTS, nodes=NODES, expressions=EXPRESSIONS)
    sheet = sheets.open_sheet(data)
    assert isinstance(sheet, sheets.Sheet), sheet
    by_path = [(root, [part.encode() for part in path.split(".")]) for root, path in PATHS]
    assert sheets.listed_leaves(sheet) == by_path
    assert sheets.flat_leaves(sheet) == by_path
    return data, sheet


# ---- showing

TYPE_WORD = {1: "leaf", 2: "Struct", 3: "List", 4: "LargeList", 5: "ListView", 6: "LargeListView",
             7: "FixedSizeList", 8: "Map"}
NODE_WORD = {1: "column", 2: "literal", 3: "get_field", 4: "cast", 5: "is null", 6: "is not null",
             7: "input file name", 8: "file row index", 9: "function", 10: "operator"}


def level(records, i):
    return sheets.depth(records, i) - 1


def show(data, sheet):
    print(f"{len(data)} bytes, names {sheet.names.decode()!r}")
    print("types")
    for i, t in enumerate(sheet.types):
        what = TYPE_WORD[t.kind] + (f" {t.detail}" if t.kind == LEAF else "")
        print(f"  {i:3}  {'  ' * level(sheet.types, i)}{sheet.name(t).decode()}: {what}"
              f"{', nullable' if t.nullable else ''}, children {t.children}, span {t.span}")
    print("roots")
    for i, root in enumerate(sheet.roots):
        print(f"  {i:3}  type {root.place}, {sheet.name(sheet.types[root.place]).decode()}")
    for title, leaves in (("leaves and parts", sheets.listed_leaves(sheet)),
                          ("leaves of the elements", sheets.flat_leaves(sheet))):
        print(title)
        for i, (root, parts) in enumerate(leaves):
            print(f"  {i:3}  root {root}, {'.'.join(part.decode() for part in parts)}")
    print("elements")
    for i, (deep, e) in enumerate(zip(sheets.element_depths(sheet.elements), sheet.elements)):
        name = sheet.name(e).decode() if i else "(top)"
        print(f"  {i:3}  {'  ' * (deep - 1)}{name}, children {e.children}")
    print("nodes")
    for i, n in enumerate(sheet.nodes):
        words = [NODE_WORD[n.kind]]
        if n.kind in (COLUMN, LITERAL):
            words.append(sheet.name(n).decode())
        if n.kind == COLUMN:
            words.append(f"index {n.index}")
        if n.kind in (GET_FIELD, CAST):
            words.append(f"type {n.type_place}")
        print(f"  {i:3}  {'  ' * level(sheet.nodes, i)}{' '.join(words)}")
    print("expressions")
    for i, expression in enumerate(sheet.expressions):
        print(f"  {i:3}  node {expression.place}")


def main():
    data, sheet = sample()
    if "--show" in sys.argv[1:]:
        show(data, sheet)
        return
    with open(TARGET, "wb") as file:
        file.write(data)
    print(f"{len(data)} bytes")


if __name__ == "__main__":
    main()
