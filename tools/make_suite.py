"""Prints the sheet that the test crate `suite` holds, as a Rust byte array.

    python3 tools/make_suite.py

The file has two roots: `id`, an integer, and `leg`, a Struct of `bid` and `ask`. Both leaf directories are there; in the
flattened schema the second root is named `legs`, so that the two can be told apart. One expression is the column `id`.
"""

import sheets
from sheets import INTEGER, LEAF, STRUCT, Names, NodeRecord, TypeRecord, pack, tree


def sheet():
    names = Names()

    def leaf(name):
        start, length = names.add(name)
        return tree(TypeRecord(LEAF, 0, INTEGER, 0, 1, start, length))

    leg = names.add("leg")
    types = leaf("id") + tree(TypeRecord(STRUCT, 1, 7, 0, 1, *leg), leaf("bid"), leaf("ask"))
    parts = [names.add(n) for n in ("id", "leg", "bid", "leg", "ask")]
    elements = [(2, 0, 0), (0, *names.add("id")), (2, *names.add("legs")), (0, *names.add("bid")), (0, *names.add("ask"))]
    nodes = tree(NodeRecord(1, 0, 0, 1, *names.add("id"), 0, 0, 0, -2))
    return pack(names.text, types, [0, 1], [(0, 0, 1), (1, 1, 2), (1, 3, 2)], parts, elements, nodes, [0])


def main():
    data = sheet()
    opened = sheets.open_sheet(data)
    assert not isinstance(opened, sheets.Fault), opened
    rows = ["".join("\\x%02x" % b for b in data[i:i + 24]) for i in range(0, len(data), 24)]
    print('const LEG: &[u8; %d] = b"\\\n    %s";' % (len(data), "\\\n    ".join(rows)))


if __name__ == "__main__":
    main()
