#!/usr/bin/env python3
"""Counts the places of each point of docs/DESIGN-PASS.md in crates/*/src. `places.py` prints the counts, `places.py -v`
each place too. It finds by patterns, so it also finds places that are good as they are; the page says of each what came
of it."""
import re
import sys
from collections import defaultdict
from pathlib import Path

ROOT = Path(__file__).resolve().parent.parent / "crates"
FILES = sorted(ROOT.glob("*/src/**/*.rt"))
LINES = [
    (f.relative_to(ROOT), n, line)
    for f in FILES
    for n, line in enumerate(f.read_text().split("\n"), 1)
    if not line.lstrip().startswith("//")
]


def grep(pattern, where=r""):
    rx, wx = re.compile(pattern), re.compile(where)
    return [(f, n, l.strip()) for f, n, l in LINES if rx.search(l) and wx.search(str(f))]


# Functions and types that differed only in a type, a size or a constant when the pass began, found by reading.
TWINS = (
    r"fn copy_type\b|fn take_child\b|struct OpenElement\b|fn first_bad_(type|node)\b|fn first_(outside|too_long)\b"
    r"|fn read_(u16|u32|i64)\b|fn is_(nested|map|list)(_kind)?\b|fn push_(casts|accesses)\b|enum DirectoryKind\b"
    r"|struct Leaf(Line|Path)\b|const MAX_DEPTH\b"
)
VIEWS = r"pub fn ((type|root|leaf|part|element|node|expression)_count|(type|root|leaf|element|node|expression)_record|part)\(&self"


def repeated_clauses():
    """Clauses of `requires` that stand in three or more functions of a crate, names of parameters left out."""
    groups = defaultdict(list)
    for f, n, l in grep(r"^\s*requires "):
        clause = re.search(r"requires (?:\w+ )?\{(.*)\}", l)
        if clause:
            key = re.sub(r"\b(place|at|goal|one|other|return_type|data_type|here|there|layout\.\w+|section)\b", "_", clause.group(1))
            key = re.sub(r"\b(sheet\.now|\(sheet_of self\.(now|old)\)|self\.now\.sheet\.now)", "SHEET", key)
            key = re.sub(r"\b(6|R\.Record\.width)\b", "W", key)
            groups[(str(f).split("/")[0], key)].append((f, n, l))
    return [p for g in groups.values() if len(g) > 2 for p in g]


POINTS = {
    "1 Option, Result, errors and kinds by hand": lambda: (
        grep(r"-> Option<Fault>")
        + grep(r"\bkind (==|!=)|\.kind (==|!=)|^(pub\(crate\) )?const (LEAF|STRUCT|LIST|LARGE_LIST|FIXED_SIZE_LIST|MAP): u8|kind: u8,|there: u8|literal_kind: u8,")
        + grep(r"None => None,|Err\((e|err|error|fault|unopened)\) => (return )?Err\(|None => return (None|Err)|Err\(_\) => Err\(")
        + grep(r"^\s*return None;", r"checker")
        + grep(r"fn append<.*-> bool")
        + grep(r"section: u16")
    ),
    "2 twins": lambda: grep(TWINS) + grep(VIEWS, r"^sheet/"),
    "3 loops that count an index": lambda: grep(r"^\s*(for \w+ in .*\.\.|while |loop \{)"),
    "4 equality, copies, conversions, printing, blanks": lambda: (
        grep(r"fn of\(|fn none\(\)|-> &'static str|fn is_same_\w+\(")
        + grep(r"^\s*(let \w+ = )?\w+ \{ (\w+: 0(, )?)+ ?\}|blank = |\[LeafRow \{|\[OpenElement \{|const BLANK|const NO_NAME")
    ),
    "5 facts and parameters that travel together": repeated_clauses,
    "6 buffers with a length beside them": lambda: (
        grep(r"^\s*(pub(\(crate\))? )?(\w+): \[[^\]]+; *\w+\],")
        + grep(r"let mut \w+ = \[.*; *\w+\];")
        + grep(r"^\s*(\}; \d+\];)")
        + grep(r"fn \w+.*&mut \[\w+\], (at|count|depth|held|from): usize|^\s+(at|count|depth|held): usize,$|fn \w+.*: &\[\w+\], (held|depth|count|kept): usize")
    ),
    "7 switches on which step to run": lambda: grep(r"match (rule_of|asked\.directory|kind \{|request|command)") + grep(r"enum (Rule|DirectoryKind|Request|TreeNodeRecursion|RootReading|Pair)\b"),
}

if __name__ == "__main__":
    for title, find in POINTS.items():
        places = sorted(set(find()), key=lambda p: (str(p[0]), p[1]))
        print(f"{title}: {len(places)}")
        if "-v" in sys.argv[1:]:
            for f, n, l in places:
                print(f"    {f}:{n}: {l}")
    answers = [f for f in ROOT.glob("*/proofs/**/*.antt")]
    lines = sum(len(f.read_text().split("\n")) - 1 for f in answers)
    print(f"8 proofs: {len(answers)} files of proofs/, {lines} lines")
