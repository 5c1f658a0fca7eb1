"""Makes crates/sheet_cases/stdin and crates/sheet_cases/stdout, always the same bytes: the input of the program
`sheet_cases` and what it must write.

    python3 reference/make_cases.py

A case may carry the answer that it must have by docs/FORMAT.md (`must`); then it is an error where the reference says
something else. It may carry supports found by reasoning (`given`), where going over all subsets would take too long.
"""

import collections
import itertools
import pathlib
import sys

sys.dont_write_bytecode = True

import reference
import sheets
from sheets import Dice, file_of

ROOT = pathlib.Path(__file__).resolve().parent.parent
CASES_FILE = ROOT / "crates" / "sheet_cases" / "stdin"
ANSWERS_FILE = ROOT / "crates" / "sheet_cases" / "stdout"

CASES = []
NAMES = set()


def add(name, data, must=None, given=None):
    """Keeps a case: `data` is bytes or a list of lines; `must` is a refusal, the lines of the print,
    or its bytes."""
    if not isinstance(data, bytes):
        data = file_of(data)
    assert name not in NAMES and all(c in "abcdefghijklmnopqrstuvwxyz0123456789_" for c in name), name
    NAMES.add(name)
    got = reference.answer(data, given)
    if must is not None:
        wanted = must if isinstance(must, bytes) else file_of([must] if isinstance(must, str) else must)
        assert got == wanted, (name, data[:300], got[:300], wanted[:300])
    CASES.append((name, data, got))


LINKS = ["K,chain,3", "G,links,3"]
EL = ["K,chain,3", "G,el,4,2"]
RIBBONS = ["K,sets,3", "G,el,7,1", "S,7,1,2", "E,3,1,0,3", "S,7,3,4", "R,2,0,4,5", "C,6,2,5,6", "S,5,2,5", "U,2", "U,1",
           "Q,1,6", "Q,6,1"]


# ----------------------------------------------------------------------------------------------- the sheets of examples/


def example_cases():
    """Each with the print that stands beside it, which the reference must give too."""
    for sheet in sorted((ROOT / "examples").glob("*.sheet")):
        add("example_" + sheet.stem, sheet.read_bytes(), sheet.with_suffix(".print").read_bytes())


# ------------------------------------------------------------------------------------- the small files of docs/FORMAT.md

DOCUMENT = [
    ("K,chain,3", "F,2,text,2"),
    ("k,chain,3", "F,1,text,1"),
    ("K,ring,3", "F,1,text,1"),
    ("K,house,3", "F,1,text,1"),
    ("G,links,3", "F,1,text,2"),
    ("K,chain,07", "F,1,text,3"),
    ("K,chain,", "F,1,text,3"),
    ("K,chain,+3", "F,1,text,3"),
    ("K,chain,4294967296", "F,1,text,3"),
    ("K,chain,3 O,0,1", "F,2,text,2"),
    ("K,chain,3 K,chain,x", "F,2,text,2"),
    ("K,chain,3 K,ring,3", "F,2,text,1"),
    ("K,table,2", "F,1,kind,6"),
    ("K,table,2 G,links,1", "F,1,kind,6"),
    ("K,table,2 X", "F,1,kind,6"),
    ("K,table,2 O,0", "F,2,text,1"),
    ("K,table,2 O,0,2", "F,2,kind,8"),
    ("K,table,2 O,0,0 G,links,1", "F,2,kind,6"),
    ("K,table,2 O,0,1", "F,3,text,2"),
    ("K,table,2 O,0,1 O,1,0", "F,3,kind,5"),
    ("K,table,3 O,0,1 O,0,2 G,links,1", "F,3,kind,6"),
    ("K,house G,el,3", "F,2,text,1"),
    ("K,chain,3 G,links,3 G,links,3", "F,3,text,2"),
    ("K,chain,3 G,links,3 T,0,0,65536", "F,3,logic,9"),
    ("K,chain,3 G,links,3 T,0,0,3", "F,3,logic,9"),
    ("K,chain,3 G,links,3 T,3,0,3", "F,3,logic,9"),
    ("K,chain,3 G,links,3 T,3,0,1", "F,3,kind,8"),
    ("K,chain,3 G,links,3 S,0,0,1", "F,3,logic,9"),
    ("K,chain,3 G,el,3,1 T,0,0,1", "F,3,logic,9"),
    ("K,chain,3 G,el,3,0 E,0,1,0,2", "F,3,logic,9"),
    ("K,chain,3 G,links,3 T,0,0", "F,3,text,1"),
    ("K,chain,3 G,links,3 U,3", "F,3,kind,8"),
    ("K,sets,2 G,links,3 U,3", "F,3,kind,17"),
    ("K,house G,links,3 U,5", "F,3,kind,17"),
    ("K,chain,3 G,links,3 U,0 T,0,0,1", "F,4,text,2"),
    ("K,chain,3 G,links,3 Q,0,1 U,0", "F,4,text,2"),
    ("K,chain,3 G,links,3 Q,0,3", "F,3,logic,13"),
    ("K,chain,3 G,links,3 Q,0,65536", "F,3,logic,13"),
    ("K,chain,3 G,links,3 Q,0,4294967296", "F,3,text,3"),
    ("K,house G,links,1", []),
    ("K,table,1 G,links,1 Q,0,0", ["B,0,0,0", "M,0,0"]),
    ("K,sets,32 G,links,2 U,0 Q,0,0", ["B,0,0,4294967295", "M,0,0", "V,0,0,0,yes"]),
    ("K,chain,3 G,links,2 T,1,0,1 U,2 U,2 Q,0,1", ["B,0,1,1", "M,0,1,1", "V,2,0,1,no", "V,2,0,1,no"]),
]


def document_cases():
    add("document_empty_file", b"", "F,1,text,2")
    add("document_empty_line", b"\n", "F,1,text,1")
    add("document_no_line_end", b"K,chain,3", "F,1,text,1")
    for i, (lines, must) in enumerate(DOCUMENT):
        add("document_%02d" % i, lines.split(" "), must)
    head = ["K,chain,1", "G,links,2"]
    add("document_axioms_65", head + ["T,0,0,1"] * 65, "F,67,sheet,10")
    add("document_axioms_65_beyond", head + ["T,0,0,1"] * 64 + ["T,0,0,65536"], "F,67,sheet,10")
    add("document_users_17", head + ["U,0"] * 17, "F,19,text,2")
    goals = ["Q,%d,%d" % (k // 9, k % 9) for k in range(65)]
    add("document_goals_65", ["K,chain,1", "G,links,9"] + goals, "F,67,sheet,16")
    add("document_ribbons", RIBBONS, [
        "B,1,6,6", "M,1,6,1,2,3,4,5", "M,1,6,1,5,6", "V,2,1,6,yes", "V,1,1,6,no",
        "B,6,1,none", "V,2,6,1,no", "V,1,6,1,no"])


# ---------------------------------------------------------------------------------------------------------- valid sheets


def random_valid_cases():
    """Sheets of each kind and each logic; of 40 seeds for each, those are kept that print the most supports."""
    for kind, logic in itertools.product(["chain", "sets", "house", "table"], ["el", "links"]):
        found = []
        for seed in range(40):
            data = file_of(sheets.random_sheet(Dice(1000 * seed + len(kind) * 7 + len(logic)), kind, logic))
            print_lines = reference.answer(data).split(b"\n")
            supports = sum(line.startswith(b"M") for line in print_lines)
            long_supports = sum(line.startswith(b"M") and line.count(b",") > 4 for line in print_lines)
            answers = {line.split(b",")[-1] for line in print_lines if line.startswith(b"V")}
            found.append((-(supports + 2 * long_supports) * len(answers), seed, data))
        for i, (_, _, data) in enumerate(sorted(found)[:5]):
            add("valid_%s_%s_%d" % (kind, logic, i), data)


def shape_cases():
    add("shape_several_supports_links", ["K,sets,3", "G,links,5", "T,1,0,1", "T,3,1,4", "T,2,0,2", "T,6,2,4", "T,4,0,3",
        "T,4,3,4", "T,7,1,2", "T,5,2,3", "U,0", "U,1", "U,2", "U,4", "Q,0,4", "Q,4,0", "Q,0,3"])
    add("shape_several_supports_el", ["K,house", "G,el,7,2", "S,7,1,2", "S,11,1,3", "C,9,2,3,4", "E,10,1,0,5", "R,11,0,5,4",
        "S,3,5,6", "R,6,0,6,4", "E,8,2,1,5", "R,8,1,6,4", "U,0", "U,1", "U,2", "U,4", "U,8", "Q,1,4", "Q,1,6", "Q,2,4"])
    add("shape_empty_support_el", ["K,sets,4", "G,el,3,0", "S,3,1,1", "S,2,1,0", "S,1,0,2", "U,0", "U,8", "Q,1,1", "Q,1,0",
        "Q,0,0", "Q,1,2", "Q,0,2"])
    add("shape_empty_support_links", ["K,chain,5", "G,links,3", "T,0,1,1", "T,3,1,0", "T,2,0,1", "U,4", "Q,1,1", "Q,0,0",
        "Q,1,0", "Q,0,2"])
    add("shape_zero_is_a_point_like_others", ["K,chain,2", "G,links,3", "T,1,1,2", "U,1", "Q,1,0", "Q,2,0"],
        ["B,1,0,none", "V,1,1,0,no", "B,2,0,none", "V,1,2,0,no"])
    add("shape_same_goal_again", ["K,chain,4", "G,links,3", "T,2,0,1", "U,2", "Q,0,1", "Q,1,0", "Q,0,1", "Q,0,1"])
    add("shape_same_user_again", ["K,house", "G,links,2", "T,6,0,1", "U,2", "U,1", "U,2", "Q,0,1"])
    add("shape_same_axiom_again", ["K,chain,4", "G,el,3,0", "S,2,1,2", "S,3,1,2", "S,2,1,2", "U,3", "Q,1,2"])
    add("shape_no_goal", ["K,chain,4", "G,el,3,0", "S,2,1,2", "U,3"], [])
    add("shape_no_user", ["K,chain,4", "G,el,3,0", "S,2,1,2", "Q,1,2", "Q,2,1"], ["B,1,2,2", "M,1,2,1", "B,2,1,none"])
    add("shape_no_axiom", ["K,sets,2", "G,el,3,1", "U,1", "Q,1,2", "Q,2,2", "Q,2,0"])
    add("shape_only_kind_and_logic_el", ["K,sets,0", "G,el,1,0"], [])
    add("shape_only_kind_and_logic_table", ["K,table,1", "G,el,1,0"], [])
    add("shape_axioms_only", ["K,chain,1", "G,links,2", "T,0,0,1"], [])
    add("shape_users_only", ["K,chain,1", "G,links,2", "U,0"], [])
    add("shape_everything_lies_in_b", ["K,chain,3", "G,el,4,1", "S,1,0,2", "S,2,2,3", "E,2,0,0,1", "R,1,0,2,1", "U,1", "U,2",
        "Q,1,3", "Q,0,3", "Q,0,1", "Q,3,1"])
    add("shape_partner_row_matters", ["K,sets,2", "G,el,6,2", "E,3,1,0,2", "E,1,2,1,3", "S,2,3,4", "R,3,1,4,5", "R,3,0,5,1",
        "R,1,0,5,4", "U,1", "U,2", "Q,1,4", "Q,2,5", "Q,1,5"])
    add("shape_role_must_match", ["K,chain,2", "G,el,4,2", "E,1,1,0,2", "R,1,1,2,3", "U,1", "Q,1,3"],
        ["B,1,3,none", "V,1,1,3,no"])
    add("shape_partner_is_in_everything", ["K,chain,2", "G,el,4,1", "E,1,1,0,2", "R,1,0,0,3", "U,1", "Q,1,3"],
        ["B,1,3,1", "M,1,3,1,2", "V,1,1,3,yes"])
    add("shape_cycle_links", ["K,chain,9", "G,links,4", "T,8,0,1", "T,7,1,2", "T,6,2,3", "T,5,3,0", "T,1,0,0", "U,6", "Q,0,3",
        "Q,3,2", "Q,2,2"])
    add("shape_cycle_el", ["K,chain,9", "G,el,4,1", "E,8,1,0,1", "R,7,0,2,3", "S,6,1,2", "S,5,3,1", "U,6", "Q,1,3", "Q,3,2"])
    # The order of supports: {1,4} before {1,5}, {2,3} before {3,4}; a support of many axioms may come before one of few.
    add("shape_order_of_supports", ["K,chain,1", "G,links,6", "T,0,0,1", "T,0,1,2", "T,0,2,5", "T,0,0,2", "T,0,1,5", "T,0,0,5",
        "T,0,0,3", "T,0,3,5", "Q,0,5"],
        ["B,0,5,0", "M,0,5,1,2,3", "M,0,5,1,5", "M,0,5,3,4", "M,0,5,6", "M,0,5,7,8"])
    add("shape_long_before_short", ["K,chain,2", "G,links,4", "T,0,0,1", "T,1,0,3", "T,1,1,2", "T,1,2,3", "U,1", "Q,0,3"],
        ["B,0,3,1", "M,0,3,1,3,4", "M,0,3,2", "V,1,0,3,yes"])
    # Twelve axioms, all of which matter.
    add("shape_twelve_links", ["K,sets,5", "G,links,7"] + ["T,%d,%d,%d" % (7 * k % 32, a, b) for k, (a, b) in enumerate(
        [(0, 1), (0, 2), (1, 3), (2, 3), (1, 2), (3, 4), (3, 5), (4, 6), (5, 6), (4, 5), (2, 4), (0, 3)])]
        + ["U,0", "U,1", "U,4", "U,16", "Q,0,6", "Q,1,6", "Q,6,0"])
    add("shape_twelve_el", ["K,house", "G,el,8,1", "S,11,1,2", "S,10,1,3", "C,7,2,3,4", "E,9,1,0,5", "S,6,5,6", "R,5,0,6,4",
        "R,3,0,5,3", "S,11,4,7", "C,11,2,4,7", "S,8,3,2", "E,11,2,0,6", "S,4,2,7", "U,0", "U,1", "U,2", "U,4", "U,8",
        "Q,1,7", "Q,1,4", "Q,7,1"])


def table_cases():
    shapes = {
        "diamond": (4, [(0, 1), (0, 2), (1, 3), (2, 3)]),
        "pentagon": (5, [(0, 1), (1, 2), (2, 4), (0, 3), (3, 4)]),
        "three_between": (5, [(0, 1), (0, 2), (0, 3), (1, 4), (2, 4), (3, 4)]),
        "upside_down": (6, [(5, 4), (5, 3), (4, 2), (3, 2), (2, 1), (1, 0)]),
        "cube": (8, [(a, a | bit) for a in range(8) for bit in (1, 2, 4) if not a & bit]),
    }
    for name, (size, pairs) in shapes.items():
        kind = reference.table(size, pairs)
        head = ["K,table,%d" % size] + ["O,%d,%d" % pair for pair in pairs]
        axioms = ["T,%d,0,%d" % (label, 1 + label) for label in range(size)]
        axioms += ["T,%d,%d,%d" % (size - 1 - label, 1 + label, size + 1) for label in range(size)]
        users = ["U,%d" % u for u in range(size) if kind.admits(u)]
        add("table_" + name, head + ["G,links,%d" % (size + 2)] + axioms + users + ["Q,0,%d" % (size + 1), "Q,0,1", "Q,1,0"])
        for u in range(size):
            if not kind.admits(u) and u in (2, 3, size - 1):
                add("table_%s_user_%d" % (name, u), head + ["G,links,1", "U,%d" % u],
                    "F,%d,kind,17" % (len(head) + 2))
    add("table_two_steps_yield_the_third", ["K,table,3", "O,0,1", "O,1,2", "O,0,2", "O,1,1", "O,0,1", "G,links,2", "T,0,0,1",
        "U,0", "U,1", "U,2", "Q,0,1"])
    add("table_chain_backwards", ["K,table,4", "O,1,0", "O,2,1", "O,3,2", "G,links,2", "T,2,0,1", "U,0", "U,3", "Q,0,1", "Q,1,1"],
        ["B,0,1,2", "M,0,1,1", "V,0,0,1,no", "V,3,0,1,yes", "B,1,1,0", "M,1,1", "V,0,1,1,yes", "V,3,1,1,yes"])
    add("table_long_loop", ["K,table,5", "O,0,1", "O,1,2", "O,2,3", "O,3,4", "O,4,1"], "F,6,kind,5")
    add("table_loop_through_closure", ["K,table,4", "O,2,3", "O,0,1", "O,1,2", "O,3,0", "O,9,9"], "F,5,kind,5")
    add("table_two_least_above", ["K,table,4", "O,0,2", "O,0,3", "O,1,2", "O,1,3", "G,links,1"], "F,5,kind,6")
    add("table_two_least_above_with_ends", ["K,table,6", "O,0,2", "O,0,3", "O,1,2", "O,1,3", "O,4,0", "O,4,1", "O,2,5", "O,3,5",
        "G,links,1"], "F,9,kind,6")
    add("table_no_top", ["K,table,3", "O,0,1", "O,0,2", "G,links,1"], "F,3,kind,6")
    add("table_no_bottom", ["K,table,3", "O,1,0", "O,2,0", "G,links,1"], "F,3,kind,6")
    add("table_alone_label", ["K,table,5", "O,0,1", "O,0,2", "O,1,3", "O,2,3", "G,links,1"], "F,5,kind,6")


# --------------------------------------------------------------------------------------------------------------- limits


def kind_limit_cases():
    for size in (1, 65_536):
        add("limit_chain_%d" % size, ["K,chain,%d" % size, "G,links,2", "T,%d,0,1" % (size - 1), "T,%d,1,0" % (size // 2),
            "U,%d" % (size - 1), "U,0", "Q,0,1", "Q,1,0", "Q,1,1"])
        add("limit_chain_%d_no_label" % size, ["K,chain,%d" % size, "G,links,2", "T,%d,0,1" % size], "F,3,kind,8")
        add("limit_chain_%d_no_user" % size, ["K,chain,%d" % size, "G,links,2", "U,%d" % size], "F,3,kind,8")
    for size in (0, 65_537, 4_294_967_295):
        add("limit_chain_%d" % size, ["K,chain,%d" % size, "G,links,2"], "F,1,kind,4")
    for regions in (0, 31, 32):
        top = 2 ** regions - 1
        add("limit_sets_%d" % regions, ["K,sets,%d" % regions, "G,links,3", "T,%d,0,1" % top, "T,%d,1,2" % (top // 2),
            "T,%d,0,2" % (top - top // 2), "U,0", "U,%d" % ((top + 1) // 2), "Q,0,1", "Q,0,2", "Q,1,1", "Q,2,0"])
        if regions < 32:
            add("limit_sets_%d_no_label" % regions, ["K,sets,%d" % regions, "G,links,3", "T,%d,0,1" % (top + 1)], "F,3,kind,8")
            add("limit_sets_%d_no_user" % regions, ["K,sets,%d" % regions, "G,links,3", "U,%d" % (top + 1)], "F,3,kind,8")
    add("limit_sets_32_all_regions_no_user", ["K,sets,32", "G,links,3", "U,4294967295"], "F,3,kind,17")
    for regions in (33, 65_536, 4_294_967_295):
        add("limit_sets_%d" % regions, ["K,sets,%d" % regions, "G,links,2"], "F,1,kind,4")
    add("limit_table_1", ["K,table,1", "G,links,2", "T,0,0,1", "U,0", "Q,0,1", "Q,1,0"])
    add("limit_table_1_pair", ["K,table,1", "O,0,0", "G,links,2", "U,0", "Q,0,0"])
    add("limit_table_1_no_label", ["K,table,1", "O,0,1"], "F,2,kind,8")
    add("limit_table_0", ["K,table,0", "O,0,0"], "F,1,kind,4")
    add("limit_table_33", ["K,table,33", "O,0,0"], "F,1,kind,4")
    add("limit_table_32_chain", ["K,table,32"] + ["O,%d,%d" % (k, (k + 5) % 32) for k in Dice(5).shuffled(range(32)) if k != 9]
        + ["G,links,3", "T,31,0,1", "T,9,1,2", "T,14,0,2", "U,9", "U,14", "U,31", "Q,0,1", "Q,0,2"])
    add("limit_table_32_sets", ["K,table,32"] + ["O,%d,%d" % (a, a | 1 << k) for a in range(32) for k in range(5) if not a >> k & 1]
        + ["G,links,3", "T,31,0,1", "T,12,1,2", "T,19,0,2", "U,0", "U,1", "U,4", "U,16", "Q,0,1", "Q,0,2"])
    add("limit_table_32_sets_user", ["K,table,32"] + ["O,%d,%d" % (a, a | 1 << k) for a in range(32) for k in range(5) if not a >> k & 1]
        + ["G,links,3", "U,1", "U,5"], "F,84,kind,17")
    add("limit_table_32_label", ["K,table,32", "O,31,0", "O,0,32"], "F,3,kind,8")
    for label in (0, 3, 5, 7, 8, 9, 11, 12):
        must = [] if label in (0, 8) else "F,3,kind,8" if label == 12 else "F,3,kind,17"
        add("limit_house_user_%d" % label, ["K,house", "G,links,2", "U,%d" % label], must)
    add("limit_house_label_11", ["K,house", "G,links,2", "T,11,0,1", "U,8", "Q,0,1"])
    add("limit_house_label_12", ["K,house", "G,links,2", "T,12,0,1", "U,8", "Q,0,1"], "F,3,kind,8")


def logic_limit_cases():
    add("limit_el_1", ["K,chain,2", "G,el,1,0", "S,0,0,0", "C,0,0,0,0", "U,1", "Q,0,0"], ["B,0,0,1", "M,0,0", "V,1,0,0,yes"])
    add("limit_el_1_32", ["K,chain,2", "G,el,1,32", "E,0,0,31,0", "R,0,31,0,0", "Q,0,0"], ["B,0,0,1", "M,0,0"])
    add("limit_el_128_32", ["K,chain,2", "G,el,128,32", "S,1,126,127", "C,1,127,0,125", "E,1,125,31,127", "R,0,31,125,1",
        "U,1", "U,0", "Q,126,1", "Q,127,1", "Q,1,127"])
    for concepts, roles in ((0, 0), (0, 33), (129, 0), (129, 33), (128, 33), (65_536, 1), (1, 4_294_967_295), (4_294_967_295, 0)):
        add("limit_el_%d_%d" % (concepts, roles), ["K,chain,2", "G,el,%d,%d" % (concepts, roles)], "F,2,logic,7")
    for points in (0, 129, 65_537, 4_294_967_295):
        add("limit_links_%d" % points, ["K,chain,2", "G,links,%d" % points], "F,2,logic,7")
    add("limit_links_1", ["K,chain,2", "G,links,1", "T,0,0,0", "U,1", "Q,0,0"], ["B,0,0,1", "M,0,0", "V,1,0,0,yes"])
    add("limit_links_128", ["K,chain,2", "G,links,128", "T,1,126,127", "T,0,127,0", "U,1", "Q,126,127", "Q,126,0", "Q,0,127"])
    records = {"S": (2, 2), "C": (2, 2, 2), "E": (2, 1, 2), "R": (1, 2, 2), "T": (2, 2)}
    for letter, largest in records.items():
        head = ["K,chain,3", "G,links,3"] if letter == "T" else ["K,chain,3", "G,el,3,2"]
        add("limit_record_%s_inside" % letter.lower(), head + [",".join([letter, "2", *map(str, largest)]), "Q,0,2"])
        for place in range(len(largest)):
            for beyond in (largest[place] + 1, 65_535, 65_536) if letter == "T" else (largest[place] + 1, 65_535 + place % 2):
                numbers = list(largest)
                numbers[place] = beyond
                add("limit_record_%s_%d_%d" % (letter.lower(), place, beyond), head + [",".join([letter, "2", *map(str, numbers)])],
                    "F,3,logic,9")
    for a, b in ((3, 0), (0, 3), (65_535, 0), (0, 65_536), (65_536, 65_536), (4_294_967_295, 0), (0, 4_294_967_295)):
        add("limit_goal_links_%d_%d" % (a, b), LINKS + ["Q,%d,%d" % (a, b)], "F,3,logic,13")
    for a, b in ((4, 0), (0, 4), (4, 4), (65_536, 0), (65_536, 65_536)):
        add("limit_goal_el_%d_%d" % (a, b), EL + ["Q,%d,%d" % (a, b)], "F,3,logic,13")


def count_limit_cases():
    star = ["T,0,0,%d" % k for k in range(1, 65)]
    add("limit_axioms_64_links", ["K,chain,1", "G,links,128"] + star + ["Q,0,64", "Q,0,1", "Q,0,65"])
    add("limit_axioms_65_links", ["K,chain,1", "G,links,128"] + star + ["T,0,0,1"], "F,67,sheet,10")
    el = ["S,1,1,2", "E,1,2,0,3", "R,0,0,3,4", "C,1,2,4,5"] + ["S,%d,6,7" % (k % 2) for k in range(60)]
    add("limit_axioms_64_el", ["K,chain,2", "G,el,9,1"] + el + ["U,1", "Q,1,5", "Q,1,4", "Q,5,6"])
    add("limit_axioms_65_el", ["K,chain,2", "G,el,9,1"] + el + ["R,0,0,3,4"], "F,67,sheet,10")
    users = ["U,%d" % (k % 3) for k in range(16)]
    add("limit_users_16", LINKS + ["T,1,0,1"] + users + ["Q,0,1"])
    add("limit_users_17", LINKS + ["T,1,0,1"] + users + ["U,0", "Q,0,1"], "F,20,text,2")
    goals = ["Q,%d,%d" % (a, b) for a in range(8) for b in range(8)]
    head = ["K,chain,1", "G,links,9", "T,0,0,1"]
    add("limit_goals_64", head + goals)
    add("limit_goals_64_and_again", head + goals + ["Q,0,0", "Q,7,7", "Q,0,1"])
    add("limit_goals_65", head + goals + ["Q,0,0", "Q,8,0"], "F,69,sheet,16")
    add("limit_goals_65_first_again", head + ["Q,0,1"] * 9 + goals + ["Q,8,8"], "F,77,sheet,16")
    add("limit_goals_65_el", ["K,chain,1", "G,el,9,0"] + goals + ["Q,8,8"], "F,67,sheet,16")


# -------------------------------------------------------------------------------------------------------- text, each form

FORMS = [
    # a good line, and good lines before it
    ("K,chain,3", []),
    ("K,sets,3", []),
    ("K,table,1", []),
    ("O,0,1", ["K,table,2"]),
    ("G,el,4,2", ["K,chain,3"]),
    ("G,links,3", ["K,chain,3"]),
    ("S,2,1,2", EL),
    ("C,2,1,2,3", EL),
    ("E,2,1,0,3", EL),
    ("R,2,0,2,3", EL),
    ("T,2,0,1", LINKS),
    ("U,2", LINKS),
    ("Q,0,1", LINKS),
]


def form_cases():
    """Each form with a field too few and one too many, and each number of each form in some bad spelling."""
    bad = ["", "01", "00", "x", "-1", "+1", " 1", "1 ", "4294967296", "1\r", "1.0", "0x1", "99999999999999999999", "1\x00", "\xb2"]
    turn = 0
    for i, (line, before) in enumerate(FORMS):
        name = "form_%02d_%s" % (i, line[0].lower())
        at = len(before) + 1
        fields = line.split(",")
        add(name + "_too_few", before + [",".join(fields[:-1])], "F,%d,text,1" % at)
        add(name + "_too_many", before + [line + ",0"], "F,%d,text,1" % at)
        for place, field in enumerate(fields):
            if field.isdigit():
                spelled = list(fields)
                spelled[place] = bad[turn % len(bad)]
                add(name + "_bad_%d" % place, before + [",".join(spelled)], "F,%d,text,3" % at)
                turn += 1
    for i, line in enumerate(["K", "K,", ",", "K,house,", "K,House", "KK,house", " K,house", "K, house", "K,house\r", "\r",
                              "B,0,0,0", "K,el,3,1"]):
        add("form_first_%02d" % i, [line], "F,1,text,1")
    for i, line in enumerate(["G", "G,", "G,chain,3", "G,links,3,1", "G,EL,3,1", "G,links\r,3", ""]):
        add("form_second_%02d" % i, ["K,house", line], "F,2,text,1")
    for i, line in enumerate(["", "V,0", "t,0,0,1", "T", "T,0,0,1,", "TT,0,0,1", "U", "Q", "\r"]):
        add("form_third_%02d" % i, LINKS + [line], "F,3,text,1")
    add("form_largest_number_chain", ["K,chain,4294967295"], "F,1,kind,4")
    add("form_largest_number_label", LINKS + ["T,4294967295,0,1"], "F,3,kind,8")
    add("form_largest_number_record", LINKS + ["T,0,4294967295,1"], "F,3,logic,9")
    add("form_largest_number_user", LINKS + ["U,4294967295"], "F,3,kind,8")
    add("form_largest_number_pair", ["K,table,2", "O,4294967295,1"], "F,2,kind,8")
    add("form_largest_number_user_of_sets", ["K,sets,32", "G,links,1", "U,2147483648"], [])


# ------------------------------------------------------------------------------------------------------- order of checks


def order_cases():
    axioms = ["T,0,0,1"] * 64
    full = ["K,chain,1", "G,links,2"] + axioms
    full_el = ["K,chain,1", "G,el,2,1"] + ["S,0,0,1"] * 64
    users = ["U,0"] * 16
    no_meet = ["K,table,3", "O,0,1", "O,0,2"]
    rows = ["K,chain,1", "G,links,9"] + ["Q,%d,%d" % (a, b) for a in range(8) for b in range(8)]
    ordered = [
        # 1 before 2, 3 and all others
        ("1_before_2_second_k", LINKS[:1] + ["K,chain"], "F,2,text,1"),
        ("1_before_2_second_g", LINKS + ["G,links"], "F,3,text,1"),
        ("1_before_2_o_under_chain", ["K,chain,3", "O,0"], "F,2,text,1"),
        ("1_before_2_axiom_first", ["S,0,1"], "F,1,text,1"),
        ("1_before_2_user_after_goal", LINKS + ["Q,0,1", "U,0,0"], "F,4,text,1"),
        ("1_before_2_user_17", LINKS + users + ["U,0,0"], "F,19,text,1"),
        ("1_before_3_chain", ["K,chain,x,1"], "F,1,text,1"),
        ("1_before_3_axiom", LINKS + ["T,x,0"], "F,3,text,1"),
        ("1_before_10", full + ["T,0,0"], "F,67,text,1"),
        ("1_before_16", rows + ["Q,8"], "F,67,text,1"),
        ("1_before_7", ["K,house", "G,el,0"], "F,2,text,1"),
        ("1_before_4", ["K,table,0,0"], "F,1,text,1"),
        # 2 before 3 and all others
        ("2_before_3_second_k", LINKS + ["K,sets,x"], "F,3,text,2"),
        ("2_before_3_second_g", LINKS + ["G,el,x,y"], "F,3,text,2"),
        ("2_before_3_axiom_first", ["T,x,y,z"], "F,1,text,2"),
        ("2_before_3_axiom_before_g", ["K,chain,3", "S,00,1,2"], "F,2,text,2"),
        ("2_before_3_o_first", ["O,x,1"], "F,1,text,2"),
        ("2_before_3_o_under_house", ["K,house", "O,x,1"], "F,2,text,2"),
        ("2_before_3_o_after_g", ["K,table,1", "G,links,1", "O,x,1"], "F,3,text,2"),
        ("2_before_3_user_17", LINKS + users + ["U,x"], "F,19,text,2"),
        ("2_before_3_axiom_after_goal", LINKS + ["Q,0,1", "T,x,0,1"], "F,4,text,2"),
        ("2_before_3_goal_before_g", ["K,house", "Q,,"], "F,2,text,2"),
        ("2_before_4", ["K,chain,3", "K,chain,0"], "F,2,text,2"),
        ("2_before_4_second_house", ["K,house", "K,house"], "F,2,text,2"),
        ("2_before_7", LINKS + ["G,links,0"], "F,3,text,2"),
        ("2_before_8_o_after_g", ["K,table,1", "G,links,1", "O,5,5"], "F,3,text,2"),
        ("2_before_5_o_after_axiom", ["K,table,2", "O,0,1", "G,links,1", "T,0,0,0", "O,1,0"], "F,5,text,2"),
        ("2_before_8_user_17", LINKS + users + ["U,9"], "F,19,text,2"),
        ("2_before_17_user_17", ["K,house", "G,links,1"] + users + ["U,5"], "F,19,text,2"),
        ("2_before_9_axiom_after_user", LINKS + ["U,0", "T,0,0,9"], "F,4,text,2"),
        ("2_before_9_wrong_letter_after_user", LINKS + ["U,0", "S,0,0,1"], "F,4,text,2"),
        ("2_before_10_axiom_65_after_user", full + ["U,0", "T,0,0,1"], "F,68,text,2"),
        ("2_before_13_goal_before_g", ["K,chain,3", "Q,65536,0"], "F,2,text,2"),
        ("2_g_first", ["G,el,3,1", "K,chain,3"], "F,1,text,2"),
        ("2_user_before_g", ["K,chain,3", "U,0"], "F,2,text,2"),
        ("2_user_after_goal", LINKS + ["U,0", "Q,0,1", "U,1"], "F,5,text,2"),
        ("2_k_at_the_end", LINKS + ["Q,0,1", "K,chain,3"], "F,4,text,2"),
        ("2_file_ends_before_g_table", ["K,table,1"], "F,2,text,2"),
        ("2_file_ends_before_g_table_pairs", ["K,table,1", "O,0,0", "O,0,0"], "F,4,text,2"),
        # 3 before the checks of the call
        ("3_before_4", ["K,chain,00"], "F,1,text,3"),
        ("3_before_7", ["K,house", "G,el,0,x"], "F,2,text,3"),
        ("3_before_7_second_size", ["K,house", "G,el,129,033"], "F,2,text,3"),
        ("3_before_8_pair", ["K,table,2", "O,5,x"], "F,2,text,3"),
        ("3_before_5_pair", ["K,table,2", "O,0,1", "O,1,00"], "F,3,text,3"),
        ("3_before_10", full + ["T,0,0,01"], "F,67,text,3"),
        ("3_before_9_wrong_letter", LINKS + ["S,0,0,x"], "F,3,text,3"),
        ("3_before_9_record", LINKS + ["T,x,9,9"], "F,3,text,3"),
        ("3_before_8_label", LINKS + ["T,9,0,x"], "F,3,text,3"),
        ("3_before_13", LINKS + ["Q,9,x"], "F,3,text,3"),
        ("3_before_16", rows + ["Q,8,08"], "F,67,text,3"),
        # 10 before 9 before 8
        ("10_before_9", full + ["T,0,0,2"], "F,67,sheet,10"),
        ("10_before_9_beyond_65535", full + ["T,0,65536,0"], "F,67,sheet,10"),
        ("10_before_9_wrong_letter", full + ["S,0,0,1"], "F,67,sheet,10"),
        ("10_before_9_wrong_letter_el", full_el + ["T,0,0,1"], "F,67,sheet,10"),
        ("10_before_8", full + ["T,1,0,1"], "F,67,sheet,10"),
        ("10_before_9_and_8", full + ["T,1,0,2"], "F,67,sheet,10"),
        ("10_before_8_largest", full + ["T,4294967295,0,1"], "F,67,sheet,10"),
        ("9_before_8", LINKS + ["T,3,3,0"], "F,3,logic,9"),
        ("9_before_8_beyond_65535", LINKS + ["T,4294967295,65536,0"], "F,3,logic,9"),
        ("9_before_8_wrong_letter", EL + ["T,3,0,1"], "F,3,logic,9"),
        ("9_before_8_role", EL + ["R,3,2,0,1"], "F,3,logic,9"),
        ("9_for_axiom_64", full[:-1] + ["T,0,0,2"], "F,66,logic,9"),
        ("8_for_axiom_64", full[:-1] + ["T,1,0,1"], "F,66,kind,8"),
        # users and goals
        ("8_before_17", ["K,sets,2", "G,links,1", "U,7"], "F,3,kind,8"),
        ("8_before_17_house", ["K,house", "G,links,1", "U,13"], "F,3,kind,8"),
        ("8_before_17_table", ["K,table,1", "G,links,1", "U,1"], "F,3,kind,8"),
        ("13_before_16", rows + ["Q,9,0"], "F,67,logic,13"),
        ("13_before_16_beyond_65535", rows + ["Q,0,65536"], "F,67,logic,13"),
        # tables: 6 comes before the next line's own fault, and a faulty O line before 6
        ("6_before_1", no_meet + ["X"], "F,3,kind,6"),
        ("6_before_1_empty_line", no_meet + [""], "F,3,kind,6"),
        ("6_before_1_bad_g", no_meet + ["G,el,3"], "F,3,kind,6"),
        ("6_before_2_k", no_meet + ["K,chain,3"], "F,3,kind,6"),
        ("6_before_2_axiom", no_meet + ["T,0,0,1"], "F,3,kind,6"),
        ("6_before_3", no_meet + ["G,links,x"], "F,3,kind,6"),
        ("6_before_7", no_meet + ["G,links,0"], "F,3,kind,6"),
        ("6_before_7_no_pair", ["K,table,2", "G,el,0,0"], "F,1,kind,6"),
        ("6_before_the_end", no_meet, "F,3,kind,6"),
        ("6_before_later_lines", no_meet + ["G,links,1", "U,9"], "F,3,kind,6"),
        ("6_before_a_letter_like_o", no_meet + ["o,0,1"], "F,3,kind,6"),
        ("6_before_a_longer_first_field", no_meet + ["OO,0,1"], "F,3,kind,6"),
        ("6_before_a_space", no_meet + [" O,0,1"], "F,3,kind,6"),
        ("6_before_o_and_carriage_return", no_meet + ["O\r"], "F,3,kind,6"),
        ("o_1_before_6", no_meet + ["O"], "F,4,text,1"),
        ("o_1_before_6_count", no_meet + ["O,1,2,0"], "F,4,text,1"),
        ("o_3_before_6", no_meet + ["O,1,x"], "F,4,text,3"),
        ("o_3_before_6_carriage_return", no_meet + ["O,1,2\r"], "F,4,text,3"),
        ("o_8_before_6", no_meet + ["O,3,0"], "F,4,kind,8"),
        ("o_5_before_6", no_meet + ["O,1,0"], "F,4,kind,5"),
        ("o_fault_before_6_far_later", no_meet + ["O,0,0", "O,0,1", "O,,"], "F,6,text,3"),
        ("6_mended_by_a_later_pair", no_meet + ["O,1,2", "G,links,1"], []),
        ("4_before_o", ["K,table,33", "O,x,1"], "F,1,kind,4"),
        ("6_at_the_last_o_line_again", no_meet + ["O,0,1", "G,links,1"], "F,4,kind,6"),
        # the first faulty line decides
        ("earlier_line_first", LINKS + ["T,3,0,1", "T,0,9,9"], "F,3,kind,8"),
        ("earlier_user_first", ["K,house", "G,links,1", "U,3", "X"], "F,3,kind,17"),
        ("earlier_goal_first", LINKS + ["Q,0,9", "Q,0"], "F,3,logic,13"),
        ("later_fault_hides_the_print", LINKS + ["T,1,0,1", "U,0", "Q,0,1", "Q,0,1", "Q,0,9"], "F,7,logic,13"),
        ("4_before_the_end", ["K,sets,33"], "F,1,kind,4"),
        ("7_then_fault", ["K,house", "G,links,0", "X"], "F,2,logic,7"),
    ]
    for name, lines, must in ordered:
        add("order_" + name, lines, must)
    # A last line without line end is refused by 1, whatever it holds; 6 is looked for first unless it is an O line.
    add("order_6_before_no_line_end", file_of(no_meet + ["G,links,1"])[:-1], "F,3,kind,6")
    add("order_6_before_no_line_end_letter", file_of(no_meet) + b"X", "F,3,kind,6")
    add("order_6_before_no_line_end_oo", file_of(no_meet) + b"OO", "F,3,kind,6")
    add("order_o_no_line_end_before_6", file_of(no_meet + ["O,1,2"])[:-1], "F,4,text,1")
    add("order_o_no_line_end_before_6_bare", file_of(no_meet) + b"O", "F,4,text,1")
    add("order_o_no_line_end_before_8", file_of(no_meet + ["O,9,9"])[:-1], "F,4,text,1")
    add("order_no_line_end_k_table", b"K,table,2", "F,1,text,1")
    add("order_no_line_end_before_2", file_of(["K,chain,3", "O,0,1"])[:-1], "F,2,text,1")
    add("order_no_line_end_before_3", file_of(["K,chain,x"])[:-1], "F,1,text,1")
    add("order_no_line_end_before_10", file_of(full + ["T,0,0,1"])[:-1], "F,67,text,1")
    add("order_no_line_end_before_13", file_of(LINKS + ["Q,9,9"])[:-1], "F,3,text,1")


# ------------------------------------------------------------------------------------------------------- many supports


def stages(ways, first_axiom=1):
    """Axioms in stages, one after the other: stage k has ways[k] axioms, each of which leads from point k to point k + 1,
    and no other axiom leads on. A goal from the first point to the last then follows from a set of axioms exactly when it
    holds one of each stage. So a support is one axiom of each stage, and every such choice is a support."""
    numbers = itertools.count(first_axiom)
    groups = [[next(numbers) for _ in range(w)] for w in ways]
    return itertools.product(*groups)


def stage_lines(ways, label=lambda number: 0):
    lines = []
    for k, w in enumerate(ways):
        for _ in range(w):
            lines.append("T,%d,%d,%d" % (label(len(lines) + 1), k, k + 1))
    return lines


def many_cases():
    def links(name, ways, kind="K,chain,1", label=lambda number: 0, more=(), users=(), extra=(), must=None):
        lines = [kind, "G,links,%d" % (len(ways) + 1)] + stage_lines(ways, label) + list(more)
        lines += ["U,%d" % user for user in users] + ["Q,0,%d" % len(ways)] + list(extra)
        # An axiom of `more` leads from the first point to the last: it is a support by itself.
        direct = [(sum(ways) + 1 + k,) for k in range(len(more))]
        supports = itertools.chain(stages(ways), direct)
        add(name, lines, must, {(0, len(ways)): supports})

    links("many_links_1024", [2] * 10)
    assert 2 * len(CASES[-1][2]) == 66_578  # docs/FORMAT.md says so
    links("many_links_2048", [2] * 11, must="F,25,sheet,15")
    links("many_links_1025", [2] * 10, more=["T,0,0,10"], must="F,24,sheet,15")
    links("many_links_4096_later_fault", [2] * 12, extra=["X"], must="F,27,sheet,15")
    links("many_links_2_to_32", [2] * 32, must="F,67,sheet,15")
    links("many_links_32_times_32", [32, 32], "K,sets,32", lambda n: 2 ** ((n - 1) % 32) if n <= 32 else 2 ** 32 - 1 - 2 ** (n - 33),
          users=[0, 1, 2 ** 31])
    links("many_links_33_times_31", [33, 31], "K,chain,64", lambda n: 64 - n, users=[0, 30, 31, 32, 63])
    links("many_links_5_5_41", [5, 5, 41], must="F,54,sheet,15")
    links("many_links_3_to_5", [3] * 5, "K,house", lambda n: n % 12, users=[0, 1, 2, 4, 8])
    links("many_links_16_stages", [1] * 16, "K,chain,9", lambda n: 1 + n % 8, users=[0, 1, 2])
    links("many_links_64_stages", [1] * 64, "K,chain,65", lambda n: n, users=[1, 2])
    links("many_links_64_ways", [64], "K,sets,6", lambda n: n - 1, users=[0, 1, 32])

    # el: 32 axioms of form 3 and 32 of form 4 with the same role; the goal needs one of each, and nothing else leads on.
    lines = ["K,sets,4", "G,el,4,1"] + ["E,%d,1,0,2" % (k % 16) for k in range(32)] + ["R,%d,0,2,3" % (15 - k % 7) for k in range(32)]
    add("many_el_partner_32_times_32", lines + ["U,0", "U,1", "U,8", "Q,1,3"], None, {(1, 3): stages([32, 32])})
    # el: 8 stages, and then 11, in each of which concept k lies in k + 1 by a form 1 or by a form 2 with everything.
    lines = ["K,chain,21", "G,el,13,0"]
    for k in range(1, 9):
        lines += ["S,%d,%d,%d" % (2 * k, k, k + 1), "C,%d,%d,0,%d" % (2 * k + 1, k, k + 1)]
    add("many_el_256", lines + ["U,3", "U,4", "Q,1,9"], None, {(1, 9): stages([2] * 8)})
    lines = ["K,chain,1", "G,el,13,0"]
    for k in range(1, 12):
        lines += ["S,0,%d,%d" % (k, k + 1), "C,0,%d,0,%d" % (k, k + 1)]
    add("many_el_2048", lines + ["Q,1,12"], "F,25,sheet,15", {(1, 12): stages([2] * 11)})
    # el: a chain of 64 axioms of form 1; the one support is all of them.
    add("many_el_64_stages", ["K,chain,70", "G,el,66,0"] + ["S,%d,%d,%d" % (k + 2, k, k + 1) for k in range(1, 65)]
        + ["U,3", "U,4", "Q,1,65"], None, {(1, 65): stages([1] * 64)})

    # 16 before 15: 64 goals are published, and the 65th has 2,048 supports.
    goals = ["Q,%d,%d" % (a, b) for a in range(12) for b in range(a + 1)][:64]
    head = ["K,chain,1", "G,links,12"] + stage_lines([2] * 11)
    add("order_16_before_15", head + goals + ["Q,0,11"], "F,89,sheet,16", {(0, 11): stages([2] * 11)})
    add("order_15_where_63_are_published", head + goals[1:] + ["Q,0,11"], "F,88,sheet,15", {(0, 11): stages([2] * 11)})
    # 15 comes at its line, 19 only at the end.
    lines = ["K,chain,1", "G,links,12"] + stage_lines([2] * 11) + ["Q,0,10", "Q,0,10", "Q,0,11"]
    add("order_15_before_19", lines, "F,27,sheet,15", {(0, 10): stages([2] * 10), (0, 11): stages([2] * 11)})
    # The last two of the larger files of docs/FORMAT.md.
    ten = ["K,chain,1", "G,links,11"] + stage_lines([2] * 10)
    add("print_1024_supports_twice", ten + ["Q,0,10", "Q,0,10"], "F,0,text,19", {(0, 10): stages([2] * 10)})
    add("order_later_fault_before_19", ten + ["Q,0,10", "Q,0,10", "Q,0,11"], "F,25,logic,13", {(0, 10): stages([2] * 10)})
    add("order_later_fault_before_19_text", ten + ["Q,0,10", "Q,0,10", "Q,0,x"], "F,25,text,3", {(0, 10): stages([2] * 10)})


# ------------------------------------------------------------------------------------------------------ long files, prints


def print_length_cases():
    """Prints of exactly 65,536 and 65,537 bytes, from two goals with prints of different lengths."""
    head = ["K,chain,10", "G,links,2"] + ["U,%d" % (k % 10) for k in range(16)]
    one = len(reference.answer(file_of(head + ["Q,0,0"])))
    other = len(reference.answer(file_of(head + ["Q,0,1"])))
    for length in (65_536, 65_537):
        count = next(n for n in range(400) if (length - n * one) % other == 0)
        lines = head + ["Q,0,0"] * count + ["Q,0,1"] * ((length - count * one) // other)
        add("print_%d" % length, lines, "F,0,text,19" if length > 65_536 else None)
        assert len(CASES[-1][2]) == (65_536 if length == 65_536 else len("F,0,text,19\n"))
    add("print_long_then_fault", lines + ["U,0"], "F,%d,text,2" % (len(lines) + 1))
    add("print_long_then_no_line_end", file_of(lines) + b"Q,0,0", "F,%d,text,1" % (len(lines) + 1))


def of_length(length, make_lines, line):
    """A file of this length, with one line many times; make_lines(logic and users, lines) puts the file together."""
    for logic in (["G,links,1"], ["G,links,10"], ["G,links,100"], ["G,el,1,0"], ["G,el,1,0", "U,0"]):
        room = length - len(file_of(make_lines(logic, [])))
        if room % len(file_of([line])) == 0:
            return file_of(make_lines(logic, [line] * (room // len(file_of([line])))))
    raise ValueError(length)


def file_length_cases():
    def with_pairs(logic, pairs):
        return ["K,table,2"] + pairs + logic

    def with_goals(logic, goals):
        return ["K,chain,1"] + logic + ["U,0", "U,0"] + goals

    pairs = of_length(16_384, with_pairs, "O,0,1")
    goals = of_length(16_384, with_goals, "Q,0,0")
    assert len(pairs) == len(goals) == 16_384
    add("file_16384_pairs", pairs, [])
    add("file_16385_pairs", of_length(16_385, with_pairs, "O,0,1"), "F,0,text,20")
    add("file_16384_no_line_end", pairs[:-1] + b"0", "F,%d,text,1" % pairs.count(b"\n"))
    add("file_16384_goals", goals, "F,0,text,19")
    add("file_16384_goals_then_fault", goals[:-2] + b"9\n", "F,%d,logic,13" % goals.count(b"\n"))
    add("file_16385_faulty_first_line", b"X\n" + b"\n" * 16_383, "F,0,text,20")


# --------------------------------------------------------------------------------------------------------------- damage


def damage_cases():
    # By hand, each kind of place of one small file.
    base = file_of(["K,sets,2", "G,links,3", "T,3,0,1", "T,1,1,2", "U,1", "Q,0,2"])
    places = {"in_a_word": 4, "after_a_comma": 2, "before_a_line_feed": 8, "after_a_line_feed": 9, "after_a_letter": 1,
              "after_the_g_line": 19, "in_an_axiom": 24, "after_the_axioms": 35, "before_the_goal": 39, "in_the_goal": 43,
              "before_the_last_line_feed": len(base) - 1}
    for name, place in places.items():
        add("damaged_cut_" + name, base[:place])
        if name in ("after_a_comma", "before_a_line_feed", "after_a_line_feed", "in_the_goal"):
            add("damaged_space_" + name, base[:place] + b" " + base[place:])
    add("damaged_carriage_returns", base.replace(b"\n", b"\r\n"), "F,1,text,3")
    add("damaged_carriage_returns_house", file_of(["K,house", "G,links,1"]).replace(b"\n", b"\r\n"), "F,1,text,1")
    add("damaged_carriage_return_last", base[:-1] + b"\r\n", "F,6,text,3")
    add("damaged_carriage_returns_only", base.replace(b"\n", b"\r"), "F,1,text,1")
    add("damaged_empty_line_first", b"\n" + base, "F,1,text,1")
    add("damaged_empty_line_inside", base.replace(b"U", b"\nU"), "F,5,text,1")
    add("damaged_empty_line_last", base + b"\n", "F,7,text,1")
    add("damaged_byte_order_mark", b"\xef\xbb\xbf" + base, "F,1,text,1")
    add("damaged_zero_byte_last", base + b"\x00", "F,7,text,1")
    add("damaged_comment", b"# sheet\n" + base, "F,1,text,1")
    add("damaged_lower_case", base.lower(), "F,1,text,1")
    add("damaged_semicolons", base.replace(b",", b";"), "F,1,text,1")
    # At random, some damages to sheets of each kind and logic. Those are kept that change the answer, and not to a
    # refusal at line 1, so that they do not all fail at the start.
    kinds_and_logics = itertools.product(["chain", "sets", "house", "table"], ["el", "links"])
    for turn, (kind, logic) in enumerate(kinds_and_logics):
        kept = 0
        for seed in range(200):
            dice = Dice(77_000 + seed * 16 + turn)
            data = file_of(sheets.random_sheet(dice, kind, logic, 7))
            damage = sheets.DAMAGES[(kept + 5 * turn) % len(sheets.DAMAGES)]
            spoiled = damage(dice, data)
            answer = reference.answer(spoiled)
            if spoiled == data or len(data) < 60 or answer.startswith(b"F,1,") or answer == reference.answer(data):
                continue
            add("damaged_%s_%s_%s" % (kind, logic, damage.__name__), spoiled)
            kept += 1
            if kept == 5:
                break


def noise_cases():
    for k in range(5):
        add("noise_bytes_%d" % k, sheets.noise(Dice(300 + k), 1 + 19 * k))
    for k in range(6):
        add("noise_alphabet_%d" % k, sheets.noise_of_the_alphabet(Dice(400 + k), 5 + 17 * k))
    for k in range(8):
        head = file_of([["K,chain,3", "G,links,3"], ["K,house", "G,el,4,2"], ["K,table,3", "O,0,1", "O,1,2"]][k % 3])
        add("noise_after_a_good_start_%d" % k, head + sheets.noise_of_the_alphabet(Dice(500 + k), 20 + 6 * k))
    for k in range(12):
        add("noise_random_lines_%d" % k, sheets.random_lines(Dice(600 + k), k % 9))


# ------------------------------------------------------------------------------------------------------------------ all


def write_cases():
    with open(CASES_FILE, "wb") as cases, open(ANSWERS_FILE, "wb") as answers:
        for name, data, answer in CASES:
            cases.write(b"case %s %d\n" % (name.encode(), len(data)) + data + b"\n")
            answers.write(b"== %s\n" % name.encode() + answer)


def summary():
    groups = collections.Counter(name.split("_")[0] for name, _, _ in CASES)
    refusals = collections.Counter()
    for _, _, answer in CASES:
        refusals["refused by " + answer.decode().strip().split(",")[-1] if answer.startswith(b"F") else "accepted"] += 1
    for table in (groups, refusals):
        print(", ".join("%s %d" % item for item in sorted(table.items())))
    print("%d cases, %d bytes of cases, %d bytes of answers" % (
        len(CASES), CASES_FILE.stat().st_size, ANSWERS_FILE.stat().st_size))


def make():
    example_cases()
    document_cases()
    random_valid_cases()
    shape_cases()
    table_cases()
    kind_limit_cases()
    logic_limit_cases()
    count_limit_cases()
    form_cases()
    order_cases()
    many_cases()
    print_length_cases()
    file_length_cases()
    damage_cases()
    noise_cases()


if __name__ == "__main__":
    make()
    write_cases()
    summary()
