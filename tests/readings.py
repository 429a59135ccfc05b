#!/usr/bin/env python3
"""The cases of reading a sheet: refusals 1 to 4, with answers worked out by hand from document 01.

    readings.py            writes crates/readings/stdin and stdout
    readings.py --check    fails if those files are not what this file says
"""

import os
import sys

from sheets import (DOES, ED, HERE, INIT, IS_VIEW, LEGAL, GOAL, N_AND, N_EVENTUALLY, N_FACT, N_NOT, N_TRUE, N_UNTIL,
                    NEXT, TERMINAL, TRUE, VIEW, fo, pack, ru, sz)

SZ = sz(2, 1, 0, 2)
LEGALS = [ru(LEGAL, 0, 0), ru(LEGAL, 0, 1), ru(LEGAL, 1, 0), ru(LEGAL, 1, 1)]
NEXTS = [ru(NEXT, 0, 0, (DOES, 0, 0), (DOES, 1, 0)), ru(NEXT, 0, 0, (DOES, 0, 1), (DOES, 1, 1))]
ENDS = [ru(TERMINAL, 0, 0, (TRUE, 0))]
NODES = [fo(N_FACT, 0), fo(N_EVENTUALLY, 0, 0, 3)]


def lamp(sizes=SZ, rules=tuple(LEGALS + NEXTS + ENDS), nodes=tuple(NODES), end=ED):
    return sizes + b"".join(rules) + b"".join(nodes) + end


def small(*records):
    """A sheet with one rule too few to play: enough to be read."""
    return sz(2, 3, 2, 4) + b"".join(records)


FULL = [(DOES, 0, 0)] * 8
EMPTY = ru(TERMINAL)
Q = fo(N_TRUE)

CASES = [
    # the sheet of document 01, and its cases
    ("the lamp", lamp(), "ok 7 2"),
    ("no ED", lamp(end=b""), "no 1 10"),
    ("a byte after ED", lamp() + b"\0", "no 1 11"),
    ("the empty sheet", b"", "no 1 0"),
    ("node 0 names fact 1", lamp(nodes=[fo(N_FACT, 1), NODES[1]]), "no 2 8"),
    ("TERMINAL from DOES 0 0", lamp(rules=LEGALS + NEXTS + [ru(TERMINAL, 0, 0, (DOES, 0, 0))]), "no 4 7"),
    ("coalition 4 with two roles", lamp(nodes=[NODES[0], fo(N_EVENTUALLY, 0, 0, 4)]), "no 2 9"),
    ("512 rules", small(*[EMPTY] * 512, Q, ED), "ok 512 1"),
    ("the 513th rule", small(*[EMPTY] * 513, Q, ED), "no 3 513"),
    # 1: marks
    ("an unknown mark", b"SY\1\1\0\1" + Q + ED, "no 1 0"),
    ("a small letter in a mark", small(b"Fo\1\0\0\0", ED), "no 1 1"),
    ("a rule where SZ should be", EMPTY + Q + ED, "no 1 0"),
    ("a second SZ", small(sz(2, 3, 2, 4), Q, ED), "no 1 1"),
    ("a rule after a node", small(Q, EMPTY, ED), "no 1 2"),
    ("ED with no node before it", small(EMPTY, ED), "no 1 2"),
    ("an unknown mark with one more fault in it", small(b"ZZ\xff", ED), "no 1 1"),
    # 1: cut short
    ("one byte of a mark", small(Q, b"E"), "no 1 2"),
    ("SZ cut short", b"SZ\1\1\0", "no 1 0"),
    ("a rule cut in its first bytes", small(b"RU\6\0\0"), "no 1 1"),
    ("a node cut short", small(b"FO\1\0\0"), "no 1 1"),
    ("a rule cut in its literals", small(b"RU\2\0\0\2\5\0\0\5\0"), "no 1 1"),
    ("two sheets one after the other", lamp() + lamp(), "no 1 11"),
    # 3 before 1 for the literals, 1 for the literals before 2 and 4
    ("nine literals, none of them there", small(b"RU\2\0\0\11"), "no 3 1"),
    ("nine literals under an unknown head", small(b"RU\11\0\0\11"), "no 3 1"),
    ("255 literals that are there", small(ru(NEXT, 0, 0, *[(DOES, 0, 0)] * 255), Q, ED), "no 3 1"),
    ("literals cut, head out of range", small(b"RU\2\11\0\1\5\0"), "no 1 1"),
    ("literals cut, INIT", small(b"RU\1\0\0\2\1\0\0"), "no 1 1"),
    ("the 513th rule, cut in its literals", small(*[EMPTY] * 512, b"RU\2\0\0\1"), "no 3 513"),
    ("the 513th rule, cut in its first bytes", small(*[EMPTY] * 512, b"RU\2\0"), "no 1 513"),
    ("the 513th rule, head unknown", small(*[EMPTY] * 512, ru(9), Q, ED), "no 3 513"),
    # 3: nodes
    ("64 nodes", small(*[Q] * 64, ED), "ok 0 64"),
    ("the 65th node", small(*[Q] * 65, ED), "no 3 65"),
    ("the 65th node, kind unknown", small(*[Q] * 64, fo(14), ED), "no 3 65"),
    ("the 65th node, cut short", small(*[Q] * 64, b"FO\1\0\0"), "no 1 65"),
    # 2: sizes
    ("no role", sz(0, 1, 0, 1) + Q + ED, "no 2 0"),
    ("five roles", sz(5, 1, 0, 1) + Q + ED, "no 2 0"),
    ("four roles, 64 facts, 64 views, 16 moves", sz(4, 64, 64, 16) + Q + ED, "ok 0 1"),
    ("no fact", sz(1, 0, 0, 1) + Q + ED, "no 2 0"),
    ("65 facts", sz(1, 65, 0, 1) + Q + ED, "no 2 0"),
    ("65 views", sz(1, 1, 65, 1) + Q + ED, "no 2 0"),
    ("no move", sz(1, 1, 0, 0) + Q + ED, "no 2 0"),
    ("17 moves", sz(1, 1, 0, 17) + Q + ED, "no 2 0"),
    # 2: rules, in the whole record before 4
    ("an unknown head", small(ru(7), Q, ED), "no 2 1"),
    ("head kind 0", small(ru(0), Q, ED), "no 2 1"),
    ("an unknown literal", small(ru(NEXT, 0, 0, (6, 0, 0)), Q, ED), "no 2 1"),
    ("NEXT of the last fact", small(ru(NEXT, 2), Q, ED), "ok 1 1"),
    ("NEXT of one more", small(ru(NEXT, 3), Q, ED), "no 2 1"),
    ("a field that INIT does not use", small(ru(INIT, 0, 1), Q, ED), "no 2 1"),
    ("GOAL 100", small(ru(GOAL, 1, 100), Q, ED), "ok 1 1"),
    ("GOAL 101", small(ru(GOAL, 1, 101), Q, ED), "no 2 1"),
    ("LEGAL of a role too high", small(ru(LEGAL, 2, 0), Q, ED), "no 2 1"),
    ("LEGAL of a move too high", small(ru(LEGAL, 0, 4), Q, ED), "no 2 1"),
    ("VIEW of the last view", small(ru(VIEW, 1, 0, (IS_VIEW, 1)), Q, ED), "ok 1 1"),
    ("a literal with a view too high", small(ru(VIEW, 1, 0, (IS_VIEW, 2)), Q, ED), "no 2 1"),
    ("eight literals", small(ru(NEXT, 0, 0, *FULL), Q, ED), "ok 1 1"),
    # 4, and 2 before it
    ("INIT with a literal", small(ru(INIT, 0, 0, (TRUE, 0)), Q, ED), "no 4 1"),
    ("INIT with a literal out of range", small(ru(INIT, 0, 0, (TRUE, 3)), Q, ED), "no 2 1"),
    ("INIT out of range with a literal", small(ru(INIT, 3, 0, (TRUE, 0)), Q, ED), "no 2 1"),
    ("LEGAL from DOES", small(ru(LEGAL, 0, 0, (DOES, 0, 0)), Q, ED), "no 4 1"),
    ("LEGAL from DOES and a bad TRUE", small(ru(LEGAL, 0, 0, (DOES, 0, 0), (TRUE, 3)), Q, ED), "no 2 1"),
    ("LEGAL from a bad TRUE and DOES", small(ru(LEGAL, 0, 0, (TRUE, 3), (DOES, 0, 0)), Q, ED), "no 2 1"),
    ("VIEW from DOES, a later record bad", small(ru(VIEW, 0, 0, (DOES, 0, 0)), ru(9), Q, ED), "no 4 1"),
    # nodes
    ("a node that names itself", small(Q, fo(N_NOT, 1), ED), "no 2 2"),
    ("a node that names the one before", small(Q, fo(N_NOT, 0), ED), "ok 0 2"),
    ("the first node has nothing to name", small(fo(N_NOT, 0), ED), "no 2 1"),
    ("AND whose second operand is itself", small(Q, fo(N_AND, 0, 1), ED), "no 2 2"),
    ("a coalition on AND", small(Q, fo(N_AND, 0, 0, 1), ED), "no 2 2"),
    ("UNTIL for nobody", small(Q, fo(N_UNTIL, 0, 0, 0), ED), "ok 0 2"),
    ("a second operand of EVENTUALLY", small(Q, Q, fo(N_EVENTUALLY, 0, 1, 0), ED), "no 2 3"),
    ("a longest sheet", sz(4, 64, 64, 16) + ru(NEXT, 0, 0, *FULL) * 512 + Q * 64 + ED, "ok 512 64"),
]


def main():
    home = os.path.join(os.path.dirname(HERE), "crates", "readings")
    files = {"stdin": pack([s for _, s, _ in CASES]), "stdout": "".join(a + "\n" for _, _, a in CASES).encode()}
    if sys.argv[1:] == ["--check"]:
        for name, content in files.items():
            with open(os.path.join(home, name), "rb") as f:
                if f.read() != content:
                    sys.exit("crates/readings/%s is not what tests/readings.py says: run tests/readings.py" % name)
        print("%d cases of reading, as stored" % len(CASES))
    else:
        for name, content in files.items():
            with open(os.path.join(home, name), "wb") as f:
                f.write(content)


if __name__ == "__main__":
    main()
