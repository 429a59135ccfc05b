#!/usr/bin/env python3
"""Makes rule sheets for the comparison of two engines.

  generate.py --check               run the engine beside this file on every
                                    sheet, check the answers known by hand and
                                    print the tallies; fails when an answer is
                                    wrong or a fault or pair was never hit
  generate.py --out FILE            write the batch stream to FILE
  generate.py --bench DIR           write the benchmark sheets into DIR
  options: --count N (20,000), --seed N (1)

Every sheet is a Case: its bytes, the family it comes from, the faults and
pairs of checks it was built to hit, and, where the answer was worked out by a
rule of hand, the start of that answer.  The rules of hand come from document
01 directly and never from an engine.

Refusal 9 cannot be hit by a sheet: a program holds its tables at full size.
The engine's own --lengths mode checks it.
"""

import argparse
import collections
import itertools
import random
import sys

sys.dont_write_bytecode = True   # leave no compiled files in the folder

from sheets import *

Case = collections.namedtuple("Case", "sheet family tags expect")

# The checks of one record in their order; 1a is the mark and the first six
# bytes, 1b the literals.
RECORD_CHECKS = ["1a", "3", "1b", "2", "4"]
STATE_CHECKS = ["8", "7", "6"]


def number_of(check):
    return check[0]


FAULTS = [
    "1 empty sheet", "1 unknown mark", "1 first record not SZ", "1 second SZ", "1 RU after FO",
    "1 ED before any FO", "1 SZ cut short", "1 RU cut short", "1 FO cut short", "1 ED cut short",
    "1 literals cut short", "1 end before ED", "1 bytes after ED",
    "2 size out of range", "2 head kind", "2 head field", "2 literal kind", "2 literal field",
    "2 node kind", "2 node field", "2 unused field not zero", "2 coalition",
    "3 513th rule", "3 65th node", "3 literal count",
    "4 INIT with literals", "4 DOES under VIEW", "4 DOES under LEGAL", "4 DOES under GOAL",
    "4 DOES under TERMINAL", "4 DOES under INIT",
    "5 own NOT", "5 longer chain", "5 view passed twice", "5 beside a good circle",
    "6 by one move", "6 by many moves", "7 in the first state", "7 in a later state",
    "7 by a terminal state", "8 no LEGAL", "8 LEGAL but never DOES", "8 in a later state",
]

PAIRS = (
    ["one record: %s before %s" % (x, y)
     for i, x in enumerate(RECORD_CHECKS) for y in RECORD_CHECKS[i + 1:]]
    + ["record after record: %s then %s" % (x, y) for x in RECORD_CHECKS for y in RECORD_CHECKS]
    + ["%s before 5" % x for x in RECORD_CHECKS]
    + ["5 before %s" % y for y in STATE_CHECKS]
    + ["%s before %s" % (x, y) for x in RECORD_CHECKS for y in STATE_CHECKS]
    + ["state after state: %s then %s" % (x, y) for x in STATE_CHECKS for y in STATE_CHECKS]
    + ["one state: 8 before 7", "one state: 7 before 6"]
)


# ---- Small building blocks -------------------------------------------------

def join(records):
    return b"".join(records)


def one_state_sheet(size, rules=(), nodes=()):
    """State 0 is terminal whatever the rest says, so an accepted sheet has
    one state and one joint move.  The end rule stands last among the rules."""
    return join([sz(*size), *rules, ru(TERMINAL), *(nodes or [fo(N_TRUE)]), ED])


def name_moves(role, moves):
    """NEXT rules that name these moves in DOES and never fire: a role does
    not make two moves at once, and no fact holds and does not hold.  The
    moves count as moves all the same."""
    moves, rules = list(moves), []
    for i in range(0, len(moves), 8):
        named = [(DOES, role, m) for m in moves[i:i + 8]]
        never = [(TRUE, 0), (NOT_TRUE, 0)] if len(named) == 1 else []
        rules.append(ru(NEXT, 0, 0, *named, *never))
    return rules


def counter_rules(bits, played=True):
    """A wrapping binary counter over facts 0..bits-1 with views 0..bits as
    carries (view i: all facts below i hold).  If played, fact 0 comes only
    with move 0 of role 0."""
    rules = [ru(VIEW, 0)]
    for i in range(bits):
        rules.append(ru(VIEW, i + 1, 0, (IS_VIEW, i), (TRUE, i)))
        step = ((DOES, 0, 0),) if i == 0 and played else ()
        rules.append(ru(NEXT, i, 0, (NOT_TRUE, i), (IS_VIEW, i), *step))
        rules.append(ru(NEXT, i, 0, (TRUE, i), (NOT_VIEW, i)))
    return rules


def counter_sheet(bits):
    """EVENTUALLY all facts hold, for the one role there is."""
    return join([sz(1, bits, bits + 1, 1), ru(LEGAL, 0, 0), *counter_rules(bits),
                 fo(N_VIEW, bits), fo(N_EVENTUALLY, 0, 0, 1), ED])


def counter_listing(bits):
    """State s holds the number s; it is 2^bits - 1 - s moves away."""
    if bits > 10:
        return "no 6 1023\n"
    top = 2 ** bits - 1
    lines = ["ok %d %d yes\n" % (top + 1, top + 1)]
    for s in range(top + 1):
        choice = "-" if s == top else "0"
        lines.append("%d %d 1 1 %d %s\n" % (s, s, top - s, choice))
    return "".join(lines)


def cut_case(records, length, family, tags, expect_record):
    return Case(join(records)[:length], family, tags, "no 1 %d" % expect_record)


# ---- Document 01's own cases ----------------------------------------------

LAMP_RULES = [
    ru(LEGAL, 0, 0), ru(LEGAL, 0, 1), ru(LEGAL, 1, 0), ru(LEGAL, 1, 1),
    ru(NEXT, 0, 0, (DOES, 0, 0), (DOES, 1, 0)), ru(NEXT, 0, 0, (DOES, 0, 1), (DOES, 1, 1)),
    ru(TERMINAL, 0, 0, (TRUE, 0)),
]


def lamp(coalition=3, rules=None, nodes=None, views=0):
    return [sz(2, 1, views, 2), *(LAMP_RULES if rules is None else rules),
            *(nodes or [fo(N_FACT, 0), fo(N_EVENTUALLY, 0, 0, coalition)]), ED]


def sixteen_cubed(third_state):
    """Three roles of 16 choices in each of two states; with a third state
    that is terminal, reached from state 1."""
    everyone = [ru(LEGAL, r, m) for r in range(3) for m in range(16)]
    naming = [rule for r in range(3) for rule in name_moves(r, range(16))]
    steps = [ru(NEXT, 0, 0, (NOT_TRUE, 0))]
    if third_state:
        steps += [ru(NEXT, 1, 0, (TRUE, 0)), ru(TERMINAL, 0, 0, (TRUE, 1))]
    return join([sz(3, 3, 0, 16), *everyone, *naming, *steps, fo(N_TRUE), ED])


def document_cases():
    def case(name, records, expect, tags=()):
        return Case(join(records) if isinstance(records, list) else records,
                    "document: " + name, tags, expect)

    no_1_0 = [r for r in LAMP_RULES if r != ru(LEGAL, 1, 0)]
    no_1 = [r for r in no_1_0 if r != ru(LEGAL, 1, 1)]
    view_nodes = [fo(N_VIEW, 0), fo(N_EVENTUALLY, 0, 0, 3)]
    whole = join(lamp())
    yield case("lamp", whole, "ok 2 5 yes\n0 0 4 1 1 0\n1 1 1 1 0 -\n")
    yield case("coalition 1", lamp(1), "ok 2 5 no\n0 0 4 0 - -\n1 1 1 1 0 -\n")
    yield case("coalition 2 always not", lamp(nodes=[fo(N_FACT, 0), fo(N_NOT, 0), fo(N_ALWAYS, 1, 0, 2)]),
               "ok 2 5 no\n0 0 4 0 - -\n1 1 1 0 - -\n")
    yield case("without LEGAL 1 0", lamp(1, no_1_0), "ok 2 3 yes\n0 0 2 1 1 1\n1 1 1 1 0 -\n")
    yield case("without role 1", lamp(rules=no_1), "no 8 0\n", ("8 no LEGAL",))
    yield case("next for nobody", lamp(nodes=[fo(N_FACT, 0), fo(N_NEXT, 0, 0, 0)]),
               "ok 2 5 no\n0 0 4 0 - -\n1 1 1 1 - -\n")
    yield case("view from itself", lamp(rules=LAMP_RULES + [ru(VIEW, 0, 0, (IS_VIEW, 0))], views=1),
               "ok 2 5 yes\n0 0 4 1 1 0\n1 1 1 1 0 -\n")
    yield case("view from itself asked", lamp(rules=LAMP_RULES + [ru(VIEW, 0, 0, (IS_VIEW, 0))],
                                              views=1, nodes=view_nodes),
               "ok 2 5 no\n0 0 4 0 - -\n1 1 1 0 - -\n")
    yield case("view from its own NOT", lamp(rules=LAMP_RULES + [ru(VIEW, 0, 0, (NOT_VIEW, 0))], views=1),
               "no 5 0\n", ("5 own NOT",))
    yield case("no ED", whole[:-2], "no 1 10\n", ("1 end before ED",))
    yield case("a byte after ED", whole + b"\0", "no 1 11\n", ("1 bytes after ED",))
    yield case("empty", b"", "no 1 0\n", ("1 empty sheet",))
    yield case("fact 1", lamp(nodes=[fo(N_FACT, 1), fo(N_EVENTUALLY, 0, 0, 3)]), "no 2 8\n", ("2 node field",))
    yield case("TERMINAL from DOES", lamp(rules=LAMP_RULES[:-1] + [ru(TERMINAL, 0, 0, (DOES, 0, 0))]),
               "no 4 7\n", ("4 DOES under TERMINAL",))
    yield case("coalition 4", lamp(4), "no 2 9\n", ("2 coalition",))
    filler = [ru(TERMINAL)] * 511
    yield case("512 rules", one_state_sheet((1, 1, 0, 1), filler), "ok 1 1 yes\n0 0 1 1 - -\n")
    yield case("513 rules", one_state_sheet((1, 1, 0, 1), filler + [ru(TERMINAL)]), "no 3 513\n", ("3 513th rule",))
    yield case("counter of 10", counter_sheet(10), counter_listing(10))
    yield case("counter of 11", counter_sheet(11), counter_listing(11), ("6 by one move",))
    yield case("8,192 joint moves", sixteen_cubed(False), "ok 2 8192 yes\n0 0 4096 1 - -\n1 1 4096 1 - -\n")
    yield case("one more", sixteen_cubed(True), "no 7 2\n", ("7 by a terminal state",))


# ---- The order of records, cuts and additions ------------------------------

def base_records():
    """Three accepted sheets as lists of records."""
    yield lamp()
    yield [sz(1, 1, 0, 1), fo(N_TRUE), ED]
    yield [sz(3, 5, 3, 4),
           ru(INIT, 1), ru(INIT, 4), ru(VIEW, 0, 0, (TRUE, 1)), ru(VIEW, 1, 0, (NOT_VIEW, 0), (IS_VIEW, 1)),
           ru(VIEW, 2, 0, (IS_VIEW, 2), (NOT_VIEW, 1), (TRUE, 0), (NOT_TRUE, 3)),
           ru(LEGAL, 0, 0), ru(LEGAL, 0, 3, (TRUE, 1)), ru(LEGAL, 1, 1), ru(LEGAL, 2, 2, (NOT_VIEW, 2)), ru(LEGAL, 2, 0),
           ru(NEXT, 0, 0, (DOES, 0, 0), (DOES, 1, 1), (DOES, 2, 2)), ru(NEXT, 1, 0, (DOES, 0, 3), (TRUE, 0)),
           ru(NEXT, 2, 0, (DOES, 2, 0), (DOES, 0, 0), (NOT_TRUE, 2), (NOT_TRUE, 2), (NOT_VIEW, 0), (TRUE, 4), (TRUE, 4), (TRUE, 4)),
           ru(GOAL, 0, 100, (TRUE, 2)), ru(GOAL, 2, 0, (NOT_TRUE, 2)), ru(TERMINAL, 0, 0, (TRUE, 2), (TRUE, 0)),
           fo(N_TRUE), fo(N_FACT, 2), fo(N_VIEW, 2), fo(N_LEGAL, 0, 3), fo(N_GOAL, 2, 0), fo(N_TERMINAL), fo(N_NOT, 2),
           fo(N_AND, 1, 6), fo(N_OR, 7, 3), fo(N_NEXT, 8, 0, 5), fo(N_ALWAYS, 9, 0, 3), fo(N_UNTIL, 0, 1, 7),
           fo(N_EVENTUALLY, 11, 0, 6), ED]


CUT_TAGS = {b"SZ": "1 SZ cut short", b"RU": "1 RU cut short", b"FO": "1 FO cut short", b"ED": "1 ED cut short"}


def cut_cases():
    """Cut at every length: refusal 1 at the record that is not whole."""
    for records in base_records():
        start = 0
        for number, record in enumerate(records):
            for inside in range(len(record)):
                if start + inside == 0:
                    tag = "1 empty sheet"
                elif inside == 0:
                    tag = "1 end before ED"
                elif inside >= 6:
                    tag = "1 literals cut short"
                else:
                    tag = CUT_TAGS[record[:2]]
                yield cut_case(records, start + inside, "cut", (tag,), number)
            start += len(record)


def extended_cases():
    for records in base_records():
        tails = [b"\0", b"\n", b"E", b"ED", b"FO", fo(N_TRUE), fo(N_TRUE) + ED, ru(TERMINAL), join(records), b"\xff" * 300]
        for tail in tails:
            yield Case(join(records) + tail, "extended", ("1 bytes after ED",), "no 1 %d" % len(records))
    yield Case(join(lamp()) + b"x" * 16500, "extended", ("1 bytes after ED",), "no 1 11")


def order_cases():
    """A record where its mark is not admitted, whole and otherwise good."""
    size, node = sz(1, 1, 0, 1), fo(N_TRUE)
    wrong = [
        ([ru(TERMINAL), node, ED], 0, "1 first record not SZ"),
        ([node, ED], 0, "1 first record not SZ"),
        ([ED], 0, "1 first record not SZ"),
        ([size, size, node, ED], 1, "1 second SZ"),
        ([size, ru(TERMINAL), size, node, ED], 2, "1 second SZ"),
        ([size, node, size, ED], 2, "1 second SZ"),
        ([size, node, ru(TERMINAL), ED], 2, "1 RU after FO"),
        ([size, ru(TERMINAL), node, node, ru(TERMINAL), node, ED], 4, "1 RU after FO"),
        ([size, ED], 1, "1 ED before any FO"),
        ([size, ru(TERMINAL), ED], 2, "1 ED before any FO"),
        ([size, node, ED, ED], 3, "1 bytes after ED"),
        ([size, node, ED, node, ED], 3, "1 bytes after ED"),
        ([size], 1, "1 end before ED"),
        ([size, ru(TERMINAL)], 2, "1 end before ED"),
    ]
    for records, place, tag in wrong:
        yield Case(join(records), "order", (tag,), "no 1 %d" % place)


def flipped_cases():
    """Every byte of some sheets replaced.  In a mark the answer is known: no
    mark is one byte away from another."""
    for records in base_records():
        whole = join(records)
        starts, at = {}, 0
        for number, record in enumerate(records):
            starts[at] = starts[at + 1] = number
            at += len(record)
        for position, byte in enumerate(whole):
            for new in sorted({byte ^ 1, byte ^ 0x20, byte ^ 0x80, 255 - byte, 0, 255, (byte + 1) % 256, (byte - 1) % 256} - {byte}):
                sheet = whole[:position] + bytes([new]) + whole[position + 1:]
                if position in starts:
                    tag = "1 first record not SZ" if position < 2 else "1 unknown mark"
                    yield Case(sheet, "flipped", (tag, "1 unknown mark"), "no 1 %d" % starts[position])
                else:
                    yield Case(sheet, "flipped", (), None)


# ---- Every field at its limits ---------------------------------------------

SIZES = [(1, 1, 0, 1), (2, 7, 3, 5), (3, 20, 1, 16), (4, 64, 64, 16)]


def values_around(bound):
    """Values below the bound (good) and from it on (bad)."""
    good = {v for v in (0, 1, bound - 1) if 0 <= v < bound}
    bad = {v for v in (bound, bound + 1, 64, 101, 128, 254, 255) if bound <= v <= 255}
    return sorted(good), sorted(bad)


def head_bounds(size):
    roles, facts, views, moves = size
    return {INIT: (facts, 1), NEXT: (facts, 1), VIEW: (views, 1), LEGAL: (roles, moves),
            GOAL: (roles, 101), TERMINAL: (1, 1)}


def literal_bounds(size):
    roles, facts, views, moves = size
    return {TRUE: (facts, 1), NOT_TRUE: (facts, 1), IS_VIEW: (views, 1), NOT_VIEW: (views, 1), DOES: (roles, moves)}


def node_bounds(size, own):
    roles, facts, views, moves = size
    all_coalitions = 2 ** roles
    return {N_TRUE: (1, 1, 1), N_FACT: (facts, 1, 1), N_VIEW: (views, 1, 1), N_LEGAL: (roles, moves, 1),
            N_GOAL: (roles, 101, 1), N_TERMINAL: (1, 1, 1), N_NOT: (own, 1, 1), N_AND: (own, own, 1),
            N_OR: (own, own, 1), N_NEXT: (own, 1, all_coalitions), N_ALWAYS: (own, 1, all_coalitions),
            N_EVENTUALLY: (own, 1, all_coalitions), N_UNTIL: (own, own, all_coalitions)}


def field_variants(bounds):
    """All fields at 0, then each field in turn at good and bad values.
    Gives the fields, whether they are all in range, and which field is off."""
    base = [0] * len(bounds)
    base_good = all(bound > 0 for bound in bounds)
    for which, bound in enumerate(bounds):
        good, bad = values_around(bound)
        for value in good + bad:
            fields = list(base)
            fields[which] = value
            yield fields, base_good and value < bound, which, bound


def size_cases():
    limits = [(1, 4), (1, 64), (0, 64), (1, 16)]
    for which, (low, high) in enumerate(limits):
        for value in sorted({0, 1, low, high, high + 1, 65, 127, 128, 254, 255}):
            fields = [1, 1, 0, 1]
            fields[which] = value
            good = low <= value <= high
            expect = "ok 1 1 yes" if good else "no 2 0"
            yield Case(one_state_sheet(fields), "field limits", () if good else ("2 size out of range",), expect)


def head_cases(size):
    for kind, bounds in head_bounds(size).items():
        for (a, b), good, which, bound in field_variants(bounds):
            sheet = one_state_sheet(size, [ru(TERMINAL), ru(kind, a, b)])
            tag = "2 unused field not zero" if bound == 1 and which == 1 else "2 head field"
            yield Case(sheet, "field limits", () if good else (tag,), "ok 1 1 yes" if good else "no 2 2")
    for kind in (0, 7, 8, 127, 128, 255):
        yield Case(one_state_sheet(size, [ru(kind)]), "field limits", ("2 head kind",), "no 2 1")


def literal_cases(size):
    """The literal under test stands first or last among up to eight."""
    for count in (1, 8):
        others = [(TRUE, 0)] * (count - 1)
        for kind, bounds in literal_bounds(size).items():
            for (a, b), good, which, bound in field_variants(bounds):
                for body in ([(kind, a, b)] + others, others + [(kind, a, b)])[:count]:
                    tag = "2 unused field not zero" if bound == 1 and which == 1 else "2 literal field"
                    yield Case(one_state_sheet(size, [ru(NEXT, 0, 0, *body)]), "field limits",
                               () if good else (tag,), "ok 1 1 yes" if good else "no 2 1")
        for kind in (0, 6, 7, 255):
            yield Case(one_state_sheet(size, [ru(NEXT, 0, 0, *others, (kind, 0, 0))]), "field limits",
                       ("2 literal kind",), "no 2 1")


def node_cases(size, own):
    before = [fo(N_TRUE)] * own
    for kind, bounds in node_bounds(size, own).items():
        for fields, good, which, bound in field_variants(bounds):
            tag = ("2 coalition" if which == 2 and bound > 1 else
                   "2 unused field not zero" if bound == 1 else "2 node field")
            yield Case(one_state_sheet(size, [], before + [fo(kind, *fields)]), "field limits",
                       () if good else (tag,), "ok 1 1" if good else "no 2 %d" % (own + 2))
    for kind in (0, 14, 15, 127, 255):
        yield Case(one_state_sheet(size, [], before + [fo(kind)]), "field limits", ("2 node kind",), "no 2 %d" % (own + 2))


def misplaced_cases(size):
    for head, name in ((INIT, "INIT"), (VIEW, "VIEW"), (LEGAL, "LEGAL"), (GOAL, "GOAL"), (TERMINAL, "TERMINAL")):
        if head == VIEW and size[2] == 0:
            continue
        for count in (1, 2, 8):
            body = [(TRUE, 0)] * (count - 1) + [(DOES, 0, 0)]
            for order in (body, body[::-1]):
                yield Case(one_state_sheet(size, [ru(head, 0, 0, *order)]), "field limits", ("4 DOES under " + name,), "no 4 1")
    for literal in ((TRUE, 0), (NOT_TRUE, 0), (DOES, 0, 0)):
        yield Case(one_state_sheet(size, [ru(TERMINAL), ru(INIT, 0, 0, literal)]), "field limits", ("4 INIT with literals",), "no 4 2")


def field_cases():
    yield from size_cases()
    for size in SIZES:
        yield from head_cases(size)
        yield from literal_cases(size)
        for own in (0, 1, 5):
            yield from node_cases(size, own)
        yield from misplaced_cases(size)
    yield from node_cases((4, 64, 64, 16), 63)


# ---- Two faults at once ----------------------------------------------------

def faulty_rule(faults):
    """One RU record with each of these faults in it (1a, 3, 1b, 2, 4).  For
    1a the record must then be put after a node; for 1b it must end the
    sheet."""
    head, a, b = (INIT, 0, 0) if "4" in faults else (NEXT, 0, 0)
    if "2" in faults:
        a = 200
    body = [(TRUE, 0)] * (9 if "3" in faults else 2)
    record = ru(head, a, b, *body) if body else ru(head, a, b)
    if "1b" in faults:
        record = record[:-1]
    return record


def one_record_pairs():
    size, node = sz(2, 3, 1, 2), fo(N_TRUE)
    for i, x in enumerate(RECORD_CHECKS):
        for y in RECORD_CHECKS[i + 1:]:
            record = faulty_rule({x, y})
            before = [size, node] if x == "1a" else [size]
            after = [] if "1b" in (x, y) else ([node, ED])
            if x == "1b":
                after = []
            tag = "one record: %s before %s" % (x, y)
            expect = "no %s %d" % (number_of(x), len(before))
            yield Case(join(before + [record] + after), "two faults", (tag,), expect)
    yield from more_record_pairs(size, node)


def more_record_pairs(size, node):
    """Pairs worked out one by one: number, place, tag, records."""
    full = [ru(TERMINAL)] * 512
    nodes = [node] * 64
    table = [
        # the six bytes come before the 513th rule and the 65th node
        (1, 513, "one record: 1a before 3", [size, *full, ru(TERMINAL)[:5]]),
        (1, 513, "one record: 1a before 3", [size, *full, b"RU"]),
        (1, 65, "one record: 1a before 3", [size, *nodes, node[:5]]),
        (1, 65, "one record: 1a before 3", [size, *nodes, b"FO"]),
        (1, 65, "one record: 1a before 3", [size, *nodes, ru(NEXT, 0, 0, *[(TRUE, 0)] * 9), ED]),
        # 3 comes before the literals and before the fields
        (3, 513, "one record: 3 before 1b", [size, *full, ru(NEXT, 0, 0, (TRUE, 0))[:6]]),
        (3, 513, "one record: 3 before 1b", [size, *full, b"RU\x01\x00\x00\x08"]),
        (3, 1, "one record: 3 before 1b", [size, b"RU\x02\x00\x00\x09"]),
        (3, 1, "one record: 3 before 1b", [size, b"RU\x02\x00\x00\xff"]),
        (3, 513, "one record: 3 before 2", [size, *full, ru(99, 0, 0), node, ED]),
        (3, 65, "one record: 3 before 2", [size, *nodes, fo(99, 1, 2, 3), ED]),
        (3, 65, "one record: 3 before 2", [size, *nodes, fo(N_NOT, 64), ED]),
        (3, 1, "one record: 3 before 2", [size, ru(99, 9, 9, *[(99, 99, 99)] * 9), node, ED]),
        (3, 513, "one record: 3 before 4", [size, *full, ru(INIT, 0, 0, (TRUE, 0)), node, ED]),
        (3, 1, "one record: 3 before 4", [size, ru(INIT, 0, 0, *[(DOES, 0, 0)] * 9), node, ED]),
        # the literals come before the fields
        (1, 1, "one record: 1b before 2", [size, b"RU\x00\x00\x00\x01"]),
        (1, 1, "one record: 1b before 2", [size, ru(99, 0, 0, (99, 99, 99), (TRUE, 0))[:-1]]),
        (1, 1, "one record: 1b before 4", [size, ru(INIT, 0, 0, (TRUE, 0), (TRUE, 0))[:-1]]),
        (1, 1, "one record: 1b before 4", [size, ru(LEGAL, 0, 0, (DOES, 0, 0), (TRUE, 0))[:-3]]),
        # the fields of head and literals come before the misplaced literal
        (2, 1, "one record: 2 before 4", [size, ru(INIT, 3, 0, (TRUE, 0)), node, ED]),
        (2, 1, "one record: 2 before 4", [size, ru(INIT, 0, 1, (TRUE, 0)), node, ED]),
        (2, 1, "one record: 2 before 4", [size, ru(INIT, 0, 0, (TRUE, 3)), node, ED]),
        (2, 1, "one record: 2 before 4", [size, ru(INIT, 0, 0, (6, 0)), node, ED]),
        (2, 1, "one record: 2 before 4", [size, ru(LEGAL, 0, 0, (DOES, 0, 2)), node, ED]),
        (2, 1, "one record: 2 before 4", [size, ru(LEGAL, 0, 0, (DOES, 0, 0), (TRUE, 9)), node, ED]),
        (2, 1, "one record: 2 before 4", [size, ru(TERMINAL, 0, 1, (DOES, 0, 0)), node, ED]),
        (2, 1, "one record: 2 before 4", [size, ru(7, 0, 0, (DOES, 0, 0)), node, ED]),
        # the whole six bytes come before the fields
        (1, 0, "one record: 1a before 2", [b"SZ\x00\x00\x00"]),
        (1, 1, "one record: 1a before 2", [size, b"FO\x63\x63\x63"]),
        (1, 1, "one record: 1a before 2", [size, b"RU\x63\x63\x63"]),
        (1, 2, "one record: 1a before 4", [size, node, ru(TERMINAL, 0, 0, (DOES, 0, 0)), ED]),
        (1, 2, "one record: 1a before 1b", [size, node, ru(NEXT, 0, 0, (DOES, 0, 0))[:7]]),
    ]
    for number, place, tag, records in table:
        yield Case(join(records), "two faults", (tag,), "no %d %d" % (number, place))


def whole_record_fault(check):
    """A record with one fault.  Cut literals (1b) are only seen at the end of
    a sheet, so what follows such a record must be kept short."""
    return {"1a": sz(1, 1, 0, 1), "3": ru(NEXT, 0, 0, *[(TRUE, 0)] * 9), "1b": ru(NEXT, 0, 0, *[(TRUE, 0)] * 8)[:6],
            "2": ru(NEXT, 77, 0), "4": ru(INIT, 0, 0, (TRUE, 0))}[check]


def record_after_record():
    """Fault x in record 1 and fault y in record 2: x is told.  With x = 1b
    the record claims eight literals and the sheet ends before the last."""
    size, node = sz(2, 3, 1, 2), fo(N_TRUE)
    for x in RECORD_CHECKS:
        for y in RECORD_CHECKS:
            records = [size, whole_record_fault(x), whole_record_fault(y)]
            if "1b" not in (x, y):
                records += [node, ED]
            sheet = join(records)
            if x == "1b":
                sheet = sheet[:6 + 6 + 23]
            yield Case(sheet, "two faults", ("record after record: %s then %s" % (x, y),), "no %s 1" % number_of(x))


def put(places):
    """A fault that writes these bytes into the record."""
    def fault(record):
        for at, value in places.items():
            record[at] = value
        return record
    return fault


def nine_literals(record):
    record[5] = 9
    return record + bytes([TRUE, 0, 0]) * 6


def cut_to(length):
    return lambda record: record[:length]


# Faults for the rule LEGAL 0 0 with three literals TRUE 0: the check, the
# bytes it touches, what it does.  Sizes are 2 roles, 3 facts, 1 view, 2 moves.
RULE_FAULTS = (
    [("1a", {0}, put({0: ord("X")})), ("1a", {1}, put({1: ord("V")}))]
    + [("1a", {"end"}, cut_to(n)) for n in (3, 5)]
    + [("3", {5}, nine_literals)]
    + [("1b", {"end"}, cut_to(n)) for n in (6, 8, 14)]
    + [("2", {2}, put({2: 9})), ("2", {3}, put({3: 99})), ("2", {4}, put({4: 99})), ("4", {2}, put({2: INIT}))]
    + [("2", {6 + 3 * i, 7 + 3 * i, 8 + 3 * i}, put({6 + 3 * i: 0})) for i in range(3)]
    + [("2", {6 + 3 * i, 7 + 3 * i, 8 + 3 * i}, put({7 + 3 * i: 3})) for i in range(3)]
    + [("2", {6 + 3 * i, 7 + 3 * i, 8 + 3 * i}, put({8 + 3 * i: 1})) for i in range(3)]
    + [("4", {6 + 3 * i, 7 + 3 * i, 8 + 3 * i}, put({6 + 3 * i: DOES})) for i in range(3)]
)

# The same for the node AND 0 0, whose number is 2.
NODE_FAULTS = (
    [("1a", {0}, put({0: ord("X")})), ("1a", {"end"}, cut_to(4)), ("1a", {"end"}, cut_to(5))]
    + [("2", {2}, put({2: 0})), ("2", {3}, put({3: 2})), ("2", {4}, put({4: 255})), ("2", {5}, put({5: 1}))]
)

SIZE_FAULTS = (
    [("1a", {0}, put({0: ord("X")})), ("1a", {"end"}, cut_to(5))]
    + [("2", {2}, put({2: 0})), ("2", {3}, put({3: 65})), ("2", {4}, put({4: 65})), ("2", {5}, put({5: 17}))]
)


def pairs_of_faults(good, faults):
    """Two faults in one record that do not touch the same bytes.  A cut comes
    last of all and ends the sheet."""
    for one, other in itertools.combinations(faults, 2):
        if one[1] & other[1]:
            continue
        record, cut = bytearray(good), "end" in one[1] | other[1]
        for fault in sorted((one, other), key=lambda f: "end" in f[1]):
            record = fault[2](record)
        told, untold = sorted((one[0], other[0]), key=RECORD_CHECKS.index)
        tags = ("one record: %s before %s" % (told, untold),) if told != untold else ()
        yield bytes(record), cut, tags, number_of(told)


def all_pairs_of_faults():
    size, node = sz(2, 3, 1, 2), fo(N_TRUE)
    rule = ru(LEGAL, 0, 0, (TRUE, 0), (TRUE, 0), (TRUE, 0))
    for before in ([size], [size, ru(TERMINAL), rule]):
        for record, cut, tags, number in pairs_of_faults(rule, RULE_FAULTS):
            rest = [] if cut else [rule, node, ED]
            yield Case(join(before + [record] + rest), "two faults", tags, "no %s %d" % (number, len(before)))
    for record, cut, tags, number in pairs_of_faults(fo(N_AND, 0, 0), NODE_FAULTS):
        rest = [] if cut else [node, ED]
        yield Case(join([size, node, node, record] + rest), "two faults", tags, "no %s 3" % number)
    for record, cut, tags, number in pairs_of_faults(size, SIZE_FAULTS):
        rest = [] if cut else [node, ED]
        yield Case(join([record] + rest), "two faults", tags, "no %s 0" % number)


BAD_VIEWS = [ru(VIEW, 0, 0, (NOT_VIEW, 0))]


def record_before_model():
    """A fault of a record is told before the levels of views and before any
    state, wherever the rules for those stand."""
    node = fo(N_TRUE)
    for x in RECORD_CHECKS:
        for place in ("before", "after"):
            bad = whole_record_fault(x)
            if x == "1b" and place == "before":
                continue
            for y, rules in [("5", BAD_VIEWS)] + [(y, None) for y in STATE_CHECKS]:
                size, lines = (sz(2, 3, 1, 2), rules) if rules else state_fault_records(y, y)
                records = [size] + ([bad] + lines if place == "before" else lines + [bad])
                if x != "1b":
                    records += [node, ED]
                expect = "no %s %d" % (number_of(x), 1 if place == "before" else len(lines) + 1)
                yield Case(join(records), "two faults", ("%s before %s" % (x, y),), expect)
    for tail, tag in ((b"", "1a"), (b"EDx", "1a"), (fo(99) + ED, "2"), (node * 64 + ED, "3")):
        expect = {"": "no 1 3", "EDx": "no 1 4"}.get(tail.decode("latin1"))
        expect = expect or ("no 2 3" if tag == "2" else "no 3 66")
        yield Case(join([sz(1, 1, 1, 1)] + BAD_VIEWS + [node]) + tail, "two faults", ("%s before 5" % tag,), expect)


# ---- States that are refused -----------------------------------------------

def legal_for(fault, role, guard):
    """LEGAL rules of a role in the states that the guard picks."""
    if fault == "8" and role == 1:
        moves = []
    elif fault == "7" or (fault == "6" and role < 3):
        moves = range(16)
    else:
        moves = [0]
    return [ru(LEGAL, role, m, guard) for m in moves]


def state_fault_records(x, y):
    """State 0 leads to states 1 and 2; state 1 is refused with x when it is
    expanded, state 2 with y.  Fact 0 marks state 1, fact 1 marks state 2,
    facts 2 to 13 carry the moves of roles 0 to 2 so that 4,096 joint moves
    lead to 4,096 states."""
    neither = ((NOT_TRUE, 0), (NOT_TRUE, 1))
    rules = [ru(LEGAL, 0, m, *neither) for m in (0, 1)] + [ru(LEGAL, r, 0, *neither) for r in (1, 2, 3)]
    for role in range(4):
        rules += legal_for(x, role, (TRUE, 0)) + legal_for(y, role, (TRUE, 1))
    rules += [ru(NEXT, 0, 0, (DOES, 0, 0), *neither), ru(NEXT, 1, 0, (DOES, 0, 1), *neither)]
    for role in range(3):
        for digit in range(4):
            rules += [ru(NEXT, 2 + 4 * role + digit, 0, (DOES, role, m)) for m in range(16) if m >> digit & 1]
    for role in range(4):
        rules += name_moves(role, range(16))
    return sz(4, 14, 1, 16), rules


def state_after_state():
    for x in STATE_CHECKS:
        for y in STATE_CHECKS:
            size, rules = state_fault_records(x, y)
            tag = "state after state: %s then %s" % (x, y)
            yield Case(join([size, *rules, fo(N_TRUE), ED]), "two faults", (tag,), "no %s 1" % x)
    for y in STATE_CHECKS:
        size, rules = state_fault_records(y, y)
        yield Case(join([size, *rules, *BAD_VIEWS, fo(N_TRUE), ED]), "two faults", ("5 before " + y,), "no 5 0")


def empty_role_beside_full_ones():
    """States 0 and 1 use up all 8,192 joint moves; in state 2 three roles
    have 16 choices and the fourth has none.  Without that role there would
    be too many joint moves; with it there are none, and 8 is told."""
    rules = [ru(LEGAL, r, m) for r in range(3) for m in range(16)]
    rules += [ru(LEGAL, 3, 5, (NOT_TRUE, 1))]
    rules += [rule for r in range(3) for rule in name_moves(r, range(16))]
    rules += name_moves(3, [5, 6])
    rules += [ru(NEXT, 0, 0, (NOT_TRUE, 0)), ru(NEXT, 1, 0, (TRUE, 0))]
    return join([sz(4, 3, 0, 16), *rules, fo(N_TRUE), ED])


def many_moves_many_states(roles):
    """State 0 has 16 to the power of roles joint moves, each to a state of
    its own."""
    rules = [ru(LEGAL, r, m) for r in range(roles) for m in range(16)]
    for role in range(roles):
        for digit in range(4):
            rules += [ru(NEXT, 4 * role + digit, 0, (DOES, role, m)) for m in range(16) if m >> digit & 1]
        rules += name_moves(role, [0])
    return join([sz(roles, 4 * roles, 0, 16), *rules, fo(N_TRUE), ED])


def product_cases(rng):
    """One state that leads to itself, with a given number of choices for
    each role: the joint moves are their product."""
    widths = [(16, 16, 16, 2), (16, 16, 16, 3), (16, 16, 16, 16), (8, 16, 8, 8), (8, 16, 9, 8), (16, 16, 16), (1, 1, 1, 1),
              (16,), (16, 16), (2, 16, 16, 16), (3, 16, 16, 16), (13, 7, 9, 10), (13, 9, 7, 10), (15, 14, 13, 3), (15, 14, 13, 4)]
    widths += [tuple(rng.randint(1, 16) for _ in range(rng.randint(1, 4))) for _ in range(40)]
    for width in widths:
        product = 1
        for w in width:
            product *= w
        rules = []
        for role, w in enumerate(width):
            moves = rng.sample(range(16), w)
            rules += [ru(LEGAL, role, m) for m in range(16)]   # those never in DOES are no moves
            rules += name_moves(role, moves)
        sheet = join([sz(len(width), 1, 0, 16), *rules, fo(N_TRUE), ED])
        if product <= 8192:
            yield Case(sheet, "products", (), "ok 1 %d yes\n0 0 %d 1 - -\n" % (product, product))
        else:
            yield Case(sheet, "products", ("7 in the first state",), "no 7 0\n")


def fan_rules():
    """State 0 has 4,096 joint moves.  Roles 1 and 2 write their moves in
    binary with four facts each, role 0 writes only the two low digits of its
    own: 1,024 successors, of which the empty one is state 0 itself.  All the
    others are terminal."""
    rules = [ru(LEGAL, role, m) for role in range(3) for m in range(16)]
    for role, digits in ((0, 2), (1, 4), (2, 4)):
        for digit in range(digits):
            rules += [ru(NEXT, 4 * role + digit, 0, (DOES, role, m)) for m in range(16) if m >> digit & 1]
        rules += name_moves(role, range(16))
    return rules + [ru(TERMINAL, 0, 0, (TRUE, f)) for f in range(12)]


def fan_cases():
    """1,024 states by one expansion, with 4,096 + 1,023 joint moves; then one
    joint move leads somewhere else: the last, one in the middle, the first."""
    size, few = sz(3, 12, 0, 16), fan_rules()
    yield Case(join([size, *few, fo(N_TRUE), ED]), "limits", (), "ok 1024 5119 yes\n")
    for moves in ((15, 15, 15), (11, 15, 15), (4, 7, 0), (12, 0, 0)):
        other = ru(NEXT, 2, 0, *[(DOES, role, m) for role, m in enumerate(moves)])
        yield Case(join([size, *few, other, fo(N_TRUE), ED]), "limits", ("6 by many moves",), "no 6 0\n")


def wide_counter(bits, extra_at=None, widths=(8,)):
    """A counter whose every state has the product of `widths` joint moves;
    in the state where all facts hold, role 0 may have one choice more."""
    rules = counter_rules(bits, played=False)
    for role, width in enumerate(widths):
        rules += [ru(LEGAL, role, m) for m in range(width)]
        rules += name_moves(role, range(width))
    if extra_at is not None:
        rules += [ru(LEGAL, 0, 15, (IS_VIEW, extra_at))] + name_moves(0, [15])
    return join([sz(len(widths), bits, bits + 1, 16), *rules, fo(N_TRUE), ED])


def no_choice_cases():
    size, node = sz(2, 2, 0, 3), fo(N_TRUE)
    step = ru(NEXT, 0, 0, (DOES, 0, 0), (DOES, 1, 0))
    yield Case(join([size, ru(LEGAL, 0, 0), ru(LEGAL, 1, 1), step, node, ED]), "limits", ("8 LEGAL but never DOES",), "no 8 0\n")
    yield Case(join([size, node, ED]), "limits", ("8 no LEGAL",), "no 8 0\n")
    yield Case(join([size, ru(LEGAL, 0, 0), ru(LEGAL, 1, 0), node, ED]), "limits", ("8 LEGAL but never DOES",), "no 8 0\n")
    yield Case(join([size, ru(LEGAL, 0, 0), ru(LEGAL, 1, 0, (NOT_TRUE, 0)), step, node, ED]), "limits",
               ("8 in a later state",), "no 8 1\n")
    yield Case(join([size, ru(LEGAL, 0, 0), ru(LEGAL, 1, 0, (NOT_TRUE, 0)), step, ru(TERMINAL, 0, 0, (TRUE, 0)), node, ED]),
               "limits", (), "ok 2 2 yes\n0 0 1 1 - -\n1 1 1 1 - -\n")
    # LEGAL still holds where the state is terminal and where DOES never names the move
    yield Case(join([size, ru(LEGAL, 0, 2), ru(TERMINAL), fo(N_LEGAL, 0, 2), ED]), "limits", (), "ok 1 1 yes\n")


def large_number_cases():
    """Facts up to 63 as a decimal number without a sign."""
    for facts in ([63], [0, 63], [62], [32], [31, 33], list(range(64)), list(range(1, 64))):
        sheet = join([sz(1, 64, 0, 1), *[ru(INIT, f) for f in facts], ru(TERMINAL), fo(N_FACT, 63), ED])
        held = 63 in facts
        expect = "ok 1 1 %s\n0 %d 1 %d - -\n" % ("yes" if held else "no", sum(2 ** f for f in facts), held)
        yield Case(sheet, "limits", (), expect)


def model_limit_cases(rng):
    yield from large_number_cases()
    for bits in range(1, 14):
        tags = ("6 by one move",) if bits > 10 else ()
        yield Case(counter_sheet(bits), "limits", tags, counter_listing(bits))
    for widths in ((8,), (4, 2), (2, 2, 2), (1, 8, 1), (2, 1, 2, 2)):
        yield Case(wide_counter(10, None, widths), "limits", (), "ok 1024 8192 yes\n")
        yield Case(wide_counter(10, 10, widths), "limits", ("7 in a later state",), "no 7 1023\n")
    yield Case(wide_counter(10, None, (9,)), "limits", ("7 in a later state",), "no 7 910\n")
    yield Case(wide_counter(10, None, (3, 3)), "limits", ("7 in a later state",), "no 7 910\n")
    yield Case(wide_counter(11, None, (8,)), "limits", ("6 by one move",), "no 6 1023\n")
    yield Case(wide_counter(11, None, (1,)), "limits", ("6 by one move",), "no 6 1023\n")
    yield Case(empty_role_beside_full_ones(), "limits", ("one state: 8 before 7", "8 in a later state"), "no 8 2\n")
    yield Case(many_moves_many_states(4), "limits", ("one state: 7 before 6", "7 in the first state"), "no 7 0\n")
    yield Case(many_moves_many_states(3), "limits", ("6 by many moves",), "no 6 0\n")
    # 256 states of 256 joint moves each: the first 32 use up all there are
    yield Case(many_moves_many_states(2), "limits", ("7 in a later state",), "no 7 32\n")
    yield from fan_cases()
    yield from no_choice_cases()
    yield from product_cases(rng)


def record_limit_cases():
    """Counts of records and literals at and past their limits."""
    size, node = sz(4, 64, 64, 16), fo(N_TRUE)
    longest = join([size] + [ru(TERMINAL, 0, 0, *[(NOT_TRUE, 63)] * 8)] * 512 + [node] * 63 + [fo(N_UNTIL, 62, 62, 15), ED])
    assert len(longest) == 15752
    yield Case(longest, "limits", (), "ok 1 1 yes\n0 0 1 1 - -\n")
    yield Case(longest + b"\0", "limits", ("1 bytes after ED",), "no 1 578\n")
    yield Case(longest[:-1], "limits", ("1 ED cut short",), "no 1 577\n")
    for rules in (0, 1, 511, 512, 513, 514, 600):
        for nodes in (1, 2, 63, 64, 65, 66, 90):
            sheet = join([size] + [ru(TERMINAL)] * rules + [node] * nodes + [ED])
            if rules > 512:
                yield Case(sheet, "limits", ("3 513th rule",), "no 3 513\n")
            elif nodes > 64:
                yield Case(sheet, "limits", ("3 65th node",), "no 3 %d\n" % (rules + 65))
            else:
                yield Case(sheet, "limits", (), "no 8 0\n" if rules == 0 else "ok 1 1 yes\n")
    for count in (8, 9, 10, 64, 128, 255):
        sheet = join([size, ru(NEXT, 0, 0, *[(TRUE, 0)] * count), ru(TERMINAL), node, ED])
        yield Case(sheet, "limits", ("3 literal count",) if count > 8 else (), "ok 1 1 yes\n" if count <= 8 else "no 3 1\n")


# ---- Views and levels --------------------------------------------------------

def view_case(views, edges, expect, tag=None):
    """Edges are (head, body view, negated); state 0 is terminal."""
    rules = [ru(VIEW, h, 0, (NOT_VIEW if negated else IS_VIEW, b)) for h, b, negated in edges]
    return Case(one_state_sheet((1, 1, views, 1), rules), "views", (tag,) if tag else (), expect)


def view_cases(rng):
    yield view_case(1, [(0, 0, 1)], "no 5 0", "5 own NOT")
    yield view_case(64, [(63, 63, 1)], "no 5 63", "5 own NOT")
    yield view_case(4, [(3, 2, 0), (2, 3, 1)], "no 5 2", "5 longer chain")
    yield view_case(4, [(3, 2, 1), (2, 3, 1)], "no 5 2", "5 longer chain")
    yield view_case(4, [(1, 2, 0), (2, 1, 0), (0, 1, 1)], "ok 1 1 yes")
    # 0 and 1 form a plain circle, 1 and 2 one with a NOT: a closed chain from
    # 0 goes round both and passes 1 twice
    yield view_case(3, [(0, 1, 0), (1, 0, 0), (1, 2, 1), (2, 1, 0)], "no 5 0", "5 view passed twice")
    yield view_case(5, [(1, 2, 0), (2, 1, 0), (2, 3, 0), (3, 2, 0), (3, 4, 1), (4, 3, 0)], "no 5 1", "5 view passed twice")
    # 0 leads into the bad chain but does not come back; 0 and 1 are a good circle
    yield view_case(4, [(0, 1, 0), (1, 0, 0), (1, 2, 1), (2, 3, 0), (3, 2, 1)], "no 5 2", "5 beside a good circle")
    yield view_case(4, [(2, 0, 1), (0, 1, 0), (1, 0, 0), (3, 3, 1)], "no 5 3", "5 beside a good circle")
    # the bad chain leads into 0, which is not on it
    yield view_case(3, [(1, 2, 1), (2, 1, 0), (2, 0, 1)], "no 5 1", "5 beside a good circle")
    for _ in range(60):
        length = rng.randint(2, 64)
        order = rng.sample(range(64), length)
        nots = rng.randint(0, 2)
        marks = [1] * nots + [0] * (length - nots) if nots <= length else [1] * length
        rng.shuffle(marks)
        edges = [(order[i], order[(i + 1) % length], marks[i]) for i in range(length)]
        rng.shuffle(edges)
        if any(marks):
            yield view_case(64, edges, "no 5 %d" % min(order), "5 longer chain")
        else:
            yield view_case(64, edges, "ok 1 1 yes")


def level_listing_cases():
    """A chain of views, each the NOT of the one before, in any rule order:
    view i holds exactly when i is odd (view 0 has no rule)."""
    for views in (2, 3, 10, 64):
        chain = [ru(VIEW, i, 0, (NOT_VIEW, i - 1)) for i in range(1, views)]
        for rules in (chain, chain[::-1]):
            for asked in {0, 1, views - 2, views - 1}:
                verdict = "yes" if asked % 2 else "no"
                sheet = one_state_sheet((1, 1, views, 1), rules, [fo(N_VIEW, asked)])
                yield Case(sheet, "views", (), "ok 1 1 %s\n" % verdict)


def circle_cases():
    """A plain circle of views: with one way in all of them hold, without one
    none does, in whatever order the rules stand."""
    for views in (2, 3, 4, 5, 9, 33, 64):
        circle = [ru(VIEW, i, 0, (IS_VIEW, (i + 1) % views)) for i in range(views)]
        way_in = [ru(VIEW, views - 1, 0, (NOT_TRUE, 0))]
        for rules in (circle + way_in, (circle + way_in)[::-1]):
            for asked in (0, views // 2, views - 1):
                yield Case(one_state_sheet((1, 1, views, 1), rules, [fo(N_VIEW, asked)]), "views", (), "ok 1 1 yes\n")
        yield Case(one_state_sheet((1, 1, views, 1), circle, [fo(N_VIEW, 0)]), "views", (), "ok 1 1 no\n")


# ---- Who chooses first ---------------------------------------------------------

def pennies_rules(roles):
    """Every role says 0 or 1; fact 0 comes when the ones are odd in number,
    and then the game is over.  Whoever chooses last decides, so only all
    together can force anything."""
    rules = [ru(LEGAL, r, m) for r in range(roles) for m in (0, 1)] + [ru(TERMINAL, 0, 0, (TRUE, 0))]
    for joint in itertools.product((0, 1), repeat=roles):
        if sum(joint) % 2:
            rules.append(ru(NEXT, 0, 0, *[(DOES, r, m) for r, m in enumerate(joint)]))
    return rules + [rule for r in range(roles) for rule in name_moves(r, [0, 1])]


def pennies_cases():
    """Every coalition and every kind of future.  State 1 has fact 0.  The
    lowest joint move to it is 1: the last role alone says 1."""
    for roles in (1, 2, 3, 4):
        head = [sz(roles, 1, 0, 2), *pennies_rules(roles), fo(N_FACT, 0), fo(N_NOT, 0), fo(N_TRUE)]
        joint = 2 ** roles
        for coalition in range(2 ** roles):
            able = coalition == 2 ** roles - 1
            verdict, mark = ("yes", 1) if able else ("no", 0)
            first = "ok 2 %d %s\n0 0 %d %d " % (joint + 1, verdict, joint, mark)
            plan = "1 1\n1 1 1 1 0 -\n" if able else "- -\n1 1 1 1 0 -\n"
            for node, rest in ((fo(N_NEXT, 0, 0, coalition), "- -\n1 1 1 1 - -\n"),
                               (fo(N_NEXT, 1, 0, coalition), "- -\n1 1 1 0 - -\n"),
                               (fo(N_ALWAYS, 1, 0, coalition), "- -\n1 1 1 0 - -\n"),
                               (fo(N_UNTIL, 2, 0, coalition), "- -\n1 1 1 1 - -\n"),
                               (fo(N_UNTIL, 1, 0, coalition), "- -\n1 1 1 1 - -\n"),
                               (fo(N_EVENTUALLY, 0, 0, coalition), plan)):
                yield Case(join(head + [node, ED]), "who chooses first", (), first + rest)


def joint_number(moves, chosen):
    """The number of the lowest joint move with these choices (role: move) and
    the lowest choice of every other role."""
    number = 0
    for role, own in enumerate(moves):
        digit = own.index(chosen[role]) if role in chosen else 0
        number = number * len(own) + digit
    return number


def choice_case(rng):
    """State 0 has up to three ways to the goal (fact 0): some choices of the
    coalition that win at once whatever the others do; some that lead surely
    to fact 1 and win one move later; and a lure, where every joint move wins
    unless one of the others makes its last move."""
    roles = rng.randint(1, 4)
    moves = [sorted(rng.sample(range(16), rng.randint(1, 4))) for _ in range(roles)]
    coalition = [r for r in range(roles) if rng.random() < 0.6]
    others = [r for r in range(roles) if r not in coalition and len(moves[r]) > 1]
    profiles = [dict(zip(coalition, p)) for p in itertools.product(*[moves[r] for r in coalition])]
    rng.shuffle(profiles)
    wins = profiles[:rng.choice((0, 1, 1, 2))]
    later = profiles[len(wins):][:rng.choice((0, 1, 2))]
    lure = rng.choice(others) if others and rng.random() < 0.7 else None
    rules = [ru(LEGAL, r, m) for r in range(roles) for m in moves[r]]
    rules += [rule for r in range(roles) for rule in name_moves(r, moves[r])]
    rules += [ru(NEXT, 0, 0, (NOT_TRUE, 1), *[(DOES, r, m) for r, m in p.items()]) for p in wins]
    rules += [ru(NEXT, 1, 0, (NOT_TRUE, 1), *[(DOES, r, m) for r, m in p.items()]) for p in later]
    rules += [ru(NEXT, 0, 0, (TRUE, 1)), ru(TERMINAL, 0, 0, (TRUE, 0))]
    if lure is not None:
        rules += [ru(NEXT, 0, 0, (NOT_TRUE, 1), (DOES, lure, m)) for m in moves[lure][:-1]]
    rng.shuffle(rules)
    mask = sum(1 << r for r in coalition)
    sheet = join([sz(roles, 2, 0, 16), *rules, fo(N_FACT, 0), fo(N_EVENTUALLY, 0, 0, mask), ED])
    joint = 1
    for own in moves:
        joint *= len(own)
    return Case(sheet, "choices", (), choice_answer(moves, joint, wins, later, lure))


def choice_answer(moves, joint, wins, later, lure):
    """States beside 0: {0} when anything wins; {1} when something wins later;
    {0, 1} when the lure comes together with that."""
    states, total = 1, joint
    if wins or later or lure is not None:
        states, total = states + 1, total + 1
    if later:
        states, total = states + 1, total + joint
    if later and lure is not None:
        states, total = states + 1, total + 1
    ways = wins or later
    if not ways:
        return "ok %d %d no\n0 0 %d 0 - -\n" % (states, total, joint)
    choice = min(joint_number(moves, p) for p in ways)
    return "ok %d %d yes\n0 0 %d 1 %d %d\n" % (states, total, joint, 1 if wins else 2, choice)


def choice_cases(rng):
    for _ in range(400):
        yield choice_case(rng)


# ---- Random sheets -------------------------------------------------------------

class Shape:
    """What a random sheet may look like."""

    def __init__(self, rng, roles, facts, views, moves, **more):
        self.rng, self.roles, self.facts, self.views, self.moves = rng, roles, facts, views, moves
        self.next_rules = more.get("next_rules", 2 * facts)
        self.view_rules = more.get("view_rules", 2 * views)
        self.goal_rules = more.get("goal_rules", 2)
        self.terminal = more.get("terminal", 0.5)
        self.stratified = more.get("stratified", True)
        self.safe = more.get("safe", 0.9)      # how often every role always has a choice
        self.nodes = more.get("nodes", rng.randint(1, 10))
        self.last = more.get("last")
        self.level = [rng.randint(0, 3) for _ in range(views)]


def state_literal(s):
    """A literal that any rule but INIT may have."""
    rng = s.rng
    if s.views and rng.random() < 0.45:
        return (rng.choice((IS_VIEW, NOT_VIEW)), rng.randrange(s.views))
    return (rng.choice((TRUE, NOT_TRUE)), rng.randrange(s.facts))


def view_literal(s, head):
    """A literal under a view: levels keep it stratified unless wanted not."""
    rng = s.rng
    if rng.random() < 0.6:
        body, negated = rng.randrange(s.views), rng.random() < 0.4
        if not s.stratified or s.level[body] < s.level[head] or (not negated and s.level[body] == s.level[head]):
            return (NOT_VIEW if negated else IS_VIEW, body)
    return (rng.choice((TRUE, NOT_TRUE)), rng.randrange(s.facts))


def body_size(rng):
    return rng.choice((0, 1, 1, 1, 2, 2, 3, 4, 8) if rng.random() < 0.3 else (1, 1, 2, 2))


def random_view_rules(s):
    rules = []
    for _ in range(s.view_rules if s.views else 0):
        head = s.rng.randrange(s.views)
        rules.append(ru(VIEW, head, 0, *[view_literal(s, head) for _ in range(body_size(s.rng))]))
    return rules


def random_next_rules(s):
    rng, rules = s.rng, []
    for _ in range(s.next_rules):
        body = [state_literal(s) for _ in range(rng.randint(0, 2))]
        for _ in range(rng.choice((0, 1, 1, 2, 2, 3))):
            body.append((DOES, rng.randrange(s.roles), rng.randrange(s.moves)))
        rng.shuffle(body)
        rules.append(ru(NEXT, rng.randrange(s.facts), 0, *body))
    return rules


def random_legal_rules(s):
    rng, rules = s.rng, []
    safe = rng.random() < s.safe
    for role in range(s.roles):
        for move in range(s.moves):
            luck = rng.random()
            if luck < 0.5:
                rules.append(ru(LEGAL, role, move))
            elif luck < 0.9:
                rules.append(ru(LEGAL, role, move, *[state_literal(s) for _ in range(rng.randint(1, 2))]))
        if safe:
            move = rng.randrange(s.moves)
            rules.append(ru(LEGAL, role, move))
            rules.append(ru(NEXT, rng.randrange(s.facts), 0, (DOES, role, move), state_literal(s)))
    return rules


def random_end_rules(s):
    rng = s.rng
    rules = [ru(GOAL, rng.randrange(s.roles), rng.choice((0, 50, 100)), state_literal(s)) for _ in range(s.goal_rules)]
    if rng.random() < s.terminal:
        for _ in range(rng.randint(1, 2)):
            rules.append(ru(TERMINAL, 0, 0, *[state_literal(s) for _ in range(rng.randint(1, 3))]))
    return rules


def random_plain_node(s):
    rng = s.rng
    kind = rng.choice((N_TRUE, N_FACT, N_FACT, N_FACT, N_VIEW, N_LEGAL, N_GOAL, N_TERMINAL))
    if kind == N_FACT or (kind == N_VIEW and not s.views):
        return fo(N_FACT, rng.randrange(s.facts))
    if kind == N_VIEW:
        return fo(N_VIEW, rng.randrange(s.views))
    if kind == N_LEGAL:
        return fo(N_LEGAL, rng.randrange(s.roles), rng.randrange(s.moves))
    if kind == N_GOAL:
        return fo(N_GOAL, rng.randrange(s.roles), rng.choice((0, 50, 100)))
    return fo(kind)


def random_node(s, own, kind=None):
    rng = s.rng
    if own == 0 or (kind is None and rng.random() < 0.25):
        return random_plain_node(s)
    kind = kind or rng.choice((N_NOT, N_AND, N_OR) + (N_NEXT, N_ALWAYS, N_EVENTUALLY, N_UNTIL) * 2)
    a, b = rng.randrange(max(0, own - 5), own), rng.randrange(own)
    if kind == N_NOT:
        return fo(kind, a)
    if kind in (N_AND, N_OR):
        return fo(kind, a, b)
    coalition = rng.randrange(2 ** s.roles)
    return fo(kind, a, b if kind == N_UNTIL else 0, coalition)


def random_nodes(s):
    nodes = [random_node(s, i) for i in range(s.nodes)]
    if s.nodes > 1 and s.rng.random() < 0.7:
        nodes[-1] = random_node(s, s.nodes - 1, s.last or s.rng.choice((N_EVENTUALLY, N_EVENTUALLY, N_ALWAYS, N_UNTIL, N_NEXT)))
    return nodes


def random_records(s):
    rng = s.rng
    rules = [ru(INIT, f) for f in range(s.facts) if rng.random() < 0.25]
    rules += random_view_rules(s) + random_legal_rules(s) + random_next_rules(s) + random_end_rules(s)
    rng.shuffle(rules)
    return [sz(s.roles, s.facts, s.views, s.moves), *rules[:512], *random_nodes(s), ED]


def small_shape(rng):
    roles = rng.choice((1, 2, 2, 2, 3))
    return Shape(rng, roles, rng.randint(1, 3), rng.randint(0, 4), rng.randint(1, 3 if roles < 3 else 2),
                 nodes=rng.randint(2, 8))


def middle_shape(rng):
    return Shape(rng, rng.randint(1, 4), rng.randint(2, 7), rng.randint(0, 8), rng.randint(1, 4),
                 nodes=rng.randint(1, 16))


def view_shape(rng, most=20):
    views = rng.randint(3, most)
    return Shape(rng, 1, rng.randint(1, 4), views, 2, view_rules=3 * views, nodes=rng.randint(2, 6))


def unstratified_shape(rng):
    views = rng.randint(1, 8)
    return Shape(rng, 1, 2, views, 2, stratified=False, view_rules=rng.randint(1, 2 * views), nodes=2)


def wide_shape(rng):
    roles = rng.randint(3, 4)
    return Shape(rng, roles, rng.randint(2, 5), rng.randint(0, 3), rng.randint(6, 16), next_rules=30, terminal=0.7, nodes=4)


def large_shape(rng):
    return Shape(rng, rng.randint(1, 3), rng.randint(7, 13), rng.randint(0, 6), rng.randint(2, 4), next_rules=40,
                 terminal=0.8, nodes=rng.randint(2, 24))


def crowded_shape(rng):
    """Nearly every move legal: too many joint moves sooner or later."""
    return Shape(rng, rng.randint(3, 4), rng.randint(3, 6), rng.randint(0, 2), rng.randint(9, 16),
                 next_rules=60, terminal=0.3, nodes=3)


def shift_register(rng):
    """Facts move up one place each time and a player fills the lowest: all
    sets of facts are reached, too many with eleven facts or more."""
    facts, roles, moves = rng.randint(6, 12), rng.randint(1, 2), rng.randint(2, 3)
    s = Shape(rng, roles, facts, 2, moves, terminal=0.2, view_rules=3, next_rules=1, nodes=rng.randint(2, 12))
    rules = [ru(NEXT, f + 1, 0, (TRUE, f)) for f in range(facts - 1)]
    rules += [ru(NEXT, 0, 0, (DOES, rng.randrange(roles), 1))]
    rules += [ru(LEGAL, r, m) for r in range(roles) for m in range(2)]
    rules += [rule for r in range(roles) for rule in name_moves(r, [0, 1])]
    rules += random_view_rules(s) + random_next_rules(s) + random_end_rules(s)
    rng.shuffle(rules)
    return [sz(roles, facts, 2, moves), *rules, *random_nodes(s), ED]


def no_choice_shape(rng):
    return Shape(rng, rng.randint(1, 4), rng.randint(2, 5), rng.randint(0, 3), rng.randint(1, 3), safe=0.0)


def state_literals(number, facts):
    """Literals that hold in exactly the state of this number."""
    return [(TRUE if number >> f & 1 else NOT_TRUE, f) for f in range(facts)]


def table_game(rng):
    """An arbitrary small game graph: for each state and joint move a target
    drawn by lot, written out as rules.  Strategies matter most here."""
    roles, facts = rng.choice((1, 2, 2, 2, 3)), rng.choice((2, 3, 3))
    states, moves = rng.randint(2, 2 ** facts), 2 if roles > 1 else 3
    open_moves = [[rng.sample(range(moves), rng.choice((1, moves, moves))) for _ in range(roles)] for _ in range(states)]
    near = rng.random() < 0.5         # mostly one step on, so that goals are far
    rules = []
    for state in range(states):
        here = state_literals(state, facts)
        rules += [ru(LEGAL, r, m, *here) for r in range(roles) for m in open_moves[state][r]]
        parity = rng.random() < 0.4   # two targets, by the sum of the moves
        pair = [rng.randrange(states), min(states - 1, state + 1)]
        for joint in itertools.product(*open_moves[state]):
            if parity:
                target = pair[sum(joint) % 2]
            else:
                target = min(states - 1, state + rng.choice((0, 1, 1, 1, 1))) if near else rng.randrange(states)
            does = [(DOES, r, m) for r, m in enumerate(joint)]
            rules += [ru(NEXT, f, 0, *here, *does) for f in range(facts) if target >> f & 1]
    rules += [rule for r in range(roles) for rule in name_moves(r, range(moves))]
    if rng.random() < 0.3:
        rules.append(ru(TERMINAL, 0, 0, *state_literals(rng.randrange(states), facts)))
    rules.append(ru(VIEW, 0, 0, *state_literals(rng.randrange(states), facts)))
    rules.append(ru(VIEW, 1, 0, *state_literals(states - 1, facts)))
    rng.shuffle(rules)
    s = Shape(rng, roles, facts, 2, moves, nodes=rng.randint(3, 10))
    nodes = [fo(N_VIEW, 0), fo(N_VIEW, 1), fo(N_NOT, 0)]
    nodes += [random_node(s, len(nodes) + i) for i in range(rng.randint(0, 5))]
    last = rng.choice((N_EVENTUALLY, N_EVENTUALLY, N_EVENTUALLY, N_UNTIL, N_ALWAYS, N_NEXT))
    nodes.append(random_node(s, len(nodes), last))
    if last == N_EVENTUALLY and rng.random() < 0.6:
        nodes[-1] = fo(N_EVENTUALLY, rng.choice((0, 1, 1)), 0, rng.randrange(2 ** roles))
    return [sz(roles, facts, 2, moves), *rules[:512], *nodes, ED]


def noisy_counter(rng):
    """A counter over some facts, its step left to the players, with other
    rules beside it: many states in long chains."""
    bits = rng.randint(3, 8)
    roles, moves = rng.randint(1, 3), rng.randint(2, 3)
    s = Shape(rng, roles, bits + 2, bits + 3, moves, next_rules=6, view_rules=0, terminal=0.4, nodes=rng.randint(2, 12))
    s.level = [9] * s.views
    rules = counter_rules(bits) + random_legal_rules(s) + random_end_rules(s)
    rules += [ru(NEXT, rng.randrange(bits, bits + 2), 0, state_literal(s), (DOES, rng.randrange(roles), rng.randrange(moves))) for _ in range(4)]
    rules += [ru(LEGAL, r, 0) for r in range(roles)]
    rng.shuffle(rules)
    nodes = [fo(N_VIEW, bits)] + random_nodes(s)
    return [sz(roles, bits + 2, bits + 3, moves), *rules, *nodes, ED]


RANDOM_FAMILIES = [
    # family, how often out of 100, maker of records
    ("random small", 22, lambda rng: random_records(small_shape(rng))),
    ("table game", 12, table_game),
    ("random middle", 22, lambda rng: random_records(middle_shape(rng))),
    ("random views", 8, lambda rng: random_records(view_shape(rng))),
    ("random unstratified", 6, lambda rng: random_records(unstratified_shape(rng))),
    ("random wide", 2, lambda rng: random_records(wide_shape(rng))),
    ("random large", 3, lambda rng: random_records(large_shape(rng))),
    ("random crowded", 1, lambda rng: random_records(crowded_shape(rng))),
    ("shift register", 2, shift_register),
    ("random without choices", 5, lambda rng: random_records(no_choice_shape(rng))),
    ("noisy counter", 3, noisy_counter),
    ("random damaged", 14, None),
]


def damage(rng, records):
    """Hurts a sheet in one to three places."""
    for _ in range(rng.randint(1, 3)):
        what, at = rng.randrange(6), rng.randrange(len(records))
        if what == 0 and len(records) > 1:
            del records[at]
        elif what == 1:
            records.insert(at, rng.choice(records))
        elif what == 2:
            other = rng.randrange(len(records))
            records[at], records[other] = records[other], records[at]
        else:
            record = bytearray(records[at])
            if record:
                record[rng.randrange(len(record))] = rng.choice((0, 1, 2, 4, 9, 16, 64, 255, rng.randrange(256)))
            records[at] = bytes(record)
        if not records:
            return records
    if rng.random() < 0.2:
        whole = join(records)
        return [whole[:rng.randrange(len(whole) + 1)]]
    return records


def random_case(rng):
    family, _, maker = rng.choices(RANDOM_FAMILIES, [f[1] for f in RANDOM_FAMILIES])[0]
    if maker is None:
        records = damage(rng, random_records(rng.choice((small_shape, middle_shape, unstratified_shape))(rng)))
    else:
        records = maker(rng)
    return Case(join(records), family, (), None)


# ---- All together -----------------------------------------------------------

def fixed_cases():
    rng = random.Random(7)
    yield from document_cases()
    yield from cut_cases()
    yield from extended_cases()
    yield from order_cases()
    yield from field_cases()
    yield from one_record_pairs()
    yield from all_pairs_of_faults()
    yield from record_after_record()
    yield from record_before_model()
    yield from state_after_state()
    yield from record_limit_cases()
    yield from model_limit_cases(rng)
    yield from view_cases(rng)
    yield from level_listing_cases()
    yield from circle_cases()
    yield from pennies_cases()
    yield from choice_cases(rng)
    yield from flipped_cases()


def all_cases(count, seed):
    """The fixed cases, then random ones up to the count."""
    made = 0
    for case in fixed_cases():
        yield case
        made += 1
    rng = random.Random(seed)
    while made < count:
        yield random_case(rng)
        made += 1


class Tally:
    """Counts what was hit, and keeps what went against a rule of hand."""

    def __init__(self):
        self.families, self.refusals, self.tags = collections.Counter(), collections.Counter(), collections.Counter()
        self.known, self.wrong = 0, []

    def add(self, case, answer):
        self.families[case.family.split(":")[0]] += 1
        self.refusals[refusal_number(answer)] += 1
        if case.expect is None:
            return
        self.known += 1
        if agrees(case.expect, answer):
            self.tags.update(set(case.tags))
        else:
            self.wrong.append((case, answer))

    def missing(self):
        lacking = ["refusal %d" % n for n in range(0, 9) if self.refusals[n] == 0]
        return lacking + [tag for tag in FAULTS + PAIRS if self.tags[tag] == 0]

    def show(self, out):
        def table(title, rows):
            out.write(title + "\n")
            for name, number in rows:
                out.write("  %6d  %s\n" % (number, name))
        total = sum(self.families.values())
        table("%d sheets by family:" % total, sorted(self.families.items()))
        table("Answers (9 cannot be hit by a sheet):",
              [("accepted", self.refusals[0])] + [("refusal %d" % n, self.refusals[n]) for n in range(1, 10)])
        table("Faults, each with the answer worked out by hand:", [(f, self.tags[f]) for f in FAULTS])
        table("Pairs of checks, the earlier one told:", [(p, self.tags[p]) for p in PAIRS])
        out.write("%d answers known by hand, %d of them wrong\n" % (self.known, len(self.wrong)))
        for case, answer in self.wrong[:10]:
            out.write("WRONG %s: expected %r, got %r, sheet %s\n"
                      % (case.family, case.expect[:60], first_line(answer), case.sheet.hex()[:400]))
        for tag in self.missing():
            out.write("NEVER HIT: %s\n" % tag)

    def good(self):
        return not self.wrong and not self.missing()


def agrees(expect, answer):
    """The answer starts with what was expected and stops at a field's end."""
    text = answer.decode("ascii", "replace")
    return text.startswith(expect) and (expect.endswith("\n") or text[len(expect):len(expect) + 1] in (" ", "\n"))


def check(count, seed):
    tally = Tally()
    with scratch() as folder:
        engine = compile_engine(folder)
        cases = list(all_cases(count, seed))
        answers = cut_listings(run([engine, "--batch"], pack(c.sheet for c in cases)))
    if len(answers) != len(cases):
        raise RuntimeError("%d answers to %d sheets" % (len(answers), len(cases)))
    for case, answer in zip(cases, answers):
        tally.add(case, answer)
    tally.show(sys.stdout)
    return tally.good()


def write_stream(path, count, seed):
    with open(path, "wb") as out:
        for case in all_cases(count, seed):
            out.write(pack([case.sheet]))


def main():
    parser = argparse.ArgumentParser(description="Makes rule sheets for the comparison of two engines.")
    parser.add_argument("--check", action="store_true")
    parser.add_argument("--out")
    parser.add_argument("--bench")
    parser.add_argument("--count", type=int, default=20000)
    parser.add_argument("--seed", type=int, default=1)
    given = parser.parse_args()
    if given.out:
        write_stream(given.out, given.count, given.seed)
    if given.bench:
        import bench_sheets
        bench_sheets.write_all(given.bench)
    if given.check or not (given.out or given.bench):
        return 0 if check(given.count, given.seed) else 1
    return 0


if __name__ == "__main__":
    sys.exit(main())
