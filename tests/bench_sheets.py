"""The benchmark sheets: seven families, each at four growing sizes.  Every
sheet comes with the state count and joint move count it must have."""

import itertools
import os
import random

from generate import counter_rules, counter_sheet, join, name_moves
from sheets import *


def register_rules(facts, filler):
    """All sets of facts, each moved up one place a move; the lowest fact is
    filled by the moves in `filler` (lists of DOES literals)."""
    rules = [ru(NEXT, f + 1, 0, (TRUE, f)) for f in range(facts - 1)]
    return rules + [ru(NEXT, 0, 0, *does) for does in filler]


def deep_views(levels, rules_wanted):
    """A chain of views, each resting on the one before through NOT, written
    from the last to the first; every rule has eight literals.  1,024 states
    with two joint moves each."""
    rng = random.Random(levels)
    rules = register_rules(10, [[(DOES, 0, 1)]]) + [ru(LEGAL, 0, 0), ru(LEGAL, 0, 1)] + name_moves(0, [0, 1])
    chain = []
    for i in range(rules_wanted - len(rules)):
        view = i % levels
        body = [(rng.choice((TRUE, NOT_TRUE)), rng.randrange(10)) for _ in range(7)]
        below = (NOT_VIEW, view - 1) if view > 0 else (NOT_TRUE, 9)
        if i // levels == 0:
            body = [body[0]] * 7      # easy to meet, so that the chain lives
        chain.append(ru(VIEW, view, 0, *body, below))
    nodes = [fo(N_VIEW, levels - 1), fo(N_EVENTUALLY, 0, 0, 1)]
    return join([sz(1, 10, levels, 2), *rules, *chain[::-1], *nodes, ED]), 1024, 2048


def many_joint(facts):
    """Eight joint moves in every state, three roles of two moves."""
    rules = register_rules(facts, [[(DOES, 0, 1), (DOES, 1, 1)], [(DOES, 2, 1), (DOES, 1, 0)]])
    rules += [ru(LEGAL, r, m) for r in range(3) for m in range(2)] + [x for r in range(3) for x in name_moves(r, [0, 1])]
    nodes = [fo(N_FACT, 0), fo(N_FACT, facts - 1), fo(N_AND, 0, 1), fo(N_EVENTUALLY, 2, 0, 3)]
    return join([sz(3, facts, 0, 2), *rules, *nodes, ED]), 2 ** facts, 8 * 2 ** facts


def one_wide_state(width, chain):
    """State 0 has many joint moves, of which only the last move of role 0
    leads on; then a chain of states with one joint move each."""
    zero, end, bits = 11, 12, 10
    rules = [r for r in counter_rules(bits, played=False) if r != ru(NEXT, 0, 0, (NOT_TRUE, 0), (IS_VIEW, 0))]
    rules += [ru(NEXT, 0, 0, (NOT_TRUE, 0), (NOT_VIEW, zero)), ru(NEXT, 0, 0, (NOT_TRUE, 0), (DOES, 0, width[0] - 1))]
    rules += [ru(VIEW, 13, 0, (TRUE, f)) for f in range(bits)] + [ru(VIEW, zero, 0, (NOT_VIEW, 13))]
    last = chain - 1
    for number, view in ((last & 31, 14), (last >> 5, 15)):
        first = 0 if view == 14 else 5
        rules.append(ru(VIEW, view, 0, *[(TRUE if number >> f & 1 else NOT_TRUE, first + f) for f in range(5)]))
    rules += [ru(VIEW, end, 0, (IS_VIEW, 14), (IS_VIEW, 15)), ru(TERMINAL, 0, 0, (IS_VIEW, end))]
    for role, moves in enumerate(width):
        rules += [ru(LEGAL, role, m, *([(IS_VIEW, zero)] if m else [])) for m in range(moves)]
        rules += name_moves(role, range(moves))
    joint = 1
    for moves in width:
        joint *= moves
    nodes = [fo(N_TERMINAL), fo(N_EVENTUALLY, 0, 0, 1)]
    return join([sz(len(width), bits, 16, 16), *rules, *nodes, ED]), chain, joint + chain - 1


def fan(width, bits):
    """State 0 has many joint moves, which lead into a counter at half of its
    places; so its successors have as many different round counts.  Every
    coalition is asked, so that the marking outweighs the building.  The rules
    grow with the game."""
    started = bits
    rules = [ru(NEXT, started), ru(NEXT, 0, 0, (NOT_TRUE, started))] + [r for r in counter_rules(bits, played=False) if r[:3] != b"RU\x02"]
    for i in range(bits):
        rules.append(ru(NEXT, i, 0, (NOT_TRUE, i), (IS_VIEW, i), (TRUE, started)))
        rules.append(ru(NEXT, i, 0, (TRUE, i), (NOT_VIEW, i)))
    place = 1
    for role, moves in enumerate(width):
        rules += [ru(LEGAL, role, m, *([(NOT_TRUE, started)] if m else [])) for m in range(moves)]
        rules += name_moves(role, range(moves))
        for b in range((moves - 1).bit_length()):
            if place < bits:
                rules += [ru(NEXT, place, 0, (NOT_TRUE, started), (DOES, role, m)) for m in range(moves) if m >> b & 1]
                place += 1
    rules.append(ru(TERMINAL, 0, 0, (IS_VIEW, bits)))
    joint = width[0] * width[1] * width[2]
    nodes = [fo(N_TERMINAL), fo(N_NOT, 0)]
    for mask in range(8):
        nodes += [fo(N_ALWAYS, 1, 0, mask), fo(N_UNTIL, 1, 0, mask), fo(N_EVENTUALLY, 0, 0, mask)]
    return join([sz(3, bits + 1, bits + 1, 16), *rules, *nodes, ED]), 2 ** bits, joint + 2 ** bits - 1


def one_remainder(digits):
    """The sheet of many_joint with three facts for each, such that every state
    has the same remainder by 1,021: where states were found by that remainder,
    all of them would stand on one chain."""
    start = (2, 7, 4, 10, 3, 5, 8, 9, 6, 0)
    facts = [(f, f + 14, f + 52) for f in start[:digits]]
    assert all(sum(2 ** f for f in three) % 1021 == 0 for three in facts)
    rules = [ru(NEXT, f, 0, (TRUE, below[0])) for below, three in zip(facts, facts[1:]) for f in three]
    rules += [ru(NEXT, f, 0, *does) for does in ([(DOES, 0, 1), (DOES, 1, 1)], [(DOES, 2, 1), (DOES, 1, 0)]) for f in facts[0]]
    rules += [ru(LEGAL, r, m) for r in range(3) for m in range(2)] + [x for r in range(3) for x in name_moves(r, [0, 1])]
    nodes = [fo(N_FACT, facts[0][0]), fo(N_FACT, facts[-1][0]), fo(N_AND, 0, 1), fo(N_EVENTUALLY, 2, 0, 3)]
    return join([sz(3, 64, 0, 2), *rules, *nodes, ED]), 2 ** digits, 8 * 2 ** digits


def many_rules(width, rules_wanted):
    """Two states of many joint moves, and many NEXT rules that hang on the
    moves of one, two or three roles.  Rules and joint moves grow together."""
    rng = random.Random(rules_wanted)
    rules = [ru(LEGAL, role, m) for role in range(3) for m in range(width[role])]
    rules += [x for role in range(3) for x in name_moves(role, range(width[role]))]
    while len(rules) < rules_wanted:
        roles = rng.sample(range(3), rng.randrange(1, 4))
        rules.append(ru(NEXT, 0, 0, *[(DOES, role, rng.randrange(width[role])) for role in sorted(roles)]))
    nodes = [fo(N_FACT, 0), fo(N_EVENTUALLY, 0, 0, 1)]
    return join([sz(3, 1, 0, 16), *rules, *nodes, ED]), 2, 2 * width[0] * width[1] * width[2]


def waiting_rules(width, rules_wanted, kinds):
    """One state of many joint moves, and many NEXT rules that wait for moves of
    the roles of a kind, one kind after the other.  Rules and joint moves grow
    together."""
    rng = random.Random(rules_wanted)
    rules = [ru(INIT, 0), ru(NEXT, 0)]
    rules += [ru(LEGAL, role, m) for role in range(4) for m in range(width[role])]
    rules += [x for role in range(4) for x in name_moves(role, range(width[role]))]
    for kind in itertools.cycle(kinds):
        if len(rules) >= rules_wanted:
            break
        rules.append(ru(NEXT, 0, 0, *[(DOES, role, rng.randrange(width[role])) for role in kind]))
    nodes = [fo(N_FACT, 0), fo(N_EVENTUALLY, 0, 0, 1)]
    return join([sz(4, 1, 0, 16), *rules, *nodes, ED]), 1, width[0] * width[1] * width[2] * width[3]


# All rules wait for the last role, which has two moves: the worst that was found
# for an engine that finds the successors for all moves of one role at once.
LAST_ROLE = [(3,)]

# Every set of roles is named by some rule: the worst that was found for an
# engine that looks up each set of roles by itself.
ALL_KINDS = [kind for count in range(1, 5) for kind in itertools.combinations(range(4), count)]


def nested(nodes_wanted):
    """Questions inside questions over 1,024 states and 8,192 joint moves."""
    sheet, states, joint = many_joint(10)
    head = sheet[:sheet.index(b"FO")]
    nodes = [fo(N_FACT, 9), fo(N_FACT, 0), fo(N_NOT, 0)]
    kinds = (N_EVENTUALLY, N_ALWAYS, N_UNTIL, N_NEXT)
    while len(nodes) < nodes_wanted - 1:
        own = len(nodes)
        kind = kinds[own % 4]
        b = (own * 7) % 3 if kind == N_UNTIL else 0
        a = own - 1 if own % 5 else own % 3
        nodes.append(fo(kind, a, b, (own * 5) % 8))
    nodes.append(fo(N_EVENTUALLY, len(nodes) - 1, 0, 5))
    return head + join(nodes) + ED, states, joint


def nested_long(nodes_wanted):
    """The same sizes over a counter that role 0 alone can move on: every
    question inside the next takes 1,023 rounds to spread."""
    bits = 10
    rules = [r for r in counter_rules(bits, played=False) if r[:3] != b"RU\x02"]
    for i in range(bits):
        rules.append(ru(NEXT, i, 0, (NOT_TRUE, i), (IS_VIEW, i), (DOES, 0, 1)))
        rules.append(ru(NEXT, i, 0, (TRUE, i), (NOT_VIEW, i)))
        rules.append(ru(NEXT, i, 0, (TRUE, i), (DOES, 0, 0)))
    rules += [ru(LEGAL, r, m) for r in range(3) for m in range(2)] + [x for r in range(3) for x in name_moves(r, [0, 1])]
    nodes = [fo(N_VIEW, bits), fo(N_TRUE)]
    while len(nodes) < nodes_wanted - 2:
        own = len(nodes)
        nodes.append(fo(N_UNTIL, own - 1, 0, (own * 2) % 8 | 1))
    nodes.append(fo(N_AND, len(nodes) - 1, 0))
    nodes.append(fo(N_EVENTUALLY, len(nodes) - 1, 0, 1))
    return join([sz(3, bits, bits + 1, 2), *rules, *nodes, ED]), 1024, 8192


def families():
    """Family, size, sheet, states, joint moves."""
    for levels, rules in ((8, 64), (16, 128), (32, 256), (64, 512)):
        yield ("deep-views", levels) + deep_views(levels, rules)
    for facts in (7, 8, 9, 10):
        yield ("many-joint", 8 * 2 ** facts) + many_joint(facts)
    for width, chain in (((8, 8, 8), 125), ((16, 8, 8), 250), ((16, 16, 8), 500), ((16, 16, 16), 1000)):
        yield ("one-wide-state", width[0] * width[1] * width[2]) + one_wide_state(width, chain)
    for nodes in (8, 16, 32, 64):
        yield ("nested", nodes) + nested(nodes)
    for nodes in (8, 16, 32, 64):
        yield ("nested-long", nodes) + nested_long(nodes)
    for bits in (7, 8, 9, 10):
        yield ("counter", 2 ** bits, counter_sheet(bits), 2 ** bits, 2 ** bits)
    for width, bits in (((8, 8, 8), 7), ((16, 8, 8), 8), ((16, 16, 8), 9), ((16, 16, 16), 10)):
        yield ("fan", width[0] * width[1] * width[2]) + fan(width, bits)
    for digits in (7, 8, 9, 10):
        yield ("one-remainder", 8 * 2 ** digits) + one_remainder(digits)
    for width, rules in (((8, 8, 8), 64), ((16, 8, 8), 128), ((16, 16, 8), 256), ((16, 16, 16), 512)):
        yield ("many-rules", 2 * width[0] * width[1] * width[2]) + many_rules(width, rules)
    for width, rules in (((8, 8, 8, 2), 64), ((16, 8, 8, 2), 128), ((16, 16, 8, 2), 256), ((16, 16, 16, 2), 512)):
        yield ("waiting-rules", width[0] * width[1] * width[2] * width[3]) + waiting_rules(width, rules, LAST_ROLE)
    for width, rules in (((8, 8, 8, 2), 64), ((16, 8, 8, 2), 128), ((16, 16, 8, 2), 256), ((16, 16, 16, 2), 512)):
        yield ("all-kinds", width[0] * width[1] * width[2] * width[3]) + waiting_rules(width, rules, ALL_KINDS)


def write_all(directory):
    os.makedirs(directory, exist_ok=True)
    with open(os.path.join(directory, "MANIFEST"), "w") as manifest:
        manifest.write("# file, states, joint moves\n")
        for family, size, sheet, states, joint in families():
            name = "%s-%05d.sheet" % (family, size)
            with open(os.path.join(directory, name), "wb") as out:
                out.write(sheet)
            manifest.write("%s %d %d\n" % (name, states, joint))
