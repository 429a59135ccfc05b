#!/usr/bin/env python3
"""Answers small sheets from the words of document 01, by trying everything.

  brute.py [--count N] [--seed N] [--engine PROGRAM]

Nothing here is clever.  Views are found by trying every set of views, levels
by trying every way to give them, and the mark of a question by trying every
strategy and looking for a run that breaks it; no marks are grown step by step
anywhere.  The listing and all six tables are compared with what the engine
beside this file leaves (or another program that knows --batch --tables).
"""

import argparse
import collections
import itertools
import random
import sys

sys.dont_write_bytecode = True   # leave no compiled files in the folder

import generate
from sheets import *

NONE = 65535
ENDLESS = float("inf")
MOST_STRATEGIES = 4096
MOST_STATES = 8
MOST_VIEWS = 5


class Refused(Exception):
    def __init__(self, number, place):
        super().__init__(number, place)
        self.number, self.place = number, place


class TooLarge(Exception):
    """The sheet is fine, but trying everything would take too long."""


# ---- Reading -----------------------------------------------------------------

class Sheet:
    def __init__(self):
        self.rules, self.nodes = [], []
        self.roles = self.facts = self.views = self.moves = None


def in_range(sheet, name, a, b):
    """Whether a and b are what a thing of this name takes."""
    if name in ("INIT", "NEXT", "TRUE", "NOT TRUE", "FACT"):
        return a < sheet.facts and b == 0
    if name in ("VIEW", "NOT VIEW"):
        return a < sheet.views and b == 0
    if name in ("LEGAL", "DOES"):
        return a < sheet.roles and b < sheet.moves
    if name == "GOAL":
        return a < sheet.roles and 0 <= b <= 100
    return a == 0 and b == 0      # TERMINAL, constant true


HEADS = {1: "INIT", 2: "NEXT", 3: "VIEW", 4: "LEGAL", 5: "GOAL", 6: "TERMINAL"}
LITERALS = {1: "TRUE", 2: "NOT TRUE", 3: "VIEW", 4: "NOT VIEW", 5: "DOES"}
PLAIN = {1: "CONSTANT", 2: "FACT", 3: "VIEW", 4: "LEGAL", 5: "GOAL", 6: "TERMINAL"}
OTHERS = {7: "NOT", 8: "AND", 9: "OR", 10: "NEXT", 11: "ALWAYS", 12: "EVENTUALLY", 13: "UNTIL"}


def node_fits(sheet, kind, a, b, coalition):
    own = len(sheet.nodes)
    if kind in PLAIN:
        return coalition == 0 and in_range(sheet, PLAIN[kind], a, b)
    if kind not in OTHERS or a >= own:
        return False
    two = OTHERS[kind] in ("AND", "OR", "UNTIL")
    if (b >= own) if two else (b != 0):
        return False
    return coalition >> sheet.roles == 0 if kind >= 10 else coalition == 0


def read_rule(sheet, rest, place):
    head, a, b, count = rest[2:6]
    if len(sheet.rules) + 1 > 512 or count > 8:
        raise Refused(3, place)
    if len(rest) < 6 + 3 * count:
        raise Refused(1, place)
    body = [tuple(rest[6 + 3 * i:9 + 3 * i]) for i in range(count)]
    if head not in HEADS or not in_range(sheet, HEADS[head], a, b):
        raise Refused(2, place)
    if not all(k in LITERALS and in_range(sheet, LITERALS[k], x, y) for k, x, y in body):
        raise Refused(2, place)
    body = [(LITERALS[k], x, y) for k, x, y in body]
    if HEADS[head] == "INIT" and body:
        raise Refused(4, place)
    if HEADS[head] != "NEXT" and any(k == "DOES" for k, _, _ in body):
        raise Refused(4, place)
    sheet.rules.append((HEADS[head], a, b, body))
    return 6 + 3 * count


def read_node(sheet, rest, place):
    kind, a, b, coalition = rest[2:6]
    if len(sheet.nodes) + 1 > 64:
        raise Refused(3, place)
    if not node_fits(sheet, kind, a, b, coalition):
        raise Refused(2, place)
    sheet.nodes.append((PLAIN.get(kind) or "%s of nodes" % OTHERS[kind], a, b, coalition))
    return 6


def read_size(sheet, rest, place):
    sheet.roles, sheet.facts, sheet.views, sheet.moves = rest[2:6]
    if not (1 <= sheet.roles <= 4 and 1 <= sheet.facts <= 64 and sheet.views <= 64 and 1 <= sheet.moves <= 16):
        raise Refused(2, place)
    return 6


def read(data):
    """The records in their order: SZ, any RU, at least one FO, ED."""
    sheet, at, place = Sheet(), 0, 0
    while True:
        rest = data[at:]
        if place == 0:
            allowed = {b"SZ": read_size}
        elif not sheet.nodes:
            allowed = {b"RU": read_rule, b"FO": read_node}
        else:
            allowed = {b"FO": read_node, b"ED": None}
        mark = rest[:2]
        if mark not in allowed or (mark != b"ED" and len(rest) < 6):
            raise Refused(1, place)
        if mark == b"ED":
            if len(rest) > 2:
                raise Refused(1, place + 1)
            return sheet
        at += allowed[mark](sheet, rest, place)
        place += 1


# ---- Views ---------------------------------------------------------------------

def view_rules(sheet):
    return [(a, body) for head, a, _, body in sheet.rules if head == "VIEW"]


def has_levels(sheet):
    """Tries every way to give each view a level."""
    steps = {(head, b, kind) for head, body in view_rules(sheet) for kind, b, _ in body if kind in ("VIEW", "NOT VIEW")}
    for level in itertools.product(range(sheet.views), repeat=sheet.views):
        if all(level[b] <= level[h] if kind == "VIEW" else level[b] < level[h] for h, b, kind in steps):
            return True
    return False


def lowest_on_bad_chain(sheet):
    """Walks along dependencies, remembering only where it is and whether a
    NOT was passed; a view may be passed more than once."""
    steps = [(head, b, kind == "NOT VIEW") for head, body in view_rules(sheet)
             for kind, b, _ in body if kind in ("VIEW", "NOT VIEW")]
    for view in range(sheet.views):
        seen, todo = set(), [(view, False)]
        while todo:
            at, passed = todo.pop()
            for head, body, negated in steps:
                after = (body, passed or negated)
                if head == at and after not in seen:
                    seen.add(after)
                    todo.append(after)
        if (view, True) in seen:
            return view
    return None


def holds(literal, facts, views, moves=None):
    kind, a, b = literal
    if kind == "TRUE":
        return a in facts
    if kind == "NOT TRUE":
        return a not in facts
    if kind == "VIEW":
        return a in views
    if kind == "NOT VIEW":
        return a not in views
    return moves[a] == b


def least_set(rules, facts, guess):
    """The least set of views when NOT VIEW is read off the guess."""
    found = set()
    while True:
        more = {head for head, body in rules
                if all(holds(l, facts, guess if l[0] == "NOT VIEW" else found) for l in body)}
        if more <= found:
            return found
        found |= more


def views_of(sheet, facts):
    """The one set of views that is the least set under its own negations."""
    rules = view_rules(sheet)
    fitting = []
    for size in range(sheet.views + 1):
        for guess in itertools.combinations(range(sheet.views), size):
            if least_set(rules, facts, set(guess)) == set(guess):
                fitting.append(set(guess))
    if len(fitting) != 1:
        raise AssertionError("a stratified sheet has one model, found %d" % len(fitting))
    return fitting[0]


# ---- The model -----------------------------------------------------------------

class Model:
    def __init__(self):
        self.states = []      # frozen sets of facts
        self.views, self.terminal, self.legal, self.goals = [], [], [], []
        self.joint = []       # per state: list of (tuple of moves, target)


def fired(sheet, head, facts, views, moves=None):
    return {(a, b) for h, a, b, body in sheet.rules
            if h == head and all(holds(l, facts, views, moves) for l in body)}


def moves_in_does(sheet):
    return {(x, y) for _, _, _, body in sheet.rules for kind, x, y in body if kind == "DOES"}


def expand(sheet, model, number, named):
    facts = model.states[number]
    views = views_of(sheet, facts)
    legal = fired(sheet, "LEGAL", facts, views)
    terminal = bool(fired(sheet, "TERMINAL", facts, views))
    model.views.append(views)
    model.legal.append(legal)
    model.goals.append(fired(sheet, "GOAL", facts, views))
    model.terminal.append(terminal)
    if terminal:
        if sum(map(len, model.joint)) + 1 > 8192:
            raise Refused(7, number)
        model.joint.append([((), number)])
        return
    choices = [sorted(m for m in range(16) if (role, m) in legal and (role, m) in named) for role in range(sheet.roles)]
    if any(not c for c in choices):
        raise Refused(8, number)
    joint = list(itertools.product(*choices))
    if sum(map(len, model.joint)) + len(joint) > 8192:
        raise Refused(7, number)
    listed = []
    for moves in joint:
        after = frozenset(a for a, _ in fired(sheet, "NEXT", facts, views, moves))
        if after not in model.states:
            if len(model.states) == 1024:
                raise Refused(6, number)
            model.states.append(after)
        listed.append((moves, model.states.index(after)))
    model.joint.append(listed)


def build(sheet):
    model, named, number = Model(), moves_in_does(sheet), 0
    model.states.append(frozenset(a for head, a, _, _ in sheet.rules if head == "INIT"))
    while number < len(model.states):
        expand(sheet, model, number, named)
        number += 1
        if len(model.states) > MOST_STATES or len(model.joint[-1]) > 64:
            raise TooLarge()
    return model


# ---- Strategies ----------------------------------------------------------------

def agreeing(model, state, coalition):
    """The ways to give the coalition's roles one choice in this state, each
    with the targets that the others may still choose."""
    ways = {}
    for moves, target in model.joint[state]:
        own = tuple(m for role, m in enumerate(moves) if coalition >> role & 1)
        ways.setdefault(own, set()).add(target)
    return list(ways.values())


def strategies(model, coalition):
    """Every strategy, as the list of each state's possible successors."""
    ways = [agreeing(model, s, coalition) for s in range(len(model.states))]
    total = 1
    for way in ways:
        total *= len(way)
    if total > MOST_STRATEGIES:
        raise TooLarge()
    return itertools.product(*ways)


def always(after, state, a):
    """All runs stay in a: every state that can be reached is in a."""
    seen, todo = {state}, [state]
    while todo:
        at = todo.pop()
        if at not in a:
            return False
        for to in after[at] - seen:
            seen.add(to)
            todo.append(to)
    return True


def longest(after, state, goal, stack=(), known=None):
    """The most moves any run takes to the goal; endless when a run can come
    round to a state it has passed without meeting it."""
    known = {} if known is None else known
    if state in goal:
        return 0
    if state in stack:
        return ENDLESS
    if state not in known:
        known[state] = 1 + max(longest(after, to, goal, stack + (state,), known) for to in after[state])
    return known[state]


def until(after, state, a, b, stack=(), known=None):
    """No run can leave a before b, and none can go round without b."""
    known = {} if known is None else known
    if state in b:
        return True
    if state not in a or state in stack:
        return False
    if state not in known:
        known[state] = all(until(after, to, a, b, stack + (state,), known) for to in after[state])
    return known[state]


def satisfied(kind, after, state, a, b):
    if kind == "NEXT of nodes":
        return after[state] <= a
    if kind == "ALWAYS of nodes":
        return always(after, state, a)
    if kind == "EVENTUALLY of nodes":
        return longest(after, state, a) < ENDLESS
    return until(after, state, a, b)


def temporal(model, kind, a, b, coalition):
    everyone, found = range(len(model.states)), set()
    for after in strategies(model, coalition):
        found |= {s for s in everyone if s not in found and satisfied(kind, after, s, a, b)}
    return found


def mark(model, node, marked):
    kind, a, b, coalition = node
    everyone = set(range(len(model.states)))
    plain = {
        "CONSTANT": lambda s: True, "FACT": lambda s: a in model.states[s], "VIEW": lambda s: a in model.views[s],
        "LEGAL": lambda s: (a, b) in model.legal[s], "GOAL": lambda s: (a, b) in model.goals[s],
        "TERMINAL": lambda s: model.terminal[s], "NOT of nodes": lambda s: s not in marked[a],
        "AND of nodes": lambda s: s in marked[a] and s in marked[b], "OR of nodes": lambda s: s in marked[a] or s in marked[b],
    }
    if kind in plain:
        return {s for s in everyone if plain[kind](s)}
    return temporal(model, kind, marked[a], marked[b], coalition)


def rounds_of(model, goal, coalition):
    best = [ENDLESS] * len(model.states)
    for after in strategies(model, coalition):
        for s in range(len(best)):
            best[s] = min(best[s], longest(after, s, goal))
    return best


def choice_of(model, state, rounds, coalition):
    """The lowest joint move such that all that agree with it lead lower."""
    def own(moves):
        return [m for role, m in enumerate(moves) if coalition >> role & 1]
    for number, (moves, _) in enumerate(model.joint[state]):
        if all(rounds[to] <= rounds[state] - 1 for other, to in model.joint[state] if own(other) == own(moves)):
            return number
    raise AssertionError("a state with a round count has a choice")


# ---- The answer as text ----------------------------------------------------------

WIDE, NARROW = 0x0123456789ABCDEF, 0x5A5A
LENGTHS = (1024, 1025, 8192, 1024, 1024, 1024)


def table_text(entries, length):
    return " ".join(itertools.chain(map(str, entries), ["0"] * (length - len(entries))))


UNTOUCHED = "".join(
    " ".join(str(WIDE + i if which in (0, 5) else (NARROW + i) % 65536) for i in range(length)) + "\n"
    for which, length in enumerate(LENGTHS))
EMPTY = "".join(table_text([], length) + "\n" for length in LENGTHS)


def plan_of(sheet, model, marked):
    kind, a, _, coalition = sheet.nodes[-1]
    if kind != "EVENTUALLY of nodes":
        return [0] * len(model.states), [0] * len(model.states)
    rounds = rounds_of(model, marked[a], coalition)
    choices = [NONE if r in (0, ENDLESS) else choice_of(model, s, rounds, coalition) for s, r in enumerate(rounds)]
    return [NONE if r == ENDLESS else r for r in rounds], choices


def dash(last, value):
    return "-" if value == NONE or last != "EVENTUALLY of nodes" else str(value)


def write_answer(sheet, model, marked):
    number = [sum(2 ** f for f in facts) for facts in model.states]
    counts = [len(j) for j in model.joint]
    starts = [sum(counts[:i]) for i in range(len(counts) + 1)]
    rounds, choices = plan_of(sheet, model, marked)
    last, kind = marked[-1], sheet.nodes[-1][0]
    lines = ["ok %d %d %s" % (len(counts), sum(counts), "yes" if 0 in last else "no")]
    for s, facts in enumerate(number):
        lines.append("%d %d %d %d %s %s" % (s, facts, counts[s], s in last, dash(kind, rounds[s]), dash(kind, choices[s])))
    bits = [sum(2 ** j for j, m in enumerate(marked) if s in m) for s in range(len(counts))]
    targets = [to for joint in model.joint for _, to in joint]
    for entries, length in zip((number, starts, targets, rounds, choices, bits), LENGTHS):
        lines.append(table_text(entries, length))
    return "\n".join(lines) + "\n"


def answer(data):
    """Listing and tables for one sheet; TooLarge when it is not small."""
    try:
        sheet = read(data)
        if sheet.views > MOST_VIEWS:
            raise TooLarge()
        bad = lowest_on_bad_chain(sheet)
        if has_levels(sheet) != (bad is None):
            raise AssertionError("levels and closed chains disagree")
        if bad is not None:
            raise Refused(5, bad)
        model = build(sheet)
    except Refused as refused:
        untouched = refused.number <= 5
        return "no %d %d\n" % (refused.number, refused.place) + (UNTOUCHED if untouched else EMPTY)
    marked = []
    for node in sheet.nodes:
        marked.append(mark(model, node, marked))
    return write_answer(sheet, model, marked)


# ---- The comparison --------------------------------------------------------------

def small_sheets(count, seed):
    """Small random games, some damaged, and the short fixed sheets."""
    rng = random.Random(seed)
    fixed = [c.sheet for c in generate.fixed_cases() if len(c.sheet) < 400]
    yield from rng.sample(fixed, min(len(fixed), count // 5))
    for _ in range(count - min(len(fixed), count // 5)):
        luck = rng.random()
        if luck < 0.5:
            records = generate.table_game(rng)
        elif luck < 0.8:
            records = generate.random_records(generate.small_shape(rng))
        elif luck < 0.85:
            records = generate.random_records(generate.view_shape(rng, 5))
        elif luck < 0.9:
            records = generate.random_records(generate.unstratified_shape(rng))
        elif luck < 0.95:
            records = generate.random_records(generate.no_choice_shape(rng))
        else:
            records = generate.damage(rng, generate.random_records(generate.small_shape(rng)))
        yield b"".join(records)


class Seen:
    def __init__(self):
        self.compared = self.accepted = self.large = self.temporal = self.with_rounds = self.different = 0
        self.states, self.rounds = collections.Counter(), collections.Counter()

    def note(self, data, text):
        self.compared += 1
        if text.startswith("ok"):
            self.accepted += 1
            nodes = read(data).nodes
            self.temporal += sum(n[0].split(" ")[0] in ("NEXT", "ALWAYS", "EVENTUALLY", "UNTIL") for n in nodes)
            lines = text.split("\n")
            self.states[int(lines[0].split(" ")[1])] += 1
            if nodes[-1][0] == "EVENTUALLY of nodes":
                self.with_rounds += 1
                self.rounds.update(line.split(" ")[4] for line in lines[1:-7])


def compare(engine, sheets, seen):
    outputs = cut_listings(run([engine, "--batch", "--tables"], pack(sheets)), 6)
    for data, got in zip(sheets, outputs):
        try:
            expected = answer(data)
        except TooLarge:
            seen.large += 1
            continue
        seen.note(data, expected)
        if got.decode() != expected:
            seen.different += 1
            print("DIFFERENT for sheet %s" % data.hex())
            for mine, theirs in zip(expected.split("\n"), got.decode().split("\n")):
                if mine != theirs:
                    print("  by trying everything: %s\n  by the engine:        %s" % (mine[:200], theirs[:200]))


def main():
    parser = argparse.ArgumentParser(description="Compares an engine with trying everything, on small sheets.")
    parser.add_argument("--count", type=int, default=4000)
    parser.add_argument("--seed", type=int, default=11)
    parser.add_argument("--engine")
    given = parser.parse_args()
    seen = Seen()
    sheets = list(small_sheets(given.count, given.seed))
    with scratch() as folder:
        engine = given.engine or compile_engine(folder)
        for at in range(0, len(sheets), 200):
            compare(engine, sheets[at:at + 200], seen)
    print("%d sheets compared with trying everything (%d accepted, %d temporal nodes, %d with round counts), "
          "%d too large to try, %d different"
          % (seen.compared, seen.accepted, seen.temporal, seen.with_rounds, seen.large, seen.different))
    print("accepted sheets by number of states:", dict(sorted(seen.states.items())))
    print("states by round count:", dict(sorted(seen.rounds.items())))
    return 0 if seen.different == 0 and seen.compared > 0 else 1


if __name__ == "__main__":
    sys.exit(main())
