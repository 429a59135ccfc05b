#!/usr/bin/env python3
"""Turns the readable source of a game into its sheet, as document 01 has it.

  assemble.py                  every source (*.txt) beside this file
  assemble.py NAME.txt ...     these sources; each sheet is put beside its source
  assemble.py --check [...]    writes nothing; fails when a stored sheet is not
                               what its source gives

The notation is described in README.md.  A mistake is told with its file and
line, and the program then ends with status 1.
"""

import argparse
import glob
import os
import re
import sys

HERE = os.path.dirname(os.path.abspath(__file__))

HEADS = {"init": 1, "next": 2, "view": 3, "legal": 4, "goal": 5, "terminal": 6}
TRUE, NOT_TRUE, IS_VIEW, NOT_VIEW, DOES = 1, 2, 3, 4, 5
PLAIN_NODES = {"true": 1, "fact": 2, "view": 3, "legal": 4, "goal": 5, "terminal": 6}
CONNECTIVES = {"not": (7, 1), "and": (8, 2), "or": (9, 2)}
FUTURES = {"next": (10, 1), "always": (11, 1), "eventually": (12, 1), "until": (13, 2)}

# What is declared: least and most, and the letter of names made from a count.
SIZES = {"roles": (1, 4, "r"), "facts": (1, 64, "f"), "views": (0, 64, "v"), "moves": (1, 16, "m")}
MOST_RULES, MOST_LITERALS, MOST_NODES = 512, 8, 64

NAME = re.compile(r"[A-Za-z][A-Za-z0-9_-]*\Z")
NUMBER = re.compile(r"[0-9]{1,9}\Z")
VARIABLE = re.compile(r"\?[A-Za-z]+")
TOKEN = re.compile(r"[()]|[^\s();]+")
KEYWORDS = set(HEADS) | set(SIZES) | set(PLAIN_NODES) | set(CONNECTIVES) | set(FUTURES) \
    | {"does", "node", "for", "<=", "distinct"}


class Mistake(Exception):
    def __init__(self, line, text):
        super().__init__(text)
        self.line, self.text = line, text


class Word:
    """A word, where it stands, and how it was written before a `for` filled it in."""

    def __init__(self, text, line, written=None):
        self.text, self.line, self.written = text, line, written or text

    def shown(self):
        return self.text if self.text == self.written else "%s (written %s)" % (self.text, self.written)


class List:
    def __init__(self, items, line):
        self.items, self.line = items, line

    def shown(self):
        return "(%s)" % " ".join(i.shown() for i in self.items)


# ---- Reading brackets and words, and filling in `for` ---------------------------

def read_forms(text):
    """The forms of a source, as words and lists."""
    open_lists, forms = [], []
    for line, content in enumerate(text.split("\n"), 1):
        for token in TOKEN.findall(content.split(";", 1)[0]):
            if token == "(":
                open_lists.append(List([], line))
                continue
            if token == ")":
                if not open_lists:
                    raise Mistake(line, "a ) without its (")
                form = open_lists.pop()
            else:
                form = Word(token, line)
            (open_lists[-1].items if open_lists else forms).append(form)
    if open_lists:
        raise Mistake(open_lists[-1].line, "this ( is never closed")
    return forms


def head_word(form):
    """The first word of a list, or None."""
    if isinstance(form, List) and form.items and isinstance(form.items[0], Word):
        return form.items[0].text
    return None


def fill_word(word, values):
    def value(match):
        if match.group() not in values:
            raise Mistake(word.line, "no for gives %s a value" % match.group())
        return values[match.group()]
    text = VARIABLE.sub(value, word.text)
    if "?" in text:
        raise Mistake(word.line, "%s is not a word: letters must follow ?" % word.text)
    return Word(text, word.line, word.written)


def fill(form, values):
    """The forms that a form becomes: one, or several where it is a `for`."""
    if isinstance(form, Word):
        return [fill_word(form, values)]
    if head_word(form) == "for":
        return fill_for(form, values)
    return [List([f for i in form.items for f in fill(i, values)], form.line)]


def for_variables(form):
    """`?x` or `(?x ?y)`, and whether it was the second."""
    given = form.items[1]
    several = isinstance(given, List)
    names = given.items if several else [given]
    for name in names:
        if not isinstance(name, Word) or not VARIABLE.fullmatch(name.text):
            raise Mistake(given.line, "for wants a variable such as ?x, not %s" % name.shown())
    if not names or len({n.text for n in names}) < len(names):
        raise Mistake(given.line, "for wants different variables, at least one")
    return [n.text for n in names], several


def fill_for(form, values):
    if len(form.items) < 4 or not isinstance(form.items[2], List):
        raise Mistake(form.line, "for is written (for ?x (a b c) FORM...) or (for (?x ?y) ((a b) (c d)) FORM...)")
    names, several = for_variables(form)
    out = []
    for given in [f for i in form.items[2].items for f in fill(i, values)]:
        row = given.items if several and isinstance(given, List) else [given]
        if len(row) != len(names) or not all(isinstance(w, Word) for w in row):
            raise Mistake(given.line, "%s does not give a value to each of %s" % (given.shown(), " ".join(names)))
        inner = dict(values)
        inner.update(zip(names, (w.text for w in row)))
        for part in form.items[3:]:
            out.extend(fill(part, inner))
    return out


# ---- One source ------------------------------------------------------------------

class Source:
    def __init__(self, text):
        self.names = {}           # kind -> name -> number
        self.rules, self.nodes = [], []
        self.node_numbers, self.later = {}, {}
        self.legal, self.does = {}, set()
        self.negations = []       # head view, body view, whether negated, line
        self.notes = []
        self.last_line = text.count("\n") + (0 if text.endswith("\n") else 1)
        forms = [f for form in read_forms(text) for f in fill(form, {})]
        for form in forms:
            if head_word(form) == "node" and len(form.items) > 1 and isinstance(form.items[1], Word):
                self.later.setdefault(form.items[1].text, form.line)
        for form in forms:
            self.take(form)
        self.finish()

    def take(self, form):
        kind = head_word(form)
        if kind in SIZES:
            self.take_names(kind, form)
        elif kind == "node":
            self.take_node(form)
        else:
            self.take_rule(form)

    # Declarations

    def take_names(self, kind, form):
        least, most, letter = SIZES[kind]
        if kind in self.names:
            raise Mistake(form.line, "a second (%s ...)" % kind)
        if self.rules or self.nodes:
            raise Mistake(form.line, "(%s ...) must stand before the first rule" % kind)
        words = form.items[1:]
        for word in words:
            if not isinstance(word, Word):
                raise Mistake(word.line, "%s is not a name" % word.shown())
        counted = len(words) == 1 and NUMBER.match(words[0].text)
        count = int(words[0].text) if counted else len(words)
        if not least <= count <= most:
            raise Mistake(form.line, "%d %s; there may be %d to %d" % (count, kind, least, most))
        if counted:
            words = [Word("%s%d" % (letter, i), form.line) for i in range(count)]
        known = self.names[kind] = {}
        for word in words:
            if not NAME.match(word.text):
                raise Mistake(word.line, "%s is not a name" % word.shown())
            if kind == "views" and word.text in KEYWORDS:
                raise Mistake(word.line, "%s is a word of the notation and cannot name a view" % word.shown())
            if word.text in known:
                raise Mistake(word.line, "%s stands twice among the %s" % (word.shown(), kind))
            known[word.text] = len(known)

    def number(self, kind, word):
        """The number of a name that was declared."""
        if not isinstance(word, Word):
            raise Mistake(word.line, "the name of one of the %s is wanted here, not %s" % (kind, word.shown()))
        if word.text not in self.names.get(kind, {}):
            none = "" if kind in self.names else "; no (%s ...) stands before this" % kind
            raise Mistake(word.line, "unknown name among the %s: %s%s" % (kind, word.shown(), none))
        return self.names[kind][word.text]

    def value(self, word):
        if not isinstance(word, Word) or not NUMBER.match(word.text) or int(word.text) > 100:
            raise Mistake(word.line, "a goal value is a number from 0 to 100, not %s" % word.shown())
        return int(word.text)

    def fields(self, form, *kinds):
        """The numbers after the first word of a form, padded to two."""
        given = form.items[1:]
        if len(given) != len(kinds):
            wanted = " ".join(k if k == "value" else k[:-1] for k in kinds).upper()
            raise Mistake(form.line, "written (%s %s), not %s" % (head_word(form), wanted, form.shown())
                          if kinds else "written (%s), not %s" % (head_word(form), form.shown()))
        out = [self.value(w) if k == "value" else self.number(k, w) for k, w in zip(kinds, given)]
        return (out + [0, 0])[:2]

    # Rules

    def take_rule(self, form):
        if self.nodes:
            raise Mistake(form.line, "rules stand before the first node; this comes after: %s" % form.shown())
        if head_word(form) == "<=":
            if len(form.items) < 2:
                raise Mistake(form.line, "<= without a head")
            head, body = form.items[1], form.items[2:]
        else:
            head, body = form, []
        kind, a, b = self.head(head)
        if kind == HEADS["init"] and body:
            raise Mistake(form.line, "init takes no literals: %s" % form.shown())
        if len(body) > MOST_LITERALS:
            raise Mistake(form.line, "%d literals; there may be at most %d" % (len(body), MOST_LITERALS))
        literals = [self.literal(item, kind, a) for item in body]
        if len(self.rules) == MOST_RULES:
            raise Mistake(form.line, "more than %d rules" % MOST_RULES)
        if kind == HEADS["legal"]:
            self.legal.setdefault((a, b), form)
        self.rules.append(b"RU" + bytes([kind, a, b, len(literals)]) + b"".join(literals))

    def head(self, form):
        """Kind and fields of a head."""
        if isinstance(form, Word):
            if form.text == "terminal":
                return HEADS["terminal"], 0, 0
            if form.text in KEYWORDS:
                raise Mistake(form.line, "%s cannot stand alone as a head" % form.shown())
            return HEADS["view"], self.number("views", form), 0
        kind = head_word(form)
        if kind in ("init", "next"):
            return (HEADS[kind], *self.fields(form, "facts"))
        if kind == "legal":
            return (HEADS[kind], *self.fields(form, "roles", "moves"))
        if kind == "goal":
            return (HEADS[kind], *self.fields(form, "roles", "value"))
        raise Mistake(form.line, "not a declaration, a rule, a head or a node: %s" % form.shown())

    def literal(self, form, head, head_a):
        negated = head_word(form) == "not"
        if negated:
            if len(form.items) != 2:
                raise Mistake(form.line, "not takes one literal: %s" % form.shown())
            form = form.items[1]
        if isinstance(form, Word):
            if form.text in KEYWORDS:
                raise Mistake(form.line, "%s is not a literal" % form.shown())
            view = self.number("views", form)
            if head == HEADS["view"]:
                self.negations.append((head_a, view, negated, form.line))
            return bytes([NOT_VIEW if negated else IS_VIEW, view, 0])
        kind = head_word(form)
        if kind == "true":
            return bytes([NOT_TRUE if negated else TRUE, *self.fields(form, "facts")])
        if kind == "does":
            if negated:
                raise Mistake(form.line, "not cannot stand before does; name the other moves instead")
            if head != HEADS["next"]:
                raise Mistake(form.line, "does stands only under next: %s" % form.shown())
            role, move = self.fields(form, "roles", "moves")
            self.does.add((role, move))
            return bytes([DOES, role, move])
        raise Mistake(form.line, "not a literal: %s" % form.shown())

    # Nodes

    def take_node(self, form):
        if len(form.items) != 3 or not isinstance(form.items[1], Word) or not isinstance(form.items[2], List):
            raise Mistake(form.line, "a node is written (node NAME (KIND ...)), not %s" % form.shown())
        name = form.items[1]
        if not NAME.match(name.text):
            raise Mistake(name.line, "%s is not a name" % name.shown())
        if name.text in self.node_numbers:
            raise Mistake(name.line, "a second node %s" % name.shown())
        if len(self.nodes) == MOST_NODES:
            raise Mistake(form.line, "more than %d nodes" % MOST_NODES)
        self.nodes.append(b"FO" + bytes(self.node_fields(name, form.items[2])))
        self.node_numbers[name.text] = len(self.node_numbers)

    def node_fields(self, name, form):
        """Kind, a, b and coalition."""
        kind = head_word(form)
        if kind in PLAIN_NODES:
            wanted = {"fact": ("facts",), "view": ("views",), "legal": ("roles", "moves"), "goal": ("roles", "value")}
            return [PLAIN_NODES[kind], *self.fields(form, *wanted.get(kind, ())), 0]
        if kind in CONNECTIVES:
            number, operands = CONNECTIVES[kind]
            if len(form.items) != 1 + operands:
                raise Mistake(form.line, "%s takes %d earlier node%s: %s" % (kind, operands, "s"[:operands - 1], form.shown()))
            return [number, *self.operands(name, form.items[1:]), 0]
        if kind in FUTURES:
            number, operands = FUTURES[kind]
            if len(form.items) < 1 + operands:
                raise Mistake(form.line, "%s takes %d earlier node%s, then its roles: %s"
                              % (kind, operands, "s"[:operands - 1], form.shown()))
            return [number, *self.operands(name, form.items[1:1 + operands]), self.coalition(form.items[1 + operands:])]
        raise Mistake(form.line, "not a kind of node: %s" % form.shown())

    def operands(self, name, words):
        return ([self.operand(name, w) for w in words] + [0, 0])[:2]

    def operand(self, name, word):
        if not isinstance(word, Word):
            raise Mistake(word.line, "an operand is the name of an earlier node, not %s" % word.shown())
        if word.text in self.node_numbers:
            return self.node_numbers[word.text]
        if word.text == name.text:
            raise Mistake(word.line, "node %s names itself" % name.shown())
        if word.text in self.later:
            raise Mistake(word.line, "node %s names a later node: %s (line %d)"
                          % (name.shown(), word.shown(), self.later[word.text]))
        raise Mistake(word.line, "unknown node: %s" % word.shown())

    def coalition(self, words):
        bits = 0
        for word in words:
            bit = 1 << self.number("roles", word)
            if bits & bit:
                raise Mistake(word.line, "%s stands twice in the coalition" % word.shown())
            bits |= bit
        return bits

    # The whole

    def finish(self):
        for kind in ("roles", "facts", "moves"):
            if kind not in self.names:
                raise Mistake(self.last_line, "no (%s ...) is given" % kind)
        self.names.setdefault("views", {})
        if not self.nodes:
            raise Mistake(self.last_line, "no node is given; the last node is the question")
        self.check_levels()
        for pair, form in self.legal.items():
            if pair not in self.does:
                self.notes.append((form.line, "note: no does names this move, so it is never a choice: %s" % form.shown()))

    def check_levels(self):
        """Each negated view must lie lower than its head."""
        count = len(self.names["views"])
        reach = [{b for h, b, _, _ in self.negations if h == v} for v in range(count)]
        for k in range(count):
            for v in range(count):
                if k in reach[v]:
                    reach[v] |= reach[k]
        for head, body, negated, line in self.negations:
            if negated and (body == head or head in reach[body]):
                name = next(n for n, i in self.names["views"].items() if i == head)
                raise Mistake(line, "not stratified: the view %s rests on its own negation" % name)

    def sheet(self):
        sizes = bytes(len(self.names[k]) for k in ("roles", "facts", "views", "moves"))
        return b"SZ" + sizes + b"".join(self.rules) + b"".join(self.nodes) + b"ED"


# ---- Files -----------------------------------------------------------------------

def tell(name, line, text):
    sys.stderr.write("%s:%d: %s\n" % (name, line, text))


def assemble(path, name):
    """The sheet of a source, or None when a mistake was told."""
    try:
        with open(path, "rb") as file:
            data = file.read()
    except OSError as failure:
        sys.stderr.write("%s: cannot be read: %s\n" % (name, failure.strerror))
        return None
    try:
        source = Source(data.decode("utf-8"))
    except UnicodeDecodeError as failure:
        tell(name, data.count(b"\n", 0, failure.start) + 1, "not plain text (UTF-8)")
        return None
    except Mistake as mistake:
        tell(name, mistake.line, mistake.text)
        return None
    for line, text in source.notes:
        tell(name, line, text)
    return source.sheet()


def check(target, name, sheet):
    """Whether the stored sheet is what the source gives."""
    shown = os.path.splitext(name)[0] + ".sheet"
    if not os.path.exists(target):
        sys.stderr.write("%s: not there; its source is %s\n" % (shown, name))
        return False
    with open(target, "rb") as file:
        stored = file.read()
    if stored == sheet:
        return True
    at = next((i for i, (x, y) in enumerate(zip(stored, sheet)) if x != y), min(len(stored), len(sheet)))
    sys.stderr.write("%s: not what %s gives: %d bytes stored, %d given, first difference at byte %d\n"
                     % (shown, name, len(stored), len(sheet), at))
    return False


def main():
    parser = argparse.ArgumentParser(description="Turns the sources of games into sheets.")
    parser.add_argument("--check", action="store_true", help="write nothing, compare with the stored sheets")
    parser.add_argument("sources", nargs="*", metavar="NAME.txt")
    given = parser.parse_args()
    pairs = [(p, p) for p in given.sources] or [(p, os.path.basename(p)) for p in sorted(glob.glob(os.path.join(HERE, "*.txt")))]
    good = True
    for path, name in pairs:
        stem, ending = os.path.splitext(path)
        if ending != ".txt":
            sys.stderr.write("%s: a source is called NAME.txt\n" % name)
            good = False
            continue
        sheet = assemble(path, name)
        if sheet is None:
            good = False
        elif given.check:
            good = check(stem + ".sheet", name, sheet) and good
        else:
            with open(stem + ".sheet", "wb") as file:
                file.write(sheet)
    if not given.sources:
        sources = {os.path.splitext(p)[0] for p, _ in pairs}
        for path in sorted(glob.glob(os.path.join(HERE, "*.sheet"))):
            if os.path.splitext(path)[0] not in sources:
                sys.stderr.write("%s: a sheet without a source\n" % os.path.basename(path))
                good = False
    if good:
        print("sheets that are what their sources give: %d" % len(pairs) if given.check
              else "sheets written: %d" % len(pairs))
    return 0 if good else 1


if __name__ == "__main__":
    sys.exit(main())
