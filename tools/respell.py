#!/usr/bin/env python3
"""Gives the repository's own definitions and lemmas their names in snake case: stateLimit is state_limit, few-steps is few_steps.

usage, at the top of the repository:
    python3 tools/respell.py           rewrites the files below crates/ in place
    python3 tools/respell.py --table   prints each old name and its new one, and writes nothing
    python3 tools/respell.py --docs    rewrites code spans in README.md, ARCHITECTURE.md and docs/*.md

Names of functions, of modules, of types and of facts stay, and so does what Rattle itself makes (`loop-test`, `Need-returns-2`)
and what a file imports from a library. A second run changes nothing.
"""

import glob
import os
import re
import sys

# Names whose plain new spelling would not do.
EXCEPTIONS = {
    # std has bit_and, bit_or and bit_xor, and these are their laws: the dash joins the names of two functions.
    "bit-and": "bit-and", "bit-or": "bit-or", "bit-xor": "bit-xor",
}

# Lemmas that would have the name of the definition that they are about: they end in _lem.
LEMMAS = """body-in first-clean head-fits is-eventually is-game lengths-right literal-fits member-in moves-at moves-in named-in next-by
no-moves nodes-from rules-from set-from sets-at sets-in view-rule views-by""".split()
EXCEPTIONS.update({n: n.replace("-", "_") + "_lem" for n in LEMMAS})

# Two that have a capital by mistake.
EXCEPTIONS.update({"Counts-zero": "counts_zero", "New-is": "new_is"})

# Names that no line declares: what only the left side of an equation binds, and the first of the two above.
BOUND = ["Counts-zero", "New-is", "in-set", "old-is", "zero-nodes"]

# The same as LEMMAS for lemmas that were in snake case before: each turns as long as its definition has its old name.
BESIDE = {"found_of": "foundOf", "look_at": "lookAt", "node_at": "nodeAt", "rule_fits": "ruleFits"}

# What Rattle reads as a word of its own.
RESERVED = set("data record deriving module where use mod pub package open as unfoldable abbrev axiom unfold unfolding ruleset mutual infix infixl infixr elim let in do Type coe fcoe tcoe hcom com".split())
TACTICS = set("search grind omega rw simp cc assumption ground hlevel first_of".split())

# A text in quotes, or a word of antt (in a comment, of what stands in backquotes). What stands between is kept as it is.
PIECE = re.compile(r'(?P<text>"(?:\\.|[^"\\\n])*")|(?P<word>[^\s(){}.;,@"«»`]+)')
CRATES = sorted(c for c in os.listdir("crates") if os.path.isdir(os.path.join("crates", c)))
OWN_PATH = re.compile(r"Rattle\.(%s)\.(specs|proofs)((?:\.\w+)*)$" % "|".join(CRATES))


def read(path):
    with open(path, encoding="utf-8") as f:
        return f.read()


def snake(name):
    """The new spelling of a name."""
    if name in EXCEPTIONS:
        return EXCEPTIONS[name]
    new = name.replace("getD", "get_or").replace("′", "'").replace("-", "_")
    if name[0].isupper():
        return new
    return re.sub(r"([a-z0-9'₀-₉])([A-Z])", lambda m: m[1] + "_" + m[2].lower(), new)


def old_style(name):
    """Has a name a hump behind a small first letter, a dash, or a prime of the old kind?"""
    return bool(re.match(r"[A-Za-z]", name)) and snake(name) != name


def plain(text):
    """The text of a file without its comments."""
    return re.sub(r"(?m)(^|(?<=\s))--(?=\s|$).*$", "", text)


def antt_files():
    return sorted(glob.glob("crates/*/specs/**/*.antt", recursive=True) + glob.glob("crates/*/proofs/**/*.antt", recursive=True))


TOKEN = r"[^\s(){}.;,@\"«»:=]+"
KINDS = r"(?:(?:pub|abbrev|unfoldable|axiom|ruleset|let)\s+)*"
TYPED = re.compile(r"(?m)^[ \t]*" + KINDS + r"(" + TOKEN + r"(?:[ \t]+" + TOKEN + r")*)[ \t]*(?:\{[^{}\n]*\}[ \t]*|\([^()\n]*\)[ \t]*)*:(?=\s)")
LET = re.compile(r"\blet\s+([^=:]*?)\s(?:=|:)(?=\s)")
PAIR = re.compile(r"\blet\s+\(([^()=:]*)\)\s*=")
BINDER = re.compile(r"[({]((?:" + TOKEN + r"[ \t]+)+):(?=\s)")
DATA = re.compile(r"(?m)^([ \t]*)(?:pub[ \t]+)?data[ \t]+(" + TOKEN + r")[^\n]*\n((?:\1[ \t]+[^\n]*\n|[ \t]*\n)*)")
BARE = re.compile(r"(?m)^[ \t]*(?:(?:pub|unfoldable)\s+)*(?:abbrev|ruleset)\s+(?:pub\s+)?(" + TOKEN + r")[^:=\n]*=")
ALIAS = re.compile(r"(?m)^[ \t]*(?:pub[ \t]+)?use[ \t]+(\S+)[ \t]+as[ \t]+(\S+)")
MODULE = re.compile(r"(?m)^[ \t]*(?:pub[ \t]+)?module[ \t]+(" + TOKEN + r")")
IMPORT = re.compile(r"(?m)^[ \t]*(?:pub[ \t]+)?(?:use|open)[ \t]+(\S+?)\.\{([^{}]*)\}")
RECORD = re.compile(r"(?m)^([ \t]*)(?:pub[ \t]+)?record[ \t]+[^\n]*\n((?:\1[ \t]+[^\n]*\n|[ \t]*\n)*)")
WORDS = re.compile(r"[^\s(){}.;,@\"«»]+")


def words_declared(text):
    """All names that a file declares."""
    names = set()
    for m in TYPED.finditer(text):
        names |= set(m[1].split())
    for form in (LET, PAIR, BINDER):
        for m in form.finditer(text):
            names |= set(WORDS.findall(m[1]))
    for form in (BARE, MODULE):
        names |= set(form.findall(text))
    names |= {m[2] for m in ALIAS.finditer(text)}
    for m in IMPORT.finditer(text):
        names |= set(re.findall(r"\sas\s+(" + TOKEN + r")", m[2]))
    return names


def declared(text):
    """Those that want a new spelling."""
    return {n for n in words_declared(text) if old_style(n)}


def inner(form, text, wanted=old_style):
    """The names declared inside of a file's records, or inside of its data types."""
    names = set()
    for m in form.finditer(text):
        for f in TYPED.finditer(m[m.lastindex]):
            names |= set(f[1].split())
    return {n for n in names if wanted(n)}


def is_own(path):
    """Is a module's path one of a file in this repository, and not of what Rattle makes beside a function?"""
    m = OWN_PATH.match(path)
    return bool(m) and bool(m[3]) and os.path.exists(os.path.join("crates", m[1], m[2], *m[3].split(".")[1:]) + ".antt")


def imports(text):
    """What a file imports by name: from its own repository, and from elsewhere."""
    own, other = set(), set()
    for m in IMPORT.finditer(text):
        names = set(WORDS.findall(m[2].replace(" as ", " ")))
        m_own = re.match(r"Rattle\.(\w+)\.", m[1] + ".")
        (own if m_own and m_own[1] in CRATES else other).update(names)
    return own, other


class Names:
    def __init__(self):
        self.all, self.kept = set(BOUND), {}
        self.fields, self.constructors, self.types = {"Counts-zero"}, set(), set()
        self.now, self.now_fields = set(), set()
        for path in antt_files():
            text = plain(read(path))
            names = declared(text)
            if path.endswith("/Proof.antt"):
                # These files are answers to goals: only the proof itself turns.
                self.all |= {n for n in names if n.endswith("-spec")}
                self.kept[path] = {n for n in names if not n.endswith("-spec")}
            else:
                self.all |= names
                self.now |= words_declared(text)
                self.now_fields |= inner(RECORD, text, lambda n: True)
                self.fields |= inner(RECORD, text)
                self.constructors |= inner(DATA, text)
                self.types |= {m[2] for m in DATA.finditer(text)}
        for new, old in BESIDE.items():
            if old in self.all:
                self.all.add(new)
                EXCEPTIONS[new] = new + "_lem"
        made = {}
        for n in sorted(self.all):
            if snake(n) in RESERVED | TACTICS or made.setdefault(snake(n), n) != n:
                raise SystemExit(f"respell: {n} cannot be {snake(n)}: give it a name in EXCEPTIONS; nothing was written")
        self.spoken = self.all - set(BESIDE)  # outside of proofs those are functions

    def earlier(self, text):
        """The names in a text that were turned in the files below crates/ before: what they would be now is declared."""
        return {n for n in WORDS.findall(text.replace("`", " ")) if old_style(n) and n not in self.all and snake(n) in self.now}

    def turning(self, path, text):
        """The names that turn in a file."""
        own, other = imports(plain(text))
        return (self.all - (other - own)) - self.kept.get(path, set())


def respell(text, turning, names):
    """A text of antt with its names turned. Behind a dot a name turns if it is a field, or stands in an own module or data type."""
    modules = {m[2] for m in ALIAS.finditer(text) if is_own(m[1])}

    def one(m):
        name = m["word"]
        if name is None or name not in turning:
            return m[0]
        i = m.start()
        if i >= 2 and text[i - 1] == "." and not text[i - 2].isspace():
            before = re.search(r"[^\s(){};,@\"«»]*$", text[:i - 1])[0]
            of_type = name in names.constructors and before in names.types
            if not (name in names.fields or snake(name) in names.now_fields or of_type or before in modules or is_own(before)):
                return m[0]
        return snake(name)

    return PIECE.sub(one, text)


CLAUSE = re.compile(r"\bghost\s+use\b[^;]*;|\b(?:requires|ensures)(?:\s+\w+)?\s*(?=\{)|\bghost(?:\s+\w+)?\s*:?\s*(?=\{)")


def respell_source(text, turning, names):
    """A source file with its ghost text turned, and words in backquotes in its comments."""
    out, at = [], 0
    line = re.compile(r"//[^\n]*")
    while at < len(text):
        c, m = line.search(text, at), CLAUSE.search(text, at)
        if c and (not m or c.start() < m.start()):
            out.append(text[at:c.start()] + re.sub(r"`[^`]*`", lambda s: respell(s[0], turning, names), c[0]))
            at = c.end()
            continue
        if not m:
            break
        end = m.end()
        if not m[0].endswith(";"):
            depth = 0
            while True:
                depth += {"{": 1, "}": -1}.get(text[end], 0)
                end += 1
                if depth == 0:
                    break
        out.append(text[at:m.start()] + respell(text[m.start():end], turning, names))
        at = end
    return "".join(out) + text[at:]


def source_imports(text):
    own, other = set(), set()
    for m in re.finditer(r"ghost\s+use\s+([^;{]*)\.\{([^{}]*)\}", text):
        c = re.match(r"Rattle\.(\w+)\.", m[1])
        (own if c and c[1] in CRATES else other).update(WORDS.findall(m[2]))
    return own, other


def crates(names, write):
    for path in antt_files():
        text = read(path)
        new = respell(text, names.turning(path, text), names)
        new = re.sub(r"(?m)^[ \t]*--(?=\s).*$", lambda m: respell(m[0], names.earlier(m[0]), names), new)
        write(path, text, new)
    for path in sorted(glob.glob("crates/*/src/**/*.rt", recursive=True)):
        text = read(path)
        own, other = source_imports(text)
        write(path, text, respell_source(text, names.spoken - (other - own), names))
    for path in sorted(glob.glob("crates/*/must-fail/*.edit")):
        text = read(path)
        write(path, text, respell(text, names.spoken | names.earlier(text), names))


def docs(names, write):
    """Code spans of the pages. Here also names turn that were turned earlier: those whose new spelling is declared now."""
    def word(m):
        return snake(m[0]) if m[0] in names.spoken or m[0] in names.earlier(m[0]) else m[0]

    for path in ["README.md", "ARCHITECTURE.md"] + sorted(glob.glob("docs/*.md")):
        text = read(path)
        write(path, text, re.sub(r"`[^`\n]+`", lambda s: re.sub(r"[^\s(){}.;,@\"«»`]+", word, s[0]), text))


def main(argv):
    names = Names()
    if argv == ["--table"]:
        for n in sorted(names.all):
            print(n + "\t" + snake(n))
        return 0
    if argv not in ([], ["--docs"]):
        print(__doc__)
        return 2
    n = 0

    def write(path, old, new):
        nonlocal n
        if old != new:
            n += 1
            with open(path, "w", encoding="utf-8") as f:
                f.write(new)

    if argv == ["--docs"]:
        docs(names, write)
        print(f"respell: {n} pages written")
        return 0
    crates(names, write)
    print(f"respell: {len(names.all)} names turned, {n} files written")
    return 0


if __name__ == "__main__":
    raise SystemExit(main(sys.argv[1:]))
