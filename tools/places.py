#!/usr/bin/env python3
"""The places of each point of docs/DESIGN-PASS.md, counted over crates/*/src/*.rt (points 1 to 7) and crates/*/proofs (point 8).

Run at the top of the repository; with -v each place is printed too."""
import glob
import re
import sys

verbose = "-v" in sys.argv[1:]
sources = {f: open(f, encoding="utf-8").read() for f in sorted(glob.glob("crates/*/src/*.rt"))}
proofs = {f: open(f, encoding="utf-8").read() for f in sorted(glob.glob("crates/*/proofs/**/*.antt", recursive=True))}


def show(point, what, places):
    print(f"{point} {what}: {len(places)}")
    if verbose:
        for place in places:
            print("   ", place)


def lines(pattern, texts=sources):
    found = []
    for name, text in texts.items():
        for number, line in enumerate(text.split("\n"), 1):
            if not line.lstrip().startswith("//") and re.search(pattern, line):
                found.append(f"{name}:{number}: {line.strip()}")
    return found


def functions():
    for name, text in sources.items():
        for match in re.finditer(r"\bfn (\w+)(?:<[^(]*>)?\(([^)]*)\)([^{]*(?:\{(?! *\n)[^\n]*\}[^{]*|\{ [^\n]*\n[^{]*)*)", text):
            parameters = [p.strip() for p in match.group(2).split(",") if p.strip()]
            yield name, match.group(1), parameters


many = [f"{name}: {function} ({len(parameters)})" for name, function, parameters in functions() if len(parameters) > 5]
show("1a", "enums", lines(r"^\s*(pub )?enum \w+"))
show("1b", "numbers for kinds or stages among parameters and fields", lines(r"\b(kind|stage): u8\b"))
show("1c", "flags that are numbers", lines(r"\bx: u64\) -> u64|^\s*x == 1$"))
show("1d", "numbers that stand for none", lines(r"^\s*(return )?(64|16|65535|n)( \}.*)?;?$|else \{ (64|16|65535) \}"))
show("2a", "conversions that are functions of their own", lines(r"\bfn (wide|wide16|widen|index|long)\b"))
show("2b", "functions that are there for two widths", lines(r"\bfn \w+(16|64)\b"))
show("3", "loops by `while`", lines(r"^\s*while "))
show("4", "conversions and choices that the library has", lines(r"\bfn (of|number|least|greater|both|pick|turn|copy|long)\b"))
show("5a", "functions of more than five parameters", many)
show("5b", "bounds of an offset in a `requires`", lines(r"requires \{.*(rules_end|at \+ \(?[0-9]|from \+ 3 \* n).*≤ length s\.now"))
show("5c", "the tables' facts in a `requires`", lines(r"(requires \{|×) *\(?(Tables|Incoming|Treed|Hinted|Memo|Filing|Model|Ready|Whole|Studied|Coded|Serves) "))
show("6", "tables side by side as parameters of one function", [m for m in many if re.search(r"\((8|9|1\d|2\d)\)", m)])
show("7", "bools among parameters that choose what is done", lines(r"\b(mine|want|bound|inner|outer|all): bool"))
show("8a", "answers", lines(r"^pub [^:]* : goal\.", {f: t for f, t in proofs.items() if f.endswith("/Answers.antt")}))
show("8b", "lines of answers and invariants", [0] * sum(t.count("\n") for f, t in proofs.items() if f.endswith(("/Answers.antt", "/Invariants.antt"))))
