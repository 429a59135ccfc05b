#!/usr/bin/env python3
"""The engine's cases: document 01's own, and sheets on both sides of every limit.

    cases.py            writes crates/batch/stdin and stdout
    cases.py --check    fails if those files are not what this file says

The answers are known by hand from how each sheet is built (`generate.py`), as a whole or by their first
line; where only the first line is, the other lines are those of the independent engine in `engine.c`.
Never are they what the proved engine printed.
"""

import os
import random
import sys

import generate
from sheets import HERE, compile_engine, cut_listings, pack, run, scratch


def cases():
    rng = random.Random(5)
    chosen = list(generate.document_cases()) + list(generate.no_choice_cases()) + list(generate.state_after_state())
    chosen += list(generate.record_limit_cases())
    # every size of counter would print some thousand lines each: the largest is enough
    chosen += [c for c in generate.model_limit_cases(rng) if not (c.expect or "").startswith("ok 1024 8192")][:60]
    chosen += [c for c in generate.model_limit_cases(rng) if (c.expect or "").startswith("ok 1024 8192")][:1]
    return chosen


def wanted(case, answer):
    """The independent engine's answer, held to what is known by hand."""
    known = case.expect.rstrip("\n")
    if answer != known and answer.split("\n")[0] != known and not answer.startswith(known + "\n"):
        sys.exit("the independent engine answers %r where %r is known by hand:\n%s" % (answer[:80], known[:80], case.sheet.hex()))
    return answer


def main():
    home = os.path.join(os.path.dirname(HERE), "crates", "batch")
    chosen = cases()
    stream = pack([c.sheet for c in chosen])
    with scratch() as directory:
        output = run([compile_engine(directory), "--batch"], stream)
    answers = [a.decode().rstrip("\n") for a in cut_listings(output)]
    if len(answers) != len(chosen):
        sys.exit("%d sheets, but %d answers" % (len(chosen), len(answers)))
    text = "".join(wanted(c, a) + "\n" for c, a in zip(chosen, answers))
    files = {"stdin": stream, "stdout": text.encode()}
    if sys.argv[1:] == ["--check"]:
        for name, content in files.items():
            with open(os.path.join(home, name), "rb") as f:
                if f.read() != content:
                    sys.exit("crates/batch/%s is not what tests/cases.py says: run tests/cases.py" % name)
        print("%d cases of the engine, as stored" % len(chosen))
    else:
        for name, content in files.items():
            with open(os.path.join(home, name), "wb") as f:
                f.write(content)


if __name__ == "__main__":
    main()
