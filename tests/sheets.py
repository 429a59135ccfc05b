"""Pieces that the other files of this folder share: building sheets, packing
them into a batch stream, compiling and running an engine, and cutting its
answers apart again."""

import os
import platform
import shlex
import shutil
import subprocess
import sys
import tempfile

HERE = os.path.dirname(os.path.abspath(__file__))

INIT, NEXT, VIEW, LEGAL, GOAL, TERMINAL = 1, 2, 3, 4, 5, 6
TRUE, NOT_TRUE, IS_VIEW, NOT_VIEW, DOES = 1, 2, 3, 4, 5
(N_TRUE, N_FACT, N_VIEW, N_LEGAL, N_GOAL, N_TERMINAL, N_NOT, N_AND, N_OR,
 N_NEXT, N_ALWAYS, N_EVENTUALLY, N_UNTIL) = range(1, 14)

WARNINGS = ["-std=c11", "-Wall", "-Wextra", "-Wpedantic", "-Werror"]


def sz(roles, facts, views, moves):
    return b"SZ" + bytes([roles, facts, views, moves])


def ru(head, a=0, b=0, *literals):
    out = b"RU" + bytes([head, a, b, len(literals)])
    for literal in literals:
        out += bytes(tuple(literal) + (0,) * (3 - len(literal)))
    return out


def fo(kind, a=0, b=0, coalition=0):
    return b"FO" + bytes([kind, a, b, coalition])


ED = b"ED"


def pack(sheets):
    """The batch stream: two bytes of length, low byte first, then the sheet."""
    return b"".join(len(s).to_bytes(2, "little") + s for s in sheets)


def compile_engine(directory, sanitize=False, compiler=None, more=()):
    """Compiles the engine beside this file and says where the program is."""
    compiler = compiler or os.environ.get("CC", "cc")
    name = "engine-sanitized" if sanitize else "engine"
    program = os.path.join(directory, name)
    flags = WARNINGS + (["-g", "-O1", "-fsanitize=address,undefined",
                         "-fno-sanitize-recover=all"] if sanitize else ["-O2"])
    subprocess.run([compiler, *flags, *more, "-o", program, os.path.join(HERE, "engine.c")], check=True)
    return program


CROSS = "x86_64-linux-gnu-gcc"


def engine_for_x86_64(directory):
    """The command that runs the engine as the proved programs run: compiled
    for x86-64, and where the machine is another under Debian's emulator, or
    under EMULATOR if that is set."""
    if platform.machine() == "x86_64":
        return [compile_engine(directory)]
    if shutil.which(CROSS) is None:
        sys.exit("there is no %s: install Debian's gcc-x86-64-linux-gnu and libc6-dev-amd64-cross" % CROSS)
    words = shlex.split(os.environ.get("EMULATOR", "")) or ["qemu-x86_64"]
    return words + [compile_engine(directory, compiler=CROSS, more=["-static"])]


def scratch():
    """A folder that goes away when it is let go."""
    return tempfile.TemporaryDirectory(prefix="outside-")


def run(command, stream):
    """Runs a program on a stream; any failure of the program is an error."""
    done = subprocess.run(command, input=stream, stdout=subprocess.PIPE, stderr=subprocess.PIPE)
    if done.returncode != 0:
        sys.stderr.write(done.stderr.decode("utf-8", "replace"))
        raise RuntimeError("%s ended with %d" % (command[0], done.returncode))
    return done.stdout


def lines_of_listing(first):
    """How many lines the listing has that starts with this line."""
    words = first.split(b" ")
    if words[0] == b"ok":
        return 1 + int(words[1])
    if words[0] == b"no":
        return 1
    raise ValueError("not a listing: %r" % first[:80])


def cut_listings(output, extra=0):
    """Cuts the output of a batch run into one answer a sheet.  `extra` lines
    follow each listing (six when the tables are shown)."""
    lines = output.split(b"\n")
    if lines.pop() != b"":
        raise ValueError("the last line does not end with a line feed")
    answers, at = [], 0
    while at < len(lines):
        end = at + lines_of_listing(lines[at]) + extra
        if end > len(lines):
            raise ValueError("the output stops inside a listing")
        answers.append(b"".join(line + b"\n" for line in lines[at:end]))
        at = end
    return answers


def first_line(answer):
    return answer.split(b"\n", 1)[0].decode("ascii", "replace")


def refusal_number(answer):
    """0 for an accepted sheet, or the number of the refusal."""
    words = first_line(answer).split(" ")
    return 0 if words[0] == "ok" else int(words[1])
