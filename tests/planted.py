#!/usr/bin/env python3
"""Plants mistakes in copies of engine.c and checks that the sheets tell.

  planted.py [--count N] [--seed N]

A comparison that would pass with a wrong engine says little.  Each mistake
here is one that a careful vendor could make; the generated stream must give
another answer for every one of them.  Mistakes that only the tables show are
compared with --tables over fewer sheets.
"""

import argparse
import os
import subprocess
import sys

sys.dont_write_bytecode = True   # leave no compiled files in the folder

import generate
from sheets import *

# name, text in engine.c, text in its place (and perhaps more such pairs)
MISTAKES = [
    ("facts persist", "uint64_t facts = t->states[from], next = 0;", "uint64_t facts = t->states[from], next = facts;"),
    ("NEXT lets the coalition choose after the others",
     """    const grouping *g = groups_for(k, m, t, n->coalition);
    memset(k->left, 0, g->first_group[m->states] * sizeof k->left[0]);
    for (unsigned e = 0; e < m->joint; e++)
        if (!has(t, t->successors[e], n->a)) k->left[g->group_of[e]] = 1;
    for (unsigned s = 0; s < m->states; s++)
        for (unsigned i = g->first_group[s]; i < g->first_group[s + 1]; i++)
            if (k->left[i] == 0) {
                set_mark(t, s, j);
                break;
            }
""",
     """    const grouping *g = groups_for(k, m, t, 15u & ~n->coalition);
    memset(k->left, 0, g->first_group[m->states] * sizeof k->left[0]);
    for (unsigned e = 0; e < m->joint; e++)
        if (has(t, t->successors[e], n->a)) k->left[g->group_of[e]] = 1;
    for (unsigned s = 0; s < m->states; s++) {
        bool every = true;
        for (unsigned i = g->first_group[s]; i < g->first_group[s + 1]; i++)
            if (k->left[i] == 0) every = false;
        if (every) set_mark(t, s, j);
    }
"""),
    ("EVENTUALLY and UNTIL let the coalition choose after the others",
     """    const grouping *g = groups_for(k, m, t, coalition);
    unsigned head = 0, tail = 0;
    find_arrivals(k, m, t);
    fill_left(k, m, t, g);
""",
     """    const grouping *g = groups_for(k, m, t, 15u & ~coalition);
    unsigned head = 0, tail = 0;
    find_arrivals(k, m, t);
    for (unsigned i = 0; i < g->first_group[m->states]; i++) k->left[i] = 1;
    for (unsigned s = 0; s < m->states; s++) k->alive[s] = (uint16_t)(g->first_group[s + 1] - g->first_group[s]);
""",
     "            if (--k->left[g->group_of[e]] != 0 || has(t, from, j)) continue;\n",
     """            if (!k->left[g->group_of[e]]) continue;
            k->left[g->group_of[e]] = 0;
            if (--k->alive[from] != 0 || has(t, from, j)) continue;
"""),
    ("ALWAYS lets the coalition choose after the others",
     """    const grouping *g = groups_for(k, m, t, n->coalition);
    unsigned head = 0, tail = 0;
    find_arrivals(k, m, t);
    memset(k->left, 0, g->first_group[m->states] * sizeof k->left[0]);
""",
     """    const grouping *g = groups_for(k, m, t, 15u & ~n->coalition);
    unsigned head = 0, tail = 0;
    find_arrivals(k, m, t);
    fill_left(k, m, t, g);
""",
     """            if (k->left[g->group_of[e]]) continue;
            k->left[g->group_of[e]] = 1;
            if (--k->alive[from] == 0 && has(t, from, j)) {
""",
     """            if (--k->left[g->group_of[e]] != 0) continue;
            if (has(t, from, j)) {
""",
     "/* How many joint moves of each group are not yet known to lead to a mark. */\n", "",
     "/* A state is lost when each", "static void fill_left(marker *k, const model *m, const tables *t, const grouping *g);\n/* A state is lost when each"),
    ("views in rule order", "    return ones(d->reach[v] | bit(v));", "    return ones(d->reach[v] | bit(v)) > 0;"),
    ("a circle of views swept once", "while (p->level_repeats[l] && views != before)", "while (0)"),
    ("a circle of views swept twice", "        } while (p->level_repeats[l] && views != before);",
     "            if (p->level_repeats[l]) views = sweep_level(s, p, l, facts, views);\n        } while (before > views);"),
    ("a choice that is not the shortest", "if (k->rank[t->successors[e]] >= own)", "if (k->rank[t->successors[e]] == NONE)"),
    ("a choice that the others can spoil", "if (k->left[g->group_of[e]] == 0) return e - start;",
     "if (k->rank[t->successors[e]] < own) return e - start;"),
    ("rounds last in, first out", "unsigned won = k->queue[head++];", "unsigned won = k->queue[--tail];"),
    ("a terminal state refused for want of choices", "    if (!terminal) {\n        count =", "    {\n        count ="),
    ("a terminal state expanded like any other", "    if (terminal) {\n        record_move(m, t, at, at);\n        return 0;\n    }\n", ""),
    ("a terminal state does not count for 7", "if (m->joint + count > MAX_JOINT) return 7;", "if (!terminal && m->joint + count > MAX_JOINT) return 7;\n    if (m->joint == MAX_JOINT) return 6;"),
    ("8,192 joint moves refused", "m->joint + count > MAX_JOINT", "m->joint + count >= MAX_JOINT"),
    ("7 looks at one state only", "m->joint + count > MAX_JOINT", "count > MAX_JOINT || m->joint + 0u * count >= MAX_JOINT"),
    ("product in sixteen bits", "    return product;", "    return (uint16_t)product;"),
    ("a role without choices left out", "        product *= width[r];", "        if (width[r] > 0) product *= width[r];"),
    ("1,024th state refused", "if (m->states == MAX_STATES) return MAX_STATES;", "if (m->states == MAX_STATES - 1) return MAX_STATES;"),
    ("role 0 fastest", "give_choices(s, m, t, from, choices, 0, count, next)", "give_choices(s, m, t, from, (choices << 32) | (choices >> 32), 0, count, next)"),
    ("moves read off LEGAL", "uint64_t choices = legal & p->does_moves;", "uint64_t choices = legal;"),
    ("moves of one role lent to all", "uint64_t choices = legal & p->does_moves;",
     "uint64_t any = (p->does_moves | p->does_moves >> 16 | p->does_moves >> 32 | p->does_moves >> 48) & 0xFFFF;\n"
     "    uint64_t choices = legal & (any | any << 16 | any << 32 | any << 48);"),
    ("LEGAL asks for moves in DOES", "t->marks[at] = plain_marks(s, p, facts, views, legal, terminal);",
     "t->marks[at] = plain_marks(s, p, facts, views, choices, terminal);"),
    ("LEGAL false in terminal states", "t->marks[at] = plain_marks(s, p, facts, views, legal, terminal);",
     "t->marks[at] = plain_marks(s, p, facts, views, terminal ? 0 : legal, terminal);"),
    ("two moves of one role at once", "if (f.does & own & ~made) continue;", "if ((f.does & own) && !(f.does & made)) continue;"),
    ("GOAL for any value", "&& s->nodes[j].b == r->b)", ")"),
    ("GOAL for any role", "s->nodes[j].a == r->a &&", "s->nodes[j].a < 4 &&"),
    ("a state does not hold the INIT facts", "state_number(m, t, p->initial);", "state_number(m, t, 0);"),
    ("UNTIL wants a in the last state too",
     "        if (!has(t, s, goal)) continue;", "        if (!has(t, s, goal) || (through >= 0 && !has(t, s, (unsigned)through))) continue;"),
    ("UNTIL forgets a", "if (through >= 0 && !has(t, from, (unsigned)through)) continue;", ""),
    ("UNTIL as weak until", "case NODE_UNTIL: mark_reach(k, m, t, j, n->coalition, n->a, n->b); break;",
     "case NODE_UNTIL: mark_always(k, m, t, j, n); break;"),
    ("ALWAYS looks one move ahead", "                k->queue[tail++] = (uint16_t)from;\n            }\n        }\n    }\n}\n\n/* How",
     "            }\n        }\n    }\n}\n\n/* How"),
    ("ALWAYS lost by one bad group", "if (--k->alive[from] == 0 && has(t, from, j)) {", "if (has(t, from, j)) {"),
    ("AND for OR", "n->kind == NODE_AND ?", "n->kind != NODE_NOT ?"),
    ("verdict of the first node", "out.verdict = has(t, 0, out.last_node);", "out.verdict = has(t, 0, 0);"),
    ("lowest view of the first bad NOT only", "uint64_t ahead = d->reach[v] | bit(v),", "uint64_t ahead = bit(v),"),
    ("a view that leads to a bad chain blamed", "(d->negated[u] & behind)) return true;", "(d->negated[u] & (behind | d->reach[u])) && (d->reach[u] & bit(u))) return true;"),
    ("plain circles refused", "d->negated[r->a] |= r->views_off;", "d->negated[r->a] |= r->views_off | r->views_on;"),
    ("own NOT not seen", "uint64_t set = bit(v);\n    for", "uint64_t set = 0;\n    for (unsigned u = 0; u < s->views; u++)\n        if (u != v && (d->reach[u] & bit(v))) set |= bit(u);\n    return set;\n    for"),
    ("place of bytes after ED", "refuse(1, record + 1)", "refuse(1, record)"),
    ("bytes after ED left unread", "return rest == 2 ? accepted_so_far() : refuse(1, record + 1);", "return accepted_so_far();"),
    ("ED before any node", "case MARK_ED: return s->node_count > 0;", "case MARK_ED: return record > 0;"),
    ("RU after FO", "case MARK_RU: return record > 0 && s->node_count == 0;", "case MARK_RU: return record > 0;"),
    ("a second SZ", "case MARK_SZ: return record == 0;", "case MARK_SZ: return true;"),
    ("513th rule admitted only to 512", "if (s->rule_count == MAX_RULES || f[3] > MAX_LITERALS) return 3;", "if (s->rule_count == MAX_RULES - 1 || f[3] > MAX_LITERALS) return 3;"),
    ("the 513th rule as a bad mark", "if (s->rule_count == MAX_RULES || f[3] > MAX_LITERALS) return 3;",
     "if (s->rule_count == MAX_RULES) return 1;\n    if (f[3] > MAX_LITERALS) return 3;"),
    ("the 65th node as a bad mark", "if (s->node_count == MAX_NODES) return 3;", "if (s->node_count == MAX_NODES) return 1;"),
    ("eight literals refused", "f[3] > MAX_LITERALS) return 3;", "f[3] >= MAX_LITERALS) return 3;"),
    ("3 after the literals", "    if (s->rule_count == MAX_RULES || f[3] > MAX_LITERALS) return 3;\n    if (rest < 6 + 3 * (size_t)f[3]) return 1;\n",
     "    if (rest < 6 + 3 * (size_t)f[3]) return 1;\n    if (s->rule_count == MAX_RULES || f[3] > MAX_LITERALS) return 3;\n"),
    ("3 after the fields of a node", "    if (s->node_count == MAX_NODES) return 3;\n    return node_in_range(s, f) ? 0 : 2;",
     "    if (!node_in_range(s, f)) return 2;\n    return s->node_count == MAX_NODES ? 3 : 0;"),
    ("the head's fields before the literals are there", "    if (rest < 6 + 3 * (size_t)f[3]) return 1;\n",
     "    if (!head_in_range(s, f)) return 2;\n    if (rest < 6 + 3 * (size_t)f[3]) return 1;\n"),
    ("4 before 2", "    if (!rule_in_range(s, f)) return 2;\n    if (rule_misplaced(f)) return 4;\n",
     "    if (rule_misplaced(f)) return 4;\n    if (!rule_in_range(s, f)) return 2;\n"),
    ("INIT with literals", "if (f[0] == HEAD_INIT && f[3] > 0) return true;", ""),
    ("DOES under VIEW", "f[4 + 3 * i] == LIT_DOES && f[0] != HEAD_NEXT", "f[4 + 3 * i] == LIT_DOES && f[0] != HEAD_NEXT && f[0] != HEAD_VIEW"),
    ("DOES under TERMINAL", "f[4 + 3 * i] == LIT_DOES && f[0] != HEAD_NEXT", "f[4 + 3 * i] == LIT_DOES && f[0] != HEAD_NEXT && f[0] != HEAD_TERMINAL"),
    ("unused second field of facts", "{ return a < s->facts && b == 0; }", "{ return a < s->facts && b < 256; }"),
    ("unused second field of views", "{ return a < s->views && b == 0; }", "{ return a < s->views && b < 256; }"),
    ("fact equal to the count", "{ return a < s->facts && b == 0; }", "{ return a <= s->facts && a < 64 && b == 0; }"),
    ("move equal to the count", "{ return a < s->roles && b < s->moves; }", "{ return a < s->roles && b <= s->moves && b < 16; }"),
    ("role equal to the count", "{ return a < s->roles && b < s->moves; }", "{ return a <= s->roles && a < 4 && b < s->moves; }"),
    ("goal value of 101", "b <= 100;", "b <= 101;"),
    ("goal value of 100 refused", "b <= 100;", "b < 100;"),
    ("coalition of any four roles", "bool coalition = c < (1u << s->roles);", "bool coalition = c < 16;"),
    ("coalition with a high bit cut off", "bool coalition = c < (1u << s->roles);", "bool coalition = (c & 15u) < (1u << s->roles);"),
    ("a node as its own operand", "case NODE_NOT: return a < own && b == 0 && c == 0;", "case NODE_NOT: return a <= own && a < 64 && b == 0 && c == 0;"),
    ("coalition of a connective left unread", "case NODE_OR: return a < own && b < own && c == 0;", "case NODE_OR: return a < own && b < own;"),
    ("no facts at all", "f[1] >= 1 && f[1] <= 64", "f[1] <= 64"),
    ("17 moves", "f[3] >= 1 && f[3] <= 16", "f[3] >= 1 && f[3] <= 17"),
    ("5 before the records are all read", "        if (bad != 0) return refuse(bad, record);\n    }\n}\n\n/* ---- Views",
     "        if (bad != 0) return refuse(bad, record);\n        if (m == MARK_RU && s->rules[s->rule_count - 1].head == HEAD_VIEW\n"
     "            && (s->rules[s->rule_count - 1].views_off & bit(s->rules[s->rule_count - 1].a)))\n"
     "            return refuse(5, s->rules[s->rule_count - 1].a);\n    }\n}\n\n/* ---- Views"),
    ("7 and 8 told after all states are found", "if (count == 0) return 8;", "if (count == 0) {\n            if (at + 1 < m->states) { record_move(m, t, at, at); return 0; }\n            return 8;\n        }"),
    ("six found before seven", "if (m->joint + count > MAX_JOINT) return 7;", "if (count > MAX_STATES * 8u && count > MAX_JOINT) return 6;\n    if (m->joint + count > MAX_JOINT) return 7;"),
    ("dash only for unmarked states", "    if (shown && n != NONE) put_number(n);", "    if (n != NONE) put_number(n);"),
    ("facts printed as a signed number", "    put_field(t->states[s]);", "    put_field(t->states[s] & INT64_MAX);"),
    ("joint moves printed as the start", "put_field((uint64_t)(t->starts[s + 1] - t->starts[s]));", "put_field(t->starts[s + 1]);"),
]

TABLE_MISTAKES = [
    ("tables left half filled after 6 to 8", "    if (out.refusal != 0) {\n        clear_tables(t);\n", "    if (out.refusal != 0) {\n"),
    ("tables not cleared before use", "    clear_tables(t);\n    out = build_model", "    memset(t->marks, 0, MAX_STATES * sizeof *t->marks);\n    out = build_model"),
    ("tables cleared for refusal 5", "    out = check_levels(s, &d);\n", "    clear_tables(t);\n    out = check_levels(s, &d);\n"),
    ("tables cleared for refusals of records", "    out = read_sheet(s, bytes, length);\n", "    clear_tables(t);\n    out = read_sheet(s, bytes, length);\n"),
    ("rounds of another last node", "if (out.eventually) fill_rounds", "if (s->nodes[s->node_count - 1].kind >= NODE_EVENTUALLY) fill_rounds"),
    ("no total in the starts", "    t->starts[m->states] = (uint16_t)m->joint;\n    return accepted_so_far();", "    t->starts[m->states] = (uint16_t)m->joint;\n    if (m->states < MAX_STATES) t->starts[m->states + 1] = (uint16_t)m->joint;\n    return accepted_so_far();"),
    ("unmarked states marked in a node not asked", "        if (holds) set_mark(t, s, j);\n    }\n}\n\n/* The plain", "        if (holds && n->kind != NODE_OR) set_mark(t, s, j);\n    }\n}\n\n/* The plain"),
    ("choice of count 0 is 0", "rank == 0 || rank == NONE ? NONE :", "rank == 0 ? 0 : rank == NONE ? NONE :"),
]


def plant(folder, source, edits):
    """Compiles a copy with one mistake; warnings do not matter here."""
    for old, new in zip(edits[::2], edits[1::2]):
        if source.count(old) != 1:
            raise SystemExit("found %d times, wanted once: %s" % (source.count(old), old))
        source = source.replace(old, new)
    path, program = os.path.join(folder, "planted.c"), os.path.join(folder, "planted")
    with open(path, "w") as out:
        out.write(source)
    subprocess.run([os.environ.get("CC", "cc"), "-std=c11", "-w", "-O1", "-o", program, path], check=True)
    return program


def tells(program, options, stream, right):
    """Another answer, or a breakdown, or no end: all of them tell."""
    try:
        done = subprocess.run([program] + options, input=stream, stdout=subprocess.PIPE, stderr=subprocess.DEVNULL, timeout=60)
    except subprocess.TimeoutExpired:
        return True
    return done.returncode != 0 or done.stdout != right


def main():
    parser = argparse.ArgumentParser(description="Plants mistakes in the engine and checks that the sheets tell.")
    parser.add_argument("--count", type=int, default=12000)
    parser.add_argument("--seed", type=int, default=1)
    given = parser.parse_args()
    cases = [c.sheet for c in generate.all_cases(given.count, given.seed)]
    with open(os.path.join(HERE, "engine.c")) as text:
        source = text.read()
    untold = []
    with scratch() as folder:
        engine = compile_engine(folder)
        for options, mistakes, sheets in ((["--batch"], MISTAKES, cases), (["--batch", "--tables"], TABLE_MISTAKES, cases[::40])):
            stream = pack(sheets)
            right = run([engine] + options, stream)
            for name, *edits in mistakes:
                if not tells(plant(folder, source, edits), options, stream, right):
                    untold.append(name)
                    print("NOT TOLD: %s" % name, flush=True)
    total = len(MISTAKES) + len(TABLE_MISTAKES)
    print("%d planted mistakes, %d told by the sheets" % (total, total - len(untold)))
    return 1 if untold else 0


if __name__ == "__main__":
    sys.exit(main())
