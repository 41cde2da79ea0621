#!/usr/bin/env python3
"""Brings the definitions and lemmas of specs/ and proofs/ to snake case.

usage: python3 tools/respell.py [--list]      at the top of the repository, once, after the port's own script

A name of ours is one that a file of specs/ or proofs/ declares, or a ghost member or clause label of src/. Its words are
joined by `_`; a dash stays where it joins two names, as in `length-put`. Names of std, names that Rattle makes (goals and
their parts), functions of src/, comments' plain words and strings stay. It stops where two names would fall together.
"""

import os
import re
import sys

# A dash stays between two of these: the function on the outside, and the one that it is applied to.
OUTER = set("length count take at every formed code codeOr0 lastWriter onWrite put".split())
INNER = set("append put putEvent levelledTo atLevel isLevel levelFrom levelFrom at".split())

# Variables whose names are in camel case.
VARIABLES = "realTime onVertices writesX vertexReady otherWrite otherCommit atQ noG1b noG1a vertexClosed".split()

# Fields and lemmas that would have the name of a definition.
CHOSEN = {
    "begin-at": "each_begin",
    "by-commit": "versions_by_commit",
    "by-write": "versions_by_write",
    "event-of": "event_of_lem",
    "has-begun": "is_begun",
    "has-committed": "is_committed",
    "has-aborted": "is_aborted",
    "in-force": "in_force_lem",
    "is-pl": "is_pl_lem",
    "last-write": "last_write_counts",
    "level-of": "level_of_lem",
    "not-begun": "not_begun_lem",
    "read-before-own": "read_before_own_edge",
    "read-own-version": "read_own_version_edge",
    "same_version": "same_version_lem",
    "sees-again": "sees_again_lem",
    "uncommitted-read": "uncommitted_read_edge",
    "version-text": "version_text_lem",
    "is-order": "is_order_lem",
    "is-walk": "is_walk_lem",
    "number-on": "number_on_lem",
    "all-vertices": "all_vertices_lem",
    "columns-known": "columns_known_lem",
    "fault-once": "fault_once_lem",
    "level-bytes": "level_bytes_lem",
    "orders-carry-over": "orders_carry_over_lem",
    "walks-carry-over": "walks_carry_over_lem",
}
TOKEN = re.compile(r"[A-Za-z_][A-Za-z0-9_']*(?:-[A-Za-z0-9_']+)*")
DECLARED = re.compile(r"^\s*(?:abbrev\s+|unfoldable\s+)?(?:pub\s+)?([a-z_][A-Za-z0-9_']*(?:-[A-Za-z0-9_']+)*) :(?:\s|$)")
GOAL = re.compile(r":\s*(?:goal|need|goals|needs)\.")


def files(top):
    for folder, dirs, names in os.walk(os.path.join(top, "crates")):
        dirs[:] = sorted(d for d in dirs if d != "out")
        for name in sorted(names):
            if name.endswith((".rt", ".antt", ".edit")):
                yield os.path.join(folder, name)


def comment_at(line, mark):
    """Where the comment of a line begins, or its length."""
    inside = None
    k = 0
    while k < len(line):
        c = line[k]
        if inside:
            if c == "\\":
                k += 1
            elif c == inside:
                inside = None
        elif c == '"':
            inside = c
        elif line.startswith(mark, k) and (k == 0 or line[k - 1] in " \t"):
            return k
        k += 1
    return len(line)


def snake(word):
    word = re.sub(r"([a-z0-9])([A-Z])", r"\1_\2", word)
    return word.lower()


def declared(top):
    """The names that we declare."""
    names = set()
    for path in files(top):
        if not path.endswith(".antt"):
            continue
        answers = os.path.basename(path) in ("Answers.antt", "Invariants.antt")
        with open(path, encoding="utf-8") as f:
            for line in f:
                m = DECLARED.match(line)
                if not m or (answers and (GOAL.search(line) or m.group(1).startswith(("invariant-", "decreases-", "loop-", "returns")))):
                    continue
                names.add(m.group(1))
    return names


def respelled(name):
    if name in CHOSEN:
        return CHOSEN[name]
    parts = name.split("-")
    if len(parts) == 2 and parts[0] in OUTER and parts[1] in INNER:
        return snake(parts[0]) + "-" + snake(parts[1])
    return snake("_".join(parts))


def turn(text, table, mark):
    out = []
    for line in text.split("\n"):
        cut = comment_at(line, mark) if mark else len(line)
        code, comment = line[:cut], line[cut:]
        code = TOKEN.sub(lambda m: table.get(m.group(0), m.group(0)), code)
        comment = TOKEN.sub(lambda m: table[m.group(0)] if m.group(0) in table and re.search("[A-Z]", m.group(0)) else m.group(0), comment)
        out.append(code + comment)
    return "\n".join(out)


def main():
    top = os.getcwd()
    names = declared(top) | set(VARIABLES)
    table = {n: respelled(n) for n in names}
    table = {a: b for a, b in table.items() if a != b}
    bad = False
    into = {}
    for a, b in sorted(table.items()):
        into.setdefault(b, []).append(a)
    for b, olds in sorted(into.items()):
        if len(olds) > 1 or b in names and b not in table:
            print("fall together:", b, "<-", ", ".join(olds), "(and itself)" if b in names else "")
            bad = True
    if "--list" in sys.argv:
        for a, b in sorted(table.items()):
            print(a, b)
        return
    if bad and "--anyway" not in sys.argv:
        raise SystemExit(1)
    for path in files(top):
        with open(path, encoding="utf-8") as f:
            old = f.read()
        mark = "//" if path.endswith(".rt") else "--" if path.endswith(".antt") else None
        new = turn(old, table, mark)
        if new != old:
            with open(path, "w", encoding="utf-8") as f:
                f.write(new)


main()
