#!/usr/bin/env python3
"""Spells the repository's own definitions and lemmas as today's Rattle does.

usage: tools/spell_names.py [--check]      at the top of the repository, once, after port.py
       tools/spell_names.py --names        print the table: old, a tab, new

A definition, a field or a constructor in lower case becomes snake case (`turfCount` is `turf_count`). A lemma keeps the dash behind the word that it is
about, where specs/ or the library has that word (`member-front`, `up_from-below`), and has underscores elsewhere (`zone_ends`). Functions of src/ and what
the prover makes of them are no names of ours and stay; so do a name whose new spelling stands in some text already, and types. Goes by whole words in
crates/*/specs, crates/*/proofs, clauses of crates/*/src and must-fail edits.
"""

import os
import re
import sys

ROOT = os.path.join(os.path.dirname(os.path.realpath(__file__)), "..")
WORD = re.compile(r"""[^\s(){}\[\];,."«»`|]+""")
DECLARED = re.compile(r"""^( *)((?:pub |abbrev |unfoldable )*)([^\s(){}\[\];,."]+) :(?= |$)""", re.M)
RECORD = re.compile(r"""^( *)(?:pub |abbrev |unfoldable )*(record|data)\s+(?:pub )?([^\s(){}\[\];,."]+)""")
# Names whose plain spelling is a field, a parameter or a lemma of ours.
CHOSEN = {
    "goesOn": "may_go_on",
    "linkFlags": "link_flags",
    "inOrder": "jobs_in_order",
    "planZone": "planned_zone",
    "fillAll": "filled_all",
    "planAll": "planned_all",
    "perTurf": "bytes_per_turf",
    "backAt": "back_state_at",
}
# Lemmas whose spelling is a definition's from here on.
MOVED = {"live_at": "live_in-at", "list_at": "list-at"}
# Words of the library that our lemmas are about.
LIBRARY = set("""All Any append length take drop map get get_or set slice_set replicate cut fold sum filter reverse add mul div sub
    abs finite cond eqb ltb leb min max""".split())


def snake(part):
    if not re.match(r"[a-z]", part):
        return part
    return re.sub(r"(?<=[a-z0-9])[A-Z](?![A-Z0-9])|(?<=[a-z0-9])[A-Z](?=$)", lambda m: "_" + m[0].lower(), part)


def texts(*kinds):
    for folder, dirs, files in os.walk(os.path.join(ROOT, "crates")):
        dirs[:] = sorted(d for d in dirs if d != "out")
        for f in sorted(files):
            p = os.path.join(folder, f)
            if f.endswith(kinds):
                yield p, os.path.relpath(p, os.path.join(ROOT, "crates"))


def is_ours(path):
    """A file of specs/, or one right in proofs/: what lies deeper goes by the prover's names for a function's goals."""
    parts = path.split("/")
    return parts[1] == "specs" or parts[1] == "proofs" and len(parts) == 3


def read(p):
    with open(p, encoding="utf-8") as f:
        return f.read()


def fields_of(text):
    """The fields and constructors of a text's records and enums."""
    found, depth = set(), None
    for line in text.split("\n"):
        indent = len(line) - len(line.lstrip())
        if depth is not None and line.strip() and indent <= depth:
            depth = None
        m = RECORD.match(line)
        if m and line.rstrip().endswith("where"):
            depth = len(m[1])
        elif depth is not None:
            m = DECLARED.match(line)
            if m:
                found.add(m[3])
    return found


def table():
    words, ours, defined, fields, called = set(), {}, set(), set(), set()
    for p, path in texts(".antt", ".rt"):
        if "Zz" in path or "_zz_" in path:
            continue
        text = read(p)
        words.update(WORD.findall(text))
        if path.endswith(".rt"):
            called.update(re.findall(r"\bfn (\w+)", text))
        if path.endswith(".antt") and is_ours(path):
            at = fields_of(text)
            fields |= at
            for m in DECLARED.finditer(text):
                ours.setdefault(m[3], path)
                if path.split("/")[1] == "specs":
                    defined.add(m[3])
            for line in text.split("\n"):
                m = RECORD.match(line)
                if m:
                    defined.add(m[3])
    heads = {snake(n) for n in defined} | LIBRARY
    made, rows = {}, {}
    for n in sorted(ours):
        if "◌" in n or not re.search(r"-|[a-z0-9][A-Z]", n) or re.match(r"[A-Z][A-Za-z0-9']*$", n):
            continue
        parts = [snake("get_or" if x == "getD" else x) for x in n.split("-")]
        if len(parts) == 1 or n in defined or n in fields:
            new = "_".join(parts)
        elif parts[0] in heads:
            new = parts[0] + "-" + "_".join(parts[1:])
        else:
            new = "_".join(parts)
        if new != n:
            made.setdefault(new, []).append(n)
    for new, olds in made.items():
        # Where two names would fall together, or the new one stands in some text, each keeps its dashes.
        for n in olds:
            to = new
            if n in CHOSEN:
                to = CHOSEN[n]
            elif sum("-" not in x for x in olds) == 1 and "-" not in n and (new in called or new not in words):
                pass  # a definition that mirrors a function of src/ has its name: no clause can name a function
            elif len(olds) > 1 or new in words:
                to = "-".join(snake("get_or" if x == "getD" else x) for x in n.split("-"))
                if to in words and to != n:
                    to = n
            if to != n:
                rows[n] = to
    rows.update(MOVED)
    return rows, fields


def turned(text, rows, fields, antt):
    def one(m):
        w = m[0]
        if w not in rows or w in MOVED and not antt:
            return w
        # Behind a dot stands a field of ours, or a name of a module that a text imports under another name.
        before = text[m.start() - 1] if m.start() else ""
        if before == "." and w not in fields:
            head = re.search(r"([^\s(){}\[\];,]+)\.$", text[: m.start()])
            if not head or not re.search(r"\bas " + re.escape(head[1].split(".")[0]) + r"(?=[\s;]|$)", text) or head[1].split(".")[0] in ("tie", "need", "goal"):
                return w
        return rows[w]

    return WORD.sub(one, text)


def main(argv):
    rows, fields = table()
    if argv == ["--names"]:
        for n in sorted(rows):
            print(n + "\t" + rows[n])
        return 0
    changed = 0
    for p, path in texts(".antt", ".rt", ".edit"):
        text = read(p)
        new = turned(text, rows, fields, path.endswith(".antt"))
        if new != text:
            changed += 1
            if argv != ["--check"]:
                with open(p, "w", encoding="utf-8") as f:
                    f.write(new)
    print(f"{len(rows)} names, {changed} files")
    return 0


if __name__ == "__main__":
    raise SystemExit(main(sys.argv[1:]))
