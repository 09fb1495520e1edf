#!/usr/bin/env python3
"""Brings the names that this repository's own specs and proofs declare to one spelling: snake case for definitions, lemmas, fields and
constructors, upper camel case for types.

usage: tools/spell.py [--list]        at the top of the repository

It goes by the text of the .antt files below crates/, and turns whole names there, in clauses, ghost items and comments of .rt files, in
must-fail edits, and in the code spans of README.md and docs/. Names that the check makes stay: what stands behind 'goal.', an answer to a goal, and a step behind the facts of an answer.
--list prints each name with its new spelling and writes nothing. A second run writes nothing more.
"""

import os
import re
import sys

TOKEN = re.compile(r'[^\s(){}.;,@"«»`:\[\]]+')
SIGNATURE = re.compile(r'^[ \t]*(?:(?:pattern|unfoldable|abbrev|axiom|pub|record|data|module)[ \t]+)*([^\s(){}.;,@"«»:]+)(?:[ \t]*\{[\w, ℓκ]+\})?[ \t]+:(?=\s)', re.M)
PARAMETERS = re.compile(r"^[ \t]*(?:pub[ \t]+)?(?:record|data)[ \t]+([^\s(){}.;,@\"«»:]+)[ \t]*[({]", re.M)
ANSWER = re.compile(r"^(?:abbrev )?(?:pub )?(\S+) : goal\.", re.M)
PROOFS = re.compile(r"/(?:Answers|Invariants|Choices|Proof)\.antt$")
# What stands behind one of these in an answer is a step that the check names after the code.
FACTS = re.compile(r"(?:^|[^\w'.])(?:[cgltw]|goal)(?:\.[^\s(){}.;,]+)*\.$")
# Clauses and ghost items of Rust text, and comments.
GHOST = re.compile(r"ghost\s+use\b[^;]*;|//[^\n]*|(?:requires|ensures)\*?\s*(?:\w+\s*)?\{|ghost\s+\w+\s*[:=]\s*\{|ghost\s*\{")


# Names that would fall together with another name, or with that of a function in src/.
OTHERWISE = {
    "Plain-ends": "PlainAskEnds",
    "answers-are-right": "answers_are_right_lem",
    "by-any": "by_any_alike",
    "every-list-keeps-the-promise": "every_list_keeps_the_promise_lem",
    "fileLength": "file_length_of",
    "fitLine": "fit_line_of",
    "memory-loses-no-fit": "memory_loses_no_fit_lem",
    "name-place": "name_place_lem",
    "put-rows": "put_rows_lem",
    "put-table": "put_table_lem",
    "rowLimit": "row_limit_of",
    "rowsLong": "all_rows_long",
    "sameKind": "is_same_kind",
    "table-at": "table_at_lem",
    "tableBits": "table_bits_of",
}


def spelled(name):
    """The spelling of a name."""
    if name in OTHERWISE:
        return OTHERWISE[name]
    if name[0].isupper():
        parts = re.split(r"-", name)
        return parts[0] + "".join(p[:1].upper() + p[1:] for p in parts[1:])
    words = re.sub(r"(?<=[a-z0-9])[A-Z]", lambda m: "_" + m[0].lower(), name)
    return words.replace("-", "_").replace("′", "'")


def files(top):
    for folder, dirs, names in os.walk(os.path.join(top, "crates")):
        dirs[:] = sorted(d for d in dirs if d != "out")
        for n in sorted(names):
            if n.endswith((".antt", ".rt", ".edit")):
                yield os.path.join(folder, n)


def pages(top):
    for folder in (top, os.path.join(top, "docs")):
        for n in sorted(os.listdir(folder)) if os.path.isdir(folder) else []:
            if n.endswith(".md") and n != "PORT.md":
                yield os.path.join(folder, n)


def read(path):
    with open(path, encoding="utf-8") as f:
        return f.read()


def declared(texts):
    """Each name that the texts declare and that is to be spelled anew, with its new spelling."""
    found = set()
    for path, text in texts.items():
        if path.endswith(".antt"):
            found |= set(SIGNATURE.findall(text)) | set(PARAMETERS.findall(text))
    names = {}
    for n in found:
        if re.match(r"[A-Za-z]", n) and spelled(n) != n:
            names[n] = spelled(n)
    return names


def turn_names(text, names, kept, in_answers):
    out, last = [], 0
    for m in TOKEN.finditer(text):
        word = m[0]
        new = names.get(word)
        if new is None or word in kept:
            continue
        if in_answers and FACTS.search(text[max(0, m.start() - 120) : m.start()]):
            continue
        out.append(text[last : m.start()])
        out.append(new)
        last = m.end()
    out.append(text[last:])
    return "".join(out)


def ghost_parts(text):
    """The parts of Rust text that clauses, ghost items and comments are."""
    i = 0
    while True:
        m = GHOST.search(text, i)
        if not m:
            return
        end = m.end()
        if m[0].endswith("{"):
            deep = 1
            while end < len(text) and deep:
                deep += {"{": 1, "}": -1}.get(text[end], 0)
                end += 1
        yield m.start(), end
        i = end


def turned(path, text, names):
    if path.endswith(".antt"):
        answers = bool(PROOFS.search(path))
        kept = set(ANSWER.findall(text)) if answers else set()
        return turn_names(text, names, kept, answers)
    if path.endswith(".md"):
        return re.sub(r"`[^`\n]+`", lambda m: turn_names(m[0], names, set(), False), text)
    if path.endswith(".edit"):
        return turn_names(text, names, set(), False)
    out, last = [], 0
    for start, end in ghost_parts(text):
        out.append(text[last:start])
        out.append(turn_names(text[start:end], names, set(), False))
        last = end
    out.append(text[last:])
    return "".join(out)


def main(argv):
    texts = {p: read(p) for p in files(".")}
    names = declared(texts)
    texts |= {p: read(p) for p in pages(".")}
    goals = set()
    for path, text in texts.items():
        if PROOFS.search(path):
            goals |= set(ANSWER.findall(text))
    names = {o: n for o, n in names.items() if o not in goals}
    there = {t for text in texts.values() for t in TOKEN.findall(text)}
    for old in sorted(names):
        new = names[old]
        others = [o for o in names if names[o] == new and o != old]
        if others:
            print(f"{old}: {new}, as {', '.join(others)} too")
        elif new in there:
            print(f"{old}: {new} is there")
        elif argv:
            print(f"{old}: {new}")
    if argv:
        return 0
    for path, text in texts.items():
        new = turned(path, text, names)
        if new != text:
            with open(path, "w", encoding="utf-8") as f:
                f.write(new)
    return 0


if __name__ == "__main__":
    raise SystemExit(main(sys.argv[1:]))
