#!/usr/bin/env python3
"""Counts the places in src/ where an older form of the language may stand: python3 tools/places.py [FOLDER] [--list].
FOLDER is the top of a checkout, this one if none is named. Each rule goes by text, so it finds places to look at, and no verdicts."""
import collections
import glob
import os
import re
import sys

words = [a for a in sys.argv[1:] if not a.startswith("--")]
top = words[0] if words else os.path.join(os.path.dirname(os.path.abspath(__file__)), "..")
listed = "--list" in sys.argv


def sources():
    for path in sorted(glob.glob(os.path.join(top, "crates/*/src/**/*.rt"), recursive=True)):
        text = open(path, encoding="utf8").read()
        yield os.path.relpath(path, top), re.sub(r"//[^\n]*", "", text)


files = list(sources())


def line_of(text, at):
    return text.count("\n", 0, at) + 1


def block(text, at):
    """The text from the brace at or behind `at` to the brace that closes it."""
    start = text.index("{", at)
    depth = 0
    for i in range(start, len(text)):
        depth += {"{": 1, "}": -1}.get(text[i], 0)
        if depth == 0:
            return text[start : i + 1]
    return text[start:]


def functions():
    """Each function: file, line, name, parameters, body."""
    for path, text in files:
        for m in re.finditer(r"\bfn (\w+)(?:<[^(]*>)?\(([^;{]*?)\)(?=\s*(?:->|requires|ensures|\{))", text, re.S):
            rest = text[m.end() :]
            # clauses have braces of their own: the body is the last block before the next item
            at = m.end()
            body = block(text, at)
            while re.match(r"\s*(requires|ensures)\b|\s*\{", text[text.index(body, at) + len(body) :]):
                at = text.index(body, at) + len(body)
                body = block(text, at)
            yield path, line_of(text, m.start()), m.group(1), m.group(2), body


found = collections.OrderedDict()


def note(rule, path, line, what):
    found.setdefault(rule, []).append((path, line, what))


def each(rule, pattern, keep=lambda m: True):
    found.setdefault(rule, [])
    for path, text in files:
        for m in re.finditer(pattern, text, re.M):
            if keep(m):
                note(rule, path, line_of(text, m.start()), " ".join(m.group(0).split())[:90])


# 1. enums of two variants of which one carries a value; flags in structs; numbers for refusals and for kinds
found["1 enum of two variants, one with a value"] = []
for path, text in files:
    for m in re.finditer(r"\benum (\w+)", text):
        inner = block(text, m.end())[1:-1]
        variants = [v for v in re.split(r",\s*\n", re.sub(r"\{[^}]*\}", "{}", inner)) if v.strip()]
        if len(variants) == 2 and any("(" in v or "{" in v for v in variants):
            note("1 enum of two variants, one with a value", path, line_of(text, m.start()), m.group(0))
each("1 flag in a struct", r"^\s+(pub )?\w+: bool,$")
each("1 number for a refusal or a kind",
     r"Refused\(u8|Option<u8>|\(u8, usize\)|\bnumber: u8|\bnumber: usize|\bstore: usize|refuse\(\d|Some\((1[2-9]|2[01])\)|=> return \d|fn refusal\(.*-> u32")

# 2. functions whose bodies are alike but for names and numbers
shapes = collections.defaultdict(list)
for path, line, name, params, body in functions():
    tokens = re.findall(r"[A-Za-z_]\w*|\d\w*|\"[^\"]*\"|\S", body)
    shape = " ".join("0" if t[0].isdigit() else '"' if t[0] == '"' else "x" if t[0].isalpha() and t not in
                     ("for", "if", "match", "let", "return", "while", "loop", "mut", "as", "else", "in") else t for t in tokens)
    if len(tokens) >= 22:
        shapes[shape].append((path, line, name))
found["2 functions of one shape"] = []
for group in shapes.values():
    if len(group) > 1:
        for path, line, name in group:
            note("2 functions of one shape", path, line, name + " with " + ", ".join(n for p, l, n in group if (p, l) != (path, line)))

# 3. loops over a range whose number is an index
found["3 loop by index"] = []
for path, text in files:
    for m in re.finditer(r"\bfor (\w+) in [^{\n]*\.\.[^{\n]*\{", text):
        inner = block(text, m.end() - 1)
        if re.search(r"\[[^\[\]\n]*\b" + m.group(1) + r"\b[^\[\]\n]*\]|\((place|option)\)|\.(option|lists|size)\(" + m.group(1) + r"\b", inner):
            note("3 loop by index", path, line_of(text, m.start()), m.group(0).strip(" {"))
    for m in re.finditer(r"\bwhile [^{\n]*(<|>)[^{\n]*\{", text):
        note("3 loop by index", path, line_of(text, m.start()), m.group(0).strip(" {"))

# 4. equality, printing, conversion and beginnings by hand
each("4 impl by hand", r"^impl(<[^>]*>)? (\w+::)?(PartialEq|Eq|PartialOrd|Ord|Clone|Copy|Default|Hash|Debug)(<\w+>)? for \w+")
each("4 beginning with every field empty", r"fn new\(\) -> (Self|[A-Z]\w*)")
each("4 function that prints or converts", r"^\s*(pub )?fn (show_set|show_refusal|show_fault|word|refusal|numbered|line|fit_line|add_values?|as_\w+|to_\w+)\b[^{]*")

# 5. functions with many parameters; clauses that three functions share
found["5 six parameters or more"] = []
for path, line, name, params, body in functions():
    count = len([p for p in re.split(r",(?![^<\[(]*[>\])])", params) if p.strip()])
    if count >= 6:
        note("5 six parameters or more", path, line, f"{name}, {count}")
clauses = collections.defaultdict(list)
for path, text in files:
    for m in re.finditer(r"^\s+(requires|ensures) (?:\w+ )?(\{.*\})$", text, re.M):
        clauses[(os.path.dirname(path).split("/src")[0], m.group(1), m.group(2))].append((path, line_of(text, m.start())))
found["5 clause of three functions or more"] = []
for (crate, kind, clause), where in clauses.items():
    if len(where) >= 3:
        note("5 clause of three functions or more", where[0][0], where[0][1], f"{len(where)} times: {kind} {clause[:70]}")

# 6. structs with a fixed array and a count, or with arrays or slices side by side
found["6 struct with a buffer and a count, or with buffers side by side"] = []
for path, text in files:
    for m in re.finditer(r"\bstruct (\w+)(<[^>]*>)? \{", text):
        inner = block(text, m.end() - 1)
        arrays = re.findall(r"^\s+(?:pub(?:\(crate\))? )?\w+: (?:&'?\w* ?(?:mut )?)?\[", inner, re.M)
        counts = re.findall(r"^\s+(?:pub(?:\(crate\))? )?\w+: usize", inner, re.M)
        if (arrays and counts) or len(arrays) > 1:
            note("6 struct with a buffer and a count, or with buffers side by side", path, line_of(text, m.start()), m.group(1))

# 7. enums each of whose variants names a step, for a match that runs it
each("7 switch on a step", r"\benum (Example|Asks|Harm|Run)\b|\bfn numbered\b")

# 8. lines and answers of proofs
lines = answers = 0
for path in glob.glob(os.path.join(top, "crates/*/proofs/**/*.antt"), recursive=True):
    text = open(path, encoding="utf8").read()
    lines += text.count("\n")
    if path.endswith("Answers.antt"):
        answers += len(re.findall(r"^pub [\w.'-]+ :", text, re.M))

for rule, where in found.items():
    print(f"{len(where):4} {rule}")
    if listed:
        for path, line, what in where:
            print(f"       {path}:{line}: {what}")
print(f"{lines:4} 8 lines of proofs/")
print(f"{answers:4} 8 answers in proofs/")
