#!/usr/bin/env python3
"""Respells the repository's own definitions, lemmas, fields and statements: functions, lemmas and fields in snake case, statements and types in upper camel case.

usage: tools/respell.py [--dry]     at the top, right after the kit's port.py; run once

Names of src/ (functions, fields, variants, labels) keep their spelling; so do the names that Rattle makes, which stand after `goal.` or `c.` in a function's proof files.
"""
import os
import re
import sys

NAME = r'[^\s(){}\[\].;:,@"«»|]+'
TOKEN = re.compile(NAME)
DECL = re.compile(rf"^(?:(?:abbrev|unfoldable|pub|instance|data|record|opaque|ruleset)\s+)*({NAME})(?=\s*(?::|\(|\{{)|\s+:)")
FIELD = re.compile(rf"^\s+(?:pub )?({NAME}) :")
RENAMED = re.compile(r"\bas ([a-z]+[A-Z]\w*)")
GHOST = re.compile(r"\bghost (\w+)\s*[:=]")
ANSWERS = re.compile(r"/(Answers|Invariants|Proof)\.antt$")
KEYWORDS = {"use", "mod", "pub", "unfolding", "let", "in", "where", "ghost", "elim", "rw", "record", "abbrev", "data", "unfoldable"}


# Where the plain respelling would meet another name.
OWN = {
    "punchSheet": "punch_of_sheet",
    "wellBegun": "begun_well",
    "withDigit": "one_digit_on",
    "tooMany": "has_too_many",
    "hexDigit": "hex_letter",
    "sizesText": "text_of_sizes",
    "faultText": "text_of_fault",
    "fromNumbers": "shown_of_numbers",
    "lotOf": "lot_of_number",
    "leftFirst": "is_left_first",
    "runnerUp": "runner_up_of",
    "wordEnd": "end_of_word",
    "key-of": "key_of_lem",
    "read-on": "read_on_lem",
    "page-answer": "page_answer_lem",
    "is-lot": "is_lot_lem",
    "program-terms": "program_terms_lem",
    "left-first": "left_first_lem",
    "full-word": "full_word_lem",
    "digits-lit": "digits_lit_lem",
    "guess-line": "guess_line_lem",
}


def texts():
    for folder, dirs, files in os.walk("crates"):
        dirs[:] = sorted(d for d in dirs if d != "out")
        for f in sorted(files):
            if f.endswith((".antt", ".rt")):
                yield os.path.join(folder, f)


def respelled(name):
    if name in OWN:
        return OWN[name]
    if not re.search(r"[A-Za-z]", name):
        return name
    if name[0].isupper():
        if "-" not in name:
            return name
        return "".join(w[:1].upper() + w[1:] for w in re.split(r"[-_]", name))
    words = re.sub(r"(?<=[a-z0-9])([A-Z])", lambda m: "_" + m[1].lower(), name)
    return words.replace("-", "_")


def fields_of(text):
    inside = False
    for line in text.split("\n"):
        if re.match(r"(pub |abbrev |unfoldable )*record ", line):
            inside = True
        elif line and not line[0].isspace() and not line.startswith("--"):
            inside = False
        elif inside and (m := FIELD.match(line)):
            yield m[1]


def declared(path, text):
    answers = ANSWERS.search(path)
    for m in RENAMED.finditer(text):
        if "ghost use" in text[text.rfind("\n", 0, m.start()) + 1 : m.start()] or path.endswith(".antt"):
            yield m[1]
    for line in text.split("\n"):
        if line.startswith("--"):
            continue
        if path.endswith(".rt"):
            m = GHOST.search(line)
            if m:
                yield m[1]
            continue
        m = DECL.match(line)
        if m and not line[0].isspace() and m[1] not in KEYWORDS:
            if not (answers and re.search(rf": (goal|Goals|Given)\.", line)):
                yield m[1]
        m = FIELD.match(line)
        if m and ("pub" in line or "/specs/" in path or not answers and "-" in m[1]):
            yield m[1]


def main():
    dry = "--dry" in sys.argv
    all_texts = {p: open(p, encoding="utf-8").read() for p in texts()}
    names = {}
    for p, t in all_texts.items():
        for n in declared(p, t):
            new = respelled(n)
            if new != n:
                names.setdefault(n, new)
    fields = {n for p, t in all_texts.items() if p.endswith(".antt") for n in fields_of(t)}
    tokens = {p: set(TOKEN.findall(t)) for p, t in all_texts.items()}
    by_new = {}
    for n, new in names.items():
        by_new.setdefault(new, []).append(n)
    for new, olds in by_new.items():
        if len(olds) > 1:
            print("two names:", olds, "->", new)
        for p, ts in tokens.items():
            if new in ts and any(o in ts for o in olds):
                print("met:", p, olds, new)
    def turn(p, text):
        out, last = [], 0
        dashed = not p.endswith(".rt")
        for m in TOKEN.finditer(text):
            w = m[0]
            if w in names:
                before = text[: m.start()]
                line = before[before.rfind("\n") + 1 :]
                if "-" in w and w not in fields and before.endswith(".") and not re.search(r"Rattle\.[\w.+-]*$", line):
                    continue
                if ANSWERS.search(p) and "-" in w and re.match(rf"^(pub )?$", line) and re.match(rf"{re.escape(w)}( :|\b)", text[m.start():]) and re.search(rf"^(?:abbrev )?(?:pub )?{re.escape(w)} : (goal|Goals|Given)\.", text, re.M):
                    continue
                out.append(text[last : m.start()])
                out.append(names[w])
                last = m.end()
        out.append(text[last:])
        return "".join(out)
    for p, t in all_texts.items():
        new = turn(p, t)
        if new != t and not dry:
            with open(p, "w", encoding="utf-8") as f:
                f.write(new)
    print(len(names), "names")
    if dry:
        for n in sorted(names):
            print("  ", n, names[n])


if __name__ == "__main__":
    main()
