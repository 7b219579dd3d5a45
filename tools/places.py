#!/usr/bin/env python3
"""Counts the places in src/ that read like an older language, point by point, as docs/DESIGN-PASS.md lists them.

    python3 tools/places.py [--list] [COMMIT]

Without a commit it reads the files as they lie. With --list it names each place. It finds places to look at, and decides nothing.
"""
import collections
import re
import subprocess
import sys


def git(*words):
    return subprocess.run(["git", *words], capture_output=True, text=True, check=True).stdout


def sources(commit):
    """The text of each source file below crates/."""
    if commit:
        names = git("ls-tree", "-r", "--name-only", commit, "--", "crates").split("\n")
        read = lambda name: git("show", f"{commit}:{name}")
    else:
        names = git("ls-files", "-co", "--exclude-standard", "--", "crates").split("\n")
        read = lambda name: open(name, encoding="utf-8").read()
    return {name: read(name) for name in names if re.fullmatch(r"crates/[^/]+/src/.*\.rt", name)}


def lines_with(files, pattern):
    """Each line that the pattern is found in."""
    found = []
    for name, text in files.items():
        for number, line in enumerate(text.split("\n"), 1):
            if re.search(pattern, line):
                found.append(f"{name}:{number}: {line.strip()}")
    return found


FUNCTION = re.compile(r"( *)(?:pub(?:\([a-z]+\))? )?(?:extern \"C\" )?fn (\w+)(.*)")


def functions(files):
    """Each function with a body: its place, its name, its parameters, its clauses and its body."""
    for name, text in files.items():
        lines = text.split("\n")
        for number, line in enumerate(lines):
            match = FUNCTION.fullmatch(line)
            if not match:
                continue
            first = next(at for at in range(number, len(lines)) if lines[at].endswith(";") or lines[at].endswith(("{", "}")) and not re.match(r"\s*(requires|ensures)", lines[at]))
            if not lines[first].endswith("{"):
                continue
            last = next(at for at in range(first, len(lines)) if lines[at] == match.group(1) + "}")
            head = "\n".join([match.group(3), *lines[number + 1 : first + 1]])
            end = re.search(r"^\s*(requires|ensures)", head, re.M)
            at = end.start() if end else len(head)
            yield f"{name}:{number + 1}: {match.group(2)}", head[:at], head[at:], "\n".join(lines[first + 1 : last])


def twins(files):
    """Functions of three lines or more whose bodies are the same but for names and literals."""
    groups = collections.defaultdict(list)
    for place, _, _, body in functions(files):
        if body.count("\n") >= 2:
            shape = re.sub(r"\b[A-Za-z_]\w*(::[A-Za-z_]\w*)*|\b\d[\d_]*|'[^']*'|b?\"[^\"]*\"", "x", body)
            groups[re.sub(r"\s+", " ", shape)].append(place)
    return [" = ".join(places) for places in groups.values() if len(places) > 1]


def repeated_facts(files):
    """Requirements, and equations of a definition, that three or more functions of one crate repeat word for word."""
    seen = collections.defaultdict(set)
    for place, _, clauses, _ in functions(files):
        for clause in re.findall(r"requires \w* ?\{ (.*) \}", clauses):
            seen[place.split("/")[1], clause].add(place)
        for long in set(re.findall(r"\([^()]*(?:\([^()]*\)[^()]*){3,}\)", clauses)):
            seen[place.split("/")[1], long].add(place)
    return [f"{crate}: {len(places)} functions: {clause[:110]}" for (crate, clause), places in seen.items() if len(places) >= 3]


def parameters(head):
    """How many parameters stand in the parentheses after a function's type parameters."""
    depth = 0
    for at, letter in enumerate(head):
        depth += (letter == "<") - (letter == ">" and head[at - 1] != "-")
        if letter == "(" and depth == 0:
            return len(re.findall(r"(?:^|[(,\s])(?:mut )?\w+: |&(?:mut )?self", head[at:].split(") ->")[0]))
    return 0


def many_parameters(files):
    """Functions of five parameters or more."""
    return [place for place, head, _, _ in functions(files) if parameters(head) >= 5]


def points(files):
    sentinel = r"///.*\b(or 0|0 for|0 where|nought for|or the length)\b|-> \((u32|usize|bool|u8), "
    return {
        "1 a number or a pair that stands for an option": lines_with(files, sentinel),
        "1 a refusal's number": lines_with(files, r"fn number\("),
        "2 functions that differ in names and literals only": twins(files),
        "2 a constant of one name in several files": repeated_constants(files),
        "3 a loop over a range or with `while`": lines_with(files, r"^\s*(for \w+ in [^{\[]*\.\.|while )"),
        "3 a count that a loop keeps by hand": lines_with(files, r"^\s*\w+ (\+= 1|= \w+\.(saturating|wrapping)_add\(1\));"),
        "4 a type with no equality or printing": lines_with(files, r"#\[derive\(Clone, Copy\)\]|#\[derive\(Drop\)\]"),
        "4 a conversion or a text written by hand": lines_with(files, r"fn (\w+_of|from_\w+|numbers|row|fault_text|tell_refusal|carried|taken|paged|both|hex_digit|push_hex)\b"),
        "5 a fact or a term that three functions repeat": repeated_facts(files),
        "5 five parameters or more": many_parameters(files),
        "6 a count beside a list": lines_with(files, r"^\s*(pub(\(crate\))? )?(count|top): (usize|u32),"),
        "6 lists of numbers side by side": lines_with(files, r"^\s*\w+: &(mut )?\[u32\],$"),
        "7 an arm that picks a function": lines_with(files, r"^\s*('\w'|\"\w+\") => \w+(::<\w+>)?\("),
    }


def repeated_constants(files):
    seen = collections.defaultdict(list)
    for place in lines_with(files, r"^(pub )?const [A-Z_]+: \w+ = [\d_]+;"):
        seen[re.search(r"const ([A-Z_]+: \w+ = [\d_]+);", place).group(1)].append(place)
    return [" = ".join(places) for places in seen.values() if len(places) > 1]


def main():
    words = [word for word in sys.argv[1:] if word != "--list"]
    files = sources(words[0] if words else None)
    for title, places in points(files).items():
        print(f"{len(places):4}  {title}")
        if "--list" in sys.argv:
            print("".join(f"        {place}\n" for place in places), end="")


main()
