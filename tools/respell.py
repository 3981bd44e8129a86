#!/usr/bin/env python3
"""Respells the names that specs/ and proofs/ declare: words joined by '_', types in camel case.

Run once at the top of the repository, after the kit's own port script. Functions of src/, exported C names,
strings, inputs and outputs keep their names. Prints what it renamed, and stops where two names would fall together.
"""
import glob
import re
import sys

LETTER = r"[\w'·⁺⁻₀-₉ᴰ-]"
NAME = re.compile(LETTER + "+")
DECLARED = re.compile(r"^\s*(?:(?:pub|abbrev|unfoldable|data|record|ghost) )*([^\s:(){}.]+(?: [^\s:(){}.]+)*) :(?:\s|$)")
TAKING = re.compile(r"^\s*(?:pub )?(?:data|record) (\S+) [({]")
ALIAS = re.compile(r"^use [\w.]+ as ([^\s;]+)$")
BOUND = re.compile(r"[({]([^\s:(){}.,]+(?: [^\s:(){}.,]+)*) : ")
FIXED = {"getD-tab": "get_or_tab", "getD-second": "get_or_second", "T-or": "T_or"}
KEYWORDS = {"pub", "abbrev", "unfoldable", "data", "record", "ghost"}


def declared(text):
    """The names that a file of definitions or lemmas declares or binds."""
    found = set()
    for line in text.splitlines():
        code = "" if line.lstrip().startswith("--") else line
        heads = [DECLARED.match(code), TAKING.match(code), ALIAS.match(code)]
        spots = [m.group(1) for m in heads if m] + BOUND.findall(code)
        for spot in spots:
            found.update(n for n in spot.split() if n not in KEYWORDS)
    return found


def spelled(name):
    if name in FIXED:
        return FIXED[name]
    if name[0].isupper():
        return "".join(w[0].upper() + w[1:] for w in name.split("-"))
    return name.replace("-", "_")


def turned(text, names):
    return NAME.sub(lambda m: names.get(m.group(0), m.group(0)), text)


def quoted(text, names):
    """Only what stands in backquotes."""
    return re.sub(r"`[^`\n]*`", lambda m: turned(m.group(0), names), text)


def turned_source(text, names, comment):
    """Code as a whole, comments only in backquotes; strings stay."""
    lines = []
    for line in text.split("\n"):
        at = line.find(comment)
        code, rest = (line, "") if at < 0 or line[:at].count('"') % 2 else (line[:at], line[at:])
        parts = re.split(r'("(?:[^"\\]|\\.)*")', code)
        parts = [p if i % 2 else turned(p, names) for i, p in enumerate(parts)]
        lines.append("".join(parts) + quoted(rest, names))
    return "\n".join(lines)


def main():
    lemma_files = glob.glob("crates/*/specs/*.antt") + glob.glob("crates/*/proofs/*.antt")
    ours = set()
    for f in lemma_files:
        ours |= declared(open(f).read())
    imported = set()
    for f in glob.glob("crates/**/*.antt", recursive=True) + glob.glob("crates/*/src/*.rt"):
        for m in re.finditer(r"use ((?:Rattle\.std|mathlib|Prim|native|lib|borrow)[\w.]*)\.\{([^}]*)\}", open(f).read()):
            imported.update(re.split(r"[,\s]+", m.group(2)))
    names = {n: spelled(n) for n in ours if "-" in n and re.fullmatch(LETTER + "+", n) and re.search(r"[^\W\d_]", n)}
    taken = [n for n in names if n in imported]
    fall = [(n, s) for n, s in names.items() if s in ours or s in imported or list(names.values()).count(s) > 1]
    if taken or fall:
        sys.exit(f"taken: {taken}\nfall together: {fall}")
    for f in glob.glob("crates/**/*.antt", recursive=True):
        old = open(f).read()
        new = turned_source(old, names, "--")
        if new != old:
            open(f, "w").write(new)
    for f in glob.glob("crates/*/src/*.rt"):
        old = open(f).read()
        new = turned_source(old, names, "//")
        if new != old:
            open(f, "w").write(new)
    # the pages, where the port script's own renamings count too
    spelling = {s.replace("_", "-"): s for s in (ours | set(names.values())) if "_" in s} | names
    for f in ["README.md"] + glob.glob("docs/**/*.md", recursive=True):
        old = open(f).read()
        new = quoted(old, spelling)
        if new != old:
            open(f, "w").write(new)
    for n in sorted(names):
        print(n, names[n])


main()
