#!/usr/bin/env python3
"""Brings the repository's own definitions and lemmas to snake case, after port.py, once.

usage: python3 tools/respell.py    at the top of the repository

Types, statements and modules keep their capitals. A dash stays where it joins two functions, as in length-words_of; elsewhere it becomes _.
A lemma that would have a definition's name gets _lem. Functions of src/, C names, strings, inputs and outputs keep their names: only names that
stand in specs/ or in the lemma files of proofs/ are turned. It stops, and writes nothing, where two names would fall together.
"""
import collections
import glob
import os
import re
import sys

STD = {"length", "take", "drop", "append", "get_or", "set", "sets", "slice", "replicate", "map", "flatten", "all", "snoc", "nil", "cons", "add", "sum"}
DECL = re.compile(r"^(  )?((?:(?:abbrev|unfoldable|pub) )*)([a-z][^\s(){},;.:«»]*)((?: [^\s:][^:]*)?) :(?: |$)")
FIELD = re.compile(r"^  (?:pub )?([a-z][^\s(){},;.:«»]*) : ")
NOT = {"use", "module", "mod", "unfolding", "where", "let", "in", "elim", "open", "syntax", "record", "data", "infix", "infixl", "infixr", "ruleset"}
TOKEN = re.compile(r"[^\s(){}\[\],;.:«»\"`'λ]+'*|'")
FOREIGN = re.compile(r"^(?:pub )?(?:ghost )?use (?!Rattle\.(?!std|core))[^{]*\{([^}]*)\}", re.M)


def files(*patterns):
    return sorted(f for p in patterns for f in glob.glob(p, recursive=True) if os.path.isfile(f) and "/out/" not in f)


def read(path):
    with open(path, encoding="utf-8") as f:
        return f.read()


def snake(part):
    part = re.sub(r"^getD$", "get_or", part)
    part = re.sub(r"(?<=[a-z0-9])([A-Z])(?=[a-z])", lambda m: "_" + m.group(1).lower(), part)
    part = re.sub(r"(?<=[a-z0-9])([A-Z]+)(?=$|[^A-Za-z])", lambda m: "_" + m.group(1).lower(), part)
    return part


def declared():
    """Each name that specs/ or a lemma file declares, with whether it is a definition (or else a lemma), and the fields of records."""
    found, fields, foreign = {}, set(), set()
    for path in files("crates/*/specs/**/*.antt", "crates/*/proofs/*.antt", "crates/*/proofs/*/*.antt", "crates/*/src/*.rt"):
        text = read(path)
        for m in FOREIGN.finditer(text):
            foreign |= {n.strip().split(" as ")[0] for n in m.group(1).split(",")}
        if path.endswith(".rt") or re.match(r"crates/\w+/proofs/[^/]+/", path):
            continue
        inside = False
        for line in text.split("\n"):
            if re.match(r"^(?:pub )?(?:record|data) ", line):
                inside = True
                continue
            if line and not line.startswith(" ") and not line.startswith("--"):
                inside = False
            m = FIELD.match(line)
            if inside and m:
                fields.add(m.group(1))
                continue
            m = DECL.match(line)
            if m and m.group(3) not in NOT and (m.group(4) == "" or "(" in m.group(4) or "{" in m.group(4)):
                is_def = "/specs/" in path or bool(re.search(r"abbrev|unfoldable", m.group(2)))
                found[m.group(3)] = found.get(m.group(3), False) or is_def
    return found, fields, foreign


def turned(name, functions):
    parts = name.split("-")
    out = snake(parts[0])
    for before, part in zip(parts, parts[1:]):
        join = "-" if before in functions and part in functions else "_"
        out += join + snake(part)
    return out


def renames():
    found, fields, foreign = declared()
    functions = STD | {n for n, is_def in found.items() if is_def}
    new, taken, stays = {}, collections.defaultdict(set), []
    for name in sorted(found, key=lambda n: (not found[n], n)):
        if name in foreign:
            stays.append(name)
            continue
        to = turned(name, functions)
        if any(found[other] != found[name] or other != name for other in taken[to]):
            to += "_lem"
        taken[to].add(name)
        if to != name:
            new[name] = to
    for name in sorted(fields):
        if name not in found and name not in foreign:
            to = turned(name, set())
            if to != name:
                new[name] = to
        elif name in found and name not in new and turned(name, set()) != name:
            stays.append(name)
    clash = [(to, names) for to, names in taken.items() if len(names) > 1]
    for old, to in new.items():
        if to in found and to not in new:
            clash.append((to, {old, to}))
        if to in foreign:
            print(f"look: {old} becomes {to}, which the library has too")
    return new, clash, stays


def turn(text, new, comment):
    def word(m):
        return new.get(m.group(0), m.group(0))

    lines = []
    for line in text.split("\n"):
        at = len(line)
        if comment and line.lstrip().startswith(comment):
            at = 0
        code, said = line[:at], line[at:]
        code = TOKEN.sub(word, code)
        said = TOKEN.sub(lambda m: m.group(0) if "-" in m.group(0) else word(m), said)
        lines.append(code + said)
    return "\n".join(lines)


def main():
    new, clash, stays = renames()
    for to, names in clash:
        print("falls together:", to, sorted(names))
    print("stays, since the library has it too:", " ".join(stays))
    if "--list" in sys.argv:
        for old in sorted(new):
            print(old, "->", new[old])
        return 0
    if clash:
        return 1
    n = 0
    for path in files("crates/*/specs/**/*.antt", "crates/*/proofs/**/*.antt", "crates/*/src/*.rt"):
        words = set(TOKEN.findall(read(path)))
        for old in words & set(new):
            if new[old] in words and new[old] not in new:
                print(f"look: {path} has {old} and {new[old]}")
    for path in files("crates/*/specs/**/*.antt", "crates/*/proofs/**/*.antt", "crates/*/src/*.rt", "crates/*/must-fail/*.edit"):
        text = read(path)
        to = turn(text, new, "--" if path.endswith(".antt") else "//" if path.endswith(".rt") else "#")
        if to != text:
            with open(path, "w", encoding="utf-8") as f:
                f.write(to)
            n += 1
    print(f"{len(new)} names turned in {n} files")
    return 0


if __name__ == "__main__":
    sys.exit(main())
