#!/usr/bin/env python3
"""Lists the places of src/ that docs/DESIGN-PASS.md counts, point by point: `tools/places.py [POINT]`, at the top of the repository.

It reads only crates/*/src/*.rt (and, for point 8, proofs/), as text. What it lists for a point is where to look, not what is wrong: the page says of each
what became of it. A place that stays has a line `// Kept: ` beside it."""
import collections
import glob
import re
import sys


def sources():
    for path in sorted(glob.glob("crates/*/src/**/*.rt", recursive=True)):
        with open(path, encoding="utf-8") as file:
            yield path, file.read().split("\n")


def matching(pattern, but=r"$^"):
    """The code lines that match, without comments and imports."""
    for path, lines in sources():
        for at, line in enumerate(lines, 1):
            code = line.split("//")[0]
            if re.search(pattern, code) and not re.search(but, code) and "use " not in code:
                yield f"{path}:{at}: {line.strip()}"


def functions():
    """Each function: where it stands, its name, its parameters (name, type), its clauses' text."""
    for path, lines in sources():
        text = "\n".join(lines)
        for found in re.finditer(r"fn (\w+)(?:<[^(]*>)?\(([^{]*?)\)(?: -> ([^{]*?))?\n?((?:\s+(?:requires|ensures)[^\n]*\n)*)\s*\{", text):
            at = text.count("\n", 0, found.start()) + 1
            given = [tuple(part.strip() for part in p.split(":", 1)) for p in found.group(2).split(",") if ":" in p]
            yield f"{path}:{at}", found.group(1), given, found.group(4) or ""


def conjuncts():
    """Facts about parameters that three or more contracts repeat, their variables' names left out."""
    seen = collections.defaultdict(list)
    for where, name, _, clauses in functions():
        for clause in re.findall(r"requires \{ (.*) \}", clauses):
            for fact in clause.split(" × "):
                fact = fact.strip()
                if fact.startswith("(") and fact.endswith(")"):
                    fact = fact[1:-1]
                if fact.startswith("Room "):
                    fact = "Room"
                seen[fact].append(f"{where} {name}")
    for fact, places in sorted(seen.items(), key=lambda entry: -len(entry[1])):
        if len(places) >= 3:
            yield f"{len(places)} times: {fact}"
            for place in places:
                yield f"    {place}"


def together():
    """Pairs of parameters, by name and type, that five or more functions take."""
    seen = collections.defaultdict(list)
    for where, name, given, _ in functions():
        for one in range(len(given)):
            for two in range(one + 1, len(given)):
                seen[(given[one], given[two])].append(f"{where} {name}")
    for (one, two), places in sorted(seen.items(), key=lambda entry: -len(entry[1])):
        if len(places) >= 5:
            yield f"{len(places)} functions: {one[0]}: {one[1]}, {two[0]}: {two[1]}"


def answers():
    counts = collections.Counter()
    for path in sorted(glob.glob("crates/*/proofs/**/*.antt", recursive=True)):
        with open(path, encoding="utf-8") as file:
            text = file.read()
        kind = "answers" if path.endswith("Answers.antt") else "invariants" if path.endswith("Invariants.antt") else "lemma files"
        counts[kind + ", files"] += 1
        counts[kind + ", lines"] += text.count("\n")
        if kind == "answers":
            counts["answers"] += len(re.findall(r"^(?:abbrev )?pub [^:\n]+ : goal\.", text, re.M))
    for what, number in sorted(counts.items()):
        yield f"{number} {what}"


KINDS = r"\b(2001|3002|1002|2101|3101|1101|CATALOGUE|HEADER|DATA)\b"
POINTS = {
    "1 enums": lambda: matching(r"\benum \w+"),
    "1 numbers for kinds": lambda: matching(KINDS, r"requires|ensures"),
    "1 a number or a length that says none": lambda: matching(r"\bright < 4\b|< CODES\.len\(\)|&block\[\.\.0\]"),
    "2 the numbers of an answer, one function a type": lambda: matching(r"fn (?!read_|put_)\w*numbers\("),
    "2 loops over a block's records": lambda: matching(r"block_steps::record(s|_at)\("),
    "2 a program's main": lambda: matching(r"fn (main|put_\w+)\(rt"),
    "2 within a least and a most": lambda: matching(r"\w+ <= \w+\)? &&? "),
    "3 while and loop": lambda: matching(r"^\s*(while|loop)\b"),
    "4 min, max, swap, bytes by hand": lambda: matching(r"fn (lesser|on_line|swap|wide)\b|/ 256\)? as u8|% 256\)? as u8|\* 256\b"),
    "4 a count taken out to be put in again": lambda: matching(r"^\s*let \w+ = [\w.]+\.0;"),
    "4 a struct copied field by field": lambda: matching(r"^\s*(\w+): \w+\.\1,"),
    "4 printing": lambda: matching(r"fn (write_number|write_digit|write_refusal|write_spaced)\b"),
    "5 facts in three contracts": conjuncts,
    "5 parameters that travel together": together,
    "6 tables and arrays": lambda: matching(r"(const|static) [A-Z_]+: \[|\[0u?\w*; [\w:]+\]"),
    "6 search by hand": lambda: matching(r"fn place_in\b"),
    "7 steps by number, tables of functions": lambda: matching(r"\bfn\(|\bdyn\b|match (step|action|which) "),
    "8 proofs": answers,
    "kept": lambda: (f"{path}:{at}: {line.strip()}" for path, lines in sources() for at, line in enumerate(lines, 1) if "// Kept: " in line),
}

if __name__ == "__main__":
    for point, listed in POINTS.items():
        if len(sys.argv) > 1 and not point.startswith(sys.argv[1]):
            continue
        places = list(listed())
        print(f"== {point}: {sum(not place.startswith(' ') for place in places)}")
        print("\n".join(places))
