#!/usr/bin/env python3
"""Brings the names of this repository's definitions and lemmas to the spelling of today's Rattle: words in snake case, a dash only
between two names. Run once at the top of the repository, after the kit's port.py.

usage: tools/respell.py          rewrites crates/ and the documents
       tools/respell.py --list   prints old and new names, and writes nothing
"""
import os
import re
import sys

# what no rule gives: tests that ended in a question mark, sheet A, names of the library that changed, and names that would fall together
GIVEN = {
    "assignment?": "is_assignment",
    "distances?": "distances_hold",
    "zero?": "is_zero",
    "rising?": "is_rising",
    "valid?": "is_valid",
    "allValid?": "are_valid",
    "within?": "is_within",
    "pinsNamed?": "pins_named",
    "named?": "is_named",
    "placed?": "is_placed",
    "placement?": "is_placement",
    "getD-zeros": "get_or-zeros",
    "bit-and": "bit_of-bit_and",
    "bit-or": "bit_of-bit_or",
    "◌orElse◌": "◌or_else◌",
    "orElse": "or_else",
    "A": "sheet_a",
    "A-2": "sheet_a_2",
    "A-2-reads": "sheet_a_2_reads",
    "A-3": "sheet_a_3",
    "A-3-reads": "sheet_a_3_reads",
    "A-4": "sheet_a_4",
    "A-4-reads": "sheet_a_4_reads",
    "A-5": "sheet_a_5",
    "A-5-reads": "sheet_a_5_reads",
    "A-length": "sheet_a_length",
    "A-trailer": "sheet_a_trailer",
    "A-word": "sheet_a_word",
}
# functions of the library that a lemma's name may join by a dash
LIBRARY = """length take drop map append set suc min max sum and or not eqb ltb leb any all filter reverse get_or cond bit_and
bit_or div mod pow add sub mul""".split()

CAMEL = re.compile(r"[a-z][a-z0-9]*(?:[A-Z][a-z0-9]*)+['₀]*")
TOKEN = re.compile(r"[^\s(){}\[\].,;:=|λ→\"`∷\\]+")
DECLARED = re.compile(r"(?:  )?((?:pub |abbrev |unfoldable |record |data )*)([^\s:(){}=|]+)(?: \{[^}:]*\})?(?: .*)? :(?: |$)")


def snake(word):
    return re.sub(r"[A-Z]", lambda m: "_" + m.group().lower(), word)


def files(top, endings):
    for folder, dirs, names in os.walk(top):
        dirs[:] = sorted(d for d in dirs if d not in ("out", ".git", "target"))
        for name in sorted(names):
            if name.endswith(endings):
                yield os.path.join(folder, name)


def read(path):
    with open(path, encoding="utf-8") as f:
        return f.read()


def is_lemma_file(path):
    return path.endswith(".antt") and os.path.basename(path) not in ("Proof.antt", "Lib.antt")


def declared():
    """Names of definitions, of lemmas and of the code's functions."""
    definitions, lemmas, functions = set(), set(), set()
    for path in files("crates", ".antt"):
        if not is_lemma_file(path):
            continue
        data = False
        for line in read(path).split("\n"):
            if line and line[0] not in " -":
                data = line.startswith(("pub data", "data"))
            m = DECLARED.match(line)
            if not m or line.lstrip().startswith(("use ", "--", "→")):
                continue
            is_definition = data or any(w in m.group(1) for w in ("abbrev", "unfoldable", "record", "data"))
            (definitions if is_definition else lemmas).add(m.group(2))
    for path in files("crates", ".rt"):
        functions |= set(re.findall(r"\bfn (\w+)", read(path)))
    return definitions, lemmas, functions


def joined(parts, known):
    """The parts of a name, a dash between two of them that are names and else '_'."""
    units = []
    while parts:
        n = next((n for n in range(len(parts), 0, -1) if "_".join(parts[:n]) in known), 0)
        units.append(("_".join(parts[: n or 1]), n > 0))
        parts = parts[n or 1 :]
    name, was = units[0]
    for unit, is_name in units[1:]:
        name += ("-" if was and is_name else "_") + unit
        was = is_name
    return name


def table():
    definitions, lemmas, functions = declared()
    known = {GIVEN.get(d, snake(d)) for d in definitions if "-" not in d} | functions | set(LIBRARY)
    names = dict(GIVEN)
    for old in sorted(definitions | lemmas):
        if old in names:
            continue
        if "-" in old and not old.startswith("-"):
            names[old] = joined([snake(p) if CAMEL.fullmatch(p) else p for p in old.split("-")], known)
        elif CAMEL.fullmatch(old):
            names[old] = snake(old)
    names = {old: new for old, new in names.items() if old != new}
    # a lemma that would have its definition's name
    for old in sorted(definitions):
        if names.get(old) in lemmas - definitions - set(names):
            names[names[old]] = names[old] + "_lem"
    taken = (definitions | lemmas) - set(names) | {names[old] for old in GIVEN if old in names}
    for old in sorted(set(names) - set(GIVEN), key=lambda n: (n not in definitions, n)):
        if names[old] in taken:
            names[old] += "_lem"
        if names[old] in taken:
            sys.exit(f"respell: {old} falls together with another name")
        taken.add(names[old])
    return names


def respelt(text, names, is_antt, path):
    """The text with its names respelt. In code only names of the table are, and those without a dash."""

    def new(m):
        word, before = m.group(), text[m.start() - 1 : m.start()]
        if word == "A" and "/starred/" not in path:
            return word  # a type that a definition is over
        if word in names and re.fullmatch(r"[a-z_]+", word) and (path.endswith(".rt") or before in (".", ":")):
            return word  # a function of the code
        if word in names and before == "." and "-" in word and path.endswith("Proof.antt"):
            return word  # a field that Rattle made
        if word in names and (is_antt or "-" not in word):
            return names[word]
        return snake(word) if is_antt and CAMEL.fullmatch(word) else word

    return TOKEN.sub(new, text)


def in_ticks(text, names, path):
    return re.sub(r"`[^`\n]+`", lambda m: respelt(m.group(), names, True, path), text)


def turned(path, text, names):
    if path.endswith(".md"):
        return in_ticks(text, names, path)
    lines = []
    for line in text.split("\n"):
        if path.endswith(".edit"):
            is_antt = "file: src/" not in text
            key, space, rest = line.partition(" ")
            lines.append(key + space + respelt(rest, names, is_antt, path) if key in ("old:", "new:") else line)
            continue
        mark = "--" if path.endswith(".antt") else "//"
        at = re.search(r"(^|\s)" + mark + r"(\s|$|-)", line)
        code, comment = (line[: at.start()], line[at.start() :]) if at else (line, "")
        lines.append(respelt(code, names, path.endswith(".antt"), path) + in_ticks(comment, names, path))
    return "\n".join(lines)


def main():
    names = table()
    if "--list" in sys.argv:
        for old in sorted(names):
            print(old, names[old])
        return
    documents = [p for p in files(".", ".md") if not p.startswith("./crates")]
    for path in [*files("crates", (".antt", ".rt", ".edit")), *documents]:
        text = read(path)
        after = turned(path, text, names)
        if after != text:
            with open(path, "w", encoding="utf-8") as f:
                f.write(after)


main()
