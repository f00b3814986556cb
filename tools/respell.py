#!/usr/bin/env python3
"""Respells this repository's own names of specs/ and proofs/ as today's Rattle spells names: words in snake case.

usage: python3 tools/respell.py        once, at the top, right after port.py; prints the names that changed, and stops at two that would fall together

A definition, lemma, field or constructor that begins with a small letter goes from camel case to snake case. A dash stays where it stands
between two names of definitions, and is an underscore elsewhere. Types, modules, names of src/ and names of the library stay. It goes over
crates/*/specs, crates/*/proofs, and the clauses and ghost lines of crates/*/src; and over what stands in backticks in README.md and docs/*.md.
"""

import glob
import re
import sys

NAME = r"[^\s(){}\[\];,.:`\"]+"
# of the library, as they stand in names of lemmas
LIBRARY = "length drop take map get_or set sum filter append min max reverse put part".split()


def antt():
    return sorted(p for p in glob.glob("crates/*/specs/**/*.antt", recursive=True) + glob.glob("crates/*/proofs/**/*.antt", recursive=True))


def laws():
    return sorted(glob.glob("crates/*/specs/*.antt") + glob.glob("crates/*/proofs/*.antt"))


def read(path):
    with open(path, encoding="utf-8") as f:
        return f.read()


def declared():
    """The names that specs/ and the files of laws declare: definitions of specs/, and all."""
    definitions, names = set(), set()
    for path in laws():
        for line in read(path).split("\n"):
            code = line.split("--")[0]
            found = re.match(rf"((?:abbrev |pub |unfoldable |private )*)({NAME}) :(\s|$)", code) or re.match(rf"(\s+(?:pub )?)({NAME}) : ", code)
            if found:
                names.add(found[2])
                if "/specs/" in path and not code.startswith(" "):
                    definitions.add(found[2])
    return definitions, names


def imported():
    """The names that come from the library."""
    names = set()
    for path in antt() + glob.glob("crates/*/src/**/*.rt", recursive=True):
        for line in re.findall(r"use Rattle\.std\.[^\n]*\{([^}]*)\}", read(path)):
            for item in line.split(","):
                names.update(item.split(" as "))
    return {n.strip() for n in names}


def snake(word):
    word = re.sub(r"([a-z0-9])([A-Z]+)(?![a-z])", lambda m: m[1] + "_" + m[2].lower(), word)
    return re.sub(r"([a-z0-9])([A-Z])", lambda m: m[1] + "_" + m[2].lower(), word)


def respelled(name, definitions):
    parts = name.split("-")
    out = snake(parts[0]) if parts[0][:1].islower() else parts[0]
    for before, part in zip(parts, parts[1:]):
        both = before in definitions and part in definitions
        out += ("-" if both else "_") + (snake(part) if part[:1].islower() else part)
    return out


def changes():
    definitions, names = declared()
    library = imported()
    known = definitions | set(LIBRARY)
    new = {}
    for name in sorted(names):
        if name in library or not re.match(r"[a-zA-Z]", name):
            continue
        if name[:1].isupper() and "-" not in name:
            continue
        spelled = respelled(name, known)
        if spelled != name:
            new[name] = spelled
    return new, names, library


RESERVED = set("data record deriving module where use mod pub package open as unfoldable abbrev axiom unfold unfolding ruleset mutual infix infixl infixr elim let in do".split())


def fallen(new, names, library):
    taken = {}
    for old, spelled in new.items():
        taken.setdefault(spelled, []).append(old)
    out = []
    for spelled, olds in sorted(taken.items()):
        if len(olds) > 1 or spelled in names - set(new) or spelled in library or spelled in RESERVED:
            out.append((spelled, olds + ([spelled] if spelled in names - set(new) else []) + (["(library)"] if spelled in library else [])))
    return out


def words(text, new):
    return re.sub(NAME, lambda m: new.get(m[0], m[0]), text)


def ghost(text, new):
    """The ghost lines and the clauses of a source file."""
    out, depth = [], 0
    for line in text.split("\n"):
        if depth or re.match(r"\s*(ghost use|requires|ensures|ghost)\b", line):
            code = words(line, new)
            depth += line.count("{") - line.count("}")
            out.append(code)
        else:
            out.append(line)
    return "\n".join(out)


# By hand: lemmas and fields whose name would be that of a definition. A lemma is then the definition's name with _lem.
BY_HAND = {
    "any_place": "any_place_lem",
    "bytes_fit": "bytes_fit_lem",
    "in_step": "lists_in_step",
    "names_in": "names_read",
    "same_log": "same_log_lem",
    "start_back": "start_back_lem",
    "taken_back": "taken_back_lem",
}
# fields of one name in records of which no file has both
FIELDS = {"in_window", "same_count"}


def main():
    new, names, library = changes()
    new.update(BY_HAND)
    taken = [spelled for spelled, _ in fallen(new, names, library)]
    for old in new:
        if "-" in old and new[old] in taken:
            new[old] += "_lem"
    same = [(spelled, olds) for spelled, olds in fallen(new, names, library) if spelled not in FIELDS]
    for spelled, olds in same:
        print("falls together:", spelled, olds)
    if same:
        raise SystemExit(2)
    for path in antt():
        text = read(path)
        after = words(text, new)
        if after != text:
            open(path, "w", encoding="utf-8").write(after)
    for path in glob.glob("crates/*/src/**/*.rt", recursive=True):
        text = read(path)
        after = ghost(text, new)
        if after != text:
            open(path, "w", encoding="utf-8").write(after)
    for path in ["README.md"] + glob.glob("docs/*.md"):
        text = read(path)
        after = re.sub(r"`[^`\n]*`", lambda m: words(m[0], new), text)
        if after != text:
            open(path, "w", encoding="utf-8").write(after)
    for old in sorted(new):
        print(old, new[old])


main()
