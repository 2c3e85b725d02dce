#!/usr/bin/env python3
"""Spells the repository's own definitions, lemmas and aliases as Rattle does: words in snake case, types in camel case.

usage: python3 tools/respell.py [TOP]

Run once at the top of a checkout (or on TOP). respelled.tsv beside this file has a line for each name: the old one, a tab, the new one.
Turned are the contracts, specs, proofs and must-fail edits of each crate, and names in `backticks` of the documents.
Comments, strings, goals and fields that Rattle makes, and names that a file brings from the kit's libraries stay as they are.
It tells each place where a new name meets a word that stood there before.
"""

import glob
import os
import re
import sys

TABLE = os.path.join(os.path.dirname(os.path.realpath(__file__)), "respelled.tsv")
NEW = dict(line.rstrip("\n").split("\t") for line in open(TABLE, encoding="utf-8"))
WORD = re.compile(r"[^\s(){}\[\];,@\"«»`]+")
USE = re.compile(r"\buse ((?:Rattle\.(?:std|core)|native|mathlib|lib|Prim)[^\s;{]*)(\{[^{}]*\})?")
# fields that Rattle makes of a variable of the source
MADE = {"found-is"}


def turned(word, kept):
    """The word with each of its dotted parts turned."""
    if re.match(r"(Rattle\.(std|core)|native|mathlib|lib|Prim)\.", word):
        return word
    parts = word.split(".")
    for i, part in enumerate(parts):
        bare = part.strip("'\"")
        if part in NEW and part not in kept and not (i and part in MADE):
            parts[i] = NEW[part]
        elif i == 0 and part[:1] == "λ" and part[1:] in NEW and part[1:] not in kept:
            parts[i] = "λ" + NEW[part[1:]]
    return ".".join(parts)


def code(text, kept):
    return WORD.sub(lambda m: turned(m[0], kept), text)


def brought(text):
    """What the file brings from the kit's libraries."""
    names = set()
    for m in USE.finditer(text):
        if m[2]:
            for item in m[2][1:-1].split(","):
                names.add(item.split(" as ")[-1].strip())
    return names


def antt(text):
    kept = brought(text)
    lines = []
    for line in text.split("\n"):
        at = re.search(r"(?:^|\s)--(?:\s|$)", line)
        cut = at.start() if at else len(line)
        head = line[:cut]
        if not re.match(r"\s*use (Rattle\.(std|core)|native|mathlib|lib|Prim)\b", head):
            head = code(head, kept)
        lines.append(head + line[cut:])
    return "\n".join(lines)


PIECE = re.compile(r'(//[^\n]*|b?"(?:\\.|[^"\\])*"|ghost use (?:Rattle\.(?:std|core)|native|mathlib|lib|Prim)[^;]*;)')


def rt(text):
    kept = brought(text)
    pieces = PIECE.split(text)
    return "".join(p if i % 2 else code(p, kept) for i, p in enumerate(pieces))


def page(text):
    return re.sub(r"`[^`\n]+`", lambda m: "`" + code(m[0][1:-1], set()) + "`", text)


def main():
    top = sys.argv[1] if len(sys.argv) > 1 else "."
    os.chdir(top)
    news = set(NEW.values())
    files = [(f, antt) for f in glob.glob("crates/*/specs/**/*.antt", recursive=True)]
    files += [(f, antt) for f in glob.glob("crates/*/proofs/**/*.antt", recursive=True)]
    files += [(f, rt) for f in glob.glob("crates/*/src/**/*.rt", recursive=True)]
    files += [(f, lambda t: code(t, set())) for f in glob.glob("crates/*/must-fail/*.edit")]
    # docs/PORT.md names the old spellings
    pages = [f for f in glob.glob("docs/**/*.md", recursive=True) if f != "docs/PORT.md"]
    files += [(f, page) for f in [*pages, "README.md"]]
    changed = 0
    for name, turn in sorted(files, key=lambda it: it[0]):
        with open(name, encoding="utf-8") as f:
            old = f.read()
        new = turn(old)
        if new == old:
            continue
        if not name.endswith(".md"):
            stood = {p for w in WORD.findall(old) for p in w.split(".")}
            came = {NEW[p] for w in WORD.findall(old) for p in w.split(".") if p in NEW}
            for word in sorted(came & stood):
                print(f"meets: {name}: {word}")
        changed += 1
        with open(name, "w", encoding="utf-8") as f:
            f.write(new)
    print(f"{changed} files turned")


if __name__ == "__main__":
    main()
