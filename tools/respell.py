#!/usr/bin/env python3
"""Brings this repository's own definitions and lemmas to snake case: culmAt and culm-at become culm_at.

usage: python3 tools/respell.py [--list]     at the top of the repository, after the kit's port.py

A name is turned where the repository declares it in an .antt file (a definition, a lemma, a field of a record),
it begins with a small letter, and it has a capital or a dash. Names that Rattle makes (the answers to its goals)
and names of the library keep their spelling. --list only prints the table. It stops where two names would fall together.
"""
import os
import re
import sys

TOKEN = re.compile(r"[^\s(){}\[\];,.«»\"⌜⌝@|]+")
HEAD = re.compile(r"^\s*(?:abbrev |unfoldable )?(?:pub )?(?:abbrev |unfoldable )?([^\s(){}\[\];,.«»\"@|]+) : ")
# A lemma that would have the name of a definition or of another lemma.
APART = {
    "is-so": "is_so_lem",
    "told-culm": "told_culm_lem",
    "told-member": "told_member_lem",
    "in-hand": "in_hand_lem",
    "inHand": "is_in_hand",
    "none-aside": "none_aside_lem",
    "place_after": "place_after_lem",
}
WORDS = ("use", "record", "module", "data", "pub", "abbrev", "unfoldable", "let", "in", "where", "elim")


def files(ending):
    for folder, dirs, names in os.walk("crates"):
        dirs[:] = sorted(d for d in dirs if d != "out")
        for n in sorted(names):
            if n.endswith(ending):
                yield os.path.join(folder, n)


def read(path):
    with open(path, encoding="utf-8") as f:
        return f.read()


def snake(name):
    if name in APART:
        return APART[name]
    name = re.sub(r"([a-z0-9])([A-Z])", lambda m: m[1] + "_" + m[2].lower(), name)
    return name.replace("-", "_")


def declared():
    """The names that the repository's .antt files declare, but for answers to goals."""
    found = set()
    for path in files(".antt"):
        for line in read(path).split("\n"):
            m = HEAD.match(line)
            if not m or m[1] in WORDS or line[m.end():].startswith("goal."):
                continue
            found.add(m[1])
    return found


def imported():
    """Names that come from elsewhere: the lists of use lines that name no crate of this repository."""
    own = set(os.listdir("crates"))
    found = set()
    for path in list(files(".antt")) + list(files(".rt")):
        for m in re.finditer(r"(?m)^\s*(?:ghost )?use ([^\s{]+)\.\{([^}]*)\}", read(path)):
            parts = m[1].split(".")
            if len(parts) > 1 and parts[0] == "Rattle" and parts[1] in own and "declared" not in parts:
                continue
            found.update(w.strip().split(" as ")[0] for w in m[2].split(","))
    return found


def table():
    names, foreign = declared(), imported()
    old = {n for n in names if n[0].islower() and n not in foreign and snake(n) != n}
    turn = {n: snake(n) for n in sorted(old)}
    kept = names - set(turn)
    for path in files(".rt"):
        # a field, a parameter or a constant would hide a word of its name; a function does not
        kept.update(re.findall(r"(?m)(?<!ensures )\b([a-z_0-9]+): (?!:)", read(path)))
    bad = []
    taken = {}
    for n, s in turn.items():
        if s in taken:
            bad.append(f"{n} and {taken[s]} both become {s}")
        taken[s] = n
        if s in kept:
            bad.append(f"{n} becomes {s}, which stands already")
    return turn, bad


def turned(text, turn):
    return TOKEN.sub(lambda m: turn.get(m[0], m[0]), text)


def turned_line(line, turn):
    """A line of Rust: strings stay, and so do comments but for names with a capital inside."""
    if "//" in line:
        code, comment = line.split("//", 1)
        capital = {n: s for n, s in turn.items() if "-" not in n}
        return turned_line(code, turn) + "//" + turned(comment, capital)
    parts = re.split(r'("(?:[^"\\]|\\.)*")', line)
    return "".join(p if i % 2 else turned(p, turn) for i, p in enumerate(parts))


def main():
    turn, bad = table()
    if "--list" in sys.argv:
        for n, s in turn.items():
            print(f"{n}\t{s}")
        print(f"{len(turn)} names, {len(bad)} that fall together")
    for b in bad:
        print(b)
    if bad or "--list" in sys.argv:
        return 1 if bad else 0
    for path in files(".antt"):
        lines = []
        for line in read(path).split("\n"):
            head, dash, comment = line.partition("-- ") if line.lstrip().startswith("-- ") else (line, "", "")
            lines.append(turned(head, turn) + dash + turned(comment, {n: s for n, s in turn.items() if "-" not in n}))
        with open(path, "w", encoding="utf-8") as f:
            f.write("\n".join(lines))
    for path in files(".rt"):
        with open(path, encoding="utf-8") as f:
            text = f.read()
        with open(path, "w", encoding="utf-8") as f:
            f.write("\n".join(turned_line(l, turn) for l in text.split("\n")))
    return 0


if __name__ == "__main__":
    sys.exit(main())
