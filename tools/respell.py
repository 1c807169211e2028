#!/usr/bin/env python3
"""Brings the names of definitions and lemmas to the spelling of today's Rattle.

usage: python3 tools/respell.py    at the top of the repository, once, right after the kit's port.py and before any edit by hand

A word is in snake case: `tableSize` is `table_size`. A dash stays only where it joins two names, as that of a definition to that of
another or to a word of the library on lists and numbers (`length-take`); before a plain word it is `_` (`labels_none`). Names of types,
of functions of src/ and of modules stay. A new spelling that the repository uses already for something else is not taken: the old one
stays, and is printed.
"""
import os
import re
import sys

WORD = re.compile(r"[^\s(){}\[\].,;|\"⌜⌝⟨⟩λ:`#]+")
SIGNED = re.compile(r"^\s*(?:abbrev |unfoldable |pub |record |data )*([^\s(){}\[\].,;λ]+)(?: \{[^}]*\})?(?: \([^)]*\))* :(?: |$)")
LISTS = """append nil cons length map take drop set get_or suc zero one add sub mul div rem eq lt le max min sum filter reverse fold eqb ltb
leb cond mem""".split()
PLAIN = """all and as at by end for from has holds in is more no none not of on one or same some to with""".split()


def files(top, ends):
    for folder, inside, names in os.walk(top):
        inside[:] = sorted(d for d in inside if d not in ("out", ".git", "target"))
        for n in sorted(names):
            if n.endswith(ends):
                yield os.path.join(folder, n)


def snake(name):
    """Each hump of a word that begins small, as a new word: `tryAll` is `try_all`."""
    def part(p):
        if not p or not p[0].islower():
            return p
        p = re.sub(r"(?<=[a-z0-9])([A-Z])(?=[a-z])", lambda m: "_" + m.group(1).lower(), p)
        return re.sub(r"(?<=[a-z0-9])([A-Z])", lambda m: "_" + m.group(1).lower(), p)
    return "-".join(part(p) for p in name.split("-"))


def join(name, known):
    """A dash between two names stays, and one beside a plain word is `_`."""
    parts, segments = name.split("-"), []
    while parts:
        n = next((k for k in range(len(parts), 0, -1) if "_".join(parts[:k]) in known), 0)
        segments.append(("_".join(parts[:n or 1]), n > 0))
        parts = parts[n or 1:]
    out, before = segments[0]
    for s, named in segments[1:]:
        out += ("-" if named and before else "_") + s
        before = named
    return out


def words(text):
    """The words of a file of definitions or proofs, but for those of its paths, which name functions of src/ too."""
    lines = [re.sub(r"(?:[\w·-]+\.)+\{", "{", s) if re.match(r"\s*(?:pub )?use ", s) else s for s in text.splitlines()]
    lines = [re.sub(r"(^|\s)--(\s.*)?$", "", s) for s in lines if not re.match(r"\s*(?:pub )?(?:use [^{]*|mod \S+)$", s)]
    return WORD.findall(re.sub(r"(?<=[^\s(])\.[\w'-]+", "", "\n".join(lines)))


def main():
    texts = {p: open(p, encoding="utf-8").read() for p in files("crates", (".antt", ".rt", ".edit"))}
    signed, defined, tokens = set(), set(LISTS), set()
    for p, t in texts.items():
        if p.endswith(".antt"):
            tokens.update(words(t))
        if p.endswith(".antt") and not p.endswith("/Proof.antt"):
            for line in t.splitlines():
                m = SIGNED.match(line)
                if m:
                    signed.add(m.group(1))
                    if "/specs/" in p:
                        defined.add(m.group(1))
    known = {snake(n) for n in defined} - set(PLAIN)
    new = {}
    for n in sorted(signed):
        if not re.match(r"[A-Za-z]", n) or "→" in n:
            continue
        to = join(snake(n), known)
        if to != n:
            new[n] = to
    counts = {}
    for n in sorted(list(new), key=lambda n: (n not in defined, n)):
        to = new[n]
        if to in tokens or to in counts:
            lem = to + "_lem"
            if n not in defined and lem not in tokens and lem not in counts:
                print(f"lem: {n} is {lem} ({to} is {counts.get(to, 'there')})")
                new[n] = to = lem
            elif n in defined and to in signed - defined and lem not in tokens:
                print(f"lem: {to} is {lem} ({to} is {n})")
                new[to] = lem
            else:
                print(f"stays: {n} (there is a {to}: {counts.get(to)})")
                del new[n]
        counts[to] = n
    if "--dry" in sys.argv:
        for n, to in sorted(new.items()):
            print(n, to)
        return
    for p, t in texts.items():
        made = WORD.sub(lambda m: new.get(m.group(0), m.group(0)), t)
        if made != t:
            with open(p, "w", encoding="utf-8") as f:
                f.write(made)
    with open("tools/respelled.txt", "w", encoding="utf-8") as f:
        f.write("".join(f"{n} {to}\n" for n, to in sorted(new.items())))
    print(f"{len(new)} names respelled: tools/respelled.txt")


main()
