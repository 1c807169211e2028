#!/usr/bin/env python3
"""Counts the places that docs/DESIGN-PASS.md speaks of, point by point, in crates/*/src and crates/*/proofs.

usage: python3 tools/places.py [--list] [COMMIT]     without a commit, the files as they stand

A place is found by its text: each pattern stands beside its point below. --list prints every place with its file and line.
"""

import collections
import os
import re
import subprocess
import sys

CAST = re.compile(r" as (?:[ui](?:8|16|32|64|size))\b")
WHILE = re.compile(r"^\s*(?:'\w+: )?while\b")
STEP = re.compile(r"^\s*(\w+) (?:\+=|-=) |^\s*(\w+) = \2 [+-] ")
FN = re.compile(r"^\s*(?:pub )?(?:extern \"C\" )?fn (\w+)")
NONE_NAMES = {"None", "Nothing", "NoNumber", "OutOfRange", "Invalid", "Finished", "NoEdge", "Passed", "Blank"}
ERROR_NAMES = {"Error", "Refused"}


def files(commit, ending, folder):
    """The files below crates/*/FOLDER with this ending, as pairs of path and text."""
    if commit:
        names = subprocess.run(["git", "ls-tree", "-r", "--name-only", commit, "crates"], capture_output=True, text=True, check=True).stdout.split("\n")
    else:
        names = [os.path.join(d, f) for d, dirs, fs in os.walk("crates") for f in fs if "/out" not in d]
    for name in sorted(names):
        if re.match(r"crates/\w+/%s/" % folder, name) and name.endswith(ending):
            if commit:
                yield name, subprocess.run(["git", "show", "%s:%s" % (commit, name)], capture_output=True, text=True, check=True).stdout
            else:
                with open(name, encoding="utf-8") as f:
                    yield name, f.read()


def code(line):
    return line.split("//")[0]


def functions(text):
    """Each function as (line, name, head, body): the head reaches from `fn` to the brace of the body."""
    lines = text.split("\n")
    i = 0
    while i < len(lines):
        m = FN.match(lines[i])
        if not m:
            i += 1
            continue
        indent = len(lines[i]) - len(lines[i].lstrip())
        start = i
        head = []
        while i < len(lines) and lines[i] != " " * indent + "{" and not lines[i].rstrip().endswith(" {"):
            head.append(lines[i])
            i += 1
        if i < len(lines) and lines[i] != " " * indent + "{":
            head.append(lines[i])
        body = []
        i += 1
        while i < len(lines) and lines[i] != " " * indent + "}":
            body.append(code(lines[i]))
            i += 1
        yield start + 1, m.group(1), "\n".join(head), "\n".join(body)


def enums(text):
    for m in re.finditer(r"enum (\w+) \{\n(.*?)\n\}", text, re.S):
        variants = [v.strip().rstrip(",") for v in m.group(2).split("\n") if v.strip() and not v.strip().startswith("//")]
        yield text[: m.start()].count("\n") + 1, m.group(1), variants


def structs(text):
    for m in re.finditer(r"struct (\w+)(?:<[^>]*>)? \{\n(.*?)\n\}", text, re.S):
        fields = [v.strip().rstrip(",") for v in m.group(2).split("\n") if v.strip() and not v.strip().startswith("//")]
        yield text[: m.start()].count("\n") + 1, m.group(1), fields


def point_1(path, text, found):
    """Enums with a variant that says none or error beside one that holds a value; structs with a flag; literals and constants for kinds and
    refusals; values for none."""
    for line, name, variants in enums(text):
        hits = [v for v in variants if v in NONE_NAMES and any("(" in other for other in variants)]
        hits += [v for v in variants if v.split("(")[0] in ERROR_NAMES and any(other.split("(")[0] not in ERROR_NAMES for other in variants)]
        if hits:
            found(line, "enum %s: %s" % (name, ", ".join(hits)))
    for line, name, fields in structs(text):
        for f in fields:
            if re.match(r"(?:pub )?\w+: bool$", f):
                found(line, "struct %s: %s" % (name, f))
    for n, raw in enumerate(text.split("\n"), 1):
        t = code(raw)
        if re.search(r"refuse\((?:\w+, )?\d+\)|Refused\(\d+\)|refused_line\(.*, \d+\)", t):
            found(n, "number of a refusal: " + t.strip())
        if re.match(r"(?:pub )?const (?:SENSOR|LARGEST_KIND|TAP_SYMBOL|BAD_PITCH|TOO_FAR|NO_OCTANT|NO_KEY)\b", t):
            found(n, "constant for a kind, a refusal or none: " + t.strip())
    for line, name, head, body in functions(text):
        if re.search(r"_ => 16,|let none = ", body):
            found(line, "a number for none: " + name)


def shape(head, body):
    """A function with its names, its types and its constants taken out, for the search of twins."""
    own = dict()

    def one(m):
        w = m.group(0)
        if re.fullmatch(r"[ui](?:8|16|32|64|size)", w):
            return "TYPE"
        if w in ("let", "mut", "if", "else", "while", "for", "in", "return", "match", "as", "true", "false", "fn", "pub", "self", "len"):
            return w
        if re.fullmatch(r"\d\w*", w) or w.isupper():
            return "CONST"
        return own.setdefault(w, "n%d" % len(own))

    parameters = re.search(r"\((.*?)\)(?: ->|\n|$)", head, re.S)
    return re.sub(r"\b\w+\b", one, (parameters.group(1) if parameters else "") + body)


def point_3(path, text, found):
    """Loops on `while` whose body moves a counter by hand."""
    lines = text.split("\n")
    for n, raw in enumerate(lines):
        if WHILE.match(code(raw)):
            indent = len(raw) - len(raw.lstrip())
            body = []
            for t in lines[n + 1 :]:
                if t == " " * indent + "}":
                    break
                body.append(code(t))
            counted = [m for m in (STEP.match(t) for t in body) if m and re.search(r"\b%s\b" % (m.group(1) or m.group(2)), code(raw))]
            if counted:
                found(n + 1, raw.strip())


def point_4(path, text, found):
    """Conversions by `as`, and order, distance and equality written by hand."""
    if path.endswith("arrows.rt"):
        return
    for n, raw in enumerate(text.split("\n"), 1):
        for _ in CAST.finditer(code(raw)):
            found(n, code(raw).strip())
    for line, name, head, body in functions(text):
        if re.match(r"\s*if (\w+) < (\w+) \{ (?:\1|\2|\1 - \2|\2 - \1) \} else \{ (?:\1|\2|\1 - \2|\2 - \1) \}\s*$", body):
            found(line, "by hand: " + name)
        if name.startswith("same_") and "while" in body:
            found(line, "equality by hand: " + name)


def point_6(path, text, found):
    """Parameters that are a slice and how many of its places count; a place in it (at, from, start, ..) is no count."""
    for line, name, head, body in functions(text):
        flat = re.sub(r"\s+", " ", head.split("requires")[0].split("ensures")[0])
        pairs = re.findall(r"(\w+): &(?:'\w+ )?(?:mut )?\[[^\]]*\], (\w+): usize", flat)
        for a, n in pairs:
            if n in ("at", "from", "start", "steep", "flat", "used"):
                continue
            if re.search(r"take %s [a-z_]*\b%s\b|%s ≤ length %s\b|drop %s %s\b|%s < length %s\b|Given|Requires" % (n, a, n, a, n, a, n, a), head):
                found(line, "%s: (%s, %s)" % (name, a, n))


def point_7(path, text, found):
    """A match on a plain number, of two arms or more for numbers, that picks what to do."""
    for line, name, head, body in functions(text):
        if len(re.findall(r"^\s*(?:\d+|\d+\.\.=\d+) => ", body, re.M)) > 1:
            found(line, name)


def main():
    arguments = [a for a in sys.argv[1:] if a != "--list"]
    commit = arguments[0] if arguments else None
    places = collections.OrderedDict((k, []) for k in "12345678")
    sources = list(files(commit, ".rt", "src"))
    for point, search in (("1", point_1), ("3", point_3), ("4", point_4), ("6", point_6), ("7", point_7)):
        for path, text in sources:
            search(path, text, lambda line, what: places[point].append("%s:%d: %s" % (path, line, what)))
    shapes = collections.defaultdict(list)
    facts = collections.defaultdict(set)
    for path, text in sources:
        for line, name, head, body in functions(text):
            if body.count("\n") >= 3:
                shapes[shape(head, body)].append("%s:%d: %s" % (path, line, name))
            for label, fact in re.findall(r"requires(?: (\w+))? \{ (.*?) \}\n?", head):
                word = re.match(r"(?:\w+\.)?(InOrder|ValidContents|Valid|Arranged|T \(is_code|Packs|Sections|JoinRequires|ColumnGiven|SearchGiven)\b", fact)
                known = re.match(r"tail ≤ longest_tail", fact)
                if word or known:
                    facts[(word or known).group(0).split(".")[-1]].add("%s:%d: %s" % (path, line, name))
            parameters = re.search(r"\((.*?)\)(?: ->|\n|$)", re.sub(r"\s+", " ", head.split("requires")[0].split("ensures")[0]).strip(), re.S)
            if parameters and parameters.group(1).count(": ") >= 7:
                places["5"].append("%s:%d: %s takes %d parameters" % (path, line, name, parameters.group(1).count(": ")))
    for s, where in shapes.items():
        if len(where) > 1:
            places["2"].append(" = ".join(where))
    for fact, where in sorted(facts.items()):
        if len(where) >= 3:
            places["5"].extend("%s requires %s" % (w, fact) for w in sorted(where))
    for path, text in files(commit, ".antt", "proofs"):
        if path.endswith("/Answers.antt"):
            for m in re.finditer(r"^(\S+) (?:[a-z] )*= search rules$", text, re.M):
                places["8"].append("%s: %s, by the search alone" % (path, m.group(1)))
    for point, where in places.items():
        print("%s %d" % (point, len(where)))
        if "--list" in sys.argv:
            for w in where:
                print("    " + w)


main()
