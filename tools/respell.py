#!/usr/bin/env python3
"""Gives the repository's own definitions, lemmas and fields the spelling of today's Rattle: snake case.

usage: python3 tools/respell.py          at the top of the repository: rewrites .antt files, and clauses and ghost items of .rt files
       python3 tools/respell.py --table  prints OLD, NEW for each name that it would turn

port.py turns the spelling of the language and its library, and of only some names that are declared here. A definition `stackLeast` becomes
`stack_least` and a lemma `none-holds` becomes `none_holds`; where both `peg-name` and `pegName` are declared, the lemma is `peg_name_lem`.
Names of functions of src/, of types and modules, and what a file imports from another library stay. So do the goals of a proof: they are Rattle's.
"""
import collections
import os
import re
import sys

NAME = r"[A-Za-z_][\w'’]*(?:-[\w'’]+)*"
DECLARED = re.compile(r"^\s*(?:(?:abbrev|unfoldable|pub|let) )*((?:" + NAME + r" )+):(?:\s|$)")
ALIAS = re.compile(r" as ([a-z][\w'’]*)(?=[,}])")
# in a proof that follows the code: what stands behind the name of a step, which is Rattle's
STEP = re.compile(r"\.(?:ensures|requires|auto|result|true|false|given|invariant|new|exit|entry|branch|before|args)\b")


def files():
    for folder, dirs, names in os.walk("crates"):
        dirs[:] = sorted(d for d in dirs if d not in ("out", "must-fail"))
        for n in sorted(names):
            if n.endswith((".antt", ".rt")):
                yield os.path.join(folder, n)


def own_crates():
    return {l.split(":")[0].split()[0] for l in open("crates.txt") if l.strip() and not l.startswith("#")}


def imports(text, crates):
    """The names that a file takes from libraries that are not of this repository, and those of this repository."""
    foreign, own = set(), set()
    for path, names in re.findall(r"^(?:ghost )?(?:pub )?use ([^\s;{]+?)\.\{([^}]*)\}", text, re.M):
        # a contract has the name of its function
        to = own if path.startswith("Rattle.") and path.split(".")[1] in crates and not path.endswith(".specs.contracts") else foreign
        for n in names.split(","):
            parts = n.split(" as ")
            if parts[0].strip():
                to.add(parts[-1].strip())
                to.add(parts[0].strip())
    return foreign, own


def snake(n):
    return re.sub(r"(?<=[a-z0-9])([A-Z])", lambda m: "_" + m.group(1).lower(), n).replace("-", "_")


def table():
    crates = own_crates()
    declared = collections.Counter()
    for p in files():
        if not p.endswith(".antt"):
            continue
        with open(p) as f:
            for l in f:
                m = DECLARED.match(l)
                if m and not re.search(r": tie\.|: goal\.", l):
                    for n in m.group(1).split():
                        if not (p.endswith("Proof.antt") and n.endswith(("-spec", "_spec"))):
                            declared[n] += 1
                if l.startswith("use "):
                    for n in ALIAS.findall(l):
                        declared[n] += 1
    plain = {n for n in declared if "-" not in n and n[0].islower()}
    words = {snake(n) for n in plain if re.search("[a-z0-9][A-Z]", n)}
    turned = {}
    for n in declared:
        if n[0].isupper() or n[0] == "_":
            continue
        if re.search("[a-z0-9][A-Z]", n) and "-" not in n:
            turned[n] = snake(n)
        elif "-" in n:
            s = snake(n)
            turned[n] = s + "_lem" if s in words or s in plain else s
    # port.py made these of lemmas with a dash
    for n in plain:
        if n in words:
            turned[n] = n + "_lem"
    return turned, declared, crates


def pieces(line, slash):
    """A line as (text, kind): kind is 'code', 'string' or 'comment'."""
    out, i, start = [], 0, 0
    mark = "//" if slash else "-- "
    while i < len(line):
        if line[i] == '"':
            j = i + 1
            while j < len(line) and line[j] != '"':
                j += 2 if line[j] == "\\" else 1
            out.append((line[start:i], "code"))
            out.append((line[i : j + 1], "string"))
            i = start = j + 1
            continue
        if line.startswith(mark, i) or (not slash and line[i:].rstrip("\n") == "--"):
            out.append((line[start:i], "code"))
            out.append((line[i:], "comment"))
            return out
        i += 1
    out.append((line[start:], "code"))
    return out


WORD = re.compile(r"(?<![\w'’-])" + NAME)


def turn(text, turned, foreign, slash, follows_code=False):
    def word(m):
        n = m.group(0)
        if n in foreign:
            return n
        if follows_code and m.string[: m.start()].endswith(".") and STEP.match(m.string, m.end()):
            return n
        return turned.get(n, n)

    def quoted(m):
        return WORD.sub(word, m.group(0))

    def said(m):
        n = m.group(0)
        return turned[n] if n in turned and re.search("[a-z0-9][A-Z]", n) else n

    lines = []
    for line in text.splitlines(keepends=True):
        new = []
        for piece, kind in pieces(line, slash):
            if kind == "code":
                new.append(WORD.sub(word, piece))
            elif kind == "comment":
                new.append(WORD.sub(said, re.sub(r"`[^`]*`", quoted, piece)))
            else:
                new.append(piece)
        lines.append("".join(new))
    return "".join(lines)


def main():
    turned, declared, crates = table()
    if "--table" in sys.argv:
        for o, n in sorted(turned.items()):
            print(f"{o}\t{n}")
        return
    for p in files():
        with open(p) as f:
            text = f.read()
        foreign, own = imports(text, crates)
        here = dict(turned)
        if p.endswith(".rt"):
            here = {o: n for o, n in turned.items() if "-" in o or re.search("[a-z0-9][A-Z]", o) or o in own}
        both = foreign & set(here) - own
        new = turn(text, here, both, p.endswith(".rt"), p.endswith("Proof.antt"))
        if new != text:
            with open(p, "w") as f:
                f.write(new)


main()
