#!/usr/bin/env python3
"""Counts places of the design pass's eight points in crates/*/src at a commit.

    python3 tools/design_count.py COMMIT [--list]

Each count is said by the pattern or rule beside it; --list prints the places.
Programs of the repository (crates with src/main.rt) are counted with the others.
"""
import re
import subprocess
import sys
from collections import defaultdict


def git(*args):
    return subprocess.run(("git",) + args, capture_output=True, text=True, check=True).stdout


commit = sys.argv[1] if len(sys.argv) > 1 else "HEAD"
listing = "--list" in sys.argv
names = [n for n in git("ls-tree", "-r", "--name-only", commit, "crates").split("\n")
         if re.match(r"crates/[^/]+/src/.*\.rt$", n)]
sources = {n: git("show", f"{commit}:{n}") for n in names}


def where(name, text, at):
    return f"{name[7:]}:{text.count(chr(10), 0, at) + 1}"


def functions(text):
    """(name, signature with its clauses, body, offset) of each function with a body."""
    found = []
    for m in re.finditer(r"^( *)(?:pub )?(?:extern \"C\" )?fn (\w+)", text, re.M):
        indent = m.group(1)
        opening = re.compile(r"^" + indent + r"\{$|\{$", re.M)
        # the body's brace stands alone in a line where the function has clauses, else at the signature's end
        start = None
        for b in opening.finditer(text, m.end()):
            line = text[text.rfind("\n", 0, b.start()) + 1:b.end()]
            if line.strip() == "{" or not re.match(r"\s*(requires|ensures|ghost)", line):
                start = b.end()
                break
        if start is None:
            continue
        end = re.compile(r"^" + indent + r"\}", re.M).search(text, start)
        if end:
            found.append((m.group(2), text[m.start():start], text[start:end.start()], m.start()))
    return found


def section(title, places):
    print(f"{title}: {len(places)}")
    if listing:
        for p in places:
            print("    " + p)


def grep(pattern, flags=re.M):
    return [f"{where(n, t, m.start())} {m.group(0).strip()[:110]}"
            for n, t in sources.items() for m in re.finditer(pattern, t, flags)]


# ---- 1
option_like, others = [], []
for n, t in sources.items():
    for m in re.finditer(r"^(?:pub )?enum (\w+)(?:<[^>]*>)? \{\n((?:.*\n)*?)\}", t, re.M):
        variants = [re.sub(r"^([A-Z]\w*).*", r"\1", v.strip()) for v in m.group(2).split("\n") if re.match(r"\s+[A-Z]", v)]
        loads = [v for v in m.group(2).split("\n") if re.match(r"\s+[A-Z]\w*\(", v)]
        bare = len(variants) - len(loads)
        bad = [v for v in variants if re.match(r"^(Bad|Fail|Failed|Fails|Fault|Misread|Misreads|Refused|Nothing|Nowhere|Not|Other|ZeroDivisor|Cut|TooLong|TooShort|BookMalformed|Go|Done|Closed)$", v)]
        entry = f"{where(n, t, m.start())} {m.group(1)}: {', '.join(variants)}"
        # one variant with a value beside one without, or a variant for what went wrong beside one with what went well
        like = (len(variants) == 2 and loads and (bare == 1 or bad)) or (bad and loads and len(loads) < 4 and len(variants) > 2)
        (option_like if like else others).append(entry)
section("1a own enums with a value beside nothing or beside what went wrong (candidates; the page says which)", option_like)
section("1b other enums", others)
section("1c functions that answer a refusal, or the place of what was not found, as a number (by their comment)",
        [f"{where(n, t, m.start())} {m.group(0).splitlines()[0][:90]}" for n, t in sources.items()
         for m in re.finditer(r"^ *// [^\n]*(?:number of the refusal, or 0|the number of \w+ where|where none ha[sd]|; n where|of no word|0 where there is none)[^\n]*\n", t, re.M)])
section("1d a flag beside the value that it guards (fields and parameters named live, found)", grep(r"\b(live|found): bool"))

# ---- 2
shapes = defaultdict(list)
for n, t in sources.items():
    for name, sig, body, at in functions(t):
        if body.count("\n") < 4:
            continue
        s = re.sub(r'b?"[^"]*"|b?\'[^\']*\'|\b0x[0-9A-Fa-f_]+|\b\d[\d_]*', "#", body)
        s = re.sub(r"\b[A-Z][A-Z_]+\b", "K", s)
        s = re.sub(r"(\w+(?:::\w+)*)::\w+", "P", s)
        s = re.sub(r"\.\w+", ".f", s)
        s = re.sub(r"//[^\n]*", "", s)
        s = re.sub(r"\s+", " ", s)
        shapes[s].append(f"{where(n, t, at)} {name}")
section("2 functions that differ in a constant, a called function or a field alone (groups, by their bodies of 3 lines and more)",
        [f"{len(v)}: " + "; ".join(v) for v in shapes.values() if len(v) > 1])

# ---- 3
section("3a loops with while", grep(r"^ *while [^\n]*\{"))
counted = []
for n, t in sources.items():
    for m in re.finditer(r"^( *)while ((?:\d+ < )?(\w+)[^\n]*)\{\n((?:.*\n)*?)\1\}", t, re.M):
        head, body = m.group(2), m.group(4)
        for v in set(re.findall(r"\b[a-z_]\w*\b", head)):
            if re.search(r"^\s*" + v + r" (=\s*" + v + r" [+-] 1|[+-]= 1);", body, re.M):
                counted.append(f"{where(n, t, m.start())} while {head}")
                break
section("3b of them: a variable of the test goes up or down by one in the body", counted)
section("3c loops with for, and iterator methods", grep(r"^ *for [^\n]* in [^\n]*\{|\.(?:position|any|all|fold|copy_from_slice|enumerate)\("))

# ---- 4
section("4a equality, order, copying, conversion written by hand (functions by name)", grep(r"^ *(?:pub )?fn (?:eq|ne|clone|cmp|same|fields|by_fields|to_\w+|from_\w+)\("))
section("4b struct values made by naming fields that are only copied (two or more `f: x.f`)",
        [f"{where(n, t, m.start())} {m.group(1)}" for n, t in sources.items()
         for m in re.finditer(r"\b([A-Z]\w+) \{\n((?: *\w+(?:: [^\n]+)?,\n)+) *\}", t)
         if len(re.findall(r"^ *(\w+): (\w+)\.\1,$", m.group(2), re.M)) >= 2])
section("4c plain types without PartialEq", grep(r"^#\[derive\((?![^)]*PartialEq)[^)]*\)\]\n(?:pub )?(?:struct|enum) \w+"))

# ---- 5
clauses = defaultdict(list)
for n, t in sources.items():
    for name, sig, body, at in functions(t):
        for c in re.findall(r"requires (?:\w+ )?\{ (.*) \}", sig):
            for part in c.split(" × "):
                part = part.strip()
                if len(part) > 12:
                    clauses[part].append(f"{n[7:].split('/')[0]}::{name}")
section("5a conjuncts of requires that stand in three or more functions of src/ (by their text)",
        [f"{len(v)}: {k}" for k, v in sorted(clauses.items(), key=lambda x: -len(x[1])) if len(v) >= 3])
bundles = defaultdict(int)
for n, t in sources.items():
    for name, sig, body, at in functions(t):
        ps = re.findall(r"\b(\w+): [&A-Zu\[]", sig.split("\n    requires")[0].split("\n    ensures")[0])
        for b in (("stack", "exec", "dict", "cells", "log"), ("tag", "pay"), ("tag", "payload"), ("out", "at"), ("log", "at"), ("text", "at"), ("script", "at"), ("m", "stack")):
            if all(x in ps for x in b):
                bundles[b] += 1
section("5b parameters that travel together (functions that take all of them)", [f"{v}: {', '.join(k)}" for k, v in bundles.items()])

# ---- 6
section("6a arrays of fixed length", grep(r"\[0?\w*; ?\w+\]"))
section("6b a slice and its length or count beside it in the parameters", grep(r"\w+: &(?:mut )?\[\w+\],\s*(?:count|n|size|len|length): (?:usize|u32)", re.M))

# ---- 7
section("7 a match on a number that calls another function in each arm (three arms and more)",
        [f"{where(n, t, m.start())}" for n, t in sources.items()
         for m in re.finditer(r"^ *match \w+ \{\n(?: *(?:\d+|0x\w+|_) => [^\n]*\(.*\n?){3,}", t, re.M)])
section("7b a flag that chooses the step (parameters of type bool)", grep(r"^ *(?:pub )?fn \w+\([^)]*\b\w+: bool[^)]*\)"))
