#!/usr/bin/env python3
"""Turns proofs that follow the code (Proof.antt) into invariants and answers.

usage: python3 tools/turn_proofs.py CRATE [FUNCTION..]    at the top of the repository, once the crates below CRATE are proved

`rt check --generated DIR --old-names` lists for each function the older name of each goal and step beside today's. A goal `returns-2` becomes
an answer under today's name, a path `c.before.before.get2.ensures` becomes `c.get-next.ensures`, an invariant over a list of variables one over
their record. Answers that only say `search rules` go: the check tries that itself. What could not be turned is said, and stays for a person.
"""
import json
import os
import re
import subprocess
import sys
import tempfile

NAME = r"[A-Za-z_+μ][\w'’₀]*(?:-+[\w'’₀]+)*"
SIGNATURE = re.compile(r"^(?:(?:abbrev|unfoldable|pub) )*(" + NAME + r") :(?: |$)")
OPENS = re.compile(r"^(?:module|data|record|infix|ruleset|use)\b")


def same(n):
    """A name as both spellings compare: tools/respell.py also made `one_Int` and `copy_lem` of steps' names."""
    return re.sub(r"-lem(?=\d*$)", "", n.replace("_", "-").lower())


class Signature:
    """Of a function of src/: the names of its clauses, and its parameters that are `&mut`."""

    def __init__(self, text):
        self.requires = re.findall(r"^\s*requires\*? (\w+) \{", text, re.M)
        self.ensures = re.findall(r"^\s*ensures\*? (\w+) \{", text, re.M)
        head = text[: text.index(")")] if ")" in text else text
        self.lent = re.findall(r"(\w+): &mut ", head)
        if "&mut self" in head:
            self.lent.insert(0, "self")


def signatures():
    found = {}
    for folder, dirs, files in os.walk("crates"):
        dirs[:] = sorted(d for d in dirs if d != "out")
        for f in sorted(files):
            if not f.endswith(".rt"):
                continue
            with open(os.path.join(folder, f)) as it:
                text = it.read()
            crate = folder.split(os.sep)[1]
            for m in re.finditer(r"^\s*(?:pub )?(?:extern \"C\" )?fn (\w+)(?:<[^>]*>)?\(.*?^\s*\{\s*$", text, re.M | re.S):
                found[(crate, m.group(1))] = Signature(m.group(0))
    return found


def signature_of(callee, sigs):
    parts = (callee or "").split("::")
    return sigs.get((parts[0], parts[-1]))


def part(index, total, names_):
    """`.0`, `.1.0`, `.1.1` of a tuple of clauses, as the clause's name and what is left of the path."""
    k = 0
    while k < total - 1 and index and index[0] == "1":
        index = index[1:]
        k += 1
    if k < total - 1:
        if not index or index[0] != "0":
            return None
        index = index[1:]
    return names_[k], index


def by_name(rest, label, names_):
    """A path `.ensures.1.0..` over several clauses, by the clause's name."""
    m = re.match(re.escape("." + label) + r"((?:\.\d+)*)", rest)
    if not m or not names_:
        return rest
    if len(names_) == 1:
        return "." + label + "." + names_[0] + rest[len(label) + 1 :]
    index = [x for x in m.group(1).split(".") if x]
    found = part(index, len(names_), names_)
    if not found:
        return rest
    return "." + label + "." + found[0] + "".join("." + x for x in found[1]) + rest[m.end() :]


def split_tuple(t):
    """The parts of `(a, b, ..)` at its top, or None."""
    t = t.strip()
    if not t.startswith("("):
        return None
    depth, parts, start = 0, [], 1
    for i, ch in enumerate(t):
        if ch in "([{":
            depth += 1
        elif ch in ")]}":
            depth -= 1
            if depth == 0:
                if i != len(t) - 1:
                    return None
                last = t[start:i].strip()
                if last:
                    parts.append(last)
                return parts
        elif ch == "," and depth == 1:
            parts.append(t[start:i].strip())
            start = i + 1
    return None


def as_record(body, names_):
    """A body that proves several clauses as one tuple, as a record of the clauses by name."""
    if len(names_) < 2 or "record {" in body and not "(" in body:
        return body
    at = 0
    while True:
        m = re.match(r"\s*let\b", body[at:])
        if not m:
            break
        depth, i = 0, at
        while i < len(body):
            if body[i] in "([{":
                depth += 1
            elif body[i] in ")]}":
                depth -= 1
            elif depth == 0 and re.match(r"\bin(?=\s|$)", body[i:]) and body[i - 1].isspace():
                # a let inside this one's value would have its own `in`
                if len(re.findall(r"(?<![\w'-])let(?=\s)", body[at:i])) == len(re.findall(r"(?<![\w'-])in(?=\s)", body[at:i])) + 1:
                    break
            i += 1
        at = i + 2
        if i >= len(body):
            return None
    rest = body[at:]
    parts = split_tuple(rest)
    while parts and len(parts) < len(names_) and (more := split_tuple(parts[-1])):
        parts = parts[:-1] + more
    lead = body[:at] + (" " if at else "")
    if parts and len(parts) >= len(names_):
        k = len(names_) - 1
        values = parts[:k] + [parts[k] if len(parts) == len(names_) else "(" + ", ".join(parts[k:]) + ")"]
        return lead + "record { " + " ".join(f"{n} = {v};" for n, v in zip(names_, values)) + " }"
    reach = [".1" * i + (".0" if i < len(names_) - 1 else "") for i in range(len(names_))]
    return lead + f" let clauses = {rest.strip()} in record {{ " + " ".join(f"{n} = clauses{r};" for n, r in zip(names_, reach)) + " }"


def names(crate):
    with tempfile.TemporaryDirectory() as d:
        said = subprocess.run(["rt", "check", "--generated", d, "--old-names"], cwd=os.path.join("crates", crate), stdout=subprocess.PIPE, stderr=subprocess.STDOUT, text=True).stdout
        p = os.path.join(d, "names.json")
        if not os.path.exists(p):
            sys.exit("turn_proofs: no names: " + said[-1500:])
        with open(p) as f:
            return json.load(f)


def blocks(text):
    """The head (comments and uses), and the declarations, each with the lines of comment before it."""
    lines = text.split("\n")
    i, head, uses = 0, [], []
    while i < len(lines) and (lines[i].startswith("--") or not lines[i].strip()):
        if lines[i].strip():
            head.append(lines[i])
        i += 1
    while i < len(lines) and (lines[i].startswith("use ") or not lines[i].strip()):
        if lines[i].strip():
            uses.append(lines[i])
        i += 1
    decls, now, pending = [], None, []
    for l in lines[i:]:
        m = SIGNATURE.match(l)
        if m or OPENS.match(l):
            now = (m.group(1) if m else None, pending + [l])
            pending = []
            decls.append(now)
        elif l.startswith("--"):
            pending.append(l)
        elif not l.strip():
            if now and not pending:
                now[1].append(l)
        elif now:
            now[1].extend(pending)
            pending = []
            now[1].append(l)
    return head, uses, [(n, "\n".join(b).rstrip()) for n, b in decls]


class Where:
    """The place of a goal: the steps behind it, the nearest first, as `--old-names` lists them."""

    def __init__(self, facts, asked):
        at = {n: i for i, n in enumerate(facts["places_by_name"])}
        old = {p[0]: i for i, p in enumerate(facts["places"])}
        self.facts, self.chain = facts, []
        i = at.get(asked[1], old.get(asked[0])) if asked else None
        while i is not None:
            self.chain.append(i)
            i = old.get(facts["places"][i][1])

    def step(self, name, depth):
        """The step of this older name at that many places behind, or nearest to it."""
        found = [(abs(k - depth), i) for k, i in enumerate(self.chain) if same(self.facts["places"][i][2][0] or "") == same(name)]
        return min(found)[1] if found else None

    def arm(self, i, name, path):
        """A path at an arm of a match, in today's words."""
        arm = self.facts["arms"][i]
        best = None
        for k in self.chain:
            other = self.facts["arms"][k]
            if not other or arm and other[0] != arm[0]:
                continue
            for field, step, where in other[2]:
                if same(step) == same(name) and path[: len(where)] == where and (best is None or len(where) > best[0]):
                    best = (len(where), other[0] + "." + field)
        return best and ".".join([best[1]] + path[best[0] :])

    def typed(self, name):
        for k in self.chain:
            for x, step in self.facts["typed"][k]:
                if same(step) == same(name):
                    return x
        return None


def places(body, start="c"):
    """Paths to places behind us become `\x01N\x02`, N places behind; a name that was bound to a place, or to a step alone, goes."""
    behind = {start: 0}
    while True:
        m = None
        for k in re.finditer(r"\blet (" + NAME + r") = (" + NAME + r")((?:\.before)*) in(\s+|$)", body):
            if k.group(2) in behind:
                m = k
                break
        if not m:
            break
        behind[m.group(1)] = behind[m.group(2)] + m.group(3).count(".before")
        gap = m.group(4)
        body = body[: m.start()] + ("" if "\n" not in gap or body[: m.start()].endswith((" ", "\n")) else gap) + body[m.end() :]
    for a in sorted(behind, key=len, reverse=True):
        body = re.sub(
            r"(?<![\w.'’-])" + re.escape(a) + r"((?:\.before)*)(?![\w'’-])(?=\.)",
            lambda m: f"\x01{behind[a] + m.group(1).count('.before')}\x02",
            body,
        )
    while True:
        m = re.search(r"\blet (" + NAME + r") = (\x01\d+\x02\.(?!requires\b|args\b)" + NAME + r") in(\s+|$)", body)
        if not m:
            return body
        gap, rest = m.group(3), body[m.end() :]
        again = re.search(r"\blet " + re.escape(m.group(1)) + r" = ", rest)
        until = again.start() if again else len(rest)
        rest = re.sub(r"(?<![\w.'’-])" + re.escape(m.group(1)) + r"(?![\w'’-])", m.group(2), rest[:until]) + rest[until:]
        body = body[: m.start()] + ("" if "\n" not in gap or body[: m.start()].endswith((" ", "\n")) else gap) + rest


def own_requires(body, start):
    """In a recursion what is required was a pair of the measure's value and of the function's own `requires`."""
    paths = [r"\x01\d+\x02\.requires"] + [r"(?<![\w.'’-])" + re.escape(a) for a in re.findall(r"\blet (" + NAME + r") = \x01\d+\x02\.requires in\b", body)]
    for p in paths:
        body = re.sub(p + r"\.0(?![.\d])", start + ".decreases", body)
        body = re.sub("(" + p + r")\.1(?!\d)", r"\1", body)
    return body


def steps(body, step_of, params, said, where, start="c", sigs=None, own=None, at=None):
    def one(m):
        depth, old, rest = int(m.group(1)), m.group(2), m.group(3) or ""
        if old == "requires":
            return f"{start}." + (by_name(".requires" + rest, "requires", own.requires)[1:] if own else "requires" + rest)
        if old == "args":
            parts = rest.split(".")
            if len(parts) > 1:
                parts[1] = parts[1].replace("-", "_")
            return f"{start}.args" + ".".join(parts)
        if old in ("well-formed", "well_formed"):
            return f"{start}.well_formed{rest}"
        if old == "ranges":
            parts = rest.split(".")
            if len(parts) > 1:
                parts[1] = parts[1].replace("-", "_")
            return f"{start}.ranges" + ".".join(parts)
        path = [x for x in rest.split(".") if x]
        i = at.step(old, depth) if at else None
        if i is not None:
            new = step_at(at.facts, i)
            found = at.arm(i, old, path)
            if found:
                return f"{start}.{found}"
        else:
            new = step_of.get(same(old))
        if path[:1] == ["given"] and at and at.typed(old):
            return f"{start}.type_inv.{at.typed(old)}" + "".join("." + x for x in path[1:])
        if new is None:
            said.append(f"{where}: {start}.{old}{rest}: no such step")
            return f"{start}.{old}{rest}"
        name, callee, decided = new
        a = re.match(r"\.auto((?:\.1)*)\.0(?![.\d])", rest)
        if a:
            k = a.group(1).count("1")
            ps = params.get(callee) if callee else None
            if ps and k < len(ps):
                rest = ".auto." + ps[k] + rest[a.end() :]
            else:
                said.append(f"{where}: {start}.{name}{rest}: no parameter {k}")
        sig = signature_of(callee, sigs)
        a = re.match(r"\.new((?:\.1)*)\.0(?![.\d])", rest)
        if a and sig:
            # the older form counts all parameters
            k, ps = a.group(1).count("1"), params.get(callee) or []
            x = ps[k] if k < len(ps) and ps[k] in sig.lent else sig.lent[k] if k < len(sig.lent) else None
            if x:
                rest = ".new." + x + rest[a.end() :]
        if sig:
            rest = by_name(rest, "ensures", sig.ensures)
        elif decided:
            rest = by_name(rest, "ensures", decided)
        g = re.match(r"\.given\.1(?![.\d])", rest)
        if g:
            rest = ".is" + rest[g.end() :]
        g = re.match(r"\.given(?![\w])", rest)
        if g:
            said.append(f"{where}: {start}.{name}{rest}: what is given")
        return f"{start}.{name}{rest}"

    body = re.sub(r"\x01(\d+)\x02\.(" + NAME + r")((?:\.[\w'’-]+)*)", one, body)
    # a test of `!x` says of `x` itself what it is
    body = re.sub(r"\bnot-(?:true|false) _ (?=" + start + r"\.[\w.'-]*\bif-not-)", "", body)
    return re.sub(r"\x01\d+\x02", start, body)


def step_at(facts, i):
    p, cl = facts["places"][i], facts["clauses"][i]
    return (p[2][1], p[3], cl["fields"] if cl and not cl.get("told") else None)


def aliases(body, sigs, own, step_of, at):
    """What `let P = c.requires in` or `let E = c.step.ensures in` binds is read by the clauses' names too."""
    for m in list(re.finditer(r"\blet (" + NAME + r") = \x01(\d+)\x02\.(" + NAME + r")(\.ensures)? in\b", body)):
        alias, depth, step, ensures = m.groups()
        i = at.step(step, int(depth))
        step_of = dict(step_of, **{same(step): step_at(at.facts, i)}) if i is not None else step_of
        if step == "requires" and not ensures:
            label, clauses = "requires", own.requires if own else []
        elif ensures and same(step) in step_of:
            sig = signature_of(step_of[same(step)][1], sigs)
            label, clauses = "ensures", sig.ensures if sig else (step_of[same(step)][2] or [])
            if len(clauses) == 1:
                continue
        else:
            continue
        if len(clauses) < 2:
            continue
        body = re.sub(
            r"(?<![\w.'’-])" + re.escape(alias) + r"((?:\.\d+)+)",
            lambda k: alias + by_name("." + label + k.group(1), label, clauses)[len(label) + 1 :],
            body,
        )
    return body


def definition(block):
    """(unfolding lines, arguments, body) of a declaration of one equation; None where it has more or none."""
    lines = block.split("\n")
    i = 0
    while i < len(lines) and not SIGNATURE.match(lines[i]):
        i += 1
    sig = [lines[i]]
    name = SIGNATURE.match(lines[i]).group(1)
    i += 1
    eq = re.compile(r"^" + re.escape(name) + r"((?: [^=]*?)?) =(?:\s|$)")
    unfold = []
    while i < len(lines) and not eq.match(lines[i]):
        (unfold if lines[i].startswith(("unfolding", " ")) and (unfold or lines[i].startswith("unfolding")) else sig).append(lines[i])
        i += 1
    if i == len(lines):
        return None
    m = eq.match(lines[i])
    body = [lines[i][m.end() - (1 if lines[i][m.end() - 1 : m.end()].isspace() else 0) :]] + lines[i + 1 :]
    if any(eq.match(l) for l in lines[i + 1 :]):
        return None
    comments = [l for l in lines if l.startswith("--")]
    return comments, "\n".join(sig), unfold, m.group(1).split(), "\n".join(body).strip("\n")


def variables(body, args, loop_vars, changed, said, where):
    first = list(loop_vars)
    again = [v for v, c in zip(loop_vars, changed) if c]
    if len(args) != len(first) + len(again):
        said.append(f"{where}: {len(args)} variables where {len(first) + len(again)} are")
        return body
    to = {}
    for a, v, c in zip(args, first, changed):
        to[a] = f"l.initial.{v}" if c else f"l.{v}"
    for a, v in zip(args[len(first) :], again):
        to[a] = f"l.{v}"
    to.pop("_", None)
    return re.sub(r"(?<![\w.'’₀-])(" + "|".join(re.escape(a) for a in sorted(to, key=len, reverse=True)) + r")(?![\w'’₀-])", lambda m: to[m.group(1)], body) if to else body


def turn(crate, path, facts, said, sigs):
    folder = os.path.dirname(path)
    fn = os.path.relpath(folder, os.path.join("crates", crate, "proofs"))
    module = f"Rattle.{crate}.proofs." + fn.replace("/", ".")
    with open(path) as f:
        head, uses, decls = blocks(f.read())
    needs = {}
    for o, n in facts["needs"]:
        needs[same(o)] = n
        needs.setdefault(same("overflow-" + o), n)
    step_of = {}
    own_sig = sigs.get((crate, fn.split("/")[-1].lstrip("+")))
    for p, cl in zip(facts["places"], facts["clauses"]):
        o, n = p[2]
        if o:
            step_of[same(o)] = (n, p[3], cl["fields"] if cl and not cl.get("told") else None)
    loops = {}
    for (names_, vs), ch in zip(facts["loops"], facts["changed"]):
        loops[same("invariant-" + names_[0])] = ("invariant-" + names_[1], vs, ch)
        loops[same("decreases-" + names_[0])] = ("decreases-" + names_[1], vs, ch)
        if names_[0] not in step_of:
            step_of[same(names_[0])] = (names_[1], None, None)
    params = facts["params"]
    asked_at = {n: a for (_, n), a in zip(facts["needs"], facts["asked_at"])}
    cycle = fn.startswith("+")
    answers, invariants, own = [], [], []
    for name, block in decls:
        if name is None:
            own.append(block)
            continue
        sig = re.sub(r"\s+", " ", block[block.index(name + " :") :]).split(" : ", 1)[1] if name + " :" in block else ""
        if "statement M" in block and re.search(r"\bclose\b", block):
            continue
        if cycle and re.match(r"(?:ℕ → )?(?:In \d|Measures \d|[\w-]+-lts\.Claims)", sig):
            m = re.match(r"a((?:\.1)*)\.0(\.now)?$", definition(block)[4].strip()) if sig.startswith("Measures") else None
            if m:
                x = params[f"{crate}::{fn[1:]}"][m.group(1).count("1")]
                invariants.append(f"abbrev pub decreases-{fn[1:]} : goal.decreases-{fn[1:]}\ndecreases-{fn[1:]} l = l.{x}{m.group(2) or ''}")
            elif sig.startswith("Measures"):
                said.append(f"{fn}: {name}: the measure, by hand")
            continue
        m = re.match(r"(?:tie|[\w-]+-lts)\.(invariant|decreases)-([\w-]+)", sig)
        if m:
            d = definition(block)
            new = loops.get(same(f"{m.group(1)}-{m.group(2)}"))
            if not d or not new:
                said.append(f"{fn}: {name}: no such loop, or no single equation")
                own.append(block)
                continue
            comments, _, unfold, args, body = d
            body = variables(body, args, new[1], new[2], said, f"{fn}: {name}")
            body = body if "\n" in body or body.startswith(" ") else " " + body.strip()
            invariants.append("\n".join(comments + [f"abbrev pub {new[0]} : goal.{new[0]}"] + unfold + [f"{new[0]} l =" + (body if body.startswith("\n") or body.startswith(" ") and "\n" not in body.split("\n")[0] else " " + body)]))
            continue
        m = re.match(r"(?:\(t : ℕ\) → )?(?:tie|[\w-]+-lts)\.Need-([\w'’-]+)", sig)
        if m:
            name_of_goal = m.group(1)
            new = needs.get(same(name_of_goal))
            d = definition(block)
            if new is None:
                idle = same(m.group(1)).startswith(("same-length", "enum-known", "enum-told")) or d and d[4].strip() == "search rules" and not d[2]
                if not idle:
                    said.append(f"{fn}: {name}: no goal {m.group(1)}: LEFT: {d[4] if d else ''}")
                continue
            if not d:
                said.append(f"{fn}: {name}: no single equation")
                own.append(block)
                continue
            comments, _, unfold, args, body = d
            if body.strip() == "search rules" and not unfold or re.match(r"enum-(?:known|told)", same(name_of_goal)):
                continue
            args = [a for a in args if a not in ("κs",)]
            start = args[1] if cycle else args[0]
            at = Where(facts, asked_at[new])
            body = places(body, start)
            if cycle:
                body = own_requires(body, start)
            body = aliases(body, sigs, own_sig, step_of, at)
            body = steps(body, step_of, params, said, f"{fn}: {new}", start, sigs, own_sig, at)
            m = re.match(r"([\w-]+?)-requires(?:-\d+)?$", name_of_goal)
            asked = None
            if m:
                for callee in params:
                    if same(callee.split("::")[-1]) == same(m.group(1)):
                        asked = signature_of(callee, sigs)
                clauses = asked.requires if asked else []
            elif name_of_goal.startswith("returns") and own_sig:
                clauses = own_sig.ensures
            else:
                clauses = []
            if len(clauses) > 1:
                turned = as_record(body, clauses)
                if turned is None:
                    said.append(f"{fn}: {new}: several clauses, by hand")
                else:
                    body = turned
            if not body.startswith((" ", "\n")):
                body = " " + body
            answers.append("\n".join(comments + [f"pub {new} : goal.{new}"] + unfold + [f"{new} {' '.join(args)} ={body}".rstrip()]))
            continue
        if "tie." in block or "(c :" in block:
            said.append(f"{fn}: {name}: a helper over places")
        own.append(block)
    uses = [u for u in uses if not re.search(r"\.(?:Statement|Tie|Reads|Kinds|Lts-\w+)\b|borrow\.Fn\.|\.\{statement\}", u)]
    if answers or own:
        body = "\n\n".join(["\n".join(head + uses + [f"use {module}.Goals as goal"])] + own + answers) + "\n"
        with open(os.path.join(folder, "Answers.antt"), "w") as f:
            f.write(body)
    if invariants:
        body = "\n\n".join(["\n".join(head + uses + [f"use {module}.Given as goal"])] + invariants) + "\n"
        with open(os.path.join(folder, "Invariants.antt"), "w") as f:
            f.write(body)
    os.remove(path)
    if not answers and not own and not invariants:
        os.rmdir(folder)


def main():
    crate, only = sys.argv[1], sys.argv[2:]
    facts = names(crate)
    sigs = signatures()
    said = []
    for folder, dirs, files in os.walk(os.path.join("crates", crate, "proofs")):
        dirs.sort()
        if "Proof.antt" not in files:
            continue
        fn = os.path.relpath(folder, os.path.join("crates", crate, "proofs"))
        if only and fn not in only:
            continue
        key = f"Rattle-{crate}-proofs.{fn.replace('/', '.')}.Lts" + ("-" + fn[1:] if fn.startswith("+") else "")
        with open(os.path.join(folder, "Proof.antt")) as f:
            text = f.read()
        if key not in facts or "tie.spec" not in text and "-lts.spec" not in text:
            said.append(f"{fn}: by hand" + ("" if key in facts else ": no names"))
            continue
        turn(crate, os.path.join(folder, "Proof.antt"), facts[key], said, sigs)
    print("\n".join(said))


main()
