#!/usr/bin/env python3
"""Turns the walks of an older Rattle, proofs/F/Proof.antt, into Invariants.antt and Answers.antt.

usage: tools/turn_proofs.py CRATE [NAMES.json]    at the top of the repository

NAMES.json is what `rt check --generated DIR --old-names` writes of the crate (made here if it is not given). For each need of the walk
that was not closed by `search rules` alone it writes an answer to the goal that has taken the need's place; a path through the places
of the code, as c.before.before.loop.invariant, becomes the step's own name, as c.loop-i.invariant. What it cannot turn it leaves as it
stands and prints. The walk goes; `rt check` says what is still open.
"""

import glob
import json
import os
import re
import subprocess
import sys
import tempfile

NAME = r"[^\s(){}\[\];,.@\"]+"
BLOCK = re.compile(r"^(?:abbrev )?(?:pub )?(?:abbrev )?(" + NAME + r") : ", re.M)


def same(a):
    """A name as the older and the newer spelling have it alike; tools/snake_names.py turned some names of steps with those of lemmas."""
    a = re.sub(r"^(overflow|offset_bounds)[-_]", "", a).replace("-", "_")
    a = a[:1].lower() + a[1:]
    return re.sub(r"_fit_in$", "_fit", re.sub(r"_lem$", "", a))


def clauses():
    """For each function of the repository, the names of its requires and of its ensures (None: one with no name), and its parameters."""
    found = {}
    for p in sorted(glob.glob("crates/*/src/**/*.rt", recursive=True)):
        crate = p.split("/")[1]
        text = re.sub(r"//[^\n]*", "", open(p, encoding="utf-8").read())
        inner = re.sub(r"^crates/[^/]*/src/", "", p)[:-3].replace("/", "::")
        where = crate if inner in ("lib", "main") else crate + "::" + inner
        for m in re.finditer(r"\bfn (\w+)\s*(?:<[^>]*>)?\(([^)]*)\)([^{]*?(?:\{.*?)?)(?=\n\{|\n    \{)", text, re.S):
            heads = {}
            for kind in ("requires", "ensures"):
                heads[kind] = re.findall(r"\b" + kind + r"\b\s*(\w+)?\s*\{", m.group(3))
            params = [re.sub(r"^mut ", "", x.split(":")[0].strip()) for x in m.group(2).split(",") if ":" in x]
            found[where + "::" + m.group(1)] = (heads["requires"], heads["ensures"], params)
    return found


def blocks(text):
    """The file's lines of use and comment at the head, and its declarations: (name, type, whole text)."""
    lines = text.split("\n")
    starts = [i for i, l in enumerate(lines) if BLOCK.match(l)]
    if not starts:
        return lines, []
    cut = []
    for i in starts:
        j = i
        while j > 0 and lines[j - 1].startswith("--"):
            j -= 1
        cut.append(j)
    out = []
    for n, i in enumerate(starts):
        end = cut[n + 1] if n + 1 < len(starts) else len(lines)
        body = "\n".join(lines[cut[n]:end]).strip("\n")
        m = BLOCK.match(lines[i])
        out.append((m.group(1), lines[i][m.end():], body))
    return lines[:cut[0]], out


# Words of fields that port.py left behind a helper of the file.
OLD = {"test": {"taken": "true", "left": "false"}, "call": {"last": "new", "kept": "auto"}, "loop": {"inv": "invariant"}}


class Walk:
    """The places of a function's walk, and how a path from one reads today."""

    def __init__(self, names, contracts, function):
        self.place = {p[0]: (p[1], p[2], p[3], i) for i, p in enumerate(names["places"])}
        self.arms = names["arms"]
        self.contracts = contracts
        self.function = function
        self.left = []
        self.start = None
        self.moves = {}

    def clause(self, function, kind, rest):
        """.ensures.1 of a call with clauses of several names, and .ensures.1.0 where older kits nested them."""
        known = self.contracts.get(function)
        if not known:
            return rest
        named = known[0] if kind == "requires" else known[1]
        if len(named) < 2:
            return rest
        if rest and rest[0] in named:
            return rest
        for i, name in enumerate(named):
            path = ["1"] * i + (["0"] if i + 1 < len(named) else [])
            if rest[: len(path)] == path:
                return [name] + rest[len(path):]
        self.left.append(f"{kind} of {function}: {'.'.join(rest)}")
        return rest

    def parameter(self, function, rest):
        known = self.contracts.get(function)
        n, i = 0, 0
        while i < len(rest) and rest[i] == "1":
            n, i = n + 1, i + 1
        if known and i < len(rest) and rest[i] == "0" and n < len(known[2]):
            return [known[2][n]] + rest[i + 1:]
        return rest

    def holder(self, place, first):
        """The place that has the step: this one, or the nearest above it or above the goal's own, since a walk of today has other places."""
        for start in (place, self.start):
            up = start
            while up is not None:
                step = self.place[up][1]
                if step and same(step[0]) == same(first):
                    return up
                up = self.place[up][0]
        return place

    def turn(self, place, fields):
        """The path of fields at a place, or None where it ends at a place (then the place is returned)."""
        while fields and fields[0] == "before":
            up = self.place[place][0]
            if up is None:
                self.left.append("before the start: " + ".".join(fields))
                return None, "c." + ".".join(fields)
            place, fields = up, fields[1:]
        if not fields:
            return place, None
        first, rest = fields[0], fields[1:]
        place = self.holder(place, first)
        _, step, callee, index = self.place[place]
        arm = self.arms[index] if index < len(self.arms) else None
        if arm:
            for new, old, path in arm[2]:
                if same(old) == same(first) and rest[: len(path)] == path:
                    return None, ".".join(["c", arm[0], new] + rest[len(path):])
        if first in ("args", "ranges"):
            return None, ".".join(["c", first] + rest)
        if first == "pre":
            first = "requires"
        if first == "requires":
            return None, ".".join(["c", "requires"] + self.clause(self.function, "requires", rest))
        if step and same(step[0]) == same(first):
            kind = "call" if callee else "test" if re.match(r"if|.*-test$", step[0]) else "loop"
            rest = [OLD[kind].get(rest[0], rest[0])] + rest[1:] if rest else rest
            if rest and rest[0] == "ensures":
                rest = ["ensures"] + self.clause(callee, "ensures", rest[1:])
            elif rest and rest[0] in ("new", "auto") and callee:
                rest = [rest[0]] + self.parameter(callee, rest[1:])
            return None, ".".join(["c", step[1]] + rest)
        self.left.append(f"{place}: {'.'.join(fields)}")
        return None, ".".join(["c"] + fields)


def parts(text):
    """The parts of a tuple, (a, b), or None."""
    text = text.strip()
    if not (text.startswith("(") and text.endswith(")")):
        return None
    out, depth, at = [], 0, 1
    for i, ch in enumerate(text):
        if ch in "([{":
            depth += 1
        elif ch in ")]}":
            depth -= 1
            if depth == 0 and i + 1 < len(text):
                return None
        elif ch == "," and depth == 1:
            out.append(text[at:i].strip())
            at = i + 1
    last = text[at:-1].strip()
    return out + ([last] if last else [])


def in_clauses(walk, goal, right, said):
    """An answer to several clauses, which were a tuple, as a record with their names."""
    if goal.startswith("returns"):
        named = walk.contracts.get(walk.function, ([], [], []))[1]
    else:
        m = re.match(r"(.*?)-requires", goal)
        step = m and m.group(1)
        callee = next((p[2] for p in walk.place.values() if p[1] and p[1][1] == step and p[2]), None)
        named = walk.contracts.get(callee, ([], [], []))[0]
    if len(named) < 2:
        return right
    lead, _, end = right.rpartition(" in\n") if " in\n" in right else ("", "", right)
    one = re.match(r"(.* in) (\(.*\))\s*$", end, re.S)
    if one and parts(one.group(2)):
        lead, end = (lead + " in\n" if lead else "") + one.group(1)[:-3], one.group(2)
    found = parts(end)
    flat = found
    while flat and len(flat) < len(named) and len(flat) == 2 and parts(flat[-1]) and found is flat:
        flat = flat[:-1] + parts(flat[-1])
    if flat and len(flat) == len(named):
        record = "record { " + "; ".join(f"{n} = {x}" for n, x in zip(named, flat)) + " }"
        return (lead + " in\n    " if lead else " ") + record
    if found is None and not re.match(r"\s*(rw|omega|search|simp|elim|let|⊎_elim|λ)\b", end):
        paths = [".1" * i + (".0" if i + 1 < len(named) else "") for i in range(len(named))]
        record = "let all = " + end.strip() + " in record { " + "; ".join(f"{n} = all{x}" for n, x in zip(named, paths)) + " }"
        return (lead + " in\n    " if lead else " ") + record
    turned = re.match(r"\s*rw (\S+|\(.*?\)) (\(.*\))\s*$", end, re.S)
    if turned and parts(turned.group(2)) and len(parts(turned.group(2))) == 1:
        paths = [".1" * i + (".0" if i + 1 < len(named) else "") for i in range(len(named))]
        record = "record { " + "; ".join(f"{n} = rw {turned.group(1)} ({turned.group(2)}{x})" for n, x in zip(named, paths)) + " }"
        record = record if len(record) < 200 else f"let all = {turned.group(2)} in record {{ " + "; ".join(f"{n} = rw {turned.group(1)} all{x}" for n, x in zip(named, paths)) + " }"
        return (lead + " in\n    " if lead else " ") + record
    said.append(f"{goal}: clauses {named}")
    return right


PATH = re.compile(r"(?<![\w'.₀₁₂-])([A-Za-z_][\w'₀₁₂-]*)((?:\.[\w'₀₁₂-]+)*)")


def helped(walk, body, helpers):
    """The body with each helper that goes from place to place written out, as (turn c.before) for c.before.before.before."""
    old = None
    while old != body:
        old = body
        for name, steps in helpers.items():
            body = re.sub(r"\(" + re.escape(name) + r" ([\w'₀₁₂-]+(?:\.[\w'₀₁₂-]+)*)\)", r"\1" + steps, body)
            body = re.sub(r"(let [\w'₀₁₂-]+ = )" + re.escape(name) + r" ([\w'₀₁₂-]+(?:\.[\w'₀₁₂-]+)*) in", r"\1\2" + steps + " in", body)
    return body


def with_facts(walk, place, body, first, moves, facts):
    """An answer in which each helper that states a fact at a place, as `due_is c.before`, is a let before it."""
    used = []

    def fact(name, at):
        for i, (n, p, _) in enumerate(used):
            if (n, p) == (name, at):
                return used[i][2]
        label = name if not any(n == name for n, _, _ in used) else f"{name}_{sum(n == name for n, _, _ in used) + 1}"
        used.append((name, at, label))
        return label

    text = turn_body(walk, place, helped(walk, body, moves), first, facts, fact)
    lets, done = [], 0
    while done < len(used):
        name, at, label = used[done]
        variable, kind, value = facts[name]
        kind = turn_body(walk, at, helped(walk, kind, moves), variable, facts, fact)
        value = turn_body(walk, at, helped(walk, value, moves), variable, facts, fact)
        lets.insert(0, f"    let {label} : {kind.strip()} = {value.strip()} in\n")
        done += 1
    return text if not lets else "\n" + "".join(lets) + ("    " + text.strip() if "\n" not in text.strip() or not text.startswith("\n") else text.lstrip("\n"))


def turn_body(walk, place, body, first="c", facts=None, fact=None):
    """The body of an answer: places that a let names go, and each path is spelled from c."""
    places = {first: place}
    outer, walk.start = walk.start, place
    out, at = [], 0
    let = re.compile(r"let ([\w'₀₁₂-]+) = ([\w'₀₁₂-]+)((?:\.[\w'₀₁₂-]+)*) in[ \n]\s*")
    while True:
        m = let.search(body, at)
        if not m:
            break
        base = places.get(m.group(2))
        here = None
        if base is not None:
            fields = [f for f in m.group(3).split(".") if f]
            if all(f == "before" for f in fields):
                here = base
                for _ in fields:
                    here = walk.place[here][0] or here
        if here:
            out.append((body[at:m.start()], dict(places)))
            places[m.group(1)] = here
            at = m.end()
        else:
            out.append((body[at:m.end()], dict(places)))
            at = m.end()
    out.append((body[at:], dict(places)))

    def stated(m, known):
        at = known.get(m.group(2))
        if at is None:
            return m.group(0)
        for _ in range(m.group(3).count(".before")):
            at = walk.place[at][0] or at
        variable, kind, value = facts[m.group(1)]
        if kind is None:
            return "(" + turn_body(walk, at, helped(walk, value, walk.moves), variable, facts, fact).strip() + ")"
        return fact(m.group(1), at)

    if facts:
        uses = re.compile(r"(?<![\w'.-])(" + "|".join(map(re.escape, facts)) + r") ([\w'₀₁₂-]+)((?:\.before)*)(?![\w'.-])")
        out = [(uses.sub(lambda m, k=known: stated(m, k), piece), known) for piece, known in out]

    def path(m, known):
        name, fields = m.group(1), [f for f in m.group(2).split(".") if f]
        if name not in known:
            return m.group(0)
        end, text = walk.turn(known[name], fields)
        if end is not None:
            if fields or name != first:
                walk.left.append(f"a place alone: {m.group(0)}")
            return m.group(0) if name != first or fields else "c"
        return text

    text = "".join(PATH.sub(lambda m, k=known: path(m, k), piece) for piece, known in out)
    text = re.sub(r"(?<=[\w.])\.inv(?![\w'-])", ".invariant", text)
    walk.start = outer
    # A test of `!b` says `b ≡ false` now, so the lemma that turned it goes.
    text = re.sub(r"\(not-(true|false) _ (c\.[\w.-]+\.(?:true|false))\)", r"\2", text)
    return re.sub(r"\bnot-(true|false) _ (c\.[\w.-]+\.(?:true|false))", r"\2", text)


def turn_file(path, names, contracts, crate):
    folder = os.path.dirname(path)
    inner = os.path.relpath(folder, f"crates/{crate}/proofs")
    function = crate + "::" + inner.replace("/", "::")
    key = f"Rattle-{crate}-proofs.{inner.replace('/', '.')}.Lts"
    if key not in names:
        return f"{inner}: not in the table of names"
    table = names[key]
    text = open(path, encoding="utf-8").read()
    if "tie.close" not in text:
        return f"{inner}: a walk by hand"
    head, found = blocks(text)
    comment = [l for l in head if l.startswith("--")]
    uses = "\n".join(l for l in head if not l.startswith("--")).strip("\n")
    uses = re.sub(r"^use Rattle\.\w+\.proofs\.\S*\.(Statement\.\{statement\}|Tie as tie)\n?", "", uses, flags=re.M)
    module = f"Rattle.{crate}.proofs.{inner.replace('/', '.')}"
    walk = Walk(table, contracts, function)
    needs = {same(old): (new, table["asked_at"][i]) for i, (old, new) in enumerate(table["needs"])}
    loops = {same(l[0][0]): (l[0][1], l[1], table["changed"][i]) for i, l in enumerate(table["loops"])}
    invariants, answers, helpers, said = [], [], [], []
    moves, facts, types = {}, {}, set()
    walk.moves = moves
    goals = {}
    for name, kind, _ in found:
        m = re.match(r"tie\.Need-([^\s]+)", kind.strip())
        need = m and (needs.get(same(m.group(1))) or needs.get(same(name)))
        if need:
            goals[name] = need[0]
    for name, kind, body in found:
        if kind.strip() == "Type 0" and "tie." in body:
            types.add(name)
            continue
        if kind.strip().startswith("tie.Need-") or name.endswith("-spec"):
            continue
        signature = body[body.index(" : ") + 3:]
        where = re.match(r"\(?(?:(\S+) : )?(tie\.[A-Z]\S*|" + "|".join(map(re.escape, sorted(types) or ["none"])) + r")", signature)
        m = re.search(r"^" + re.escape(name) + r" (\S+)((?: \S+)*?) =(.*)", body, re.M | re.S)
        if not where or not m:
            continue
        more, m = m.group(2), [None, m.group(1), m.group(3)]
        value = helped(walk, " (" + m[2].strip() + ")" if re.match(r"\S+ \S+$", m[2].strip()) else m[2], moves).strip()
        steps = re.fullmatch(r"\(?" + re.escape(m[1]) + r"((?:\.before)*)\)?", value)
        if steps:
            moves[name] = steps.group(1)
            continue
        signature = signature[: signature.index("\n" + name + " ")]
        kind = re.match(r"\(\S+ : [^()]*\)\s*(?:→\s*)?(.*)", signature, re.S)
        if kind:
            facts[name] = (m[1], kind.group(1), m[2] if not more else f"λ{more}.{m[2]}")
        elif not more:
            facts[name] = (m[1], None, m[2])
    for name, kind, body in found:
        kind = kind.strip()
        if name.endswith("-spec") or "statement M" in kind or name in moves or name in types or name in facts:
            continue
        m = re.match(r"tie\.(invariant|decreases)[-_]([\w-]+)", kind)
        if m:
            loop = loops.get(same(m.group(2)))
            if not loop:
                said.append(f"no loop {m.group(2)}")
                continue
            new, variables, changed = loop
            lines = body.split("\n")
            at = next(i for i, l in enumerate(lines) if re.match(re.escape(name) + r"(?!\s*:)\s", l))
            left, _, right = "\n".join(lines[at:]).partition(" =")
            words = left.split()[1:]
            spelled = [f"l.initial.{v}" if changed[i] else f"l.{v}" for i, v in enumerate(variables)] + [f"l.{v}" for i, v in enumerate(variables) if changed[i]]
            if len(words) != len(spelled):
                said.append(f"{kind}: {len(words)} names, {len(spelled)} values: {' '.join(words)} | {variables} {changed}")
            swap = dict(zip(words, spelled))
            right = PATH.sub(lambda q: swap.get(q.group(1), q.group(1)) + q.group(2), right)
            goal = f"{m.group(1)}-{new}"
            invariants.append(f"abbrev pub {goal} : goal.{goal}\n{goal} l ={right}")
            continue
        m = re.match(r"tie\.Need-([^\s]+)", kind)
        if not m:
            helpers.append(body)
            if "tie." in body:
                said.append(f"a helper over a place: {name}")
            continue
        need = needs.get(same(m.group(1))) or needs.get(same(name))
        if not need:
            said.append(f"no goal for {m.group(1)}" + ("" if "= search rules" in body else " (WITH AN ANSWER)"))
            continue
        goal, (place, _) = need
        lines = body.split("\n")
        at = next(i for i, l in enumerate(lines) if re.match(re.escape(name) + r"\s+:", l))
        clause = next(i for i, l in enumerate(lines) if i > at and re.match(re.escape(name) + r"(?!\s*:)(\s|$)", l))
        between = lines[at + 1:clause]
        left, _, right = "\n".join(lines[clause:]).partition("=")
        words = left.split()[1:]
        if right.strip() == "search rules" and not between:
            continue
        if any(not re.fullmatch(r"c|κs|_", w) for w in words):
            said.append(f"{name}: arguments {words}")
        right = with_facts(walk, place, right, words[0] if words else "c", moves, facts)
        right = re.sub(r"(?<![\w'.-])([\w'-]+) c(?![\w'.-])", lambda m: goals.get(m.group(1), m.group(1)) + " c", right)
        right = in_clauses(walk, goal, right, said)
        note = lines[:at]
        answers.append("\n".join(note + [f"pub {goal} : goal.{goal}"] + between + [f"{goal} c ={right}"]))
    said += walk.left
    if invariants:
        write(os.path.join(folder, "Invariants.antt"), comment, uses, f"use {module}.Given as goal", invariants)
    if answers:
        write(os.path.join(folder, "Answers.antt"), [] if invariants else comment, uses, f"use {module}.Goals as goal", helpers + answers)
    elif helpers:
        said.append("helpers, and no answer")
    subprocess.run(["git", "rm", "-q", "--cached", path])
    os.remove(path)
    return f"{inner}: {len(invariants)} invariants and measures, {len(answers)} answers" + "".join(f"\n    {s}" for s in said)


def write(path, comment, uses, last, parts):
    text = "\n".join(comment + ([uses] if uses else []) + [last]) + "\n\n" + "\n\n".join(parts) + "\n"
    with open(path, "w", encoding="utf-8") as f:
        f.write(text)


def main():
    crate = sys.argv[1]
    if len(sys.argv) > 2:
        table = sys.argv[2]
    else:
        folder = tempfile.mkdtemp()
        r = subprocess.run(["rt", "check", "--generated", folder, "--old-names"], cwd=f"crates/{crate}", capture_output=True, text=True)
        table = os.path.join(folder, "names.json")
        if not os.path.exists(table):
            sys.exit(r.stdout[-2000:] + r.stderr[-500:])
    with open(table, encoding="utf-8") as f:
        names = json.load(f)
    contracts = clauses()
    for p in sorted(glob.glob(f"crates/{crate}/proofs/**/Proof.antt", recursive=True)):
        print(turn_file(p, names, contracts, crate))


if __name__ == "__main__":
    os.chdir(subprocess.run(["git", "rev-parse", "--show-toplevel"], capture_output=True, text=True, check=True).stdout.strip())
    main()
