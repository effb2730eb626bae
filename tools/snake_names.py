#!/usr/bin/env python3
"""Brings the repository's own names of definitions, lemmas, fields and local facts in specs/ and proofs/ to snake case.

usage: tools/snake_names.py [--list]    at the top of the repository, once, right after the kit's port.py

A name is turned if this repository defines it (in a file of specs/, of proofs/ or in a Proof.antt, at the top or inside a module, a
record, a where or a let), it begins with a small letter, and it has a dash or a capital letter in it. Names of the kit's library, of
goals and of what the source names keep their spelling. Must-fail edits get the same names. --list prints the table and changes
nothing, and prints the names that would fall together too: HAND and TURNED below say what those become.
"""

import glob
import os
import re
import subprocess
import sys

# Names that would fall together with a definition's, and what they become: a lemma that would have its function's name gets `_lem`.
LEMMAS = """
at-closing due-by first-room has-line jump-or-limit least-total limit-read no-limit no-plan on-closing on-flight
on-period plan-line quick-holds rows-plan saves-at short-by smallest-prices two-land unsold-free with-flight
with-line without-line starts-with
""".split()
HAND = {n: n.replace("-", "_") + "_lem" for n in LEMMAS} | {"caps-fit": "caps_fit_in", "flights-fit": "flights_fit_in"}
# Names that port.py turned already, and that would fall together with a definition's: by folder.
TURNED = {
    "crates/text/proofs/": {"is_digit": "is_digit_lem"},
    "crates/quick_plan/proofs/": {"more_left": "more_left_lem", "left_over": "left_over_lem"},
}

WORD = r"[^\s(){}\[\];,.@\"⌜⌝]+"
TOKEN = re.compile(r"[^\s(){}\[\];,.@\"⌜⌝]+")
HEAD = re.compile(r"^ *(?:abbrev |unfoldable )?(?:pub )?(?:abbrev |unfoldable )?(" + WORD + r")(?: \{\w+\})? : ", re.M)
# Names that stand at no head of that form: two on a line, and parameters.
MORE = ["heldTo", "heldTo₂", "onPlan", "getYes", "getNo", "costK", "costI", "row-ext"]
LET = re.compile(r"\blet (" + WORD + r")(?: :| =)")
GOAL = re.compile(r"^(?:abbrev )?(?:pub )?(" + WORD + r") : (?:tie|goal)\.", re.M)
USE = re.compile(r"^use ([^\s{]+)\.\{([^}]*)\}", re.M)


def antt(kinds=("specs/*.antt", "proofs/*.antt", "proofs/**/*.antt")):
    found = set()
    for k in kinds:
        found |= set(glob.glob("crates/*/" + k, recursive=True))
    return sorted(p for p in found if "/out/" not in p)


def snake(name):
    n = re.sub(r"(?<=[a-z0-9])([A-Z])", lambda m: "_" + m.group(1), name)
    return n.replace("-", "_").replace("′", "'").lower()


def turned(name):
    return bool(re.match(r"[a-zμ]", name)) and bool(re.search(r"[A-Z]|-|′", name)) and not re.fullmatch(r".*[<>=∷+*].*", name)


def own_names():
    own, library, goals, kept = set(MORE), set(), set(), set()
    for p in antt():
        t = open(p, encoding="utf-8").read()
        proof = p.endswith(("Proof.antt", "Answers.antt", "Invariants.antt"))
        g = set(GOAL.findall(t))
        goals |= g
        for m in HEAD.finditer(t):
            name = m.group(1)
            if proof and (name in g or name.endswith("-spec") or re.search(r" : .*statement", m.string[m.start():m.string.find("\n", m.start())])):
                kept.add(name)
                continue
            own.add(name)
        own |= set(LET.findall(t))
        for mod, names in USE.findall(t):
            if not mod.startswith("Rattle.") or mod.startswith("Rattle.std."):
                library |= {n.split(" as ")[0] for n in re.split(r"\s*,\s*", names.strip()) if n}
    return own, library, goals, kept


def main():
    own, library, goals, kept = own_names()
    table = {n: HAND.get(n, snake(n)) for n in own if turned(n) and n not in library}
    clash = sorted(n for n in table if n in goals or n in kept)
    words = set()
    for p in antt() + glob.glob("crates/*/src/*.rt"):
        words |= set(TOKEN.findall(open(p, encoding="utf-8").read()))
    back = {}
    for n, s in table.items():
        back.setdefault(s, []).append(n)
    together = sorted((s, v) for s, v in back.items() if len(v) > 1 or s in words - set(table))
    if "--list" in sys.argv:
        for n in sorted(table):
            print(n, table[n])
        print("both a goal and a name:", clash)
        for s, v in together:
            print("together:", s, v, "there already" if s in words else "")
        return
    edit_names(table)


def edit_names(table):
    def turn(text):
        return TOKEN.sub(lambda m: table.get(m.group(0), m.group(0)), text)

    def lines(text, comment):
        out = []
        for line in text.split("\n"):
            bare = line.lstrip()
            if bare.startswith(comment):
                line = re.sub(r"`[^`]*`", lambda m: turn(m.group(0)), line)
            else:
                code, sep, note = line.partition(" " + comment + " ")
                line = turn(code) + sep + note
            out.append(line)
        return "\n".join(out)

    for p in antt() + sorted(glob.glob("crates/*/src/*.rt")) + sorted(glob.glob("crates/*/must-fail/*.edit")):
        with open(p, encoding="utf-8") as f:
            old = f.read()
        text = old
        for folder, more in TURNED.items():
            if p.startswith(folder):
                for a, b in more.items():
                    text = re.sub(r"(?<![\w.-])" + a + r"(?![\w-])", b, text)
        new = lines(text, "//" if p.endswith(".rt") else "--")
        if new != old:
            with open(p, "w", encoding="utf-8") as f:
                f.write(new)


if __name__ == "__main__":
    os.chdir(subprocess.run(["git", "rev-parse", "--show-toplevel"], capture_output=True, text=True, check=True).stdout.strip())
    main()
