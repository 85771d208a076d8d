#!/usr/bin/env python3
"""Brings the names of this repository's definitions and lemmas to one spelling, once, after the Rattle kit's port.py.

usage: python3 tools/respell.py [--dry]      at the top of the repository

The words of a name are joined by `_`, in lower case; a type keeps its capitals. Functions of src/, strings, and the
names of goals that Rattle makes are left as they are. Where a lemma would then have the name of a definition, the lemma
gets `_lem`. With --dry nothing is written. What it prints: each file in which a new name stood before, which may then
mean two things.
"""

import collections
import os
import re
import sys

TOP = os.path.join(os.path.dirname(os.path.realpath(__file__)), "..", "crates")
BEGIN, END = r"(?<![\w'◌-])", r"(?![\w'◌-])"
WORDS = ("let", "in", "elim", "use", "as", "open", "rw", "record", "then", "module", "_")
SIGNED = re.compile(
    r"^(\s*)((?:abbrev |unfoldable |pub |data |record )*)([^\s:(){}\[\]λ.,;=↦|]+)"
    r"\s*(?:\([^:]*:[^)]*\)|\{[^:]*:[^}]*\}|\s)*:\s(.*)$"
)
# A file of this name is refused now: Rattle makes a module specs.contracts.
MOVED = {"ground/specs/Contracts.antt": "ground/specs/Clauses.antt"}
PATHS = {"Rattle.ground.specs.Contracts": "Rattle.ground.specs.Clauses"}


def files():
    for folder, below, names in os.walk(TOP):
        below[:] = sorted(d for d in below if d != "out")
        for name in sorted(names):
            path = os.path.join(folder, name)
            rel = os.path.relpath(path, TOP).replace(os.sep, "/")
            if name.endswith((".antt", ".rt", ".edit")):
                with open(path, encoding="utf-8") as f:
                    yield path, rel, f.read()


def in_function(rel):
    """Does the file belong to the proof of one function?"""
    parts = rel.split("/")
    return parts[1] == "proofs" and len(parts) > 3


def spelled(name):
    if "◌" in name or re.fullmatch(r"[A-Z][A-Za-z0-9']*", name) or name in WORDS:
        return name
    words = []
    for part in name.split("-"):
        if re.fullmatch(r"[A-Z][A-Z0-9']*", part):
            part = part.lower()
        elif re.match("[a-z]", part):
            part = re.sub(r"(?<=[a-z0-9])(?=[A-Z])", "_", part).lower()
        words.append(part)
    return "_".join(words)


def signatures(text):
    for line in text.split("\n"):
        m = SIGNED.match(line)
        if m and not line.lstrip().startswith("--") and m.group(3) not in WORDS:
            yield m.group(3), m.group(4)


def main():
    dry = "--dry" in sys.argv
    told = list(files())
    defined = collections.defaultdict(set)  # name: the files that define it
    goals = collections.defaultdict(set)  # file: names of goals that it answers
    for path, rel, text in told:
        if not rel.endswith(".antt"):
            continue
        for name, kind in signatures(text):
            if in_function(rel) and kind.startswith(("tie.", "tie ", "{M : Type 1} → statement", "statement")):
                goals[rel].add(name)
            else:
                defined[name].add(rel)
    new = {n: spelled(n) for n in defined}
    together = collections.defaultdict(set)
    for n in defined:
        together[new[n]].add(n)
    # file: names that only this file, and those that import it from there, respell
    local = collections.defaultdict(dict)
    for name, olds in together.items():
        if len(olds) < 2:
            continue
        rank = lambda n: (not any("/specs/" in r for r in defined[n]), "-" in n, "_" in n, n)
        first, *others = sorted(olds, key=rank)
        for n in others:
            if n == name:  # the spelling was changed before: only where it is meant
                for rel in defined[n]:
                    local[rel][n] = name + "_lem"
            else:
                new[n] = name + "_lem"
    modules = {rel: "Rattle." + rel[: -len(".antt")].replace("/", ".") for rel in local}
    for path, rel, text in told:
        for home, module in modules.items():
            m = re.search(r"(?m)^(?:ghost )?use " + re.escape(module) + r"\.\{([^}]*)\}", text)
            if m:
                for n, to in local[home].items():
                    if n in [w.strip().split(" as ")[0] for w in m.group(1).split(",")]:
                        local[rel][n] = to
    token = re.compile(BEGIN + r"[A-Za-z_◌][\w'◌-]*" + END)
    changed = 0
    for path, rel, text in told:
        before = set(token.findall(text))
        mine = dict(new)
        mine.update(local.get(rel, {}))
        seen = set()

        def turn(m):
            word = m.group(0)
            to = mine.get(word, word)
            if to == word:
                return word
            if in_function(rel) and "-" in word:
                if word in goals[rel] or (m.start() and text[m.start() - 1] == "."):
                    return word
            seen.add((word, to))
            return to

        if rel.endswith(".rt"):  # strings stay
            parts = re.split(r'(b?"(?:[^"\\]|\\.)*")', text)
            out, at = [], 0
            for i, part in enumerate(parts):
                out.append(part if i % 2 else token.sub(lambda m: turn(m), part))
            result = "".join(out)
        else:
            result = token.sub(turn, text)
        for a, b in PATHS.items():
            result = result.replace(a + ".", b + ".")
        if rel == "ground/specs/Lib.antt":
            result = result.replace("pub mod Contracts", "pub mod Clauses")
        for a, b in sorted(seen):
            if b in before:
                print(f"look: {rel}: {a} becomes {b}, which stood there before")
        if result != text:
            changed += 1
            if not dry:
                with open(path, "w", encoding="utf-8") as f:
                    f.write(result)
    for a, b in MOVED.items():
        if not dry and os.path.exists(os.path.join(TOP, a)):
            os.rename(os.path.join(TOP, a), os.path.join(TOP, b))
    print(f"{len([n for n in new if new[n] != n])} names, {changed} files")


if __name__ == "__main__":
    main()
