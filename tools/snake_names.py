#!/usr/bin/env python3
"""Brings the repository's own names in specs, proofs and clauses to snake case, once, after the kit's port.py.

What turns, as whole words, in every .antt file and in every .rt file below crates/:
  a name in camel case that an .antt file declares or binds: howMany is how_many;
  a name with dashes that a file of specs/ declares (a definition, a field, a constructor): faultless-before is faultless_before,
  but where that word stands already in some .antt file (is-end beside is_end), which keeps its dash;
  a constant of the layout with a dash: DEAD-STATE is DEAD_STATE, as the code spells it.
A lemma's name keeps its dashes: they join the names that it speaks of. Functions of src/, strings and comments' prose stay.
OTHER has the names whose plain turn would meet another name in the same file; LEMMAS the lemmas that had such a name first.
Run it once, at the top of the repository, right after port.py: what the check names later, as in-ShareSpent, is spelled after the source.
"""

import collections
import os
import re

WORD = re.compile(r"[A-Za-zℕ_][\w'₀₁₂₃₄₅₆₇₈₉\-ℕ]*")
HEX = re.compile(r"x[0-9A-F_]+$")

# unsafe_states is a parameter and a field of the code where the definition is cited.
OTHER = {"unsafeStates": "unsafe_states_of", "permittedStates": "permitted_states_of"}

# (file, old, new): lemmas whose own name is now a definition's
LEMMAS = [
    ("crates/model/proofs/Kept.antt", "kept_from", "kept_from_lem"),
    ("crates/model/proofs/Cleaned.antt", "kept_from", "kept_from_lem"),
    ("crates/demands/proofs/LowestFaults.antt", "in_order", "in_order_lem"),
    ("crates/demands/proofs/TurnedHolds.antt", "in_order", "in_order_lem"),
    ("crates/demands/proofs/SharesTold.antt", "other_goes", "other_goes_lem"),
    ("crates/model/proofs/FileWords.antt", "too_many", "too_many_lem"),
    ("crates/demands/proofs/PrinterHolds.antt", "too_many bs", "too_many_lem bs"),
    ("crates/demands/proofs/CleanProgramHolds.antt", "too_many bs", "too_many_lem bs"),
    ("crates/demands/proofs/PrinterHolds.antt", "{too_many,", "{too_many_lem,"),
    ("crates/demands/proofs/CleanProgramHolds.antt", ", too_many}", ", too_many_lem}"),
]


def files():
    for folder, dirs, names in os.walk("crates"):
        dirs[:] = sorted(d for d in dirs if d != "out")
        for name in sorted(names):
            if name.endswith((".antt", ".rt")):
                yield os.path.join(folder, name)


def text_of(path):
    with open(path, encoding="utf-8") as f:
        return f.read()


def code(path, line):
    return re.sub(r"--.*$" if path.endswith(".antt") else r"//.*$", "", line)


def snake(word):
    return re.sub(r"([a-z0-9])([A-Z]+)", lambda m: m.group(1) + "_" + m.group(2).lower(), word)


def table():
    turns, seen, dashed, constants = {}, collections.Counter(), set(), set()
    for path in files():
        for line in text_of(path).split("\n"):
            line = code(path, line)
            for word in WORD.findall(line):
                seen[word] += path.endswith(".antt")
                if path.endswith(".antt") and re.match(r"[a-z_]", word) and re.search(r"[a-z0-9][A-Z]", word) and not HEX.match(word):
                    turns[word] = OTHER.get(word, snake(word))
            declared = re.match(r"\s*(?:abbrev |unfoldable |pub )*([^\s:{(]+) :", line)
            if "/specs/" in path and path.endswith(".antt") and declared and "-" in declared.group(1):
                (constants if re.match(r"[A-Z-]+$", declared.group(1)) else dashed).add(declared.group(1))
    taken = set(turns.values()) | {w for w in seen if seen[w]}
    for word in sorted(dashed):
        plain = snake(word).replace("-", "_")
        if plain not in taken:
            turns[word] = plain
            taken.add(plain)
    for word in constants:
        turns[word] = word.replace("-", "_")
    return turns


def turned(path, text, turns):
    for where, old, new in LEMMAS:
        if where == path and new not in text:
            text = re.sub(r"(?<![\w-])" + re.escape(old) + r"(?![\w-])", new, text) if re.match(r"\w+$", old) else text.replace(old, new)
    lines = []
    for line in text.split("\n"):
        body = code(path, line)
        rest = line[len(body):]
        # a definition's own words in a comment's code span
        rest = re.sub(r"`[^`]*`", lambda m: WORD.sub(lambda w: turns.get(w.group(0), w.group(0)), m.group(0)), rest)
        parts = re.split(r'("(?:[^"\\]|\\.)*")', body)
        parts[::2] = [WORD.sub(lambda w: turns.get(w.group(0), w.group(0)), p) for p in parts[::2]]
        lines.append("".join(parts) + rest)
    return "\n".join(lines)


def main():
    turns = table()
    count = 0
    for path in files():
        old = text_of(path)
        new = turned(path, old, turns)
        if new != old:
            count += 1
            with open(path, "w", encoding="utf-8") as f:
                f.write(new)
    print(f"{len(turns)} names, {count} files")


if __name__ == "__main__":
    main()
