#!/usr/bin/env python3
"""Brings the names of this repository's own definitions and lemmas to snake case, after port.py ran.

usage: python3 tools/respell.py        at the top of the repository

Words of crates/*/{specs,proofs,src} with a hyphen that a file of specs/ or proofs/ defines get underscores. Names of the kit, and names that rattle makes
(tie.Need-x and the goals that have such a type), stay. A step of the generated proof that is named after a function has the function's spelling.
Strings stay. It prints the names that fall together with a function of src/.
"""

import collections
import os
import re

WORD = re.compile(r"[^\W\d]['\w]*(?:-['\w]+)+")
SIGNATURE = re.compile(
    r"^\s*(?:pub |abbrev |unfoldable |private |record |data |module )*([^\W\d][\w'-]*)\s*(?:\{.*?\}\s*|\(.*?\)\s*)*:(?!:)\s*(.*)"
)
IMPORT = re.compile(r"^\s*(?:ghost )?use ([\w.·']+?)\.\{(.*?)\}", re.M | re.S)
MADE = re.compile(r"tie\.(Need|InvT|MeasureT|invariant|decreases)")
# types, which are in camel case
TYPES = {"Puts-piece": "PutsPiece"}


def files():
    for folder, dirs, names in os.walk("crates"):
        dirs[:] = sorted(d for d in dirs if d != "out")
        for name in sorted(names):
            if name.endswith((".antt", ".rt")):
                yield os.path.join(folder, name)


def main():
    crates = set(os.listdir("crates"))
    defined, made, functions, kit = set(), set(), set(), set()
    texts = {}
    for path in files():
        with open(path, encoding="utf-8") as f:
            text = texts[path] = f.read()
        if path.endswith(".rt"):
            functions |= set(re.findall(r"\bfn (\w+)", text))
        else:
            for line in text.split("\n"):
                m = SIGNATURE.match(line)
                if m and "-" in m.group(1):
                    (made if MADE.match(m.group(2)) else defined).add(m.group(1))
        for m in IMPORT.finditer(text):
            of = m.group(1).split(".")
            if of[0] != "Rattle" or of[1] not in crates:
                kit |= {n.strip().split(" as ")[0] for n in m.group(2).split(",")}
    # a name that std shows without an import
    defined -= kit
    made_alone = made - defined
    for path, text in texts.items():
        proof = path.endswith("/Proof.antt")

        def turn(m):
            word = m.group(0)
            snake = word.replace("-", "_")
            if word in TYPES:
                return TYPES[word]
            before = text[: m.start()]
            if before.endswith(("Need-", "tie.")):
                return word
            if proof and word in made:
                # the goal's own name at a line's start, in the list at the end, or a step's field
                return snake if before.endswith(".") and snake in functions else word
            if word in defined and word not in made_alone:
                return snake
            if proof and snake in functions:
                return snake
            return word

        if path.endswith(".rt"):
            parts = re.split(r'("(?:[^"\\]|\\.)*")', text)
            base = text
            out = []
            for part in parts:
                if part.startswith('"'):
                    out.append(part)
                else:
                    text = part
                    out.append(WORD.sub(turn, part))
            new = "".join(out)
            text = base
        else:
            new = WORD.sub(turn, text)
        if new != texts[path]:
            with open(path, "w", encoding="utf-8") as f:
                f.write(new)
    for name in sorted(defined):
        if name.replace("-", "_") in functions:
            print("falls together with a function:", name.replace("-", "_"))


if __name__ == "__main__":
    main()
