#!/usr/bin/env python3
"""Tries every small change of the library crates' code and says what becomes of it. Not in the gate: it takes an hour or more.

    tests/sweep.py [--jobs N] [--crates A,B] [--minutes M] [--list] [--out FILE]

A change is of one comparison, operator, number (those in brackets and of an enum's variants too) or Boolean, or exchanges two arguments of a call or the
values of two fields; whether they are of one type is left to the compiler. A variant's number becomes one that no other has, or changes places with the next.
Contracts, comments, signatures and imports stay. It is tried in a copy of the repository, in its crate, by `rt check` over what earlier checks kept. Changes
of different functions of a crate are tried together: a function's proof rests on the contracts of what it calls and not on their bodies, so each is refused
or proved by itself. A change of a constant, or of a variant's number, is tried alone, in its crate; where that is still proved, a constant's new value stands
for its name in the functions of one crate after another that use it. What is refused nowhere is proved again from nothing, and then in all crates.
FILE (target/sweep.tsv) has a line for each change tried: what became of it, the crate and function or constant, the place, the change.
    fact     refused, at a fact that no longer holds
    shape    refused, but only because the proof no longer fits the code's shape
    untold   not proved: the prover could not tell
    build    refused by the language: types, or names
    above    a constant: its own crate is still proved, and a crate that uses it is refused
    proved   everything is still proved: equivalent, or a hole in the promises
A run goes on where the last one with the same FILE stopped."""
import argparse
import os
import re
import shutil
import subprocess
import sys
import threading
import time
from collections import namedtuple

sys.dont_write_bytecode = True
from trying import Tree, errors_in, kind_of

OTHERS = {
    "<": ["<=", ">"], "<=": ["<", ">="], ">": [">=", "<"], ">=": [">", "<="], "==": ["!="], "!=": ["=="],
    "+": ["-"], "-": ["+"], "*": ["+"], "/": ["*"], "%": ["/"], "+=": ["-="], "-=": ["+="],
    "&&": ["||"], "||": ["&&"], "&": ["|"], "|": ["&"], "true": ["false"], "false": ["true"],
}
TOKEN = re.compile(r"//[^\n]*|b?\"(?:[^\"\\]|\\.)*\"|b'(?:[^'\\]|\\.)'|'\w+(?!')|\d\w*|\w+|::|=>|->|\.\.=|\.\.|<=|>=|==|!=|&&|\|\||\+=|-=|\S")
BEFORE_OPERAND = {"return", "in", "if", "while", "match", "let", "mut", "as", "else", "=>"}
Token = namedtuple("Token", "text start end")
# edits: (start, end, new text) of the file, not overlapping
Change = namedtuple("Change", "crate unit path shown edits")


def tokens_of(text):
    return [Token(m.group(), m.start(), m.end()) for m in TOKEN.finditer(text) if not m.group().startswith("//")]


def closing(tokens, i):
    """The place of the bracket that closes the one at i."""
    depth = 0
    for j in range(i, len(tokens)):
        depth += tokens[j].text in "([{"
        depth -= tokens[j].text in ")]}"
        if depth == 0:
            return j
    raise ValueError("a bracket without its other half")


def units_of(tokens):
    """(name, first token, last token) of each function's body, each constant's value and each number of an enum's variant."""
    i = 0
    while i < len(tokens):
        word = tokens[i].text
        if word == "const":
            end = next(j for j in range(i, len(tokens)) if tokens[j].text == ";")
            value = next(j for j in range(i, end) if tokens[j].text == "=")
            yield f"const {tokens[i + 1].text}", value + 1, end
            i = end
        elif word == "fn":
            name = tokens[i + 1].text
            j = closing(tokens, i + 2)
            while tokens[j].text not in ("{", ";"):
                if tokens[j].text in ("requires", "ensures", "ghost"):
                    while tokens[j].text != "{":
                        j += 1
                if tokens[j].text in "([{":
                    j = closing(tokens, j)
                j += 1
            # a trait's function may have none
            end = closing(tokens, j)
            if tokens[j].text == "{":
                yield name, j, end
            i = end
        elif word in ("struct", "enum", "use", "type"):
            name = tokens[i + 1].text
            while tokens[i].text not in ("{", ";", "("):
                i += 1
            if word == "enum":
                for first, last in items(tokens, i, closing(tokens, i)):
                    if last - first > 2 and tokens[last - 2].text == "=":
                        yield f"{name}::{tokens[last - 3].text}", last - 1, last
            if tokens[i].text != ";":
                i = closing(tokens, i)
        i += 1


def is_constant(unit):
    """Whether it is a constant's value or the number of a variant."""
    return unit.startswith("const ") or "::" in unit


def items(tokens, first, last):
    """The parts of a bracket at its commas, as (first token, last token + 1)."""
    parts, begun, j = [], first + 1, first + 1
    while j < last:
        if tokens[j].text in "([{":
            j = closing(tokens, j)
        elif tokens[j].text == ",":
            parts.append((begun, j))
            begun = j + 1
        j += 1
    if begun < last:
        parts.append((begun, last))
    return parts


def changes_in(text, tokens, first, last):
    """(what is shown, edits) of each change between two tokens."""
    def said(a, b):
        return " ".join(text[tokens[a].start:tokens[b - 1].end].split())

    for i in range(first, last):
        t, before = tokens[i], tokens[i - 1].text
        binary = bool(re.match(r"[\w)\]\"']", before[-1])) and before not in BEFORE_OPERAND
        if t.text[0].isdigit() and before != ".":
            digits, tail = re.match(r"([\d_]+)(.*)", t.text).groups()
            value = int(digits.replace("_", ""))
            news = [f"{value + 1}{tail}"] + ([f"{value - 1}{tail}"] if value else [])
        elif t.text in ("true", "false") or t.text in OTHERS and binary:
            news = OTHERS[t.text]
        elif t.text == "!" and not binary:
            news = [""]
        else:
            news = []
        for new in news:
            yield f"{t.text} -> {new or 'nothing'}", [(t.start, t.end, new)]
        if t.text == "(" and re.match(r"\w", before) and before not in BEFORE_OPERAND:
            parts = [(a, b, "") for a, b in items(tokens, i, closing(tokens, i))]
        elif t.text == "{" and re.match(r"[A-Z]", before):
            parts = []
            for a, b in items(tokens, i, closing(tokens, i)):
                if b - a == 1:
                    parts.append((a, b, f"{tokens[a].text}: "))
                elif tokens[a + 1].text == ":":
                    parts.append((a + 2, b, ""))
        else:
            continue
        for j, (a, b, name) in enumerate(parts):
            for c, d, other in parts[j + 1:]:
                if said(a, b) != said(c, d):
                    yield f"{said(a, b)} <-> {said(c, d)}", [
                        (tokens[a].start, tokens[b - 1].end, name + text[tokens[c].start:tokens[d - 1].end]),
                        (tokens[c].start, tokens[d - 1].end, other + text[tokens[a].start:tokens[b - 1].end]),
                    ]


def numbers_changed(variants):
    """Of an enum's variants, each a unit with a token: (unit, what is shown, edits). Each gets a number that none has, and changes places with the next."""
    free = max(int(t.text) for _, t in variants) + 1
    for k, (name, t) in enumerate(variants):
        yield name, f"{t.text} -> {free}", [(t.start, t.end, str(free))]
        for _, other in variants[k + 1:k + 2]:
            yield name, f"{t.text} <-> {other.text}", [(t.start, t.end, other.text), (other.start, other.end, t.text)]


def changes_of(crate, path):
    text = open(path, encoding="utf-8").read()
    tokens = tokens_of(text)
    enums = {}
    for name, first, last in units_of(tokens):
        if "::" in name:
            enums.setdefault(name.split("::")[0], []).append((name, tokens[first]))
            continue
        for shown, edits in changes_in(text, tokens, first, last):
            yield Change(crate, name, path, shown, edits)
    for variants in enums.values():
        for name, shown, edits in numbers_changed(variants):
            yield Change(crate, name, path, shown, edits)


def place(text, at):
    line, column = text.count("\n", 0, at) + 1, at - text.rfind("\n", 0, at)
    return f"{line}:{column}"


def key(change):
    text = open(change.path, encoding="utf-8").read()
    places = "-".join(place(text, start) for start, _, _ in change.edits)
    return f"{change.crate}\t{change.unit}\t{change.path}:{places}\t{change.shown}"


def sources():
    """The source files of each library crate, in the order of crates.txt."""
    found = {}
    for line in open("crates.txt", encoding="utf-8"):
        name = (line.split("#")[0].split(":")[0].split() or [""])[0]
        if name and os.path.exists(f"crates/{name}/src/lib.rt"):
            found[name] = [f"crates/{name}/src/{f}" for f in sorted(os.listdir(f"crates/{name}/src"))]
    return found


def changed(path, changes):
    """A file's text with the changes in it."""
    text = open(path, encoding="utf-8").read()
    for start, end, new in sorted((e for c in changes if c.path == path for e in c.edits), reverse=True):
        text = text[:start] + new + text[end:]
    return text


def constants(files, changes=()):
    """The value of each constant of the library crates, by crate and name: a number, or one in a type of its own, as `ids::Slot(7)`, in which it stands
    for the name anywhere. Of a struct there is none."""
    values = {}
    for crate, paths in files.items():
        for path in paths:
            text = changed(path, changes)
            tokens = tokens_of(text)
            for name, first, last in units_of(tokens):
                if name.startswith("const "):
                    # a name is of its own crate, or there is one constant of that name
                    words = [tokens[i].text for i in range(first, last) if "::" not in (tokens[i].text, tokens[i + 1].text)]
                    known = {n: v for (c, n), v in values.items()} | {n: v for (c, n), v in values.items() if c == crate}
                    typed = re.fullmatch(r"(Round|Member|Slot) \((.*)\)", " ".join(words))
                    if "{" not in words:
                        number = eval(" ".join(str(known.get(w, w)) for w in (typed.group(2).split() if typed else words)))
                        values[crate, name[6:]] = f"ids::{typed.group(1)}({number})" if typed else number
    return values


def proved_anew(tree, crate, texts):
    """From nothing: the log of the crate where it is refused, None where all crates are proved, else an empty one."""
    own = {path: open(path, encoding="utf-8").read() for path in texts}
    tree.put(texts)
    shutil.rmtree(f"{tree.folder}/crates/{crate}/out", ignore_errors=True)
    status, log = tree.run("verdict", "--jobs", "1", crate=crate)
    if status == 0:
        log = None if tree.run("all", "check", "--jobs", "1")[0] == 0 else []
    tree.put(own)
    return log


def alone(tree, change, files):
    """What becomes of a change by itself."""
    texts = {change.path: changed(change.path, [change])}
    log, judged = tree.tried(change.crate, texts)
    if log is not None:
        return kind_of(errors_in(log)) if judged else "build"
    if change.unit.startswith("const "):
        before, after = constants(files), constants(files, [change])
        for crate, paths in files.items():
            texts_there = {path: with_values(crate, path, {k: v for k, v in after.items() if before[k] != v}) for path in paths}
            if crate != change.crate and any(t != open(p, encoding="utf-8").read() for p, t in texts_there.items()):
                log, judged = tree.tried(crate, texts_there)
                if log is not None and judged and kind_of(errors_in(log)) == "fact":
                    return "above"
    log = proved_anew(tree, change.crate, texts)
    return "proved" if log is None else kind_of(errors_in(log)) if log else "above"


def with_values(crate, path, values):
    """A file's text in which these constants of other crates are numbers, in functions."""
    text = open(path, encoding="utf-8").read()
    tokens = tokens_of(text)
    edits = []
    for name, first, last in units_of(tokens):
        for i in range(first, last):
            for (owner, constant), value in values.items():
                if tokens[i].text != constant or owner == crate or tokens[i - 1].text == ".":
                    continue
                start = tokens[i - 2].start if tokens[i - 1].text == "::" else tokens[i].start
                if tokens[i - 1].text == "::" and tokens[i - 2].text != owner:
                    continue
                edits.append((start, tokens[i].end, str(value)))
    for start, end, new in sorted(edits, reverse=True):
        text = text[:start] + new + text[end:]
    return text


def own_lines(path, text, change):
    """The lines of the changed text that are of the change's function."""
    tokens = tokens_of(text)
    return [range(text.count("\n", 0, tokens[a].start) + 1, text.count("\n", 0, tokens[b].end) + 2) for name, a, b in units_of(tokens) if name == change.unit]


def own_errors(log, change):
    """The errors that are of the change's function; none where it isn't refused for itself."""
    module = os.path.basename(change.path)[:-3]
    place = re.compile(rf"(\./)?proofs/{'' if module == 'lib' else module + '/'}(\+\w+)*\+?{change.unit}(\+\w+)*/")
    path = re.escape(f"{change.crate}::{'' if module == 'lib' else module + '::'}{change.unit}")
    return [it for it in errors_in(log) if place.match(it) or re.match(rf"fn {path}: no proof: ", it)]


def together(tree, changes):
    """What becomes of changes of different functions of a crate; None for one that has to be tried alone."""
    found, left = {}, list(changes)
    while left:
        texts = {path: changed(path, left) for path in {c.path for c in left}}
        log, judged = tree.tried(left[0].crate, texts)
        if log is None:
            break
        if judged:
            for c in left:
                own = own_errors(log, c)
                found[key(c)] = kind_of(own) if own else None
            break
        places = [(f"crates/{left[0].crate}/{m.group(1)}", int(m.group(2))) for l in log for m in [re.match(r"(src/\w+\.rt):(\d+):\d+: error", l)] if m]
        refused = [c for c in left if any(p == c.path and n in lines for p, n in places for lines in own_lines(p, texts[c.path], c))]
        if not refused:
            break
        for c in refused:
            found[key(c)] = "build"
        left = [c for c in left if c not in refused]
    return [found.get(key(c)) for c in changes]


def main():
    ask = argparse.ArgumentParser(description=__doc__, formatter_class=argparse.RawDescriptionHelpFormatter)
    ask.add_argument("--jobs", type=int, default=2)
    ask.add_argument("--crates", default="")
    ask.add_argument("--minutes", type=float, default=1e9)
    ask.add_argument("--list", action="store_true")
    ask.add_argument("--out", default="target/sweep.tsv")
    asked = ask.parse_args()
    os.chdir(os.path.join(os.path.dirname(os.path.abspath(__file__)), ".."))
    files = sources()
    work = {}
    for crate, paths in files.items():
        if not asked.crates or crate in asked.crates.split(","):
            work[crate] = [c for path in paths for c in changes_of(crate, path)]
    if asked.list:
        print("\n".join(key(c) for changes in work.values() for c in changes))
        return 0
    os.makedirs(os.path.dirname(asked.out) or ".", exist_ok=True)
    done = set()
    if os.path.exists(asked.out):
        done = {l.rstrip("\n").split("\t", 1)[1] for l in open(asked.out, encoding="utf-8")}
    work = {crate: [c for c in changes if key(c) not in done] for crate, changes in work.items()}
    queue = sorted((c for c in work if work[c]), key=lambda c: -len(work[c]))
    left = sum(len(changes) for changes in work.values())
    print(f"{len(done)} changes tried before, {left} to try", flush=True)
    subprocess.run(["rt", "all", "check"], check=True, stdout=subprocess.DEVNULL)
    lock, began, counts = threading.Lock(), time.time(), {}
    total = left

    def tell(changes, whats):
        nonlocal left
        with lock:
            with open(asked.out, "a", encoding="utf-8") as out:
                for c, what in zip(changes, whats):
                    out.write(f"{what}\t{key(c)}\n")
                    counts[what] = counts.get(what, 0) + 1
                    left -= 1
            summary = ", ".join(f"{v} {k}" for k, v in sorted(counts.items()))
            rest = (time.time() - began) / (total - left) * left / 60
            print(f"{total - left} tried ({summary}), {left} left, about {rest:.0f} min: {changes[-1].crate}", flush=True)

    def worker():
        tree = Tree()
        while True:
            with lock:
                if not queue:
                    break
                crate = queue.pop(0)
            waiting = {}
            for c in work[crate]:
                waiting.setdefault((c.path, c.unit), []).append(c)
            constant = [c for unit, changes in waiting.items() if is_constant(unit[1]) for c in changes]
            rounds = [changes for unit, changes in waiting.items() if not is_constant(unit[1])]
            while (any(rounds) or constant) and time.time() - began < asked.minutes * 60:
                group = [changes.pop(0) for changes in rounds if changes]
                if group:
                    whats = together(tree, group)
                    sure = [(c, w) for c, w in zip(group, whats) if w]
                    if sure:
                        tell([c for c, w in sure], [w for c, w in sure])
                    group = [c for c, w in zip(group, whats) if not w]
                else:
                    group = [constant.pop(0)]
                for c in group:
                    tell([c], [alone(tree, c, files)])
        tree.gone()

    threads = [threading.Thread(target=worker) for _ in range(asked.jobs)]
    for t in threads:
        t.start()
    for t in threads:
        t.join()
    return 0


if __name__ == "__main__":
    sys.exit(main())
