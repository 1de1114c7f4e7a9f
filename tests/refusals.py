#!/usr/bin/env python3
"""Each must-fail edit is refused at a fact that no longer holds.

    tests/refusals.py [--log FILE]               of each edit, the line that `rt ci` or `rt must-fail` said (FILE is target/rt-ci.log)
    tests/refusals.py --whole [--jobs N] [NAME..]  tries each edit (of these crates) anew, and reads the whole log: target/must-fail/CRATE/EDIT.log

rt keeps no log of an edit. It says a line, with the first error that isn't of a proof file that names what the edit took away: that line has to stand for a
fact. With --whole the log must have an error that stands for a fact, and none that only says that the proof no longer fits the code's shape: such an edit
would show nothing. That takes as long as rt's own try of the edits, so it isn't in the gate. The last line is 'N passed, M failed'."""
import argparse
import glob
import os
import re
import sys
import threading

sys.dont_write_bytecode = True
import trying

PART = 8  # edits that one worker takes at a time
LINE = re.compile(r"rt: must-fail (\w+/[^/ ]+)\.edit: (.*)")


def edits(names):
    found = sorted(it[len("crates/"):-len(".edit")].replace("/must-fail/", "/") for it in glob.glob("crates/*/must-fail/*.edit"))
    return [it for it in found if not names or it.split("/")[0] in names]


def said_of(line):
    """What is wrong with a refusal, by rt's line of it; None where it stands for a fact."""
    refused = re.fullmatch(r"refused, as it must be: (.*)", line)
    if refused:
        return "was refused for its shape, not at a fact" if trying.SHAPE.search(refused[1]) else None
    if line == "refused, as it must be":
        # No error has a place, as each that speaks of the shape has: what is left is a goal of a function without a proof file, which the search left open.
        return None
    if line.startswith("refused, as it must be (only because a proof file names"):
        return "was refused for its shape, not at a fact"
    return "was refused at no fact" if line.startswith("refused") else "is a bad edit" if line.startswith("BAD EDIT") else "wasn't refused"


def by_lines(log, names):
    lines = {}
    if os.path.exists(log):
        with open(log, encoding="utf-8", errors="replace") as file:
            lines = {found[1]: found[2] for it in file for found in [LINE.match(it.rstrip("\n"))] if found}
    return {edit: said_of(lines[edit]) if edit in lines else "isn't in the log of rt" for edit in edits(names)}


def edited(crate, edit):
    """The texts that an edit makes, by the files' places; None where it can't be applied."""
    texts, path, old = {}, None, None
    with open(f"crates/{crate}/must-fail/{edit}.edit", encoding="utf-8") as file:
        lines = file.read().split("\n")
    for line in lines:
        if line.startswith("file: "):
            path = f"crates/{crate}/{line[6:].strip()}"
        elif line.startswith("old: "):
            old = line[5:]
        elif line.startswith("new:"):
            if path not in texts:
                with open(path, encoding="utf-8") as file:
                    texts[path] = file.read()
            if texts[path].count(old) != 1:
                return None
            texts[path] = texts[path].replace(old, line[4:].removeprefix(" "))
    return texts


def whole(names, jobs):
    found, lock = {}, threading.Lock()
    crates = {}
    for it in edits(names):
        crates.setdefault(it.split("/")[0], []).append(it.split("/")[1])
    # a large crate's edits go to several workers
    queue = [(crate, own[i : i + PART]) for crate, own in crates.items() for i in range(0, len(own), PART)][::-1]

    def worker():
        tree = trying.Tree()
        try:
            while True:
                with lock:
                    if not queue:
                        return
                    crate, own = queue.pop()
                for edit in own:
                    texts = edited(crate, edit)
                    log, judged = tree.tried(crate, texts) if texts else ([], False)
                    os.makedirs(f"target/must-fail/{crate}", exist_ok=True)
                    with open(f"target/must-fail/{crate}/{edit}.log", "w", encoding="utf-8") as file:
                        file.write("\n".join(log or []))
                    kind = "wasn't refused" if log is None else trying.kind_of(trying.errors_in(log)) if judged else "came to no verdict"
                    kind = kind if texts else "can't be applied"
                    wrong = {"fact": None, "shape": "was refused for its shape, not at a fact", "untold": "was refused at no fact"}.get(kind, kind)
                    with lock:
                        found[f"{crate}/{edit}"] = wrong
        finally:
            tree.gone()

    threads = [threading.Thread(target=worker) for _ in range(jobs)]
    for it in threads:
        it.start()
    for it in threads:
        it.join()
    return found


def main():
    ask = argparse.ArgumentParser(description=__doc__, formatter_class=argparse.RawDescriptionHelpFormatter)
    ask.add_argument("names", nargs="*")
    ask.add_argument("--log", default="target/rt-ci.log")
    ask.add_argument("--whole", action="store_true")
    ask.add_argument("--jobs", type=int, default=2)
    asked = ask.parse_args()
    os.chdir(os.path.join(os.path.dirname(os.path.abspath(__file__)), ".."))
    found = whole(asked.names, asked.jobs) if asked.whole else by_lines(asked.log, asked.names)
    for edit, wrong in sorted(found.items()):
        if wrong:
            crate, name = edit.split("/")
            print(f"refusals: crates/{crate}/must-fail/{name}.edit {wrong}")
    failed = sum(1 for it in found.values() if it)
    print(f"{len(found) - failed} passed, {failed} failed")
    return 1 if failed else 0


if __name__ == "__main__":
    sys.exit(main())
