"""For the tests that try wrong code: a copy of the repository outside of it, in which a crate's files are changed and checked, and what a log of rt
says of a refusal."""
import os
import re
import shutil
import subprocess
import tempfile

# What an error says where the proof no longer fits the code's shape: a goal, a field or a name that isn't there, text that can't be read; a place or a value
# of a plain type where another is wanted; a definition that has no type.
SHAPE = re.compile(
    r"that can be named from here|has no field `|is not in scope|is no name|does not define it|[Pp]arse error|operand is missing|expected the end|cannot continue"
    r"|(expected|has) type `[^` ]*Lts[^` ]*\.[A-Z]"
    r"|((expected|has) type|computed as far as they go, the two types [a-z ]*where one has) `\(?([^` ]*\.)?(ℕ|Bool|List [^`]*)`"
    r"|^(\./)?specs/\S+: error: "
    r"| error: `[^`]*_spec`"
)
# An error of a proof, a goal that isn't proved, a function whose measure or answers aren't found. What rests on a refused part says nothing more.
ERROR = re.compile(r"\S+:\d+:\d+: error|note: \S+:\d+:\d+: it is not proved that |fn \S+: no proof: expected ")


def errors_in(log):
    """The errors of a log, each with the indented lines that it goes on in, but for those that only list names."""
    found, own = [], False
    for line in log:
        if line.startswith("  "):
            if own and not re.match(r"  (here |the fields that can be named)", line):
                found[-1] += line
            continue
        own = bool(ERROR.match(line)) and "was not admitted" not in line
        if own:
            found.append(line)
    return found


def kind_of(errors):
    """fact: each error stands for a fact that no longer holds. shape: one only says that the proof no longer fits the code's shape. untold: there is none."""
    return "untold" if not errors else "shape" if any(SHAPE.search(it) for it in errors) else "fact"


class Tree:
    """A copy of the crates. What rt proved of them in the repository itself is where its checks begin."""

    def __init__(self):
        self.folder = tempfile.mkdtemp(prefix="kalebasin-")
        shutil.copy("crates.txt", self.folder)
        shutil.copytree("crates", f"{self.folder}/crates", ignore=shutil.ignore_patterns("out", "must-fail"))

    def put(self, texts):
        for path, text in texts.items():
            with open(f"{self.folder}/{path}", "w", encoding="utf-8") as file:
                file.write(text)

    def run(self, *words, crate=None):
        """A command of rt, at the top or in a crate's folder: its status, and what it says, by lines."""
        got = subprocess.run(["rt", *words], cwd=f"{self.folder}/crates/{crate}" if crate else self.folder, stdin=subprocess.DEVNULL, capture_output=True)
        return got.returncode, (got.stdout + got.stderr).decode("utf-8", "replace").split("\n")

    def tried(self, crate, texts):
        """The log of a check of the crate with these texts, None where it is proved; and whether the check got as far as the proofs."""
        own = {}
        for path in texts:
            with open(path, encoding="utf-8") as file:
                own[path] = file.read()
        self.put(texts)
        status, log = self.run("check", "--jobs", "1", crate=crate)
        self.put(own)
        return None if status == 0 else log, any(it.startswith("logic=") for it in log)

    def gone(self):
        shutil.rmtree(self.folder, ignore_errors=True)
