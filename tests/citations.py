#!/usr/bin/env python3
"""Each name in backquotes of README, docs/REVIEW.md and docs/PROVING.md exists: a crate, a file, a function, type or constant of the code, a
definition or theorem of specs/ or proofs/ (or a field of one), a must-fail edit, a file or name of host/. A `crate::name` is of that crate's code.
In a longer text in backquotes each name with a hyphen or a capital in front does. Each must-fail edit is named in docs/REVIEW.md, as one of its crate:
"of CRATE `x`, `y`", "CRATE: `x`", "`x`, `y` of CRATE" and "`x` (CRATE)" say which; a name that only one crate has needs none. The same is asked of
the section of docs/DECISIONS.md about edits. The last line is 'N passed, M failed'."""
import os
import re
import sys

PAGES = ["README.md", "docs/REVIEW.md", "docs/PROVING.md"]
# Words of the languages and tools, and placeholders, that nothing in the repository declares.
WORDS = """rt rattle cargo rustc gcc rpcgen valgrind omega search simp rw cc refl subst ap needs arith tests omega unfolding unfoldable abbrev pub
requires ensures returns let in ghost old new old: new: u8 u32 u64 usize bool true false cond first if match else while & &mut _ . .. ? × ≢ ≡ Lts tie c
NAME FN N M Err Ok main.rs lib.rs --ignored target/ target/inc RT_JOBS drop replicate take getD length set .before .kept .last .inv .given .ensures
impl self not return cargo-web target/staticlib/libexports.a target/staticlib/libexports_member.a must-fail
c.args.x c.if-x-lt5.true c.in-5.is c.in-V.is c.in-V c.loop-i.invariant.field target/rt-ci.log""".split()


def text(path):
    with open(path, encoding="utf-8", errors="replace") as f:
        return f.read()


def files(top, ends):
    for folder, _, names in os.walk(top):
        if "/target" in folder:
            continue
        for name in names:
            if name.endswith(ends):
                yield os.path.join(folder, name)


names, code, edits = set(WORDS), {}, {}
for crate in os.listdir("crates"):
    names.add(crate)
    code[crate] = set()
for path in files("crates", (".rt",)):
    crate = path.split("/")[1]
    body = text(path)
    found = set(re.findall(r"\b(?:fn|struct|enum|const|mod)\s+(\w+)", body))
    found |= set(re.findall(r"^\s*(?:pub )?(\w+):", body, re.M)) | set(re.findall(r"^\s+(\w+)(?:\(.*\))?(?: \{)?,?$", body, re.M))
    found.add(os.path.basename(path)[:-3])
    code[crate] |= found
    names |= found
for path in files("crates", (".antt",)):
    body = text(path)
    names.add(os.path.basename(path)[:-5])
    names |= set(re.findall(r"^\s*(?:(?:abbrev|unfoldable) )?(?:pub )?(?:(?:record|data|module) )?([^\s(){}:]+)(?: \{[^}]*\}| \([^)]*\))* :", body, re.M))
for path in files("crates", (".edit",)):
    edits.setdefault(os.path.basename(path)[:-5], set()).add(path.split("/")[1])
names |= set(edits)
for path in files("host", (".rs", ".toml", ".h")):
    body = text(path)
    names.add(os.path.basename(path))
    names |= set(re.findall(r"\b(?:fn|struct|enum|const|mod|type|trait|feature|name =)\s+\"?([\w-]+)", body)) | set(re.findall(r"\bKALEBASIN_\w+|\bkalebasin_\w+", body))
for top in ("tests", "xdr", "docs", ".ci"):
    for path in files(top, ("",)):
        names.add(os.path.basename(path))
        names.add(os.path.basename(path).rsplit(".", 1)[0])


def known(token, crates):
    if token in names or not re.search(r"\w", token):
        return True
    if "::" in token:
        parts = token.split("::")
        last = parts[-1].rstrip("()")
        if parts[0] in code:
            return last in code[parts[0]] or parts[0] in edits.get(last, ())
        return last in names
    if "/" in token or re.search(r"\.(rt|antt|md|sh|rs|x|h|lua|edit|txt|toml|py)$", token):
        path = token.rstrip("/")
        if re.search(r"\b(NAME|FN|F|X|LABEL|FILE)\b", path):
            return True
        tries = [path, "crates/" + path, "host/" + path, "docs/" + path]
        tries += [t + ".antt" for t in tries] + [f"crates/{c}/{path}" for c in crates] + [f"crates/{c}/{path}.antt" for c in crates]
        if any(os.path.exists(t) for t in tries):
            return True
        return any(p.endswith("/" + path) for p in everything)
    if re.search(r"[\s(),|<>=*{}\[\]!\"';+&→≤∷]", token):
        inside = re.findall(r"(?<![\w.:-])[A-Za-z][\w-]*", token)
        return all(name in names for name in inside if "-" in name or re.match(r"[A-Z][a-z]", name))
    if "." in token:
        return all(part in names for part in token.split(".") if part)
    return False


everything = [os.path.join(d, f) for d, _, fs in os.walk(".") if "/target" not in d and "/.git" not in d for f in fs]
passed = failed = 0
cited = set()


def check(holds, complaint):
    global passed, failed
    if holds:
        passed += 1
    else:
        failed += 1
        print(complaint)


def crate_of(line, start, end):
    """The crate that a list of names, line[start:end], is said to be of; None where the line doesn't say."""
    before = re.search(r"\bof (\w+) $|(\w+)`?: $", line[:start])
    after = re.match(r" of (\w+)| \((\w+)[,)]", line[end:])
    told = [name for found in (before, after) if found for name in found.groups() if name in code]
    return told[0] if told else None


def edits_of_line(page, number, line):
    for names_in in re.finditer(r"`[^`]+`(?:, `[^`]+`)*", line):
        crate = crate_of(line, *names_in.span())
        for edit in re.findall(r"`([^`]+)`", names_in[0]):
            owners = edits.get(edit)
            if not owners:
                continue
            if crate:
                check(crate in owners, f"{page}:{number}: {crate} has no edit `{edit}`; {', '.join(sorted(owners))} has one")
            else:
                check(len(owners) == 1, f"{page}:{number}: `{edit}` is an edit of {', '.join(sorted(owners))}: say which")
            if page == "docs/REVIEW.md":
                cited.update((c, edit) for c in ([crate] if crate else owners if len(owners) == 1 else []))


for page in PAGES + ["docs/DECISIONS.md"]:
    body = re.sub(r"^    .*$", "", text(page), flags=re.M)
    about_edits = page != "docs/DECISIONS.md"
    for number, line in enumerate(body.split("\n"), 1):
        if page == "docs/DECISIONS.md" and line.startswith("## "):
            about_edits = line.startswith("## Must-fail edits")
        if not about_edits:
            continue
        for token in re.findall(r"`([^`]+)`", line):
            check(known(token, code), f"{page}:{number}: `{token}` isn't there")
        edits_of_line(page, number, line)
for edit, owners in sorted(edits.items()):
    for crate in sorted(owners):
        check((crate, edit) in cited, f"docs/REVIEW.md names no edit `{edit}` of {crate}")
print(f"{passed} passed, {failed} failed")
sys.exit(1 if failed else 0)
