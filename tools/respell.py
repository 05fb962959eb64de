#!/usr/bin/env python3
"""Brings the repository's own names in contracts, specs and proofs to Rattle's spelling: words in snake case.

usage: tools/respell.py before    at the top, before the kit's port.py: frees the one name that port.py takes for a newer spelling
       tools/respell.py after     at the top, once, after it

A name of ours in camel case, or joined by dashes, gets underscores; a part with a capital keeps its dash, since it names a type or a
fact. Names of a library, of the sources and of what the check generates keep their spelling. Prints the names that fall together.
"""

import os
import re
import subprocess
import sys

TOKEN = re.compile(r"[^\s(){}\[\];,.:«»\"]+")
CAMEL = re.compile(r"^[a-z][a-z0-9'₀-₉]*[A-Z]|^[a-z][a-z0-9_]*[a-z0-9][A-Z][a-z]")
DECLARED = re.compile(r"^\s*(?:abbrev |unfoldable |mutual )?(?:pub )?(?:abbrev |unfoldable )?([^\s(){}=:]+(?: [^\s(){}=:]+)*) :(?: |$)")
IMPORT = re.compile(r"\buse ([^\s;{]+)(?:\{([^}]*)\})?")

# Fields of different records.
FIELDS = {"term_rows"}
# A library's lemma `take_all` stands beside it.
BY_HAND = {"takeAll": "take_every", "getD-cells": "get_or_cells", "getD-shows": "get_or_shows"}


def files(*suffixes):
    out = subprocess.run(["git", "ls-files", "-zco", "--exclude-standard", "--", "crates"], capture_output=True, check=True).stdout.decode()
    return [f for f in out.split("\0") if f.endswith(suffixes) and os.path.exists(f)]


def read(path):
    with open(path, encoding="utf-8") as f:
        return f.read()


def crates():
    return {c for c in os.listdir("crates") if os.path.isdir(os.path.join("crates", c, "src"))}


def is_ours(path, own):
    parts = path.rstrip(".").split(".")
    return parts[0] == "Rattle" and len(parts) > 2 and parts[1] in own


def is_generated(path):
    return re.search(r"\.(Statement|Tie|Goals|Code|contracts|declared|Symbol|Met)\b|\.proofs\..*\.Given\b", path)


def spelled(name):
    parts = name.split("-")
    out = parts[0]
    for a, b in zip(parts, parts[1:]):
        plain = re.fullmatch(r"[a-z0-9_'₀-₉↓↑A-Z]*", a + b) and not (a[:1].isupper() and not a.isupper()) and not (b[:1].isupper() and not b.isupper())
        out += ("_" if plain else "-") + b
    if CAMEL.match(out):
        out = re.sub(r"(?<=[a-z0-9])([A-Z])(?=[a-z]|$|_|')", lambda m: "_" + m.group(1).lower(), out)
        out = re.sub(r"(?<=[a-z0-9])([A-Z]+)", lambda m: "_" + m.group(1).lower(), out)
    return out.replace("′", "'")


def before():
    path = "crates/rounds/proofs/take/Proof.antt"
    text = read(path)
    with open(path, "w", encoding="utf-8") as f:
        f.write("\n".join(l if l.startswith("--") else re.sub(r"(?<![\w.·-])take_of(?=[.\s]|$)", "taking", l) for l in text.split("\n")))


def after():
    own = crates()
    library, declared, seen = set(), set(), set()
    antt = files(".antt")
    for f in antt:
        for line in read(f).split("\n"):
            code = line.split("--")[0]
            seen.update(TOKEN.findall(code))
            m = IMPORT.search(code)
            if m and m.group(2) and (not is_ours(m.group(1), own) or is_generated(m.group(1))):
                for it in m.group(2).split(","):
                    library.add(it.split(" as ")[0].strip())
            elif not f.endswith("/Proof.antt"):
                d = DECLARED.match(code)
                if d:
                    declared.update(n for n in d.group(1).split() if n not in ("infix", "infixr", "infixl"))
    camel = {t for t in seen if CAMEL.match(t) and t not in library}
    dashed = {t for t in declared if "-" in t.strip("-") and not re.search("[◌]", t) and t not in library}
    names = {t: spelled(t) for t in camel | dashed if spelled(t) != t}
    heads = {}
    for f in antt:
        for line in read(f).split("\n"):
            for word in re.findall(r"(?<![.\w'·-])[^\s(){}\[\];,.:«»\"]+", IMPORT.sub(lambda m: " " + (m.group(2) or ""), line.split("--")[0])):
                heads.setdefault(word, set()).add(f)
    # Names that port.py has respelled already, as a library had them too, beside a definition that is respelled to the same here.
    for it in sorted(new for old, new in names.items() if "-" not in old and new in declared and heads.get(new, set()) & heads.get(old, set())):
        if it not in FIELDS:
            names[it] = it + "_lem"
            print(f"a lemma beside its definition: {it} -> {it}_lem")
    names.update(BY_HAND)
    back = {}
    for old, new in sorted(names.items()):
        back.setdefault(new, []).append(old)
    for new, olds in sorted(back.items()):
        first = [o for o in olds if "-" not in o] or ([new] if new in heads else []) or olds[:1]
        for old in olds:
            where = set().union(*(heads.get(o, set()) for o in first)) | heads.get(new, set())
            if old not in first and where & heads.get(old, set()):
                names[old] = new + "_lem"
                print(f"a lemma beside its definition: {old} -> {new}_lem")
            elif heads.get(new, set()) & heads.get(old, set()):
                print(f"look: {old} -> {new}, which stands there already: {' '.join(sorted(heads[new] & heads[old]))[:300]}")
        if new in library:
            print(f"look: {' '.join(olds)} -> {new}, a library's name too")
    for f in antt:
        turn(f, lambda line: respell(line, names))
    plain = {o: n for o, n in names.items() if CAMEL.match(o)}
    for f in files(".rt"):
        turn(f, lambda line: respell(line, names if re.match(r"\s*(ghost|requires|ensures)\b", line) else plain, "//"))
    for f in files(".edit"):
        rust = re.search(r"^file:\s*src/", read(f), re.M)
        turn(f, lambda line: respell(line, plain if rust and not re.search(r"^(old|new):\s*(ghost|requires|ensures)\b", line) else names, None))
    for c in own:
        for root in (f"crates/{c}/src/lib.rt", f"crates/{c}/src/main.rt"):
            if os.path.exists(root):
                turn_head(root)
    print(f"respelled: {len(names)} names")


def turn_head(root):
    """The line by which the check tries its tactics, above the first item."""
    lines = read(root).split("\n")
    at = next((i for i, l in enumerate(lines) if l and not l.startswith("//")), len(lines))
    if not any(l.startswith("#![tactic") for l in lines):
        lines[at:at] = ["#![tactic(auto)]", ""]
        with open(root, "w", encoding="utf-8") as f:
            f.write("\n".join(lines))


def respell(line, names, comment="--"):
    code, rest = line, ""
    if comment and comment in line:
        at = line.index(comment)
        code, rest = line[:at], line[at:]

    def new(m):
        old = m.group(0)
        # A name that has the new spelling already is a source's too, where a dot stands beside it.
        if names.get(old, "").endswith("_lem") and "-" not in old and "." in (code[m.start() - 1 : m.start()], code[m.end() : m.end() + 1]):
            return old
        return names.get(old, old)

    return TOKEN.sub(new, code) + rest


def turn(path, change):
    text = read(path)
    new = "\n".join(change(l) for l in text.split("\n"))
    if new != text:
        with open(path, "w", encoding="utf-8") as f:
            f.write(new)


if __name__ == "__main__":
    {"before": before, "after": after}[sys.argv[1]]()
