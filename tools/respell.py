#!/usr/bin/env python3
"""Spells this repository's own definitions, fields, variables and lemmas as today's library does: words in snake case, modules in camel case.

usage: python3 tools/respell.py            at the top of the repository, once, after the kit's port.py and with everything committed

camelCase names become snake_case wherever they stand in specs, proofs, clauses, comments and must-fail edits. Lemmas with dashes get underscores; names
of the kit's libraries, of goals and of steps keep theirs. A lemma that would get the name of a definition which stands in one of its files is called
NAME_lem, as the library's are. The module `inner` of a crate's specs becomes `Inner`. Functions, types and constants of src/ keep their names, and so do
strings. It prints what met another name, and `look:` where a name is left to be read.
"""

import collections
import os
import re
import subprocess

USE = re.compile(r"^(?:ghost |pub )*use ([^\s;{]+)(?:\{([^}]*)\})?", re.M)
LIBRARY = re.compile(r"Rattle\.(std|core|libc|io)\b")
DECLARED = re.compile(r"^( *)(?:abbrev |unfoldable |pub |where |data |record |ruleset )*([^\s(){}.;,:]+)(?: \{[^{}\n]*\})* :([^\n]*)", re.M)
BOUND = re.compile(r"(?:\blet |[({λ]) ?([^\s(){}.;,:\"]+) (?:[:=]|\.)")
NAME = r"[^\s(){}.;,@\"«»\[\]\\`]+"
TOKEN = re.compile(NAME)


def is_camel(name):
    return name[:1].islower() and bool(re.search(r"[a-z0-9][A-Z]", name)) and not re.search(r"_[A-Z]|-[A-Z]|[:/]", name)


def snake(name):
    return re.sub(r"(?<=[a-z0-9])[A-Z]|(?<=[A-Z])[A-Z](?=[a-z])", lambda m: "_" + m[0].lower(), name).lower()


def texts():
    out = subprocess.run(["git", "ls-files", "crates"], capture_output=True, text=True, check=True).stdout.split("\n")
    return [p for p in out if p.endswith((".rt", ".antt", ".edit"))]


def read(path):
    with open(path, encoding="utf-8") as f:
        return f.read()


def main():
    files = texts()
    text = {p: read(p) for p in files}
    library, declared, bound, words = set(), set(), set(), {}
    for p, t in text.items():
        words[p] = set(TOKEN.findall(t))
        if p.endswith(".edit"):
            continue
        for m in USE.finditer(t):
            ours = m[1].startswith("Rattle.") and not LIBRARY.match(m[1])
            if not ours and (p.endswith(".antt") or m[0].startswith("ghost")):
                library |= {n.strip().split(" as ")[0] for n in (m[2] or "").split(",") if n.strip()}
        if p.endswith(".antt"):
            for m in DECLARED.finditer(t):
                if not re.match(r" ?(tie|goal)\.", m[3]):
                    declared.add(m[2])
            bound |= set(BOUND.findall(t))
    # A field with a dash is turned behind a dot too; what else stands there is a step or a goal.
    fields = set()
    for p, t in text.items():
        for m in re.finditer(r"(?m)^( *)(?:\w+ )*record [^\n]*where\n((?:\1 +[^\n]*\n|\n)*)", t):
            fields |= {d[2] for d in DECLARED.finditer(m[2])}
    rust = set()
    for p, t in text.items():
        if p.endswith(".rt"):
            rust |= set(re.findall(r"\b(?:fn|mod|const|static) (\w+)", t)) | {p.split("/")[1]}
    every = set().union(*words.values())
    turned = {n: snake(n) for n in every if is_camel(n) and n not in library and "-" not in n}
    met = lambda a, b: [p for p in files if a in words[p] and b in words[p]]
    # A definition's new name may be a lemma's: the lemma is then NAME_lem.
    for n, to in sorted(turned.items()):
        for other in (to,):
            if other in rust:
                continue
            if other in declared and other not in turned and met(n, other):
                print(f"met: {other} -> {other}_lem beside {n}, {met(n, other)[:3]}")
                turned[other] = other + "_lem"
            elif met(n, other):
                print(f"look: {n} -> {to} meets {other} in {met(n, other)[:3]}")
    taken = set(turned.values())
    for n in sorted(declared | bound):
        if "-" not in n or n in library or not re.match(r"[A-Za-z]", n) or n in turned:
            continue
        to = snake(n).replace("-", "_") if n[0].islower() else n.replace("-", "_")
        clash = [o for o in every if o != n and turned.get(o, o) == to and met(n, o)]
        if clash:
            print(f"met: {n} -> {to}_lem beside {clash}")
            to += "_lem"
            if to in every:
                print(f"look: {to} is there already")
        turned[n] = to
    change = re.compile(rf"(\.?)({NAME})")

    # In a comment a dash is mostly English, so there only camelCase is turned.
    def put(m):
        to = turned.get(m[2])
        return m[1] + to if to and not (m[1] and "-" in m[2] and m[2] not in fields) else m[0]

    def put_comment(m):
        return m[0] if "-" in m[2] else put(m)

    for p, t in text.items():
        mark = "--" if p.endswith(".antt") else "//"
        lines = []
        for line in t.split("\n"):
            at = re.search(rf"(^|\s){mark}( |$)", line)
            cut = at.start() if at else len(line)
            lines.append(change.sub(put, line[:cut]) + change.sub(put_comment, line[cut:]))
        new = "\n".join(lines)
        new = re.sub(r"\.specs\.inner\b", ".specs.Inner", new)
        if p.endswith("specs/Lib.antt"):
            new = re.sub(r"(?m)^((?:pub )?mod )inner$", r"\1Inner", new)
        if new != t:
            with open(p, "w", encoding="utf-8") as f:
                f.write(new)
    for p in files:
        if re.search(r"/specs/inner(/|\.antt$)", p):
            to = re.sub(r"/specs/inner(?=/|\.antt$)", "/specs/Inner", p)
            os.makedirs(os.path.dirname(to), exist_ok=True)
            subprocess.run(["git", "mv", p, to], check=True)
    print(f"{sum(1 for n in turned if turned[n])} names")


main()
