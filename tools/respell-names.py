#!/usr/bin/env python3
"""Respells this repository's own definitions and lemmas: words in snake case, types and facts in camel case.

usage: python3 tools/respell-names.py [--dry] [TOP]     once, right after the kit's port.py, at the top of the checkout

A name is this repository's own if a file of specs/ or proofs/ declares it, at the top, in a module or a record, as a parameter or by a
let. What Rattle makes of the source (a goal, and a step or a field behind c, l or w in a proof's folder) and what is imported from a
library keep their spelling. It also turns the names where must-fail edits write them. It leaves to the hand: pages of docs/, what a
comment says beyond the first word of a legend, a name that is bound on the left of a clause alone, and an alias. It stops, and writes
nothing, where two names of one file would fall together, but for a function of src/, which may have the name of a definition: whether
the two go together it does not know.
"""

import collections
import os
import re
import sys

NAME = r"[^\s(){}\[\]:;,.\"λ«»→×@|]+"
TOKEN = re.compile(NAME)
HEAD = r"(?:(?:abbrev|unfoldable|pub|mutual) )*"
DECLARED = re.compile(r"^\s*" + HEAD + r"(" + NAME + r") :(?=\s|$)(?!\s*goal\.)")
TYPE = re.compile(r"^\s*" + HEAD + r"(?:record|data) (" + NAME + r")(?=\s)(?! *\{)")
GROUP = re.compile(r"[({]((?:" + NAME + r" )+): ")
LET = re.compile(r"\blet (" + NAME + r")(?= )")
LAMBDA = re.compile(r"λ ((?:" + NAME + r" ?)+)\.")
USE = re.compile(r"^\s*(?:ghost )?use ([^\s{};]+?)(?:\.\{([^}]*)\}| as (\S+?))?;?\s*$")
OF_GOALS = re.compile(r"/(Answers|Invariants|Proof)\.antt$")
ROOTS = {"c", "l", "w", "v", "g", "goal"}
# What port.py writes for the library's older word; the gate lets no other word of the library stand under its name.
ALIAS = "AllByRecursion as All"
# A name that the older library had spelled into this one.
SPECIAL = {"getD-row": "get_or_row"}


def new(name):
    """The name as it is spelled today; an operator stays behind its dash."""
    if name in SPECIAL:
        return SPECIAL[name]
    parts = re.split(r"[-_]" if name[0].isupper() else "-", name)
    if name[0].isupper():
        return "".join(p[:1].upper() + p[1:] for p in parts)
    out = parts[0]
    for p in parts[1:]:
        out += ("_" if re.match(r"\w", p) else "-") + p
    return out


def code(line, path):
    """The line without its comment; of a legend, a line of a comment that says what a word means, the word."""
    legend = re.match(r"-- {2,}" + NAME, line)
    if legend:
        return legend.group(0)
    return line.split("--" if path.endswith(".antt") else "//")[0] if not re.match(r"\s*(--|//)", line) else ""


def sources(top):
    for folder, dirs, files in os.walk(os.path.join(top, "crates")):
        dirs[:] = sorted(d for d in dirs if d != "out")
        for f in sorted(files):
            if f.endswith((".rt", ".antt")):
                yield os.path.join(folder, f)


def turns(name):
    return new(name) != name and not name.startswith(("-", "◌")) and name[0].isalpha()


def own_names(files):
    """What is declared at the top or in a record, and what is declared within a term."""
    top, local = set(), set()
    for path, lines in files.items():
        if not path.endswith(".antt"):
            continue
        for line in lines:
            s = code(line, path)
            for m in (DECLARED.match(s), TYPE.match(s)):
                if m:
                    top.add(m.group(1))
            for m in list(GROUP.finditer(s)) + list(LAMBDA.finditer(s)):
                local.update(m.group(1).split())
            local.update(m.group(1) for m in LET.finditer(s))
    return {n for n in top if turns(n)}, {n for n in local if turns(n)}


def foreign(lines):
    """The names that a file imports from a library that is not this repository's."""
    out = set()
    text = "".join(lines)
    for m in re.finditer(r"(?:ghost )?use ((?:Rattle\.std|mathlib|borrow|denote|Prim)[^\s{};]*)\.\{([^}]*)\}", text):
        for item in m.group(2).split(","):
            out.update(item.split())
    return out


def respell(path, lines, top, local):
    """The lines respelled, and which new name came from which old one."""
    known = (top | local) - foreign(lines)
    recursive = any(ALIAS in line for line in lines)
    goals = bool(OF_GOALS.search(path))
    came = collections.defaultdict(set)
    out = []
    for line in lines:
        s = code(line, path)
        done, last = [], 0
        for m in TOKEN.finditer(s):
            t = m.group(0)
            before = s[: m.start()]
            root = re.search(r"(" + NAME + r")(?:\.[^\s(){}\[\],]+)*\.$", before)
            made = goals and root is not None and root.group(1) in ROOTS
            made = made or bool(re.search(r"\b(goal|Goals|Given)\.\{?[^}]*$", before)) and goals
            to = new(t) if t in known and not made else t
            if recursive and t == "All":
                to = ALIAS.split(" as ")[0]
            came[to].add(t)
            done.append(line[last: m.start()] + to)
            last = m.end()
        done.append(line[last:])
        out.append(re.sub(r"\b(AllByRecursion) as \1\b", r"\1", "".join(done)))
    return out, came


def main():
    args = [a for a in sys.argv[1:] if a != "--dry"]
    top_folder = os.path.abspath(args[0] if args else ".")
    files = {}
    for path in sources(top_folder):
        with open(path, encoding="utf-8") as f:
            files[path] = f.readlines()
    top, local = own_names(files)
    functions = set(re.findall(r"\bfn ([a-z_0-9]+)", "".join(x for p, lines in files.items() if p.endswith(".rt") for x in lines)))
    fallen, result = [], {}
    for path, lines in files.items():
        out, came = respell(path, lines, top, local)
        for name, olds in sorted(came.items()):
            if name == "AllByRecursion":
                continue
            if len(olds) > 1 and not olds <= top | local | functions:
                fallen.append(f"{os.path.relpath(path, top_folder)}: {' and '.join(sorted(olds))} would both be {name}")
            elif len(olds - functions) > 1:
                fallen.append(f"{os.path.relpath(path, top_folder)}: {' and '.join(sorted(olds))} would both be {name}")
        if out != lines:
            result[path] = out
    print("\n".join(fallen))
    # Edits and pages.
    for folder, dirs, names in os.walk(top_folder):
        dirs[:] = sorted(d for d in dirs if d not in ("out", ".git", "target"))
        for f in sorted(names):
            path = os.path.join(folder, f)
            if not f.endswith((".edit", ".md")):
                continue
            with open(path, encoding="utf-8") as h:
                lines = h.readlines()
            turn = lambda m: new(m.group(0)) if m.group(0) in top else m.group(0)
            if f.endswith(".edit"):
                out = [TOKEN.sub(turn, x) if x.startswith(("old:", "new:")) else x for x in lines]
            else:
                out = [re.sub(r"`[^`]+`", lambda q: TOKEN.sub(turn, q.group(0)), x) for x in lines]
            if out != lines:
                result[path] = out
    print(f"{len(top)} names declared, {len(local)} more within terms, {len(result)} files")
    if fallen:
        raise SystemExit(1)
    if "--dry" not in sys.argv:
        for path, out in result.items():
            with open(path, "w", encoding="utf-8") as f:
                f.writelines(out)


main()
