#!/usr/bin/env python3
"""Brings the names of this repository's own definitions and lemmas, and the tests in its clauses, to the spelling of today's Rattle.

usage: python3 tools/respell.py [FOLDER]      once, at the top of a checkout that the kit's port.py has just turned

A name of our own in camel case becomes snake case (`bitValue` to `bit_value`), also where it is a part of a lemma's name
(`bitValue-lt` to `bit_value-lt`). In specs/ and in src/ `eqb a b` becomes `a == b`, `ltb` and `leb` become `nat_lt` and `nat_le`, `cond b x y`
becomes `if b then x else y`, and `get_or s i 0` becomes `slice_index s i`: each is the other by definition. Nothing else is changed.
"""

import os
import re
import sys

# Names that would fall together with another of ours, and what they become.
OTHERWISE = {"rowWritten": "written_row"}
# Names of ours that port.py turns by itself, and not where they are a part of another.
TURNED = "afterOf bitAt bitOf blockOf byteOf bytesOf entriesAt firstOf hasRow isSet isTaken kindAt kindOf layoutOf lineAt linesOf orElse partOf picksOf placeOf rowAt rowsBy rowsOf rowsTo startOf takenOf wordAt wordBytes writtenOf".split()
NAME = re.compile(r"(?<![A-Za-z0-9_'«-])[a-z_][A-Za-z0-9_'-]*")
HUMP = re.compile(r"(?<=[a-z0-9])[A-Z]")
DECLARED = re.compile(r"^\s*(?:unfoldable |abbrev |pub |data |record |infix[lr]? \d+ )*(?:◌)?([a-z][A-Za-z0-9_'-]*)(?:◌)?(?:\s*[:({]|\s*$)", re.M)
# What an operand of `==`, and what stands after `else`, is kept in brackets for.
LOOSER = re.compile(r"&&|\|\||λ|≡|==|eqb|cond|\bif\b|\brecord\b|∷|\+\+|,")
LOWEST = re.compile(r"λ|\bif\b|cond|\blet\b|∷|≡|,")
ATOM = re.compile(r"«[^»]*»|[A-Za-z0-9_'₀-₉-]+|\[\]")


def files(top, folders, endings):
    for folder in folders:
        at = os.path.join(top, folder)
        if os.path.isfile(at):
            yield at
        for where, dirs, names in os.walk(at):
            dirs[:] = sorted(d for d in dirs if d not in ("out", "target", ".git"))
            for name in sorted(names):
                if name.endswith(endings):
                    yield os.path.join(where, name)


def snake(part):
    return HUMP.sub(lambda m: "_" + m.group().lower(), part)


def respelled(name, ours):
    """The name in snake case, part by part, where the whole or a part of it is a name of ours."""
    if name in OTHERWISE:
        return OTHERWISE[name]
    if name in ours:
        return "-".join(OTHERWISE.get(p, snake(p)) if p[:1].islower() else p for p in name.split("-"))
    return "-".join(OTHERWISE.get(p, snake(p)) if p in ours else p for p in name.split("-"))


def atom(t, at):
    """The end of the argument that begins at `at`: a name, a number, a bracket, with projections after it."""
    if t[at] in "([":
        depth, i = 0, at
        while True:
            depth += {"(": 1, "[": 1, ")": -1, "]": -1}.get(t[i], 0)
            i += 1
            if depth == 0:
                break
    else:
        m = ATOM.match(t, at)
        if not m:
            return None
        i = m.end()
    while t.startswith(".", i) and (m := ATOM.match(t, i + 1)):
        i = m.end()
    return i


def arguments(t, at, n):
    """The n arguments after `at`, each with the white space before it."""
    out = []
    for _ in range(n):
        m = re.compile(r"\s+").match(t, at)
        if not m:
            return None
        end = atom(t, m.end())
        if end is None:
            return None
        out.append((m.group(), t[m.end():end]))
        at = end
    return out, at


def bracketed(t, start, end):
    """What stands at start..end is all that its bracket holds, or all that its definition or field says."""
    before, after = t[:start].rstrip(), t[end:]
    inside = re.search(r"\((λ [^.()]*\.)?$", before) and re.match(r"\s*\)", after)
    alone = (before.endswith(" =") or re.search(r"(^|[^=≡])=$", before)) and re.match(r"[ \t]*(;|\n|$)", after)
    return bool(inside or alone)


def joined(t, start, end):
    """What stands at start..end is joined to its neighbours by nothing that binds tighter than `==`."""
    return bool(re.search(r"(\|\||&&|\(|[^=≡]=|λ [^.()]*\.|then|else|if)\s*$", t[:start]) and re.match(r"\s*(\|\||&&|\)|;|then|else|$|\n)", t[end:]))


def bare(argument, looser=None):
    """An argument without its brackets, where it needs none."""
    if argument[0] != "(" or argument[-1] != ")" or looser and looser.search(argument):
        return argument
    depth = 0
    for i, ch in enumerate(argument):
        depth += {"(": 1, ")": -1}.get(ch, 0)
        if depth == 0 and i < len(argument) - 1:
            return argument
    return argument[1:-1].strip()


def tests(t):
    """`eqb`, `ltb`, `leb`, `cond` and `get_or` as they are written today, innermost last."""
    t = re.sub(r"(?<![\w'-])ltb(?![\w'-])", "nat_lt", re.sub(r"(?<![\w'-])leb(?![\w'-])", "nat_le", t))
    word = re.compile(r"(?<![\w'-])(eqb|cond|get_or)(?![\w'-])")
    at = 0
    while m := word.search(t, at):
        n = 2 if m.group(1) == "eqb" else 3
        found = arguments(t, m.end(), n)
        if not found or "--" in t[t.rfind("\n", 0, m.start()) + 1:m.start()]:
            at = m.end()
            continue
        args, end = found
        if m.group(1) == "eqb":
            new = f"{bare(args[0][1], LOOSER)} == {bare(args[1][1], LOOSER)}"
        elif m.group(1) == "cond":
            space = args[2][0] if "\n" in args[2][0] else " "
            new = f"if {bare(args[0][1])} then {bare(args[1][1])}{space}else {bare(args[2][1], LOWEST)}"
        elif args[2][1] == "0":
            new = f"slice_index {args[0][1]} {args[1][1]}"
        else:
            new = f"slice_index_or {args[0][1]} {args[1][1]} {args[2][1]}"
        if m.group(1) == "cond" and not bracketed(t, m.start(), end) or m.group(1) == "eqb" and not (bracketed(t, m.start(), end) or joined(t, m.start(), end)):
            new = f"({new})"
        t = t[:m.start()] + new + t[end:]
        at = m.start()
    return t


def imports(t):
    """A list of std's Prelude names what the file uses today."""
    def turned(m):
        names = [n.strip() for n in m.group(2).split(",")]
        body = t[:m.start()] + t[m.end():]
        swap = {"eqb": ["◌==◌", "nat_eq"], "ltb": ["nat_lt"], "leb": ["nat_le"], "cond": ["if◌then◌else◌", "cond"], "get_or": ["slice_index", "slice_index_or", "get_or"]}
        used = {"◌==◌": r" == ", "if◌then◌else◌": r"\bif\b[^\n]*\n?[^\n]*\bthen\b"}
        out = []
        for n in names:
            for w in swap.get(n, [n]):
                pattern = used.get(w, r"(?<![\w'-])" + re.escape(w) + r"(?![\w'-])")
                if n not in swap or re.search(pattern, body):
                    out.append(w)
        return m.group(1) + "{" + ", ".join(dict.fromkeys(out)) + "}"
    return re.sub(r"((?:ghost )?use Rattle\.std\.specs\.Prelude\.)\{([^}]*)\}", turned, t)


def main(top):
    antt = list(files(top, ["crates"], (".antt",)))
    rattle = list(files(top, ["crates"], (".rt",)))
    texts = {p: open(p, encoding="utf-8").read() for p in antt + rattle}
    ours = set(TURNED)
    for p in antt:
        ours |= {m.group(1) for m in DECLARED.finditer(texts[p]) if HUMP.search(m.group(1))}
    for p in list(texts):
        t = NAME.sub(lambda m: respelled(m.group(), ours), texts[p])
        if p.endswith(".rt") or f"{os.sep}specs{os.sep}" in p:
            t = imports(tests(t))
        if t != texts[p]:
            open(p, "w", encoding="utf-8").write(t)
    for p in files(top, ["crates", "README.md", "docs", "rust/README.md"], (".edit", ".md")):
        t = open(p, encoding="utf-8").read()
        new = NAME.sub(lambda m: respelled(m.group(), ours), t)
        if p.endswith(".edit"):
            new = tests(new)
        if new != t:
            open(p, "w", encoding="utf-8").write(new)


if __name__ == "__main__":
    main(sys.argv[1] if len(sys.argv) > 1 else ".")
