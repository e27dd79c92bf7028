#!/usr/bin/env python3
# Prints as Markdown what was promised and is: tools/beside.py OLD NEW, two folders with this repository's files.
# Three parts: the public functions of the libraries with their clauses; the definitions of specs/ and the ghost items of types; the theorems (`pub NAME : TYPE` of
# proofs/*.antt, with the parameters of the modules around). What changed stands with old and new. What is gone, and what is new, is named at the end of its part; a ghost
# item of a type stands with its text. Whitespace, line breaks, names of clauses and the order of parameters and fields are no change.
# Functions and definitions are read by the kit's own reader, which lies beside the guide that `rt doc` names.
import collections
import os
import re
import subprocess
import sys

PROGRAMS = ("vectors", "trials")
# What has another name now: crate and name in the old tree, and in the new one with the type that a method is of.
RENAMED = [
    ("bits read_u16", "bits read_number"),
    ("bits read_u32", "bits read_number"),
    ("bits read_u64", "bits read_number"),
    ("bits write_u16", "bits write_number"),
    ("bits write_u32", "bits write_number"),
    ("bits write_u64", "bits write_number"),
    ("entries answered_numbers", "tables From<Result<Gathered, Refusal>> for Answer::from"),
    ("entries answered_numbers", "tables answered_numbers"),
    ("kinds kind_of", "tables From<u64> for Kind::from"),
    ("lengths CountedTo", "lengths sum_within"),
    ("lengths count_entries", "lengths Selection::sum_within"),
    ("lengths sum_entries", "lengths Selection::sum"),
    ("range block_of", "range first_block"),
    ("tables bare_column_at", "tables column_of"),
    ("variable copy_by_width", "rows Stretches::copy_rows"),
    ("variable measured_by", "variable measured_numbers"),
    ("variable put_by_width", "lengths Shown::list_turn"),
]


def reader():
    guide = subprocess.run(["rt", "doc"], capture_output=True, text=True, check=True).stdout.split()[0]
    sys.path.insert(0, os.path.join(os.path.dirname(guide), "port"))
    sys.dont_write_bytecode = True
    import contracts

    return contracts


KIT = reader()


# ---- what counts as a change


def plain(text):
    # without what is spelling alone
    t = re.sub(r" infix[lr]? \d+ \S+$", "", KIT.squeeze(text))
    while m := re.search(r"record \{([^{}]*)\}", t):
        fields = sorted(f.strip() for f in m[1].split(";") if f.strip())
        t = t[: m.start()] + "record ⟨" + ";".join(fields) + "⟩" + t[m.end() :]
    if m := re.match(r"((?:pub )?record \S+)(.*?) : (Type \d) where(.*)$", t):
        groups = re.findall(r"[({]([^(){}]*) : ((?:[^(){}]|\([^()]*\))*)[)}]", m[2])
        parameters = sorted(f"({name} : {of})" for names, of in groups for name in names.split())
        fields = sorted(re.split(r" (?=(?:pub )?[^\s(){}]+ :)", m[4]))
        t = f"{m[1]} {' '.join(parameters)} : {m[3]} where {' '.join(fields)}"
    t = re.sub(r"\s*([,;:(){}\[\]<>])\s*", r"\1", t)
    return re.sub(r",(?=[)}\]>])", "", t)


# ---- what stands for what: keys are a crate and a name, values are lists of texts


def successor(key, texts, new, taken):
    # by the table, at its place, as a method of its crate, or with the same text in another crate
    for there in [tuple(b.split(" ", 1)) for a, b in RENAMED if a == " ".join(key)] + [key]:
        if there in new:
            return there
    last = lambda k: k[1].split("::")[-1].replace("-", "_")  # noqa: E731
    alike = [k for k in new if last(k) == last(key) and k not in taken]
    for found in ([k for k in alike if k[0] == key[0]], [k for k in alike if sorted(map(plain, new[k])) == sorted(map(plain, texts))]):
        if len(found) == 1:
            return found[0]
    return None


def joined(old, new):
    # the keys of new, each with the keys of old that it stands for; and what is gone
    taken, gone, pairs = set(old) & set(new), [], {k: [] for k in sorted(new)}
    for k in sorted(old):
        there = successor(k, old[k], new, taken)
        pairs[there].append(k) if there else gone.append(k)
    return pairs, gone


def fenced(head, rows):
    print(f"{head}\n\n```text\n" + "\n".join(rows) + "\n```\n")


def named(label, keys):
    by = collections.defaultdict(list)
    for crate, name in sorted(keys):
        by[crate].append(f"`{name}`")
    if by:
        print(f"{label}: " + "; ".join(f"{crate}: {', '.join(names)}" for crate, names in by.items()) + ".\n")


# ---- the three parts


def functions(root):
    _, functions, ghosts = KIT.read(root)[:3]
    out = {}
    for (crate, path, place, name), found in sorted(functions.items()):
        for f in found:
            if crate in PROGRAMS or f["test"] or f["in tests"] or not (f["pub"] or " for " in place):
                continue
            # a trait's promise is made by the ghost items of the impl
            of_trait = [("ensures", g, t.strip("{} ")) for (c, of, g), texts in ghosts.items() if (c, of) == (crate, place) and " for " in place for t in texts]
            rows = [("", "", f["sign"])] + f["requires"] + f["ensures"] + of_trait
            of = place if " for " in place else re.sub(r"<.*", "", place)
            out[crate, f"{of}::{name}" if of else name] = (os.path.relpath(path, "src"), rows)
    return out


def clause(word, name, text):
    return f"{word} {{ {name + ' ' if name else ''}{text} }}" if word else text


def changed_rows(old, new):
    rows = []
    for word in ("", "requires", "ensures"):
        parts = [[r for r in rows if r[0] == word] for rows in (old, new)]
        same = {plain(r[2]) for r in parts[0]} & {plain(r[2]) for r in parts[1]}
        for sign, part in zip(("old", "new"), parts):
            rows += [f"{sign}  {clause(*r)}" for r in part if plain(r[2]) not in same]
    return rows


def print_functions(old, new):
    print("### Public functions of the libraries\n")
    a, b = functions(old), functions(new)
    pairs, gone = joined(*({k: [r[2] for r in v[1]] for k, v in s.items()} for s in (a, b)))
    for k, olds in pairs.items():
        rows = []
        for o in olds:
            part = changed_rows(a[o][1], b[k][1])
            name = o[1] if o[0] == k[0] else f"{o[1]} of {o[0]}"
            rows += ([] if o == k else [f"old  {name}"]) + part if part else []
        if rows:
            fenced(f"`{k[0]}`, {b[k][0]}, `{k[1]}`", list(dict.fromkeys(rows)))
    named("Gone, or no longer public", gone)
    named("New", [k for k, o in pairs.items() if not o])


def print_definitions(old, new):
    print("### Definitions\n")
    a, b = (KIT.read(r)[3] for r in (old, new))
    pairs, gone = joined(a, b)
    for k, olds in pairs.items():
        rows = [f"old  {t}" for o in olds if sorted(map(plain, a[o])) != sorted(map(plain, b[k])) for t in a[o]]
        if rows:
            fenced(f"`{k[0]}`, `{k[1]}`", rows + [f"new  {t}" for t in b[k]])
    named("Gone", gone)
    named("New", [k for k, o in pairs.items() if not o])
    a, b = ({k: v for k, v in KIT.read(r)[2].items() if k[1] != "const" and k[0] not in PROGRAMS} for r in (old, new))
    for k in sorted(set(a) | set(b)):
        if sorted(map(plain, a.get(k, []))) != sorted(map(plain, b.get(k, []))):
            fenced(f"`{k[0]}`, `{k[1]}`, `ghost {k[2]}`", [f"old  {t}" for t in a.get(k, [])] + [f"new  {t}" for t in b.get(k, [])])


def items(text):
    # what stands at the depth of modules: each as its depth and its text, which goes on in the deeper lines; of a module the head alone
    lines = [l for l in re.sub(r"\s*--.*", "", text).split("\n") if l.strip()]
    depth = lambda l: len(l) - len(l.lstrip())  # noqa: E731
    i = 0
    while i < len(lines):
        start, whole = i, lines[i].strip()
        i += 1
        while i < len(lines) and depth(lines[i]) > depth(lines[start]) and not re.match(r"module .*\bwhere$", whole):
            whole = KIT.squeeze(f"{whole} {lines[i]}")
            i += 1
        yield depth(lines[start]), whole


def theorems(root):
    # by crate and name: the file, the parameters of the modules around, the type, and whether others may cite it; of a record or of what unfolds the whole text
    out = collections.defaultdict(list)
    top = os.path.join(root, "crates")
    for crate in sorted(os.listdir(top)):
        folder = os.path.join(top, crate, "proofs")
        for file in sorted(os.listdir(folder)) if os.path.isdir(folder) else []:
            if not file.endswith(".antt"):
                continue
            modules, unfolds = [], None
            for deep, text in items(open(os.path.join(folder, file), encoding="utf-8").read()):
                modules = [m for m in modules if m[0] < deep]
                if m := re.match(r"module \S+ (.*?) ?where$", text):
                    modules.append((deep, m[1]))
                elif m := re.match(r"(abbrev |unfoldable )?(pub )?(record |data )?([^\s:({]+)(?= :|(?(3) |(?!)))", text):
                    whole = text if m[1] or m[3] else text[m.end() :].strip(" :")
                    entry = [f"crates/{crate}/proofs/{file}", " ".join(p for _, p in modules), whole, bool(m[2])]
                    out[crate, m[4]].append(entry)
                    unfolds = (m[4], entry) if m[1] else None
                elif unfolds and text.startswith(unfolds[0] + " "):
                    unfolds[1][2] += " " + text
    return out


def print_theorems(old, new):
    print("### Theorems that changed\n\nEach with its file and the parameters of the modules around it.\n")
    a, b = theorems(old), theorems(new)
    a = {k: [t for t in v if t[3]] for k, v in a.items() if any(t[3] for t in v)}
    # whether a parameter is the module's or the theorem's own is no change
    text = lambda t: plain(re.sub(r"([)}]) → ([({])", r"\1 \2", f"{t[1]} → {t[2]}" if t[1] else t[2]).replace("pub ", ""))  # noqa: E731
    pairs, gone = joined(*({k: [text(t) for t in v] for k, v in s.items()} for s in (a, b)))
    rows = []
    for k, olds in sorted(pairs.items(), key=lambda p: (p[0][1], p[0][0])):
        x, y = [t for o in olds for t in a[o]], b[k]
        same = {text(t) for t in x} & {text(t) for t in y}
        x, y = ([t for t in s if text(t) not in same] for s in (x, y))
        if x:
            rows.append(k[1] + "".join(f", before `{o[1]}`" for o in olds if o != k))
            rows += [f"  {sign} {file} {around + ' → ' if around else ''}{whole}" for sign, s in (("old", x), ("new", y)) for file, around, whole, _ in s]
    print("```text\n" + "\n".join(rows) + "\n```\n")
    named("Gone", gone)
    named("New", [k for k, o in pairs.items() if not o and any(t[3] for t in b[k])])


if __name__ == "__main__":
    for part in (print_functions, print_definitions, print_theorems):
        part(*sys.argv[1:3])
