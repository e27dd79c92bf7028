#!/usr/bin/env python3
# Counts the places of docs/DESIGN-PASS.md's points in the sources of a commit: tools/forms.py COMMIT, and with -v each place.
# Points that only a reader finds (twins by their bodies, answers that stand for "none") are listed in the page.
import re
import subprocess
import sys

PATTERNS = [
    ("1 functions that answer an own enum or struct of the shape of Option or Result", r"\) -> (Checked|Answered|Found|Verdict|Measured|Through|Outcome)\b"),
    ("1 own enums opened by hand", r"(let|match|=>|\() *(Checked|Answered|Found|Verdict)::|let (Checked|Answered|Found|Verdict)::"),
    ("1 numbers for a kind or a choice of names", r"\b(kind|which): u(8|64)\b"),
    ("2 functions named for a width", r"fn [a-z_]+_u(8|16|32|64)[(<]"),
    ("2 calls that differ only in a literal width or size, as the arms of a match", r"^\s+(\d+|_) => [a-z_]+(::<[^>]*>)?\([^;]*\),$"),
    ("3 loops by while or loop", r"^\s*('\w+: )?(while|loop)\b"),
    ("3 (for comparison: loops by for)", r"^\s*('\w+: )?for\b"),
    ("4 conversions and printing by hand", r"\b(wide|low|lesser|is_text|is_kept)\(|\b(write|write_number|write_name_of_\w+)\((rt|&rt)"),
    ("5 lines that pass on an index column in three parts", r"^\s*(index_data|index_validity)(: &\[u8\])?,$"),
    ("6 buffers of a fixed room beside the length that is used", r"= \[(0u8|FILL); [A-Z_]+\]|\bpart\([a-z]+, "),
    ("7 switches on which step to run", r"published: bool|is_batch\(line\)"),
]


def git(*args):
    return subprocess.run(["git", *args], capture_output=True, text=True, check=True).stdout


def parameters(text):
    # each function's name, line and number of parameters
    for m in re.finditer(r"\bfn (\w+)(?:<[^()]*>)?\(((?:[^()]|\([^()]*\))*)\)", text):
        yield m.group(1), text[: m.start()].count("\n") + 1, len([p for p in re.split(r",(?![^<]*>)", m.group(2)) if p.strip()])


def main():
    rev, verbose = sys.argv[1], "-v" in sys.argv
    names = git("ls-tree", "-r", "--name-only", rev).split()
    sources = {n: git("show", f"{rev}:{n}") for n in names if re.fullmatch(r"crates/\w+/src/\w+\.rt", n)}
    for title, pattern in PATTERNS:
        places = [(n, i + 1, l.strip()) for n, s in sources.items() for i, l in enumerate(s.split("\n")) if re.search(pattern, l)]
        print(f"{len(places):5}  {title}")
        if verbose:
            for n, i, l in places:
                print(f"         {n}:{i}: {l}")
    many = [(k, n, i, f) for n, s in sources.items() for f, i, k in parameters(s) if k >= 7]
    print(f"{len(many):5}  5 functions of seven parameters or more")
    if verbose:
        for k, n, i, f in sorted(many, reverse=True):
            print(f"         {n}:{i}: {f}, {k}")
    answers = [n for n in names if re.search(r"/proofs/.*/Answers\.antt$", n)]
    texts = [git("show", f"{rev}:{n}") for n in answers]
    print(f"{len(answers):5}  8 files of answers")
    print(f"{sum(len(re.findall(r'^pub ', t, re.M)) for t in texts):5}  8 answers")
    print(f"{sum(t.count(chr(10)) for t in texts):5}  8 lines of answers")


main()
