#!/usr/bin/env python3
"""Brings the repository's own definitions and lemmas to the library's spelling: words in snake case, types in camel case.

usage: tools/respell.py            at the top of the repository, once, after the toolchain's port.py

tools/respelled.tsv has a row for each name: the old spelling, a tab, the new one. Whole words turn, in the .antt files of specs/ and
proofs/, in clauses and imports of src/, in must-fail edits, and in code spans of comments and pages. A name that a file imports from
a library of the toolchain stays in that file. Functions of src/, exported C names, strings, inputs and outputs keep their names.
Run it once: some new names are old ones of other lemmas, which a second run would turn too.
"""
import glob
import os
import re
import sys

HERE = os.path.dirname(os.path.abspath(__file__))
TABLE = dict(
    line.rstrip("\n").split("\t")
    for line in open(os.path.join(HERE, "respelled.tsv"), encoding="utf-8")
)
WORD = re.compile(r'[^\s(){}.;,@"«»`]+')
RUST_WORD = re.compile(r"(?<![\w'’-])[A-Za-z][\w'₀-₉-]*")
SPAN = re.compile(r"`[^`\n]+`")
LIBRARY = re.compile(r"^\s*(?:pub )?use (?!Rattle\.)(\S+?)\.\{([^}]*)\}|^\s*(?:pub )?use Rattle\.std\.(\S+?)\.\{([^}]*)\}", re.M)


def word(m, kept):
    return m[0] if m[0] in kept else TABLE.get(m[0], m[0])


def spans(text):
    """Turns code spans, and bare words in camel case."""
    text = SPAN.sub(lambda m: WORD.sub(lambda w: word(w, ()), m[0]), text)
    return re.sub(r"(?<![\w'`-])[a-z]+[A-Z][\w']*(?![\w'-])", lambda m: word(m, ()), text)


def antt(text):
    kept = set()
    for m in LIBRARY.finditer(text):
        kept.update(it.strip() for it in (m[2] or m[4]).split(","))
    out = []
    for line in text.split("\n"):
        m = re.search(r"(?<![^\s(){};,])--", line)
        code, comment = (line[: m.start()], line[m.start() :]) if m else (line, "")
        out.append(WORD.sub(lambda w: word(w, kept), code) + spans(comment))
    return "\n".join(out)


def rust(text):
    out = []
    for line in text.split("\n"):
        m = re.search(r"(?<!:)//", line)
        code, comment = (line[: m.start()], line[m.start() :]) if m else (line, "")
        code = re.sub(r'"(?:\\.|[^"\\])*"|' + RUST_WORD.pattern, lambda w: w[0] if w[0][0] == '"' else word(w, ()), code)
        out.append(code + spans(comment))
    return "\n".join(out)


def main():
    kinds = [
        ("crates/*/specs/**/*.antt", antt),
        ("crates/*/proofs/**/*.antt", antt),
        ("crates/*/src/**/*.rt", rust),
        ("crates/*/must-fail/*.edit", rust),
        ("docs/*.md", spans),
        ("README.md", spans),
    ]
    changed = 0
    for pattern, turn in kinds:
        for path in sorted(glob.glob(pattern, recursive=True)):
            with open(path, encoding="utf-8", newline="") as f:
                old = f.read()
            new = turn(old)
            if new != old:
                changed += 1
                with open(path, "w", encoding="utf-8", newline="") as f:
                    f.write(new)
    print(f"respell: {changed} files changed")


if __name__ == "__main__":
    sys.exit(main())
