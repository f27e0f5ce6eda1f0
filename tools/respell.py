#!/usr/bin/env python3
"""Brings the names of definitions, lemmas, fields and constructors to snake case, once.

usage: python3 tools/respell.py [--list]    at the top of the repository, after the kit's own script; --list writes nothing and shows the table

It collects the names that the .antt files under crates/ declare, and turns `codingOf` and `in-turn` to `coding_of` and
`in_turn`: in .antt files, in the clauses and `ghost use` lines of .rt files, and in code spans of comments and pages.
A name that begins with a capital stays. A lemma that would have its function's name gets `_lem`; OTHER has the names that
no rule turns. In a proof that walks the code only fields turn behind a dot, since the function's steps are written so.
"""

import os
import re
import sys

WORD = r"[^\s(){}\[\],;.«»`\"λ]+"
PIECE = re.compile(r'--[^\n]*|"(?:[^"\\\n]|\\.)*"|' + WORD + r"|\.|\s+|.", re.S)
NAMES = r"(?:(?:abbrev|unfoldable|pub|private)\s+)*(" + WORD + r"(?:\s+" + WORD + r")*)\s+:\s"
SPAN = re.compile(r"`[^`\n]*`")
CLAUSE = re.compile(r"(?:requires|ensures)\s*\*?\s*(?:\w+\s*)?\{|ghost\s*(?:\w+\s*(?::\s*(?:(?:owns|lends)\s*)?|=\s*))?\{")
GHOST_USE = re.compile(r"ghost\s+use\b[^;]*;")

# names whose plain respelling is already another name where it is used
OTHER = {
    "isHeld": "is_held",  # left by the kit's script, where a variable is called `is-held`
    "after_first": "after_first_lem",
    "in_count": "in_count_lem",
    "in_window": "in_window_lem",
    "same_code": "same_code_lem",
}

# rows that hold in proofs alone, not in the pages
HERE = ("after_first", "in_count", "in_window", "same_code")


def files(root, endings):
    for folder, dirs, names in os.walk(os.path.join(root, "crates")):
        dirs[:] = sorted(d for d in dirs if d != "out")
        for n in sorted(names):
            if n.endswith(endings):
                yield os.path.join(folder, n)


def read(path):
    with open(path, encoding="utf-8") as f:
        return f.read()


def write(path, text):
    with open(path, "w", encoding="utf-8") as f:
        f.write(text)


def plain(name):
    out = re.sub(r"(?<=[a-z0-9₀-₉])([A-Z])", lambda m: "_" + m.group(1).lower(), name)
    return re.sub(r"(?<=[^\W])-(?=\w)", "_", out)


def declared(root):
    """Names of definitions and constructors, and names of fields."""
    defs, fields = {}, {}
    for p in files(root, (".antt",)):
        kind = None
        for line in read(p).split("\n"):
            if line[:1] not in ("", " ", "-"):
                m = re.match(r"(?:(?:abbrev|unfoldable|pub|private)\s+)*(data|record)\s+(" + WORD + ")", line)
                if m:
                    kind = m.group(1)
                    continue
                kind = None
                m = re.match(NAMES, line)
                if m:
                    for n in m.group(1).split():
                        defs.setdefault(n, set()).add(p)
            elif line.startswith("  ") and not line.strip().startswith("--"):
                m = re.match(r"\s+" + NAMES, line)
                if m:
                    for n in m.group(1).split():
                        (fields if kind == "record" else defs).setdefault(n, set()).add(p)
    return defs, fields


def table(root):
    defs, fields = declared(root)
    rows = {n: new for n, new in OTHER.items()}
    names = sorted(set(defs) | set(fields))
    camel = {plain(n) for n in names if n != plain(n) and "-" not in n}
    for n in names:
        if n in rows or re.match("[A-Z]", n) or "◌" in n:
            continue
        new = plain(n)
        # a lemma that would have its function's name
        if "-" in n and n not in fields and (new in camel or new in names):
            new += "_lem"
        if new != n:
            rows[n] = new
    return rows, {n for n in rows if n in fields}


def turn_antt(text, rows, fields, by_steps=False):
    """Turns the words of rows; where by_steps, behind a dot only fields, since a function's steps are named there."""
    out, before = [], ""
    for m in PIECE.finditer(text):
        w = m.group()
        if w.startswith("--"):
            w = SPAN.sub(lambda s: "`" + turn_words(s.group()[1:-1], rows, fields) + "`", w)
        elif not w.startswith('"') and w in rows and (not by_steps or before != "." or w in fields):
            w = rows[w]
        out.append(w)
        if not w.isspace():
            before = w
    return "".join(out)


def turn_words(text, rows, fields):
    return turn_antt(text, rows, fields) if not text.startswith("--") else text


def block_end(text, at):
    depth = 1
    while depth and at < len(text):
        depth += {"{": 1, "}": -1}.get(text[at], 0)
        at += 1
    return at


def turn_rt(text, rows, fields):
    spans = [m.span() for m in GHOST_USE.finditer(text)]
    for m in CLAUSE.finditer(text):
        spans.append((m.end(), block_end(text, m.end())))
    out, at = [], 0
    for a, b in sorted(spans):
        if a < at:
            continue
        out.append(comments(text[at:a], rows, fields))
        out.append(turn_antt(text[a:b], rows, fields))
        at = b
    out.append(comments(text[at:], rows, fields))
    return "".join(out)


def comments(text, rows, fields):
    return re.sub(
        r"//[^\n]*",
        lambda c: SPAN.sub(lambda s: "`" + turn_words(s.group()[1:-1], rows, fields) + "`", c.group()),
        text,
    )


def main(argv):
    root = "."
    rows, fields = table(root)
    taken = {}
    for old, new in rows.items():
        taken.setdefault(new, []).append(old)
    together = {new: olds for new, olds in taken.items() if len(olds) > 1}
    if "--list" in argv:
        for old, new in rows.items():
            print(old, new, sep="\t")
        for new, olds in together.items():
            print("together:", new, *olds, file=sys.stderr)
        return 0
    for p in files(root, (".antt", ".rt")):
        old = read(p)
        if p.endswith(".antt"):
            new = turn_antt(old, rows, fields, p.endswith("/Proof.antt"))
        else:
            new = turn_rt(old, rows, fields)
        if new != old:
            write(p, new)
    said = set()
    for p in files(root, (".rt",)):
        said.update(re.findall(r'"([a-z0-9-]+)"', read(p)))
    pages = ["README.md"] + [os.path.join("docs", n) for n in sorted(os.listdir("docs")) if n.endswith(".md")]
    for p in pages:
        old = read(p)
        rest = {o: n for o, n in rows.items() if o not in said and o not in HERE}
        new = SPAN.sub(lambda s: "`" + turn_antt(s.group()[1:-1], rest, fields) + "`", old)
        if new != old:
            write(p, new)
    return 0


if __name__ == "__main__":
    raise SystemExit(main(sys.argv[1:]))
