#!/usr/bin/env python3
"""Brings the repository's own definitions, lemmas, fields and local facts to Rattle's spelling: snake case, with '_' between words.

usage: python3 tools/respell-names.py [--list]        at the top of the repository, once, right after the kit's port.py

A name that is declared in a file of specs/ or proofs/ and has a capital inside, or dashes, is written in snake case wherever it stands in the
.antt files, in the clauses and ghost lines of the .rt files, and in their comments. A type stays in camel case. A name that a file takes from
the kit keeps its spelling in that file. --list prints the table and the names that would fall together, and writes nothing.
"""

import collections
import glob
import os
import re
import sys

W = r"[^\s(){}.;,@\"«»\[\]\\]+"
DECLARED = re.compile(r"^ *(?:(?:abbrev|unfoldable|opaque|pub|record|data|syntax) )*(%s)(?: [({].*)? : (.*)$" % W)
TOKEN = re.compile(r"--[^\n]*|//[^\n]*|\"(?:[^\"\\]|\\.)*\"|" + W)
KIT_USE = re.compile(r"(?m)^ *(?:pub |ghost )*use (?!Rattle[.·](?!std\b))[^\n;{]*\.\{([^}]*)\}")
# What is a type, and had a small letter.
TYPES = {"isRead": "IsRead", "settledBy": "SettledBy", "is_whole": "IsWhole"}
# Lemmas that would fall together with a definition of this repository: a lemma with its function's name ends in _lem.
LEMMAS = {it: it + "_lem" for it in "digits_of ended_by held_in line_taken next_place has_room".split()}
LEMMAS |= {it: snake_lem for it, snake_lem in {"is-nan": "is_nan_lem", "is-order": "is_order_lem", "members-of": "members_of_lem", "of-fields": "of_fields_lem", "part-of": "part_of_lem", "whole-at": "whole_at_lem"}.items()}
# A record's field may have the name of a definition.
FIELDS = {"return-columns"}
WORDS = {"let", "in", "λ", "with", "where"}


def files():
    for ending in ("antt", "rt"):
        yield from sorted(glob.glob(f"crates/*/*/**/*.{ending}", recursive=True))


def read(path):
    with open(path, encoding="utf-8", newline="") as f:
        return f.read()


def snake(name):
    parts = re.sub(r"(?<=[a-z0-9₀-₉'])(?=[A-Z])", "_", name).replace("-", "_").split("_")
    return "_".join(p[:1].lower() + p[1:] for p in parts)


def table(texts):
    names = set()
    for path, text in texts.items():
        if path.endswith(".antt"):
            for line in text.splitlines():
                m = DECLARED.match(line)
                if m and not line.lstrip().startswith(("--", "use ")) and not m[2].startswith("tie."):
                    names.add(m[1])
    out = {}
    for it in names - WORDS:
        if it in TYPES:
            out[it] = TYPES[it]
        elif it[0].islower() and re.search(r"[a-z0-9][A-Z]|[a-zA-Z0-9]-[a-zA-Z0-9]", it):
            out[it] = snake(it)
    camel = {v for k, v in out.items() if "-" not in k}
    for it, new in out.items():
        if "-" in it and new in camel and it not in FIELDS:
            out[it] = new + "_lem"
    return {**out, **LEMMAS}


def turned(path, text, names):
    kept = set()
    for m in KIT_USE.finditer(text):
        for it in m[1].split(","):
            kept.add(it.split(" as ")[0].strip())
    camel = {k: v for k, v in names.items() if "-" not in k}

    def one(m):
        it = m[0]
        if it.startswith(("--", "//")):
            it = re.sub(W, lambda w: camel.get(w[0], w[0]), it)
            return re.sub(r"`[^`]*`", lambda b: re.sub(W, lambda w: names.get(w[0].strip("`"), w[0]), b[0]), it)
        if it.startswith('"') or it in kept:
            return it
        # A function's name in a module's path stays.
        if it in LEMMAS and "-" not in it and (path.endswith(".rt") or "." in (text[m.start() - 1], text[m.end() : m.end() + 1])):
            return it
        return names.get(it, it)

    return TOKEN.sub(one, text)


def main(argv):
    texts = {p: read(p) for p in files()}
    names = table(texts)
    if argv == ["--list"]:
        used = collections.defaultdict(set)
        for p, t in texts.items():
            if p.endswith(".antt"):
                for w in TOKEN.findall(t):
                    used[w].add(p)
        for old, new in sorted(names.items()):
            both = used[old] & used[new]
            if both:
                print("together:", old, new, " ".join(sorted(both)[:4]), len(both))
        back = collections.defaultdict(list)
        for old, new in names.items():
            back[new].append(old)
        for new, olds in sorted(back.items()):
            if len(olds) > 1:
                print("twice:", new, olds)
        print(len(names))
        return 0
    for p, t in texts.items():
        new = turned(p, t, names)
        if new != t:
            with open(p, "w", encoding="utf-8", newline="") as f:
                f.write(new)
    return 0


if __name__ == "__main__":
    raise SystemExit(main(sys.argv[1:]))
