#!/usr/bin/env python3
"""Respells the names that the definitions, fields and lemmas of crates/ give themselves, as today's Rattle spells names:
words in snake case; a dash joins the names of two definitions, and a plain word is added with an underscore.
Run once, at the top of the repository, after the kit's port.py; --dry prints the map and what to look at, and writes nothing.

Names of src/, exported names, texts, inputs and outputs keep their spelling: a name is renamed only where it is written as a whole
word in antt (specs/, proofs/, clauses of src/ and must-fail edits of these) or between backticks in a page.
"""
import collections
import glob
import os
import re
import sys

# Words of std that names are joined from by a dash, as in `take-append` and `mul-eq-zero`.
STD = set("add sub mul div mod rem pow zero one suc pred le lt eq ne min max or and not if true false cond nil cons append take drop length map "
          "filter reverse sum get get_or set eqb leb ltb range indicator".split())
WORD = r"[^\s(){}\[\].;,@\"«»`:]+"
SIG = re.compile(r"^ *(?P<pre>(?:(?:pub|abbrev|unfoldable) )*)(?P<n>[^\s:(){}]+) : ")

# Where the rule would give two names one spelling, or the name of something else in scope.
BY_HAND = {"in-range": "in_range_lem", "needs-in-range": "needs_in_range_lem", "stored-changes": "stored_changes_lem", "taken_out": "taken_out_lem", "too-high": "too_high_lem", "is-added": "is_added_lem",
           "need-above-degree": "need_above_degree_lem", "sound-ends": "sound_ends_lem", "two-way": "two_way_lem"}


def files():
    for p in sorted(glob.glob("crates/**/*", recursive=True)):
        if "/out/" not in p and "/target/" not in p and p.endswith((".antt", ".rt", ".edit")):
            yield p


def snake(word):
    return re.sub(r"(?<=[a-z0-9])([A-Z])", lambda m: "_" + m[1].lower(), word) if word[:1].islower() else word


def own_names():
    """name -> the kinds under which the crates declare it: definition, type, field, constructor, lemma."""
    kinds = collections.defaultdict(set)
    for p in files():
        if not p.endswith(".antt") or p.endswith("/Lib.antt"):
            continue
        inside = None
        for line in open(p, encoding="utf-8"):
            m = re.match(r"^(?:pub )?(data|record) (?:pub )?(\S+)", line)
            if m:
                kinds[m[2]].add("type")
                inside = m[1]
                continue
            if line.strip() and not line.startswith(" "):
                inside = None
            m = re.match(r"^  (?:pub )?(\S+) : ", line)
            if inside and m:
                kinds[m[1]].add("field" if inside == "record" else "constructor")
                continue
            m = SIG.match(line)
            if m and not re.match(r"(\{.*\} → )?(tie\.|statement )", line[m.end():]):
                kinds[m["n"]].add("definition" if re.search("abbrev|unfoldable", m["pre"]) else "lemma")
    return kinds


def new_names(kinds):
    defs = {snake(n) for n, k in kinds.items() if "-" not in n and k & {"definition", "type", "constructor"}} | STD
    out = {}
    for n in kinds:
        parts = [snake(p) for p in n.split("-")]
        if not all(parts):
            continue
        new = parts[0]
        for before, part in zip(parts, parts[1:]):
            new += ("-" if before in defs and part in defs else "_") + part
        new = BY_HAND.get(n, new)
        if new != n:
            out[n] = new
    return out


def pieces(path, text):
    """(piece, whether names in it are antt's): code of src/ and comments of antt keep names with a dash."""
    if path.endswith(".antt"):
        for piece in re.split(r"((?<![^\s(])--.*)", text):
            yield piece, "comment" if piece.startswith("--") else "antt"
    else:
        for piece in re.split(r"(//.*|\"(?:[^\"\\\n]|\\.)*\"|^#.*)", text, flags=re.M):
            yield piece, "comment" if re.match(r"//|#(?!\[)", piece) else "text" if piece.startswith('"') else "rt"


def respell(path, text, names):
    def one(m):
        return names.get(m[0], m[0])

    out = ""
    for piece, kind in pieces(path, text):
        if kind == "text":
            out += piece
        elif kind == "comment":
            out += re.sub(WORD, lambda m: names.get(m[0], m[0]) if re.search("[a-z][A-Z]", m[0]) else m[0], piece)
        else:
            out += re.sub(WORD, one, piece)
    return out


def main(argv):
    dry = "--dry" in argv
    kinds = own_names()
    names = new_names(kinds)
    back = collections.defaultdict(set)
    for n in kinds:
        back[names.get(n, n)].add(n)
    for new, olds in sorted(back.items()):
        if len(olds) > 1:
            print("look: together:", new, "<-", " ".join(sorted(olds)))
    if dry:
        for n, new in sorted(names.items()):
            print(n, "->", new)
        return
    for p in files():
        text = open(p, encoding="utf-8").read()
        new = respell(p, text, names)
        if new != text:
            open(p, "w", encoding="utf-8").write(new)
    pages = ["README.md", "CHANGELOG.md"] + sorted(glob.glob("docs/*.md") + glob.glob("docs/landings/*.md"))
    for p in pages:
        if not os.path.exists(p) or p.endswith("PORT.md"):
            continue
        text = open(p, encoding="utf-8").read()
        new = re.sub(r"`[^`\n]+`", lambda c: re.sub(WORD, lambda m: names.get(m[0], m[0]) if re.search("[a-z][A-Z]", m[0]) or m[0] == c[0][1:-1] else m[0], c[0]), text)
        if new != text:
            open(p, "w", encoding="utf-8").write(new)


if __name__ == "__main__":
    main(sys.argv[1:])
