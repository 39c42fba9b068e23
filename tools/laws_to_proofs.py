#!/usr/bin/env python3
"""Moves the laws of specs/ to proofs/, and leaves definitions and computed examples where they are.

Today's Rattle takes an edit of a definition for unread where a law of specs/ on which others rest falls with it; a law of proofs/ falls as a proof does.
A file of laws moves whole. Of a file with definitions and laws the laws move to a file of its name in proofs/. What a law says does not change, nor does its name;
each line that names it follows. Run at the top of the repository; it may run again after new files came in. It prints what it moved.
"""
import collections
import glob
import os
import re
import subprocess
import sys

# Crates whose files are examples as a whole, and files of examples.
# A file whose module has definitions and laws in one: it moves whole, as no clause names it. A name of a file's own that a definition has for a variable.
WHOLE = {"write_spec/WrittenBytes"}
LAWS_OWN = {"number"}
# Rattle makes modules for functions and types in proofs/: a file whose name differs from such a one in case alone has another name there.
NAMED = {("fraction", "Lowest"): "LowestTerms", ("fraction", "Gcd"): "GcdLaws", ("fraction", "Lcm"): "LcmLaws", ("text", "Decimal"): "DecimalLaws"}
STAY = re.compile(r"^starred_cases/|/\w*Examples$")
DECL = re.compile(r"^(?P<pre>(?:(?:pub|abbrev|unfoldable) )*)(?P<n>[^\s:(){}]+) : ")


def read(p):
    with open(p, encoding="utf-8") as f:
        return f.read()


def write(p, t):
    os.makedirs(os.path.dirname(p), exist_ok=True)
    with open(p, "w", encoding="utf-8") as f:
        f.write(t)


def files(*ends):
    for p in sorted(glob.glob("crates/**/*", recursive=True)):
        if "/out/" not in p and p.endswith(ends) and os.path.isfile(p):
            yield p


def blocks(lines, depth):
    """The blank-line-separated blocks of lines at this indentation; a block whose first line is further in belongs to the one before it."""
    out, now = [], []
    for i, line in enumerate(lines):
        if not line.strip():
            ahead = next((k for k in lines[i + 1:] if k.strip()), "")
            if now and (len(ahead) - len(ahead.lstrip()) <= depth):
                out.append(now)
                now = []
            elif now:
                now.append(line)
        else:
            now.append(line)
    if now:
        out.append(now)
    return out


def kind(block, depth):
    """'def', 'law', 'note' (a comment alone), or for a module a pair: its head and its blocks with their kinds."""
    code = [l[depth:] for l in block if l.strip() and not l.lstrip().startswith("--")]
    if not code:
        return "note"
    first = code[0]
    if re.match(r"infix|pub (data|record) |(abbrev|unfoldable) pub ", first):
        return "def"
    if re.match(r"(data|record|abbrev|unfoldable) ", first):
        return "own"
    if first.startswith("module "):
        at = next(i for i, l in enumerate(block) if l[depth:].startswith("module "))
        at = next(i for i in range(at, len(block)) if block[i].rstrip().endswith("where"))
        inner = [(b, kind(b, depth + 2)) for b in blocks(block[at + 1:], depth + 2)]
        kinds = {k if isinstance(k, str) else "mixed" for b, k in inner} - {"note"}
        if len(kinds) == 1 and kinds <= {"def", "own"}:
            return kinds.pop()
        if "def" not in kinds and "mixed" not in kinds:
            return "law"
        return (block[:at + 1], inner)
    return "law"


def settle(tree, cited):
    """What a file keeps to itself stands with the definitions that cite it, and else with the laws."""
    return [(b, (k[0], settle(k[1], cited)) if not isinstance(k, str) else ("def" if names(b) & cited - LAWS_OWN else "law") if k == "own" else k) for b, k in tree]


def part(tree, want, depth=0):
    """The lines of the blocks of this kind, and the modules round them."""
    out, note = [], []
    for block, k in tree:
        if k == "note":
            note = block
            continue
        if k == want:
            out += [*([*note, ""] if note else []), *block, ""]
            note = []
        elif not isinstance(k, str):
            inner = part(k[1], want, depth + 2)
            if any(l.strip() for l in inner):
                out += [*([*note, ""] if note else []), *k[0], *inner]
                note = []
    return out


def names(lines, all_of_them=True):
    """The names that these lines declare at a file's or a module's level."""
    got = set()
    inside = None
    for line in lines:
        m = re.match(r"^ *(?:pub )?(data|record) (?:pub )?(\S+)", line)
        if m:
            got.add(m[2])
            inside = (m[1], len(line) - len(line.lstrip()))
            continue
        if inside and line.strip() and len(line) - len(line.lstrip()) <= inside[1]:
            inside = None
        m = re.match(r"^ *(?:pub )?(\S+) : ", line)
        if inside and inside[0] == "data" and m:
            got.add(m[1])
            continue
        m = DECL.match(line.strip()) if not inside and not line.strip().startswith("{") and len(line) - len(line.lstrip()) in (0, 2, 4) else None
        if m:
            got.add(m["n"])
    return got


def words(t):
    w = set(re.split(r"[\s(){},;\[\]@]+", t)) | ({"[]"} if "[]" in t else set())
    return w | {x for k in w for x in k.split(".")}


def used(item, have):
    b = item.split(" as ")[-1]
    if b == "[]":
        return "[]" in have
    return b in have or ("◌" in b and all(x in have for x in b.split("◌") if x))


def with_uses(comment, uses, body):
    have = words("\n".join(l for l in body if not l.lstrip().startswith("--")))
    out = list(comment)
    for u in uses:
        m = re.match(r"^use (\S+)\.\{(.*)\}$", u)
        if not m:
            out.append(u)
            continue
        keep = [n for n in m[2].split(", ") if used(n, have)]
        if keep:
            out.append(f"use {m[1]}.{{{', '.join(keep)}}}")
    return "\n".join([*out, "", *body]).rstrip() + "\n"


def main():
    gone = collections.defaultdict(set)
    for p in list(files(".antt")):
        _, crate, folder, *rest = p.split("/")
        name = rest[-1][:-5]
        if folder != "specs" or name == "Lib" or STAY.search(f"{crate}/{name}"):
            continue
        lines = read(p).split("\n")
        at = next((i for i, l in enumerate(lines) if l.strip() and not l.startswith(("--", "use "))), len(lines))
        while at and lines[at - 1].startswith("--"):
            at -= 1
        head, body = lines[:at], lines[at:]
        tree = [(b, kind(b, 0)) for b in blocks(body, 0)]
        tree = settle(tree, words("\n".join(l for l in part(tree, "def") if not l.lstrip().startswith("--"))))
        laws, defs = part(tree, "law"), part(tree, "def")
        if not any(l.strip() for l in laws):
            continue
        comment = [l for l in head if l.startswith("--")]
        uses = [l for l in head if l.startswith("use ")]
        new = NAMED.get((crate, name), name)
        to = f"crates/{crate}/proofs/{new}.antt"
        lib = f"crates/{crate}/proofs/Lib.antt"
        if f"{crate}/{name}" not in WHOLE and any(re.match(r"^ *((abbrev|unfoldable) pub|pub (data|record))", l) for l in defs):
            write(to, with_uses(comment, uses + [f"use Rattle.{crate}.specs.{name}.{{{', '.join(sorted(names(defs)))}}}"], laws))
            write(p, with_uses(comment, uses, defs))
            gone[crate, name] = names(laws)
        else:
            os.makedirs(f"crates/{crate}/proofs", exist_ok=True)
            subprocess.run(["git", "mv", "-f", p, to], check=True)
            specs = f"crates/{crate}/specs/Lib.antt"
            write(specs, re.sub(rf"^pub mod {name}\n", "", read(specs), flags=re.M))
            gone[crate, name] = None
        have = read(lib) if os.path.exists(lib) else ""
        if not re.search(rf"^pub mod {new}$", have, re.M):
            write(lib, have + f"pub mod {new}\n")
        print(f"{crate}/{name}" + ("" if gone[crate, name] is None else ": " + " ".join(sorted(gone[crate, name]))))
    # What stands in proofs/ now, and not in specs/: found in the tree, so that files that come in later follow too.
    moved = {}
    old = {(c, b): a for (c, a), b in NAMED.items()}
    for p in glob.glob("crates/*/proofs/*.antt"):
        crate, name = p.split("/")[1], os.path.basename(p)[:-5]
        if name != "Lib":
            spec = f"crates/{crate}/specs/{name}.antt"
            moved[crate, old.get((crate, name), name)] = None if not os.path.exists(spec) else names(read(p).split("\n")) - names(read(spec).split("\n"))
    for p in files(".antt", ".rt", ".edit"):
        t = read(p)

        def line(m):
            key = (m["c"], m["m"])
            if key not in moved:
                return m[0]
            laws = moved[key]
            if laws is None:
                return f"{m['pre']}Rattle.{m['c']}.proofs.{NAMED.get(key, m['m'])}.{{{m['n']}}}{m['post']}"
            a = [n for n in m["n"].split(", ") if n.split(" as ")[0] not in laws]
            b = [n for n in m["n"].split(", ") if n.split(" as ")[0] in laws]
            out = [f"{m['pre']}Rattle.{m['c']}.{f}.{m['m']}.{{{', '.join(k)}}}{m['post']}" for f, k in (("specs", a), ("proofs", b)) if k]
            return "\n".join(out)

        n = re.sub(r"^(?P<pre>(?:ghost )?use )Rattle\.(?P<c>\w+)\.specs\.(?P<m>\w+)\.\{(?P<n>.*)\}(?P<post>;?)$", line, t, flags=re.M)
        if p.endswith(".edit"):
            crate = p.split("/")[1]
            n = re.sub(r"^file: specs/(\w+)\.antt$", lambda m: f"file: proofs/{NAMED.get((crate, m[1]), m[1])}.antt" if moved.get((crate, m[1]), 0) is None else m[0], n, flags=re.M)
        if n != t:
            write(p, n)


if __name__ == "__main__":
    sys.exit(main())
