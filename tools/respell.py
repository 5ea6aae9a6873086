#!/usr/bin/env python3
"""Brings this repository's own definitions and lemmas to the spelling of words: snake case in place of dashes.

usage: python3 tools/respell.py [FOLDER]     (once, behind the kit's own scripts; the folder is this repository's, by default the current one)

What is renamed: the definitions, lemmas, fields, constructors and local names with a dash that are declared in crates/*/specs and crates/*/proofs.
What stays: names that the kit makes (goals, steps, invariants), names of its library, Rust items, strings, comments.
In a lemma on the length of something, on an element or on a bit of it, the first dash joins two names and stays.
"""

import os
import re
import sys

ID = r"[^\s(){}\[\];,.:@\"`]+"
NAME = re.compile(r"^(\s*)(?:abbrev |unfoldable |pub |ruleset )*(" + ID + r")\s*:\s(.*)")
HEAD = re.compile(r"^(?:pub )?(?:record|data) (" + ID + ")")
LET = re.compile(r"\blet (" + ID + r")\s*[:=]")
BOUND = re.compile(r"λ ([^.()]*)\.")
TYPED = re.compile(r"[({]((?:" + ID + r"\s+)+):\s")
USE = re.compile(r"^\s*(?:pub )?(?:ghost )?use (\S+?)\.?\{([^}]*)\}", re.M)
MODULE = re.compile(r"^\s*(?:pub )?(?:ghost )?use (\S+?)(?: as (" + ID + r"))?;?\s*$", re.M)
JOINED = ("length-", "getD-", "bit-")
# words of the kit's own scripts stand for these
WORDS = {"getD": "get_or"}
# two names that would fall together, or a word that another thing of the same place has
APART = {}
MADE = re.compile(r"^(loop|returns|then|else|in|in_ok|in_err|invariant|decreases|overflow|overflow_add|bounds|slice_bounds|if|match|type_inv|not)-|-(requires|ensures|init|preserved|smaller)(-\d+)?$")


def spelled(name):
    if name in APART:
        return APART[name]
    for head in JOINED:
        if name.startswith(head):
            first, rest = name.split("-", 1)
            return WORDS.get(first, first) + "-" + rest.replace("-", "_")
    parts = [WORDS.get(w, w) for w in name.split("-")]
    return "_".join(parts)


def files(root, endings):
    for folder, dirs, names in os.walk(os.path.join(root, "crates")):
        dirs[:] = sorted(d for d in dirs if d != "out")
        for f in sorted(names):
            if f.endswith(endings):
                yield os.path.join(folder, f)


def read(path):
    with open(path, encoding="utf-8") as f:
        return f.read()


def bare(line):
    """A line of antt without its comment."""
    m = re.search(r"(?:^|\s)--(?:\s|$)", line)
    return line[: m.start()] if m else line


def declared(root):
    """The names that specs and proofs declare, and those among them that are fields or constructors."""
    names, fields = set(), set()
    for path in files(root, (".antt",)):
        inside = False
        for line in read(path).split("\n"):
            line = bare(line)
            head = HEAD.match(line)
            if head:
                inside = True
                names.add(head.group(1))
            m = NAME.match(line)
            if m and not head:
                made = m.group(3).startswith(("goal.", "need.", "given.")) or m.group(2).startswith(("invariant-loop", "decreases-"))
                if len(m.group(1)) and inside:
                    fields.add(m.group(2))
                elif not made:
                    names.add(m.group(2))
                if not len(m.group(1)):
                    inside = False
            for m in LET.finditer(line):
                names.add(m.group(1))
            for m in BOUND.finditer(line):
                names.update(m.group(1).split())
            for m in TYPED.finditer(line):
                names.update(m.group(1).split())
    return {n for n in names if "-" in n and not n.startswith("-")}, {n for n in fields if "-" in n}


def kept_here(text):
    """Names that a file takes from the kit, and the aliases of modules that it takes from anywhere."""
    kept, aliases = set(), set()
    for m in USE.finditer(text):
        if not re.match(r"Rattle\.(?!std\.)", m.group(1)):
            kept.update(w for part in m.group(2).split(",") for w in part.split(" as ")[:1] for w in w.split())
    for m in MODULE.finditer(text):
        if "{" not in m.group(1):
            aliases.add(m.group(2) or m.group(1).split(".")[-1])
    return kept, aliases


TOKEN = re.compile(r"\"(?:[^\"\\]|\\.)*\"|'[^'\\]'|//[^\n]*|(?<!\S)--(?=\s|$)[^\n]*|" + ID + r"|[.]|\s+|.", re.S)


def respelled(text, names, fields, antt):
    kept, aliases = kept_here(text)
    kept |= {n for n in names if MADE.search(n) and n not in fields and not antt}
    out, before, base, depth = [], "", "", 0
    for m in TOKEN.finditer(text):
        t = m.group(0)
        if t.startswith(("\"", "//")) or re.match(r"--(\s|$)", t):
            out.append(t)
            before = t
            continue
        if re.fullmatch(ID, t):
            dotted = before == "."
            if not dotted:
                base, depth = t, 0
            else:
                depth += 1
            if "-" in t and t not in kept:
                if not dotted and t in names | fields:
                    t = spelled(t)
                elif dotted and t in fields and not (base in ("c", "w", "l") and depth == 1):
                    t = spelled(t)
                elif dotted and t in names and base in aliases:
                    t = spelled(t)
        elif t not in (".",):
            if t != ")":
                base, depth = "", 0
        out.append(t)
        before = t
    return "".join(out)


def main():
    root = sys.argv[1] if len(sys.argv) > 1 else "."
    names, fields = declared(root)
    changed = 0
    for path in files(root, (".antt", ".rt")):
        text = read(path)
        new = respelled(text, names, fields, path.endswith(".antt"))
        if new != text:
            changed += 1
            with open(path, "w", encoding="utf-8") as f:
                f.write(new)
    for folder in (root, os.path.join(root, "docs")):
        for f in sorted(os.listdir(folder)):
            path = os.path.join(folder, f)
            if f.endswith(".md") and f != "PORT.md":
                text = read(path)
                new = re.sub(r"`(" + ID + r")`", lambda m: "`" + (spelled(m.group(1)) if m.group(1) in names | fields else m.group(1)) + "`", text)
                if new != text:
                    changed += 1
                    with open(path, "w", encoding="utf-8") as f2:
                        f2.write(new)
    print(f"{len(names | fields)} names with a dash, {changed} files changed")


if __name__ == "__main__":
    main()
