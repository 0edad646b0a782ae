#!/usr/bin/env python3
"""Brings the repository's own definitions and lemmas to the spelling of today's Rattle: words in snake case.

usage: tools/respell.py [FOLDER]      once, at the top of a repository that port.py has turned

A word in camel case that begins small (a definition, a field, a constructor, a variable) gets underscores, wherever it stands in crates/: in specs/, proofs/, the clauses of
src/ and the texts of must-fail/*.edit. A dash in the name of a lemma of proofs/*.antt becomes an underscore, unless it joins two names. Names of the library, names that
Rattle makes and functions of src/ keep theirs. A lemma that would have a definition's name then gets _lem (LEMMAS).
"""
import glob
import os
import re
import sys

KIT = os.environ.get("RATTLE_KIT", "/opt/rattle")
# A lemma that would have a definition's name.
LEMMAS = {n: n + "_lem" for n in ("ends_of", "no_cell", "of_one", "of_two", "room_of", "rule_fits")}
CAMEL = re.compile(r"(?<![\w'\-·◌])[a-z][\w]*[A-Z][\w']*(?![\w\-])")
DEFINED = re.compile(r"^\s*(?:abbrev |unfoldable )?(?:pub )?((?:[^\s(){}:;,.]+ )*?[^\s(){}:;,.]+) :(?= |$)", re.M)


def antt(root, *parts):
    return sorted(glob.glob(os.path.join(root, "crates", "*", *parts), recursive=True))


def read(path):
    with open(path, encoding="utf-8") as f:
        return f.read()


def bare(text):
    return re.sub(r"--.*", "", text)


def snake(word):
    word = re.sub(r"([a-z0-9])([A-Z])", r"\1_\2", word)
    word = re.sub(r"([A-Z])([A-Z][a-z])", r"\1_\2", word)
    return word.lower()


def library():
    """Every word of the kit's own .antt files."""
    words = set()
    for folder, dirs, files in os.walk(os.path.join(KIT, "rattle")):
        dirs[:] = [d for d in dirs if d not in ("examples", "tests", "out")]
        for f in files:
            if f.endswith(".antt"):
                words.update(re.findall(r"[\w'\-]+", read(os.path.join(folder, f))))
    return words


def main(root):
    specs, lemmas = antt(root, "specs", "**", "*.antt"), antt(root, "proofs", "*.antt")
    walks = [p for p in antt(root, "proofs", "**", "*.antt") if p not in set(lemmas)]
    sources = antt(root, "src", "**", "*.rt")
    edits = antt(root, "must-fail", "*.edit")
    kit = library()
    tokens, camel = set(), set()
    for p in specs + lemmas + walks:
        t = bare(read(p))
        tokens.update(re.findall(r"(?<![\w'\-.])[\w'\-]+", re.sub(r"^\s*use \S+?(?=\.?\{|$| as )", "", t, flags=re.M)))
        camel.update(CAMEL.findall(t))
    for p in sources:
        t = re.sub(r"//.*", "", read(p))
        camel.update(CAMEL.findall(t))
    names = set()
    for p in specs:
        for m in DEFINED.finditer(bare(read(p))):
            names.update(m.group(1).split())
    turned, clashes = dict(LEMMAS), []
    for w in sorted(camel):
        if w in kit and w not in names or re.search("_[A-Z]", w):
            continue
        new = snake(w)
        if new in tokens and new not in LEMMAS:
            clashes.append((w, new))
            continue
        turned[w] = new
    known = {turned.get(n, n) for n in names} | {w for w in kit if "-" not in w}
    made = set()
    for p in walks:
        for m in DEFINED.finditer(bare(read(p))):
            made.update(m.group(1).split())
    dashed = set()
    for p in lemmas:
        for m in DEFINED.finditer(bare(read(p))):
            dashed.update(w for w in m.group(1).split() if re.fullmatch(r"[\w']+(-[\w']+)+", w))
    for w in sorted(dashed):
        if w in kit or w in made:
            continue
        parts = [turned.get(x, snake(x) if CAMEL.fullmatch(x) else x) for x in w.split("-")]
        new = parts[0]
        for a, b in zip(parts, parts[1:]):
            new += ("-" if a in known and b in known else "_") + b
        if new == w:
            continue
        if new in tokens or new in turned.values():
            clashes.append((w, new))
            continue
        turned[w] = new
    for w, new in clashes:
        print(f"left: {w}: {new} stands for another thing")
    word = re.compile(r"(?<![\w'\-·])[a-z][\w'\-]*")
    changed = 0
    for p in specs + lemmas + walks + sources + edits:
        t = read(p)
        kept = LEMMAS if p in sources or p in edits else {}
        n = word.sub(lambda m: m.group() if m.group() in kept or t[max(0, m.start() - 1)] == "." and m.group() in LEMMAS else turned.get(m.group(), m.group()), t)
        if n != t:
            changed += 1
            with open(p, "w", encoding="utf-8") as f:
                f.write(n)
    print(f"{len(turned)} names respelled in {changed} files")
    if "--names" in sys.argv:
        for w in sorted(turned):
            print(w, turned[w])


main(next((a for a in sys.argv[1:] if not a.startswith("-")), "."))
