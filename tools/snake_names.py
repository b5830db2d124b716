#!/usr/bin/env python3
"""Brings the definitions and lemmas of this repository to today's spelling: words in snake case, types and facts in camel case.

usage: python3 tools/snake_names.py FOLDER [COMMIT]    FOLDER is a checkout of this repository, right after port.py ran there;
                                                       COMMIT is where the names of edits and pages are read off (the last landed commit)

A name is one of ours if a file of specs/ or a file of lemmas in proofs/ declares it. In those files every name with a dash that is not
imported from a library is turned, local ones too; in a function's proof, in src/, in edits and in pages the declared ones. A name that
would fall together with one that a file already has is listed and left as it is.
"""

import os
import re
import subprocess
import sys

TOP = sys.argv[1]
CRATES = os.path.join(TOP, "crates")
DECLARES = re.compile(r"^\s*(?:(?:unfoldable|abbrev|pub|data|record|ruleset)\s+)*([^\s(){}\[\],;.:\"]+)(?:\s+\S.*)?\s*:(?:\s|$)")
USE = re.compile(r"(?:^|\n)\s*(?:pub |ghost )*use ([^\s{;]+?)(?:\.\{([^}]*)\})?(?: as (\S+?))?;?(?=\n|$)")
# a quoted text, a remark, or a word
PIECE = re.compile(r"\"(?:[^\"\\\n]|\\.)*\"|(?://|--)[^\n]*|[^\s(){}\[\],;.:\"⌜⌝`]+|.", re.S)
OWN_ROOT = re.compile(r"^Rattle[.·](\w+)")


def turned(name):
    parts = name.split("-")
    if name[0].isupper():
        return "".join(p[:1].upper() + p[1:] for p in parts)
    return "_".join(parts)


def dashed(word):
    return re.search(r"[^\s-]-[^\s-]", word) and not word.startswith("-")


def files(ends):
    for folder, dirs, names in os.walk(CRATES):
        dirs[:] = sorted(d for d in dirs if d not in ("out", "target"))
        for n in sorted(names):
            if n.endswith(ends):
                yield os.path.join(folder, n)


def of_function(path):
    parts = os.path.relpath(path, CRATES).split(os.sep)
    return parts[1] == "proofs" and len(parts) > 3


def declared(text):
    found = set()
    for line in text.splitlines():
        m = DECLARES.match(line)
        if m and dashed(m.group(1)) and not line.lstrip().startswith("--"):
            found.add(m.group(1))
    return found


def imports(text, own_crates):
    """The names that a file has from libraries, and its short names for their modules."""
    names, modules = set(), set()
    for path, items, alias in USE.findall(text):
        m = OWN_ROOT.match(path)
        if m and m.group(1) in own_crates:
            continue
        for item in items.split(","):
            item = item.strip()
            if item:
                names.add(item.split(" as ")[0].strip())
        if alias:
            modules.add(alias)
    return names, modules


def aliases(text):
    """The names that a file gives to what it imports."""
    found = set()
    for _, items, _ in USE.findall(text):
        found |= {i.split(" as ")[1].strip() for i in items.split(",") if " as " in i}
    return {f for f in found if dashed(f)}


def turn(text, chosen, keep, modules):
    """chosen(word, qualified) says whether a word is turned."""
    out, before, last = [], "", ""
    for piece in PIECE.findall(text):
        new = piece
        if piece.startswith(("//", "--")):
            new = re.sub(r"`([^`\n]*)`", lambda m: "`" + re.sub(r"[^\s(){}\[\],;.:]+", lambda w: turned(w.group(0)) if dashed(w.group(0)) and chosen(w.group(0), False) else w.group(0), m.group(1)) + "`", piece)
        elif not piece.startswith('"') and dashed(piece):
            qualified = last == "."
            if piece not in keep and not (qualified and before in modules) and chosen(piece, qualified):
                new = turned(piece)
        out.append(new)
        if piece.strip() and piece != ".":
            before = piece
        last = piece
    return "".join(out)


def main():
    own_crates = set(os.listdir(CRATES))
    own = set()
    for p in files(".antt"):
        if not of_function(p):
            text = open(p, encoding="utf-8").read()
            own |= declared(text) | aliases("\n".join(l for l in text.splitlines() if l.startswith("pub use")))
    clashes = 0
    for p in files((".antt", ".rt")):
        text = open(p, encoding="utf-8").read()
        keep, modules = imports(text, own_crates)
        lemmas = p.endswith(".antt") and not of_function(p)
        words = set(re.findall(r"[^\s(){}\[\],;.:\"`]+", text))
        for w in sorted(words):
            if dashed(w) and w in own and w not in keep and turned(w) in words:
                print(f"falls together: {os.path.relpath(p, TOP)}: {w} and {turned(w)}")
                clashes += 1
        ours = own | aliases(text)
        new = turn(text, lambda w, q: w in ours or (lemmas and not q), keep, modules)
        if new != text:
            open(p, "w", encoding="utf-8").write(new)
    olds = set(own)
    if len(sys.argv) > 2:
        listed = subprocess.run(["git", "ls-tree", "-r", "--name-only", sys.argv[2], "crates"], cwd=TOP, capture_output=True, text=True, check=True).stdout.split("\n")
        for name in listed:
            parts = name.split("/")
            if name.endswith(".antt") and not (parts[2] == "proofs" and len(parts) > 4):
                olds |= declared(subprocess.run(["git", "show", f"{sys.argv[2]}:{name}"], cwd=TOP, capture_output=True, text=True, check=True).stdout)
    for p in files(".edit"):
        text = open(p, encoding="utf-8").read()
        out = []
        for line in text.splitlines(keepends=True):
            m = re.match(r"(old|new): ", line)
            out.append(line if not m else m.group(0) + turn(line[m.end():], lambda w, q: w in olds, set(), set()))
        if "".join(out) != text:
            open(p, "w", encoding="utf-8").write("".join(out))
    pages = [os.path.join(TOP, "README.md")] + [os.path.join(TOP, "docs", f) for f in sorted(os.listdir(os.path.join(TOP, "docs"))) if f.endswith(".md")]
    for p in pages:
        text = open(p, encoding="utf-8").read()
        new = re.sub(r"`([^`\n]*)`", lambda m: "`" + re.sub(r"[^\s(){}\[\],;.:]+", lambda w: turned(w.group(0)) if dashed(w.group(0)) and w.group(0) in olds else w.group(0), m.group(1)) + "`", text)
        if new != text:
            open(p, "w", encoding="utf-8").write(new)
    print(f"{len(own)} names of ours had a dash; {clashes} places where a turned name falls together with another")


main()
