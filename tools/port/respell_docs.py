#!/usr/bin/env python3
"""Brings the names that the pages cite to today's spelling, once, behind port.py and respell.py.

usage: tools/port/respell_docs.py OLD      at the top; OLD is a folder with the repository as it landed before

A name in backticks that OLD declares in specs/ or proofs/, and that is spelled otherwise today, is written as today: by respelled.tsv beside
this file, and where port.py turned it, by the spelling that specs/ and proofs/ have now. Paths of files, functions of src/ and edits keep theirs.
"""
import os
import re
import subprocess
import sys

NAME = r"[^\s(){}.;,@\"«»`|]+"
HERE = os.path.dirname(os.path.abspath(__file__))


def declared(root):
    names = {}
    for folder, _, files in os.walk(os.path.join(root, "crates")):
        for f in files:
            if f.endswith(".antt"):
                with open(os.path.join(folder, f), encoding="utf-8") as it:
                    for m in re.finditer(r"(?m)^ *(?:abbrev |unfoldable |pub |record |data )*(" + NAME + r")(?: \{[^}\n]*\})* ?[:(]", it.read()):
                        names.setdefault(m[1], set()).add(os.path.relpath(os.path.join(folder, f), root))
    return names


def main(old):
    turned = dict(l.rstrip("\n").split("\t") for l in open(os.path.join(HERE, "respelled.tsv"), encoding="utf-8"))
    before, now = declared(old), declared(".")
    # respelled.tsv speaks of what port.py left: follow both steps, by the place of the declaration
    new = {}
    for name, where in before.items():
        if name in now and where & now[name]:
            continue
        plain = re.sub(r"(?<=[a-z0-9])[A-Z]", lambda m: "_" + m[0].lower(), name).replace("-", "_").replace("′", "'")
        for it in (turned.get(name), turned.get(name.replace("′", "'")), plain, plain + "_lem", turned.get(plain)):
            if it and it in now and where & now[it]:
                new[name] = it
                break
    pages = subprocess.run(["git", "ls-files", "*.md", "c/*.h", "NOTICE"], capture_output=True, text=True, check=True).stdout.split()
    count = 0
    for page in pages:
        if page == "docs/PORT.md":
            continue
        with open(page, encoding="utf-8") as it:
            text = it.read()

        def tick(m):
            inside = m[1]
            if re.search(r"/(src|must-fail)/|^src/", inside):
                return m[0]
            path = re.match(r"(.*/(?:specs|proofs)/[^:]*:)(.*)", inside)
            head, rest = (path[1], path[2]) if path else ("", inside)
            if not path and "/" in inside:
                return m[0]
            return "`" + head + re.sub(NAME, lambda t: new.get(t[0], t[0]), rest) + "`"

        changed = re.sub(r"`([^`\n]+)`", tick, text)
        if changed != text:
            count += 1
            with open(page, "w", encoding="utf-8") as it:
                it.write(changed)
    print(f"names: {len(new)}, pages: {count}")


if __name__ == "__main__":
    main(sys.argv[1])
