#!/usr/bin/env python3
"""Gives a crate another name, where today's Rattle has a library of the old one.

usage: rename_crate.py ROOT OLD NEW

It moves crates/OLD and turns crates.txt, paths of Rust code (OLD::), paths of the logic (Rattle.OLD.) and comments' `OLD::`.
"""
import os
import re
import subprocess
import sys

root, old, new = sys.argv[1:]
subprocess.run(["git", "mv", f"crates/{old}", f"crates/{new}"], cwd=root, check=True)
for folder, dirs, names in os.walk(os.path.join(root, "crates")):
    dirs[:] = [d for d in dirs if d != "out"]
    for n in names:
        if not n.endswith((".rt", ".antt", ".edit")):
            continue
        path = os.path.join(folder, n)
        text = open(path, encoding="utf-8").read()
        turned = re.sub(rf"\bRattle\.{old}\.", f"Rattle.{new}.", text)
        turned = re.sub(rf"(?<![\w.]){old}::", f"{new}::", turned)
        if turned != text:
            open(path, "w", encoding="utf-8").write(turned)
path = os.path.join(root, "crates.txt")
text = open(path, encoding="utf-8").read()
lines = [re.sub(rf"(?<![\w]){old}(?![\w])", new, l) if not l.startswith("#") else l for l in text.splitlines(keepends=True)]
open(path, "w", encoding="utf-8").write("".join(lines))
