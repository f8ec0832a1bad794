#!/usr/bin/env python3
"""Brings the texts of must-fail edits to the spelling that respell.py gave the files that they edit.

usage: respell_edits.py ROOT

Only edits whose old text no longer stands in its file are turned: names by respell.py's rules, projections written tight (`c .passed` -> `c.passed`), `getD` -> `get_or`.
It prints the edits that still do not fit: bring those over by hand, with the same wrong meaning.
"""
import importlib.util
import os
import re
import sys

here = os.path.dirname(os.path.abspath(__file__))
spec = importlib.util.spec_from_file_location("respell", os.path.join(here, "respell.py"))
respell = importlib.util.module_from_spec(spec)
spec.loader.exec_module(respell)
WORDS = {"getD": "get_or"}


def fits(crate, text):
    file, texts, old = None, {}, None
    for key, value in re.findall(r"^(file|old|new): ?(.*)$", text, re.M):
        if key == "file":
            file = value
            path = os.path.join(crate, file)
            texts.setdefault(file, open(path, encoding="utf-8").read() if os.path.exists(path) else "")
        elif key == "old":
            old = value
            if texts[file].count(old) != 1:
                return False
        else:
            texts[file] = texts[file].replace(old, value)
    return True


def turned(line, crate, dashed):
    own = respell.OWN_RESULT.get(crate)

    def one(m):
        t = m.group(0)
        if t.startswith('"'):
            return t
        if t in respell.SPECIAL:
            return respell.SPECIAL[t]
        return WORDS.get(t) or respell.renamed(t, dashed)

    line = respell.TOKEN.sub(one, line)
    while True:
        tight = re.sub(r"(?<=[\w)'»]) \.(?=[a-z0-9«])", ".", line)
        tight = re.sub(r"\(([\w'.-]+)\)(?=$)", r"(\1)", tight)
        if tight == line:
            return re.sub(r"(?<![\w.)])\(([a-z][\w'-]*(?:\.[\w'-]+)+)\)", r"\1", line)
        line = tight


def main(root):
    top = os.path.join(root, "crates")
    dashed = {"-".join(respell.snake(p) for p in f.split("-")) for f in respell.fields(root)}
    for c in sorted(os.listdir(top)):
        folder = os.path.join(top, c, "must-fail")
        if not os.path.isdir(folder):
            continue
        for e in sorted(os.listdir(folder)):
            path = os.path.join(folder, e)
            text = open(path, encoding="utf-8").read()
            if fits(os.path.join(top, c), text):
                continue
            lines = []
            for l in text.split("\n"):
                m = re.match(r"(old|new):( ?)(.*)$", l)
                lines.append(f"{m.group(1)}:{m.group(2)}{turned(m.group(3), c, dashed)}" if m else l)
            new = "\n".join(lines)
            if fits(os.path.join(top, c), new):
                open(path, "w", encoding="utf-8").write(new)
            else:
                print(f"{c}/{e}")
                print("\n".join("    " + l for l in lines if l.startswith(("old", "new"))))


if __name__ == "__main__":
    main(sys.argv[1])
