#!/usr/bin/env python3
"""Brings the repository's own names to the spelling of today's Rattle, after the kit's port.py has run.

usage: respell.py [--check] ROOT

  bytesOf, bytesOf-at        ->  bytes_of, bytes_of-at      functions and lemmas in snake case; types and modules stay in camel case
  path-length (a field)      ->  path_length                a field is one word, a dash joins two names
  result (four definitions)  ->  tree_result, ..            `result` is what a function returns, in a clause
  ensures* { λ r. ⌜ P r ⌝ }  ->  ensures { P result }       clauses that port.py leaves for that reason

It rewrites crates/*/{src,specs,proofs} in place. Names of Rust code, strings, inputs and outputs stay. It prints each pair of names that would
fall together in one file, and each new name that a file has already, and exits with 1 then. --check writes nothing. Run it once.
"""
import os
import re
import sys

W = r"[^\s(){}.;,@\"«»\[\]\\:`]+"
OWN_RESULT = {"tree": "tree_result", "formats": "format_result", "store": "finish_result", "asks": "ask_result"}
# files of other crates that cite one of those by its bare name
CITES = {"promises/specs/Wrong.antt": "ask_result", "runs/proofs/Steps.antt": "format_result"}
TOKEN = re.compile(r"\"(?:[^\"\\\n]|\\.)*\"|" + W)
COMMENT = re.compile(r"(--|//)[^\n]*")
# Fields and lemmas whose new spelling another name has already: these get another word.
SPECIAL = {
    "are-leaves": "leaves_are_good",
    "places-good": "places_are_good",
    "request-good": "request_is_good",
    "stash-good": "stash_is_good",
    "most-ids": "ids_at_most",
    "most-room": "room_at_most",
    "leaf-asked": "asked_leaf",
    "new-leaf": "new_leaf_low",
}
# In the proof of a function such a word may be a step of the code, which keeps its name: only these are fields there.
IN_WALKS = {
    "gathering/proofs/arrange/Proof.antt": ("most-ids", "most-room"),
    "store/proofs/finish_open/Proof.antt": ("new-leaf",),
}
# Lemmas that have the name that a definition now gets.
LEMMAS = {
    "desk/proofs/Exactly.antt": ("place_at",),
    "keeping/proofs/OnePlace.antt": ("same_block",),
    "opening/proofs/Genuine.antt": ("each_fits",),
    "placing/proofs/Laid.antt": ("block_in",),
    "placing/proofs/Placing.antt": ("same_block",),
    "placing/proofs/Rising.antt": ("same_block",),
    "promises/proofs/AnyTaps.antt": ("write_checked",),
    "promises/proofs/TapsExist.antt": ("write_checked",),
    "returning/proofs/Entries.antt": ("is_said",),
    "returning/proofs/Heads.antt": ("plan_after",),
}


def snake(part):
    if not re.match(r"[a-z][a-z0-9_']*[A-Z]", part):
        return part
    return re.sub(r"(?<=[a-z0-9'_])([A-Z])", lambda m: "_" + m.group(1).lower(), part)


def files(root):
    top = os.path.join(root, "crates")
    for crate in sorted(os.listdir(top)):
        for part in ("src", "specs", "proofs"):
            for folder, dirs, names in os.walk(os.path.join(top, crate, part)):
                dirs.sort()
                for n in sorted(names):
                    if n.endswith((".rt", ".antt")):
                        yield crate, os.path.join(folder, n)


def fields(root):
    """The names of record fields that have a dash."""
    found = set()
    for crate, path in files(root):
        if not path.endswith(".antt"):
            continue
        inside = False
        for line in open(path, encoding="utf-8"):
            if re.match(r"((pub|abbrev|unfoldable|private) )*record\b", line):
                inside = True
            elif line.strip() and not line.startswith((" ", "--")):
                inside = False
            m = re.match(r"  (?:pub )?(" + W + r") : ", line)
            if inside and m and "-" in m.group(1):
                found.add(m.group(1))
    return found


def renamed(token, dashed):
    token = "-".join(snake(p) for p in token.split("-"))
    if token in dashed:
        token = token.replace("-", "_")
    return token


def turn(text, rust, crate, name, dashed, clashes, path):
    own = OWN_RESULT.get(crate) or CITES.get(name)
    # only where the file has the definition or brings it in: elsewhere `result` is what a function returns
    if own and not re.search(r"[{,] ?result[,}]|^abbrev pub result\b", text, re.M):
        own = None
    before = set()

    remarks = [(m.start(), m.end()) for m in COMMENT.finditer(text)]

    def one(m):
        t = m.group(0)
        if t.startswith('"'):
            return t
        prev = text[m.start() - 1] if m.start() else ""
        walk = "/proofs/" in name and name.count("/") > 2
        if t in SPECIAL and (not walk or t in IN_WALKS.get(name, ())):
            new = SPECIAL[t]
        elif t in LEMMAS.get(name, ()):
            new = t + "_lem"
        else:
            new = renamed(t, dashed)
        if own and t == "result" and prev != "." and not any(a <= m.start() < b for a, b in remarks):
            new = own
        before.add((t, new))
        return new

    # fields' new spelling is looked up after camel case went, so both sets are needed
    out = TOKEN.sub(one, text)
    news = {}
    for old, new in sorted(before):
        news.setdefault(new, set()).add(old)
    for new, olds in news.items():
        if len(olds) > 1:
            clashes.append((path, new, sorted(olds)))
    return out


def clauses(text, own):
    def one(m):
        v, body = m.group(1), m.group(2)
        if v != "_":
            body = re.sub(rf"(?<![\w.'-]){re.escape(v)}(?![\w'-])", "result", body)
        return "ensures { " + body + " }"

    return re.sub(r"ensures\* \{ λ (\w+)\. ⌜ (.*?) ⌝ \}", one, text, flags=re.S)


def main(argv):
    check = "--check" in argv
    root = [a for a in argv if not a.startswith("--")][0]
    dashed = {"-".join(snake(p) for p in f.split("-")) for f in fields(root)}
    clashes = []
    for crate, path in files(root):
        text = open(path, encoding="utf-8").read()
        name = os.path.relpath(path, os.path.join(root, "crates"))
        new = turn(text, path.endswith(".rt"), crate, name, dashed, clashes, name)
        if path.endswith(".rt"):
            new = clauses(new, None)
        if new != text and not check:
            open(path, "w", encoding="utf-8").write(new)
    for path, new, olds in clashes:
        print(f"{path}: {new}: {', '.join(olds)}")
    return 1 if clashes else 0


if __name__ == "__main__":
    raise SystemExit(main(sys.argv[1:]))
