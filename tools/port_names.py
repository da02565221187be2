#!/usr/bin/env python3
"""Brings this repository's own names to today's spelling: words in snake case, facts in upper camel case.

usage: tools/port_names.py [--check]     at the top of the repository, after port.py and once

Turned are the names that specs/ and proofs/ declare, in .antt files, in the ghost parts and comments of .rt files, in
must-fail edits and where a page quotes them. A name that a file imports from outside the repository stays. --check writes nothing and lists the names
that would fall together.
"""
import collections
import os
import re
import sys

# Facts that were spelled like words, and names whose snake case would be another name of the repository.
OTHERS = {"ofNoObject": "IsOfNoObject"}
# Lemmas whose snake case is a definition's name; port.py has turned the first of them already.
TURNED_LEMMAS = ["at_front", "call_dropped", "call_fits", "call_none", "form_in", "held_by", "in_use", "place_at", "same_bytes"]
LEMMAS = ["all-bytes", "call-at", "call-words", "listed-at", "no-held"]
TOKEN = re.compile(r"[^\s(){}\[\],;.«»λ$|`\"⟦⟧<>:@^]+")
DECLARED = re.compile(r"^ *(?:(?:unfoldable|abbrev|pub|infixl \d+|infixr \d+) )*(?:record |data |module )?([^\s(){}:,=]+(?: [^\s(){}:,=]+)*)\s*(?:[({].*?[)}]\s*)*: ", re.M)
IMPORT = re.compile(r"^(?:ghost )?use ([^\s{};]+?)(?:\.\{([^}]*)\})?;?$", re.M)


def texts(ending):
    for folder, dirs, files in os.walk("crates"):
        dirs[:] = sorted(d for d in dirs if d != "out")
        for name in sorted(files):
            if name.endswith(ending):
                yield os.path.join(folder, name)


def read(path):
    with open(path, encoding="utf-8") as file:
        return file.read()


def snake(name):
    name = re.sub(r"(?<=[a-z0-9])([A-Z])", lambda m: "_" + m.group(1).lower(), name)
    return name.replace("-", "_")


def is_odd(name):
    return re.match(r"[a-z]", name) is not None and name.isascii() and ("-" in name or re.search("[A-Z]", name) is not None)


def ours(crates):
    names = set()
    for path in texts(".antt"):
        for m in DECLARED.finditer(re.sub(r"--.*", "", read(path))):
            names.update(w for w in m.group(1).split(" ") if is_odd(w))
        # words bound otherwise, as the fields of a record in one line: lower camel case is nobody else's spelling
        names.update(w for w in TOKEN.findall(re.sub(r"--.*", "", read(path))) if re.fullmatch(r"[a-z][a-z0-9]*[A-Z][A-Za-z0-9]*'?", w))
    return names


def foreign(text, crates):
    """The names that a file imports from outside the repository."""
    found = set()
    for m in IMPORT.finditer(text):
        parts = m.group(1).split(".")
        if parts[0] == "Rattle" and len(parts) > 1 and parts[1] in crates:
            continue
        found.update(w.split(" as ")[0].strip() for w in (m.group(2) or "").split(","))
    return found


def new_names(crates):
    """Old name to new; a lemma that would have its definition's name gets _lem."""
    names = {n: OTHERS.get(n, snake(n)) for n in ours(crates)}
    words = {new for old, new in names.items() if "-" not in old}
    for old, new in names.items():
        if "-" in old and (new in words or old in LEMMAS):
            names[old] = new + "_lem"
    return names


def turned(text, names, left):
    def one(m):
        word = m.group(0)
        if word in names and word not in left:
            return names[word]
        return word

    return TOKEN.sub(one, text)


def lemmas_turned(text):
    for word in TURNED_LEMMAS:
        text = re.sub(r"(?<![\w.'-])" + word + r"(?![\w.'-])", word + "_lem", text)
    return text


def page_turned(text, names):
    return re.sub(r"`[^`\n]+`", lambda m: turned(m.group(0), names, set()), text)


def main(argv):
    crates = {line.split(":")[0].split()[0] for line in read("crates.txt").splitlines() if ":" in line and not line.startswith("#")}
    names = new_names(crates)
    if "--check" in argv:
        there = collections.defaultdict(set)
        for path in [*texts(".antt"), *texts(".rt")]:
            for word in set(TOKEN.findall(read(path))):
                there[word].add(path)
        back = collections.defaultdict(set)
        for old, new in names.items():
            back[new].add(old)
        for new in sorted(back):
            both = {old: there[old] & there.get(new, set()) for old in back[new]}
            for old, paths in both.items():
                if paths:
                    print(f"{old} -> {new}: there already in {sorted(paths)[:4]} .. {len(paths)}")
            if len(back[new]) > 1:
                shared = set.intersection(*(there[o] for o in back[new]))
                print(f"{sorted(back[new])} -> {new}" + (f" TOGETHER in {sorted(shared)[:3]}" if shared else ""))
        return 0
    for path in [*texts(".antt"), *texts(".rt"), *texts(".edit")]:
        text = read(path)
        new = lemmas_turned(text) if path.endswith(".antt") else text
        new = turned(new, names, foreign(text, crates))
        if new != text:
            with open(path, "w", encoding="utf-8") as file:
                file.write(new)
    for path in ["README.md", *("docs/" + name for name in sorted(os.listdir("docs")))]:
        text = read(path)
        new = page_turned(text, names)
        if new != text:
            with open(path, "w", encoding="utf-8") as file:
                file.write(new)
    return 0


if __name__ == "__main__":
    raise SystemExit(main(sys.argv[1:]))
