#!/usr/bin/env python3
"""Brings this repository's own names in contracts, definitions and lemmas to today's spelling: words in snake case, types in camel case.

usage: python3 tools/respell_names.py          in the repository: rewrites crates/ in place, and prints what it renamed
       python3 tools/respell_names.py --text FILE..     rewrites these pages by the same table

It stood behind `port.py`, once. A name is ours where a file of specs/ or proofs/ declares it; a variable that is bound there is ours too.
Code of src/ keeps its names: only clauses, comments and `ghost use` lines of it are read. A name that an import takes from a library stays.
"""

import json
import os
import re
import subprocess
import sys

WORD = re.compile(r"[A-Za-z_\u03b1-\u03c9\u2032'][A-Za-z0-9_\u2080-\u2089\u2032'-]*")
DECLARES = re.compile(
    r"(?m)^[ \t]*(?:(?:unfoldable|abbrev|pub|record|data|ruleset|mutual)\s+)*([^\s:(){}.,;\"]+)(?:\s+[({][^\n]*)?\s*:(?=\s)"
)
IMPORT = re.compile(r"(?ms)^\s*(?:pub )?(?:ghost )?use ([^\s;{]+?)\.\{([^}]*)\}")
BOUND = re.compile(r"[A-Za-z0-9_\u2080-\u2089'-]+")
TABLE = "tools/respelled_names.json"


def files(root, *ends):
    for folder, dirs, names in os.walk(os.path.join(root, "crates")):
        dirs[:] = sorted(d for d in dirs if d != "out")
        for name in sorted(names):
            if name.endswith(ends):
                yield os.path.join(folder, name)


def read(path):
    with open(path, encoding="utf-8") as f:
        return f.read()


def is_camel(name):
    return bool(re.match(r"[a-z]", name)) and bool(re.search(r"[a-z0-9][A-Z]", name))


def respelled(name):
    name = name.replace("\u2032", "'")
    if is_camel(name):
        name = re.sub(r"(?<=[a-z0-9])([A-Z])", lambda m: "_" + m.group(1).lower(), name)
    if re.match(r"[a-z]", name):
        name = name.replace("-", "_")
    return name


def table(root):
    crates = os.listdir(os.path.join(root, "crates"))
    own, camels, foreign, goals = set(), set(), set(), set()
    for path in files(root, ".antt"):
        text = read(path)
        parts = path.split(os.sep)
        inside = parts[parts.index("crates") + 2 :]
        is_walk = inside[0] == "proofs" and len(inside) > 2
        for m in IMPORT.finditer(text):
            if m.group(1).split(".")[0] != "Rattle" or m.group(1).split(".")[1] not in crates:
                foreign |= {n.strip().split(" as ")[0].strip() for n in m.group(2).split(",")}
        for m in DECLARES.finditer(text):
            name = m.group(1)
            line = text[m.start() : text.find("\n", m.start())]
            if is_walk and re.search(r":\s*tie\.", line):
                goals.add(name)
            elif not (is_walk and name.endswith("_spec")):
                own.add(name)
        code = re.sub(r"(?m)--.*$", "", text)
        camels |= {w for w in WORD.findall(code) if is_camel(w)}
    names = {n for n in own if is_camel(n) or "\u2032" in n or ("-" in n and re.match(r"[a-z]", n))} | camels
    names = {n: respelled(n) for n in sorted(names - foreign - goals) if WORD.fullmatch(n) and respelled(n) != n}
    # A lemma that would have its function's name gets `_lem`; `port.py` took one such name for a lemma.
    taken = {new for n, new in names.items() if is_camel(n)} | (own - set(names))
    for n, new in names.items():
        if not is_camel(n) and new in taken:
            names[n] = new + "_lem"
    for n in sorted({new for n, new in names.items() if is_camel(n)} & (own - set(names))):
        names[n] = n + "_lem"
    return names, own, goals


def together(names, own, words):
    """Names that fall together with another name of ours, or with a word of the code."""
    old = {}
    for n, new in names.items():
        old.setdefault(new, []).append(n)
    return [(new, ns) for new, ns in old.items() if len(ns) > 1 or new in own], sorted(set(old) & words)


def turn(text, names):
    """A name that is taken for a lemma stays behind a dot: there it is a step of a proof."""

    def one(m):
        new = names.get(m.group(0), m.group(0))
        return m.group(0) if new == m.group(0) + "_lem" and text[m.start() - 1 : m.start()] == "." else new

    return WORD.sub(one, text)


def turn_code(text, names):
    """Of code: comments, clauses and imports of clauses; strings and the code itself stay."""
    out, depth, clause = [], 0, False
    for line in text.split("\n"):
        bare = line.strip()
        if not clause and re.match(r"(ghost use|ghost |requires\b|ensures\b|pub ghost)", bare):
            clause = True
            depth = 0
        if clause:
            out.append(turn(line, names))
            depth += line.count("{") - line.count("}")
            if depth <= 0 and (bare.endswith("}") or bare.endswith("};") or bare.endswith(";")):
                clause = False
        elif bare.startswith("//"):
            out.append(turn(line, names))
        else:
            out.append(line)
    return "\n".join(out)


def turn_edit(text, names):
    out, antt = [], False
    for line in text.split("\n"):
        if line.startswith("file:"):
            antt = line.strip().endswith(".antt")
        is_clause = antt or re.search(r"\b(ensures|requires|ghost)\b", line) or line.startswith("#")
        out.append(turn(line, names) if is_clause and not line.startswith("file:") else line)
    return "\n".join(out)


def write(path, text):
    with open(path, "w", encoding="utf-8") as f:
        f.write(text)


def main(argv):
    root = os.getcwd()
    if argv[:1] == ["--text"]:
        with open(TABLE, encoding="utf-8") as f:
            names = json.load(f)
        for path in argv[1:]:
            write(path, turn(read(path), names))
        return 0
    names, own, goals = table(root)
    words = set()
    for path in files(root, ".rt"):
        words |= set(re.findall(r"[a-z_][a-z0-9_]*", re.sub(r"(?m)//.*$|^\s*(?:ghost|ensures|requires).*$", "", read(path))))
    clash, near = together(names, own, words)
    for new, ns in clash:
        print(f"falls together: {new}: {', '.join(ns)}")
    for new in near:
        print(f"also a word of the code: {new}")
    if argv == ["--dry"]:
        for n, new in names.items():
            print(n, new)
        return 0
    for path in files(root, ".antt"):
        write(path, turn(read(path), names))
    for path in files(root, ".rt"):
        write(path, turn_code(read(path), names))
    for path in files(root, ".edit"):
        write(path, turn_edit(read(path), names))
    with open(TABLE, "w", encoding="utf-8") as f:
        json.dump(names, f, indent=1, ensure_ascii=False)
        f.write("\n")
    for name in sorted(os.listdir("crates")):
        subprocess.run(["rt", "fmt"], cwd=os.path.join("crates", name), stdout=subprocess.DEVNULL, check=True)
    print(f"{len(names)} names respelled; the table is {TABLE}")
    return 0


if __name__ == "__main__":
    raise SystemExit(main(sys.argv[1:]))
