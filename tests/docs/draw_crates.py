"""Draws crates.txt, and holds it to what the crates cite.

    python3 tests/docs/draw_crates.py                            prints the diagram (mermaid)
    python3 tests/docs/draw_crates.py --write FILE               puts it between the two marks of FILE
    python3 tests/docs/draw_crates.py --check FILE               sees that it stands there
    python3 tests/docs/draw_crates.py --cited                    sees that each crate cites what its line lists
    python3 tests/docs/draw_crates.py --apart NAME OTHER [..]    sees that NAME stands on no OTHER, not even by way of others

A layer of crates.txt begins at a comment `# NUMBER NAME: charter`. No crate may stand on one of a
higher layer. The diagram has an arrow for each dependency that does not follow from others, and
leaves out the kit's libraries.
"""

import argparse
import os
import re
import sys

TOP = os.path.join(os.path.dirname(os.path.abspath(__file__)), "..", "..")
LAYER = re.compile(r"# *(\d+) (\w+):")
BEGIN = "<!-- crates: drawn by tests/docs/draw_crates.py -->\n"
END = "<!-- crates: end -->\n"


def read(path):
    with open(path, encoding="utf-8") as file:
        return file.read()


def parsed(text):
    """The title and the crates of each layer, lowest first, and of each crate the dependencies."""
    layers, deps = [], {}
    for line in text.splitlines():
        title = LAYER.match(line)
        if title:
            layers.append(("%s %s" % title.groups(), []))
        head, colon, listed = line.split("#")[0].partition(":")
        if not colon:
            continue
        # behind the name there may be words for rt, as `staticlib`
        name = head.split()[0]
        if not layers:
            sys.exit("crates.txt: %s stands in no layer" % name)
        layers[-1][1].append(name)
        deps[name] = listed.split()
    return layers, deps


def upward(layers, deps):
    """The dependencies on a crate of a higher layer."""
    height = {name: index for index, (_, names) in enumerate(layers) for name in names}
    return [(name, dep) for name in deps for dep in deps[name] if height.get(dep, 0) > height[name]]


def reached(name, deps):
    """Every crate that `name` stands on."""
    return set(deps.get(name, [])).union(*(reached(dep, deps) for dep in deps.get(name, [])))


def drawn(layers, deps):
    lines = ["```mermaid", "graph TD"]
    for index, (title, names) in reversed(list(enumerate(layers))):
        lines += ['  subgraph layer%d["%s"]' % (index, title)] + ["    %s" % name for name in names] + ["  end"]
    for name in deps:
        below = [dep for dep in deps[name] if dep in deps]
        implied = set().union(*(reached(dep, deps) for dep in below))
        lines += ["  %s --> %s" % (name, dep) for dep in below if dep not in implied]
    return "\n".join(lines + ["```", ""])


def around(path):
    """The text of a file up to and with the first mark, between the marks, and from the second on."""
    before, begin, rest = read(path).partition(BEGIN)
    between, end, after = rest.partition(END)
    if not begin or not end:
        sys.exit("%s: the two marks of the diagram are not found" % path)
    return before + begin, between, end + after


def write(path, diagram):
    before, _, after = around(path)
    with open(path, "w", encoding="utf-8") as file:
        file.write(before + diagram + after)


def check(path, diagram):
    if around(path)[1] != diagram:
        sys.exit("%s: the diagram is not crates.txt's; python3 tests/docs/draw_crates.py --write %s" % (path, path))
    print("%s: the diagram is crates.txt's" % path)


def code_of(crate):
    """What stands in a crate's files of code, definitions and proofs, comments left out."""
    folder = os.path.join(TOP, "crates", crate)
    parts = [os.path.join(folder, part) for part in ("src", "specs", "proofs")]
    files = [os.path.join(at, name) for part in parts for at, _, names in os.walk(part) for name in sorted(names)]
    texts = [read(file) for file in files if file.endswith((".rt", ".antt"))]
    return "".join(re.sub(r"(//|--).*", "", text) for text in texts)


def cited(deps):
    missing = []
    for name in deps:
        code = code_of(name)
        for dep in deps[name]:
            if not re.search(r"\bRattle\.%s\.|(?<![\w:])%s::" % (dep, dep), code):
                missing.append("%s does not cite %s" % (name, dep))
    if missing:
        sys.exit("crates.txt: " + "; ".join(missing))
    print("crates.txt: every crate cites all that its line lists")


def apart(name, others, deps):
    for each in [name] + others:
        if each not in deps:
            sys.exit("crates.txt: there is no crate %s" % each)
        if each in reached(name, deps):
            sys.exit("crates.txt: %s stands on %s" % (name, each))
    print("crates.txt: %s stands on none of %s" % (name, ", ".join(others)))


def main():
    parser = argparse.ArgumentParser(description=__doc__.splitlines()[0])
    action = parser.add_mutually_exclusive_group()
    action.add_argument("--write", metavar="FILE")
    action.add_argument("--check", metavar="FILE")
    action.add_argument("--cited", action="store_true")
    action.add_argument("--apart", metavar="NAME", nargs="+")
    wanted = parser.parse_args()
    layers, deps = parsed(read(os.path.join(TOP, "crates.txt")))
    rising = upward(layers, deps)
    if rising:
        sys.exit("crates.txt: %s stands on %s of a higher layer" % rising[0])
    if wanted.cited:
        cited(deps)
    elif wanted.apart:
        apart(wanted.apart[0], wanted.apart[1:], deps)
    elif wanted.write:
        write(wanted.write, drawn(layers, deps))
    elif wanted.check:
        check(wanted.check, drawn(layers, deps))
    else:
        print(drawn(layers, deps), end="")


if __name__ == "__main__":
    main()
