"""Sees that every promise of docs/ASSURANCE.md is said, and proved, in the files that its row names.

    python3 tests/docs/check_names.py            sees that it is so
    python3 tests/docs/check_names.py --write    first puts the proof of each contract where it now stands

A row is `| promise | name | definition | proof |`, with paths from crates/. The name is one of

    `THEOREM : STATEMENT`         the definition's file defines a word of the statement, and the proof's
                                  file has the line `pub THEOREM : STATEMENT`
    `WORD` of `CRATE::FUNCTION`   the function's `ensures` names WORD, the definition's file defines it, and
                                  the proof is the folder of the function's own proof, `proofs/FUNCTION/`;
                                  or it is made by the prover, and then there is no such folder

That the proofs hold is for rt to say: it refuses a file that it does not prove. Whether a contract is
strong enough is for its reader, and for the must-fail edits. Beside the rows, every public function
and every function of a trait must have an `ensures` and no `requires`.
"""

import glob
import os
import re
import sys

TOP = os.path.join(os.path.dirname(os.path.abspath(__file__)), "..", "..")
UNDER_TITLE = re.compile(r"\n\|(?: *:?-+:? *\|){4}\n")
THEOREM = re.compile(r"`([\w-]+) : ([^`]+)`")
CONTRACT = re.compile(r"`(\S+)` of `(\w+)::(\w+)`")
HEAD = re.compile(r'^ *((?:pub )?(?:extern "C" )?fn (\w+).*?)\{$', re.M | re.S)
# A function of a trait, which has no body.
DECLARED = re.compile(r"^ *(fn (\w+)(?:(?!\{$).)*?);$", re.M | re.S)
MADE = "made by the prover"
# What may be written of a function's proof.
PARTS = ("Proof.antt", "Invariants.antt", "Answers.antt")


def read(path):
    """The text of a file without its comments, by its path from crates/; empty where there is none."""
    place = os.path.join(TOP, "crates", path)
    if not os.path.isfile(place):
        return ""
    with open(place, encoding="utf-8") as file:
        text = re.sub(r"\{-.*?-\}", "", file.read(), flags=re.S)
    return re.sub(r"(--|//).*", "", text)


def sources(crate):
    return [read(path) for path in glob.glob(os.path.join(TOP, "crates", crate, "src", "**", "*.rt"), recursive=True)]


def heads(crate):
    """Each function's name, with what stands before its body: its arguments and its contract."""
    return [(name, head) for text in sources(crate) for head, name in HEAD.findall(DECLARED.sub("", text))]


def declared(crate):
    """The same of the functions of traits."""
    return [(name, head) for text in sources(crate) for head, name in DECLARED.findall(text)]


def defines(path, word):
    return re.search(r"^(abbrev |unfoldable )?pub (record )?(%s|◌%s◌) " % (re.escape(word), re.escape(word)), read(path), re.M)


def theorem_faults(name, statement, definition, proof):
    if not any(defines(definition, word) for word in statement.split()):
        yield "%s defines no word of %s" % (definition, statement)
    # not indented: inside a module it might be under assumptions
    if not re.search(r"^pub %s : %s$" % (re.escape(name), re.escape(statement)), read(proof), re.M):
        yield "%s has no theorem %s : %s" % (proof, name, statement)


def contract_faults(word, crate, function, definition, proof):
    if word not in re.split(r"[\s()]+", dict(heads(crate)).get(function, "").partition("ensures")[2]):
        yield "the contract of %s::%s does not name %s" % (crate, function, word)
    if not defines(definition, word):
        yield "%s does not define %s" % (definition, word)
    own = own_proof(crate, function)
    if proof == MADE:
        if own:
            yield "the proof of %s::%s is not made by the prover: there is %s" % (crate, function, own)
    elif proof != own:
        yield "%s is not the proof of %s::%s" % (proof, crate, function)


def own_proof(crate, function):
    """The folder of what is written of a function's proof, from crates/; empty where nothing is."""
    for mark in ("", "+"):
        folder = "%s/proofs/%s%s/" % (crate, mark, function)
        cited = "Rattle.%s.proofs.%s%s." % (crate, mark, function)
        if any(cited in read(folder + part) for part in PARTS):
            return folder
    return ""


def row_faults(row):
    cells = [cell.strip() for cell in row.strip("|").split("|")]
    if len(cells) != 4:
        return ["no row of four cells: %s" % row]
    name, files = cells[1], [cell.strip("`") for cell in cells[2:]]
    theorem, contract = THEOREM.fullmatch(name), CONTRACT.fullmatch(name)
    if theorem:
        return list(theorem_faults(*theorem.groups(), *files))
    if contract:
        return list(contract_faults(*contract.groups(), *files))
    return ["neither a theorem nor a contract: %s" % name]


def with_proofs(text):
    """The page with the proof of each contract where it now stands."""

    def put(row):
        crate, function = row.group(2, 3)
        own = own_proof(crate, function)
        return row.group(1) + (" `%s` |" % own if own else " %s |" % MADE)

    return re.sub(r"^(\|.*\| `\S+` of `(\w+)::(\w+)` \|[^|]*\|)[^|]*\|$", put, text, flags=re.M)


def rows(text):
    """The rows of every table of four columns."""
    for table in UNDER_TITLE.split(text)[1:]:
        yield from table.split("\n\n")[0].splitlines()


def call_faults():
    for crate in sorted(os.listdir(os.path.join(TOP, "crates"))):
        public = sum(len(re.findall(r"\bpub\b[^;{\n]*\bfn\b", text)) for text in sources(crate))
        if public != sum(head.startswith("pub ") for _, head in heads(crate)):
            yield "%s has a public function in a layout that is not read here" % crate
        for function, head in heads(crate):
            if head.count("fn ") > 1 or head.startswith("pub ") and ("requires" in head or "ensures" not in head):
                yield "%s::%s is public, and has a requires or no ensures" % (crate, function)
        for function, head in declared(crate):
            if "requires" in head or "ensures" not in head:
                yield "%s::%s is a trait's, and has a requires or no ensures" % (crate, function)


def main():
    path = os.path.join(TOP, "docs", "ASSURANCE.md")
    with open(path, encoding="utf-8") as file:
        text = file.read()
    if sys.argv[1:] == ["--write"]:
        text = with_proofs(text)
        with open(path, "w", encoding="utf-8") as file:
            file.write(text)
    found = [row_faults(row) for row in rows(text)]
    calls = list(call_faults())
    for fault in sum(found, calls):
        print(fault)
    failed = len([faults for faults in found if faults])
    if failed or calls or not found:
        sys.stdout.flush()
        sys.exit("docs/ASSURANCE.md: of %d promises %d are not as their rows say" % (len(found), failed))
    print("docs/ASSURANCE.md: %d promises are said and proved where their rows say" % len(found))


if __name__ == "__main__":
    main()
