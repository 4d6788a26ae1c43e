"""Does what README.md says: runs each of its commands and examples from its own text, and compares.

    python3 tests/docs/run_readme.py

Every block of README.md set as `sh`, `rust` or `toml` is run or used, in a folder of its own where it is not for the top folder, and a
block set as `text` is what the command before it has to end in. A block that no check here knows is a fault, so that no block of commands
goes untried. The commands must leave nothing new in the top folder. The tables of refusals, of reading and of writing, have them all, in
order.
"""

import errno
import os
import re
import shlex
import shutil
import subprocess
import sys
import tempfile

TOP = os.path.realpath(os.path.join(os.path.dirname(os.path.abspath(__file__)), "..", ".."))
SAMPLE = os.path.join(TOP, "examples", "sample")
FAULTS = os.path.join(TOP, "tests", "programs", "faults.c")
BLOCK = re.compile(r"^```(\w*)\n(.*?)^```$", re.M | re.S)
PRINTS = re.compile(r"^It prints `(.*)`\.$", re.M)


def read(path, mode="r"):
    with open(path, mode, encoding=None if "b" in mode else "utf-8") as file:
        return file.read()


def expect(what, seen, wanted):
    if seen != wanted:
        sys.exit("README.md: %s\n  says   %r\n  gives  %r" % (what, wanted, seen))


def run(command, folder, status=0, **variables):
    done = subprocess.run(
        ["bash", "-e", "-c", command],
        cwd=folder,
        env={**os.environ, "LC_ALL": "C", **variables},
        stdin=subprocess.DEVNULL,
        capture_output=True,
        text=True,
    )
    if done.returncode != status:
        sys.exit("README.md: %s\n  ended with %d\n%s%s" % (command, done.returncode, done.stdout[-2000:], done.stderr[-2000:]))
    return done


def at_top(command, ending):
    """A command for the top folder, which ends in the text given."""
    before = sorted(os.listdir(TOP))
    done = run(command, TOP)
    if ending:
        wanted = ending.rstrip("\n").splitlines()
        expect(command, done.stdout.splitlines()[-len(wanted) :], wanted)
    expect("%s: what is in the top folder" % command, sorted(os.listdir(TOP)), sorted({*before, "target"}))


def hexadecimal(command, scratch):
    """A key in hexadecimal becomes the bytes of the sample's key."""
    with open(os.path.join(scratch, "key.txt"), "w") as file:
        file.write(read(os.path.join(SAMPLE, "key.bin"), "rb").hex() + "\n")
    run(command, scratch)
    expect(command, read(os.path.join(scratch, "key.bin"), "rb"), read(os.path.join(SAMPLE, "key.bin"), "rb"))


def beside_programs(scratch):
    """A folder from which ../../target/bin is the programs' folder, with the sample's archive and key in it."""
    folder = os.path.join(scratch, "some", "folder")
    os.makedirs(folder)
    os.symlink(os.path.join(TOP, "target"), os.path.join(scratch, "target"))
    for name in ("archive.bin", "key.bin"):
        shutil.copy(os.path.join(SAMPLE, name), folder)
    return folder


def made_faults(scratch):
    """A library that stands before the C library and fails as it is told."""
    faults = os.path.join(scratch, "faults.so")
    run("cc -shared -fPIC %s -o %s -ldl" % (shlex.quote(FAULTS), shlex.quote(faults)), scratch)
    return faults


def sealing_recipe(command, scratch):
    """Keeps an archive, and nothing that is none: what is refused, what could not be read or written, what was broken off."""
    folder, call = os.path.join(TOP, "target", "trial"), "../bin/seal < plain.bin "
    kept = read(os.path.join(folder, "archive.bin"), "rb")
    full = "LD_PRELOAD=%s FAULT='write 1 30 %d 1' %s" % (shlex.quote(made_faults(scratch)), errno.ENOSPC, call)
    for old, new, said in (
        ("in 26000001 26000002", "in 26000002 26000001", "refused 14\n"),
        (": > plain.bin", "printf x > plain.bin", "refused 17\n"),
        ("printf warm > 26000002.bin", "rm -f 26000002.bin", "cat: 26000002.bin: No such file or directory\n"),
        (call, "../bin/seal < . ", "not sealed: seal: could not read\n"),
        (call, full, "not sealed: seal: could not write\n"),
        (call, "sh -c 'printf \\002; kill -9 $$' ", "not sealed: ended badly: \n"),
    ):
        if command.count(old) != 1:
            sys.exit("README.md: the recipe of `seal` is not as this check knows it: %s" % old)
        done = run(command.replace(old, new), TOP, status=1)
        expect("the recipe of `seal`, with %s" % new, done.stderr.splitlines(True)[-1], said)
        expect("what it leaves then", (os.path.exists(os.path.join(folder, "new.bin")), read(os.path.join(folder, "archive.bin"), "rb")), (False, kept))


def dropping_recipe(command, scratch):
    """Puts what is left in the old archive's place, and leaves the old one where there is no such archive: what is refused, what could not
    be read or written, what was broken off, words that are not taken."""
    folder, call = os.path.join(TOP, "target", "trial"), "../bin/drop 24000017 < archive.bin "
    kept = read(os.path.join(TOP, "examples", "tagged", "archive.bin"), "rb")
    full = "LD_PRELOAD=%s FAULT='write 1 30 %d 1' %s" % (shlex.quote(made_faults(scratch)), errno.ENOSPC, call)
    if command.count(call) != 1:
        sys.exit("README.md: the recipe of `drop` is not as this check knows it: %s" % call)
    for new, said in (
        ("../bin/drop 24000017 24000019 < archive.bin ", "not dropped: refused 19\n"),
        ("../bin/drop 24000017 < . ", "not dropped: drop: could not read\n"),
        ("../bin/drop < archive.bin ", "not dropped: usage: drop NUMBER.. < ARCHIVE > SMALLER\n"),
        (full, "not dropped: drop: could not write\n"),
        ("sh -c 'printf \\002; kill -9 $$' ", "not dropped: ended badly: \n"),
    ):
        done = run(command.replace(call, new), TOP, status=1)
        line = [line for line in done.stderr.splitlines(True) if line.startswith("not dropped: ")]
        expect("the recipe of `drop`, with %s" % new, line, [said])
        left = os.path.exists(os.path.join(folder, "smaller.bin")), read(os.path.join(folder, "archive.bin"), "rb")
        expect("what it leaves then", left, (False, kept))


def listing_recipe(command, scratch):
    """Goes on with a listing, and ends a script where there is none."""
    folder = beside_programs(scratch)
    listed = run(command + 'echo "$listing"', folder).stdout
    expect("the listing of the recipe", listed, read(os.path.join(TOP, "crates", "jobs", "stdout")))
    os.remove(os.path.join(folder, "key.bin"))
    done = run(command + "echo went on", folder, status=1)
    expect("the recipe on a refusal", (done.stdout, done.stderr), ("", "not listed: refused 1\n"))
    done = run(command.replace("< archive.bin", "< .") + "echo went on", folder, status=1)
    expect("the recipe on a read error", done.stderr, "jobs: could not read\nnot listed: \n")


def opening_recipe(command, scratch):
    """Goes on with the plain bytes, also where there are none, and ends a script, without a plain file, on anything else."""
    folder = beside_programs(scratch)
    plain = os.path.join(folder, "job.bin")
    run(command, folder)
    expect("the plain bytes of the recipe", read(plain, "rb"), b"dried")
    run(command.replace("24000017", "24000018"), folder)
    expect("the recipe on a job of length 0", read(plain, "rb"), b"")
    done = run(command.replace("24000017", "24000019") + "echo went on", folder, status=1)
    expect("the recipe on a refusal", (done.stdout, done.stderr, os.path.exists(plain)), ("", "refused 19\n", False))
    done = run(command.replace("< archive.bin", "< .") + "echo went on", folder, status=1)
    expect("the recipe on a read error", (done.stdout, done.stderr, os.path.exists(plain)), ("", "open: could not read\n", False))
    # the disk is full after two bytes: then no other file would hold what was said
    faults = made_faults(scratch)
    done = run(command + "echo went on", folder, status=1, LD_PRELOAD=faults, FAULT="write 1 2 %d 1" % errno.ENOSPC)
    expect("the recipe on a full disk", (done.stdout, done.stderr, os.path.exists(plain)), ("", "open: could not write\n", False))
    expect("what the recipe leaves", sorted(os.listdir(folder)), ["archive.bin", "key.bin"])


def rust_program(source, dependency, printed, scratch):
    """A package with the dependency as it stands, and the checkout beside it under the name that the dependency has."""
    os.symlink(TOP, os.path.join(scratch, "guodnelt"))
    os.makedirs(os.path.join(scratch, "program", "src"))
    package = '[package]\nname = "program"\nversion = "0.1.0"\nedition = "2021"\n\n[dependencies]\n'
    with open(os.path.join(scratch, "program", "Cargo.toml"), "w") as file:
        file.write(package + dependency)
    with open(os.path.join(scratch, "program", "src", "main.rs"), "w") as file:
        file.write(source)
    done = run("cargo run --offline --quiet", os.path.join(scratch, "program"))
    expect("the Rust program", done.stdout, printed + "\n")
    expect("the Rust program's warnings", done.stderr, "")


def refusals(text):
    """The tables of refusals have every number that a call here answers, in the order in which they apply."""
    rows = re.findall(r"^\| (\d+)(?: \*)? \| .+ \| .+ \|$", text, re.M)
    expect("the numbers of refusals, in order", [int(row) for row in rows], [1, 2, 3, 4, 23, 5, 6, 7, 24, *range(8, 18), 25, 27, 18, 19, 26, 20])
    rows = re.findall(r"^\| [^|]*\| (\d+)(?: \*)? \| .+ \| .+ \|$", text, re.M)
    expect("the numbers of refusals of `seal`, in order", [int(row) for row in rows], [21, 22, 1, 1, 9, 13, 14, 6, 16, 17, 20])


def main():
    text = read(os.path.join(TOP, "README.md"))
    refusals(text)
    blocks = BLOCK.findall(text)
    kinds = [kind for kind, _ in blocks]
    if re.search(r"^(~~~|    \S)", BLOCK.sub("", text), re.M) or (kinds.count("toml"), kinds.count("rust")) != (1, 1):
        sys.exit("README.md: a block is set otherwise than this check knows")
    dependency = blocks[kinds.index("toml")][1]
    tried = 0
    for at, (kind, body) in enumerate(blocks):
        following = blocks[at + 1][1] if blocks[at + 1 : at + 2] and blocks[at + 1][0] == "text" else None
        with tempfile.TemporaryDirectory(prefix="readme-") as scratch:
            if kind == "sh" and body.startswith("tools/build.sh "):
                at_top(body, following)
                if "> new.bin" in body:
                    sealing_recipe(body, scratch)
                if "> smaller.bin" in body:
                    dropping_recipe(body, scratch)
            elif kind == "sh" and body.startswith("xxd "):
                hexadecimal(body, scratch)
            elif kind == "sh" and body.startswith("listing="):
                listing_recipe(body, scratch)
            elif kind == "sh" and body.startswith("said="):
                opening_recipe(body, scratch)
            elif kind == "rust":
                rust_program(body, dependency, PRINTS.search(text).group(1), scratch)
            elif kind not in ("text", "toml"):
                sys.exit("README.md: no check here runs\n%s" % body)
            if following and not body.startswith("tools/build.sh "):
                sys.exit("README.md: nothing here compares what follows\n%s" % body)
            tried += kind in ("sh", "rust")
    print("README.md: %d commands and examples do what it says, the refusals stand in order" % tried)


if __name__ == "__main__":
    main()
