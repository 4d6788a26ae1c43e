"""The stored cases of tests/jobs, the sample archives and what the programs are run on by rt: writes them anew.

    python3 tests/model/stored.py

The self-test holds the stored files to what this makes.
"""

import os

import archive
import cases

TOP = os.path.join(os.path.dirname(os.path.abspath(__file__)), "..", "..")


def _case(name, key, file, tag_key=None):
    case = cases.Case(name, key, file, None, tag_key)
    files = {"stdin": file, "stdout": archive.jobs_text(*case.lent()), "key.bin": key, "tag.bin": tag_key}
    return {"tests/jobs/%s/%s" % (name, part): data for part, data in files.items() if data is not None}


def stored():
    """Each stored file's bytes, by its path from the repository's top."""
    sample = cases.sample()
    tag_key = cases.TAG_KEYS[32]
    tagged = cases.sample(tag_key).file()
    too_long = cases.Draft(sample.key, 7, cases.numbered([65501]))
    files = {
        "examples/sample/key.bin": sample.key,
        "examples/sample/archive.bin": sample.file(),
        "examples/tagged/key.bin": sample.key,
        "examples/tagged/tag.bin": tag_key,
        "examples/tagged/archive.bin": tagged,
    }
    for folder in ("sample", "tagged"):
        files["examples/%s/sheet.bin" % folder] = archive.sheet_of(sample.file())
        files["examples/%s/plain.bin" % folder] = archive.plain_of(sample.key, b"", sample.file())
    files.update(_case("sample", sample.key, sample.file()))
    files.update(_case("empty-archive", sample.key, b""))
    files.update(_case("missing-key", None, sample.file()))
    files.update(_case("no-jobs", sample.key, cases.Draft(sample.key, 7, []).file()))
    many = cases.Draft(cases.KEYS[32], 7, cases.numbered(range(64)))
    files.update(_case("64-jobs", many.key, many.file()))
    files.update(_case("65537-bytes", too_long.key, too_long.file()))
    years = [(b"97000004", b"old"), (b"05000001", b"newer")]
    files.update(_case("old-jobs-first", sample.key, cases.Draft(sample.key, 7, years).file()))
    files.update(_case("old-jobs-last", sample.key, cases.Draft(sample.key, 7, years[::-1]).file()))
    files.update(_case("tagged", sample.key, tagged, tag_key))
    files.update(_case("tag-changed", sample.key, tagged[:-1] + bytes([tagged[-1] ^ 1]), tag_key))
    files.update(_case("tag-key-and-layout-1", sample.key, sample.file(), tag_key))
    files.update(_case("no-tag-key-and-layout-2", sample.key, tagged))
    files.update(_case("empty-tag-key", sample.key, sample.file(), b""))
    files.update(_case("bad-tag-key", sample.key, tagged, tag_key[:31]))
    for crate in ("jobs", "open", "drop"):
        files["crates/%s/stdin" % crate] = sample.file()
        files["crates/%s/data/key.bin" % crate] = sample.key
    files["crates/jobs/stdout"] = archive.jobs_text(sample.key, b"", sample.file())
    files["crates/open/stdout"] = archive.open_job(sample.key, b"", sample.file(), b"24000017")
    files["crates/drop/stdout"] = archive.drop(sample.key, b"", sample.file(), b"24000018")
    files["crates/seal/stdin"] = files["examples/sample/plain.bin"]
    files["crates/seal/stdout"] = sample.file()
    for name in ("key.bin", "sheet.bin"):
        files["crates/seal/data/%s" % name] = files["examples/sample/%s" % name]
    return files


def main():
    for path, data in stored().items():
        place = os.path.join(TOP, path)
        os.makedirs(os.path.dirname(place), exist_ok=True)
        with open(place, "wb") as file:
            file.write(data)
        print("%s: %d bytes" % (path, len(data)))


if __name__ == "__main__":
    main()
