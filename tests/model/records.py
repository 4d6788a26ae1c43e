"""Reads the vector files of tests/data: paragraphs of `NAME = VALUE` lines; `#` begins a comment."""


def records(path):
    with open(path, encoding="ascii") as file:
        text = file.read()
    for paragraph in text.split("\n\n"):
        lines = [line for line in paragraph.splitlines() if line and not line.startswith("#")]
        if lines:
            yield dict(line.split(" = ", 1) for line in lines)
