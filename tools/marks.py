"""The parts of documents that a script writes. Part NAME stands between the lines '<!-- NAME -->' and '<!-- end of NAME -->'."""

import pathlib

ROOT = pathlib.Path(__file__).resolve().parent.parent
DOCUMENTS = {"drawing": ROOT / "README.md", "times": ROOT / "docs/CHECKING.md"}


def split(name):
    """The document before a part, the part, and the document after it."""
    document = DOCUMENTS[name]
    before, mark, rest = document.read_text(encoding="utf-8").partition(f"<!-- {name} -->\n")
    part, end, after = rest.partition(f"<!-- end of {name} -->\n")
    if not mark or not end:
        raise SystemExit(f"{document.relative_to(ROOT)} has no lines '<!-- {name} -->' and '<!-- end of {name} -->'")
    return before + mark, part, end + after


def read(name):
    """A part, without the empty lines around it."""
    return split(name)[1].strip("\n")


def write(name, text):
    """Puts a text in a part's place."""
    before, _, after = split(name)
    DOCUMENTS[name].write_text(f"{before}\n{text}\n\n{after}", encoding="utf-8")


def crates():
    """The crates of crates.txt, each with the crates of the repository that it uses, in the file's order. After the name a line may say what is built."""
    listed = {}
    for line in (ROOT / "crates.txt").read_text(encoding="utf-8").splitlines():
        name, colon, uses = line.partition("#")[0].partition(":")
        if colon:
            listed[name.split()[0]] = uses.split()
    return {name: [used for used in uses if used in listed] for name, uses in listed.items()}
