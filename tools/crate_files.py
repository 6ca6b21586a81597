"""The crates of the repository as crates.txt lists them, and a sum of all that a program is made from.

The scripts of this folder and `fslpp` at the top use it.
"""
import hashlib
from pathlib import Path

TOP = Path(__file__).resolve().parent.parent
# The kit that the repository is proved with.
KIT = "rattle-kit-13f"


def listed(top=TOP):
    """Each crate with the crates of the repository that it stands on, as crates.txt has them."""
    rows = {}
    for line in (top / "crates.txt").read_text().splitlines():
        head, colon, below = line.partition("#")[0].partition(":")
        if colon:
            rows[head.split()[0]] = below.split()
    return {name: [it for it in below if it in rows] for name, below in rows.items()}


def closure(name, crates):
    """A crate and those that it stands on, each after those that it stands on itself."""
    order = []

    def visit(it):
        if it not in order:
            for below in crates[it]:
                visit(below)
            order.append(it)

    visit(name)
    return order


def source_files(name, top=TOP):
    """The files that a crate's proof and program are made from."""
    folder = top / "crates" / name
    found = (it for part in ("src", "specs", "proofs") for it in (folder / part).rglob("*"))
    return sorted(it for it in found if it.is_file())


def read_files(name, top=TOP):
    """All files that decide what the program of a crate is."""
    whole = [it for crate in closure(name, listed(top)) for it in source_files(crate, top)]
    return [top / "crates.txt", top / "HANDLES", *whole]


def sum_of_file(path):
    """The sum of a file's bytes."""
    return hashlib.sha256(path.read_bytes()).hexdigest()


def sum_of_sources(name, top=TOP):
    """The sum of all that the program of a crate is made from: names and bytes of the files."""
    rows = ("%s %s\n" % (it.relative_to(top), sum_of_file(it)) for it in read_files(name, top))
    return hashlib.sha256("".join(rows).encode()).hexdigest()
