#!/usr/bin/env python3
"""Checks that the documents name what is there.

    tools/check_docs.py             one line for each fault, and status 1 where there is one
    tools/check_docs.py --stands-on the dependencies of each crate, as docs/ARCHITECTURE.md has to name them

- A file, a crate or a word of the code that ARCHITECTURE, DEFINITIONS, LAWS or CONTRACTS names in backquotes is there;
  in DEFINITIONS and LAWS a definition stands in a file that its line names.
- ARCHITECTURE has a line for each crate of crates.txt, with the crates that it stands on: those of this repository that
  no other of them stands on already.
- A program that the tutorial shows is a part of its example, and its table has each example with its answer, as the
  page of the examples has. The first page shows parts of an example too.
- A link leads to a file, and to a heading where it names one.
- Where a program is built, the programs of the pages have their answers (check_pages.py).
"""
import re
import sys
from functools import lru_cache
from pathlib import Path

sys.dont_write_bytecode = True
sys.path.insert(0, str(Path(__file__).resolve().parent))

import check_pages

TOP = Path(__file__).resolve().parent.parent
NAMING = ["ARCHITECTURE.md", "DEFINITIONS.md", "LAWS.md", "CONTRACTS.md", "SOUNDNESS.md"]
SPAN = re.compile(r"`([^`\n]+)`")
FILE = re.compile(r"^[\w./*-]*\w\.(?:rt|antt|md|py|sh|fsl|txt)$|^[\w-]+(?:/[\w.*-]*)+$")
CRATE = re.compile(r"^(?:(?:fsl|test|bench)_\w+|fslpp)$")
WORD = re.compile(r"^(?:\w+(?:::|\.))*([A-Za-z_]\w*)(?:\(\))?$")
EXPECT = "// expect: "


def crates():
    """Each crate of crates.txt with what its line says that it stands on, in the order of the file."""
    found = {}
    for line in (TOP / "crates.txt").read_text().splitlines():
        name, colon, deps = line.split("#")[0].partition(":")
        if colon:
            found[name.split()[0]] = deps.split()
    return found


def below(name, known):
    """All crates of this repository that a crate stands on."""
    direct = [it for it in known[name] if it in known]
    return set(direct).union(*(below(it, known) for it in direct))


def stands_on(name, known):
    """The crates of this repository directly below a crate, without those that another of them stands on."""
    direct = [it for it in known[name] if it in known]
    return [it for it in direct if not any(it in below(other, known) for other in direct)]


def short(name):
    return name.removeprefix("fsl_")


@lru_cache(None)
def words():
    """Every word of the code, its definitions and its lemmas."""
    found = set()
    for path in [*TOP.glob("crates/*/src/**/*.rt"), *TOP.glob("crates/*/specs/**/*.antt"), *TOP.glob("crates/*/proofs/**/*.antt")]:
        found.update(re.findall(r"[A-Za-z_]\w*", path.read_text()))
        found.add(path.stem)
    return found


def files(name, folder=None, crate=None):
    """The files that a name stands for: from the top, from crates/, from docs/, in the crate that is spoken of, or beside the
    last one that was named."""
    name = name.replace("NAME", "*")
    roots = [TOP, TOP / "crates", TOP / "docs"] + ([folder] if folder else [])
    if crate:
        roots += [TOP / "crates" / crate / it for it in ("", "src", "specs")]
    elif "/" not in name.rstrip("/"):
        roots += [*TOP.glob("crates/*"), *TOP.glob("crates/*/src"), *TOP.glob("crates/*/specs"), *TOP.glob("crates/*/proofs")]
    found = []
    for root in roots:
        if not name.startswith("/"):
            found += [path for path in root.glob(name.rstrip("/")) if path.exists()]
    return found


def faults_of_names(name):
    """The files, crates and words of one document that aren't there."""
    known, faults = crates(), []
    fenced, spoken = False, None
    for number, line in enumerate((TOP / "docs" / name).read_text().splitlines(), 1):
        fenced ^= line.startswith("```")
        if fenced:
            continue
        folder, named, crate = None, [], spoken
        if line.startswith("#"):
            crate = spoken = next((it for it in re.findall(r"\w+", line) if it in known), None)
        for span in SPAN.findall(line):
            crate = next((it for it in re.split(r"\W+", span) if it in known), crate)
            if FILE.match(span):
                there = files(span, folder, crate)
                if not there:
                    faults.append(f"docs/{name}:{number}: there is no file {span}")
                else:
                    folder = there[0].parent if there[0].is_file() else there[0]
                    named += there
            elif CRATE.match(span):
                if span not in known:
                    faults.append(f"docs/{name}:{number}: crates.txt has no crate {span}")
            elif WORD.match(span):
                word = WORD.match(span).group(1)
                if word not in words() and word not in plain_words():
                    faults.append(f"docs/{name}:{number}: no code or definition has the word {word}")
        if name == "DEFINITIONS.md" and line.startswith("| `") and named:
            faults += faults_of_row(number, line, named)
    return faults


@lru_cache(None)
def plain_words():
    """Words of the language and of the command line, which stand in backquotes too."""
    text = "".join((TOP / "docs" / it).read_text() for it in ("LANGUAGE.md", "FORMATS.md", "GLOSSARY.md"))
    return set(re.findall(r"[A-Za-z_]\w*", text))


def faults_of_row(number, line, named):
    """The definitions of a row of DEFINITIONS that no file of the row has."""
    text = "\n".join(path.read_text() for path in named if path.is_file())
    text += "\n".join(it.read_text() for path in named if path.is_dir() for it in path.glob("*.antt"))
    first = line.split("|")[1]
    return [f"docs/DEFINITIONS.md:{number}: {word} isn't in the files of its line"
            for word in SPAN.findall(first) if not re.search(rf"\b{re.escape(word)}\b", text)]


def faults_of_architecture():
    """Crates that ARCHITECTURE lacks, and dependencies that aren't those of crates.txt."""
    known, faults, seen = crates(), [], set()
    for number, line in enumerate((TOP / "docs/ARCHITECTURE.md").read_text().splitlines(), 1):
        cells = [it.strip() for it in line.split("|")]
        names = SPAN.findall(cells[1]) if len(cells) > 4 else []
        names = [it for it in names if CRATE.match(it)]
        told = [] if len(cells) <= 4 or cells[3] in ("-", "") else re.split(r"[,;] *", cells[3])
        for at, name in enumerate(names):
            seen.add(name)
            mine = told if len(names) == 1 else told[at:at + 1] if len(told) == len(names) else told
            if name in known and sorted(mine) != sorted(short(it) for it in stands_on(name, known)):
                right = ", ".join(short(it) for it in stands_on(name, known)) or "-"
                faults.append(f"docs/ARCHITECTURE.md:{number}: {name} stands on {right}")
    return faults + [f"docs/ARCHITECTURE.md: the table lacks {name}" for name in known if name not in seen]


def example(name):
    """An example's text without the comments at its head, and its answer."""
    lines = (TOP / name).read_text().splitlines()
    told = lines[0][len(EXPECT):] if lines and lines[0].startswith(EXPECT) else None
    while lines and lines[0].startswith("//"):
        del lines[0]
    return lines, told


def is_part(shown, whole):
    """Whether lines stand in a row in an example; a line `...` stands for any lines."""
    if "..." in [it.strip() for it in shown]:
        at = [it.strip() for it in shown].index("...")
        return is_part(shown[:at], whole) and is_part([it for it in shown[at + 1:]], whole)
    return any(whole[at:at + len(shown)] == shown for at in range(len(whole) - len(shown) + 1))


def faults_of_programs():
    """Programs of the tutorial that differ from their example, and answers of its table that aren't the expected ones."""
    text, faults = (TOP / "docs/TUTORIAL.md").read_text(), []
    name, block = None, None
    for number, line in enumerate(text.splitlines(), 1):
        if line.startswith("```"):
            if block is not None and name and not block[0].startswith("execution"):
                if not is_part(block, example(name)[0]):
                    faults.append(f"docs/TUTORIAL.md:{number}: the program above is no part of {name}")
            block = [] if block is None else None
        elif block is not None:
            block.append(line)
        else:
            for it in SPAN.findall(line):
                if re.fullmatch(r"examples/\w+\.fsl", it):
                    name = it
                    if not (TOP / it).is_file():
                        faults.append(f"docs/TUTORIAL.md:{number}: there is no {it}")
                        name = None
    rows = dict(re.findall(r"^\| `(examples/\w+\.fsl)` \| `([^`]+)` \|$", text, re.M))
    for path in sorted(TOP.glob("examples/*.fsl")):
        name = f"examples/{path.name}"
        if rows.get(name) != example(name)[1]:
            faults.append(f"docs/TUTORIAL.md: the table has {rows.get(name)} for {name}, which expects {example(name)[1]}")
    return faults + faults_of_book()


def faults_of_book():
    """Examples that their own page lacks, or names with another answer."""
    rows = dict(re.findall(r"\[(\w+\.fsl)\]\(\1\) \| `([^`]+)` \|", (TOP / "examples/README.md").read_text()))
    return [f"examples/README.md: it has {rows.get(path.name)} for {path.name}, which expects {example(path)[1]}"
            for path in sorted(TOP.glob("examples/*.fsl")) if rows.get(path.name) != example(path)[1]]


def faults_of_readme():
    """The program of the first page has to be a part of the example that the page names first."""
    text = (TOP / "README.md").read_text()
    name = re.search(r"examples/\w+\.fsl", text)
    block = re.search(r"^    proc .*(?:\n    .*)*", text, re.M)
    if not name or not block:
        return ["README.md: no program is shown"]
    shown = [line[4:] for line in block.group(0).splitlines()]
    shown = shown[:-1] if shown[-1] == "}" and "..." in [it.strip() for it in shown] else shown
    return [] if is_part(shown, example(name.group(0))[0]) else [f"README.md: its program is no part of {name.group(0)}"]


def anchors(path):
    """The names of a document's headings, as links have them."""
    heads = re.findall(r"^#+ (.*)$", path.read_text(), re.M)
    return {re.sub(r"[^\w -]", "", it.lower()).replace(" ", "-") for it in heads}


def faults_of_links():
    faults = []
    for path in [*TOP.glob("*.md"), *TOP.glob("docs/**/*.md"), *TOP.glob("bench/*.md"), *TOP.glob("examples/*.md")]:
        for target in re.findall(r"\]\(([^)\s]+)\)", path.read_text()):
            file, _, head = target.partition("#")
            to = (path.parent / file).resolve() if file else path
            if re.match(r"[a-z]+:", target):
                continue
            if not to.exists():
                faults.append(f"{path.relative_to(TOP)}: a link to {target}, which isn't there")
            elif head and head not in anchors(to):
                faults.append(f"{path.relative_to(TOP)}: a link to the heading {target}, which isn't there")
    return faults


def main():
    if sys.argv[1:] == ["--stands-on"]:
        known = crates()
        for name in known:
            print(f"{name}: {', '.join(short(it) for it in stands_on(name, known)) or '-'}")
        return 0
    faults = [fault for name in NAMING for fault in faults_of_names(name)]
    faults += faults_of_architecture() + faults_of_programs() + faults_of_readme() + faults_of_links()
    of_pages, run = check_pages.check()
    faults += of_pages
    for fault in faults:
        print(fault)
    print(f"documents: {len(faults) or 'no'} fault{'s' if len(faults) > 1 else ''}, {run} programs of the pages run")
    return 1 if faults else 0


if __name__ == "__main__":
    sys.exit(main())
