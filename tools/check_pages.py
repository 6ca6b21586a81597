#!/usr/bin/env python3
"""Runs the programs that the pages show, and compares the answers.

    tools/check_pages.py          one line for each fault, and status 1 where there is one
    tools/check_pages.py --slow   also the programs whose answer takes minutes

The pages are those of docs/failures, docs/COMING_FROM.md and docs/PROVING.md. On them

- an indented block is a program, and the next line that isn't empty is its answer, as ``Answer: `accepted 1` ``, or
  `Answer, after minutes: ..`. A line of it that ends in `// N times` stands for N lines, and `\\xff` for that byte.
- a block with a line PIECE is a frame. In the tables below it whose second column is headed `Answer`, the first piece of
  code of the first column is put into the frame in that line and has the answer of the second; the first piece of the
  third column, where there is one, is accepted there.
- docs/failures has a page for each kind of failure and of refusal that crates/fsl_report writes, and its index names it.

The program is the one that `./fslpp` would take, proved or not; where none is built nothing is run.
"""
import os
import re
import subprocess
import sys
from pathlib import Path

sys.dont_write_bytecode = True
sys.path.insert(0, str(Path(__file__).resolve().parent))

import crate_files
import first_use

TOP = crate_files.TOP
FOLDER = TOP / "docs/failures"
PAGES = [TOP / "docs/COMING_FROM.md", TOP / "docs/PROVING.md"]
ANSWER = re.compile(r"^Answer(, after minutes)?: `([^`]+)`")
SPAN = re.compile(r"`((?:[^`\\]|\\.)+)`")
TIMES = re.compile(r"^(.*?) *// (\d+) times$")
PIECE = "PIECE"


def built_program():
    """The program that is built of these sources, the proved one first; nothing where there is none."""
    sources = crate_files.sum_of_sources("fslpp")
    proved, unproved = first_use.Program("fslpp"), first_use.Program("fslpp.unproved")
    if proved.is_of(sources) or proved.is_newer():
        return proved.path
    return unproved.path if unproved.is_of(sources) else None


def bytes_of(lines):
    """The file that lines of a page stand for."""
    text = []
    for line in lines:
        times = TIMES.match(line)
        text += [times.group(1)] * int(times.group(2)) if times else [line]
    return ("\n".join(text) + "\n").encode().replace(b"\\xff", b"\xff")


def answer_of(program, file):
    """What the program answers on a file."""
    how = {"input": file, "capture_output": True, "env": {**os.environ, **first_use.CHECKED}}
    ran = subprocess.run([program, "check", "stdin"], **how)
    return (ran.stdout + ran.stderr).decode().strip()


def cells(line):
    """The cells of a row of a table, with bars that are no borders."""
    return [it.strip().replace("\\|", "|") for it in re.split(r"(?<!\\)\|", line.strip())[1:-1]]


def first_span(cell):
    """The first piece of code of a cell; nothing where there is none."""
    span = SPAN.search(cell)
    return span.group(1) if span else None


class Page:
    """What a page shows: programs with their answers, each by the number of its line."""

    def __init__(self, path):
        self.name = str(path.relative_to(TOP))
        self.lines = path.read_text().splitlines()
        self.shown, self.faults = [], []
        self.read()

    def fault(self, number, text):
        self.faults.append(f"{self.name}:{number}: {text}")

    def read(self):
        """Goes over the lines once."""
        at, frame, tried = 0, None, False
        while at < len(self.lines):
            line = self.lines[at]
            if line.startswith("```"):
                at = next((it for it in range(at + 1, len(self.lines)) if self.lines[it].startswith("```")), at)
            elif line.startswith("    "):
                block, at = self.block(at)
                if PIECE in block:
                    frame = block
                else:
                    self.take(block, at)
                continue
            elif line.startswith("|"):
                tried = self.row(cells(line), at, frame, tried)
            else:
                tried = False
            at += 1

    def block(self, at):
        """An indented block, and the number of the line behind it."""
        block = []
        while at < len(self.lines) and (self.lines[at].startswith("    ") or (not self.lines[at] and self.goes_on(at))):
            block.append(self.lines[at][4:])
            at += 1
        return block, at

    def goes_on(self, at):
        """Whether behind an empty line the block goes on."""
        return at + 1 < len(self.lines) and self.lines[at + 1].startswith("    ")

    def take(self, block, at):
        """A program, whose answer is to stand behind it."""
        behind = next((it for it in range(at, len(self.lines)) if self.lines[it]), None)
        said = behind is not None and ANSWER.match(self.lines[behind])
        if said:
            self.shown.append((behind + 1, bytes_of(block), said.group(2), bool(said.group(1))))
        else:
            self.fault(at, "the program above has no answer")

    def row(self, row, at, frame, tried):
        """A row of a table; gives whether the rows of this table are pieces."""
        if not tried or set("".join(row)) <= set("-: "):
            return tried or (len(row) > 1 and row[1] == "Answer" and frame is not None)
        answer, instead = first_span(row[1]), first_span(row[2]) if len(row) > 2 else None
        if not first_span(row[0]) or not answer:
            self.fault(at + 1, "the row has no piece or no answer")
            return tried
        for piece, said in [(first_span(row[0]), answer), (instead, "accepted")]:
            if piece:
                self.shown.append((at + 1, bytes_of([piece if it == PIECE else it for it in frame]), said, False))
        return tried

    def compare(self, program, slow):
        """Runs the programs, and notes those whose answer is another; gives how many were run."""
        count = 0
        for number, file, said, takes_long in self.shown:
            if takes_long and not slow:
                continue
            count += 1
            answer = answer_of(program, file)
            if answer != said and not (said == "accepted" and answer.startswith("accepted ")):
                self.fault(number, f"the answer is {answer}, and not {said}")
        return count


def kinds():
    """The kinds of failure and of refusal, as pages are named: the words of the texts that are written."""
    specs = TOP / "crates/fsl_report/specs"
    words = re.findall(r'^kind_word \w+ = codes "(\w+)"', (specs / "Verdicts.antt").read_text(), re.M)
    refusals = (specs / "Refusals.antt").read_text()
    types = re.findall(r'^type_word \S+ = codes "(\w+)"', refusals, re.M)
    others = [it for it in re.findall(r'^refused_text .* codes "(?:refused )?(\w+)', refusals, re.M) if it != "type"]
    others += re.findall(r'^refused_text .* \w+_text \(codes "(\w+)"', refusals, re.M)
    return words + ["refused-" + it for it in dict.fromkeys(others) if it != "type"] + ["refused-type-" + it for it in types]


def faults_of_index():
    """Kinds without a page, pages without a kind, and pages that the index doesn't name."""
    index = (FOLDER / "README.md").read_text()
    there = {path.stem for path in FOLDER.glob("*.md")} - {"README"}
    faults = [f"docs/failures: there is no page {it}.md" for it in kinds() if it not in there]
    faults += [f"docs/failures/{it}.md: no answer has this kind" for it in sorted(there - set(kinds()))]
    return faults + [f"docs/failures/README.md: it doesn't name {it}.md" for it in kinds() if f"({it}.md)" not in index]


def check(slow=False):
    """The faults of all pages, and how many programs were run."""
    pages = [Page(it) for it in [*sorted(FOLDER.glob("*.md")), *PAGES] if it.is_file()]
    program = built_program()
    count = sum(it.compare(program, slow) for it in pages) if program else 0
    return faults_of_index() + [fault for it in pages for fault in it.faults], count


def main():
    faults, count = check("--slow" in sys.argv[1:])
    for fault in faults:
        print(fault)
    print(f"pages: {len(faults) or 'no'} fault{'s' if len(faults) > 1 else ''}, {count} programs run")
    return 1 if faults else 0


if __name__ == "__main__":
    sys.exit(main())
