#!/usr/bin/env python3
"""Writes the programs of examples/ as two tables of tests.

    tools/examples_as_tests.py

writes crates/test_fslpp/src/examples.rt, the accepted ones, and mutants.rt beside it, those that fail. The first line of
each example names its answer, `// expect: ANSWER`. The test runs `check` on the text of each and wants this answer. A
test reads no files, so the texts stand in it: call this anew when an example changes.
"""
import sys
from pathlib import Path

TOP = Path(__file__).resolve().parent.parent
EXPECT = "// expect: "
HEAD = """//! The programs of `examples` that %s, each with the answer that its first line names.
//! `tools/examples_as_tests.py` writes this file.
use crate::refusals::is_answered;

const %s: [(&str, &str); %d] = [
"""
FOOT = """];

#[test]
fn %s_are_answered_as_they_say(rt: HostRuntime) {
    for (text, said) in %s {
        is_answered(&rt, rt.alloc(), text, said);
    }
}
"""


def answer(path):
    """The answer that an example's first line names."""
    text = path.read_text()
    first = text.split("\n", 1)[0]
    if not first.startswith(EXPECT) or '"' in text or "\\" in text:
        sys.exit("%s: its first line names no answer, or it can't stand in quotes" % path)
    return first[len(EXPECT):]


def row(path):
    """One example with its answer."""
    return '    (\n        "%s",\n        "%s\\n",\n    ),\n' % (path.read_text(), answer(path))


def write(name, said, paths):
    """A table with its test, in a file of the crate."""
    table = name.upper()
    text = HEAD % (said, table, len(paths)) + "".join(map(row, paths)) + FOOT % (name, table)
    (TOP / "crates/test_fslpp/src" / (name + ".rt")).write_text(text)


def main():
    paths = sorted((TOP / "examples").glob("*.fsl"))
    accepted = [it for it in paths if answer(it).startswith("accepted")]
    write("examples", "are accepted", accepted)
    write("mutants", "fail", [it for it in paths if it not in accepted])


if __name__ == "__main__":
    main()
