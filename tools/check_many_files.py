#!/usr/bin/env python3
"""Runs the three ways of docs/MANY_FILES.md on examples/, and compares the answers and the statuses.

    tools/check_many_files.py

A way whose tool isn't there is left out, with a line that says so; where no program is built nothing is run.
"""
import os
import re
import shutil
import subprocess
import sys
import tempfile
from pathlib import Path

sys.dont_write_bytecode = True
sys.path.insert(0, str(Path(__file__).resolve().parent))

import check_pages
import crate_files
import first_use

WAYS = crate_files.TOP / "tools/many_files"
EXPECT = "// expect: "


class Way:
    """A tool, the commands that check a folder by it, and its status where a program isn't accepted."""

    def __init__(self, tool, commands, failed):
        self.tool, self.commands, self.failed = tool, commands, failed


MANY = [
    Way("make", [f"make -j2 -k -f {WAYS}/Makefile PROGRAMS=PROGRAMS_HERE"], {2}),
    Way("ninja", [f"{WAYS}/write_ninja.sh PROGRAMS_HERE > build.ninja", "ninja -j2 -k 0"], {1}),
    Way("xargs", [f"JOBS=2 {WAYS}/side_by_side.sh PROGRAMS_HERE"], set(range(1, 256))),
]


def expected(folder):
    """Each example of a folder with its answer."""
    return {path.name: path.read_text().split("\n")[0][len(EXPECT):] for path in folder.glob("*.fsl")}


def answers(room, said):
    """Each example with its answer, from the folder of answers or from what was written."""
    found = {path.stem + ".fsl": path.read_text().strip() for path in Path(room).glob("answers/*/*.a*")}
    return found or dict(re.findall(r"^\S*?([\w]+\.fsl): (.*)$", said, re.M))


def copied(room, name, chosen):
    """A folder with some of the examples, and what they are expected to be answered."""
    folder = Path(room) / name
    folder.mkdir()
    for path in (crate_files.TOP / "examples").glob("*.fsl"):
        if chosen(path):
            shutil.copy(path, folder)
    return expected(folder)


def run(way, room, program, folder):
    """Checks a folder by a way; the status and the answers."""
    env = {**os.environ, **first_use.CHECKED, "FSLPP": str(program)}
    said, status = "", 0
    for command in way.commands:
        how = {"shell": True, "cwd": room, "env": env, "capture_output": True, "text": True}
        ran = subprocess.run(command.replace("PROGRAMS_HERE", folder), **how)
        said, status = said + ran.stdout, ran.returncode
    return status, answers(room, said)


def faults_of(way, program):
    """What a way does otherwise than its page says: on all examples, and on those that are accepted."""
    faults = []
    for name, chosen in [("all", lambda it: True), ("accepted", lambda it: EXPECT + "accepted" in it.read_text())]:
        with tempfile.TemporaryDirectory(prefix="fslpp-many-") as room:
            wanted = copied(room, name, chosen)
            status, found = run(way, room, program, name)
        if found != wanted:
            faults.append(f"{way.tool}, {name}: other answers: {sorted(set(wanted.items()) ^ set(found.items()))[:4]}")
        if status not in (way.failed if name == "all" else {0}):
            faults.append(f"{way.tool}, {name}: status {status}")
    return faults


def check():
    """The faults of all ways, and lines on those that were left out."""
    program, faults, left_out = check_pages.built_program(), [], []
    for way in MANY:
        if program is None or not shutil.which(way.tool):
            left_out.append(f"{way.tool}: not tried; {'it is missing' if program else 'no program is built'}")
        else:
            faults += faults_of(way, program)
    return faults, left_out


def main():
    faults, left_out = check()
    for line in left_out + faults:
        print(line)
    print(f"many files: {len(faults) or 'no'} fault{'s' if len(faults) > 1 else ''}")
    return 1 if faults else 0


if __name__ == "__main__":
    sys.exit(main())
