#!/usr/bin/env python3
"""Checks that the accepted examples run as C11.

    tools/check_c11.py

`tools/c11.py` writes each accepted example, the system's compiler builds it with warnings as errors, and it is run once: it has
to end well, and one with an endless loop has to go on for a second. Where there is no compiler, this says so and checks that each example is written.
"""
import shutil
import subprocess
import sys
import tempfile
from pathlib import Path

sys.dont_write_bytecode = True
sys.path.insert(0, str(Path(__file__).resolve().parent))

import c11

TOP = Path(__file__).resolve().parent.parent
WARNINGS = ["-Wall", "-Wextra", "-Werror", "-Wno-unused-variable", "-Wno-unused-but-set-variable", "-Wno-unused-parameter", "-Wno-unused-function"]
# How long a program may run, in seconds, and how long an endless one is watched.
PATIENCE, WATCHED = 20, 1
ENDLESS = "while (true)"


def fault(compiler, path, room):
    """What is wrong with an example as C, or nothing."""
    source, program = room / "program.c", room / "program"
    text = path.read_text()
    source.write_text(c11.written(text))
    if not compiler:
        return None
    built = subprocess.run([compiler, "-std=c11", "-O2", "-pthread", *WARNINGS, "-o", program, source], capture_output=True, text=True)
    if built.returncode:
        return built.stderr
    is_endless = ENDLESS in text
    try:
        ran = subprocess.run([program], capture_output=True, text=True, timeout=WATCHED if is_endless else PATIENCE)
    except subprocess.TimeoutExpired:
        return None if is_endless else "it didn't end within %d seconds" % PATIENCE
    return None if ran.returncode == 0 and not is_endless else "it ended with %d: %s" % (ran.returncode, ran.stderr)


def main():
    compiler = shutil.which("cc") or shutil.which("gcc") or shutil.which("clang")
    paths = [it for it in sorted((TOP / "examples").glob("*.fsl")) if it.read_text().startswith("// expect: accepted")]
    faults = 0
    with tempfile.TemporaryDirectory() as room:
        for path in paths:
            said = fault(compiler, path, Path(room))
            if said:
                faults += 1
                print("%s: %s" % (path, said))
    did = "built and run by %s" % compiler if compiler else "written; there is no C compiler here, so none was built"
    print("examples as C11: %d %s, %d of them wrongly" % (len(paths), did, faults))
    sys.exit(1 if faults or not paths else 0)


if __name__ == "__main__":
    main()
