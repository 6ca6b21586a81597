#!/usr/bin/env python3
"""Checks what `./fslpp` answers: to requests for help, with the proved program, without its stamp, with other sources, without a kit, and
with an unproved build; and what `./fslpp --build` says. Call it where the gate, `rt ci`, has left the program.

    tools/check_first_use.py

It works on copies of the repository in temporary folders, and ends with status 1 where something isn't as it is to be.
"""
import os
import shutil
import subprocess
import sys
import tempfile
import time
from pathlib import Path

sys.dont_write_bytecode = True

import crate_files
import help_texts

EXAMPLES = [("examples/cell.fsl", 0), ("examples/wild.fsl", 1)]
# A kit that proves nothing: what the scripts say is checked with it, and no program.
KIT = """#!/bin/sh
case "$1" in
version) echo "%s logic 0" ;;
run) cp /bin/true out/fslpp ;;
esac
%s
"""
# How long an unproved build that is there may take to answer, in seconds.
AGAIN = 12


class Failure(Exception):
    """Something isn't as it is to be."""


def want(holds, what, ran):
    """Fails where something doesn't hold, with what was written."""
    if not holds:
        raise Failure("%s: status %d\n%s%s" % (what, ran.returncode, ran.stdout.decode(), ran.stderr.decode()))


def call(top, *words, **variables):
    """Calls the script in a copy of the repository; where another search path is given, by this Python."""
    how = {"cwd": top, "stdin": subprocess.DEVNULL, "capture_output": True}
    script = [sys.executable, "fslpp"] if variables else ["./fslpp"]
    return subprocess.run([*script, *words], env={**os.environ, **variables}, **how)


def copy_to(folder):
    """Copies the repository's files, without what is built, to a folder."""
    found = subprocess.run(["git", "ls-files", "-z", "-co", "--exclude-standard"], cwd=crate_files.TOP, stdout=subprocess.PIPE, check=True)
    for name in filter(None, found.stdout.decode().split("\0")):
        if (crate_files.TOP / name).is_file():
            (folder / name).parent.mkdir(parents=True, exist_ok=True)
            shutil.copy(crate_files.TOP / name, folder / name)
    # so that the files of the copy are older than what is built in it
    time.sleep(0.05)
    return folder


def give_program(top):
    """Gives a copy the program that stands here."""
    made = top / "crates/fslpp/out"
    made.mkdir(parents=True, exist_ok=True)
    shutil.copyfile(crate_files.TOP / "crates/fslpp/out/fslpp", made / "fslpp")
    (made / "fslpp").chmod(0o755)


def answers_as_program(top, lines):
    """Whether the script answers on the examples as the program does, with so many lines beside the answer."""
    program = crate_files.TOP / "crates/fslpp/out/fslpp"
    for name, status in EXAMPLES:
        wanted = subprocess.run([program, "check", name], cwd=crate_files.TOP, stdin=subprocess.DEVNULL, capture_output=True)
        want(wanted.returncode == status and not wanted.stderr, "the program on %s" % name, wanted)
        ran = call(top, "check", name)
        same = (ran.returncode, ran.stdout) == (status, wanted.stdout)
        want(same and ran.stderr.count(b"\n") == lines, "the script on %s" % name, ran)


def kit_in(folder, kit=crate_files.KIT, ends=""):
    """A search path with a kit that proves nothing and ends its other commands so."""
    made = folder / "bin"
    made.mkdir(exist_ok=True)
    (made / "rt").write_text(KIT % (kit, ends))
    (made / "rt").chmod(0o755)
    return "%s:/usr/bin:/bin" % made


def path_without_kit():
    """The search path without the folders that have a kit."""
    return os.pathsep.join(it for it in os.environ["PATH"].split(os.pathsep) if not os.path.exists(it + "/rt"))


def check_built(room):
    """The program is here, with its stamp or without."""
    answers_as_program(crate_files.TOP, 0)
    top = copy_to(room)
    give_program(top)
    answers_as_program(top, 0)
    stamp = top / "crates/fslpp/out/fslpp.sources"
    stamp.unlink()
    answers_as_program(top, 0)
    if not stamp.is_file():
        raise Failure("no stamp is written anew")


def check_help(room):
    """Requests for help are answered without a kit and without a program, in ten lines at most."""
    top = copy_to(room)
    for words in [["--help"], ["help"], *(["help", it] for it in help_texts.ACTIONS), ["--version"]]:
        ran = call(top, *words, PATH=path_without_kit())
        want(ran.returncode == 0 and not ran.stderr and 1 <= ran.stdout.count(b"\n") <= 10, " ".join(words), ran)
    ran = call(top, "help", "nothing", PATH=path_without_kit())
    want(ran.returncode == 2 and not ran.stdout and b"check" in ran.stderr, "help on what is no action", ran)


def check_other_sources(room):
    """The program that is here is of other sources: it doesn't answer."""
    top = copy_to(room)
    give_program(top)
    answers_as_program(top, 0)
    time.sleep(0.05)
    with open(top / "crates/fsl_base/src/lib.rt", "a") as source:
        source.write("// another source\n")
    ran = call(top, "check", EXAMPLES[0][0], PATH=path_without_kit())
    want(ran.returncode == 21 and not ran.stdout and b"no kit" in ran.stderr, "other sources and no kit", ran)
    ran = call(top, "check", EXAMPLES[0][0], PATH=kit_in(room, "rattle-kit-0"))
    want(ran.returncode == 22 and not ran.stdout and b"the wrong kit" in ran.stderr, "the wrong kit", ran)
    ran = call(top, "check", EXAMPLES[0][0], PATH=kit_in(room, ends="exit 1"))
    want(ran.returncode == 20 and not ran.stdout and b"unproved.log" in ran.stderr, "no unproved build", ran)


def check_build(room):
    """`--build` writes a line a crate, names the log of what fails and leaves a program with its stamp."""
    top = copy_to(room)
    ran = call(top, "--build", PATH=kit_in(room, ends='[ "$1" != lib ] || [ "${PWD##*/}" != fsl_lin ]'))
    want(ran.returncode == 20 and b"fsl_lin/out/build.log" in ran.stderr, "a build that fails", ran)
    ran = call(top, "--build", PATH=kit_in(room))
    count = len(crate_files.closure("fslpp", crate_files.listed()))
    want(ran.returncode == 0 and not ran.stdout, "a build", ran)
    want(ran.stderr.count(b"\n") <= count + 2 and b"%d of %d" % (count, count) in ran.stderr, "its lines", ran)
    ran = call(top, "check", EXAMPLES[0][0])
    want(ran.returncode == 0 and not ran.stdout and not ran.stderr, "what was built", ran)


def check_unproved(room):
    """Without a program an unproved build answers, and says so; it is built once."""
    top = copy_to(room)
    answers_as_program(top, 1)
    began = time.monotonic()
    ran = call(top, "check", EXAMPLES[0][0])
    want(b"unproved" in ran.stderr and time.monotonic() - began < AGAIN, "the unproved build again", ran)


def main():
    failed = 0
    for case in [check_help, check_built, check_other_sources, check_build, check_unproved]:
        began = time.monotonic()
        with tempfile.TemporaryDirectory(prefix="fslpp-first-use-") as room:
            try:
                case(Path(room))
                said = "passed"
            except Failure as why:
                failed, said = 1, "FAILED: %s" % why
        print("first use: %s %s (%.0f s)" % (case.__doc__.partition(".")[0].strip(), said, time.monotonic() - began), flush=True)
    return failed


if __name__ == "__main__":
    sys.exit(main())
