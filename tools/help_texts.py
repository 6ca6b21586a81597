"""What `./fslpp` says of itself, without a program: what each action answers, its statuses and an example."""

# What is written for `--help`, and for `help`.
OVERVIEW = """\
Checks small C11-style programs against their annotations, and runs them.

    ./fslpp check FILE     judges a program
    ./fslpp run FILE       judges it, and runs it where it is accepted
    ./fslpp help ACTION    what an action answers, its statuses and an example
    ./fslpp --version      which version this is
    ./fslpp --build        builds the proved program

It answers by the proved program where it is built, else by an unproved one that says so. A FILE named stdin is the input.
"""

# What is written for `help ACTION`.
ACTIONS = {
    "check": """\
check FILE   judges each procedure of a program: are its accesses safe in every execution, and its assertions true?
  0  accepted P: the rules derive all P procedures
  1  failed NAME LINE:COL KIND: the first procedure that they don't derive, where it fails, and by what
  2  usage: the words are no command
  3  refused WHY: the file is no program that the command covers
  4  read fault: the file isn't there, or can't be read
  5  a first part of the answer: it could not be written whole
  6  nothing: there was no memory
Example: ./fslpp check examples/cell.fsl   docs/FORMATS.md has each answer in full, docs/TUTORIAL.md how to mend failures.
""",
    "run": """\
run FILE   judges a program as check does (statuses 1 to 6 are those of check) and runs it where it is accepted.
The answer of a run is its execution: how it ended, the threads, the events, and the order of the writes at each location.
  0  end finished: every thread has returned
  7  end spent: the moves add up to their bound, and some thread could go on
  8  end halted T: thread T is the first that has halted or failed, and none can go on
  9  end limit KIND: the next move meets a limit, of locations, messages or threads
An execution that is written is one of the program, consistent and acyclic as C11 has it. With status 7, 8 or 9 it is the
part that was run.
Example: ./fslpp run examples/cell.fsl   docs/FORMATS.md has the lines of an execution, docs/MEMORY.md what they mean.
""",
}


def answer(words):
    """What is written for a request for help, with its status; None where the words are none."""
    if words in (["--help"], ["help"]):
        return OVERVIEW, 0
    if len(words) == 2 and words[0] == "help":
        if words[1] in ACTIONS:
            return ACTIONS[words[1]], 0
        return "no action %s; the actions are %s\n" % (words[1], ", ".join(ACTIONS)), 2
    return None
