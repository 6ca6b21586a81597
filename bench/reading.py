#!/usr/bin/env python3
"""Times how `check` reads files of many procedures of 250 kB, 500 kB and 1 MB.

    bench/reading.py [PROGRAM]

PROGRAM is a build of fslpp, the proved one without it. The files are programs, but the rules built so far do not cover
them, so what is timed is reading: bytes, tokens, tree, names and types. For each size it prints the tokens, the
seconds of the processor in the best of five runs, the tokens for each of these seconds, the ratio of the seconds to
those of the size before, and how many bytes of memory the run took for each byte of the file.
"""

import re
import tempfile
from pathlib import Path

from timing import best, program

SIZES = (250_000, 500_000, 1_000_000)
PROCEDURES = (
    """inv Ready{n}(data) of v {{ if (v == 0) {{ emp }} else {{ data |-> 7 }} }}
""",
    """proc write{n}(flag, data) requires (Rel(flag, Ready{n}(data)) &*& data |-> _) {{
  store na(data, {n} * 2 + 1); // the item
  store rel(flag, 1);
}}
""",
    """proc read{n}(flag, data) requires (Init(flag) &*& Acq(flag, Ready{n}(data), 0, {{}})) ensures (result >= 0) {{
  let seen = load acq(flag);
  while (seen == 0) inv (Init(flag) &*& if (seen == 0) {{ emp }} else {{ data |-> ?x }}) {{
    seen = load acq(flag);
  }}
  if (seen != {n}) {{ print(-(seen - {n}) * 3); }} else {{ fence acq; }}
  return {n} + seen;
}}
""",
    """proc both{n}() {{
  bank g;
  let data = alloc na;
  let flag = alloc acq Ready{n}(data);
  let old = fetch_add acqrel(flag, 1) with {{ mint(g, 1); }};
  par {{ write{n}(flag, data); read{n}(flag, data); }}
}}
""",
)
TOKEN = re.compile(r"&\*&|\|->|[=!<>]=|\w+|[^\w\s]")
COMMENT = re.compile(r"//[^\n]*")


def text_of(size):
    """Procedures in turn, with their number in their names."""
    main = "proc main() { }\n"
    parts, length, number = [], len(main), 0
    while True:
        part = "".join(p.format(n=number) for p in PROCEDURES)
        if length + len(part) > size:
            return "".join(parts + [main])
        parts.append(part)
        length += len(part)
        number += 1


def is_read(run):
    """Whether the answer is a verdict or a refusal."""
    return run.status in (0, 1, 3)


def main():
    with tempfile.TemporaryDirectory() as folder:
        path = Path(folder) / "program.fsl"
        before = None
        for size in SIZES:
            text = text_of(size)
            tokens = len(TOKEN.findall(COMMENT.sub("", text)))
            path.write_text(text)
            took = best(5, is_read, program(), "check", path)
            ratio = "" if before is None else ", %.2f times the size before" % (took.seconds / before)
            print("%7d bytes, %6d tokens, %s: %.3f s, %.2f million tokens a second%s; %.0f bytes of memory a byte"
                  % (len(text), tokens, took.out.decode().strip(), took.seconds, tokens / took.seconds / 1e6, ratio, took.memory / len(text)))
            before = took.seconds


if __name__ == "__main__":
    main()
