#!/usr/bin/env python3
"""Checks the files of editors/ on the examples.

    tools/check_editors.py

- What `tools/write_editors.py` writes is there.
- By the regular expressions of the TextMate grammar each example is cut into the tokens that a small reading of its own
  finds by the table of tokens (crates/fsl_token/src/kind.rt), of the same sort: word, symbol, name, number or comment.
- Vim, where it is there, colours the first character of each of these tokens as its sort.
- Where a program is built, `editors/check_file` puts the place of each answer where the problem matcher finds it.
"""
import json
import os
import re
import shutil
import subprocess
import sys
import tempfile
from pathlib import Path

sys.dont_write_bytecode = True
sys.path.insert(0, str(Path(__file__).resolve().parent))

import check_pages
import first_use
import write_editors

TOP = Path(__file__).resolve().parent.parent
EXPECT = "// expect: "
# Tokens that the examples have few of, or none.
MORE = "proc größe_1(_x, bank g) { // an end\n  let a1=12if; cas acq rlx(a, -1, 007);mint(g,1); up_ = _; ifs == iffy; a|->?b&*&c!=d>=e }\n"
SORTS = {"comment": "comment", "constant.numeric": "number", "keyword.operator": "symbol", "entity.name": "name", "variable.other": "name"}
VIM_SORTS = {"fslppComment": "comment", "fslppNumber": "number", "fslppSymbol": "symbol", "fslppName": "name"}


def table():
    """The words and the symbols of the table of tokens."""
    texts = set()
    for line in (TOP / "crates/fsl_token/src/kind.rt").read_text().splitlines():
        left, arrow, right = line.partition(" => ")
        if left.strip().startswith("TokenKind::") and arrow and right.startswith('"'):
            texts.add(right.rstrip(",").strip('"'))
    return {it for it in texts if it.isidentifier() and it != "_"}, {it for it in texts if not it.isidentifier() or it == "_"}


def run_of(text, at, fits):
    """Where the characters that fit end."""
    while at < len(text) and fits(text[at]):
        at += 1
    return at


def tokens_by_table(text):
    """The tokens and comments of a text: where each starts and ends, and its sort."""
    words, symbols = table()
    found, at = [], 0
    while at < len(text):
        start = at
        if text[at] in " \t\r\n":
            at += 1
            continue
        if text.startswith("//", at):
            at, sort = run_of(text, at, lambda it: it != "\n"), "comment"
        elif text[at] in "0123456789":
            at, sort = run_of(text, at, lambda it: it in "0123456789"), "number"
        elif text[at].isidentifier():
            at = run_of(text, at, lambda it: ("a" + it).isidentifier())
            sort = "word" if text[start:at] in words else "symbol" if text[start:at] == "_" else "name"
        else:
            fitting = [it for it in symbols if text.startswith(it, at)]
            at, sort = at + max(map(len, fitting), default=1), "symbol" if fitting else "none"
        found.append((start, at, sort))
    return found


def sort_of(scope):
    """The sort of a scope of the grammar."""
    return next((sort for begin, sort in SORTS.items() if scope.startswith(begin)), "word")


def tokens_by_grammar(text):
    """The same by the grammar: of what fits first the pattern that stands first."""
    patterns = json.loads(write_editors.GRAMMAR.read_text())["patterns"]
    compiled = [(re.compile(it["match"]), sort_of(it["name"])) for it in patterns]
    found, at = [], 0
    while True:
        fitting = [(match.start(), number, match.end()) for number, (pattern, _) in enumerate(compiled) if (match := pattern.search(text, at))]
        if not fitting:
            return found
        start, number, at = min(fitting)
        found.append((start, at, compiled[number][1]))


def difference(name, wanted, found, text):
    """A line on the first token that differs."""
    for mine, theirs in zip(wanted + [None], found + [None]):
        if mine != theirs:
            at = (mine or theirs)[0]
            return [f"{name}: at byte {at}, {text[at:at + 12]!r}: {mine} by the table, {theirs} by the editor"]
    return []


def texts():
    """The examples and the line of more tokens, by name."""
    return {**{path.name: path.read_text() for path in sorted(TOP.glob("examples/*.fsl"))}, "more": MORE}


def faults_of_grammar():
    faults = []
    for name, text in texts().items():
        faults += difference(name, tokens_by_table(text), tokens_by_grammar(text), text)
    return faults


def place(text, at):
    """Line and column of a character, in bytes as Vim counts."""
    line = text.rfind("\n", 0, at) + 1
    return text.count("\n", 0, at) + 1, len(text[line:at].encode()) + 1


def faults_of_vim():
    """What Vim takes the first character of each token for; without Vim nothing."""
    if not shutil.which("vim") or "+syntax" not in subprocess.run(["vim", "--version"], capture_output=True, text=True).stdout:
        return []
    faults = []
    with tempfile.TemporaryDirectory(prefix="fslpp-vim-") as room:
        wanted, script = [], ["set nomore encoding=utf-8 runtimepath^=%s" % (TOP / "editors/vim"), "syntax on", "let found = []"]
        for name, text in texts().items():
            # Vim has letters of ASCII in names, and a keyword only behind something else than a digit
            text = text.replace("öß", "os").replace("12if", "12 if")
            (Path(room) / name).with_suffix(".fsl").write_text(text)
            script.append(f"edit! {Path(room) / Path(name).with_suffix('.fsl')}")
            for start, _, sort in tokens_by_table(text):
                wanted.append((name, start, sort, text))
                script.append("call add(found, synIDattr(synID(%d, %d, 0), 'name'))" % place(text, start))
        script += [f"call writefile(found, '{room}/found')", "qa!"]
        (Path(room) / "script.vim").write_text("\n".join(script) + "\n")
        how = {"stdin": subprocess.DEVNULL, "capture_output": True, "timeout": 120}
        subprocess.run(["vim", "-N", "-u", "NONE", "-i", "NONE", "-n", "-es", "-S", room + "/script.vim"], **how)
        found = (Path(room) / "found").read_text().splitlines() if (Path(room) / "found").is_file() else []
    if len(found) != len(wanted):
        return [f"Vim: it answered on {len(found)} tokens of {len(wanted)}"]
    for (name, start, sort, text), group in zip(wanted, found):
        if VIM_SORTS.get(group, "word" if group else "none") != sort:
            faults.append(f"Vim, {name}: at byte {start}, {text[start:start + 12]!r}: {sort} by the table, {group or 'nothing'} by Vim")
    return faults[:5]


def faults_of_matcher():
    """Answers whose place the problem matcher doesn't find."""
    program = check_pages.built_program()
    if program is None:
        return []
    pattern = json.loads((TOP / "editors/vscode/package.json").read_text())["contributes"]["problemMatchers"][0]["pattern"]
    names = sorted(str(path) for path in TOP.glob("examples/*.fsl"))
    env = {**os.environ, **first_use.CHECKED, "FSLPP": str(program)}
    said = subprocess.run([TOP / "editors/check_file", *names], env=env, capture_output=True, text=True).stdout.splitlines()
    faults = [] if len(said) == len(names) else [f"editors/check_file: {len(said)} lines on {len(names)} files"]
    for name, line in zip(names, said):
        answer = Path(name).read_text().split("\n")[0][len(EXPECT):]
        match = re.match(pattern["regexp"], line)
        found = match and [match.group(pattern[it]) for it in ("file", "line", "column", "message")]
        at = re.search(r"(\d+):(\d+)", answer)
        if found != (None if at is None else [name, at.group(1), at.group(2), answer]):
            faults.append(f"the problem matcher: {found} of {line}")
    return faults


def faults_of_files():
    """Files that the script would write otherwise."""
    _, symbols = write_editors.words_and_symbols()
    wanted = {write_editors.GRAMMAR: json.dumps(write_editors.grammar(symbols), indent=2) + "\n", write_editors.VIM: write_editors.vim(symbols)}
    return [f"{path.relative_to(TOP)}: tools/write_editors.py writes it otherwise" for path, text in wanted.items() if path.read_text() != text]


def main():
    faults = faults_of_files() + faults_of_grammar() + faults_of_vim() + faults_of_matcher()
    for fault in faults:
        print(fault)
    print(f"editors: {len(faults) or 'no'} fault{'s' if len(faults) > 1 else ''}")
    return 1 if faults else 0


if __name__ == "__main__":
    sys.exit(main())
