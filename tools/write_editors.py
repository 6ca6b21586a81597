#!/usr/bin/env python3
"""Writes the files of editors/ that have the words and symbols of the language, from the table of tokens.

    tools/write_editors.py

The table is `fixed_text` in crates/fsl_token/src/kind.rt. Each of its words is in one of the groups below; a word that is
in none, or a group's word that isn't in the table, ends this script. `tools/check_editors.py` checks what it writes.
"""
import json
import re
import sys
from pathlib import Path

TOP = Path(__file__).resolve().parent.parent
TABLE = TOP / "crates/fsl_token/src/kind.rt"
GRAMMAR = TOP / "editors/vscode/syntaxes/fslpp.tmLanguage.json"
VIM = TOP / "editors/vim/syntax/fslpp.vim"
# Groups of words: the scope in a TextMate grammar, the group and the colour in Vim, the words.
GROUPS = [
    ("keyword.declaration", "Declaration", "Structure", "proc inv of pred requires ensures bank"),
    ("keyword.control", "Control", "Conditional", "if else while return call par"),
    ("keyword.other.statement", "Statement", "Statement",
     "let store load free fence alloc assert print cas fetch_add exchange with mint burn"),
    ("storage.modifier.mode", "Mode", "StorageClass", "na rlx acq rel acqrel rmw"),
    ("support.type.assertion", "Assertion", "Type", "Acq Auth Init Rel RmwAcq Tok up down"),
    ("constant.language", "Constant", "Constant", "true false emp"),
    ("variable.language", "Result", "Identifier", "result"),
]
NAME = r"[^\W\d]\w*"


def fixed_texts():
    """The texts of the table: words and symbols."""
    return re.findall(r'^ *TokenKind::\w+ => "([^"]+)",$', TABLE.read_text(), re.M)


def words_and_symbols():
    """The words of the table, in no group twice, and its symbols, the longest first."""
    texts = fixed_texts()
    words = [it for it in texts if re.fullmatch(r"[A-Za-z]\w*", it)]
    grouped = [it for group in GROUPS for it in group[3].split()]
    if sorted(words) != sorted(grouped):
        sys.exit("the groups differ from the table in: %s" % " ".join(sorted(set(words) ^ set(grouped))))
    return words, sorted((it for it in texts if it not in words), key=lambda it: (-len(it), it))


def grammar(symbols):
    """The TextMate grammar: at each place the first pattern that fits counts."""
    patterns = [{"name": "comment.line.double-slash.fslpp", "match": "//[^\\n]*"}]
    for scope, _, _, words in GROUPS:
        patterns.append({"name": scope + ".fslpp", "match": r"(?:%s)(?!\w)" % "|".join(words.split())})
    patterns.append({"name": "constant.numeric.decimal.fslpp", "match": "[0-9]+"})
    patterns.append({"name": "entity.name.function.fslpp", "match": NAME + r"(?=\s*\()"})
    patterns.append({"name": "keyword.operator.fslpp", "match": r"_(?!\w)|" + "|".join(map(re.escape, (it for it in symbols if it != "_")))})
    patterns.append({"name": "variable.other.fslpp", "match": NAME})
    return {"name": "fslpp", "scopeName": "source.fslpp", "fileTypes": ["fsl"], "patterns": patterns}


def vim(symbols):
    """The Vim syntax file: of several matches at one place the last one counts, and keywords before all."""
    lines = ['" The syntax of fslpp programs; tools/write_editors.py writes this file.', 'if exists("b:current_syntax")', "  finish", "endif", ""]
    lines += [r"syn match fslppName /\v[[:alpha:]_]\w*/", r"syn match fslppNumber /\v[0-9]+/"]
    lines += [r"syn match fslppSymbol /\V\%%(%s\)/" % r"\|".join(it for it in symbols if it != "_")]
    lines += [r"syn match fslppSymbol /\v<_>/", r"syn match fslppComment /\/\/.*$/", ""]
    lines += ["syn keyword fslpp%s %s" % (group, words) for _, group, _, words in GROUPS]
    lines += [""] + ["hi def link fslpp%s %s" % (group, colour) for _, group, colour, _ in GROUPS]
    lines += ["hi def link fslppNumber Number", "hi def link fslppSymbol Operator", "hi def link fslppComment Comment"]
    return "\n".join(lines + ["", 'let b:current_syntax = "fslpp"', ""])


def main():
    _, symbols = words_and_symbols()
    GRAMMAR.write_text(json.dumps(grammar(symbols), indent=2) + "\n")
    VIM.write_text(vim(symbols))


if __name__ == "__main__":
    main()
