#!/usr/bin/env python3
"""Writes a program out in the words of crates/fsl_judged/specs/Words.antt.

    tools/program_as_words.py NAME FILE

prints the definition NAME of the program in FILE, its text above it as a comment. The examples of that crate were
written so: a program there has slots, places and numbers that nobody should count by hand. The file has to be a
program; nothing is checked but that its tokens fit the grammar.
"""
import re
import sys

TOKEN = re.compile(
    r"\s*(?://[^\n]*\n\s*)*(&\*&|\|->|==|!=|<=|>=|[A-Za-z_][A-Za-z_0-9]*|[0-9]+|[<>=+\-*?(){}\[\],;])")
MODES = {"na": "Na", "rlx": "Rlx", "acq": "Acq", "rel": "Rel", "acqrel": "AcqRel"}
COMPARISONS = {"==": "equal", "!=": "unequal", "<": "less", "<=": "at_most", ">": "more", ">=": "at_least"}


def tokens_of(text):
    """The tokens with the bytes at which each starts and ends."""
    tokens, at = [], 0
    while match := TOKEN.match(text, at):
        tokens.append((match.group(1), match.start(1), match.end(1)))
        at = match.end()
    if text[at:].strip():
        sys.exit(f"no token: {text[at:].strip()[:20]}")
    return tokens


def bare(item):
    """An item of a list needs no parentheses of its own."""
    depth = 0
    for at, character in enumerate(item):
        depth += (character == "(") - (character == ")")
        if depth == 0 and at < len(item) - 1:
            return item
    return item[1:-1] if item.startswith("(") else item


def listed(items):
    return "(" + " ∷ ".join([bare(item) for item in items] + ["[]"]) + ")" if items else "[]"


class Reader:
    """Reads the tokens from the left; each method gives the words of what it has read."""

    def __init__(self, text):
        self.tokens, self.at = tokens_of(text), 0
        self.invs, self.procs = [], []
        self.scope, self.slots, self.banks = [], 0, []
        names = [t[0] for t in self.tokens]
        self.inv_numbers = self.numbers(names, "inv", "}")
        self.proc_numbers = self.numbers(names, "proc", "}")

    @staticmethod
    def numbers(names, word, ended):
        """Declarations by name; `inv` also stands in loops, and there it follows a closing parenthesis."""
        found = {}
        for at, name in enumerate(names):
            if name == word and (at == 0 or names[at - 1] == ended):
                found.setdefault(names[at + 1], len(found))
        return found

    # tokens

    def next_is(self, *words):
        return self.at < len(self.tokens) and self.tokens[self.at][0] in words

    def take(self, *wanted):
        token = self.tokens[self.at]
        if wanted and token[0] not in wanted:
            sys.exit(f"byte {token[1]}: {token[0]} in the place of {' or '.join(wanted)}")
        self.at += 1
        return token[0]

    def taken(self, word):
        if self.next_is(word):
            self.at += 1
            return True
        return False

    def between(self, opening, read, closing, separator=","):
        self.take(opening)
        items = []
        while not self.taken(closing):
            items.append(read())
            self.taken(separator)
        return items

    def inside(self, opening, read, closing):
        """What stands in parentheses or braces; its binders end there."""
        self.take(opening)
        visible = len(self.scope)
        words = read()
        del self.scope[visible:]
        self.take(closing)
        return words

    # names

    def declare(self):
        self.scope.append((self.take(), self.slots))
        self.slots += 1
        return self.slots - 1

    def slot(self):
        name = self.take()
        return next(slot for known, slot in reversed(self.scope) if known == name)

    def parameter(self):
        is_bank = self.taken("bank")
        slot = self.declare()
        self.banks += [slot] if is_bank else []

    # declarations

    def program(self, name):
        while self.at < len(self.tokens):
            self.scope, self.slots, self.banks = [], 0, []
            self.invariant() if self.next_is("inv") else self.procedure()
        procs = " ∷\n  ".join(self.procs + ["[]"])
        return f"abbrev pub {name} : Program\n{name} = program {listed(self.invs)} (\n  {procs})"

    def invariant(self):
        self.take("inv")
        name = self.take()
        params = len(self.between("(", self.parameter, ")"))
        self.take("of")
        self.declare()
        parts = []
        while self.next_is("{"):
            parts.append(self.inside("{", self.assertion, "}"))
        self.invs.append(f'(inv (codes "{name}") {params} {self.slots} {listed(parts)})')

    def procedure(self):
        self.take("proc")
        name = self.take()
        params = len(self.between("(", self.parameter, ")"))
        visible = len(self.scope)
        contract = {word: self.inner_assertion() if self.taken(word) else "nothing" for word in ("requires", "ensures")}
        del self.scope[visible:]
        body = self.block(6)
        last = self.tokens[self.at - 1]
        banks = listed([str(bank) for bank in self.banks])
        self.procs.append(
            f'proc (codes "{name}") {params} {self.slots} {banks}\n    {contract["requires"]}\n    {contract["ensures"]}\n'
            f"    {body}\n    (span {last[1]} {last[2]})")

    def inner_assertion(self):
        """A contract's binders stay visible behind its parenthesis."""
        self.take("(")
        words = self.assertion()
        self.take(")")
        return words

    # statements

    def block(self, indent):
        self.take("{")
        visible, lines = len(self.scope), []
        while not self.taken("}"):
            start = self.tokens[self.at][1]
            act = self.act(indent)
            lines.append(f"at {start} {self.tokens[self.at - 1][2]} (Act-F.{act})")
        del self.scope[visible:]
        pad = "\n" + " " * indent
        return "(" + pad + f" ∷{pad}".join(lines) + " ∷ [])" if lines else "[]"

    def act(self, indent):
        if self.taken("if"):
            cond = self.inside("(", self.condition, ")")
            yes = self.block(indent + 2)
            no = self.block(indent + 2) if self.taken("else") else "[]"
            return f"If {cond} {yes} {no}"
        if self.taken("while"):
            cond = self.inside("(", self.condition, ")")
            inv = self.inside("(", self.assertion, ")") if self.taken("inv") else "nothing"
            return f"While {cond} {inv} {self.block(indent + 2)}"
        act = self.simple_act()
        self.taken(";")
        return act

    def simple_act(self):
        word = self.take()
        if word == "let":
            return self.set_by(self.declare)
        if word == "store":
            return f"Store {self.mode()} {self.operands()}"
        if word == "free":
            return f"Free {self.operands()}"
        if word == "call":
            return f"Call None {self.call()}"
        if word == "par":
            return "Par " + listed([f"(thread {call})" for call in self.between("{", self.call, "}", ";")])
        if word == "fence":
            return f"Fence {self.mode()} {self.inside('(', self.assertion, ')') if self.next_is('(') else 'nothing'}"
        if word == "assert":
            return f"Assert {self.inside('(', self.condition, ')')}"
        if word == "print":
            return f"Print {self.operands()}"
        if word == "return":
            return f"Return {'(num 0)' if self.next_is(';') else self.expression()}"
        if word == "bank":
            slot = self.declare()
            self.banks.append(slot)
            return f"Bank {slot}"
        self.at -= 1
        return f"Step {self.step()}" if word in ("mint", "burn") else self.set_by(self.slot)

    def set_by(self, name):
        """`x = e`, where `x` may be declared here; its slot is numbered before what stands right of it."""
        slot = name()
        self.take("=")
        word = self.take()
        if word == "call":
            return f"Call (Some {slot}) {self.call()}"
        if word == "alloc":
            kind = self.take("na", "acq", "rmw")
            return f"AllocNa {slot}" if kind == "na" else f"AllocAt {slot} {'true' if kind == 'rmw' else 'false'} {self.instance()}"
        if word == "load":
            return f"Load {slot} {self.mode()} {self.operands()}"
        if word == "cas":
            return f"Cas {slot} {self.mode()} {self.mode()} {self.operands()} {self.steps()}"
        if word in ("fetch_add", "exchange"):
            return f"{'Add' if word == 'fetch_add' else 'Swap'} {slot} {self.mode()} {self.operands()} {self.steps()}"
        self.at -= 1
        return f"Set {slot} {self.expression()}"

    def mode(self):
        return "mode." + MODES[self.take()]

    def operands(self):
        return " ".join(self.between("(", self.expression, ")"))

    def call(self):
        number = self.proc_numbers[self.take()]
        return f"{number} {listed(self.between('(', self.expression, ')'))}"

    def steps(self):
        return listed(self.between("{", self.step, "}", ";")) if self.taken("with") else "[]"

    def step(self):
        word = self.take("mint", "burn")
        self.take("(")
        bank = self.slot()
        self.take(",")
        amount = self.expression()
        self.take(")")
        return f"({word} {bank} {amount})"

    # expressions and conditions

    def expression(self):
        parts = [f"plus {self.product()}"]
        while self.next_is("+", "-"):
            sign = "plus" if self.take() == "+" else "minus"
            parts.append(f"{sign} {self.product()}")
        return f"(sum {listed(parts)})" if len(parts) > 1 else parts[0].removeprefix("plus ")

    def product(self):
        factors = [self.factor()]
        while self.taken("*"):
            factors.append(self.factor())
        return f"(product {listed(factors)})" if len(factors) > 1 else factors[0]

    def factor(self):
        if self.next_is("("):
            return self.inside("(", self.expression, ")")
        if self.taken("-"):
            return f"(minus_num {self.take()})" if self.tokens[self.at][0].isdigit() else f"(negated {self.factor()})"
        if self.taken("result"):
            return "result"
        return f"(num {self.take()})" if self.tokens[self.at][0].isdigit() else f"(var {self.slot()})"

    def condition(self):
        if self.next_is("true", "false"):
            return "cond.Yes" if self.take() == "true" else "cond.No"
        left = self.expression()
        return f"({COMPARISONS[self.take()]} {left} {self.expression()})"

    # assertions

    def assertion(self):
        atoms = [self.atom()]
        while self.taken("&*&"):
            atoms.append(self.atom())
        return f"(both {listed(atoms)})" if len(atoms) > 1 else atoms[0]

    def instance(self):
        number = self.inv_numbers[self.take()]
        return f"(inst {number} {listed(self.between('(', self.expression, ')'))})"

    def atom(self):
        if self.taken("emp"):
            return "nothing"
        if self.taken("if"):
            cond = self.inside("(", self.condition, ")")
            yes = self.inside("{", self.assertion, "}")
            self.take("else")
            return f"(choice {cond} {yes} {self.inside('{', self.assertion, '}')})"
        if self.next_is("up", "down"):
            return f"({self.take()} {self.inside('(', self.assertion, ')')})"
        if self.taken("Init"):
            return f"(init {self.operands()})"
        if self.next_is("Rel", "RmwAcq", "Acq", "Tok", "Auth"):
            return self.permission(self.take())
        return self.comparison_or_cell()

    def permission(self, word):
        self.take("(")
        if word in ("Tok", "Auth"):
            words = f"{word.lower()} {self.slot()}"
            self.take(",")
            words += f" {self.expression()}"
        else:
            words = {"Rel": "rel", "RmwAcq": "rmw_acq", "Acq": "acq"}[word] + f" {self.expression()}"
            self.take(",")
            words += f" {self.instance()}"
            if self.taken(","):
                words += f" {self.take()}"
                self.take(",")
                words += f" {listed(self.between('{', self.expression, '}'))}"
        self.take(")")
        return f"({words})"

    def comparison_or_cell(self):
        left = self.expression()
        if not self.taken("|->"):
            return f"(fact ({COMPARISONS[self.take()]} {left} {self.expression()}))"
        share = self.inside("[", self.expression, "]") if self.next_is("[") else "all_shares"
        if self.taken("_"):
            return f"(points {left} {share} pat.Any)"
        if self.taken("?"):
            return f"(points {left} {share} (pat.Bind {self.declare()}))"
        return f"(points {left} {share} (pat.Is {self.expression()}))"


def main():
    if len(sys.argv) != 3:
        sys.exit(__doc__)
    with open(sys.argv[2], encoding="utf-8") as file:
        text = file.read()
    comment = "".join(f"--   {line}\n" for line in text.rstrip("\n").split("\n"))
    print(comment + Reader(text).program(sys.argv[1]))


if __name__ == "__main__":
    main()
