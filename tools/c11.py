#!/usr/bin/env python3
"""Writes a program as C11 with POSIX threads.

    tools/c11.py FILE

writes the C program to standard output. Each annotation stands in a comment where it stands in the program. Variables are
`int64_t`, and one that holds a location holds its address. What C leaves undefined (a sum out of range, a read of what
was never written) halts a program here: an accepted program does neither but for sums.
"""
import re
import sys
from pathlib import Path

TOKEN = re.compile(r"\s+|//[^\n]*|(&\*&|\|->|==|!=|<=|>=|[<>=+\-*?(){}\[\],;]|\d+|[^\W\d]\w*)")
MODES = {"na": None, "rlx": "relaxed", "acq": "acquire", "rel": "release", "acqrel": "acq_rel"}
# Words of C, and what the headers below declare of words that people use as names.
TAKEN = set(
    """auto break case char const continue default do double else enum extern float for goto if inline int long register restrict
    return short signed sizeof static struct switch typedef union unsigned void volatile while main abs div labs exit abort
    free malloc calloc realloc rand system printf puts remove rename assert""".split()
)
HEAD = """#include <assert.h>
#include <inttypes.h>
#include <pthread.h>
#include <stdatomic.h>
#include <stdbool.h>
#include <stdint.h>
#include <stdio.h>
#include <stdlib.h>

#define CELL(a) (*(int64_t *)(intptr_t)(a))
#define LOCATION(a) ((_Atomic int64_t *)(intptr_t)(a))

static int64_t allocate(size_t size) {
  void *made = calloc(1, size);
  if (!made) abort();
  return (int64_t)(intptr_t)made;
}

static int64_t compare_exchange(int64_t at, int64_t old, int64_t new, memory_order hit, memory_order miss) {
  atomic_compare_exchange_strong_explicit(LOCATION(at), &old, new, hit, miss);
  return old;
}
"""


def name_of(name):
    """The name in C: one that is taken there gets a line under its end."""
    return name + "_" if name in TAKEN else name


def order(mode):
    return "memory_order_" + MODES[mode]


class Reader:
    """Goes over the tokens of a program and makes its C."""

    def __init__(self, text):
        self.text = text
        self.tokens = [(it.group(1), it.start()) for it in TOKEN.finditer(text) if it.group(1)]
        self.at = 0
        self.threads = []
        self.banks = {}

    def peek(self, ahead=0):
        at = self.at + ahead
        return self.tokens[at][0] if at < len(self.tokens) else None

    def take(self, *wanted):
        token = self.peek()
        if wanted and token not in wanted:
            sys.exit("c11: expected %s, not %r: is the file accepted by `fslpp check`?" % (" or ".join(wanted), token))
        self.at += 1
        return token

    def closed(self, left, right):
        """What stands between a bracket and the one that closes it, as it is written; both are passed over."""
        begin = self.tokens[self.at][1]
        depth = 0
        while True:
            token = self.take()
            depth += (token == left) - (token == right)
            if depth == 0:
                return " ".join(self.text[begin : self.tokens[self.at - 1][1] + 1].split())

    def until(self, *ends):
        """An expression or a condition up to one of these tokens outside parentheses, in C."""
        out, depth = [], 0
        while depth or self.peek() not in ends:
            token = self.take()
            depth += (token == "(") - (token == ")")
            is_number = token.isdigit()
            out.append("INT64_C(%s)" % token if is_number else name_of(token))
        return " ".join(out).replace("( ", "(").replace(" )", ")")

    def values(self):
        """The values in parentheses, as many as there are."""
        self.take("(")
        out = []
        while self.peek() != ")":
            out.append(self.until(",", ")"))
            if self.peek() == ",":
                self.take()
        self.take(")")
        return out

    def use(self):
        """A procedure and what it is given; banks are no values."""
        name = self.take()
        return name, [value for value, is_bank in zip(self.values(), self.banks[name]) if not is_bank]

    def header(self):
        """The parameters of a procedure or an invariant, with whether each is a bank."""
        self.take("(")
        names = []
        while self.peek() != ")":
            is_bank = self.peek() == "bank"
            if is_bank:
                self.take()
            names.append((self.take(), is_bank))
            if self.peek() == ",":
                self.take()
        self.take(")")
        return names

    def alloc(self):
        if self.take("na", "acq", "rmw") == "na":
            return "allocate(sizeof(int64_t))", ""
        begin = self.tokens[self.at][1]
        self.take()
        invariant = self.text[begin : self.tokens[self.at][1]] + self.closed("(", ")")
        return "allocate(sizeof(_Atomic int64_t))", " /* %s */" % invariant

    def steps(self):
        """The token steps of a read-modify-write, as a comment."""
        if self.peek() != "with":
            return ""
        self.take()
        return " /* with %s */" % self.closed("{", "}")

    def right(self):
        """The right side of a `let` or an assignment, and the comment behind it."""
        word = self.peek()
        if word == "call":
            self.take()
            name, given = self.use()
            return "%s(%s)" % (name_of(name), ", ".join(given)), ""
        if word == "alloc":
            self.take()
            return self.alloc()
        if word == "load":
            self.take()
            mode = self.take()
            [at] = self.values()
            return ("CELL(%s)" % at if mode == "na" else "atomic_load_explicit(LOCATION(%s), %s)" % (at, order(mode))), ""
        if word == "cas":
            self.take()
            hit, miss = self.take(), self.take()
            at, old, new = self.values()
            return "compare_exchange(%s, %s, %s, %s, %s)" % (at, old, new, order(hit), order(miss)), self.steps()
        if word in ("fetch_add", "exchange"):
            self.take()
            mode = self.take()
            at, value = self.values()
            return "atomic_%s_explicit(LOCATION(%s), %s, %s)" % (word, at, value, order(mode)), self.steps()
        return self.until(";"), ""

    def par(self, pad):
        """Threads side by side: each gets what it is given in a struct of its own."""
        self.take("{")
        uses = []
        while self.peek() != "}":
            uses.append(self.use())
            self.take(";")
        self.take("}")
        out = [pad + "{"]
        for i, (name, given) in enumerate(uses):
            self.threads.append(name)
            out.append("%s  struct %s_given given_%d = {%s};" % (pad, name, i, ", ".join(given) or "0"))
        out.append("%s  pthread_t thread[%d];" % (pad, len(uses)))
        for i, (name, _) in enumerate(uses):
            out.append("%s  if (pthread_create(&thread[%d], NULL, %s_thread, &given_%d)) abort();" % (pad, i, name, i))
        out += ["%s  pthread_join(thread[%d], NULL);" % (pad, i) for i in range(len(uses))]
        return out + [pad + "}"]

    def block(self, pad):
        self.take("{")
        out = []
        while self.peek() != "}":
            out += self.statement(pad)
        self.take("}")
        return out

    def branch(self, pad):
        self.take("(")
        condition = self.until(")")
        self.take(")")
        out = ["%sif (%s) {" % (pad, condition)] + self.block(pad + "  ")
        if self.peek() == "else":
            self.take()
            out += [pad + "} else {"] + self.block(pad + "  ")
        return out + [pad + "}"]

    def loop(self, pad):
        self.take("(")
        condition = self.until(")")
        self.take(")")
        said = []
        if self.peek() == "inv":
            self.take()
            said = ["%s  /* inv %s */" % (pad, self.closed("(", ")"))]
        return ["%swhile (%s) {" % (pad, condition)] + said + self.block(pad + "  ") + [pad + "}"]

    def fence(self, pad):
        mode = self.take()
        said = " /* %s */" % self.closed("(", ")") if self.peek() == "(" else ""
        self.take(";")
        return ["%satomic_thread_fence(%s);%s" % (pad, order(mode), said)]

    def store(self):
        mode = self.take()
        at, value = self.values()
        return "CELL(%s) = %s" % (at, value) if mode == "na" else "atomic_store_explicit(LOCATION(%s), %s, %s)" % (at, value, order(mode))

    def ghost(self, word, pad):
        """A statement on banks: a comment."""
        begin = self.at
        while self.peek() != ";":
            self.take()
        said = self.text[self.tokens[begin][1] : self.tokens[self.at][1]]
        self.take(";")
        return ["%s/* %s %s; */" % (pad, word, said) if word == "bank" else "%s/* %s%s; */" % (pad, word, said)]

    def simple(self, word):
        """A statement of one line, without its semicolon; and the comment behind it."""
        if word == "let":
            name = self.take()
            self.take("=")
            value, said = self.right()
            return "int64_t %s = %s" % (name_of(name), value), said
        if word == "store":
            return self.store(), ""
        if word == "call":
            name, given = self.use()
            return "%s(%s)" % (name_of(name), ", ".join(given)), ""
        if word == "return":
            return "return %s" % (self.until(";") or "0"), ""
        if word in ("assert", "print", "free"):
            [value] = self.values()
            form = {"assert": "assert(%s)", "print": 'printf("%%" PRId64 "\\n", (int64_t)(%s))', "free": "free((void *)(intptr_t)(%s))"}
            return form[word] % value, ""
        self.take("=")
        value, said = self.right()
        return "%s = %s" % (name_of(word), value), said

    def statement(self, pad):
        word = self.take()
        longer = {"if": self.branch, "while": self.loop, "par": self.par, "fence": self.fence}
        if word in longer:
            return longer[word](pad)
        if word in ("bank", "mint", "burn"):
            return self.ghost(word, pad)
        line, said = self.simple(word)
        self.take(";")
        return ["%s%s;%s" % (pad, line, said)]

    def invariant(self):
        """An invariant of locations, as a comment."""
        begin = self.tokens[self.at - 1][1]
        self.take()
        self.closed("(", ")")
        self.take("of")
        self.take()
        while self.peek() == "{":
            self.closed("{", "}")
        end = self.tokens[self.at - 1][1] + 1
        return ["", "/* %s */" % self.text[begin:end]]

    def procedure(self):
        name = self.take()
        parameters = [name_of(it) for it, is_bank in self.header() if not is_bank]
        said = []
        while self.peek() in ("requires", "ensures"):
            word = self.take()
            said.append("/* %s %s */" % (word, self.closed("(", ")")))
        head = "static int64_t %s(%s) {" % (name_of(name), ", ".join("int64_t " + it for it in parameters) or "void")
        body = self.block("  ")
        return (name, parameters), [""] + said + [head] + body + ["  return 0;", "}"]

    def find_banks(self):
        """Which parameters of each procedure are banks."""
        for self.at in range(len(self.tokens)):
            if self.peek() == "proc":
                self.at += 1
                name = self.take()
                self.banks[name] = [is_bank for _, is_bank in self.header()]
        self.at = 0

    def program(self):
        self.find_banks()
        body, procedures = [], {}
        while self.peek() is not None:
            if self.take("inv", "proc") == "inv":
                body += self.invariant()
            else:
                (name, parameters), lines = self.procedure()
                procedures[name] = parameters
                body += lines
        return "\n".join([HEAD] + declared(procedures, self.threads) + body + ["", "int main(void) {", "  main_();", "  return 0;", "}"]) + "\n"


def declared(procedures, threads):
    """The procedures, and for each that is a thread what it is given and how it starts."""
    out = []
    for name, parameters in procedures.items():
        out.append("static int64_t %s(%s);" % (name_of(name), ", ".join("int64_t " + it for it in parameters) or "void"))
    for name in sorted(set(threads)):
        fields = " ".join("int64_t %s;" % it for it in procedures[name]) or "int64_t none;"
        given = ", ".join("it->" + it for it in procedures[name])
        out += ["", "struct %s_given {" % name, "  " + fields, "};", "", "static void *%s_thread(void *given) {" % name]
        out += ["  struct %s_given *it = given;" % name, "  (void)it;", "  %s(%s);" % (name_of(name), given), "  return NULL;", "}"]
    return out


def written(text):
    """The C of a program's text."""
    return Reader(text).program()


if __name__ == "__main__":
    if len(sys.argv) != 2:
        sys.exit(__doc__)
    sys.stdout.write(written(Path(sys.argv[1]).read_text()))
