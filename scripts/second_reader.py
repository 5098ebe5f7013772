#!/usr/bin/env python3
"""A second, plain reader of problem files: `scripts/second_reader.py FILE` prints what `pbcheck` has to print of a bad problem, or nothing.

It was written from the rules in docs/problem-format.md and shares no line with the program; `scripts/second_judge.py` judges proofs of what it
reads. A text is a string of the characters 0 to 255, one for each byte (`text_of`). Which token gives the fault, its line and its code are all
fixed by that page, so there is nothing that could be compared less strictly; want of memory alone (code 9) is left out here."""
import re, sys

LARGEST, MOST = 1 << 90, 1 << 20
CODES = {"BadToken": 1, "NoRelation": 2, "NoSemicolon": 3, "BadName": 4, "ObjectiveLate": 5, "UnsupportedForm": 6, "IntegerTooLarge": 7, "TooMany": 8}

if hasattr(sys, "set_int_max_str_digits"):
    sys.set_int_max_str_digits(0)


class ProblemFault(Exception):
    """A fault of a problem: its name, its line, and at which place of a statement it came."""

    def __init__(self, name, line, place):
        super().__init__(name)
        self.name, self.line, self.place = name, line, place

    def printed(self):
        return f"bad problem line {self.line} code {CODES[self.name]} {self.name}\n"


# Tokens, of problems and of proofs.

TOKEN = re.compile(r";|:|>=|<=|=|->(?!=)|[<>]|(?:(?!->(?!=))[^ \t\r\n;:<>=])+")
INTEGER, NAME, BEGINS_AS_A_NAME = map(re.compile, (r"[+-]?[0-9]+", r"[A-Za-z_][A-Za-z0-9_\[\]{}^-]+", r"[A-Za-z_~]"))


def tokens(line):
    """The tokens of a line; none of a comment."""
    return [] if line.lstrip(" \t").startswith("*") else TOKEN.findall(line)


def is_integer(word):
    return INTEGER.fullmatch(word) is not None


def is_name(word):
    return NAME.fullmatch(word) is not None


def kind_of(word):
    """What the table of places calls a token; the end is the empty word, and a symbol, or a word that stands nowhere, is called as it is."""
    if word == "":
        return "end"
    if is_integer(word):
        return "integer"
    if is_name(word.removeprefix("~")):
        return "literal"
    return "misspelt" if BEGINS_AS_A_NAME.match(word) else word


# Statements.

COMMON = {"end": "NoSemicolon", "misspelt": "BadName"}
# What may stand at each place of a statement; the faults of what may not; and the fault of everything else.
PLACES = {
    "start": (("integer", ">=", "=", "end"), {"<=": "UnsupportedForm", ";": "NoRelation", "misspelt": "BadName"}, "BadToken"),
    "coefficient": (("literal",), COMMON, "BadToken"),
    "literal": (("integer", ">=", "="), {**COMMON, "literal": "UnsupportedForm", "<=": "UnsupportedForm", ";": "NoRelation"}, "BadToken"),
    "relation": (("integer",), COMMON, "BadToken"),
    "right side": ((";",), {}, "NoSemicolon"),
    "min:": (("integer", ";"), COMMON, "BadToken"),
    "min: coefficient": (("literal",), {**COMMON, "integer": "UnsupportedForm", ";": "UnsupportedForm"}, "BadToken"),
    "min: literal": (("integer", ";"), {**COMMON, "literal": "UnsupportedForm"}, "BadToken"),
}


class Reader:
    """Reads a text from left to right: its tokens with their lines, and what they said so far."""

    def __init__(self, text):
        self.tokens = [(word, number) for number, line in enumerate(text.split("\n"), 1) for word in tokens(line)]
        self.tokens += [("", text.count("\n") + 1)] * 2
        self.at, self.names, self.objective, self.constraints = 0, {}, None, []

    def word(self):
        return self.tokens[self.at][0]

    def before_colon(self):
        return self.tokens[self.at + 1][0] == ":"

    def fault(self, name, place):
        """The fault of the token that is next."""
        return ProblemFault(name, self.tokens[self.at][1], place)

    def take(self, place):
        """The next token, where it may stand here."""
        word, (may, faults, other) = self.word(), PLACES[place]
        kind = kind_of(word)
        if kind not in may:
            raise self.fault(faults.get(kind, other), place)
        if kind == "integer" and abs(int(word)) > LARGEST:
            raise self.fault("IntegerTooLarge", place)
        self.at += 1
        return word

    def take_literal(self, terms, place):
        """The literal of one more term, within the limits."""
        word = self.take(place)
        name = word.removeprefix("~")
        if terms == MOST or (name not in self.names and len(self.names) == MOST):
            self.at -= 1
            raise self.fault("TooMany", place)
        self.names[name] = None
        return name, word.startswith("~")

    def sum(self, first, coefficient, literal):
        """The terms of a sum whose first token stands at the place `first`, and the token behind them."""
        terms, word = [], self.take(first)
        while is_integer(word):
            terms.append((int(word), *self.take_literal(len(terms), coefficient)))
            word = self.take(literal)
        return terms, word

    def minimum(self):
        """The objective, which stands before all constraints."""
        if self.objective is not None or self.constraints:
            raise self.fault("ObjectiveLate", "start")
        self.at += 2
        self.objective, _ = self.sum("min:", "min: coefficient", "min: literal")

    def constraint(self):
        if kind_of(self.word()) in PLACES["start"][0] and len(self.constraints) == MOST:
            raise self.fault("TooMany", "start")
        terms, relation = self.sum("start", "coefficient", "literal")
        right = int(self.take("relation"))
        self.take("right side")
        self.constraints.append((terms, relation, right))

    def problem(self):
        """The names, the objective and the constraints."""
        while self.word() != "":
            if self.word() == "min" and self.before_colon():
                self.minimum()
            elif (self.word() in ("max", "soft") and self.before_colon()) or self.word().startswith("["):
                raise self.fault("UnsupportedForm", "start")
            else:
                self.constraint()
        return list(self.names), self.objective, self.constraints


def read(text):
    """The names, the objective and the constraints of a problem; `ProblemFault` where the text is none."""
    return Reader(text).problem()


def text_of(path):
    """The bytes of a file, each as one character."""
    with open(path, "rb") as file:
        return file.read().decode("latin-1")


if __name__ == "__main__":
    try:
        read(text_of(sys.argv[1]))
    except ProblemFault as fault:
        print(fault.printed(), end="")
