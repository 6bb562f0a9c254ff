#!/usr/bin/env python3
"""Prints the DIMACS CNF of a board with one part, written from the specification only.

Usage: kinds.py TOTALLER SIDE KIND TOTAL BODY ...

TOTALLER is `running` or `adder`, SIDE is 4 or 9, KIND is `givens`, `cage`,
`thermometer` or `arrow`. The body is one word of characters for givens, and
the numbers of the cells for the other kinds. Of a part that is refused the
refusal is printed, and the exit status is 1.
"""

import functools
import itertools
import os
import sys

sys.dont_write_bytecode = True
sys.path.insert(0, os.path.dirname(os.path.dirname(os.path.abspath(__file__))))
from reference.base import base_clauses, board, variables
from reference.totals import METHODS

BLANKS = ".0"


class Board:
    """An empty board: cells as coordinates in reading order, and the variables."""

    def __init__(self, side):
        self.side = side
        self.digits = range(1, side + 1)
        self.cells = board(side)[0]
        self.variables = variables(self.cells, side)
        self.clauses = list(base_clauses(side))
        self.lines = as_lines(self.clauses)

    def literals(self, number):
        """The variables of a cell, each with its digit."""
        return [(self.variables[self.cells[number], digit], digit) for digit in self.digits]

    def touch(self, one, other):
        (row, column), (other_row, other_column) = self.cells[one], self.cells[other]
        return abs(row - other_row) <= 1 and abs(column - other_column) <= 1


def as_lines(clauses):
    return "".join(" ".join(map(str, clause)) + " 0\n" for clause in clauses)


@functools.cache
def board_of(side):
    return Board(side)


# The clauses of each kind, and its items with their target if it has a sum.

def givens(on, total, body):
    clauses = [
        [variable]
        for number, character in enumerate(body)
        if character not in BLANKS
        for variable, digit in on.literals(number)
        if str(digit) == character
    ]
    return clauses, None


def cage(on, total, body):
    clauses = [
        [-variable, -other_variable]
        for one, other in itertools.combinations(body, 2)
        for (variable, _), (other_variable, _) in zip(on.literals(one), on.literals(other))
    ]
    items = [literal for number in body for literal in on.literals(number)]
    return clauses, (items, total)


def thermometer(on, total, body):
    clauses = [
        [-variable, -other_variable]
        for one, other in zip(body, body[1:])
        for variable, digit in on.literals(one)
        for other_variable, other_digit in on.literals(other)
        if other_digit <= digit
    ]
    return clauses, None


def arrow(on, total, body):
    circle, *shaft = body
    items = [literal for number in shaft for literal in on.literals(number)]
    # What the circle's digit lacks to the greatest, so that all add to the greatest.
    items += [(variable, on.side - digit) for variable, digit in on.literals(circle) if digit < on.side]
    return [], (items, on.side)


KINDS = {"givens": givens, "cage": cage, "thermometer": thermometer, "arrow": arrow}


# Refusals: number, layer and position, or nothing.

def lengths(kind, side):
    return {
        "givens": range(side**2, side**2 + 1),
        "cage": range(1, side + 1),
        "thermometer": range(2, side + 1),
        "arrow": range(2, side + 2),
    }[kind]


def first_where(found):
    return next((index for index, wrong in enumerate(found) if wrong), None)


def kind_faults(kind, side, total, body):
    """Each number that the kind tests, in order, with the place that offends or nothing."""
    yield 2, None if len(body) in lengths(kind, side) else 0
    if kind == "givens":
        good = BLANKS + "".join(map(str, range(1, side + 1)))
        yield 3, first_where(character not in good for character in body)
        return
    yield 4, first_where(number >= side**2 for number in body)
    yield 5, first_where(number in body[:index] for index, number in enumerate(body))
    if kind == "cage":
        yield 7, None if 1 <= total <= sum(range(side + 1)) else 0
    else:
        # Lazily, since only cells of the board have a place on it.
        touch = board_of(side).touch
        yield 6, first_where(index and not touch(body[index - 1], body[index]) for index in range(len(body)))


def takes(method, items, target):
    if not 1 <= items <= 96 or target > 63:
        return False
    return method == "adder" or (items + 1) * (target + 1) <= 3000


def refusal(method, side, kind, total, body):
    for number, position in kind_faults(kind, side, total, body):
        if position is not None:
            return number, "Kind", position
    _, sum_ = KINDS[kind](board_of(side), total, body)
    if sum_ and not takes(method, len(sum_[0]), sum_[1]):
        return 23, "Totaller", len(sum_[0])
    return None


def text(method, side, kind, total, body):
    """The whole CNF text of a part that is not refused."""
    on = board_of(side)
    clauses, sum_ = KINDS[kind](on, total, body)
    fresh = 0
    if sum_:
        items, target = sum_
        more, fresh = METHODS[method](items, target, side**3 + 1)
        clauses = clauses + more
    heading = f"p cnf {side**3 + fresh} {len(on.clauses) + len(clauses)}\n"
    return heading + on.lines + as_lines(clauses)


def main(arguments):
    if len(arguments) < 4 or arguments[0] not in METHODS or arguments[2] not in KINDS:
        sys.stderr.write("usage: kinds.py TOTALLER SIDE KIND TOTAL BODY ...\n")
        return 1
    method, side, kind, total, *words = arguments
    body = "".join(words) if kind == "givens" else [int(word) for word in words]
    part = (method, int(side), kind, int(total), body)
    refused = refusal(*part)
    if refused:
        sys.stderr.write("refused: number {}, layer {}, position {}\n".format(*refused))
        return 1
    sys.stdout.buffer.write(text(*part).encode("ascii"))
    return 0


if __name__ == "__main__":
    sys.exit(main(sys.argv[1:]))
