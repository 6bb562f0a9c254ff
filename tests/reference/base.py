#!/usr/bin/env python3
"""Prints the DIMACS CNF of an empty board, written from the specification only.

Usage: base.py SIDE        (SIDE is 4 or 9)

The program under test counts with indices. This generator instead builds
the cells, rows, columns and boxes as sets of coordinates and looks numbers
up in tables, so that a slip in the one is unlikely to appear in the other.
"""

import itertools
import sys

# Box height and box width of each side that is allowed.
BOXES = {4: (2, 2), 9: (3, 3)}


def board(side):
    """The cells in reading order, and the rows, columns and boxes as sets."""
    height, width = BOXES[side]
    cells = list(itertools.product(range(side), repeat=2))
    rows = [{(r, k) for r, k in cells if r == row} for row in range(side)]
    columns = [{(r, k) for r, k in cells if k == column} for column in range(side)]
    # Each box is found from its top left corner, the corners in reading order.
    corners = itertools.product(range(0, side, height), range(0, side, width))
    boxes = [
        {(r, k) for r, k in cells if 0 <= r - top < height and 0 <= k - left < width}
        for top, left in corners
    ]
    return cells, rows, columns, boxes


def variables(cells, side):
    """A table from (cell, digit) to the variable's number."""
    numbers = itertools.count(1)
    return {(cell, digit): next(numbers) for cell in cells for digit in range(1, side + 1)}


def base_clauses(side):
    """The base clauses in the order in which they must be written."""
    cells, rows, columns, boxes = board(side)
    digits = range(1, side + 1)
    variable = variables(cells, side)
    # Every cell has a digit ...
    for cell in cells:
        yield [variable[cell, digit] for digit in digits]
    # ... and not two of them.
    for cell in cells:
        for one, other in itertools.combinations(digits, 2):
            yield [-variable[cell, one], -variable[cell, other]]
    # No digit stands twice in a row, a column or a box. Reading order is the
    # order of the coordinates, so sorting a set puts its cells in order.
    for unit in itertools.chain(rows, columns, boxes):
        for one, other in itertools.combinations(sorted(unit), 2):
            for digit in digits:
                yield [-variable[one, digit], -variable[other, digit]]


def text(side):
    """The whole CNF text: the heading, then one clause to a line."""
    clauses = list(base_clauses(side))
    highest = max(abs(literal) for clause in clauses for literal in clause)
    lines = [f"p cnf {highest} {len(clauses)}"]
    lines += [" ".join(map(str, clause + [0])) for clause in clauses]
    return "".join(line + "\n" for line in lines)


def main(arguments):
    if len(arguments) != 1 or arguments[0] not in map(str, BOXES):
        sys.stderr.write("usage: base.py SIDE    (SIDE is 4 or 9)\n")
        return 1
    sys.stdout.buffer.write(text(int(arguments[0])).encode("ascii"))
    return 0


if __name__ == "__main__":
    sys.exit(main(sys.argv[1:]))
