"""Grids, in code that shares nothing with the programs or the generators."""

import functools
import itertools

from checks import expect

GRIDS_OF_SIDE_4 = 288


def cell_of(side, row, column):
    return row * side + column


def variable(side, row, column, digit):
    return cell_of(side, row, column) * side + digit


def units(side):
    """The cells of each row, column and box, with a name."""
    box = {4: 2, 9: 3}[side]
    span = range(side)
    for line in span:
        yield f"row {line}", [cell_of(side, line, other) for other in span]
        yield f"column {line}", [cell_of(side, other, line) for other in span]
    for top in range(0, side, box):
        for left in range(0, side, box):
            yield f"box at {top},{left}", [
                cell_of(side, top + down, left + right) for down in range(box) for right in range(box)
            ]


def decode(side, model, variables=None):
    """The grid of a model, which must name each variable exactly once.

    Without a count, the variables are those of the cells.
    """
    named = sorted(abs(literal) for literal in model)
    expect(named == list(range(1, (variables or side**3) + 1)), "the model does not name each variable once")
    digits = [[] for _ in range(side**2)]
    for literal in model:
        if 0 < literal <= side**3:
            cell, digit = divmod(literal - 1, side)
            digits[cell].append(digit + 1)
    for cell, found in enumerate(digits):
        expect(len(found) == 1, f"cell {cell} has the digits {found}")
    return tuple(found[0] for found in digits)


def expect_valid(side, grid):
    for name, cells in units(side):
        found = sorted(grid[cell] for cell in cells)
        expect(found == list(range(1, side + 1)), f"{name} has the digits {found}")


@functools.cache
def all_grids_of_side_4():
    """Every valid grid, found by trying all rows, and no solver."""
    rows = list(itertools.permutations((1, 2, 3, 4)))
    # Two rows make a band if their left halves and right halves have all digits.
    bands = [
        upper + lower
        for upper, lower in itertools.product(rows, repeat=2)
        if len(set(upper[:2] + lower[:2])) == 4 and len(set(upper[2:] + lower[2:])) == 4
    ]
    return frozenset(
        top + bottom
        for top, bottom in itertools.product(bands, repeat=2)
        if all(len({top[k], top[k + 4], bottom[k], bottom[k + 4]}) == 4 for k in range(4))
    )


def fill(side, grid):
    """Every valid grid that keeps the digits given; 0 is a blank. No solver."""
    rivals = [set() for _ in range(side**2)]
    for _, cells in units(side):
        for cell in cells:
            rivals[cell].update(cells)

    def candidates(cell):
        return set(range(1, side + 1)) - {grid[rival] for rival in rivals[cell]}

    grid = list(grid)
    found = set()

    def search():
        blanks = [cell for cell in range(side**2) if grid[cell] == 0]
        if not blanks:
            found.add(tuple(grid))
            return
        cell = min(blanks, key=lambda blank: len(candidates(blank)))
        for digit in candidates(cell):
            grid[cell] = digit
            search()
            grid[cell] = 0

    search()
    return found


def full_grid_of_side_9():
    """A grid whose rows are 1 to 9, each turned by a different number."""
    turns = [3 * (row % 3) + row // 3 for row in range(9)]
    return [(turn + column) % 9 + 1 for turn in turns for column in range(9)]
