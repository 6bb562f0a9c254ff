#!/usr/bin/env python3
"""Tests the kinds of part from the outside, by the program `part`.

Usage: kinds.py

The program is the one that the environment variable PART names, or else
target/bin/part in the repository. It is given boards with one part of many
sorts. Each file that it writes must be, byte for byte, what
reference/kinds.py makes of the part. On side 4 the models of the file, which
the solver clasp enumerates, must be the grids that keep the part among all
the grids that a search by hand finds: one model for each, and no other.
"""

import collections
import itertools
import os
import random
import sys

sys.dont_write_bytecode = True
sys.path.insert(0, os.path.join(os.path.dirname(os.path.abspath(__file__)), "support"))
from checks import PART, Checks, brief, expect, run_program
from grids import all_grids_of_side_4, decode, expect_valid, full_grid_of_side_9
from reference.kinds import refusal as reference_refusal
from reference.kinds import text as reference_text
from solvers import ALL_FOUND, SATISFIABLE, SOLVERS, UNSATISFIABLE, clasp_all

# The kinds that the program writes.
KINDS = ("givens", "cage", "thermometer", "arrow")

# The kinds that there are.
ALL_KINDS = ("givens", "cage", "thermometer", "arrow")

TOTALLERS = ("running", "adder")


# Parts.

class Part(collections.namedtuple("Part", "side kind total body")):
    """The body is a text for givens, and a list of cells for the other kinds."""

    def words(self):
        return self.body if self.kind == "givens" else " ".join(map(str, self.body))

    def line(self, totaller):
        return f"{totaller} {self.side} {self.kind} {self.total} {self.words()}\n"

    def reference(self, totaller):
        return reference_text(totaller, *self).encode()

    def keeps(self, grid):
        """Whether the grid keeps the part, in the plainest words."""
        if self.kind == "givens":
            return all(character in ".0" or str(digit) == character for digit, character in zip(grid, self.body))
        digits = [grid[cell] for cell in self.body]
        if self.kind == "cage":
            return len(set(digits)) == len(digits) and sum(digits) == self.total
        if self.kind == "thermometer":
            return all(lower < upper for lower, upper in zip(digits, digits[1:]))
        return digits[0] == sum(digits[1:])


def neighbours(side, cell):
    row, column = divmod(cell, side)
    return [
        other
        for other in range(side**2)
        if other != cell and abs(other // side - row) <= 1 and abs(other % side - column) <= 1
    ]


def path(draw, side, count):
    """So many cells, each of which touches the one before it."""
    while True:
        cells = [draw.randrange(side**2)]
        while len(cells) < count:
            free = [cell for cell in neighbours(side, cells[-1]) if cell not in cells]
            if not free:
                break
            cells.append(draw.choice(free))
        else:
            return cells


def givens_line(draw, side, marks):
    """A line with a digit at each of the cells, and blanks of both sorts."""
    line = draw.choices(".0", k=side**2)
    for cell, digit in marks.items():
        line[cell] = str(digit)
    return Part(side, "givens", 0, "".join(line))


def random_part(draw, side, kind, count, total=0):
    if kind == "givens":
        cells = draw.sample(range(side**2), count)
        return givens_line(draw, side, {cell: draw.randint(1, side) for cell in cells})
    if kind == "cage":
        # A total that so many digits add to, or any total.
        reached = sum(draw.sample(range(1, side + 1), count))
        total = draw.choice((reached, reached, draw.randint(1, side * (side + 1) // 2)))
        # Cells that touch, or any cells.
        cells = path(draw, side, count) if draw.random() < 0.5 else draw.sample(range(side**2), count)
        return Part(side, kind, total, cells)
    return Part(side, kind, total, path(draw, side, count))


def small_parts(kind):
    """Parts of side 4, whose models are all looked at."""
    draw = random.Random(f"{kind} 4")
    sizes = {"givens": (2, 3, 4, 16), "cage": (1, 2, 3, 4), "thermometer": (3, 4), "arrow": (2, 3, 4, 5)}[kind]
    each = {"givens": 20, "cage": 40, "thermometer": 50, "arrow": 40}[kind]
    parts = [random_part(draw, 4, kind, size) for size in sizes for _ in range(each)]
    if kind == "givens":
        parts.append(givens_line(draw, 4, {}))
        parts += [givens_line(draw, 4, {cell: digit}) for cell in range(16) for digit in range(1, 5)]
        # A whole grid.
        grids = sorted(all_grids_of_side_4())
        parts += [givens_line(draw, 4, dict(enumerate(draw.choice(grids)))) for _ in range(3)]
    if kind == "cage":
        parts += [Part(4, kind, total, [cell]) for total, cell in zip(range(1, 11), draw.sample(range(16), 10))]
        # The digits of a whole row, column and box.
        parts += [Part(4, kind, total, cells) for cells in ([3, 2, 1, 0], [1, 5, 9, 13], [10, 15, 11, 14]) for total in (10, 9)]
        parts.append(Part(4, kind, 3, [0, 1]))
    if kind == "thermometer":
        parts += [Part(4, kind, 0, [cell, other]) for cell in range(16) for other in neighbours(4, cell)]
    if kind == "arrow":
        parts += [Part(4, kind, 0, cells) for cells in ([0, 1], [5, 10], [1, 0, 5], [5, 0, 4, 8, 9])]
    # A kind without a total ignores it.
    if kind != "cage":
        parts = [part._replace(total=draw.choice((0, 0, 0, 7, 64, 2**32 - 1))) for part in parts]
    return parts


def large_parts(kind):
    """Parts of side 9, of which the files are compared."""
    draw = random.Random(f"{kind} 9")
    sizes = {"givens": (0, 1, 17, 30, 81), "cage": range(1, 10), "thermometer": range(2, 10), "arrow": range(2, 11)}[kind]
    parts = [random_part(draw, 9, kind, size) for size in sizes]
    if kind == "cage":
        # Just taken by running totals.
        parts.append(Part(9, kind, 40, list(range(8))))
        parts.append(Part(9, kind, 45, list(range(72, 81))))
        parts.append(Part(9, kind, 1, [80]))
    return parts


def relabelled(draw):
    """A full grid of side 9 with its digits exchanged."""
    digits = draw.sample(range(1, 10), 9)
    return [digits[digit - 1] for digit in full_grid_of_side_9()]


def known_part(draw, kind, size, grid):
    """A part of side 9 that the grid keeps, and that both totallers take."""
    while True:
        part = random_part(draw, 9, kind, size)
        if kind == "givens":
            part = givens_line(draw, 9, {cell: grid[cell] for cell in draw.sample(range(81), size)})
        elif kind == "cage":
            part = part._replace(total=sum(grid[cell] for cell in part.body))
        if part.keeps(grid) and not reference_refusal("running", *part):
            return part


def known_parts(kind):
    """Parts of side 9, each with a grid that keeps it and one that does not."""
    draw = random.Random(f"{kind} known")
    # A cage of all nine digits and an arrow of two cells would be kept whatever digits are exchanged.
    sizes = {"givens": (1, 17, 30), "cage": (1, 2, 3, 5, 8), "thermometer": (2, 3, 4), "arrow": (3, 4, 5)}[kind]
    for size in sizes:
        grid = relabelled(draw)
        part = known_part(draw, kind, size, grid)
        other = next(other for other in iter(lambda: relabelled(draw), None) if not part.keeps(other))
        yield part, grid, other


def spoiled_parts(kind):
    """Parts that are good but for a few cells or characters and the total, so that many are refused."""
    draw = random.Random(f"{kind} spoiled")
    sizes = {"givens": (5, 16), "cage": (1, 2, 4), "thermometer": (2, 3, 4), "arrow": (2, 4, 5)}[kind]
    for _ in range(60):
        side = draw.choice((4, 9))
        part = random_part(draw, side, kind, draw.choice(sizes))
        body = list(part.body)
        for _ in range(draw.randint(0, 2)):
            if kind == "givens":
                body[draw.randrange(len(body))] = draw.choice("123456789./:x")
            else:
                body[draw.randrange(len(body))] = draw.randrange(side**2 + 2)
        if draw.random() < 0.2:
            body = body + body[:1] if draw.random() < 0.5 else body[1:]
        total = draw.choice((part.total, part.total, 0, 10, 11, 45, 46, 2**32 - 1))
        yield part._replace(total=total, body="".join(body) if kind == "givens" else body)


# What is refused: name, part, number, position. The layer is the kind's but for 23.

def line_of(side, **marks):
    """A blank line of givens with characters at some cells, as c7="5"."""
    line = ["."] * side**2
    for cell, character in marks.items():
        line[int(cell[1:])] = character
    return "".join(line)


def refused_givens():
    for side in (4, 9):
        for what, size in [("no line", 0), ("one character", 1), ("one too few", side**2 - 1), ("one too many", side**2 + 1)]:
            yield f"{what}, side {side}", Part(side, "givens", 0, "." * size), 2, 0
        for character in "/:;xA-+,":
            yield f"{character} at 0, side {side}", Part(side, "givens", 0, line_of(side, c0=character)), 3, 0
        last = side**2 - 1
        yield f"x at the end, side {side}", Part(side, "givens", 0, line_of(side, **{f"c{last}": "x"})), 3, last
        yield f"x and too long, side {side}", Part(side, "givens", 0, "x" + line_of(side)), 2, 0
    for digit in range(5, 10):
        yield f"digit {digit}, side 4", Part(4, "givens", 0, line_of(4, c7=str(digit), c2="4")), 3, 7
    yield "two of them, the first counts", Part(4, "givens", 0, line_of(4, c9="5", c3="6")), 3, 3
    yield "a line of side 9 on side 4", Part(4, "givens", 0, line_of(9)), 2, 0
    yield "a line of side 4 on side 9", Part(9, "givens", 0, line_of(4)), 2, 0
    # What counts is bytes.
    yield "a character of two bytes", Part(4, "givens", 0, "..\u00e9............"), 3, 2
    yield "a character of two bytes too many", Part(4, "givens", 0, "..\u00e9............."), 2, 0


def refused_cages():
    yield "no cell", Part(4, "cage", 3, []), 2, 0
    yield "five cells, side 4", Part(4, "cage", 10, [0, 1, 2, 3, 4]), 2, 0
    yield "ten cells, side 9", Part(9, "cage", 45, list(range(10))), 2, 0
    yield "five cells, one beyond", Part(4, "cage", 10, [16, 1, 2, 3, 4]), 2, 0
    yield "no cell, total 0", Part(4, "cage", 0, []), 2, 0
    yield "a cell beyond and a bad total", Part(4, "cage", 11, [0, 16]), 4, 1
    yield "a cell repeated and a bad total", Part(4, "cage", 0, [0, 0]), 5, 1
    yield "the worked example", Part(4, "cage", 3, [0, 1, 0]), 5, 2
    for side, most in [(4, 10), (9, 45)]:
        for total in (0, most + 1, most + 2, 255, 256 + most, 65_536 + most, 2**32 - 1):
            yield f"total {total}, side {side}", Part(side, "cage", total, [0, 1]), 7, 0


def refused_rows(kind, most):
    """What is refused of a thermometer or an arrow, which has so many cells more than the side."""
    yield "no cell", Part(4, kind, 0, []), 2, 0
    yield "one cell", Part(4, kind, 0, [0]), 2, 0
    yield "one cell, beyond", Part(4, kind, 0, [16]), 2, 0
    yield "too many cells, side 4", Part(4, kind, 0, [0, 1, 2, 3, 7, 6][: 5 + most]), 2, 0
    yield "too many cells, side 9", Part(9, kind, 0, [*range(9), 17, 16][: 10 + most]), 2, 0
    for side in (4, 9):
        # The last of a row and the first of the next.
        yield f"over the edge, side {side}", Part(side, kind, 0, [side - 1, side]), 6, 1
        yield f"over the edge and down, side {side}", Part(side, kind, 0, [side - 1, 2 * side]), 6, 1
        yield f"two to the right, side {side}", Part(side, kind, 0, [0, 1, 3]), 6, 2
        yield f"two down, side {side}", Part(side, kind, 0, [0, 2 * side, side]), 6, 1
        yield f"a knight's move, side {side}", Part(side, kind, 0, [0, 1, side + 3]), 6, 2
    yield "apart twice, the first counts", Part(9, kind, 0, [0, 1, 3, 80]), 6, 2
    yield "apart and beyond", Part(4, kind, 0, [0, 3, 16]), 4, 2
    yield "apart and repeated", Part(4, kind, 0, [0, 3, 0]), 5, 2


def refused_cells(kind):
    """What is refused of all kinds that have cells."""
    total = 3 if kind == "cage" else 0
    yield "cell 16, side 4", Part(4, kind, total, [15, 16]), 4, 1
    yield "cell 81, side 9", Part(9, kind, total, [80, 81]), 4, 1
    yield "cell 255", Part(9, kind, total, [255, 0]), 4, 0
    yield "two cells beyond, the first counts", Part(4, kind, total, [0, 17, 16]), 4, 1
    yield "beyond and repeated", Part(4, kind, total, [3, 3, 16]), 4, 2
    yield "the same cell twice", Part(4, kind, total, [5, 5]), 5, 1
    yield "the first cell again", Part(9, kind, total, [40, 41, 40]), 5, 2
    yield "two cells again, the first counts", Part(4, kind, total, [1, 2, 2, 1]), 5, 2


REFUSED = {
    "givens": [*refused_givens()],
    "cage": [*refused_cells("cage"), *refused_cages()],
    "thermometer": [*refused_cells("thermometer"), *refused_rows("thermometer", 0)],
    "arrow": [*refused_cells("arrow"), *refused_rows("arrow", 1)],
}

# Cages that running totals do not take, and the number of their items.
NOT_TAKEN = [
    ("eight cells, total 41", Part(9, "cage", 41, list(range(8))), 72),
    ("nine cells, total 45", Part(9, "cage", 45, list(range(9))), 81),
    ("nine cells, total 36", Part(9, "cage", 36, list(range(9))), 81),
]

# Texts that are no part: name, text, the word at fault.
NO_PART = [
    *((f"totaller {word}", f"{word} 4 thermometer 0 0 1", word) for word in "Running adders total 4 1".split()),
    *((f"side {word}", f"adder {word} thermometer 0 0 1", word) for word in "0 1 3 5 8 10 16 44 99 04 +4 -4 4.0 4x four 260".split()),
    *((f"kind {word}", f"adder 4 {word} 0 0 1", word) for word in "Givens given cages CAGE thermo arrows 0 3".split()),
    *((f"total {word}", f"adder 4 thermometer {word} 0 1", word) for word in "x -1 1.5 1: 4294967296".split()),
    *((f"cell {word}", f"adder 4 thermometer 0 0 {word} 1", word) for word in "x -1 256 511 0.5 1, 0:1 4294967296".split()),
    ("no cell in letters", "adder 4 cage 3 one", "one"),
    ("no cell of an arrow", "adder 4 arrow 0 0 1 256", "256"),
    ("two lines of givens", "adder 4 givens 0 ................ 1...............", "1..............."),
    ("a gap in a line of givens", "adder 4 givens 0 .... ....", "...."),
    ("a word behind an empty line", "adder 4 givens 0 1 x y", "x"),
    ("the first wrong word counts: totaller", "x 5 y z", "x"),
    ("the first wrong word counts: side", "adder 5 y z", "5"),
    ("the first wrong word counts: kind", "adder 4 y z", "y"),
    ("the first wrong word counts: total", "adder 4 cage z q", "z"),
    ("the first wrong word counts: cell", "adder 4 cage 3 0 q r", "q"),
]

# Ways to say the same part, a thermometer of the cells 0 and 1 on side 4.
SAME_PART = [
    ("no line feed", b"adder 4 thermometer 0 0 1"),
    ("blanks in front and behind", b"  adder 4 thermometer 0 0 1 \n\n"),
    ("long gaps and tabs", b"adder\t4   thermometer 0\t\t0  1\r\n"),
    ("a word to a line", b"adder\n4\nthermometer\n0\n0\n1\n"),
    ("plus and leading zeros", b"adder 4 thermometer +0 00 +01\n"),
    ("a total that is ignored", b"running 4 thermometer 4294967295 0 1\n"),
]


# Running the program.

def write(totaller, part):
    """The file that the program writes for a part."""
    result = run_program([], part.line(totaller).encode(), program=PART)
    expect(result.returncode == 0, f"status {result.returncode}, {brief(result.stderr)}")
    expect(result.stderr == b"", f"standard error has {brief(result.stderr)}")
    return result.stdout


def refusal(text):
    """The one line that the program says where it writes nothing."""
    result = run_program([], text, program=PART)
    expect(result.returncode == 1, f"status {result.returncode}, not 1")
    expect(result.stdout == b"", f"standard output has {brief(result.stdout)}")
    error = result.stderr.decode()
    expect(error.endswith("\n") and error.count("\n") == 1, f"not one line: {brief(error)}")
    return error[:-1]


def with_facts(text, literals):
    """The clauses of a file, and one more for each of the literals."""
    heading, clauses = text.split(b"\n", 1)
    _, _, variables, count = heading.split()
    facts = b"".join(b"%d 0\n" % literal for literal in literals)
    return b"p cnf %s %d\n" % (variables, int(count) + len(literals)) + clauses + facts


def variables_of(text):
    return int(text.split(None, 3)[2])


# Checks.

def check_models(part, text):
    """Each grid that keeps the part is read off exactly one model, and no other grid off any."""
    wanted = {grid for grid in all_grids_of_side_4() if part.keeps(grid)}
    answer = clasp_all(text)
    status = ALL_FOUND if wanted else UNSATISFIABLE
    expect(answer.status == status, f"status {answer.status}, not {status}: {answer.tail()}")
    grids = [decode(4, model, variables_of(text)) for model in answer.models]
    expect(len(grids) == len(wanted), f"{len(grids)} models, but {len(wanted)} grids keep the part")
    expect(set(grids) == wanted, "the grids are not those that keep the part")


def check_written_models(totaller, part):
    check_models(part, write(totaller, part))


def check_reference(encoding, part):
    """The generator's own file has the models that it should."""
    check_models(part, part.reference(encoding))


def said_of(refused):
    return "part: refused: number {}, layer {}, position {}".format(*refused)


def check_same(totaller, part):
    """The program writes what the generator writes, or refuses what it refuses."""
    refused = reference_refusal(totaller, *part)
    if refused:
        said = refusal(part.line(totaller).encode())
        expect(said == said_of(refused), f"{brief(said)}, not {said_of(refused)}")
        return
    written, wanted = write(totaller, part), part.reference(totaller)
    lines = zip(written.split(b"\n") + [None], wanted.split(b"\n") + [None])
    for number, (line, other) in enumerate(lines, 1):
        expect(line == other, f"line {number} is {brief(line)}, not {brief(other)}")
    expect(written == wanted, "the file differs")


def check_counts(totaller, part, heading):
    written = write(totaller, part)
    expect(written.startswith(heading), f"the file starts with {brief(written[:20])}")


def check_refused(totaller, part, refused):
    said = refusal(part.line(totaller).encode())
    expect(said == said_of(refused), f"{brief(said)}, not {said_of(refused)}")


def check_one_grid(totaller, part, grid, models):
    """With all digits of a grid given there is one model, or none."""
    text = write(totaller, part)
    answer = clasp_all(with_facts(text, [9 * cell + digit for cell, digit in enumerate(grid)]))
    expect(len(answer.models) == models, f"{len(answer.models)} models, not {models}: {answer.tail()}")
    expect(answer.status == (ALL_FOUND if models else UNSATISFIABLE), f"status {answer.status}")
    for model in answer.models:
        expect(decode(9, model, variables_of(text)) == tuple(grid), "the model has another grid")


def check_satisfiable(totaller, part, solver):
    """A solver finds a model, whose grid keeps the part."""
    text = write(totaller, part)
    answer = SOLVERS[solver](text)
    expect(answer.status == SATISFIABLE, f"status {answer.status}: {answer.tail()}")
    expect(len(answer.models) == 1, f"{len(answer.models)} models")
    grid = decode(9, answer.models[0], variables_of(text))
    expect_valid(9, grid)
    expect(part.keeps(grid), "the grid does not keep the part")


def check_no_part(text, word):
    said = refusal(text.encode() + b"\n")
    expect(said.startswith(f'part: "{word}" '), f"{brief(said)} does not begin with the word {word}")


def check_no_words(text):
    said = refusal(text)
    expect(said == "part: a part is `TOTALLER SIDE KIND TOTAL BODY`", brief(said))


def check_no_text(text):
    said = refusal(text)
    expect(said.startswith("part: standard input: "), brief(said))


def check_same_part(text):
    result = run_program([], text, program=PART)
    expect(result.returncode == 0, f"status {result.returncode}, {brief(result.stderr)}")
    expect(result.stdout == Part(4, "thermometer", 0, [0, 1]).reference("adder"), brief(result.stdout))


def check_not_built(totaller, part):
    said = refusal(part.line(totaller).encode())
    expect(said == "part: cages and arrows are not built yet", brief(said))


def check_sorts(kind, parts):
    """The parts are of all the sorts that they should be of."""
    kept = [sum(map(part.keeps, all_grids_of_side_4())) for part in parts]
    none, one, some = kept.count(0), kept.count(1), sum(0 < count < 288 for count in kept)
    expect(none >= 5 and some >= 30, f"{none} parts are kept by no grid, {some} by some and not all")
    expect(one >= 3 or kind != "givens", f"only {one} parts are kept by one grid")
    sizes = {len(part.body) for part in parts}
    wanted = {"givens": {16}, "cage": {1, 2, 3, 4}, "thermometer": {2, 3, 4}, "arrow": {2, 3, 4, 5}}[kind]
    expect(sizes == wanted, f"the bodies have the lengths {sizes}")


def check_table(part, number, position):
    """The generator refuses what the table says."""
    bytes_of = part._replace(body=part.body.encode().decode("latin-1")) if part.kind == "givens" else part
    for totaller in TOTALLERS:
        expect(reference_refusal(totaller, *bytes_of) == (number, "Kind", position), "the generator says otherwise")


# All of a kind.

def check_generator(checks, kind):
    parts = small_parts(kind)
    checks.run(f"{kind}: the parts are of all sorts", check_sorts, kind, parts)
    for number, part in enumerate(random.Random(kind).sample(parts, 12)):
        for encoding in TOTALLERS:
            checks.run(f"reference, {kind} {number}, {encoding}: models", check_reference, encoding, part)
    for what, part, number, position in REFUSED[kind]:
        checks.run(f"reference, {kind}, refused: {what}", check_table, part, number, position)


def check_kind(checks, kind):
    for number, part in enumerate(small_parts(kind)):
        # Only a kind with a sum has other clauses by another totaller.
        totallers = TOTALLERS if kind in ("cage", "arrow") else TOTALLERS[number % 2 :][:1]
        for totaller in totallers:
            checks.run(f"{kind} {number}, {totaller}: models", check_written_models, totaller, part)
        for totaller in TOTALLERS:
            checks.run(f"{kind} {number}, {totaller}: file", check_same, totaller, part)
    for number, part in enumerate(large_parts(kind)):
        for totaller in TOTALLERS:
            checks.run(f"{kind} {number} of side 9, {totaller}: file", check_same, totaller, part)
    solvers = itertools.cycle(SOLVERS)
    for number, (part, grid, other) in enumerate(known_parts(kind)):
        for totaller in TOTALLERS:
            name = f"{kind} {number} of a grid, {totaller}"
            checks.run(f"{name}: file", check_same, totaller, part)
            checks.run(f"{name}: satisfiable", check_satisfiable, totaller, part, next(solvers))
            checks.run(f"{name}: one model with the grid", check_one_grid, totaller, part, grid, 1)
            checks.run(f"{name}: no model with another grid", check_one_grid, totaller, part, other, 0)


def check_refusals(checks, kind):
    for totaller in TOTALLERS:
        for what, part, number, position in REFUSED[kind]:
            checks.run(f"{kind}, {totaller}, refused: {what}", check_refused, totaller, part, (number, "Kind", position))
        for number, part in enumerate(spoiled_parts(kind)):
            checks.run(f"{kind}, {totaller}, spoiled: {number}", check_same, totaller, part)


def check_cages(checks):
    """The worked examples of cages."""
    part = Part(4, "cage", 3, [0, 1])
    checks.run("cage, adder: worked example", check_counts, "adder", part, b"p cnf 80 500\n")
    checks.run("cage, running: worked example", check_counts, "running", part, b"p cnf 100 517\n")
    for what, part, items in NOT_TAKEN:
        checks.run(f"cage, running, not taken: {what}", check_refused, "running", part, (23, "Totaller", items))
        checks.run(f"cage, adder, taken: {what}", check_same, "adder", part)


def check_texts(checks):
    for what, text, word in NO_PART:
        checks.run(f"no part: {what}", check_no_part, text, word)
    for what, text in [("empty", b""), ("blank", b" \n\n"), ("one word", b"adder\n"), ("two words", b"x 5"), ("three words", b"adder 4 givens\n")]:
        checks.run(f"no part: {what}", check_no_words, text)
    checks.run("no text", check_no_text, b"adder 4 givens 0 ....\xff...........\n")
    for what, text in SAME_PART:
        checks.run(f"the same part: {what}", check_same_part, text)


def main():
    checks = Checks()
    for kind in ALL_KINDS:
        check_generator(checks, kind)
    for kind in KINDS:
        check_kind(checks, kind)
        check_refusals(checks, kind)
    if "cage" in KINDS:
        check_cages(checks)
    for kind in sorted(set(ALL_KINDS) - set(KINDS)):
        for totaller in TOTALLERS:
            checks.run(f"{kind}, {totaller}: not built", check_not_built, totaller, small_parts(kind)[0])
    check_texts(checks)
    return checks.finish()


if __name__ == "__main__":
    sys.exit(main())
