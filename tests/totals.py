#!/usr/bin/env python3
"""Tests the totallers from the outside, by the program `sums`.

Usage: totals.py

The program is the one that the environment variable SUMS names, or else
target/bin/sums in the repository. It is given sums of many sorts. Each file
that it writes must be, byte for byte, what reference/totals.py makes of the
sum, and its models, which the solver clasp enumerates, must be those that
adding up by hand finds: one for each choice of true items that adds to the
target, and no other.
"""

import collections
import itertools
import os
import random
import sys

sys.dont_write_bytecode = True
sys.path.insert(0, os.path.join(os.path.dirname(os.path.abspath(__file__)), "support"))
from checks import SUMS, Checks, brief, expect, run_program
from reference.totals import text as reference_text
from solvers import ALL_FOUND, SATISFIABLE, UNSATISFIABLE, clasp, clasp_all

# The totallers that the program knows.
TOTALLERS = ("running", "adder")

# The encodings that the generator knows.
ENCODINGS = ("running", "adder")

# The worked example: variables 1 and 2 with weight 1, target 1, first fresh number 3.
EXAMPLE = {
    "running": (
        b"p cnf 8 17\n3 0\n-4 0\n-1 -5 0\n1 -5 3 0\n1 5 -3 0\n-1 -6 3 0\n-1 6 -3 0\n1 -6 4 0\n1 6 -4 0\n"
        b"-2 -7 0\n2 -7 5 0\n2 7 -5 0\n-2 -8 5 0\n-2 8 -5 0\n2 -8 6 0\n2 8 -6 0\n8 0\n"
    ),
    "adder": (
        b"p cnf 4 9\n1 2 -3 0\n-1 -2 -3 0\n-1 2 3 0\n1 -2 3 0\n-1 -2 4 0\n1 -4 0\n2 -4 0\n3 0\n-4 0\n"
    ),
}


# Sums.

class Sum(collections.namedtuple("Sum", "target first items")):
    """A target, the first fresh number, and items: pairs of variable and weight."""

    def line(self, totaller):
        words = [f"{variable}:{weight}" for variable, weight in self.items]
        return " ".join([totaller, str(self.target), str(self.first), *words])

    def variables(self):
        """Each variable of the items once, in order."""
        return sorted({variable for variable, _ in self.items})

    def gap(self):
        """The variables below the first fresh one that are no item's."""
        return sorted(set(range(1, self.first)) - set(self.variables()))

    def adds(self, true):
        """Whether the items with a variable in the set add to the target."""
        return sum(weight for variable, weight in self.items if variable in true) == self.target

    def solutions(self):
        """Every set of true variables that adds to the target, by trying all."""
        variables = self.variables()
        choices = itertools.product((False, True), repeat=len(variables))
        sets = (frozenset(itertools.compress(variables, choice)) for choice in choices)
        return {true for true in sets if self.adds(true)}


def random_sum(draw, sizes, spread):
    """A sum with so many items, and variables that leave up to `spread` numbers out."""
    count = draw.randint(*sizes)
    # Half of the sums repeat variables, since fewer are there than items.
    names = count if draw.random() < 0.5 else draw.randint(1, count)
    pool = draw.sample(range(1, names + draw.choice((0, draw.randint(0, spread))) + 1), names)
    variables = draw.sample(pool, count) if names == count else draw.choices(pool, k=count)
    first = max(variables) + 1 + draw.choice((0, 0, 1, draw.randint(0, spread)))
    most = draw.choice((1, 3, 15))
    items = [(variable, draw.randint(1, most)) for variable in variables]
    # A target that some items add to, or any target.
    chosen = sum(weight for _, weight in items if draw.random() < 0.5)
    target = chosen if chosen <= 63 and draw.random() < 0.6 else draw.randint(0, 63)
    return Sum(target, first, items)


def random_sums():
    draw = random.Random(1605)
    small = [random_sum(draw, (1, 8), 12) for _ in range(400)]
    larger = [random_sum(draw, (9, 12), 20) for _ in range(50)]
    return small + larger


def numbered(weights, target, first=None):
    """The variables 1, 2, 3 and so on with these weights."""
    return Sum(target, first or len(weights) + 1, list(enumerate(weights, 1)))


# Sums at the edges, whose models are all looked at.
EDGES = [
    ("one item, reached", numbered([1], 1)),
    ("one item, target 0", numbered([1], 0)),
    ("one item, beyond its weight", numbered([1], 2)),
    ("one item of weight 15", numbered([15], 15)),
    ("target 63", numbered([15, 15, 15, 15, 3], 63)),
    ("target 63, far beyond the weights", numbered([1, 2], 63)),
    ("target 32, with empty lines below", numbered([1, 1], 32)),
    ("even weights, odd target", numbered([2, 4, 6, 8, 10, 2], 13)),
    ("a power of two alone", numbered([8, 8], 8)),
    ("all items true", numbered([1, 2, 3, 4, 5, 6, 7, 8], 36)),
    ("all items false", numbered([1, 2, 3, 4, 5, 6, 7, 8], 0)),
    ("one variable eight times", Sum(24, 2, [(1, 3)] * 8)),
    ("one variable eight times, not reached", Sum(23, 2, [(1, 3)] * 8)),
    ("one variable three times in a line", Sum(3, 3, [(1, 1), (1, 1), (1, 1)])),
    ("two variables in turn", Sum(9, 3, [(1, 1), (2, 2), (1, 4), (2, 1), (1, 4)])),
    ("variables in falling order", Sum(7, 9, [(8, 1), (6, 2), (4, 3), (2, 4)])),
    ("16 items of weight 1", numbered([1] * 16, 3)),
    ("a gap before the fresh numbers", numbered([1, 1], 1, first=40)),
]

# Sums with many items, of which one model is looked at, if there is one.
MANY = [
    ("72 items, target 40", numbered([7, 3, 5, 11] * 18, 40), True),
    ("96 items, target 29", numbered([1] * 96, 29), True),
    ("96 items, odd target", numbered([2, 4, 8] * 32, 29), False),
    ("46 items, target 62", numbered([15, 13] * 23, 62), False),
    ("8 items, target 63", numbered([15, 14, 13, 12, 11, 10, 9, 8], 63), True),
    ("a long gap", Sum(21, 65_000, [(64_999, 6), (3, 7), (40_000, 8)]), True),
    ("greatest variables", Sum(2, 65_527, [(65_526, 1), (65_525, 1)]), True),
]

# Many items that only one of the totallers takes.
MANY_OF = {
    "running": [],
    "adder": [
        ("96 items, target 63", numbered([1, 2, 3, 4] * 24, 63), True),
        ("96 items of weight 15, target 60", numbered([15] * 96, 60), True),
        ("96 items of weight 15, target 61", numbered([15] * 96, 61), False),
        ("no fresh number", Sum(5, 65_536, [(65_535, 5)]), True),
    ],
}


# What is refused: name, sum, number, position.

def good(count):
    return [(variable, 1) for variable in range(1, count + 1)]


def with_item(count, index, item):
    items = good(count)
    items[index] = item
    return items


REFUSED = [
    ("no items", Sum(1, 3, []), 8, 0),
    ("no items, target too great", Sum(64, 3, []), 8, 0),
    ("no items, fresh numbers too great", Sum(1, 65_536, []), 8, 0),
    ("no items, first fresh number 0", Sum(0, 0, []), 8, 0),
    ("weight 0", Sum(1, 3, [(1, 0), (2, 1)]), 8, 0),
    ("weight 16", Sum(1, 3, [(1, 1), (2, 16)]), 8, 1),
    ("weight 255", Sum(1, 3, [(1, 255)]), 8, 0),
    ("variable 0", Sum(1, 3, [(1, 1), (0, 1)]), 8, 1),
    ("variable 0, first fresh number 0", Sum(0, 0, [(0, 1)]), 8, 0),
    ("the first fresh number as a variable", Sum(1, 3, [(1, 1), (2, 1), (3, 1)]), 8, 2),
    ("a fresh number as a variable", Sum(1, 3, [(9, 1), (2, 1)]), 8, 0),
    ("variable 1, first fresh number 1", Sum(0, 1, [(1, 1)]), 8, 0),
    ("variable 65,536", Sum(1, 70_000, [(1, 1), (65_536, 1)]), 8, 1),
    ("the greatest variable that can be said", Sum(1, 2**32 - 1, [(2**32 - 2, 1)]), 8, 0),
    ("two wrong items, the first counts", Sum(1, 3, [(1, 1), (2, 16), (0, 1)]), 8, 1),
    ("a wrong item, target too great", Sum(64, 9, with_item(8, 7, (8, 0))), 8, 7),
    ("a wrong item, too many items", Sum(1, 98, with_item(97, 96, (0, 1))), 8, 96),
    ("a wrong item, fresh numbers too great", Sum(1, 65_535, with_item(4, 3, (65_535, 1))), 8, 3),
    ("97 items", Sum(1, 98, good(97)), 23, 97),
    ("97 items, target 0", Sum(0, 98, good(97)), 23, 97),
    ("200 items", Sum(1, 201, good(200)), 23, 200),
    ("target 64", Sum(64, 3, good(2)), 23, 2),
    ("target 64, one item", Sum(64, 2, good(1)), 23, 1),
    ("the greatest target that can be said", Sum(2**32 - 1, 9, good(8)), 23, 8),
    ("97 items, fresh numbers too great", Sum(1, 65_536, good(97)), 23, 97),
    ("target 64, fresh numbers too great", Sum(64, 65_536, good(2)), 23, 2),
    ("fresh numbers from 65,536", Sum(1, 65_536, good(2)), 24, 0),
    ("fresh numbers from the greatest that can be said", Sum(1, 2**32 - 1, good(2)), 24, 0),
]

REFUSED_OF = {
    "running": [
        ("72 items, target 41", Sum(41, 73, good(72)), 23, 72),
        ("96 items, target 30", Sum(30, 97, good(96)), 23, 96),
        ("46 items, target 63", Sum(63, 47, good(46)), 23, 46),
        ("last fresh number 65,536", Sum(1, 65_531, good(2)), 24, 0),
        ("one item, last fresh number 65,536", Sum(0, 65_535, good(1)), 24, 0),
    ],
    "adder": [
        ("last fresh number 65,536", Sum(1, 65_535, good(2)), 24, 0),
    ],
}

# Sums that are just not refused.
TAKEN = [
    ("variable 65,535 at most", Sum(1, 60_000, [(59_999, 15), (1, 1)])),
    ("96 items, target 0", Sum(0, 97, good(96))),
]

TAKEN_OF = {
    "running": [
        ("72 items, target 40", Sum(40, 73, good(72))),
        ("45 items, target 63", Sum(63, 46, good(45))),
        ("last fresh number 65,535", Sum(1, 65_530, good(2))),
        ("one item, last fresh number 65,535", Sum(0, 65_534, good(1))),
    ],
    "adder": [
        ("72 items, target 41", Sum(41, 73, good(72))),
        ("96 items, target 63", Sum(63, 97, good(96))),
        ("last fresh number 65,535", Sum(1, 65_534, good(2))),
        ("no fresh number, from 65,536", Sum(0, 65_536, good(1))),
    ],
}

# Texts that are no sum: name, text without the totaller's name, the word at fault.
NO_SUM = [
    ("target that is a word", b"one 3 1:1", "one"),
    ("negative target", b"-1 3 1:1", "-1"),
    ("target with a point", b"1.0 3 1:1", "1.0"),
    ("target beyond 32 bits", b"4294967296 3 1:1", "4294967296"),
    ("item for a target", b"1:1 3 1:1", "1:1"),
    ("first fresh number that is a word", b"1 three 1:1", "three"),
    ("first fresh number beyond 32 bits", b"1 4294967299 1:1", "4294967299"),
    ("item for a first fresh number", b"1 2:1 1:1", "2:1"),
    ("item without a colon", b"1 3 1", "1"),
    ("item without a variable", b"1 3 1:1 :1", ":1"),
    ("item without a weight", b"1 3 1:", "1:"),
    ("item of a colon", b"1 3 :", ":"),
    ("item with two colons", b"1 3 1:1:1", "1:1:1"),
    ("item with a comma", b"1 3 1,1", "1,1"),
    ("item in two words", b"1 3 1 :1", "1"),
    ("variable beyond 32 bits", b"1 3 4294967297:1", "4294967297:1"),
    ("weight beyond 8 bits", b"1 3 1:257", "1:257"),
    ("negative variable", b"1 3 -1:1", "-1:1"),
    ("negative weight", b"1 3 1:-1", "1:-1"),
    ("letters for an item", b"1 3 a:b", "a:b"),
    ("the first wrong word counts", b"1 3 1:1 2:x y", "2:x"),
]


# Running the program.

def write(totaller, sum_):
    """The file that the program writes for a sum."""
    result = run_program([], sum_.line(totaller).encode() + b"\n", program=SUMS)
    expect(result.returncode == 0, f"status {result.returncode}, {brief(result.stderr)}")
    expect(result.stderr == b"", f"standard error has {brief(result.stderr)}")
    return result.stdout


def refusal(text):
    """The one line that the program says where it writes nothing."""
    result = run_program([], text, program=SUMS)
    expect(result.returncode == 1, f"status {result.returncode}, not 1")
    expect(result.stdout == b"", f"standard output has {brief(result.stdout)}")
    said = result.stderr.decode("utf-8", "replace")
    expect(said.endswith("\n") and said.count("\n") == 1, f"not one line: {brief(said)}")
    return said[:-1]


def read(text):
    """The heading's two numbers, and the clauses; the form must be exact."""
    lines = text.decode("ascii").split("\n")
    expect(lines.pop() == "", "the last line has no line feed")
    words = lines[0].split(" ")
    expect(len(words) == 4 and words[:2] == ["p", "cnf"], f"the heading is {lines[0]}")
    clauses = []
    for line in lines[1:]:
        numbers = [int(word) for word in line.split(" ")]
        expect(" ".join(map(str, numbers)) == line, f"{line} is not in its plain form")
        expect(numbers.index(0) == len(numbers) - 1, f"{line} has its 0 not at the end alone")
        expect(2 <= len(numbers) <= 17, f"{line} has {len(numbers) - 1} literals")
        clauses.append(numbers[:-1])
    return int(words[2]), int(words[3]), clauses


# The two counts, worked out without making a clause.

def counts_of_running(sum_):
    per_item = [4 * (sum_.target + 1) - min(weight, sum_.target + 1) for _, weight in sum_.items]
    fresh = (len(sum_.items) + 1) * (sum_.target + 1)
    return fresh, 1 + sum_.target + sum(per_item) + 1


def counts_of_adder(sum_):
    # Each line with n literals has n // 2 adders, and so many carries. They
    # are full adders but for one where n is even.
    fresh = clauses = carries = place = 0
    while carries or any(weight >> place for _, weight in sum_.items) or sum_.target >> place:
        literals = carries + sum(weight >> place & 1 for _, weight in sum_.items)
        carries = literals // 2
        fresh += 2 * carries
        half = literals > 0 and literals % 2 == 0
        clauses += 14 * (carries - half) + 7 * half
        # At the end a bit has a clause, and a bit that is missing has two.
        clauses += 1 if literals else 2 * (sum_.target >> place & 1)
        place += 1
    return fresh, clauses


COUNTS = {"running": counts_of_running, "adder": counts_of_adder}


def check_same(totaller, sum_):
    """The whole file, held against the generator's."""
    got = write(totaller, sum_)
    wanted = reference_text(totaller, sum_.target, sum_.first, sum_.items).encode()
    if got != wanted:
        pairs = itertools.zip_longest(got.split(b"\n"), wanted.split(b"\n"))
        number, one, other = next((n, a, b) for n, (a, b) in enumerate(pairs, 1) if a != b)
        expect(False, f"line {number} is {brief(one)}, not {brief(other)}")


def check_counts(totaller, sum_, text):
    variables, count, clauses = read(text)
    fresh, wanted = COUNTS[totaller](sum_)
    expect(variables == sum_.first - 1 + fresh, f"{variables} variables, with {fresh} fresh ones")
    expect(count == len(clauses) == wanted, f"{count} told, {len(clauses)} clauses, not {wanted}")
    named = {abs(literal) for clause in clauses for literal in clause}
    wanted = set(sum_.variables()) | set(range(sum_.first, sum_.first + fresh))
    expect(named == wanted, f"the clauses name {brief(sorted(named ^ wanted))} wrongly")


def closed(sum_, text):
    """The file with a clause more for each variable of the gap: it is false.

    `check_counts` has seen that no clause of the file names such a variable.
    So it is free in the file, and with it fixed, the file has the same models
    over all other variables, each of them once.
    """
    variables, count, clauses = read(text)
    gap = sum_.gap()
    lines = text.split(b"\n", 1)[1] + b"".join(b"-%d 0\n" % variable for variable in gap)
    return variables, b"p cnf %d %d\n" % (variables, count + len(gap)) + lines


def true_variables(model, sum_, last):
    """The item variables that are true in a model of the closed file."""
    named = sorted(abs(literal) for literal in model)
    expect(named == list(range(1, last + 1)), "the model does not name each variable once")
    return frozenset(model) & frozenset(sum_.variables())


def check_models(totaller, sum_, text):
    """All models: one for each way to add to the target, and no other."""
    check_counts(totaller, sum_, text)
    last, text = closed(sum_, text)
    answer = clasp_all(text)
    wanted = sum_.solutions()
    status = ALL_FOUND if wanted else UNSATISFIABLE
    expect(answer.status == status, f"status {answer.status}, not {status}: {answer.tail()}")
    found = collections.Counter(true_variables(model, sum_, last) for model in answer.models)
    for true in wanted | set(found):
        expect(
            found[true] == (true in wanted),
            f"{found[true]} models, not {int(true in wanted)}, where {sorted(true)} are true",
        )


def check_one_model(totaller, sum_, reached, text):
    """One model, which adds to the target, or none where it cannot be reached."""
    check_counts(totaller, sum_, text)
    last, text = closed(sum_, text)
    answer = clasp(text)
    # Clasp may notice by itself that there is no other model.
    statuses = (SATISFIABLE, ALL_FOUND) if reached else (UNSATISFIABLE,)
    expect(answer.status in statuses, f"status {answer.status}: {answer.tail()}")
    expect(len(answer.models) == reached, f"{len(answer.models)} models")
    for model in answer.models:
        expect(sum_.adds(true_variables(model, sum_, last)), "the true items do not add to the target")


# Checks.

def check_written_models(totaller, sum_):
    check_models(totaller, sum_, write(totaller, sum_))


def check_written_one(totaller, sum_, reached):
    check_one_model(totaller, sum_, reached, write(totaller, sum_))


def check_reference(encoding, sum_):
    """The generator's own file has the models that it should."""
    check_models(encoding, sum_, reference_text(encoding, sum_.target, sum_.first, sum_.items).encode())


def check_example(encoding):
    text = reference_text(encoding, 1, 3, [(1, 1), (2, 1)]).encode()
    expect(text == EXAMPLE[encoding], f"the generator makes {brief(text)}")


def check_written_example(totaller):
    text = write(totaller, Sum(1, 3, [(1, 1), (2, 1)]))
    expect(text == EXAMPLE[totaller], f"the program writes {brief(text)}")


def check_refused(totaller, sum_, number, position):
    said = refusal(sum_.line(totaller).encode())
    wanted = f"sums: refused: number {number}, layer Totaller, position {position}"
    expect(said == wanted, f"{brief(said)}, not {brief(wanted)}")


def check_no_sum(text, word):
    said = refusal(text)
    expect(said.startswith(f'sums: "{word}" '), f"{brief(said)} does not begin with the word {word}")


def check_no_words(text):
    said = refusal(text)
    expect(said.startswith("sums: a sum is "), brief(said))


def check_no_text(text):
    said = refusal(text)
    expect(said.startswith("sums: standard input: "), brief(said))


def check_blanks(totaller, text):
    """Blanks may repeat, and stand in front and behind; a line feed is not needed."""
    result = run_program([], totaller.encode().join(text), program=SUMS)
    expect(result.returncode == 0, f"status {result.returncode}, {brief(result.stderr)}")
    expect(result.stdout == EXAMPLE[totaller], brief(result.stdout))


def check_sorts(sums):
    """The random sums are of all the sorts that they should be of."""
    reached = [sum_ for sum_ in sums if sum_.solutions()]
    for what, found in [
        ("reached", reached),
        ("not reached", [sum_ for sum_ in sums if sum_ not in reached]),
        ("reached in several ways", [sum_ for sum_ in reached if len(sum_.solutions()) > 1]),
        ("with a variable repeated", [sum_ for sum_ in reached if len(sum_.variables()) < len(sum_.items)]),
        ("with a gap", [sum_ for sum_ in reached if sum_.gap()]),
        ("without a gap", [sum_ for sum_ in reached if not sum_.gap()]),
    ]:
        expect(len(found) >= 30, f"only {len(found)} sums are {what}")
    expect({len(sum_.items) for sum_ in sums} == set(range(1, 13)), "some number of items is missing")


def check_totaller(checks, totaller, sums):
    checks.run(f"{totaller}: worked example", check_written_example, totaller)
    for what, sum_ in EDGES + [(f"sum {number}", sum_) for number, sum_ in enumerate(sums)]:
        checks.run(f"{totaller}, {what}: file", check_same, totaller, sum_)
        checks.run(f"{totaller}, {what}: models", check_written_models, totaller, sum_)
    for what, sum_, reached in MANY + MANY_OF[totaller]:
        checks.run(f"{totaller}, {what}: file", check_same, totaller, sum_)
        checks.run(f"{totaller}, {what}: a model", check_written_one, totaller, sum_, reached)
    for what, sum_ in TAKEN + TAKEN_OF[totaller]:
        checks.run(f"{totaller}, taken: {what}", check_same, totaller, sum_)
    for what, sum_, number, position in REFUSED + REFUSED_OF[totaller]:
        checks.run(f"{totaller}, refused: {what}", check_refused, totaller, sum_, number, position)

    name = totaller.encode()
    for what, text, word in NO_SUM:
        checks.run(f"{totaller}, no sum: {what}", check_no_sum, name + b" " + text + b"\n", word)
    for what, text in [("no target", name), ("no first fresh number", name + b" 1\n")]:
        checks.run(f"{totaller}, no sum: {what}", check_no_words, text)
    for what, text in [
        ("no line feed", (b"", b" 1 3 1:1 2:1")),
        ("blanks in front and behind", (b"  ", b" 1 3 1:1 2:1  \n\n")),
        ("long gaps", (b"", b"   1\t 3  1:1    2:1\r\n")),
    ]:
        checks.run(f"{totaller}, blanks: {what}", check_blanks, totaller, text)


def main():
    checks = Checks()
    sums = random_sums()

    checks.run("the random sums are of all sorts", check_sorts, sums)
    for encoding in ENCODINGS:
        checks.run(f"reference, {encoding}: worked example", check_example, encoding)
        for what, sum_ in EDGES + [(f"sum {number}", sum_) for number, sum_ in enumerate(sums[:20])]:
            checks.run(f"reference, {encoding}, {what}: models", check_reference, encoding, sum_)

    for totaller in TOTALLERS:
        check_totaller(checks, totaller, sums)

    for what, text in [("empty", b""), ("blank", b"  \n\n"), ("one word", b"runnin\n")]:
        checks.run(f"no sum: {what}", check_no_words, text)
    for word in ["Running", "RUNNING", "runnings", "runnin", "total", "1"]:
        checks.run(f"no totaller: {word}", check_no_sum, f"{word} 1 3 1:1 2:1\n".encode(), word)
    checks.run("no text", check_no_text, b"running 1 3 1:1 2:\xff1\n")

    return checks.finish()


if __name__ == "__main__":
    sys.exit(main())
