#!/usr/bin/env python3
"""Prints the DIMACS CNF of one sum, written from the specification only.

Usage: totals.py METHOD TARGET FIRST VARIABLE:WEIGHT ...

METHOD is `running` or `adder`. The clauses say that the weights of the true
items add to TARGET; fresh variables count from FIRST. Nothing is refused:
the sum must be one that the totaller takes.
"""

import collections
import itertools
import sys


def running(items, target, first):
    """Running totals: one variable for each number of items and each sum."""
    numbers = itertools.count(first)
    table = [[next(numbers) for _ in range(target + 1)] for _ in range(len(items) + 1)]
    clauses = [[table[0][0]]] + [[-other] for other in table[0][1:]]
    for before, after, (variable, weight) in zip(table, table[1:], items):
        for total, reached in enumerate(after):
            # With the item, this total comes from a total that is smaller by
            # its weight; where there is none it is not reached.
            if total < weight:
                clauses.append([-variable, -reached])
            else:
                source = before[total - weight]
                clauses += [[-variable, -reached, source], [-variable, reached, -source]]
            # Without the item, the total stays as it was.
            clauses += [[variable, -reached, before[total]], [variable, reached, -before[total]]]
    clauses.append([table[-1][target]])
    return clauses, next(numbers) - first


# The clauses of the adders. A letter stands for a literal, a capital for its opposite.
FULL = "abcS aBCS AbCS ABcS ABCs Abcs aBcs abCs ABt ACt BCt abT acT bcT".split()
HALF = "abS ABS Abs aBs ABt aT bT".split()


def patterns(rules, **literals):
    opposites = {name.upper(): -literal for name, literal in literals.items()}
    names = {**literals, **opposites}
    return [[names[letter] for letter in rule] for rule in rules]


def adder(items, target, first):
    """The adder network: bits are added line by line, with carries."""
    numbers = itertools.count(first)
    clauses, bits, carries = [], [], collections.deque()
    bit = 1
    # A line is worked if a literal stands in it or may come to stand further
    # up, or if the target has a bit there or further up.
    while carries or bit <= target or any(weight >= bit for _, weight in items):
        line = collections.deque(variable for variable, weight in items if weight & bit)
        line.extend(carries)
        carries.clear()
        while len(line) > 1:
            inputs = dict(zip("abc", [line.popleft() for _ in range(min(3, len(line)))]))
            sum_, carry = next(numbers), next(numbers)
            clauses += patterns(FULL if "c" in inputs else HALF, **inputs, s=sum_, t=carry)
            line.append(sum_)
            carries.append(carry)
        bits.append(line[0] if line else None)
        bit *= 2
    for place, literal in enumerate(bits):
        wanted = target >> place & 1
        if literal is not None:
            clauses.append([literal if wanted else -literal])
        elif wanted:
            # Nothing can make this bit, so no assignment is left.
            anything = items[0][0]
            clauses += [[anything], [-anything]]
    return clauses, next(numbers) - first


METHODS = {"running": running, "adder": adder}


def text(method, target, first, items):
    """The whole CNF text: the heading, then one clause to a line."""
    clauses, fresh = METHODS[method](items, target, first)
    lines = [f"p cnf {first - 1 + fresh} {len(clauses)}"]
    lines += [" ".join(map(str, clause + [0])) for clause in clauses]
    return "".join(line + "\n" for line in lines)


def main(arguments):
    if len(arguments) < 4 or arguments[0] not in METHODS:
        sys.stderr.write("usage: totals.py METHOD TARGET FIRST VARIABLE:WEIGHT ...\n")
        return 1
    method, target, first, *words = arguments
    items = [tuple(map(int, word.split(":"))) for word in words]
    sys.stdout.buffer.write(text(method, int(target), int(first), items).encode("ascii"))
    return 0


if __name__ == "__main__":
    sys.exit(main(sys.argv[1:]))
