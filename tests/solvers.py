#!/usr/bin/env python3
"""Gives what `dulovamish encode` writes to real SAT solvers.

Usage: solvers.py

The program is the one that the environment variable DULOVAMISH names, or
else target/bin/dulovamish in the repository. The solvers picosat, cadical,
minisat and clasp must be installed; a missing one makes its checks fail.
"""

import os
import re
import subprocess
import sys
import tempfile

sys.dont_write_bytecode = True
sys.path.insert(0, os.path.join(os.path.dirname(os.path.abspath(__file__)), "support"))
from checks import PATIENCE, Checks, brief, expect, run_program
from grids import (
    GRIDS_OF_SIDE_4,
    all_grids_of_side_4,
    decode,
    expect_valid,
    fill,
    full_grid_of_side_9,
    variable,
)

SIDES = (4, 9)
COUNTS = {4: (64, 400), 9: (729, 11745)}

# What the solvers answer by their exit status.
SATISFIABLE, UNSATISFIABLE = 10, 20
# Clasp adds the two when it found models and then no further one.
ALL_FOUND = 30


# CNF texts.

def encode(side):
    result = run_program(["encode"], b"side %d\n" % side)
    expect(result.returncode == 0, f"encode ends with status {result.returncode}")
    expect(result.stdout != b"", "encode writes nothing")
    return result.stdout


def with_heading(text, variables, clauses):
    """The same clauses under another heading."""
    return b"p cnf %d %d\n" % (variables, clauses) + text.split(b"\n", 1)[1]


def with_facts(side, literals):
    """The program's output, and a clause more for each of the literals."""
    variables, clauses = COUNTS[side]
    text = with_heading(encode(side), variables, clauses + len(literals))
    return text + b"".join(b"%d 0\n" % literal for literal in literals)


# Solvers. Each takes a CNF text and answers an Answer.

class Answer:
    def __init__(self, status, output, models=()):
        self.status = status
        self.output = output
        self.models = list(models)

    def verdict(self):
        """What the solver says in words. It must say it once."""
        said = re.findall(r"^(?:s )?(SATISFIABLE|UNSATISFIABLE|INDETERMINATE|UNKNOWN)$", self.output, re.M)
        return said[0] if len(said) == 1 else f"{said}"

    def tail(self):
        return brief(self.output[-150:])


def models_of(text):
    """The lists of literals in the value lines, each list ended by 0."""
    models, literals = [], []
    for line in re.findall(r"^v((?: .*)?)$", text, re.M):
        for literal in map(int, line.split()):
            if literal:
                literals.append(literal)
            else:
                models.append(literals)
                literals = []
    expect(not literals, "the value lines end without a 0")
    return models


def call(command, text, answer_file=False):
    """Runs a solver on a file with the text. Answers status, output, answer file."""
    with tempfile.TemporaryDirectory() as folder:
        with open(os.path.join(folder, "board.cnf"), "wb") as file:
            file.write(text)
        arguments = [*command, "board.cnf"] + (["answer"] if answer_file else [])
        try:
            result = subprocess.run(
                arguments,
                stdin=subprocess.DEVNULL,
                stdout=subprocess.PIPE,
                stderr=subprocess.PIPE,
                cwd=folder,
                timeout=PATIENCE,
            )
        except FileNotFoundError:
            expect(False, f"{command[0]} is not installed")
        answer = ""
        if answer_file and os.path.exists(os.path.join(folder, "answer")):
            with open(os.path.join(folder, "answer")) as file:
                answer = file.read()
        # Complaints go last, where a message about a failure shows them.
        output = (result.stdout + result.stderr).decode("utf-8", "replace")
        return result.returncode, output, answer


def picosat(text):
    status, output, _ = call(["picosat", "-v"], text)
    return Answer(status, output, models_of(output))


def cadical(text):
    # Strict: the heading must have exactly one space at each gap.
    status, output, _ = call(["cadical", "--strict"], text)
    return Answer(status, output, models_of(output))


def minisat(text):
    status, output, answer = call(["minisat"], text, answer_file=True)
    # Minisat reads on after a heading that does not fit, but it says so.
    expect("header mismatch" not in output, "minisat says that the heading does not fit")
    word, _, values = answer.partition("\n")
    expect(
        (status, word) in [(SATISFIABLE, "SAT"), (UNSATISFIABLE, "UNSAT")],
        f"minisat answers {brief(word)} with status {status}",
    )
    return Answer(status, output, models_of(f"v {values}") if values else [])


def clasp(text):
    status, output, _ = call(["clasp", "-n", "1"], text)
    return Answer(status, output, models_of(output))


def clasp_all(text):
    status, output, _ = call(["clasp", "-n", "0"], text)
    return Answer(status, output, models_of(output))


def picosat_all(text):
    status, output, _ = call(["picosat", "--all"], text)
    return Answer(status, output, models_of(output))


SOLVERS = {"picosat": picosat, "cadical": cadical, "minisat": minisat, "clasp": clasp}

# Where a solver tells the numbers that it read. Clasp does not.
TOLD = {
    "picosat": [
        r"^c parsed header 'p cnf (?P<variables>\d+) (?P<clauses>\d+)'$",
        r"^c initialized (?P<variables>\d+) variables$",
        r"^c found (?P<clauses>\d+) non trivial clauses$",
    ],
    "cadical": [
        r"^c found 'p cnf (?P<variables>\d+) (?P<clauses>\d+)' header$",
        r"^c parsed (?P<clauses>\d+) clauses ",
    ],
    "minisat": [
        r"^\|  Number of variables: +(?P<variables>\d+) +\|$",
        r"^\|  Number of clauses: +(?P<clauses>\d+) +\|$",
    ],
}


# Checks.

def check_satisfiable(solver, side):
    answer = SOLVERS[solver](encode(side))
    expect(answer.status == SATISFIABLE, f"status {answer.status}: {answer.tail()}")
    expect(answer.verdict() == "SATISFIABLE", f"{solver} says {answer.verdict()}")


def check_numbers(solver, side):
    answer = SOLVERS[solver](encode(side))
    variables, clauses = COUNTS[side]
    wanted = {"variables": str(variables), "clauses": str(clauses)}
    for pattern in TOLD[solver]:
        told = re.search(pattern, answer.output, re.M)
        expect(told, f"nothing in the output matches {pattern}")
        for what, number in told.groupdict().items():
            expect(number == wanted[what], f"{solver} tells {number} {what}, not {wanted[what]}")


def check_model(solver, side):
    answer = SOLVERS[solver](encode(side))
    expect(len(answer.models) == 1, f"{len(answer.models)} models: {answer.tail()}")
    expect_valid(side, decode(side, answer.models[0]))


def check_all_of_side_4(find_all, status):
    answer = find_all(encode(4))
    expect(answer.status == status, f"status {answer.status}: {answer.tail()}")
    expect(len(answer.models) == GRIDS_OF_SIDE_4, f"{len(answer.models)} models")
    grids = [decode(4, model) for model in answer.models]
    for grid in grids:
        expect_valid(4, grid)
    expect(len(set(grids)) == GRIDS_OF_SIDE_4, f"only {len(set(grids))} of the grids differ")
    expect(set(grids) == all_grids_of_side_4(), "the grids are not those of the search by hand")


def check_search_of_side_4():
    grids = all_grids_of_side_4()
    expect(len(grids) == GRIDS_OF_SIDE_4, f"{len(grids)} grids")
    for grid in grids:
        expect_valid(4, grid)
    expect(grids == fill(4, [0] * 16), "the two searches find different grids")


def check_all_with_givens(erased, at_least):
    """Side 9 with some digits erased everywhere: all fillings, found twice."""
    givens = [0 if digit in erased else digit for digit in full_grid_of_side_9()]
    facts = [9 * cell + digit for cell, digit in enumerate(givens) if digit]
    answer = clasp_all(with_facts(9, facts))
    expect(answer.status == ALL_FOUND, f"status {answer.status}: {answer.tail()}")
    grids = [decode(9, model) for model in answer.models]
    for grid in grids:
        expect_valid(9, grid)
    wanted = fill(9, givens)
    expect(len(wanted) >= at_least, f"the search by hand finds only {len(wanted)} grids")
    expect(len(grids) == len(wanted), f"{len(grids)} models, but {len(wanted)} grids")
    expect(set(grids) == wanted, "the grids are not those of the search by hand")


def check_unsatisfiable(solver, side, facts):
    answer = SOLVERS[solver](with_facts(side, facts))
    expect(answer.status == UNSATISFIABLE, f"status {answer.status}: {answer.tail()}")
    expect(answer.verdict() == "UNSATISFIABLE", f"{solver} says {answer.verdict()}")
    expect(not answer.models, f"{solver} gives a model")


def check_satisfiable_with(solver, side, facts):
    """The counterpart: facts that do not contradict each other are kept."""
    answer = SOLVERS[solver](with_facts(side, facts))
    expect(answer.status == SATISFIABLE, f"status {answer.status}: {answer.tail()}")
    expect(len(answer.models) == 1, f"{len(answer.models)} models")
    expect_valid(side, decode(side, answer.models[0]))
    expect(set(facts) <= set(answer.models[0]), "the model breaks a fact")


def check_heading_matters(solver, variables, clauses):
    """A heading that does not fit must not be accepted without a word."""
    text = with_heading(encode(4), variables, clauses)
    try:
        answer = SOLVERS[solver](text)
    except Exception as refusal:
        # A solver that is missing or hangs has not refused anything.
        expect("header" in str(refusal) or "heading" in str(refusal), str(refusal))
        return
    expect(answer.status not in (SATISFIABLE, UNSATISFIABLE), f"{solver} accepts it: {answer.verdict()}")


def contradictions(side):
    """Facts that contradict each other, by themselves or by a base clause."""
    last = side - 1
    corner = variable(side, 0, 0, 1)
    box = {4: 2, 9: 3}[side]
    return [
        ("a variable and its opposite", [corner, -corner]),
        ("a cell without a digit", [-variable(side, 0, 0, digit) for digit in range(1, side + 1)]),
        ("two digits in a cell", [variable(side, last, last, 1), variable(side, last, last, side)]),
        ("a digit twice in a row", [variable(side, last, 0, side), variable(side, last, last, side)]),
        ("a digit twice in a column", [variable(side, 0, last, 2), variable(side, last, last, 2)]),
        (
            "a digit twice in a box",
            [variable(side, 0, box, side), variable(side, 1, box + 1, side)],
        ),
    ]


def main():
    checks = Checks()

    checks.run("search by hand of side 4", check_search_of_side_4)
    for solver in SOLVERS:
        for side in SIDES:
            checks.run(f"{solver}, side {side}: satisfiable", check_satisfiable, solver, side)
            if solver in TOLD:
                checks.run(f"{solver}, side {side}: numbers", check_numbers, solver, side)
            checks.run(f"{solver}, side {side}: model is a valid grid", check_model, solver, side)

    checks.run("clasp, side 4: all models", check_all_of_side_4, clasp_all, ALL_FOUND)
    # Picosat ends with "unsatisfiable", since no model is left.
    checks.run("picosat, side 4: all models", check_all_of_side_4, picosat_all, UNSATISFIABLE)
    checks.run("clasp, side 9 with one solution", check_all_with_givens, {1}, 1)
    checks.run("clasp, side 9 with some solutions", check_all_with_givens, {1, 2, 3}, 2)
    checks.run("clasp, side 9 with many solutions", check_all_with_givens, {2, 4, 6, 8}, 10)

    # A solver that always says yes, or never reads the clauses, fails these.
    for solver in SOLVERS:
        for side in SIDES:
            for what, facts in contradictions(side):
                checks.run(
                    f"{solver}, side {side}: unsatisfiable with {what}",
                    check_unsatisfiable, solver, side, facts,
                )
            compatible = [variable(side, 0, 0, side), variable(side, 1, side - 1, side), -variable(side, 0, 1, 1)]
            checks.run(
                f"{solver}, side {side}: satisfiable with facts that agree",
                check_satisfiable_with, solver, side, compatible,
            )
    # Clasp does not hold the number of clauses against the heading.
    for solver in TOLD:
        for what, heading in [
            ("a clause less", (64, 399)),
            ("a clause more", (64, 401)),
            ("a variable less", (63, 400)),
        ]:
            checks.run(f"{solver} minds a heading with {what}", check_heading_matters, solver, *heading)

    return checks.finish()


if __name__ == "__main__":
    sys.exit(main())
