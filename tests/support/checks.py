"""What the test runners share: counting checks, and running a program."""

import os
import subprocess

TESTS = os.path.dirname(os.path.dirname(os.path.abspath(__file__)))
ROOT = os.path.dirname(TESTS)

# The programs under test. A relative path counts from the repository root.
PROGRAM = os.path.join(ROOT, os.environ.get("DULOVAMISH") or "target/bin/dulovamish")
SUMS = os.path.join(ROOT, os.environ.get("SUMS") or "target/bin/sums")
PART = os.path.join(ROOT, os.environ.get("PART") or "target/bin/part")

# Nothing here needs more than a moment, so a command that takes longer hangs.
PATIENCE = 60


class Failed(Exception):
    """A check did not hold. The message says why."""


def expect(condition, why):
    # Not `assert`, which Python drops when it is told to optimise.
    if not condition:
        raise Failed(why)


def brief(data):
    """Bytes or text for a message: on one line and not too long."""
    shown = repr(data)
    return shown if len(shown) <= 200 else f"{shown[:150]} ... ({len(data)} in all)"


class Checks:
    """Runs checks one by one, prints a line for each and counts them."""

    def __init__(self):
        self.passed = 0
        self.failed = 0
        self.names = set()

    def run(self, name, function, *arguments):
        """One check. It fails if the function raises anything at all."""
        why = None
        try:
            expect(name not in self.names, "two checks have this name")
            self.names.add(name)
            function(*arguments)
        except Failed as failure:
            why = str(failure)
        except Exception as failure:
            why = f"{type(failure).__name__}: {failure}"
        if why is None:
            self.passed += 1
            print(f"ok {name}", flush=True)
        else:
            self.failed += 1
            print(f"FAILED {name}: {' '.join(why.split())}", flush=True)

    def finish(self):
        """Prints the counts and answers the exit status."""
        print(f"{self.passed} passed, {self.failed} failed", flush=True)
        # A run without any check has shown nothing, so it does not pass.
        return 0 if self.passed and not self.failed else 1


def run_program(arguments, text=b"", folder=None, program=PROGRAM):
    """Runs a program with the text as its standard input."""
    return subprocess.run(
        [program, *arguments],
        input=text,
        stdout=subprocess.PIPE,
        stderr=subprocess.PIPE,
        cwd=folder,
        timeout=PATIENCE,
    )
