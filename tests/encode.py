#!/usr/bin/env python3
"""Tests `dulovamish encode` and `dulovamish help` from the outside.

Usage: encode.py

The program is the one that the environment variable DULOVAMISH names, or
else target/bin/dulovamish in the repository.
"""

import collections
import os
import subprocess
import sys
import tempfile
import time

sys.dont_write_bytecode = True
sys.path.insert(0, os.path.join(os.path.dirname(os.path.abspath(__file__)), "support"))
from checks import PATIENCE, PROGRAM, TESTS, Checks, brief, expect, run_program

SIDES = (4, 9)
STORED = {side: os.path.join(TESTS, "expected", f"side{side}.cnf") for side in SIDES}

# A million bytes is far beyond any buffer that a reader might fix in advance.
LONG = 1_000_000

# Draft texts that are good: name, text, side.
GOOD = [
    ("side 4", b"side 4\n", 4),
    ("side 9", b"side 9\n", 9),
    ("no final line feed, 4", b"side 4", 4),
    ("no final line feed, 9", b"side 9", 9),
    ("blank lines before and behind", b"\n\n  \n\t\nside 9\n\n \n\t\t\n", 9),
    ("last line of spaces without line feed", b"side 4\n   ", 4),
    ("spaces around the words", b"   side    4   \n", 4),
    ("tabs around the words", b"\tside\t\t9\t\n", 9),
    ("spaces and tabs mixed", b" \t side \t 4 \t \n", 4),
    ("tab only between the words", b"side\t4\n", 4),
    ("carriage return", b"side 4\r\n", 4),
    ("carriage return on every line", b"# a board\r\n\r\nside 9\r\n# done\r\n\r\n", 9),
    ("carriage return without line feed", b"side 9\r", 9),
    ("carriage return behind a space", b"side 4 \r\n", 4),
    ("carriage return behind a tab", b"side 9\t\r\n", 9),
    ("carriage return for a gap", b"side\r4\n", 4),
    ("carriage return before side", b"\n\rside 4\n", 4),
    ("carriage return before a comment", b"side 4\r# a board\n", 4),
    ("comment before", b"# a board\nside 4\n", 4),
    ("comment behind", b"side 9\n# the end\n", 9),
    ("comment behind without line feed", b"side 9\n# the end", 9),
    ("comment in the line", b"side 4 # a small board\n", 4),
    ("comment touching the number", b"side 4#a small board\n", 4),
    ("comment with carriage return", b"side 9 # a board\r\n", 9),
    ("comment in the line without line feed", b"side 4 # a small board", 4),
    ("comment without a word", b"#\nside 9 #\n#", 9),
    ("comment of many marks", b"#### # ##\nside 4 ## #\n", 4),
    ("comment with a side in it", b"# side 9\nside 4 # side 9\n#side 9\n", 4),
    ("comment with an unknown statement in it", b"#frobnicate 1\nside 9 #frobnicate\n", 9),
    ("comment behind spaces and tabs", b" \t # indented\n\tside 4\n", 4),
    ("comment with a carriage return inside", b"# one\rside 9\nside 4\n", 4),
    ("comment with UTF-8", "# gr\u00fcn \u2192 \u56db\nside 4\n".encode(), 4),
    ("comment with bytes that are no text", b"# \xff\xfe\x80\xc3\nside 9 # \xe9\n", 9),
    ("comment with a NUL byte", b"# a\x00b\nside 4 # \x00\n", 4),
    ("very long comment", b"#" + b"x" * LONG + b"\nside 4\n", 4),
    ("very long blank line", b" " * LONG + b"\nside 9\n", 9),
    ("very long gap in the line", b"side" + b" \t" * (LONG // 2) + b"4\n", 4),
    ("very long blank end", b"side 9" + b" " * LONG, 9),
    ("many lines", b"\n" * 70_000 + b"side 4\n" + b"# x\n" * 70_000, 4),
]

UNKNOWN = "unknown statement"
MISSING = "no `side`"
SECOND = "second `side`"
REFUSED = "is not 4 or 9"
COUNT = "one number"

# Draft texts with an error: name, text, line, parts of the message.
BAD = [
    # No statement at all. The line is the one on which the text ends.
    ("empty", b"", 1, [MISSING]),
    ("one line feed", b"\n", 2, [MISSING]),
    ("three line feeds", b"\n\n\n", 4, [MISSING]),
    ("only spaces", b"   ", 1, [MISSING]),
    ("only a carriage return", b"\r", 1, [MISSING]),
    ("only blank lines", b" \n\t\n\r\n", 4, [MISSING]),
    ("only a comment", b"# nothing\n", 2, [MISSING]),
    ("only a comment without line feed", b"# nothing", 1, [MISSING]),
    ("only comments", b"# one\n\n# two\n", 4, [MISSING]),
    ("only comments, no final line feed", b"# one\n\n# two", 3, [MISSING]),
    ("side in a comment", b"#side 4\n", 2, [MISSING]),
    ("carriage return is no line end", b"# one\rside 4\n", 2, [MISSING]),
    ("only many lines", b"#\n" * 70_000, 70_001, [MISSING]),
    # Statements that are not known.
    ("unknown statement", b"frobnicate\n", 1, [UNKNOWN, "frobnicate"]),
    ("unknown statement with words", b"frobnicate 4 9\n", 1, [UNKNOWN, "frobnicate"]),
    ("unknown statement without line feed", b"frobnicate", 1, [UNKNOWN, "frobnicate"]),
    ("unknown statement first, then side", b"frobnicate\nside 4\n", 1, [UNKNOWN, "frobnicate"]),
    ("unknown statement behind side", b"side 4\nfrobnicate 1\n", 2, [UNKNOWN, "frobnicate"]),
    ("unknown statement far down", b"# a\n\n \t\r\nside 9 # b\n\n# c\n  frobnicate\n", 7, [UNKNOWN, "frobnicate"]),
    ("unknown statement at the end, no line feed", b"side 9\n\nfrobnicate", 3, [UNKNOWN, "frobnicate"]),
    ("unknown statement after many lines", b"side 4\n" + b"\n" * 70_000 + b"frobnicate\n", 70_002, [UNKNOWN, "frobnicate"]),
    ("unknown statement and carriage returns", b"\r\nside 4\r\nfrobnicate\r\n", 3, [UNKNOWN, "frobnicate"]),
    ("two unknown statements", b"\nfrobnicate\nquux\n", 2, [UNKNOWN, "frobnicate"]),
    ("side with a capital", b"Side 4\n", 1, [UNKNOWN, "Side"]),
    ("side in capitals", b"SIDE 9\n", 1, [UNKNOWN, "SIDE"]),
    ("side with a letter more", b"sides 4\n", 1, [UNKNOWN, "sides"]),
    ("side with a letter less", b"sid 4\n", 1, [UNKNOWN, "sid"]),
    ("side without a gap", b"side4\n", 1, [UNKNOWN, "side4"]),
    ("side with an equals sign", b"side=4\n", 1, [UNKNOWN, "side=4"]),
    ("number first", b"4 side\n", 1, [UNKNOWN, "4"]),
    ("number alone", b"9\n", 1, [UNKNOWN, "9"]),
    # Only spaces and tabs separate words, and only a line feed ends a line.
    ("side and a NUL byte", b"side\x00 4\n", 1, [UNKNOWN, "side"]),
    ("NUL byte for a gap", b"side\x004\n", 1, [UNKNOWN, "side"]),
    ("NUL byte inside the word", b"\nfrob\x00nicate 4\n", 2, [UNKNOWN, "frob"]),
    ("NUL byte before side", b"\x00side 4\n", 1, [UNKNOWN]),
    ("NUL byte at the end", b"side 4\n\x00", 2, [UNKNOWN]),
    ("bytes that are no text inside the word", b"\n\nfrob\xff\xfenicate\n", 3, [UNKNOWN, "frob"]),
    ("UTF-8 inside the word", "frob\u00efnicate 4\n".encode(), 1, [UNKNOWN, "frob"]),
    ("byte order mark before side", b"\xef\xbb\xbfside 4\n", 1, [UNKNOWN]),
    ("no-break space for a gap", "side\u00a04\n".encode(), 1, [UNKNOWN, "side"]),
    ("form feed for a gap", b"side\x0c4\n", 1, [UNKNOWN, "side"]),
    ("vertical tab for a gap", b"side\x0b4\n", 1, [UNKNOWN, "side"]),
    ("line separator of Unicode is no line end", "# a\u2028# b\u0085# c\n# d\x0b\x0c\x1e\nfrobnicate\n".encode(), 3, [UNKNOWN, "frobnicate"]),
    ("very long unknown word", b"\n" + b"x" * LONG + b"\n", 2, [UNKNOWN, "xxxx"]),
    ("very long line, unknown word behind", b"side 4\n" + b" " * LONG + b"frobnicate", 2, [UNKNOWN, "frobnicate"]),
    # Sides that are refused.
    *(
        (f"side {word}", f"side {word}\n".encode(), 1, [REFUSED])
        for word in (
            "0 1 2 3 5 6 7 8 10 16 25 40 44 49 90 94 99 "
            "04 004 09 +4 +9 -4 -9 4.0 4. .4 4, 4; 4x x4 0x4 4e0 1e1 four nine "
            "99999999999999999999999 '4' \"9\" (4)"
        ).split()
    ),
    # Numbers that become 4 or 9 if they are cut to 8, 16, 32, 64 or 128 bits.
    *(
        (f"side {number}, which is {side} modulo 2 to the {bits}", f"side {number}\n".encode(), 1, [REFUSED])
        for bits in (8, 16, 32, 64, 128)
        for side in SIDES
        for number in [2**bits + side]
    ),
    ("side refused without line feed", b"side 5", 1, [REFUSED]),
    ("side refused further down", b"# a\n\n\tside\t6 # b\r\n", 3, [REFUSED]),
    ("number with a NUL byte", b"side 4\x00\n", 1, [REFUSED]),
    ("number with a byte that is no text", b"side 4\xff\n", 1, [REFUSED]),
    ("digit four of another script", "side \u0664\n".encode(), 1, [REFUSED]),
    ("wide digit four", "side \uff14\n".encode(), 1, [REFUSED]),
    ("number with a no-break space", "side 4\u00a0\n".encode(), 1, [REFUSED]),
    ("number with a form feed", b"side 4\x0c\n", 1, [REFUSED]),
    ("number with a vertical tab", b"side 9\x0b\n", 1, [REFUSED]),
    ("very long number", b"side 4" + b"0" * LONG + b"\n", 1, [REFUSED]),
    ("very long number of leading zeros", b"\nside " + b"0" * LONG + b"4\n", 2, [REFUSED]),
    ("side refused, then a good one", b"side 5\nside 4\n", 1, [REFUSED]),
    ("side refused, then an unknown statement", b"side 5\nfrobnicate\n", 1, [REFUSED]),
    # Not exactly one word behind `side`.
    ("side without a number", b"side\n", 1, [COUNT]),
    ("side without a number or line feed", b"side", 1, [COUNT]),
    ("side and blanks", b"\nside \t \r\n", 2, [COUNT]),
    ("side and a comment", b"side # 4\n", 1, [COUNT]),
    ("side touching a comment", b"side#4\n", 1, [COUNT]),
    ("number on the next line", b"side\n4\n", 1, [COUNT]),
    ("side 4 4", b"side 4 4\n", 1, [COUNT]),
    ("side 4 9", b"side\t4\t9\n", 1, [COUNT]),
    ("side 4 x", b"\n\nside 4 x\n", 3, [COUNT]),
    ("side 4 side 4", b"side 4 side 4\n", 1, [COUNT]),
    ("side 5 5", b"side 5 5\n", 1, [COUNT]),
    ("three numbers", b"side 4 4 4\n", 1, [COUNT]),
    ("very many numbers", b"side" + b" 4" * (LONG // 2) + b"\n", 1, [COUNT]),
    # A second side.
    ("side 4 twice", b"side 4\nside 4\n", 2, [SECOND]),
    ("side 9 twice", b"side 9\nside 9\n", 2, [SECOND]),
    ("side 4, then 9", b"side 4\nside 9", 2, [SECOND]),
    ("second side further down", b"# a\nside 9\n\n# b\n\tside 4 # c\r\n", 5, [SECOND]),
    ("three sides", b"side 4\n\nside 4\nside 4\n", 3, [SECOND]),
    ("second side, then an unknown statement", b"side 4\nside 4\nfrobnicate\n", 2, [SECOND]),
    ("unknown statement, then a second side", b"side 4\nfrobnicate\nside 4\n", 2, [UNKNOWN, "frobnicate"]),
    # Two errors in one line: which of them is told is free, the line is not.
    ("second side is refused", b"side 4\n\nside 5\n", 3, [(SECOND, REFUSED)]),
    ("second side without a number", b"side 4\n\nside\n", 3, [(SECOND, COUNT)]),
]


def stored(side):
    with open(STORED[side], "rb") as file:
        return file.read()


def expect_same(got, wanted, what):
    """Compares byte by byte and names the first line that differs."""
    if got == wanted:
        return
    pairs = zip(got.split(b"\n") + [None], wanted.split(b"\n") + [None])
    for number, (one, other) in enumerate(pairs, 1):
        expect(one == other, f"{what}: line {number} is {brief(one)}, not {brief(other)}")
    expect(False, f"{what}: differs")


def check_cnf(result, side):
    expect(result.returncode == 0, f"status {result.returncode}, {brief(result.stderr)}")
    expect(result.stderr == b"", f"standard error has {brief(result.stderr)}")
    expect_same(result.stdout, stored(side), "standard output")


def check_refusal(result):
    """What every failing run has in common. Answers the error text."""
    expect(result.returncode == 1, f"status {result.returncode}, not 1")
    expect(result.stdout == b"", f"standard output has {brief(result.stdout)}")
    expect(result.stderr != b"", "no message")
    return result.stderr


def check_error_line(result, start):
    """One line on standard error with this start. Answers the rest of it."""
    error = check_refusal(result)
    expect(error.endswith(b"\n"), f"no line feed behind {brief(error)}")
    expect(error.count(b"\n") == 1, f"more than one line: {brief(error)}")
    expect(error.startswith(start), f"{brief(error)} does not start with {brief(start)}")
    rest = error[len(start):].strip()
    expect(rest != b"", f"nothing behind {brief(start)}")
    return rest


def check_error(result, name, line, parts):
    message = check_error_line(result, b"dulovamish: %s: line %d: " % (name, line))
    for part in parts:
        choices = part if isinstance(part, tuple) else (part,)
        expect(
            any(choice.encode() in message for choice in choices),
            f"{brief(message)} does not contain {' or '.join(choices)}",
        )


def write(folder, name, text):
    path = os.path.join(os.fsencode(folder), name)
    os.makedirs(os.path.dirname(path), exist_ok=True)
    with open(path, "wb") as file:
        file.write(text)


# The three ways in: what to call it, and how to run a text through it. Each
# answers the result and the name that an error message must give.

def through_file(folder, text):
    write(folder, b"board.draft", text)
    # Standard input holds something else, which must not be read.
    return run_program(["encode", "board.draft"], b"frobnicate\n", folder), b"board.draft"


def through_dash(folder, text):
    return run_program(["encode", "-"], text, folder), b"standard input"


def through_input(folder, text):
    return run_program(["encode"], text, folder), b"standard input"


WAYS = [("FILE", through_file), ("-", through_dash), ("standard input", through_input)]


def check_good(way, folder, text, side):
    result, _ = way(folder, text)
    check_cnf(result, side)


def check_bad(way, folder, text, line, parts):
    result, name = way(folder, text)
    check_error(result, name, line, parts)


# The stored files, held against what the specification says of them.

def check_generator(side):
    generator = os.path.join(TESTS, "reference", "base.py")
    result = subprocess.run(
        [sys.executable, generator, str(side)], stdout=subprocess.PIPE, timeout=PATIENCE
    )
    expect(result.returncode == 0, f"status {result.returncode}")
    expect_same(result.stdout, stored(side), "base.py")


def check_stored(side, heading, first, last, twice):
    text = stored(side)
    expect(text.endswith(b"\n"), "the last line has no line feed")
    lines = text.decode("ascii").split("\n")[:-1]
    expect(lines[0] == heading, f"the heading is {lines[0]}")
    expect(lines[1] == first, f"the first clause is {lines[1]}")
    expect(lines[-1] == last, f"the last clause is {lines[-1]}")
    expect(heading == f"p cnf {side ** 3} {len(lines) - 1}", f"there are {len(lines) - 1} clauses")
    clauses = [[int(word) for word in line.split(" ")] for line in lines[1:]]
    for clause, line in zip(clauses, lines[1:]):
        expect(" ".join(map(str, clause)) == line, f"{line} is not in its plain form")
        expect(clause.index(0) == len(clause) - 1, f"{line} has its 0 not at the end alone")
    # The cells' clauses come first; together they name each variable once.
    cells, others = clauses[: side**2], clauses[side**2 :]
    named = [literal for clause in cells for literal in clause[:-1]]
    expect(named == list(range(1, side**3 + 1)), "the cells' clauses do not name each variable once")
    for clause in others:
        expect(
            len(clause) == 3 and 0 > clause[0] > clause[1] >= -(side**3),
            f"{clause} is not a pair of variables with rising number",
        )
    # Two cells that share a box and also a row or a column are parted twice.
    counts = collections.Counter(map(tuple, others))
    expect(max(counts.values()) == 2, "a clause is there more than twice")
    doubled = sum(count == 2 for count in counts.values())
    expect(doubled == twice, f"{doubled} clauses are there twice, not {twice}")


# Names of files, and where standard input comes in.

def check_named(folder, name, side):
    write(folder, name, b"side %d\n" % side)
    other = 13 - side
    check_cnf(run_program(["encode", name], b"side %d\n" % other, folder), side)


def check_named_error(folder, name):
    write(folder, name, b"\n# a\nfrobnicate\n")
    check_error(run_program(["encode", name], b"side 4\n", folder), name, 3, [UNKNOWN, "frobnicate"])


def check_absolute(folder):
    path = os.path.join(os.fsencode(folder), b"absolute.draft")
    write(folder, b"absolute.draft", b"side 9\n")
    check_cnf(run_program(["encode", path]), 9)


def check_absolute_error(folder):
    path = os.path.join(os.fsencode(folder), b"absolute.draft")
    write(folder, b"absolute.draft", b"side 9\nside 9\n")
    check_error(run_program(["encode", path]), path, 2, [SECOND])


def check_dash_is_input(folder):
    write(folder, b"-", b"side 9\n")
    check_cnf(run_program(["encode", "-"], b"side 4\n", folder), 4)


def check_in_pieces(arguments, pieces, side):
    """A text that arrives bit by bit, as from somebody who types it."""
    with subprocess.Popen(
        [PROGRAM, *arguments],
        stdin=subprocess.PIPE,
        stdout=subprocess.PIPE,
        stderr=subprocess.PIPE,
    ) as process:
        try:
            for piece in pieces:
                process.stdin.write(piece)
                process.stdin.flush()
                time.sleep(0.05)
            output, error = process.communicate(timeout=PATIENCE)
        finally:
            process.kill()
    check_cnf(subprocess.CompletedProcess(arguments, process.returncode, output, error), side)


def check_unreadable(folder, name):
    result = run_program(["encode", name], b"side 4\n", folder)
    check_error_line(result, b"dulovamish: %s: " % name)


def check_command_refused(folder, arguments):
    # The draft on standard input is good, so only the command is at fault.
    check_refusal(run_program(arguments, b"side 4\n", folder))


def check_help(folder):
    result = run_program(["help"], b"", folder)
    expect(result.returncode == 0, f"status {result.returncode}")
    expect(result.stdout.strip() != b"", "the help text is empty")
    expect(result.stdout.endswith(b"\n"), "no line feed behind the help text")
    expect(result.stderr == b"", f"standard error has {brief(result.stderr)}")


def check_help_names(folder, command):
    result = run_program(["help"], b"", folder)
    expect(command in result.stdout, f"the help text does not name {brief(command)}")


def main():
    checks = Checks()

    for side in SIDES:
        checks.run(f"base.py {side} yields the stored file", check_generator, side)
    checks.run(
        "stored file of side 4",
        check_stored, 4, "p cnf 64 400", "1 2 3 4 0", "-60 -64 0", 64,
    )
    checks.run(
        "stored file of side 9",
        check_stored, 9, "p cnf 729 11745", "1 2 3 4 5 6 7 8 9 0", "-720 -729 0", 1458,
    )

    with tempfile.TemporaryDirectory() as folder:
        for name, text, side in GOOD:
            for way, through in WAYS:
                checks.run(f"good from {way}: {name}", check_good, through, folder, text, side)
        for name, text, line, parts in BAD:
            for way, through in WAYS:
                checks.run(f"error from {way}: {name}", check_bad, through, folder, text, line, parts)

        names = [
            ("folder in the name", b"drafts/monday/board.draft"),
            ("dot in the name", b"./board.draft"),
            ("space in the name", b"my board.draft"),
            ("colon in the name", b"board: line 7: draft"),
            ("UTF-8 in the name", "br\u00fcckner.draft".encode()),
            ("name without an ending", b"board"),
            ("name of a command", b"help"),
            ("file called dash", b"./-"),
        ]
        for what, name in names:
            for side in SIDES:
                checks.run(f"{what}: side {side}", check_named, folder, name, side)
            checks.run(f"{what}: error names it", check_named_error, folder, name)
        checks.run("absolute name", check_absolute, folder)
        checks.run("absolute name: error names it", check_absolute_error, folder)
        checks.run("dash is standard input, not a file", check_dash_is_input, folder)

        for what, arguments in [("standard input", ["encode"]), ("-", ["encode", "-"])]:
            pieces = [b"# a bo", b"ard\nsi", b"de", b" ", b"4", b"\n", b"# end"]
            checks.run(f"text in pieces from {what}", check_in_pieces, arguments, pieces, 4)

        write(folder, b"plain.draft", b"side 4\n")
        os.mkdir(os.path.join(folder, "empty folder"))
        for what, name in [
            ("missing file", b"nowhere.draft"),
            ("missing folder", b"nowhere/board.draft"),
            ("folder for a file", b"empty folder"),
            ("file for a folder", b"plain.draft/board.draft"),
        ]:
            checks.run(f"cannot be read: {what}", check_unreadable, folder, name)

        for what, arguments in [
            ("none", []),
            ("empty word", [""]),
            ("unknown", ["frobnicate"]),
            ("unknown with a file", ["frobnicate", "plain.draft"]),
            ("capital", ["Encode"]),
            ("capitals", ["ENCODE", "-"]),
            ("a letter less", ["encod"]),
            ("a letter more", ["encodes"]),
            ("a space more", ["encode "]),
            ("only a file", ["plain.draft"]),
            ("only a dash", ["-"]),
            ("a statement", ["side", "4"]),
        ]:
            checks.run(f"command refused: {what}", check_command_refused, folder, arguments)

        checks.run("help", check_help, folder)
        checks.run("help names encode", check_help_names, folder, b"encode")

    return checks.finish()


if __name__ == "__main__":
    sys.exit(main())
