#!/usr/bin/env python3
"""Respells the repository's own definitions and lemmas in snake case.

usage: python3 tools/respell.py      at the top of the repository, once, after the toolchain's own port script

Words of specs/ and proofs/ were written `with-bit` or `readyFault`; they are written `with_bit` and `ready_fault` now,
and types `SpeaksOf`. Names of goals, which the toolchain makes, of the toolchain's library and of Rust code stay. The word
`All` for a list's property by recursion, which is the library's for one by index now, is written `Each`.
"""
import collections
import os
import re
import sys

PIECE = r"[A-Za-z][A-Za-z0-9_']*(?:-[A-Za-z0-9_']+)*"
NAME = re.compile(r"(?<![A-Za-z0-9_'\"-])" + PIECE + r"(?![A-Za-z0-9_'-])")
DEFINED = re.compile(
    r"^\s*(?:let\s+)?(?:(?:abbrev|unfoldable|irreducible|opaque|pub|data|record|theorem|lemma)\s+)*(" + PIECE + r")\s*(?:\(|\{|:)")
TYPE = re.compile(r"\s*(?:pub\s+)?(?:record|data)\s|.*(?:→|:) Type 0\s*$")
BY_RECURSION = "AllByRecursion as All"
ALL = re.compile(r"(?<![A-Za-z0-9_'.-])All(?![A-Za-z0-9_'-])")
# A record's fields of our own, and a word that is reached by its module's name.
DOTTED = {"fresh-count", "digit-of"}


def files(root):
    for folder, folders, names in os.walk(os.path.join(root, "crates")):
        folders[:] = sorted(f for f in folders if f not in ("out", "data"))
        for name in sorted(names):
            if name.endswith((".rt", ".antt")):
                yield os.path.join(folder, name)


def read(path):
    with open(path, encoding="utf-8") as file:
        return file.read()


def is_answer(path):
    """Whether the file answers goals, which the toolchain names."""
    return "/proofs/" in path and path.endswith(("/Answers.antt", "/Invariants.antt", "/Choices.antt"))


def is_odd(name):
    """Whether the name has a hyphen, or a capital behind a small letter at the start."""
    return "-" in name or (name[0].islower() and re.search("[A-Z]", name) is not None)


def respelled(name, types):
    if name[0].isupper() and name in types:
        return "".join(part[0].upper() + part[1:] for part in name.split("-"))
    words = name.replace("-", "_")
    words = re.sub(r"(?<=[a-z0-9])([A-Z])", lambda m: "_" + m.group(1), words)
    return words.lower()


def imported(text):
    """The names that a file takes from the toolchain: of its library, and of the goals that it makes."""
    for module, names in re.findall(r"^(?:ghost )?use ([\w.]+)\.\{([^}]*)\}", text, re.M):
        if not module.startswith("Rattle.") or module.startswith("Rattle.std.") or module.endswith((".Goals", ".Given")):
            yield from re.split(r"[,\s]+", re.sub(r" as \S+", "", names))


def collect(root):
    """The odd names that the repository made, and which of them are types."""
    used, others, types = set(), set(), set()
    for path in files(root):
        if not path.endswith(".antt"):
            continue
        text = read(path)
        others.update(imported(text))
        for line in text.split("\n"):
            code = line.partition("--")[0]
            used.update(NAME.findall(re.sub(r"\." + PIECE, "", code)))
            found = DEFINED.match(code)
            if found and is_answer(path) and not line.startswith((" ", "\t")):
                others.add(found.group(1))
            elif found and TYPE.match(code):
                types.add(found.group(1))
    return {name for name in used | DOTTED if is_odd(name)} - others, types


def main():
    root = "."
    own, types = collect(root)
    new = {name: respelled(name, types) for name in own}
    taken = collections.defaultdict(set)
    for path in files(root):
        if path.endswith(".antt"):
            for word in NAME.findall(read(path)):
                taken[word].add(path)
    for old, to in sorted(new.items()):
        if to in taken or list(new.values()).count(to) > 1:
            print(f"look: {old} becomes {to}, which is a name already, in {sorted(taken[to])[:2]}")

    def turn(match):
        word = match.group(0)
        if word not in new:
            return word
        before = match.string[: match.start()]
        if before.endswith(".") and word not in DOTTED and not is_from_own(before):
            return word
        return new[word]

    def is_from_own(before):
        # `goal.x` and `c.x.y` are the toolchain's; a word behind the name of a file of specs/ or proofs/ is ours.
        last = re.search(r"([A-Za-z_][\w']*)\.$", before)
        return last is not None and last.group(1)[0].isupper()

    changed = 0
    for path in files(root):
        text = read(path)
        by_recursion = BY_RECURSION in text
        result = []
        for line in text.split("\n"):
            in_rust = path.endswith(".rt")
            if in_rust and not re.search(r"ghost|requires|ensures|tactic", line):
                result.append(line)
                continue
            code, mark, comment = line.partition(" -- ") if not in_rust else (line, "", "")
            if code.lstrip().startswith("--"):
                result.append(line)
                continue
            code = NAME.sub(turn, code)
            if by_recursion:
                code = ALL.sub("Each", code)
            result.append(code + mark + comment)
        fresh = "\n".join(result)
        if fresh != text:
            changed += 1
            with open(path, "w", encoding="utf-8") as file:
                file.write(fresh)
    print(f"{len(new)} names, {changed} files")


if __name__ == "__main__":
    sys.exit(main())
