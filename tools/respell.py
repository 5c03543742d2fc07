#!/usr/bin/env python3
"""Respells the repository's own definitions, fields and lemmas from words joined by dashes to today's spelling.

usage: python3 tools/respell.py [FOLDER]     (FOLDER: the repository, default '.'; run once, after port.py)

    meets-rules  -> meets_rules      a function, a field or a lemma: snake case
    Meets-rules  -> MeetsRules       a type or a fact: upper camel case

A name that falls together with another name of the repository gets '_lem' behind it, and is printed. Names that Rattle makes of the
code (goals, steps, arms, loops) and names that a file takes from a library keep their spelling.
"""
import collections
import os
import re
import sys

ROOT = sys.argv[1] if len(sys.argv) > 1 else "."
DEFINITION = re.compile(r"^\s*(?:abbrev\s+|unfoldable\s+)?(?:pub\s+)?(?:record\s+|data\s+)?([A-Za-z][^\s:(){}.,;]*)\s*(?:[({].*)?:\s")
FIELD = re.compile(r"^\s+pub\s+([A-Za-z][^\s:(){}.,;]*)\s*:\s")
OF_A_GOAL = re.compile(r":\s*(goal|given|rules)\.")
FUNCTION = re.compile(r"^\s*(?:pub(?:\(crate\))?\s+)?fn\s+(\w+)")
LIBRARY = re.compile(r"^\s*(?:ghost\s+|pub\s+)*use\s+(?!Rattle\.(?:gates|stores|search|workspace|tests_walk)\.)[^{]*\{([^}]*)\}")
TOKEN = re.compile(r"[^\s(){}.,;:\[\]|`]+")
COMMENT = re.compile(r"\s*(?:--|//)")
CHAIN = re.compile(r"[\w'·-]+(?:\.[\w'·-]+)*\.$")
OF_THE_CODE = {"c", "l", "w", "g"}


def texts():
    for folder, dirs, files in os.walk(os.path.join(ROOT, "crates")):
        dirs[:] = sorted(d for d in dirs if d != "out")
        for name in sorted(files):
            if name.endswith((".antt", ".rt")):
                yield os.path.join(folder, name)


def pages():
    yield os.path.join(ROOT, "README.md")
    for name in sorted(os.listdir(os.path.join(ROOT, "docs"))):
        if name.endswith(".md"):
            yield os.path.join(ROOT, "docs", name)


def read(path):
    with open(path, encoding="utf-8") as it:
        return it.read()


def respelled(name):
    if name[0].isupper():
        return "".join(word[:1].upper() + word[1:] for word in name.split("-"))
    return name.replace("-", "_")


def survey():
    """The names to respell, which of them are fields, and every other name of the repository's own."""
    dashed, fields, others = set(), set(), set()
    for path in texts():
        for line in read(path).split("\n"):
            if path.endswith(".rt"):
                found = FUNCTION.match(line)
                if found:
                    others.add(found[1])
                continue
            if line.lstrip().startswith("--"):
                continue
            found = DEFINITION.match(line)
            if not found or OF_A_GOAL.search(line):
                continue
            (dashed if "-" in found[1] else others).add(found[1])
            if FIELD.match(line) and "-" in found[1]:
                fields.add(found[1])
    return dashed, fields, others


def table(dashed, others):
    new, taken = {}, set(others)
    for name in sorted(dashed):
        to = respelled(name)
        if to in taken:
            print(f"falls together: {name} -> {to}_lem")
            to += "_lem"
        taken.add(to)
        new[name] = to
    return new


def turn_line(line, new, fields, kept, of_function):
    def word(found):
        name = found[0]
        if name not in new or name in kept:
            return name
        chain = CHAIN.search(line[: found.start()])
        root = chain[0].split(".")[0] if chain else ""
        if of_function and root in OF_THE_CODE and name not in fields:
            return name
        return new[name]

    return TOKEN.sub(word, line)


def turn(path, new, fields):
    text = read(path)
    lines = text.split("\n")
    kept = {word.split(" as ")[0].strip() for line in lines for found in [LIBRARY.match(line)] if found for word in found[1].split(",")}
    of_function = os.path.basename(path) in ("Answers.antt", "Invariants.antt", "Choices.antt", "Proof.antt")
    turned = lambda line: turn_line(line, new, fields, kept, of_function)
    if path.endswith(".md"):
        after = re.sub(r"`[^`\n]*`", lambda found: turned(found[0]), text)
    else:
        after = "\n".join(line if COMMENT.match(line) else turned(line) for line in lines)
    if after != text:
        with open(path, "w", encoding="utf-8") as it:
            it.write(after)
    return after != text


def main():
    dashed, fields, others = survey()
    new = table(dashed, others)
    changed = sum(turn(path, new, fields) for path in [*texts(), *pages()])
    print(f"{len(new)} names respelled in {changed} files")


if __name__ == "__main__":
    main()
