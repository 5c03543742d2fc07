#!/usr/bin/env python3
"""Keeps 'each element of a list' as this repository's definitions state it, by recursion over the list.

usage: python3 tools/by_recursion.py [FOLDER]     (FOLDER: the repository, default '.'; run once, after port.py)

The library's All went by recursion and goes by index today; its AllByRecursion says what All said. So All becomes AllByRecursion, and the
lemmas on it come from the module of that form.
"""
import re

from respell import texts

IMPORT = re.compile(r"^(?P<lead>(?:ghost )?use )(?P<home>Rattle\.std\.(?:specs\.Prelude|proofs\.Common))\.\{(?P<names>[^}]*)\}(?P<end>;?)$", re.M)
DECIDES = re.compile(r"^use Rattle\.std\.proofs\.lemmas\.Bool\.Decides\.\{(?P<names>[^}]*)\}$", re.M)
ELEMENTS = "Rattle.std.proofs.lemmas.List.Elements."
ALL = re.compile(r"(?<![\w.'-])All(?![\w'-])")
COMMENT = re.compile(r"\s*(?:--|//)")
BY_RECURSION = "Rattle.std.proofs.ByRecursion."


def split(names, moved):
    words = [word.strip() for word in names.split(",")]
    return [word for word in words if word not in moved], [word for word in words if word in moved]


def turned(text):
    def without_all(found):
        rest, all_of = split(found["names"], {"All"})
        if not all_of:
            return found[0]
        line = f"{found['lead']}Rattle.std.specs.List.{{AllByRecursion}}{found['end']}"
        return line if not rest else f"{found['lead']}{found['home']}.{{{', '.join(rest)}}}{found['end']}\n{line}"

    def without_lists(found):
        rest, moved = split(found["names"], {"Decides-by_and"})
        lines = [f"use Rattle.std.proofs.lemmas.Bool.Decides.{{{', '.join(rest)}}}"] if rest else []
        return "\n".join(lines + ([f"use {BY_RECURSION}{{{', '.join(moved)}}}"] if moved else []))

    text = DECIDES.sub(without_lists, IMPORT.sub(without_all, text)).replace(ELEMENTS, BY_RECURSION)
    return "\n".join(line if COMMENT.match(line) else ALL.sub("AllByRecursion", line) for line in text.split("\n"))


def main():
    changed = 0
    for path in texts():
        with open(path, encoding="utf-8") as it:
            text = it.read()
        after = turned(text) if ALL.search(text) or ELEMENTS in text or "Decides-by_and" in text else text
        if after != text:
            changed += 1
            with open(path, "w", encoding="utf-8") as it:
                it.write(after)
    print(f"{changed} files")


main()
