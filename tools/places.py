#!/usr/bin/env python3
"""Counts the places that today's forms of Rattle would change, point by point.

Usage: python3 tools/places.py [ROOT]    (ROOT is a checkout; the one this file is in, where none is given)

It goes by text, so it finds candidates: docs/DESIGN-PASS.md says of each that is left why it stays.
"""
import os, re, sys

ROOT = sys.argv[1] if len(sys.argv) > 1 else os.path.dirname(os.path.dirname(os.path.abspath(__file__)))
KEYWORDS = set("pub fn let mut for in if else match return while loop impl struct enum trait use mod const self Self as ref "
               "true false ghost requires ensures super crate type where u8 u16 u32 u64 usize bool".split())


def walk():
    for folder, folders, files in os.walk(os.path.join(ROOT, "crates")):
        folders[:] = sorted(name for name in folders if name not in ("out", "target"))
        yield folder, folders, sorted(files)


def sources():
    for folder, folders, files in walk():
        if os.sep + "src" in folder:
            for name in files:
                if name.endswith(".rt"):
                    path = os.path.join(folder, name)
                    yield os.path.relpath(path, ROOT), open(path).read().split("\n")


def grep(pattern, skip=None):
    found = []
    for path, lines in sources():
        for number, line in enumerate(lines, 1):
            code = line.split("//")[0]
            if re.search(pattern, code) and not (skip and re.search(skip, code)):
                found.append((path, number, line.strip()))
    return found


def functions():
    """Path, line, name, contract lines and body text of every function."""
    for path, lines in sources():
        at = 0
        while at < len(lines):
            head = re.match(r"\s*(?:pub(?:\(\w+\))? )?(?:const )?fn (\w+)", lines[at])
            if not head:
                at += 1
                continue
            start = at
            indent = len(lines[at]) - len(lines[at].lstrip())
            contract, body, inside = [], [], False
            if re.search(r";\s*$", lines[at]):
                yield path, start + 1, head.group(1), contract, ""
                at += 1
                continue
            while at < len(lines):
                line = lines[at]
                depth = len(line) - len(line.lstrip())
                if re.match(r"\s*(requires|ensures)\b", line):
                    contract.append(line.strip())
                elif inside:
                    body.append(line.strip())
                if not inside and line.rstrip().endswith("{") and not re.match(r"\s*(requires|ensures)\b", line):
                    inside = True
                if at > start and depth == indent and line.strip() in ("}", "{}"):
                    break
                if not inside and line.rstrip().endswith("};"):
                    break
                at += 1
            yield path, start + 1, head.group(1), contract, " ".join(body[:-1])
            at += 1


def twins():
    """Groups of functions whose bodies differ in names and numbers alone."""
    shapes = {}
    for path, line, name, _, body in functions():
        tokens = re.findall(r"[A-Za-z_]\w*|\d\w*|[^\s\w]", body)
        if len(tokens) < 12:
            continue
        names, shape = {}, []
        for token in tokens:
            if re.match(r"[A-Za-z_]", token) and token not in KEYWORDS:
                shape.append("n%d" % names.setdefault(token, len(names)))
            elif token[0].isdigit():
                shape.append("0")
            else:
                shape.append(token)
        shapes.setdefault(" ".join(shape), []).append((path, line, name))
    return [group for group in shapes.values() if len(group) > 1]


def repeated_terms():
    """Terms in parentheses, of 25 characters or more, that stand in the contracts of three or more functions."""
    where = {}
    for path, line, name, contract, _ in functions():
        seen = set()
        for clause in contract:
            clause = re.sub(r"\b(self|\w+)\.(old|new|now)\b", r"\1", clause)
            stack = []
            for at, char in enumerate(clause):
                if char == "(":
                    stack.append(at)
                elif char == ")" and stack:
                    term = clause[stack.pop():at + 1]
                    if len(term) >= 25:
                        seen.add(term)
        for term in seen:
            where.setdefault(term, []).append((path, line, name))
    return {term: places for term, places in where.items() if len(places) >= 3}


def companions():
    """Three or more parameters of the same names and types that three or more functions take."""
    sets = {}
    for path, lines in sources():
        text = "\n".join(lines)
        for head in re.finditer(r"fn (\w+)(?:<[^(]*>)?\(([^)]*)\)", text):
            parameters = [re.sub(r"\s+", " ", p).strip() for p in head.group(2).split(",")]
            parameters = [p for p in parameters if ":" in p]
            for a in range(len(parameters)):
                for b in range(a + 1, len(parameters)):
                    for c in range(b + 1, len(parameters)):
                        key = tuple(sorted((parameters[a], parameters[b], parameters[c])))
                        sets.setdefault(key, []).append((path, head.group(1)))
    return {key: places for key, places in sets.items() if len(places) >= 3}


def answers():
    count, rows = 0, 0
    for folder, folders, files in walk():
        if os.sep + "proofs" in folder:
            for name in files:
                if name.endswith(".antt"):
                    lines = open(os.path.join(folder, name)).read().split("\n")
                    rows += len(lines)
                    if name == "Answers.antt":
                        count += sum(1 for line in lines if re.match(r"pub \S+ : goal\.", line))
    return count, rows


def show(title, places):
    print("%s: %d" % (title, len(places)))
    for place in places:
        print("    " + " ".join("%s" % (part,) for part in place))


def main():
    print("1. shapes of Option and Result, flags with values, numbers")
    show("  arms that only pass on what came", grep(r"None => None|Err\((\w+)\) => Err\(\1|Ok\((\w+)\) => Ok\(\2\)|None => false"))
    show("  an Option of a refusal for a Result", grep(r"Option<\w*Refusal>"))
    show("  a result beside a value left in a parameter", grep(r"&mut Option<"))
    show("  refusals written out to their inner case", grep(r"Err\(\w+::Gate\(|Some\(\w+::Gate\("))
    show("  own enums", grep(r"^(pub(\(\w+\))? )?enum "))
    show("  numbers for refusals", grep(r"Result<[^>]*, u8>|fn number\("))
    print("2. twins")
    groups = twins()
    print("  groups: %d, functions: %d" % (len(groups), sum(len(g) for g in groups)))
    for group in groups:
        print("    " + "; ".join("%s:%d %s" % place for place in group))
    print("3. loops that count an index")
    show("  over a range of numbers", grep(r"\bfor \w+ in [^{]*\.\."))
    show("  while", grep(r"\bwhile "))
    show("  loops that only look for one item", [(p, l, n) for p, l, n, _, b in functions() if re.search(r"\bfor .*\{ if .*\{ return (true|false); \} \} (true|false)", b)])
    print("4. by hand: equality, conversion, printing")
    show("  fields compared one by one", grep(r"(\w+)\.(\w+) == (\w+)\.\2\b"))
    show("  Clone, PartialEq, Ord and Default by hand", grep(r"^impl.* (Clone|PartialEq|Eq|PartialOrd|Ord|Default|Hash) for "))
    show("  records of zeros", [(p, l, t) for p, l, t in grep(r"^(pub(\(\w+\))? )?const \w+: (Gate|Member)\b")])
    print("5. facts and parameters that travel together")
    terms = repeated_terms()
    print("  terms in three or more contracts: %d" % len(terms))
    for term, places in sorted(terms.items(), key=lambda item: -len(item[1])):
        print("    %d  %s" % (len(places), term))
    groups = companions()
    print("  three parameters together in three or more functions: %d" % len(groups))
    for key, places in sorted(groups.items(), key=lambda item: -len(item[1])):
        print("    %d  %s" % (len(places), "; ".join(key)))
    print("6. arrays with a length beside, parallel arrays")
    show("  arrays in structs", grep(r"^\s+(pub(\(\w+\))? )?\w+: \[\w+; \w+\],"))
    show("  slices up to a count", grep(r"\[(0)?\.\.(self\.)?\w*(count|lines|size)\b"))
    print("7. switches on a step, tables of functions")
    show("  parameters that say which step to run", grep(r"\b(role|level|call|step|mode): \w+"))
    show("  tables of functions", grep(r"\bfn\("))
    print("8. proofs")
    print("  answers: %d, lines of proofs: %d" % answers())


main()
