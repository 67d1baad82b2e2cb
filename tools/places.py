#!/usr/bin/env python3
"""Counts the places that an older way of writing left in the sources: places.py [--list] [--tests] [FOLDER]

FOLDER is a checkout (by default this one). Test functions and the crates of tests are left out unless --tests is given.
docs/DESIGN-PASS.md says what is counted under each number."""

import re
import sys
from collections import defaultdict
from pathlib import Path

TEST_CRATES = {"plain_tests", "engine_tests", "report_tests"}
LINES = {
    1: [r"Err\(AllocError\)", r"Err\(_\)", r"=> 0,", r"^\s*\w+\.len\(\)$", r"let mut lowest = .*\.len\(\)", r"length: usize\)", r"\b\w+: bool,", r"kind: u8", r"-> Option<Kind>"],
    3: [r"\bfor \w+ in .*\.\.", r"\bwhile ", r"\.enumerate\(\)", r"\b(place|count|i) \+= "],
    4: [r"impl(<.*>)? (\w+::)?(PartialEq|Eq|PartialOrd|Ord|Clone|Copy|Debug)\b.* for", r"impl(<.*>)? (From|TryFrom)\b.* for", r"\bEnd::\w+ => ", r"write!\(text, \"\\n\"\)", r"fn (number|numbered|word|digit|put_(digit|digits|short))[(<]"],
    6: [r"= \[0; ", r"\[\w+ [+-] 1\]", r": \[u\d+; \d+\]"],
    7: [r"match .*\bkind\b", r"\bbackward: bool", r"if \w+ == .*_first"],
}


def code_of(path, tests):
    text = path.read_text()
    if not tests:
        text = re.sub(r"#\[cfg\(test\)\]\s*mod \w+ \{.*\Z", "", text, flags=re.S)
    return text


def files(root, tests):
    for path in sorted(root.glob("crates/*/src/**/*.rt")):
        crate = path.relative_to(root / "crates").parts[0]
        if tests or (crate not in TEST_CRATES and path.name != "tests.rt"):
            yield crate, path, code_of(path, tests)


def closing(text, at):
    """Where the bracket that opens at `at` is closed."""
    pairs = {"(": ")", "{": "}"}
    opener, closer, depth = text[at], pairs[text[at]], 0
    for i in range(at, len(text)):
        depth += (text[i] == opener) - (text[i] == closer)
        if depth == 0:
            return i
    return len(text)


def functions(text):
    """Each function: its name, its parameters, its clauses and its body."""
    for found in re.finditer(r"\bfn (\w+)(<[^({]*>)?\(", text):
        opening = found.end() - 1
        end = closing(text, opening)
        params = text[opening + 1 : end]
        clauses, at = [], end + 1
        while at < len(text) and text[at] not in "{;":
            at += 1
        while at < len(text) and text[at] == "{":
            close = closing(text, at)
            kind = re.search(r"(requires|ensures)\*?( \w+)?\s*$", text[:at])
            if not kind:
                yield found, params, clauses, text[at : close + 1]
                break
            clauses.append((kind.group(1), " ".join(text[at + 1 : close].split())))
            at = close + 1
            while at < len(text) and text[at] not in "{;":
                at += 1
        else:
            yield found, params, clauses, ""


def shape(body):
    """The body with names, numbers and types replaced by the order in which they come."""
    seen = {}
    tokens = re.findall(r"[A-Za-z_]\w*|\d[\d_]*|\S", re.sub(r"//.*", "", body))
    keep = {"for", "in", "if", "else", "match", "let", "mut", "return", "while", "as", "Ok", "Err", "Some", "None"}
    return tuple(seen.setdefault(t, f"#{len(seen)}") if re.match(r"\w", t) and t not in keep else t for t in tokens)


def names(params):
    return {m.group(1) for m in re.finditer(r"(\w+): ", params)} - {"heap", "self", "text"}


def travelling(lists):
    """The parameters of a crate that stand together in three functions or more, and mostly where one of them stands."""
    where = defaultdict(lambda: defaultdict(set))
    for at, params in lists:
        for name in params:
            where[at.split("/")[0]][name].add(at)
    for crate, found in where.items():
        groups = []
        for name in sorted(found):
            for group in groups:
                if all(len(found[name] & found[n]) > 2 and 4 * len(found[name] & found[n]) >= 3 * min(len(found[name]), len(found[n])) for n in group):
                    group.append(name)
                    break
            else:
                groups.append([name])
        for group in groups:
            at = set.intersection(*(found[n] for n in group))
            if len(group) > 1 and len(at) > 2:
                yield f"{crate}: {', '.join(group)} in {len(at)}: " + ", ".join(sorted(a.split(": ")[1] for a in at))


def main():
    flags = [a for a in sys.argv[1:] if a.startswith("--")]
    rest = [a for a in sys.argv[1:] if not a.startswith("--")]
    root = Path(rest[0] if rest else Path(__file__).resolve().parent.parent)
    places = defaultdict(list)
    shapes, requires, lists = defaultdict(list), defaultdict(list), []
    for crate, path, text in files(root, "--tests" in flags):
        where = path.relative_to(root / "crates")
        for number, line in enumerate(text.split("\n"), 1):
            if line.lstrip().startswith(("//", "ghost use", "requires", "ensures")):
                continue
            for point, patterns in LINES.items():
                if any(re.search(p, line) for p in patterns):
                    places[point].append(f"{where}:{number}: {line.strip()}")
        for found, params, clauses, body in functions(text):
            at = f"{where}: {found.group(1)}"
            if body.count("\n") > 3:
                shapes[shape(body)].append(at)
            for kind, clause in clauses:
                if kind == "requires":
                    requires[crate, clause.replace(".old", ".now")].append(at)
            lists.append((at, names(params)))
        for found in re.finditer(r"^(?:pub(?:\(crate\))? )?struct (\w+)[^;{]*\{(.*?)\n\}", text, re.S | re.M):
            tables = re.findall(r"\w+: (?:Vec<|&'?\w* ?\[)", found.group(2))
            if len(tables) > 1:
                places[6].append(f"{where}: struct {found.group(1)} holds {len(tables)} tables")
    places[2] = [" = ".join(group) for group in shapes.values() if len(group) > 1]
    for (crate, clause), group in requires.items():
        if len(group) > 2:
            places[5].append(f"{crate}: requires {{ {clause} }} in {len(group)}: " + ", ".join(g.split(": ")[1] for g in group))
    places[5] += travelling(lists)
    proofs = [p for p in sorted(root.glob("crates/*/proofs/**/*.antt")) if "out" not in p.parts]
    lines = sum(len(p.read_text().split("\n")) - 1 for p in proofs)
    for point in range(1, 8):
        print(f"{point}: {len(places[point])}")
        if "--list" in flags:
            for place in places[point]:
                print("   ", place)
    print(f"8: {len(proofs)} proof files, {lines} lines")


main()
