#!/usr/bin/env python3
"""Counts the places in src/ that an older form of the language may have left, by point of docs/DESIGN-PASS.md.

usage: python3 tools/places.py [FOLDER] [--list] [--against OLDER]

FOLDER is a checkout, here by default; --list names each place. With --against, OLDER is an older checkout, and each count is told as: then,
of which changed and still there, and now, of which new. A place is still there where its line, or what is told of it, reads the same.
Tests are left out, and proofs but for the last lines.
"""
import argparse
import collections
import os
import re

TEXTS = [
    ("1  options, results, flags and numbers", [
        ("answers that refuse by a number: `-> Result<.., u8>`", r"-> Result<.*, u8>"),
        ("fields and parameters that hold a kind, mark, rung or answer as a number",
         r"\b(?:kind|mark|rung|number|initial|takes_part): u(?:8|16|32)\b"),
        ("arms of a match that turn an option or a result into another",
         r"^\s*(?:Some\((?:\w+|_)\)|Ok\((?:\w+|\(\))\)|Err\([\w:]+\)|None) => (?:\w+\()?(?:Some\(|Ok\(|Err\(|None|unreachable)"),
        ("`let Ok(..) = .. else` that cannot fail", r"let (?:Ok|Some)\([^;]*?else \{\s*unreachable"),
        ("`let Some(..) = .. else` that returns an error", r"let Some\([^;]*?else \{\s*return Err"),
        ("arms of a match that answer true", r"=> true,"),
    ]),
    ("2  twins", []),
    ("3  loops", [
        ("`for` over a range of indices", r"for \w+ in .*\.\."),
        ("`while`", r"^\s*while "),
        ("`enumerate`", r"\.enumerate\(\)"),
        ("sums and counts kept by a loop", r"^\s+[\w.*]+ \+= "),
    ]),
    ("4  conversions, comparisons and printing by hand", [
        ("`impl Display`, `impl From`, `impl PartialEq` and the like",
         r"^impl.* (?:fmt::Display|Display|Error|PartialEq|PartialOrd|Ord|Clone|Copy|Debug|Default|(?:Try)?From<.*>) for "),
        ("functions that convert under a name of their own",
         r"fn (?:number|of_\w+|mark_of|mark_number|meant|name|letter_of|correction)\("),
        ("text pushed from `format!`", r"push_str\(format!"),
        ("numbers made wider or narrower by `as`", r"\bas [iu](?:8|16|32|64)\b"),
    ]),
    ("5  facts and parameters that travel together", []),
    ("6  buffers, arrays and searches", [
        ("a buffer with a place beside it", r"buffer: &mut \[u8\],\s*at: usize"),
        ("an element at a counted index", r"\[(?:i|place|count - 1|\w+\.len\(\) - 1)\]"),
    ]),
    ("7  switches on a step", [
        ("an enum of steps, or a table of functions", r"enum Subject|: \[fn\(|: \[&dyn"),
    ]),
]

SIGNATURE = r"^[ \t]*(?:pub(?:\(crate\))? )?(?:const )?fn (\w+)(?:<(?:->|[^>]|>(?=[,:>]))*>)?\((.*?)\)(?: ->|\s*$|\s*\n)"
NAME = r"^(?:pub(?:\(crate\))? )?(?:const |enum |struct |trait )(?!fn)(\w+)|^(?:pub(?:\(crate\))? )?fn (\w+)"


def sources(folder):
    for root, folders, names in os.walk(os.path.join(folder, "crates")):
        folders[:] = sorted(f for f in folders if f not in ("out", "must-fail", "data"))
        for name in sorted(names):
            path = os.path.join(root, name)
            if name.endswith(".rt") and "/src/" in path and name != "tests.rt":
                text = re.split(r"^#\[cfg\(test\)\]", open(path).read(), flags=re.M)[0]
                yield os.path.relpath(path, folder), text


def crate(path):
    return path.split("/")[1]


# Each place with what is told of it: by that it is found again in another checkout.
def lines_with(files, pattern):
    for path, text in files:
        for m in re.finditer(pattern, text, re.M):
            line = text.count("\n", 0, m.start()) + 1
            told = text.splitlines()[line - 1].strip()
            yield told, f"{path}:{line}: {told}"


def shared_names(files):
    crates = collections.defaultdict(set)
    for path, text in files:
        for m in re.finditer(NAME, text, re.M):
            crates[m.group(1) or m.group(2)].add(crate(path))
    for name, where in sorted(crates.items()):
        if len(where) > 1 and name != "main":
            yield name, f"{name}: {' '.join(sorted(where))}"


def functions(files):
    for path, text in files:
        for m in re.finditer(SIGNATURE, text, re.M | re.S):
            yield path, m.group(1), m.group(2), re.split(r"\n *\{\n|\{\n|;\n", text[m.end():])[0]


def together(files, of_function):
    names = collections.defaultdict(list)
    for path, name, parameters, clauses in functions(files):
        for told in of_function(parameters, clauses):
            names[f"{crate(path)}: {told}"].append(name)
    for told, where in sorted(names.items()):
        if len(where) > 2:
            yield told, f"{told}: {' '.join(where)}"


def required(_, clauses):
    return {m.group(1) for m in re.finditer(r"requires (?:\w+ )?\{ (.*?) \}$", clauses, re.M)}


def bounds(_, clauses):
    return set(re.findall(r"[≤<] (\d+(?: \^ \d+)?)\b", clauses))


def pairs(parameters, _):
    told = sorted(set(re.findall(r"(\w+): ([^,\n]+)", parameters)))
    return {f"{a[0]}, {b[0]}" for i, a in enumerate(told) for b in told[i + 1:]}


def proofs(folder):
    answers = lemmas = 0
    for root, folders, found in os.walk(os.path.join(folder, "crates")):
        folders[:] = [f for f in folders if f != "out"]
        for name in found:
            path = os.path.join(root, name)
            if "/proofs/" in path and name.endswith(".antt"):
                text = open(path).read()
                if name == "Answers.antt":
                    answers += len(re.findall(r"^pub .* : goal\.", text, re.M))
                elif name not in ("Invariants.antt", "Lib.antt"):
                    lemmas += len(re.findall(r"^ *(?:pub )?[\w′'-]+ : ", text, re.M))
    return answers, lemmas


def points(folder):
    files = list(sources(folder))
    for point, kinds in TEXTS:
        found = [(kind, list(lines_with(files, pattern))) for kind, pattern in kinds]
        if point.startswith("2"):
            found.append(("names of functions, types and constants that two or more crates define", list(shared_names(files))))
        if point.startswith("5"):
            found.append(("facts required by three or more functions of a crate", list(together(files, required))))
            found.append(("bounds that clauses of three or more functions of a crate tell", list(together(files, bounds))))
            found.append(("pairs of parameters of three or more functions of a crate", list(together(files, pairs))))
        yield point, found


def main():
    parser = argparse.ArgumentParser()
    parser.add_argument("folder", nargs="?", default=".")
    parser.add_argument("--list", action="store_true")
    parser.add_argument("--against")
    asked = parser.parse_args()
    then = dict(points(asked.against)) if asked.against else {}
    for point, found in points(asked.folder):
        print(point)
        sums = collections.Counter()
        for kind, places in found:
            if not asked.against:
                print(f"{len(places):4}  {kind}")
                marks = [""] * len(places)
            else:
                before = collections.Counter(told for told, _ in dict(then[point])[kind])
                now = collections.Counter(told for told, _ in places)
                still = sum((before & now).values())
                row = (before.total(), before.total() - still, still, now.total(), now.total() - still)
                sums.update(dict(enumerate(row)))
                print("{:4} then: {:3} changed, {:3} still there; {:4} now: {:3} new  {}".format(*row, kind))
                marks = ["" if before[told] else "new  " for told, _ in places]
            if asked.list:
                for mark, (_, place) in zip(marks, places):
                    print(f"        {mark}{place}")
        if asked.against and len(found) > 1:
            print("{:4} then: {:3} changed, {:3} still there; {:4} now: {:3} new  in all".format(*(sums[i] for i in range(5))))
    print("8  proofs")
    answers, lemmas = proofs(asked.folder)
    print(f"{answers:4}  answers\n{lemmas:4}  lemmas and the like in proofs/")


main()
