#!/usr/bin/env python3
"""Respells this repository's own definitions and lemmas: words in snake case, types and facts in upper camel case.

usage: python3 tools/respell.py [--list]      at the top of the repository, once, after port.py

Own names are those that specs/ and proofs/ define: definitions, lemmas, fields of records and constructors. A goal's name in a
proof of a function is Rattle's and stays, and so do strings, and prose in comments. --list prints the names and writes nothing.
"""

import collections
import os
import re
import sys

WORD = r"[^\s(){}\[\];,.«»`:\"]+"
TOKEN = re.compile(r"[A-Za-z_][A-Za-z0-9_'\-]*[A-Za-z0-9_']|[A-Za-z_]")
DEFINED = re.compile(r"^\s*((?:(?:abbrev|opaque|unfoldable|pub|instance)\s+)*)((?:record|data)\s+)?(" + WORD + r")\s*((?:[({].*?[)}]\s*)*):\s")
FIELD = re.compile(r"^ +(?:pub\s+)?(" + WORD + r")\s*:\s")
# what Rattle names in the proof of a function
MADE = re.compile(r"^(returns|ensures|loop|invariant|decreases|overflow|bounds|ghost|then|else|in|if|measure)-|-(requires|preserved|init)$")
# names that would fall together with another, and what they get instead
OTHERS = {"usage-days": "usage_days_of", "first-day": "first_day_of", "takes-part": "portion_takes_part"}


def files(end):
    for folder, dirs, names in os.walk("crates"):
        dirs[:] = sorted(d for d in dirs if d not in ("out", "data", "target"))
        for f in sorted(names):
            if f.endswith(end):
                yield os.path.join(folder, f)


def read(path):
    with open(path, encoding="utf-8") as f:
        return f.read()


def own_names():
    found = collections.defaultdict(set)
    for path in files(".antt"):
        by_function = os.path.basename(path) in ("Answers.antt", "Invariants.antt", "Choices.antt", "Proof.antt")
        for line in read(path).split("\n"):
            if line.lstrip().startswith("--"):
                continue
            if line.startswith("use "):
                for name in re.findall(r" as ([^\s,}]+)", line):
                    found[name].add(path)
            m = DEFINED.match(line)
            if m and m[3] not in ("use", "mod"):
                if not (by_function and MADE.search(m[3])):
                    found[m[3]].add(path)
                continue
            m = FIELD.match(line)
            if m and not by_function:
                found[m[1]].add(path)
    return found


def respelled(name):
    if name in OTHERS:
        return OTHERS[name]
    parts = name.split("-")
    if name[0].isupper():
        return "".join(p[:1].upper() + p[1:] for p in parts)
    return "_".join(parts)


def swap(text, names):
    return TOKEN.sub(lambda m: names.get(m[0], m[0]), text)


def comment(text, names):
    """In a header's list all names before the gap, in prose those that are no English."""
    m = re.match(r"(--|//)(\s{3}\S.*?)(\s{2,}.*)$", text)
    if m:
        return m[1] + swap(m[2], names) + comment_prose(m[3], names)
    return comment_prose(text, names)


def comment_prose(text, names):
    return TOKEN.sub(lambda m: m[0] if m[0] in ENGLISH else names.get(m[0], m[0]), text)


# names that are plain English in the prose of comments
ENGLISH = {"put-off", "load-factor", "year-back", "whole-days", "last-reading", "short-initial"}


def antt(text, names):
    out = []
    for line in text.split("\n"):
        at = re.search(r"(^|\s)--(\s|$)", line)
        if at:
            i = at.start() + len(at[1])
            out.append(swap(line[:i], names) + comment(line[i:], names))
        else:
            out.append(swap(line, names))
    return "\n".join(out)


def rt(text, names):
    out = []
    for line in text.split("\n"):
        parts, i, start = [], 0, 0
        while i < len(line):
            if line.startswith("//", i):
                parts.append(swap(line[start:i], names))
                parts.append(comment(line[i:], names))
                start = i = len(line)
                break
            if line[i] == '"':
                parts.append(swap(line[start:i], names))
                j = i + 1
                while j < len(line) and line[j] != '"':
                    j += 2 if line[j] == "\\" else 1
                parts.append(line[i : j + 1])
                start = i = j + 1
                continue
            i += 1
        parts.append(swap(line[start:], names))
        out.append("".join(parts))
    return "\n".join(out)


def main(argv):
    found = own_names()
    names = {n: respelled(n) for n in found if "-" in n and respelled(n) != n}
    together = collections.defaultdict(set)
    for n in found:
        together[names.get(n, n)].add(n)
    if "--list" in argv:
        tokens = set()
        for path in list(files(".antt")) + list(files(".rt")):
            tokens |= set(TOKEN.findall(read(path)))
        for n in sorted(names):
            print(n, names[n], "TOGETHER " + " ".join(sorted(together[names[n]] - {n})) if len(together[names[n]]) > 1 else "", "STANDS" if names[n] in tokens else "")
        for path in list(files(".antt")) + list(files(".rt")):
            for line in read(path).split("\n"):
                m = re.search(r"(--|//)\s.*$", line)
                if m:
                    for t in TOKEN.findall(m[0]):
                        if t in names:
                            print("comment:", t, "|", m[0][:140])
        return 0
    for path in files(".antt"):
        text = read(path)
        new = antt(text, names)
        if new != text:
            with open(path, "w", encoding="utf-8") as f:
                f.write(new)
    for path in list(files(".rt")) + list(files(".edit")):
        text = read(path)
        new = rt(text, names)
        if new != text:
            with open(path, "w", encoding="utf-8") as f:
                f.write(new)
    return 0


if __name__ == "__main__":
    sys.exit(main(sys.argv[1:]))
