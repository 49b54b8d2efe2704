#!/usr/bin/env python3
# SPDX-License-Identifier: MIT OR Apache-2.0
"""Brings this repository's own names to the spelling of today's Rattle: words in snake case, types in camel case.

usage: tools/respell.py [FOLDER]     once, on a tree that the kit's port.py has turned; FOLDER is its top, the current one without it

A name is turned where one of the repository's .antt files outside a function's Proof.antt declares it: `row-length` becomes `row_length`, and
`Gröbner-basis` `GröbnerBasis`. It is turned in .antt files, in the clauses of .rt files, and between backquotes of comments. What a file brings in from a
library under the same name stays. Names that would fall together are printed, and nothing is written.
"""

import collections
import os
import re
import sys

NAME = r"[^\s(){}.;,@\"«»`\[\]|:]+"
TOKEN = re.compile(NAME)
DECLARED = re.compile(r"(?m)^ *(?:(?:abbrev|unfoldable|pub|data|record|syntax|ruleset) +)*(%s)(?: +(?:\{[^{}\n]*\}|\([^()\n]*\)))* :(?= |$)" % NAME)
GROUP = re.compile(r"(?m)^ *(?:pub +)?((?:%s +)+)(%s) :(?= |$)" % (NAME, NAME))
QUIET = re.compile(r"--[^\n]*|\"(?:\\.|[^\"\\])*\"")
USE = re.compile(r"\buse +([^\s;{]+?)\.\{([^}]*)\}|\buse +([^\s;{]+)(?: as ([^\s;]+))?")
OURS = re.compile(r"^Rattle\.(\w+)\.")
LEFT = ()  # names that stay, each with its reason beside it


def turned(name):
    if name[0].isupper():
        head, *tail = name.split("-")
        return head + "".join(it[:1].upper() + it[1:] for it in tail)
    return name.replace("-", "_")


def texts(top):
    for folder, dirs, files in os.walk(os.path.join(top, "crates")):
        dirs[:] = sorted(it for it in dirs if it not in ("out", "slips", "must-fail"))
        for it in sorted(files):
            if it.endswith((".antt", ".rt")):
                yield os.path.join(folder, it)


def read(path):
    with open(path, encoding="utf-8") as f:
        return f.read()


def aliases(code):
    """The names that a file gives to what it brings in."""
    return {it for it in re.findall(r"\bas (%s)" % NAME, code) if "-" in it}


def declared(top):
    found = collections.defaultdict(set)
    for path in texts(top):
        code = QUIET.sub(" ", read(path)) if path.endswith(".antt") else re.sub(r"//[^\n]*", " ", read(path))
        if path.endswith(".antt") and os.path.basename(path) != "Proof.antt":
            for it in DECLARED.findall(code):
                found[it].add(path)
            for some, last in GROUP.findall(code):
                for it in some.split() + [last]:
                    found[it].add(path)
        for it in aliases(code):
            found[it].add(path)
    return {it: where for it, where in found.items() if "-" in it.strip("-") and it[0].isalpha() and re.search(r"\w-\w", it)}


def library_names(code, crates):
    """What a file brings in from a library."""
    found = set()
    for path, items, whole, alias in USE.findall(code):
        own = OURS.match(path or whole)
        if own and own[1] in crates:
            continue
        for it in items.split(","):
            words = it.strip().strip("«»").split(" as ")
            found.add(words[-1].strip())
    return found


def main():
    top = sys.argv[1] if len(sys.argv) > 1 else "."
    crates = set(os.listdir(os.path.join(top, "crates")))
    names = {it: turned(it) for it in declared(top) if it not in LEFT}
    clashes, out = [], {}
    back = collections.defaultdict(set)
    for old, new in names.items():
        back[new].add(old)
    for path in texts(top):
        text = read(path)
        rust = path.endswith(".rt")
        code = re.sub(r"//[^\n]*", " ", text) if rust else QUIET.sub(" ", text)
        stay = library_names(code, crates)
        here = set(TOKEN.findall(code))
        # a step of a path, or a field of a function's facts, stands for itself
        bare = re.sub(r"\buse +[^\s;{]+", " ", code)
        bare = set(re.findall(r"(?<![\w'.-])(?<!::)(%s)(?!::)(?!\.[A-Z])" % NAME, bare))
        for old in here & set(names):
            new = names[old]
            if old in stay:
                continue
            rivals = {it for it in bare if (names.get(it, it) if it not in stay else it) == new and it != old}
            if rust:
                # a function may be called as the definition that it meets; a parameter would hide it
                rivals &= set(re.findall(r"[(,]\s*(?:mut )?(\w+): ", code))
            if rivals:
                clashes.append("%s: %s and %s would both be %s" % (os.path.relpath(path, top), old, ", ".join(sorted(rivals)), new))
        turn = lambda m: names[m[0]] if m[0] in names and m[0] not in stay else m[0]

        def comment(m):
            return re.sub(r"`[^`\n]*`", lambda q: TOKEN.sub(turn, q[0]), m[0])

        if rust:
            parts = re.split(r"(//[^\n]*)", text)
            new = "".join(comment(re.match(r"[\s\S]*", it)) if it.startswith("//") else TOKEN.sub(turn, it) for it in parts)
        else:
            parts = re.split(r"(--[^\n]*|\"(?:\\.|[^\"\\])*\")", text)
            new = "".join(comment(re.match(r"[\s\S]*", it)) if it.startswith("--") else it if it.startswith('"') else TOKEN.sub(turn, it) for it in parts)
        if new != text:
            out[path] = new
    for new, olds in sorted(back.items()):
        if len(olds) > 1:
            print("two names become %s: %s" % (new, " ".join(sorted(olds))))
    if clashes:
        print("\n".join(clashes))
        print("%d clashes; nothing is written" % len(clashes))
        return 1
    for path, text in out.items():
        with open(path, "w", encoding="utf-8") as f:
            f.write(text)
    print("%d names, %d files" % (len(names), len(out)))
    return 0


if __name__ == "__main__":
    sys.exit(main())
