#!/usr/bin/env python3
# SPDX-License-Identifier: MIT OR Apache-2.0
"""The printed page of a problem file: levels down the page, generators in columns, a blank margin for the reader's own marks.

    tagetessash page [OPTION..] FILE      writes the page of FILE (- is standard input) to standard output

    --text              text of 72 columns, form feeds between its pages; else HTML, one file with its style inside, made for print
    --json              the same content as JSON, by docs/page.schema.json, for those who set it themselves
    --names x,y,z,w     the variables' names; else x, y, z, w for up to four of them, x1, x2, .. for more
    --title WORDS       the title; else the file's name
    --paper A4|letter   the paper of the HTML page; else A4
    --two-sided         the blank margin is on the left of even pages; else it is on the right of all

Exit status: that of the sheet (0 a full listing, 1 malformed, 3 no Groebner basis, 4 a limit: the page says so in words), 2 used wrongly.

Not proved. It sets in type what the proved programs print: sheet, Betti page, minimal numbers, bidegrees. What it finds itself, the degree of each generator
from exponents, is held to the Betti page and to the bidegrees; where they disagree nothing is printed. Every line and every page is broken here, by the widths
of Times and Helvetica, whose measures most systems' fonts have: no browser's own breaking is relied on. The same file gives the same bytes.
"""
import json
import os
import re
import sys

sys.dont_write_bytecode = True
from content import content
from problem import INPUT, PROGRAMS, STATUS, Problem, Programs, Wrong
from text import Text
from web import PAPERS, Page
from words import visible

TITLE_MOST = 200  # characters
ROOT = os.path.dirname(os.path.dirname(os.path.dirname(os.path.abspath(__file__))))


def split_names(text):
    """Names parted by commas; those inside of x(1,2) part nothing."""
    return re.split(r",(?![^()\[\]{}]*[)\]}])", text)


def options_of(arguments):
    options, files, at = {"paper": "A4"}, [], 0
    while at < len(arguments):
        word = arguments[at]
        name, _, value = word[2:].partition("=")
        if word in ("--help", "-h"):
            return None
        if word == "--":
            files += arguments[at + 1:]
            break
        if word in ("--text", "--json", "--two-sided"):
            options[word[2:]] = True
        elif word.startswith("--") and name in ("names", "title", "paper"):
            if "=" not in word:
                at += 1
                if at == len(arguments):
                    raise Wrong("--%s needs a value" % name)
                value = arguments[at]
            options[name] = value
        elif word.startswith("-") and word != "-":
            raise Wrong("there is no option %s; 'page --help' tells them" % visible(word))
        else:
            files.append(word)
        at += 1
    if len(files) != 1:
        raise Wrong("page takes one problem file; 'page --help' tells more")
    if len(options.get("title", "")) > TITLE_MOST:
        raise Wrong("a title has at most %d characters" % TITLE_MOST)
    if options["paper"] not in PAPERS:
        raise Wrong("--paper is A4 or letter")
    if "text" in options and "json" in options:
        raise Wrong("--text and --json are two answers; ask for one")
    return options, files[0]


def read(path):
    """The file's name and bytes."""
    if path == "-":
        return INPUT, sys.stdin.buffer.read()
    try:
        with open(path, "rb") as file:
            return os.path.basename(path), file.read()
    except OSError as error:
        raise Wrong("%s can not be read: %s" % (visible(path), error.strerror)) from error


def page(options, name, data, programs):
    """What is printed, and the exit status."""
    problem = Problem(name, data, programs)
    names = split_names(options["names"]) if "names" in options else None
    title, two_sided = options.get("title"), "two-sided" in options
    if "json" in options:
        out = json.dumps(content(problem, names, title)) + "\n"
    elif "text" in options:
        out = Text(problem, names, title, two_sided).render()
    else:
        out = Page(problem, names, title, options["paper"], two_sided).render()
    return out, 0 if problem.refusal is None else STATUS.get(problem.refusal.number, 1)


def main(arguments):
    try:
        chosen = options_of(arguments)
        if chosen is None:
            print(__doc__.strip())
            return 0
        missing = [variable for _, variable in PROGRAMS.values() if variable not in os.environ]
        if missing and "TAGETESSASH" in os.environ:
            raise Wrong("TAGETESSASH is set, and %s not; './tagetessash page' sets them" % ", ".join(missing))
        command = os.environ.get("TAGETESSASH") or os.path.join(ROOT, "tagetessash")
        if missing:  # the command knows which programs are proved, and calls back
            os.execv(command, [command, "page"] + arguments)
        programs = Programs({word: os.environ[variable] for word, (_, variable) in PROGRAMS.items()}, command)
        out, status = page(chosen[0], *read(chosen[1]), programs)
        sys.stdout.buffer.write(out.encode("utf-8"))
        sys.stdout.buffer.flush()
        return status
    except Wrong as reason:
        print("tagetessash: %s" % reason, file=sys.stderr)
        return 2
    except BrokenPipeError:
        os.dup2(os.open(os.devnull, os.O_WRONLY), sys.stdout.fileno())
        return 141


if __name__ == "__main__":
    sys.exit(main(sys.argv[1:]))
