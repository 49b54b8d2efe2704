# SPDX-License-Identifier: MIT OR Apache-2.0
"""Names, counts and words, for people: nothing that a name or a title has in it can be read as anything but text."""
import re
import unicodedata

from problem import Wrong


LETTER = "e"  # of the generators
NAME_MOST = 24  # columns of a variable's name
SHOWN = {"\n": "\\n", "\t": "\\t", "\r": "\\r"}


def visible(text, also=""):
    """What would steer a terminal, turn the line or break it is shown as an escape; other blanks as the plain one."""
    out = []
    for ch in text:
        code, kind = ord(ch), unicodedata.category(ch)
        if 0xDC80 <= code <= 0xDCFF:  # a byte that was no UTF-8
            out.append("\\x%02x" % (code - 0xDC00))
        elif kind in ("Cc", "Cf", "Cs", "Co", "Cn", "Zl", "Zp") or ch in also:
            out.append(SHOWN.get(ch) or ("\\x%02x" % code if code < 256 else "\\u%04x" % code if code < 65536 else "\\U%08x" % code))
        else:
            out.append(" " if kind == "Zs" else ch)
    return "".join(out)


def columns_of(text):
    """Columns of a terminal."""
    return len(text) if text.isascii() else sum(0 if unicodedata.combining(ch) else 2 if unicodedata.east_asian_width(ch) in "WF" else 1 for ch in text)


INDEX = re.compile(r"([^\W\d_]+'*)(?:_?(\d+)|_?\((\d+(?:,\d+)*)\)|_?\[(\d+(?:,\d+)*)\]|_?\{(\d+(?:,\d+)*)\})?")


class Variable:
    """A name as it is set: letters, with an index below the line; any other name in braces, so that none can be read as part of a formula."""

    def __init__(self, name):
        found = INDEX.fullmatch(name)
        self.name = name
        self.stem, self.index = (found[1], next((g for g in found.groups()[1:] if g), "")) if found else ("{%s}" % visible(name, "{}"), "")
        self.plain = name if found else self.stem
        self.italic = bool(found)

    @staticmethod
    def all(names, n):
        if names is None:
            names = ["x", "y", "z", "w"][:n] if n <= 4 else ["x%d" % (k + 1) for k in range(n)]
        if len(names) != n:
            raise Wrong("there are %d names, and the file has %s" % (len(names), counted(n, "variable", "variables")))
        found = [Variable(name) for name in names]
        for k, v in enumerate(found):
            if not v.name or columns_of(v.plain) > NAME_MOST:
                raise Wrong("a variable's name has 1 to %d columns" % NAME_MOST)
            if any((v.stem, v.index) == (w.stem, w.index) for w in found[:k]):
                raise Wrong("two variables would look the same: %s" % visible(v.name))
            if v.stem == LETTER and v.index:
                raise Wrong("a variable can not be called %s: e1, e2, .. are the generators on the page" % v.name)
        return found


def counted(count, one, many):
    return "%d %s" % (count, one if count == 1 else many)


def listed(items):
    return items[0] if len(items) == 1 else ", ".join(items[:-1]) + " and " + items[-1]


def tally(values, show):
    """6 of degree 2, 3 of degree 3"""
    kinds = sorted(set(values))
    if len(kinds) == 1:
        return ("" if len(values) == 1 else "all ") + "of " + show(kinds[0])
    return ", ".join("%d of %s" % (values.count(v), show(v)) for v in kinds)


def pair(bidegree):
    return "(%d, %d)" % bidegree
