#!/usr/bin/env python3
# SPDX-License-Identifier: MIT OR Apache-2.0
"""verify.py FILE SHEET: is SHEET the sheet of the problem FILE? This trusts nobody and shares nothing with the engine.

Why a listing is its own certificate. Let f be the vectors of a level. If each frame term of f stands in front of a vector that maps to zero (the sum of its
coefficients times the f_j is 0), then f is a Groebner basis, and these vectors are one of all syzygies of f (Schreyer's theorem). So level by level: find the
frame anew, see what stands in front, multiply out. If no further term of a vector is a multiple of a frame term, these vectors are the reduced Groebner basis;
there is only one, so no other listing is right. Refusals from 1 to 8, 18 and 24 are found by reading FILE, 9 by dividing again. That 13, 14 or 15 was met
is not found out, only that the levels before it are right. Degrees of components (the D line) and weights of variables (the G line) are read and change
nothing: a sheet does not show them.
Exit status: 0 verified, 1 not verified, 2 used wrongly, 3 verified but for 13 to 15."""
import re
import sys
from functools import reduce

class Refused(Exception): "X,number,place"

def expect(fact, *words):
    if not fact:
        print("NOT VERIFIED:", *words)
        sys.exit(1)

# The problem file: its ring (p, n, order code, s) and elements, each a list of terms (coefficient, component, exponents).
def read(data):
    def test(number, fact):
        if not fact: raise Refused(number, place)
    place, count, elements = 0, 0, []
    test(1, len(data) <= 65536)
    *lines, behind = data.split(b"\n")
    for place, line in enumerate(lines, 1):
        letter = line[:1]
        test(1, re.fullmatch(rb"[RDGTE](,(0|[1-9][0-9]{0,4}))+", line) and (letter == b"R") == (place == 1) and (letter != b"D" or place == 2))
        test(1, letter != b"G" or place == 2 + lines[1].startswith(b"D"))
        numbers = [int(word) for word in line.split(b",")[1:]]
        test(1, max(numbers) <= 65535 and len(numbers) == (4 if place == 1 else {b"D": s, b"G": 2 * n, b"T": 3 + n, b"E": 1}[letter]))
        if letter == b"R":
            p, n, code, s = ring = numbers
            test(2, 2 <= p and all(p % d for d in range(2, 256) if d < p))
            test(3, 1 <= n <= 8 and 1 <= code <= 3 and 1 <= s <= 16)
        elif letter == b"D":
            test(18, max(numbers) <= 255)
        elif letter == b"G":
            test(24, max(numbers) <= 15)
        elif letter == b"T":
            element, c, i, *m = numbers
            count += 1
            test(8, count <= 2048)
            test(5, element in (len(elements), len(elements) + 1) and 1 <= element <= 64)
            test(4, 0 < c < p and 1 <= i <= s and max(m) <= 255)
            if element > len(elements): elements.append([])
            else: test(6, height((c, i, tuple(m)), [], code) < height(elements[-1][-1], [], code))
            elements[-1].append((c, i, tuple(m)))
        else:
            test(7, numbers[0] == count > 0)
            place += 1
            test(1, place > len(lines) and not behind)
            return ring, elements
    place = len(lines) + 1
    test(1, False)

# Orders: things compare as these tuples do.
def weight(m, code):  # 1 lexicographic, 2 degree then lexicographic, 3 degree reverse lexicographic
    return {1: m, 2: (sum(m),) + m, 3: (sum(m),) + tuple(-e for e in reversed(m))}[code]

def number_by(m, code):  # frame terms of a component are numbered ascending by this: lexicographically, whatever the code
    return weight(m, 1)

def height(term, below, code):  # a term of the module over the levels below: by its image on level 0, then by index, level upon level
    (_, i, m), path = term, ()
    for level in reversed(below):
        _, j, image = level[i - 1][0]
        i, m, path = j, times(m, image), (i,) + path
    return (weight(m, code), i) + path

def times(a, b): return tuple(x + y for x, y in zip(a, b))

def divides(a, b): return all(x <= y for x, y in zip(a, b))

def frame(f, code):
    """For each i the minimal generators of (LM f_1 .. LM f_(i-1)) : LM f_i, as pairs (i, monomial) in the order of their numbers."""
    terms = []
    for i, (_, component, m) in enumerate((v[0] for v in f), 1):
        quotients = {tuple(max(a - b, 0) for a, b in zip(g[0][2], m)) for g in f[:i - 1] if g[0][1] == component}
        minimal = [q for q in quotients if not any(o != q and divides(o, q) for o in quotients)]
        terms += [(i, q) for q in sorted(minimal, key=lambda q: number_by(q, code))]
    return terms

def add(value, c, m, vector, p):
    """A value, coefficients by (component, monomial), plus c times m times the vector."""
    for d, j, e in vector:
        at = j, times(m, e)
        value[at] = (value.get(at, 0) + c * d) % p
        if value[at] == 0: del value[at]
    return value

def remainder(i, m, f, p, code):
    """Where the division of m times f_i stops: each step takes the greatest term, by the lowest element whose leading monomial divides it."""
    value = add({}, 1, m, f[i - 1], p)
    above = lambda at: height((0, *at), [], code)
    while value:
        j, e = top = max(value, key=above)
        g = next((g for g in f if g[0][1] == j and divides(g[0][2], e)), None)
        if g is None: break
        add(value, -value[top] * pow(g[0][0], p - 2, p), tuple(a - b for a, b in zip(e, g[0][2])), g, p)
    return [(value[at], *at) for at in sorted(value, key=above, reverse=True)]

# The sheet: levels from 1 on, the refusal or None, the W lines' terms. Printed again these must give its text, so that nothing is overlooked.
def taken_apart(text):
    levels, vectors, refusal, value = [], [], None, []
    for line in text.splitlines():
        expect(re.fullmatch("[SZXW](,[0-9]{1,5}){2,12}", line), "this is no line of a sheet:", repr(line))
        a, b, *rest = [int(word) for word in line.split(",")[1:]]
        if line[0] == "S" and len(rest) > 2:
            if b != len(vectors) or not vectors: vectors.append([])
            vectors[-1].append((rest[0], rest[1], tuple(rest[2:])))
        elif line[0] == "Z": levels, vectors = levels + [vectors], []
        elif line[0] == "X": refusal = a, b
        elif line[0] == "W": value.append((a, b, tuple(rest)))
    lines = []
    for k, level in enumerate(levels, 1):
        lines += [("S", k, v, c, i, *m) for v, vector in enumerate(level, 1) for c, i, m in vector] + [("Z", k, len(level))]
    lines += ([("X", *refusal)] if refusal else []) + [("W", c, i, *m) for c, i, m in value]
    expect(text == "".join(",".join(map(str, line)) + "\n" for line in lines), "lines of the sheet are missing, out of sequence or miscounted")
    return levels, refusal, value

def check_level(k, below, level, p, n, code):
    f = below[-1]
    terms = frame(f, code)
    expect(len(level) == len(terms), f"level {k} has {len(level)} vectors, and its frame has {len(terms)} terms")
    expect(len(level) <= 128 and sum(map(len, level)) <= 2048 and all(len(vector) <= 512 for vector in level), f"level {k} passes a limit")
    for v, (vector, (component, monomial)) in enumerate(zip(level, terms), 1):
        name = f"vector {v} of level {k}"
        expect(all(0 < c < p and 1 <= i <= len(f) and len(m) == n and max(m) <= 255 for c, i, m in vector), name, "has a number out of range")
        expect(vector[0] == (1, component, monomial), name, "does not have its frame term in front")
        heights = [height(term, below, code) for term in vector]
        expect(all(a > b for a, b in zip(heights, heights[1:])), name, "is not descending")
        expect(not any(i == j and divides(q, m) for _, i, m in vector[1:] for j, q in terms), name, "has a further multiple of a frame term")
        expect(not reduce(lambda value, term: add(value, term[0], term[2], f[term[1] - 1], p), vector, {}), name, "does not map to zero")

def verify(data, text):
    """What was found, and the exit status."""
    levels, refusal, value = taken_apart(text)
    try:
        (p, n, code, _), elements = read(data)
    except Refused as found:
        expect((levels, refusal, value) == ([], found.args, []), "the file is refused by X,%d,%d" % found.args)
        return "verified: the file is refused by X,%d,%d" % found.args, 0
    below = [elements]
    for k, level in enumerate(levels, 1):
        check_level(k, below, level, p, n, code)
        below.append(level)
        expect(level or k == len(levels), "the sheet goes on after an empty level")
    found = f"{len(elements)} elements; vectors by level: {', '.join(str(len(level)) for level in levels) or 'none'}"
    if refusal is None:
        expect(levels and not levels[-1], "the sheet ends before an empty level")
        return f"verified: a Groebner basis of {found}; every syzygy is a combination of these", 0
    number, place = refusal
    if number == 9:
        terms = frame(elements, code)
        expect(not levels and 1 <= place <= len(terms), "there is no such frame term")
        expect(not any(remainder(*term, elements, p, code) for term in terms[:place - 1]), "division of an earlier frame term stops too")
        expect(value and remainder(*terms[place - 1], elements, p, code) == value, "division does not stop at this value")
        return f"verified: no Groebner basis; division of frame term {place} stops at the value of the W lines", 0
    expect(13 <= number <= 15 and not value, f"the file is well formed, and X,{number},{place} is no refusal of it")
    expect(place == len(levels) + 1 or place == len(levels) == 0, "the limit is said to be met at another level than the next")
    return f"NOT CHECKED: that limit {number} was met at level {place}; verified is what stands before it: {found}", 3

if __name__ == "__main__":
    try:
        _, problem, sheet = sys.argv
        with open(problem, "rb") as problem, open(0 if sheet == "-" else sheet, newline="", encoding="latin-1") as sheet:
            data, text = problem.read(), sheet.read()
    except (ValueError, OSError) as error:
        print(error if isinstance(error, OSError) else "verify.py FILE SHEET", file=sys.stderr)
        sys.exit(2)
    words, status = verify(data, text)
    print(words)
    sys.exit(status)
