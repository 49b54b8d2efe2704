#!/usr/bin/env python3
# SPDX-License-Identifier: MIT OR Apache-2.0
"""picks.py FILE LEVEL VECTOR [CODE]: the picks of a run of the hybrid way, as an L line and P lines for ./tagetessash replay.

FILE is a problem file, VECTOR the number of a frame term of LEVEL (1 to 9), CODE a pick code: 1 the greatest term, 2 the newest (without it), 3 the oldest.
It shares the arithmetic of verify.py and nothing with the engine, and nothing of it is proved: replaying is what proves a log. Whether FILE is a Groebner
basis is not looked at here, nor which limits the levels below LEVEL meet; replaying finds both out.
Exit status: 0 a log was written, 1 FILE is malformed, 2 used wrongly, 4 the run meets a limit (13 to 15) or takes more than 4,096 picks."""
import heapq
import sys

sys.dont_write_bytecode = True
from verify import Refused, divides, frame, height, read, times

MOST_PICKS, MOST_TERMS, MOST_VECTORS, MOST_EXPONENT = 4096, 512, 128, 255


def stop(status, words):
    print("picks.py:", words, file=sys.stderr)
    sys.exit(status)


def descending(vector, below, ring):
    terms = [(c, j, m) for (j, m), c in vector.items()]
    return sorted(terms, key=lambda term: height(term, below, ring[2]), reverse=True)


class Level:
    """The vectors of a level over those below it: reducers, the order of its terms, and runs over it."""

    def __init__(self, below, ring):
        self.below, self.vectors, self.ring = below, below[-1], ring
        self.reducers, self.heights = {}, {}

    def reducer(self, j, m):
        """The lowest element whose leading monomial divides this one; None for a term of lower order."""
        if (j, m) not in self.reducers:
            found = (a for a, v in enumerate(self.vectors, 1) if v[0][1] == j and divides(v[0][2], m))
            self.reducers[j, m] = next(found, None)
        return self.reducers[j, m]

    def height(self, at):
        if at not in self.heights:
            weight, *indices = height((0, *at), self.below[:-1], self.ring[2])
            self.heights[at] = (*weight, *indices)
        return self.heights[at]

    def products(self, c, m, vector):
        """The products of c, m and a vector that are not of lower order, one by one: 13 is tested on those too."""
        for d, j, e in vector:
            at = j, times(m, e)
            if max(at[1]) > MOST_EXPONENT:
                raise Refused(13)
            if self.reducer(*at) is not None:
                yield at, c * d % self.ring[0]

    def add(self, value, at, c):
        """Equal monomials combine in place, a zero sum leaves, else the term goes last: as a dictionary does."""
        total = (value.get(at, 0) + c) % self.ring[0]
        if total:
            value[at] = total
            if len(value) > MOST_TERMS:
                raise Refused(14)
        else:
            del value[at]

    def run(self, i, m, pick):
        """The vector of the frame term m e_i; `pick` says which term of the working value is next, and is told of each that comes into it."""
        p, value, vector = self.ring[0], {}, {(i, m): 1}
        come = getattr(pick, "come", lambda at: None)
        for at, c in self.products(1, m, self.vectors[i - 1]):
            self.add(value, at, c)
            come(at)
        while value:
            j, e = top = pick(value)
            a = self.reducer(j, e)
            d, _, leading = self.vectors[a - 1][0]
            c, q = -value[top] * pow(d, p - 2, p) % p, tuple(x - y for x, y in zip(e, leading))
            self.add(vector, (a, q), c)
            for at, product in self.products(c, q, self.vectors[a - 1]):
                self.add(value, at, product)
                come(at)
        return descending(vector, self.below, self.ring)


class Greatest:
    """The greatest term: a heap of all that came, without those that left."""

    def __init__(self, level):
        self.level, self.heap = level, []

    def come(self, at):
        heapq.heappush(self.heap, (tuple(-x for x in self.level.height(at)), at))

    def __call__(self, value):
        while self.heap[0][1] not in value:
            heapq.heappop(self.heap)
        return self.heap[0][1]


def picker(code, level):
    """The term that a pick code says."""
    if code == 1:
        return Greatest(level)
    return (lambda value: next(reversed(value))) if code == 2 else (lambda value: next(iter(value)))


def log(data, k, v, code):
    """The monomials picked, (component, exponents) each."""
    ring, elements = read(data)
    below = [elements]
    for _ in range(1, k):
        # the greatest term first: the vectors are the same whichever is picked, and so each monomial is met once
        level = Level(below, ring)
        below.append([level.run(i, m, Greatest(level)) for i, m in frame(level.vectors, ring[2])])
    level = Level(below, ring)
    terms = frame(level.vectors, ring[2])
    if len(terms) > MOST_VECTORS:
        raise Refused(15)
    if not 1 <= v <= len(terms):
        stop(2, f"level {k} has {len(terms)} vectors, and there is no vector {v}")
    picks, pick = [], picker(code, level)

    def noted(value):
        picks.append(pick(value))
        if len(picks) > MOST_PICKS:
            fewer = "" if code == 1 else "; code 1 may take fewer"
            stop(4, f"by pick code {code} the run takes more than {MOST_PICKS:,} picks, and a log has no more{fewer}")
        return picks[-1]

    noted.come = getattr(pick, "come", lambda at: None)
    level.run(*terms[v - 1], noted)
    return picks


def main(words):
    if not (4 <= len(words) <= 5 and all(word.isascii() and word.isdigit() for word in words[2:])):
        stop(2, "picks.py FILE LEVEL VECTOR [CODE]")
    k, v, code = (int(word) for word in (words + ["2"])[2:5])
    if not (1 <= k <= 9 and 1 <= code <= 3):
        stop(2, "levels run from 1 to 9, pick codes from 1 to 3")
    try:
        with open(words[1], "rb") as problem:
            data = problem.read()
        picks = log(data, k, v, code)
    except OSError as error:
        stop(2, error)
    except Refused as found:
        if len(found.args) == 2:
            stop(1, "the file is refused by X,%d,%d; ./tagetessash sheet tells why" % found.args)
        stop(4, "the run meets refusal %d" % found.args)
    for line in [("L", k, v)] + [("P", *m, j) for j, m in picks]:
        print(*line, sep=",")


if __name__ == "__main__":
    main(sys.argv)
