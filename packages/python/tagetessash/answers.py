# SPDX-License-Identifier: MIT OR Apache-2.0
"""What is answered: resolutions, tables, divisions, refusals."""
from typing import Dict, List, Optional, Sequence, Tuple

from .polynomials import Term, entries

MEANINGS = {
    1: "a line has the wrong shape or stands in the wrong place, or the file is too long", 2: "p is not a prime from 2 to 65,535",
    3: "the number of variables is not 1 to 8, the order none of three, or the number of components not 1 to 16",
    4: "a coefficient, component or exponent is out of range", 5: "an element number is out of sequence or above 64",
    6: "a term is not below the one before it in its element", 7: "the count of T lines is 0 or wrong", 8: "there are more than 2,048 terms",
    9: "the elements are no Groebner basis", 12: "there is no such level or vector", 13: "a product has an exponent above 255",
    14: "a working value, a vector, quotients or a remainder have more than 512 terms", 15: "a level has more than 128 vectors or more than 2,048 terms",
    17: "an element has terms of two degrees", 18: "a component's degree is above 255", 19: "a 65th element would be added", 20: "level 9 is not empty",
    21: "there are more than 4,096 picks, or one is no component and n exponents",
    22: "a pick is no term of the working value, or the picks end before it is zero or go on after that",
    23: "a term of the vector is out of range, not below the one before it, or the 513th", 24: "a variable's weight is above 15",
    25: "an element has terms of two bidegrees"}
LIMITS = (13, 14, 15)
# the columns of a page, and the width of each and of the label
COLUMNS, WIDE = 11, 6


def numbers(line: str) -> List[int]:
    """The numbers behind the letter of a line."""
    return [int(field) for field in line.split(",")[1:]]


class Refused(ValueError):
    """The engine refuses: number and place as in its X line, value the polynomial or vector after X,9, else None."""

    def __init__(self, number: int, place: int, words: str, value: Optional[str] = None):
        super().__init__(words)
        self.number, self.place, self.value = number, place, value


class Betti(Dict[Tuple[int, int], int]):
    """{(column, degree): count}; prints as a table with degree minus column as rows."""

    def __init__(self, lines: Sequence[str], shift: int = 0):
        super().__init__()
        for line in lines[:-1]:
            row = int(line[:WIDE].strip().rstrip(":"))
            for j in range(COLUMNS):
                cell = line[WIDE + WIDE * j:2 * WIDE + WIDE * j].strip()
                if cell != "-":
                    self[j, row + j + shift] = int(cell)

    def totals(self) -> List[int]:
        """How many each column has."""
        columns = max((j for j, _ in self), default=0)
        return [sum(c for (j, _), c in self.items() if j == k) for k in range(columns + 1)]

    def regularity(self) -> int:
        """The largest row; of minimal numbers the Castelnuovo-Mumford regularity."""
        return max(d - j for j, d in self)

    def projective_dimension(self) -> int:
        """The last column; of minimal numbers the projective dimension."""
        return max(j for j, _ in self)

    def __str__(self) -> str:
        totals = self.totals()
        rows = sorted({d - j for j, d in self})
        wide = max(len(str(x)) for x in totals + [len(totals) - 1])
        out = [" " * WIDE + "".join(" %*d" % (wide, j) for j in range(len(totals)))]
        for r in range(rows[0], rows[-1] + 1) if rows else []:
            out.append("%5d:" % r + "".join(" %*s" % (wide, self.get((j, r + j)) or ".") for j in range(len(totals))))
        return "\n".join(out + ["total:" + "".join(" %*d" % (wide, x) for x in totals)])


class Matrix(List[List[str]]):
    """Rows of strings."""

    def __str__(self) -> str:
        wide = [max(len(r[j]) for r in self) for j in range(len(self[0]))] if self else []
        return "\n".join("[%s]" % "  ".join(e.rjust(w) for e, w in zip(r, wide)) for r in self)


class Division:
    """A vector divided by the elements: quotients, a string for each element, remainder, a string or for a module a list, is_member; true for a member."""

    def __init__(self, quotients: List[str], remainder, is_member: bool):
        self.quotients, self.remainder, self.is_member = quotients, remainder, is_member

    def __bool__(self) -> bool:
        return self.is_member

    def __repr__(self) -> str:
        return "Division(quotients=%r, remainder=%r, is_member=%r)" % (self.quotients, self.remainder, self.is_member)


class Resolution:
    """levels[0] are the elements, levels[k] the vectors of level k; a vector is a list of (coefficient, component, exponents), its frame term first. So
    F_0 has the components, F_1 the elements, F_(k+1) level k; degrees[k] are those of the generators of F_k."""

    def __init__(self, problem, lines: Sequence[str]):
        self.problem = problem
        self.levels: List[List[List[Term]]] = [problem.elements]
        now: List[List[Term]] = []
        for line in lines:
            n = numbers(line)
            if line[0] == "S":
                if n[1] > len(now):
                    now.append([])
                now[-1].append((n[2], n[3], tuple(n[4:])))
            elif line[0] == "Z" and now:
                self.levels.append(now)
                now = []
        below = [d + problem.shift for d in problem.degrees]
        self.degrees = [below]
        for vectors in self.levels:
            below = [sum(v[0][2]) + below[v[0][1] - 1] for v in vectors]
            self.degrees.append(below)

    def ranks(self) -> List[int]:
        """How many generators F_0, F_1, .. have."""
        return [self.problem.components] + [len(v) for v in self.levels]

    def __repr__(self) -> str:
        return " <- ".join("R" if r == 1 else "R^%d" % r for r in self.ranks())

    def matrix(self, k: int) -> Matrix:
        """The map of level k, from F_(k+1) to F_k, a column for each vector, as strings. Level 0 is the row of elements (of a module: its matrix)."""
        columns = [entries(v, self.ranks()[k], self.problem.names, self.problem.p) for v in self.levels[k]]
        return Matrix([list(row) for row in zip(*columns)])

    def is_complex(self) -> bool:
        """Whether neighbouring maps multiply to zero, multiplied out here."""
        p = self.problem.p
        for below, vectors in zip(self.levels, self.levels[1:]):
            for v in vectors:
                total: Dict[Tuple[int, ...], int] = {}
                for c, i, x in v:
                    for d, j, y in below[i - 1]:
                        z = (j,) + tuple(a + b for a, b in zip(x, y))
                        total[z] = (total.get(z, 0) + c * d) % p
                if any(total.values()):
                    return False
        return True

    def sympy(self, k: int):
        """The map of level k as a sympy Matrix, where sympy is installed; coefficients from -p/2 to p/2."""
        import sympy  # pylint: disable=import-outside-toplevel
        names = {v: sympy.Symbol(v) for v in self.problem.names}
        return sympy.Matrix([[sympy.sympify(e.replace("^", "**"), locals=names) for e in row] for row in self.matrix(k)])
