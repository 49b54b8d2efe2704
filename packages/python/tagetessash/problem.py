# SPDX-License-Identifier: MIT OR Apache-2.0
"""Problems: a basis, and what is asked of it."""
import re
from typing import Dict, List, Optional, Sequence, Tuple

from .answers import LIMITS, MEANINGS, Betti, Division, Refused, Resolution, numbers
from .engine import engine
from .polynomials import ORDERS, Parser, Term, entries, height, written

# of a problem file
MOST_BYTES, MOST_TERMS = 65536, 2048


class Problem:
    """A basis of an ideal or of a submodule of a free module over ZZ/p.

    elements    polynomials, or for a module lists of polynomials, one for each component
    order       "grevlex", "grlex" or "lex"
    degrees     of the components, any integers: they are shifted so that the least is 0, and shifted back in what is answered
    weights     two weights from 0 to 15 for each variable, for bidegrees()
    sort        elements ascend lexicographically by their leading terms: the list ends with level n then
    """

    def __init__(self, p: int, names, elements: Sequence, order="grevlex", degrees: Optional[Sequence[int]] = None,
                 weights: Optional[Sequence[Tuple[int, int]]] = None, sort: bool = False):
        self.p = p
        self.names: List[str] = re.split(r"[\s,]+", names.strip()) if isinstance(names, str) else [str(v) for v in names]
        if order not in ORDERS:
            raise ValueError("the order is %r; it is one of grevlex, grlex, lex" % (order,))
        self.order = ORDERS[order]
        if p < 2:
            raise ValueError("p is %r; a prime is wanted" % (p,))
        if len(set(self.names)) != len(self.names):
            raise ValueError("a variable is named twice: %s" % ", ".join(self.names))
        rows = [list(e) if isinstance(e, (list, tuple)) else [e] for e in elements]
        if not rows:
            raise ValueError("there are no elements")
        self.components = max(len(r) for r in rows)
        if any(len(r) != self.components for r in rows):
            raise ValueError("vectors have different lengths")
        self.elements: List[List[Term]] = []
        for number, r in enumerate(rows, 1):
            terms = self.terms(r)
            if not terms:
                raise ValueError("element %d is zero modulo %d; leave it out" % (number, p))
            self.elements.append(terms)
        if sort:
            self.elements.sort(key=lambda e: (e[0][1], e[0][2]))
        self.shift, self.degrees = 0, [0] * self.components
        if degrees is not None:
            if len(degrees) != self.components:
                raise ValueError("there are %d degrees and %d components" % (len(degrees), self.components))
            self.shift = min(degrees)
            self.degrees = [d - self.shift for d in degrees]
        self.weights = [tuple(w) for w in weights] if weights is not None else None
        if self.weights is not None and len(self.weights) != len(self.names):
            raise ValueError("there are %d weights and %d variables" % (len(self.weights), len(self.names)))
        self.answers: Dict[str, List[str]] = {}

    def terms(self, row: Sequence) -> List[Term]:
        """The terms of a vector, given by its entries, the greatest first."""
        parse = Parser(self.p, self.names)
        found = [(c, i, x) for i, entry in enumerate(row, 1) for x, c in parse(str(entry)).items()]
        return sorted(found, key=lambda t: height(self.order, t[2], t[1]), reverse=True)

    @classmethod
    def of_text(cls, text: str, names: Optional[str] = None) -> "Problem":
        """The problem of a file's text; its variables are x1, x2, .. where no names are given."""
        new = cls.__new__(cls)
        new.shift, new.weights, new.elements, new.answers = 0, None, [], {}
        for line in text.splitlines():
            n = numbers(line)
            if line[0] == "R":
                new.p, variables, new.order, new.components = n
                new.degrees = [0] * new.components
                new.names = re.split(r"[\s,]+", names.strip()) if names else ["x%d" % (i + 1) for i in range(variables)]
                if len(new.names) != variables:
                    raise ValueError("there are %d names and %d variables" % (len(new.names), variables))
            elif line[0] == "D":
                new.degrees = n
            elif line[0] == "G":
                new.weights = list(zip(n[::2], n[1::2]))
            elif line[0] == "T":
                if n[0] > len(new.elements):
                    new.elements.append([])
                new.elements[-1].append((n[1], n[2], tuple(n[3:])))
        return new

    @classmethod
    def read(cls, path, names: Optional[str] = None) -> "Problem":
        """The problem of a file."""
        with open(path, encoding="ascii") as file:
            return cls.of_text(file.read(), names)

    def text(self) -> str:
        """The problem file.

        >>> from tagetessash import Problem
        >>> print(Problem(7, "x y", ["x + y", "y^2 + 1"], order="lex").text(), end="")
        R,7,2,1,1
        T,1,1,1,1,0
        T,1,1,1,0,1
        T,2,1,1,0,2
        T,2,1,1,0,0
        E,4
        """
        def line(*fields) -> str:
            return ",".join(map(str, fields)) + "\n"
        out = [line("R", self.p, len(self.names), self.order, self.components)]
        if any(self.degrees):
            out.append(line("D", *self.degrees))
        if self.weights is not None:
            out.append(line("G", *[w for pair in self.weights for w in pair]))
        for e, terms in enumerate(self.elements, 1):
            out += [line("T", e, c, i, *x) for c, i, x in terms]
        return "".join(out) + line("E", sum(map(len, self.elements)))

    def polynomial(self, terms: Sequence[Term]) -> str:
        """Terms as a string; of a module with e1, e2, .. behind each."""
        return written(terms, self.names, self.p, self.components > 1)

    def polynomials(self) -> List:
        """The elements as strings; of a module as lists of them, one for each component."""
        rows = [entries(e, self.components, self.names, self.p) for e in self.elements]
        return rows if self.components > 1 else [row[0] for row in rows]

    def ask(self, word: str, behind: str = "") -> List[str]:
        """The lines that the engine prints, of the file with these lines behind it. Refused where it refuses."""
        key = word + "\n" + behind
        if key not in self.answers:
            self.answers[key] = engine(word=word)(word, (self.text() + behind).encode("ascii")).splitlines()
        lines = self.answers[key]
        refusal = next((line for line in lines if line.startswith("X,")), None)
        if refusal is None:
            return lines
        number, place = numbers(refusal)
        value, words = None, MEANINGS.get(number, "refusal %d" % number)
        if number == 9:
            value = self.polynomial([(n[0], n[1], tuple(n[2:])) for n in map(numbers, (line for line in lines if line[0] == "W"))])
            words += ": %s is in their module, and no leading monomial divides its own" % value
        elif number in LIMITS:
            words = "%s, %s" % ("while the basis was being accepted" if place == 0 else "at level %d" % place, words)
        elif number in (17, 25):
            words += ": element %d" % place
        elif number in (21, 22):
            # behind the file and the L line
            words += ": pick %d" % (place - self.text().count("\n") - 1)
        elif word == "complete" and number in (1, 8) and not self.is_too_long():
            words = "the completed file would have more than %s" % ("65,536 bytes" if number == 1 else "2,048 terms")
        raise Refused(number, place, words, value)

    def is_too_long(self) -> bool:
        """Whether the problem file has more bytes or terms than are read."""
        return len(self.text()) > MOST_BYTES or sum(map(len, self.elements)) > MOST_TERMS

    def is_groebner_basis(self) -> bool:
        """Whether the elements are a Groebner basis by this order. Refused where a limit is met before that is known."""
        try:
            self.ask("sheet")
        except Refused as refusal:
            if refusal.number == 9:
                return False
            if refusal.number in LIMITS and refusal.place > 0:
                return True  # the basis was accepted before
            raise
        return True

    def resolution(self) -> Resolution:
        """The free resolution by Schreyer's frame, mostly not minimal."""
        return Resolution(self, self.ask("sheet"))

    def betti(self) -> Betti:
        """How many generators of which degree the resolution has; mostly not minimal."""
        return Betti(self.ask("betti"), self.shift)

    def minimal(self) -> Betti:
        """The minimal graded Betti numbers.

        >>> from tagetessash import Problem
        >>> edges = Problem(32003, "a b c d e", ["a*b", "b*c", "c*d", "d*e", "a*e"])
        >>> edges.betti().totals(), edges.minimal().totals()
        ([1, 5, 6, 2], [1, 5, 5, 1])
        """
        return Betti(self.ask("minimal"), self.shift)

    def bidegrees(self) -> Dict[Tuple[int, int, int], int]:
        """{(column, a, b): count} by the weights.

        >>> from tagetessash import Problem
        >>> conic = Problem(32003, "s t x y z", ["y^2 - x*z", "t*y - s*z", "t*x - s*y"], weights=[(1, 0), (1, 0), (0, 1), (0, 1), (0, 1)])
        >>> conic.bidegrees()
        {(0, 0, 0): 1, (1, 0, 2): 1, (1, 1, 1): 2, (2, 1, 2): 2}
        """
        return {(column, a + self.shift, b): count for column, a, b, count in map(numbers, self.ask("bidegrees"))}

    def hilbert(self) -> List[int]:
        """How many monomials of degree 0 to 32 (from the least degree of a component on) no leading monomial divides."""
        return [numbers(line)[1] for line in self.ask("hilbert")]

    def member(self, vector) -> Division:
        """A polynomial, or for a module a list of them, divided by the elements, which must be a Groebner basis.

        >>> from tagetessash import Problem
        >>> cubic = Problem(32003, "x y z w", ["z^2 - y*w", "y*z - x*w", "y^2 - x*z"])
        >>> cubic.member("y^3 + x*z^2")
        Division(quotients=['x', 'x', 'y'], remainder='x^2*w + x*y*w', is_member=False)
        """
        row = list(vector) if isinstance(vector, (list, tuple)) else [vector]
        if len(row) != self.components:
            raise ValueError("the vector has %d entries, and there are %d components" % (len(row), self.components))
        lines = self.ask("member", "".join("V,%s\n" % ",".join(map(str, (c, i, *x))) for c, i, x in self.terms(row)))
        found = {letter: [(n[0], n[1], tuple(n[2:])) for n in map(numbers, (line for line in lines if line[0] == letter))] for letter in "CW"}
        remainder = entries(found["W"], self.components, self.names, self.p)
        return Division(entries(found["C"], len(self.elements), self.names, self.p), remainder if self.components > 1 else remainder[0], lines[-1] == "M,1")

    def __contains__(self, vector) -> bool:
        return self.member(vector).is_member

    def complete(self) -> "Problem":
        """A Groebner basis: these elements and what must be added to them. The same problem where they are one.

        >>> from tagetessash import Problem
        >>> Problem(7, "x y", ["x^2", "x*y + y^2"], order="lex").complete().polynomials()
        ['x^2', 'x*y + y^2', 'y^3']
        """
        new = self.of_text("\n".join(self.ask("complete")), " ".join(self.names))
        new.shift = self.shift
        return new

    def replay(self, level: int, number: int, picks: Sequence[Tuple[int, Sequence[int]]]) -> List[Term]:
        """The vector of frame term `number` of a level, lifted with the picks of a recorded run, each (component, exponents) of a term of the working value:
        the one that the resolution has, whoever recorded them. Refused (22) where a pick is no term then.

        >>> from tagetessash import Problem
        >>> basis = Problem(7, "x y", ["x + y", "y^2 + 1"], order="lex")
        >>> vector = basis.replay(1, 1, [(1, (1, 0)), (1, (1, 2)), (1, (0, 3))])
        >>> vector == basis.resolution().levels[1][0]
        True
        """
        lines = ["L,%d,%d\n" % (level, number)] + ["P,%s\n" % ",".join(map(str, (*exponents, component))) for component, exponents in picks]
        return [(n[2], n[3], tuple(n[4:])) for n in map(numbers, self.ask("replay", "".join(lines)))]

    def numerator(self) -> Dict[int, int]:
        """{degree: coefficient} of the Hilbert series' numerator over (1 - t)^n, by the Betti page."""
        out: Dict[int, int] = {}
        for (column, degree), count in self.betti().items():
            out[degree] = out.get(degree, 0) + (-1) ** column * count
        return {d: c for d, c in sorted(out.items()) if c}

    def reduced(self) -> Tuple[List[int], int]:
        """(coefficients, dimension) of the numerator divided by (1 - t) as often as it goes."""
        numerator = self.numerator()
        if not numerator:
            return [], -1
        least = min(numerator)
        q, dimension = [numerator.get(least + k, 0) for k in range(max(numerator) - least + 1)], len(self.names)
        while sum(q) == 0:
            total, out = 0, []
            for c in q[:-1]:
                total += c
                out.append(total)
            q, dimension = out, dimension - 1
        return q, dimension

    def dimension(self) -> int:
        """The quotient's Krull dimension, -1 for zero; of a homogeneous problem."""
        return self.reduced()[1]

    def degree(self) -> int:
        """The quotient's multiplicity; of a homogeneous problem."""
        return sum(self.reduced()[0])
