# SPDX-License-Identifier: MIT OR Apache-2.0
"""What text and HTML share: the page as parts, in the sequence in which they stand, and its sentences."""
import re

from problem import ORDERS
from words import Variable, counted, listed, pair, visible


class Setter:
    """The page as parts, in the sequence in which they stand. What is a width, a height or a markup the two settings below say."""

    TALL, CHUNK = 24, 8  # lines: a row that has more may be broken, into pieces of so many

    def __init__(self, problem, names, title):
        self.q = problem
        self.variables = Variable.all(names, problem.n) if problem.well_formed else []
        self.title = visible(title if title is not None and title.strip() else problem.name)
        self.known = {}  # terms as pieces
        self.apart = any(len(v.stem) > 1 for v in self.variables)  # else letters side by side could be read as another name

    # -- sentences

    def ring(self):
        """Pieces: the ring and the module in words."""
        q = self.q
        names = [self.name(v) for v in self.variables]
        out = [self.words("An ideal of the polynomials in" if q.s == 1 else "A submodule of the free module with %d components, %s, over the polynomials in" % (
            q.s, "of degrees " + listed(list(map(str, q.degrees))) if q.degrees else "all of degree 0")), self.comma(names)]
        out.append(self.words("modulo %d; %s order%s" % (q.p, ORDERS[q.order], "," if q.n > 1 else ".")))
        if q.n > 1:
            out.append(self.joined(names[0], "greatest."))
        if q.s > 1:
            out.append(self.words("Of equal monomials that of the larger component is the greater."))
        if q.s == 1 and q.degrees:
            out.append(self.words("Its component has degree %d." % q.degrees[0]))
        return sum(out, [])

    def weights(self):
        return sum([self.words("Weights:")] + [self.joined(self.name(v), pair(w) + ("," if k + 1 < self.q.n else ".")) for k, (v, w) in enumerate(
            zip(self.variables, self.q.weights))], [])

    LEGEND = "Columns are generators: number, degree%s, frame term; rows are those of the level below."

    def level_head(self, k):
        q, count = self.q, len(self.q.levels[k].vectors)
        if k == 0:
            name = "The elements" if q.refusal and q.refusal.number == 9 else "The basis"
            return name, counted(count, "element", "elements") + " of " + ("an ideal" if q.s == 1 else "a module")
        return "Level %d" % k, "%s of %s" % (counted(count, "syzygy", "syzygies"), "the basis" if k == 1 else "level %d" % (k - 1))

    def closing(self):
        """Where the list ended, and why: a name and a sentence, as of a level. None where a refusal says it."""
        q = self.q
        if q.refusal:
            return None
        if q.ended is None:
            return "The end", "level %d is the last that is listed." % (len(q.levels) - 1)
        count = len(q.levels[-1].vectors)
        below = ("element", "elements") if q.ended == 1 else ("syzygy of level %d" % (q.ended - 1), "syzygies of level %d" % (q.ended - 1))
        return "Level %d" % q.ended, "empty, count 0: nothing relates %s. The list is complete." % (
            "the one " + below[0] if count == 1 else "the %d %s" % (count, below[1]))

    def refusal_lines(self, refusal):
        """Lines of pieces: what the command says, names put in, and the value as a polynomial."""
        q, out = self.q, []
        first, *said = refusal.said
        first = first.replace("the value in the W lines", "the value below")
        if q.well_formed and refusal is q.refusal and refusal.number != 9:
            done = len(q.levels) - 1
            first += (" %s and %s complete" % ("Level 1 stands above" if done == 1 else "Levels 1 to %d stand above" % done, "is" if done == 1 else "are")
                + "; of level %d nothing is known." % (done + 1)) if done else " Of no level anything is known."
        out.append(("said", self.words(first[0].upper() + first[1:])))
        for line in said:
            frame = re.fullmatch(r"frame term (\d+) is (.*): it comes from elements (\d+) and (\d+)", line)
            if frame:
                out.append(("said", self.words("Frame term %s is" % frame[1]) + self.joined(self.term_piece(self.parsed(frame[2]), True, True), ":")
                    + self.words("it comes from elements %s and %s." % (frame[3], frame[4]))))
            elif line.startswith("the value, modulo"):
                continue  # it stands here in full
            else:
                out.append(("line", visible(line)))
        if refusal.value:
            out.append(("value", self.words("The value, modulo %d:" % q.p) + self.pieces(refusal.value, q.s > 1)))
        return out

    def parsed(self, product):
        """A term of the command's own words, x1^2*x3*e_4."""
        exponents, component = [0] * self.q.n, 1
        for factor in product.split("*"):
            found = re.fullmatch(r"x(\d)(?:\^(\d+))?", factor)
            if found:
                exponents[int(found[1]) - 1] = int(found[2] or 1)
            elif factor.startswith("e_"):
                component = int(factor[2:])
        return 1, component, tuple(exponents)

    def factors(self, term):
        """minus?, number (none where it is 1 and a variable follows), powers"""
        c, _, exponents = term
        c = self.q.signed(c)
        powers = [(v, e) for v, e in zip(self.variables, exponents) if e]
        return c < 0, "" if abs(c) == 1 and powers else str(abs(c)), powers

    # -- parts

    def parts(self):
        q = self.q
        yield from self.title_parts()
        early = q.refusal and (not q.well_formed or q.refusal.number == 9)
        if early:
            yield from self.refusal_parts("Refused", q.refusal)
        if q.betti:
            yield from self.tables()
        if q.bidegrees is not None:
            yield from self.bidegree_table()
        if q.no_page:
            yield from self.refusal_parts("No Betti table", q.no_page, "Degrees are those of leading terms, found in setting.")
        if q.no_bidegrees:
            yield from self.refusal_parts("No bidegrees", q.no_bidegrees)
        for k in range(len(q.levels)):
            yield from self.level(k)
        if q.refusal and not early:
            yield from self.refusal_parts("Refused", q.refusal)
        yield from self.colophon()

    def head_of_band(self, k, a, b, left_out, continued):
        """The words over a band, '' for the one band of a level under its head."""
        count = len(self.q.levels[k].vectors)
        name = self.level_head(k)[0]
        out = name
        if b - a < count:
            out += ", columns %d to %d of %d" % (a + 1, b, count) if b > a + 1 else ", column %d of %d" % (b, count)
        if continued:
            out += ", continued"
        if left_out:
            out += "; %s of zeros left out" % counted(left_out, "row", "rows")
        return "" if out == name else out

    def band_rows(self, grid, k, a, b, bands):
        """The rows of a band that are set, and how many are left out: those of zeros, where there are several bands or most rows are of zeros."""
        full, used = len(self.q.below[k]), grid.rows(a, b)
        return (used, full - len(used)) if bands > 1 or 2 * len(used) < full else (list(range(1, full + 1)), 0)

    def units_of(self, heights):
        """Rows, and pieces of rows that are tall, as (row's place, first line, last line + 1)."""
        out = []
        for r, lines in enumerate(heights):
            if lines <= self.TALL:
                out.append((r, 0, lines))
            else:
                cuts = list(range(0, lines - self.CHUNK // 2, self.CHUNK)) + [lines]
                out += [(r, x, y) for x, y in zip(cuts, cuts[1:])]
        return out

    @staticmethod
    def rows_of(units):
        """Units side by side, pieces of one row as one."""
        out = []
        for r, x, y in units:
            if out and out[-1][0] == r:
                out[-1] = (r, out[-1][1], y)
            else:
                out.append((r, x, y))
        return out

    def used_columns(self, table):
        return max((j for j, x in enumerate(table[-1][1]) if x), default=0) + 1

    PROVED = "These bytes are proved: what each program printed is what the definitions give for the file."
    UNPROVED = "Not proved: the setting of these bytes in type, by tools/page%s."

    def unproved(self):
        return self.UNPROVED % ("; degrees found there agree with the tables" if self.q.betti else ", and the words of a refusal" if self.q.refusal else "")
