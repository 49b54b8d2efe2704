# SPDX-License-Identifier: MIT OR Apache-2.0
"""What the proved programs print of a problem file, taken apart. What is found here, the degree of each generator from exponents, is held to the Betti page and
to the bidegrees."""
import hashlib
import subprocess


# The words of the command whose programs are asked, and the variables that name these; `tagetessash page` sets them.
PROGRAMS = {"sheet": ("syzygies", "SYZYGIES"), "betti": ("betti_numbers", "BETTI"), "minimal": ("minimal", "MINIMAL"), "bidegrees": ("bidegrees", "BIDEGREES")}
ORDERS = {1: "lexicographic", 2: "degree, then lexicographic", 3: "degree reverse lexicographic"}
INPUT = "standard input"  # what the command calls it
READ = 65537  # bytes: no program reads more of a file
STATUS = {9: 3, 13: 4, 14: 4, 15: 4}  # of the sheet's refusals; 1 for any other


class Wrong(Exception):
    """Used wrongly, or something does not fit together: exit status 2."""


class Programs:
    """The proved programs by their paths, and the command, which says in words what a refusal means."""

    def __init__(self, paths, command):
        self.paths, self.command, self.sums = paths, command, {}

    def printed(self, word, data):
        run = subprocess.run([self.paths[word]], input=data, stdout=subprocess.PIPE, stderr=subprocess.PIPE, check=False)
        if run.returncode:
            raise Wrong("the program %s failed with status %d; './tagetessash %s' tells more" % (PROGRAMS[word][0], run.returncode, word))
        return run.stdout

    def sum(self, word):
        if word not in self.sums:
            with open(self.paths[word], "rb") as file:
                self.sums[word] = hashlib.sha256(file.read()).hexdigest()
        return self.sums[word]

    def sentences(self, word, data):
        """What the command says of a refused file, the lines of the file by INPUT."""
        run = subprocess.run([self.command, word, "-"], input=data, stdout=subprocess.PIPE, stderr=subprocess.PIPE, check=False)
        said = run.stderr.decode("utf-8", "replace").splitlines()
        begin = "tagetessash: refused: "
        at = next((k for k, line in enumerate(said) if line.startswith(begin)), None)
        if at is None:
            raise Wrong("the command does not say why the file is refused: %s" % " ".join(said))
        return [said[at][len(begin):]] + said[at + 1:]


class Refusal:
    """An X line: number, place, the value behind it (terms), and what the command says."""

    def __init__(self, number, place, value, said):
        self.number, self.place, self.value, self.said = number, place, value, said


def numbers(line):
    return [int(field) for field in line.split(",")[1:]]


class Level:
    """Its vectors, each of terms (coefficient, component, exponents), the greatest first; their degrees, and bidegrees or none."""

    def __init__(self, vectors, degree_of, bidegree_of):
        self.vectors = vectors
        self.degrees = [degree_of(v[0]) for v in vectors]
        self.bidegrees = [bidegree_of(v[0]) for v in vectors] if bidegree_of else None


class Problem:
    """The file and what the programs print of it. levels[0] are the file's elements."""

    def __init__(self, name, data, programs):
        self.name, self.bytes, self.sha256 = name, len(data), hashlib.sha256(data).hexdigest()
        self.data, self.programs, self.printed = data[:READ], programs, {}
        self.levels, self.ended, self.betti, self.minimal, self.bidegrees = [], None, None, None, None
        lines = self.ask("sheet")
        self.refusal = self.refused("sheet", lines)
        self.well_formed = self.refusal is None or self.refusal.number in STATUS
        self.no_page = self.no_bidegrees = None
        if not self.well_formed:
            return
        self.degrees = self.weights = None
        elements = []
        for line in self.data.decode("ascii").splitlines():
            if line[0] == "R":
                self.p, self.n, self.order, self.s = numbers(line)
            elif line[0] == "D":
                self.degrees = numbers(line)
            elif line[0] == "G":
                weights = numbers(line)
                self.weights = list(zip(weights[::2], weights[1::2]))
            elif line[0] == "T":
                element, *term = numbers(line)
                if element > len(elements):
                    elements.append([])
                elements[-1].append(self.term(term))
        if not self.refusal:
            self.tables()
        self.below = [self.degrees or [0] * self.s]
        self.below_pairs = [[(d, 0) for d in self.below[0]]] if self.bidegrees is not None else None
        self.add(elements)
        self.read_levels(lines)
        self.hold()

    def ask(self, word):
        """The lines that a program prints for the file."""
        self.printed[word] = self.programs.printed(word, self.data)
        return self.printed[word].decode("ascii").splitlines()

    def refused(self, word, lines):
        """The refusal among these lines, or none."""
        at = next((k for k, line in enumerate(lines) if line[0] == "X"), None)
        if at is None:
            return None
        number, place = numbers(lines[at])
        value = [self.term(numbers(line)) for line in lines[at + 1:]]
        said = [self.name + line[len(INPUT):] if line.startswith(INPUT + ":") else line for line in self.programs.sentences(word, self.data)]
        return Refusal(number, place, value, said)

    @staticmethod
    def term(fields):
        coefficient, component, *exponents = fields
        return coefficient, component, tuple(exponents)

    def tables(self):
        """The Betti page, the minimal numbers, the bidegrees; or why there are none."""
        lines = self.ask("betti")
        self.no_page = self.refused("betti", lines)
        if not self.no_page:
            least = self.ask("minimal")
            self.no_page = self.refused("minimal", least)
        if not self.no_page:
            self.betti, self.minimal = self.table(lines), self.table(least)
        if self.weights:
            lines = self.ask("bidegrees")
            self.no_bidegrees = self.refused("bidegrees", lines)
            if not self.no_bidegrees:
                self.bidegrees = {}
                for column, a, b, count in map(numbers, lines):
                    self.bidegrees.setdefault(column, []).append(((a, b), count))

    @staticmethod
    def table(lines):
        """Rows of a page of numbers, (label, numbers), the totals last."""
        return [(line[:6].strip().rstrip(":"), [0 if cell == "-" else int(cell) for cell in line[6:].split()]) for line in lines]

    def add(self, vectors):
        below, pairs = self.below[-1], self.below_pairs
        degree = lambda t: sum(t[2]) + below[t[1] - 1]
        bidegree = pairs and (lambda t: tuple(sum(e * w[k] for e, w in zip(t[2], self.weights)) + pairs[-1][t[1] - 1][k] for k in (0, 1)))
        level = Level(vectors, degree, bidegree)
        self.levels.append(level)
        self.below.append(level.degrees)
        if pairs:
            pairs.append(level.bidegrees)

    def read_levels(self, lines):
        vectors = []
        for line in lines:
            if line[0] == "S":
                level, vector, *term = numbers(line)
                if vector > len(vectors):
                    vectors.append([])
                vectors[-1].append(self.term(term))
            elif line[0] == "Z":
                level, count = numbers(line)
                if count != len(vectors) or level != len(self.levels):
                    raise Wrong("the sheet's level %d has %d vectors, and its Z line says %d" % (level, len(vectors), count))
                self.add(vectors)
                vectors = []
        if not self.levels[-1].vectors:
            self.ended = len(self.levels) - 1
            self.levels.pop()

    def hold(self):
        """What was found here is what the proved pages say."""
        columns = [self.below[0]] + [level.degrees for level in self.levels]
        if self.betti:
            for column, degrees in enumerate(columns):
                counts = {int(label) + column: row[column] for label, row in self.betti[:-1] if row[column]}
                if counts != {d: degrees.count(d) for d in degrees}:
                    raise Wrong("column %d of the Betti page and the degrees found here disagree; nothing is set" % column)
            if any(x for _, row in self.betti for x in row[len(columns):]):
                raise Wrong("the Betti page has more columns than the sheet has levels; nothing is set")
        if self.bidegrees is not None:
            for column, pairs in enumerate([self.below_pairs[0]] + [level.bidegrees for level in self.levels]):
                if dict(self.bidegrees.get(column, [])) != {b: pairs.count(b) for b in pairs}:
                    raise Wrong("the bidegrees of column %d and those found here disagree; nothing is set" % column)

    def proofs(self):
        """(word, sha256 of what its program printed, the program, sha256 of that)"""
        return [(word, hashlib.sha256(out).hexdigest(), PROGRAMS[word][0], self.programs.sum(word)) for word, out in self.printed.items()]

    def signed(self, c):
        """The coefficient of least absolute value."""
        return c if 2 * c <= self.p else c - self.p
