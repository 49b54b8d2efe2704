# SPDX-License-Identifier: MIT OR Apache-2.0
"""What the tests in this folder have alike: tools/verify.py as `checker`, the command as people call it, a problem file taken apart, the guide's texts, a page
of numbers, and a file's page made again from its sheet. A page is the Betti page, the minimal Betti numbers, the bidegrees or the Hilbert function: what the
command prints of a file that is not refused, for all but the last because of an element of two degrees or bidegrees. And what Singular and Macaulay2 are told
of a file, where they are installed."""
import importlib.util
import os
import re
import resource
import subprocess
import sys
import tempfile

ROOT = os.path.dirname(os.path.dirname(os.path.dirname(os.path.abspath(__file__))))
sys.dont_write_bytecode = True
spec = importlib.util.spec_from_file_location("verify", f"{ROOT}/tools/verify.py")
checker = importlib.util.module_from_spec(spec)
spec.loader.exec_module(checker)
EXAMPLES = sorted(name[:-4] for name in os.listdir(f"{ROOT}/examples") if name.endswith(".txt"))
NAMES = [f"x{k}" for k in range(1, 9)]
STATUS = {**{number: 1 for number in (*range(1, 9), 12, 18, 21, 23, 24)}, 9: 3, 13: 4, 14: 4, 15: 4, 17: 5, 19: 4, 20: 4, 22: 7, 25: 5}
COLUMNS = 11
HANGS = 1200  # seconds: what takes so long, however busy the machine is, does not end
SINGULAR, MACAULAY2 = ["Singular", "-q", "--no-rc"], ["M2", "--script"]


def fail(*words):
    print(f"{os.path.basename(sys.argv[0])}:", *words)
    sys.exit(1)


def small_stack():
    """The stack that the command says is enough."""
    resource.setrlimit(resource.RLIMIT_STACK, (2560 * 1024, 2560 * 1024))


def command(*words, data=None):
    """Status, standard output, standard error."""
    ran = subprocess.run([f"{ROOT}/tagetessash", *words], input=data, stdin=subprocess.DEVNULL if data is None else None, capture_output=True, cwd=ROOT,
                         preexec_fn=small_stack, timeout=HANGS, check=False)
    return ran.returncode, ran.stdout.decode(), ran.stderr.decode()


def example(name):
    with open(f"{ROOT}/examples/{name}.txt", encoding="ascii") as file:
        return file.read()


def parsed(text):
    """p, n, the order code, s, the degrees of the components or none, the pairs of weights or none, the elements, each of terms c, i, e1, .., en."""
    lines = [line.split(",") for line in text.split()]
    p, n, code, s = map(int, lines[0][1:])
    degrees, weights, elements = [], [], []
    for letter, *numbers in lines[1:-1]:
        numbers = list(map(int, numbers))
        if letter == "D":
            degrees = numbers
        elif letter == "G":
            weights = list(zip(numbers[::2], numbers[1::2]))
        else:
            if numbers[0] > len(elements):
                elements.append([])
            elements[-1].append(numbers[1:])
    return p, n, code, s, degrees, weights, elements


def degrees_and_weights(text):
    """The components' degrees and the pairs of weights of a file that is read: zeros without a D line, ones and zeros without a G line."""
    _, n, _, s, degrees, weights, _ = parsed(text)
    return degrees or [0] * s, weights or [(1, 0)] * n


def plain_degrees(text):
    """The components' degrees, and the degree of a term over those that its component may stand for."""
    return degrees_and_weights(text)[0], lambda term, below: sum(term[2]) + below[term[1] - 1]


def monomial(c, exponents):
    """A term as Singular and Macaulay2 take it."""
    return "*".join([str(c)] + [f"{x}^{e}" for x, e in zip(NAMES, exponents) if e])


def singular_module(text):
    """What Singular is told of a file: the ring and its elements as the module G, with its rank, which is at times more than the components that occur; and the
    degrees of the components."""
    p, n, code, s, _, _, elements = parsed(text)
    sums = ["+".join(f"{monomial(c, e)}*gen({i})" for c, i, *e in element) for element in elements]
    ring = f"ring r = {p},({','.join(NAMES[:n])}),{['lp', 'Dp', 'dp'][code - 1]}; short = 0;"
    told = f'if (defined(r)) {{ kill r; }}\n{ring}\nmodule G = {", ".join(sums)}; attrib(G,"rank",{s});'
    return told, f"intvec({','.join(map(str, degrees_and_weights(text)[0]))})"


def singular_table(said):
    """Numbers by row and column, from what `print` of a table says behind `rows from` and its first row's number."""
    first, _, rest = said.partition("rows from")[2].strip().partition("\n")
    lines = enumerate(rest.strip().split("\n"), int(first))
    return {(row, column): int(number) for row, line in lines for column, number in enumerate(line.split()) if number != "0"}


def macaulay2_module(text):
    """What Macaulay2 is told of a file: the ring, the free module with the degrees of the components, the matrix whose columns are the elements."""
    p, n, code, s, _, _, elements = parsed(text)
    listed = lambda items: "{" + ",".join(items) + "}"
    rows = [["+".join(monomial(c, e) for c, i, *e in element if i == row) or "0_R" for element in elements] for row in range(1, s + 1)]
    ring = f"R = ZZ/{p}[{','.join(NAMES[:n])}, MonomialOrder => {['Lex', 'GLex', 'GRevLex'][code - 1]}];"
    return ring, f"R^{listed(str(-d) for d in degrees_and_weights(text)[0])}", listed(map(listed, rows))


def said_by(words, script):
    """What Singular or Macaulay2, called with these words and a file with the script, says after each line `== NAME`."""
    with tempfile.NamedTemporaryFile("w", suffix=".txt", encoding="ascii") as file:
        file.write(script + "\n")
        file.flush()
        ran = subprocess.run([*words, file.name], stdin=subprocess.DEVNULL, stdout=subprocess.PIPE, stderr=subprocess.STDOUT, text=True, timeout=HANGS,
                             check=False)
    return dict(part.split("\n", 1) for part in re.split(r"^== ", ran.stdout, flags=re.M)[1:])


def columns_of(components, levels, degree):
    """What the degrees of the components, of the elements, of each level's vectors are: `degree` of a term over those that its component may stand for."""
    columns = [components]
    for level in levels:
        columns.append([degree(vector[0], columns[-1]) for vector in level])
    return columns


def mixed(elements, components, degree):
    """The first element with terms of two degrees, or none."""
    for number, element in enumerate(elements, 1):
        if len({degree(term, components) for term in element}) > 1:
            return number
    return None


def page_of(numbers, rows):
    """The page of these numbers by row and column, with these rows."""
    label = lambda text: text.rjust(6)
    line = lambda first, cells: label(first) + "".join(label(str(cell or "-")) for cell in cells) + "\n"
    number = lambda row, column: numbers.get((row, column), 0)
    lines = [line(f"{row}:", (number(row, column) for column in range(COLUMNS))) for row in rows]
    return "".join(lines) + line("total", (sum(number(row, column) for row in rows) for column in range(COLUMNS)))


def page_taken_apart(name, page):
    """The numbers of a page by row and column, and its rows; that it has lines of 72 columns, rows that ascend by one and totals that add up."""
    lines = [re.findall(".{6}", line) for line in page.split("\n")]
    cells = [cell for _, *cells in lines[:-1] for cell in cells]
    if lines.pop() or not re.fullmatch(r"(.{72}\n){2,}", page) or not all(re.fullmatch(" *(-|[1-9][0-9]*)", cell) for cell in cells):
        fail(f"{name}: not lines of 72 columns: {page!r}")
    *lines, (total, *totals) = [[cell.strip() for cell in line] for line in lines]
    rows = [int(label.removesuffix(":")) for label, *_ in lines]
    if total != "total" or [label for label, *_ in lines] != [f"{row}:" for row in range(rows[0], rows[0] + len(rows))]:
        fail(f"{name}: not rows that ascend by one and a last line with totals: {page!r}")
    number = lambda cell: 0 if cell == "-" else int(cell)
    if any(sum(number(line[column + 1]) for line in lines) != number(totals[column]) for column in range(COLUMNS)):
        fail(f"{name}: the columns do not add up: {page!r}")
    return {(row, column): int(cell) for row, (_, *cells) in zip(rows, lines) for column, cell in enumerate(cells) if cell != "-"}, rows


def counts_of(columns):
    """How many generators each column has, by row and column, and the rows from the smallest to the largest in use: the Betti page."""
    counts = {}
    for column, found in enumerate(columns):
        for degree in found:
            counts[degree - column, column] = counts.get((degree - column, column), 0) + 1
    return counts, range(min(row for row, _ in counts), max(row for row, _ in counts) + 1)


def refused(name, got, line):
    """That the answer is this X line, with its status and a sentence."""
    code, out, err = got
    number = int(line.split(",")[1])
    if code != STATUS[number] or out.split("\n")[0] != line or "tagetessash: refused: " not in err:
        fail(f"{name}: status {code}, prints {out[:80]!r}, says {err!r}; expected {line}, status {STATUS[number]}")


class Kind:
    """A word of the command, the number and the words of its refusal of an element, if it has one, how a file's degrees are found, and the page of columns of
    degrees, of the ring and of the vectors that have them, the elements first."""

    def __init__(self, word, number, said, degrees, page_of):
        self.word, self.number, self.said, self.degrees, self.page_of = word, number, said, degrees, page_of
        self.found = {"pages": 0, "mixed": 0, "refused": 0}

    def held(self, name, data, path):
        """One file: its page made again from its sheet."""
        got = command(self.word, path)
        try:
            ring, elements = checker.read(data)
        except checker.Refused as reason:
            refused(name, got, "X,%d,%d" % reason.args)
            self.found["refused"] += 1
            return
        components, degree = self.degrees(data.decode())
        number = None if self.number is None else mixed(elements, components, degree)
        # an accepted file that has such an element is refused before anything is lifted, so that no sheet is needed, which may take long
        if number is not None and got[1] == f"X,{self.number},{number}\n":
            refused(name, got, f"X,{self.number},{number}")
            if got[2].count(f"<- {self.said} ") != 2:
                fail(f"{name}: says {got[2]!r}")
            self.found["mixed"] += 1
            return
        sheet = command("sheet", path)[1]
        levels, refusal, _ = checker.taken_apart(sheet)
        if refusal is not None:
            refused(name, got, "X,%d,%d" % refusal)
            # after the X line come the W lines of 9, nothing else
            if got[1] != sheet[sheet.index("X,"):]:
                fail(f"{name}: prints {got[1][:80]!r}")
            self.found["refused"] += 1
            return
        if number is not None:
            fail(f"{name}: element {number} has terms of two degrees, and it prints {got[1][:80]!r}")
        if got[0] != 0 or got[2] != "":
            fail(f"{name}: status {got[0]}, says {got[2]!r}")
        made = self.page_of(columns_of(components, [elements] + levels, degree), ring, [elements] + levels)
        if got[1] != made:
            fail(f"{name}: prints\n{got[1]}by its sheet it is\n{made}")
        self.found["pages"] += 1

    def all_files(self, written, without=()):
        """Every example, every instance of document 01, and files as they are written here; without files by these names."""
        for folder in ("examples", "tests/sheet/instances"):
            for name in sorted(os.listdir(f"{ROOT}/{folder}")):
                if name.endswith(".txt") and name[:-4] not in without:
                    with open(f"{ROOT}/{folder}/{name}", "rb") as file:
                        self.held(name, file.read(), f"{folder}/{name}")
        with tempfile.TemporaryDirectory() as folder:
            for data in written:
                with open(f"{folder}/file.txt", "wb") as file:
                    file.write(data)
                self.held(repr(data[:60]), data, f"{folder}/file.txt")

    def wrong_uses(self):
        for words, said in (
            ([self.word, "none"], "there is no file none"), ([self.word, "crates"], "crates is a folder"),
            ([self.word, "a", "b"], f"{self.word} takes one file"),
        ):
            code, out, err = command(*words)
            if (code, out) != (2, "") or said not in err:
                fail(f"{words}: status {code}, prints {out!r}, says {err!r}")


def guide_part(part):
    """The text of a part of the guide."""
    with open(f"{ROOT}/docs/GUIDE.md", encoding="utf-8") as text:
        return dict(part.split("\n", 1) for part in text.read().split("\n## ")[1:])[part]


def guide_blocks(part):
    """The texts that a part of the guide sets off."""
    return [re.sub("^    ", "", block, flags=re.M) for block in re.findall(r"(?:^    .*\n)+", guide_part(part), flags=re.M)]


def lines_of_bidegrees(lines):
    """Counts by column, a and b."""
    return {tuple(map(int, line.split(",")[1:4])): int(line.split(",")[4]) for line in lines.split("\n")[:-1]}


def alternating(counts):
    """By bidegree the alternating sum over the columns, where it is not zero: the K-polynomial."""
    sums = {}
    for (column, a, b), count in counts.items():
        sums[a, b] = sums.get((a, b), 0) + (-1) ** column * count
    return {bidegree: total for bidegree, total in sums.items() if total}


def cancels(counts, minimal):
    """Whether pairs of the same bidegree in neighbouring columns are all that the counts have more than the minimal ones."""
    for a, b in {key[1:] for key in (*counts, *minimal)}:
        left = 0
        for column in range(12):
            left = counts.get((column, a, b), 0) - minimal.get((column, a, b), 0) - left
            if left < 0:
                return False
        if left:
            return False
    return True
