# SPDX-License-Identifier: MIT OR Apache-2.0
"""The page as HTML, made for print: every line and every page is broken here, by the widths of Times and Helvetica, so that no browser's own breaking, and no
margin box, is relied on."""
import functools
import html
import itertools
import unicodedata

from layout import WHOLE, Matrix, Part, filled, paged
from setter import Setter
from words import LETTER, pair, tally, visible


# widths of the characters 32 to 126, in thousandths of the size
FACES = {
    "roman": "250 333 408 500 500 833 778 180 333 333 500 564 250 333 250 278 500 500 500 500 500 500 500 500 500 500 278 278 564 564 564 444 921 722 667 667"
    " 722 611 556 722 722 333 389 722 611 889 722 722 556 722 667 556 611 722 722 944 722 722 611 333 278 333 469 500 333 444 500 444 500 444 333 500 500 278"
    " 278 500 278 778 500 500 500 500 333 389 278 500 500 722 500 500 444 480 200 480 541",
    "italic": "250 333 420 500 500 833 778 214 333 333 500 675 250 333 250 278 500 500 500 500 500 500 500 500 500 500 333 333 675 675 675 500 920 611 611 667"
    " 722 611 611 722 722 333 444 667 556 833 667 722 611 722 611 500 556 722 611 833 611 556 556 389 278 389 422 500 333 500 500 444 500 444 278 500 500 278"
    " 278 444 278 722 500 500 500 500 389 389 278 500 444 667 444 444 389 400 275 400 541",
    "sans": "278 278 355 556 556 889 667 191 333 333 389 584 278 333 278 278 556 556 556 556 556 556 556 556 556 556 278 278 584 584 584 556 1015 667 667 722"
    " 722 667 611 778 722 278 500 667 556 833 722 778 667 778 722 667 611 722 667 944 667 667 611 278 278 278 469 556 333 556 556 500 556 556 278 556 556 222"
    " 222 500 222 833 556 556 556 556 333 500 278 556 500 722 500 500 500 334 260 334 584",
}
FACES = {name: [int(w) / 1000 for w in widths.split()] for name, widths in FACES.items()}
BOLD = 1.1  # times the plain face
MONO = 0.6


@functools.lru_cache(None)
def width_of(text, face="roman"):
    """In units of the size."""
    table = FACES[face]
    return sum(table[ord(ch) - 32] if 32 <= ord(ch) < 127 else 0 if unicodedata.combining(ch) else 1.0 if unicodedata.east_asian_width(ch) in "WF" else 0.75
        for ch in text)


PAPERS = {"A4": (595.28, 841.89), "letter": (612.0, 792.0)}
# Measures in points; the style below and the heights by which pages are broken have them from here.
POINTS = {
    "size": 9.5, "line": 13.0,  # text
    "small": 7.5, "small_line": 10.5,  # labels, degrees, captions
    "number_line": 12.0, "frame_line": 13.0, "under_heads": 5.0,
    "row": 2.4, "tall_row": 6.0,  # blank in a row, half above and half below; where rows have several lines
    "title": 16.0, "title_line": 19.0, "under_title": 5.0, "under_header": 5.0,
    "heading": 11.5, "heading_line": 14.0, "over_heading": 4.5, "under_heading": 6.0, "over_level": 17.0,
    "caption": 13.0, "cell": 5.0,  # blank left and right of an entry
    "betti_line": 12.0, "betti_gap": 11.0, "rule": 0.75,
    "digest": 6.4, "digest_line": 9.0,
    "inner": 46.0, "outer": 142.0, "gap": 13.0,  # from the paper's edge to the text, to the text on the margin's side, from the text to the rule
    "top": 62.0, "bottom": 52.0, "head": 34.0, "foot": 28.0,  # from the paper's edge: the text, the running lines
    "box": 9.0, "under_refused": 3.0, "box_rule": 2.0,
}
STYLE = """
@page { size: %(paper)s; margin: 0; }
* { box-sizing: border-box; margin: 0; padding: 0; }
html { color: #000; background: #fff; font: %(size)spt/%(line)spt %(serif)s; font-variant-numeric: lining-nums; -webkit-text-size-adjust: none; }
.sheet { position: relative; width: %(wide)spt; height: %(high)spt; padding: %(top)spt %(outer)spt 0 %(inner)spt; break-after: page; white-space: nowrap; }
.sheet:last-child { break-after: auto; }
.sheet::after { content: ""; position: absolute; top: %(top)spt; bottom: %(bottom)spt; right: %(ruled)spt; border-left: 0.375pt solid #000; }
.verso { padding-left: %(outer)spt; padding-right: %(inner)spt; }
.verso::after { right: auto; left: %(ruled)spt; }
.running { position: absolute; left: %(inner)spt; right: %(outer)spt; display: flex; justify-content: space-between; }
.running { font: %(small)spt/%(small_line)spt %(sans)s; }
.verso .running { left: %(outer)spt; right: %(inner)spt; flex-direction: row-reverse; }
.top { top: %(head)spt; } .foot { bottom: %(foot)spt; }
.digest { font: %(digest)spt/%(digest_line)spt %(mono)s; }
h1 { font: bold %(title)spt/%(title_line)spt %(sans)s; padding-bottom: %(under_title)spt; }
.header { border-bottom: 1.5pt solid #000; padding-bottom: %(under_header)spt; }
.levelhead { display: table; width: 100%%; border-top: %(rule)spt solid #000; padding-top: %(over_heading)spt; padding-bottom: %(under_heading)spt; }
.levelhead > * { display: table-cell; vertical-align: baseline; }
h2 { font: bold %(heading)spt/%(line)spt %(sans)s; width: 1pt; padding-right: 14pt; }
table { border-collapse: separate; border-spacing: 0; }
caption { font: %(small)spt/%(small_line)spt %(sans)s; text-align: left; height: %(caption)spt; white-space: nowrap; }
th { font-weight: normal; text-align: left; }
.matrix th, .matrix td { padding: 0 %(cell)spt; vertical-align: baseline; }
.matrix tr > :first-child { padding-left: 0; padding-right: 7pt; }
.matrix thead tr > :first-child, .label { font: %(small)spt/%(small_line)spt %(sans)s; }
.matrix tbody th, .matrix tbody td { padding-top: %(half_row)spt; padding-bottom: %(half_row)spt; }
.tall tbody th, .tall tbody td { padding-top: %(half_tall)spt; padding-bottom: %(half_tall)spt; }
.matrix .number { height: %(number_line)spt; font: bold 8.5pt/%(number_line)spt %(sans)s; }
.matrix .degree { height: %(small_line)spt; font: %(small)spt/%(small_line)spt %(sans)s; }
.matrix .frame { height: %(frame_high)spt; }
.matrix .under th { padding-bottom: %(under_heads)spt; }
.label { display: inline-block; text-align: right; }
.open { border-left: 0.75pt solid #000; } .shut { border-right: 0.75pt solid #000; }
.open, .shut { position: relative; }
.open::before, .shut::after { content: ""; position: absolute; width: 3.6pt; top: 0; bottom: 0; }
.open::before { left: 0; } .shut::after { right: 0; }
.first > .open::before, .first > .shut::after { border-top: 0.75pt solid #000; }
.last > .open::before, .last > .shut::after { border-bottom: 0.75pt solid #000; }
.s { display: inline-block; width: 0.8em; }
i { padding-left: 0.06em; }
sub, sup { font-size: 70%%; line-height: 0; font-style: normal; }
sub + sup.over { margin-left: -0.5em; }
.tables table { display: inline-table; vertical-align: top; }
.tables table + table { margin-left: 34pt; }
.betti { font-variant-numeric: lining-nums tabular-nums; }
.betti th, .betti td { text-align: right; line-height: %(betti_line)spt; height: %(betti_line)spt; padding-left: %(betti_gap)spt; }
.betti th { font: %(small)spt/%(betti_line)spt %(sans)s; }
.betti tr > :first-child { padding-left: 0; }
.betti thead th, .betti thead td { border-bottom: 0.5pt solid #000; }
.betti .total th, .betti .total td { border-top: 0.5pt solid #000; }
.pairs th, .pairs td { vertical-align: baseline; }
.pairs th { font: %(small)spt/%(small_line)spt %(sans)s; padding-right: 9pt; }
.box h2 { padding-bottom: %(under_refused)spt; }
.box { border-left: %(box_rule)spt solid #000; padding-left: %(box)spt; }
.code { font: 8pt/%(line)spt %(mono)s; white-space: pre; }
.colophon { border-top: %(rule)spt solid #000; padding-top: 4pt; }
.colophon p, .colophon th, .colophon td { font: %(small)spt/%(small_line)spt %(sans)s; }
.colophon th, .colophon td { padding-right: 9pt; }
.colophon .digest { font: %(digest)spt/%(digest_line)spt %(mono)s; padding-right: 0; }
.colophon table { margin: 2pt 0; }
@media screen { html { background: #ddd; } .sheet { background: #fff; margin: 18pt auto; box-shadow: 0 0 6pt #0005; } }
"""
SERIF = '"Times New Roman", "Liberation Serif", "Nimbus Roman", "TeX Gyre Termes", Tinos, Times, serif'
SANS = 'Arial, Helvetica, "Liberation Sans", "Nimbus Sans", "TeX Gyre Heros", Arimo, sans-serif'
MONOSPACED = '"Liberation Mono", "DejaVu Sans Mono", "Courier New", monospace'
POLICY = "default-src 'none'; style-src 'unsafe-inline'"
MINUS = "\u2212"


class Page(Setter):
    """HTML: a section for each page, with its running lines. Widths and heights are points."""

    def __init__(self, problem, names, title, paper, two_sided):
        super().__init__(problem, names, title)
        self.paper, self.two_sided = paper, two_sided
        self.wide, self.high = PAPERS[paper]
        self.room = self.wide - POINTS["inner"] - POINTS["outer"]
        self.depth = self.high - POINTS["top"] - POINTS["bottom"]

    # -- pieces: widths in points at the size of the text

    def words(self, text, face="roman", size=None, room=None, bold=False):
        size, room, out = size or POINTS["size"], room or self.room, []
        wide = lambda t: width_of(t, face) * size * (BOLD if bold else 1)
        for word in text.split():
            while wide(word) > room:
                at = max(1, next((k for k in range(len(word), 0, -1) if wide(word[:k]) <= room), 1))
                out.append((html.escape(word[:at]), wide(word[:at])))
                word = word[at:]
            out.append((html.escape(word), wide(word)))
        return out

    def name(self, v):
        markup = "<i>%s</i>" % html.escape(v.stem) if v.italic else html.escape(v.stem)
        width = width_of(v.stem, "italic" if v.italic else "roman") + 0.06
        if v.index:
            markup, width = markup + "<sub>%s</sub>" % v.index, width + 0.7 * width_of(v.index)
        return markup, width * POINTS["size"]

    def power(self, v, e):
        markup, width = self.name(v)
        if e == 1:
            return markup, width
        over = len(v.index) == 1
        digits = 0.35 * (max(0, len(str(e)) - 1) if over else len(str(e)))
        return markup + ('<sup class="over">%d</sup>' if over else "<sup>%d</sup>") % e, width + digits * POINTS["size"]

    @staticmethod
    def joined(piece, tail):
        glued = tail[0] in ":,."
        return [(piece[0] + ("" if glued else "&nbsp;") + tail.replace(" ", "&nbsp;"), piece[1] + (width_of(tail) + (0 if glued else 0.25)) * POINTS["size"])]

    def comma(self, names):
        return [(n + ("," if k + 1 < len(names) else ""), w + 0.25 * POINTS["size"]) for k, (n, w) in enumerate(names)]

    def generator(self, i):
        return "<i>%s</i><sub>%d</sub>" % (LETTER, i), (0.444 + 0.06 + 0.35 * len(str(i))) * POINTS["size"]

    def atoms(self, t, sign, base=False):
        """The factors of a term. sign: none where it is the first of a line of its own, else in its place."""
        minus, number, powers = self.factors(t)
        size = POINTS["size"]
        out = [(number, width_of(number) * size)] if number and not (base and number == "1") else []
        out += [self.power(v, e) for v, e in powers] + ([self.generator(t[1])] if base else [])
        if sign == "none":
            lead = (MINUS, 0.564 * size) if minus else ("", 0)
        else:
            lead = ('<span class="s">%s</span>' % ("" if sign == "first" and not minus else MINUS if minus else "+"), 0.8 * size)
        return [(lead[0] + out[0][0], lead[1] + out[0][1])] + out[1:]

    def term_piece(self, t, first, base=False, sign=None):
        key = t, sign or ("none" if first else "in"), base
        if key not in self.known:
            self.known[key] = self.whole_term(t, key[1], base)
        return self.known[key]

    def whole_term(self, t, sign, base):
        atoms = self.atoms(t, sign, base)
        gap = 0.25 * POINTS["size"] if self.apart else 0
        plain = (" " if self.apart else "").join(a for a, _ in (atoms[:-1] if base else atoms))
        width = sum(w for _, w in atoms) + gap * (len(atoms) - 1)
        if base:  # a little blank before the generator
            return plain + ("&nbsp;" if len(atoms) > 1 else "") + atoms[-1][0], width + 0.25 * POINTS["size"]
        return plain, width

    def pieces(self, terms, base=False, room=None, slots=False):
        """Terms as pieces; slots: the first one's sign has the place that the others' have."""
        out = []
        for k, t in enumerate(terms):
            sign = ("first" if slots else "none") if k == 0 else "in"
            piece = self.term_piece(t, k == 0, base, sign)
            out += [piece] if piece[1] <= (room or self.room) else self.atoms(t, sign, base)
        return out

    def lines(self, pieces, room):
        return [markup for markup, _ in filled(pieces, room, 0.25 * POINTS["size"])]

    def natural(self, terms):
        """The width of an entry on one line."""
        return sum(w for _, w in self.pieces(terms, room=1e9)) + 0.25 * POINTS["size"] * (len(terms) - 1)

    def entry(self, terms, width):
        """Lines of an entry: one if it fits, else signs under each other."""
        if self.natural(terms) <= width:
            return self.lines(self.pieces(terms, room=1e9), 1e9)
        return self.lines(self.pieces(terms, room=width, slots=True), width)

    # -- parts

    def title_parts(self):
        q, m = self.q, POINTS
        title = self.lines(self.words(self.title, "sans", m["title"], bold=True), self.room)
        lines = []
        if q.well_formed:
            lines = self.lines(self.ring(), self.room)
            if q.weights:
                lines += self.lines(self.weights(), self.room)
            lines += self.lines(self.words(self.LEGEND % (", bidegree" if q.below_pairs else "")), self.room)
        markup = '<div class="header"><h1>%s</h1>%s</div>' % ("<br>\n".join(title), "<p>%s</p>" % "<br>\n".join(lines) if lines else "")
        yield Part([len(title) * m["title_line"] + m["under_title"] + len(lines) * m["line"] + m["under_header"] + 1.5], lambda a, b: markup)

    def refusal_parts(self, name, refusal, more=None):
        room, out = self.room - POINTS["box"] - POINTS["box_rule"], []
        out.append(("head", [html.escape(name)]))
        for kind, content in self.refusal_lines(refusal):
            if kind == "line":
                out.append((kind, [m for m, _ in self.code(content, room)]))
            elif kind == "value":
                out.append((kind, self.lines(self.words("The value, modulo %d:" % self.q.p) + self.pieces(refusal.value, self.q.s > 1, room), room)))
            else:
                out.append((kind, self.lines(content, room)))
        if more:
            out.append(("said", self.lines(self.words(more), room)))
        flat = [(at, kind, line) for at, (kind, lines) in enumerate(out) for line in lines]

        def render(a, b):
            inside = []
            for (_, kind), lines in itertools.groupby(flat[a:b], lambda x: x[:2]):
                kinds = {"head": ("<h2>", "</h2>"), "line": ('<p class="code">', "</p>"), "value": ('<p class="value">', "</p>")}
                opened, closed = kinds.get(kind, ("<p>", "</p>"))
                inside.append(opened + "<br>\n".join(line for _, _, line in lines) + closed)
            return '<div class="box">%s</div>' % "".join(inside)

        yield Part([POINTS["line"] + (POINTS["under_refused"] if kind == "head" else 0) for _, kind, _ in flat], render, before=16.0)

    def code(self, text, room):
        """A line of the file and what is said of it, cut where it is too long."""
        most = int(room / (MONO * 8))
        return [(html.escape(text[k:k + most]), 0) for k in range(0, len(text), most)]

    def betti_table(self, name, table, a=0, b=None, continued=False):
        used = self.used_columns(table)
        out = ['<table class="betti"><caption>%s</caption>' % (name + (", continued" if continued else ""))]
        out.append("<thead><tr><td></td>%s</tr></thead><tbody>" % "".join('<th scope="col">%d</th>' % j for j in range(used)))
        for label, row in table[a:b]:
            out.append('<tr%s><th scope="row">%s</th>%s</tr>' % (' class="total"' if label == "total" else "", label.replace("-", MINUS),
                "".join("<td>%s</td>" % (x or "\u2013") for x in row[:used])))
        return "".join(out) + "</tbody></table>"

    def tables(self):
        q, m = self.q, POINTS
        both = [("Betti numbers of the list", q.betti), ("Minimal Betti numbers", q.minimal)]
        head = m["caption"] + m["betti_line"] + 1.5
        cell = lambda table: m["betti_gap"] + max(len(str(x)) for _, row in table for x in row) * 0.5 * m["size"]
        wide = sum(24 + cell(t) * self.used_columns(t) for _, t in both) + 34
        if wide <= self.room and len(q.betti) * m["betti_line"] <= WHOLE * self.depth:
            markup = '<div class="tables">%s</div>' % "".join(self.betti_table(*t) for t in both)
            yield Part([head + len(q.betti) * m["betti_line"]], lambda a, b: markup, before=14.0)
            return
        for name, table in both:
            yield Part([m["betti_line"]] * len(table), lambda a, b, name=name, table=table: self.betti_table(name, table, a, b, a > 0), head, head, 14.0)

    def bidegree_table(self):
        q, m = self.q, POINTS
        rows = []
        for column, counts in sorted(q.bidegrees.items()):
            pieces = []
            for k, (b, c) in enumerate(counts):
                text = "%d of %s%s" % (c, pair(b), "," if k + 1 < len(counts) else "")
                pieces.append((text.replace(" ", "&nbsp;"), width_of(text) * m["size"]))
            rows += [(column if k == 0 else None, line) for k, line in enumerate(self.lines(pieces, self.room - 48))]

        def render(a, b):
            out = ['<table class="pairs"><caption>Bidegrees of the list%s</caption><tbody>' % (", continued" if a else "")]
            for k in range(a, b):
                column = rows[k][0]
                if column is None and k > a:
                    out[-1] = out[-1][:-len("</td></tr>")] + "<br>\n" + rows[k][1] + "</td></tr>"
                else:
                    column = next(c for c, _ in rows[k::-1] if c is not None)
                    out.append('<tr><th scope="row">column %d</th><td>%s</td></tr>' % (column, rows[k][1]))
            return "".join(out) + "</tbody></table>"

        yield Part([m["line"] + 0.3] * len(rows), render, m["caption"], m["caption"], 14.0)

    def level(self, k):
        name, sentence = self.level_head(k)
        words = self.words(sentence + ";")
        for part in tally(self.q.levels[k].degrees, lambda d: "degree %d" % d).split(", "):
            words.append((part.replace(" ", "&nbsp;") + ",", width_of(part + ",") * POINTS["size"]))
        words[-1] = (words[-1][0][:-1], words[-1][1])
        yield self.heading(name, words, True, k)
        yield from self.bands(k)

    def heading(self, name, words, keep, k):
        m = POINTS
        lines = self.lines(words, self.room - width_of(name, "sans") * m["heading"] * BOLD - 16)
        markup = '<div class="levelhead"><h2 id="level-%d">%s</h2><p>%s</p></div>' % (k, name, "<br>\n".join(lines))
        height = m["rule"] + m["over_heading"] + m["heading_line"] + (len(lines) - 1) * m["line"] + m["under_heading"]
        return Part([height], lambda a, b: markup, before=m["over_level"], keep=keep)

    def bands(self, k):
        q, level, m = self.q, self.q.levels[k], POINTS
        base = bool(k) or q.s > 1
        sans = lambda text: width_of(text, "sans") * m["small"]
        frames = [self.term_piece(v[0], True, base) for v in level.vectors]
        heads = [max([sans(str(j + 1)) * BOLD * 8.5 / m["small"], sans(str(level.degrees[j])), frames[j][1]]
            + ([sans(pair(level.bidegrees[j]))] if level.bidegrees else [])) for j in range(len(level.vectors))]
        # e_i, its degree, its bidegree
        labels = [self.generator(len(q.below[k]))[1],
            max(sans(str(d)) for d in q.below[k])] + ([max(sans(pair(b)) for b in q.below_pairs[k])] if q.below_pairs else [])
        label = max(sum(labels) + 6 * (len(labels) - 1), sans("bidegree" if level.bidegrees else "leading" if k == 0 else "degree")) + 7
        room = self.room - label - 2 * m["cell"] - 1.4
        least = lambda terms: min(max(self.term_piece(t, n == 0, False, "in")[1] for n, t in enumerate(terms)) if len(terms) > 1 else self.natural(terms), room)
        grid = Matrix(level.vectors, self.entry, least, self.natural, heads, 2 * m["cell"])
        bands = grid.bands(room, 5)
        for number, (a, b, widths) in enumerate(bands):
            yield self.band(k, grid, a, b, widths, len(bands), (label, labels), frames, 11.0 if number else 0.0)

    def band(self, k, grid, a, b, widths, bands, label, frames, before):
        q, level, m = self.q, self.q.levels[k], POINTS
        count = len(grid.columns)
        rows, left_out = self.band_rows(grid, k, a, b, bands)
        cells = {(i, j): grid.set(j, i, widths[j - a]) if i in grid.columns[j] else ["\u00b7"] for i in rows for j in range(a, b)}
        units = self.units_of([max(len(cells[i, j]) for j in range(a, b)) for i in rows])
        label, parts = label
        tall = any(y > 1 for _, _, y in units)
        blank = m["tall_row" if tall else "row"]

        def head(continued):
            words = self.head_of_band(k, a, b, left_out, continued)
            out = ['<table class="matrix%s"%s>' % (" tall" if tall else "", "" if words else ' aria-labelledby="level-%d"' % k)]
            out.append("<caption>%s</caption>" % words if words else "")
            out.append('<colgroup><col style="width:%.1fpt">%s</colgroup><thead>' % (label, "".join(
                '<col style="width:%.1fpt">' % (w + 2 * m["cell"]) for w in widths)))
            cell = lambda text: '<th scope="col">%s</th>' % text
            row = lambda style, first, texts: '<tr class="%s">%s%s</tr>' % (style, first, "".join(map(cell, texts)))
            name = lambda text: '<th scope="row">%s</th>' % text
            out.append(row("number", "<td></td>", range(a + 1, b + 1)).replace('<th scope', '<th class="number" scope'))
            out.append(row("degree", name("degree"), [str(d).replace("-", MINUS) for d in level.degrees[a:b]]).replace(
                '<th scope="col"', '<th class="degree" scope="col"'))
            if level.bidegrees:
                out.append(row("degree", name("bidegree"), map(pair, level.bidegrees[a:b])).replace('<th scope="col"', '<th class="degree" scope="col"'))
            out.append(row("frame under", name("leading" if k == 0 else "frame"), [f for f, _ in frames[a:b]]) + "</thead><tbody>")
            return "".join(out)

        def label_of(i):
            texts = [self.generator(i)[0], str(q.below[k][i - 1]).replace("-", MINUS)] + ([pair(q.below_pairs[k][i - 1])] if q.below_pairs else [])
            return texts[0] + "".join('<span class="label" style="width:%.1fpt">%s</span>' % (
                w + 6 + (parts[0] - self.generator(i)[1] if c == 0 else 0), t)
                for c, (t, w) in enumerate(zip(texts[1:], parts[1:])))

        def render(first, last):
            out, shown = [head(first > 0)], self.rows_of(units[first:last])
            for place, (r, x, y) in enumerate(shown):
                i = rows[r]
                style = [s for s, yes in (("first", first == 0 and place == 0), ("last", last == len(units) and place == len(shown) - 1)) if yes]
                out.append('<tr%s><th scope="row">%s</th>' % (' class="%s"' % " ".join(style) if style else "", label_of(i)))
                for j in range(a, b):
                    side = [s for s, yes in (("open", j == 0), ("shut", j == count - 1)) if yes]
                    out.append("<td%s>%s</td>" % (' class="%s"' % " ".join(side) if side else "", "<br>".join(cells[i, j][x:y])))
                out.append("</tr>\n")
            return "".join(out) + "</tbody></table>"

        heights = [(y - x) * m["line"] + (blank if x == 0 else 0) for _, x, y in units]
        over = m["number_line"] + m["small_line"] * (2 if level.bidegrees else 1) + m["frame_line"] + m["under_heads"]
        height = lambda continued: over + (m["caption"] if self.head_of_band(k, a, b, left_out, continued) else 0)
        # a row that goes on has its blank again
        return Part(heights, render, height(False), height(True) + blank, before)

    def colophon(self):
        q, m = self.q, POINTS
        if self.closing():
            name, sentence = self.closing()
            yield self.heading(name, self.words(sentence), False, len(q.levels))
        row = lambda first, second, digest: '<tr><th scope="row">%s</th><td>%s</td><td class="digest">%s</td></tr>' % (first, second, digest)
        rows = [row("file", "%s bytes" % format(q.bytes, ","), q.sha256)]
        for word, printed, program, its in q.proofs():
            rows += [row(word, "printed", printed), row("", "by %s" % program, its)]
        over, under = (self.lines(self.words(words, "sans", m["small"]), self.room) for words in (self.PROVED, self.unproved()))
        markup = '<div class="colophon"><p>%s</p><table><tbody>%s</tbody></table><p>%s</p></div>' % (
            "<br>\n".join(over), "".join(rows), "<br>\n".join(under))
        yield Part([m["rule"] + 8 + (len(over) + len(rows) + len(under)) * m["small_line"]], lambda a, b: markup, before=m["over_level"])

    def render(self):
        m = POINTS
        pages = paged(list(self.parts()), self.depth)
        style = STYLE % dict(m, paper=self.paper, serif=SERIF, sans=SANS, mono=MONOSPACED, wide="%g" % self.wide, high="%g" % (self.high - 0.5),
            ruled="%g" % (m["outer"] - m["gap"]), half_row="%g" % (m["row"] / 2), half_tall="%g" % (m["tall_row"] / 2),
            frame_high="%g" % (m["frame_line"] + m["under_heads"]))
        out = ['<!DOCTYPE html>\n<html lang="en">\n<head>\n<meta charset="utf-8">\n<meta http-equiv="Content-Security-Policy" content="%s">\n'
            "<title>%s</title>\n<style>%s</style>\n</head>\n<body>\n" % (html.escape(POLICY), html.escape(self.title), style)]
        name = visible(self.q.name)
        while width_of(name, "sans") * m["small"] > self.room - 64 * MONO * m["digest"] - 60:
            name = name[:-3] + ".."
        for at, page in enumerate(pages, 1):
            verso = self.two_sided and at % 2 == 0
            out.append('<section class="sheet%s" aria-label="Page %d of %d">\n' % (" verso" if verso else "", at, len(pages)))
            out.append('<p class="running top" aria-hidden="true"><span>%s</span><span>sha256 <span class="digest">%s</span></span></p>\n' % (
                html.escape(name), self.q.sha256))
            for markup, before in page:
                out.append('<div%s>%s</div>\n' % (' style="margin-top:%gpt"' % before if before else "", markup))
            out.append('<p class="running foot" aria-hidden="true"><span>tagetessash: the numbers are proved, the setting is not</span>'
                "<span>page %d of %d</span></p>\n</section>\n" % (at, len(pages)))
        out.append("</body>\n</html>\n")
        return "".join(out)
