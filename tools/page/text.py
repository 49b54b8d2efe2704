# SPDX-License-Identifier: MIT OR Apache-2.0
"""The page as text of 72 columns."""
from layout import Matrix, Part, filled, paged
from setter import Setter
from words import LETTER, columns_of, pair, tally, visible


class Text(Setter):
    """72 columns: the text, a rule, the blank margin. Widths are columns, heights lines."""

    WIDTH, MARGIN, LINES, PADDING = 72, 16, 60, 3
    INDENT = 14  # columns in front of what a level is

    def __init__(self, problem, names, title, two_sided):
        super().__init__(problem, names, title)
        self.two_sided, self.room = two_sided, self.WIDTH - self.MARGIN - 2

    # -- pieces

    def words(self, text, room=None):
        """Words as pieces, one that is wider than the room cut."""
        out = []
        for word in text.split():
            while columns_of(word) > (room or self.room):
                at = next(k for k in range(len(word), 0, -1) if columns_of(word[:k]) <= (room or self.room))
                out.append((word[:at], columns_of(word[:at])))
                word = word[at:]
            out.append((word, columns_of(word)))
        return out

    def name(self, v):
        return v.plain, columns_of(v.plain)

    @staticmethod
    def joined(piece, tail):
        return [(piece[0] + tail if tail[0] in ":,." else piece[0] + " " + tail, piece[1] + len(tail) + (tail[0] not in ":,."))]

    def comma(self, names):
        return [(n + ("," if k + 1 < len(names) else ""), w + (k + 1 < len(names))) for k, (n, w) in enumerate(names)]

    def atoms(self, t, first, base=False):
        """The factors of a term, the sign with the first."""
        minus, number, powers = self.factors(t)
        out = [number] if number and not (base and number == "1") else []
        out += [v.plain if e == 1 else "%s^%d" % (v.plain, e) for v, e in powers] + ([LETTER + str(t[1])] if base else [])
        sign = ("-" if minus else "") if first else ("- " if minus else "+ ")
        return [sign + out[0]] + out[1:]

    def term_piece(self, t, first, base=False):
        key = t, first, base
        if key not in self.known:
            text = " ".join(self.atoms(t, first, base))
            self.known[key] = text, columns_of(text)
        return self.known[key]

    def pieces(self, terms, base=False, room=None):
        out = []
        for k, t in enumerate(terms):
            piece = self.term_piece(t, k == 0, base)
            out += [piece] if piece[1] <= (room or self.room) else [(a, columns_of(a)) for a in self.atoms(t, k == 0, base)]
        return out

    @staticmethod
    def lines(pieces, room):
        return [markup for markup, _ in filled(pieces, room, 1)]

    def paragraph(self, lines, before=0, keep=False):
        return Part([1] * len(lines), lambda a, b: lines[a:b], before=before, keep=keep)

    @staticmethod
    def padded(text, width):
        return text + " " * (width - columns_of(text))

    # -- parts

    def title_parts(self):
        q = self.q
        out = ["=" * self.room] + self.lines(self.words(self.title), self.room) + ["=" * self.room]
        if q.well_formed:
            out += [""] + self.lines(self.ring(), self.room)
            if q.weights:
                out += self.lines(self.weights(), self.room)
            out += self.lines(self.words(self.LEGEND % (", bidegree" if q.below_pairs else "")), self.room)
        yield self.paragraph(out)

    def refusal_parts(self, name, refusal, more=None):
        out = [name.upper()]
        for kind, content in self.refusal_lines(refusal):
            pieces = self.words(content, self.room - 4) if kind == "line" else content
            indent = "    " if kind == "line" else "  "
            if kind == "value":
                pieces = self.words("The value, modulo %d:" % self.q.p) + self.pieces(refusal.value, self.q.s > 1, self.room - 4)
            out += [indent + l for l in self.lines(pieces, self.room - 4)]
        if more:
            out += ["  " + l for l in self.lines(self.words(more), self.room - 4)]
        yield self.paragraph(out, 2)

    def tables(self):
        both = []
        for name, table in (("Betti numbers of the list", self.q.betti), ("Minimal Betti numbers", self.q.minimal)):
            used = self.used_columns(table)
            wide = max(4, 2 + max(len(str(x)) for _, row in table for x in row))
            head = [name, " " * 6 + "".join(str(j).rjust(wide) for j in range(used))]
            both.append((head, [(label + (":" if label != "total" else "")).rjust(6) + "".join(str(x or "-").rjust(wide) for x in row[:used])
                for label, row in table]))
        half = self.room // 2
        if all(len(line) < half for head, rows in both for line in head + rows):
            (head, rows), (other, others) = both
            beside = lambda left, right: [l.ljust(half) + r for l, r in zip(left, right)]
            both = [(beside(head, other), beside(rows, others))]
        for head, rows in both:
            yield Part([1] * len(rows), lambda a, b, head=head, rows=rows: head + rows[a:b], 2, 2, 1)

    def bidegree_table(self):
        lines = []
        for column, counts in sorted(self.q.bidegrees.items()):
            pieces = [("%d of %s%s" % (c, pair(b), "," if k + 1 < len(counts) else ""), len("%d of %s" % (c, pair(b))) + 1) for k, (b, c) in enumerate(counts)]
            lines += [("column %d" % column if k == 0 else "").rjust(9) + "  " + l for k, l in enumerate(self.lines(pieces, self.room - 11))]
        yield Part([1] * len(lines), lambda a, b: ["Bidegrees of the list" + (", continued" if a else "")] + lines[a:b], 1, 1, 1)

    def level(self, k):
        name, sentence = self.level_head(k)
        yield self.heading(name, sentence + "; " + tally(self.q.levels[k].degrees, lambda d: "degree %d" % d), True)
        yield from self.bands(k)

    def heading(self, name, sentence, keep):
        out = [" " * self.INDENT + l for l in self.lines(self.words(sentence), self.room - self.INDENT)]
        out[0] = name.upper().ljust(self.INDENT) + out[0][self.INDENT:]
        return self.paragraph(out + (["-" * self.room] if keep else []), before=2, keep=keep)

    def bands(self, k):
        q, level = self.q, self.q.levels[k]
        vectors, below = level.vectors, q.below[k]
        base = bool(k) or q.s > 1
        labels = [["%s%d" % (LETTER, i + 1), str(d)] + ([pair(q.below_pairs[k][i])] if q.below_pairs else []) for i, d in enumerate(below)]
        label_widths = [max(len(l[c]) for l in labels) for c in range(len(labels[0]))]
        heads = {"degree": [str(d) for d in level.degrees]}
        if level.bidegrees:
            heads["bidegree"] = [pair(b) for b in level.bidegrees]
        l1 = max(sum(label_widths) + len(label_widths) - 1, max(map(len, heads)), len("leading" if k == 0 else "frame"))
        room = self.room - l1 - 5
        frames = [self.term_piece(v[0], True, base)[0] for v in vectors]
        least_head = [max([len(str(j + 1))] + [len(h[j]) for h in heads.values()] + [min(columns_of(frames[j]), room)]) for j in range(len(vectors))]
        entry = lambda terms, width: self.lines(self.pieces(terms, room=width), width)
        grid = Matrix(vectors, entry, lambda ts: max(w for _, w in self.pieces(ts, room=room)),
            lambda ts: sum(w + 1 for _, w in self.pieces(ts, room=room)) - 1, least_head, self.PADDING)
        bands = grid.bands(room, len(heads) + 5)
        for number, (a, b, widths) in enumerate(bands):
            yield self.band(k, grid, a, b, widths, len(bands), l1, labels, label_widths, heads, frames, 1 if number else 0)

    def band(self, k, grid, a, b, widths, bands, l1, labels, label_widths, heads, frames, before):
        count = len(grid.columns)
        rows, left_out = self.band_rows(grid, k, a, b, bands)
        cells = {}
        for i in rows:
            for j in range(a, b):
                cells[i, j] = grid.set(j, i, widths[j - a]) if i in grid.columns[j] else ["."]
        units = self.units_of([max(len(cells[i, j]) for j in range(a, b)) for i in rows])
        frame = [self.lines([(w, columns_of(w)) for w in frames[j].split(" ")], widths[j - a]) for j in range(a, b)]
        gap = " " * self.PADDING

        def row(label, texts, left=" ", right=" "):
            return (self.padded(label, l1) + " " + left + " " + gap.join(self.padded(t, w) for t, w in zip(texts, widths)) + " " + right).rstrip()

        across = sum(widths) + self.PADDING * (len(widths) - 1)
        corners = (" " * (l1 + 1) + ("+-" if a == 0 else "  ") + " " * across + ("-+" if b == count else "")).rstrip()
        over = [row("", [str(j + 1) for j in range(a, b)])] + [row(name, values[a:b]) for name, values in heads.items()]
        over += [row(("leading" if k == 0 else "frame") if r == 0 else "", [f[r] if r < len(f) else "" for f in frame]) for r in range(max(map(len, frame)))]

        def caption(continued):
            words = self.head_of_band(k, a, b, left_out, continued)
            return self.lines(self.words(words), self.room) if words else []

        def render(first, last):
            out = caption(first > 0) + over + ([corners] if first == 0 else [])
            for r, x, y in self.rows_of(units[first:last]):
                i = rows[r]
                label = " ".join(text.ljust(w) if c == 0 else text.rjust(w) for c, (text, w) in enumerate(zip(labels[i - 1], label_widths)))
                for l in range(x, y):
                    texts = [cells[i, j][l] if l < len(cells[i, j]) else "" for j in range(a, b)]
                    out.append(row(label if l == x else "", texts, "|" if a == 0 else " ", "|" if b == count else " "))
            return out + ([corners] if last == len(units) else [])

        heights = [y - x for _, x, y in units]
        heights[-1] += 1
        return Part(heights, render, len(caption(False)) + len(over) + 1, len(caption(True)) + len(over), before)

    def colophon(self):
        if self.closing():
            yield self.heading(*self.closing(), False)
        digest = lambda what, text: [what.ljust(22) + text[:32], " " * 22 + text[32:]]
        out = ["-" * self.room] + self.lines(self.words("sha256 of the file %s, %s bytes:" % (visible(self.q.name), format(self.q.bytes, ","))), self.room)
        out += digest("", self.q.sha256) + self.lines(self.words(self.PROVED), self.room)
        for word, printed, program, its in self.q.proofs():
            out += digest("  " + word, printed) + digest("  by " + program, its)
        out += self.lines(self.words(self.unproved()), self.room)
        yield Part([len(out)], lambda a, b: out, before=1)

    def render(self):
        pages = paged(list(self.parts()), self.LINES - 4)
        out = []
        for at, page in enumerate(pages, 1):
            flipped = self.two_sided and at % 2 == 0
            foot, room = "page %d of %d" % (at, len(pages)), self.WIDTH
            name = visible(self.q.name)
            while columns_of(name) > room - len(foot) - 2:
                name = name[:-3] + ".."
            ends = [foot, name] if flipped else [name, foot]
            lines = [ends[0] + " " * (room - columns_of(ends[0] + ends[1])) + ends[1], "sha256 " + self.q.sha256, "-" * room, ""]
            for content, before in page:
                lines += [self.barred(l, flipped) for l in [""] * before + content]
            if at < len(pages):
                lines += [self.barred("", flipped)] * (self.LINES - len(lines))
            out.append("".join(l + "\n" for l in lines))
        return "\f".join(out)

    def barred(self, line, flipped):
        return (" " * self.MARGIN + "| " + line).rstrip() if flipped else self.padded(line, self.room) + " |"
