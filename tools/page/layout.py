# SPDX-License-Identifier: MIT OR Apache-2.0
"""Lines filled, levels cut into bands, parts broken into pages: for any unit of width and height."""


def filled(pieces, room, gap):
    """Lines of pieces (markup, width), as (markup, width) again; a piece that is wider than the room stands alone."""
    lines = []
    for markup, width in pieces:
        if lines and lines[-1][1] + gap + width <= room:
            lines[-1] = (lines[-1][0] + " " + markup, lines[-1][1] + gap + width)
        else:
            lines.append((markup, width))
    return lines or [("", 0)]


class Matrix:
    """A level: a column for each vector, a row for each generator below. `entry` sets terms in a room and gives lines; heads are the least widths."""

    def __init__(self, vectors, entry, least, most, heads, padding):
        self.entry, self.padding, self.columns = entry, padding, []
        for v in vectors:
            column = {}
            for t in v:
                column.setdefault(t[1], []).append(t)
            self.columns.append(column)
        self.least = [max([h] + [least(ts) for ts in column.values()]) for h, column in zip(heads, self.columns)]
        self.most = [max([h] + [most(ts) for ts in column.values()]) for h, column in zip(heads, self.columns)]
        self.lines = {}

    def set(self, j, i, width):
        """The lines of an entry in this width."""
        key = j, i, width
        if key not in self.lines:
            self.lines[key] = self.entry(self.columns[j][i], width)
        return self.lines[key]

    def bands(self, room, over):
        """Columns as (first, last + 1, widths), so that all of it takes the fewest lines; `over`: the lines of a band's heads."""
        best = None
        for across in range(1, 13):
            # so wide that so many columns fill the room
            cap = (room - (across - 1) * self.padding) / across
            cap = int(cap) if isinstance(room, int) else cap
            widths = [min(max(l, min(m, cap)), room) for l, m in zip(self.least, self.most)]
            if best and widths == best[2]:
                continue
            cut = self.cut(widths, room)
            height = sum(over + sum(self.row_height(a, b, i, widths) for i in self.rows(a, b)) for a, b in cut)
            if best is None or height < best[0]:
                best = (height, cut, widths)
        return [(a, b, best[2][a:b]) for a, b in best[1]]

    def cut(self, widths, room):
        """The fewest bands, as even as can be: the sum of the squares of what is left blank is least."""
        best = [(0, 0, 0)] + [None] * len(widths)
        for b in range(1, len(widths) + 1):
            used = 0
            for a in range(b - 1, -1, -1):
                used += widths[a] + (self.padding if used else 0)
                if used > room and a < b - 1:
                    break
                bands, blank, _ = best[a]
                this = (bands + 1, blank + (room - min(used, room)) ** 2, a)
                if best[b] is None or this[:2] < best[b][:2]:
                    best[b] = this
        out, b = [], len(widths)
        while b:
            out.append((best[b][2], b))
            b = best[b][2]
        return out[::-1]

    def rows(self, a, b):
        return sorted(set(i for column in self.columns[a:b] for i in column))

    def row_height(self, a, b, i, widths):
        return max(len(self.set(j, i, widths[j])) for j in range(a, b) if i in self.columns[j])


class Part:
    """What stands on the page in one piece or, where it must, in several: units of these heights under a head, which stands again (`again`) over a further
    piece. `render(a, b)` sets units a to b - 1. `before`: the blank above it, none at a page's top. `keep`: it stays with what follows."""

    def __init__(self, units, render, head=0, again=0, before=0, keep=False):
        self.units, self.render, self.head, self.again, self.before, self.keep = units, render, head, again, before, keep

    def height(self, a=0, b=None):
        return (self.again if a else self.head) + sum(self.units[a:b])

    def fits(self, a, space):
        """How many units from a on stand in this space; of four or more no single one is left alone on either side."""
        left, height, b = len(self.units) - a, self.again if a else self.head, a
        while b < len(self.units) and height + self.units[b] <= space:
            height += self.units[b]
            b += 1
        if b == len(self.units):
            return left
        alone = 2 if left > 3 else 1
        count = min(b - a, left - alone)
        return count if count >= alone else 0

    def least(self, room):
        """The height of the least first piece on a page of this room."""
        return self.height() if self.height() <= WHOLE * room else self.height(0, 2 if len(self.units) > 3 else 1)


WHOLE = 0.25  # of a page: a part up to this high is broken only where it does not fit on a page of its own


def paged(parts, room):
    """Pages of (what is set, the blank above it)."""
    pages, used = [[]], 0

    def turn():
        nonlocal used
        pages.append([])
        used = 0

    for at, part in enumerate(parts):
        # what stays together: this part and those that follow it, of the last one its first piece
        need, k = part.before if used else 0, at
        while parts[k].keep:
            need += parts[k].height() + parts[k + 1].before
            k += 1
        if used and used + need + parts[k].least(room) > room and not (at and parts[at - 1].keep):
            turn()
        a = 0
        while a < len(part.units):
            before = part.before if used and a == 0 else 0
            whole = part.height(a) <= WHOLE * room
            b = a + part.fits(a, room - used - before)
            if b < len(part.units) and used and (whole or b == a) and not (a == 0 and at and parts[at - 1].keep and b > a):
                turn()
                continue
            if b == a:  # higher than a page by itself
                b = a + 1
            pages[-1].append((part.render(a, b), before))
            used += before + part.height(a, b)
            a = b
            if a < len(part.units):
                turn()
    return pages
