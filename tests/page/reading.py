# SPDX-License-Identifier: MIT OR Apache-2.0
"""A page read back, by nothing of what set it: from the text, from the HTML, from the JSON; and what it must say, from the problem file and what the programs
print of it. Each gives the same object, Found, and they are compared."""
import html.parser
import re

VOID = {"meta", "br", "col"}
TAGS = {"html", "head", "meta", "title", "style", "body", "section", "div", "p", "span", "h1", "h2", "table", "caption", "colgroup", "col", "thead", "tbody",
        "tr", "th", "td", "i", "sub", "sup", "br"}
MINUS = "\u2212"


class Found:
    """entries[level, row, column] = {exponents: coefficient modulo p}; heads[level, column] = degree, bidegree, frame term; rows[level, row] = degree,
    bidegree; tables: label -> numbers; pairs: (column, a, b) -> count."""

    def __init__(self):
        self.entries, self.heads, self.rows, self.tables, self.pairs, self.value, self.tallies = {}, {}, {}, {}, {}, None, {}

    def differs(self, other, what):
        """What differs, '' if nothing."""
        for name in what:
            mine, theirs = getattr(self, name), getattr(other, name)
            if mine != theirs:
                if isinstance(mine, dict) and isinstance(theirs, dict):
                    keys = [k for k in set(mine) | set(theirs) if mine.get(k) != theirs.get(k)]
                    key = sorted(keys, key=repr)[0]
                    return f"{name} at {key}: {mine.get(key)!r} for {theirs.get(key)!r}, {len(keys)} in all"
                return f"{name}: {mine!r} for {theirs!r}"
        return ""


# ---- what it must say ----------------------------------------------------------------------------------------------------------------------------------------


class Sheet:
    """A problem file and what the programs print of it."""

    def __init__(self, data, printed):
        """printed: word -> bytes, of those that were asked"""
        self.want, self.printed = Found(), printed
        sheet = printed["sheet"].decode("ascii").splitlines()
        self.refused = next((tuple(map(int, l.split(",")[1:])) for l in sheet if l.startswith("X")), None)
        self.well_formed = not self.refused or self.refused[0] in (9, 13, 14, 15)
        if not self.well_formed:
            return
        fields = [[l[0]] + [int(x) for x in l.split(",")[1:]] for l in data.decode("ascii").splitlines() + sheet]
        _, self.p, self.n, _, self.s = fields[0]
        degree = {(-1, i): (0, (0, 0)) for i in range(1, self.s + 1)}
        weights, self.bigraded = None, False
        for f in fields:
            if f[0] == "D":
                degree.update({(-1, i): (d, (d, 0)) for i, d in enumerate(f[1:], 1)})
            if f[0] == "G":
                weights = list(zip(f[1::2], f[2::2]))
        lines = printed.get("bidegrees", b"X").decode("ascii")
        self.bigraded = weights is not None and not lines.startswith("X")
        complete = {f[1]: f[2] for f in fields if f[0] == "Z"}
        self.counts = {}
        leading = {}
        for f in fields:
            if f[0] == "T":
                k, (j, c, i, *x) = 0, f[1:]
            elif f[0] == "S" and f[1] in complete:
                k, j, c, i, *x = f[1:]
            else:
                continue
            if (k, j) not in leading:
                d, (a, b) = degree[k - 1, i]
                pair = (a + sum(e * w[0] for e, w in zip(x, weights)), b + sum(e * w[1] for e, w in zip(x, weights))) if self.bigraded else None
                degree[k, j] = (sum(x) + d, pair or (0, 0))
                leading[k, j] = True
                self.want.heads[k, j] = (sum(x) + d, pair, (c, i, tuple(x)))
                self.counts[k] = j
            self.want.entries.setdefault((k, i, j), {})[tuple(x)] = c
        self.degree = degree
        self.last = max(complete, default=0)
        for k in self.counts:
            found = [d for (kk, _), (d, _) in degree.items() if kk == k]
            self.want.tallies[k] = {d: found.count(d) for d in found}
        for name, word in (("Betti numbers of the list", "betti"), ("Minimal Betti numbers", "minimal")):
            text = printed.get(word, b"X").decode("ascii")
            if not text.startswith("X"):
                rows = {l[:6].strip().rstrip(":"): [0 if x == "-" else int(x) for x in l[6:].split()] for l in text.splitlines()}
                used = max((j for j, x in enumerate(rows["total"]) if x), default=0) + 1
                self.want.tables[name] = {label: row[:used] for label, row in rows.items()}
        if self.bigraded:
            self.want.pairs = {tuple(map(int, l.split(",")[1:4])): int(l.split(",")[4]) for l in lines.splitlines()}
        value = [f[1:] for f in fields if f[0] == "W"]
        self.want.value = {(i, tuple(x)): c for c, i, *x in value} or None

    def row(self, level, i):
        """What stands beside a row."""
        d, pair = self.degree[level - 1, i]
        return d, pair if self.bigraded else None


# ---- polynomials ---------------------------------------------------------------------------------------------------------------------------------------------


class Reader:
    """Tokens to polynomials: ("sign", 1 or -1), ("number", n), ("power", name, e), ("generator", i)."""

    def __init__(self, names, p):
        self.names, self.p = names, p

    def terms(self, tokens, generators=False):
        """A list of (coefficient, generator or none, exponents), as they stand."""
        out, now = [], None

        def end():
            if now is not None:
                assert now["any"], "a sign without a term"
                out.append((now["sign"] * now["number"] % self.p, now["generator"], tuple(now["exponents"])))

        for kind, *more in tokens:
            if kind == "sign" or now is None:
                end()
                now = {"sign": 1, "number": 1, "exponents": [0] * len(self.names), "generator": None, "any": False}
                if kind == "sign":
                    now["sign"] = more[0]
                    continue
            assert now["generator"] is None, "something behind a generator"
            if kind == "number":
                assert not now["any"], "a number behind a factor"
                assert more[0] < self.p and (self.p == 2 or 2 * more[0] <= self.p), "a coefficient of larger absolute value than need be"
                now["number"] = more[0]
            elif kind == "generator" and generators:
                now["generator"] = more[0]
            else:
                assert kind == "power", kind
                at = self.names.index(more[0])
                assert now["exponents"][at] == 0, "a variable twice"
                now["exponents"][at] = more[1]
            now["any"] = True
        end()
        return out

    def polynomial(self, tokens):
        out = {}
        for c, _, x in self.terms(tokens):
            assert x not in out, "a monomial twice"
            out[x] = c
        return out


def text_tokens(text, names, generator=False):
    for token in text.split():
        if token[0] == "-" or token == "+":
            yield "sign", -1 if token[0] == "-" else 1
            token = token[1:]
            if not token:
                continue
        if re.fullmatch(r"\d+", token):
            yield "number", int(token)
        elif generator and re.fullmatch(r"e\d+", token) and token not in names:
            yield "generator", int(token[1:])
        else:
            name, _, e = token.rpartition("^") if re.search(r"\^\d+$", token) else (token, "", "1")
            yield "power", name, int(e)


# ---- text ----------------------------------------------------------------------------------------------------------------------------------------------------


def bodies(text, name, sha256, two_sided):
    """The lines of the text in front of the margin; that each page has its running head, the rule and 72 columns at most."""
    pages = text.split("\f")
    lines = []
    for at, page in enumerate(pages, 1):
        rows = page.split("\n")
        assert rows.pop() == "" and (len(rows) == 60 or at == len(pages) and len(rows) <= 60), "the length of a page"
        verso = two_sided and at % 2 == 0
        assert sorted(re.split("  +", rows[0])) == sorted([name, f"page {at} of {len(pages)}"]), rows[0]
        assert rows[0].startswith("page" if verso else name) and rows[1] == f"sha256 {sha256}" and set(rows[2]) == {"-"} and rows[3] == ""
        lines.append("\f")
        for row in rows[4:]:
            assert len(row) <= 72, row
            if verso:
                assert row.startswith(" " * 16 + "|"), row
                lines.append(row[18:])
            else:
                assert row[54:] == " |", row
                lines.append(row[:54].rstrip())
    return lines


def from_text(text, sheet, names, name, sha256, two_sided=False):
    found, reader = Found(), Reader(names, sheet.p)
    lines = bodies(text, name, sha256, two_sided)
    level = band = table = None
    last_head = None

    def flush():
        if band and band["cells"]:
            for j, t in band["cells"].items():
                if t.split() not in ([], ["."]):
                    key = (level, band["row"], band["columns"][j])
                    more = reader.polynomial(text_tokens(t, names))
                    assert not set(more) & set(found.entries.get(key, {})), f"{key} twice"
                    found.entries.setdefault(key, {}).update(more)
            band["cells"] = {}

    def close():
        nonlocal band
        flush()
        if band:
            for j, (d, pair, frame) in enumerate(zip(band["degree"], band["bidegree"] or [None] * len(band["columns"]), band["frame"])):
                terms = reader.terms(text_tokens(frame, names, True), True)
                assert len(terms) == 1
                c, g, x = terms[0]
                head = (int(d), tuple(map(int, re.findall(r"\d+", pair))) if pair else None, (c, g or 1, x))
                assert found.heads.get((level, band["columns"][j]), head) == head
                found.heads[level, band["columns"][j]] = head
        band = None

    slices = lambda l: [l[a:b].strip() for a, b in zip(band["starts"], band["starts"][1:] + [None])]
    box = None
    for at, l in enumerate(lines):
        head = re.match(r"(THE BASIS|THE ELEMENTS|LEVEL (\d+))  +(.*)", l)
        caption = re.match(r"(The basis|The elements|Level (\d+))(, column.*|, continued.*|;.*)$", l)
        if box and l[:1] not in ("", " ", "\f"):
            found.value, box = value_of(box, reader, names, sheet), None
        if l == "\f":
            assert last_head != at - 1, "a head alone at a page's end"
            close()
            table = None
            continue
        if head:
            close()
            level, table = int(head[2] or 0), None
            sentence, more = head[3], at + 1
            while more < len(lines) and lines[more].startswith(" " * 14):
                sentence += " " + lines[more].strip()
                more += 1
            counts = re.findall(r"(\d+) of degree (-?\d+)", sentence)
            count = re.match(r"(\d+) ", sentence)
            if "empty, count 0" in sentence:
                found.tallies["end"] = level
            else:
                found.tallies[level] = {int(d): int(c) for c, d in counts} or {int(re.search(r"of degree (-?\d+)", sentence)[1]): int(count[1])}
            continue
        if caption:
            close()
            assert level == int(caption[2] or 0), l
            continue
        if re.fullmatch(r" +\d+(?: +\d+)*", l) and at + 1 < len(lines) and lines[at + 1].startswith("degree "):
            close()
            band = {"columns": [int(x) for x in l.split()], "starts": [m.start() for m in re.finditer(r"\d+", l)], "cells": {}, "row": None, "bidegree": None,
                    "degree": None, "frame": None}
            table = None
            continue
        if band and band["degree"] is None:
            band["degree"] = slices(l)
            continue
        if band and l.startswith("bidegree "):
            band["bidegree"] = slices(l)
            continue
        if band and band["frame"] is None:
            assert re.match("leading|frame", l), l
            band["frame"] = slices(l)
            last_head = at
            continue
        corners = re.fullmatch(r" *(\+-)?( *)(-\+)?", l)
        if band and corners:
            if band["row"] is None and (corners[1] or corners[3]) or not l and band["row"] is None:
                assert bool(corners[1]) == (band["columns"][0] == 1) and bool(corners[3]) == (band["columns"][-1] == sheet.counts[level]), "a bracket"
                last_head = at
            else:
                close()
            continue
        if band:
            label = re.match(r"e(\d+) +(-?\d+)(?: +\((\d+), (\d+)\))?(?= )", l[:band["starts"][0]])
            if not label and band["row"] is None:
                band["frame"] = [(f + " " + g).strip() for f, g in zip(band["frame"], slices(l))]
                continue
            assert ("|" in l[:band["starts"][0]]) == (band["columns"][0] == 1), "a bracket on the left"
            if l.endswith(" |"):
                assert band["columns"][-1] == sheet.counts[level], "a bracket on the right"
                l = l[:-2]
            if label:
                flush()
                band["row"] = int(label[1])
                found.rows[level, band["row"]] = (int(label[2]), (int(label[3]), int(label[4])) if label[3] else None)
                cells = slices(l)
                assert all(cells), "an empty cell"
            for j, t in enumerate(slices(l)):
                band["cells"][j] = band["cells"].get(j, "") + " " + t
            continue
        if re.match("Betti numbers|Minimal Betti", l):
            table = [(m.start(), m[0]) for m in re.finditer(r"(Betti numbers of the list|Minimal Betti numbers)", l)]
            table = [t for k, t in enumerate(table) if k == 0 or t[0] >= 20]
            for _, title in table:
                found.tables.setdefault(title, {})
        elif table:
            for (start, title), end in zip(table, [t[0] for t in table[1:]] + [None]):
                row = re.match(r" *(-?\d+:|total)((?: +(?:-|\d+))+)$", l[start:end].rstrip())
                if row:
                    found.tables[title][row[1].rstrip(":")] = [0 if x == "-" else int(x) for x in row[2].split()]
        pair = re.match(r" *column (\d+)  (.*)|( {11}\d+ of .*)", l)
        if pair and level is None and box is None:
            column = int(pair[1]) if pair[1] else column
            for c, a, b in re.findall(r"(\d+) of \((\d+), (\d+)\)", l):
                found.pairs[column, int(a), int(b)] = int(c)
        if l == "REFUSED":
            close()
            box = ""
        elif box is not None and l.startswith("  "):
            box += " " + l.strip()
    close()
    return found


def value_of(box, reader, names, sheet):
    found = re.search(r"The value, modulo \d+: (.*)", box)
    return {(g or 1, x): c for c, g, x in reader.terms(text_tokens(found[1], names, sheet.s > 1), True)} if found else None


# ---- HTML ----------------------------------------------------------------------------------------------------------------------------------------------------


class Node:
    def __init__(self, tag, attributes, parent):
        self.tag, self.attributes, self.parent, self.children = tag, dict(attributes), parent, []

    def all(self, tag=None, style=None):
        for child in self.children:
            if isinstance(child, Node):
                if (tag is None or child.tag == tag) and (style is None or style in child.attributes.get("class", "").split()):
                    yield child
                yield from child.all(tag, style)

    def text(self):
        return "".join(c if isinstance(c, str) else " " if c.tag == "br" else c.text() for c in self.children)

    def has(self, style):
        return style in self.attributes.get("class", "").split()


class Tree(html.parser.HTMLParser):
    """A tree, where every element is closed in its turn, every tag is known, every attribute has a value and no name is there twice."""

    def __init__(self, text):
        super().__init__(convert_charrefs=True)
        self.root = self.now = Node("", {}, None)
        self.ids, self.nodes = set(), []
        self.feed(text)
        self.close()
        assert self.now is self.root, f"{self.now.tag} is not closed"

    def handle_starttag(self, tag, attributes):
        assert tag in TAGS, f"<{tag}>"
        assert all(value is not None for _, value in attributes) and len({name for name, _ in attributes}) == len(attributes), f"attributes of <{tag}>"
        assert not any(name.startswith("on") or name in ("src", "href", "srcset", "action", "data") for name, _ in attributes), f"attributes of <{tag}>"
        node = Node(tag, attributes, self.now)
        if "id" in node.attributes:
            assert node.attributes["id"] not in self.ids, "an id twice"
            self.ids.add(node.attributes["id"])
        self.now.children.append(node)
        self.nodes.append(node)
        assert self.now.tag not in PHRASES or tag in PHRASING, f"<{tag}> in <{self.now.tag}>"
        assert tag not in INSIDE or self.now.tag in INSIDE[tag], f"<{tag}> in <{self.now.tag}>"
        if tag not in VOID:
            self.now = node

    def all(self, tag=None, style=None):
        """The nodes in their sequence."""
        return (n for n in self.nodes if (tag is None or n.tag == tag) and (style is None or n.has(style)))

    def handle_startendtag(self, tag, attributes):
        raise AssertionError(f"<{tag}/>")

    def handle_endtag(self, tag):
        assert tag == self.now.tag, f"</{tag}> closes <{self.now.tag}>"
        self.now = self.now.parent

    def handle_data(self, data):
        self.now.children.append(data)

    def handle_comment(self, data):
        raise AssertionError("a comment")

    def unknown_decl(self, data):
        raise AssertionError("a declaration")


INSIDE = {"tr": {"thead", "tbody"}, "th": {"tr"}, "td": {"tr"}, "thead": {"table"}, "tbody": {"table"}, "caption": {"table"}, "colgroup": {"table"},
          "col": {"colgroup"}, "section": {"body"}, "h1": {"div"}, "h2": {"div"}, "meta": {"head"}, "style": {"head"}, "title": {"head"}}
PHRASING = {"span", "i", "sub", "sup", "br"}
PHRASES = {"p", "h1", "h2", "caption", "span", "i", "sub", "sup"}  # what has no blocks in it


def validated(text):
    """The tree of a page; that it is well-formed and keeps the rules of HTML that such a page can break, and this project's own: heads of tables have a scope,
    nothing is loaded, nothing runs, it prints in black alone."""
    assert text.startswith("<!DOCTYPE html>\n<html lang=\"en\">")
    assert not re.search(r"&(?!(?:[a-z]+|#\d+|#x[0-9a-f]+);)", text.split("</style>")[1]), "a bare &"
    tree = Tree(text)
    style = next(tree.all("style")).text()
    assert not re.search(r"url\(|@import|expression|<", style), "the style loads something"
    printed = style.split("@media screen")[0]
    assert set(re.findall(r"#[0-9a-f]+", printed)) <= {"#000", "#fff"} and not re.search(r"rgb|hsl|opacity", printed), "not black alone"
    assert "font-size: 0" not in style and "display: none" not in style and "overflow: hidden" not in style
    for node in tree.nodes:
        if node.tag == "th":
            assert node.attributes.get("scope") in ("col", "row"), "a head without scope"
        if node.tag == "table":
            assert len({len([c for c in tr.children if isinstance(c, Node)]) for tr in node.all("tr")}) == 1, "rows of several lengths"
            label = node.attributes.get("aria-labelledby")
            assert list(node.all("caption")) or label or node.parent.has("colophon"), "a table without a name"
            assert not label or any(h.attributes.get("id") == label for h in tree.all("h2")), "a name that is not there"
    titles = list(tree.all("title"))
    assert len(titles) == 1 and titles[0].text().strip()
    return tree


def html_tokens(node, names):
    """names: those that stand in braces are plain text, the others an <i>, an index as <sub>."""
    out = []

    def walk(node):
        for child in node.children:
            if isinstance(child, str):
                for token in re.findall(r"\{[^{}]*\}|\d+|[^\s]", child):
                    if token in ("+", MINUS):
                        out.append(["sign", 1 if token == "+" else -1])
                    elif token.isdigit():
                        out.append(["number", int(token)])
                    else:
                        assert token[0] == "{", f"{token!r} in an entry"
                        out.append(["power", token, 1])
            elif child.tag == "i":
                out.append(["power", child.text(), 1])
            elif child.tag == "sub":
                out[-1][1] += "_" + child.text()
            elif child.tag == "sup":
                assert out[-1][2] == 1
                out[-1][2] = int(child.text())
            elif child.tag == "span":
                walk(child)
            else:
                assert child.tag == "br"

    walk(node)
    for token in out:
        if token[0] == "power" and token[1].startswith("e_") and token[1] not in names:
            yield "generator", int(token[1][2:])
        else:
            yield tuple(token)


def number(text):
    return int(text.replace(MINUS, "-"))


def two(text):
    found = re.fullmatch(r"\((\d+), (\d+)\)", text)
    return int(found[1]), int(found[2])


def from_html(text, sheet, names, name, sha256, two_sided=False):
    """names as they are read back: x_1 for x with the index 1."""
    found, reader, root = Found(), Reader(names, sheet.p if sheet.well_formed else 2), validated(text)
    sheets = list(root.all("section", "sheet"))
    left_out, shown, brackets = {}, {}, {}
    for at, page in enumerate(sheets, 1):
        assert page.attributes["aria-label"] == f"Page {at} of {len(sheets)}"
        assert page.has("verso") == (two_sided and at % 2 == 0)
        top, foot = (next(page.all("p", style)).text() for style in ("top", "foot"))
        assert name[:20] in top and f"sha256 {sha256}" in top and foot.endswith(f"page {at} of {len(sheets)}") and "the setting is not" in foot
        divs = [c for c in page.children if isinstance(c, Node) and c.tag == "div"]
        heads = list(divs[-1].all("div", "levelhead"))
        assert not heads or "empty, count 0" in heads[0].text() or "the last that is listed" in heads[0].text(), "a head alone at a page's end"
        assert "margin-top" not in divs[0].attributes.get("style", ""), "a blank at a page's top"
    for head in root.all("div", "levelhead"):
        h2, p = next(head.all("h2")), " ".join(next(head.all("p")).text().split())
        level = int(h2.attributes["id"][6:])
        assert h2.text() in ("The basis", "The elements", f"Level {level}")
        counts = re.findall(r"(\d+) of degree (-?\d+)", p)
        if "empty, count 0" in p:
            found.tallies["end"] = level
        else:
            found.tallies[level] = {int(d): int(c) for c, d in counts} or {int(re.search(r"of degree (-?\d+)", p)[1]): int(re.match(r"\d+", p)[0])}
    for table in root.all("table", "matrix"):
        caption = next(iter(table.all("caption")), None)
        named = caption.text() if caption else next(h for h in root.all("h2") if h.attributes.get("id") == table.attributes["aria-labelledby"]).text()
        level = int((re.match(r"Level (\d+)", named) or (0, 0))[1])
        rows = list(next(table.all("thead")).all("tr"))
        cells = [[c for c in tr.children if isinstance(c, Node)] for tr in rows]
        columns = [int(c.text()) for c in cells[0][1:]]
        assert [c[0].text() for c in cells[1:]] == ["degree"] + (["bidegree"] if sheet.bigraded else []) + ["frame" if level else "leading"]
        for j, *heads in zip(columns, *(c[1:] for c in cells[1:])):
            terms = reader.terms(html_tokens(heads[-1], names), True)
            assert len(terms) == 1
            c, g, x = terms[0]
            head = (number(heads[0].text()), two(heads[1].text()) if sheet.bigraded else None, (c, g or 1, x))
            assert found.heads.get((level, j), head) == head
            found.heads[level, j] = head
        key = level, columns[0], columns[-1]
        words = re.search(r", columns? (\d+)(?: to (\d+))? of (\d+)", named)
        assert words is None or (int(words[1]), int(words[2] or words[1]), int(words[3])) == (columns[0], columns[-1], sheet.counts[level]), named
        left_out[key] = int((re.search(r"; (\d+) rows? of zeros left out", named) or (0, 0))[1])
        assert (", continued" in named) == (key in shown), "a piece that goes on says so"
        for tr in next(table.all("tbody")).all("tr"):
            label, *cells = [c for c in tr.children if isinstance(c, Node)]
            i = int(next(label.all("sub")).text())
            spans = [s.text() for s in label.all("span")]
            found.rows[level, i] = (number(spans[0]), two(spans[1]) if sheet.bigraded else None)
            shown.setdefault(key, set()).add(i)
            brackets.setdefault(key, []).append((tr.has("first"), tr.has("last")))
            for j, cell in zip(columns, cells):
                assert cell.has("open") == (j == 1) and cell.has("shut") == (j == sheet.counts[level]), "a bracket"
                if cell.text() != "\u00b7":
                    more = reader.polynomial(html_tokens(cell, names))
                    entry = found.entries.setdefault((level, i, j), {})
                    assert more or cell.text().strip() == "", "an empty entry"
                    assert not set(more) & set(entry), f"{level, i, j} twice"
                    entry.update(more)
    for (level, *_), firsts in ((k, b) for k, b in brackets.items()):
        assert firsts[0][0] and firsts[-1][1] and sum(a for a, _ in firsts) == 1 == sum(b for _, b in firsts), f"the brackets of level {level}"
    for key, rows in shown.items():
        below = sheet.s if key[0] == 0 else sheet.counts[key[0] - 1]
        assert len(rows) + left_out[key] == below, f"{key}: {len(rows)} rows and {left_out[key]} left out of {below}"
    for table in root.all("table", "betti"):
        rows = found.tables.setdefault(next(table.all("caption")).text().replace(", continued", ""), {})
        for tr in next(table.all("tbody")).all("tr"):
            label, *cells = [c.text() for c in tr.children if isinstance(c, Node)]
            rows[label.replace(MINUS, "-")] = [0 if c == "\u2013" else int(c) for c in cells]
    for table in root.all("table", "pairs"):
        for tr in table.all("tr"):
            for c, a, b in re.findall(r"(\d+) of \((\d+), (\d+)\)", " ".join(next(tr.all("td")).text().split())):
                found.pairs[int(next(tr.all("th")).text().split()[1]), int(a), int(b)] = int(c)
    for box in root.all("div", "box"):
        for p in box.all("p", "value"):
            # "The value, modulo p:" in front
            strings = [c for c in p.children if isinstance(c, str)]
            if strings and strings[0].startswith("The value, modulo"):
                p.children[p.children.index(strings[0])] = strings[0].partition(":")[2]
            found.value = found.value or {}
            found.value.update({(g or 1, x): c for c, g, x in reader.terms(html_tokens(p, names), True)})
    return found


# ---- JSON ----------------------------------------------------------------------------------------------------------------------------------------------------


def from_json(page, sheet):
    found, p = Found(), sheet.p
    for level in page["levels"]:
        k = level["level"]
        assert level["count"] == len(level["generators"])
        found.tallies[k] = {d["degree"]: d["count"] for d in level["by_degree"]}
        for g in level["generators"]:
            f = g["frame"]
            found.heads[k, g["number"]] = (g["degree"], tuple(g["bidegree"]) if g["bidegree"] else None,
                                           (f["coefficient"] % p, f["component"], tuple(f["exponents"])))
            for e in g["entries"]:
                found.entries[k, e["row"], g["number"]] = {tuple(t["exponents"]): t["coefficient"] % p for t in e["terms"]}
                assert all(2 * abs(t["coefficient"]) <= p for t in e["terms"])
    for name, key in (("Betti numbers of the list", "betti"), ("Minimal Betti numbers", "minimal")):
        if page[key]:
            rows = {str(r["row"]): r["counts"] for r in page[key]["rows"]}
            rows["total"] = page[key]["total"]
            used = max((j for j, x in enumerate(rows["total"]) if x), default=0) + 1
            found.tables[name] = {label: row[:used] for label, row in rows.items()}
    found.pairs = {(b["column"], *b["bidegree"]): b["count"] for b in page["bidegrees"] or []}
    if page["refusal"] and page["refusal"]["value"]:
        found.value = {(t["component"], tuple(t["exponents"])): t["coefficient"] % p for t in page["refusal"]["value"]}
    if page["ended"] is not None:
        found.tallies["end"] = page["ended"]
    return found


# ---- JSON Schema ---------------------------------------------------------------------------------------------------------------------------------------------

TYPES = {"object": dict, "array": list, "string": str, "integer": int, "null": type(None)}
WORDS = {"$schema", "$id", "$defs", "$ref", "title", "description", "type", "properties", "required", "additionalProperties", "items", "enum", "const",
         "minimum", "maximum", "pattern", "minItems", "maxItems"}


def conforms(value, schema, whole, at="page"):
    """The first thing that this schema does not allow, '' if it allows all. The words that are understood are WORDS; any other is an error."""
    assert set(schema) <= WORDS, f"{at}: words of the schema that are not understood: {set(schema) - WORDS}"
    if "$ref" in schema:
        target = whole
        for word in schema["$ref"].removeprefix("#/").split("/"):
            target = target[word]
        return conforms(value, target, whole, at)
    if "type" in schema:
        kinds = schema["type"] if isinstance(schema["type"], list) else [schema["type"]]
        if not any(isinstance(value, TYPES[k]) and not (k == "integer" and isinstance(value, bool)) for k in kinds):
            return f"{at}: {value!r} is not {' or '.join(kinds)}"
    if "const" in schema and value != schema["const"] or "enum" in schema and value not in schema["enum"]:
        return f"{at}: {value!r}"
    if isinstance(value, int) and not schema.get("minimum", value) <= value <= schema.get("maximum", value):
        return f"{at}: {value} is out of range"
    if isinstance(value, str) and "pattern" in schema and not re.search(schema["pattern"], value):
        return f"{at}: {value!r} is not {schema['pattern']}"
    if isinstance(value, list):
        if not schema.get("minItems", 0) <= len(value) <= schema.get("maxItems", len(value)):
            return f"{at}: {len(value)} items"
        return next((bad for k, v in enumerate(value) if (bad := conforms(v, schema.get("items", {}), whole, f"{at}[{k}]"))), "")
    if isinstance(value, dict):
        known = schema.get("properties", {})
        missing = set(schema.get("required", [])) - set(value)
        if missing or schema.get("additionalProperties") is False and set(value) - set(known):
            return f"{at}: missing {sorted(missing)}, unknown {sorted(set(value) - set(known))}"
        return next((bad for k, v in value.items() if k in known and (bad := conforms(v, known[k], whole, f"{at}.{k}"))), "")
    return ""
