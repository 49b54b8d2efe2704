# SPDX-License-Identifier: MIT OR Apache-2.0
"""Polynomials modulo p, from strings and to strings. A polynomial is a dict from exponents to coefficients, a term (coefficient, component, exponents)."""
import re
from typing import Dict, Iterable, List, Sequence, Tuple

Exponents = Tuple[int, ...]
Polynomial = Dict[Exponents, int]
Term = Tuple[int, int, Exponents]
MOST_POWER = 65535
ORDERS = {"lex": 1, "grlex": 2, "grevlex": 3, "lp": 1, "Dp": 2, "dp": 3, "Lex": 1, "GLex": 2, "GRevLex": 3, 1: 1, 2: 2, 3: 3}


def height(order: int, exponents: Exponents, component: int) -> Tuple:
    """What is larger for the greater term, by order code: lexicographic, degree then lexicographic, degree reverse lexicographic; the component last."""
    if order == 1:
        return (exponents, component)
    if order == 2:
        return (sum(exponents), exponents, component)
    return (sum(exponents), tuple(-k for k in reversed(exponents)), component)


def written(terms: Iterable[Term], names: Sequence[str], p: int, module: bool) -> str:
    """Terms as a string, coefficients from -p/2 to p/2; of a module with e1, e2, .. behind each."""
    out = ""
    for c, i, x in terms:
        c = c if 2 * c <= p else c - p
        parts = [v if k == 1 else "%s^%d" % (v, k) for v, k in zip(names, x) if k] + (["e%d" % i] if module else [])
        if abs(c) != 1 or not parts:
            parts.insert(0, str(abs(c)))
        out += (" - " if c < 0 else " + ") * bool(out) + ("-" if c < 0 and not out else "") + "*".join(parts)
    return out or "0"


class Parser:
    """Polynomials from strings: numbers, names, + - * / ^ ** and parentheses."""

    TOKEN = re.compile(r"\s*(?:(\d+)|([A-Za-z_][A-Za-z_0-9']*(?:\(\d+\)|\[\d+\])?)|(\*\*|[-+*/^()]))")

    def __init__(self, p: int, names: Sequence[str]):
        self.p, self.names = p, list(names)
        self.at = {name: i for i, name in enumerate(self.names)}
        self.one: Exponents = (0,) * len(self.names)
        self.text, self.tokens, self.k = "", [("end", "")], 0

    def __call__(self, text: str) -> Polynomial:
        text = text.strip()
        self.text, self.tokens, self.k, at = text, [], 0, 0
        while at < len(text):
            match = self.TOKEN.match(text, at)
            if not match:
                raise ValueError("%r: what is %r?" % (text, text[at:].lstrip()[:10]))
            number, name, sign = match.groups()
            if name and name not in self.at and "(" in name and name.split("(")[0] in self.at:
                # y(2) is a product for none but Singular's own names
                raise ValueError("%r: a * is wanted before the parenthesis in %r" % (text, name))
            self.tokens.append(("number", number) if number else ("name", name) if name else ("sign", sign))
            at = match.end()
        self.tokens.append(("end", ""))
        value = self.sum()
        kind, word = self.tokens[self.k]
        if kind != "end":
            raise ValueError("%r: %s can not stand there%s" % (text, word, "; a product is written with *" if self.k else ""))
        return {x: c for x, c in value.items() if c}

    def sign(self, signs: Sequence[str]) -> str:
        """The next sign, where it is one of these; ''."""
        kind, value = self.tokens[self.k]
        if kind == "sign" and value in signs:
            self.k += 1
            return value
        return ""

    def sum(self) -> Polynomial:
        total: Polynomial = {}
        sign = -1 if self.sign("+-") == "-" else 1
        while True:
            for x, c in self.product().items():
                total[x] = (total.get(x, 0) + sign * c) % self.p
            following = self.sign("+-")
            if not following:
                return total
            sign = 1 if following == "+" else -1

    def product(self) -> Polynomial:
        value = self.power()
        while True:
            sign = self.sign("*/")
            if not sign:
                return value
            other = self.power()
            if sign == "/":
                if set(other) - {self.one} or other.get(self.one, 0) % self.p == 0:
                    raise ValueError("%r: division by what is no number that is different from 0 modulo %d" % (self.text, self.p))
                other = {self.one: pow(other[self.one], -1, self.p)}
            value = self.times(value, other)

    def times(self, a: Polynomial, b: Polynomial) -> Polynomial:
        out: Polynomial = {}
        for x, c in a.items():
            for y, d in b.items():
                z = tuple(i + j for i, j in zip(x, y))
                out[z] = (out.get(z, 0) + c * d) % self.p
        return out

    def power(self) -> Polynomial:
        value = self.atom()
        while self.sign(("^", "**")):
            kind, word = self.tokens[self.k]
            if kind != "number":
                raise ValueError("%r: an exponent is a number" % self.text)
            k = int(word)
            if k > MOST_POWER:
                raise ValueError("%r: exponent %d; 255 is the largest that the engine takes" % (self.text, k))
            self.k += 1
            if len(value) == 1:
                (x, c), = value.items()
                value = {tuple(i * k for i in x): pow(c, k, self.p)}
            else:
                out = {self.one: 1}
                for _ in range(k):
                    out = self.times(out, value)
                value = out
        return value

    def atom(self) -> Polynomial:
        kind, word = self.tokens[self.k]
        if kind == "end":
            raise ValueError("%r: something is missing at the end" % self.text)
        self.k += 1
        if kind == "number":
            return {self.one: int(word) % self.p}
        if kind == "name":
            if word not in self.at:
                product = all(letter in self.at for letter in re.sub(r"\d", "", word))
                raise ValueError("%r: there is no variable %s; the variables are %s%s" % (self.text, word, ", ".join(self.names),
                                                                                        "; a product is written with *" if product else ""))
            i = self.at[word]
            return {self.one[:i] + (1,) + self.one[i + 1:]: 1}
        if word == "(":
            inner = self.sum()
            if not self.sign(")"):
                raise ValueError("%r: a closing parenthesis is missing" % self.text)
            return inner
        if word == "-":
            return {x: -c % self.p for x, c in self.power().items()}
        raise ValueError("%r: something is missing before %s" % (self.text, word))


def entries(terms: Iterable[Term], count: int, names: Sequence[str], p: int) -> List[str]:
    """A vector's entries, one string for each of so many components."""
    terms = list(terms)
    return [written([t for t in terms if t[1] == i], names, p, False) for i in range(1, count + 1)]
