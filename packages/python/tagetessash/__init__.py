# SPDX-License-Identifier: MIT OR Apache-2.0
"""Syzygies and free resolutions over a prime field by a proved engine.

    >>> from tagetessash import Problem
    >>> cubic = Problem(32003, "x y z w", ["z^2 - y*w", "y*z - x*w", "y^2 - x*z"])
    >>> cubic.is_groebner_basis()
    True
    >>> cubic.resolution()
    R <- R^3 <- R^2
    >>> print(cubic.resolution().matrix(1))
    [-y   x]
    [ z  -y]
    [-w   z]
    >>> print("\\n" + str(cubic.minimal()))
    <BLANKLINE>
           0 1 2
        0: 1 . .
        1: . 3 2
    total: 1 3 2
    >>> cubic.hilbert()[:5]
    [1, 4, 7, 10, 13]
    >>> cubic.dimension(), cubic.degree()
    (2, 3)
    >>> "y^3 - x^2*w" in cubic
    True

Elements that are no Groebner basis are refused, with a value that shows it:

    >>> Problem(7, "x y", ["x^2", "x*y + y^2"], order="lex").resolution()
    Traceback (most recent call last):
    ...
    tagetessash.Refused: the elements are no Groebner basis: -y^3 is in their module, and no leading monomial divides its own

A module is a list of vectors, the relations among its generators; its generators may have degrees:

    >>> module = Problem(7, "x y", [["x*y", 0], ["x^2", "y"], [0, "y^2"]], degrees=[0, 1])
    >>> module.betti().totals(), module.minimal().totals()
    ([2, 3, 1], [2, 2])

Polynomials are strings, or whatever str() makes such strings of, as the expressions of sympy and the polynomials of Sage. Nothing but Python is needed beside
the engine: the shared library libtagetessash.so.3 (environment variable TAGETESSASH_LIB, else beside this module, else the system's), or the command
tagetessash (TAGETESSASH, else of the search path). The engine's answers are proved; this module, which writes the problem and reads the answer, is not.
"""
from .answers import Betti, Division, Matrix, Refused, Resolution
from .engine import Command, Library, NotInstalled, engine
from .problem import Problem

__all__ = ["Problem", "Refused", "Resolution", "Betti", "Matrix", "Division", "NotInstalled", "Library", "Command", "engine"]
__version__ = "3.9"

# in a traceback under the name that people import
for _error in (Refused, NotInstalled):
    _error.__module__ = __name__
