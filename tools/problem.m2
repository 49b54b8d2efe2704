-- SPDX-License-Identifier: MIT OR Apache-2.0
-- A problem file from Macaulay2: problem G is its text, over a polynomial ring over ZZ/p with MonomialOrder => Lex, GLex or GRevLex; vectorLines f is the V
-- lines of a ring element, a vector or a matrix of one column. Both are of the package packages/macaulay2/Tagetessash.m2, whose help says what G may be and
-- what the options Rank, Sort, Generators, Degrees and Weights do (help problemFile); docs/GUIDE.md has examples. Standard error says what was taken.
-- This file loads the package of its own checkout, from whichever folder it is loaded.
needsPackage("Tagetessash", FileName => realpath (currentFileDirectory | "../packages/macaulay2/Tagetessash.m2"))
problem = arguments -> (
    arguments = if instance(arguments, Sequence) then toList arguments else {arguments};
    -- options are known by their names, whatever package they are of
    known := hashTable {"Rank" => Rank, "Sort" => Sort, "Generators" => Generators, "Degrees" => Degrees, "Weights" => Weights};
    said := for a in drop(arguments, 1) list (
        if instance(a, Option) and known#?(toString a#0) then known#(toString a#0) => a#1
        else error("the options are Rank => a number, Sort => true or false, Generators => true or false, Degrees => a list of integers, "
            | "and Weights => a list of pairs of integers"));
    problemFile toSequence({arguments#0} | said | {Verbose => true}))
