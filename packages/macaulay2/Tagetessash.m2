-- SPDX-License-Identifier: MIT OR Apache-2.0
newPackage("Tagetessash",
    Version => "0.3",
    Date => "November 2026",
    Headline => "syzygies and free resolutions by a proved engine",
    Authors => {{Name => "The Tagetessash maintainers"}},
    Keywords => {"Commutative Algebra", "Homological Algebra", "Interfaces"},
    DebuggingMode => false)

export {"problemFile", "vectorLines", "provedResolution", "provedBetti", "provedMinimalBetti", "provedHilbert", "provedAnswers", "isProvedGroebnerBasis",
    "gbWitness", "provedComplete", "provedMember", "provedDivision", "compareWithMacaulay2", "provedPage", "Rank", "Generators"}

-- matrices are made of thousands of terms
importFrom_Core {"raw", "rawFromNumber", "rawSparseMatrix2"}

---------------------------------------------------------------------------------------------------------------------------------------------------------------
-- The problem file. What it can not say is an error: a file without it would be another problem.

-- The order's code; an error in every ring but polynomial rings over ZZ/p with one of the three orders.
problemCode = R -> (
    if not instance(R, Ring) then error "this lies in no ring";
    if instance(R, QuotientRing) and instance(ambient R, PolynomialRing) then
        error "the ring is a quotient ring; take the polynomial ring and put the relations with the generators";
    if not instance(R, PolynomialRing) then error("the ring is no polynomial ring (" | toString class R | ")");
    K := coefficientRing R;
    if not (instance(K, QuotientRing) and ambient K === ZZ and isPrime char K) then
        error("the coefficients are " | toString describe K | "; ZZ/p is wanted for a prime p, as in ZZ/32003[x,y,z]");
    if char K > 65521 then error("the characteristic is " | toString char K | "; the largest prime that is taken is 65521");
    if isSkewCommutative R then error "variables of the ring do not commute: it is skew commutative";
    if isWeylAlgebra R then error "variables of the ring do not commute: it is a Weyl algebra";
    n := numgens R;
    if n < 1 then error "the ring has no variables";
    if n > 8 then error("the ring has " | toString n | " variables; 8 are the most");
    o := options monoid R;
    if o.Inverses then error "variables of the ring are invertible";
    ones := toList (n : 1);
    kept := toString select(toList o.MonomialOrder, x -> x#0 =!= MonomialSize);
    -- GLex is kept as weights and Lex
    code := position({{Lex => n}, {Weights => ones, Lex => n}, {GRevLex => ones}}, x -> toString (x | {Position => Up}) == kept);
    if code === null then error("the ring's order is " | kept | "; it must be Lex, GLex or GRevLex (all degrees 1), with Position => Up last");
    code + 1)

-- Whether a page can count by the ring's own degrees: 1 for each variable, or pairs.
byDegree = R -> degreeLength R == 1 and all(degrees R, x -> x == {1})

-- The two weights of each variable, or none: those that were asked for, else the degrees of a bigraded ring.
problemWeights = (R, asked) -> (
    w := if asked =!= null then asked else if degreeLength R == 2 then degrees R else {};
    if #w != 0 and #w != numgens R then error("there are " | toString (#w) | " pairs of weights, and the ring has " | toString numgens R | " variables");
    for i from 0 to #w - 1 do if any(w#i, x -> x < 0 or x > 15) then
        error("variable " | toString R_i | " has weights " | toString w#i
            | "; a G line takes 0 to 15: say others, as in Weights => {{1,0},{0,1}}, or Weights => {} for none");
    w)

-- The degrees of s components of F, or those that were asked for, shifted so that the least is 0, and the shift. They change no vector, so that those that are
-- all the same need no line. Where the ring's own degrees are the weights, bigraded, the first of each two is taken: nothing is added to the second weight.
problemDegrees = (F, s, asked, bigraded) -> (
    d := if asked === null then take(degrees F, s) else apply(asked, x -> {x});
    if #d != s and asked =!= null then error("there are " | toString (#d) | " degrees, and the free module has rank " | toString s);
    if #unique d <= 1 then return (toList (s : 0), if #d == 0 or #d#0 == 0 then 0 else - d#0#0);
    if #d != s then error("the target has degrees for " | toString (#d) | " components, not for " | toString s | "; say them all, as in Degrees => {0,1,1}");
    if asked === null and bigraded then (
        for i from 1 to s - 1 do if d#i#1 != d#0#1 then
            error("components 1 and " | toString (i + 1) | " have degrees " | toString d#0 | " and " | toString d#i
                | "; a D line adds to the first sum alone, so that there are no bidegrees; for the sheet say Weights => {} and one degree for each");
        d = apply(d, x -> {x#0}))
    else if asked === null and degreeLength ring F != 1 then
        error("the ring is multigraded: a degree has " | toString degreeLength ring F | " integers, and a D line takes one; say them, as in Degrees => {0,1}")
    else if asked === null and any(degrees ring F, x -> x != {1}) then
        error("variables have degrees " | toString flatten degrees ring F | ", and a D line goes with variables of degree 1; say one, as in Degrees => {0,1}");
    d = flatten d;
    least := min d;
    for i from 0 to s - 1 do if d#i - least > 255 then
        error("component " | toString (i + 1) | " has degree " | toString (d#i - least) | " where the least is 0; 255 is the largest");
    (apply(d, x -> x - least), -least))

-- The terms of a matrix of one column, each coefficient, component, exponents, the greatest first.
termsOf = v -> (
    p := char ring v;
    if numRows v == 1 then return apply(listForm v_(0, 0), (e, c) -> {lift(c, ZZ) % p, 1} | e);
    while v != 0 list (
        t := leadTerm v;
        i := position(flatten entries t, c -> c != 0);
        v = v - t;
        {lift(leadCoefficient t_(i, 0), ZZ) % p, i + 1} | first exponents t_(i, 0)))

line = x -> concatenate(between(",", apply(x, toString)), "\n")

-- The matrix whose columns are taken, and in words which.
columnsOf = (G, generators) -> (
    if instance(G, Ideal) and generators then (compress gens G, "the generators of the ideal as they stand")
    else if instance(G, Module) and generators then (compress presentation G, "the module's presentation as it stands: relations among its generators")
    else if generators then (compress G, "the columns of the matrix as they stand")
    else if instance(G, Ideal) then (gens gb G, "gens gb of the ideal")
    else if instance(G, Module) then (gens gb presentation G, "gens gb of the module's presentation: the relations among its generators")
    else (G, "the columns of the matrix as they stand"))

-- All that is to be known of an argument. Without degrees where the answer has none: then every ring with one of the three orders is taken.
problemOf = (G, o, graded) -> (
    if not (instance(G, Matrix) or instance(G, Ideal) or instance(G, Module)) then
        error("a matrix, an ideal or a module is wanted; this is of type " | toString class G);
    R := ring G;
    code := problemCode R;
    (g, took) := columnsOf(G, o.Generators);
    if not isFreeModule target g then error "the columns lie in a module that is not free; take problem of the module itself, or a matrix into a free module";
    if schreyerOrder target g != 0 then error "the columns lie in a module with a Schreyer order, which is not the ring's; take map(R^s, , entries g)";
    rows := numRows g;
    s := if o.Rank === null then rows else o.Rank;
    used := 1 + max({-1} | apply(select(rows, i -> g^{i} != 0), i -> i));
    if s < used then error("component " | toString used | " occurs; the rank can not be " | toString s);
    if s > 16 then error("the free module has rank " | toString s | "; 16 is the most");
    if g == 0 then error "zero has no Groebner basis with an element: there is nothing to lift";
    if numColumns g > 64 then error("there are " | toString numColumns g | " generators; 64 are the most");
    for j from 0 to numColumns g - 1 do if g_{j} == 0 then error("generator " | toString (j + 1) | " is zero; compress leaves zeros out");
    elements := for j from 0 to numColumns g - 1 list termsOf g_{j};
    if o.Sort then (
        g = g_(apply(sort(apply(#elements, j -> (drop(elements#j#0, 1), j))), last));
        elements = sort(elements, x -> drop(x#0, 1)));
    for j from 0 to #elements - 1 do (
        highest := max flatten apply(elements#j, t -> drop(t, 2));
        if highest > 255 then error("generator " | toString (j + 1) | " has exponent " | toString highest | "; 255 is the largest"));
    count := sum(elements, x -> #x);
    if count > 2048 then error("there are " | toString count | " terms; 2048 are the most");
    (w, d, shift) := ({}, toList (s : 0), 0);
    if graded then (
        if o.Weights === null and o.Degrees === null and degreeLength R > 0 and degreeLength R != 2 and not byDegree R then
            error("variables have degrees " | toString degrees R | ", which a problem file can not say: Weights => {} leaves them out, "
                | "and pages and Hilbert functions then count each variable with degree 1");
        w = problemWeights(R, o.Weights);
        (d, shift) = problemDegrees(target g, s, o.Degrees, o.Weights === null and #w != 0));
    hashTable {
        "matrix" => g, "took" => took, "rank" => s, "degrees" => d, "shift" => shift, "weights" => w, "count" => #elements,
        "text" => concatenate({line {"R", char R, numgens R, code, s}}
            | (if max d > 0 then {line({"D"} | d)} else {})
            | (if #w != 0 then {line({"G"} | flatten w)} else {})
            | flatten apply(#elements, j -> apply(elements#j, t -> line({"T", j + 1} | t)))
            | {line {"E", count}})})

plain = new OptionTable from {Rank => null, Sort => false, Generators => false, Degrees => null, Weights => null}

isWeights = w -> instance(w, List) and all(w, x -> instance(x, List) and #x == 2 and all(x, y -> instance(y, ZZ)))
isDegrees = d -> instance(d, List) and all(d, x -> instance(x, ZZ))

problemFile = method(TypicalValue => String, Options => {Rank => null, Sort => false, Generators => false, Degrees => null, Weights => null, Verbose => false})
problemFile Thing := o -> G -> (
    if not ((o.Rank === null or instance(o.Rank, ZZ)) and instance(o.Sort, Boolean) and instance(o.Generators, Boolean)
        and (o.Degrees === null or isDegrees o.Degrees) and (o.Weights === null or isWeights o.Weights)) then
        error("the options are Rank => a number, Sort => true or false, Generators => true or false, Degrees => a list of integers, "
            | "and Weights => a list of pairs of integers");
    q := problemOf(G, o, true);
    if o.Verbose then (
        stderr << "-- problem: " << q#"took" << ", " << q#"count" << (if q#"count" == 1 then " element" else " elements");
        if max q#"degrees" > 0 then
            stderr << ", components of degrees " << toString q#"degrees" << (if q#"shift" == 0 then "" else ", shifted by " | toString q#"shift");
        if #q#"weights" != 0 then stderr << ", variables of weights " << toString q#"weights";
        stderr << endl);
    q#"text")

-- The columns of what is to be divided: a ring element, a vector, or a matrix.
columnsToDivide = f -> (
    if not (instance(f, RingElement) or instance(f, Vector) or instance(f, Matrix)) then
        error("a ring element, a vector or a matrix of one column is wanted; this is of type " | toString class f);
    v := if instance(f, Matrix) then f else if instance(f, Vector) then matrix f else matrix {{f}};
    problemCode ring v;
    if not isFreeModule target v then error "the vector lies in a module that is not free";
    v)

vectorText = v -> (
    terms := termsOf v;
    if #terms > 512 then error("there are " | toString (#terms) | " terms; 512 are the most");
    highest := max ({0} | flatten apply(terms, t -> drop(t, 2)));
    if highest > 255 then error("a term has exponent " | toString highest | "; 255 is the largest");
    concatenate apply(terms, t -> line({"V"} | t)))

vectorLines = method(TypicalValue => String)
vectorLines Thing := f -> (
    v := columnsToDivide f;
    if numColumns v != 1 then error("the matrix has " | toString numColumns v | " columns; one is wanted");
    vectorText v)

---------------------------------------------------------------------------------------------------------------------------------------------------------------
-- Running the program

programName = () -> if getenv "TAGETESSASH" =!= "" then getenv "TAGETESSASH" else "tagetessash"

-- A word for the shell: nothing in it means anything.
shellQuoted = text -> "'" | concatenate between("'\\''", separate("'", text)) | "'"

-- What turns the lines that the program printed into parts of text, a line for each, behind a letter: X and M lines as they are; S, T, W and C the terms of a
-- matrix for a level, for the elements, for a value or remainder and for the quotients; Z the empty level; N the numbers of a page, of Hilbert functions and of
-- bidegrees; `=` the exit status, e what was said. The last line is `end`, or `bad`.
-- Terms are bytes, since Macaulay2 reads these far faster than text, each a number below 128 and 32: the line of the letter has the terms' rows, lines t behind
-- it their columns, which monomial (two lines: the number's rest by 128, the number of 128s), which coefficient (two lines), of each column's first term row and
-- monomial (three lines); then the monomials and the coefficients themselves, each once, as text.
awkText = ///
function ended(  k, i, c, e, f) {
    if (now ~ /[STWC]/) {
        printf "%s\nt %s\nt %s\nt %s\nt %s\nt %s\nt %s\nt %s\nt %s\nt ", rows, columns, m0, m1, c0, c1, f0, f1, f2
        for (k = 0; k < monomials; k++) {
            c = split(monomial[k], e, ",")
            f = ""
            for (i = 1; i <= c; i++) if (e[i] > 0) f = f (f == "" ? "" : "*") "x#" (i - 1) (e[i] > 1 ? "^" e[i] : "")
            printf "%s%s", k ? "," : "", f == "" ? "x#" c : f
        }
        printf "\nt %s", coefficients
    }
    if (now != "") printf "\n"
    now = ""
}
function begin(letter) {
    ended()
    printf "%s ", letter
    now = letter
    rows = columns = m0 = m1 = c0 = c1 = f0 = f1 = f2 = coefficients = last = ""
    monomials = numbers = 0
    split("", place)
    split("", number)
}
# behind the coefficient, which is field `at`, stand component and exponents
function put(letter, part, vector, at,  k, e, row) {
    if (letter != now || part != group) { begin(letter); group = part }
    row = byte[$(at + 1) - 1]
    rows = rows row
    columns = columns byte[vector - 1]
    e = substr($0, length($1) + length($2) + length($3) + (at > 2 ? length($4) : 0) + (at > 3 ? length($5) : 0) + at + 2)
    if (e in place) k = place[e]
    else { k = place[e] = monomials; monomial[monomials++] = e }
    m0 = m0 byte[k % 128]
    m1 = m1 byte[int(k / 128)]
    if (vector != last) {
        f0 = f0 row
        f1 = f1 byte[k % 128]
        f2 = f2 byte[int(k / 128)]
        last = vector
    }
    e = $at
    if (e in number) k = number[e]
    else { coefficients = coefficients (numbers ? "," : "") e; k = number[e] = numbers++ }
    c0 = c0 byte[k % 128]
    c1 = c1 byte[int(k / 128)]
}
BEGIN { FS = ","; for (k = 0; k < 128; k++) byte[k] = sprintf("%c", k + 32) }
said { if ($0 == "=") said = 0; else print "e " $0; next }
/^[A-Z],/ && !/^[A-Z](,-?[0-9]+)+$/ { bad = 1; next }
/^S,/ { put("S", $2, $3, 4); next }
/^T,/ { put("T", 1, $2, 3); next }
/^[WC],/ { put(substr($0, 1, 1), 1, 1, 2); next }
/^Z,/ { if ($3 == 0) { begin("Z"); printf "%s", $2 } else if (now != "S" || $2 != group || $3 != last) bad = 1; next }
/^[XM],/ { begin(substr($0, 1, 1)); printf "%s", substr($0, 3); next }
/^[HB],/ { if (now != "N") begin("N"); printf "%s,", substr($0, 3); next }
/^ *-?[0-9]+: / {
    if (now != "N") begin("N")
    label = substr($0, 1, 5); sub(/:/, "", label); printf "%d,", label
    for (i = 0; i < 11; i++) { cell = substr($0, 7 + 6*i, 6); sub(/-/, "0", cell); printf "%d,", cell }
    next
}
/^= [0-9]+$/ { ended(); print; said = 1 }
END { print (bad || said || now != "" ? "bad" : "end") }
///

-- Jobs are (the words of a call, each a word for the shell, the problem's text, the V lines). For each: the parts printed, pairs of letter and text, what was
-- said, the exit status. One shell for all of them. With a name that is not empty there is one job, whose output is written there as it is, unless the command
-- failed.
ran = (jobs, kept) -> (
    folder := temporaryFileName();
    mkdir folder;
    at := name -> folder | "/" | name;
    awk := {"LC_ALL=C awk '", awkText, "' >\"$f/parts\"\n"};
    script := {"p=", shellQuoted programName(), "\nf=", shellQuoted folder, "\n"} | if kept == "" then
        {"r() { e=$(\"$p\" \"$@\" 2>&1 >&3 3>&-); printf '\\n= %s\\n%s\\n=\\n' $? \"$e\"; }\n{\nexec 3>&1\n"}
        | flatten apply(jobs, (words, text, vector) -> {"r ", words, " <<'E'\n", text, vector, "E\n"}) | {"} | "} | awk
    -- a page tells the name of its problem file
    else {"e=$(\"$p\" ", jobs#0#0, " \"$f/problem.txt\" 2>&1 >\"$f/out\" </dev/null)\ns=$?\ncase $s in 0|1|3|4|5) { cat \"$f/out\" >", shellQuoted kept,
        "; } 2>/dev/null || s=256 ;; esac\nprintf '= %s\\n%s\\n=\\n' $s \"$e\" | "} | awk;
    if kept != "" then at "problem.txt" << jobs#0#1 << close;
    at "run" << concatenate script << close;
    run(". " | shellQuoted at "run");
    printed := if fileExists at "parts" then lines get at "parts" else {};
    scan(readDirectory folder, x -> if x != "." and x != ".." then removeFile at x);
    removeDirectory folder;
    if #printed == 0 or last printed != "end" then error "the program was stopped before it was done, or what it printed can not be read";
    parts := {};
    answers := {};
    for l in drop(printed, -1) do (
        if l#0 == "=" then (
            answers = append(answers, (parts, {}, value substring(2, l)));
            parts = {})
        else if l#0 == "e" then (
            said := substring(2, l);
            if said != "" and not match("^tagetessash: prebuilt:", said) then (
                a := last answers;
                answers = append(drop(answers, -1), (a#0, append(a#1, replace("^standard input:", "line ", said)), a#2))))
        else if l#0 == "t" then parts = append(drop(parts, -1), append(last parts, substring(2, l)))
        else parts = append(parts, (l#0, substring(2, l))));
    if #answers != #jobs then error("what the program " | programName() | " printed can not be read");
    for a in answers do (
        if a#2 == 127 then error("the program " | programName() | " is not found; the environment variable TAGETESSASH names it");
        if a#2 == 256 then error("the file " | kept | " can not be written");
        if a#2 == 2 or a#2 > 6 then error("the program " | programName() | " failed with status " | toString a#2 | ": " | concatenate between("; ", a#1)));
    answers)

-- The text behind the last line with this letter, or null.
printedPart = (answer, letter) -> (
    found := select(answer#0, x -> x#0 == letter);
    if #found == 0 then null else (last found)#1)

-- The matrix into F behind the last line with this letter, or null.
printedMatrix = (F, answer, letter) -> (
    found := select(answer#0, x -> x#0 == letter);
    if #found == 0 then null else matrixOf(F, last found))

numbersOf = text -> if text === null then error "the program printed no numbers" else toList value("{" | substring(0, #text - 1, text) | "}")

-- What a byte of awk's says: where it leads to in a list, and in one of more than 128, cut into lists of 128.
behind = l -> toList (32 : null) | l
paged = l -> behind apply(pack(128, l), behind)
numbers = behind toList (0 .. 127)
byBytes = (l, low, high) -> (l = paged l; apply(ascii low, ascii high, (a, b) -> l#b#a))

-- The matrix into F of a part: the monomials, each in the row of its term, times the coefficients, each in the column of its term. A column has the degree of
-- its first term. Of the user's names none is in this text.
matrixOf = (F, part) -> (
    R := ring F;
    (letter, rows, columns, m0, m1, c0, c1, f0, f1, f2, monomials, coefficients) := part;
    rows = apply(ascii rows, k -> numbers#k);
    columns = apply(ascii columns, k -> numbers#k);
    monomials = (value("x -> {" | monomials | "}")) append(gens R, 1_R);
    d := behind degrees F;
    G := R^(apply(ascii f0, byBytes(apply(monomials, degree), f1, f2), (k, e) -> - d#k - e));
    T := R^(#rows);
    each := toList (0 .. #rows - 1);
    zero := toList (degreeLength R : 0);
    K := raw R;
    coefficients = apply(toList value("{" | coefficients | "}"), c -> rawFromNumber(K, c));
    map(F, G, rawSparseMatrix2(raw F, raw T, zero, rows, each, toSequence byBytes(apply(monomials, raw), m0, m1), 0)
        * rawSparseMatrix2(raw T, raw G, zero, each, columns, toSequence byBytes(coefficients, c0, c1), 0)))

-- A refusal as an error, in the words of this system.
refused = (which, q, answer) -> (
    refusal := printedPart(answer, "X");
    said := concatenate between("; ", answer#1);
    if refusal === null then error(which | "the program said nothing that can be read: " | said);
    (number, place) := toSequence value("{" | refusal | "}");
    if number == 9 then error(which | "the columns are no Groebner basis: " | toString entries printedMatrix(target q#"matrix", answer, "W")
        | " is in their image, and no leading monomial divides its own (gbWitness)");
    if number == 17 then error(which | "generator " | toString place | " is not homogeneous");
    if number == 25 then error(which | "generator " | toString place | " is not homogeneous by both degrees");
    error(which | replace("tagetessash: refused: ", "", said)))

-- For each problem of the list what is known of it, and the answer to each word.
asked = (problems, words) -> (
    answers := ran(flatten apply(problems, q -> apply(words, w -> (w, q#"text", ""))), "");
    apply(#problems, i -> (problems#i, take(answers, {i * #words, (i + 1) * #words - 1}))))

-- The answers to a word, of one argument or of each of a list, made of what was printed.
answered = (G, graded, words, made) -> (
    many := instance(G, List);
    if many and #G == 0 then error "the list of problems is empty";
    items := asked(apply(if many then G else {G}, x -> problemOf(x, plain, graded)), words);
    answers := for i from 0 to #items - 1 list (
        which := if many then "problem " | toString (i + 1) | ": " else "";
        (q, printed) := items#i;
        made(which, q, printed));
    if many then answers else first answers)

unlessRefused = (which, q, answer) -> if answer#2 != 0 then refused(which, q, answer)

---------------------------------------------------------------------------------------------------------------------------------------------------------------
-- The answers as Macaulay2's own objects

levelsOf = (which, q, answer) -> (
    unlessRefused(which, q, answer);
    g := q#"matrix";
    R := ring g;
    own := for j from 0 to numColumns g - 1 list (
        t := leadTerm g_{j};
        i := position(flatten entries t, c -> c != 0);
        degree t_(i, 0) + (degrees target g)#i);
    maps := {map(target g, R^(-own), entries g)};
    levels := select(answer#0, x -> x#0 == "S");
    if printedPart(answer, "Z") =!= toString (#levels + 1) then error "the program printed no whole sheet";
    for x in levels do maps = append(maps, matrixOf(source last maps, x));
    chainComplex maps)

provedResolution = method(TypicalValue => ChainComplex)
provedResolution Matrix := provedResolution Ideal := provedResolution Module := provedResolution List := G ->
    answered(G, false, {"sheet"}, (which, q, printed) -> levelsOf(which, q, first printed))

-- A page as a BettiTally.
tallyOf = (which, q, answer) -> (
    unlessRefused(which, q, answer);
    new BettiTally from flatten for row in pack(12, numbersOf printedPart(answer, "N")) list (
        for j from 0 to 10 list if row#(j + 1) == 0 then continue else (
            d := row#0 + j - q#"shift";
            (j, {d}, d) => row#(j + 1))))

-- Lines of bidegrees as a BettiTally, by the heft vector.
bitallyOf = (which, q, answer) -> (
    unlessRefused(which, q, answer);
    h := heft ring q#"matrix";
    if h === null then error "the ring has no heft vector";
    second := last first degrees target q#"matrix";
    new BettiTally from for row in pack(4, numbersOf printedPart(answer, "N")) list (
        d := {row#1 - q#"shift", row#2 + second};
        (row#0, d, sum apply(h, d, (a, b) -> a*b)) => row#3))

ringOf = G -> if instance(G, List) then (if #G == 0 then error "the list of problems is empty" else ring first G) else ring G

onlyByDegree = (what, G) -> for x in (if instance(G, List) then G else {G}) do
    if not byDegree ring x then error(what | " by degree: variables of degree 1 are wanted, and these have " | toString degrees ring x)

provedBetti = method(TypicalValue => BettiTally)
provedBetti Matrix := provedBetti Ideal := provedBetti Module := provedBetti List := G -> (
    if degreeLength ringOf G == 2 then answered(G, true, {"bidegrees"}, (which, q, printed) -> bitallyOf(which, q, first printed))
    else (
        onlyByDegree("the table counts", G);
        answered(G, true, {"betti"}, (which, q, printed) -> tallyOf(which, q, first printed))))

provedMinimalBetti = method(TypicalValue => BettiTally)
provedMinimalBetti Matrix := provedMinimalBetti Ideal := provedMinimalBetti Module := provedMinimalBetti List := G -> (
    onlyByDegree("minimal numbers are counted", G);
    answered(G, true, {"minimal"}, (which, q, printed) -> tallyOf(which, q, first printed)))

valuesOf = (which, q, answer) -> (
    unlessRefused(which, q, answer);
    apply(pack(2, numbersOf printedPart(answer, "N")), x -> x#0 - q#"shift" => x#1))

provedHilbert = method(TypicalValue => List)
provedHilbert Matrix := provedHilbert Ideal := provedHilbert Module := provedHilbert List := G -> (
    onlyByDegree("monomials are counted", G);
    answered(G, true, {"hilbert"}, (which, q, printed) -> valuesOf(which, q, first printed)))

provedAnswers = method(TypicalValue => HashTable)
provedAnswers Matrix := provedAnswers Ideal := provedAnswers Module := provedAnswers List := G -> (
    onlyByDegree("tables and functions count", G);
    answered(G, true, {"sheet", "betti", "minimal", "hilbert"}, (which, q, printed) -> (
        -- 17 says that there is no table; every other refusal is an error
        table := a -> if printedPart(a, "X") =!= null and match("^17,", printedPart(a, "X")) then null else tallyOf(which, q, a);
        hashTable {
            "resolution" => levelsOf(which, q, printed#0), "betti" => table printed#1, "minimal" => table printed#2,
            "hilbert" => valuesOf(which, q, printed#3)})))

-- Accepted: true. Refused with 9: false. All else is an error. The zero vector is divided: nothing is lifted, so that no limit of lifting is met.
accepted = (which, q, answer) -> (
    if answer#2 == 0 and printedPart(answer, "M") === "1" then true
    else if answer#2 == 3 and printedPart(answer, "X") =!= null and match("^9,", printedPart(answer, "X")) then false
    else refused(which, q, answer))

isProvedGroebnerBasis = method(TypicalValue => Boolean)
isProvedGroebnerBasis Matrix := isProvedGroebnerBasis List := G -> answered(G, false, {"member"}, (which, q, printed) -> accepted(which, q, first printed))

gbWitness = method(TypicalValue => Matrix)
gbWitness Matrix := gbWitness List := G -> answered(G, false, {"member"}, (which, q, printed) -> (
    if accepted(which, q, first printed) then map(target q#"matrix", (ring q#"matrix")^1, 0)
    else printedMatrix(target q#"matrix", first printed, "W")))

provedComplete = method(TypicalValue => Matrix)
provedComplete Matrix := provedComplete List := G -> answered(G, false, {"complete"}, (which, q, printed) -> (
    unlessRefused(which, q, first printed);
    found := printedMatrix(target q#"matrix", first printed, "T");
    if found === null then error "the program printed no problem file";
    found))

-- What is known of the columns of g, the columns of f, for each of these what was printed.
divided = (g, f) -> (
    q := problemOf(g, plain, false);
    v := columnsToDivide f;
    if ring v =!= ring g then error "the vector lies in another ring than the basis";
    if numRows v != numRows g then error("the vector has " | toString numRows v | " entries, and the free module has rank " | toString numRows g);
    if numColumns v == 0 then error "there is no column to divide";
    answers := ran(apply(numColumns v, j -> ("member", q#"text", vectorText v_{j})), "");
    for a in answers do if not (a#2 == 0 and printedPart(a, "M") === "1" or a#2 == 6 and printedPart(a, "M") === "0") then refused("", q, a);
    (q, v, answers))

provedMember = method()
provedMember(RingElement, Matrix) := provedMember(Vector, Matrix) := provedMember(Matrix, Matrix) := (f, g) -> (
    (q, v, answers) := divided(g, f);
    found := apply(answers, a -> a#2 == 0);
    if instance(f, Matrix) then found else first found)

provedDivision = method()
provedDivision(RingElement, Matrix) := provedDivision(Vector, Matrix) := provedDivision(Matrix, Matrix) := (f, g) -> (
    (q, v, answers) := divided(g, f);
    R := ring g;
    -- columns side by side, into the source and the target of g
    side := (F, letter) -> map(F, source v, matrix {apply(answers, a -> (
        found := printedMatrix(F, a, letter);
        if found === null then map(F, R^1, 0) else found))});
    (side(source g, "C"), side(target g, "W")))

provedPage = method(TypicalValue => Nothing)
provedPage(Matrix, String) := provedPage(Ideal, String) := provedPage(Module, String) := (G, file) -> (
    if file == "" then error "the name of the file is empty";
    R := ring G;
    q := problemOf(G, plain, degreeLength R <= 2);
    names := concatenate between(",", apply(gens R, toString));
    kept := if match("^/", file) then file else "./" | file;
    ran({("page " | (if match("\\.txt$", file) then "--text " else "") | "--title " | shellQuoted baseFilename file | " --names " | shellQuoted names,
        q#"text", "")}, kept);)

compareWithMacaulay2 = method(TypicalValue => HashTable)
compareWithMacaulay2 Ideal := I -> compareWithMacaulay2 comodule I
compareWithMacaulay2 Module := M -> (
    answers := provedAnswers M;
    C := answers#"resolution";
    homogeneous := isHomogeneous presentation M;
    new HashTable from {
        "complex" => C.dd^2 == 0,
        "resolves the module" => image C.dd_1 == image presentation M,
        "exact" => all(1 .. length C, i -> kernel C.dd_i == image C.dd_(i + 1)),
        -- minimalBetti of a module without generators ends Macaulay2 1.21
        "minimal numbers" => if homogeneous then answers#"minimal" === (if M == 0 then new BettiTally else minimalBetti prune M) else null,
        "Hilbert function" => if homogeneous then all(answers#"hilbert", x -> hilbertFunction(x#0, M) == x#1) else null})

---------------------------------------------------------------------------------------------------------------------------------------------------------------

beginDocumentation()

doc ///
  Key
    Tagetessash
  Headline
    syzygies and free resolutions by a proved engine
  Description
    Text
      The program tagetessash takes a Groebner basis over a prime field, tests that it is one, and lists its syzygies level upon level: the free
      resolution of Schreyer's frame. Each answer of the program is proved to be what its definitions say; this package, which hands it a basis and reads
      the answer back as Macaulay2's own objects, is tested and not proved.
    Example
      R = ZZ/32003[x,y,z,w]
      I = ideal(x*z-y^2, y*w-z^2, x*w-y*z)
      C = provedResolution I
      C.dd_2
      betti C
    Text
      The ring is $ZZ/p[..]$ with $p$ up to 65521, at most 8 variables and the order Lex, GLex or GRevLex. What the program does not take is an error
      that says why, and so is a program that is not installed; an error is never an answer. The program is the command tagetessash of the search path, or
      what the environment variable TAGETESSASH names.

      Where a function takes a matrix, it takes a list of them too (and of ideals and modules, where it takes these), and gives the list of the answers: the
      shell is called once for all of them.
  SeeAlso
    resolution
    minimalBetti
  Subnodes
    provedResolution
    provedBetti
    provedMinimalBetti
    provedHilbert
    provedAnswers
    isProvedGroebnerBasis
    gbWitness
    provedComplete
    provedMember
    provedDivision
    compareWithMacaulay2
    provedPage
    problemFile
    vectorLines
///

doc ///
  Key
    provedResolution
    (provedResolution, Matrix)
    (provedResolution, Ideal)
    (provedResolution, Module)
    (provedResolution, List)
  Headline
    the free resolution by Schreyer's frame
  Usage
    C = provedResolution G
  Inputs
    G:{Matrix,Ideal,Module,List}
      a matrix whose columns are a Groebner basis, taken as they stand; or an ideal, of which the quotient is resolved; or a module; or a list of them
  Outputs
    C:ChainComplex
      mostly not minimal
  Description
    Text
      Of an ideal the columns of @TT "gens gb I"@ are taken, of a module those of @TT "gens gb presentation M"@.
    Example
      R = ZZ/32003[a..e]
      I = ideal(a*b, b*c, c*d, d*e, e*a)
      C = provedResolution I
      betti C
      betti res I
      all(1 .. length C, i -> kernel C.dd_i == image C.dd_(i+1))
    Text
      Columns that are no Groebner basis are an error that shows why; see @TO gbWitness@.
  SeeAlso
    provedBetti
    provedMinimalBetti
///

doc ///
  Key
    provedBetti
    (provedBetti, Matrix)
    (provedBetti, Ideal)
    (provedBetti, Module)
    (provedBetti, List)
  Headline
    how many generators of which degree the resolution has
  Usage
    B = provedBetti G
  Inputs
    G:{Matrix,Ideal,Module,List}
  Outputs
    B:BettiTally
      of @TO provedResolution@, mostly not minimal; in a bigraded ring by bidegree
  Description
    Example
      R = ZZ/32003[a..e]
      provedBetti ideal(a*b, b*c, c*d, d*e, e*a)
      S = ZZ/32003[s,t,x,y,z, Degrees => {{1,0},{1,0},{0,1},{0,1},{0,1}}]
      peek provedBetti minors(2, matrix {{s,x,y},{t,y,z}})
  SeeAlso
    provedMinimalBetti
///

doc ///
  Key
    provedMinimalBetti
    (provedMinimalBetti, Matrix)
    (provedMinimalBetti, Ideal)
    (provedMinimalBetti, Module)
    (provedMinimalBetti, List)
  Headline
    the minimal graded Betti numbers
  Usage
    B = provedMinimalBetti G
  Inputs
    G:{Matrix,Ideal,Module,List}
  Outputs
    B:BettiTally
      as @TO minimalBetti@ gives it of the pruned module
  Description
    Example
      R = ZZ/2[a..f];
      I = ideal(a*b*c,a*b*f,a*c*e,a*d*e,a*d*f,b*c*d,b*d*e,b*e*f,c*d*f,c*e*f)
      provedMinimalBetti I
      provedMinimalBetti sub(I, ZZ/3[a..f])
///

doc ///
  Key
    provedHilbert
    (provedHilbert, Matrix)
    (provedHilbert, Ideal)
    (provedHilbert, Module)
    (provedHilbert, List)
  Headline
    the Hilbert function, 33 values
  Usage
    H = provedHilbert G
  Inputs
    G:{Matrix,Ideal,Module,List}
  Outputs
    H:List
      of 33 options, degree => value, from the least degree of a component on
  Description
    Example
      R = ZZ/32003[x,y,z,w]
      take(provedHilbert ideal(x*z-y^2, y*w-z^2, x*w-y*z), 5)
  SeeAlso
    hilbertFunction
///

doc ///
  Key
    provedAnswers
    (provedAnswers, Matrix)
    (provedAnswers, Ideal)
    (provedAnswers, Module)
    (provedAnswers, List)
  Headline
    resolution, Betti numbers, minimal ones and Hilbert function at once
  Usage
    A = provedAnswers G
  Inputs
    G:{Matrix,Ideal,Module,List}
  Outputs
    A:HashTable
      with the keys "resolution", "betti", "minimal" and "hilbert"; the tables are null where G is not homogeneous
  Description
    Text
      The shell is called once.
    Example
      R = ZZ/32003[x,y,z,w]
      A = provedAnswers ideal(x*z-y^2, y*w-z^2, x*w-y*z);
      A#"minimal"
  SeeAlso
    provedResolution
///

doc ///
  Key
    isProvedGroebnerBasis
    (isProvedGroebnerBasis, Matrix)
    (isProvedGroebnerBasis, List)
  Headline
    whether the columns are a Groebner basis
  Usage
    isProvedGroebnerBasis g
  Inputs
    g:{Matrix,List}
  Outputs
    :Boolean
  Description
    Text
      The columns are taken as they stand. What can not be tested is an error, and no answer.
    Example
      R = ZZ/7[x,y, MonomialOrder => Lex]
      isProvedGroebnerBasis matrix {{x^2, x*y+y^2}}
      gbWitness matrix {{x^2, x*y+y^2}}
      isProvedGroebnerBasis gens gb ideal(x^2, x*y+y^2)
  SeeAlso
    gbWitness
///

doc ///
  Key
    gbWitness
    (gbWitness, Matrix)
    (gbWitness, List)
  Headline
    a vector that shows that the columns are no Groebner basis
  Usage
    v = gbWitness g
  Inputs
    g:{Matrix,List}
  Outputs
    v:Matrix
      with one column, in the image of g, its leading monomial divided by none of the columns'; 0 where they are a Groebner basis
  SeeAlso
    isProvedGroebnerBasis
    provedComplete
///

doc ///
  Key
    provedComplete
    (provedComplete, Matrix)
    (provedComplete, List)
  Headline
    the columns, and behind them those that they lack to be a Groebner basis
  Usage
    h = provedComplete g
  Inputs
    g:{Matrix,List}
  Outputs
    h:Matrix
      its first columns are those of g; its columns are a Groebner basis, mostly not a reduced one
  Description
    Text
      The program adds the vector of @TO gbWitness@, made monic, and tries again, until it accepts the columns.
  SeeAlso
    gbWitness
///

doc ///
  Key
    provedMember
    (provedMember, RingElement, Matrix)
    (provedMember, Vector, Matrix)
    (provedMember, Matrix, Matrix)
  Headline
    whether a vector is in the image of a Groebner basis
  Usage
    provedMember(f, g)
  Inputs
    f:{RingElement,Vector,Matrix}
    g:Matrix
      whose columns are a Groebner basis
  Outputs
    :Boolean
      of a matrix f a list, an entry for each column
  Description
    Example
      R = ZZ/32003[x,y,z,w]
      g = gens gb ideal(x*z-y^2, y*w-z^2, x*w-y*z)
      provedMember(y^3-x^2*w, g)
      provedMember(matrix {{y^3-x^2*w, y^3+x*z^2}}, g)
  SeeAlso
    provedDivision
///

doc ///
  Key
    provedDivision
    (provedDivision, RingElement, Matrix)
    (provedDivision, Vector, Matrix)
    (provedDivision, Matrix, Matrix)
  Headline
    quotients and remainder by a Groebner basis
  Usage
    (q, r) = provedDivision(f, g)
  Inputs
    f:{RingElement,Vector,Matrix}
    g:Matrix
      whose columns are a Groebner basis
  Outputs
    :Sequence
      of two matrices, a column for each of f: f is g*q + r, and no leading monomial of a column of g divides a term of r
  Description
    Text
      The first column that can divides. The remainder is that of @TT "f % gb image g"@; quotients need not be those of @TT "f // g"@.
    Example
      R = ZZ/32003[x,y,z,w]
      g = gens gb ideal(x*z-y^2, y*w-z^2, x*w-y*z)
      (q, r) = provedDivision(y^3+x*z^2, g)
      g*q + r
  SeeAlso
    provedMember
///

doc ///
  Key
    compareWithMacaulay2
    (compareWithMacaulay2, Ideal)
    (compareWithMacaulay2, Module)
  Headline
    the answers beside Macaulay2's own
  Usage
    compareWithMacaulay2 M
  Inputs
    M:{Ideal,Module}
  Outputs
    :HashTable
      true where both agree, null where the module is not homogeneous
  Description
    Example
      R = ZZ/32003[x,y,z,w]
      compareWithMacaulay2 ideal(x*z-y^2, y*w-z^2, x*w-y*z)
///

doc ///
  Key
    provedPage
    (provedPage, Matrix, String)
    (provedPage, Ideal, String)
    (provedPage, Module, String)
  Headline
    the levels as a printed page
  Usage
    provedPage(G, file)
  Inputs
    G:{Matrix,Ideal,Module}
    file:String
      written: plain text where it ends in .txt, else HTML to be opened in a browser and printed
  Description
    Text
      The variables have the ring's names. A refused G has a page too, which says why.
///

doc ///
  Key
    problemFile
    (problemFile, Thing)
    [problemFile, Rank]
    [problemFile, Sort]
    [problemFile, Generators]
    [problemFile, Degrees]
    [problemFile, Weights]
    [problemFile, Verbose]
    Rank
    Generators
  Headline
    the problem file that the program reads
  Usage
    t = problemFile G
  Inputs
    G:{Matrix,Ideal,Module}
      a matrix, whose columns are taken as they stand; an ideal, of which gens gb is taken; or a module, of whose presentation it is taken
    Rank => ZZ
      the rank of the free module, else that of the matrix's target
    Sort => Boolean
      whether elements with leading terms in one component ascend lexicographically by these; components ascend
    Generators => Boolean
      whether gens of an ideal, the presentation of a module or the columns of a matrix are taken as they stand, those that are zero left out: no Groebner
      basis is computed, and tagetessash complete makes one of the file
    Degrees => List
      the degrees of the components, else those of the matrix's target, in a bigraded ring their first integers
    Weights => List
      pairs, the two weights of each variable, else its degree in a bigraded ring; the empty list for none
    Verbose => Boolean
      whether standard error tells what was taken, and by how much degrees were shifted so that the least is 0
  Outputs
    t:String
  Description
    Example
      R = ZZ/32003[x,y,z,w]
      problemFile ideal(x*z-y^2, y*w-z^2, x*w-y*z)
///

doc ///
  Key
    vectorLines
    (vectorLines, Thing)
  Headline
    the lines of a vector that is to be divided
  Usage
    t = vectorLines f
  Inputs
    f:{RingElement,Vector,Matrix}
      a matrix has one column
  Outputs
    t:String
      a V line for each term, the greatest first, to stand behind the problem file
  Description
    Example
      R = ZZ/32003[x,y,z,w]
      vectorLines(y^3-x^2*w)
  SeeAlso
    problemFile
    provedMember
///

TEST ///
R = ZZ/32003[x,y,z,w]
I = ideal(x*z-y^2, y*w-z^2, x*w-y*z)
C = provedResolution I
assert(apply(3, i -> rank C_i) == {1,3,2})
assert all(values compareWithMacaulay2 I, x -> x === true)
assert(provedBetti I === betti C)
assert(provedBetti {I, ideal x} === {provedBetti I, provedBetti ideal x})
///

TEST ///
-- degrees of components, negative ones, one that is not needed
R = ZZ/101[x,y,z]
M = coker map(R^{2,1,0}, , {{x^3,y^3+z^3,0},{y^2,x*z,x^2+y*z},{z,y,z+x}})
assert all(values compareWithMacaulay2 M, x -> x === true)
assert(provedBetti M === betti provedResolution M)
N = coker matrix {{x,1},{y,0_R}}
assert(provedMinimalBetti N === minimalBetti prune N)
assert all(values compareWithMacaulay2 ideal 1_R, x -> x === true)
///

TEST ///
-- bidegrees
S = ZZ/32003[s,t,x,y,z, Degrees => {{1,0},{1,0},{0,1},{0,1},{0,1}}]
I = minors(2, matrix {{s,x,y},{t,y,z}})
assert(provedBetti I === betti provedResolution I)
assert(provedBetti I === betti res I)
///

TEST ///
-- not homogeneous, every order
for o in {Lex, GLex, GRevLex} do (
    R = ZZ/32003[x,y,z, MonomialOrder => o];
    I = ideal(x^2+y, x*y-z, z^2-1);
    c = compareWithMacaulay2 I;
    assert(c#"complex" and c#"exact" and c#"resolves the module"))
///

TEST ///
-- no Groebner basis; members
R = ZZ/7[x,y, MonomialOrder => Lex]
g = matrix {{x^2, x*y+y^2}}
assert(isProvedGroebnerBasis g === false)
assert(entries gbWitness g == {{-y^3}})
assert isSubset(image gbWitness g, image g)
G = gens gb image g
assert(isProvedGroebnerBasis G === true)
assert(gbWitness G == 0)
assert(provedMember(y^3, G) === true)
assert(provedMember(matrix {{y^2, x*y^2, 0}}, G) === {false, true, true})
(q, r) = provedDivision(x^3+x, G)
assert(G*q + r == matrix {{x^3+x}})
assert(entries r == {{x}})
-- errors, each for its reason
fails = f -> (try (f(); false) else true)
assert fails(() -> provedResolution g)
assert fails(() -> provedMember(x, g))
S = QQ[x,y]
assert fails(() -> isProvedGroebnerBasis matrix {{x}})
///

end
