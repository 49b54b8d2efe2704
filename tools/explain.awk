# SPDX-License-Identifier: MIT OR Apache-2.0
# What stands behind an X line, for people: the line of the input with the usual causes, found by looking; after 9 which frame term it is, and the value; after
# 17 two terms of the element that have different degrees, after 25 two that have different bidegrees; where completing met a limit, what was given.
# Unproved, and nothing rests on it: it reads the problem file, then the sheet or the page, and prints lines for standard error.
#
#     NAME=file ENDED=1 WORD=sheet NUMBER=6 PLACE=3 awk -f explain.awk FILE PRINTED     ENDED: whether FILE's last byte is 10; WORD: the command's

BEGIN {
    name = ENVIRON["NAME"]; ended = ENVIRON["ENDED"]; number = ENVIRON["NUMBER"] + 0; place = ENVIRON["PLACE"] + 0
}
FILENAME == ARGV[1] { line[++lines] = $0; next }
/^W,/ { value[++terms] = $0 }
END {
    if (lines > 0) { split(line[1], ring, ","); p = ring[2]; n = ring[3]; code = ring[4]; s = ring[5] }
    # the D line and the G line, 0 where there is none, and the first T line
    d_line = line[2] ~ /^D/ ? 2 : 0
    g_line = line[d_line ? 3 : 2] ~ /^G/ ? (d_line ? 3 : 2) : 0
    first_t = 2 + (d_line > 0) + (g_line > 0)
    if ((number <= 8 || number == 12 || number == 18 || number >= 21 && number <= 24) && place > 0) print name ":" place ": " shown(line[place]) hint()
    if (number == 9) not_a_basis()
    if (number == 17 || number == 25) two_degrees()
    if (ENVIRON["WORD"] == "complete" && (number >= 13 || ENVIRON["PLACE"] == "completed") && number != 18 && number != 24) not_completed()
}

# what was given, and what may help
function not_completed(    fields) {
    split(line[lines - 1], fields, ",")
    print name ": " fields[2] (fields[2] == 1 ? " element" : " elements") " with " lines - first_t " T lines; nothing is reduced while completing:" \
        " the reduced basis that std of Singular or gb of Macaulay2 gives has mostly fewer elements"
}

# control characters and bytes above 126 as ?, cut
function shown(text) {
    gsub(/[^ -~]/, "?", text)
    return length(text) > 70 ? substr(text, 1, 70) ".." : text
}

function hint(    words) {
    words = number == 1 ? shape(line[place]) : number == 23 ? of_vector(line[place]) : number == 21 || number == 22 || number == 12 ? of_log(line[place]) : \
        range(line[place])
    return words == "" ? "" : "   <- " words
}

# why a line has the wrong shape
function shape(text,    fields, count, want, i) {
    if (lines == 0) return "the file is empty"
    if (place > lines) return "the file ends before this line; E,count is its last one"
    if (substr(text, 1, 3) == "\357\273\277") return "it begins with a byte order mark (bytes EF BB BF)"
    if (substr(text, 1, 2) == "\377\376" || substr(text, 1, 2) == "\376\377") return "this is UTF-16; plain ASCII is wanted"
    if (text ~ /\r$/) return "it ends in byte 13, as lines of Windows do: tr -d '\\r' <FILE takes these away"
    if (text == "") return "it is blank"
    if (text ~ /^[ \t]+$/) return "it is blank"
    if (text ~ /^[ \t]*(#|%|\/\/|--|;)/) return "it is a comment; a problem file has none"
    if (place == lines && !ended) return "its end, byte 10, is missing"
    if (text ~ /;/) return "it has ; for ,"
    if (text ~ /[ \t]/) return "it has a blank"
    if (text ~ /[-+]/) return "it has a sign; for -c write p - c"
    if (text ~ /^[rdgte],/) return "its letter is a small one"
    if (text !~ /^[RDGTE],/) return "it begins with none of R, D, G, T, E and a comma"
    if (place == 1 && text !~ /^R/) return "the first line is R,p,n,order,s"
    if (place > 1 && text ~ /^R/) return "R stands on the first line alone"
    for (i = 2; i < place; i++) if (line[i] ~ /^E/) return "it stands after E; E,count is the last line"
    if (place > 2 && text ~ /^D/) return "D stands on the second line alone"
    if (place != g_line && text ~ /^G/) return "G stands once, behind R or D"
    if (text !~ /^[RDGTE](,[0-9]+)+$/) return "a field is no number"
    if (text ~ /,0[0-9]/) return "a number has a leading zero"
    count = split(text, fields, ",") - 1
    for (i = 2; i <= count + 1; i++) if (length(fields[i]) > 5 || fields[i] + 0 > 65535) return "a number is above 65,535"
    want = text ~ /^R/ ? 4 : text ~ /^D/ ? s + 0 : text ~ /^G/ ? 2 * n : text ~ /^E/ ? 1 : n + 3
    if (count != want)
        return "it has " count (count == 1 ? " number" : " numbers") ", and " want (want == 1 ? " is" : " are") " wanted" \
            (text ~ /^T/ ? " for " n " variables" : text ~ /^D/ ? ", a degree for each component" : text ~ /^G/ ? ", two weights for each variable" : "")
    return ""
}

# why a line behind E is no V line of a term that may follow
function of_vector(text,    fields, count, want, i) {
    if (text ~ /\r$/) return "it ends in byte 13, as lines of Windows do: tr -d '\\r' <FILE takes these away"
    if (text ~ /^[ \t]*$/) return "it is blank"
    if (place == lines && !ended) return "its end, byte 10, is missing"
    if (text !~ /^V,/) return "it does not begin with V and a comma"
    if (text ~ /[-+]/) return "it has a sign; for -c write p - c"
    if (text !~ /^V(,[0-9]+)+$/) return "a field is no number"
    if (text ~ /,0[0-9]/) return "a number has a leading zero"
    count = split(text, fields, ",") - 1
    want = n + 2
    if (count != want) return "it has " count (count == 1 ? " number" : " numbers") ", and " want " are wanted for " n " variables"
    if (fields[2] + 0 == 0) return "the coefficient is 0"
    if (fields[2] + 0 >= p + 0) return "the coefficient " fields[2] " is not below p = " p
    if (fields[3] + 0 < 1 || fields[3] + 0 > s + 0) return "component " fields[3] " is not 1 to " s
    for (i = 4; i <= count + 1; i++) if (length(fields[i]) > 3 || fields[i] + 0 > 255) return "an exponent is above 255"
    for (i = place; i > 1 && line[i] !~ /^E/; i--) continue
    return place - i > 512 ? "512 V lines are the most" : "it is not below line " place - 1 ", " shown(line[place - 1])
}

# why a line behind E is no L line, names no vector, is no P line, or picks no term
function of_log(text,    fields, count, want, i, e, letter) {
    for (e = 1; e < place && line[e] !~ /^E/; e++) continue
    letter = place == e + 1 ? "L" : "P"
    if (place > lines) return letter == "L" ? "an L line is wanted behind E" : "the lines end, and the working value is not zero"
    if (text ~ /\r$/) return "it ends in byte 13, as lines of Windows do: tr -d '\\r' <FILE takes these away"
    if (text ~ /^[ \t]*$/) return "it is blank"
    if (place == lines && !ended) return "its end, byte 10, is missing"
    if (text !~ "^" letter ",") return "it does not begin with " letter " and a comma"
    if (text !~ /^[LP](,[0-9]+)+$/) return "a field is no number"
    if (text ~ /,0[0-9]/) return "a number has a leading zero"
    count = split(text, fields, ",") - 1
    want = letter == "L" ? 2 : n + 1
    if (count != want) return "it has " count (count == 1 ? " number" : " numbers") ", and " want " are wanted" (letter == "P" ? " for " n " variables" : "")
    for (i = 2; i <= count + 1; i++) if (length(fields[i]) > 5 || fields[i] + 0 > 65535) return "a number is above 65,535"
    if (number == 12) return fields[2] + 0 < 1 || fields[2] + 0 > 9 ? "level " fields[2] " is not 1 to 9" : "level " fields[2] " has no vector " fields[3]
    if (number == 21) return "4,096 P lines are the most"
    for (i = 2; i <= n + 1; i++) if (fields[i] + 0 > 255) return "no term has an exponent above 255"
    return "no term of the working value has this monomial and component"
}

# which number of a line is out of range or out of sequence
function range(text,    fields, before, i, count, better) {
    split(text, fields, ",")
    if (number == 2) return "p is " fields[2] "; 65,521 is the largest prime that is taken"
    if (number == 3) return n < 1 || n > 8 ? "n is " n : code < 1 || code > 3 ? "the order code is " code : "s is " s
    if (number == 4) {
        if (fields[3] + 0 == 0) return "the coefficient is 0"
        if (fields[3] + 0 >= p + 0) return "the coefficient " fields[3] " is not below p = " p
        if (fields[4] + 0 < 1 || fields[4] + 0 > s + 0) return "component " fields[4] " is not 1 to " s
        return "an exponent is above 255"
    }
    if (number == 18) {
        for (i = 2; i in fields; i++) if (fields[i] + 0 > 255) return "component " i - 1 " has degree " fields[i]
        return ""
    }
    if (number == 24) {
        for (i = 2; i in fields; i++) if (fields[i] + 0 > 15) return "the " (i % 2 ? "second" : "first") " weight of x" int(i / 2) " is " fields[i]
        return ""
    }
    split(line[place - 1], before, ",")
    if (number == 5) return fields[2] + 0 > 64 ? "64 elements are the most" : "element " fields[2] " after " (place == first_t ? "none" : "element " before[2])
    if (number == 6) {
        for (i = 1; i <= 3; i++) if (compare(i, fields, before) < 0) better = better (better == "" ? "" : " or ") i
        if (better == "") return "line " place - 1 " has the same monomial: add the two up"
        return "it is above line " place - 1 ", " shown(line[place - 1]) "; it would be below it by order code " better ", the first line says " code
    }
    if (number == 7) {
        for (i = first_t; i < place; i++) count++
        return "there are " count + 0 " T lines"
    }
    return ""
}

# terms of T lines by an order code: negative if a is below b
function compare(code, a, b,    x, degree) {
    for (x = 5; x <= n + 4; x++) degree += a[x] - b[x]
    if (code > 1 && degree != 0) return degree
    if (code < 3) { for (x = 5; x <= n + 4; x++) if (a[x] != b[x]) return a[x] - b[x] }
    else for (x = n + 4; x > 4; x--) if (a[x] != b[x]) return b[x] - a[x]
    return a[4] - b[4]
}

# Frame term PLACE, the two elements that it comes from, and the value. For each i the frame has the minimal generators of (LM f_1 .. LM f_(i-1)) : LM f_i,
# numbered by ascending lexicographic monomial.
function not_a_basis(    t, f, elements, e, i, j, k, x, m, found, count, first, text) {
    for (t = first_t; t < lines; t++) {
        split(line[t], f, ",")
        if (f[2] != elements) {
            elements = f[2]
            for (x = 4; x <= n + 4; x++) e[elements, x] = f[x]
        }
    }
    for (i = 2; i <= elements && count < place; i++) {
        found = 0
        for (j = 1; j < i; j++) {
            if (e[j, 4] != e[i, 4]) continue
            m = ""
            for (x = 5; x <= n + 4; x++) m = m sprintf("%03d,", e[j, x] > e[i, x] ? e[j, x] - e[i, x] : 0)
            # equal ones come from the lowest element
            for (k = 1; k <= found; k++) if (divides(quotient[k], m)) break
            if (k <= found) continue
            # kept ones that this one divides go; the others stay ascending
            for (k = t = 1; k <= found; k++) if (!divides(m, quotient[k])) { quotient[t] = quotient[k]; from[t] = from[k]; t++ }
            for (found = t; t > 1 && quotient[t - 1] > m; t--) { quotient[t] = quotient[t - 1]; from[t] = from[t - 1] }
            quotient[t] = m; from[t] = j
        }
        if (count + found >= place) {
            k = place - count
            print "frame term " place " is " product(1, quotient[k], "e_" i) ": it comes from elements " from[k] " and " i
        }
        count += found
    }
    for (t = 1; t <= terms && t <= 12; t++) {
        k = split(value[t], f, ",")
        m = ""
        for (x = 4; x <= k; x++) m = m f[x] ","
        first = 2 * f[2] > p && p > 2 ? p - f[2] : f[2]
        text = text (first == f[2] ? (t > 1 ? " + " : "") : (t > 1 ? " - " : "-")) product(first, m, s > 1 ? "e_" f[3] : "")
    }
    if (terms > 12) text = text " .. (" terms " terms, all in the W lines)"
    print "the value, modulo " p ": " text
}

# Element PLACE's first term, and the first one after it that has another degree or, after 25, another bidegree.
function two_degrees(    t, f, first, leading, component) {
    for (t = first_t; t < lines; t++) {
        split(line[t], f, ",")
        if (f[2] + 0 != place) continue
        if (!first) { first = t; leading = degree(f); component = f[4] }
        else if (degree(f) != leading) {
            print name ":" first ": " shown(line[first]) "   <- " leading
            print name ":" t ": " shown(line[t]) "   <- " degree(f) \
                (f[4] != component && !d_line ? "; without a D line both components have degree 0" : "") \
                (number == 25 && !g_line ? "; without a G line every variable has the weights 1 and 0" : "")
            return
        }
    }
}

# of a T line, in words: its exponents and its component's degree; after 25 both sums by the weights
function degree(f,    d, g, x, total, second) {
    if (d_line) { split(line[d_line], d, ","); total = d[f[4] + 1] }
    if (g_line && number == 25) split(line[g_line], g, ",")
    else for (x = 1; x <= n; x++) { g[2 * x] = 1; g[2 * x + 1] = 0 }
    for (x = 1; x <= n; x++) { total += g[2 * x] * f[x + 4]; second += g[2 * x + 1] * f[x + 4] }
    return number == 25 ? "bidegree (" total + 0 ", " second + 0 ")" : "degree " total + 0
}

# two monomials as their exponents, each with a comma behind it
function divides(a, b,    u, v, x, k) {
    k = split(a, u, ","); split(b, v, ",")
    for (x = 1; x < k; x++) if (u[x] + 0 > v[x] + 0) return 0
    return 1
}

function product(c, exponents, behind,    u, x, k, text) {
    if (c != 1) text = c
    k = split(exponents, u, ",")
    for (x = 1; x < k; x++) if (u[x] + 0 > 0) text = text (text == "" ? "" : "*") "x" x (u[x] + 0 > 1 ? "^" u[x] + 0 : "")
    if (behind != "") text = text (text == "" ? "" : "*") behind
    return text == "" ? "1" : text
}
