# SPDX-License-Identifier: MIT OR Apache-2.0
# A man page of section 3 from include/tagetessash.h: -v page=tagetessash_read that of a call, the comment before it; -v page=tagetessash that of the library,
# the comment on top with the versions, the lengths and the numbers. What stands indented in a comment stands so on the page.
function roff(text) {
    gsub(/\\/, "\\e", text)
    gsub(/-/, "\\-", text)
    # an apostrophe or a dot in front would be a request
    return text ~ /^['.]/ ? "\\&" text : text
}
# The lines of a comment as text; examples where they are indented.
function print_comment(lines, count, i, line, in_example) {
    for (i = 1; i <= count; i++) {
        line = lines[i]
        if (line ~ /^    /) {
            if (!in_example) print ".PP\n.nf\n.RS"
            in_example = 1
            sub(/^    /, "", line)
            print roff(line)
            continue
        }
        if (in_example) print ".RE\n.fi\n.PP"
        in_example = 0
        print line == "" ? ".PP" : roff(line)
    }
    if (in_example) print ".RE\n.fi"
}
# A prototype in lines of a page's width, in bold.
function declared(text, n, words, i, line, out) {
    gsub(/\n */, " ", text)
    n = split(text, words, ", ")
    out = ""
    line = ".B " words[1]
    for (i = 2; i <= n; i++)
        if (length(line) + length(words[i]) > 72) {
            out = out line ",\n"
            line = ".B \\ \\ \\ \\ " words[i]
        } else line = line ", " words[i]
    return out line
}
function head(name, what) {
    printf ".TH %s 3 \"%s\" \"Tagetessash %s\" \"Library Functions\"\n.SH NAME\n%s \\- %s\n", toupper(name), date, version, name, what
    print ".SH LIBRARY\nTagetessash (libtagetessash, \\-ltagetessash)\n.SH SYNOPSIS\n.nf\n.B #include <tagetessash.h>"
}
# a comment
/^\/\*/ && !in_comment { in_comment = 1; count = 0 }
in_comment {
    line = $0
    ended = sub(/ ?\*\/$/, "", line)
    sub(/^\/\* ?/, "", line)
    sub(/^ \* ?/, "", line)
    if (!(ended && line == "")) comment[++count] = line
    if (ended) {
        in_comment = 0
        if (!top && count > 1) {
            top = count
            for (i = 1; i <= count; i++) on_top[i] = comment[i]
        }
    }
    next
}
# a length, a limit, a place; what stands behind it
/^#define TAGETESSASH_[A-Z_]+ [0-9]+/ {
    defined[++lengths] = $2
    values[lengths] = $3
    if ($2 == "TAGETESSASH_VERSION" || $2 == "TAGETESSASH_MINOR") {
        versions[$2] = count
        for (i = 1; i <= count; i++) said[$2, i] = comment[i]
    }
    next
}
# a number and its meaning
/^    TAGETESSASH_[A-Z_]+ = [0-9]+/ {
    line = $0
    number[++numbers] = $1 " = " $3 + 0
    meaning[numbers] = match(line, /\/\* .*/) ? substr(line, RSTART + 3) : ""
    # goes on in the next line
    while (meaning[numbers] != "" && meaning[numbers] !~ /\*\/$/ && (getline line) > 0) {
        sub(/^ *\* */, "", line)
        meaning[numbers] = meaning[numbers] " " line
    }
    sub(/ ?\*\/$/, "", meaning[numbers])
    next
}
/^uint16_t tagetessash_[a-z]+\(/ {
    name = $2
    sub(/\(.*/, "", name)
    prototype = $0
    while (prototype !~ /;$/ && (getline line) > 0) prototype = prototype "\n" line
    names = names (names == "" ? "" : ", ") name "(3)"
    prototypes = prototypes declared(prototype) "\n"
    if (name != page) next
    found = 1
    what = comment[1]
    sub(/[.,;:(].*/, "", what)
    head(name, tolower(substr(what, 1, 1)) substr(what, 2))
    print ".PP\n" declared(prototype) "\n.fi\n.SH DESCRIPTION"
    print_comment(comment, count)
    print ".SH RETURN VALUE"
    print name ~ /_(version|minor)$/ ? "The number." : "0, or the number of a refusal, which\n.BR tagetessash (3)\nlists."
}
END {
    if (page == "tagetessash") {
        found = 1
        head("tagetessash", "syzygies of Groebner bases over a prime field, level upon level")
        print ".PP\n" prototypes ".fi\n.SH DESCRIPTION"
        print_comment(on_top, top)
        print ".SH VERSIONS"
        for (i = 1; i <= versions["TAGETESSASH_VERSION"]; i++) part[i] = said["TAGETESSASH_VERSION", i]
        print_comment(part, versions["TAGETESSASH_VERSION"])
        print ".PP\n.B TAGETESSASH_MINOR:"
        for (i = 1; i <= versions["TAGETESSASH_MINOR"]; i++) part[i] = said["TAGETESSASH_MINOR", i]
        print_comment(part, versions["TAGETESSASH_MINOR"])
        print ".SH NUMBERS\nWhat a call returns, or what stands in an X line."
        for (i = 1; i <= numbers; i++)
            if (meaning[i] != "") printf ".TP\n.B %s\n%s\n", number[i], roff(meaning[i])
        print ".SH LENGTHS AND PLACES\nThe header says more of each.\n.PP\n.nf"
        for (i = 1; i <= lengths; i++) printf "%s %s\n", defined[i], values[i]
        print ".fi"
    }
    if (!found) {
        print "include/tagetessash.h has no call " page > "/dev/stderr"
        exit 1
    }
    print ".SH SEE ALSO"
    if (page == "tagetessash") print roff(names) ", tagetessash(1), tagetessash(5)"
    else print ".BR tagetessash (3),\n.BR tagetessash (1),\n.BR tagetessash (5)"
    print ".SH AUTHORS\nThe Tagetessash authors.\n.SH COPYRIGHT\nMIT OR Apache\\-2.0, as you choose."
}
